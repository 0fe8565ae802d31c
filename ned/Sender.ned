// Sends numbered frames and, if `timeout` passes, those again that are not acknowledged: go back N,
// or stop and wait with a window of 1. It waits for no line, so an L2Queue with room for a window
// stands behind it. Times that are measured are whole picoseconds.
simple Sender
{
    parameters:
        int count;                              // how many frames
        int bits;                               // the length of each
        int window = default(1);                // how many are sent ahead of the acknowledgement
        double timeout @unit(s) = default(1s);
        double start @unit(s) = default(0s);
        int address = default(0);               // its own, 0 to 65535
        int destAddress = default(0);           // that of the Receiver, 0 to 65535
        @display("i=block/source");
        @signal[sent](type=long);               // the number of a frame that is sent first
        @signal[resent](type=long);             // the number of a frame that is sent again
        @signal[acked](type=long);              // how many more are acknowledged
        @signal[rtt](type=long);                // from a frame to its acknowledgement, in ps
        @statistic[sent](title="frames sent"; record=count,vector);
        @statistic[resent](title="frames sent again"; record=count,vector);
        @statistic[acked](title="frames acknowledged"; record=sum,vector);
        @statistic[rtt](title="round trip"; unit=ps; record=min,max,vector);
    gates:
        input in;
        output out;
}
