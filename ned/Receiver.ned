// Takes numbered frames in their order, and answers each that comes with the number that it waits
// for. At the end of a run it records the scalars `receivedBits`, and `goodput` in bits per second.
simple Receiver
{
    parameters:
        int ackBits = default(64);              // the length of an acknowledgement
        @display("i=block/sink");
        @signal[received](type=long);           // the number of a frame that was the next one
        @signal[delay](type=long);              // how long that frame was under way, in ps
        @signal[discarded](type=long);          // the number of one that was not
        @statistic[received](title="frames received"; record=count,vector);
        @statistic[delay](title="end-to-end delay"; unit=ps; record=count,sum,min,max,vector);
        @statistic[discarded](title="frames discarded"; record=count,vector);
    gates:
        input in;
        output out;
}
