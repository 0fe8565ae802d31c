// Takes messages and measures them: their lengths, how long each was under way, and how far apart
// they come. Times are whole picoseconds.
simple Meter
{
    parameters:
        @display("i=block/sink");
        @signal[bits](type=long);               // the length of a message
        @signal[delay](type=long);              // from when a frame was sent until it came, in ps
        @signal[interval](type=long);           // since the message before, in ps
        @statistic[bits](title="bits received"; unit=b; record=count,sum,vector);
        @statistic[delay](title="end-to-end delay"; unit=ps; record=count,sum,min,max,vector);
        @statistic[interval](title="time between messages"; unit=ps; record=min,max,vector);
    gates:
        input in;
}
