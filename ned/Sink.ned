// Takes messages, and emits the length of each.
simple Sink
{
    parameters:
        @display("i=block/sink");
        @signal[rx](type=long);                 // the length of a message in bits
        @statistic[rx](title="bits received"; unit=b; record=count,sum,vector);
    gates:
        input in;
}
