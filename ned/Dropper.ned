// Loses the messages that its pattern marks by `x`: the n-th character is for the n-th message.
// With `repeat` the pattern begins anew behind its end, so that "----x" loses each fifth.
simple Dropper
{
    parameters:
        string pattern = default("");
        bool repeat = default(false);
        @display("i=block/filter");
        @signal[dropped](type=long);            // which one was lost, from 1 on
        @statistic[dropped](title="messages lost"; record=count,vector);
    gates:
        input in;
        output out;
}
