// Serves messages one after another, each for `service`, and then sends it on.
simple Queue
{
    parameters:
        int capacity = default(10);             // how many wait, but for the one that is served
        double service @unit(s) = default(1s);
        @display("i=block/queue");
        @signal[length](type=long);             // how many are held, after a change
        @signal[dropped](type=long);            // 1 for each message that finds no room
        @statistic[length](title="messages held"; record=max,vector);
        @statistic[dropped](title="messages dropped"; record=count);
    gates:
        input in;
        output out;
}
