// Puts messages on a line, each as soon as the one before is off it. It stands before a channel of
// the same `datarate`, which is then never found busy.
simple L2Queue
{
    parameters:
        int capacity = default(10);             // how many wait, but for the one on the line
        double datarate @unit(bps);             // of the channel behind `out`; 0: no time at all
        @display("i=block/queue");
        @signal[busy](type=long);               // 1 when the line is taken, 0 when it is free again
        @signal[length](type=long);             // how many wait, after a change
        @signal[dropped](type=long);            // 1 for each message that finds no room
        @statistic[busy](title="line is busy"; record=last,vector);
        @statistic[length](title="messages that wait"; record=max,vector);
        @statistic[dropped](title="messages dropped"; record=count);
    gates:
        input in;
        output out;
}
