// Messages wait in a queue for its service, and travel over a line to a sink.

simple Source
{
    parameters:
        int count;
        int bits;
        double start @unit(s) = default(0s);
        double gap @unit(s) = default(1s);
    gates:
        output out;
}

simple Queue
{
    parameters:
        int capacity = default(10);
        double service @unit(s) = default(1s);
        @statistic[length](record=max,vector?);
        @statistic[dropped](record=count);
    gates:
        input in;
        output out;
}

simple Sink
{
    parameters:
        @statistic[rx](record=count,vector);
    gates:
        input in;
}

// carries one message at a time
channel Line extends DatarateChannel
{
    parameters:
        delay = default(10ms);
        datarate = default(10kbps);
}

network QueueingLine
{
    submodules:
        source: Source;
        queue: Queue;
        sink: Sink;
    connections:
        source.out --> queue.in;
        queue.out --> Line --> sink.in;
}
