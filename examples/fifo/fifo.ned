// Jobs come at equal gaps, wait in a queue for the one server, and leave.

simple Source
{
    parameters:
        double sendIaTime @unit(s);  // from one job to the next
        int msgLength @unit(b);
        int count = default(1000000);
        int bits = msgLength / 1b;
        double start @unit(s) = default(0s);
        double gap @unit(s) = sendIaTime;
    gates:
        output out;
}

simple Fifo
{
    parameters:
        @class(Queue);
        @statistic[qlen](source=length;record=max,vector);
        int bitsPerSec @unit(bps);   // of the server
        int capacity = default(1000000);
        double service @unit(s);
    gates:
        input in;
        output out;
}

simple Sink
{
    parameters:
        @statistic[rx](record=count,vector);
    gates:
        input in;
}

network FifoNet
{
    submodules:
        gen: Source;
        fifo: Fifo
        {
            service = gen.msgLength / 1b * 1s / (this.bitsPerSec / 1bps);
        }
        sink: Sink;
    connections:
        gen.out --> fifo.in;
        fifo.out --> sink.in;
}
