// Leaves around a hub, each a compound module. What a leaf sends ends at the hub; what comes to the hub from outside goes to the leaf that its payload names.

simple Source
{
    parameters:
        int count;
        int bits;
        double start @unit(s) = default(0s);
        double gap @unit(s) = default(1s);
    gates:
        output out;
}

simple Sink
{
    parameters:
        @statistic[rx](record=count,vector);
    gates:
        input in;
}

simple Router
{
    parameters:
        @statistic[rx](record=count,vector);
    gates:
        inout port[];
}

channel Spoke extends DelayChannel
{
    parameters:
        delay = default(1ms);
}

module Leaf
{
    parameters:
        bool talks = default(true);
    gates:
        inout port;
    submodules:
        source: Source if talks
        {
            bits = 100 * (parentIndex() + 1);
            start = 10ms * parentIndex();
        }
        sink: Sink;
    connections allowunconnected:
        source.out --> port$o if talks;
        port$i --> sink.in;
}

network Star
{
    parameters:
        int leaves;
    submodules:
        hub: Router;
        leaf[leaves]: Leaf;
    connections:
        for i=0..leaves-1
        {
            leaf[i].port <--> Spoke <--> hub.port++;
        }
}
