// What stands at the ports of a switch.

simple Source
{
    parameters:
        int count;
        int bits;
        double start @unit(s) = default(0s);
        double gap @unit(s) = default(1s);
    gates:
        output out;
}

simple Sink
{
    parameters:
        @statistic[rx](record=count);
    gates:
        input in;
}

simple Router
{
    parameters:
        @statistic[rx](record=count);
    gates:
        inout port[];
}

moduleinterface IHost
{
    gates:
        inout port;
}

module Listener like IHost
{
    gates:
        inout port;
    submodules:
        sink: Sink;
    connections allowunconnected:
        port$i --> sink.in;
}

module Talker extends Listener
{
    submodules:
        source: Source;
    connections:
        source.out --> port$o;
}
