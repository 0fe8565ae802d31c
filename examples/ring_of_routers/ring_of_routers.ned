// Five routers in a ring. Each byte of a message's payload says through which port the next router sends it.

simple Router
{
    parameters:
        @statistic[rx](record=count,vector);
    gates:
        inout port[];
}

channel Link extends DelayChannel
{
    parameters:
        delay = default(10ms);
}

network Ring
{
    submodules:
        node[5]: Router;
    connections:
        for i=0..4
        {
            node[i].port++ <--> Link <--> node[(i+1) % 5].port++;
        }
}
