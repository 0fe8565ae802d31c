// A campus of buildings, buildings of floors, and floors of hosts. Each level has a router, of which the last port leads up.

module Floor
{
    parameters:
        int hosts = default(2);
        @statistic[heard](source=rx;record=count);
    gates:
        inout up;
    submodules:
        switch: Router;
        host[hosts]: <default("Listener")> like IHost;
    connections:
        for h=0..hosts-1
        {
            switch.port++ <--> Cable <--> host[h].port;
        }
        switch.port++ <--> up;
}

module Building
{
    parameters:
        int floors = default(2);
        @statistic[heard](source=rx;record=count,sum);
    gates:
        inout up;
    submodules:
        router: Router;
        floor[floors]: Floor;
    connections:
        for f=0..floors-1
        {
            router.port++ <--> Riser <--> floor[f].up;
        }
        router.port++ <--> up;
}

network Campus
{
    parameters:
        int buildings = default(2);
        @statistic[heard](source=rx;record=count,sum,max,vector);
    submodules:
        core: Router;
        building[buildings]: Building;
    connections:
        for b=0..buildings-1
        {
            core.port++ <--> Trunk <--> building[b].up;
        }
}
