// Calls come in on the lines of a centre while it runs. Each is a module of its own, and it goes
// when the caller hangs up.

module Call
{
    parameters:
        double talk @unit(s) = default(500ms);  // how long the agent speaks
    gates:
        input in;
    submodules:
        agent: Queue
        {
            service = talk;
        }
        caller: Sink;
    connections:
        in --> agent.in;
        agent.out --> caller.in;
}

// Its switchboard takes two calls, one after the other.
module Line
{
    types:
        // what a Spawner creates on a line
        module Sink extends Call
        {
        }
    submodules:
        switchboard: Spawner;
}

network CallCentre
{
    parameters:
        int lines = default(3);
        @statistic[answered](source=rx; record=count,vector);
    submodules:
        line[lines]: Line;
}
