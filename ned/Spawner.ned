// Creates a module `w` of the type `Sink` beside itself after a second, and sends it a message of
// 8 bits; a second later it deletes that, and creates another one.
simple Spawner
{
    parameters:
        double delay @unit(s) = default(5s);    // how long the message is on its way
        bool polite = default(false);           // whether the first one is finished before it goes
        @display("i=block/source");
}
