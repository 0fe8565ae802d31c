// Sends `count` messages of `bits` bits without a payload, `gap` apart from `start` on.
simple Source
{
    parameters:
        int count;                              // how many messages
        int bits;                               // the length of each
        double start @unit(s) = default(0s);    // when the first one is sent
        double gap @unit(s) = default(1s);      // from one message to the next
        @display("i=block/source");
    gates:
        output out;
}
