// Sends `count` frames of `bits` bits through its gate, `gap` apart from `start` on. Each frame has
// two addresses, the time when it was sent, and its number, from 0 on.
simple Generator
{
    parameters:
        int count;                              // how many frames
        int bits;                               // the length of each
        double start @unit(s) = default(0s);    // when the first one is sent
        double gap @unit(s) = default(1s);      // from one frame to the next
        int address = default(0);               // its own, 0 to 65535
        int destAddress = default(0);           // where frames go, 0 to 65535
        string route = default("");             // ports for Routers on the way: 0 to 9, then a to z
        @display("i=block/source");
        @signal[sent](type=long);               // the number of a frame, when it is sent
        @statistic[sent](title="frames sent"; record=count,vector);
    gates:
        output out;
}
