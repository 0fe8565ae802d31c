// A station of a token ring. A frame waits until the token comes; then one frame goes out, and the
// token behind it. What is for this address is taken off the ring. An L2Queue stands behind
// `ringOut`, since a frame and the token are sent at one time.
simple TokenStation
{
    parameters:
        int address = default(0);               // 0 to 65535
        int capacity = default(10);             // how many frames wait
        int tokenBits = default(24);            // the length of the token
        bool first = default(false);            // whether it sends the first token
        @display("i=block/mac");
        @signal[length](type=long);             // how many frames wait, after a change
        @signal[dropped](type=long);            // 1 for each message that is lost here
        @signal[returned](type=long);           // 1 for each own frame that nobody took
        @statistic[length](title="frames that wait"; record=max,vector);
        @statistic[dropped](title="frames dropped"; record=count);
        @statistic[returned](title="frames that came round"; record=count);
    gates:
        input in;
        output out;
        input ringIn;
        output ringOut;
}
