// Sends frames on by their destination. The table has a character for each address, from 0 on: the
// port where it is, 0 to 9, then a to z for 10 to 35. Any other, as `-`, says that it is nowhere.
simple Switch
{
    parameters:
        string table;
        @display("i=device/switch");
        @signal[forwarded](type=long);          // the port through which a frame goes on
        @signal[dropped](type=long);            // 1 for each message that goes nowhere
        @statistic[forwarded](title="frames forwarded"; record=count,vector);
        @statistic[dropped](title="frames dropped"; record=count);
    gates:
        inout port[];
}
