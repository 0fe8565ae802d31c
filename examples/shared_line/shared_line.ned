// Two senders on the left and their receivers on the right of one line.

channel Line extends DatarateChannel
{
    parameters:
        delay = default(10ms);
        datarate = default(100kbps);
}

network SharedLine
{
    submodules:
        a: Sender
        {
            address = default(1);
            destAddress = default(3);
        }
        b: Sender
        {
            address = default(2);
            destAddress = default(4);
        }
        left: Switch
        {
            table = default("-1200");
            gates:
                port[3];
        }
        line: L2Queue
        {
            capacity = default(100);
            datarate = default(100kbps);
        }
        right: Switch
        {
            table = default("-0012");
            gates:
                port[3];
        }
        receiverA: Receiver;
        receiverB: Receiver;
        back: L2Queue
        {
            capacity = default(100);
            datarate = default(100kbps);
        }
    connections:
        a.out --> left.port$i[1];
        b.out --> left.port$i[2];
        left.port$o[0] --> line.in;
        line.out --> Line --> right.port$i[0];
        right.port$o[1] --> receiverA.in;
        right.port$o[2] --> receiverB.in;

        receiverA.out --> right.port$i[1];
        receiverB.out --> right.port$i[2];
        right.port$o[0] --> back.in;
        back.out --> Line --> left.port$i[0];
        left.port$o[1] --> a.in;
        left.port$o[2] --> b.in;
}
