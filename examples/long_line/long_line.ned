// A sender and a receiver far from each other, with a fast line in each direction.

channel Line extends DatarateChannel
{
    parameters:
        delay = default(240ms);
        datarate = default(1Mbps);
}

network LongLine
{
    submodules:
        sender: Sender;
        queue: L2Queue
        {
            capacity = default(1000);
            datarate = default(1Mbps);
        }
        receiver: Receiver;
        back: L2Queue
        {
            capacity = default(1000);
            datarate = default(1Mbps);
        }
    connections:
        sender.out --> queue.in;
        queue.out --> Line --> receiver.in;
        receiver.out --> back.in;
        back.out --> Line
        {
            delay = 245ms;
        } --> sender.in;
}
