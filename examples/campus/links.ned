channel Cable extends DelayChannel
{
    parameters:
        delay = 1ms;
}

channel Riser extends DelayChannel
{
    parameters:
        delay = 2ms;
}

channel Trunk extends DelayChannel
{
    parameters:
        delay = 10ms;
}
