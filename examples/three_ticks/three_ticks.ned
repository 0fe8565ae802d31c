simple Tick
{
    parameters:
        int count;
        double gap @unit(s) = default(1s);
        int priority = default(0);
        int late = default(0);
        int extra = default(0);
        @statistic[fired](record=count,max,vector);
        @statistic[extra](record=last);
}

network N
{
    submodules:
        t: Tick;
}
