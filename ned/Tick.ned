// Fires `count` times, `gap` apart, and emits each time how often it has. When it fires for the
// `late`-th time it emits `extra` too.
simple Tick
{
    parameters:
        int count;
        double gap @unit(s) = default(1s);
        int priority = default(0);              // of its timer: the smaller goes first
        int late = default(0);                  // 0: never
        int extra = default(0);
        @signal[fired](type=long);              // how often it has fired
        @signal[extra](type=long);
        @statistic[fired](title="times fired"; record=count,vector);
        @statistic[extra](record=last);
}
