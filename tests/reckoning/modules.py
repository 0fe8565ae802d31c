"""The stock modules: what each does when it is called."""
SECOND = 10**12


class Message:
    def __init__(self, kind, priority, bits, payload, gate=None):
        self.kind, self.priority, self.bits, self.payload, self.gate = kind, priority, bits, payload, gate

    def at(self, gate):
        """The message as it arrives at that gate."""
        return Message(self.kind, self.priority, self.bits, self.payload, gate)


class Outside(Message):
    """A message from outside."""

    def __init__(self, number, path, time, priority, kind, bits, payload):
        super().__init__(kind, priority, bits, payload)
        self.number, self.path, self.time = number, path, time

    def __eq__(self, other):
        return isinstance(other, Outside) and vars(self) == vars(other)

    def __lt__(self, other):
        return self.number < other.number


class Call:
    """A call of a module, with what it read: `message` is none for a timer and at the start. What is read and absent, or wrong, is kept."""

    def __init__(self, world, part, message, starts):
        self.world, self.part, self.state, self.message, self.now = world, part, part.state, message, world.now
        self.starts, self.absent, self.wrong = starts, [], []

    def read(self, name, kind="whole", suits=lambda _: True, other=0):
        """The value of a parameter; another one, that stands for it, where it is absent or wrong."""
        value = self.world.value(self.part, name)
        if value is None:
            self.absent.append("NoParameter")
        elif value[0] != kind or not suits(value[1]):
            self.wrong.append(name)
        else:
            return value[1]
        return other

    def time(self, name):
        return self.read(name, "time", lambda it: it >= 0)

    def rate(self, name):
        return self.read(name, "rate", lambda it: it >= 0)

    def priority(self):
        return self.read("priority", suits=lambda it: -(2**15) <= it < 2**15)

    def ports(self, name):
        """The size of an inout gate; none of it where it is absent or wrong."""
        gate = self.world.ask("gate", self.part.module.site, name)
        if not gate:
            self.absent.append("NoGate")
        elif gate[0] != "inout":
            self.wrong.append(name)
        else:
            return gate[1]
        return 0

    def comes(self, gate):
        """Whether a message comes from outside, or from that gate, which is no half of another one."""
        return isinstance(self.message, Outside) or self.message is not None and self.message.gate == gate


class Tick:
    initial = staticmethod(lambda: 0)

    @staticmethod
    def handle(call):
        n = call.state
        if call.message:
            return [], n
        if not call.starts:
            n += 1
        count, gap, priority = call.read("count"), call.time("gap"), call.priority()
        actions = []
        if not call.starts:
            actions.append(("emit", "fired", n))
            if call.read("late") == n:
                actions.append(("emit", "extra", call.read("extra")))
        return actions + ([("schedule", gap, priority)] if n < count else []), n


class Source:
    initial = staticmethod(lambda: 0)

    @staticmethod
    def handle(call):
        n = call.state
        if call.message:
            return [], n
        if call.starts:
            count, start = call.read("count"), call.time("start")
            return [("schedule", start, 0)] if 0 < count else [], n
        count, bits, gap = call.read("count"), call.read("bits", suits=lambda it: it >= 0), call.time("gap")
        sent = ("send", "out", "", 0, Message(0, 0, bits, b""))
        return [sent] + ([("schedule", gap, 0)] if n + 1 < count else []), n + 1


class Queue:
    initial = staticmethod(lambda: ())

    @staticmethod
    def handle(call):
        held = call.state
        if call.starts:
            return [], held
        if call.message is None:
            front, held = held[0], held[1:]
            actions = [("send", "out", "", 0, front), ("emit", "length", len(held))]
            return actions + ([("schedule", call.time("service"), 0)] if held else []), held
        if not call.comes("in"):
            return [], held
        capacity = call.read("capacity")
        if not held:
            return [("emit", "length", 1), ("schedule", call.time("service"), 0)], (call.message,)
        if len(held) <= capacity:
            return [("emit", "length", len(held) + 1)], (*held, call.message)
        return [("emit", "dropped", 1)], held


class Sink:
    initial = staticmethod(lambda: None)

    @staticmethod
    def handle(call):
        return [("emit", "rx", call.message.bits)] if not call.starts and call.comes("in") else [], None


class Router:
    initial = staticmethod(lambda: None)

    @staticmethod
    def handle(call):
        if call.starts or not call.message:
            return [], None
        if not call.message.payload:
            return [("emit", "rx", call.message.bits)], None
        if call.message.payload[0] < call.ports("port"):
            it = call.message
            return [("send", "port", "$o", it.payload[0], Message(it.kind, it.priority, it.bits, it.payload[1:]))], None
        return [("fail", "route")], None


class Spawner:
    """Its state is how much it has done."""

    initial = staticmethod(lambda: 0)

    @staticmethod
    def handle(call):
        if call.starts:
            return [("schedule", SECOND, 0)], 0
        if call.message or call.state == 2:
            return [], call.state
        around = call.part.path.rpartition(".")[0]
        makes = ("create", around, "w", None, ("Sink", (), ()))
        if call.state == 0:
            delay = call.time("delay")
            return [makes, ("send_direct", f"{around}.w", "in", 0, Message(0, 0, 8, b""), delay, 0), ("schedule", SECOND, 0)], 1
        return [("delete", f"{around}.w", call.read("polite", "truth", other=False)), makes], 2


CLASSES = {it.__name__: it for it in (Tick, Source, Queue, Sink, Router, Spawner)}
