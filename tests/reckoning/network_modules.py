"""The modules that networks and protocols are built of: what each does when it is called, by what its description says."""
from modules import Message

LONGEST = 2**63 - 1
SHORT = range(2**16)
DATA, ACKNOWLEDGEMENT, TOKEN = 0, 1, 2


class Frame:
    """What stands at the front of a payload: destination, source, time of sending, number, each with its highest byte first."""

    def __init__(self, destination, source, stamp, number):
        self.destination, self.source, self.stamp, self.number = destination, source, stamp, number

    @staticmethod
    def of(payload):
        """The frame of a payload; none where that is too short for one."""
        cuts = [int.from_bytes(payload[begin:end], "big") for begin, end in ((0, 2), (2, 4), (4, 12), (12, 20))]
        return Frame(*cuts) if len(payload) >= 20 else None

    def written(self):
        fields = ((self.destination, 2), (self.source, 2), (self.stamp, 8), (self.number, 8))
        return b"".join(it.to_bytes(size, "big") for it, size in fields)

    def since(self, signal, now):
        """Emits how long ago it was sent, unless that is later than now."""
        return [("emit", signal, now - self.stamp)] if self.stamp <= now else []


def port_of(character):
    """The port that a byte of a text names; none where it names none."""
    at = b"0123456789abcdefghijklmnopqrstuvwxyz".find(character)
    return None if at < 0 else at


def sent(message, gate="out"):
    return ("send", gate, "", 0, Message(message.kind, message.priority, message.bits, message.payload))


def size(call, name):
    return call.read(name, suits=lambda it: it >= 0)


def short(call, name):
    return call.read(name, suits=SHORT.__contains__)


class Generator:
    initial = staticmethod(lambda: 0)

    @staticmethod
    def handle(call):
        n = call.state
        if call.message:
            return [], n
        if call.starts:
            count, start = call.read("count"), call.time("start")
            return [("schedule", start, 0)] if 0 < count else [], n
        count, bits, gap = call.read("count"), size(call, "bits"), call.time("gap")
        address, destination, route = short(call, "address"), short(call, "destAddress"), call.read("route", "text", other=b"")
        ports = [port_of(route[at : at + 1]) for at in range(len(route))]
        payload = bytes(255 if it is None else it for it in ports) + Frame(destination, address, call.now, n).written()
        actions = [("emit", "sent", n), sent(Message(DATA, 0, bits, payload))]
        return actions + ([("schedule", gap, 0)] if n + 1 < count else []), n + 1


class Meter:
    """Its state is the time of the last message, if there was one."""

    initial = staticmethod(lambda: None)

    @staticmethod
    def handle(call):
        if call.starts or not call.comes("in"):
            return [], call.state
        if call.message.bits > LONGEST:
            return [("fail", "bits")], call.state
        frame = Frame.of(call.message.payload)
        actions = [("emit", "bits", call.message.bits)] + (frame.since("delay", call.now) if frame else [])
        return actions + ([] if call.state is None else [("emit", "interval", call.now - call.state)]), call.now


class L2Queue:
    """Its state is the message on the line, and those that wait."""

    initial = staticmethod(lambda: ())

    @staticmethod
    def handle(call):
        held = call.state
        if call.starts:
            return [], held
        if call.message is None:
            held = held[1:]
            if not held:
                return [("emit", "busy", 0)], held
            return [*L2Queue.departs(held[0], call.rate("datarate")), ("emit", "length", len(held) - 1)], held
        if not call.comes("in"):
            return [], held
        capacity = call.read("capacity")
        if not held:
            return [("emit", "busy", 1), *L2Queue.departs(call.message, call.rate("datarate"))], (call.message,)
        if len(held) <= capacity:
            return [("emit", "length", len(held))], (*held, call.message)
        return [("emit", "dropped", 1)], held

    @staticmethod
    def departs(message, rate):
        time = -(-message.bits * 10**12 // rate) if rate else 0
        return [sent(message), ("schedule", min(time, LONGEST), 0)]


class Switch:
    initial = staticmethod(lambda: None)

    @staticmethod
    def handle(call):
        if call.starts or not call.message:
            return [], None
        frame = Frame.of(call.message.payload)
        if not frame:
            return [("emit", "dropped", 1)], None
        table, ports = call.read("table", "text", other=b""), call.ports("port")
        port = port_of(table[frame.destination : frame.destination + 1]) if frame.destination < len(table) else None
        if port is None or port >= ports:
            return [("emit", "dropped", 1)], None
        it = call.message
        return [("emit", "forwarded", port), ("send", "port", "$o", port, Message(it.kind, it.priority, it.bits, it.payload))], None


class Dropper:
    """Its state is how many messages came."""

    initial = staticmethod(lambda: 0)

    @staticmethod
    def handle(call):
        n = call.state
        if call.starts or not call.comes("in"):
            return [], n
        pattern, repeats = call.read("pattern", "text", other=b""), call.read("repeat", "truth", other=False)
        at = n % len(pattern) if repeats and pattern else n
        is_lost = pattern[at : at + 1] == b"x"
        return [("emit", "dropped", n + 1) if is_lost else sent(call.message)], n + 1


class TokenStation:
    """Its state is the frames that wait for the token."""

    initial = staticmethod(lambda: ())

    @staticmethod
    def handle(call):
        held = call.state
        if call.starts:
            first, bits = call.read("first", "truth", other=False), size(call, "tokenBits")
            return [TokenStation.token(bits)] if first else [], held
        if call.message is None:
            return [], held
        if call.comes("in"):
            if len(held) < call.read("capacity"):
                return [("emit", "length", len(held) + 1)], (*held, call.message)
            return [("emit", "dropped", 1)], held
        if not call.comes("ringIn"):
            return [], held
        if call.message.kind == TOKEN:
            bits = size(call, "tokenBits")
            frames = [sent(held[0], "ringOut"), ("emit", "length", len(held) - 1)] if held else []
            return [*frames, TokenStation.token(bits)], held[1:]
        address, frame = short(call, "address"), Frame.of(call.message.payload)
        if not frame:
            return [("emit", "dropped", 1)], held
        if frame.destination == address:
            return [sent(call.message)], held
        return [("emit", "returned", 1) if frame.source == address else sent(call.message, "ringOut")], held

    @staticmethod
    def token(bits):
        return sent(Message(TOKEN, 0, bits, b""), "ringOut")


class Sender:
    """Its state is how many frames are acknowledged, and how many were sent at least once."""

    initial = staticmethod(lambda: (0, 0))

    @staticmethod
    def handle(call):
        base, next = call.state
        if call.starts:
            count, start = size(call, "count"), call.time("start")
            return [("schedule", start, 0)] if 0 < count else [], (base, next)
        frame = Frame.of(call.message.payload) if call.message else None
        if call.message and not (call.comes("in") and call.message.kind == ACKNOWLEDGEMENT and frame and base < frame.number <= next):
            return [], (base, next)
        count, bits, window, timeout = size(call, "count"), size(call, "bits"), short(call, "window"), call.time("timeout")
        address, destination = short(call, "address"), short(call, "destAddress")

        def sends(signal, begin, end):
            frames = [(it, Frame(destination, address, call.now, it).written()) for it in range(begin, end)]
            return [action for it, payload in frames for action in (("emit", signal, it), sent(Message(DATA, 0, bits, payload)))]

        if frame:
            actions = [("emit", "acked", frame.number - base), *frame.since("rtt", call.now), ("cancel",)]
            base = frame.number
        else:
            actions = sends("resent", base, next)
        end = max(min(base + window, count), next)
        actions += sends("sent", next, end)
        return actions + ([("schedule", timeout, 0)] if base < end else []), (base, end)


class Receiver:
    """Its state is the number that it waits for, and the bits that it took."""

    initial = staticmethod(lambda: (0, 0))

    @staticmethod
    def handle(call):
        wanted, taken = call.state
        frame = Frame.of(call.message.payload) if call.message else None
        if call.starts or not frame or not call.comes("in") or call.message.kind != DATA:
            return [], call.state
        bits = size(call, "ackBits")
        actions = [("emit", "discarded", min(frame.number, LONGEST))]
        if frame.number == wanted:
            actions = [("emit", "received", wanted), *frame.since("delay", call.now)]
            wanted, taken = wanted + 1, min(taken + call.message.bits, LONGEST)
        answer = Frame(frame.source, frame.destination, frame.stamp, wanted)
        return [*actions, sent(Message(ACKNOWLEDGEMENT, 0, bits, answer.written()))], (wanted, taken)

    @staticmethod
    def finish(state, now):
        goodput = min(state[1] * 10**12 // now, LONGEST) if now else 0
        return [("record", "receivedBits", state[1]), ("record", "goodput", goodput)]


CLASSES = {it.__name__: it for it in (Generator, Meter, L2Queue, Switch, Dropper, TokenStation, Sender, Receiver)}
