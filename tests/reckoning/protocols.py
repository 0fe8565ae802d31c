"""Networks by chance of the modules that speak protocols: transfers, switched hosts, token rings, and rows of what sends, holds, loses and measures."""
RATES = ["1kbps", "8bps", "8bps", "7bps", "3bps", "0bps"]
DELAYS = ["0s", "250ms", "1s"]
PATTERNS = ['""', '"x"', '"-x"', '"--x-"', '"----x"', '"x?-"']
TABLES = ['"012"', '"10"', '"0-1"', '"21z"', '""', '"0011"', '"0a2"']
ROUTES = ['""', '"0"', '"0"', '"00"', '"01"', '"0?"', '"z"', '"?"', '"?0"']
VALUES = {
    "window": ["0", "1", "2", "3", "8", "600", "65536"],
    "timeout": ["0s", "250ms", "1s", "2s", "5s", "5s", "20s"],
    "address": ["0", "1", "2", "65535", "65536", "-1"],
    "destAddress": ["0", "1", "2", "3"],
    "route": ROUTES,
    "table": TABLES,
    "pattern": PATTERNS,
    "repeat": ["true", "false"],
    "first": ["true", "false"],
    "tokenBits": ["0", "1", "8", "-1"],
    "ackBits": ["0", "1", "8"],
}
SIGNALS = ["sent", "resent", "acked", "rtt", "received", "discarded", "delay", "interval", "bits", "busy", "forwarded", "returned"]
TIMES = [0, 250 * 10**9, 10**12, 3 * 10**12, 2**64 - 1]
NUMBERS = [0, 0, 1, 1, 2, 3, 4, 2**63, 2**64 - 1]


class Protocols:
    """What a maker makes of them; the dice, the texts and the stock are the maker's."""

    def frame(self):
        """A payload in hexadecimal digits: mostly a frame, perhaps behind ports or before more bytes, or cut short."""
        numbers = ((self.dice.randrange(4), 2), (self.dice.randrange(4), 2), (self.one(*TIMES), 8), (self.one(*NUMBERS), 8))
        made = b"".join(it.to_bytes(size, "big") for it, size in numbers)
        made = bytes(self.dice.randrange(3) for _ in range(self.one(0, 0, 0, 0, 0, 0, 1, 2))) + made + bytes(self.one(0, 0, 0, 3))
        return (made[: self.dice.randrange(21)] if self.likely(1) else made).hex() or "-"

    def told(self, times):
        """A message from outside to a module that hears frames: to a Sender mostly an acknowledgement."""
        path = self.one(*self.hears)
        kind = self.one(1, 1, 1, 1, 0) if path == "N.a" else self.one(0, 0, 0, 0, 1, 2, -1)
        return f"inject {path} {self.one('0s', '0s', *times)} {self.one(-1, 0, 0, 1)} {kind} {self.one(0, 8, 8, 1000, 2**63)} {self.frame()}"

    def link(self, rate):
        """A channel of that rate, mostly, and its arrow; or nothing."""
        if self.likely(1):
            return ""
        rate = rate if self.likely(9) else self.one(*RATES)
        disabled = "disabled = true; " if not self.dice.randrange(25) else ""
        return f" {{ {disabled}delay = {self.one(*DELAYS)}; datarate = {rate}; }} -->"

    def body(self, *lines, always=""):
        """Some of these lines, as the body of a submodule, and one that is always there."""
        chosen = [it for it in lines if self.likely(6)] + [always] * bool(always)
        return f" {{ {' '.join(chosen)} }}" if chosen else ";"

    def way(self):
        """A compound module from `in` to `out`: a queue, a line of its rate, and losses at its end, of which something may be missing."""
        name = f"Way{len([it for it in self.made if it.startswith('Way')])}"
        self.made.add(name)
        self.stock("L2Queue")
        self.stock("Dropper")
        rate = self.one("r", "r", "r", self.one(*RATES))
        room = self.body(f"capacity = {self.one('default(0)', 'default(1)', '0', '2', 'few')};").removesuffix(";").replace("few", "many")
        queue = f"q: L2Queue {{ datarate = {rate};{room.strip(' {}')} }}"
        losses = "d: Dropper" + self.body(f"pattern = default({self.one(*PATTERNS)});", f"repeat = {self.one('true', 'false', 'default(true)')};")
        begin, subs, wires = "in", [], []
        if self.likely(9):
            subs.append(queue)
            wires.append("in --> q.in;")
            begin = "q.out"
        if self.likely(6):
            subs.append(losses)
            wires += [f"{begin} -->{self.link('r')} d.in;", "d.out --> out;"]
        else:
            wires.append(f"{begin} -->{self.link('r')} out;")
        text = f"module {name} {{ parameters: int many = default({self.dice.randint(0, 2)}); double r @unit(bps) = default({self.one(*RATES)});" + self.statistics()
        self.types.append(f"{text} gates: input in; output out;" + (f" submodules: {' '.join(subs)}" if subs else "") + f" connections: {' '.join(wires)} }}")
        self.paths += ["N.**.q", "N.**.d", "**.w", "N.w", "N.l[*]", "**.w.q.out.channel"]
        self.keys += ["capacity", "datarate", "pattern", "repeat", "r"]
        return name

    # ---- a transfer
    def transfer(self):
        self.stock("Sender")
        self.stock("Receiver")
        switched = self.likely(3)
        window, timeout = self.one("default(1)", "default(2)", "default(3)", "8", "few"), self.one("1s", "3s", "5s", "10s")
        sender = self.body(f"window = {window};", f"timeout = default({timeout});", always="destAddress = 1;" if switched else self.one("", "address = 1;"))
        self.subs += [f"a: Sender{sender}", f"w: {self.way()};", "b: Receiver" + self.body(f"ackBits = {self.one('default(1)', '8', 'few')};"), f"u: {self.way()};"]
        wires = ["a.out --> w.in;", "w.out --> b.in;", "b.out --> u.in;", "u.out --> a.in;"]
        if switched:
            # both are at a switch, which goes by their addresses
            self.stock("Switch")
            table = self.one('"01"', '"01"', '"01"', '"10"', '"011"')
            self.subs.append(f"e: Switch {{ table = default({table}); }}")
            wires = ["a.out --> w.in;", "w.out --> e.port$i++;", "e.port$o++ --> a.in;", "b.out --> u.in;", "u.out --> e.port$i++;", "e.port$o++ --> b.in;"]
            self.hears.append("N.e")
        elif self.likely(2):
            self.subs.pop()
            wires[2:] = [self.one("b.out --> a.in;", "b.out --> { delay = 250ms; } --> a.in;")]
        self.wires += wires
        self.hears += ["N.a", "N.a", "N.b", "N.w.q", "N.u.d"]
        self.keys += ["count", "bits", "window", "window", "timeout", "start", "ackBits", "address", "destAddress"]
        self.paths += ["N.a", "N.b", "N.w", "N.u"] * 2

    # ---- hosts round switches
    def lan(self):
        for it in ("Generator", "L2Queue", "Meter", "Switch"):
            self.stock(it)
        many, rate = self.dice.randint(1, 3), self.one(*RATES)
        self.types.append(
            f"module Host {{ parameters: int address = default(0); double r @unit(bps) = default({rate});" + self.statistics() + " gates: inout port;"
            " submodules: g: Generator" + self.body("address = parent.address;", f"destAddress = default({self.one('0', '1', '2', 'address + 1')});", f"gap = {self.one(*DELAYS)};") + " q: L2Queue { datarate = r; } m: Meter;"
            " connections: g.out --> q.in; q.out --> port$o; port$i --> m.in; }"
        )
        self.subs.append(f"h[{many}]: Host" + self.one(";", " { address = index; }", " { address = index; }"))
        self.subs.append("s: Switch" + self.body(f"table = default({self.one(*TABLES)});"))
        if self.likely(5):
            self.subs.append(f"l[{many}]: {self.way()};")
            self.wires.append(f"for i=0..{many - 1} {{ h[i].port$o -->{self.link(rate)} s.port$i++; s.port$o++ --> l[i].in; l[i].out --> h[i].port$i; }}")
        else:
            arrow = self.link(rate).replace("-->", "<-->")
            self.wires.append(f"for i=0..{many - 1} {{ h[i].port <-->{arrow} s.port++; }}")
        if self.likely(3):
            self.subs.append("z: Switch" + self.body(f"table = default({self.one(*TABLES)});"))
            self.wires.append(self.one("s.port++ <--> z.port++;", "s.port++ <--> { delay = 250ms; } <--> z.port++;", "z.port$o++ --> s.port$i++;"))
        self.hears += ["N.s", "N.s", "N.h[0].m", "N.h[0].q"]
        self.keys += ["count", "bits", "start", "gap", "address", "destAddress", "table", "table", "capacity", "datarate", "r", "route"]
        self.paths += ["N.s", "N.s", "N.h[0].g", "N.h[1..]", "N.h[*].g", "N.h[*].q", "N.z", "**.channel"]

    # ---- a ring
    def ring(self):
        for it in ("Generator", "L2Queue", "Meter", "TokenStation"):
            self.stock(it)
        many, rate = self.dice.randint(1, 3), self.one(*RATES)
        line = self.likely(9)
        self.types.append(
            f"module Station {{ parameters: int address = default(0); double r @unit(bps) = default({rate});" + self.statistics() + " gates: input ringIn; output ringOut;"
            f" submodules: g: Generator {{ address = parent.address; destAddress = default({self.one(0, 1, 2)}); }}"
            " k: TokenStation { address = parent.address; first = default(parent.address == 0);" + self.one("", f" capacity = default({self.dice.randint(0, 2)});") + " tokenBits = default(8); }"
            " m: Meter;" + (" q: L2Queue { datarate = r; }" if line else "") + " connections: g.out --> k.in; k.out --> m.in; ringIn --> k.ringIn;" + (" k.ringOut --> q.in; q.out --> ringOut; }" if line else " k.ringOut --> ringOut; }")
        )
        self.subs.append(f"t[{many}]: Station {{ address = index; }}")
        self.wires.append(f"for i=0..{many - 1} {{ t[i].ringOut -->{self.link(rate)} t[(i+1)%{many}].ringIn; }}")
        self.hears += ["N.t[0].k", f"N.t[{many - 1}].k", "N.t[0].q"]
        self.keys += ["count", "bits", "start", "gap", "destAddress", "address", "capacity", "tokenBits", "first", "datarate", "r"]
        self.paths += ["N.t[0].k", "N.t[1..].k", "N.t[*].g", "N.t[0].g", "N.t[*].q", "N.t[*]", "**.channel"]

    # ---- a row
    def row(self):
        self.stock("Generator")
        self.stock("Meter")
        begin = "g.out"
        self.subs.append("g: Generator" + self.body(f"route = default({self.one(*ROUTES)});", f"gap = {self.one(*DELAYS)};", "destAddress = default(1);"))
        for at in range(self.dice.randint(0, 3)):
            name, kind = f"x{at}", self.one("Dropper", "L2Queue", "Queue", "Way", "Router", "Router")
            if kind == "Router":
                self.stock(kind)
                self.subs.append(f"{name}: Router;")
                self.wires += [f"{begin} -->{self.link('8bps')} {name}.port$i++;"] + [f"{name}.port$o++ --> {name}.port$i++;"] * self.likely(2)
                begin = f"{name}.port$o++"
            else:
                body = {"Dropper": self.body(f"pattern = default({self.one(*PATTERNS)});", "repeat = true;"), "L2Queue": " { datarate = default(8bps); }"}.get(kind, ";")
                self.subs.append(f"{name}: {self.way() if kind == 'Way' else self.stock(kind)}{body}")
                self.wires.append(f"{begin} -->{self.link('8bps')} {name}.in;")
                begin = f"{name}.out"
            self.hears.append(f"N.{name}")
        self.subs.append("m: Meter;")
        if self.likely(3):
            self.stock("Receiver")
            self.subs.append("j: Receiver;")
            self.wires.append(f"{begin} -->{self.link('8bps')} j.in;")
            self.hears.append("N.j")
            begin = "j.out"
        self.wires.append(f"{begin} -->{self.link('8bps')} m.in;")
        self.hears += ["N.m", "N.m"]
        self.keys += ["count", "bits", "start", "gap", "route", "pattern", "repeat", "capacity", "service", "datarate", "address"]
        self.paths += ["N.g", "N.g", "N.x0", "N.x1", "N.*", "**.channel"]
