"""Networks by chance in which modules come and go: Spawners, in the network or in rooms of their own, and what the type that they create is there."""
KINDS = ["stock"] * 5 + ["compound"] * 4 + ["spawning"] * 3 + ["ticking"] * 3 + ["queue"] * 2 + ["vector", "vector", "deaf", "channel", "interface", "unknown", "router", "unassigned", "group"]


class Coming:
    """What a maker makes of them; the dice, the texts and the stock are the maker's."""

    def coming(self):
        self.stock("Spawner")
        rooms = self.likely(7)
        kinds = [self.one(*KINDS)] + [self.one(*KINDS)] * self.likely(3)
        if rooms:
            for at, kind in enumerate(kinds):
                self.room(f"Room{at}", kind, f"r{at}" if at else "r")
        else:
            self.inside.append(self.spawned(kinds[0], self.likely(7) or "Sink" in self.made))
            self.subs.append("o: Spawner" + self.how())
            self.subs += ["w: Tick { count = 1; }"] * (self.likely(1) and bool(self.stock("Tick")))
        self.comers += ["N.w", "N.w", "N.w.k", "N.r.w", "N.r.w", "N.r[0].w", "N.r.w.w"]
        self.keys += ["delay", "polite", "count", "few", "service", "c"]
        self.paths += ["N.o", "N.w", "N.r.w", "N.**.w", "N.**.w.*", "N.r*.s", "**.w", "**.s"]

    def how(self, *names):
        lines = [f"delay = {self.one('0s', '250ms', '500ms', '999ms', '1s', '1500ms', '2s', '-1s' if self.likely(1) else '5s', *names[:1])};"] * self.likely(7)
        lines += [f"polite = {self.one('true', 'true', 'false', *names[1:])};"] * self.likely(5)
        return f" {{ {' '.join(lines)} }}" if lines else ";"

    def room(self, name, kind, sub):
        """A compound module with a Spawner, and perhaps a type of its own for what that creates."""
        types = self.spawned(kind, self.likely(7) or "Sink" in self.made)
        body = [f"s: Spawner{self.how('d', 'p')}"]
        if self.likely(3):
            self.stock("Tick")
            body.insert(self.dice.randrange(2), f"t{self.one('', '[2]')}: Tick{self.one(';', ' { count = few; }', ' { priority = -1; }')}")
        if self.likely(1):
            body.append(self.one("w: Spawner;", "v: Spawner;", "w[1]: Spawner;"))
        wires = " connections allowunconnected:" if self.likely(8) else ""
        self.types.append(
            f"module {name} {{ parameters: double d @unit(s) = default({self.one('0s', '500ms', '1s', '5s')}); bool p = default({self.one('true', 'false')}); int few = default(2);"
            f"{self.statistics()}" + (f" types: {types}" if types else "") + f" submodules: {' '.join(body)}{wires} }}"
        )
        self.subs.append(f"{sub}{self.one('', '', '[2]', '[few]')}: {name};")

    def spawned(self, kind, is_inner):
        """The type that a Spawner creates, as it stands inside of a type; nothing where it stands outside of all."""
        text = self.type_of(kind)
        if text is None:
            self.stock("Sink")
            return ""
        if is_inner:
            return text
        self.made.add("Sink")
        self.types.append(text)
        return ""

    def type_of(self, kind):
        """A type of the name Sink; none of the stock module."""
        rx = f"@statistic[rx](record={self.modes()});"
        if kind == "compound":
            self.stock("Queue")
            channel = self.one("", "{ delay = 250ms; } -->", "{ delay = 2s; } -->", "{ datarate = 8bps; } -->", "{ datarate = 8bps; delay = 500ms; } -->")
            body = self.one(";", f" {{ capacity = {self.dice.randint(0, 2)}; }}", " { service = 2s; }", " { service = c * 400ms; }")
            return f"module Sink {{ parameters: int c = default({self.dice.randint(0, 2)}); {rx}{self.statistics()} gates: input in; submodules: k: Queue{body} connections allowunconnected: in --> {channel} k.in; }}"
        if kind == "spawning":
            return f"module Sink {{ parameters: {rx} gates: input in; submodules: s: Spawner{self.how()} {'v: Spawner;' if self.likely(1) else ''} connections allowunconnected: }}"
        if kind == "group":
            self.stock("Tick")
            return f"module Sink {{ parameters: int c = default(2); {rx} gates: input in; submodules: k[c]: Tick {{ count = index; }} connections allowunconnected: }}"
        if kind == "ticking":
            self.stock("Tick")
            return f"simple Sink extends Tick {{ parameters: priority = default({self.one('0', '-1', '1', '40000' if self.likely(1) else '0')}); gates: input in; }}"
        if kind == "queue":
            return f"simple Sink {{ parameters: @class(Queue); int capacity = default(1); double service @unit(s) = default({self.one('200ms', '400ms', '1s')}); @statistic[length](record={self.modes()}); gates: input in; output out; }}"
        texts = {
            "vector": f"simple Sink {{ parameters: {rx} gates: input in[{self.one('1', '0', '2')}]; }}",
            "deaf": "simple Sink {}",
            "channel": "channel Sink extends DelayChannel { delay = 1s; }",
            "interface": "moduleinterface Sink {}",
            "unknown": "simple Sink { @class(Foo); gates: input in; }",
            "router": "simple Sink { @class(Router); gates: inout in; }",
            "unassigned": "simple Sink { int must; gates: input in; }",
        }
        return texts.get(kind)
