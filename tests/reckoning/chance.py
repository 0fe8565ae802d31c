"""Networks and sessions that are made by chance, each of a number."""
import pathlib
import random
import re

from coming import Coming
from protocols import SIGNALS, VALUES, Protocols

# The declarations of the modules, as users have them, without the comments.
DECLARED = pathlib.Path(__file__).resolve().parents[2] / "ned"
STOCK = {it.stem: re.sub(r" *//[^\n]*", "", it.read_text(encoding="utf-8")) for it in DECLARED.glob("*.ned")}
MODES = ["count", "sum", "min", "max", "last", "vector"]
TIMES = ["0s", "1ps", "250ms", "300ms", "500ms", "1s", "1s", "1500ms", "2s"]


PARTS = [("cells",), ("cells",), ("flow",), ("flow",), ("mesh",), ("mesh",), ("cells", "flow"), ("flow", "mesh"), ("cells", "flow", "mesh"), ("parts",), ("parts", "flow")]
PARTS += [("transfer",), ("transfer",), ("lan",), ("lan",), ("ring",), ("ring",), ("row",), ("row",), ("transfer", "lan"), ("cells", "ring"), ("mesh", "row")]


class Maker(Protocols, Coming):
    """Makes the texts of one network, `ned` and `ini`, and command lines of a session: of one in which modules come and go, or of one in which they stay."""

    def __init__(self, number, comes=False):
        self.dice, self.types, self.subs, self.wires, self.routers, self.paths = random.Random(f"{number} comes" if comes else number), [], [], [], [], []
        self.keys, self.made, self.files, self.selected, self.hears, self.inside, self.comers = [], set(), {}, "General", [], [], []
        for part in self.dice.choice(PARTS) if not comes or self.likely(3) else ():
            getattr(self, part)()
        if comes:
            self.coming()
        self.write()

    # ---- small choices
    def likely(self, of_ten):
        return self.dice.randrange(10) < of_ten

    def one(self, *choices):
        return self.dice.choice(choices)

    def modes(self):
        chosen = self.dice.sample(MODES, self.dice.randint(1, 4))
        return ",".join(it + ("?" if self.likely(2) else "") for it in chosen)

    def count(self, *names):
        """An expression whose value is small."""
        name = self.one(*names) if names else "2"
        plain = str(self.dice.randint(0, 4))
        if not self.dice.randrange(80):
            return self.one(f"{name} * 9223372036854775807 * 2", f"{name} / 2", "this.late + this.count", f"{name} == 1")
        return self.one(plain, plain, name, name, f"{name} + 1", f"max({name}, {plain})", f"{name} > 1 ? {plain} : 2", f"({name} * 2) % 3", f"{name} - 1")

    def time(self, *names):
        name = self.one(*names) if names else "1s"
        plain = self.one(*TIMES)
        return self.one(plain, plain, name, f"{name} + 250ms", f"2 * {name}", f"min({name}, {plain})")

    def stock(self, name):
        if name not in self.made:
            self.made.add(name)
            self.types.append(re.sub(r"record=[a-z,]+", lambda _: f"record={self.modes()}", STOCK[name]))
        return name

    def write(self):
        inner = [it.replace("1kbps", "8bps").replace("250ms", "300ms") for it in self.types if it.startswith("channel") and self.likely(5)]
        inner += [it for it in self.inside if it]
        if self.likely(1):
            self.odd()
        parts = ["parameters: int few = default(2); double far @unit(s) = default(300ms); int c = default(1); double g @unit(s) = default(1s);" + self.statistics()]
        parts += ["types:"] + inner if inner else []
        parts += ["submodules:", *self.subs, "connections:" if not self.dice.randrange(20) else "connections allowunconnected:", *self.wires]
        network = "network N {\n    " + "\n    ".join(parts) + "\n}\n"
        others = list(self.types)
        self.dice.shuffle(others)
        types = "\n".join(others) + "\n"
        self.neds = [network, types] if self.likely(4) else [types + network]
        self.written, self.inner = list(self.wires), 1
        lines = ["[General]", "network = N", *self.lines()]
        self.general = len(lines)
        self.ini = "\n".join(lines + (["[Config Fast]", f"extends = {self.one('Base', 'Other, Base', 'Base, Other')}", *self.lines(), "[Config Base]", *self.lines(), "[Other]", *self.lines()] if self.likely(3) else [])) + "\n"

    def statistics(self):
        text = ""
        for name, signal in (("fired", "fired"), ("all", "fired"), ("rx", "rx"), ("waiting", "length"), ("lost", "dropped"), ("delay", "delay"), ("sent", "sent")):
            if self.likely(2):
                text += f" @statistic[{name}]({'' if name == signal else f'source={signal};'}record={self.modes()});"
        return text

    def odd(self):
        """One more connection, which is at fault, or needs no channel."""
        self.stock("Router")
        self.subs += ["x: Router;", "y[2]: Router;"]
        wires = ["x.port[0] <--> y[0].port++;", "x.port++ <--> y[2].port++;", "x.gate++ <--> y[0].port++;", "x.port <--> y[0].port++;", "x.port++ --> y[1].port$i++;"]
        wires += ["x.port$o++ --> y[1].port$i++;", "x.port$i++ --> y[1].port$i++;", "x.port++ <--> y[few].port++;", "x.port++ <--> y[1].port++ if few;", "x.port++ <--> y[1].port[-1];"]
        wires += ["for i=0..few { x.port++ <--> y[i % 2].port++; }", "for i=0..1 { x.port++ <--> y[i].port[0]; }", "x.port++ <--> { delay = 1s - 2s; } <--> y[0].port++;"]
        wires += ["x.port++ <--> { datarate = 1bps; ber = 1; } <--> y[0].port++;", "x.port++ <--> x.port++;", "for i=0..7/2 { x.port++ <--> y[i].port++; }"]
        wires += ["if true { x.port++ <--> y[0].port++; x.port[0] <--> y[1].port++; }", "if few > 0 { x.port$o++ --> y[0].port$i++; y[0].port[0] <--> x.port++; }"]
        self.wires.append(self.one(*wires))
        if self.likely(5):
            self.subs[-2] = f"x: Router {{ gates: {self.one('port', 'port', 'port', 'gate')}[{self.one('1', '2', 'few', '-1', 'sizeof(y)', 'few / 2', '1s')}]; }}"

    def parts(self):
        """Types that values choose."""
        self.stock("Tick")
        self.types += ["moduleinterface Part { parameters: int count; }", f"simple Fast extends Tick like Part {{ gap = {self.one('250ms', '100ms')}; }}"]
        self.types.append(self.one("module Group like Part { parameters: int count = default(1); submodules: t[count]: Tick { count = 2; } }", "simple Named extends Fast { @class(Tick); priority = 1; }"))
        kind = self.one("<>", '<"Fast">', '<default("Fast")>', '<few > 2 ? "Tick" : "Fast">'.replace("few > 2", "(few > 2)"))
        self.subs.append(f"p{self.one('', '[2]', '[few]')}: {kind} like Part" + self.one(";", " { count = index; }", " { count = 2; }", " if few > 1;"))
        self.paths += ["N.p", "N.p[0]", "N.p[1]", "N.p*", "N.p.t[0]"]
        self.keys += ["count", "few"] + ["typename"] * 2

    # ---- nested modules with Ticks
    def cells(self):
        self.stock("Tick")
        deepest = self.dice.randint(1, 2)
        for level in range(deepest + 1):
            inside = [self.ticks("t", "[n]", True), self.ticks("u", " if n > 1" if self.likely(5) else "", False)]
            if level:
                inside.insert(self.dice.randint(0, 2), self.cell(level - 1, "d"))
            text = f"module Cell{level} {{ parameters: int n = default({self.dice.randint(0, 3)}); int c{self.one('', ' = default(2)')};"
            text += f" double g @unit(s) = default({self.one(*TIMES[2:])}); int pad = {self.count('n')};" + self.statistics()
            self.types.append(f"{text}\n    submodules: " + "\n        ".join(inside) + " }")
        if self.likely(4):
            self.types.append(f"module Wide extends Cell{deepest} {{ parameters: g = {self.one(*TIMES[2:])};" + f" submodules: more[{self.count('n', 'sizeof(t)')}]: Tick; }}")
        self.subs += [self.cell(deepest, "c"), self.cell(self.dice.randint(0, deepest), "e")]
        if self.likely(4) and any("Wide" in it for it in self.types):
            self.subs.append("w: Wide;")
        self.keys += ["count", "gap", "priority", "late", "extra", "n", "c", "g"]
        self.paths += ["N.c", "N.e", "N.*.t[0]", "N.*.t[1..]", "N.**.u", "N.c[0].d", "N.**.d.t[{0,2}]", "**.t[..1]", "**.d.*"]

    def cell(self, level, name):
        size = self.one("", f"[{self.count('few') if name in 'ce' else self.count('n')}]")
        body = [f"n = {self.dice.randint(1, 3)};"] if self.likely(3) else []
        body += [f"c = {self.one('', 'default(')}{self.count('index' if size else '1')}".replace("default(", "default((") + ";"] if self.likely(4) else []
        body = [it.replace("default((", "default(").removesuffix(";") + ");" if "default((" in it else it for it in body]
        condition = f" if {self.one('few' if name in 'ce' else 'n')} > {self.dice.randint(0, 1)}" if self.likely(2) else ""
        return f"{name}{size}: Cell{level}{condition}" + (f" {{ {' '.join(body)} }}" if body else ";")

    def ticks(self, name, how, is_vector):
        size, condition = (how, "") if is_vector else ("", how)
        body, names = [], ["n", "c"] + ["index"] * is_vector + (["sizeof(t)", "parent.c", "(exists(u) ? 1 : 2)", "(exists(t[1]) ? 2 : 1)"] if self.likely(5) else [])
        if self.likely(5):
            body.append(f"count = {self.count(*names)};")
        if self.likely(4):
            body.append(f"gap = {self.time('g', 'parent.g')};")
        if self.likely(3):
            body.append(f"priority = default({self.count('-1', *names)});")
        if self.likely(3):
            body.append(f"late = {self.count('this.count', *names)};")
        if self.likely(2):
            body.append(f"extra = {self.count('u.priority' if is_vector else 't[0].priority', 'c')};")
        return f"{name}{size}: Tick{condition}" + (f" {{ {' '.join(body)} }}" if body else ";")

    # ---- messages along chains of gates
    def channel(self, rates=5):
        """A channel and its arrow behind it, or nothing. Of ten so many have a rate."""
        if self.likely(3):
            return ""
        lines = []
        if self.likely(6):
            lines.append(f"delay = {self.time('far')};")
        if self.likely(rates):
            lines.append(f"datarate = {self.one('1kbps', '3bps', '7bps', '8bps', '8bps', '0bps')};")
        if self.likely(1):
            lines.append(f"disabled = {self.one('true', 'false', 'few > 2')};")
        block = "{ " + " ".join(lines) + " }"
        if self.likely(3):
            return f" {block} -->"
        if self.likely(4):
            return f" {'DatarateChannel' if 'datarate' in block else 'DelayChannel'} {block} -->"
        name = self.one("Line", "Slow") if rates > 1 else "Slow"
        if name not in self.made:
            self.made.add(name)
            self.types.append("channel Line extends DatarateChannel { datarate = default(1kbps); }" if name == "Line" else "channel Slow extends DelayChannel { parameters: double base @unit(s) = default(250ms); delay = default(2 * base); }")
        return f" {name} -->"

    def arrow(self, rates=1):
        return f"-->{self.channel(rates)}"

    def stage(self, level):
        """A compound module with gates in and out."""
        name = f"Stage{level}"
        if name in self.made:
            return name
        self.made.add(name)
        how = self.dice.randrange(4)
        text = f"module {name} {{ parameters: int many = default({self.dice.randint(1, 2)});" + self.statistics() + " gates: input in; output out;"
        if how == 0:
            text += f" connections: in {self.arrow()} out; }}"
        elif level and how < 3:
            inner = self.stage(level - 1)
            text += f" submodules: a[many]: {inner}; connections: in {self.arrow()} a[0].in; for i=0..many-2 {{ a[i].out {self.arrow()} a[i+1].in; }} a[many-1].out {self.arrow()} out; }}"
        else:
            self.stock("Queue")
            body = self.one(";", f" {{ capacity = {self.dice.randint(0, 2)}; }}", f" {{ service = {self.one(*TIMES)}; }}")
            text += f" submodules: q: Queue{body} connections: in {self.arrow()} q.in; out <-- q.out; }}"
        self.types.append(text.replace("far", "200ms").replace("few", "many"))
        return name

    def flow(self):
        self.stock("Source")
        self.stock("Sink")
        if self.likely(5):
            self.subs += ["s: Source;", f"a: {self.stage(self.dice.randint(0, 2))};", "k: Sink;"]
            self.wires += [f"s.out {self.arrow(6)} a.in;", f"a.out {self.arrow()} k.in;"]
        else:
            many = self.dice.randint(1, 3)
            self.types.append("module Ends { parameters:" + self.statistics() + " int wide = default(0); gates: input in[wide]; submodules: k[sizeof(in)]: Sink; connections: for i=0..sizeof(in)-1 { in[i] --> k[i].in; } }")
            self.subs += [f"v[{self.one(many, 'few')}]: Source;", self.one("z: Ends;", f"z: Ends {{ gates: in[{self.one(many, 'sizeof(v)')}]; }}")]
            index = self.one("in++", "in++", "in[i]", "in[sizeof(v)-1-i]")
            wire = f"v[i].out {self.arrow(6)} z.{index}"
            self.wires.append(self.one(f"for i=0..sizeof(v)-1 {{ {wire}; }}", f"{wire} for i=0..sizeof(v)-1;", f"for i=0..5, if i < sizeof(v) {{ {wire}; }}", f"for i=0..sizeof(v)-1 {{ {wire} if i != 1; }}"))
        self.keys += ["count", "bits", "start", "gap", "capacity", "service", "delay", "datarate", "disabled"]
        self.paths += ["N.s", "N.v[0]", "N.v[1..]", "N.a.q", "N.**.channel", "N.s.out.channel", "N.v[0].out.channel", "**.a[0].**", "N.a.in.channel", "**.q"]

    # ---- routers
    def mesh(self):
        self.stock("Router")
        self.made.add("mesh")
        many = self.dice.randint(2, 4)
        self.types.append("module Node { parameters:" + self.statistics() + " gates: inout port[]; submodules: r: Router; connections: " + self.one("for i=0..sizeof(port)-1 { r.port++ <--> port[i]; }", "for i=0..sizeof(port)-1 { port++ <--> r.port++; }", "r.port++ <--> port[sizeof(port)-1-i] for i=0..sizeof(port)-1;") + " }")
        kind = self.one("Node", "Router")
        self.subs.append(f"n[{many}]: {kind};")
        arrow = self.channel().replace("-->", "<-->")
        ring = f"n[i].port++ <-->{arrow} n[(i+1)%{many}].port++"
        choices = [f"for i=0..{many - 1} {{ {ring}; }}", f"for i=0..{many - 2} {{ n[i].port++ <-->{arrow} n[i+1].port++; }}", f"for i=1..{many - 1} {{ n[0].port++ <-->{arrow} n[i].port++; }}"]
        choices += [f"for i=0..{many - 1}, for j=i+1..{many - 1} {{ n[i].port++ <-->{arrow} n[j].port++ if {self.one('true', 'i + j != 2', '(i * j) % 2 == 0')}; }}"]
        choices += [f"for i=0..{many - 2} {{ n[i].port$o++ -->{arrow.replace('<-->', '-->')} n[i+1].port$i++; n[i+1].port$o++ --> n[i].port$i++; }}"]
        if self.likely(3):
            self.wires.append(f"n[0].port$o++ --> n[{many - 1}].port$i++;")
        self.wires.append(self.one(*choices))
        self.routers = [f"N.n[{it}]" + (".r" if kind == "Node" else "") for it in range(many)]
        self.keys += ["delay", "datarate", "disabled"]
        self.paths += ["N.n[0].port$o[0].channel", "N.n[*].**.channel", "N.n[1..2].port$o[..1].channel", "**.channel"]

    # ---- ini lines
    def value(self, key):
        whole = {"count": [0, 1, 2, 3, 5, 30] * 3 + [-1], "bits": [1, 2, 8, 8, 1000], "priority": [-1, 0, 1], "capacity": [0, 1, 2]}
        if key in ("gap", "start", "service", "delay", "g"):
            return self.one(*TIMES, "2 * 250ms", "1s + 500ms")
        if key in VALUES:
            return self.one(*VALUES[key], *(["default"] if self.likely(2) else []))
        if key == "polite":
            return self.one("true", "false", "default")
        if key == "typename":
            return self.one('"Fast"', '"Fast"', '"Group"', '"Named"', '"Tick"', "default")
        if key in ("datarate", "r", "disabled"):
            return self.one("8bps", "1kbps", "0bps", "3bps", "7bps", "default") if key != "disabled" else self.one("true", "false", "false")
        return str(self.one(*whole.get(key, [0, 1, 2, 3]), *(["default"] if self.likely(2) else [])))

    def lines(self):
        made = [self.line() for _ in range(self.dice.randint(0, 6))] if self.paths else []
        made += [self.recording() for _ in range(self.one(0, 1, 2, 3, 4))]
        self.dice.shuffle(made)
        if "typename" in self.keys and self.likely(9):
            made.append('**.typename = "Fast"')
        ends = {"count": "1", "bits": "1", "c": "1"} | ({"table": '"0"', "datarate": "8bps"} if self.hears else {})
        ends = [f"**.{it} = {self.value(it).replace('default', other)}" for it, other in ends.items() if it in self.keys and not self.dice.randrange(40) == 0]
        if self.likely(2):
            ends.append(f"sim-time-limit = {self.one('1s', '2s', '1500ms', '3s')}")
        return made + ends

    def line(self):
        key = self.one(*self.keys)
        return f"{self.one(*self.paths)}.{key} = {self.value(key)}"

    def recording(self):
        at = self.one("**", "**", "**", "N", "N.*", "N.c*", "**.t[0..1]", "N.n[1..]", "N.*[0].**", "**.u", "N.a.**")
        name = self.one("*", "fired", "rx", "length", "all", "dropped", "*", "extra", "waiting", *(SIGNALS if self.hears else []))
        how = self.dice.randrange(4)
        if how == 0:
            items = [self.one("", "", "+", "-") + it for it in self.dice.sample(MODES, self.dice.randint(1, 4))]
            return f"{at}.{name}.result-recording-modes = {self.one('default', 'all', *[','.join(items)] * 3, 'default,' + items[0], '-max,+max')}"
        if how == 1:
            return f"{at}.{name}.statistic-recording = false"
        if how == 2 and self.hears and self.likely(3):
            return f"{at}.{self.one('goodput', 'receivedBits', '*')}.scalar-recording = {self.one('false', 'true')}"
        if how == 2:
            return f"{at}.{name}:{self.one('count', 'max', '*')}.scalar-recording = {self.one('false', 'true')}"
        return self.one(f"{at}.vector-recording = false", f"{at}.{name}:vector.vector-recording = {self.one('false', 'true')}")

    # ---- a session
    def commands(self):
        """Command lines: edits, each with a run behind it."""
        made, number, sent, held = [], self.general, 0, []
        for _ in range(self.dice.randint(1, 4)):
            how = self.dice.randrange(8)
            if (self.routers or self.hears or self.comers) and how < 3:
                sent += 1
                held.append(sent)
                made.append(self.message())
            elif how == 3 and held:
                made.append(f"withdraw {held.pop()}")
            elif how == 4 and self.wires:
                made.append(self.wire())
            elif how == 6 and "[Config Fast]" in self.ini:
                self.selected = self.one("Fast", "Base", "General")
                made.append(f"config {self.selected}")
            elif how == 7:
                made.append(self.file())
            elif how == 5 and number > 3:
                made.append(f"ini remove {self.dice.randint(3, number)}")
                number -= 1
            elif self.keys:
                made.append(f"ini insert {self.dice.randint(3, number + 1)} {self.recording() if self.likely(2) or not self.paths else self.line()}")
                number += 1
            made += [f"run {self.one(*(range(1, 8) if self.comers else (2, 5, 40, 80, 100)))}"] * self.likely(8)
        return made + [f"run {self.one(1, 2, 3, 4, 100, 100) if self.comers else 100}", "positions", "held"]

    def file(self):
        """A file with something changed. Connections that were edited are gone with its old text."""
        number = self.dice.randrange(len(self.neds))
        text = self.neds[number]
        self.wires, self.inner = (list(self.written) if "network N" in text else self.wires), (1 if "module Node" in text else self.inner)
        places = list(re.finditer(r"default\(\d\)|record=[a-z,?]+|= \d;|\d+ms\b|\d+k?bps|\bif [a-z]", text))
        if places:
            it = self.one(*places)
            new = {"d": f"default({self.dice.randint(0, 3)})", "r": f"record={self.modes()}", "=": f"= {self.dice.randint(0, 3)};", "i": "if " + it[0][-1]}
            text = text[: it.start()] + new.get(it[0][0], it[0].replace("250", "400").replace("1k", "16")) + text[it.end() :]
        name = f"new{len(self.files)}.ned"
        self.files[name] = self.neds[number] = text
        return f"ned {number} {name}"

    def message(self):
        if self.comers and (not (self.routers or self.hears) or self.likely(5)):
            return f"inject {self.one(*self.comers)} {self.one(*TIMES)} {self.one(-32768, -1, 0, 0, 1)} 0 {self.one(0, 8, 1000)} -"
        if self.hears and (not self.routers or self.likely(5)):
            return self.told(TIMES)
        payload = bytes(self.dice.randrange(3) for _ in range(self.dice.randrange(5))).hex() or "-"
        path = self.one(*self.routers, *self.routers, "N.none")
        return f"inject {path} {self.one(*TIMES)} {self.one(-1, 0, 0, 1)} 0 {self.one(0, 8, 1000)} {payload}"

    def wire(self):
        if "mesh" in self.made and self.likely(3):
            self.inner += 1 if self.inner == 1 else -1
            return "disconnect Node 0" if self.inner == 1 else "connect Node 0 r.port++ <--> { delay = 250ms; } <--> r.port++;"
        place = self.dice.randint(0, len(self.wires) - 1)
        if self.likely(4) or not self.routers:
            self.wires.pop(place)
            return f"disconnect N {place}"
        one, other = (it.removeprefix("N.").removesuffix(".r") for it in (self.one(*self.routers), self.one(*self.routers)))
        text = f"{one}.port++ <--> {self.one('', '{ delay = 250ms; } <--> ')}{other}.port++;"
        self.wires.insert(place, text)
        return f"connect N {place} {text}"
