"""Reads NED texts. What it does not know it refuses with NotReckoned, also where the program would refuse it with a name of its own."""
import re


class NotReckoned(Exception):
    """Nothing is said of this: it is outside of what is reckoned here, or no text of a model."""


T, R, L = "time", "rate", "length"
UNITS = {"d": (T, 86400 * 10**12), "h": (T, 3600 * 10**12), "min": (T, 60 * 10**12), "s": (T, 10**12), "ms": (T, 10**9), "us": (T, 10**6)}
UNITS |= {"ns": (T, 1000), "ps": (T, 1), "bps": (R, 1), "kbps": (R, 1000), "Mbps": (R, 10**6), "Gbps": (R, 10**9)}
UNITS |= {"b": (L, 1), "B": (L, 8), "KiB": (L, 8 << 10), "MiB": (L, 8 << 20)}
MODES = ("count", "sum", "min", "max", "last", "vector")
WORDS = set("""package import simple module network channel moduleinterface channelinterface extends like parameters gates types submodules
    connections allowunconnected volatile bool int string double default input output inout for if true false this parent index parentIndex
    sizeof exists""".split())
ONE = r"\d+(?:\.\d+)?(?:" + "|".join(sorted(UNITS, key=len, reverse=True)) + ")"
TOKEN = re.compile(
    rf"""(?P<blank>[ \t\r\n]+|//[^\n]*)
    |(?P<quantity>{ONE}(?:[ \t]*{ONE})*(?![A-Za-z0-9_]))
    |(?P<number>(?:0x[0-9a-fA-F]+|\d+)(?![A-Za-z0-9_]))
    |(?P<text>"(?:[^"\\\n]|\\["\\nt])*")
    |(?P<property>@[A-Za-z_]\w*)
    |(?P<word>[A-Za-z_][A-Za-z0-9_]*)
    |(?P<mark>\+\+|<-->|-->|<--|\.\.|\$[io](?!\w)|<<|>>|<=|>=|==|!=|&&|\|\||\#\#|[-{{}}()\[\];:,.=<>+*/%^!~?&|\#])""",
    re.X,
)
LEVELS = [("||",), ("##",), ("&&",), ("==", "!=", "<", "<=", ">", ">="), ("|",), ("#",), ("&",), ("<<", ">>"), ("+", "-"), ("*", "/", "%")]
MOST = 2**63 - 1


def quantity(text):
    """The value of one or more amounts with their units."""
    total, dimension = 0, None
    for whole, part, unit in re.findall(r"(\d+)(?:\.(\d+))?([A-Za-z]+)", text):
        its, size = UNITS[unit]
        amount = int(whole + part) * size
        if amount % 10 ** len(part) or dimension not in (None, its):
            raise NotReckoned(f"the quantity {text}")
        total, dimension = total + amount // 10 ** len(part), its
    if total > MOST:
        raise NotReckoned(f"the quantity {text}")
    return (dimension, total)


def tokens_of(text):
    """The tokens, each a kind and what it says. A property is one token: its name, what stands in its brackets, and its body."""
    at, tokens = 0, []
    while at < len(text):
        found = TOKEN.match(text, at)
        if not found:
            raise NotReckoned(f"the text from {text[at:at + 20]!r} on")
        kind, said, at = found.lastgroup, found[0], found.end()
        if kind == "quantity":
            tokens.append(("value", quantity(said)))
        elif kind == "number":
            tokens.append(("value", ("whole", int(said, 0 if said.startswith("0x") else 10))))
            if tokens[-1][1][1] > MOST:
                raise NotReckoned(f"the number {said}")
        elif kind == "text":
            plain = re.sub(r"\\(.)", lambda it: {"n": "\n", "t": "\t"}.get(it[1], it[1]), said[1:-1])
            tokens.append(("value", ("text", plain.encode())))
        elif kind == "property":
            index = re.compile(r"\s*\[\s*([A-Za-z_]\w*)\s*\]").match(text, at)
            at = index.end() if index else at
            body, at = balanced(text, at)
            tokens.append(("property", (said[1:], index[1] if index else None, body)))
        elif kind != "blank":
            tokens.append(("word" if kind == "word" and said in WORDS else "name" if kind == "word" else "mark", said))
    return tokens + [("end", "")]


def balanced(text, at):
    """What stands in parentheses from here on, if they come next, and the place behind them."""
    begin = re.compile(r"\s*\(").match(text, at)
    if not begin:
        return None, at
    depth, here = 1, begin.end()
    for found in re.compile(r'"(?:[^"\\\n]|\\.)*"|//[^\n]*|[()]|[^()"/]+|/', re.S).finditer(text, here):
        depth += {"(": 1, ")": -1}.get(found[0], 0)
        if depth == 0:
            return text[here : found.start()], found.end()
    raise NotReckoned("a property that is not closed")


class Type:
    """A type as its text has it. `outer` is the type in whose `types:` it stands."""

    def __init__(self, kind, name, outer):
        self.kind, self.name, self.outer = kind, name, outer
        self.bases, self.likes, self.lines, self.gates, self.inner, self.subs, self.items, self.allows = [], [], [], [], {}, [], [], False


class Reader:
    """Reads tokens one by one."""

    def __init__(self, text):
        self.tokens, self.at = tokens_of(text), 0

    def next(self):
        return self.tokens[self.at]

    def sees(self, *said):
        return self.next()[0] in ("word", "mark") and self.next()[1] in said

    def sees_name(self):
        return self.next()[0] == "name"

    def take(self, *said):
        if not self.sees(*said):
            return None
        self.at += 1
        return self.tokens[self.at - 1][1]

    def need(self, *said):
        return self.take(*said) or self.refuse()

    def refuse(self):
        raise NotReckoned(f"the text from {[it[1] for it in self.tokens[self.at:self.at + 6]]} on")

    def of(self, kind):
        if self.next()[0] != kind:
            self.refuse()
        self.at += 1
        return self.tokens[self.at - 1][1]

    def dotted(self):
        name = self.of("name")
        while self.take("."):
            name = self.of("name")
        return name

    def dotted_list(self):
        names = [self.dotted()]
        while self.take(","):
            names.append(self.dotted())
        return names

    # ---- expressions: tuples, the first part of which says what it is
    def expression(self, angles=False):
        left = self.level(0, angles)
        while self.take("?"):
            yes = self.expression(angles)
            self.need(":")
            left = ("choice", left, yes, self.level(0, angles))
        return left

    def level(self, level, angles):
        if level == len(LEVELS):
            left = self.operand()
            return ("two", self.need("^"), left, self.level(level, angles)) if self.sees("^") else left
        left = self.level(level + 1, angles)
        while self.sees(*LEVELS[level]) and not (angles and level == 3):
            left = ("two", self.need(*LEVELS[level]), left, self.level(level + 1, angles))
        return left

    def brackets(self):
        self.need("[")
        inside = self.expression()
        self.need("]")
        return inside

    def operand(self):
        if self.take("("):
            inside = self.expression()
            self.need(")")
            return inside
        if self.sees("-", "!", "~"):
            return ("one", self.need("-", "!", "~"), self.operand())
        if self.next()[0] == "value":
            return ("value", self.of("value"))
        if self.sees("true", "false"):
            return ("value", ("truth", self.need("true", "false") == "true"))
        if self.sees("this", "parent"):
            which = self.need("this", "parent")
            self.need(".")
            return (which, self.of("name"))
        if self.sees("index", "parentIndex"):
            which = self.need("index", "parentIndex")
            if which == "parentIndex" or self.sees("("):
                self.need("(")
                self.need(")")
            return (which,)
        if self.sees("sizeof", "exists"):
            which = self.need("sizeof", "exists")
            self.need("(")
            name = self.of("name")
            index = self.brackets() if which == "exists" and self.sees("[") else None
            self.need(")")
            return (which, name, index)
        name = self.of("name")
        if name in ("min", "max") and self.take("("):
            one = self.expression()
            self.need(",")
            other = self.expression()
            self.need(")")
            return ("two", name, one, other)
        if self.sees("["):
            index = self.brackets()
            self.need(".")
            return ("sub", name, index, self.of("name"))
        return ("sub", name, None, self.of("name")) if self.take(".") else ("name", name)

    # ---- parameters and gates
    def value(self):
        if not self.take("default"):
            return False, self.expression()
        self.need("(")
        inside = self.expression()
        self.need(")")
        return True, inside

    def properties(self):
        found = []
        while self.next()[0] == "property":
            found.append(self.of("property"))
        return found

    def parameters(self, body=False):
        """The lines of a section: a declaration, a value, a class, a statistic."""
        if self.take("parameters"):
            self.need(":")
        lines = []
        while self.sees_name() or self.sees("volatile", "bool", "int", "string", "double") or self.next()[0] == "property":
            if self.next()[0] == "property":
                lines += [] if body else said_by(self.of("property"))
                self.at += body
                self.need(";")
                continue
            volatile, word = self.take("volatile"), self.take("bool", "int", "string", "double")
            if volatile and not word or word and body:
                self.refuse()
            name, tail, value = self.of("name"), self.properties(), None
            if self.take("="):
                value = self.value()
                tail += self.properties()
            self.need(";")
            if word:
                lines.append(("declared", name, word, unit_of(word, tail)))
            if value:
                lines.append(("given", name, *value))
        return lines

    def gate_lines(self):
        lines = []
        if self.take("gates"):
            self.need(":")
            while self.sees_name() or self.sees("input", "output", "inout"):
                direction, name, vector, size = self.take("input", "output", "inout"), self.of("name"), False, None
                if self.take("["):
                    vector = True
                    size = None if direction and self.sees("]") else self.expression()
                    self.need("]")
                loose = any(it[0] in ("loose", "directIn") for it in self.properties())
                self.need(";")
                lines.append((direction, name, vector, size, loose))
        return lines

    # ---- types
    def file(self):
        types = []
        while self.next()[0] != "end":
            if self.next()[0] == "property":
                self.properties()
                self.need(";")
            elif self.take("package"):
                self.dotted()
                self.need(";")
            elif self.take("import"):
                while not self.take(";"):
                    self.at += 1 if self.next()[0] != "end" else self.refuse()
            else:
                types.append(self.type(None))
        return types

    def type(self, outer):
        kind = self.need("simple", "module", "network", "channel", "moduleinterface", "channelinterface")
        made = Type(kind, self.of("name"), outer)
        if self.take("extends"):
            made.bases = self.dotted_list()
        if self.take("like"):
            made.likes = self.dotted_list()
        if len(made.bases) > 1 and "interface" not in kind or "interface" in kind and made.likes:
            self.refuse()
        self.need("{")
        made.lines = self.parameters()
        made.gates = self.gate_lines()
        if kind in ("module", "network"):
            self.inside(made)
        self.need("}")
        return made

    def inside(self, made):
        if self.take("types"):
            self.need(":")
            while not self.sees("submodules", "connections", "}"):
                inner = self.type(made)
                if inner.name in made.inner or inner.kind == "network":
                    raise NotReckoned(f"the type {inner.name} in types:")
                made.inner[inner.name] = inner
        if self.take("submodules"):
            self.need(":")
            while self.sees_name():
                made.subs.append(self.submodule(made))
        if self.take("connections"):
            made.allows = bool(self.take("allowunconnected"))
            self.need(":")
            while not self.sees("}"):
                made.items.append(self.item())

    def submodule(self, home):
        line = Sub(self.of("name"), home)
        line.size = self.brackets() if self.sees("[") else None
        self.need(":")
        if self.take("<"):
            if self.take("default"):
                self.need("(")
                line.choice = ("open", self.expression())
                self.need(")")
            else:
                line.choice = ("open", None) if self.sees(">") else ("given", self.expression(True))
            self.need(">")
            self.need("like")
        line.type = self.dotted()
        if self.take("if"):
            line.condition = self.expression()
        if not self.take(";"):
            self.need("{")
            line.values, line.gates = self.parameters(True), self.gate_lines()
            self.need("}")
            self.take(";")
        return line

    # ---- connections: an item is its clauses and its lines, each line its clauses, ends, arrow and channel
    def item(self):
        if not self.sees("for", "if"):
            return ((), [self.line()])
        clauses, lines = self.clauses(), []
        self.need("{")
        while not self.take("}"):
            lines.append(self.line())
        self.take(";")
        return (clauses, lines)

    def line(self):
        left, arrow = self.end(), self.need("-->", "<--", "<-->")
        begin, channel, right = self.at, None, None
        if self.sees("{"):
            channel = (None, self.block())
        elif self.sees_name():
            name = self.dotted()
            if self.sees("{", "-->", "<--", "<-->"):
                channel = (name, self.block() if self.sees("{") else [])
            else:
                self.at = begin
        if channel:
            self.need(arrow)
        right = self.end()
        clauses = self.clauses() if self.sees("for", "if") else ()
        self.need(";")
        return (clauses, left, arrow, channel, right)

    def block(self):
        self.need("{")
        lines = self.parameters(True)
        self.need("}")
        return lines

    def end(self):
        """(submodule or none, its index or none, gate, half, index, `++`, an expression or none)"""
        sub, at, gate = None, None, self.of("name")
        if self.sees("["):
            begin = self.at
            at = self.brackets()
            if self.take("."):
                sub, gate = gate, self.of("name")
            else:
                self.at, at = begin, None
        elif self.take("."):
            sub, gate = gate, self.of("name")
        half = self.take("$i", "$o")
        index = "++" if self.take("++") else self.brackets() if self.sees("[") else None
        return (sub, at, gate, half[1] if half else "", index)

    def clauses(self):
        clauses = []
        while not clauses or self.take(","):
            if self.take("if"):
                clauses.append(("if", self.expression()))
                continue
            self.need("for")
            name = self.of("name")
            self.need("=")
            first = self.expression()
            self.need("..")
            clauses.append(("for", name, first, self.expression()))
        return clauses


class Sub:
    """A line of submodules, of the type in whose text it stands."""

    def __init__(self, name, home):
        self.name, self.home = name, home
        self.size = self.choice = self.condition = self.type = None
        self.values, self.gates = [], []


def unit_of(word, properties):
    """The dimension of a parameter with these properties; none for a plain one."""
    found = [UNITS[it[2].strip()][0] for it in properties if it[0] == "unit" and it[1] is None and (it[2] or "").strip() in UNITS]
    if word == "double" and not found:
        raise NotReckoned("a double without a unit")
    return found[0] if found and word in ("int", "double") else None


def said_by(prop):
    """What a property says as a line of a type's section."""
    name, index, body = prop
    if name == "class" and index is None and re.fullmatch(r"\s*[A-Za-z_]\w*\s*", body or ""):
        return [("class", body.strip())]
    if name != "statistic" or index is None:
        return []
    source, modes = index, []
    for part in (body or "").split(";"):
        key, _, value = (it.strip() for it in part.partition("="))
        if key == "source" and re.fullmatch(r"[A-Za-z_]\w*", value) and value not in WORDS:
            source = value
        elif key == "record" and not modes:
            for mode in value.split(","):
                plain = mode.strip().removesuffix("?").strip()
                if plain not in MODES or plain in [it[0] for it in modes]:
                    raise NotReckoned(f"the statistic {index}")
                modes.append((plain, "?" in mode))
        elif key not in ("title", "unit"):
            raise NotReckoned(f"the statistic {index}")
    return [("statistic", index, source, modes)]


def read_file(text):
    return Reader(text).file()


def read_item(text):
    reader = Reader(text)
    item = reader.item()
    return item if reader.next()[0] == "end" else reader.refuse()


def read_expression(text):
    reader = Reader(text)
    read = reader.expression()
    return read if reader.next()[0] == "end" else reader.refuse()
