"""A model: its types, the values of its parameters, what is inside of each module, and where gates lead."""
import re

from ned import WORDS, NotReckoned, Type
from values import Fault, evaluate, truth, whole

NAME = re.compile(r"[A-Za-z_][A-Za-z0-9_]*")
MOST = 65536
DEEPEST = 32
DELAY = [("delay", "double", "time", ("time", 0)), ("disabled", "bool", None, ("truth", False))]
RATE = [("datarate", "double", "rate", ("rate", 0)), ("ber", "int", None, ("whole", 0)), ("per", "int", None, ("whole", 0))]
BUILT_IN = {"IdealChannel": [], "DelayChannel": DELAY, "DatarateChannel": DELAY + RATE}


def built_in(name):
    made = Type("channel", name, None)
    for name, word, unit, value in BUILT_IN[name]:
        made.lines += [("declared", name, word, unit), ("given", name, True, ("value", value))]
    return made


class Parameter:
    def __init__(self, word, unit):
        self.word, self.unit, self.fixed, self.default = word, unit, None, None

    def suits(self, value):
        if self.unit:
            return value[0] == self.unit
        return value[0] == {"int": "whole", "bool": "truth", "string": "text"}[self.word]


class Gate:
    def __init__(self, direction, vector):
        self.direction, self.vector, self.size, self.loose = direction, vector, None, False


class Flat:
    """A type with all that the types say which it extends."""

    def __init__(self, kind, name):
        self.kind, self.name, self.root = kind, name, name
        self.parameters, self.gates, self.statistics, self.subs, self.items, self.likes = {}, {}, {}, [], [], []
        self.allows, self.class_, self.odd, self.home = False, None, False, None

    def copy(self, name):
        made = Flat(self.kind, name)
        for key in ("parameters", "gates"):
            for it, old in getattr(self, key).items():
                new = type(old).__new__(type(old))
                new.__dict__.update(old.__dict__)
                getattr(made, key)[it] = new
        made.statistics, made.subs, made.items, made.likes = dict(self.statistics), self.subs[:], self.items[:], self.likes[:]
        made.allows, made.class_, made.root, made.odd = self.allows, self.class_, self.root, self.odd
        return made


class Types:
    """The types of the files. What the rules of types refuse is not reckoned."""

    def __init__(self, files):
        self.all, self.made = {name: built_in(name) for name in BUILT_IN}, {}
        self.own = [it for file in files for it in file]
        for it in self.own:
            if it.name in self.all:
                raise NotReckoned(f"the type {it.name} is declared twice")
            self.all[it.name] = it
        for it in self.own:
            for one in [it, *it.inner.values()]:
                self.flat(one)
        for it in self.own:
            for one in [it, *it.inner.values()]:
                self.look_inside(one)

    def find(self, name, home):
        """The type that a name means in the text of the type `home`; none where it means nothing."""
        while home:
            if name in home.inner:
                return home.inner[name]
            home = self.base(home)
        return self.all.get(name)

    def base(self, made):
        if not made.bases:
            return None
        found = self.find(made.bases[0], made.outer)
        return found or self.refuse(made, "extends what is not there")

    def refuse(self, made, why):
        raise NotReckoned(f"the type {made.name}: {why}")

    def flat(self, made):
        if made not in self.made:
            self.made[made] = None
            self.made[made] = self.flattened(made)
        return self.made[made] or self.refuse(made, "a circle")

    def flattened(self, made):
        if "interface" in made.kind:
            flat, froms = Flat(made.kind, made.name), [self.find(it, made.outer) for it in made.bases]
            for it in froms:
                flat.parameters |= self.flat(it).parameters
                flat.gates |= self.flat(it).gates
        else:
            base = self.base(made)
            flat = self.flat(base).copy(made.name) if base else Flat(made.kind, made.name)
            if base and (base.kind == "simple") != (made.kind == "simple") or base and (base.kind == "channel") != (made.kind == "channel"):
                self.refuse(made, "another kind")
        flat.kind, flat.home = made.kind, made
        flat.class_ = next((it[1] for it in made.lines if it[0] == "class"), None) or flat.class_ or made.name
        self.add_lines(flat, made)
        for direction, name, vector, size, loose in made.gates:
            if direction:
                if name in flat.gates:
                    self.refuse(made, f"the gate {name} twice")
                flat.gates[name] = Gate(direction, vector)
            gate = flat.gates.get(name)
            if not gate or vector and not gate.vector:
                flat.odd = True
            if not gate or vector and not gate.vector:
                continue
            gate.size, gate.loose = size or gate.size, gate.loose or loose
        for sub in made.subs:
            if sub.name in [it.name for it in flat.subs]:
                self.refuse(made, f"the submodule {sub.name} twice")
            flat.subs.append(sub)
        flat.items += [(it, made) for it in made.items]
        flat.allows = flat.allows or made.allows
        for name in made.likes:
            self.keep(flat, made, self.find(name, made.outer))
        return flat

    def add_lines(self, flat, made):
        for line in made.lines:
            if line[0] == "declared":
                if line[1] in flat.parameters:
                    self.refuse(made, f"the parameter {line[1]} twice")
                flat.parameters[line[1]] = Parameter(*line[2:])
            elif line[0] == "given":
                its = flat.parameters.get(line[1])
                if not its or its.fixed:
                    self.refuse(made, f"a value of {line[1]}")
                its.fixed, its.default = (None, line[3]) if line[2] else (line[3], its.default)
            elif line[0] == "statistic":
                flat.statistics[line[1]] = line[2:]

    def look_inside(self, made):
        for sub in made.subs:
            self.look_at(sub, made)
        for _, lines in made.items:
            for line in lines:
                self.look_at_channel(line[3], made)

    def look_at(self, sub, made):
        found = self.find(sub.type, made)
        if not found or ("interface" in found.kind) != bool(sub.choice) or "channel" in found.kind:
            self.refuse(made, f"the type of {sub.name}")
        self.look_at_body(sub.values, self.flat(found), made)

    def look_at_channel(self, channel, made):
        """The type of a channel of a connection in the text of that type; none where there is no channel."""
        if not channel:
            return None
        kind, lines = channel
        names = {it[1] for it in lines}
        if kind is None:
            kind, made = "DatarateChannel" if names & {"datarate", "ber", "per"} else "DelayChannel" if names & {"delay", "disabled"} else "IdealChannel", None
        found = self.find(kind, made)
        if not found or found.kind != "channel":
            raise NotReckoned(f"the channel {kind}")
        flat = self.flat(found)
        self.look_at_body(lines, flat, found)
        return flat

    def look_at_body(self, lines, flat, made):
        names = [it[1] for it in lines if not it[2]]
        for line in lines:
            if line[1] not in flat.parameters or flat.parameters[line[1]].fixed or names.count(line[1]) > 1:
                self.refuse(made, f"a value of {line[1]} in a body")

    def keep(self, flat, made, interface):
        its = self.flat(interface)
        lacks = [it for it, one in its.parameters.items() if it not in flat.parameters or flat.parameters[it].word != one.word]
        for name, gate in its.gates.items():
            own = flat.gates.get(name)
            lacks += [] if own and (own.direction, own.vector) == (gate.direction, gate.vector) else [name]
        if "interface" not in interface.kind or lacks:
            self.refuse(made, f"is not like {interface.name}")
        flat.likes.append(interface)


class Module:
    """A module that the model has, by where it stands, or that is created in one, with its plan: the name of its type, values and sizes."""

    def __init__(self, name, index, parent, flat, line, plan=None):
        self.name, self.index, self.parent, self.type, self.line, self.plan = name, index, parent, flat, line, plan
        own = name if index is None else f"{name}[{index}]"
        self.path = f"{parent.path}.{own}" if parent else own
        self.depth = parent.depth + 1 if parent else 1
        self.values = {it[1]: it[2:] for it in (line.values if line else [])}
        self.given, self.sizes = (dict(it) for it in (plan or ((), (), ()))[1:])
        self.place = (name, index)
        self.site = (*(parent.site if parent else ()), (name, index, plan))


class Channel:
    def __init__(self, path, flat, values, around):
        self.path, self.type, self.around, self.site, self.given = path, flat, around, (around.site, path), {}
        self.values = {it[1]: it[2:] for it in values}


class Scope:
    """What names mean: `around` has bare names and submodules, `this` those behind `this.`, `parent` those behind `parent.`."""

    def __init__(self, around, this, parent, index, sizes, loops=None):
        self.around, self.this, self.parent, self.index, self.sizes, self.loops = around, this, parent, index, sizes, loops or {}


def own_scope(module, sizes, loops=None):
    return Scope(module, module, module.parent, module.index, sizes, loops)


class Wiring:
    """The connections of a module's inside: the sizes of its submodules' gates, which ends are used, and where each leads."""

    def __init__(self):
        self.sizes, self.used, self.links, self.turns = {}, set(), {}, 0


class Model:
    """All that a run may ask of texts. What was found of a key is kept; what is being found is open, and asks for itself in a circle."""

    def __init__(self, files, ini):
        self.types, self.ini, self.known, self.open, self.modules, self.insides = Types(files), ini, {}, set(), {}, {}
        name = (ini.option("network") or "").split(".")[-1]
        made = self.types.all.get(name)
        if not made or made.kind != "network":
            raise NotReckoned(f"the network {name}")
        self.network = Module(name, None, None, self.types.flat(made), None)

    def once(self, key, found):
        """The value of a key, which may ask for others, and not for itself."""
        if key not in self.known:
            if key in self.open:
                raise Fault("Circle")
            self.open.add(key)
            try:
                self.known[key] = found()
            finally:
                self.open.discard(key)
        return self.known[key]

    # ---- expressions
    def value(self, expression, scope):
        return evaluate(expression, lambda it: self.reference(it, scope))

    def reference(self, it, scope):
        kind = it[0]
        if kind == "name":
            return scope.loops[it[1]] if it[1] in scope.loops else self.parameter(scope.around, it[1])
        if kind in ("this", "parent"):
            owner = scope.this if kind == "this" else scope.parent
            return self.parameter(owner, it[1]) if owner else self.unassigned()
        if kind == "index":
            return self.unassigned() if scope.index is None else ("whole", scope.index)
        if kind == "parentIndex":
            if scope.this is not scope.around and isinstance(scope.this, Channel):
                raise NotReckoned("parentIndex() in a channel")
            return self.unassigned() if not scope.parent or scope.parent.index is None else ("whole", scope.parent.index)
        if isinstance(scope.around, Channel):
            return self.unassigned()
        if kind == "sizeof":
            return self.size_of(it[1], scope)
        if kind == "exists":
            return ("truth", self.exists(it[1], it[2], scope))
        found = self.element(it[1], it[2], scope)
        return self.parameter(found, it[3]) if found else self.unassigned()

    def unassigned(self):
        raise Fault("Unassigned")

    def size_of(self, name, scope):
        module = scope.around
        if not scope.sizes:
            return self.unassigned()
        if name in module.type.gates:
            return ("whole", self.finished_size(module, name)) if module.type.gates[name].vector else self.unassigned()
        line = self.line(module, name)
        if not line or line.size is None:
            return self.unassigned()
        return ("whole", self.count(module, line) if self.is_there(module, line) else 0)

    def exists(self, name, index, scope):
        at = None if index is None else whole(self.value(index, scope))
        line = self.line(scope.around, name)
        if not line or (line.size is None) != (at is None) or not self.is_there(scope.around, line):
            return False
        return at is None or 0 <= at < self.count(scope.around, line)

    def element(self, name, index, scope):
        """The submodule of that name and index, none where it is not there."""
        at = None if index is None else whole(self.value(index, scope))
        return self.child(scope.around, name, at)

    def line(self, module, name):
        return next((it for it in module.type.subs if it.name == name), None)

    def child(self, module, name, at):
        line = self.line(module, name)
        if not line or not self.is_there(module, line):
            return None
        if line.size is None:
            return None if at is not None else self.submodule(module, line, None)
        many = self.count(module, line)
        return self.submodule(module, line, at) if at is not None and 0 <= at < many else None

    # ---- parameters
    def parameter(self, owner, name):
        declared = owner.type.parameters.get(name)
        return self.once(("parameter", owner.site, name), lambda: self.found(owner, name, declared)) if declared else self.unassigned()

    def found(self, owner, name, declared):
        value = self.chosen(owner, name, declared)
        if not declared.suits(value):
            raise Fault("Mismatch")
        return value

    def chosen(self, owner, name, declared):
        if name in owner.given:
            return owner.given[name]
        is_default, body = owner.values.get(name, (None, None))
        if declared.fixed:
            return self.value(declared.fixed, self.type_scope(owner))
        if is_default is False:
            return self.value(body, self.body_scope(owner))
        entry = self.ini.first(owner.path, name, "parameter")
        if entry and entry.expression:
            return evaluate(entry.expression, None)
        if is_default:
            return self.value(body, self.body_scope(owner))
        return self.value(declared.default, self.type_scope(owner)) if declared.default else self.unassigned()

    def type_scope(self, owner):
        return Scope(owner, owner, owner.around, None, False) if isinstance(owner, Channel) else own_scope(owner, False)

    def body_scope(self, owner):
        if isinstance(owner, Channel):
            return Scope(owner.around, owner, owner.around, None, True, owner.loops)
        return Scope(owner.parent, owner, owner.parent, owner.index, True)

    # ---- submodules
    def is_there(self, module, line):
        if not line.condition:
            return True
        return self.once(("condition", module.site, line.name), lambda: truth(self.value(line.condition, own_scope(module, True))))

    def count(self, module, line):
        return self.once(("count", module.site, line.name), lambda: self.counted(whole(self.value(line.size, own_scope(module, True)))))

    def counted(self, size):
        if size < 0:
            raise Fault("Mismatch")
        if size > MOST:
            raise Fault("TooManyModules")
        return size

    def submodule(self, module, line, at):
        key = (module.site, line.name, at)
        if key not in self.modules:
            if module.depth == DEEPEST:
                raise Fault("TooDeep")
            made = Module(line.name, at, module, None, line)
            made.type = self.once(("type", made.site), lambda: self.chosen_type(module, line, made))
            self.modules[key] = made
        return self.modules[key]

    def chosen_type(self, module, line, made):
        if not line.choice:
            return self.types.flat(self.types.find(line.type, line.home))
        told = self.type_name(module, line, made)
        if not all(NAME.fullmatch(it) and it not in WORDS for it in told.split(".")):
            raise Fault("UnknownType")
        name = told.rpartition(".")[2]
        found = self.types.find(name, line.home)
        if not found:
            raise Fault("Interface" if name in BUILT_IN else "UnknownType")
        flat = self.types.flat(found)
        fixes = any(flat.parameters[it].fixed for it in made.values if it in flat.parameters)
        if found.kind not in ("simple", "module", "network") or self.types.find(line.type, line.home) not in flat.likes or fixes:
            raise Fault("Interface")
        return flat

    def type_name(self, module, line, made):
        """The text that names the type of a submodule: `index` is the submodule's own, all else is of the module around."""
        how, expression = line.choice
        value = None
        if how == "open":
            entry = self.ini.first(made.path, "typename", "type")
            value = evaluate(entry.expression, None) if entry and entry.expression else None
        if value is None:
            value = self.value(expression, Scope(module, module, module.parent, made.index, True)) if expression else self.unassigned()
        if value[0] != "text":
            raise Fault("Mismatch")
        return value[1].decode()

    # ---- what is created
    def created(self, around, name, index, plan):
        """What is created in a compound module as planned, where its plan names a type."""
        key = (around.site, name, index, plan)
        if key not in self.modules:
            if around.depth == DEEPEST:
                raise Fault("TooDeep")
            self.modules[key] = Module(name, index, around, self.planned_type(around, plan[0]), None, plan)
        return self.modules[key]

    def planned_type(self, around, told):
        names = told.split(".")
        found = self.types.find(names[-1], around.type.home)
        if not all(NAME.fullmatch(it) and it not in WORDS for it in names) or not found or found.kind not in ("simple", "module", "network"):
            raise Fault("UnknownType")
        return self.types.flat(found)

    def look_at_created(self, made):
        if not set(made.given) <= set(made.type.parameters):
            raise Fault("Mismatch")
        if any(it not in made.type.gates or not made.type.gates[it].vector for it in made.sizes):
            raise Fault("NoGate")
        self.look_at_values(made)

    def elements(self, module, line):
        """The indices of what a line makes: none for one submodule."""
        if not self.is_there(module, line):
            return []
        return [None] if line.size is None else range(self.count(module, line))

    # ---- gates
    def declared_size(self, module, name):
        return self.once(("gate", module.site, name), lambda: self.gate_size(module, module.type.gates[name], name))

    def gate_size(self, module, gate, name):
        if not gate.vector:
            return 1
        given = [it for it in (module.line.gates if module.line else []) if it[1] == name and it[3]]
        if name in module.sizes:
            size = module.sizes[name]
        elif given:
            size = whole(self.value(given[-1][3], self.body_scope(module)))
        else:
            size = whole(self.value(gate.size, own_scope(module, True))) if gate.size else 0
        if not 0 <= size <= MOST:
            raise Fault("GateSize")
        return size

    def look_at_gates(self, module):
        """The sizes of the gates of a module, as they are declared."""
        its = module.type.gates
        if module.type.odd or any(it[0] or it[1] not in its or it[2] and not its[it[1]].vector for it in (module.line.gates if module.line else [])):
            raise Fault("NoGate")
        return {name: self.declared_size(module, name) for name in its}

    def finished_size(self, module, name):
        if not module.parent or module.plan is not None or not module.type.gates[name].vector:
            return self.declared_size(module, name)
        return self.wiring(module.parent).sizes[module.place, name]

    def wiring(self, module):
        return self.once(("inside", module.site), lambda: self.wired(module, False))

    def wired(self, module, with_channels):
        wiring = Wiring()
        for line in module.type.subs:
            for at in self.elements(module, line):
                made = self.submodule(module, line, at)
                for name, size in self.look_at_gates(made).items():
                    wiring.sizes[made.place, name] = size
        for (clauses, lines), home in module.type.items:
            for loops in self.turns(module, wiring, clauses, {}):
                for line in lines:
                    for inner in self.turns(module, wiring, line[0], loops):
                        self.connect(module, wiring, line, home, inner, with_channels)
        return wiring

    def turns(self, module, wiring, clauses, loops):
        """The values of the loops' variables, for each turn of them of which all conditions hold."""
        if not clauses:
            yield loops
            return
        scope, first = own_scope(module, True, loops), clauses[0]
        if first[0] == "if":
            if truth(self.value(first[1], scope)):
                yield from self.turns(module, wiring, clauses[1:], loops)
            return
        begin = whole(self.value(first[2], scope))
        for at in range(begin, whole(self.value(first[3], scope)) + 1):
            wiring.turns += 1
            if wiring.turns > 1000000:
                raise Fault("TooManyTurns")
            yield from self.turns(module, wiring, clauses[1:], {**loops, first[1]: ("whole", at)})

    def connect(self, module, wiring, line, home, loops, with_channels):
        _, left, arrow, channel, right = line
        both, scope = arrow == "<-->", own_scope(module, True, loops)
        one = self.end(module, wiring, left, scope, both, arrow != "<--")
        other = self.end(module, wiring, right, scope, both, arrow == "<--")
        ways = [(one, other), (other, one)][: 2 if both else 1] if arrow != "<--" else [(other, one)]
        for begin, end in ways:
            source, target = self.half(begin, True), self.half(end, False)
            made = self.channel(module, source, channel, home, loops) if with_channels and channel else None
            wiring.links[source] = (target, made)

    def half(self, end, is_source):
        place, name, direction, at = end
        if direction == "inout":
            return (place, name, "o" if is_source == (place is not None) else "i", at)
        return (place, name, "", at)

    def end(self, module, wiring, end, scope, both, is_source):
        """An end, as it is used by this connection: whose gate it is, its name, direction and index."""
        sub, sub_index, name, half, index = end
        owner, place = module, None
        at = None if sub_index is None else whole(self.value(sub_index, scope))
        if sub is not None:
            owner = self.child(module, sub, at)
            if not owner:
                raise Fault("NoGate")
            place = owner.place
        gate = owner.type.gates.get(name)
        if not gate:
            raise Fault("NoGate")
        wanted = ("output" if is_source else "input") if place else ("input" if is_source else "output")
        if both and (half or gate.direction != "inout"):
            raise Fault("NoGate")
        if not both and gate.direction == "inout" and half != wanted[0]:
            raise Fault("NoGate")
        if not both and gate.direction != "inout" and (half or gate.direction != wanted):
            raise Fault("NoGate")
        if gate.vector != (index is not None):
            raise Fault("NoGate")
        halves = ("i", "o") if both else (half,)
        at = self.index(wiring, owner, place, name, halves, index, scope) if gate.vector else 0
        for it in halves:
            if (place, name, it, at) in wiring.used:
                raise Fault("AlreadyConnected")
        wiring.used |= {(place, name, it, at) for it in halves}
        return (place, name, gate.direction, at)

    def index(self, wiring, owner, place, name, halves, index, scope):
        at = 0 if index == "++" else whole(self.value(index, scope))
        size = wiring.sizes[place, name] if place else self.finished_size(owner, name)
        if index == "++":
            while any((place, name, it, at) in wiring.used for it in halves):
                at += 1
            if at == size and place and size < MOST:
                wiring.sizes[place, name] = size = at + 1
        if not 0 <= at < size:
            raise Fault("GateSize")
        return at

    # ---- channels: what one does is its rate (none for one without), its delay, and whether it is disabled
    def channel(self, module, source, channel, home, loops):
        place, name, half, at = source
        owner = self.child(module, *place) if place else module
        brackets = f"[{at}]" if owner.type.gates[name].vector else ""
        path = f"{owner.path}.{name}{'$' + half if half else ''}{brackets}.channel"
        flat = self.types.look_at_channel(channel, home)
        made = Channel(path, flat, channel[1], module)
        made.loops = loops
        found = {name: self.parameter(made, name) for name in flat.parameters}
        # the built-in channel at the root says what it does; other parameters have values and no effect
        values = {it[0]: found[it[0]] for it in BUILT_IN.get(flat.root, [])}
        if values.get("delay", (0, 0))[1] < 0 or values.get("datarate", (0, 0))[1] < 0 or any(values.get(it, (0, 0))[1] for it in ("ber", "per")):
            raise Fault("Mismatch")
        rate = values["datarate"][1] if "datarate" in values else None
        return (rate, values.get("delay", (0, 0))[1], values.get("disabled", (0, False))[1])

    # ---- the whole inside of a module, with the path of what is at fault
    def inside_of(self, module):
        if module.site not in self.insides:
            self.insides[module.site] = self.inside(module)
        return self.insides[module.site]

    def inside(self, module):
        """The submodules of a module, and its connections."""
        made = []
        for line in module.type.subs:
            with At(f"{module.path}.{line.name}"):
                elements = self.elements(module, line)
            for at in elements:
                with At(f"{module.path}.{line.name}" + ("" if at is None else f"[{at}]")):
                    made.append(self.submodule(module, line, at))
                    self.look_at_values(made[-1])
        with At(module.path):
            wiring = self.wired(module, True)
            self.look_for_free(module, made, wiring)
        return made, wiring

    def look_at_all(self, module):
        with At(module.path):
            self.look_at_values(module)

    def look_at_values(self, module):
        for name in module.type.parameters:
            self.parameter(module, name)
        self.look_at_gates(module)

    def look_for_free(self, module, made, wiring):
        if module.type.allows:
            return
        for it in [*made, module]:
            place = it.place if it is not module else None
            for name, gate in it.type.gates.items():
                size = wiring.sizes[place, name] if place else self.finished_size(module, name)
                loose = gate.loose or place and any(line[1] == name and line[4] for line in it.line.gates)
                for half in ("i", "o") if gate.direction == "inout" else ("",):
                    if not loose and any((place, name, half, at) not in wiring.used for at in range(size)):
                        raise Fault("Unconnected")


class At:
    """Gives a fault without a path this one."""

    def __init__(self, path):
        self.path = path

    def __enter__(self):
        pass

    def __exit__(self, _, fault, __):
        if isinstance(fault, Fault) and fault.path is None:
            raise Fault(fault.name, self.path)
