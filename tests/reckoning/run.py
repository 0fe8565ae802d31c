"""A fresh run of a model: its events one after another, and what is recorded."""
import heapq

import modules
import network_modules
from model import DEEPEST, MOST, NAME
from modules import Call
from ned import WORDS, NotReckoned
from values import Fault

CLASSES = {**modules.CLASSES, **network_modules.CLASSES}

LATEST = 2**63 - 1
RECORDS = 1000000
FIRST = -(2**15)
LAST_ACTIONS = ("emit", "record", "cancel", "fail")


class Part:
    """A module of a run, from its creation on: what the model has of it, the part around it, what was created in it by then, and what became of it."""

    def __init__(self, number, module, parent):
        self.number, self.module, self.parent, self.children = number, module, parent, []
        self.path, self.type, self.simple = module.path, module.type, module.type.kind == "simple"
        self.live, self.started, self.finished, self.state = True, False, False, None
        if parent:
            parent.children.append(self)

    def subtree(self):
        """The part and all that live in it, each before what is inside of it."""
        return [self, *(one for it in self.children if it.live for one in it.subtree())]

    def inside_out(self):
        """The same, each behind what is inside of it."""
        return [*(one for it in self.children if it.live for one in it.inside_out()), self]

    def built(self, place):
        """What was built in it with that name and index; none where it is dead or was never there."""
        found = [it for it in self.children if it.module.place == place and it.module.plan is None]
        return found[0] if found and found[0].live else None


class Start:
    """What happens to a part at its start: those from it up to the last number are started."""

    def __init__(self, last):
        self.last = last


class Stopped(Exception):
    """The rest of an event is discarded."""


class World:
    """What a run has come to. `asked` are the questions to the model: the event that asks, the question, the answer."""

    def __init__(self, model, messages, limit):
        self.model, self.messages, self.limit = model, sorted(messages, key=lambda it: (it.time, it.priority, it.number)), limit
        self.now, self.count, self.inserted, self.delivered = 0, 0, 0, ()
        self.events, self.parts, self.living, self.waiting, self.ends, self.changes = [], [], 0, 0, {}, {}
        self.emitted, self.scalars, self.asked, self.outcome, self.ended = [], [], [], None, False
        self.event, self.is_noted = 0, True

    # ---- questions
    def ask(self, *question):
        answer = answer_of(self.model, self.messages, question)
        if self.is_noted:
            self.asked.append((self.event, question, answer))
        return answer

    def value(self, part, name):
        """A parameter of a module; none where it has none."""
        return self.ask("parameter", part.module.site, name)

    def found(self, *question):
        """The answer to a question, which is no fault."""
        answer = self.ask(*question)
        if isinstance(answer, Failure):
            raise Fault(answer.name, answer.path)
        return answer

    # ---- setup
    def run(self):
        try:
            self.begin()
            while not self.outcome:
                self.step()
            self.finish()
        except Fault as fault:
            self.outcome = f"fault {self.count} {fault.path} {fault.name}"

    def begin(self):
        self.found("root")
        network = self.add(self.model.network, None)
        self.set_up(network)
        try:
            self.start(network, self.parts)
        except Stopped:
            pass

    def add(self, module, parent):
        self.parts.append(Part(len(self.parts) + 1, module, parent))
        self.living += 1
        return self.parts[-1]

    def room(self):
        """How many modules more there may be."""
        return min(MOST - self.living, RECORDS - len(self.parts))

    def set_up(self, part):
        self.found("inside", part.module.site)
        made, room = self.model.inside_of(part.module)[0], self.room()
        if len(made) > room:
            raise Fault("TooManyModules", made[room].path)
        for it in [self.add(it, part) for it in made]:
            if not it.simple:
                self.set_up(it)

    def start(self, first, parts):
        """Starts these parts, which are all in the first: their boxes come, then they are called."""
        wanted = [it for it in parts if it.simple]
        for it in wanted:
            if it.type.class_ not in CLASSES:
                raise Fault("UnknownClass", it.path)
            self.waiting += 1
        self.waiting = 0
        for it in wanted:
            it.state = CLASSES[it.type.class_].initial()
        for it in parts:
            it.started = True
        wanted = set(wanted)
        for it in first.subtree():
            if it in wanted and it.live:
                self.call(it, None, True)

    def held(self):
        """How many boxes there are: those of the modules that were started, and those that came for a start that failed."""
        return sum(it.live and it.started and it.simple for it in self.parts) + self.waiting

    def at(self, path):
        """The module of that path that lives."""
        return next((it for it in self.parts if it.live and it.path == path), None)

    # ---- events
    def step(self):
        if self.ended:
            self.outcome = "ended"
            return
        if self.count == self.limit:
            self.outcome = "event-limit"
            return
        self.event = self.count + 1
        found = self.pick()
        if not found:
            self.outcome = self.outcome or "no-more-events"
            return
        (self.now, part, what), self.count = found, self.count + 1
        try:
            if isinstance(what, Start):
                self.start(part, [it for it in self.parts[part.number - 1 : what.last] if it.live])
            else:
                self.call(part, what, False)
        except Stopped:
            pass

    def pick(self):
        """The next event: its time, module and message; none where the run ends before it."""
        while True:
            key = self.events[0][:2] if self.events else None
            outside = self.ask("message", key, self.delivered)
            if outside:
                self.delivered += (outside.number,)
                target = self.at(outside.path)
                if not target or not target.simple or not target.started:
                    continue
                found = (outside.time, target, outside)
            elif not self.events:
                return None
            else:
                found = (self.events[0][0], *self.events[0][3:])
            if self.ask("beyond", found[0]):
                self.outcome = "time-limit"
                return None
            if not outside:
                heapq.heappop(self.events)
            return found

    def finish(self):
        """Tells the modules that were started that the run is over. What they ask then belongs to no event."""
        self.is_noted = False
        for it in self.parts[0].inside_out():
            self.finish_one(it)

    def finish_one(self, part):
        if not part.started:
            return
        kind = CLASSES[part.type.class_] if part.simple else None
        if hasattr(kind, "finish"):
            self.do(part, kind.finish(part.state, self.now), True)
        part.finished = True

    def insert(self, time, priority, part, what):
        self.inserted += 1
        heapq.heappush(self.events, (time, priority, self.inserted, part, what))

    def call(self, part, message, starts):
        """Calls a module, and does what it answers."""
        call = Call(self, part, message, starts)
        actions, state = CLASSES[part.type.class_].handle(call)
        if call.absent:
            raise Fault(call.absent[0], part.path)
        if call.wrong:
            actions = [("fail", call.wrong[0])]
        else:
            part.state = state
        self.do(part, actions, False)

    def do(self, part, actions, is_last):
        """Does actions of a module one after another."""
        try:
            if len(actions) > 1000:
                raise Fault("TooManyActions")
            for name, *how in actions:
                if any(isinstance(it, modules.Message) and len(it.payload) > 4096 for it in how):
                    raise Fault("PayloadTooLarge")
                if is_last and name not in LAST_ACTIONS:
                    raise Fault("NotInFinish")
                getattr(self, name)(part, *how)
        except Fault as fault:
            raise Fault(fault.name, fault.path or part.path) from fault

    # ---- actions
    def fail(self, _, text):
        raise Fault(f"ModuleFailed: {text}")

    def emit(self, part, signal, value):
        if value > LATEST:
            raise Fault("ModuleFailed: bits")
        self.emitted.append((part, signal, self.count, self.now, value))

    def record(self, part, name, value):
        self.scalars.append((part, name, value))

    def schedule(self, part, delay, priority):
        """Sets the module's one timer."""
        time = self.time(self.now + delay)
        if any(self.is_timer(it, part) for it in self.events):
            raise Fault("AlreadyScheduled")
        self.insert(time, priority, part, None)

    def cancel(self, part):
        """Takes the module's timer back, if it is pending."""
        self.keep(lambda it: not self.is_timer(it, part))

    def keep(self, is_kept):
        self.events = [it for it in self.events if is_kept(it)]
        heapq.heapify(self.events)

    @staticmethod
    def is_timer(event, part):
        return event[3] is part and event[4] is None

    def time(self, time):
        if time > LATEST:
            raise Fault("TimeOverflow")
        return time

    def end(self, _):
        self.ended = True
        raise Stopped

    # ---- modules that come and go
    def create(self, _, path, name, index, plan):
        """Creates a module as planned: the name of its type, values and sizes."""
        around = self.target(path)
        if around.simple:
            raise Fault("NoModule")
        if not NAME.fullmatch(name) or name in WORDS:
            raise Fault("BadName")
        if any(it.live and it.module.place == (name, index) for it in around.children):
            raise Fault("DuplicateName")
        site = (*around.module.site, (name, index, plan))
        if self.room() < 1:
            raise Fault("TooManyModules", path_of(site))
        if around.module.depth == DEEPEST:
            raise Fault("TooDeep", path_of(site))
        self.found("type", site)
        made = self.add(at_site(self.model, site), around)
        if not made.simple:
            self.set_up(made)
        self.insert(self.now, FIRST, made, Start(len(self.parts)))

    def target(self, path):
        found = self.at(path)
        if not found:
            raise Fault("NoModule")
        return found

    def delete(self, part, path, politely):
        """Deletes a module with all that is inside of it."""
        gone = self.target(path)
        if not gone.parent:
            raise Fault("NoModule")
        for it in gone.inside_out() if politely else []:
            self.finish_one(it)
        for it in gone.subtree():
            it.live = False
            self.living -= 1
        self.keep(lambda it: it[3].live)
        if not part.live:
            raise Stopped

    # ---- gates
    def gate(self, part, name, index, direction):
        """Sees that a gate is there, and of that direction."""
        found = self.ask("gate", part.module.site, name)
        if not found or found[0] != direction or not index < found[1]:
            raise Fault("NoGate")

    def free(self, part, name, index):
        """Sees that nothing is connected to an input gate from outside."""
        back = self.ask("back", part.module.site, *halves(name), index)
        if back:
            place, name_back, half, at = back
            owner = part.parent.built(place) if place else part.parent
            if owner and (owner, joined(name_back, half), at) not in self.changes:
                raise Fault("AlreadyConnected")
        for (owner, *_), to in self.changes.items():
            if to and owner.live and to[:3] == (part, name, index):
                raise Fault("AlreadyConnected")

    def connect(self, _, path, name, index, to_path, to_name, to_index, link):
        """Joins an output gate to an input gate, over a channel of a delay and a rate, or none."""
        source, target = self.target(path), self.target(to_path)
        self.gate(source, name, index, "output")
        self.gate(target, to_name, to_index, "input")
        if self.hop(source, name, index, True):
            raise Fault("AlreadyConnected")
        self.free(target, to_name, to_index)
        self.change(source, name, index, (target, to_name, to_index, link and (link[1], link[0], False)))

    def disconnect(self, _, path, name, index):
        """Frees an output gate."""
        source = self.target(path)
        self.gate(source, name, index, "output")
        if not self.hop(source, name, index, True):
            raise Fault("NotConnected")
        self.change(source, name, index, None)

    def change(self, part, name, index, to):
        self.changes[part, name, index] = to
        self.ends.pop((part, name, index, True), None)

    # ---- messages
    def send(self, part, name, half, index, message):
        name = name + half
        self.gate(part, name, index, "output")
        self.travel(message, self.now, *self.chain(part, name, index, True))

    def send_direct(self, _, path, name, index, message, delay, duration):
        """Sends a message to a gate of a module, from where it goes on inside of a compound one."""
        target = self.target(path)
        self.gate(target, name, index, "input")
        self.free(target, name, index)
        time = self.time(self.now + delay + duration)
        if target.simple:
            self.insert(time, message.priority, target, message.at(name))
        else:
            self.travel(message, time, *self.chain(target, name, index, False))

    def travel(self, message, time, hops, target):
        """A message goes over these hops, from that time on."""
        if sum(it[1] is not None and it[1][0] is not None for it in hops) > 1:
            raise Fault("TwoTransmissionChannels")
        duration = 0
        for gate, channel in hops:
            rate, delay, disabled = channel or (None, 0, False)
            if disabled:
                return
            if rate is not None:
                if time < self.ends.get(gate, 0):
                    raise Fault("Busy")
                duration = -(-message.bits * 10**12 // rate) if rate else 0
                self.ends[gate] = self.time(time + duration)
            time = self.time(time + delay)
        self.insert(self.time(time + duration), message.priority, target[0], message.at(target[1]))

    def chain(self, part, name, index, outside):
        """The hops from a gate on, each the gate where it begins and its channel, and the module and the gate where they end."""
        hops = []
        while True:
            found = self.hop(part, name, index, outside)
            if not found:
                raise Fault("NotConnected")
            hops.append(((part, name, index, outside), found[3]))
            if len(hops) > 1000:
                raise NotReckoned("more than 1,000 hops")
            part, name, index = found[:3]
            outside = found[4]
            if part.simple:
                return hops, (part, name)

    def hop(self, part, name, index, outside):
        """Where a gate leads, on its outer side or its inner one: the module, its gate, the channel, and whether that leads on outside; none where it leads nowhere.
        One that was joined or freed is as it was left; a module that is dead is not there."""
        if outside and (part, name, index) in self.changes:
            to = self.changes[part, name, index]
            return (*to, False) if to and to[0].live else None
        found = self.ask("hop", part.module.site, *halves(name), index, outside)
        if not found:
            return None
        (place, name, half, at), channel = found
        around = part.parent if outside else part
        target = around.built(place) if place else around
        return target and (target, joined(name, half), at, channel, place is None)


def halves(name):
    """A gate and its half, none of one that has none."""
    plain, _, half = name.partition("$")
    return plain, half


def joined(name, half):
    return f"{name}${half}" if half else name


def path_of(site):
    return ".".join(name if index is None else f"{name}[{index}]" for name, index, _ in site)


class Failure:
    """A fault as an answer."""

    def __init__(self, fault):
        self.name, self.path = fault.name, fault.path

    def __eq__(self, other):
        return isinstance(other, Failure) and (self.name, self.path) == (other.name, other.path)


def at_site(model, site):
    """The module that stands there in the model; none where it has none. A part of a site is a name, an index, and the plan of what was created."""
    found = model.network
    if site[0][0] != found.path:
        return None
    for name, index, plan in site[1:]:
        if found.type.kind == "simple":
            return None
        found = model.child(found, name, index) if plan is None else model.created(found, name, index, plan)
        if not found:
            return None
    return found


def answer_of(model, messages, question):
    """What a model answers to a question. A module that it hasn't is answered by none."""
    kind = question[0]
    if kind == "message":
        left = [it for it in messages if it.number not in question[2]]
        return left[0] if left and (question[1] is None or (left[0].time, left[0].priority) < question[1]) else None
    if kind == "beyond":
        limit = model.ini.limit()
        return limit is not None and question[1] > limit
    if kind == "root":
        return root_of(model)
    if kind == "type":
        return type_of(model, question[1])
    module = at_site(model, question[1])
    if not module:
        return None
    if kind == "inside":
        return inside_of(model, module)
    if kind == "parameter":
        return model.parameter(module, question[2]) if question[2] in module.type.parameters else None
    if kind == "gate":
        return gate_of(model, module, question[2])
    return (hop_of if kind == "hop" else back_of)(model, module, *question[2:])


def root_of(model):
    try:
        model.look_at_all(model.network)
    except Fault as fault:
        return Failure(fault)
    return model.network.path


def class_of(module):
    return module.type.class_ if module.type.kind == "simple" else "compound"


def type_of(model, site):
    """The class of a module that is created: its type, its values and its sizes have no fault."""
    around = at_site(model, site[:-1])
    if not around or around.type.kind == "simple":
        return None
    try:
        made = model.created(around, *site[-1])
        model.look_at_created(made)
    except Fault as fault:
        return Failure(Fault(fault.name, path_of(site)))
    return class_of(made)


def inside_of(model, module):
    """The submodules of a module, by their names, indices and classes."""
    if module.type.kind == "simple":
        return None
    try:
        made = model.inside_of(module)[0]
    except Fault as fault:
        return Failure(fault)
    return [(*it.place, class_of(it)) for it in made]


def gate_of(model, module, name):
    """The direction of a gate, or of a half, and how many there are."""
    plain, half = halves(name)
    gate = module.type.gates.get(plain)
    if not gate or half and gate.direction != "inout":
        return None
    return ({"i": "input", "o": "output", "": gate.direction}[half], model.finished_size(module, plain))


def hop_of(model, module, name, half, index, outside):
    """Where a gate leads: whose gate of the module around, or of its own, that is, and the channel. Nothing was connected to what was created from outside."""
    around = module if not outside else None if module.plan is not None else module.parent
    return around and model.inside_of(around)[1].links.get((module.place if outside else None, name, half, index))


def back_of(model, module, name, half, index):
    """The gate from which a message comes to a gate from outside."""
    if not module.parent or module.plan is not None:
        return None
    links = model.inside_of(module.parent)[1].links
    return next((source for source, (target, _) in links.items() if target == (module.place, name, half, index)), None)


def valid_to(world, model, messages, known):
    """Up to which of the events that are known a run is that of another model; none where its setup is not."""
    for event, question, answer in world.asked:
        if event <= known and not answer_of(model, messages, question) == answer:
            return event - 1 if event else None
    return known
