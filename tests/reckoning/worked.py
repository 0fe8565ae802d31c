"""Runs in which modules come and go, worked by hand from the rules. Some of their modules are no modules of the program: each says what it does at its start and at
its timer, which is set for a second later as long as it has something left to do."""
from modules import SECOND, Message
from reckon import Session, Texts
from run import CLASSES

DECLARED = """simple Source { parameters: int count; int bits; double start @unit(s) = default(0s); double gap @unit(s) = default(1s); gates: output out; }
simple Sink { parameters: @statistic[rx](record=count,vector); gates: input in; }
simple Tick { parameters: int count; double gap @unit(s) = default(1s); int priority = default(0); int late = default(0); int extra = default(0); @statistic[fired](record=count,max,vector); }
simple Spawner { parameters: double delay @unit(s) = default(5s); bool polite = default(false); }
simple Ports { gates: input in[]; }
channel Line extends DelayChannel {}
moduleinterface Any {}
module House { parameters: @statistic[rx](record=count); gates: input in; submodules: k: Sink; connections: in --> k.in; }
module Pair { submodules: x: Sink; y: Sink; connections allowunconnected: }
"""
EIGHT = Message(0, 0, 8, b"")


def sink(path, name="w", index=None):
    return ("create", path, name, index, ("Sink", (), ()))


def of_type(kind, values=(), sizes=()):
    return ("create", "N", "w", None, (kind, values, sizes))


def direct(path, delay, name="in", index=0):
    return ("send_direct", path, name, index, EIGHT, delay, 0)


def acting(*steps, last=()):
    """A module that does one of these after another: at its start, a second later, and so on."""

    class Acting:
        initial = staticmethod(lambda: 0)

        @staticmethod
        def handle(call):
            if call.message or call.state >= len(steps):
                return [], call.state
            at = call.state + 1
            return [*steps[at - 1], *([("schedule", SECOND, 0)] if at < len(steps) else [])], at

        @staticmethod
        def finish(state, now):
            return list(last)

    return Acting


WIRED = (("connect", "N.s", "out", 0, "N.k", "in", 0, (10**9, 0)),), (("disconnect", "N.s", "out", 0),)


class Wire:
    """Joins two gates at 1 s, and frees the first at 2.5 s."""

    initial = staticmethod(lambda: 0)

    @staticmethod
    def handle(call):
        if call.starts:
            return [("schedule", SECOND, 0)], 0
        if call.state == 0:
            return [*WIRED[0], ("schedule", 1500 * 10**9, 0)], 1
        return [*WIRED[1]], 2


def at_one(*actions, last=()):
    return acting((), actions, last=last)


# Each: what stands in the network besides what is declared, what the module m does, lines of the ini text, command lines, and what is answered. After the answers
# may stand the lines of both files behind the header.
INSIDE = "submodules: h: House; m: Maker; connections allowunconnected:"
ALONE = "submodules: m: Maker;"
WIRES = "submodules: s: Source; k: Sink; c: Maker; j: Sink; connections allowunconnected:"
FED = ["**.start = 2s", "**.count = 2", "**.bits = 8"]
SPAWNS = "submodules: m: Spawner;"
DEEP = "submodules: m: Maker; a: A2;"


def fault(name, path="N.m", event=1):
    return [f"done fault {event} {path} {name} from start executed {event}"]


ROWS = {
    # 1 the Wire joins; 2 the first message is sent at 2 s, 3 and arrives; 4 the gate is freed at 2.5 s; 5 the second message leads nowhere
    "joined_and_freed": (WIRES, Wire, FED, ["run 100"], fault("NotConnected", "N.s", 5), [], ["vector 0 N.k rx:vector ETV", "0\t3\t2.001\t8"]),
    # where the gate leads is first asked in event 1
    "already_connected": (WIRES, Wire, FED, ["run 100", "connect N 0 s.out --> j.in;", "run 100"], [*fault("NotConnected", "N.s", 5), "edited valid 0", "done fault 1 N.c AlreadyConnected from 0 executed 1"]),
    # what has a delay of 1 s is on its way at 1 s to 2 s; the gate is freed in between, and what is on its way arrives
    "freed_before_it_arrives": (
        "submodules: s: Source; k: Sink; m: Maker; connections allowunconnected: s.out --> { delay = 1s; } --> k.in;",
        acting((), (), (("disconnect", "N.s", "out", 0), ("connect", "N.s", "out", 0, "N.k", "in", 0, None))),
        ["**.start = 1500ms", "**.count = 2", "**.bits = 8"],
        ["run 100"],
        ["done no-more-events from start executed 6"],
        ["scalar N.k rx:count 2"],
        ["vector 0 N.k rx:vector ETV", "0\t4\t2.5\t8", "0\t6\t2.5\t8"],
    ),
    # 1 one is made, 2 and started; 3 it goes, and another one is made, 4 and started. What was due at 6 s for the first one falls
    "spawner": (SPAWNS, None, [], ["run 100", "held"], ["done no-more-events from start executed 4", "held 2"], ["scalar N.w rx:count 0"], []),
    "spawner_polite": (SPAWNS, None, ["**.polite = true"], ["run 100", "held"], ["done no-more-events from start executed 4", "held 2"], ["scalar N.w rx:count 0"] * 2, []),
    # what arrives at 1.5 s is heard before it goes: 1 made, 2 started, 3 heard, 4 gone and made, 5 started
    "spawner_heard": (SPAWNS, None, ["**.polite = true", "**.delay = 500ms"], ["run 100"], ["done no-more-events from start executed 5"], ["scalar N.w rx:count 1", "scalar N.w rx:count 0"], ["vector 0 N.w rx:vector ETV", "0\t3\t1.5\t8"]),
    # a module that was made and not started has no statistics; one that goes impolitely has none either, but what it heard is a vector
    "start_beyond_the_limit": (SPAWNS, None, [], ["run 1", "held"], ["done event-limit from start executed 1", "held 1"], [], []),
    "spawner_impolite_and_heard": (SPAWNS, None, ["**.delay = 500ms"], ["run 4"], ["done event-limit from start executed 4"], [], ["vector 0 N.w rx:vector ETV", "0\t3\t1.5\t8"]),
    # whether it is polite is first read in event 3, how long the message takes in event 1
    "polite_edited": (SPAWNS, None, [], ["run 100", "ini insert 3 **.polite = true", "run 100"], ["done no-more-events from start executed 4", "edited valid 2", "done no-more-events from 0 executed 4"], ["scalar N.w rx:count 0"] * 2, []),
    "delay_edited": (SPAWNS, None, [], ["run 100", "ini insert 3 **.delay = 6s", "run 100"], ["done no-more-events from start executed 4", "edited valid 0", "done no-more-events from 0 executed 4"], ["scalar N.w rx:count 0"], []),
    # of which type it is, and that all its parameters have values, is asked in event 1; which value one has, as it is started
    "value_edited": (ALONE, at_one(of_type("Tick")), ["N.w.count = 1"], ["run 100", "ini insert 3 N.w.count = 2", "run 100"], ["done no-more-events from start executed 3", "edited valid 1", "done no-more-events from 0 executed 4"], ["scalar N.w fired:count 2", "scalar N.w fired:max 2"]),
    "value_taken_away": (ALONE, at_one(of_type("Tick")), ["N.w.count = 1"], ["run 100", "ini remove 3", "run 100"], ["done no-more-events from start executed 3", "edited valid 0", "done fault 1 N.w Unassigned from 0 executed 1"]),
    "type_by_a_line": (SPAWNS, None, [], ["run 100", "ini insert 3 **.w.typename = \"Tick\"", "run 100"], ["done no-more-events from start executed 4", "edited valid 4", "done no-more-events from 4 executed 0"], ["scalar N.w rx:count 0"], []),
    # messages from outside: none where it isn't started; the second one has the time and is the second module's
    "injected": (SPAWNS, None, [], ["inject N.w 1s -32768 0 7 -", "inject N.w 2500ms 0 0 9 -", "run 100"], ["edited valid none injection 1", "edited valid none injection 2", "done no-more-events from start executed 5"], ["scalar N.w rx:count 1"], ["vector 0 N.w rx:vector ETV", "0\t5\t2.5\t9"]),
    # its start event has a fault of its own where the class is none
    "unknown_class": ("types: simple Sink { @class(Foo); gates: input in; } submodules: m: Spawner;", None, [], ["run 100", "held"], [*fault("UnknownClass", "N.w", 2), "held 1"]),
    # the boxes that came before are held until the next run
    "unknown_class_at_setup": (
        "types: simple Strange { @class(Foo); } submodules: a: Sink; f: Strange; connections allowunconnected:",
        None,
        [],
        ["run 100", "held", "ini insert 3 **.a.x = 1", "held", "run 100", "held"],
        [*fault("UnknownClass", "N.f", 0), "held 1", "edited valid 0", "held 1", *fault("UnknownClass", "N.f", 0), "held 1"],
    ),
    # m is 2, w is 3, and in it a is 4 and z 5. The run to event 1 goes back to event 0, and drops the box of a
    "unknown_class_inside": (
        "types: module Sink { gates: input in; types: simple Strange { @class(Foo); gates: input in; } submodules: a: Sink; z: Strange; connections allowunconnected: in --> z.in; } submodules: m: Spawner;",
        None,
        [],
        ["run 100", "held", "ini insert 3 **.a.x = 1", "held", "run 1", "held"],
        [*fault("UnknownClass", "N.w.z", 2), "held 2", "edited valid 2", "held 2", "done event-limit from 0 executed 1", "held 1"],
    ),
    "no_such_type": ("types: channel Sink extends Line {} submodules: m: Spawner;", None, [], ["run 100"], fault("UnknownType", "N.w")),
    "namesake": ("submodules: w: Sink; m: Spawner; connections allowunconnected:", None, [], ["run 100"], fault("DuplicateName")),
    # both have their timer at 1 s; the start of what the first one makes goes before that of the second
    "two_spawners": ("submodules: m: Spawner; n: Spawner;", None, [], ["run 100"], fault("DuplicateName", "N.n", 3)),
    "no_gate": ("types: simple Sink {} submodules: m: Spawner;", None, [], ["run 100"], fault("NoGate")),
    "delay_too_long": (SPAWNS, None, ["**.delay = 9223372s"], ["run 100"], fault("TimeOverflow")),
    "delay_negative": (SPAWNS, None, ["**.delay = 1s - 2s"], ["run 100"], fault("ModuleFailed: delay")),
    "polite_of_another_kind": ("types: simple Rude { parameters: double delay @unit(s) = 5s; int polite = 1; @class(Spawner); } submodules: m: Rude;", None, [], ["run 100"], fault("ModuleFailed: polite", event=3)),
    "no_delay": ("types: simple Hasty { @class(Spawner); } submodules: m: Hasty;", None, [], ["run 100"], fault("NoParameter")),
    # ---- names, places and types
    "bad_name": (ALONE, acting([sink("N", "w.x")]), [], ["run 100"], fault("BadName", event=0)),
    "reserved_name": (ALONE, at_one(sink("N", "simple")), [], ["run 100"], fault("BadName")),
    "no_name": (ALONE, at_one(sink("N", "")), [], ["run 100"], fault("BadName")),
    "in_no_module": (ALONE, at_one(sink("N.z", "w.x")), [], ["run 100"], fault("NoModule")),
    "in_a_simple_module": (ALONE, at_one(sink("N.m", "w.x")), [], ["run 100"], fault("NoModule")),
    # an element and a module of its name are two
    "elements": (ALONE, at_one(sink("N", "m", 0), sink("N", "m", 1), sink("N", "m", 0)), [], ["run 100"], fault("DuplicateName")),
    "two_elements": (ALONE, at_one(sink("N", "m", 7), sink("N", "m", 1)), [], ["run 100", "held"], ["done no-more-events from start executed 3", "held 3"], ["scalar N.m[7] rx:count 0", "scalar N.m[1] rx:count 0"], []),
    "of_no_type": (ALONE, at_one(of_type("Zed")), [], ["run 100"], fault("UnknownType", "N.w")),
    "of_an_interface": (ALONE, at_one(of_type("Any")), [], ["run 100"], fault("UnknownType", "N.w")),
    "of_a_built_in_channel": (ALONE, at_one(of_type("IdealChannel")), [], ["run 100"], fault("UnknownType", "N.w")),
    # N has 1 name, the deepest module 32
    "deepest": (DEEP, at_one(sink("N" + ".a" * 30)), [], ["run 100"], ["done no-more-events from start executed 2"], ["scalar N" + ".a" * 30 + ".w rx:count 0"], []),
    "too_deep": (DEEP, at_one(sink("N" + ".a" * 31)), [], ["run 100"], fault("TooDeep", "N" + ".a" * 31 + ".w")),
    # ---- what a plan fixes
    "fixed_value": (ALONE, at_one(of_type("Tick", (("count", ("whole", 2)),))), ["**.count = 9"], ["run 100"], ["done no-more-events from start executed 4"], ["scalar N.w fired:count 2", "scalar N.w fired:max 2"], ["vector 0 N.w fired:vector ETV", "0\t3\t2\t1", "0\t4\t3\t2"]),
    "value_by_an_entry": (ALONE, at_one(of_type("Tick")), ["N.w.count = 1"], ["run 100"], ["done no-more-events from start executed 3"], ["scalar N.w fired:count 1", "scalar N.w fired:max 1"], ["vector 0 N.w fired:vector ETV", "0\t3\t2\t1"]),
    "no_value": (ALONE, at_one(of_type("Tick")), [], ["run 100"], fault("Unassigned", "N.w")),
    "value_of_another_kind": (ALONE, at_one(of_type("Tick", (("count", ("time", 2)),))), [], ["run 100"], fault("Mismatch", "N.w")),
    "value_of_no_parameter": (ALONE, at_one(of_type("Tick", (("cuont", ("whole", 2)),))), [], ["run 100"], fault("Mismatch", "N.w")),
    "size_of_no_vector": (ALONE, at_one(of_type("Sink", (), (("in", 1),))), [], ["run 100"], fault("NoGate", "N.w")),
    "size_negative": (ALONE, at_one(of_type("Ports", (), (("in", -1),))), [], ["run 100"], fault("GateSize", "N.w")),
    "size_given": (ALONE, at_one(of_type("Ports", (), (("in", 2),)), direct("N.w", 0, "in", 2)), [], ["run 100"], fault("NoGate")),
    # ---- modules that go
    # h has k inside, and at 1 s gets w, 2 which is started, 3 and hears a message at 1.5 s; 4 at 2 s all three are finished and go
    "house_with_what_was_made_in_it": (
        INSIDE,
        acting((), (sink("N.h"), direct("N.h.w", SECOND // 2)), (("delete", "N.h", True),)),
        [],
        ["run 100", "held"],
        ["done no-more-events from start executed 4", "held 1"],
        ["scalar N.h rx:count 1", "scalar N.h.k rx:count 0", "scalar N.h.w rx:count 1"],
        ["vector 0 N.h.w rx:vector ETV", "0\t3\t1.5\t8"],
    ),
    # its start falls with it: it was never started, so it is not finished
    "gone_before_its_start": (ALONE, at_one(sink("N"), ("delete", "N.w", True)), [], ["run 100", "held"], ["done no-more-events from start executed 1", "held 1"], [], []),
    # its start goes on without what is gone, 2 and what was made inside since has one of its own, 3
    "start_of_what_is_left": (
        ALONE,
        at_one(("create", "N", "b", None, ("Pair", (), ())), sink("N.b", "z"), ("delete", "N.b.x", True)),
        [],
        ["run 2", "held", "run 100", "held"],
        ["done event-limit from start executed 2", "held 2", "done no-more-events from 2 executed 1", "held 3"],
        ["scalar N.b.y rx:count 0", "scalar N.b.z rx:count 0"],
        [],
    ),
    # what is left of its reply and of the event is discarded, and it is finished as any other
    "deletes_itself": (
        ALONE,
        acting((), (("emit", "said", 1), ("delete", "N.m", True), ("emit", "said", 2)), (), last=[("record", "over", 1)]),
        [],
        ["run 100", "held"],
        ["done no-more-events from start executed 1", "held 0"],
        ["scalar N.m over 1"],
        ["vector 0 N.m said:vector ETV", "0\t1\t1\t1"],
    ),
    # t counts as started, and is not called
    "deletes_itself_at_its_start": ("submodules: m: Maker; t: Tick;", acting((("delete", "N.m", False),)), ["**.count = 1"], ["run 100", "held"], ["done no-more-events from start executed 0", "held 1"], ["scalar N.t fired:count 0"], []),
    "network_stays": (ALONE, at_one(("delete", "N", False)), [], ["run 100"], fault("NoModule")),
    "of_no_module": (ALONE, at_one(("delete", "N.w", False)), [], ["run 100"], fault("NoModule")),
    # what is on its way from a module that goes arrives
    "sent_and_gone": (
        "submodules: s: Source; k: Sink; m: Maker; connections: s.out --> { delay = 1s; } --> k.in;",
        at_one(("delete", "N.s", False)),
        ["**.start = 500ms", "**.count = 5", "**.bits = 8"],
        ["run 100", "held"],
        ["done no-more-events from start executed 3", "held 2"],
        ["scalar N.k rx:count 1"],
        ["vector 0 N.k rx:vector ETV", "0\t3\t1.5\t8"],
    ),
    # a gate that leads to a module that is gone leads nowhere, also where another one has its name
    "leads_to_the_dead": (
        "submodules: s: Source; k: Sink; m: Maker; connections: s.out --> k.in;",
        at_one(("delete", "N.k", False), sink("N", "k")),
        ["**.start = 1500ms", "**.count = 1", "**.bits = 8"],
        ["run 100"],
        fault("NotConnected", "N.s", 3),
    ),
    # the new one can be joined: 1 made and joined, 2 started, 3 sent, 4 heard
    "joined_to_a_new_one": (
        "submodules: s: Source; k: Sink; m: Maker; connections: s.out --> k.in;",
        at_one(("delete", "N.k", False), sink("N", "k"), ("connect", "N.s", "out", 0, "N.k", "in", 0, (SECOND, 8))),
        ["**.start = 1500ms", "**.count = 1", "**.bits = 8"],
        ["run 100"],
        ["done no-more-events from start executed 4"],
        ["scalar N.k rx:count 1"],
        ["vector 0 N.k rx:vector ETV", "0\t4\t3.5\t8"],
    ),
    "joined_twice": (
        "submodules: s: Source; k: Sink; m: Maker; connections allowunconnected:",
        at_one(("connect", "N.s", "out", 0, "N.k", "in", 0, None), ("connect", "N.s", "out", 0, "N.k", "in", 0, None)),
        ["**.start = 1500ms", "**.count = 1", "**.bits = 8"],
        ["run 100"],
        fault("AlreadyConnected"),
    ),
    "direct_to_what_is_joined": (
        "submodules: s: Source; k: Sink; m: Maker; connections allowunconnected:",
        at_one(("connect", "N.s", "out", 0, "N.k", "in", 0, None), direct("N.k", 0)),
        ["**.start = 1500ms", "**.count = 1", "**.bits = 8"],
        ["run 100"],
        fault("AlreadyConnected"),
    ),
    # ---- the end
    "ended": (ALONE, acting((), (("emit", "said", 1), ("end",), ("emit", "said", 2)), ()), [], ["run 100"], ["done ended from start executed 1"], [], ["vector 0 N.m said:vector ETV", "0\t1\t1\t1"]),
    "makes_at_the_end": (ALONE, acting((), last=[sink("N.z")]), [], ["run 100"], ["done fault 0 N.m NotInFinish from start executed 0"]),
    "makes_as_it_goes": (ALONE, acting((), (("delete", "N.m", True),), last=[sink("N.z")]), [], ["run 100"], fault("NotInFinish")),
}


def deep():
    """Modules in one another: the deepest of them is the 32nd with the network."""
    lines = [f"module A{it} {{ submodules: a: A{it + 1}; }}\n" for it in range(2, 32)]
    return "".join(lines) + "module A32 {}\n"


def behind(text):
    """The lines of a file behind its header."""
    return [it for it in text.split("\n\n", 1)[1].split("\n") if it]


def worked(row):
    """What a row comes to, and what was worked out."""
    network, kind, entries, commands, *wanted = row
    if kind:
        CLASSES["Maker"] = kind
    maker = "simple Maker { parameters: @statistic[said](record=vector); }\n" if kind else ""
    ned = DECLARED + maker + (deep() if "A2" in network else "") + f"network N {{ {network} }}\n"
    session = Session(Texts("\n".join(["[General]", "network = N", *entries]) + "\n", [ned]), 10)
    answers = [session.held() if it == "held" else session.run(int(it[4:])) if it.startswith("run") else session.edit(it) for it in commands]
    return [answers, behind(session.last.scalars), behind(session.last.vectors)][: len(wanted)], wanted


def differing_rows():
    """How many rows there are, and the first that comes to something else, with both."""
    for name, row in ROWS.items():
        found, wanted = worked(row)
        if found != wanted:
            return len(ROWS), (name, found, wanted)
    return len(ROWS), None
