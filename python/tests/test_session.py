"""What a session refuses, and how it ends, whatever happens to its program."""
from __future__ import annotations

import os
import pathlib
import pickle
import re
import signal
import stat
import time

import pytest
from conftest import PROGRAM, TOP, example

from soldrich import NoAnswer, PipeBroken, ProgramEnded, Refused, Session, SessionClosed, SoldrichError
from soldrich.program import find_program
from soldrich.sources import Source

TICK = (example("three_ticks").folder / "three_ticks.ned").read_bytes()
INI = b"[General]\nnetwork = N\n**.count = 3\n"


def begin(ini: bytes = INI, ned: bytes = TICK, **options) -> Session:
    return Session(Source("x.ini", ini), [Source("x.ned", ned)], **options)


@pytest.fixture
def session():
    with begin() as it:
        yield it


def is_alive(pid: int) -> bool:
    try:
        os.kill(pid, 0)
    except ProcessLookupError:
        return False
    return True


# --- refusals

EDITS = [
    (lambda it: it.replace(3, "**.count = ("), "IniSyntax", 3, "x.ini:3: the value '('"),
    (lambda it: it.insert(9, "x = 1"), "NoSuchLine", None, "x.ini: there is no line of that number"),
    (lambda it: it.remove(4), "NoSuchLine", None, "the text has 3 lines"),
    (lambda it: it.replace(2, "network = M"), "NoSuchNetwork", None, "x.ini:2: "),
    (lambda it: it.remove(1), "IniSyntax", 1, "x.ini:1: no section stands before this entry"),
    (lambda it: it.config("Slow"), "NoSuchConfig", None, "there is no configuration 'Slow'"),
    (lambda it: it.ned(1, Source("x.ned", TICK)), "NoSuchFile", None, "they count from 0"),
    (lambda it: it.ned(0, Source("cut.ned", b"simple Tick\n{\n")), "NedSyntax", 2, "cut.ned:2: "),
    (
        lambda it: it.ned(0, Source("long.ned", b" " * ((1 << 20) + 1))),
        "TooLarge",
        None,
        "long.ned: the file is longer than 1 MiB",
    ),
    (lambda it: it.ned(0, Source("t.ned", TICK + b"simple Tick {}\n")), "DuplicateType", None, "Tick"),
    (
        lambda it: it.ned(0, Source("t.ned", TICK.replace(b"t: Tick", b"t: Tock"))),
        "UnknownType",
        None,
        "did you mean 'Tick'?",
    ),
    (lambda it: it.ned(0, Source("t.ned", TICK + b"simple A extends A {}\n")), "InheritanceCircle", None, "A"),
    (lambda it: it.ned(0, Source("t.ned", TICK.replace(b"t: Tick;", b"t: Tick; t: Tick;"))), "KindClash", None, "t"),
    (
        lambda it: it.ned(0, Source("t.ned", TICK + b"moduleinterface I { gates: input g; }\nsimple A like I {}\n")),
        "Interface",
        None,
        "g",
    ),
    (lambda it: it.connect("Zed", 0, "a.out --> b.in;"), "NoSuchType", None, "'Zed'"),
    (lambda it: it.connect("N", 0, "a.out -->"), "NedSyntax", 1, "the connection"),
    (lambda it: it.disconnect("N", 0), "NoSuchConnection", None, "places count from 0"),
    (lambda it: it.withdraw(1), "NoSuchInjection", None, "no message of that number"),
    (lambda it: it.inject("N.t", "9s", payload=b"0" * 4097), "TooLarge", None, "4096"),
    (lambda it: it.inject("N.t", "9 s"), "Command", None, "inject"),
    (lambda it: it.config("A "), "Command", None, "none after the last"),
    (lambda it: it.undo(), "NoUndo", None, ""),
    (lambda it: it.run(1 << 64), "Command", None, "run N"),
    (lambda it: it.insert(3, "# " + "x" * 65536), "TooLarge", None, "65536 bytes"),
]


@pytest.mark.parametrize("edit, name, line, told", EDITS, ids=[f"{at}-{it[1]}" for at, it in enumerate(EDITS)])
def test_an_edit_that_is_refused_changes_nothing(session, edit, name, line, told):
    before = session.ini_lines(), session.positions(), [it.read_bytes() for it in session.write()]
    with pytest.raises(Refused) as refused:
        edit(session)
    assert (refused.value.name, refused.value.line) == (name, line)
    assert told in refused.value.explanation
    # (it speaks of the paths that were given, and not of the session's copies)
    assert "/soldrich-" not in refused.value.explanation
    assert before == (session.ini_lines(), session.positions(), [it.read_bytes() for it in session.write()])


TEXTS = [
    (INI, TICK + b";", "NedSyntax", 0, TICK.count(b"\n") + 1, "unexpected ';'"),
    (b"[General]\nnetwork = N\n**.count = (\n", TICK, "IniSyntax", None, 3, "x.ini:3: "),
    (INI, TICK + TICK, "DuplicateType", None, None, "Tick"),
    (INI, TICK.replace(b"t: Tick", b"t: Tock"), "UnknownType", None, None, "Tock"),
    (INI, TICK + b"simple A extends A {}\n", "InheritanceCircle", None, None, "A"),
    (INI, TICK.replace(b"t: Tick;", b"t: Tick; t: Tick;"), "KindClash", None, None, "t"),
    (INI, TICK + b"moduleinterface I { gates: input g; }\nsimple A like I {}\n", "Interface", None, None, "g"),
    (b"", TICK, "NoSuchNetwork", None, None, "network = NAME"),
    (INI, b" " * ((1 << 20) + 1), "TooLarge", None, None, "1 MiB"),
]


@pytest.mark.parametrize("ini, ned, name, file, line, told", TEXTS, ids=[it[2] for it in TEXTS])
def test_texts_that_are_refused(ini, ned, name, file, line, told):
    with pytest.raises(Refused) as refused:
        begin(ini, ned)
    assert (refused.value.name, refused.value.file, refused.value.line) == (name, file, line)
    assert told in refused.value.explanation


def test_a_configuration_that_is_not_there():
    with pytest.raises(Refused, match="NoSuchConfig"):
        begin(config="Slow")


def test_a_configuration_that_extends_one_that_is_not_there():
    slow = INI + b"[Config Slow]\nextends = Base\n"
    with pytest.raises(Refused, match="ChainFault") as refused:
        begin(slow, config="Slow")
    assert "'Base'" in refused.value.explanation
    with begin(slow + b"[Config Base]\n", config="Slow") as session:
        with pytest.raises(Refused, match="ChainFault") as refused:
            session.replace(5, "extends = Nope")
        assert "x.ini:5: 'Slow' extends 'Nope'" in refused.value.explanation
        assert session.selected() == "Slow"


def test_a_file_that_is_not_there(tmp_path):
    with pytest.raises(FileNotFoundError, match="nothing.ini"):
        Session(tmp_path / "nothing.ini", [])


def test_not_done(session):
    session.replace(3, "**.count = 5")
    with pytest.raises(Refused, match="NotDone"):
        session.write()


def test_a_line_end_is_no_part_of_a_command(session):
    with pytest.raises(ValueError, match="line end"):
        session.insert(3, "a = 1\nb = 2")
    assert session.held() == 1


def test_errors_go_from_one_process_to_another():
    for error in (Refused("run x", "Command", "why", 3), NoAnswer("run 1", 0.5), ProgramEnded(-9, "told")):
        copy = pickle.loads(pickle.dumps(error))
        assert str(copy) == str(error) and vars(copy) == vars(error)


def test_every_refusal_is_tried():
    """Of texts, and of edits: all that docs/REFUSALS.md lists, but want of memory."""
    page = (TOP / "docs/REFUSALS.md").read_text()
    sections = dict(re.findall(r"^## (.*)\n([^#]*)", page, re.M))
    for section, tried in (("Refusals of texts", TEXTS), ("Refusals of edits", EDITS)):
        listed = {
            name
            for row in re.findall(r"^\| (`.*?) \|", sections[section], re.M)
            for name in re.findall(r"`([A-Z]\w+)", row)
        }
        missing = (
            listed - {it[1] if tried is EDITS else it[2] for it in tried} - {"NoMemory", "NoSuchConfig", "ChainFault"}
        )
        assert not missing, section
        # (these two have tests of their own, above)
        assert {"NoSuchConfig", "ChainFault"} <= listed


# --- what it answers


def test_undo_and_messages(session):
    assert session.replace(3, "**.count = 5").valid_to is None
    assert session.undo().valid_to is None
    assert session.ini_lines() == ["[General]", "network = N", "**.count = 3"]
    assert session.run().executed == 3
    edited = session.inject("N.t", "2500ms", bits=8)
    # two ticks come before it
    assert (edited.valid_to, edited.injection) == (2, 1)
    run = session.run()
    assert (run.started_from, run.executed, run.events) == (2, 2, 4)
    assert session.withdraw(1).valid_to == 2


def test_what_is_told_of_an_edit(session):
    assert session.notes() == ""
    session.inject("N.nobody", "1s")
    # a refusal between doesn't take it along, nor does a list
    with pytest.raises(Refused) as refused:
        session.remove(9)
    assert refused.value.explanation.startswith("x.ini: there is no line")
    assert session.selected() == "General"
    assert session.notes() == "no module has the path 'N.nobody': as the model is now, the message is discarded"
    assert session.notes() == ""


def test_a_fault_is_explained(session):
    session.replace(3, "**.count = 5s")
    run = session.run()
    assert (run.fault.event, run.fault.module, run.fault.name) == (0, "N.t", "Mismatch")
    assert run.explanation == "x.ini:3: 'N.t.count' takes a whole number; '5s' is a time"


def test_a_command_that_is_not_there_yet(session):
    with pytest.raises(Refused) as refused:
        session.listing("no such command")
    assert refused.value.name == "Command"
    assert session.why() is None or isinstance(session.why(), str)


def test_it_shows_itself_in_a_notebook(session):
    shown = session._repr_html_()
    assert "General" in shown and "no-more-events" in shown and "**.count = 3" in shown
    assert "N.t" in session.results()._repr_html_()
    session.close()
    assert "closed" in session._repr_html_()


def test_results_in_a_folder_that_is_named(tmp_path):
    with begin(output=tmp_path / "out") as session:
        assert [it.parent for it in session.write()] == [tmp_path / "out"] * 2
    assert (tmp_path / "out/General-#0.sca").exists()


# --- how it ends


def test_nothing_is_left_behind(session):
    folder = session.output.parent
    assert is_alive(session.pid) and folder.exists()
    session.close()
    assert not is_alive(session.pid) and not folder.exists()
    with pytest.raises(SessionClosed):
        session.run()
    session.close()


def test_nothing_is_left_behind_where_the_block_fails():
    with pytest.raises(KeyError):
        with begin() as session:
            raise KeyError
    assert not is_alive(session.pid)


def test_a_session_that_is_forgotten_ends():
    session = begin()
    pid = session.pid
    del session
    assert not is_alive(pid)


def test_a_program_that_is_killed(session):
    os.kill(session.pid, signal.SIGKILL)
    with pytest.raises((ProgramEnded, PipeBroken)) as lost:
        session.run()
    assert lost.value.status == -signal.SIGKILL
    with pytest.raises(SessionClosed):
        session.run()


def test_a_program_that_is_stopped(session):
    session._program.seconds = 0.3
    os.kill(session.pid, signal.SIGSTOP)
    begun = time.monotonic()
    with pytest.raises(NoAnswer, match="run 5: no answer in 0.3 s"):
        session.run(5)
    # a process that is stopped takes no signal but the last
    assert time.monotonic() - begun < 50
    assert not is_alive(session.pid)


def stand_in(tmp_path: pathlib.Path, script: str) -> pathlib.Path:
    """A program that is none."""
    path = tmp_path / "stand_in"
    path.write_text(f"#!/bin/bash\n{script}\n")
    path.chmod(path.stat().st_mode | stat.S_IXUSR)
    return path


FIRST = "echo 'done no-more-events from start executed 3'; echo written"


@pytest.mark.parametrize(
    "script, error",
    [
        ("exit 7", ProgramEnded),
        ("sleep 60", NoAnswer),
        (f"{FIRST}; exit 0", ProgramEnded),
        (f"exec <&-; {FIRST}; sleep 60", PipeBroken),
        (f"{FIRST}; exec >&-; sleep 60", PipeBroken),
        (f"{FIRST}; sleep 60", NoAnswer),
        (f"{FIRST}; while read line; do echo nonsense; done", SoldrichError),
        ("echo nonsense; sleep 60", SoldrichError),
    ],
)
def test_a_program_that_fails(tmp_path, script, error):
    begun = time.monotonic()
    with pytest.raises(error):
        with begin(program=stand_in(tmp_path, script), seconds=1.0) as session:
            session.run()
    assert time.monotonic() - begun < 50


def test_a_refusal_that_comes_late(tmp_path):
    """What it says is read while the first answer is waited for, and is why none comes."""
    script = "echo 'nedrun: IniSyntax line 3' >&2; echo 'x.ini:3: what is wrong' >&2; sleep 1.2; exit 2"
    with pytest.raises(Refused) as refused:
        begin(program=stand_in(tmp_path, script))
    assert (refused.value.name, refused.value.line, refused.value.explanation) == (
        "IniSyntax",
        3,
        "x.ini:3: what is wrong",
    )


def test_a_program_that_is_not_there(tmp_path):
    with pytest.raises(ProgramEnded, match="No such file"):
        begin(program=tmp_path / "nothing")


def test_where_the_program_is_looked_for(monkeypatch, tmp_path):
    assert str(find_program()) == PROGRAM
    monkeypatch.setenv("NEDRUN", str(tmp_path / "x"))
    assert find_program() == tmp_path / "x"
