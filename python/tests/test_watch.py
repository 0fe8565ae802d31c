"""`soldrich watch` on real files, saved as editors save them. The numbers are those of the page of examples/fifo."""
from __future__ import annotations

import os
import pathlib
import random
import shutil
import signal

import pytest
from conftest import EXAMPLES, TOP, example, fresh_run
from processes import Started, children_of
from test_chance import other_number

from soldrich import Refused, Session
from soldrich.live_model import LiveModel, Options
from soldrich.sources import Model, ModelFiles, Source, ned_files_below

FIFO = example("fifo").folder
DONE = ("written to", "refused ")


@pytest.fixture
def folder(tmp_path) -> pathlib.Path:
    for name in ("omnetpp.ini", "fifo.ned"):
        shutil.copy(FIFO / name, tmp_path / name)
    return tmp_path


@pytest.fixture
def watched(folder):
    with Started(["watch", "-c", "Fifo1", "-o", "results", "omnetpp.ini", "fifo.ned"], folder) as it:
        assert "time-limit: 22 events" in it.until("watching")
        yield it


def changed(folder: pathlib.Path, old: str, new: str, name: str = "omnetpp.ini") -> str:
    """The text of a file with a part that is another."""
    text = (folder / name).read_text()
    assert old in text
    return text.replace(old, new, 1)


def save_by_rename(path: pathlib.Path, text: str) -> None:
    beside = path.with_name(f".{path.name}.swp")
    beside.write_text(text)
    os.replace(beside, path)


def results_are_fresh(folder: pathlib.Path, ned: str = "fifo.ned") -> bool:
    """The files are those of a fresh run of the texts as they are on disk."""
    _, *files = fresh_run(
        folder / "fresh", (folder / "omnetpp.ini").read_text(), [(folder / ned).read_text()], "Fifo1", 1_000_000
    )
    return files == [(folder / f"results/Fifo1-#0.{it}").read_bytes() for it in ("sca", "vec")]


def test_a_save_by_rename(folder, watched):
    # all 22 events come before either limit, and 20 more after them
    save_by_rename(folder / "omnetpp.ini", changed(folder, "sim-time-limit = 1s", "sim-time-limit = 2s"))
    lines = watched.until(*DONE)
    assert lines[0] == "omnetpp.ini: replaced: sim-time-limit = 2s"
    assert lines[1] == "the last run is valid up to event 22; 20 of 42 events ran again, from event 22: time-limit"
    assert lines[2] == "FifoNet.sink rx:count: 5 -> 10 (+5)"
    assert results_are_fresh(folder)
    assert watched.interrupt() == 0


def test_a_save_by_truncation(folder, watched):
    text = changed(folder, "sendIaTime = 200ms", "sendIaTime = 500ms")
    with (folder / "omnetpp.ini").open("w") as file:
        # (for this moment the file is empty)
        file.flush()
        os.fsync(file.fileno())
        assert watched.is_quiet(0.2)
        file.write(text)
    lines = watched.until(*DONE)
    if lines[-1].startswith("refused NoSuchNetwork"):
        # (this machine took longer than a moment)
        lines = watched.until(*DONE)
    # event 1 reads the gap; jobs at 0, 0.5 and 1, the last of which has two events before the limit
    assert "the last run is valid up to event 0; 10 of 10 events ran again, from event 0: time-limit" in lines
    assert "FifoNet.sink rx:count: 5 -> 2 (-3)" in lines
    assert results_are_fresh(folder)


def test_a_file_that_is_deleted_and_made_again(folder, watched):
    text = changed(folder, "sim-time-limit = 1s", "sim-time-limit = 2s")
    (folder / "omnetpp.ini").unlink()
    assert watched.until("omnetpp.ini: ")[-1] == "omnetpp.ini: No such file or directory; waiting until it is there"
    (folder / "omnetpp.ini").write_text(text)
    assert "FifoNet.sink rx:count: 5 -> 10 (+5)" in watched.until(*DONE)
    assert results_are_fresh(folder)


def test_two_saves_in_a_moment(folder, watched):
    first, second = changed(folder, "limit = 1s", "limit = 3s"), changed(folder, "limit = 1s", "limit = 2s")
    (folder / "omnetpp.ini").write_text(first)
    (folder / "omnetpp.ini").write_text(second)
    lines = watched.until(*DONE)
    if "FifoNet.sink rx:count: 5 -> 15 (+10)" in lines:
        # (this machine took longer between them than a moment)
        lines = watched.until(*DONE)
        assert "FifoNet.sink rx:count: 15 -> 10 (-5)" in lines
    else:
        assert "FifoNet.sink rx:count: 5 -> 10 (+5)" in lines
    assert watched.is_quiet(0.5)
    assert results_are_fresh(folder)


def test_a_save_that_is_broken_and_mended(folder, watched):
    before = (folder / "results/Fifo1-#0.sca").read_bytes()
    whole = (folder / "omnetpp.ini").read_text()
    # two lines are changed, and one of them is refused: the other one isn't made either
    (folder / "omnetpp.ini").write_text(
        whole.replace("msgLength = 100b", "msgLength = (").replace("limit = 1s", "limit = 2s")
    )
    lines = watched.until(*DONE)
    assert lines[-1].startswith("refused IniSyntax: omnetpp.ini:8: the value '('")
    assert (folder / "results/Fifo1-#0.sca").read_bytes() == before
    (folder / "omnetpp.ini").write_text(whole)
    watched.until("the texts are those of the last run again")
    (folder / "omnetpp.ini").write_text(whole.replace("limit = 1s", "limit = 2s"))
    lines = watched.until(*DONE)
    assert lines[0] == "omnetpp.ini: replaced: sim-time-limit = 2s"
    assert lines[1].startswith("the last run is valid up to event 22; 20 of 42 events ran again")
    assert results_are_fresh(folder)


def test_a_ned_file(folder, watched):
    # the capacity is read where the first job comes
    save_by_rename(
        folder / "fifo.ned", changed(folder, "capacity = default(1000000)", "capacity = default(5)", "fifo.ned")
    )
    lines = watched.until(*DONE)
    assert lines[0] == "fifo.ned was read anew"
    assert lines[1].startswith("the last run is valid up to event 1; 21 of 22 events ran again, from event 1")
    assert lines[2] == "no scalar and no vector changed"
    broken = changed(folder, "gen.out -->", "gen.out --", "fifo.ned")
    save_by_rename(folder / "fifo.ned", broken)
    line = broken[: broken.index("gen.out --")].count("\n") + 1
    assert watched.until(*DONE)[-1].startswith(f"refused NedSyntax: fifo.ned:{line}: unexpected '-'")


def test_ini_and_ned_that_only_fit_together(folder, watched):
    # neither edit can be made before the other one
    (folder / "fifo.ned").write_text(changed(folder, "network FifoNet", "network Other", "fifo.ned"))
    (folder / "omnetpp.ini").write_text(changed(folder, "network = FifoNet", "network = Other"))
    lines = watched.until(*DONE)
    if lines[-1].startswith("refused"):
        # (this machine took longer between them than a moment)
        lines = watched.until(*DONE)
    assert "begun anew: these edits can't be made one after another" in lines
    assert "Other.sink rx:count: none -> 5" in lines
    assert results_are_fresh(folder)


def test_a_page_at_each_step(folder):
    with Started(["watch", "-c", "Fifo1", "-o", "results", "--report", "-n", "."], folder) as it:
        it.until("watching")
        page = folder / "results/report.html"
        assert "2 scalars and 2 vectors of one run." in page.read_text()
        stamp = (folder / "results/report.html.written.js").read_text()
        (folder / "omnetpp.ini").write_text(changed(folder, "limit = 1s", "limit = 2s"))
        it.until("the page is")
        assert "1 of 2 scalars and 2 of 2 vectors differ. The vectors part first at event 23" in page.read_text()
        assert (folder / "results/report.html.written.js").read_text() != stamp


def test_a_program_that_is_killed(folder, watched):
    (program,) = children_of(watched.process.pid)
    os.kill(program, signal.SIGKILL)
    (folder / "omnetpp.ini").write_text(changed(folder, "limit = 1s", "limit = 2s"))
    lines = watched.until(*DONE)
    assert any(it.startswith("begun anew: the session was lost") for it in lines)
    assert "FifoNet.sink rx:count: 5 -> 10 (+5)" in lines


def test_nothing_is_left_behind(watched):
    (program,) = children_of(watched.process.pid)
    watched.process.send_signal(signal.SIGTERM)
    assert watched.process.wait(30) == 128 + signal.SIGTERM
    assert not pathlib.Path(f"/proc/{program}").exists()


def test_texts_that_are_broken_at_first(folder):
    whole = (folder / "omnetpp.ini").read_text()
    (folder / "omnetpp.ini").write_text(whole.replace("= FifoNet", "= Nope"))
    with Started(["watch", "-c", "Fifo1", "-o", "results", "-n", "."], folder) as it:
        assert it.until("refused")[-1].startswith("refused NoSuchNetwork: omnetpp.ini:2: 'Nope'")
        it.until("watching")
        (folder / "omnetpp.ini").write_text(whole)
        assert "time-limit: 22 events" in it.until(*DONE)
        # another NED file: the session takes no such edit, so it is begun anew
        (folder / "more.ned").write_text("simple More {}\n")
        assert "begun anew: there are other NED files" in it.until(*DONE)


def test_several_folders(folder):
    for name in ("one", "two"):
        (folder / name).mkdir()
    os.replace(folder / "fifo.ned", folder / "one/fifo.ned")
    (folder / "two/more.ned").write_text("simple More {}\n")
    with Started(["watch", "-c", "Fifo1", "-n", "one:two"], folder) as it:
        assert it.until("watching")[0] == "time-limit: 22 events"
        (folder / "two/more.ned").write_text("simple Other {}\n")
        assert it.until(*DONE)[0] == "two/more.ned was read anew"


def test_wrong_words(folder):
    with Started(["watch", "omnetpp.ini"], folder) as it:
        assert "there is no NED file" in it.until("soldrich: ")[-1]
        assert it.process.wait(30) == 1


def test_ned_files_below_a_folder(tmp_path):
    for name in ("b/x.ned", "a/y.ned", "a/.hidden.ned", "a-b/y.ned", ".git/z.ned", "c.ned", "d.txt"):
        (tmp_path / name).parent.mkdir(exist_ok=True)
        (tmp_path / name).write_text("")
    assert [str(it.relative_to(tmp_path)) for it in ned_files_below([tmp_path])] == ["a-b/y.ned", "a/y.ned", "b/x.ned", "c.ned"]
    files = ModelFiles(tmp_path / "d.txt", (), (tmp_path,))
    assert files.read().has_empty


@pytest.mark.parametrize("it", EXAMPLES, ids=lambda it: it.name)
def test_saves_that_take_an_example_to_another_configuration_and_back(it, tmp_path):
    """A text in which each number is one more, saved at once and taken back: the results are those of fresh runs."""
    ini = Source.read(it.ini)
    other = Source(ini.path, ini.text.replace(b"= 2", b"= 3").replace(b"= 5", b"= 7") + b"# a line at the end\n")
    neds = tuple(map(Source.read, it.neds))
    with LiveModel(Options(it.config, tmp_path / "out", 300, 1, 600, True)) as live:
        first = live.take(Model(ini, neds))
        written = [path.read_bytes() for path in first.files]
        step = live.take(Model(other, neds))
        texts = [path.read_text() for path in it.neds]
        outcome, *files = fresh_run(tmp_path / "fresh", other.text.decode(), texts, it.config, 300)
        assert (step.run.outcome, [path.read_bytes() for path in step.files]) == (outcome, files)
        assert live.take(Model(other, neds)) is None
        back = live.take(Model(ini, neds))
        assert [path.read_bytes() for path in back.files] == written
        assert back.begun is None


def test_a_vector_that_changed(folder, watched):
    # a job takes 50 ms in place of 100: as many jobs, and no more of them at once, but at other times
    save_by_rename(folder / "omnetpp.ini", changed(folder, "bitsPerSec = 1000bps", "bitsPerSec = 2000bps"))
    lines = watched.until(*DONE)
    assert lines[1] == "the last run is valid up to event 1; 21 of 22 events ran again, from event 1: time-limit"
    assert lines[2] == "no scalar changed, but a vector did"


def text_by_chance(text: str, chance: random.Random) -> str:
    """A text with some lines changed, moved, doubled or gone."""
    lines = text.split("\n")
    for _ in range(chance.randint(1, 4)):
        at = chance.randrange(len(lines))
        kind = chance.choice(["number", "number", "move", "double", "remove", "comment"])
        if kind == "number":
            lines[at] = other_number(lines[at], chance)
        elif kind == "move":
            lines.insert(chance.randrange(len(lines)), lines.pop(at))
        elif kind == "double":
            lines.insert(chance.randrange(len(lines)), lines[at])
        elif kind == "remove" and len(lines) > 3:
            del lines[at]
        else:
            lines.insert(at, "# a note")
    return "\n".join(lines)


@pytest.mark.parametrize("number", range(18))
def test_saves_by_chance(number, tmp_path):
    """Texts by chance, saved one after another: each is refused as a fresh program refuses it, or has the results of
    a fresh run."""
    chance, it = random.Random(number), EXAMPLES[number % len(EXAMPLES)]
    neds, texts = tuple(map(Source.read, it.neds)), [path.read_text() for path in it.neds]
    ini = it.ini.read_text()
    with LiveModel(Options(it.config, tmp_path / "out", 300, chance.choice([1, 7]), 600, False)) as live:
        live.take(Model(Source("x.ini", ini.encode()), neds))
        for step in range(4):
            other = text_by_chance(ini, chance)
            fresh = fresh_or_refused(tmp_path / str(step), other, texts, it.config)
            try:
                taken = live.take(Model(Source("x.ini", other.encode()), neds))
            except Refused as refused:
                assert refused.name == fresh
                continue
            ini = other
            if taken:
                assert (taken.run.outcome, *(path.read_bytes() for path in taken.files)) == fresh
                assert taken.begun is None


def fresh_or_refused(folder: pathlib.Path, ini: str, neds: list[str], config: str) -> tuple[str, bytes, bytes] | str:
    """A fresh run of texts, or the name of the refusal."""
    folder.mkdir()
    try:
        Session(
            Source("x.ini", ini.encode()),
            [Source(f"{at}.ned", it.encode()) for at, it in enumerate(neds)],
            config,
            limit=0,
        ).close()
    except Refused as refused:
        return refused.name
    return fresh_run(folder, ini, neds, config, 300)


def test_the_top_script_starts_it():
    assert (TOP / "soldrich").stat().st_mode & 0o111
