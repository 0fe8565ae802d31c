"""`soldrich study`: each variant has the results of a fresh run of its texts, however it was made, and whatever
happened to its worker."""
from __future__ import annotations

import itertools
import json
import os
import pathlib
import shutil
import signal
import subprocess
import sys
import time
from collections.abc import Callable

import pandas as pd
import pytest
from conftest import ENVIRONMENT, example, fresh_run
from processes import SECONDS, Started, children_of

from soldrich import Refused, StudyError
from soldrich.command_line import main
from soldrich.sources import Source
from soldrich.study_file import read_study
from soldrich.study_table import LAST, made_of, read_study_table
from soldrich.study_worker import Task, close_sessions, run_variant
from soldrich.variants import Entry, Variant, VariantSession

LINE, RING, CAMPUS = (example(it) for it in ("queueing_line", "ring_of_routers", "campus"))
STUDY = """
[base]
ini = "omnetpp.ini"
neds = ["queueing_line.ned"]
limit = 300

[study]
keep = ["**.rx:count", "**.dropped:*"]

[factors]
"QueueingLine.source.count" = ["5", "9"]
"QueueingLine.queue.service" = ["200ms", "250ms", "("]
line = { config = ["General", "Slow", "Lossy"] }
"""


@pytest.fixture
def folder(tmp_path) -> pathlib.Path:
    for name in ("omnetpp.ini", "queueing_line.ned"):
        shutil.copy(LINE.folder / name, tmp_path / name)
    (tmp_path / "study.toml").write_text(STUDY)
    return tmp_path


def fresh_scalars(
    folder: pathlib.Path, ini: str, neds: list[str], config: str, limit: int
) -> tuple[str, dict[tuple[str, str], int]]:
    """The outcome and the scalars of a fresh run, read by hand."""
    outcome, scalars, _ = fresh_run(folder, ini, neds, config, limit)
    lines = [it.split(" ") for it in scalars.decode().split("\n") if it.startswith("scalar ")]
    return outcome, {(module, name): int(value) for _, module, name, value in lines}


def variant_text(count: str, service: str, config: str) -> str:
    """The ini text of a variant, written by hand: its entries stand first in the section of its configuration."""
    head = "[General]\n" if config == "General" else f"[Config {config}]\n"
    entries = f"QueueingLine.source.count = {count}\nQueueingLine.queue.service = {service}\n"
    return LINE.ini.read_text().replace(head, head + entries)


def compare_with_fresh_runs(table: pd.DataFrame, tmp_path: pathlib.Path) -> None:
    """Compares each variant of STUDY."""
    neds = [LINE.neds[0].read_text()]
    choices = list(itertools.product(["5", "9"], ["200ms", "250ms", "("], ["General", "Slow", "Lossy"]))
    assert table["variant"].unique().tolist() == list(range(len(choices)))
    for number, chosen in enumerate(choices):
        rows = table[table["variant"] == number]
        assert tuple(rows.iloc[0][1:4]) == chosen
        if chosen[1] == "(":
            assert rows["outcome"].tolist() == ["refused IniSyntax"] and "the value '('" in rows["reason"].iloc[0]
            assert rows["name"].isna().all()
            continue
        outcome, scalars = fresh_scalars(tmp_path / str(number), variant_text(*chosen), neds, chosen[2], 300)
        wanted = {key: value for key, value in scalars.items() if key[1] in ("rx:count", "dropped:count")}
        assert set(rows["outcome"]) == {outcome}
        assert {(it.module, it.name): it.value for it in rows.itertuples() if isinstance(it.name, str)} == wanted
        if outcome.startswith("fault"):
            assert rows["reason"].iloc[0]


def test_a_study(folder, capsys):
    assert main(["study", "--workers", "2", str(folder / "study.toml")]) == 0
    assert "18 variants, 8 of them refused, lost or ended by a fault" in capsys.readouterr().out
    table = read_study_table(folder / "study.csv")
    assert table.factors == ["QueueingLine.source.count", "QueueingLine.queue.service", "line"]
    compare_with_fresh_runs(table.frame, folder)
    # (in Slow a message is on the line for 250 ms: a queue that serves in 200 ms sends the next one while it is busy)
    assert sorted(set(table.troubled["outcome"].str.split().str[0])) == ["fault", "refused"]
    # and its page has a chart for each scalar
    assert main(["report", "-o", str(folder / "page.html"), str(folder / "study.csv")]) == 0
    page = (folder / "page.html").read_text()
    assert "QueueingLine.sink rx:count" in page and "QueueingLine.queue dropped:count" in page


def test_a_worker_that_is_killed(folder):
    """Its variants run again elsewhere, and the table is what it would have been."""
    gaps = ", ".join(f'"{it}ms"' for it in range(50, 130))
    text = (
        '[base]\nini = "omnetpp.ini"\nneds = ["queueing_line.ned"]\nlimit = 2000\n'
        f'[factors]\n"**.gap" = [{gaps}]\n"**.count" = ["400"]\n'
    )
    (folder / "study.toml").write_text(text)
    with Started(["study", "--workers", "2", "study.toml"], folder) as it:
        worker = until_a_worker_runs(it.process.pid)
        os.kill(worker, signal.SIGKILL)
        assert "written to study.csv" in it.until("written to")
        assert it.process.wait(SECONDS) == 0
    table = read_study_table(folder / "study.csv")
    assert len(table.variants) == 80 and len(table.troubled) == 0
    ini, neds = LINE.ini.read_text(), [LINE.neds[0].read_text()]
    for number in (0, 17, 79):
        entries = f"[General]\n**.gap = {50 + number}ms\n**.count = 400\n"
        outcome, scalars = fresh_scalars(
            folder / str(number), ini.replace("[General]\n", entries), neds, "General", 2000
        )
        rows = table.frame[table.frame["variant"] == number]
        assert set(rows["outcome"]) == {outcome}
        assert {(it.module, it.name): it.value for it in rows.itertuples()} == scalars


def until_a_worker_runs(pid: int) -> int:
    """Waits until a worker has a program of its own, and returns the worker."""
    end = time.monotonic() + SECONDS
    while time.monotonic() < end:
        for worker in children_of(pid):
            if any(pathlib.Path(f"/proc/{it}/exe").resolve().name.startswith("nedrun") for it in children_of(worker)):
                return worker
        time.sleep(0.02)
    raise AssertionError("no worker began a session")


def test_only_what_a_variant_reaches_runs_again():
    """Of an entry that is read in the 60th event the events before that stay valid, from one variant to the next."""
    it = example("three_ticks")
    ini = Source("x.ini", b"[General]\nnetwork = N\n**.count = 100\n**.late = 60\n")
    session = VariantSession(read_base(it, ini))
    try:
        # the 60th tick reads `extra`: so 59 events stay valid, and the runs begin at the position after event 58 or 59
        for number, extra in enumerate(("5", "6", "7")):
            outcome = session.outcome_of(Variant(number, (extra,), (Entry("N.t.extra", extra),)), ("**",))
            assert outcome.valid_to == 59 and outcome.events == 100 and outcome.executed in (41, 42)
            assert ("N.t", "extra:last", int(extra)) in outcome.scalars
        again = session.outcome_of(Variant(3, ("7",), (Entry("N.t.extra", "7"),)), ("**.extra:*",))
        assert (again.valid_to, again.executed, again.scalars) == (100, 0, (("N.t", "extra:last", 7),))
    finally:
        session.close()


def read_base(it, ini: Source):
    from soldrich.variants import Base

    return Base(ini, tuple(map(Source.read, it.neds)), "General", 1000, 1, 600)


def test_connections_and_ned_files(tmp_path):
    """Connections and NED files as factors, one variant after another in one session: each as a fresh run of the
    texts."""
    for path in (RING.ini, *RING.neds, CAMPUS.ini, *CAMPUS.neds, CAMPUS.folder / "faster/links.ned"):
        to = tmp_path / path.relative_to(path.parents[1] if path.parent.name != "faster" else path.parents[2])
        to.parent.mkdir(parents=True, exist_ok=True)
        shutil.copy(path, to)
    chord = "node[1].port++ <--> Link <--> node[3].port++;"
    (tmp_path / "ring.toml").write_text(
        f'[base]\nini = "{RING.name}/omnetpp.ini"\nneds = ["{RING.name}/{RING.neds[0].name}"]\n'
        f'[factors]\nchord = {{ connect = ["", "{chord}", "nothing"], type = "Ring", place = 1 }}\n'
        'config = { config = ["General", "Cut"] }\n'
    )
    study = read_study(tmp_path / "ring.toml")
    outcomes = [run_variant(study.base, Task(it, study.keep)) for it in study.variants]
    assert [it.outcome.split(" ")[0] for it in outcomes] == [outcomes[0].outcome.split(" ")[0]] * 4 + ["refused"] * 2
    text = RING.neds[0].read_text()
    for number, config in ((0, "General"), (1, "Cut")):
        outcome, scalars = fresh_scalars(tmp_path / str(number), RING.ini.read_text(), [text], config, 1_000_000)
        assert (outcomes[number].outcome, {it[:2]: it[2] for it in outcomes[number].scalars}) == (outcome, scalars)
    neds = ", ".join(f'"{CAMPUS.name}/{it.name}"' for it in CAMPUS.neds)
    (tmp_path / "campus.toml").write_text(
        f'[base]\nini = "{CAMPUS.name}/omnetpp.ini"\nneds = [{neds}]\n'
        '[study]\ncombine = "zip"\n[factors]\n"**.no.such" = ["1", "2"]\n'
        'links = { ned = ["campus/links.ned", "campus/faster/links.ned"], file = 2 }\n'
    )
    study = read_study(tmp_path / "campus.toml")
    outcomes = [run_variant(study.base, Task(it, study.keep)) for it in study.variants]
    texts = [it.read_text() for it in CAMPUS.neds]
    for number, links in enumerate((texts[2], (CAMPUS.folder / "faster/links.ned").read_text())):
        outcome, scalars = fresh_scalars(
            tmp_path / f"c{number}", CAMPUS.ini.read_text(), [*texts[:2], links], "General", 1_000_000
        )
        assert (outcomes[number].outcome, {it[:2]: it[2] for it in outcomes[number].scalars}) == (outcome, scalars)
    assert close_sessions() > 0


@pytest.mark.parametrize(
    "text, told",
    [
        ("x = ", "this is no TOML"),
        ("[factors]\n", "base: this has to be a table [base]"),
        ('[base]\nini = "omnetpp.ini"\n[factors]\n', "there is no NED file"),
        ('[base]\nini = "no.ini"\nneds = ["queueing_line.ned"]\n[factors]\n', "no.ini can't be read: No such file"),
        (
            '[base]\nini = "omnetpp.ini"\nneds = ["queueing_line.ned"]\nlimt = 3\n[factors]\n',
            "'limt' means nothing there; there are config, folder",
        ),
        (STUDY.replace("300", "-1"), "limit: this has to be a whole number"),
        (STUDY.replace('["5", "9"]', "[5, 9]"), "factors.'QueueingLine.source.count': this has to be a list of texts"),
        (STUDY.replace("config = [", "confg = ["), "a factor is a list of values, or a table with config"),
        (STUDY.replace("[study]", '[study]\ncombine = "mix"'), "'mix' is not one of cross, zip"),
        (
            STUDY.replace("[study]", '[study]\ncombine = "zip"'),
            "to be zipped all factors need as many choices; there are QueueingLine.source.count 2",
        ),
    ],
)
def test_what_is_no_study(folder, text, told):
    (folder / "study.toml").write_text(text)
    with pytest.raises(StudyError) as error:
        read_study(folder / "study.toml")
    assert str(error.value).startswith(str(folder / "study.toml")) and told in str(error.value)


def test_a_study_that_is_not_there(tmp_path, capsys):
    assert main(["study", str(tmp_path / "study.toml")]) == 1
    assert capsys.readouterr().err == f"soldrich: {tmp_path}/study.toml: No such file or directory\n"


def test_a_base_that_is_refused(folder, capsys):
    (folder / "omnetpp.ini").write_text("[General]\n")
    assert main(["study", str(folder / "study.toml")]) == 1
    assert "the base is refused: NoSuchNetwork" in capsys.readouterr().err


def test_a_scheduler_that_is_there(folder):
    """Two processes as `dask-scheduler` and `dask-worker` are on other machines, and the same table."""
    file = folder / "scheduler.json"
    commands = (
        ["distributed.cli.dask_scheduler", "--port", "0", "--no-dashboard", "--scheduler-file", str(file)],
        [
            "distributed.cli.dask_worker",
            "--scheduler-file",
            str(file),
            "--nthreads",
            "2",
            "--local-directory",
            str(folder),
        ],
    )
    started = []
    try:
        for command in commands:
            streams = {"stdout": subprocess.DEVNULL, "stderr": subprocess.DEVNULL}
            started.append(
                subprocess.Popen([sys.executable, "-W", "ignore", "-m", *command], env=ENVIRONMENT, **streams)
            )
            until(lambda: address_in(file) is not None)
        address = address_in(file)
        assert main(["study", "--scheduler", address, str(folder / "study.toml")]) == 0
    finally:
        for it in reversed(started):
            it.terminate()
            it.wait(SECONDS)
    compare_with_fresh_runs(read_study_table(folder / "study.csv").frame, folder)


def address_in(file: pathlib.Path) -> str | None:
    """The address in a scheduler's file, or None while the file is not there or not yet written to its end."""
    try:
        return json.loads(file.read_text())["address"]
    except (FileNotFoundError, json.JSONDecodeError):
        return None


def until(is_so: Callable[[], bool]) -> None:
    """Waits until something is so."""
    end = time.monotonic() + SECONDS
    while not is_so():
        assert time.monotonic() < end
        time.sleep(0.05)


def test_a_scheduler_that_is_not_there(folder, capsys, monkeypatch):
    monkeypatch.setattr("soldrich.study.SECONDS_TO_CONNECT", 1)
    assert main(["study", "--scheduler", "tcp://127.0.0.1:9", str(folder / "study.toml")]) == 1
    assert "no scheduler answers there" in capsys.readouterr().err


def test_a_table_is_read_as_it_was_written(tmp_path):
    row = {"variant": 0, "a": "NA", "b": "", "outcome": "event-limit", "valid_to": None, "events": 3, "executed": 2}
    rows = [
        {**row, "module": "N.t", "name": "x", "value": 2**127 - 1},
        {**row, "variant": 1, "outcome": "refused X", "reason": "why"},
    ]
    made_of(rows, ["a", "b"]).write(tmp_path / "x.csv")
    table = read_study_table(tmp_path / "x.csv")
    assert (
        table.factors == ["a", "b"]
        and table.frame["a"].tolist() == ["NA", "NA"]
        and table.frame["b"].tolist() == ["", ""]
    )
    assert table.scalars["value"].tolist() == [2**127 - 1]
    assert table.troubled["reason"].tolist() == ["why"]
    with pytest.raises(StudyError, match="pyarrow"):
        table.write(tmp_path / "x.parquet")
    (tmp_path / "y.csv").write_text("a,b\n1,2\n")
    with pytest.raises(StudyError, match="this is no table of a study"):
        read_study_table(tmp_path / "y.csv")
    assert list(table.frame.columns[-len(LAST) :]) == LAST


def test_a_session_goes_on_after_a_refusal():
    it = example("three_ticks")
    session = VariantSession(read_base(it, Source.read(it.ini)))
    try:
        outcomes = [
            session.outcome_of(Variant(at, (), (Entry("**.count", value),)), ("**",))
            for at, value in enumerate(("4", "(", "5"))
        ]
        assert [it.outcome for it in outcomes] == ["no-more-events", "refused IniSyntax", "no-more-events"]
        assert [it.scalars[0][2] for it in outcomes if it.scalars] == [4, 5]
    finally:
        session.close()
    with pytest.raises(Refused):
        VariantSession(read_base(it, Source("x.ini", b"")))
