"""Each example's session, made by calls: its answers and its files are those that were worked out by hand and are
kept with it."""
from __future__ import annotations

import csv

from conftest import TOP, Example, example

from soldrich import Edited, Refused, Run, Session
from soldrich.command_line import main
from soldrich.results import Results


def call(session: Session, line: str) -> str:
    """Makes the call that a command stands for, and returns the answer as the program writes it."""
    word, _, rest = line.partition(" ")
    try:
        if word == "write":
            session.write()
            return "written"
        if word in ("positions", "held"):
            found = getattr(session, word)()
            return f"{word} " + (" ".join(map(str, found)) or "none" if word == "positions" else str(found))
        if word == "run":
            return answer_of_run(session.run(int(rest)))
        if word == "jump":
            raise Refused(line, "Command")
        return answer_of_edit(edit(session, word, rest))
    except Refused as refused:
        return f"refused {refused.name}" + ("" if refused.line is None else f" line {refused.line}")


def edit(session: Session, word: str, rest: str) -> Edited:
    if word == "ini":
        how, line, *text = rest.split(" ", 2)
        return getattr(session, how)(int(line), *text)
    if word == "ned":
        file, path = rest.split(" ")
        return session.ned(int(file), TOP / path)
    if word in ("connect", "disconnect"):
        type, place, *text = rest.split(" ", 2)
        return getattr(session, word)(type, int(place), *text)
    if word == "inject":
        path, time, priority, kind, bits, payload = rest.split(" ")
        return session.inject(path, time, int(priority), int(kind), int(bits), bytes.fromhex(payload.replace("-", "")))
    if word == "config":
        return session.config(rest)
    assert word == "withdraw"
    return session.withdraw(int(rest))


def answer_of_run(run: Run) -> str:
    return (
        f"done {run.outcome} from {'start' if run.started_from is None else run.started_from} executed {run.executed}"
    )


def answer_of_edit(edited: Edited) -> str:
    valid = "none" if edited.valid_to is None else edited.valid_to
    return f"edited valid {valid}" + ("" if edited.injection is None else f" injection {edited.injection}")


def test_the_session_of_an_example(each_example: Example):
    it, writings = each_example, 0
    answers = it.lines_of("answers")
    with Session(it.ini, it.neds, it.config, interval=it.interval) as session:
        assert answers[:2] == [answer_of_run(session.first_run), "written"]
        for line, wanted in zip([None, *it.lines_of("commands")], answers[1:], strict=True):
            answer = "written" if line is None else call(session, line)
            assert answer == wanted, line
            if answer == "written":
                writings += 1
                compare_with_kept(it, session, writings)


def compare_with_kept(it: Example, session: Session, number: int) -> None:
    stem = f"{session.selected()}-#0"
    for ending in ("sca", "vec"):
        kept = it.folder / f"written/{number}.{ending}"
        if kept.exists():
            written = session.output / f"{stem}.{ending}"
            assert written.read_bytes() == kept.read_bytes()
            assert Results.read(written).frame.astype(str).equals(Results.read(kept).frame.astype(str))


def test_a_first_run_by_hand():
    """The page of queueing_line works it out: five messages, of which one is dropped, and these times."""
    folder = TOP / "examples/queueing_line"
    with Session(folder / "omnetpp.ini", folder / "queueing_line.ned") as session:
        assert session.first_run == Run("no-more-events", None, 18)
        assert session.first_run.events == 18
        assert session.first_run.fault is None
        results = session.results()
        assert results.scalar("QueueingLine.queue", "dropped:count") == 1
        assert results.scalar("QueueingLine.queue", "length:max") == 3
        arrivals = results.vector("QueueingLine.sink", "rx:vector")
        assert arrivals["event"].tolist() == [10, 14, 16, 18]
        assert arrivals["ps"].tolist() == [360_000_000_000, 610_000_000_000, 860_000_000_000, 1_110_000_000_000]
        assert arrivals["time"].tolist() == [0.36, 0.61, 0.86, 1.11]
        assert arrivals["value"].tolist() == [1000] * 4
        # a queue that serves in 200 ms sends its second message while the line is busy
        assert session.config("Slow").valid_to == 6
        assert session.run().events == 18
        assert session.replace(7, "QueueingLine.queue.service = 200ms").valid_to == 1
        fault = session.run().fault
        assert (fault.event, fault.module, fault.name) == (10, "QueueingLine.queue", "Busy")
        assert "QueueingLine.queue" in session.last_run.explanation or session.last_run.explanation == ""


def test_windows_over_a_line_that_loses_frames_by_hand(tmp_path):
    """The page of lossy_line works out when the last frame is acknowledged: 8,000 bits are received until then."""
    round_trip, timeout = 31, 100
    # the last news before f4 is sent again is at 72, and f7 goes when f5 is acknowledged; f6 is acknowledged 21 later
    window_of_two = 72 + timeout + 10 + round_trip + 21 + timeout + round_trip
    # in each of three rounds one is lost, and the frames before it are sent 10 ms apart
    window_of_four = (30 + round_trip) + (timeout + round_trip) + (timeout + 10 + round_trip) + (timeout + round_trip)
    lossy = {1: 4 * round_trip + timeout + 4 * round_trip, 2: window_of_two, 4: window_of_four, 8: window_of_four}
    lossless = {1: 8 * round_trip, 2: 3 * round_trip + 10 + round_trip, 4: 70 + round_trip, 8: 70 + round_trip}
    table = tmp_path / "windows.csv"
    assert main(["study", "--workers", "1", "-o", str(table), str(example("lossy_line").folder / "windows.toml")]) == 0
    with table.open(encoding="utf-8") as it:
        rows = list(csv.DictReader(it))
    found = {(row["LossyLine.sender.window"], row["LossyLine.losses.pattern"]): int(row["value"]) for row in rows}
    assert {row["outcome"] for row in rows} == {"no-more-events"}
    assert found == {
        (str(window), pattern): 8_000_000 // end
        for pattern, ends in (('"----x"', lossy), ('"-"', lossless))
        for window, end in ends.items()
    }
