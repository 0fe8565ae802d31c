"""`soldrich study`: runs the variants of a model over as many processes, here or on other machines, as there are."""
from __future__ import annotations

import contextlib
import dataclasses
import logging
import os
import signal
import tempfile
from collections.abc import Iterator
from pathlib import Path

from distributed import Client, Future, LocalCluster, as_completed
from distributed.scheduler import KilledWorker
from rich.console import Console
from rich.progress import BarColumn, MofNCompleteColumn, Progress, TextColumn, TimeRemainingColumn

from .errors import Refused, SessionLost, StudyError
from .study_file import Study, read_study
from .study_table import StudyTable, made_of
from .study_worker import Task, base_of, close_sessions, run_variant
from .variants import Outcome, VariantSession

# how often a variant is tried again whose program was lost
RETRIES = 2
SECONDS_TO_CONNECT = 30


def study(path: Path, output: Path | None, workers: int | None = None, scheduler: str | None = None) -> StudyTable:
    """Runs a study, and writes its table: that of the study's name, if no other is named."""
    read = read_study(path)
    output = output or path.with_suffix(".csv")
    _try_base(read)
    console = Console(highlight=False)
    with _client(workers or os.cpu_count() or 1, scheduler) as client:
        outcomes, base_events = _run(client, read)
    table = _table(read, outcomes)
    table.write(output)
    console.print(_summary(table, base_events), soft_wrap=True)
    console.print(f"written to {output}", soft_wrap=True)
    return table


def _try_base(read: Study) -> None:
    """Begins a session of the base without any event: what is wrong with it is said once, and not by each variant."""
    try:
        VariantSession(dataclasses.replace(read.base, limit=0)).close()
    except Refused as refused:
        raise StudyError(f"the base is refused: {refused.name}: {refused.explanation}") from None


@contextlib.contextmanager
def _client(workers: int, scheduler: str | None) -> Iterator[Client]:
    """Connects to a scheduler that is there, or to a cluster of processes of this machine."""
    if scheduler:
        try:
            client = Client(scheduler, timeout=SECONDS_TO_CONNECT)
        except OSError as error:
            raise StudyError(f"{scheduler}: no scheduler answers there ({error})") from None
        with client:
            yield client
        return
    options = {"threads_per_worker": 1, "dashboard_address": ":0", "memory_limit": 0, "silence_logs": logging.CRITICAL}
    with tempfile.TemporaryDirectory(prefix="soldrich-") as folder:
        with _without_interrupts():
            cluster = LocalCluster(n_workers=workers, local_directory=folder, **options)
        with cluster, Client(cluster) as client:
            yield client


@contextlib.contextmanager
def _without_interrupts() -> Iterator[None]:
    """Lets processes be started that Ctrl-C doesn't reach: it ends this one, which ends them."""
    before = signal.signal(signal.SIGINT, signal.SIG_IGN)
    try:
        yield
    finally:
        signal.signal(signal.SIGINT, before)


def _run(client: Client, read: Study) -> tuple[list[Outcome], int]:
    """Runs all variants, and returns what came of them, in their order, and how many events the runs of the base
    had."""
    base = client.submit(base_of, read.base, pure=False)
    # in their order: from one variant to the next the last factor changes first
    how = {"retries": RETRIES, "pure": False}
    tasks = {
        client.submit(run_variant, base, Task(it, read.keep), priority=-it.number, **how): it.number
        for it in read.variants
    }
    outcomes = {}
    columns = (TextColumn("{task.description}"), BarColumn(), MofNCompleteColumn(), TimeRemainingColumn())
    console = Console(stderr=True)
    with Progress(*columns, console=console, disable=not console.is_terminal) as progress:
        shown = progress.add_task("variants", total=len(tasks))
        for future in as_completed(list(tasks)):
            number = tasks.pop(future)
            outcomes[number] = _outcome(future, number)
            progress.advance(shown)
    events = sum(client.run(close_sessions).values())
    return [outcomes[it.number] for it in read.variants], events


def _outcome(future: Future, number: int) -> Outcome:
    """Returns what came of a variant: also where the workers that ran it died, or its program was lost."""
    try:
        return future.result()
    except KilledWorker as error:
        return Outcome(number, "lost", f"each worker that ran it died ({error})")
    except SessionLost as error:
        return Outcome(number, "lost", str(error))


def _table(read: Study, outcomes: list[Outcome]) -> StudyTable:
    rows = []
    for variant, it in zip(read.variants, outcomes):
        row = {"variant": it.variant, **{factor.name: shown for factor, shown in zip(read.factors, variant.shown)}}
        row |= {
            "outcome": it.outcome,
            "reason": it.reason,
            "valid_to": it.valid_to,
            "events": it.events,
            "executed": it.executed,
        }
        rows.extend({**row, "module": module, "name": name, "value": value} for module, name, value in it.scalars)
        if not it.scalars:
            rows.append(row)
    return made_of(rows, [it.name for it in read.factors])


def _summary(table: StudyTable, base_events: int) -> str:
    variants = table.variants
    events, executed = int(variants["events"].sum()), int(variants["executed"].sum())
    return (
        f"{len(variants)} variants, {len(table.troubled)} of them refused, lost or ended by a fault, "
        f"of {events:,} events in all: {executed:,} of these were executed, {events - executed:,} saved; "
        f"{base_events:,} were executed for the base"
    )
