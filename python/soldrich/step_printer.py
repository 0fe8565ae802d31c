"""Prints what a save came to: tables at a terminal, plain lines elsewhere."""
from __future__ import annotations

from rich.console import Console
from rich.markup import escape
from rich.table import Table

from .comparison import ScalarPair
from .live_model import Step

# (of a large network not all of them are of use)
MOST_ROWS = 200


class StepPrinter:
    """Prints steps to standard output."""

    def __init__(self) -> None:
        self._console = Console(highlight=False)

    def step(self, step: Step, seconds: float) -> None:
        """Prints a step, and how long it took."""
        if self._console.is_terminal:
            self.line("")
        for it in step.edits:
            self.line(it)
        if step.begun and step.before:
            self.line(f"begun anew: {step.begun}")
        self.line(_validity(step))
        for text in (step.run.explanation, step.notes, step.why):
            if text:
                self.line(text)
        self._scalars(step)
        since = f"{seconds:.3f} s after the save" if step.before else f"in {seconds:.3f} s"
        self.line(f"written to {step.files[0]} and .vec, {since}", style="dim")

    def trouble(self, text: str) -> None:
        """Prints why a save has no effect."""
        self.line(text, style="bold red")

    def line(self, text: str, style: str | None = None) -> None:
        """Prints a line as it is, however long."""
        if self._console.is_terminal:
            self._console.print(escape(text), style=style, soft_wrap=True)
        else:
            print(text, flush=True)

    def _scalars(self, step: Step) -> None:
        changed = step.changed_scalars
        if step.before is None:
            self.line(f"{len(step.after.scalars)} scalars")
        elif not changed:
            self.line(
                "no scalar changed, but a vector did" if step.has_other_vectors else "no scalar and no vector changed"
            )
        elif self._console.is_terminal:
            self._console.print(_table(changed[:MOST_ROWS]))
        else:
            for it in changed[:MOST_ROWS]:
                self.line(f"{it.module} {it.name}: {_shown(it.before)} -> {_shown(it.after)}{_grown(it)}")
        if len(changed) > MOST_ROWS:
            self.line(f"and {len(changed) - MOST_ROWS} scalars more")


def _validity(step: Step) -> str:
    run = step.run
    if step.begun:
        return f"{run.outcome}: {run.executed} events"
    valid = (
        "no event of the last run is valid"
        if step.valid_to is None
        else f"the last run is valid up to event {step.valid_to}"
    )
    start = "the start" if run.started_from is None else f"event {run.started_from}"
    return f"{valid}; {run.executed} of {run.events} events ran again, from {start}: {run.outcome}"


def _table(changed: list[ScalarPair]) -> Table:
    table = Table("module", "scalar")
    for it in ("before", "now", "difference"):
        table.add_column(it, justify="right")
    for it in changed:
        table.add_row(escape(it.module), escape(it.name), _shown(it.before), _shown(it.after), _difference(it))
    return table


def _shown(value: int | float | None) -> str:
    return "none" if value is None else str(value)


def _difference(pair: ScalarPair) -> str:
    return "" if pair.difference is None else f"{pair.difference:+}"


def _grown(pair: ScalarPair) -> str:
    return "" if pair.difference is None else f" ({pair.difference:+})"
