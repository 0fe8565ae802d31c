"""What the program answers to commands, as values."""
from __future__ import annotations

import re
from dataclasses import dataclass

from .errors import UnknownAnswer


@dataclass(frozen=True)
class Fault:
    """How a run ended that can't go on: in which event, at which module, and by which fault (docs/REFUSALS.md)."""

    event: int
    module: str
    name: str


@dataclass(frozen=True)
class Run:
    """A run that was made: `outcome` as the program answers it, the event after which it began (None for setup), and
    how many events were executed since then. `explanation` is what the program said about a fault, in words."""

    outcome: str
    started_from: int | None
    executed: int
    explanation: str = ""

    @property
    def events(self) -> int:
        """How many events the run has in all."""
        return (self.started_from or 0) + self.executed

    @property
    def fault(self) -> Fault | None:
        """The fault that ended the run, if one did."""
        found = re.fullmatch(r"fault (\d+) (\S+) (.*)", self.outcome)
        return Fault(int(found[1]), found[2], found[3]) if found else None


@dataclass(frozen=True)
class Edited:
    """An edit that was made: up to which event the last run is one of the changed model too (None if not even its
    start is), and the number of the message that it added, if it did."""

    valid_to: int | None
    injection: int | None = None


def run_of(answer: str) -> Run:
    """Reads the answer to a run."""
    found = re.fullmatch(r"done (.*) from (start|\d+) executed (\d+)", answer)
    if not found:
        raise UnknownAnswer(f"a run was answered '{answer}'")
    return Run(found[1], None if found[2] == "start" else int(found[2]), int(found[3]))


def edited_of(answer: str) -> Edited:
    """Reads the answer to an edit."""
    found = re.fullmatch(r"edited valid (none|\d+)(?: injection (\d+))?", answer)
    if not found:
        raise UnknownAnswer(f"an edit was answered '{answer}'")
    return Edited(None if found[1] == "none" else int(found[1]), int(found[2]) if found[2] else None)


def refusal_of(answer: str) -> tuple[str, int | None] | None:
    """Returns the name and the line of a refusal, or None where the answer is none."""
    found = re.fullmatch(r"refused (\w+)(?: line (\d+))?", answer)
    return (found[1], int(found[2]) if found[2] else None) if found else None


def numbers_of(answer: str, word: str) -> list[int]:
    """Returns the numbers that stand after a word, none where it is `none`."""
    first, *rest = answer.split(" ")
    if first != word or not all(it.isdigit() or it == "none" for it in rest):
        raise UnknownAnswer(f"the answer '{answer}' is not {word} and numbers")
    return [int(it) for it in rest if it != "none"]
