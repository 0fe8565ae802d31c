"""What can go wrong, each with a class of its own."""
from __future__ import annotations


class SoldrichError(Exception):
    """The base of all errors of this package."""


class Refused(SoldrichError):
    """The program refused texts, a command or an edit. Nothing was changed by it.

    `name` is the refusal's name (docs/REFUSALS.md), `line` and `file` are those that the program gave with it, if it
    did, and `explanation` is all that it said about it in words.
    """

    def __init__(
        self, command: str, name: str, explanation: str = "", line: int | None = None, file: int | None = None
    ):
        super().__init__(command, name, explanation, line, file)
        self.command, self.name, self.explanation, self.line, self.file = command, name, explanation, line, file

    def __str__(self) -> str:
        return f"{self.command}: refused {self.name}" + (f"\n{self.explanation}" if self.explanation else "")


class SessionLost(SoldrichError):
    """The program can't be asked any more: the session, and what was edited in it, are gone."""


class ProgramEnded(SessionLost):
    """The program ended, or didn't start. `status` is its exit status, less than 0 for a signal, or None if it
    didn't start."""

    def __init__(self, status: int | None, told: str):
        super().__init__(status, told)
        self.status, self.told = status, told

    def __str__(self) -> str:
        if self.status is None:
            how = "didn't start"
        else:
            how = f"was ended by signal {-self.status}" if self.status < 0 else f"ended with status {self.status}"
        return f"the program {how}" + (f": {self.told}" if self.told else "")


class PipeBroken(SessionLost):
    """The program takes no commands any more, though it didn't end by itself."""


class NoAnswer(SessionLost):
    """The program didn't answer in the time that it was given."""

    def __init__(self, command: str, seconds: float):
        super().__init__(command, seconds)
        self.command, self.seconds = command, seconds

    def __str__(self) -> str:
        return f"{self.command}: no answer in {self.seconds:g} s; the program was ended"


class SessionClosed(SessionLost):
    """The session was closed before."""


class UnknownAnswer(SoldrichError):
    """The program answered what this package doesn't know: they are of different versions."""


class ResultFileError(SoldrichError):
    """A result file says what its format doesn't know, or there is none."""


class StudyError(SoldrichError):
    """A study's file doesn't say a study."""
