"""One process of the program: a line goes in, a line comes out, and nothing waits for ever."""
from __future__ import annotations

import contextlib
import logging
import os
import select
import shutil
import signal
import subprocess
import tempfile
import time
import weakref
from pathlib import Path

from .errors import NoAnswer, PipeBroken, ProgramEnded, SessionClosed, SoldrichError

LOG = logging.getLogger("soldrich")
# how many events a run executes at most, and how many seconds an answer may take, where nothing else is said
EVENTS = 1_000_000
SECONDS = 600.0
# the one of the repository around this package, whose first call compiles the program: so its first answer may take
# longer by these seconds
LAUNCHER = Path(__file__).resolve().parents[2] / "nedrun"
COMPILE_SECONDS = 1200.0


def find_program() -> Path:
    """Returns the program: what NEDRUN names, or ./nedrun of the repository around this package, or the `nedrun` on
    the PATH."""
    named = os.environ.get("NEDRUN")
    if named:
        return Path(named).resolve()
    if LAUNCHER.is_file():
        return LAUNCHER
    found = shutil.which("nedrun")
    if found:
        return Path(found)
    raise SoldrichError("there is no program nedrun: set NEDRUN to its path, or put it on the PATH")


class Program:
    """A running program, with its standard streams."""

    def __init__(self, words: list[str], seconds: float):
        """Starts it with these words; `seconds` is how long an answer may take."""
        self.seconds = seconds
        self._is_launched = Path(words[0]) == LAUNCHER
        self._said = b""
        # what it tells a person is kept in a file, so that it never waits for a reader
        self._told = tempfile.TemporaryFile()
        try:
            # in a session of its own, so that Ctrl-C at the terminal ends this side first
            self._process = subprocess.Popen(
                words, stdin=subprocess.PIPE, stdout=subprocess.PIPE, stderr=self._told, start_new_session=True
            )
        except OSError as error:
            raise ProgramEnded(None, f"{words[0]}: {error.strerror}") from error
        os.set_blocking(self._process.stdin.fileno(), False)
        self._end = weakref.finalize(self, _end, self._process)
        self._told_read = 0
        # lines of it that were logged while the first answer was waited for, and may say why none comes
        self._logged: list[str] = []

    @property
    def pid(self) -> int:
        """The number of the process."""
        return self._process.pid

    @property
    def is_open(self) -> bool:
        """It was neither closed nor given up."""
        return self._end.alive

    def ask(self, line: str) -> str:
        """Writes a command, and returns the line that answers it."""
        if not self.is_open:
            raise SessionClosed("the session is closed: begin another one")
        self._write(line.encode("utf-8", "surrogateescape") + b"\n", line)
        return self.hear(line)

    def hear_first(self) -> str:
        """Returns the first line of standard output. What the program tells meanwhile is logged, as that it is
        compiled."""
        seconds = self.seconds + (COMPILE_SECONDS if self._is_launched else 0)
        deadline = time.monotonic() + seconds
        while True:
            lines = self.told()
            self._logged += lines
            for line in lines:
                LOG.info("%s", line)
            if self._has_line(min(deadline, time.monotonic() + 0.5)):
                self._logged.clear()
                return self._take_line()
            if time.monotonic() >= deadline:
                self._give_up(NoAnswer("the first run", seconds))

    def hear(self, command: str) -> str:
        """Returns the next line of standard output, the answer to this command."""
        if not self._has_line(time.monotonic() + self.seconds):
            self._give_up(NoAnswer(command, self.seconds))
        return self._take_line()

    def told(self) -> list[str]:
        """Returns the lines of standard error that were not returned before."""
        self._told.seek(self._told_read)
        whole, end, _ = self._told.read().rpartition(b"\n")
        self._told_read += len(whole + end)
        return whole.decode("utf-8", "replace").split("\n") if end else []

    def close(self) -> None:
        """Ends the program, and waits until it is gone."""
        self._end()
        self._told.close()

    def _has_line(self, deadline: float) -> bool:
        """Reads until there is a line. Answers no where there is none at the deadline, a time of the monotonic
        clock."""
        output = self._process.stdout.fileno()
        while b"\n" not in self._said:
            if not select.select([output], [], [], max(0.0, deadline - time.monotonic()))[0]:
                return False
            more = os.read(output, 65536)
            if not more:
                self._give_up(self._ended())
            self._said += more
        return True

    def _take_line(self) -> str:
        line, _, self._said = self._said.partition(b"\n")
        return line.decode("utf-8", "surrogateescape")

    def _write(self, text: bytes, command: str) -> None:
        to, deadline = self._process.stdin.fileno(), time.monotonic() + self.seconds
        while text:
            if not select.select([], [to], [], max(0.0, deadline - time.monotonic()))[1]:
                self._give_up(NoAnswer(command, self.seconds))
            try:
                text = text[os.write(to, text) :]
            except BlockingIOError:
                continue
            except BrokenPipeError:
                self._give_up(self._ended())

    def _ended(self) -> SoldrichError:
        """Returns what to raise where a stream of the program is at its end."""
        try:
            status = self._process.wait(1)
        except subprocess.TimeoutExpired:
            return PipeBroken("the program closed its streams, and goes on; it was ended")
        return ProgramEnded(status, "\n".join([*self._logged, *self.told()]))

    def _give_up(self, error: SoldrichError) -> None:
        self.close()
        raise error


def _end(process: subprocess.Popen) -> None:
    """Ends a process: its input ends, which is enough for a program that waits; else it, and what it started, is
    asked by a signal, and then made to."""
    with contextlib.suppress(BrokenPipeError, BlockingIOError):
        process.stdin.close()
    for number, seconds in ((None, 0.5), (signal.SIGTERM, 2), (signal.SIGKILL, 30)):
        if number:
            os.killpg(process.pid, number)
        with contextlib.suppress(subprocess.TimeoutExpired):
            process.wait(seconds)
            break
    process.stdout.close()
