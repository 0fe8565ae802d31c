"""Processes that the tests start and read line by line, each line within a time."""
from __future__ import annotations

import os
import pathlib
import queue
import signal
import subprocess
import sys
import threading
from collections.abc import Sequence

from conftest import ENVIRONMENT

# How long a test waits for a process that it started. It is no measure: a busy machine may take minutes where an idle
# one takes a second.
SECONDS = 600.0


class Started:
    """`soldrich` as a process of its own."""

    def __init__(self, words: Sequence[str | os.PathLike], folder: os.PathLike):
        command = [sys.executable, "-m", "soldrich", *map(str, words)]
        streams = {"stdout": subprocess.PIPE, "stderr": subprocess.STDOUT, "stdin": subprocess.DEVNULL}
        # (what a process leaves that is killed goes with the folder)
        rest = pathlib.Path(folder, ".rest")
        rest.mkdir(exist_ok=True)
        self.process = subprocess.Popen(
            command, cwd=folder, env={**ENVIRONMENT, "TMPDIR": str(rest)}, text=True, **streams
        )
        # its lines, and None at their end
        self._lines: queue.Queue[str | None] = queue.Queue()
        threading.Thread(target=self._read, daemon=True).start()

    def until(self, *beginnings: str) -> list[str]:
        """Returns the lines up to the next one that begins with one of these."""
        lines = []
        while True:
            try:
                line = self._lines.get(timeout=SECONDS)
            except queue.Empty:
                line = None
            assert line is not None, f"after {lines} no line came that begins with {beginnings}"
            lines.append(line)
            if line.startswith(beginnings):
                return lines

    def is_quiet(self, seconds: float) -> bool:
        """No line comes in this time."""
        try:
            self._lines.get(timeout=seconds)
        except queue.Empty:
            return True
        return False

    def interrupt(self) -> int:
        """Ends it as Ctrl-C does, and returns its status."""
        self.process.send_signal(signal.SIGINT)
        return self.process.wait(SECONDS)

    def __enter__(self) -> Started:
        return self

    def __exit__(self, *_) -> None:
        self.process.terminate()
        try:
            self.process.wait(SECONDS)
        except subprocess.TimeoutExpired:
            self.process.kill()
            raise

    def _read(self) -> None:
        for line in self.process.stdout:
            self._lines.put(line.rstrip("\n"))
        self._lines.put(None)


def children_of(pid: int) -> list[int]:
    """The processes that this process started."""
    listed = subprocess.run(
        ["ps", "-o", "pid=", "--ppid", str(pid)], capture_output=True, text=True, check=False
    ).stdout
    return [int(it) for it in listed.split()]
