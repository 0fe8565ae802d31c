"""What the tests share: the program, the examples, and a fresh run of a model."""
from __future__ import annotations

import os
import pathlib
import re
import shlex
import subprocess
import sys
from dataclasses import dataclass

import pytest

PYTHON = pathlib.Path(__file__).resolve().parents[1]
TOP = PYTHON.parent
sys.path.insert(0, str(PYTHON))

from soldrich.program import find_program  # noqa: E402

PROGRAM = str(find_program())
# processes that the tests start find the package and the program by these
ENVIRONMENT = {**os.environ, "PYTHONPATH": str(PYTHON), "NEDRUN": PROGRAM}


@dataclass(frozen=True)
class Example:
    """A folder under examples/, with the words by which its page runs it."""

    folder: pathlib.Path
    config: str
    interval: int
    ini: pathlib.Path
    neds: tuple[pathlib.Path, ...]

    @property
    def name(self) -> str:
        return self.folder.name

    def lines_of(self, name: str) -> list[str]:
        """The lines of one of its files."""
        return (self.folder / name).read_text().splitlines()


def read_example(folder: pathlib.Path) -> Example:
    """Reads the words of the page's first command."""
    page = folder / "README.md"
    if not page.exists():
        # (its page is docs/COMMANDS.md)
        return Example(folder, "General", 1000, folder / "omnetpp.ini", (folder / f"{folder.name}.ned",))
    command = re.search(r"^    \./nedrun ((?:.*\\\n)*.*)$", page.read_text(), re.M)[1]
    words = [it for it in shlex.split(command.replace("\\\n", " ")) if not it.startswith("<")]
    options = {"-c": "General", "-k": "1000", "-o": "results", "-n": None}
    paths = []
    while words:
        word = words.pop(0)
        if word in options:
            options[word] = words.pop(0)
        else:
            paths.append(TOP / word)
    # (those below a folder come after those that are named)
    paths += sorted((TOP / options["-n"]).rglob("*.ned")) if options["-n"] else []
    return Example(folder, options["-c"], int(options["-k"]), paths[0], tuple(paths[1:]))


EXAMPLES = [read_example(it) for it in sorted((TOP / "examples").iterdir())]


def example(name: str) -> Example:
    """The example of that name."""
    return next(it for it in EXAMPLES if it.name == name)


@pytest.fixture(params=EXAMPLES, ids=lambda it: it.name)
def each_example(request) -> Example:
    return request.param


def fresh_run(
    folder: pathlib.Path, ini: str, neds: list[str], config: str, limit: int, messages: tuple[str, ...] = ()
) -> tuple[str, bytes, bytes]:
    """Runs texts by a program of their own, and returns the outcome and both files. Messages are `inject` commands."""
    folder.mkdir(parents=True, exist_ok=True)
    paths = [folder / f"{number}.ned" for number in range(len(neds))]
    for path, text in zip([folder / "omnetpp.ini", *paths], [ini, *neds]):
        path.write_text(text)
    words = [
        PROGRAM,
        "-c",
        config,
        "-l",
        str(0 if messages else limit),
        "-o",
        str(folder),
        "-f",
        str(folder / "omnetpp.ini"),
        *map(str, paths),
    ]
    commands = "".join(f"{it}\n" for it in (*messages, f"run {limit}", "write"))
    ran = subprocess.run(words, input=commands, capture_output=True, text=True, timeout=300)
    assert ran.returncode == 0, ran.stderr
    answer = ran.stdout.splitlines()[-2]
    return answer.rpartition(" from ")[0].removeprefix("done "), *(
        (folder / f"{config}-#0.{it}").read_bytes() for it in ("sca", "vec")
    )
