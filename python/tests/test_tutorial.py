"""Does what docs/WORKBENCH.md shows, step by step, in a folder of its own, and compares what comes."""
from __future__ import annotations

import doctest
import os
import pathlib
import re
import shutil
import subprocess

from conftest import ENVIRONMENT, PROGRAM, TOP
from processes import Started

PAGE = (TOP / "docs/WORKBENCH.md").read_text()
LINE = re.compile(r"[Cc]hange line (\d+) to `([^`]+)`")
FILE = re.compile(r"Put this into `([^`]+)`")


def blocks_with_what_stands_before() -> list[tuple[str, list[str]]]:
    """The blocks of the page, each with the text before it."""
    parts = re.split(r"((?:^    .*\n(?:\n(?=    ))?)+)", PAGE, flags=re.M)
    return [
        (before, [it[4:] for it in block.rstrip("\n").split("\n")]) for before, block in zip(parts[::2], parts[1::2])
    ]


def without_times(lines: list[str]) -> list[str]:
    """The same lines without how long something took."""
    return [re.sub(r"\d+\.\d{3} s", "TIME", it) for it in lines]


class Tutorial:
    """Who follows the page."""

    def __init__(self, folder: pathlib.Path):
        self.folder = folder
        self.watched: Started | None = None
        self.done = {"command": 0, "save": 0, "file": 0, "watch": 0, "python": 0}
        shutil.copytree(TOP / "examples", folder / "examples")
        (folder / "soldrich").symlink_to(TOP / "soldrich")
        (folder / "nedrun").symlink_to(PROGRAM)

    def follow(self) -> None:
        for before, block in blocks_with_what_stands_before():
            changed, put = LINE.search(before), FILE.search(before)
            if block[0].startswith("$ "):
                self.type(block)
            elif block[0].startswith(">>> "):
                self.interpret(block)
            elif put:
                (self.folder / put[1]).write_text("\n".join(block) + "\n")
                self.done["file"] += 1
            elif changed:
                self.save(int(changed[1]), changed[2], block)
            else:
                self.hear(block)
            if "Ctrl-C ends it." in before:
                assert self.watched.interrupt() == 0
                self.watched = None

    def type(self, block: list[str]) -> None:
        """Types the commands of a block, and compares what each prints."""
        commands = re.split(r"^\$ ", "\n".join(block), flags=re.M)[1:]
        for command, *wanted in (it.rstrip("\n").split("\n") for it in commands):
            self.done["command"] += 1
            if command.startswith("./soldrich watch"):
                self.watched = Started(command.split()[1:], self.folder)
                continue
            ran = subprocess.run(
                ["bash", "-c", command], cwd=self.folder, env=ENVIRONMENT, capture_output=True, text=True, timeout=600
            )
            assert ran.returncode == 0, ran.stderr
            assert ran.stdout.splitlines() == wanted, command

    def hear(self, block: list[str]) -> None:
        """Compares what the watching program prints."""
        self.done["watch"] += 1
        assert without_times(self.watched.until(block[-1][:20])) == without_times(block)

    def save(self, number: int, line: str, block: list[str]) -> None:
        """Changes a line of the ini file, saves it by a rename as editors do, and compares what is printed."""
        self.done["save"] += 1
        path = self.folder / "work/omnetpp.ini"
        lines = path.read_text().split("\n")
        lines[number - 1] = line
        path.with_suffix(".swp").write_text("\n".join(lines))
        os.replace(path.with_suffix(".swp"), path)
        self.hear(block)

    def interpret(self, block: list[str]) -> None:
        """Runs the lines of an interpreter, in the folder."""
        self.done["python"] += 1
        test = doctest.DocTestParser().get_doctest("\n".join(block) + "\n", {}, "WORKBENCH.md", None, None)
        told: list[str] = []
        doctest.DocTestRunner(verbose=False).run(test, out=told.append)
        assert not told, "".join(told)


def test_the_tutorial(tmp_path, monkeypatch):
    monkeypatch.chdir(tmp_path)
    tutorial = Tutorial(tmp_path)
    try:
        tutorial.follow()
    finally:
        if tutorial.watched:
            tutorial.watched.process.terminate()
    assert tutorial.done == {"command": 8, "save": 3, "file": 1, "watch": 4, "python": 2}
    # what the page says of its two runs
    two = (tmp_path / "two.html").read_text()
    assert "0 of 3 scalars and 2 of 2 vectors differ. The vectors part first at event 10, at 0.36 s." in two
