"""A session: one model, held by one process of the program, with its edits and its runs."""
from __future__ import annotations

import dataclasses
import html
import os
import re
import tempfile
from collections.abc import Sequence
from pathlib import Path

from .answers import Edited, Run, edited_of, numbers_of, refusal_of, run_of
from .errors import ProgramEnded, Refused, UnknownAnswer
from .program import EVENTS, SECONDS, Program, find_program
from .results import Results, read_result_files
from .sources import Source

# a file, or a text and the path by which it is spoken of
Text = str | os.PathLike | Source


class Session:
    """One `nedrun` process, and the model that it holds.

    The texts are read when the session begins, and the program makes a first run of them, which is `first_run`. Each
    edit is answered by how far the last run stays valid, and `run` executes only the events behind that. What is
    refused raises Refused and changes nothing. Use it as a context manager, or call `close`: either way the process
    ends.
    """

    def __init__(
        self,
        ini: Text,
        neds: Sequence[Text] | Text,
        config: str = "General",
        limit: int = EVENTS,
        interval: int = 1,
        program: str | os.PathLike | None = None,
        output: str | os.PathLike | None = None,
        seconds: float = SECONDS,
    ):
        """Begins a session.

        ini, neds: the files; config: the selected configuration; limit: how many events a run executes at most;
        interval: after each multiple of how many events the state is stored, which doubles as a run grows; program:
        what to start (`find_program` says what else); output: the folder of the result files, one of the session's own
        if none is named; seconds: how long an answer may take.
        """
        self.limit = limit
        self._folder = tempfile.TemporaryDirectory(prefix="soldrich-")
        # the program reads copies: a file that an editor replaces meanwhile is what it was when it was read here
        self._shown: dict[str, str] = {}
        self._program: Program | None = None
        # what the program told a person and nobody asked for yet
        self._notes: list[str] = []
        self.output = Path(output) if output is not None else Path(self._folder.name, "results")
        try:
            words = [str(program or find_program()), "-c", config, "-l", str(limit), "-k", str(interval)]
            words += ["-o", str(self.output), "-f", self._copy(ini)]
            words += map(self._copy, [neds] if isinstance(neds, Text) else neds)
            self._program = Program(words, seconds)
            self.first_run = self._begin()
        except BaseException:
            self.close()
            raise
        self.last_run = self.first_run

    def _begin(self) -> Run:
        """Hears the first run, and that its files were written."""
        try:
            run = run_of(self._program.hear_first())
            answer = self._program.hear("write")
        except ProgramEnded as ended:
            raise self._refusal_at_the_start(ended) or ended from None
        if answer != "written":
            raise UnknownAnswer(f"the first run was followed by '{answer}'")
        return self._explained(run)

    def _refusal_at_the_start(self, ended: ProgramEnded) -> Refused | None:
        """Returns how the program refused the texts, if that is why it ended."""
        told = self._as_given(ended.told).split("\n")
        for at, line in enumerate(told):
            found = re.fullmatch(r"nedrun: (\w+)(?: file (\d+))?(?: line (\d+))?", line)
            if found:
                file, number = (int(it) if it else None for it in found.groups()[1:])
                return Refused("the texts", found[1], "\n".join(told[at + 1 :]), number, file)
        return None

    # --- runs and results

    def run(self, limit: int | None = None) -> Run:
        """Runs the model, to at most `limit` events (that of the session if it is left out)."""
        command = f"run {self.limit if limit is None else limit}"
        self.last_run = self._explained(run_of(self._ask(command)))
        return self.last_run

    def write(self) -> tuple[Path, Path]:
        """Writes the scalar file and the vector file of the last run, and returns their paths."""
        answer = self._ask("write")
        if answer != "written":
            raise UnknownAnswer(f"write was answered '{answer}'")
        stem = f"{self.selected()}-#0"
        return self.output / f"{stem}.sca", self.output / f"{stem}.vec"

    def results(self) -> Results:
        """Writes the result files of the last run, and reads them."""
        return Results(read_result_files(self.write()))

    # --- edits

    def insert(self, line: int, text: str) -> Edited:
        """Puts a line before that line of the ini text; lines count from 1, and one number more adds a line at the
        end."""
        return self._edit(f"ini insert {line} {text}")

    def replace(self, line: int, text: str) -> Edited:
        """Puts a line in the place of that line of the ini text."""
        return self._edit(f"ini replace {line} {text}")

    def remove(self, line: int) -> Edited:
        """Takes that line of the ini text out."""
        return self._edit(f"ini remove {line}")

    def ned(self, file: int, path: Text) -> Edited:
        """Takes what that path holds as the NED file of that number; files count from 0, in the order in which they
        were given."""
        return self._edit(f"ned {file} {self._copy(path)}")

    def connect(self, type: str, place: int, text: str) -> Edited:
        """Puts a connection, or a group, before that item of the connections of a module or network type; items
        count from 0."""
        return self._edit(f"connect {type} {place} {text}")

    def disconnect(self, type: str, place: int) -> Edited:
        """Takes that item of the connections of a module or network type out."""
        return self._edit(f"disconnect {type} {place}")

    def config(self, name: str) -> Edited:
        """Selects a configuration of the ini text."""
        return self._edit(f"config {name}")

    def inject(
        self, path: str, time: str, priority: int = 0, kind: int = 0, bits: int = 0, payload: bytes = b""
    ) -> Edited:
        """Lets a message from outside arrive at the simple module of that path, at a time such as "2500ms"."""
        return self._edit(f"inject {path} {time} {priority} {kind} {bits} {payload.hex() or '-'}")

    def withdraw(self, injection: int) -> Edited:
        """Takes the message of that number back."""
        return self._edit(f"withdraw {injection}")

    def undo(self) -> Edited:
        """Takes the last edit back; once more takes back that."""
        return self._edit("undo")

    # --- what the session holds

    def positions(self) -> list[int]:
        """Returns after which events the state is stored."""
        return numbers_of(self._ask("positions"), "positions")

    def held(self) -> int:
        """Returns how many simple modules the session holds."""
        return numbers_of(self._ask("held"), "held")[0]

    def ini_lines(self) -> list[str]:
        """Returns the lines of the ini text, as edits have made it."""
        path = Path(self._folder.name, "saved.ini")
        answer = self._ask(f"ini save {path}")
        if answer != "saved":
            raise UnknownAnswer(f"ini save was answered '{answer}'")
        return Source.read(path).lines

    def selected(self) -> str:
        """Returns the name of the selected configuration."""
        for line in self.listing("configs"):
            found = re.fullmatch(r"\d+: (.*) \(selected\)", line)
            if found:
                return found[1]
        return "General"

    def listing(self, command: str) -> list[str]:
        """Returns what a command lists. A program that doesn't know it yet raises Refused, of the name Command."""
        answer, listed = self._ask_for_list(command)
        numbers_of(answer, "listed")
        return listed

    def why(self) -> str | None:
        """Returns what made the last run differ from the one before it, in the program's words; None if it doesn't
        know the command."""
        try:
            answer, listed = self._ask_for_list("why")
        except Refused as refused:
            if refused.name == "Command":
                return None
            raise
        return "\n".join(listed) if answer.startswith("listed ") else answer

    def notes(self) -> str:
        """Returns what the program told a person about runs and edits since that was last asked for, as that a message
        from outside is discarded."""
        told = self._as_given("\n".join(self._notes))
        self._notes.clear()
        return told

    @property
    def is_open(self) -> bool:
        """The session was neither closed nor lost."""
        return self._program is not None and self._program.is_open

    @property
    def pid(self) -> int:
        """The number of the program's process."""
        return self._program.pid

    # --- the end

    def close(self) -> None:
        """Ends the session: the program ends, and its folder of copies and, if it has one of its own, of results is
        removed."""
        if self._program:
            self._program.close()
        self._folder.cleanup()

    def __enter__(self) -> Session:
        return self

    def __exit__(self, *_) -> None:
        self.close()

    def _repr_html_(self) -> str:
        if not self.is_open:
            return "<p>a session that is closed</p>"
        rows = {
            "configuration": self.selected(),
            "last run": f"{self.last_run.outcome}, {self.last_run.executed} events executed of {self.last_run.events}",
            "simple modules": str(self.held()),
            "positions": ", ".join(map(str, self.positions())) or "none",
        }
        shown = "".join(f"<tr><th>{html.escape(key)}</th><td>{html.escape(it)}</td></tr>" for key, it in rows.items())
        text = html.escape("\n".join(self.ini_lines()))
        return f"<table>{shown}</table><details><summary>the ini text</summary><pre>{text}</pre></details>"

    # --- the pipe

    def _copy(self, text: Text) -> str:
        """Writes a text to the session's folder, and returns the path of the copy."""
        source = Source.read(text)
        made = Path(self._folder.name, str(len(self._shown)), Path(source.path).name)
        made.parent.mkdir()
        made.write_bytes(source.text)
        self._shown[str(made)] = source.path
        return str(made)

    def _as_given(self, text: str) -> str:
        """Returns what the program said, with the paths that were given in the place of those of the copies."""
        for copy, given in self._shown.items():
            text = text.replace(copy, given)
        return text

    def _ask(self, command: str) -> str:
        """Asks a command, and returns its answer. Raises Refused where it is refused."""
        if "\n" in command:
            raise ValueError(f"a command is one line, and this one has a line end: {command!r}")
        answer = self._program.ask(command)
        refusal = refusal_of(answer)
        if refusal:
            raise Refused(command, refusal[0], self._as_given("\n".join(self._told())), refusal[1])
        return answer

    def _ask_for_list(self, command: str) -> tuple[str, list[str]]:
        """Asks a command, and returns its answer and what it lists: the last ones of the lines that the program told
        before it."""
        answer = self._ask(command)
        found = re.fullmatch(r"listed (\d+)", answer)
        told = self._program.told()
        first = len(told) - (int(found[1]) if found else 0)
        self._notes += told[:first]
        return answer, self._as_given("\n".join(told[first:])).split("\n") if told[first:] else []

    def _told(self) -> list[str]:
        """Returns what the program told a person behind the last answer: it is all there when a next command is
        answered."""
        self._program.ask("held")
        return self._program.told()

    def _edit(self, command: str) -> Edited:
        edited = edited_of(self._ask(command))
        self._notes += self._told()
        return edited

    def _explained(self, run: Run) -> Run:
        """Returns the same run, with what the program said about its fault if it has one."""
        told = self._told()
        if run.fault:
            return dataclasses.replace(run, explanation=self._as_given("\n".join(told)))
        self._notes += told
        return run
