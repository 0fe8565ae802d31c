"""A model that is held by a session, and follows texts as they are saved."""
from __future__ import annotations

import hashlib
from collections.abc import Callable
from dataclasses import dataclass
from pathlib import Path

from .answers import Edited, Run
from .comparison import ScalarPair, scalar_pairs
from .errors import Refused, SessionLost
from .network import drawing, network_of
from .results import Results
from .session import Session
from .sources import Model, Source
from .text_edits import Kind, LineEdit, line_edits

IN_WORDS = {Kind.INSERT: "inserted", Kind.REPLACE: "replaced", Kind.REMOVE: "removed"}


@dataclass(frozen=True)
class Options:
    """How the sessions of a live model are begun, and whether the vectors of its results are read: of a long run
    that takes a while."""

    config: str
    output: Path
    limit: int
    interval: int
    seconds: float
    reads_vectors: bool


@dataclass(frozen=True)
class NedEdit:
    """A NED file that holds another text."""

    file: int
    source: Source


Edit = LineEdit | NedEdit


@dataclass(frozen=True)
class Step:
    """What a save came to. `begun` says why the session was begun anew, if it was: then nothing was valid."""

    edits: list[str]
    begun: str | None
    valid_to: int | None
    run: Run
    why: str | None
    notes: str
    before: Results | None
    after: Results
    files: tuple[Path, Path]
    has_other_vectors: bool

    @property
    def changed_scalars(self) -> list[ScalarPair]:
        """The scalars that are others than after the step before."""
        return [] if self.before is None else [it for it in scalar_pairs(self.before, self.after) if not it.is_equal]


class LiveModel:
    """A session, what it holds, and the results of its last run."""

    def __init__(self, options: Options):
        self._options = options
        self._session: Session | None = None
        self._held: Model | None = None
        self._results: Results | None = None
        self._vectors: bytes | None = None

    def take(self, model: Model) -> Step | None:
        """Makes these texts the session's, runs, and writes the results. Returns None where they are what it holds.

        Raises Refused where they are refused: then the session and the results are what they were. Where the session
        was lost another one is begun.
        """
        try:
            return self._take(model)
        except SessionLost as lost:
            if self._session is None or self._session.is_open:
                # (it was the one that was just begun)
                raise
            return self._begin(model, f"the session was lost: {lost}")

    def _take(self, model: Model) -> Step | None:
        if self._held is None:
            return self._begin(model, "the first run")
        if [it.path for it in model.neds] != [it.path for it in self._held.neds]:
            return self._begin(model, "there are other NED files")
        edits = self._edits(model)
        if not edits:
            self._held = model
            return None
        try:
            edited = self._make(edits)
        except Refused:
            if len(edits) == 1:
                raise
            # each one is an edit of the text before it: only a fresh session knows what is wrong with the whole, if
            # anything is
            return self._begin(model, "these edits can't be made one after another")
        shown = [self._in_words(it, model) for it in edits]
        self._held = model
        run = self._session.run()
        return self._step(shown, None, edited.valid_to, run)

    def drawing(self) -> str | None:
        """Returns the network as SVG; None where the program doesn't list it."""
        network = network_of(self._session)
        return drawing(network) if network else None

    def close(self) -> None:
        """Ends the session."""
        if self._session:
            self._session.close()

    def __enter__(self) -> LiveModel:
        return self

    def __exit__(self, *_) -> None:
        self.close()

    def _begin(self, model: Model, why: str) -> Step:
        """Begins a session of these texts in the place of the one that there is."""
        it = self._options
        session = Session(model.ini, model.neds, it.config, it.limit, it.interval, output=it.output, seconds=it.seconds)
        self.close()
        self._session, self._held = session, model
        return self._step([], why, None, session.first_run)

    def _step(self, edits: list[str], begun: str | None, valid_to: int | None, run: Run) -> Step:
        session, before, vectors = self._session, self._results, self._vectors
        why = None if begun else session.why()
        notes = session.notes()
        files = session.write()
        self._results = Results.read(files if self._options.reads_vectors else files[0])
        self._vectors = _digest_of_vectors(files[1])
        return Step(edits, begun, valid_to, run, why, notes, before, self._results, files, vectors != self._vectors)

    def _edits(self, model: Model) -> list[Edit]:
        """Returns the edits that make these texts of those that the session holds."""
        neds = zip(model.neds, self._held.neds)
        changed = [NedEdit(number, new) for number, (new, old) in enumerate(neds) if new.text != old.text]
        return [*changed, *line_edits(self._session.ini_lines(), model.ini.lines)]

    def _make(self, edits: list[Edit]) -> Edited:
        """Makes edits, in the order in which the session takes them: one that is refused may be taken after others.
        Raises Refused where it takes no more: then all are taken back."""
        waiting, made, back = list(edits), [], []
        lines = self._session.ini_lines()
        while waiting:
            refusal = None
            for edit in waiting:
                try:
                    edited = self._make_one(edit, made, lines, back)
                except Refused as refused:
                    refusal = refusal or refused
                    continue
                made.append(edit)
                waiting.remove(edit)
                break
            else:
                self._take_back(back)
                raise refusal
        return edited

    def _make_one(self, edit: Edit, made: list[Edit], lines: list[str], back: list[Callable[[], Edited]]) -> Edited:
        """Makes an edit, and adds to `back` how it is taken back."""
        session = self._session
        if isinstance(edit, NedEdit):
            edited = session.ned(edit.file, edit.source)
            old = self._held.neds[edit.file]
            back.append(lambda: session.ned(edit.file, old))
            return edited
        line = edit.line(it for it in made if isinstance(it, LineEdit))
        if edit.kind is Kind.INSERT:
            edited = session.insert(line, edit.text)
            back.append(lambda: session.remove(line))
        elif edit.kind is Kind.REPLACE:
            edited = session.replace(line, edit.text)
            back.append(lambda: session.replace(line, lines[edit.before]))
        else:
            edited = session.remove(line)
            back.append(lambda: session.insert(line, lines[edit.before]))
        return edited

    def _take_back(self, back: list[Callable[[], Edited]]) -> None:
        """Takes edits back, the last one first, and runs the model again as it was, so that all of that run is known
        again."""
        for it in reversed(back):
            it()
        if back:
            self._session.run()

    def _in_words(self, edit: Edit, model: Model) -> str:
        if isinstance(edit, NedEdit):
            return f"{edit.source.path} was read anew"
        text = edit.text if edit.kind is not Kind.REMOVE else self._held.ini.lines[edit.before]
        return f"{model.ini.path}: {IN_WORDS[edit.kind]}: {text}"


def _digest_of_vectors(path: Path) -> bytes:
    """Returns a sum of what a vector file says behind its header, which names the configuration and ends with an
    empty line."""
    with path.open("rb") as file:
        while file.readline().strip():
            pass
        return hashlib.file_digest(file, "blake2b").digest()
