"""The variants of a model, made one after another by edits of one session."""
from __future__ import annotations

import re
from collections.abc import Callable
from dataclasses import dataclass

from .answers import Edited
from .errors import Refused
from .patterns import pattern
from .result_files import read_file
from .session import Session
from .sources import Source


@dataclass(frozen=True)
class Base:
    """The model of which all are variants."""

    ini: Source
    neds: tuple[Source, ...]
    config: str
    limit: int
    interval: int
    seconds: float


@dataclass(frozen=True)
class Entry:
    """An entry that stands first in the section of the configuration: so it counts before any other that matches."""

    key: str
    value: str

    @property
    def line(self) -> str:
        """The entry as a line of the ini text."""
        return f"{self.key} = {self.value}"


@dataclass(frozen=True)
class Configuration:
    """Another configuration."""

    name: str


@dataclass(frozen=True)
class Connection:
    """A connection more."""

    type: str
    place: int
    text: str


@dataclass(frozen=True)
class NedFile:
    """Another text of a NED file."""

    file: int
    source: Source


# what a choice of a factor does
Edit = Entry | Configuration | Connection | NedFile


@dataclass(frozen=True)
class Variant:
    """A variant: its number, what the table shows of each factor, and its edits."""

    number: int
    shown: tuple[str, ...]
    edits: tuple[Edit, ...]

    @property
    def config(self) -> str | None:
        """The configuration that it selects; None for that of the base."""
        return next((it.name for it in self.edits if isinstance(it, Configuration)), None)

    @property
    def entries(self) -> list[Entry]:
        """Its entries."""
        return [it for it in self.edits if isinstance(it, Entry)]

    @property
    def of_types(self) -> list[Connection | NedFile]:
        """Its edits of the NED files."""
        return [it for it in self.edits if isinstance(it, Connection | NedFile)]


@dataclass(frozen=True)
class Outcome:
    """What came of a variant. Of one that was refused there are no events."""

    variant: int
    outcome: str
    reason: str = ""
    valid_to: int | None = None
    events: int = 0
    executed: int = 0
    scalars: tuple[tuple[str, str, int | float], ...] = ()


class VariantSession:
    """A session of the base, which becomes one variant after another.

    From one to the next it makes only the edits in which they differ, so that only what these reach runs again. A study
    keeps scalars: that vectors are not recorded is no matter of an event, and spares writing them.
    """

    def __init__(self, base: Base):
        self._session = Session(base.ini, base.neds, base.config, base.limit, base.interval, seconds=base.seconds)
        self._base = base
        # what is made now: the selected configuration, the entries in each section, and edits of NED files with how
        # they are taken back
        self._config = base.config
        self._entries: dict[str, list[Entry]] = {}
        self._of_types: list[Connection | NedFile] = []
        self._back: list[Callable[[], Edited]] = []
        # (behind all that the text says itself, and without another number for any of its lines)
        end = len(base.ini.lines) + 1
        self._session.insert(end, "[General]")
        self._session.insert(end + 1, "**.vector-recording = false")

    @property
    def base_events(self) -> int:
        """How many events the run of the base has."""
        return self._session.first_run.events

    def close(self) -> None:
        """Ends the session."""
        self._session.close()

    def outcome_of(self, variant: Variant, keep: tuple[str, ...]) -> Outcome:
        """Runs a variant. Of its scalars those are kept whose module and name, with a dot between, match one of the
        patterns."""
        try:
            valid_to = self._become(variant)
        except Refused as refused:
            return Outcome(variant.number, f"refused {refused.name}", refused.explanation)
        run = self._session.run()
        return Outcome(
            variant.number, run.outcome, run.explanation, valid_to, run.events, run.executed, self._scalars(keep)
        )

    def _become(self, variant: Variant) -> int | None:
        """Makes the session's model this variant, and returns up to which event the run before is one of it. Raises
        Refused where it is none: then the model is one between."""
        valid: list[int | None] = [self._session.last_run.events]
        if variant.of_types != self._of_types:
            self._take_types_back(valid)
            self._make_types(variant.of_types, valid)
        config = variant.config or self._base.config
        if config == self._config:
            self._make_entries(config, variant.entries, valid)
        else:
            self._select(config, variant.entries, valid)
        # (none is less than any)
        return min(valid, key=lambda it: -1 if it is None else it)

    def _make_types(self, edits: list[Connection | NedFile], valid: list[int | None]) -> None:
        """Makes edits of NED files, or none of them."""
        try:
            for edit in edits:
                valid.append(self._make_type(self._session, edit).valid_to)
        except Refused:
            self._take_types_back(valid)
            raise
        self._of_types = edits

    def _make_type(self, session: Session, edit: Connection | NedFile) -> Edited:
        if isinstance(edit, Connection):
            edited = session.connect(edit.type, edit.place, edit.text)
            self._back.append(lambda: session.disconnect(edit.type, edit.place))
        else:
            edited = session.ned(edit.file, edit.source)
            self._back.append(lambda: session.ned(edit.file, self._base.neds[edit.file]))
        return edited

    def _take_types_back(self, valid: list[int | None]) -> None:
        while self._back:
            valid.append(self._back.pop()().valid_to)
        self._of_types = []

    def _select(self, config: str, entries: list[Entry], valid: list[int | None]) -> None:
        """Selects a configuration. The entries stand in its section before they go from that of the other one: so
        what is equal in both configurations stays as it is."""
        try:
            self._make_entries(config, entries, valid)
            valid.append(self._session.config(config).valid_to)
        except Refused:
            self._leave_entries(config, 0, valid)
            raise
        before, self._config = self._config, config
        self._leave_entries(before, 0, valid)

    def _make_entries(self, config: str, entries: list[Entry], valid: list[int | None]) -> None:
        """Puts entries into the section of a configuration, each in the place of the one that stands there."""
        self._leave_entries(config, len(entries), valid)
        made = self._entries.setdefault(config, [])
        for at, entry in enumerate(entries):
            if at == len(made):
                valid.append(self._session.insert(self._line(config, at), entry.line).valid_to)
                made.append(entry)
            elif made[at] != entry:
                valid.append(self._session.replace(self._line(config, at), entry.line).valid_to)
                made[at] = entry

    def _leave_entries(self, config: str, count: int, valid: list[int | None]) -> None:
        """Takes entries out of the section of a configuration, so that at most so many are left."""
        made = self._entries.get(config, [])
        while len(made) > count:
            valid.append(self._session.remove(self._line(config, len(made) - 1)).valid_to)
            made.pop()

    def _line(self, config: str, at: int) -> int:
        """Returns the number of the line of an entry: they stand behind the head of a section, in their order."""
        head = self._head(config)
        above = sum(len(made) for other, made in self._entries.items() if made and self._head(other) < head)
        return head + above + 1 + at

    def _head(self, config: str) -> int:
        """Returns the number of the line with the head of a configuration's section, in the text of the base."""
        head = re.compile(rf"\[(Config )?{re.escape(config)}\]\s*(#.*)?")
        for number, line in enumerate(self._base.ini.lines, 1):
            if head.fullmatch(line):
                return number
        told = f"{self._base.ini.path}: there is no line [Config {config}], behind which an entry would stand"
        raise Refused("an entry", "NoSuchConfig", told)

    def _scalars(self, keep: tuple[str, ...]) -> tuple[tuple[str, str, int | float], ...]:
        expressions = [pattern(it) for it in keep]
        (run,) = read_file(self._session.write()[0])
        scalars = (it for it in run.items if it.type == "scalar")
        return tuple(
            (it.module, it.name, it.value)
            for it in scalars
            if any(one.fullmatch(f"{it.module}.{it.name}") for one in expressions)
        )
