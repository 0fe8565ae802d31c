"""A study, as its TOML file says it: a base, and factors, each of which has several choices."""
from __future__ import annotations

import itertools
import tomllib
from collections.abc import Callable, Iterable, Sequence
from dataclasses import dataclass
from pathlib import Path

from .errors import StudyError
from .program import EVENTS, SECONDS
from .sources import Source, ned_files_below
from .variants import Base, Configuration, Connection, Edit, Entry, NedFile, Variant

# how factors are combined: each choice with each, or the first ones, the second ones ..
WAYS = {"cross": itertools.product, "zip": zip}


@dataclass(frozen=True)
class Factor:
    """Something that varies: a name, what stands for each choice in the table, and the edit that each choice is."""

    name: str
    shown: tuple[str, ...]
    edits: tuple[Edit | None, ...]


@dataclass(frozen=True)
class Study:
    """What is to be run: the base, its variants, and patterns for the scalars that are kept."""

    base: Base
    factors: tuple[Factor, ...]
    variants: tuple[Variant, ...]
    keep: tuple[str, ...]


def read_study(path: Path) -> Study:
    """Reads a study. Paths in it are those beside it."""
    try:
        table = tomllib.loads(path.read_text(encoding="utf-8"))
    except tomllib.TOMLDecodeError as error:
        raise StudyError(f"{path}: this is no TOML: {error}") from None
    reader = _Reader(path)
    reader.knows(table, "a study", {"base", "study", "factors"})
    base = reader.base(reader.table(table, "base", "a table [base], with the ini file and the NED files"))
    how = reader.table(table, "study") if "study" in table else {}
    reader.knows(how, "[study]", {"combine", "keep"})
    factors = tuple(
        reader.factor(name, value) for name, value in reader.table(table, "factors", "a table [factors]").items()
    )
    keep = reader.strings(how.get("keep", ["**"]), "study.keep", 'a list of patterns such as "**.rx:count"')
    return Study(base, factors, tuple(reader.combined(factors, how.get("combine", "cross"))), keep)


class _Reader:
    """Reads the parts of a study's file, and says where one is not as it should be."""

    def __init__(self, path: Path):
        self._path = path

    def wrong(self, where: str, what: str) -> StudyError:
        return StudyError(f"{self._path}: {where}: {what}")

    def knows(self, table: dict, where: str, keys: Iterable[str]) -> None:
        """Finds a key that means nothing."""
        for key in table:
            if key not in keys:
                raise self.wrong(where, f"'{key}' means nothing there; there are {', '.join(sorted(keys))}")

    def table(self, table: dict, key: str, wanted: str = "a table") -> dict:
        found = table.get(key)
        if not isinstance(found, dict):
            raise self.wrong(key, f"this has to be {wanted}")
        return found

    def strings(self, value: object, where: str, wanted: str) -> tuple[str, ...]:
        if not isinstance(value, list) or not value or not all(isinstance(it, str) for it in value):
            raise self.wrong(where, f"this has to be {wanted}")
        return tuple(value)

    def number(self, table: dict, key: str, default: int) -> int:
        value = table.get(key, default)
        if not isinstance(value, int) or isinstance(value, bool) or value < 0:
            raise self.wrong(key, "this has to be a whole number")
        return value

    def base(self, table: dict) -> Base:
        self.knows(table, "[base]", {"ini", "neds", "folder", "config", "limit", "interval", "seconds"})
        if not isinstance(table.get("ini"), str):
            raise self.wrong("base.ini", "this has to be the path of the ini file")
        neds = list(self.strings(table["neds"], "base.neds", "a list of NED files")) if "neds" in table else []
        paths = [self._path.parent / it for it in neds]
        if "folder" in table:
            paths += ned_files_below([self._path.parent / table["folder"]])
        if not paths:
            raise self.wrong(
                "[base]", 'there is no NED file: neds = [..] names them, or folder = ".." one with NED files below it'
            )
        limit, interval = self.number(table, "limit", EVENTS), self.number(table, "interval", 1)
        sources = tuple(self.source(it, "[base]") for it in paths)
        seconds = self.number(table, "seconds", int(SECONDS))
        ini = self.source(self._path.parent / table["ini"], "base.ini")
        return Base(ini, sources, str(table.get("config", "General")), limit, interval, seconds)

    def source(self, path: Path, where: str) -> Source:
        try:
            return Source.read(path)
        except OSError as error:
            raise self.wrong(where, f"{path} can't be read: {error.strerror}") from None

    def factor(self, name: str, value: object) -> Factor:
        """Reads a factor: a list is one of values for the entry of that key, a table one of other edits."""
        where = f"factors.'{name}'"
        if isinstance(value, list):
            values = self.strings(value, where, "a list of texts, the values of that key")
            return Factor(name, values, tuple(Entry(name, it) for it in values))
        kinds: dict[str, Callable[[dict, str], list]] = {
            "config": self._configs,
            "connect": self._connections,
            "ned": self._neds,
        }
        kind = next((it for it in kinds if isinstance(value, dict) and it in value), None)
        if kind is None:
            raise self.wrong(
                where, "a factor is a list of values, or a table with config = [..], connect = [..] or ned = [..]"
            )
        shown = self.strings(value[kind], f"{where}.{kind}", "a list of texts")
        return Factor(name, shown, tuple(kinds[kind](value, where)))

    def _configs(self, table: dict, where: str) -> list[Configuration]:
        self.knows(table, where, {"config"})
        return [Configuration(it) for it in table["config"]]

    def _connections(self, table: dict, where: str) -> list[Connection | None]:
        self.knows(table, where, {"connect", "type", "place"})
        if not isinstance(table.get("type"), str):
            raise self.wrong(where, 'type = ".." has to name the module or network type that gets the connection')
        place = self.number(table, "place", 0)
        return [Connection(table["type"], place, it) if it else None for it in table["connect"]]

    def _neds(self, table: dict, where: str) -> list[NedFile]:
        self.knows(table, where, {"ned", "file"})
        number = self.number(table, "file", 0)
        return [NedFile(number, self.source(self._path.parent / it, where)) for it in table["ned"]]

    def combined(self, factors: Sequence[Factor], way: object) -> list[Variant]:
        """Returns the variants: the choices of the last factor change first."""
        if way not in WAYS:
            raise self.wrong("study.combine", f"'{way}' is not one of {', '.join(WAYS)}")
        if way == "zip" and len({len(it.shown) for it in factors}) > 1:
            counts = ", ".join(f"{it.name} {len(it.shown)}" for it in factors)
            raise self.wrong("study.combine", f"to be zipped all factors need as many choices; there are {counts}")
        choices = WAYS[way](*(range(len(it.shown)) for it in factors))
        return [
            Variant(
                number,
                tuple(it.shown[at] for it, at in zip(factors, chosen)),
                tuple(edit for it, at in zip(factors, chosen) if (edit := it.edits[at]) is not None),
            )
            for number, chosen in enumerate(choices)
        ]
