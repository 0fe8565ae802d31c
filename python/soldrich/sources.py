"""The texts of a model: an ini file and NED files, as they were at one moment."""
from __future__ import annotations

import os
from collections.abc import Iterable
from dataclasses import dataclass
from pathlib import Path


@dataclass(frozen=True)
class Source:
    """A text, and the path by which it is spoken of."""

    path: str
    text: bytes

    @classmethod
    def read(cls, path: str | os.PathLike | Source) -> Source:
        """Reads a file; a source is returned as it is."""
        return path if isinstance(path, Source) else cls(os.fspath(path), Path(path).read_bytes())

    @property
    def lines(self) -> list[str]:
        """The lines, as the program counts them."""
        return self.text.decode("utf-8", "surrogateescape").removesuffix("\n").split("\n")


@dataclass(frozen=True)
class Model:
    """The texts of a model."""

    ini: Source
    neds: tuple[Source, ...]

    @property
    def has_empty(self) -> bool:
        """One of the texts is empty, as a file is for a moment that an editor truncates."""
        return any(not it.text for it in (self.ini, *self.neds))


@dataclass(frozen=True)
class ModelFiles:
    """Where the texts of a model are: the ini file, NED files, and folders with NED files below them."""

    ini: Path
    neds: tuple[Path, ...]
    folders: tuple[Path, ...] = ()

    def read(self) -> Model:
        """Reads all of them. Raises OSError where one is not there."""
        return Model(Source.read(self.ini), tuple(map(Source.read, [*self.neds, *ned_files_below(self.folders)])))


def ned_files_below(folders: Iterable[Path]) -> list[Path]:
    """Returns the NED files below folders, as `nedrun -n` takes them: in the order of their paths, without names
    that begin with a dot."""
    found = []
    for folder in folders:
        for where, inner, names in os.walk(folder):
            inner[:] = [it for it in inner if not it.startswith(".")]
            found.extend(Path(where, it) for it in names if it.endswith(".ned") and not it.startswith("."))
    return sorted(found, key=str)
