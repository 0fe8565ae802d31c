"""Two runs beside each other: which results are equal, and where the others part."""
from __future__ import annotations

from dataclasses import dataclass

import numpy as np
import pandas as pd

from .result_files import Vector
from .results import Results

Key = tuple[str, str]
Number = int | float


@dataclass(frozen=True)
class ScalarPair:
    """A scalar in both runs; None where a run has none of this name."""

    module: str
    name: str
    before: Number | None
    after: Number | None

    @property
    def is_equal(self) -> bool:
        """Both runs have the same value (two that are not a number count as the same)."""
        return self.before == self.after or (self.before != self.before and self.after != self.after)

    @property
    def difference(self) -> Number | None:
        """By how much it grew, where both runs have it."""
        return None if self.before is None or self.after is None else self.after - self.before


@dataclass(frozen=True)
class Point:
    """A value of a vector."""

    event: int
    picoseconds: int
    value: Number


@dataclass(frozen=True)
class VectorPair:
    """A vector in both runs; None where a run has none of this name. `index` is that of the first value in which
    they differ, None if they are equal."""

    module: str
    name: str
    before: Vector | None
    after: Vector | None
    index: int | None

    @property
    def is_equal(self) -> bool:
        """Both runs have the same values, at the same times and events."""
        return self.index is None

    @property
    def parting(self) -> tuple[Point | None, Point | None]:
        """The first value in which they differ, in both runs; None where a run has no more values."""
        return _point(self.before, self.index), _point(self.after, self.index)

    @property
    def first_difference(self) -> Point | None:
        """The earlier one of these."""
        points = [it for it in self.parting if it is not None]
        return min(points, key=lambda it: (it.picoseconds, it.event)) if points else None


def scalar_pairs(before: Results, after: Results) -> list[ScalarPair]:
    """Returns each scalar of both runs, in the order of the later one."""
    old, new = _scalars(before), _scalars(after)
    return [ScalarPair(*key, old.get(key), new.get(key)) for key in [*new, *(it for it in old if it not in new)]]


def vector_pairs(before: Results, after: Results) -> list[VectorPair]:
    """Returns each vector of both runs, in the order of the later one."""
    old, new = vectors_by_key(before), vectors_by_key(after)
    keys = [*new, *(it for it in old if it not in new)]
    return [VectorPair(*key, old.get(key), new.get(key), _parts_at(old.get(key), new.get(key))) for key in keys]


def vectors_by_key(results: Results) -> dict[Key, Vector]:
    """Returns the vectors by module and name."""
    return {
        (it.module, it.name): Vector(it.vecevent, it.vecps, it.vecvalue)
        for it in results.vectors.itertuples(index=False)
    }


def _scalars(results: Results) -> dict[Key, Number]:
    rows: pd.DataFrame = results.scalars
    return dict(zip(zip(rows["module"], rows["name"]), rows["exact"]))


def _parts_at(before: Vector | None, after: Vector | None) -> int | None:
    """Returns the place of the first value in which they differ, None if they are equal."""
    if before is None or after is None:
        return 0
    length = min(len(before.values), len(after.values))
    is_other = np.zeros(length, bool)
    for one, other in (
        (before.events, after.events),
        (before.picoseconds, after.picoseconds),
        (before.values, after.values),
    ):
        is_other |= one[:length] != other[:length]
    first = np.flatnonzero(is_other)
    if len(first):
        return int(first[0])
    return None if len(before.values) == len(after.values) else length


def _point(vector: Vector | None, index: int | None) -> Point | None:
    if vector is None or index is None or index >= len(vector.values):
        return None
    return Point(int(vector.events[index]), int(vector.picoseconds[index]), vector.values[index].item())
