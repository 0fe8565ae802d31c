"""The difference of two texts, as the edits that a session takes."""
from __future__ import annotations

from collections.abc import Iterable, Sequence
from dataclasses import dataclass
from difflib import SequenceMatcher
from enum import Enum


class Kind(Enum):
    """What an edit does with a line. In this order edits leave most of a run valid: a line that moved stands twice
    for a moment, not nowhere."""

    INSERT = 0
    REPLACE = 1
    REMOVE = 2


@dataclass(frozen=True)
class LineEdit:
    """An edit of one line: `before` is the line of the old text, counted from 0, that it replaces or removes, or
    before which it puts another one. `order` counts those that are put before the same line."""

    kind: Kind
    before: int
    order: int
    text: str = ""

    @property
    def place(self) -> tuple[int, bool, int]:
        """Where it stands among other edits: lines that are put before a line, and then what happens to that line."""
        return self.before, self.kind is not Kind.INSERT, self.order

    def line(self, made: Iterable[LineEdit]) -> int:
        """Returns the number of the line, from 1, in the text after other edits of the same difference."""
        moved = {Kind.INSERT: 1, Kind.REPLACE: 0, Kind.REMOVE: -1}
        return self.before + 1 + sum(moved[it.kind] for it in made if it.place < self.place)


def line_edits(old: Sequence[str], new: Sequence[str]) -> list[LineEdit]:
    """Returns edits that make the new lines of the old ones, in the order in which they leave most of a run valid."""
    edits: list[LineEdit] = []
    for tag, i1, i2, j1, j2 in SequenceMatcher(None, old, new, autojunk=False).get_opcodes():
        if tag != "equal":
            _add_block(edits, i1, old[i1:i2], new[j1:j2])
    return sorted(edits, key=lambda it: (it.kind.value, it.place))


def _add_block(edits: list[LineEdit], start: int, old: Sequence[str], new: Sequence[str]) -> None:
    """Adds the edits of a block of lines that differ: a line is replaced by one of the same key, where there is one."""
    keys = SequenceMatcher(None, [_key(it) for it in old], [_key(it) for it in new], autojunk=False)
    for _, i1, i2, j1, j2 in keys.get_opcodes():
        paired = min(i2 - i1, j2 - j1)
        for at in range(paired):
            if old[i1 + at] != new[j1 + at]:
                edits.append(LineEdit(Kind.REPLACE, start + i1 + at, 0, new[j1 + at]))
        edits.extend(LineEdit(Kind.REMOVE, start + at, 0) for at in range(i1 + paired, i2))
        edits.extend(LineEdit(Kind.INSERT, start + i2, at, new[at]) for at in range(j1 + paired, j2))


def _key(line: str) -> str:
    return line.partition("=")[0].strip()
