"""Reads scalar and vector files, those of Soldrich and those of OMNeT++ 6 ("Native Result Files" of its manual)."""
from __future__ import annotations

import io
import re
import warnings
from dataclasses import dataclass, field
from pathlib import Path

import numpy as np
import pandas as pd

from .errors import ResultFileError

Number = int | float
PICOSECONDS = 1_000_000_000_000
LAST_PICOSECOND = np.uint64(2**63 - 1)
# a number of so many digits is less than that
SAFE_DIGITS = 18
TEN = np.uint64(10)
WORD = re.compile(r'"((?:[^"\\]|\\.)*)"|(\S+)')
ESCAPES = {"n": "\n", "t": "\t", "r": "\r"}


class SkippedResults(UserWarning):
    """Results of a kind that is not read."""


@dataclass
class Item:
    """A scalar (`value`), a parameter of a module (`value` too, as a text) or a vector (`vector`), with its
    attributes."""

    type: str
    module: str
    name: str
    value: Number | str | None = None
    vector: Vector | None = None
    attributes: dict[str, str] = field(default_factory=dict)


@dataclass
class Vector:
    """The values of a vector: each with the number of its event and its time in picoseconds."""

    events: np.ndarray
    picoseconds: np.ndarray
    values: np.ndarray

    @property
    def seconds(self) -> np.ndarray:
        """The times as floats of seconds."""
        return self.picoseconds / PICOSECONDS


@dataclass
class ResultFile:
    """What a result file says of one run."""

    path: Path
    run: str
    attributes: dict[str, str] = field(default_factory=dict)
    itervars: dict[str, str] = field(default_factory=dict)
    config: list[tuple[str, str]] = field(default_factory=list)
    items: list[Item] = field(default_factory=list)


def read_file(path: str | Path) -> list[ResultFile]:
    """Reads a file, and returns what it says of each run in it. Warns of what it skips: statistics and histograms."""
    path = Path(path)
    text = path.read_bytes()
    heads, data = _parted(text)
    reader = _Reader(path)
    for number, line in heads:
        reader.take(number, line)
    reader.give_values(_values(path, data, reader.widest))
    if not reader.runs:
        raise ResultFileError(
            f"{path}: there is no run in it: a result file begins with the lines 'version 3' and 'run NAME'"
        )
    if reader.skipped:
        shown = ", ".join(f"{count} of the kind '{kind}'" for kind, count in reader.skipped.items())
        warnings.warn(f"{path}: skipped, as they are not read: {shown}", SkippedResults, stacklevel=3)
    return reader.runs


def _parted(text: bytes) -> tuple[list[tuple[int, str]], bytes]:
    """Parts a file into the lines that don't begin with a digit, with their numbers, and the values of vectors."""
    if text and not text.endswith(b"\n"):
        text += b"\n"
    letters = np.frombuffer(text, np.uint8)
    ends = np.flatnonzero(letters == ord("\n"))
    starts = np.concatenate(([0], ends[:-1] + 1)) if len(ends) else ends
    is_value = (letters[starts] >= ord("0")) & (letters[starts] <= ord("9"))
    others = np.flatnonzero(~is_value)
    heads, data, behind = [], [], 0
    for at in others:
        start, end = starts[at], ends[at]
        heads.append((int(at) + 1, text[start:end].decode("utf-8", "replace").rstrip("\r")))
        if start > behind:
            data.append(text[behind:start])
        behind = end + 1
    data.append(text[behind:])
    return heads, b"".join(data)


class _Reader:
    """Takes the lines of a file that are no values, one after the other."""

    def __init__(self, path: Path):
        self.path = path
        self.runs: list[ResultFile] = []
        self.skipped: dict[str, int] = {}
        self._vectors: dict[int, tuple[Item, str]] = {}
        # to what an `attr` line belongs
        self._attributes: dict[str, str] = {}

    @property
    def widest(self) -> int:
        """How many columns the values of a vector have at most."""
        return max((len(columns) for _, columns in self._vectors.values()), default=3)

    def take(self, number: int, line: str) -> None:
        words = [_unquoted(it) for it in WORD.finditer(line)]
        if not words or line.startswith("#"):
            return
        try:
            self._take(words)
        except (ValueError, IndexError) as error:
            raise ResultFileError(f"{self.path}:{number}: this line can't be read: {line[:200]!r} ({error})") from None

    def _take(self, words: list[str]) -> None:
        kind = words[0]
        if kind == "version":
            if words[1] not in ("2", "3"):
                raise ValueError("versions 2 and 3 are read")
            return
        if kind == "run":
            self.runs.append(ResultFile(self.path, words[1]))
            self._attributes = self.runs[-1].attributes
            return
        if not self.runs:
            raise ValueError("a line 'run NAME' comes before it")
        run = self.runs[-1]
        if kind == "attr":
            self._attributes[words[1]] = words[2]
        elif kind == "itervar":
            run.itervars[words[1]] = words[2]
        elif kind in ("config", "param") and len(words) == 3:
            run.config.append((words[1], words[2]))
        elif kind == "par":
            self._add(Item("param", words[1], words[2], words[3]))
        elif kind == "scalar":
            self._add(Item("scalar", words[1], words[2], number_of(words[3])))
        elif kind == "vector":
            item = Item("vector", words[2], words[3], vector=Vector(*(np.empty(0, np.int64) for _ in range(3))))
            self._vectors[int(words[1])] = item, words[4] if len(words) > 4 else "TV"
            self._add(item)
        elif kind not in ("field", "bin"):
            self.skipped[kind] = self.skipped.get(kind, 0) + 1
            self._attributes = {}

    def _add(self, item: Item) -> None:
        self.runs[-1].items.append(item)
        self._attributes = item.attributes

    def give_values(self, table: pd.DataFrame) -> None:
        """Gives the vectors their values."""
        if not len(table):
            return
        numbers = table["vector"].to_numpy()
        order = np.argsort(numbers, kind="stable")
        ordered = numbers[order]
        cuts = np.flatnonzero(np.diff(ordered)) + 1
        for part in np.split(order, cuts):
            number = int(numbers[part[0]])
            if number not in self._vectors:
                raise ResultFileError(
                    f"{self.path}: there are values of vector {number}, and no line 'vector {number} ..' declares it"
                )
            item, columns = self._vectors[number]
            item.vector = _vector(self.path, number, columns, table, part)


def _unquoted(found: re.Match[str]) -> str:
    if found[1] is None:
        return found[2]
    return re.sub(r"\\(.)", lambda it: ESCAPES.get(it[1], it[1]), found[1])


def number_of(text: str) -> Number:
    """Reads a value: exact where it is a whole number, of whatever size."""
    return int(text) if re.fullmatch(r"[+-]?\d+", text) else float(text)


def _values(path: Path, data: bytes, width: int) -> pd.DataFrame:
    """Reads the values of vectors: the number of the vector, and so many columns at most, the time as text."""
    names = ["vector", "first", "second", "third"][: width + 1]
    if not data:
        return pd.DataFrame(columns=names)
    # (texts of a fixed width are bytes of one array, which `picoseconds` goes through column by column)
    kinds = {"vector": np.int64, "first": "S32", "second": "S32"}
    try:
        with warnings.catch_warnings():
            # (it only warns of a line with more columns)
            warnings.simplefilter("error", pd.errors.ParserWarning)
            return pd.read_csv(
                io.BytesIO(data), delim_whitespace=True, header=None, names=names, index_col=False, dtype=kinds
            )
    except (ValueError, pd.errors.ParserError, pd.errors.ParserWarning) as error:
        raise ResultFileError(f"{path}: a line of values is not NUMBER, EVENT, TIME and VALUE ({error})") from None


def _vector(path: Path, number: int, columns: str, table: pd.DataFrame, part: np.ndarray) -> Vector:
    """Takes the lines of one vector out of the table: its columns are ETV, or TV, or other letters in OMNeT++'s
    order."""
    texts = dict(zip(columns, ("first", "second", "third")))
    if "T" not in texts or "V" not in texts or len(columns) > 3:
        raise ResultFileError(f"{path}: vector {number} has the columns '{columns}'; 'TV' and 'ETV' are read")
    events = _bytes(table[texts["E"]].to_numpy()[part]).astype(np.int64) if "E" in texts else np.full(len(part), -1)
    values = table[texts["V"]].to_numpy()[part]
    return Vector(events, picoseconds(_bytes(table[texts["T"]].to_numpy()[part])), _numbers(values))


def _bytes(texts: np.ndarray) -> np.ndarray:
    return texts if texts.dtype.kind == "S" else texts.astype("S32")


def _numbers(values: np.ndarray) -> np.ndarray:
    """Returns whole numbers as such, and others as floats."""
    if values.dtype.kind in "if":
        return values
    texts = values.astype("U")
    try:
        return texts.astype(np.int64)
    except (ValueError, OverflowError):
        return texts.astype(np.float64)


def picoseconds(texts: np.ndarray) -> np.ndarray:
    """Reads times in seconds, decimal and without exponent, as whole picoseconds: exactly, where a float of seconds
    would round."""
    letters = np.ascontiguousarray(texts).view(np.uint8).reshape(len(texts), texts.dtype.itemsize)
    total = np.zeros(len(texts), np.uint64)
    is_behind = np.zeros(len(texts), bool)
    left = np.full(len(texts), 12)
    for at, column in enumerate(np.ascontiguousarray(letters.T)):
        if not column.any():
            break
        digit = column - ord("0")
        is_digit, is_point = digit < 10, column == ord(".")
        is_known = is_digit | is_point | (column == 0)
        if not is_known.all():
            odd = texts[~is_known][0].decode("ascii", "replace")
            raise ResultFileError(f"the time '{odd}' is not a decimal number of seconds")
        # (what is behind the twelfth decimal is no picosecond any more)
        is_counted = is_digit & (left > 0)
        if at >= SAFE_DIGITS:
            _see_that_it_fits(total[is_counted], 10)
        total = np.where(is_counted, total * TEN + digit, total)
        left -= is_counted & is_behind
        is_behind |= is_point
    scale = TEN ** left.astype(np.uint64)
    _see_that_it_fits(total, scale)
    return (total * scale).astype(np.int64)


def _see_that_it_fits(numbers: np.ndarray, factors: np.ndarray | int) -> None:
    """Raises ResultFileError where a number times its factor is no time that is read."""
    if (numbers > LAST_PICOSECOND // np.asarray(factors, np.uint64)).any():
        raise ResultFileError("a time is above 9223372.036854775807 s, the last one that is read")
