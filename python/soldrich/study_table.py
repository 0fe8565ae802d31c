"""The table of a study: a row for each variant and scalar, and one for each variant that has none."""
from __future__ import annotations

from collections.abc import Sequence
from dataclasses import dataclass
from pathlib import Path

import pandas as pd

from .errors import StudyError
from .result_files import number_of

FIRST = "variant"
# what stands behind the factors
LAST = ["outcome", "reason", "valid_to", "events", "executed", "module", "name", "value"]


@dataclass(frozen=True)
class StudyTable:
    """The rows of a study: `variant`, the factors, and then `outcome` to `value`."""

    frame: pd.DataFrame

    @property
    def factors(self) -> list[str]:
        """The names of the factors."""
        return list(self.frame.columns[1 : -len(LAST)])

    @property
    def variants(self) -> pd.DataFrame:
        """A row for each variant."""
        return self.frame.drop_duplicates(FIRST)

    @property
    def scalars(self) -> pd.DataFrame:
        """The rows that have a scalar."""
        return self.frame[self.frame["name"].notna()]

    @property
    def troubled(self) -> pd.DataFrame:
        """A row for each variant that was refused, or that ended in a fault."""
        variants = self.variants
        return variants[variants["outcome"].str.match(r"(?:refused|fault|lost)\b")].fillna("")

    def write(self, path: Path) -> None:
        """Writes the table, as Parquet if the path ends so, else as CSV."""
        if path.suffix == ".parquet":
            self._write_parquet(path)
        else:
            self.frame.to_csv(path, index=False)

    def _write_parquet(self, path: Path) -> None:
        try:
            self.frame.to_parquet(path, index=False)
        except ImportError as error:
            raise StudyError(
                f"{path}: to write Parquet pandas needs pyarrow, which is not there: take a path that ends with .csv"
            ) from error


def made_of(rows: Sequence[dict], factors: Sequence[str]) -> StudyTable:
    """Makes the table of rows."""
    # (whole numbers are to stay what they are, beside cells that are empty)
    return StudyTable(pd.DataFrame(rows, columns=[FIRST, *factors, *LAST], dtype=object))


def is_study_table(path: Path) -> bool:
    """The path is that of a study's table, by its ending."""
    return path.suffix in (".csv", ".parquet")


def read_study_table(path: Path) -> StudyTable:
    """Reads a table that a study wrote."""
    frame = pd.read_parquet(path) if path.suffix == ".parquet" else _read_csv(path)
    if list(frame.columns[:1]) != [FIRST] or list(frame.columns[-len(LAST) :]) != LAST:
        raise StudyError(
            f"{path}: this is no table of a study: its columns are {FIRST}, the factors, {', '.join(LAST)}"
        )
    return StudyTable(frame)


def _read_csv(path: Path) -> pd.DataFrame:
    """Reads the cells as texts, and as numbers those that are."""
    frame = pd.read_csv(path, dtype=str, keep_default_na=False, na_values={it: [""] for it in LAST})
    numbers = [it for it in (FIRST, "valid_to", "events", "executed", "value") if it in frame]
    return frame.assign(**{it: frame[it].map(number_of, na_action="ignore") for it in numbers})
