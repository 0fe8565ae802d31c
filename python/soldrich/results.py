"""Results as data frames, in the form of OMNeT++'s own `omnetpp.scave.results`: a notebook that was written for that
one works with `from soldrich import results`. Beside its columns stand `vecps`, the times of a vector as whole
picoseconds, `vecevent`, the numbers of its events, and `exact`, a scalar as the whole number that the file says."""
from __future__ import annotations

import glob
import os
from collections.abc import Iterable
from pathlib import Path
from typing import TYPE_CHECKING

import numpy as np
import pandas as pd

from .errors import ResultFileError
from .filters import filter_of
from .patterns import pattern
from .result_files import Item, ResultFile, read_file

if TYPE_CHECKING:
    import plotly.graph_objects

Patterns = str | os.PathLike | Iterable[str | os.PathLike]
ENDINGS = (".sca", ".vec")
COLUMNS = [
    "runID",
    "type",
    "module",
    "name",
    "attrname",
    "attrvalue",
    "value",
    "exact",
    "vectime",
    "vecvalue",
    "vecps",
    "vecevent",
]


def read_result_files(patterns: Patterns, filter_expression: str | None = None) -> pd.DataFrame:
    """Reads all result files that patterns name (`results/*.sca`; `**` stands for folders too), and returns a row
    for each scalar, vector, parameter, attribute and entry of the configuration. A filter chooses scalars, vectors
    and parameters (`filters`)."""
    is_meant = filter_of(filter_expression) if filter_expression else lambda file, item: True
    rows, seen = [], set()
    for path in paths_of(patterns):
        for file in read_file(path):
            items = [it for it in file.items if is_meant(file, it)]
            # (the scalar file and the vector file of a run begin with the same lines)
            if file.run not in seen and (items or not filter_expression):
                rows.extend(_run_rows(file))
                seen.add(file.run)
            for item in items:
                rows.extend(_item_rows(file, item))
    return pd.DataFrame(rows, columns=COLUMNS, dtype=object).astype({"value": float})


def paths_of(patterns: Patterns) -> list[Path]:
    """Returns the result files that patterns name, by their endings: a folder names those in it. A path without
    pattern is taken as it is."""
    made: list[Path] = []
    for it in [patterns] if isinstance(patterns, (str, os.PathLike)) else patterns:
        text = os.fspath(it)
        inside = os.path.join(glob.escape(text), "*") if os.path.isdir(text) else text
        found = (
            [text]
            if os.path.isfile(text)
            else [path for path in sorted(glob.glob(inside, recursive=True)) if path.endswith(ENDINGS)]
        )
        if not found:
            raise ResultFileError(
                f"{text}: there is no such result file: they are named as CONFIG-#0.sca and CONFIG-#0.vec"
            )
        made.extend(Path(path) for path in found if Path(path) not in made)
    return made


def _run_rows(file: ResultFile) -> list[dict]:
    kinds = {"runattr": file.attributes.items(), "itervar": file.itervars.items(), "config": file.config}
    return [
        {"runID": file.run, "type": kind, "attrname": name, "attrvalue": value}
        for kind, pairs in kinds.items()
        for name, value in pairs
    ]


def _item_rows(file: ResultFile, item: Item) -> list[dict]:
    row = {"runID": file.run, "type": item.type, "module": item.module, "name": item.name}
    attributes = [
        {**row, "type": "attr", "attrname": name, "attrvalue": value} for name, value in item.attributes.items()
    ]
    if item.type == "scalar":
        row |= {"value": item.value, "exact": item.value}
    elif item.type == "param":
        row |= {"attrname": item.name, "attrvalue": item.value}
    else:
        it = item.vector
        row |= {"vectime": it.seconds, "vecvalue": it.values, "vecps": it.picoseconds, "vecevent": it.events}
    return [row, *attributes]


def get_scalars(
    frame: pd.DataFrame,
    include_attrs: bool = False,
    include_runattrs: bool = False,
    include_itervars: bool = False,
    include_config_entries: bool = False,
) -> pd.DataFrame:
    """Returns a row for each scalar: runID, module, name, value, exact, and a column for each attribute that is
    asked for."""
    rows = frame[frame["type"] == "scalar"][["runID", "module", "name", "value", "exact"]]
    return _with_attributes(rows, frame, include_attrs, include_runattrs, include_itervars, include_config_entries)


def get_vectors(
    frame: pd.DataFrame,
    include_attrs: bool = False,
    include_runattrs: bool = False,
    include_itervars: bool = False,
    include_config_entries: bool = False,
) -> pd.DataFrame:
    """Returns a row for each vector: runID, module, name, vectime, vecvalue, vecps, vecevent, and the attributes
    that are asked for."""
    rows = frame[frame["type"] == "vector"][["runID", "module", "name", "vectime", "vecvalue", "vecps", "vecevent"]]
    return _with_attributes(rows, frame, include_attrs, include_runattrs, include_itervars, include_config_entries)


def get_runs(frame: pd.DataFrame) -> pd.DataFrame:
    """Returns a row for each run, with its attributes as columns."""
    runs = frame[["runID"]].drop_duplicates().reset_index(drop=True)
    return _with_attributes(runs, frame, runattrs=True)


def get_runattrs(frame: pd.DataFrame) -> pd.DataFrame:
    """Returns a row for each attribute of a run: runID, name, value."""
    return _pairs(frame, "runattr")


def get_itervars(frame: pd.DataFrame) -> pd.DataFrame:
    """Returns a row for each iteration variable of a run: runID, name, value."""
    return _pairs(frame, "itervar")


def get_config_entries(frame: pd.DataFrame) -> pd.DataFrame:
    """Returns a row for each entry of a run's configuration, in its order: runID, name, value."""
    return _pairs(frame, "config")


def _pairs(frame: pd.DataFrame, kind: str) -> pd.DataFrame:
    rows = frame[frame["type"] == kind][["runID", "attrname", "attrvalue"]]
    return rows.rename(columns={"attrname": "name", "attrvalue": "value"}).reset_index(drop=True)


def _with_attributes(
    rows: pd.DataFrame,
    frame: pd.DataFrame,
    attrs: bool = False,
    runattrs: bool = False,
    itervars: bool = False,
    config: bool = False,
) -> pd.DataFrame:
    kinds = {"runattr": runattrs, "itervar": itervars, "config": config}
    for kind in (it for it, is_wanted in kinds.items() if is_wanted):
        rows = rows.merge(_columns(frame, kind, ["runID"]), on="runID", how="left")
    if attrs:
        keys = ["runID", "module", "name"]
        rows = rows.merge(_columns(frame, "attr", keys), on=keys, how="left")
    return rows.reset_index(drop=True)


def _columns(frame: pd.DataFrame, kind: str, keys: list[str]) -> pd.DataFrame:
    """Returns a row for each key, and a column for each attribute of that kind: of an entry that stands twice the
    first counts."""
    wide = frame[frame["type"] == kind].pivot_table(index=keys, columns="attrname", values="attrvalue", aggfunc="first")
    wide.columns.name = None
    return wide.reset_index()


class Results:
    """The results of one run or of several."""

    def __init__(self, frame: pd.DataFrame):
        """Takes a frame of `read_result_files`."""
        self.frame = frame

    @classmethod
    def read(cls, patterns: Patterns) -> Results:
        """Reads the files that patterns name."""
        return cls(read_result_files(patterns))

    @property
    def scalars(self) -> pd.DataFrame:
        """A row for each scalar."""
        return get_scalars(self.frame)

    @property
    def vectors(self) -> pd.DataFrame:
        """A row for each vector."""
        return get_vectors(self.frame)

    def scalar(self, module: str, name: str) -> int | float:
        """Returns the value of a scalar, exactly."""
        rows = self.scalars
        found = rows[(rows["module"] == module) & (rows["name"] == name)]["exact"]
        if len(found) != 1:
            raise KeyError(f"there are {len(found)} scalars '{name}' of '{module}'")
        return found.iloc[0]

    def vector(self, module: str, name: str) -> pd.DataFrame:
        """Returns the values of a vector: event, ps, time, value."""
        rows = self.vectors
        found = rows[(rows["module"] == module) & (rows["name"] == name)]
        if len(found) != 1:
            raise KeyError(f"there are {len(found)} vectors '{name}' of '{module}'")
        row = found.iloc[0]
        return pd.DataFrame(
            {"event": row["vecevent"], "ps": row["vecps"], "time": row["vectime"], "value": row["vecvalue"]}
        )

    def matching(self, of: str) -> pd.DataFrame:
        """Returns the vectors whose module and name, with a dot between, match a pattern such as
        `**.queue.length:*`."""
        rows, expression = self.vectors, pattern(of)
        is_meant = [
            bool(expression.fullmatch(f"{module}.{name}")) for module, name in zip(rows["module"], rows["name"])
        ]
        return rows[np.array(is_meant, bool)]

    def plot(self, of: str = "**") -> plotly.graph_objects.Figure:
        """Returns a figure of the vectors that match a pattern."""
        from .figures import vectors_figure

        return vectors_figure(self.matching(of))

    def _repr_html_(self) -> str:
        return self.scalars.drop(columns="value").to_html(index=False, escape=True)
