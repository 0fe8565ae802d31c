"""Figures of vectors and of studies, by plotly."""
from __future__ import annotations

from dataclasses import dataclass

import numpy as np
import pandas as pd
import plotly.graph_objects as go

from .comparison import VectorPair
from .result_files import PICOSECONDS, Vector

# more points than a plot shows; of more of them the least and the greatest of each bucket stay
MOST_POINTS = 20_000
# up to so many points each has a mark of its own
MARKED = 300
HOVER = "event %{customdata}<br>%{x:.12~f} s<br><b>%{y}</b>"


@dataclass(frozen=True)
class Shown:
    """The points of a vector that a plot shows, and how many there are in all."""

    vector: Vector
    count: int

    @property
    def is_thinned(self) -> bool:
        """Some are left out."""
        return len(self.vector.values) < self.count


NOTHING = Shown(Vector(*(np.empty(0, np.int64) for _ in range(3))), 0)


def thinned(vector: Vector) -> Shown:
    """Leaves out points where there are too many: of each of equally many points in a row the least and the greatest
    value stay."""
    count = len(vector.values)
    if count <= MOST_POINTS:
        return Shown(vector, count)
    starts = np.linspace(0, count, MOST_POINTS // 2, endpoint=False).astype(np.int64)
    ends = np.append(starts[1:], count)
    values = vector.values
    kept = {int(start + part(values[start:end])) for start, end in zip(starts, ends) for part in (np.argmin, np.argmax)}
    places = np.fromiter(sorted(kept), np.int64)
    return Shown(Vector(vector.events[places], vector.picoseconds[places], values[places]), count)


def vectors_figure(rows: pd.DataFrame) -> go.Figure:
    """Returns a figure of vectors, given as rows of `results.get_vectors`."""
    figure = _figure()
    for it in rows.itertuples(index=False):
        _add(figure, thinned(Vector(it.vecevent, it.vecps, it.vecvalue)), f"{it.module} {it.name}")
    return figure


def vector_figure(shown: Shown, name: str) -> go.Figure:
    """Returns a figure of one vector."""
    figure = _figure()
    _add(figure, shown, name)
    return figure


def pair_figure(pair: VectorPair, before: Shown | None, after: Shown | None) -> go.Figure:
    """Returns a figure of a vector in two runs, with a line where they part."""
    figure = _figure()
    # (a run without it has an empty line, so that both keep their colours)
    _add(figure, before or NOTHING, "before", dash="dot")
    _add(figure, after or NOTHING, "after")
    point = pair.first_difference
    if point:
        at = point.picoseconds / PICOSECONDS
        note = {"text": f"parts at event {point.event}", "xanchor": "left", "yanchor": "bottom", "y": 1}
        figure.add_vline(at, line={"dash": "dash", "width": 1}, annotation=note)
    return figure


def factors_figure(rows: pd.DataFrame, factors: list[str]) -> go.Figure:
    """Returns a figure of a scalar over the factors of a study: along the first one, a line for each choice of the
    others."""
    figure = _figure("", factors[0] if factors else "variant")
    along = rows[factors[0]].astype(str) if factors else rows["variant"]
    others = (
        rows[factors[1:]].astype(str).agg(", ".join, axis=1) if len(factors) > 1 else pd.Series("", index=rows.index)
    )
    for name, part in rows.groupby(others, sort=False):
        figure.add_trace(
            go.Scatter(
                x=along[part.index].tolist(), y=part["value"].tolist(), name=name or "value", mode="lines+markers"
            )
        )
    figure.update_layout(showlegend=len(figure.data) > 1)
    # (the values of a factor stand in the order of the study, as words)
    figure.update_xaxes(type="category", categoryorder="array", categoryarray=list(dict.fromkeys(along)))
    return figure


def _figure(unit: str = "s", along: str = "time") -> go.Figure:
    layout = {"margin": {"l": 56, "r": 16, "t": 32, "b": 44}, "height": 320, "hovermode": "closest", "template": "none"}
    axis = {"title": {"text": f"{along} in {unit}" if unit else along}, "zeroline": False}
    legend = {"orientation": "h", "y": 1.07, "yanchor": "bottom"}
    return go.Figure(
        layout={**layout, "xaxis": axis, "yaxis": {"zeroline": False, "rangemode": "tozero"}, "legend": legend}
    )


def _add(figure: go.Figure, shown: Shown, name: str, dash: str = "solid") -> None:
    it = shown.vector
    events = np.where(it.events < 0, None, it.events) if len(it.events) and it.events[0] < 0 else it.events
    # a value holds until the next one
    figure.add_trace(
        go.Scatter(
            x=it.seconds,
            y=it.values,
            customdata=events,
            name=name,
            mode="lines+markers" if len(it.values) <= MARKED else "lines",
            line={"shape": "hv", "dash": dash},
            hovertemplate=HOVER,
        )
    )
