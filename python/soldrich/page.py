"""The page of a report: one HTML file with all that it needs in it, made by jinja2 of the templates beside this
module."""
from __future__ import annotations

import json
import os
import time
from collections.abc import Sequence
from dataclasses import dataclass
from pathlib import Path

import jinja2
import plotly.graph_objects as go
from markupsafe import Markup, escape
from plotly.offline import get_plotlyjs

TEMPLATES = Path(__file__).parent / "page"


@dataclass(frozen=True)
class Column:
    """A column of a table."""

    name: str
    is_number: bool = False


@dataclass(frozen=True)
class Table:
    """A table that sorts and, if it is long, filters; `label` says to a screen reader what it is."""

    label: str
    columns: Sequence[Column]
    rows: Sequence[Sequence[str]]


@dataclass(frozen=True)
class Plot:
    """A plot with zoom and hover, what is said above it, and a table of what it shows."""

    id: str
    name: str
    figure: go.Figure
    lines: Sequence[str] = ()
    table: Table | None = None
    table_head: str = ""


@dataclass(frozen=True)
class Part:
    """A section of the page. What is equal in two runs is folded away."""

    id: str
    head: str
    lines: Sequence[str] = ()
    table: Table | None = None
    plots: Sequence[Plot] = ()
    equal: Table | None = None
    equal_head: str = ""


@dataclass(frozen=True)
class Page:
    """A page: `facts` is the header of the run, `config` its configuration, and `drawing` the network, as SVG."""

    title: str
    lead: str
    made_of: str
    parts: Sequence[Part]
    facts: Table | None = None
    config: Table | None = None
    config_head: str = ""
    drawing: str | None = None
    reloads: bool = False

    def write(self, path: Path) -> Path:
        """Writes the page. It takes its place whole, so that a browser never reads half of it."""
        stamp = str(time.time_ns())
        beside = path.with_name(f"{path.name}.part")
        beside.write_text(self._html(path, stamp), encoding="utf-8")
        os.replace(beside, path)
        if self.reloads:
            # (a page that was opened from disk may load a script that lies beside it, and nothing else)
            _stamp_path(path).write_text(f"soldrichWritten({json.dumps(stamp)});\n", encoding="utf-8")
        return path

    def _html(self, path: Path, stamp: str) -> str:
        environment = jinja2.Environment(
            loader=jinja2.FileSystemLoader(TEMPLATES),
            autoescape=True,
            trim_blocks=True,
            lstrip_blocks=True,
            undefined=jinja2.StrictUndefined,
        )
        environment.filters["breakable"] = _breakable
        plots = [plot for part in self.parts for plot in part.plots]
        figures = "{" + ",".join(f"{json.dumps(it.id)}:{it.figure.to_json()}" for it in plots) + "}"
        reloads = {"address": _script(json.dumps(_stamp_path(path).name)), "stamp": _script(json.dumps(stamp))}
        return environment.get_template("report.html.jinja").render(
            title=self.title,
            lead=self.lead,
            facts=self.facts,
            config=self.config,
            config_head=self.config_head,
            drawing=Markup(self.drawing) if self.drawing else None,
            parts=self.parts,
            made_of=self.made_of,
            style=Markup(_template("report.css")),
            script=Markup(_template("report.js")),
            plotly=Markup(get_plotlyjs()),
            figures=_script(figures),
            reloads=reloads if self.reloads else None,
        )


def _stamp_path(path: Path) -> Path:
    return path.with_name(f"{path.name}.written.js")


def _template(name: str) -> str:
    return (TEMPLATES / name).read_text(encoding="utf-8")


def _script(json_text: str) -> Markup:
    """Returns JSON that may stand in a script: nothing in it ends that."""
    return Markup(json_text.replace("<", "\\u003c"))


def _breakable(text: str) -> Markup:
    """Returns a text that may go on in another line behind each dot, as paths do on a phone."""
    return escape(text).replace(".", Markup(".<wbr>"))
