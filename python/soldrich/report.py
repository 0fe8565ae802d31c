"""`soldrich report`: a page of the results of a run, of two runs beside each other, or of a study."""
from __future__ import annotations

from collections.abc import Sequence
from pathlib import Path

import numpy as np
import pandas as pd

from . import figures
from .comparison import Point, ScalarPair, VectorPair, scalar_pairs, vector_pairs, vectors_by_key
from .errors import ResultFileError
from .page import Column, Page, Part, Plot, Table
from .network import drawing, network_of
from .program import LOG
from .result_files import PICOSECONDS, Vector
from .results import Results, get_config_entries, get_runattrs
from .session import Session
from .study_table import StudyTable, is_study_table, read_study_table

# a vector of more values has no table of them beside its plot
LISTED = 200


def report(paths: Sequence[Path], output: Path, model: Sequence[Path] = ()) -> Path:
    """Writes the page of these results: of one run, of two, or a study's table. The network is drawn if the model's
    files are named."""
    if len(paths) == 1 and is_study_table(paths[0]):
        return write_study_page(output, read_study_table(paths[0]), str(paths[0]))
    if len(paths) > 2:
        raise ResultFileError(
            f"a page shows one run or two, and {len(paths)} were named: CONFIG-#0 stands for both files of a run"
        )
    runs = [Results.read(files_of_run(it)) for it in paths]
    before, after = (None, runs[0]) if len(runs) == 1 else runs
    return write_run_page(
        output, before, after, names=[str(it) for it in paths], svg=_drawing(model, after) if model else None
    )


def files_of_run(path: Path) -> list[Path]:
    """Returns the files of one run, by one of them, by their name without the ending, or by the folder where they
    are alone."""
    if path.is_dir():
        stems = sorted({it.with_suffix("") for it in path.iterdir() if it.suffix in (".sca", ".vec")})
        if len(stems) != 1:
            shown = ", ".join(it.name for it in stems) or "none"
            raise ResultFileError(
                f"{path}: this folder has the results of {len(stems)} runs ({shown}): name one, as {path}/General-#0"
            )
        path = stems[0]
    stem = path.with_suffix("") if path.suffix in (".sca", ".vec") else path
    found = [it for it in (Path(f"{stem}.sca"), Path(f"{stem}.vec")) if it.is_file()]
    if not found:
        raise ResultFileError(f"{path}: there are no results of that name: a run's are CONFIG-#0.sca and CONFIG-#0.vec")
    return found


def write_run_page(
    output: Path,
    before: Results | None,
    after: Results,
    names: Sequence[str] = ("the run before", "the last run"),
    svg: str | None = None,
    reloads: bool = False,
) -> Path:
    """Writes the page of a run, beside an earlier one if there is one; `svg` is the drawing of the network."""
    attributes = _pairs(get_runattrs(after.frame))
    title = f"{attributes.get('network', 'a network')}, {attributes.get('configname', 'General')}"
    if before is None:
        lead = f"{_counted(len(after.scalars), 'scalar')} and {_counted(len(after.vectors), 'vector')} of one run."
        parts = [_scalars_part(after), _vectors_part(after)]
    else:
        scalars, vectors = scalar_pairs(before, after), vector_pairs(before, after)
        lead = _lead(scalars, vectors)
        parts = [_changed_entries_part(before, after), _scalar_pairs_part(scalars), _vector_pairs_part(vectors)]
    config = _config(after)
    page = Page(
        title=title,
        lead=lead,
        made_of=" and ".join(names) if before is not None else names[-1],
        facts=_facts(attributes, after),
        config=config,
        config_head=_counted(len(config.rows), "entry", "entries") + " of the configuration" if config else "",
        drawing=svg,
        parts=[it for it in parts if it],
        reloads=reloads,
    )
    return page.write(output)


def seconds_shown(picoseconds: int) -> str:
    """Writes a time as seconds, exactly."""
    whole, rest = divmod(picoseconds, PICOSECONDS)
    return f"{whole}.{rest:012}".rstrip("0").rstrip(".") + " s"


# --- one run


def _drawing(model: Sequence[Path], results: Results) -> str | None:
    """Draws the network of a model, as the configuration of these results has it."""
    config = _pairs(get_runattrs(results.frame)).get("configname", "General")
    with Session(model[0], model[1:], config, limit=0) as session:
        network = network_of(session)
    if network is None:
        LOG.warning("the program doesn't list its modules and connections yet: the page is without the network")
        return None
    return drawing(network)


def _pairs(frame: pd.DataFrame) -> dict[str, str]:
    """Returns names and values: of a name that stands twice the first."""
    first = frame.drop_duplicates("name")
    return dict(zip(first["name"], first["value"]))


def _facts(attributes: dict[str, str], results: Results) -> Table:
    rows = [["run", results.frame["runID"].iloc[0]], *map(list, attributes.items())]
    return Table("The header of the run", [Column("name"), Column("value")], rows)


def _config(results: Results) -> Table | None:
    entries = get_config_entries(results.frame)
    rows = [[it.name, it.value] for it in entries.itertuples(index=False)]
    return Table("The configuration", [Column("key"), Column("value")], rows) if rows else None


def _scalars_part(results: Results) -> Part:
    rows = [[it.module, it.name, _shown(it.exact)] for it in results.scalars.itertuples(index=False)]
    columns = [Column("module"), Column("scalar"), Column("value", True)]
    return Part(
        "scalars", "Scalars", [] if rows else ["None was recorded."], Table("Scalars", columns, rows) if rows else None
    )


def _vectors_part(results: Results) -> Part:
    plots = [
        _vector_plot(f"vector-{at}", f"{module} {name}", vector)
        for at, ((module, name), vector) in enumerate(vectors_by_key(results).items())
    ]
    return Part("vectors", "Vectors", [] if plots else ["None was recorded."], plots=plots)


def _vector_plot(id: str, name: str, vector: Vector) -> Plot:
    shown = figures.thinned(vector)
    table = _values_table(vector) if len(vector.values) <= LISTED else None
    head = f"its {len(vector.values)} values"
    return Plot(id, name, figures.vector_figure(shown, name), [_summary(vector), *_thinning(shown)], table, head)


def _summary(vector: Vector) -> str:
    values = vector.values
    if not len(values):
        return "no values"
    first, last = (seconds_shown(int(vector.picoseconds[it])) for it in (0, -1))
    span = f"at {first}" if first == last else f"from {first} to {last}"
    least, greatest, last_one = (_shown(it.item()) for it in (np.min(values), np.max(values), values[-1]))
    return f"{_counted(len(values), 'value')} {span}; least {least}, greatest {greatest}, last {last_one}"


def _thinning(shown: figures.Shown) -> list[str]:
    if not shown.is_thinned:
        return []
    buckets = figures.MOST_POINTS // 2
    return [
        f"Thinned: the plot has {len(shown.vector.values):,} of {shown.count:,} values, "
        f"the least and the greatest of each of {buckets:,} buckets."
    ]


def _values_table(vector: Vector) -> Table:
    rows = [
        [str(event) if event >= 0 else "", seconds_shown(int(time)), _shown(value.item())]
        for event, time, value in zip(vector.events, vector.picoseconds, vector.values)
    ]
    return Table("The values", [Column("event", True), Column("time", True), Column("value", True)], rows)


# --- two runs


def _lead(scalars: Sequence[ScalarPair], vectors: Sequence[VectorPair]) -> str:
    changed = sum(not it.is_equal for it in scalars), sum(not it.is_equal for it in vectors)
    in_all = _counted(len(scalars), "scalar"), _counted(len(vectors), "vector")
    if not any(changed):
        return f"Both runs have the same results: {in_all[0]} and {in_all[1]}."
    text = f"{changed[0]} of {in_all[0]} and {changed[1]} of {in_all[1]} differ."
    points = [it for it in (pair.first_difference for pair in vectors if not pair.is_equal) if it]
    if points:
        first = min(points, key=lambda it: (it.picoseconds, it.event))
        text += f" The vectors part first at event {first.event}, at {seconds_shown(first.picoseconds)}."
    return text


def _changed_entries_part(before: Results, after: Results) -> Part | None:
    old, new = (_pairs(get_config_entries(it.frame)) for it in (before, after))
    keys = [it for it in [*new, *(key for key in old if key not in new)] if old.get(it) != new.get(it)]
    if not keys:
        return None
    rows = [[it, old.get(it, ""), new.get(it, "")] for it in keys]
    return Part(
        "entries",
        "What differs in the configuration",
        table=Table("Entries", [Column("key"), Column("before"), Column("after")], rows),
    )


def _scalar_pairs_part(pairs: Sequence[ScalarPair]) -> Part:
    columns = [Column("module"), Column("scalar"), *(Column(it, True) for it in ("before", "after", "difference"))]
    rows = [
        [
            it.module,
            it.name,
            _shown(it.before),
            _shown(it.after),
            "" if it.difference is None else _grown(it.difference),
        ]
        for it in pairs
        if not it.is_equal
    ]
    equal = [[it.module, it.name, _shown(it.after)] for it in pairs if it.is_equal]
    return Part(
        "scalars",
        "Scalars that differ",
        [] if rows else ["None differs."],
        Table("Scalars that differ", columns, rows) if rows else None,
        equal=Table("Scalars that are equal", [*columns[:2], Column("value", True)], equal) if equal else None,
        equal_head=f"{_counted(len(equal), 'scalar')} equal in both runs",
    )


def _vector_pairs_part(pairs: Sequence[VectorPair]) -> Part:
    plots = [_pair_plot(f"vector-{at}", it) for at, it in enumerate(pairs) if not it.is_equal]
    equal = [[it.module, it.name, str(len(it.after.values))] for it in pairs if it.is_equal]
    columns = [Column("module"), Column("vector"), Column("values", True)]
    return Part(
        "vectors",
        "Vectors that differ",
        [] if plots else ["None differs."],
        plots=plots,
        equal=Table("Vectors that are equal", columns, equal) if equal else None,
        equal_head=f"{_counted(len(equal), 'vector')} equal in both runs",
    )


def _pair_plot(id: str, pair: VectorPair) -> Plot:
    before, after = (None if it is None else figures.thinned(it) for it in (pair.before, pair.after))
    lines = [
        f"{when}: {_summary(it) if it else 'there is none'}"
        for when, it in (("before", pair.before), ("after", pair.after))
    ]
    first = pair.first_difference
    if first:
        lines.insert(0, f"They part at event {first.event}, at {seconds_shown(first.picoseconds)}.")
    lines.extend(line for it in (before, after) if it for line in _thinning(it))
    columns = [Column("run"), Column("event", True), Column("time", True), Column("value", True)]
    rows = [[when, *_point_shown(it)] for when, it in zip(("before", "after"), pair.parting)]
    name = f"{pair.module} {pair.name}"
    return Plot(
        id,
        name,
        figures.pair_figure(pair, before, after),
        lines,
        Table("Where they part", columns, rows),
        "the values where they part",
    )


def _point_shown(point: Point | None) -> list[str]:
    return (
        ["none", "", ""] if point is None else [str(point.event), seconds_shown(point.picoseconds), _shown(point.value)]
    )


# --- a study


def write_study_page(output: Path, table: StudyTable, name: str) -> Path:
    """Writes the page of a study: a chart for each scalar over the factors, and what was refused or ended in a
    fault."""
    plots = []
    for at, ((module, scalar), rows) in enumerate(table.scalars.groupby(["module", "name"], sort=False)):
        listed = Table(
            "The values",
            [*map(Column, table.factors), Column("value", True)],
            rows[[*table.factors, "value"]].astype(str).values.tolist(),
        )
        plots.append(
            Plot(
                f"scalar-{at}",
                f"{module} {scalar}",
                figures.factors_figure(rows, table.factors),
                [],
                listed,
                f"its {len(rows)} values",
            )
        )
    troubled = table.troubled
    columns = [Column("variant", True), *map(Column, table.factors), Column("outcome"), Column("reason")]
    rows = troubled[["variant", *table.factors, "outcome", "reason"]].astype(str).values.tolist()
    parts = [Part("charts", "Scalars over the factors", plots=plots)]
    if rows:
        parts.append(
            Part(
                "troubled",
                "Variants that were refused or ended in a fault",
                table=Table("Such variants", columns, rows),
            )
        )
    variants = table.variants
    events, executed = int(variants["events"].sum()), int(variants["executed"].sum())
    lead = (
        f"{_counted(len(variants), 'variant')} of {', '.join(table.factors) or 'no factors'}. "
        f"{executed:,} of {events:,} events were executed; the others were valid already."
    )
    return Page(title="A study", lead=lead, made_of=name, parts=parts).write(output)


# --- words


def _counted(count: int, word: str, words: str | None = None) -> str:
    return f"{count:,} {word if count == 1 else words or f'{word}s'}"


def _shown(value: int | float | None) -> str:
    return "none" if value is None else str(value)


def _grown(value: int | float) -> str:
    return f"{value:+}" if value else str(value)
