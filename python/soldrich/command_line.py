"""The words of `soldrich`."""
from __future__ import annotations

import argparse
import logging
import re
import signal
import sys
from collections.abc import Sequence
from pathlib import Path

from .errors import SoldrichError
from .program import EVENTS, LOG, SECONDS


def main(words: Sequence[str] | None = None) -> int:
    """Does what the words ask for, and returns the exit status: 0, or 1 if it can't be done (2 for wrong words)."""
    options = _parser().parse_args(words)
    # what the program tells while it starts, as that it is compiled
    LOG.addHandler(logging.StreamHandler())
    LOG.setLevel(logging.INFO)
    # so that what was begun is ended: a session and its folder
    for it in (signal.SIGTERM, signal.SIGHUP):
        signal.signal(it, lambda number, _: sys.exit(128 + number))
    try:
        options.command(options)
    except KeyboardInterrupt:
        return 128 + signal.SIGINT if options.command is not _watch else 0
    except SoldrichError as error:
        print(f"soldrich: {error}", file=sys.stderr)
        return 1
    except OSError as error:
        print(f"soldrich: {error.filename}: {error.strerror}", file=sys.stderr)
        return 1
    return 0


def _parser() -> argparse.ArgumentParser:
    parser = argparse.ArgumentParser(prog="soldrich", description="The workbench of Soldrich (docs/WORKBENCH.md).")
    commands = parser.add_subparsers(required=True, metavar="COMMAND")
    _add_watch(commands)
    _add_report(commands)
    _add_study(commands)
    return parser


def _add_watch(commands: argparse._SubParsersAction) -> None:
    it = commands.add_parser("watch", help="runs a model again at each save of its files, and says what changed")
    it.add_argument("-c", "--config", default="General", help="the configuration of the ini file that is run")
    it.add_argument("-l", "--limit", type=_number, default=EVENTS, help="how many events are executed at most")
    it.add_argument(
        "-k", "--interval", type=_number, default=1, help="after how many events the state is stored, at first"
    )
    it.add_argument(
        "-o", "--output", type=Path, default=Path("results"), metavar="DIR", help="where the result files are written"
    )
    it.add_argument(
        "--seconds", type=_number, default=int(SECONDS), help="how long a run may take, until its program is ended"
    )
    it.add_argument(
        "-n", "--folder", action="append", default=[], metavar="DIR", help="all NED files below it; ':' between several"
    )
    it.add_argument("--report", action="store_true", help="writes DIR/report.html at each step, which reloads itself")
    it.add_argument(
        "files",
        type=Path,
        nargs="*",
        metavar="FILE",
        help="the ini file, omnetpp.ini if none is named, and the NED files",
    )
    it.set_defaults(command=_watch)


def _add_report(commands: argparse._SubParsersAction) -> None:
    it = commands.add_parser("report", help="makes a page of the results of a run, of two runs, or of a study")
    it.add_argument(
        "-o", "--output", type=Path, default=Path("report.html"), metavar="PAGE", help="the page that is written"
    )
    it.add_argument(
        "results",
        type=Path,
        nargs="+",
        metavar="RESULTS",
        help="a result file, CONFIG-#0 for both files of a run, or a study's table; of two runs, both",
    )
    it.add_argument(
        "-m",
        "--model",
        type=Path,
        action="append",
        default=[],
        metavar="FILE",
        help="the ini file, and again for each NED file: then the network is drawn",
    )
    it.set_defaults(command=_report)


def _add_study(commands: argparse._SubParsersAction) -> None:
    it = commands.add_parser("study", help="runs the variants of a model")
    it.add_argument(
        "-o",
        "--output",
        type=Path,
        metavar="TABLE",
        help="the table that is written, .csv or .parquet; the study's name and .csv if it is left out",
    )
    it.add_argument(
        "--workers",
        type=_number,
        help="how many processes run variants here; as many as there are processors if it is left out",
    )
    it.add_argument(
        "--scheduler", metavar="tcp://..", help="a scheduler of dask.distributed that is there, with workers"
    )
    it.add_argument("study", type=Path, metavar="STUDY.toml", help="what varies (docs/WORKBENCH.md)")
    it.set_defaults(command=_study)


def _number(text: str) -> int:
    number = int(text)
    if number < 0:
        raise ValueError(text)
    return number


def _watch(options: argparse.Namespace) -> None:
    from .live_model import Options
    from .sources import ModelFiles
    from .watch import watch

    neds = list(options.files)
    ini = neds.pop(0) if neds and neds[0].suffix != ".ned" else Path("omnetpp.ini")
    if not neds and not options.folder:
        raise SoldrichError("there is no NED file: name them after the ini file, or a folder of them with -n")
    options.output.mkdir(parents=True, exist_ok=True)
    folders = tuple(Path(it) for given in options.folder for it in re.split("[:;]", given))
    files = ModelFiles(ini, tuple(neds), folders)
    page = options.output / "report.html" if options.report else None
    how = Options(options.config, options.output, options.limit, options.interval, options.seconds, options.report)
    watch(files, how, page)


def _report(options: argparse.Namespace) -> None:
    from .report import report

    print(f"written to {report(options.results, options.output, options.model)}")


def _study(options: argparse.Namespace) -> None:
    from .study import study

    study(options.study, options.output, options.workers, options.scheduler)
