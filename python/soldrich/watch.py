"""`soldrich watch`: follows the files of a model while they are edited, and says after each save what changed."""
from __future__ import annotations

import time
from pathlib import Path

from .errors import Refused, SoldrichError
from .file_changes import FileChanges
from .live_model import LiveModel, Options, Step
from .sources import Model, ModelFiles
from .step_printer import StepPrinter

# how long a file may be gone or empty while an editor saves it
SECONDS_OF_A_SAVE = 1.0


def watch(files: ModelFiles, options: Options, page: Path | None) -> None:
    """Follows the files until this process is ended. With a page it writes the report of each step there."""
    with FileChanges(files) as changes, LiveModel(options) as live:
        it = _Watch(files, changes, live, page)
        it.take(time.monotonic())
        it.printer.line("watching " + ", ".join(str(path) for path in (files.ini, *files.neds, *files.folders)))
        while True:
            saved_at = changes.wait()
            it.take(saved_at)


class _Watch:
    """The files, the session that follows them, and where it is told."""

    def __init__(self, files: ModelFiles, changes: FileChanges, live: LiveModel, page: Path | None):
        self.printer = StepPrinter()
        self._files, self._changes, self._live, self._page = files, changes, live, page
        # the last save had no effect
        self._is_troubled = False

    def take(self, saved_at: float) -> None:
        """Takes what the files hold now, and prints what that came to. They were saved at that time of the monotonic
        clock."""
        try:
            step = self._live.take(self._read())
        except OSError as error:
            self._trouble(f"{error.filename}: {error.strerror}; waiting until it is there")
        except Refused as refused:
            self._trouble(f"refused {refused.name}: {refused.explanation or refused.command}")
        except SoldrichError as error:
            self._trouble(str(error))
        else:
            self._show(step, saved_at)

    def _trouble(self, text: str) -> None:
        self.printer.trouble(text)
        self._is_troubled = True

    def _show(self, step: Step | None, saved_at: float) -> None:
        if step:
            self.printer.step(step, time.monotonic() - saved_at)
            self._write_page(step)
        elif self._is_troubled:
            self.printer.line("the texts are those of the last run again")
        self._is_troubled = False

    def _read(self) -> Model:
        """Reads the files. Where one is gone or empty it waits a while for the rest of the save."""
        end = time.monotonic() + SECONDS_OF_A_SAVE
        while True:
            try:
                model, missing = self._files.read(), None
            except OSError as error:
                model, missing = None, error
            if model and not model.has_empty:
                return model
            if self._changes.wait(max(0.0, end - time.monotonic())) is None:
                break
        if missing:
            raise missing
        return model

    def _write_page(self, step: Step) -> None:
        if self._page:
            # (it takes a second to import what draws the page)
            from .report import write_run_page

            write_run_page(self._page, step.before, step.after, svg=self._live.drawing(), reloads=True)
            self.printer.line(f"the page is {self._page}")
