"""Waits until files change."""
from __future__ import annotations

import contextlib
import queue
import time
from pathlib import Path

from watchdog.events import FileSystemEvent, FileSystemEventHandler
from watchdog.observers import Observer

from .sources import ModelFiles

# (an editor saves in several steps, as truncating and writing: after these seconds of quiet it has saved)
QUIET = 0.03
LONGEST = 1.0
CHANGES = {"created", "modified", "moved", "deleted", "closed"}


class FileChanges(FileSystemEventHandler):
    """Tells when files of a model changed. It watches their folders, so that a file may be replaced, or be gone for
    a while."""

    def __init__(self, files: ModelFiles):
        # (a path that is a link changes where it is replaced, and where it leads to)
        self._paths = {
            form for it in (files.ini, *files.neds) for form in (it.resolve(), it.parent.resolve() / it.name)
        }
        self._folders = [it.resolve() for it in files.folders]
        self._changes: queue.SimpleQueue[float] = queue.SimpleQueue()
        self._observer = Observer()
        for folder in self._folders:
            self._observer.schedule(self, str(folder), recursive=True)
        for folder in {it.parent for it in self._paths} - set(self._folders):
            self._observer.schedule(self, str(folder))

    def __enter__(self) -> FileChanges:
        self._observer.start()
        return self

    def __exit__(self, *_) -> None:
        self._observer.stop()
        self._observer.join()

    def on_any_event(self, event: FileSystemEvent) -> None:
        """Takes an event of watchdog."""
        paths = [Path(it) for it in (event.src_path, getattr(event, "dest_path", "")) if it]
        if event.event_type in CHANGES and any(map(self._is_meant, paths)):
            self._changes.put(time.monotonic())

    def wait(self, seconds: float | None = None) -> float | None:
        """Waits until a file changed, and all have been quiet for a moment. Returns the time of the first change by
        the monotonic clock, or None if there was none in those seconds."""
        try:
            first = self._changes.get(timeout=seconds)
        except queue.Empty:
            return None
        end = time.monotonic() + LONGEST
        with contextlib.suppress(queue.Empty):
            while time.monotonic() < end:
                self._changes.get(timeout=QUIET)
        return first

    def _is_meant(self, path: Path) -> bool:
        path = path.parent.resolve() / path.name
        return path in self._paths or path.suffix == ".ned" and any(it in path.parents for it in self._folders)
