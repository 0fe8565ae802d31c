"""What a worker of a study does: it keeps a session of the base open, and runs one variant after another in it."""
from __future__ import annotations

import threading
from dataclasses import dataclass

from .errors import SessionLost
from .variants import Base, Outcome, Variant, VariantSession

# the session of this process, by its base: one at a time, though a worker may have several threads
_SESSIONS: dict[Base, VariantSession] = {}
_LOCK = threading.Lock()


@dataclass(frozen=True)
class Task:
    """A variant, and which of its scalars are kept."""

    variant: Variant
    keep: tuple[str, ...]


def run_variant(base: Base, task: Task) -> Outcome:
    """Runs a variant in this worker's session. Raises SessionLost where the program was lost: then the next call
    begins another one."""
    with _LOCK:
        if base not in _SESSIONS:
            _end_sessions()
            _SESSIONS[base] = VariantSession(base)
        try:
            return _SESSIONS[base].outcome_of(task.variant, task.keep)
        except SessionLost:
            _SESSIONS.pop(base).close()
            raise


def base_of(base: Base) -> Base:
    """Returns the base. As a task of its own it is sent to each worker once, and made again where the worker that
    had it died."""
    return base


def close_sessions() -> int:
    """Ends the sessions of this process, and returns how many events their first runs had."""
    with _LOCK:
        events = sum(it.base_events for it in _SESSIONS.values())
        _end_sessions()
        return events


def _end_sessions() -> None:
    while _SESSIONS:
        _SESSIONS.popitem()[1].close()
