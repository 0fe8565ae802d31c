"""The workbench of the simulator Soldrich: sessions of its program `nedrun`, results as data frames, reports and
studies."""
from .answers import Edited, Fault, Run
from .errors import (
    NoAnswer,
    PipeBroken,
    ProgramEnded,
    Refused,
    ResultFileError,
    SessionClosed,
    SessionLost,
    SoldrichError,
    StudyError,
    UnknownAnswer,
)
from .results import Results, read_result_files
from .session import Session

__all__ = [
    "Edited",
    "Fault",
    "NoAnswer",
    "PipeBroken",
    "ProgramEnded",
    "Refused",
    "ResultFileError",
    "Results",
    "Run",
    "Session",
    "SessionClosed",
    "SessionLost",
    "SoldrichError",
    "StudyError",
    "UnknownAnswer",
    "read_result_files",
]
