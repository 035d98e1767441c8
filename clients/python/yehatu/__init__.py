"""A client of the monitor of RA-linearizability, which reports what the replicas of a CRDT do.

`Monitor` runs the program behind a pipe. `Recorder` reports to it in the user's own names. `check_random` tests a
replicated data type in random runs, and shrinks the first run that has a violation.
"""
import warnings as _warnings
from typing import Any as _Any

from .differences import difference, inserted
from .errors import FlakyRun, MonitorExited, NotLinearizable, NotRepresentable, Refused, ReplicaRaised, ReportFailed
from .monitor import Monitor, Report
from .operations import Operation, add, decrement, increment, insert, insert_after, remove, update, write
from .random_runs import Runs, check_random, replay
from .recorder import Recorder

__all__ = [
    "FlakyRun",
    "Monitor",
    "MonitorExited",
    "NotLinearizable",
    "NotRepresentable",
    "Operation",
    "Recorder",
    "Refused",
    "ReplicaRaised",
    "Report",
    "ReportFailed",
    "Runs",
    "add",
    "check_random",
    "decrement",
    "difference",
    "increment",
    "insert",
    "insert_after",
    "inserted",
    "remove",
    "replay",
    "update",
    "write",
]

# The names that exceptions had in the previous version. The next version removes them.
_FORMER_NAMES = {"CannotTell": NotRepresentable, "MonitorGone": MonitorExited}


def __getattr__(name: str) -> _Any:
    if name not in _FORMER_NAMES:
        raise AttributeError(f"module {__name__!r} has no attribute {name!r}")
    found = _FORMER_NAMES[name]
    _warnings.warn(f"{name} is now called {found.__name__}", DeprecationWarning, stacklevel=2)
    return found
