"""Recorders that were not closed: a warning, and the exit status 3 of the process."""
import atexit
import os
import sys
import warnings
from typing import Dict, List, Optional, Tuple

# The exit status of a process that leaves a recorder unclosed, unless it failed already.
STATUS = 3
ADVICE = "call close(), use `with`, or pass must_close=False"

# The open recorders of each process, by number.
_open: Dict[Tuple[int, int], str] = {}
_forgotten: List[str] = []
_numbers = 0


def register(description: str) -> Tuple[int, int]:
    """Adds an open recorder, and returns its key."""
    global _numbers
    _numbers += 1
    key = os.getpid(), _numbers
    _open[key] = description
    return key


def close(key: Optional[Tuple[int, int]]) -> None:
    """Removes a recorder that was closed."""
    if key is not None:
        _open.pop(key, None)


def collect(key: Optional[Tuple[int, int]]) -> None:
    """Warns if the recorder, which is collected, was not closed."""
    description = None if key is None else _open.pop(key, None)
    if description is not None and key is not None and key[0] == os.getpid():
        _forgotten.append(description)
        warnings.warn(f"{description} was not closed: {ADVICE}", ResourceWarning, stacklevel=3)


def _end_process() -> None:
    own = [description for (process, _), description in _open.items() if process == os.getpid()]
    unclosed = [*_forgotten, *own]
    if not unclosed:
        return
    print(f"yehatu: {'; '.join(unclosed)}: not closed, so the last reports were not checked: {ADVICE}", file=sys.stderr)
    for stream in (sys.stdout, sys.stderr):
        try:
            stream.flush()
        except (OSError, ValueError):
            pass
    # An exception that nothing caught has made the process fail already.
    if not hasattr(sys, "last_type"):
        os._exit(STATUS)


# Handlers run in reverse order, so those of modules that are imported later run before the process ends here.
atexit.register(_end_process)
