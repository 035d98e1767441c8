"""A plugin for pytest: options for `check_random`, and the files of each failure as artefacts.

It is loaded by itself once the package is installed; otherwise `pytest -p yehatu.pytest_plugin` loads it.
"""
import re
import shutil
import subprocess
from pathlib import Path
from typing import Any, Dict, Generator, Optional

import pytest

from . import program as programs
from .errors import MonitorExited, ReportFailed
from .random_runs import OVERRIDES

OPTIONS = {
    "seeds": ("--yehatu-seeds", "N", "the number of runs of each check_random that is given a number of seeds"),
    "operations": ("--yehatu-operations", "N", "the number of operations of each run of check_random"),
}


def pytest_addoption(parser: Any) -> None:
    """Adds the options."""
    group = parser.getgroup("yehatu")
    for option, metavar, text in OPTIONS.values():
        group.addoption(option, metavar=metavar, type=_count, default=None, help=text)
    group.addoption(
        "--yehatu-artifacts", metavar="DIR", default=None,
        help="the folder for the history, the steps and the page of each failure",
    )


def _count(text: str) -> int:
    number = int(text)
    if number < 1:
        raise ValueError(f"{text}: expected at least 1")
    return number


def pytest_configure(config: Any) -> None:
    """Passes the numbers to `check_random`."""
    for name, (option, _, _) in OPTIONS.items():
        number = config.getoption(option)
        if number is not None:
            OVERRIDES[name] = number


def pytest_unconfigure() -> None:
    """Ends the effect of the options."""
    OVERRIDES.clear()


@pytest.hookimpl(hookwrapper=True)  # type: ignore[misc]
def pytest_runtest_makereport(item: Any, call: Any) -> Generator[None, Any, None]:
    """Keeps the files of a failure, and names them in the report of the test."""
    outcome = yield
    folder = item.config.getoption("--yehatu-artifacts")
    error = None if call.excinfo is None else call.excinfo.value
    if folder is None or not isinstance(error, ReportFailed):
        return
    kept = _keep(error, Path(folder), re.sub(r"[^\w.-]+", "_", item.nodeid))
    outcome.get_result().sections.append(("yehatu artifacts", "\n".join(kept)))


def _keep(error: ReportFailed, folder: Path, name: str) -> "list[str]":
    """Copies the history and the steps, writes the page, and returns the paths."""
    folder.mkdir(parents=True, exist_ok=True)
    files: Dict[str, Optional[str]] = {".rah": error.history, ".json": error.steps}
    kept = [shutil.copy(path, folder / f"{name}{suffix}") for suffix, path in files.items() if path]
    page = _page(error.history)
    if page:
        path = folder / f"{name}.html"
        path.write_bytes(page)
        kept.append(path)
    return [str(it) for it in kept]


def _page(history: Optional[str]) -> bytes:
    """Returns the page of `explain --html`, or nothing if the program cannot explain."""
    if history is None:
        return b""
    try:
        return programs.explain_page(programs.find(), Path(history).read_bytes())
    except (MonitorExited, OSError, subprocess.SubprocessError):
        return b""
