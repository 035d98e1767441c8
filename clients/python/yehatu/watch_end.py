"""The end of a watched history: its verdict or fault, and its page."""
import os
import shlex
import tempfile
from pathlib import Path
from typing import NamedTuple, Optional

from . import program as programs
from .watch_counts import Counts
from .watch_display import Display, describe_counts, describe_verdict, printable, printable_lines, write_output
from .watch_text import Text

PASS, NO_VERDICT = 0, 2
NO_PAGE = "there is no page: the program has no `explain`, or that took too long"


class Outcome(NamedTuple):
    """How the monitor ended."""

    counts: Counts
    seconds: float
    status: int
    end: str
    """Its last line, such as `end yes 2`, or nothing after a fault."""
    stderr: bytes


def show_end(
    program: str, outcome: Outcome, text: Text, path: Optional[str], page: Optional[str], display: Display
) -> int:
    """Shows the verdict or the fault, writes the page, and returns the exit status."""
    counts = outcome.counts
    status = outcome.status if outcome.end and outcome.status in programs.COMPLETE else NO_VERDICT
    rate = counts.reports / max(outcome.seconds, 0.001)
    verdict = "no verdict" if status == NO_VERDICT else describe_verdict(counts)
    display.print(verdict + describe_counts(counts, outcome.seconds, rate))
    if status == NO_VERDICT:
        _show_fault(program, outcome, text, display)
    else:
        write_output(f"{outcome.end}\n".encode())
    has_page = page is not None and _write_page(program, text, page, display)
    has_more_to_show = status != PASS or (page is not None and not has_page)
    if path is None and has_more_to_show:
        path = _keep_history(text, display)
    if not has_page:
        display.print(_how_to_make_a_page(program, path))
    return status


def _how_to_make_a_page(program: str, path: Optional[str]) -> str:
    if path is None:
        return "--page FILE writes a page about such a run"
    # What was built to check cannot explain.
    named = str(programs.OWN_PROGRAM) if program == str(programs.CHECK_PROGRAM) else program
    return f"a page about it: {shlex.quote(named)} explain --html {shlex.quote(path)} > page.html"


def _show_fault(program: str, outcome: Outcome, text: Text, display: Display) -> None:
    """Shows what is wrong with the text and what is expected, or how the program failed."""
    fault = programs.SYNTAX_FAULT.fullmatch(outcome.stderr)
    if fault is None:
        display.print(f"yehatu: {programs.describe_exit(program, outcome.status, outcome.stderr)}")
        return
    ran = programs.run_explain(program, text.file) if text.rewind() else None
    display.print(outcome.stderr.decode("latin-1").strip())
    if ran is not None and ran.stdout:
        display.print("\n".join(printable_lines(ran.stdout)))
    else:
        line = int(outcome.stderr.split(b":")[0].split(b" ")[1])
        display.print(f"{printable(text.line(line).rstrip())}: `ra_monitor help format` says what is expected")


def _write_page(program: str, text: Text, page: str, display: Display) -> bool:
    """Writes the page, or says why there is none."""
    ran = programs.run_explain(program, text.file, "--html") if text.rewind() else None
    if ran is None or not ran.stdout.startswith(b"<!doctype html>"):
        why = f"there is no page: the text could not be kept ({text.fault})" if text.fault else NO_PAGE
        display.print(f"yehatu: {why}")
        return False
    try:
        Path(page).write_bytes(ran.stdout)
    except OSError as error:
        display.print(f"yehatu: there is no page: {error}")
        return False
    display.print(f"the page about it: {page}")
    return True


def _keep_history(text: Text, display: Display) -> Optional[str]:
    """Writes the text to a file, whose path it shows and returns. Returns None if that cannot be done."""
    if not text.rewind():
        return None
    try:
        number, path = tempfile.mkstemp(prefix="yehatu_", suffix=".rah")
        os.close(number)
        text.copy(path)
    except OSError as error:
        display.print(f"yehatu: the history is not kept: {error}")
        return None
    display.print(f"the history: {path}")
    return path
