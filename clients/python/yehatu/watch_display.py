"""What `watch` shows on standard error: one line that a terminal rewrites, else plain lines."""
import os
from typing import List, TextIO

from .failure_report import MEANINGS
from .watch_counts import Counts, Notice

DEFAULT_COLUMNS = 80
# The longest part of a line of the history that is shown, in bytes.
SHOWN_BYTES = 60
GREEN, RED, PLAIN = "\x1b[32m", "\x1b[1;31m", "\x1b[0m"


class Display:
    """Shows the status and messages.

    A terminal has the status in its last line, which is cut at the width and is rewritten. It is coloured unless
    NO_COLOR is set. What is no terminal, or a dumb one, gets plain lines.
    """

    def __init__(self, stream: TextIO) -> None:
        self._stream = stream
        self._is_live = stream.isatty() and os.environ.get("TERM") != "dumb"
        self._has_colours = self._is_live and not os.environ.get("NO_COLOR")
        # The number of characters of the status that the terminal has in its last line.
        self._shown = 0

    def show(self, verdict: str, rest: str) -> None:
        """Shows the status, which begins with the verdict."""
        if not self._is_live:
            self._write(f"{verdict}{rest}\n")
            return
        # A full line would move the cursor to the next one.
        text = f"{verdict}{rest}"[: self._columns() - 1]
        padding = " " * (self._shown - len(text))
        head = text[: len(verdict)]
        self._shown = len(text)
        self._write(f"\r{self._coloured(head)}{text[len(head) :]}{padding}")

    def print(self, text: str) -> None:
        """Prints lines that stay."""
        self.clear()
        self._write(f"{text}\n")

    def clear(self) -> None:
        """Removes the status, so that other output can follow."""
        if self._shown:
            self._write(f"\r{' ' * self._shown}\r")
            self._shown = 0

    def _coloured(self, verdict: str) -> str:
        if not self._has_colours:
            return verdict
        return f"{GREEN if verdict.startswith('yes') else RED}{verdict}{PLAIN}"

    def _columns(self) -> int:
        try:
            return os.get_terminal_size(self._stream.fileno()).columns or DEFAULT_COLUMNS
        except OSError:
            return DEFAULT_COLUMNS

    def _write(self, text: str) -> None:
        self._stream.write(text)
        self._stream.flush()


def describe_verdict(counts: Counts) -> str:
    """Returns the verdict so far, and of a violation its line."""
    violation = counts.violation
    return "yes" if violation is None else f"{violation.reply} at line {violation.line}"


def describe_counts(counts: Counts, seconds: float, rate: float) -> str:
    """Returns the counts that follow the verdict, after this number of seconds and at this rate a second."""
    text = f" after {seconds:.0f} s: reports {counts.reports:,} ({rate:,.0f}/s)"
    if counts.violation is not None:
        return f"{text}, those after line {counts.violation.line} not judged"
    lags = ", ".join(f"{printable(name.encode('latin-1'))} {lag:,}" for name, lag in counts.lags())
    return f"{text}, labels {counts.labels:,}, refused {counts.refused:,}, lag {lags}"


def describe_notice(notice: Notice) -> str:
    """Returns a violation or a refusal in words."""
    text = f"line {notice.line}, {printable(notice.command)}: {notice.reply}"
    if notice.reply.startswith("no "):
        return f"{text}: {MEANINGS.get(notice.reply.split(' ')[-1], 'not explained')}"
    return f"{text} (the first with this cause)"


def write_output(text: bytes) -> None:
    """Writes to standard output at once. What cannot be written is in no buffer, from which it would be written again
    at the end of the process."""
    unwritten = memoryview(text)
    while unwritten:
        unwritten = unwritten[os.write(1, unwritten) :]


def printable(line: bytes) -> str:
    """Returns the beginning of a line with no control characters: what is not plain ASCII is `\\x` and two digits."""
    shown = "".join(chr(it) if 32 <= it < 127 else f"\\x{it:02x}" for it in line[:SHOWN_BYTES])
    return shown if len(line) <= SHOWN_BYTES else f"{shown} .."


def printable_lines(text: bytes) -> List[str]:
    """Returns the lines of a text with no control characters, in full."""
    return ["".join(chr(it) if 32 <= it < 127 else f"\\x{it:02x}" for it in line) for line in text.splitlines()]
