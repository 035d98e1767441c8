"""The command `watch`: passes a history to the monitor as it comes, and shows its status."""
import os
import select
import signal
import subprocess
import sys
import time
from typing import Any, List, NamedTuple, Optional

from . import program as programs
from .errors import MonitorExited
from .watch_counts import HEADER_LINES, Counts, Unanswered
from .watch_display import Display, describe_counts, describe_notice, describe_verdict, write_output
from .watch_end import Outcome, show_end
from .watch_text import Text

# The largest number of bytes that are read at once.
CHUNK = 1 << 16
# How often a growing file is read again at its end, in seconds.
FOLLOW_INTERVAL = 0.05
# The largest part of standard error that is kept, counted from the end, in bytes.
STDERR_BYTES = 1 << 16
SIGNALS = (signal.SIGINT, signal.SIGTERM)


class Options(NamedTuple):
    """What the command line asks for."""

    path: Optional[str] = None
    """The file with the history, or None for standard input."""
    page: Optional[str] = None
    every: float = 1.0
    follow: bool = False
    replies: bool = False
    stop: bool = False


def watch(options: Options, program: programs.Program = None) -> int:
    """Watches a history until it ends, and returns the exit status of its check."""
    # A first build is in the foreground, where Ctrl-C ends it.
    found = programs.find_for_many_runs(program)
    display = Display(sys.stderr)
    is_input = options.path is None
    with Text() as text, open(options.path or 0, "rb", buffering=0, closefd=not is_input) as source:
        outcome = _Watch(found, source.fileno(), text, options, display).run()
        return show_end(found, outcome, text, options.path, options.page, display)


class _Watch:
    """A history on its way from the source to the monitor.

    One thread waits for all files at once, so that no line waits for another thread. The source is read only while no
    line waits for the monitor, so that a source is as slow as it would be in front of the monitor itself.
    """

    def __init__(self, program: str, source: int, text: Text, options: Options, display: Display) -> None:
        pipe = subprocess.PIPE
        try:
            # In a session of its own, since Ctrl-C is to end the source and not the monitor.
            self._process = subprocess.Popen(
                [program, "check"], stdin=pipe, stdout=pipe, stderr=pipe, bufsize=0, start_new_session=True
            )
        except OSError as error:
            raise MonitorExited(f"{program} could not be started: {error}") from error
        self._program, self._source, self._text = program, source, text
        self._options, self._display = options, display
        self.counts = Counts()
        self._unanswered = Unanswered()
        self._header: List[bytes] = []
        self._unsent = memoryview(b"")
        self._partial_reply = self._end_line = self._stderr = b""
        self._is_reading = True
        self._next_read = 0.0
        self._start = self._shown_at = time.monotonic()
        self._shown_reports = 0

    def run(self) -> Outcome:
        """Runs until the monitor has ended, or the first violation if the options say so."""
        stdin, stdout, stderr = (self._process.stdin, self._process.stdout, self._process.stderr)
        self._input: Any = stdin
        self._outputs: List[Any] = [stdout, stderr]
        os.set_blocking(self._input.fileno(), False)
        wakeup, self._wakeup = os.pipe()
        for number in SIGNALS:
            signal.signal(number, self._interrupt)
        try:
            while self._outputs and not self._has_to_stop():
                self._turn(wakeup)
            return self._outcome()
        finally:
            for number in SIGNALS:
                signal.signal(number, signal.SIG_DFL)
            self._display.clear()
            self._process.kill()
            for it in (stdin, stdout, stderr):
                it.close()  # type: ignore[union-attr]
            self._process.wait()
            os.close(wakeup)
            os.close(self._wakeup)

    def _has_to_stop(self) -> bool:
        return self._options.stop and self.counts.violation is not None

    def _outcome(self) -> Outcome:
        counts, seconds = self.counts, time.monotonic() - self._start
        if self._has_to_stop() and counts.violation is not None:
            end = f"end {counts.violation.reply}"
            self._text.cut(counts.violation.line)
            return Outcome(counts, seconds, 1, end, b"")
        status = self._process.wait()
        return Outcome(counts, seconds, status, self._end_line.decode("latin-1"), self._stderr)

    # The turns of the loop.

    def _turn(self, wakeup: int) -> None:
        """Waits until a file is ready or the status is due, and does what can be done then."""
        now = time.monotonic()
        due = self._shown_at + self._options.every
        is_waiting = self._is_reading and not self._unsent
        if is_waiting and self._next_read > now:
            due, is_waiting = min(due, self._next_read), False
        reading = [*self._outputs, wakeup, *([self._source] if is_waiting else [])]
        readable, writable, _ = select.select(reading, [self._input] if self._unsent else [], [], max(due - now, 0))
        if wakeup in readable:
            os.read(wakeup, 1)
            self._stop_reading()
        if writable:
            self._write()
        if self._process.stdout in readable:
            self._read_replies()
        if self._process.stderr in readable:
            self._read_stderr()
        if self._source in readable and self._is_reading:
            self._read_source()
        if time.monotonic() >= self._shown_at + self._options.every:
            self._show()

    def _interrupt(self, number: int, _: object) -> None:
        """Has the loop stop reading. The same signal again ends the process at once."""
        signal.signal(number, signal.SIG_DFL)
        os.write(self._wakeup, b"\n")

    def _read_source(self) -> None:
        chunk = os.read(self._source, CHUNK)
        if chunk:
            self._send(self._text.add(chunk))
        elif self._options.follow:
            self._next_read = time.monotonic() + FOLLOW_INTERVAL
        else:
            self._send(self._text.end())
            self._stop_reading()

    def _stop_reading(self) -> None:
        """Ends the monitor's input once all lines are written. An unfinished line is dropped."""
        self._is_reading = False
        if not self._unsent:
            self._input.close()

    def _send(self, lines: bytes) -> None:
        if not lines:
            return
        self._unsent = memoryview(lines)
        while len(self._header) < HEADER_LINES and lines:
            line, _, lines = lines.partition(b"\n")
            self._header.append(line)
            if len(self._header) == HEADER_LINES:
                self.counts.begin(line)
        self._unanswered.append(lines)
        self._write()

    def _write(self) -> None:
        try:
            self._unsent = self._unsent[os.write(self._input.fileno(), self._unsent) :]
        except BlockingIOError:
            return
        except BrokenPipeError:
            # The monitor has ended, and its standard error says why.
            self._unsent = self._unsent[:0]
            self._is_reading = False
        if not self._unsent and not self._is_reading:
            self._input.close()

    def _read_replies(self) -> None:
        chunk = os.read(self._process.stdout.fileno(), CHUNK)  # type: ignore[union-attr]
        if not chunk:
            self._outputs.remove(self._process.stdout)
            return
        replies = self._partial_reply + chunk
        end = replies.rfind(b"\n") + 1
        replies, self._partial_reply = replies[:end], replies[end:]
        last = replies.rfind(b"\n", 0, -1) + 1
        if replies.startswith(b"end ", last):
            replies, self._end_line = replies[:last], replies[last:-1]
        if self._options.replies:
            self._display.clear()
            write_output(replies)
        commands = self._unanswered.take(replies.count(b"\n"))
        for notice in self.counts.add(commands, replies):
            self._display.print(describe_notice(notice))

    def _read_stderr(self) -> None:
        chunk = os.read(self._process.stderr.fileno(), CHUNK)  # type: ignore[union-attr]
        if not chunk:
            self._outputs.remove(self._process.stderr)
        self._stderr = (self._stderr + chunk)[-STDERR_BYTES:]

    def _show(self) -> None:
        now = time.monotonic()
        rate = (self.counts.reports - self._shown_reports) / (now - self._shown_at)
        self._shown_at, self._shown_reports = now, self.counts.reports
        self._display.show(describe_verdict(self.counts), describe_counts(self.counts, now - self._start, rate))
