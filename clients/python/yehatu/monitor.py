"""The program behind a pipe: commands in, replies out."""
import json
import os
import subprocess
import sys
import threading
import time
from collections import deque
from typing import Any, Deque, List, NamedTuple, NoReturn, Optional, Sequence

from . import program as programs
from .errors import MonitorExited

# The number of lines that are written at once, and the longest time that a smaller batch waits for more, in seconds.
BATCH_LINES = 64
FLUSH_INTERVAL = 0.002
# The flusher goes to sleep after this number of intervals in which nothing was written.
IDLE_INTERVALS = 5
# The number of lines of standard error that are kept, counted from the end.
STDERR_LINES = 50


class Report(NamedTuple):
    """The summary of a whole run, as `check --report` prints it (docs/reference/json.md).

    `calls` counts the commands, `labels` the accepted operations, and `refused` the rejected commands. For a violation,
    `label` is the first violating operation and `cause` the condition that fails. `final` says whether no order at all
    explains the history up to the label, and not only the named order fails.
    """

    kind: str
    verdict: str
    labels: int
    calls: int
    refused: int
    label: Optional[int] = None
    cause: Optional[str] = None
    final: Optional[bool] = None


class Unexpected(NamedTuple):
    """The first reply that differs from the expected one, with the number of its command, counted from 0."""

    command: int
    reply: str


class _PendingReply:
    """A reply that a caller waits for. It takes the place of an expected reply."""

    def __init__(self) -> None:
        self.reply: Optional[str] = None
        self.has_ended = threading.Event()


class Monitor:
    """A run of the program on one history. Many threads may call it, and their commands are sent one after another.

    `names` are the names of the initial replicas: a letter a to z, then up to 15 letters a to z or digits. At most
    `window` commands have no reply yet; with a window of 1 each call waits for its own reply.
    """

    def __init__(
        self, kind: str, names: Sequence[str], *, program: programs.Program = None, window: int = 4096
    ) -> None:
        self.program = programs.find(program)
        self.unexpected: Optional[Unexpected] = None
        self._window = max(window, 1)
        self._batch = min(self._window, BATCH_LINES)
        self._lock = threading.Lock()
        self._progress = threading.Condition()
        # Callers append without the lock, and it is held to remove lines.
        self._lines: Deque[str] = deque()
        self._written: List[bytes] = []
        self._expected: List[Any] = []
        self._sent = 0
        self._answered = 0
        self._closing_lines: List[str] = []
        self._stderr: Deque[bytes] = deque(maxlen=STDERR_LINES)
        self._report: Optional[Report] = None
        self._is_closing = self._has_ended = False
        self._start()
        self._lines.append(f"RAH 2 {kind}\nreplicas {' '.join(names)}\n")

    def post(self, line: str, expected: str) -> None:
        """Sends a command without waiting for its reply. `unexpected` is the first reply that differs."""
        with self._lock:
            self._append(line, expected)
            if len(self._lines) >= self._batch:
                self._write()
            elif self._is_asleep:
                self._wake_flusher()
        if self._sent - self._answered >= self._window:
            self._wait_for(self._sent - self._window + 1)

    def post_line(self, line: str, expected: str) -> None:
        """Does the same for a line with its end, without the lock: no other call may run at the same time."""
        if self._has_ended or self._is_closing:
            self._raise_exited()
        # The reply is expected before a thread can write the line.
        self._expected.append(expected)
        self._lines.append(line)
        sent = self._sent = self._sent + 1
        if len(self._lines) >= self._batch:
            with self._lock:
                self._write()
        elif self._is_asleep:
            with self._lock:
                self._wake_flusher()
        if sent - self._answered >= self._window:
            self._wait_for(sent - self._window + 1)

    def tell(self, line: str) -> str:
        """Sends a command, waits for its reply and returns it."""
        pending = _PendingReply()
        with self._lock:
            self._append(line, pending)
            self._write()
        pending.has_ended.wait()
        if pending.reply is None:
            self._raise_exited()
        return pending.reply

    def verdict(self) -> str:
        """Returns the reply to `verdict`, which says whether the history so far is explained."""
        return self.tell("verdict")

    def settle(self) -> None:
        """Waits until each command has its reply."""
        with self._lock:
            self._write()
            sent = self._sent
        self._wait_for(sent)

    def history(self, commands: Optional[int] = None) -> str:
        """Returns the text so far, or the header with this number of commands."""
        with self._lock:
            text = self._text()
        return text if commands is None else "".join(text.splitlines(True)[: commands + 2])

    def close(self) -> Report:
        """Ends the input, waits for the program and returns its report. Closing again returns the same report."""
        with self._lock:
            if not self._is_closing:
                self._write()
                self._is_closing = True
                self._wake_flusher()
                self._close_input()
        self._reader.join()
        self._stderr_reader.join()
        if self._report is None:
            self._raise_exited()
        return self._report

    def stop(self) -> None:
        """Kills the program without waiting for replies."""
        with self._lock:
            self._process.kill()
        self._reader.join()

    def __enter__(self) -> "Monitor":
        return self

    def __exit__(self, kind: object, *_: object) -> None:
        if kind is None:
            self.close()
        else:
            self.stop()

    def _text(self) -> str:
        return b"".join(self._written).decode() + "".join(self._lines)

    # The caller's side, under the lock.

    def _append(self, line: str, expected: Any) -> None:
        if "\n" in line:
            line = _strip_line_end(line)
        if self._has_ended or self._is_closing:
            self._raise_exited()
        self._expected.append(expected)
        self._lines.append(line + "\n")
        self._sent += 1

    def _write(self) -> None:
        # After the end the file descriptor of the input may belong to another file.
        if not self._lines or self._has_ended:
            return
        text = "".join([self._lines.popleft() for _ in range(len(self._lines))]).encode()
        self._written.append(text)
        unwritten = memoryview(text)
        try:
            while unwritten:
                unwritten = unwritten[os.write(self._input, unwritten) :]
        except OSError:
            # The program has exited. The reader of its output finds that out and notifies waiting callers.
            pass

    def _close_input(self) -> None:
        try:
            self._process.stdin.close()  # type: ignore[union-attr]
        except OSError:
            pass

    def _wait_for(self, answered: int) -> None:
        with self._lock:
            self._write()
        with self._progress:
            self._progress.wait_for(lambda: self._answered >= answered or self._has_ended)
        if self._answered < answered:
            self._raise_exited()

    def _raise_exited(self) -> NoReturn:
        if self._is_closing and self._report is not None:
            raise MonitorExited("the monitor was closed and accepts no more commands")
        self._process.wait()
        self._stderr_reader.join()
        # `history` would take the lock, which the caller may hold.
        text, stderr = self._text().encode(), b"".join(self._stderr)
        raise MonitorExited(programs.describe_exit(self.program, self._process.returncode, stderr, text))

    # Three threads: one reads replies, one reads standard error, one writes batches that did not fill up.

    def _start(self) -> None:
        pipe = subprocess.PIPE
        arguments = [self.program, "check", "--report"]
        try:
            self._process = subprocess.Popen(arguments, stdin=pipe, stdout=pipe, stderr=pipe, bufsize=0)
        except OSError as error:
            raise MonitorExited(f"{self.program} could not be started: {error}") from error
        self._input = self._process.stdin.fileno()  # type: ignore[union-attr]
        self._wakeup = threading.Lock()
        self._wakeup.acquire()
        self._is_asleep = True
        self._reader = threading.Thread(target=self._read_replies, daemon=True)
        self._stderr_reader = threading.Thread(target=self._read_stderr, daemon=True)
        # The reader of replies joins the other one at the end, so the other one starts first.
        self._stderr_reader.start()
        self._reader.start()
        threading.Thread(target=self._flush_partial_batches, daemon=True).start()

    def _wake_flusher(self) -> None:
        if self._is_asleep:
            self._is_asleep = False
            self._wakeup.release()

    def _flush_partial_batches(self) -> None:
        # The flag is read once, under the lock, since the wake-up is released once for each sleep.
        is_asleep = True
        while not self._is_closing and not self._has_ended:
            if is_asleep:
                self._wakeup.acquire()
            self._flush_until_idle()
            with self._lock:
                # In this order, since a caller appends a line before it looks whether this thread sleeps.
                self._is_asleep = True
                is_asleep = self._is_asleep = not self._lines

    def _flush_until_idle(self) -> None:
        idle = 0
        while idle < IDLE_INTERVALS and not self._is_closing and not self._has_ended:
            time.sleep(FLUSH_INTERVAL)
            with self._lock:
                idle = 0 if self._lines else idle + 1
                if not self._is_closing:
                    self._write()

    def _read_replies(self) -> None:
        source, partial_line = self._process.stdout.fileno(), ""  # type: ignore[union-attr]
        while True:
            try:
                chunk = os.read(source, 1 << 16)
            except OSError:
                chunk = b""
            if not chunk:
                break
            replies = (partial_line + chunk.decode("latin-1")).split("\n")
            partial_line = replies.pop()
            self._accept_replies(replies)
        self._process.stdout.close()  # type: ignore[union-attr]
        self._process.wait()
        self._stderr_reader.join()
        self._finish()

    def _accept_replies(self, replies: List[str]) -> None:
        """Compares replies with the expected ones: as whole lists first, since nearly always they are equal."""
        expected = self._expected[: len(replies)]
        if replies != expected:
            for command, (wanted, reply) in enumerate(zip(expected, replies), self._answered):
                self._accept_reply(command, wanted, reply)
            self._closing_lines += replies[len(expected) :]
        del self._expected[: len(expected)]
        with self._progress:
            self._answered += len(expected)
            self._progress.notify_all()

    def _accept_reply(self, command: int, expected: Any, reply: str) -> None:
        if isinstance(expected, _PendingReply):
            expected.reply = reply
            expected.has_ended.set()
        elif reply != expected and self.unexpected is None:
            self.unexpected = Unexpected(command, reply)

    def _finish(self) -> None:
        with self._lock:
            if self._process.returncode in programs.COMPLETE and len(self._closing_lines) == 2:
                self._report = Report(**json.loads(self._closing_lines[1]))
            self._has_ended = True
            self._wake_flusher()
            self._close_input()
            pending = [it for it in self._expected if isinstance(it, _PendingReply)]
        for it in pending:
            it.has_ended.set()
        with self._progress:
            self._progress.notify_all()

    def _read_stderr(self) -> None:
        """Keeps the end of standard error. Progress of a build, before the first reply, is passed on."""
        with self._process.stderr as stderr:  # type: ignore[union-attr]
            for line in stderr:
                self._stderr.append(line)
                if self._answered == 0 and line.startswith((b"building", b"proving", b"proved")):
                    sys.stderr.write(line.decode("utf-8", "replace"))


def _strip_line_end(text: str) -> str:
    """Returns the line without its end. Raises `ValueError` if the text has more than one line."""
    line = text[:-1] if text.endswith("\n") else text
    if "\n" in line:
        raise ValueError(f"{text!r} is more than one line: send each command by itself")
    return line
