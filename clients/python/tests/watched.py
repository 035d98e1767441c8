"""A run of `watch` as a process, whose outputs a test reads while it runs."""
import fcntl
import os
import pty
import select
import signal
import struct
import subprocess
import sys
import termios
import threading
import time
from pathlib import Path
from typing import Any, List, Optional

import yehatu

PACKAGE = str(Path(yehatu.__file__).parent.parent)
# A run that has not written what is expected by then is stuck, in seconds.
PATIENCE = 30


def environment(**changes: Optional[str]) -> "dict[str, str]":
    """Returns the environment of a run, where None removes a variable. Terminals have the usual type and colours."""
    chosen = {**os.environ, "PYTHONPATH": PACKAGE, "TERM": "xterm", "NO_COLOR": None, **changes}
    return {name: value for name, value in chosen.items() if value is not None}


class Watched:
    """A run of `watch` whose input stays open. Standard error is a terminal if it has a number of columns."""

    def __init__(self, *words: str, columns: Optional[int] = None, cwd: Optional[str] = None, **changes: Any) -> None:
        self.stdout, self.stderr = b"", b""
        pipe = subprocess.PIPE
        own, stderr = pty.openpty() if columns is not None else os.pipe()
        if columns is not None:
            fcntl.ioctl(stderr, termios.TIOCSWINSZ, struct.pack("HHHH", 24, columns, 0, 0))
        self._process = subprocess.Popen(
            [sys.executable, "-m", "yehatu", "watch", *words], stdin=pipe, stdout=pipe, stderr=stderr, bufsize=0,
            cwd=cwd, env=environment(**changes), start_new_session=True,
        )
        os.close(stderr)
        stdout = os.dup(self._process.stdout.fileno())  # type: ignore[union-attr]
        self._process.stdout.close()  # type: ignore[union-attr]
        outputs = ("stdout", stdout), ("stderr", own)
        self._threads = [threading.Thread(target=self._collect, args=it) for it in outputs]
        for thread in self._threads:
            thread.start()

    def __enter__(self) -> "Watched":
        return self

    def __exit__(self, *_: object) -> None:
        self._process.kill()
        self.close()
        self._process.wait()
        for thread in self._threads:
            thread.join(PATIENCE)

    @property
    def pid(self) -> int:
        """The number of the process."""
        return self._process.pid

    def write(self, text: str) -> None:
        """Writes to the input."""
        unwritten, end = memoryview(text.encode("latin-1")), time.monotonic() + PATIENCE
        while unwritten:
            file = self._process.stdin.fileno()  # type: ignore[union-attr]
            if not select.select([], [file], [], max(end - time.monotonic(), 0))[1]:
                raise AssertionError("the input is not read")
            # A pipe that can be written to takes that much without waiting.
            unwritten = unwritten[os.write(file, unwritten[: select.PIPE_BUF]) :]

    def close(self) -> None:
        """Ends the input."""
        self._process.stdin.close()  # type: ignore[union-attr]

    def interrupt(self) -> None:
        """Sends what Ctrl-C sends, to all processes of the run's group."""
        os.killpg(self._process.pid, signal.SIGINT)

    def has_ended(self) -> bool:
        """Returns whether the process has ended."""
        return self._process.poll() is not None

    def wait_for(self, stream: str, text: str, count: int = 1) -> None:
        """Waits until the stream has the text this number of times."""
        end = time.monotonic() + PATIENCE
        while getattr(self, stream).count(text.encode()) < count:
            if time.monotonic() > end:
                raise AssertionError(f"no {text!r} in {stream}: {self.stdout[-500:]!r}, {self.stderr[-500:]!r}")
            time.sleep(0.01)

    def wait(self) -> int:
        """Waits for the end and returns the exit status."""
        status = self._process.wait(PATIENCE)
        for thread in self._threads:
            thread.join(PATIENCE)
        return status

    def lines(self) -> List[str]:
        """Returns the lines of standard error so far."""
        return self.stderr.decode("latin-1").splitlines()

    def _collect(self, stream: str, number: int) -> None:
        while True:
            try:
                chunk = os.read(number, 1 << 16)
            except OSError:
                # So a terminal ends.
                chunk = b""
            if not chunk:
                os.close(number)
                return
            setattr(self, stream, getattr(self, stream) + chunk)


def screen(written: bytes) -> List[str]:
    """Returns what a terminal without limits shows: its lines after these bytes, of which escape sequences are colours.

    A carriage return goes back to the beginning of the line.
    """
    lines = []
    for line in written.decode("latin-1").split("\n"):
        shown: List[str] = []
        for part in line.split("\r"):
            plain = strip_colours(part)
            shown[: len(plain)] = plain
        lines.append("".join(shown).rstrip())
    return lines


def strip_colours(text: str) -> str:
    """Returns the text without the escape sequences of colours."""
    first, *rest = text.split("\x1b[")
    return first + "".join(it.partition("m")[2] for it in rest)
