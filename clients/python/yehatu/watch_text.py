"""The text that `watch` has read."""
import itertools
import shutil
import tempfile
from typing import IO, Callable

# The longest line that the text format has, in bytes.
LONGEST_LINE = 1_048_576


class Text:
    """The text that was read: whole lines, which are kept in a temporary file, and an unfinished last line.

    Memory holds the unfinished line alone. Where the file cannot be written, as on a full disk, the text is no longer
    kept: the monitor goes on, and there is no page.
    """

    def __init__(self) -> None:
        self.file: IO[bytes] = tempfile.TemporaryFile(prefix="yehatu_")
        self.fault = ""
        """Why the text is not kept, or nothing."""
        self._partial = bytearray()

    def __enter__(self) -> "Text":
        return self

    def __exit__(self, *_: object) -> None:
        try:
            self.file.close()
        except OSError:
            pass

    def add(self, chunk: bytes) -> bytes:
        """Adds what was read. Returns the lines that are whole now, or the beginning of a line that is too long."""
        end = chunk.rfind(b"\n") + 1
        if not end and len(self._partial) + len(chunk) <= LONGEST_LINE:
            self._partial += chunk
            return b""
        end = end or len(chunk)
        lines = bytes(self._partial) + chunk[:end]
        self._partial = bytearray(chunk[end:])
        self._keep(lines)
        return lines

    def end(self) -> bytes:
        """Returns the unfinished line, once the source has ended."""
        lines = bytes(self._partial)
        self._partial.clear()
        self._keep(lines)
        return lines

    def rewind(self) -> bool:
        """Prepares the file for being read from its start. Returns whether it has the whole text."""
        self._try(lambda: self.file.seek(0))
        return not self.fault

    def cut(self, lines: int) -> None:
        """Removes what follows this number of lines."""
        if self.rewind():
            size = sum(len(self.file.readline()) for _ in range(lines))
            self._try(lambda: self.file.truncate(size))

    def line(self, number: int) -> bytes:
        """Returns the line of this number, counted from 1, or nothing if it is not kept."""
        return next(itertools.islice(self.file, number - 1, None), b"") if self.rewind() else b""

    def copy(self, path: str) -> None:
        """Writes the text to this file."""
        self.rewind()
        with open(path, "wb") as copied:
            shutil.copyfileobj(self.file, copied)

    def _keep(self, lines: bytes) -> None:
        if not self.fault:
            self._try(lambda: self.file.write(lines))

    def _try(self, call: Callable[[], object]) -> None:
        try:
            call()
        except OSError as error:
            self.fault = error.strerror or str(error)
