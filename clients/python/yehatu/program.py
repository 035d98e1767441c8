"""The search for the program, and its runs on whole histories."""
import contextlib
import json
import os
import re
import shutil
import subprocess
import tempfile
from pathlib import Path
from typing import IO, Any, Dict, List, NamedTuple, Optional, Union

from .errors import MonitorExited

# The program inside an installed package, as tools/package puts it there.
INSTALLED = Path(__file__).resolve().parent / "installed" / "bin" / "ra_monitor"
REPOSITORY = Path(__file__).resolve().parents[3]
OWN_PROGRAM = REPOSITORY / "ra_monitor"
CHECK_PROGRAM = REPOSITORY / "crates" / "ra_check_cli" / "out" / "ra_check_cli"
EXPLAIN_PROGRAM = REPOSITORY / "crates" / "ra_explain_cli" / "out" / "ra_explain_cli"
# The longest time that an explanation may take, in seconds.
EXPLAIN_TIMEOUT = 60
# The largest text that is written to the program's input at once. Every pipe holds that much.
MAX_PIPED = 4096
# The exit statuses of a run that read its whole input: a pass, a violation, and a pass with a rejected report.
COMPLETE = (0, 1, 3)
# The standard error of a run that could not parse its input.
SYNTAX_FAULT = re.compile(rb"line \d+: (syntax|truncated|too long|full)\n?")

Program = Union[str, "os.PathLike[str]", None]


class CheckResult(NamedTuple):
    """The result of checking a whole history."""

    replies: List[str]
    """One reply for each command, and the `end` line."""
    status: int


def find(program: Program = None) -> str:
    """Returns the path of the given program, else of RA_MONITOR, else of the one that is found without being named.

    That is the one inside this package, else in a clone the repository's own, else `ra_monitor` on the path.
    """
    chosen = os.fspath(program or os.environ.get("RA_MONITOR") or _unnamed())
    found = shutil.which(chosen)
    if found is None:
        raise MonitorExited(
            f"{chosen} is not a program: pass the path of ra_monitor as `program`, or set RA_MONITOR to it"
        )
    return found


def _unnamed() -> str:
    # In a clone this module is below the tool that builds the program.
    own = OWN_PROGRAM if (REPOSITORY / "tools" / "build").is_file() else None
    found = next((str(it) for it in (INSTALLED, own) if it and it.is_file()), None) or shutil.which("ra_monitor")
    if found is None:
        raise MonitorExited(
            "there is no program ra_monitor: install a package of yehatu that contains it (tools/package of the "
            "repository makes one), or set RA_MONITOR to its path"
        )
    return found


def find_for_many_runs(program: Program = None) -> str:
    """Returns the path of the program for many short runs.

    The repository's own `ra_monitor` checks at each start whether it has to be built, so it is run once, and then the
    program that it built is used directly.
    """
    found = find(program)
    if Path(found).resolve() != OWN_PROGRAM:
        return found
    # Standard error is not captured, so that a first build shows its progress.
    ran = subprocess.run([found, "check"], input=b"RAH 2 counter\nreplicas a\n", stdout=subprocess.DEVNULL)
    if ran.returncode != 0:
        raise MonitorExited(
            f"{found} exited with status {ran.returncode} before it read any input; see its standard error above"
        )
    return str(CHECK_PROGRAM)


class Check:
    """The program on a whole history, which it checks while the caller does other things."""

    def __init__(self, program: str, text: bytes) -> None:
        self._program, self._text = program, text
        is_short = len(text) <= MAX_PIPED
        pipe = subprocess.PIPE
        with contextlib.ExitStack() as stack:
            source: Union[int, IO[bytes]] = pipe if is_short else stack.enter_context(_file_of(text))
            try:
                self._process = subprocess.Popen([program, "check"], stdin=source, stdout=pipe, stderr=pipe)
            except OSError as error:
                raise MonitorExited(f"{program} could not be started: {error}") from error
        if is_short:
            self._write()

    def _write(self) -> None:
        stdin = self._process.stdin
        if stdin is not None:
            with contextlib.suppress(BrokenPipeError), stdin:
                stdin.write(self._text)
        self._process.stdin = None

    def wait(self) -> CheckResult:
        """Waits for the program and returns its replies."""
        stdout, stderr = self._process.communicate()
        replies = stdout.decode("ascii", "replace").splitlines()
        # A shell that fails exits with a status of the monitor too, so the status alone shows no pass.
        is_complete = self._process.returncode in COMPLETE and replies[-1:] and replies[-1].startswith("end ")
        if not is_complete:
            raise MonitorExited(describe_exit(self._program, self._process.returncode, stderr, self._text))
        return CheckResult(replies, self._process.returncode)

    def stop(self) -> None:
        """Kills the program."""
        self._process.kill()
        self._process.communicate()


def _file_of(text: bytes) -> "IO[bytes]":
    file = tempfile.TemporaryFile()
    file.write(text)
    file.seek(0)
    return file


def check_text(program: str, text: bytes) -> CheckResult:
    """Checks a whole history and returns the replies."""
    return Check(program, text).wait()


def explain_violation(program: Optional[str], text: str) -> Optional[Dict[str, Any]]:
    """Returns the explanation of a violation as a JSON object, or None if there is none."""
    ran = None if program is None else run_explain(program, text.encode(), "--json")
    if ran is None or ran.returncode != 1:
        return None
    try:
        explanation = json.loads(ran.stdout)
    except ValueError:
        return None
    return explanation if isinstance(explanation, dict) and explanation.get("answer") == "no" else None


def explain_page(program: str, text: bytes) -> bytes:
    """Returns the page of `explain --html` about a history, or nothing if the program cannot explain."""
    ran = run_explain(program, text, "--html")
    return ran.stdout if ran is not None and ran.returncode in COMPLETE else b""


def describe_exit(program: str, status: Optional[int], stderr: bytes, text: bytes = b"") -> str:
    """Describes an abnormal exit: its standard error and, if the program could not parse the text, the explanation."""
    printed = stderr.decode("utf-8", "replace").strip()
    quoted = repr(printed) if printed else "empty"
    description = f"{program} exited with status {status}; its standard error is {quoted}"
    ran = run_explain(program, text) if status == 2 and SYNTAX_FAULT.fullmatch(stderr) else None
    page = ran.stdout.decode("utf-8", "replace").strip() if ran and ran.returncode == 2 else ""
    return f"{description}\n\n{page}" if page else description


def run_explain(
    program: str, text: Union[bytes, IO[bytes]], *options: str
) -> Optional["subprocess.CompletedProcess[bytes]"]:
    """Runs `ra_monitor explain` on a text or a file. Returns None if the program cannot explain.

    The repository's own program is not built for this, since that takes minutes.
    """
    if Path(program).resolve() in (OWN_PROGRAM, CHECK_PROGRAM):
        program = str(EXPLAIN_PROGRAM)
    source: Dict[str, Any] = {"input" if isinstance(text, bytes) else "stdin": text}
    try:
        return subprocess.run([program, "explain", *options], capture_output=True, timeout=EXPLAIN_TIMEOUT, **source)
    except (OSError, subprocess.TimeoutExpired):
        return None
