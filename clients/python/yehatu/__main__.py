"""The command `yehatu`: checks logs, watches a history, shows a failure, and runs a stored failure again."""
import argparse
import importlib
import sys
from pathlib import Path
from typing import Any, List, Optional

from . import demo
from . import program as programs
from .errors import MonitorExited, ReportFailed
from .log_check import check_logs, describe
from .log_history import Verdict
from .log_lines import STANDARD_INPUT, CannotJudge, LogFault
from .operations import OPERATIONS
from .random_runs import replay
from .watch import Options, watch

PASS, VIOLATION, NO_VERDICT = 0, 1, 2
EPILOG = "exit status: 0 pass, 1 violation, 2 no verdict (standard error says why)"
# The shortest and the longest time between two status lines, in seconds.
EVERY = (0.1, 86_400)


def main(arguments: Optional[List[str]] = None) -> int:
    """Runs the command and returns its exit status."""
    chosen = _parser().parse_args(arguments)
    try:
        return int(chosen.run(chosen))
    except (CannotJudge, LogFault, MonitorExited, OSError, _Unusable) as error:
        print(f"yehatu: {error}", file=sys.stderr)
        return NO_VERDICT


class _Unusable(ValueError):
    """An argument that cannot be used."""


def _parser() -> argparse.ArgumentParser:
    parser = argparse.ArgumentParser(prog="yehatu", description=(__doc__ or "").strip(), epilog=EPILOG)
    commands = parser.add_subparsers(title="subcommands", required=True, metavar="SUBCOMMAND")
    for name, summary, page in (
        ("check", "judge each object of a log of JSON lines", False),
        ("explain", "judge it, and show the lines that lead to a violation", True),
    ):
        command = _command(commands, name, summary, _check)
        command.add_argument("log", nargs="+", metavar="LOG", help="a file of JSON lines; - is standard input")
        command.add_argument("--kind", choices=[*OPERATIONS], help="the kind of objects whose lines state none")
        command.add_argument("--object", help="check this object alone")
        command.add_argument("--replicas", metavar="A,B,..", help="all replicas, in the order in which ties are broken")
        command.add_argument("--history", metavar="FILE", help="write the history of the object that is judged last")
        command.set_defaults(context=page, page=None)
        if page:
            command.add_argument("--page", metavar="FILE", help="write a page about the first violation")
    _add_watch(commands)
    command = _command(commands, "demo", "test a register with a bug at random, and show the shrunk failure", _demo)
    command.add_argument("--page", metavar="FILE", default="yehatu_demo.html", help="write the page here [%(default)s]")
    command = _command(commands, "replay", "run a stored failure of check_random again", _replay)
    command.add_argument("replica", metavar="MODULE:CLASS", help="what makes a replica, such as register:Register")
    command.add_argument("failure", metavar="FILE", help="the file of steps that check_random wrote")
    return parser


def _add_watch(commands: Any) -> None:
    summary = "pass a history in the text format to the monitor as it comes, and show its status"
    command = _command(commands, "watch", summary, _watch)
    command.epilog = "exit status: 0 pass, 1 violation, 2 no verdict (standard error says why), 3 pass with refusals"
    command.add_argument("history", nargs="?", metavar="FILE", help="the history; without it, standard input")
    command.add_argument("--page", metavar="FILE", help="write a page about the history at the end")
    command.add_argument("--every", metavar="SECONDS", type=_seconds, default=1.0, help="show the status as often [1]")
    command.add_argument("--follow", action="store_true", help="wait for more at the end of FILE, which grows")
    command.add_argument("--replies", action="store_true", help="print the reply to each line, as `ra_monitor check`")
    command.add_argument("--stop", action="store_true", help="end at the first violation")


def _seconds(text: str) -> float:
    seconds = float(text)
    if EVERY[0] <= seconds <= EVERY[1]:
        return seconds
    raise argparse.ArgumentTypeError(f"expected a number of seconds from {EVERY[0]} to {EVERY[1]}, not {text}")


def _command(commands: Any, name: str, summary: str, run: Any) -> argparse.ArgumentParser:
    command: argparse.ArgumentParser = commands.add_parser(name, help=summary, description=summary, epilog=EPILOG)
    command.set_defaults(run=run)
    return command


def _check(chosen: argparse.Namespace) -> int:
    replicas = chosen.replicas.split(",") if chosen.replicas else None
    verdicts = set()
    for judged in check_logs(chosen.log, kind=chosen.kind, replicas=replicas, only=chosen.object):
        print(describe(judged, chosen.context), flush=True)
        if chosen.history is not None:
            Path(chosen.history).write_text(judged.history, encoding="ascii")
        if judged.verdict is Verdict.VIOLATION and Verdict.VIOLATION not in verdicts and chosen.page is not None:
            _write_page(chosen.page, judged.history.encode())
        verdicts.add(judged.verdict)
    if Verdict.VIOLATION in verdicts:
        return VIOLATION
    return PASS if verdicts == {Verdict.PASS} else NO_VERDICT


def _watch(chosen: argparse.Namespace) -> int:
    path = None if chosen.history == STANDARD_INPUT else chosen.history
    if chosen.follow and path is None:
        raise _Unusable("--follow needs a FILE: standard input is read until it ends")
    if path is None and sys.stdin is None:
        raise _Unusable("standard input is closed: expected a history")
    if chosen.page is not None:
        # It is written at the end, so that a path that cannot be written has to be found before.
        Path(chosen.page).open("ab").close()
    return watch(Options(path, chosen.page, chosen.every, chosen.follow, chosen.replies, chosen.stop))


def _write_page(path: str, history: bytes) -> None:
    page = programs.explain_page(programs.find(), history)
    if not page:
        raise MonitorExited("the program cannot explain, so there is no page: install one that has `explain`")
    Path(path).write_bytes(page)
    print(f"the page about it: {path}")


def _demo(chosen: argparse.Namespace) -> int:
    steps = str(Path(chosen.page).with_suffix(".json"))
    try:
        text, history = demo.run(steps)
    except ValueError as error:
        raise _Unusable(str(error)) from None
    print(text)
    _write_page(chosen.page, history)
    print(f"the same run again: yehatu replay yehatu.demo:Register {steps}")
    return PASS


def _replay(chosen: argparse.Namespace) -> int:
    module, _, name = chosen.replica.partition(":")
    sys.path.insert(0, "")
    try:
        make_replica = getattr(importlib.import_module(module), name)
    except (ImportError, AttributeError, ValueError) as error:
        raise _Unusable(f"{chosen.replica}: {error}: expected MODULE:CLASS, such as register:Register") from None
    try:
        steps = replay(make_replica, chosen.failure)
    except ReportFailed as error:
        print(error)
        return VIOLATION
    except ValueError as error:
        raise _Unusable(str(error)) from None
    print(f"pass: {steps} steps")
    return PASS


if __name__ == "__main__":
    sys.exit(main())
