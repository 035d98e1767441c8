"""The exception for a failed random run: its message and its files."""
import os
from typing import Mapping, Optional, Sequence, Tuple

from .errors import FlakyRun, NotLinearizable, Refused, ReplicaRaised, ReportFailed
from .failure_report import FailureReport, save_history
from .faults import describe_faults
from .regression import Expected, regression_test
from .returned import Changed, Unusable
from .runs import Failure, Setting
from .steps import RECEIVING, Step, call_arguments
from .stored import Stored, store

# The largest number of lines of a history that a message shows.
SHOWN_LINES = 40


def create_error(
    setting: Setting, small: Failure, seed: str, summary: str, failure: Optional[str], stored: Optional[str] = None
) -> ReportFailed:
    """Creates the exception for a shrunk run, and stores its history and its steps.

    `summary` says which run it was. The steps are stored in the file `failure`, or beside the history; a run that was
    `stored` before is not stored again.
    """
    history, path = _store(setting, small, seed, failure) if stored is None else (_beside(stored), stored)
    report, operation = _report_on(setting, small), _operation_of(setting, small)
    reply = small.replies[-1] if small.raised is None else ""
    # The history has no line for a call that raised.
    last = "" if small.raised is None else operation.splitlines()[0]
    explanation = report.explain(small.text, reply, setting.program)
    faults = "; ".join(describe_faults(small.steps, setting.replicas))
    parts = [f"at work: {faults}"] if faults else []
    run = f"{summary}; " if stored is None else ""
    first = "" if stored is None else f"{summary}: "
    parts += [f"{run}the history is {history}, the steps are {path}:\n"]
    parts += [_indented(_header(small.text)), report.format_commands(small.replies, most=SHOWN_LINES, last=last)]
    if stored is None:
        expected = report.expected_read(explanation) if small.steps[-1].action == "read" else None
        parts += ["\nthe same as a test:\n", _indented(regression_test(
            setting.make_replica, setting.kind, setting.replicas, small.steps, seed, small.indexes,
            expected and Expected(*expected),
            small.raised is not None and not isinstance(small.raised, Unusable), path,
        ))]
    details = "\n".join(parts).rstrip()
    if small.raised is not None:
        origin = _describe_origin(setting, small)
        error: ReportFailed = ReplicaRaised(f"{first}{operation}\n{origin}{details}", operation, "", history)
        error.__cause__ = small.raised.__cause__ if isinstance(small.raised, Unusable) else small.raised
    else:
        kind = NotLinearizable if small.cause == ("no",) else Refused
        error = kind(f"{first}{report.summarize(reply, explanation)}\n{details}", operation, reply, history)
    error.steps = path
    return error


def create_flaky(
    setting: Setting, failure: Failure, again: Optional[Failure], seed: str, summary: str, path: Optional[str]
) -> FlakyRun:
    """Creates the exception for a run that did not fail in the same way again."""
    history, stored = _store(setting, failure, seed, path)
    first = _answer(setting, failure)
    second = "it passed" if again is None else _answer(setting, again)
    error = FlakyRun(
        f"{summary} failed, and the same steps did not fail in the same way again: the class is not deterministic "
        f"(random numbers, time, the order of a set, or what replicas share)\nat one time: {first}\n"
        f"at another time: {second}\nthe history is {history}, and the steps are {stored}",
        _operation_of(setting, failure), "" if failure.raised is not None else failure.replies[-1], history,
    )
    error.steps = stored
    return error


def _answer(setting: Setting, failure: Failure) -> str:
    """Returns what a replica did, and what came of it."""
    if failure.raised is not None:
        return _operation_of(setting, failure)
    return _report_on(setting, failure).summarize(failure.replies[-1], None)


def _report_on(setting: Setting, failure: Failure) -> FailureReport:
    """Returns a report on the failed history, in which an update of any type, whose line has no arguments, has its call."""
    calls = {it.number: _call_of(it, failure.indexes) for it in failure.steps if it.action == "update"}
    return failure.recorder.failure_report(failure.text, calls if setting.kind == "any" else {})


def _call_of(step: Step, indexes: Mapping[int, int]) -> str:
    return f"{step.method}({', '.join(map(repr, call_arguments(step, indexes)))})"


def _operation_of(setting: Setting, failure: Failure) -> str:
    """Returns the last command, or the last call with what it raised, or what it returned that cannot be used."""
    raised = failure.raised
    if raised is None:
        report = _report_on(setting, failure)
        return report.describe(len(report.commands) - 1)
    outcome = str(raised) if isinstance(raised, Unusable) else f"raised {raised!r}"
    return f"{describe_call(setting, failure.steps[-1], failure.indexes)} {outcome}"


def _describe_origin(setting: Setting, failure: Failure) -> str:
    """Returns a line that says which call returned what the last one received, if that is a message or has changed."""
    last, raised = failure.steps[-1], failure.raised
    if isinstance(raised, Changed):
        what, number = raised.what, raised.number
    elif last.action in RECEIVING:
        what, number = "message", last.number
    else:
        return ""
    action = "update" if what == "message" else "snapshot"
    returning = next(it for it in failure.steps if it.action == action and it.number == number)
    line = f"{what} {number} was returned by {describe_call(setting, returning, failure.indexes)}"
    if isinstance(raised, Changed):
        line += raised.change
    elif failure.messages[number].value is None:
        line += ", and is None: an update returns the message that the other replicas receive"
    return f"{line}\n"


def _store(setting: Setting, failure: Failure, seed: str, path: Optional[str]) -> Tuple[str, str]:
    """Writes the history and the steps, and returns both paths."""
    history = save_history(failure.text, None if path is None else _beside(path))
    steps = path or f"{os.path.splitext(history)[0]}.json"
    store(steps, Stored(
        seed, setting.kind, list(setting.replicas), setting.profile, failure.steps, failure.cause, failure.text,
        _operation_of(setting, failure),
    ))
    return history, steps


def require_writable(path: str) -> None:
    """Raises `ValueError` if the steps cannot be written to this file, or the history to the one beside it."""
    given = f"failure={path!r}"
    if not path:
        raise ValueError(f"{given}: expected the path of a file, such as 'failure.json'")
    folder = os.path.dirname(path) or os.curdir
    if not os.path.isdir(folder):
        problem = "is no folder" if os.path.exists(folder) else "does not exist"
        raise ValueError(
            f"{given}: the folder {folder!r} {problem}, so no failure could be stored: create it, or pass another path"
        )
    for it in (path, _beside(path)):
        if os.path.isdir(it):
            raise ValueError(f"{given}: {it!r} is a folder: expected the path of a file")
        if not os.access(it if os.path.exists(it) else folder, os.W_OK):
            raise ValueError(
                f"{given}: {it!r} cannot be written: change the permissions of the file or its folder, or pass another "
                "path"
            )


def _beside(path: str) -> str:
    return f"{os.path.splitext(path)[0]}.rah"


def _header(text: str) -> str:
    return "".join(text.splitlines(True)[:2])


def _indented(text: str) -> str:
    return "\n".join(f"    {it}" if it else "" for it in text.splitlines())


def describe_call(setting: Setting, step: Step, indexes: Mapping[int, int]) -> str:
    """Returns the call of a replica's method that a step makes."""
    names: Sequence[object] = setting.replicas
    name = names[step.replica]
    if step.action == "join":
        return f"{names[step.number]!r}: fork({name!r})"
    if step.action == "merge":
        return f"{name!r}: merge(state of {names[step.number]!r})"
    calls = {
        "update": _call_of(step, indexes), "deliver": f"receive(message {step.number})", "read": "read()",
        "duplicate": f"receive(message {step.number}) again", "snapshot": "state()", "save": "save()",
        "merge_snapshot": f"merge(state {step.number}, which was taken earlier)", "restart": "load(saved state)",
    }
    return f"{name!r}: {calls[step.action]}"
