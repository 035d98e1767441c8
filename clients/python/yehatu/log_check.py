"""Checks logs: each object's events, merged by their messages, make one history."""
from typing import Dict, Hashable, Iterator, List, Optional, Sequence

from . import program as programs
from .log_history import Judged, Verdict, judge
from .log_lines import FIELDS, CannotJudge, Event, LogFault, missing_field, read_events, shown
from .log_merge import merge
from .program import Program


def check_logs(
    paths: Sequence[str], *, kind: Optional[str] = None, replicas: Optional[Sequence[str]] = None,
    only: Optional[str] = None, program: Program = None,
) -> Iterator[Judged]:
    """Yields the verdict on each object in these files, in the order of the objects' first lines.

    Args:
        kind: The kind of the objects whose lines state none.
        replicas: The names of all replicas in the order in which the type breaks ties, lowest first. By default they
            are sorted.
        only: The name of the one object to check.

    Raises:
        LogFault: A line is malformed, or the log and the arguments disagree.
        CannotJudge: The log is of another sort.
        MonitorExited: The program could not be run.
    """
    events = read_events(paths)
    order = _order_of(events, replicas)
    objects: Dict[Hashable, List[Event]] = {}
    for event in events:
        objects.setdefault(event.object, []).append(event)
    if only is not None:
        objects = {it: found for it, found in objects.items() if str(it) == only}
    if not objects:
        problem = "there are no events: expected JSON lines"
        raise LogFault(", ".join(paths), f"there is no object {shown(only)}" if only else problem)
    found = programs.find_for_many_runs(program)
    for name, those in objects.items():
        chosen = _kind_of(those, kind)
        present = {it.replica for it in those}
        yield judge(name, chosen, [it for it in order if it in present], merge(those), found)


def _order_of(events: Sequence[Event], replicas: Optional[Sequence[str]]) -> List[Hashable]:
    """Returns the replicas in the order in which the type breaks ties."""
    present = {it.replica: it for it in reversed(events)}
    if replicas is None:
        return sorted(present, key=lambda it: (isinstance(it, str), it))
    named = {str(it): it for it in present}
    unnamed = next((it for name, it in named.items() if name not in replicas), None)
    if unnamed is not None:
        raise LogFault(present[unnamed].place, (
            f'the field "replica" is {shown(unnamed)}, which --replicas does not name: expected one of '
            f"{', '.join(replicas)}; name all replicas, lowest first"
        ))
    unused = next((it for it in replicas if it not in named), None)
    if unused is not None:
        raise CannotJudge(f"--replicas names {shown(unused)}, of which there is no line: expected the log's replicas")
    return [named[it] for it in replicas]


def _kind_of(events: Sequence[Event], default: Optional[str]) -> str:
    """Returns the kind of an object, which at least one of its lines states, or the default."""
    stating = [it for it in events if "kind" in it.fields]
    if not stating and default is None:
        expected = f"{FIELDS['kind'].expected}, in one line of the object or as --kind"
        raise missing_field(events[0].place, "kind", expected)
    first = stating[0] if stating else None
    other = next((it for it in stating if first and it.fields["kind"] != first.fields["kind"]), None)
    if other and first:
        raise LogFault(other.place, (
            f'the field "kind" is {shown(other.fields["kind"])}, and {first.place} has {shown(first.fields["kind"])}: '
            "expected one kind for each object"
        ))
    return str(first.fields["kind"] if first else default)


def describe(judged: Judged, with_context: bool = False) -> str:
    """Returns what a terminal shows of a verdict."""
    name = "" if judged.object is None else f"object {judged.object!r}, "
    head = f"{name}{judged.kind}: {judged.verdict.value}"
    if judged.verdict in (Verdict.PASS, Verdict.UNJUDGED):
        return f"{head}: {judged.details}"
    parts = [head, *judged.details.splitlines()]
    if with_context:
        parts += ["the last lines, in a causal order:", *(f"  {it}" for it in judged.context.splitlines())]
    return "\n  ".join(parts)
