"""The history of one object of a log, and the program's verdict on it in the log's own words."""
import enum
from typing import Any, Dict, Hashable, List, NamedTuple, Optional, Sequence

from . import program as programs
from .driver import Transcript
from .errors import NotRepresentable
from .failure_report import FailureReport
from .log_lines import DELIVER, PART, READ, CannotJudge, Event, LogFault, Place, thing
from .log_shapes import checked
from .numbers import MAX_COMMANDS, MAX_REPLICAS, RankedClocks
from .operations import Operation
from .reports import Reports
from .translation import Translator

# The largest number of lines that lead to a violation and are shown.
SHOWN_LINES = 16


class Verdict(enum.Enum):
    """What came of one object."""

    PASS = "pass"
    VIOLATION = "violation"
    REJECTED = "not judged, since the monitor rejects a line"
    UNJUDGED = "cannot be judged"


class Judged(NamedTuple):
    """The verdict on one object, and what it rests on."""

    object: Hashable
    kind: str
    verdict: Verdict
    details: str
    """The failure in the log's own words, or the totals of a pass."""
    context: str = ""
    """The lines that lead to a failure."""
    history: str = ""
    """The text that the program read, up to a failure."""


class LogHistory(Reports):
    """The lines of one object of a log, translated into a history. `events` are in an order that is causal."""

    def __init__(self, kind: str, replicas: Sequence[Hashable], events: Sequence[Event]) -> None:
        clocks = RankedClocks(it.fields["stamp"] for it in events if "stamp" in it.fields)
        self._transcript = Transcript()
        super().__init__(
            Translator(kind, replicas, nothing=thing(None), clocks=clocks), self._transcript,
            lambda line, _: self._transcript.lines.append(line), None,
        )
        self.places: List[Place] = []
        """For each command, the line that it comes from."""
        for event in events:
            self._add(event, checked(event, kind))

    def text(self, commands: Optional[int] = None) -> str:
        """Returns the text that the program reads, with this number of commands or all of them."""
        return self._translator.header() + "".join(self._transcript.lines[:commands])

    def report(self, text: str) -> FailureReport:
        """Returns a report on this text, which names the lines of the log."""
        return FailureReport(self._translator, text, self._keys_of_labels(), {}, self.places)

    def _add(self, event: Event, fields: Dict[str, Any]) -> None:
        replica = self._translator.replicas.index_of(event.replica)
        try:
            if event.operation == DELIVER:
                self._deliver_message(replica, fields["message"])
            elif event.operation == READ:
                self._read(replica, fields["value"])
            elif event.operation == PART:
                self._read_part(replica, fields["value"])
            else:
                self._update(replica, _operations(event.operation, fields), fields.get("message"))
        except NotRepresentable as error:
            raise LogFault(event.place, str(error)) from None
        self.places += [event.place] * (self._commands - len(self.places))


def _operations(word: str, fields: Dict[str, Any]) -> Any:
    """Returns the operation of a line, or a list of them for an amount of a counter."""
    if word in ("increment", "decrement"):
        return [Operation(word)] * fields.get("value", 1)
    identifiers = fields.get("identifiers")
    if "identifier" in fields:
        identifiers = (fields["identifier"],)
    anchor = (fields["left"], fields["right"]) if word == "insert" else fields.get("anchor")
    return Operation(word, fields.get("value"), anchor, fields.get("stamp"), identifiers)


def judge(name: Hashable, kind: str, replicas: Sequence[Hashable], events: Sequence[Event], program: str) -> Judged:
    """Checks the events of one object, which are in a causal order. Raises `LogFault` if one of them is malformed."""
    try:
        _require_judgeable(replicas, events)
    except CannotJudge as error:
        return Judged(name, kind, Verdict.UNJUDGED, str(error))
    history = LogHistory(kind, replicas, events)
    if len(history.places) > MAX_COMMANDS:
        return Judged(name, kind, Verdict.UNJUDGED, (
            f"it has {len(history.places)} operations and deliveries, and a history at most {MAX_COMMANDS}: check a "
            "part of the log, from a moment at which all replicas were equal"
        ))
    replies = programs.check_text(program, history.text().encode()).replies
    failed = next((number for number, it in enumerate(replies) if it.startswith(("no ", "refused "))), None)
    if failed is None:
        return Judged(name, kind, Verdict.PASS, _totals(replicas, events), history=history.text())
    text = history.text(failed + 1)
    report = history.report(text)
    details = report.summarize(replies[failed], report.explain(text, replies[failed], program))
    verdict = Verdict.VIOLATION if replies[failed].startswith("no ") else Verdict.REJECTED
    first = max(0, failed + 1 - SHOWN_LINES)
    context = "\n".join(report.describe(number) for number in range(first, failed + 1))
    return Judged(name, kind, verdict, details, context, text)


def _require_judgeable(replicas: Sequence[Hashable], events: Sequence[Event]) -> None:
    """Raises `CannotJudge` if the events lack what the condition is about, or exceed the number of replicas."""
    if len(replicas) > MAX_REPLICAS:
        late = next(it for it in events if it.replica == replicas[MAX_REPLICAS])
        raise CannotJudge(
            f"it has {len(replicas)} replicas, and a history at most {MAX_REPLICAS} ({late.place} is of another one)"
        )
    if len(replicas) > 1 and not any(it.operation == DELIVER for it in events):
        raise CannotJudge(
            f"it has {len(replicas)} replicas and no deliveries, so nothing says what a replica had received: log a "
            "line with the operation deliver where a replica applies a message"
        )


def _totals(replicas: Sequence[Hashable], events: Sequence[Event]) -> str:
    deliveries = sum(it.operation == DELIVER for it in events)
    operations = _counted(len(events) - deliveries, "operation", "operations")
    received = _counted(deliveries, "delivery", "deliveries")
    return f"{operations} and {received} of {_counted(len(replicas), 'replica', 'replicas')}"


def _counted(count: int, one: str, several: str) -> str:
    return f"{count} {one if count == 1 else several}"
