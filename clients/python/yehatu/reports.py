"""The reports of a recorder, under its lock: labels, messages and deliveries."""
import threading
from types import CoroutineType
from typing import Any, Callable, Dict, Hashable, Iterable, List, Mapping, NamedTuple, NoReturn, Optional, Sequence
from typing import Tuple, Union

from . import operations, unclosed
from .errors import NotRepresentable
from .failure_report import FailureReport, create_error
from .observed import ObservedIdentifiers
from .operations import Operation
from .shown import shown_elements
from .translation import Translator

Act = Optional[Callable[[], Any]]
# The updates of a message: the first label, their replica, the position among that replica's updates, and their
# number. A plain tuple, since the garbage collector does not track plain tuples of numbers.
Message = Tuple[int, int, int, int]
# The largest amount of one `increment(by)`: the text counts by one.
MAX_AMOUNT = 256
# The number of known messages that an error names.
SHOWN_MESSAGES = 3


class Seen(NamedTuple):
    """The updates that had been delivered to a replica at one moment, as a count for each replica."""

    replica: Hashable
    counts: Sequence[int]
    moment: str = ""
    """What messages say of the moment, behind the name of the replica."""


class Reports:
    """What a history has so far. Its methods are called under the lock, which makes one step of an act and its report.

    `post_line` posts a line, with its end, and the reply that is expected.
    """

    def __init__(
        self, translator: Translator, monitor: Any, post_line: Callable[[str, str], None], history: Optional[str]
    ) -> None:
        names = translator.replicas.names
        self._open_key: Optional[Tuple[int, int]] = None
        self._translator, self._monitor, self._post_line, self._history = translator, monitor, post_line, history
        self._numbers, self._formatters = translator.replicas.numbers, translator.formatters
        self._counts = translator.kind == "counter"
        # For each replica, the beginning of its lines.
        self._prefixes = [f"{it} " for it in names]
        self._lock = threading.RLock()
        self._labels = 0
        self._commands = 0
        # Lines that a failure report prints before the command of a number, which say whose state is merged.
        self._notes: Dict[int, List[str]] = {}
        # For each replica, how many updates of each other one were delivered to it.
        self._delivered = [[0] * len(names) for _ in names]
        # For each replica, the labels of its updates.
        self._updates: List[List[int]] = [[] for _ in names]
        self._messages: Dict[Hashable, Message] = {}
        self._observed = ObservedIdentifiers(len(names)) if translator.kind == "orset" else None
        self._failure: Optional[Exception] = None

    def note(self, text: str) -> None:
        """Adds a line that a failure's message shows before the next report."""
        with self._lock:
            self._notes.setdefault(self._commands, []).append(text)

    def failure_report(self, text: str, calls: Mapping[Any, str] = {}) -> FailureReport:
        """Returns a report on this text of this history.

        `calls` has the call of each message's update of any type, by the message's key.
        """
        return FailureReport(self._translator, text, self._keys_of_labels(), self._notes, calls=calls)

    def _enter(self, replica: Hashable, word: str, arguments: Sequence[Any] = ()) -> int:
        """Returns the number of the replica. Raises the failure, if there is one."""
        if self._failure is not None or self._monitor.unexpected is not None:
            self._raise_failure()
        try:
            return self._numbers[replica]
        except (KeyError, TypeError):
            pass
        try:
            return self._translator.replicas.index_of(replica)
        except NotRepresentable as error:
            raise NotRepresentable(f"{_call(word, replica, arguments)}: {error}") from None

    def _quick(
        self, word: str, replica: Hashable, value: Any, anchor: Any, stamp: Any, identifiers: Any, message: Any
    ) -> None:
        """Reports an operation without an act. What is a function is called with None, the result of no act."""
        if callable(stamp) or callable(identifiers) or callable(message):
            report = self._issue_named(word, value)
            return self._step(word, replica, None, report, anchor, stamp, identifiers, message)  # type: ignore
        with self._lock:
            index = self._enter(replica, word, (value, stamp))
            try:
                self._issue(index, word, value, anchor, stamp, identifiers, message)
            except NotRepresentable as error:
                self._fail(error, word, replica, *(it for it in (anchor, value, stamp) if it is not None))
        return None

    def _issue_named(self, word: str, value: Any) -> Callable[..., None]:
        """Returns the function that reports this operation, for `_step`."""
        def report(index: int, anchor: Any, stamp: Any, identifiers: Any, message: Any) -> None:
            self._issue(index, word, value, anchor, stamp, identifiers, message)

        return report

    def _step(
        self, word: str, replica: Hashable, act: Act, report: Callable[..., None], *arguments: Any, before: Act = None
    ) -> Any:
        """Runs `before` and the act, and calls `report` with the replica's number and the arguments.

        An argument that is a function is replaced by its result for the act's result.
        """
        with self._lock:
            index = self._enter(replica, word, arguments)
            if before is not None:
                before()
            result: Any = None if act is None else act()
            try:
                if result.__class__ is CoroutineType:
                    result.close()
                    raise NotRepresentable(
                        "the act returned a coroutine, which no one awaits: await it yourself, and report its result"
                    )
                report(index, *[it(result) if callable(it) else it for it in arguments])
            except NotRepresentable as error:
                self._fail(error, word, replica, *(it for it in arguments if it is not None and not callable(it)))
            return result

    def _fail(self, error: NotRepresentable, word: str, replica: Hashable, *arguments: Any) -> NoReturn:
        """Ends the history: the act has run and is not reported, so later steps would be checked wrongly."""
        if self._failure is None:
            self._failure = NotRepresentable(f"{_call(word, replica, arguments)}: {error}")
            self._failure.__cause__ = error.__cause__
        unclosed.close(self._open_key)
        raise self._failure from None

    def _raise_failure(self) -> None:
        if self._failure is None and self._monitor.unexpected is not None:
            command, reply = self._monitor.unexpected
            text = self._monitor.history(command + 1)
            report = FailureReport(self._translator, text, self._keys_of_labels(), self._notes)
            program = getattr(self._monitor, "program", None)
            self._failure = create_error(report, text, reply, self._history, program)
        if self._failure is not None:
            unclosed.close(self._open_key)
            raise self._failure

    def _keys_of_labels(self) -> Dict[int, Hashable]:
        return {
            first + number: key for key, (first, _, _, count) in self._messages.items() for number in range(count)
        }

    def _post(self, line: str, expected: str) -> None:
        self._commands += 1
        self._post_line(line, expected)
        if self._monitor.unexpected is not None:
            self._raise_failure()

    def _update(
        self, replica: int, operation: Union[Operation, Sequence[Operation], None], message: Hashable
    ) -> None:
        if operation is None:
            operation = self._unsaid_operation()
        if isinstance(operation, Operation):
            word, value, anchor, stamp, identifiers = operation
            is_one = word == "add" and identifiers is not None
            named: Any = next(iter(identifiers or ())) if is_one else identifiers
            self._issue(replica, word, value, anchor, stamp, named, message)
            return
        self._require_new(message)
        first = self._labels, replica, self._delivered[replica][replica]
        for it in operation:
            self._update(replica, it, None)
        if message is not None:
            self._messages[message] = (*first, len(operation))

    def _unsaid_operation(self) -> Operation:
        """Returns the operation of an update whose effect is not reported."""
        kind = self._translator.kind
        if kind == "any":
            return operations.update()
        expected = " or ".join(operations.operations_of(kind))
        raise NotRepresentable(f"an update of the kind {kind} needs its operation: expected {expected}")

    def _issue(
        self, replica: int, word: str, value: Any, anchor: Any, stamp: Any, identifiers: Any, message: Hashable
    ) -> None:
        """Reports an operation of this replica. `identifiers` is the one identifier of an addition."""
        if message is not None and message in self._messages:
            self._require_new(message)
        formatter = self._formatters.get(word) or self._translator.formatter(word)
        if self._observed is None:
            if identifiers is not None:
                raise NotRepresentable(f"the kind {self._translator.kind} has no identifiers: got {identifiers!r}")
            self._issue_fields(replica, formatter(replica, value, anchor, stamp, identifiers), message)
            return
        if stamp is not None:
            named = "identifier" if word == "add" else "identifiers"
            raise NotRepresentable(f"an OR-Set has no stamps, and {stamp!r} is one: pass `{named}=`, or nothing")
        numbers = self._identifier_numbers(replica, word, value, identifiers)
        fields = formatter(replica, value, anchor, stamp, numbers)
        self._observed.issue(replica, self._labels, (value, numbers, word == "add"))
        self._issue_fields(replica, fields, message)

    def _issue_fields(self, replica: int, fields: str, message: Hashable) -> None:
        """Reports an update of this replica, given by its line without the name."""
        label, own = self._labels, self._delivered[replica]
        position = own[replica]
        if message is not None:
            self._messages[message] = (label, replica, position, 1)
        own[replica] = position + 1
        self._labels = label + 1
        self._updates[replica].append(label)
        self._commands += 1
        self._post_line(f"{self._prefixes[replica]}{fields}\n", f"ok {label}")
        if self._monitor.unexpected is not None:
            self._raise_failure()

    def _require_new(self, message: Hashable) -> None:
        if message is not None and message in self._messages:
            raise NotRepresentable(f"the message {message!r} was reported before: each message needs its own key")

    def _identifier_numbers(self, replica: int, word: str, element: Any, identifiers: Any) -> Tuple[int, ...]:
        """Returns the numbers of the identifiers of an OR-Set's operation."""
        numbering = self._translator.identifiers
        if word == "add":
            return (numbering.reserve() if identifiers is None else numbering.number_of(identifiers),)
        if identifiers is not None:
            return tuple([numbering.number_of(it) for it in identifiers])
        return self._observed.identifiers_of(replica, element)  # type: ignore[union-attr]

    def _check_amount(self, word: str, replica: Hashable, by: Any) -> None:
        is_whole = isinstance(by, int) and not isinstance(by, bool)
        if not is_whole or not 1 <= by <= MAX_AMOUNT:
            raise NotRepresentable(
                f"{_call(word, replica, (by,))}: the amount {by!r} cannot be reported, since the monitor counts by "
                f"one: expected a whole number from 1 to {MAX_AMOUNT}; report a larger amount in several calls"
            )

    def _clear(self, replica: int, stamps: Any, message: Hashable) -> None:
        if self._translator.kind not in ("lwwset", "orset"):
            raise NotRepresentable(f"clear is not an operation of the kind {self._translator.kind}: it is one of sets")
        elements = self._shown(replica)
        if self._observed is not None:
            self._update(replica, [operations.remove(it) for it in elements], message)
            return
        if isinstance(stamps, Mapping):
            pairs = sorted(((it, stamps[it]) for it in elements if it in stamps), key=_clock_of)
        else:
            pairs = [*zip(elements, stamps or ())]
        if len(pairs) != len(elements):
            raise NotRepresentable(
                f"{len(pairs)} stamps for the {len(elements)} elements that the replica shows, {elements!r}: "
                "expected one for each, or a mapping from elements to stamps"
            )
        self._update(replica, [operations.remove(*it) for it in pairs], message)

    def _shown(self, replica: int) -> List[Any]:
        """Returns the elements of a set that the replica shows by the reports, in the order of their numbers."""
        translator = self._translator
        if self._observed is not None:
            elements: List[Any] = self._observed.elements_of(replica)
            elements.sort(key=translator.number_of)
            return elements
        names, commands = translator.replicas.names, str(self._monitor.history()).splitlines()[2:]
        return [translator.thing_of(it) for it in shown_elements(commands, names[replica], names)]

    def _deliver_message(self, replica: int, message: Hashable) -> None:
        self._deliver(replica, self._find_message(message))

    def _deliver(self, replica: int, message: Message) -> None:
        label, issuer, position, count = message
        for number in range(count):
            self._deliver_label(replica, label + number, issuer, position + number)

    def _deliver_label(self, replica: int, label: int, issuer: int, position: int) -> None:
        delivered = self._delivered[replica]
        if position < delivered[issuer]:
            return
        delivered[issuer] = position + 1
        if self._observed is not None:
            self._observed.deliver(replica, label)
        self._commands += 1
        self._post_line(f"{self._prefixes[replica]}got {label}\n", f"got {label}")
        if self._monitor.unexpected is not None:
            self._raise_failure()

    def _merge(self, replica: int, messages: Union[Seen, Iterable[Hashable]]) -> None:
        if isinstance(messages, Seen):
            delivered = self._delivered[replica]
            name = self._translator.replicas.keys[replica]
            self.note(f"{name!r} merges the state of {messages.replica!r}{messages.moment}")
            merged = [
                (self._updates[issuer][position], issuer, position, 1)
                for issuer, count in enumerate(messages.counts)
                for position in range(delivered[issuer], count)
            ]
        else:
            merged = [self._find_message(it) for it in messages]
        # Labels are numbered in the order of the reports, so this order is causal.
        for message in sorted(merged):
            self._deliver(replica, message)

    def _join(self, replica: Hashable, source: int) -> None:
        line, index = self._translator.join(replica, source), len(self._delivered)
        self._prefixes.append(f"{self._translator.replicas.names[-1]} ")
        self._delivered.append(list(self._delivered[source]))
        for delivered in self._delivered:
            delivered.append(0)
        self._updates.append([])
        if self._observed is not None:
            self._observed.join(source)
        self._post(f"{line}\n", f"joined {index}")

    def _read(self, replica: int, value: Any) -> None:
        if value.__class__ is CoroutineType:
            value.close()
            raise NotRepresentable("the value is a coroutine, which no one awaits: read it, and report the result")
        self._post_result(replica, self._translator.format_result(value))

    def _read_part(self, replica: int, elements: Any) -> None:
        self._post_result(replica, self._translator.format_part(elements), "part")

    def _post_result(self, replica: int, result: str, word: str = "read") -> None:
        label = self._labels
        self._labels = label + 1
        self._post(f"{self._prefixes[replica]}{word} {result}\n", f"ok {label}")

    def _find_message(self, message: Hashable) -> Message:
        try:
            found = self._messages.get(message)
        except TypeError:
            found = None
        if found is None:
            raise NotRepresentable(
                f"no update was reported with the message {message!r}; {self._describe_messages()}: report the update "
                "that sends it before its delivery"
            )
        return found

    def _describe_messages(self) -> str:
        shown = [repr(it) for it, _ in zip(self._messages, range(SHOWN_MESSAGES))]
        left_out = len(self._messages) - len(shown)
        rest = f" and {left_out} more" if left_out else ""
        return f"known are {', '.join(shown)}{rest}" if shown else "none is known"


def _clock_of(pair: Tuple[Any, Any]) -> int:
    """Returns the clock of an element's stamp, by which the removals are sorted."""
    stamp = pair[1]
    return int(stamp[0] if isinstance(stamp, (tuple, list)) else stamp)


def _call(word: str, replica: Hashable, arguments: Iterable[Any]) -> str:
    """Returns a call as the user wrote it."""
    return f"{word}({', '.join(map(repr, (replica, *arguments)))})"
