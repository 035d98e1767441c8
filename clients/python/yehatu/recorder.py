"""Reports what replicas do, in the user's own names."""
import sys
from typing import Any, Callable, ContextManager, Hashable, Iterable, Optional, Sequence, Union

from . import unclosed
from .errors import NotRepresentable
from .monitor import Monitor, Report
from .operations import Operation, Stamp
from .program import Program
from .reports import Act, Reports, Seen
from .translation import COUNTING, MAX_COUNT, MIN_COUNT, Translator

__all__ = ["Recorder", "Seen"]


class Recorder(Reports):
    """A reporter for replicas with any names, given in the order in which the type breaks ties, lowest first.

    Each call is one step: it runs the act and reports it before the act of another thread runs. So an act must not
    wait for another replica. What is known only after the act (an operation, a message's key, a value that is read)
    may be a function, which is called with the result of the act.

    Values, elements, identifiers and keys are anything that can be a key of a dictionary; equal keys are one thing
    here. The first report that fails raises `NotLinearizable` or `Refused` as soon as its reply has arrived, and so
    does each later call. With a `window` of 1 the call itself raises. The history is then written to the file
    `history`. `nothing` is the result of a register's read before the first write. A `monitor` receives the lines
    instead of a program.

    A recorder that is neither closed nor stopped warns, and lets the process end with status 3, since its last
    reports were not checked. With `must_close=False` it does neither.
    """

    def __init__(
        self,
        kind: str,
        replicas: Sequence[Hashable],
        *,
        program: Program = None,
        window: int = 4096,
        history: Optional[str] = None,
        nothing: Any = None,
        monitor: Any = None,
        must_close: bool = True,
    ) -> None:
        translator = Translator(kind, replicas, nothing)
        own = None if monitor else Monitor(kind, translator.replicas.names, program=program, window=window)
        post_line = own.post_line if own else _without_end(monitor.post)
        super().__init__(translator, monitor or own, post_line, history)
        if must_close:
            place = sys._getframe(1)
            created = f"{place.f_code.co_filename}:{place.f_lineno}"
            self._open_key = unclosed.register(f"the Recorder({kind!r}, ..) that was created at {created}")

    def __del__(self) -> None:
        unclosed.collect(getattr(self, "_open_key", None))

    # Steps of any kind.

    def update(
        self, replica: Hashable,
        operation: Union[Operation, Sequence[Operation], Callable[[Any], Any], None] = None, *,
        act: Act = None, message: Any = None,
    ) -> Any:
        """Reports an update, and returns the result of the act. `message` is the key that its deliveries name.

        A list of operations is a composition: it is reported as these operations in their order, with one message. An
        update of the kind `any` needs no operation.
        """
        return self._step("update", replica, act, self._update, operation, message)

    def deliver(self, replica: Hashable, message: Any, *, act: Act = None) -> Any:
        """Reports that the replica applies the message of this key. A repeated delivery runs the act alone."""
        if act is None and not callable(message):
            with self._lock:
                index = self._enter(replica, "deliver", (message,))
                try:
                    label, issuer, position, count = self._messages[message]
                except (KeyError, TypeError):
                    count = 0
                if count == 1:
                    return self._deliver_label(index, label, issuer, position)
        return self._step("deliver", replica, act, self._deliver_message, message)

    def merge(self, replica: Hashable, messages: Union[Seen, Iterable[Hashable]], *, act: Act = None) -> Any:
        """Reports that the replica merges a state, given by its messages or by what another replica had `seen`."""
        return self._step("merge", replica, act, self._merge, messages)

    def join(self, replica: Hashable, source: Hashable, *, act: Act = None) -> Any:
        """Reports that a new replica joins with a copy of the source's state, which the act makes.

        It is the last replica in the order of ties. A join that is impossible, because the name exists or there are 64
        replicas, raises `NotRepresentable` before the act, and the history continues without it.
        """
        def report(source_index: int) -> None:
            self._join(replica, source_index)

        def check() -> None:
            self._translator.replicas.check_join(replica)

        return self._step("join", source, act, report, before=check)

    def read(self, replica: Hashable, value: Any) -> Any:
        """Reports a read of this value, or of the value that this function returns. Returns the value.

        The value of a set or a list is an iterable of its elements, and that of an `mvregister` one of its values. Of
        the kind `any` it is a value of any sort, which is equal to another one if `==` says so.
        """
        if callable(value):
            return self._step("read", replica, value, self._read, _identity)
        with self._lock:
            index = self._enter(replica, "read", (value,))
            if self._counts and value.__class__ is int and MIN_COUNT <= value <= MAX_COUNT:
                self._post_result(index, str(value))
                return value
            try:
                self._read(index, value)
            except NotRepresentable as error:
                self._fail(error, "read", replica, value)
        return value

    def part(self, replica: Hashable, elements: Any) -> Any:
        """Reports a read of a part of a list: these elements are shown in this order, perhaps with others between.

        The elements may be a function, which returns them. Returns the elements. It is for lists of the kind `list`
        that are too long to be reported as a whole.
        """
        act = elements if callable(elements) else lambda: elements
        return self._step("part", replica, act, self._read_part, _identity)

    def seen(self, replica: Hashable) -> Seen:
        """Returns the updates that were delivered to the replica so far, for a `merge` of its current state."""
        with self._lock:
            return Seen(replica, tuple(self._delivered[self._translator.replicas.index_of(replica)]))

    def step(self) -> ContextManager[Any]:
        """Returns a context that makes one step of an act and its reports, for acts that are not a function."""
        return self._lock

    # The operations of each kind.

    def increment(self, replica: Hashable, by: int = 1, *, act: Act = None, message: Any = None) -> Any:
        """Reports a counter's increment by one, or by an amount from 1 to 256, as that number of increments."""
        return self._count("increment", replica, by, act, message)

    def decrement(self, replica: Hashable, by: int = 1, *, act: Act = None, message: Any = None) -> Any:
        """Reports a counter's decrement by one, or by an amount from 1 to 256, as that number of decrements."""
        return self._count("decrement", replica, by, act, message)

    def _count(self, word: str, replica: Hashable, by: int, act: Act, message: Any) -> Any:
        if act is None and by == 1 and self._counts and not callable(message):
            with self._lock:
                index = self._enter(replica, word)
                if message is None or message not in self._messages:
                    return self._issue_fields(index, COUNTING[word], message)
        if act is None and by == 1:
            return self._quick(word, replica, None, None, None, None, message)
        self._check_amount(word, replica, by)

        def report(index: int, message: Hashable) -> None:
            self._update(index, [Operation(word)] * by, message)

        return self._step(word, replica, act, report, message)

    def write(
        self, replica: Hashable, value: Hashable, stamp: Union[Stamp, Callable[[Any], Stamp], None] = None, *,
        act: Act = None, message: Any = None,
    ) -> Any:
        """Reports a register's write of this value. That of an `mvregister` has no stamp."""
        if act is None:
            return self._quick("write", replica, value, None, stamp, None, message)
        return self._step("write", replica, act, self._issue_named("write", value), None, stamp, None, message)

    def add(
        self, replica: Hashable, element: Hashable, stamp: Any = None, *, identifier: Any = None, act: Act = None,
        message: Any = None,
    ) -> Any:
        """Reports a set's addition, with the stamp of an LWW set or the identifier of an OR-Set."""
        if act is None:
            return self._quick("add", replica, element, None, stamp, identifier, message)
        return self._step("add", replica, act, self._issue_named("add", element), None, stamp, identifier, message)

    def remove(
        self, replica: Hashable, element: Hashable, stamp: Any = None, *, identifiers: Any = None, act: Act = None,
        message: Any = None,
    ) -> Any:
        """Reports a removal, with the stamp of an LWW set or the identifiers of an OR-Set."""
        if act is None:
            return self._quick("remove", replica, element, None, stamp, identifiers, message)
        report = self._issue_named("remove", element)
        return self._step("remove", replica, act, report, None, stamp, identifiers, message)

    def clear(self, replica: Hashable, stamps: Any = None, *, act: Act = None, message: Any = None) -> Any:
        """Reports that a set removes all that the replica shows by the reports, as a removal of each element.

        Those of an LWW set need `stamps`: a mapping from elements to stamps, or the stamps in the order in which the
        elements were first used.
        """
        return self._step("clear", replica, act, self._clear, stamps, message)

    def insert_after(
        self, replica: Hashable, anchor: Hashable, element: Hashable, stamp: Union[Stamp, Callable[[Any], Stamp]], *,
        act: Act = None, message: Any = None,
    ) -> Any:
        """Reports a list's insertion directly behind the anchor, or at the start if that is None."""
        if act is None:
            return self._quick("insert_after", replica, element, anchor, stamp, None, message)
        report = self._issue_named("insert_after", element)
        return self._step("insert_after", replica, act, report, anchor, stamp, None, message)

    def insert(
        self, replica: Hashable, left: Optional[Hashable], element: Hashable, right: Optional[Hashable], *,
        act: Act = None, message: Any = None,
    ) -> Any:
        """Reports an insertion into a list of the kind `list`, between two elements that the replica had.

        They are mostly those that it showed on both sides. None says that there was none, or that it is unknown.
        """
        if act is None:
            return self._quick("insert", replica, element, (left, right), None, None, message)
        return self._step(
            "insert", replica, act, self._issue_named("insert", element), (left, right), None, None, message
        )

    # The end.

    def settle(self) -> None:
        """Waits for all replies. Raises the failure, if there is one."""
        self._monitor.settle()
        with self._lock:
            self._raise_failure()

    def close(self) -> Report:
        """Ends the history and returns the report. Raises the failure, if there is one.

        A `NotRepresentable` that was raised after an act is raised again, since no later step was checked.
        """
        unclosed.close(self._open_key)
        with self._lock:
            try:
                report: Report = self._monitor.close()
            finally:
                self._raise_failure()
        return report

    def __enter__(self) -> "Recorder":
        return self

    def __exit__(self, kind: object, *_: object) -> None:
        if kind is None:
            self.close()
        else:
            self.stop()

    def stop(self) -> None:
        """Ends the history without waiting for replies."""
        unclosed.close(self._open_key)
        self._monitor.stop()

    def history(self) -> str:
        """Returns the text so far, which `ra_monitor check` reads."""
        return str(self._monitor.history())

    def header(self) -> str:
        """Returns the first two lines of the text."""
        return self._translator.header()


def _without_end(post: Callable[[str, str], None]) -> Callable[[str, str], None]:
    """Returns a function that posts lines with their ends to a monitor that takes them without."""
    return lambda line, expected: post(line[:-1], expected)


def _identity(result: Any) -> Any:
    return result
