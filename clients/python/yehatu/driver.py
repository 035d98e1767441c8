"""The replicas of one run: executes steps on the user's class, and reports them."""
import copy
import inspect
from collections.abc import Mapping
from typing import Any, Callable, Dict, Hashable, List, NamedTuple, Optional, Sequence, Set, Tuple

from . import operations
from .delivery_state import INSERTING, REMOVING, DeliveryState
from .errors import NotRepresentable
from .operations import Operation
from .profile import Profile, own_method
from .recorder import Recorder, Seen
from .returned import Returned, UnusableResult
from .steps import COPYING, Step, call_arguments
from .translation import expected_result


class Setting(NamedTuple):
    """What all runs of a test have in common."""

    make_replica: Callable[[Hashable], Any]
    kind: str
    replicas: Sequence[Hashable]
    program: str
    profile: Profile = Profile()


class Transcript:
    """A substitute for the monitor that collects a recorder's lines, so that one run of the program checks them."""

    unexpected = None

    def __init__(self) -> None:
        self.lines: List[str] = []

    def post(self, line: str, expected: str) -> None:
        """Appends a command."""
        self.lines.append(line + "\n")

    def close(self) -> None:
        """Does nothing, since no program runs."""

    stop = close


class _Early(NamedTuple):
    """A state that was taken early: a copy, which is merged, and the object, with its replica and what was in it."""

    copy: Any
    returned: Returned
    replica: int
    seen: Seen
    counts: Tuple[int, ...]


class _Saved(NamedTuple):
    """What a replica saved, and what it received since then: methods, each with a message or with a copy of a state."""

    value: Any
    moment: str
    received: List[Tuple[str, Any]]


class Driver:
    """The replicas of one run, with the steps that were executed and the lines that report them."""

    def __init__(self, setting: Setting, steps: Sequence[Step]) -> None:
        self._make_replica, self._kind, self._profile = setting.make_replica, setting.kind, setting.profile
        initial = initial_replicas(steps)
        self._names = dict(enumerate(setting.replicas))
        self._replicas = {it: setting.make_replica(self._names[it]) for it in initial}
        self._state = DeliveryState(setting.kind, len(setting.replicas))
        self.messages: Dict[int, Returned] = {}
        """What each update returned, by its number."""
        self.indexes: Dict[int, int] = {}
        """The index of each update of a list, by the update's number."""
        self._early: Dict[int, _Early] = {}
        self._saved: Dict[int, _Saved] = {}
        self._transcript = Transcript()
        # The step that is being executed, or the read that is reported in its place.
        self._current = Step("read", 0)
        # For each executed step, the number of lines after it.
        self._line_counts: List[int] = []
        names = [self._names[it] for it in initial]
        self.recorder = Recorder(setting.kind, names, monitor=self._transcript, must_close=False)
        self.executed: List[Step] = []
        self._handlers = {it: getattr(self, f"_{it}") for it in (
            "update", "deliver", "duplicate", "merge", "snapshot", "merge_snapshot", "save", "restart", "join", "read",
        )}
        if self._profile.restarts:
            for replica in initial:
                self._save_state(replica)

    def execute(self, steps: Sequence[Step]) -> Optional[Exception]:
        """Executes the steps up to the first exception of the user's class or unusable result, and returns that.

        Steps that depend on a removed step are skipped.
        """
        for step in steps:
            if (step.replica in self._replicas) == (step.action == "join"):
                continue
            if step.action == "update":
                step = step._replace(method=own_method(self._replicas[step.replica], step.method))
            self._current = step
            try:
                is_executed = self._handlers[step.action](step)
            except NotRepresentable:
                raise
            except Exception as error:  # Whatever the user's class raises is a failure of it.
                self.executed.append(self._current)
                return error
            if is_executed:
                self.executed.append(self._current)
                self._line_counts.append(len(self._transcript.lines))
        return None

    def text(self, commands: Optional[int] = None) -> str:
        """Returns the history, or the header with this number of commands."""
        return self.recorder.header() + "".join(self._transcript.lines[:commands])

    def steps_to(self, command: int) -> List[Step]:
        """Returns the steps up to the one that reported the command with this number."""
        return self.executed[: next(steps for steps, lines in enumerate(self._line_counts, 1) if lines > command)]

    # One handler for each action. It returns whether the step could be executed.

    def _update(self, step: Step) -> bool:
        if not self._state.can_update(step):
            return False
        neighbours: Tuple[Any, Any] = (None, None)
        if self._kind == "list":
            shown = self._shown_list(step)
            if shown is None:
                return True
            self.indexes[step.number], neighbours = _place_of(step, shown)
        message = getattr(self._replicas[step.replica], step.method)(*call_arguments(step, self.indexes))
        self._require_no_coroutine(step, message)
        self.messages[step.number] = Returned("message", step.number, message)
        name = self._names[step.replica]
        if step.arguments and self._kind == "counter":
            getattr(self.recorder, step.method)(name, step.arguments[0], message=step.number)
        else:
            operation = operation_of(self._kind, step, message, neighbours)
            self.recorder.update(name, operation, message=step.number)
        self._state.update(step)
        if self._profile.restarts:
            self._save_state(step.replica)
        return True

    def _shown_list(self, step: Step) -> Optional[List[Any]]:
        """Returns the list that the replica shows before an update.

        A list with other elements than those that were delivered is reported as a read, in the place of the update.
        The result is `None` then.
        """
        value, expected = self._replicas[step.replica].read(), self._state.visible[step.replica]
        try:
            shown = [*value]
        except TypeError:
            shown = []
        if len(shown) == len(expected) and all(it in shown for it in expected):
            return shown
        self._current = Step("read", step.replica)
        self._report_read(self._current, value)
        return None

    def _deliver(self, step: Step) -> bool:
        replica, number = step.replica, step.number
        if self._profile.delivery == "any":
            return self._deliver_in_any_order(step)
        if not self._state.can_deliver(replica, number):
            return False
        self._hand(step, "receive", self.messages[number])
        self.recorder.deliver(self._names[replica], number)
        self._state.deliver(replica, number)
        return True

    def _deliver_in_any_order(self, step: Step) -> bool:
        replica, number = step.replica, step.number
        if not self._state.can_arrive(replica, number):
            return False
        cause = self._state.missing_cause(replica, number)
        if cause:
            self._note(step, f"receives message {number} before message {cause}, on which it depends")
        self._hand(step, "receive", self.messages[number])
        for it in self._state.arrive(replica, number):
            self.recorder.deliver(self._names[replica], it)
        return True

    def _duplicate(self, step: Step) -> bool:
        if not self._state.can_repeat(step.replica, step.number):
            return False
        self._note(step, f"receives message {step.number} again")
        self._call(step, "receive", self.messages[step.number])
        return True

    def _merge(self, step: Step) -> bool:
        if step.replica == step.number or step.number not in self._replicas:
            return False
        state = self._replicas[step.number].state()
        self._hand(step, "merge", state)
        self.recorder.merge(self._names[step.replica], self.recorder.seen(self._names[step.number]))
        self._state.merge(step.replica, self._state.counts(step.number))
        return True

    def _snapshot(self, step: Step) -> bool:
        if step.number in self._early:
            return False
        name = self._names[step.replica]
        state = self._replicas[step.replica].state()
        copied = _copied(state, f"the state of {name!r}", "late_states=False")
        seen = self.recorder.seen(name)._replace(moment=f" of step {len(self.executed) + 1}")
        returned, counts = Returned("state", step.number, state), self._state.counts(step.replica)
        self._early[step.number] = _Early(copied, returned, step.replica, seen, counts)
        return True

    def _merge_snapshot(self, step: Step) -> bool:
        early = self._early.get(step.number)
        if early is None or early.replica == step.replica:
            return False
        early.returned.require_unchanged()
        self._hand(step, "merge", copy.deepcopy(early.copy))
        self.recorder.merge(self._names[step.replica], early.seen)
        self._state.merge(step.replica, early.counts)
        return True

    def _save(self, step: Step) -> bool:
        self._save_state(step.replica)
        return True

    def _restart(self, step: Step) -> bool:
        saved, name = self._saved[step.replica], self._names[step.replica]
        self._note(step, f"restarts from its state {saved.moment}")
        fresh = self._make_replica(name)
        loaded = fresh.load(copy.deepcopy(saved.value))
        self._replicas[step.replica] = fresh if loaded is None else loaded
        for method, argument in saved.received:
            self._call(step, method, argument if isinstance(argument, Returned) else copy.deepcopy(argument))
        return True

    def _join(self, step: Step) -> bool:
        if step.number not in self._replicas:
            return False
        name = self._names[step.replica]
        forked = self._replicas[step.number].fork(name)
        if forked is None:
            raise TypeError(f"fork({name!r}) returned None: expected the new replica")
        self._replicas[step.replica] = forked
        self.recorder.join(name, self._names[step.number])
        self._state.join(step.replica, step.number)
        if self._profile.restarts:
            self._save_state(step.replica)
        return True

    def _read(self, step: Step) -> bool:
        self._report_read(step, self._replicas[step.replica].read())
        return True

    def _report_read(self, step: Step, value: Any) -> None:
        self._require_no_coroutine(step, value)
        try:
            self.recorder.read(self._names[step.replica], value)
        except NotRepresentable as error:
            # Where this is raised is of no interest to the user.
            raise UnusableResult(value, expected_result(self._kind)) from error.with_traceback(None)

    # Calls of the user's class.

    def _hand(self, step: Step, method: str, argument: Any) -> None:
        """Hands a message or a state to the replica, which receives it again after a restart."""
        if self._profile.restarts:
            is_message = isinstance(argument, Returned)
            kept = argument if is_message else _copied(argument, "a state", "restarts=False")
            self._saved[step.replica].received.append((method, kept))
        self._call(step, method, argument)

    def _call(self, step: Step, method: str, argument: Any) -> None:
        handed = argument.require_unchanged() if isinstance(argument, Returned) else argument
        self._require_no_coroutine(step, getattr(self._replicas[step.replica], method)(handed))

    def _save_state(self, replica: int) -> None:
        name, step = self._names[replica], len(self.executed) + 1
        value = _copied(self._replicas[replica].save(), f"what {name!r} saved", "restarts=False")
        self._saved[replica] = _Saved(value, f"of step {step}" if step > 1 else "at the beginning", [])

    def _note(self, step: Step, text: str) -> None:
        self.recorder.note(f"{self._names[step.replica]!r} {text}")

    def _require_no_coroutine(self, step: Step, result: Any) -> None:
        if inspect.iscoroutine(result):
            result.close()
            raise NotRepresentable(
                f"{step.method or step.action} of {self._names[step.replica]!r} returned a coroutine, which no one "
                "awaits: give check_random a class whose methods are no `async def`"
            )


def _copied(value: Any, what: str, option: str) -> Any:
    """Returns a copy, as a file or a network would make it."""
    try:
        return copy.deepcopy(value)
    except Exception as error:
        raise NotRepresentable(
            f"{what} cannot be copied ({error}): expected plain data, as a file or a message holds it; or pass {option}"
        ) from error


def _place_of(step: Step, shown: List[Any]) -> Tuple[int, Tuple[Any, Any]]:
    """Returns the index of a list's update, and the elements that the list shows on both sides of an insertion."""
    named = step.arguments[0]
    if step.method in REMOVING:
        return shown.index(named), (None, None)
    index = 0 if named is None else shown.index(named) + 1
    return index, (named, shown[index] if index < len(shown) else None)


def operation_of(kind: str, step: Step, message: Any, neighbours: Tuple[Any, Any]) -> Operation:
    """Returns the operation of an update, with the stamp or the identifiers of its message."""
    if kind == "counter":
        return Operation(step.method)
    if kind == "list" and step.method in INSERTING:
        left, right = neighbours
        return operations.insert(left, step.arguments[1], right)
    if kind == "any":
        return operations.update()
    if kind == "mvregister":
        return operations.write(step.arguments[0])
    if kind == "register":
        return operations.write(step.arguments[0], _stamp_of(step, message))
    if step.method == "insert_after":
        anchor, element = step.arguments
        return operations.insert_after(anchor, element, _stamp_of(step, message))
    element = step.arguments[0]
    if kind == "orset" and step.method == "add":
        return operations.add(element, identifier=_field_of(message, "identifier"))
    if kind == "orset":
        return operations.remove(element, identifiers=_field_of(message, "identifiers"))
    if kind in operations.LISTS:
        return operations.remove(element)
    if step.method == "add":
        return operations.add(element, _stamp_of(step, message))
    return operations.remove(element, _stamp_of(step, message))


def _stamp_of(step: Step, message: Any) -> Any:
    """Returns the stamp of an update's message, which has to have one."""
    stamp = _field_of(message, "stamp")
    if stamp is None:
        call = f"{step.method}({', '.join(map(repr, step.arguments))})"
        raise NotRepresentable(
            f"{call} returned a message without a stamp, {message!r}: expected a key or an attribute `stamp` that has "
            "the clock, or the clock and the replica's name"
        )
    return stamp


def _field_of(message: Any, name: str) -> Any:
    return message.get(name) if isinstance(message, Mapping) else getattr(message, name, None)


def initial_replicas(steps: Sequence[Step]) -> List[int]:
    """Returns the initial replicas in their order: those that do not join.

    A replica joins only if its number is above all that are present, since it is the last one in the order of ties.
    """
    used: Set[int] = set()
    joining: List[int] = []
    for step in steps:
        others = {step.number} if step.action in COPYING else set()
        if step.action == "join" and step.replica not in used | others:
            joining.append(step.replica)
        used |= {step.replica} | others
    initial = used - set(joining)
    while True:
        last, rising = max(initial, default=-1), []
        for replica in joining:
            if replica > last:
                rising.append(replica)
                last = replica
        if len(rising) == len(joining):
            return sorted(initial)
        initial, joining = used - set(rising), rising
