"""The steps of a random run, as plain values that can be stored."""
from typing import Any, Dict, Iterable, List, Mapping, NamedTuple, Sequence, Tuple

from .operations import OTHER_NAMES

# The actions in which a replica receives the current state of another one, whose number the step has.
COPYING = ("merge", "join")
# The actions in which a replica receives a message, whose number the step has.
RECEIVING = ("deliver", "duplicate")
# The method of a replica that each action calls; that of an update is in its step.
METHOD_OF = {
    "deliver": "receive", "duplicate": "receive", "merge": "merge", "snapshot": "state", "merge_snapshot": "merge",
    "save": "save", "restart": "load", "join": "fork", "read": "read",
}

# The names of methods in files, which all clients read, where a class has other ones.
STORED_NAMES = {other: it for it, other in OTHER_NAMES.items()}


class Step(NamedTuple):
    """One step of a plan."""

    action: str
    """`update`, `deliver`, `duplicate`, `merge`, `snapshot`, `merge_snapshot`, `save`, `restart`, `join` or `read`."""
    replica: int
    number: int = 0
    """The number of the update that is issued or delivered, of the replica whose state is copied, or of the state that
    is taken early and merged late."""
    method: str = ""
    arguments: Tuple[Any, ...] = ()


def call_arguments(step: Step, indexes: Mapping[int, int]) -> Tuple[Any, ...]:
    """Returns the arguments of the call that an update makes. `indexes` has the index of each update of a list.

    The first argument of a step of a list names an element: the one that is removed, or the one behind which the new
    one is inserted. The call has an index instead.
    """
    return (indexes[step.number], *step.arguments[1:]) if step.number in indexes else step.arguments


def to_values(steps: Iterable[Step]) -> List[List[Any]]:
    """Returns the steps as lists, for JSON."""
    return [
        [it.action, it.replica, it.number, STORED_NAMES.get(it.method, it.method), list(it.arguments)] for it in steps
    ]


def from_values(values: Sequence[Any]) -> List[Step]:
    """Returns the steps of such lists. Raises `ValueError` if one is not a step."""
    steps = []
    for number, value in enumerate(values, 1):
        try:
            action, replica, update, method, arguments = value
        except (TypeError, ValueError):
            raise ValueError(f"step {number} is {value!r}: expected a list of five values") from None
        if action != "update" and action not in METHOD_OF:
            raise ValueError(f"step {number} has the action {action!r}: expected update, {', '.join(METHOD_OF)}")
        steps.append(Step(action, replica, update, method, tuple(arguments)))
    return steps


def renumbered(steps: Sequence[Step]) -> List[Step]:
    """Returns the steps with their updates, and their early states, numbered from 1 in their order."""
    updates: Dict[int, int] = {}
    states: Dict[int, int] = {}
    result = []
    for step in steps:
        if step.action == "update" or step.action in RECEIVING:
            step = step._replace(number=updates.setdefault(step.number, len(updates) + 1))
        elif step.action in ("snapshot", "merge_snapshot"):
            step = step._replace(number=states.setdefault(step.number, len(states) + 1))
        result.append(step)
    return result
