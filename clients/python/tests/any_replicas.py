"""Small correct replicas of the kinds `any` and `mvregister`, and replicas with planted bugs."""
from typing import Any, Dict, List, Tuple

Message = Dict[str, Any]
Dot = Tuple[str, int]
KEYS = 3


class Document:
    """A map from keys to values. Of two updates of one key, the one with the later clock wins.

    The number of an update says what it does: its key, its value, and whether it removes the key.
    """

    def __init__(self, name: str) -> None:
        self.name, self.clock = name, 0
        self.entries: Dict[int, Message] = {}

    def update(self, number: int) -> Message:
        self.clock += 1
        message = {"key": number % KEYS, "value": number, "gone": number % 4 == 0, "stamp": (self.clock, self.name)}
        self.apply(message)
        return message

    def receive(self, message: Message) -> None:
        self.clock = max(self.clock, message["stamp"][0])
        self.apply(message)

    def apply(self, message: Message) -> None:
        last = self.entries.get(message["key"])
        if last is None or self.is_later(message, last):
            self.entries[message["key"]] = message

    def is_later(self, message: Message, last: Message) -> bool:
        return bool(message["stamp"] > last["stamp"])

    def read(self) -> Any:
        return {key: [it["value"], {"by": it["stamp"][1]}] for key, it in self.entries.items() if not it["gone"]}


class MergedDocument(Document):
    """A map whose whole state is merged."""

    receive = None  # type: ignore[assignment]

    def state(self) -> List[Message]:
        return list(self.entries.values())

    def merge(self, state: List[Message]) -> None:
        for message in state:
            super().receive(message)


class AppliesByArrival(Document):
    """Lets the update win that arrives later."""

    def is_later(self, message: Message, last: Message) -> bool:
        return True


class IgnoresWhenBusy(Document):
    """Ignores what arrives directly after an update of its own."""

    is_busy = False

    def update(self, number: int) -> Message:
        self.is_busy = True
        return super().update(number)

    def receive(self, message: Message) -> None:
        if not self.is_busy:
            super().receive(message)
        self.is_busy = False


class ReadsFromACache(Document):
    """Returns what it returned before, unless it made an update since then."""

    cached: Any = None

    def update(self, number: int) -> Message:
        self.cached = None
        return super().update(number)

    def read(self) -> Any:
        if self.cached is None:
            self.cached = super().read()
        return self.cached


class Siblings:
    """A register that keeps concurrent writes: a write replaces those that its replica had."""

    def __init__(self, name: str) -> None:
        self.name, self.writes = name, 0
        self.values: Dict[Dot, Any] = {}

    def write(self, value: Any) -> Message:
        self.writes += 1
        message = {"value": value, "dot": (self.name, self.writes), "replaced": [*self.values]}
        self.receive(message)
        return message

    def receive(self, message: Message) -> None:
        for dot in message["replaced"]:
            self.values.pop(dot, None)
        self.values[message["dot"]] = message["value"]

    def read(self) -> List[Any]:
        return [*self.values.values()]


class KeepsReplaced(Siblings):
    """Keeps the last value that a received write replaced."""

    def receive(self, message: Message) -> None:
        is_own = message["dot"][0] == self.name
        super().receive(message if is_own else {**message, "replaced": message["replaced"][:-1]})


class DropsConcurrent(Siblings):
    """Keeps the received value alone."""

    def receive(self, message: Message) -> None:
        self.values = {}
        super().receive(message)


class MergedSiblings:
    """A register that keeps concurrent writes, whose state is merged: the values, and the writes that it has seen."""

    def __init__(self, name: str) -> None:
        self.name = name
        self.values: Dict[Dot, Any] = {}
        self.seen: Dict[str, int] = {}

    def write(self, value: Any) -> None:
        self.seen[self.name] = self.seen.get(self.name, 0) + 1
        self.values = {(self.name, self.seen[self.name]): value}

    def state(self) -> Message:
        return {"values": dict(self.values), "seen": dict(self.seen)}

    def merge(self, state: Message) -> None:
        mine = {dot: it for dot, it in self.values.items() if dot in state["values"] or not has(state["seen"], dot)}
        new = {dot: it for dot, it in state["values"].items() if not has(self.seen, dot)}
        self.values = self.chosen({**mine, **new})
        for name, count in state["seen"].items():
            self.seen[name] = max(self.seen.get(name, 0), count)

    def chosen(self, values: Dict[Dot, Any]) -> Dict[Dot, Any]:
        return values

    def read(self) -> List[Any]:
        return [*self.values.values()]


class MergesTheGreatest(MergedSiblings):
    """Keeps the greatest value alone when states are merged."""

    def chosen(self, values: Dict[Dot, Any]) -> Dict[Dot, Any]:
        greatest = max(values, key=lambda it: values[it], default=None)
        return {} if greatest is None else {greatest: values[greatest]}


def has(seen: Dict[str, int], dot: Dot) -> bool:
    """Returns whether the write of this dot was seen."""
    return dot[1] <= seen.get(dot[0], 0)


DOCUMENT_BUGS: Dict[str, Any] = {
    "updates are applied in the order of arrival": AppliesByArrival,
    "a delivery is ignored when the replica is busy": IgnoresWhenBusy,
    "a read is cached": ReadsFromACache,
}
SIBLING_BUGS: Dict[str, Any] = {
    "a replaced value is kept": KeepsReplaced,
    "a concurrent value is dropped": DropsConcurrent,
    "a merge takes the greatest value": MergesTheGreatest,
}
