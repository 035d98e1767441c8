"""A small correct replica of each kind.

An update returns the message that the other replicas receive: a dictionary with the fields that the client reads.
"""
import copy
from typing import Any, Callable, Dict, List, Tuple

Message = Dict[str, Any]


class Counter:
    """A counter: a number with increments and decrements."""

    def __init__(self, name: str) -> None:
        self.number = 0

    def increment(self) -> Message:
        return self.step(1)

    def decrement(self) -> Message:
        return self.step(-1)

    def step(self, by: int) -> Message:
        self.number += by
        return {"by": by}

    def receive(self, message: Message) -> None:
        self.number += message["by"]

    def read(self) -> int:
        return self.number


class Clocked:
    """The common part of the kinds with clocks."""

    def __init__(self, name: str) -> None:
        self.name, self.clock = name, 0

    def tick(self) -> Tuple[int, str]:
        self.clock += 1
        return self.clock, self.name

    def raise_clock(self, stamp: Tuple[int, str]) -> None:
        self.clock = max(self.clock, stamp[0])

    def is_later(self, stamp: Tuple[int, str], than: Tuple[int, str]) -> bool:
        return stamp > than


class Register(Clocked):
    """A register: the write with the later stamp wins."""

    def __init__(self, name: str) -> None:
        super().__init__(name)
        self.value: Any = None
        self.stamp = (0, "")

    def write(self, value: Any) -> Message:
        message = {"value": value, "stamp": self.tick()}
        self.apply(message)
        return message

    def receive(self, message: Message) -> None:
        self.raise_clock(message["stamp"])
        self.apply(message)

    def apply(self, message: Message) -> None:
        if self.is_later(message["stamp"], self.stamp):
            self.value, self.stamp = message["value"], message["stamp"]

    def read(self) -> Any:
        return self.value


class LwwSet(Clocked):
    """An LWW set: for each element the update with the later stamp wins."""

    def __init__(self, name: str) -> None:
        super().__init__(name)
        self.last: Dict[int, Tuple[Tuple[int, str], bool]] = {}

    def add(self, element: int) -> Message:
        return self.change(element, True)

    def remove(self, element: int) -> Message:
        return self.change(element, False)

    def change(self, element: int, is_in: bool) -> Message:
        message = {"element": element, "is_in": is_in, "stamp": self.tick()}
        self.apply(message)
        return message

    def receive(self, message: Message) -> None:
        self.raise_clock(message["stamp"])
        self.apply(message)

    def apply(self, message: Message) -> None:
        last = self.last.get(message["element"])
        if last is None or self.is_later(message["stamp"], last[0]):
            self.last[message["element"]] = (message["stamp"], message["is_in"])

    def read(self) -> List[int]:
        return [element for element, (_, is_in) in self.last.items() if is_in]


class OrSet:
    """An OR-Set: a removal removes the additions that its replica has observed."""

    def __init__(self, name: str) -> None:
        self.name, self.added = name, 0
        self.pairs: List[Tuple[int, Any]] = []

    def add(self, element: int) -> Message:
        self.added += 1
        message = {"element": element, "identifier": (self.name, self.added)}
        self.apply(message)
        return message

    def remove(self, element: int) -> Message:
        message = {"element": element, "identifiers": [tag for it, tag in self.pairs if it == element]}
        self.apply(message)
        return message

    def receive(self, message: Message) -> None:
        self.apply(message)

    def apply(self, message: Message) -> None:
        if "identifier" in message:
            self.pairs.append((message["element"], message["identifier"]))
        else:
            self.pairs = [it for it in self.pairs if it[1] not in message["identifiers"]]

    def read(self) -> List[int]:
        return [element for element, _ in self.pairs]


class Node:
    """An element of a list, with those that were inserted behind it."""

    def __init__(self, element: Any, stamp: Tuple[int, str], is_shown: bool = True) -> None:
        self.element, self.stamp, self.is_shown = element, stamp, is_shown
        self.children: List["Node"] = []


class Rga(Clocked):
    """A list: of two elements behind the same anchor, the one with the later stamp comes first."""

    def __init__(self, name: str) -> None:
        super().__init__(name)
        self.root = Node(None, (0, ""), False)
        self.nodes: Dict[Any, Node] = {None: self.root}

    def insert_after(self, anchor: Any, element: Any) -> Message:
        message = {"anchor": anchor, "element": element, "stamp": self.tick()}
        self.insert(message)
        return message

    def remove(self, element: Any) -> Message:
        message = {"removed": element}
        self.hide(message)
        return message

    def receive(self, message: Message) -> None:
        if "removed" in message:
            self.hide(message)
        else:
            self.raise_clock(message["stamp"])
            self.insert(message)

    def insert(self, message: Message) -> None:
        node = Node(message["element"], message["stamp"])
        siblings = self.nodes[message["anchor"]].children
        place = 0
        while place < len(siblings) and self.is_later(siblings[place].stamp, node.stamp):
            place += 1
        siblings.insert(place, node)
        self.nodes[node.element] = node

    def hide(self, message: Message) -> None:
        self.nodes[message["removed"]].is_shown = False

    def read(self) -> List[Any]:
        shown: List[Any] = []
        self.walk(self.root, shown)
        return shown

    def walk(self, node: Node, shown: List[Any]) -> None:
        if node.is_shown:
            shown.append(node.element)
        for child in node.children:
            self.walk(child, shown)


def forking(base: Callable[[str], Any]) -> Any:
    """Returns a subclass whose replicas fork: each fork is a copy under a new name."""

    class Forking(base):  # type: ignore[misc, valid-type]
        def fork(self, name: str) -> Any:
            forked = copy.deepcopy(self)
            forked.name = name
            return forked

    return Forking


CORRECT: Dict[str, Callable[[str], Any]] = {
    "counter": Counter,
    "register": Register,
    "lwwset": LwwSet,
    "orset": OrSet,
    "rga": Rga,
}
