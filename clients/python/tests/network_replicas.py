"""Correct replicas for networks that lose the order, repeat messages, and restart; and a seeded bug of each."""
import copy
from typing import Any, Callable, Dict, List, NamedTuple, Tuple

from replicas import CORRECT, Clocked, Counter, Message, Register

UPDATES = ("increment", "decrement", "write", "add", "remove", "insert_after")


class Case(NamedTuple):
    """A type with its kind, and what it promises."""

    make: Any
    kind: str
    options: Dict[str, Any] = {}


def buffered(base: Callable[[str], Any]) -> Any:
    """Returns a subclass with a causal buffer: a message waits for all that its sender had received or sent before."""

    class Buffered(base):  # type: ignore[misc, valid-type]
        def __init__(self, name: str) -> None:
            super().__init__(name)
            self.name = name
            self.seen: Dict[str, int] = {}
            self.buffer: List[Message] = []

        def send(self, message: Message) -> Message:
            needs = dict(self.seen)
            self.seen[self.name] = needs.get(self.name, 0) + 1
            return {**message, "from": self.name, "number": self.seen[self.name], "needs": needs}

        def receive(self, message: Message) -> None:
            if message["number"] > self.seen.get(message["from"], 0) and message not in self.buffer:
                self.keep(message)
            self.flush()

        def keep(self, message: Message) -> None:
            self.buffer.append(message)

        def flush(self) -> None:
            ready = [it for it in self.buffer if self.is_ready(it)]
            for message in ready:
                self.buffer.remove(message)
                if message["number"] > self.seen.get(message["from"], 0):
                    self.seen[message["from"]] = message["number"]
                    super().receive(message)
            if ready:
                self.flush()

        def is_ready(self, message: Message) -> bool:
            return all(self.seen.get(name, 0) >= number for name, number in message["needs"].items())

    def sending(method: str) -> Callable[..., Message]:
        def update(self: Any, *arguments: Any) -> Message:
            message: Message = self.send(getattr(base, method)(self, *arguments))
            return message

        return update

    for method in UPDATES:
        if hasattr(base, method):
            setattr(Buffered, method, sending(method))
    return Buffered


def saving(base: Callable[[str], Any]) -> Any:
    """Returns a subclass that saves all that it has."""

    class Saving(base):  # type: ignore[misc, valid-type]
        def save(self) -> Dict[str, Any]:
            return dict(self.__dict__)

        def load(self, saved: Dict[str, Any]) -> None:
            self.__dict__.update(saved)

    return Saving


class MergedCounter:
    """A counter with merged states: for each replica its increments and decrements."""

    def __init__(self, name: str) -> None:
        self.name = name
        self.steps: Dict[str, Tuple[int, int]] = {name: (0, 0)}

    def increment(self) -> None:
        self.steps[self.name] = self.steps[self.name][0] + 1, self.steps[self.name][1]

    def decrement(self) -> None:
        self.steps[self.name] = self.steps[self.name][0], self.steps[self.name][1] + 1

    def state(self) -> Tuple[str, Dict[str, Tuple[int, int]]]:
        return self.name, dict(self.steps)

    def merge(self, state: Tuple[str, Dict[str, Tuple[int, int]]]) -> None:
        for name, (up, down) in state[1].items():
            own = self.steps.get(name, (0, 0))
            self.steps[name] = max(own[0], up), max(own[1], down)

    def read(self) -> int:
        return sum(up - down for up, down in self.steps.values())


class MergedLwwSet(Clocked):
    """An LWW set with merged states."""

    def __init__(self, name: str) -> None:
        super().__init__(name)
        self.last: Dict[int, Tuple[Tuple[int, str], bool]] = {}

    def add(self, element: int) -> Message:
        return self.change(element, True)

    def remove(self, element: int) -> Message:
        return self.change(element, False)

    def change(self, element: int, is_in: bool) -> Message:
        stamp = self.tick()
        self.last[element] = stamp, is_in
        return {"stamp": stamp}

    def state(self) -> Dict[int, Tuple[Tuple[int, str], bool]]:
        return dict(self.last)

    def merge(self, state: Dict[int, Tuple[Tuple[int, str], bool]]) -> None:
        for element, entry in state.items():
            self.raise_clock(entry[0])
            self.last[element] = max(self.last.get(element, entry), entry)

    def read(self) -> List[int]:
        return [element for element, (_, is_in) in self.last.items() if is_in]


class AmountCounter(Counter):
    """A counter whose methods take an amount."""

    def increment(self, by: int = 1) -> Message:
        return self.step(by)

    def decrement(self, by: int = 1) -> Message:
        return self.step(-by)


def keeps_one_message() -> Any:
    """A causal buffer that keeps one message, the last one."""

    class Bug(buffered(Counter)):  # type: ignore[misc]
        def keep(self, message: Message) -> None:
            self.buffer = [message]

    return Bug


def counts_duplicates() -> Any:
    """A counter that is not idempotent."""
    return Counter


def undoes_newer_entries() -> Any:
    """A late state that undoes newer entries: the sender's own entry is taken as the newest one."""

    class Bug(MergedCounter):
        def merge(self, state: Tuple[str, Dict[str, Tuple[int, int]]]) -> None:
            super().merge(state)
            sender, steps = state
            self.steps[sender] = steps[sender]

    return Bug


def forgets_its_clock() -> Any:
    """A restart that begins with the clock 0."""

    class Bug(saving(Register)):  # type: ignore[misc]
        def load(self, saved: Dict[str, Any]) -> None:
            self.value, self.stamp = saved["value"], saved["stamp"]

    return Bug


def overflows_at_seven_bits(base: Callable[[str], Any] = Counter) -> Any:
    """A counter in a signed byte."""

    class Bug(base):  # type: ignore[misc, valid-type]
        def read(self) -> int:
            return int((super().read() + 128) % 256 - 128)

    return Bug


ANY = {"delivery": "any", "duplicates": True}
PLANTED = {
    "keeps_one_message": Case(keeps_one_message(), "counter", {"delivery": "any"}),
    "counts_duplicates": Case(counts_duplicates(), "counter", {"duplicates": True}),
    "undoes_newer_entries": Case(undoes_newer_entries(), "counter", {"late_states": True}),
    "forgets_its_clock": Case(forgets_its_clock(), "register", {"restarts": True}),
    "overflows_at_seven_bits": Case(overflows_at_seven_bits(), "counter"),
    "overflows_at_seven_bits with amounts": Case(overflows_at_seven_bits(AmountCounter), "counter"),
}
RIGHT = {
    **{f"{kind} in any order": Case(saving(buffered(make)), kind, ANY) for kind, make in CORRECT.items()},
    **{f"{kind} with restarts": Case(saving(make), kind) for kind, make in CORRECT.items()},
    "register with duplicates": Case(Register, "register", {"duplicates": True}),
    "merged counter": Case(saving(MergedCounter), "counter"),
    "merged lwwset": Case(saving(MergedLwwSet), "lwwset"),
    "counter with amounts": Case(AmountCounter, "counter"),
}


def deep_fork(base: Callable[[str], Any]) -> Any:
    """Returns a subclass whose replicas fork."""

    class Forking(base):  # type: ignore[misc, valid-type]
        def fork(self, name: str) -> Any:
            forked = copy.deepcopy(self)
            forked.name = name
            return forked

    return Forking


RIGHT["lwwset in any order with joins"] = Case(deep_fork(saving(buffered(CORRECT["lwwset"]))), "lwwset", ANY)
