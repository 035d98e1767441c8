"""Ten seeded bugs, in the correct replicas of each kind to which they apply."""
from typing import Any, Callable, Dict, Tuple

from replicas import CORRECT, LwwSet, Message, OrSet, Rga


def loses_a_delivery(base: Callable[[str], Any]) -> Any:
    """Drops each third message that is delivered."""

    class Bug(base):  # type: ignore[misc, valid-type]
        def __init__(self, name: str) -> None:
            super().__init__(name)
            self.received = 0

        def receive(self, message: Message) -> None:
            self.received += 1
            if self.received % 3:
                super().receive(message)
            elif "stamp" in message:
                self.raise_clock(message["stamp"])

    return Bug


def applies_twice(base: Callable[[str], Any]) -> Any:
    """Applies each third message that is delivered twice."""

    class Bug(base):  # type: ignore[misc, valid-type]
        def __init__(self, name: str) -> None:
            super().__init__(name)
            self.received = 0

        def receive(self, message: Message) -> None:
            self.received += 1
            super().receive(message)
            if self.received % 3 == 0:
                super().receive(message)

    return Bug


def breaks_ties_by_arrival(base: Callable[[str], Any]) -> Any:
    """Lets the later delivery win at equal clocks."""

    class Bug(base):  # type: ignore[misc, valid-type]
        def is_later(self, stamp: Tuple[int, str], than: Tuple[int, str]) -> bool:
            return bool(stamp[0] > than[0] if isinstance(self, Rga) else stamp[0] >= than[0])

    return Bug


def reads_stale(base: Callable[[str], Any]) -> Any:
    """Returns the result before the last delivery, in the first read after it."""

    class Bug(base):  # type: ignore[misc, valid-type]
        stale: Any = None

        def receive(self, message: Message) -> None:
            self.stale = super().read()
            super().receive(message)

        def read(self) -> Any:
            stale, self.stale = self.stale, None
            return super().read() if stale is None else stale

    return Bug


def does_not_raise_its_clock(base: Callable[[str], Any]) -> Any:
    """Counts only its own updates in its clock."""

    class Bug(base):  # type: ignore[misc, valid-type]
        def raise_clock(self, stamp: Tuple[int, str]) -> None:
            pass

    return Bug


class LwwSetTakesUnseen(LwwSet):
    """Applies each removal, whatever its clock."""

    def apply(self, message: Message) -> None:
        super().apply(message)
        if not message["is_in"]:
            self.last[message["element"]] = (max(message["stamp"], self.last[message["element"]][0]), False)


class OrSetTakesUnseen(OrSet):
    """Removes all identifiers of the element, also those that the removal has not observed."""

    def apply(self, message: Message) -> None:
        super().apply(message)
        if "identifiers" in message:
            self.pairs = [it for it in self.pairs if it[0] != message["element"]]


class RgaTakesUnseen(Rga):
    """Hides the children of a removed element too."""

    def hide(self, message: Message) -> None:
        super().hide(message)
        for child in self.nodes[message["removed"]].children:
            child.is_shown = False


class LwwSetShowsAgain(LwwSet):
    """Applies each addition, whatever its clock."""

    def apply(self, message: Message) -> None:
        super().apply(message)
        if message["is_in"]:
            self.last[message["element"]] = (max(message["stamp"], self.last[message["element"]][0]), True)


class OrSetShowsAgain(OrSet):
    """Removes only the first identifier of a removal that is delivered."""

    def receive(self, message: Message) -> None:
        first = {**message, "identifiers": message["identifiers"][:1]} if "identifiers" in message else message
        super().receive(first)


class RgaShowsAgain(Rga):
    """Shows a removed element again when another one is inserted behind it."""

    def insert(self, message: Message) -> None:
        super().insert(message)
        if message["anchor"] is not None:
            self.nodes[message["anchor"]].is_shown = True


class LwwSetForgetsAbsent(LwwSet):
    """Ignores the removal of an absent element."""

    def apply(self, message: Message) -> None:
        if message["is_in"] or message["element"] in self.last:
            super().apply(message)


class OrSetForgetsAbsent(OrSet):
    """Ignores the removal of an absent element."""

    def apply(self, message: Message) -> None:
        if "identifier" in message or message["element"] in self.read():
            super().apply(message)


class RgaRises(Rga):
    """Puts the child with the earlier clock first."""

    def is_later(self, stamp: Tuple[int, str], than: Tuple[int, str]) -> bool:
        return stamp < than


class RgaLosesBehindTombstone(Rga):
    """Loses an element that is inserted behind a removed one."""

    def insert(self, message: Message) -> None:
        super().insert(message)
        anchor = self.nodes[message["anchor"]]
        if anchor is not self.root and not anchor.is_shown:
            self.nodes[message["element"]].is_shown = False


def all_of(add_bug: Callable[[Callable[[str], Any]], Any], *kinds: str) -> Dict[str, Any]:
    """Returns the bug in the correct replicas of these kinds."""
    return {kind: add_bug(CORRECT[kind]) for kind in kinds}


# The bugs that a history can show.
OBSERVABLE: Dict[str, Dict[str, Any]] = {
    "a delivery is lost": all_of(loses_a_delivery, *CORRECT),
    "a delivery is applied twice": all_of(applies_twice, "counter"),
    "ties are broken by arrival": all_of(breaks_ties_by_arrival, "register", "lwwset", "rga"),
    "a removal takes what it has not seen": {
        "lwwset": LwwSetTakesUnseen,
        "orset": OrSetTakesUnseen,
        "rga": RgaTakesUnseen,
    },
    "an element is back after its removal": {
        "lwwset": LwwSetShowsAgain,
        "orset": OrSetShowsAgain,
        "rga": RgaShowsAgain,
    },
    "a read is stale": all_of(reads_stale, *CORRECT),
    "a clock is not raised on delivery": all_of(does_not_raise_its_clock, "register", "lwwset", "rga"),
    "a removal of an absent element is forgotten": {"lwwset": LwwSetForgetsAbsent},
    "children stand in rising order": {"rga": RgaRises},
    "an insertion behind a tombstone is lost": {"rga": RgaLosesBehindTombstone},
}
# The bugs that change no result of a replica.
UNOBSERVABLE: Dict[str, Dict[str, Any]] = {
    "a delivery is applied twice": all_of(applies_twice, "register", "lwwset", "orset"),
    "a removal of an absent element is forgotten": {"orset": OrSetForgetsAbsent},
}
