"""The operations of the eight kinds, in the user's own names."""
from typing import Any, Collection, Dict, Hashable, Iterable, NamedTuple, Optional, Tuple, Union

from .errors import NotRepresentable

Stamp = Union[int, Tuple[int, Hashable]]

# The operations of each kind.
OPERATIONS: Dict[str, Tuple[str, ...]] = {
    "counter": ("increment", "decrement"),
    "register": ("write",),
    "lwwset": ("add", "remove"),
    "orset": ("add", "remove"),
    "rga": ("insert_after", "remove"),
    "list": ("insert", "remove"),
    "any": ("update",),
    "mvregister": ("write",),
}
# The kinds whose elements have an order.
LISTS = ("rga", "list")
# The other names that the methods of a list with indexes may have.
OTHER_NAMES = {"insert": "insert_at", "delete": "remove_at"}


def operations_of(kind: str) -> Tuple[str, ...]:
    """Returns the names of the operations of this kind."""
    if kind not in OPERATIONS:
        raise NotRepresentable(f"unknown kind {kind!r}: expected {', '.join(OPERATIONS)}")
    return OPERATIONS[kind]


def methods_of(kind: str) -> Tuple[str, ...]:
    """Returns the methods of a replica of this kind that update it. Those of a list take an index."""
    return ("insert", "delete") if kind == "list" else operations_of(kind)


class Operation(NamedTuple):
    """An update, as `increment()`, `write(value, stamp)` and the other functions of this module create it."""

    word: str
    value: Any = None
    anchor: Any = None
    """The anchor of an RGA's insertion, or both neighbours of a list's."""
    stamp: Optional[Stamp] = None
    identifiers: Optional[Collection[Hashable]] = None


def update() -> Operation:
    """Creates an update of an object of the kind `any`, whose effect is not reported."""
    return Operation("update")


def increment() -> Operation:
    """Creates a counter's increment by one."""
    return Operation("increment")


def decrement() -> Operation:
    """Creates a counter's decrement by one."""
    return Operation("decrement")


def write(value: Hashable, stamp: Optional[Stamp] = None) -> Operation:
    """Creates a register's write of this value. The stamp is a clock, or a clock and its replica.

    The write of a register that keeps concurrent writes, which is the kind `mvregister`, has no stamp.
    """
    return Operation("write", value, None, stamp)


def add(
    element: Hashable, stamp: Optional[Stamp] = None, identifier: Optional[Hashable] = None
) -> Operation:
    """Creates a set's addition of this element, with the stamp of an LWW set or the identifier of an OR-Set.

    The recorder chooses an identifier for an OR-Set whose type does not expose one.
    """
    return Operation("add", element, None, stamp, None if identifier is None else (identifier,))


def remove(
    element: Hashable, stamp: Optional[Stamp] = None, identifiers: Optional[Iterable[Hashable]] = None
) -> Operation:
    """Creates a removal of this element from a set or a list. An LWW set's removal has a stamp.

    An OR-Set's removal has the identifiers that it removes. If its type does not expose them, the recorder uses those
    that its replica has observed according to the reports. Then the monitor does not check which ones it removed.
    """
    return Operation("remove", element, None, stamp, None if identifiers is None else tuple(identifiers))


def insert_after(anchor: Hashable, element: Hashable, stamp: Stamp) -> Operation:
    """Creates a list's insertion of this element directly behind the anchor, or at the start if that is None."""
    return Operation("insert_after", element, anchor, stamp)


def insert(left: Optional[Hashable], element: Hashable, right: Optional[Hashable]) -> Operation:
    """Creates a list's insertion of this element between two neighbours, which is for lists of any design.

    The neighbours are the elements that the replica showed on both sides, or None where there was none.
    """
    return Operation("insert", element, (left, right))
