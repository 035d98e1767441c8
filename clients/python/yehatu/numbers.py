"""The numbers and names that represent the user's values in the text format."""
import copy
from typing import Any, Dict, Hashable, Iterable, Iterator, List, Optional, Sequence, Set

from .errors import NotRepresentable

# The largest number of the text format.
MAX_NUMBER = 4_294_967_295
# The number of a first clock that is too large. It leaves room for clocks that are slightly earlier.
NUMBER_OF_LARGE_CLOCK = 1 << 28
MAX_REPLICAS = 64
# The largest number of commands of a history.
MAX_COMMANDS = 1_048_576
MAX_NAME_LENGTH = 16
RESERVED_NAMES = ("verdict", "join")
LETTERS, DIGITS = "abcdefghijklmnopqrstuvwxyz", "0123456789"


class Numbering:
    """Numbers for things, from 1 up, in the order of their first use. `role` says in messages what the things are."""

    def __init__(self, role: str) -> None:
        self._role = role
        self._number_of: Dict[Hashable, int] = {}
        self._things: List[Hashable] = []

    def number_of(self, thing: Hashable) -> int:
        """Returns the number of this thing, which is a new one at its first use."""
        try:
            number = self._number_of.get(thing)
        except TypeError:
            raise NotRepresentable(
                f"{thing!r} cannot be used as {self._role}: expected something that can be a key of a dictionary"
            ) from None
        if number is None:
            self._things.append(thing)
            number = self._number_of[thing] = len(self._things)
        return number

    def reserve(self) -> int:
        """Returns a new number that represents nothing else."""
        self._things.append(None)
        return len(self._things)

    def thing_of(self, number: int) -> Any:
        """Returns the thing with this number, or None if the number was reserved."""
        return self._things[number - 1]


class ValueNumbering(Numbering):
    """Numbers for values of any sort, also those that cannot be keys: values that are equal by `==` have one number.

    Lists, dictionaries and sets are compared by what they hold, and two floating-point NaN are one value.
    """

    def __init__(self, role: str) -> None:
        super().__init__(role)
        # Copies of the values that are no keys and no collections, which are compared one by one.
        self._others: List[Any] = []

    def number_of(self, thing: Any) -> int:
        """Returns the number of this value, which is a new one at its first use."""
        key = self._key_of(thing)
        number = self._number_of.get(key)
        if number is None:
            self._things.append(thing if key is thing else _snapshot(thing))
            number = self._number_of[key] = len(self._things)
        return number

    def _key_of(self, value: Any) -> Hashable:
        """Returns a key of a dictionary, such that equal values have equal keys, and others have others."""
        if isinstance(value, float) and value != value:
            return _NOT_A_NUMBER
        if isinstance(value, tuple):
            return tuple(map(self._key_of, value))
        if isinstance(value, list):
            return _LIST, tuple(map(self._key_of, value))
        if isinstance(value, dict):
            return _DICTIONARY, frozenset((it, self._key_of(value[it])) for it in value)
        if isinstance(value, set):
            return frozenset(value)
        try:
            hash(value)
        except TypeError:
            return _OTHER, self._place_of(value)
        equality: Any = type(value).__eq__
        if equality is object.__eq__:
            # Compared by identity, two equal values would differ, and one that changes would stay the same.
            _equal_copy(value)
        return value  # type: ignore[no-any-return]

    def _place_of(self, value: Any) -> int:
        """Returns the place of an equal value among the others, where a copy of it is kept."""
        for place, it in enumerate(self._others):
            if _are_equal(it, value):
                return place
        self._others.append(_equal_copy(value))
        return len(self._others) - 1


# The first parts of keys of values that are no keys themselves. Nothing that a user passes is equal to them.
_LIST, _DICTIONARY, _OTHER, _NOT_A_NUMBER = object(), object(), object(), object()


def _are_equal(one: Any, other: Any) -> bool:
    try:
        return bool(one == other)
    except Exception as error:  # Whatever the user's class raises.
        raise NotRepresentable(f"{one!r} and {other!r} cannot be compared by `==` ({error})") from error


def _equal_copy(value: Any) -> Any:
    """Returns a copy of a value, which is equal to it."""
    kept = _snapshot(value)
    if not _are_equal(kept, value):
        raise NotRepresentable(
            f"{value!r} is not equal to a copy of itself: expected a value that `==` compares by what it holds"
        )
    return kept


def _snapshot(value: Any) -> Any:
    """Returns a copy, since what a read returned may change later."""
    try:
        return copy.deepcopy(value)
    except Exception as error:  # Whatever the user's class raises.
        raise NotRepresentable(f"{value!r} cannot be copied ({error}): expected plain data") from error


class Clocks:
    """Numbers for clocks: the clocks themselves, or, if the first one is too large, their distance to it."""

    def __init__(self) -> None:
        self._offset: Optional[int] = None

    def number_of(self, clock: Any) -> int:
        """Returns the number of this clock."""
        if clock.__class__ is int and self._offset == 0 and 1 <= clock <= MAX_NUMBER:
            return clock  # type: ignore[no-any-return]
        if not isinstance(clock, int) or isinstance(clock, bool):
            raise NotRepresentable(
                f"the clock {clock!r} is not a whole number: convert clocks to whole numbers in the same order"
            )
        if self._offset is None:
            self._offset = clock - NUMBER_OF_LARGE_CLOCK if clock > MAX_NUMBER else 0
        number = clock - self._offset
        if not 1 <= number <= MAX_NUMBER:
            problem = "too early" if number < 1 else "too late"
            first, last = self._offset + 1, self._offset + MAX_NUMBER
            raise NotRepresentable(
                f"the clock {clock} is {problem}: this history can represent the clocks from {first} to {last}"
            )
        return number

    def clock_of(self, number: int) -> int:
        """Returns the clock with this number."""
        return number + (self._offset or 0)


class RankedClocks:
    """Numbers for clocks that are all known: their ranks, so that clocks of any size keep their order."""

    def __init__(self, clocks: Iterable[int]) -> None:
        self._clocks = sorted(set(clocks))
        self._ranks = {clock: rank for rank, clock in enumerate(self._clocks, 1)}

    def number_of(self, clock: Any) -> int:
        """Returns the number of this clock, which is one of those that are known."""
        return self._ranks[clock]

    def clock_of(self, number: int) -> int:
        """Returns the clock with this number."""
        return self._clocks[number - 1]


class Replicas:
    """The replicas in the order in which the type breaks ties, lowest first, with their names in the text format.

    `keys` are what the user calls them. The initial replicas come first, and those that joined follow.
    """

    def __init__(self, replicas: Sequence[Hashable]) -> None:
        try:
            self.keys = list(replicas)
        except TypeError:
            raise NotRepresentable(f"the replicas are {replicas!r}: expected a list of their names") from None
        if not 1 <= len(self.keys) <= MAX_REPLICAS or len(set(self.keys)) != len(self.keys):
            raise NotRepresentable(
                f"expected 1 to {MAX_REPLICAS} replicas with distinct names, got {self.keys!r}"
            )
        valid = {it for it in self.keys if _is_name(it)}
        free = _free_names(valid)
        self.names = [str(it) if it in valid else next(free) for it in self.keys]
        self.initial_names = tuple(self.names)
        self.numbers = {it: index for index, it in enumerate(self.keys)}

    def check_join(self, replica: Hashable) -> None:
        """Raises `NotRepresentable` if this replica cannot join."""
        if replica in self.numbers:
            raise NotRepresentable(f"{replica!r} cannot join: a replica of this name exists, so choose another name")
        if len(self.keys) == MAX_REPLICAS:
            raise NotRepresentable(
                f"{replica!r} cannot join: the history has {MAX_REPLICAS} replicas, which is the maximum; "
                "use a new Recorder"
            )

    def join(self, replica: Hashable) -> None:
        """Adds this replica as the last one."""
        self.check_join(replica)
        is_free = _is_name(replica) and replica not in self.names
        self.names.append(str(replica) if is_free else next(_free_names(set(self.names))))
        self.numbers[replica] = len(self.keys)
        self.keys.append(replica)

    def index_of(self, replica: Hashable) -> int:
        """Returns the number of this replica, counted from 0."""
        try:
            index = self.numbers.get(replica)
        except TypeError:
            index = None
        if index is None:
            raise NotRepresentable(f"unknown replica {replica!r}: expected one of {self.keys!r}")
        return index

    def key_of(self, name: str) -> Hashable:
        """Returns what the user calls the replica of this name."""
        return self.keys[self.names.index(name)]


def _free_names(taken: Set[Hashable]) -> Iterator[str]:
    return (it for it in (f"r{number}" for number in range(2 * MAX_REPLICAS)) if it not in taken)


def _is_name(key: Hashable) -> bool:
    if not isinstance(key, str) or not 1 <= len(key) <= MAX_NAME_LENGTH or key in RESERVED_NAMES:
        return False
    return key[0] in LETTERS and all(it in LETTERS + DIGITS for it in key)
