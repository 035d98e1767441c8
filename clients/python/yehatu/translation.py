"""Translates between operations in the user's names and lines of the text format."""
from typing import Any, Callable, Collection, Dict, Hashable, Iterable, List, Optional, Sequence

from .errors import NotRepresentable
from .numbers import Clocks, Numbering, RankedClocks, Replicas, ValueNumbering
from .operations import LISTS, Stamp, operations_of

# Formats the value, the anchor or the neighbours, the stamp and the identifiers of an operation of the replica with
# this number.
Formatter = Callable[[int, Any, Any, Any, Any], str]

# The fields of a counter's operations.
COUNTING = {"increment": "inc", "decrement": "dec"}
MIN_COUNT, MAX_COUNT = -(1 << 31), (1 << 31) - 1


class Translator:
    """The lines of one history, with the user's values that their numbers represent.

    `nothing` is the result of a register's read before the first write. `clocks` gives the clocks other numbers.
    """

    def __init__(
        self, kind: str, replicas: Sequence[Hashable], nothing: Any = None, clocks: Optional[RankedClocks] = None
    ) -> None:
        operations = operations_of(kind)
        self.kind = kind
        self.replicas = Replicas(replicas)
        self.identifiers = Numbering("an identifier")
        self._values = _numbering_of(kind)
        self._clocks = clocks or Clocks()
        self._nothing = nothing
        self.number_of = self._values.number_of
        formatters: Dict[str, Formatter] = {
            **{word: _constant(fields) for word, fields in COUNTING.items()},
            "write": self._format_write,
            "add": self._format_addition,
            "remove": self._format_removal,
            "insert_after": self._format_insertion,
            "insert": self._format_insertion_between,
            "update": _constant("update"),
        }
        self.formatters = {it: formatters[it] for it in operations}

    def header(self) -> str:
        """Returns the first two lines."""
        return f"RAH 2 {self.kind}\nreplicas {' '.join(self.replicas.initial_names)}\n"

    def formatter(self, word: str) -> Formatter:
        """Returns the function that formats the fields of an operation: its value, anchor, stamp and identifiers."""
        found = self.formatters.get(word)
        if found is None:
            raise NotRepresentable(
                f"{word} is not an operation of the kind {self.kind}: expected {' or '.join(self.formatters)}"
            )
        return found

    def join(self, replica: Hashable, source: int) -> str:
        """Adds a replica that joins from the source, and returns the line of the join."""
        self.replicas.join(replica)
        return f"join {self.replicas.names[-1]} {self.replicas.names[source]}"

    # The fields of a line after the replica's name.

    def _format_write(self, replica: int, value: Any, anchor: Any, stamp: Any, identifiers: Any) -> str:
        if self.kind == "mvregister":
            if stamp is not None:
                raise NotRepresentable(f"the writes of the kind mvregister have no stamps: got {stamp!r}")
            return f"write {self.number_of(value)}"
        if value is self._nothing or (value.__class__ is self._nothing.__class__ and value == self._nothing):
            raise NotRepresentable(
                f"{value!r} cannot be written, since it represents an unwritten register: "
                "pass another `nothing` to the Recorder"
            )
        return f"write {self.number_of(value)} @{self._clock_number(replica, stamp)}"

    def _format_addition(self, replica: int, value: Any, anchor: Any, stamp: Any, identifiers: Any) -> str:
        if self.kind == "lwwset":
            return f"add {self.number_of(value)} @{self._clock_number(replica, stamp)}"
        if identifiers and len(identifiers) == 1:
            return f"add {self.number_of(value)} #{identifiers[0]}"
        return f"add {self.number_of(value)} #{_join_numbers(_sort_unique(identifiers or ()))}"

    def _format_removal(self, replica: int, value: Any, anchor: Any, stamp: Any, identifiers: Any) -> str:
        if self.kind in LISTS:
            return f"remove {self.number_of(value)}"
        if self.kind == "lwwset":
            return f"remove {self.number_of(value)} @{self._clock_number(replica, stamp)}"
        return f"remove {self.number_of(value)} #{_join_numbers(_sort_unique(identifiers or ()))}"

    def _format_insertion(self, replica: int, value: Any, anchor: Any, stamp: Any, identifiers: Any) -> str:
        behind = 0 if anchor is None else self.number_of(anchor)
        return f"after {behind} {self.number_of(value)} @{self._clock_number(replica, stamp)}"

    def _format_insertion_between(
        self, replica: int, value: Any, neighbours: Any, stamp: Any, identifiers: Any
    ) -> str:
        left, right = neighbours
        return f"insert {self._neighbour_number(left)} {self.number_of(value)} {self._neighbour_number(right)}"

    def _neighbour_number(self, neighbour: Any) -> int:
        return 0 if neighbour is None else self.number_of(neighbour)

    def _clock_number(self, replica: int, stamp: "Stamp | None") -> int:
        if stamp.__class__ is int:
            return self._clocks.number_of(stamp)
        if isinstance(stamp, (tuple, list)) and len(stamp) == 2:
            clock, issuer = stamp
            if issuer != self.replicas.keys[replica] and self.replicas.index_of(issuer) != replica:
                raise NotRepresentable(
                    f"the stamp {stamp!r} names another replica: expected {self.replicas.keys[replica]!r}"
                )
            return self._clocks.number_of(clock)
        if stamp is None:
            raise NotRepresentable(
                "the stamp is missing: pass the clock of the update, or the clock and the replica"
            )
        return self._clocks.number_of(stamp)

    def format_result(self, value: Any) -> str:
        """Returns the last field of the line of a read that returned this value."""
        if self.kind == "counter":
            is_whole = isinstance(value, int) and not isinstance(value, bool)
            if not is_whole or not MIN_COUNT <= value <= MAX_COUNT:
                raise NotRepresentable(f"a counter's read returned {value!r}: expected {expected_result(self.kind)}")
            return str(int(value))
        if self.kind == "register":
            return "none" if _are_equal(value, self._nothing) else str(self._values.number_of(value))
        if self.kind == "any":
            return str(self._values.number_of(value))
        if self.kind == "mvregister" and isinstance(value, (str, bytes)):
            # A text is one value, and no collection of values.
            raise self._unusable(value)
        try:
            elements = iter(value)
        except TypeError:
            raise self._unusable(value) from None
        numbers = [*map(self.number_of, elements)]
        return _join_numbers(numbers if self.kind in LISTS else _sort_unique(numbers))

    def _unusable(self, value: Any) -> NotRepresentable:
        return NotRepresentable(f"a read returned {value!r}: expected {expected_result(self.kind)}")

    def format_part(self, elements: Any) -> str:
        """Returns the last field of the line of a partial read of a list, which returned these elements."""
        if self.kind != "list":
            raise NotRepresentable(f"part is not a read of the kind {self.kind}: it is one of the kind list")
        return self.format_result(elements)

    # Descriptions of lines in the user's names.

    def describe(self, line: str, describe_label: Callable[[int], str]) -> str:
        """Describes a line. `describe_label` describes the label of a delivery."""
        name, word, *fields = line.split(" ")
        if is_join(line):
            return f"{self.replicas.key_of(word)!r} joins with a copy of {self.replicas.key_of(fields[0])!r}"
        has_clock = fields[-1:] and fields[-1][0] == "@"
        clock = f" at clock {self._clocks.clock_of(int(fields.pop()[1:]))}" if has_clock else ""
        command = self._describe_command(word, fields, describe_label)
        return f"{self.replicas.key_of(name)!r} {command}{clock}"

    def _describe_command(self, word: str, fields: List[str], describe_label: Callable[[int], str]) -> str:
        if word == "got":
            return f"receives {describe_label(int(fields[0]))}"
        if word == "read":
            return f"reads {self._describe_result(fields[0])}"
        if word == "after":
            anchor = "at the beginning" if fields[0] == "0" else f"behind {self._values.thing_of(int(fields[0]))!r}"
            return f"inserts {self._values.thing_of(int(fields[1]))!r} {anchor}"
        if word == "insert":
            return self._describe_insertion(*map(int, fields))
        if word == "part":
            return f"shows {self._describe_result(fields[0])} in this order, perhaps with others between"
        if word in ("inc", "dec", "update"):
            return {"inc": "increments", "dec": "decrements", "update": "makes an update"}[word]
        verb = {"write": "writes", "add": "adds", "remove": "removes"}[word]
        under = f" under {self._describe_identifiers(fields[1][1:])}" if len(fields) > 1 else ""
        return f"{verb} {self._values.thing_of(int(fields[0]))!r}{under}"

    def _describe_insertion(self, left: int, element: int, right: int) -> str:
        inserted = f"inserts {self._values.thing_of(element)!r}"
        behind = f"behind {self._values.thing_of(left)!r}" if left else ""
        before = f"before {self._values.thing_of(right)!r}" if right else ""
        if left and right:
            return f"{inserted} {behind} and {before}"
        return f"{inserted} {behind or before}".rstrip()

    def _describe_result(self, result: str) -> str:
        return repr(self.result_of(result))

    def result_of(self, field: str) -> Any:
        """Returns the result of a read, from the last field of its line."""
        if self.kind == "counter":
            return int(field)
        if self.kind == "register":
            return self._nothing if field == "none" else self._values.thing_of(int(field))
        if self.kind == "any":
            return self._values.thing_of(int(field))
        return [self._values.thing_of(it) for it in _parse_numbers(field)]

    def thing_of(self, number: int) -> Any:
        """Returns the value or the element with this number."""
        return self._values.thing_of(number)

    def _describe_identifiers(self, identifiers: str) -> str:
        return self.describe_identifiers(_parse_numbers(identifiers))

    def describe_identifiers(self, numbers: Iterable[int]) -> str:
        """Describes the identifiers with these numbers."""
        things = map(self.identifiers.thing_of, numbers)
        return ", ".join("an unnamed one" if it is None else repr(it) for it in things) or "none"


def expected_result(kind: str) -> str:
    """Describes what a read of this kind has to return."""
    if kind == "counter":
        return f"a whole number from {MIN_COUNT} to {MAX_COUNT}"
    if kind == "register":
        return "a value that can be a key of a dictionary"
    if kind == "any":
        return "a value that can be copied, and that `==` compares by what it holds"
    if kind == "mvregister":
        return "a list or another iterable of the values, which can be keys of a dictionary"
    return "a list or another iterable of the elements, which can be keys of a dictionary"


def _numbering_of(kind: str) -> Numbering:
    """Returns the numbering of the values or of the elements of a history of this kind."""
    if kind == "any":
        return ValueNumbering("a value")
    return Numbering("a value" if kind in ("register", "mvregister") else "an element")


def _constant(fields: str) -> Formatter:
    return lambda *_: fields


def is_join(line: str) -> bool:
    """Returns whether a replica joins in this line, which then begins with no name."""
    return line.startswith("join ")


def is_operation(line: str) -> bool:
    """Returns whether the line reports an operation, which becomes a label."""
    return not is_join(line) and line.split(" ", 2)[1] != "got"


def _join_numbers(numbers: Iterable[int]) -> str:
    return ",".join(map(str, numbers)) or "-"


def _sort_unique(numbers: Collection[Any]) -> Collection[int]:
    return sorted(set(numbers)) if len(numbers) > 1 else numbers


def _parse_numbers(text: str) -> List[int]:
    return [] if text == "-" else [int(it) for it in text.split(",")]


def _are_equal(one: Any, other: Any) -> bool:
    return one is other or (type(one) is type(other) and bool(one == other))
