"""The events of a log: JSON lines, each with its file and its number (docs/reference/log_format.md)."""
import json
import sys
from typing import Any, Callable, Dict, Hashable, Iterable, Iterator, List, NamedTuple, Optional, Tuple, Union

from .errors import NotRepresentable
from .operations import operations_of

STANDARD_INPUT = "-"
DELIVER, READ, PART = "deliver", "read", "part"
# The types of a completion or an invocation in a Jepsen history.
JEPSEN_TYPES = ("invoke", "ok", "fail", "info")
# The longest value that a message quotes.
SHOWN_LENGTH = 60
EXAMPLE = '{"replica": "ann", "operation": "increment", "message": "m1"}'


class Place(NamedTuple):
    """A line of a file, counted from 1."""

    file: str
    line: int

    def __str__(self) -> str:
        return f"{self.file}:{self.line}"


class Json(NamedTuple):
    """A JSON value other than a string or a whole number. Equal values have the same text."""

    text: str

    def __repr__(self) -> str:
        return self.text


class Event(NamedTuple):
    """One line of a log."""

    place: Place
    replica: Hashable
    object: Hashable
    operation: str
    fields: Dict[str, Any]
    """The fields `kind`, `message`, `value` and so on that the line has, converted."""


class LogFault(ValueError):
    """A log that cannot be read: the message names the file, the line and the field."""

    def __init__(self, place: Union[Place, str], problem: str) -> None:
        super().__init__(f"{place}: {problem}")


class CannotJudge(ValueError):
    """A log that lacks what the condition is about. The message says what."""


def field_fault(place: Place, name: str, value: Any, expected: str) -> LogFault:
    """Creates the fault of a field with a wrong value."""
    return LogFault(place, f'the field "{name}" is {shown(value)}: expected {expected}')


def missing_field(place: Place, name: str, expected: str) -> LogFault:
    """Creates the fault of a line that lacks a field."""
    return LogFault(place, f'the field "{name}" is missing: expected {expected}')


def shown(value: Any) -> str:
    """Returns the JSON of a value, so that a message quotes what the log has, or the beginning of a long one."""
    text = _json(value)
    return text if len(text) <= SHOWN_LENGTH else f"{text[:SHOWN_LENGTH]} .."


def read_events(paths: Iterable[str]) -> List[Event]:
    """Reads the events of these files, in the order of the files and of their lines.

    Raises `LogFault` for the first line that is no event, and `CannotJudge` if the log is of another sort.
    """
    chosen = list(paths)
    for path in chosen:
        if chosen.count(path) > 1:
            raise LogFault(path, "the file is given twice: expected each file once")
    return [event for path in chosen for event in _events_of(path)]


def _events_of(path: str) -> Iterator[Event]:
    for number, line in enumerate(_lines_of(path), 1):
        place = Place("standard input" if path == STANDARD_INPUT else path, number)
        try:
            text = line.decode("utf-8-sig").strip()
        except UnicodeDecodeError:
            raise LogFault(place, "the line is not UTF-8: expected JSON in UTF-8") from None
        if text:
            yield _event(place, text)


def _lines_of(path: str) -> Iterator[bytes]:
    if path == STANDARD_INPUT:
        yield from sys.stdin.buffer
        return
    try:
        with open(path, "rb") as file:
            yield from file
    except OSError as error:
        raise LogFault(path, f"the file cannot be read ({error.strerror}): expected a log of JSON lines") from None


def _event(place: Place, text: str) -> Event:
    values = _parse(place, text)
    missing = [it for it in ("replica", "operation") if it not in values]
    if missing:
        raise missing_field(place, missing[0], FIELDS[missing[0]].expected)
    fields = {}
    for name in FIELDS:
        if name in values:
            try:
                fields[name] = FIELDS[name].convert(values[name])
            except ValueError:
                raise field_fault(place, name, values[name], FIELDS[name].expected) from None
    return Event(place, fields.pop("replica"), fields.pop("object", None), fields.pop("operation"), fields)


def _parse(place: Place, text: str) -> Dict[str, Any]:
    try:
        values = json.loads(text, parse_float=_number, parse_constant=_no_constant)
    except (ValueError, RecursionError):
        values = None
    if not isinstance(values, dict):
        if text.startswith("{:") and ":invoke" in text:
            raise _jepsen(place)
        raise LogFault(place, f"the line is no JSON object: expected one event, such as {EXAMPLE}")
    if "replica" not in values and values.get("type") in JEPSEN_TYPES and {"process", "f"} <= {*values}:
        raise _jepsen(place)
    return values


def _jepsen(place: Place) -> CannotJudge:
    return CannotJudge(
        f"{place}: this is a Jepsen history, which cannot be judged: it has invocations and completions of clients, "
        "and no deliveries between replicas, which RA-linearizability is about; have each replica log what it applies"
    )


def _number(text: str) -> Union[int, float]:
    number = float(text)
    return int(number) if number.is_integer() else number


def _no_constant(text: str) -> Any:
    raise ValueError(f"{text} is no JSON")


# The conversion of each field. Each raises `ValueError` if the value is not what is expected.


def _key(value: Any) -> Hashable:
    if isinstance(value, str) and value or isinstance(value, int) and not isinstance(value, bool):
        return value
    raise ValueError


def _operation(value: Any) -> str:
    if isinstance(value, str):
        return value
    raise ValueError


def _kind(value: Any) -> str:
    try:
        operations_of(value)
    except (NotRepresentable, TypeError):
        raise ValueError from None
    return str(value)


def _clock(value: Any) -> int:
    is_whole = isinstance(value, int) and not isinstance(value, bool)
    if is_whole or isinstance(value, str) and value.isascii() and value.isdigit():
        return int(value)
    raise ValueError


def thing(value: Any) -> Hashable:
    """Returns a JSON value as what messages show, and as the key of a dictionary."""
    if isinstance(value, str) or isinstance(value, int) and not isinstance(value, bool):
        return value
    return Json(_json(value))


def things(value: Any) -> Tuple[Hashable, ...]:
    """Returns the values of a JSON list. Raises `ValueError` if it is none."""
    if isinstance(value, list):
        return tuple(map(thing, value))
    raise ValueError


def _as_it_is(value: Any) -> Any:
    """Returns the value of an operation, which is converted once the kind is known."""
    return value


def _anchor(value: Any) -> Optional[Hashable]:
    return None if value is None else thing(value)


def _json(value: Any) -> str:
    return json.dumps(value, ensure_ascii=False, sort_keys=True, separators=(",", ":"))


class Field(NamedTuple):
    """What a field of a line has to be."""

    expected: str
    convert: Callable[[Any], Any]


FIELDS: Dict[str, Field] = {
    "replica": Field("the name of the replica, a string or a whole number", _key),
    "object": Field("the name of the object, a string or a whole number", _key),
    "operation": Field("what the replica did, such as read, deliver, write or add", _operation),
    "kind": Field("one of counter, register, lwwset, orset, rga, list, any, mvregister", _kind),
    "message": Field("the key of the update's message, a string or a whole number", _key),
    "stamp": Field("the clock of the update, a whole number or a string of digits", _clock),
    "identifier": Field("the identifier of the addition, a JSON value", thing),
    "identifiers": Field("the list of the identifiers that the removal names", things),
    "anchor": Field("the element in front, or null at the start of the list", _anchor),
    "left": Field("the element that was shown in front, or null if there was none", _anchor),
    "right": Field("the element that was shown behind, or null if there was none", _anchor),
    "value": Field("a JSON value", _as_it_is),
}
