"""The fields of each operation in a log, and the conversion of its value."""
from typing import Any, Dict, FrozenSet, NamedTuple, Tuple

from .log_lines import DELIVER, FIELDS, PART, READ, Event, LogFault, field_fault, missing_field, shown, thing, things
from .operations import operations_of
from .reports import MAX_AMOUNT
from .translation import MAX_COUNT, MIN_COUNT

# Fields that every line may have.
COMMON = frozenset(("kind",))


class Shape(NamedTuple):
    """The fields of an operation."""

    required: Tuple[str, ...]
    optional: FrozenSet[str] = frozenset()


STAMPED = Shape(("value", "stamp"), frozenset(("message",)))
SHAPES: Dict[Tuple[str, str], Shape] = {
    ("counter", "increment"): Shape((), frozenset(("value", "message"))),
    ("counter", "decrement"): Shape((), frozenset(("value", "message"))),
    ("register", "write"): STAMPED,
    ("lwwset", "add"): STAMPED,
    ("lwwset", "remove"): STAMPED,
    ("orset", "add"): Shape(("value",), frozenset(("identifier", "message"))),
    ("orset", "remove"): Shape(("value",), frozenset(("identifiers", "message"))),
    ("rga", "insert_after"): Shape(("anchor", "value", "stamp"), frozenset(("message",))),
    ("rga", "remove"): Shape(("value",), frozenset(("message",))),
    ("list", "insert"): Shape(("left", "value", "right"), frozenset(("message",))),
    ("list", "remove"): Shape(("value",), frozenset(("message",))),
    ("list", PART): Shape(("value",)),
    ("any", "update"): Shape((), frozenset(("message",))),
    ("mvregister", "write"): Shape(("value",), frozenset(("message",))),
}


def checked(event: Event, kind: str) -> Dict[str, Any]:
    """Returns the fields of an event of this kind. Raises `LogFault` if the operation or a field is not one of it."""
    shape = _shape_of(event, kind)
    for name in shape.required:
        if name not in event.fields:
            raise missing_field(event.place, name, FIELDS[name].expected)
    extra = [it for it in event.fields if it not in shape.optional | COMMON and it not in shape.required]
    if extra:
        raise LogFault(event.place, (
            f'the field "{extra[0]}" is {shown(event.fields[extra[0]])}, and {event.operation} of the kind {kind} has '
            "no such field: expected a line without it; rename it, or choose another kind"
        ))
    fields = dict(event.fields)
    if "value" in fields:
        fields["value"] = _value_of(event, kind)
    return fields


def _shape_of(event: Event, kind: str) -> Shape:
    if event.operation == DELIVER:
        return Shape(("message",))
    if event.operation == READ:
        return Shape(("value",))
    shape = SHAPES.get((kind, event.operation))
    if shape is None:
        expected = ", ".join((*operations_of(kind), *((PART,) if kind == "list" else ()), READ, DELIVER))
        raise field_fault(event.place, "operation", event.operation, f"one of {expected} for the kind {kind}")
    return shape


def _value_of(event: Event, kind: str) -> Any:
    value = event.fields["value"]
    if event.operation == PART or (event.operation == READ and kind != "counter"):
        return _result_of(event, kind)
    if kind == "counter":
        least, most = (MIN_COUNT, MAX_COUNT) if event.operation == READ else (1, MAX_AMOUNT)
        if isinstance(value, bool) or not isinstance(value, int) or not least <= value <= most:
            raise field_fault(event.place, "value", value, f"a whole number from {least} to {most}")
        return value
    if kind == "register" and value is None:
        raise field_fault(event.place, "value", value, "another value, since null represents an unwritten register")
    return thing(value)


def _result_of(event: Event, kind: str) -> Any:
    value = event.fields["value"]
    if kind in ("register", "any"):
        return thing(value)
    try:
        return things(value)
    except ValueError:
        what = "values" if kind == "mvregister" else "elements"
        raise field_fault(event.place, "value", value, f"the list of the {what} that the read returned") from None
