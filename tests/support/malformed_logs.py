"""Malformed logs, and the message about each: it names the file, the line and the field, and what is expected."""
import json
from typing import NamedTuple


class Malformed(NamedTuple):
    """A log, further arguments, and what is said of it on standard error."""

    name: str
    lines: list
    said: str
    words: tuple = ()


def line(**fields):
    return json.dumps({"replica": "ann", "kind": "register", "operation": "write", "value": 1, "stamp": 1, **fields})


def without(name, **fields):
    return json.dumps({key: it for key, it in json.loads(line(**fields)).items() if key != name})


KEY = "a string or a whole number"
CLOCK = "expected the clock of the update, a whole number or a string of digits"
JEPSEN = (
    "this is a Jepsen history, which cannot be judged: it has invocations and completions of clients, and no "
    "deliveries between replicas, which RA-linearizability is about; have each replica log what it applies"
)
MALFORMED = (
    Malformed("no_json", [line(), "{'replica': 'ann'}"], (
        'log.jsonl:2: the line is no JSON object: expected one event, such as {"replica": "ann", "operation": '
        '"increment", "message": "m1"}')),
    Malformed("a_list", ["[1]"], (
        'log.jsonl:1: the line is no JSON object: expected one event, such as {"replica": "ann", "operation": '
        '"increment", "message": "m1"}')),
    Malformed("no_replica", [line(), "", without("replica")], (
        f'log.jsonl:3: the field "replica" is missing: expected the name of the replica, {KEY}')),
    Malformed("a_replica_of_another_type", [line(replica=["ann"])], (
        f'log.jsonl:1: the field "replica" is ["ann"]: expected the name of the replica, {KEY}')),
    Malformed("no_operation", [without("operation")], (
        'log.jsonl:1: the field "operation" is missing: expected what the replica did, such as read, deliver, write or '
        "add")),
    Malformed("an_operation_of_another_kind", [line(), line(operation="add")], (
        'log.jsonl:2: the field "operation" is "add": expected one of write, read, deliver for the kind register')),
    Malformed("an_unknown_kind", [line(kind="map")], (
        'log.jsonl:1: the field "kind" is "map": expected one of counter, register, lwwset, orset, rga, list, any, '
        "mvregister")),
    Malformed("no_kind", [without("kind")], (
        'log.jsonl:1: the field "kind" is missing: expected one of counter, register, lwwset, orset, rga, list, any, '
        "mvregister, in one line of the object or as --kind")),
    Malformed("two_kinds", [line(), line(kind="rga")], (
        'log.jsonl:2: the field "kind" is "rga", and log.jsonl:1 has "register": expected one kind for each object')),
    Malformed("no_stamp", [without("stamp")], f'log.jsonl:1: the field "stamp" is missing: {CLOCK}'),
    Malformed("a_stamp_of_another_type", [line(stamp=1.5)], f'log.jsonl:1: the field "stamp" is 1.5: {CLOCK}'),
    Malformed("a_stamp_in_words", [line(stamp="soon")], f'log.jsonl:1: the field "stamp" is "soon": {CLOCK}'),
    Malformed("no_value", [without("value")], 'log.jsonl:1: the field "value" is missing: expected a JSON value'),
    Malformed("null_is_written", [line(value=None)], (
        'log.jsonl:1: the field "value" is null: expected another value, since null represents an unwritten register')),
    Malformed("a_field_of_another_kind", [line(identifier="i1")], (
        'log.jsonl:1: the field "identifier" is "i1", and write of the kind register has no such field: expected a '
        "line without it; rename it, or choose another kind")),
    Malformed("an_amount_of_zero", ['{"replica": 1, "kind": "counter", "operation": "increment", "value": 0}'], (
        'log.jsonl:1: the field "value" is 0: expected a whole number from 1 to 256')),
    Malformed("a_large_number", ['{"replica": 1, "kind": "counter", "operation": "read", "value": 2147483648}'], (
        'log.jsonl:1: the field "value" is 2147483648: expected a whole number from -2147483648 to 2147483647')),
    Malformed("a_set_that_is_no_list", ['{"replica": 1, "kind": "orset", "operation": "read", "value": "milk"}'], (
        'log.jsonl:1: the field "value" is "milk": expected the list of the elements that the read returned')),
    Malformed("an_unsent_message", [line(message="m1"), '{"replica": 2, "operation": "deliver", "message": "m2"}'], (
        'log.jsonl:2: the field "message" is "m2", and no update of this object has this message: expected the key of '
        "an update; check the key, and pass the log of the replica that made the update too")),
    Malformed("a_message_that_two_updates_have", [line(message="m1"), line(message="m1", stamp=2)], (
        'log.jsonl:2: the field "message" is "m1", which log.jsonl:1 has too: expected a key that no other update of '
        "the object has")),
    Malformed("lines_that_wait_for_each_other", [
        '{"replica": "ann", "operation": "deliver", "message": "b"}', line(message="a"),
        '{"replica": "bob", "operation": "deliver", "message": "a"}', line(replica="bob", message="b"),
    ], (
        'log.jsonl:1: the field "message" is "b", and no order of the lines has each update before its deliveries '
        '(log.jsonl:1 delivers "b", which log.jsonl:4 sends; log.jsonl:3 delivers "a", which log.jsonl:2 sends): '
        "expected each replica's lines in the order in which they happened there")),
    Malformed("a_replica_that_the_order_lacks", [line(), line(replica="bob")], (
        'log.jsonl:2: the field "replica" is "bob", which --replicas does not name: expected one of ann; name all '
        "replicas, lowest first"), ("--replicas", "ann")),
    Malformed("a_replica_that_no_line_has", [line()], (
        '--replicas names "bob", of which there is no line: expected the log\'s replicas'), ("--replicas", "ann,bob")),
    Malformed("an_object_that_is_not_there", [line()], 'log.jsonl: there is no object "cart"', ("--object", "cart")),
    Malformed("nothing", [""], "log.jsonl: there are no events: expected JSON lines"),
    Malformed("a_jepsen_history", ['{"process": 0, "type": "invoke", "f": "read", "value": null, "time": 32914}'], (
        f"log.jsonl:1: {JEPSEN}")),
    Malformed("a_jepsen_history_in_edn", ["{:type :invoke, :f :read, :value nil, :process 0, :time 3291485317}"], (
        f"log.jsonl:1: {JEPSEN}")),
)
