"""Histories in which many lines that change nothing stand behind many labels, and every reply is known beforehand.

Such a line is a verdict, a command that is refused, or any line behind a violation. Each costs the same, however many
labels there are.
"""
from expected import MOST_REPLICAS, UPDATES, History

# What a read shows before any update.
NOTHING = {"counter": "0", "register": "none", "lwwset": "-", "orset": "-", "rga": "-", "list": "-"}
# Operations that are refused behind updates of a, of which one has the clock 1 or the identifier 1, with the reasons.
# {0} is a number above those of the updates.
REFUSED_OPERATIONS = {
    "counter": {
        "z inc": "unknown-replica",
        "a write 1 @{0}": "wrong-kind",
        "a inc @{0}": "stamp-unwanted",
        "a read 0 @{0}": "stamp-unwanted",
    },
    "register": {
        "z write 1 @{0}": "unknown-replica",
        "a inc": "wrong-kind",
        "a write 1": "stamp-missing",
        "a write 1 @0": "stamp-missing",
        "a read none @{0}": "stamp-unwanted",
        "a write 1 @1": "stamp-taken",
    },
    "lwwset": {
        "z add 1 @{0}": "unknown-replica",
        "a inc": "wrong-kind",
        "a read 2,1": "bad-list",
        "a add 1": "stamp-missing",
        "a read - @{0}": "stamp-unwanted",
        "a remove 1 @1": "stamp-taken",
    },
    "orset": {
        "z add 1 #{0}": "unknown-replica",
        "a inc": "wrong-kind",
        "a remove 1 #2,1": "bad-list",
        "a add 1 #{0} @{0}": "stamp-unwanted",
        "b add 1 #1": "id-taken",
    },
    "rga": {
        "z after 0 {0} @{0}": "unknown-replica",
        "a inc": "wrong-kind",
        "a after 0 {0}": "stamp-missing",
        "a remove 1 @{0}": "stamp-unwanted",
        "a after 0 {0} @1": "stamp-taken",
    },
    "list": {
        "z insert 0 {0} 0": "unknown-replica",
        "a inc": "wrong-kind",
        "a after 0 {0} @{0}": "wrong-kind",
        "a insert 0 {0} 0 @{0}": "stamp-unwanted",
        "a read 1 @{0}": "stamp-unwanted",
        "a remove 1 @{0}": "stamp-unwanted",
    },
}
# Deliveries that are refused there: label 0 is a query, label 1 reached b, label {0} is the newest, and c has nothing.
REFUSED_DELIVERIES = {
    "z got 1": "unknown-replica",
    "c got {1}": "unknown-label",
    "b got 0": "not-an-update",
    "a got {0}": "already-seen",
    "b got 1": "already-seen",
    "b got {0}": "not-causal 2",
    "c got {0}": "not-causal 1",
}
# Joins that are refused where as many replicas are there as can be.
REFUSED_JOINS = {"join z y": "unknown-replica", "join a b": "replica-there", "join z a": "too-many-replicas"}


def many(kind, labels, names="abc", form=1):
    """c reads, and a makes this number of updates, the first of which reaches b."""
    history = History(kind, names, form)
    history.does("c", f"read {NOTHING[kind]}")
    for number in range(1, labels + 1):
        history.does("a", UPDATES[kind].format(number))
    history.gets("b", [1])
    return history


def many_refused(history, count, reasons):
    """This number of rejected lines, taken from these in turns."""
    newest = history.labels - 1
    lines = [(line.format(newest, newest + 1), why) for line, why in reasons.items()]
    for number in range(count):
        history.refuses(*lines[number % len(lines)])
    return history


def asked_often(kind, labels, count):
    """The given number of verdicts behind the given number of labels."""
    history = many(kind, labels)
    for _ in range(count):
        history.asks()
    return history


def violated(kind, labels, count):
    """The given number of lines behind a violation: a read that shows nothing behind the given number of labels."""
    history = many(kind, labels)
    history.violates("a", f"read {NOTHING[kind]}", "query")
    lines = [f"a {UPDATES[kind].format(labels + 1)}", "b got 2", f"b read {NOTHING[kind]}", "verdict", "z got 1"]
    for number in range(count):
        history.goes_on(lines[number % len(lines)])
    return history


def refused_operations(kind, labels, count):
    return many_refused(many(kind, labels), count, REFUSED_OPERATIONS[kind])


def refused_deliveries(kind, labels, count):
    return many_refused(many(kind, labels), count, REFUSED_DELIVERIES)


def refused_joins(kind, labels, count):
    names = ["a", "b", "c", *(f"n{it}" for it in range(3, MOST_REPLICAS))]
    return many_refused(many(kind, labels, names, 2), count, REFUSED_JOINS)


# What may follow many labels and changes nothing, and the function that makes such a history: of a kind, with a number
# of labels and then a number of lines.
BEHIND_LABELS = {
    "verdicts": asked_often,
    "lines behind a violation": violated,
    "refused operations": refused_operations,
    "refused deliveries": refused_deliveries,
    "refused joins": refused_joins,
}
