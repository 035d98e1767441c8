"""A second monitor, written from docs/explanation/model.md and docs/reference/ alone, to be read in one sitting.

It has none of the program's structures: at each new label it sorts all labels afresh, and folds all updates afresh. So
it is good for histories of some tens of labels. tests/program/fuzz_histories and tests/program/fuzz_bytes hold the
program against it. What labels have to meet is in judgement.py, what a line's body spells in bodies.py.
"""
import json
from typing import NamedTuple, Optional

from bodies import GREATEST_NUMBER, GREATEST_SIGNED, NotOfTheGrammar, expect, name_of, number_of, operation_of
from judgement import IN_EXECUTION_ORDER, MOST_ENUMERATED, Label, Operation, cause_of, linearizes, named_labels
from judgement import parts_of, rewritten, rises, state_after
from specification import START

# The kinds that the random histories and bytes draw from, and all that line 1 may name.
KINDS = ("counter", "register", "lwwset", "orset", "rga")
ALL_KINDS = (*KINDS, "list", "mvregister", "any")
LONGEST_LINE = 1_048_576
MOST_COMMANDS = 1_048_576
# How many names line 2 has at most, by the form of line 1. With those that join later there are as many as RAH 2 names.
MOST_NAMES = {"1": 16, "2": 64}
MOST_REPLICAS = MOST_NAMES["2"]


class Monitor:
    """What was accepted so far: the labels, and the numbers of the updates that each replica had. The judge says what
    fails at a new label; without another one the named order is tried."""

    def __init__(self, kind, names, judge=cause_of):
        self.kind, self.names, self.judge = kind, list(names), judge
        self.labels, self.had = [], [set() for _ in names]
        self.fault, self.calls, self.refused = None, 0, 0

    def answer(self, command):
        """The words of the reply."""
        self.calls += 1
        if self.fault:
            return self.fault
        refusal = command.refusal(self)
        if refusal:
            self.refused += 1
            return f"refused {refusal}"
        return command.accepted(self)

    def clock_is_taken(self, replica, clock):
        return (clock, replica) in [it.stamp for it in self.labels]

    def identifier_is_taken(self, identifier):
        return identifier is not None and identifier in [it.operation.identifier for it in self.labels]


class Verdict(NamedTuple):
    def refusal(self, monitor):
        return None

    def accepted(self, monitor):
        return f"yes {len(monitor.labels)}"


class Deliver(NamedTuple):
    name: str
    number: int

    def refusal(self, monitor):
        if self.name not in monitor.names:
            return "unknown-replica"
        if self.number >= len(monitor.labels):
            return "unknown-label"
        label, had = monitor.labels[self.number], monitor.had[monitor.names.index(self.name)]
        if not label.operation.update:
            return "not-an-update"
        if self.number in had:
            return "already-seen"
        lacking = label.sees - had
        return f"not-causal {min(lacking)}" if lacking else None

    def accepted(self, monitor):
        monitor.had[monitor.names.index(self.name)].add(self.number)
        return f"got {self.number}"


class Join(NamedTuple):
    """A replica of a new name joins, with all that the other one has."""

    name: str
    source: str

    def refusal(self, monitor):
        if self.source not in monitor.names:
            return "unknown-replica"
        if self.name in monitor.names:
            return "replica-there"
        return "too-many-replicas" if len(monitor.names) == MOST_REPLICAS else None

    def accepted(self, monitor):
        monitor.had.append(set(monitor.had[monitor.names.index(self.source)]))
        monitor.names.append(self.name)
        return f"joined {len(monitor.names) - 1}"


class Operate(NamedTuple):
    name: str
    operation: Operation
    clock: Optional[int]

    def refusal(self, monitor):
        if self.name not in monitor.names:
            return "unknown-replica"
        return self.misfit(monitor.kind) or self.what_is_taken(monitor)

    def misfit(self, kind):
        """What the operation's own form deserves."""
        if self.operation.kind != kind:
            return "wrong-kind"
        if not rises(self.operation.rising):
            return "bad-list"
        if self.operation.carries_stamp and not self.clock:
            return "stamp-missing"
        if not self.operation.carries_stamp and self.clock is not None:
            return "stamp-unwanted"
        return None

    def what_is_taken(self, monitor):
        replica = monitor.names.index(self.name)
        if self.clock is not None and monitor.clock_is_taken(replica, self.clock):
            return "stamp-taken"
        return "id-taken" if monitor.identifier_is_taken(self.operation.identifier) else None

    def accepted(self, monitor):
        replica, number = monitor.names.index(self.name), len(monitor.labels)
        stamp, sees = None if self.clock is None else (self.clock, replica), frozenset(monitor.had[replica])
        operation = rewritten(self.operation, number, sees, monitor.labels)
        monitor.labels.append(Label(number, replica, operation, stamp, sees))
        if self.operation.update:
            monitor.had[replica].add(number)
        cause = monitor.judge(monitor.kind, monitor.labels)
        monitor.fault = f"no {number} {cause}" if cause else None
        return monitor.fault or f"ok {number}"


# The text.


class Fault(Exception):
    """Why a text has no regular end, and the number of its line."""


def command_of(form, kind, line):
    if line == "verdict":
        return Verdict()
    name, *fields = line.split(" ")
    if name == "join":
        expect(form == "2" and len(fields) == 2)
        return Join(*map(name_of, fields))
    expect(name_of(name) and fields)
    if fields[0] == "got":
        expect(len(fields) == 2)
        return Deliver(name, number_of(fields[1]))
    clock = number_of(fields.pop()[1:]) if fields[-1].startswith("@") else None
    expect(fields)
    return Operate(name, operation_of(kind, fields), clock)


def form_and_kind_of(line):
    words = line.split(" ")
    expect(len(words) == 3 and words[0] == "RAH" and words[1] in MOST_NAMES and words[2] in ALL_KINDS)
    return words[1:]


def names_of(form, line):
    word, *names = line.split(" ")
    expect(word == "replicas" and 1 <= len(names) <= MOST_NAMES[form])
    expect(all(name_of(it) for it in names) and len(set(names)) == len(names))
    return names


def lines_of(text):
    """The lines with their numbers, up to the regular end or the first that is too long or has no line feed."""
    *whole, rest = text.split(b"\n")
    for number, line in enumerate([*whole, rest], 1):
        if len(line) > LONGEST_LINE:
            raise Fault(f"line {number}: too long")
        if number > len(whole) and (line or number <= 2):
            raise Fault(f"line {number}: truncated")
        if number <= len(whole):
            yield number, line.decode("latin-1")


def read(numbered, reader, *more):
    """What a line says."""
    number, line = numbered
    try:
        return reader(*more, line)
    except NotOfTheGrammar:
        raise Fault(f"line {number}: syntax") from None


def run(text, replies, judge=cause_of):
    """The monitor as the text leaves it. The replies are put in as they are made, so that they stand before a fault."""
    lines = lines_of(text)
    form, kind = read(next(lines), form_and_kind_of)
    monitor = Monitor(kind, read(next(lines), names_of, form), judge)
    for number, line in lines:
        command = read((number, line), command_of, form, kind)
        if monitor.calls == MOST_COMMANDS:
            raise Fault(f"line {number}: full")
        replies.append(monitor.answer(command))
    return monitor


def report_of(monitor):
    says = {"calls": monitor.calls, "kind": monitor.kind, "labels": len(monitor.labels), "refused": monitor.refused}
    says["verdict"] = "no" if monitor.fault else "yes"
    if monitor.fault:
        _, label, cause = monitor.fault.split()
        says.update(cause=cause, final=monitor.kind in IN_EXECUTION_ORDER, label=int(label))
    return json.dumps(says, sort_keys=True, separators=(",", ":"))


def checks(text):
    """What is written, what is said on standard error, and the exit status: without the report and with it."""
    lines, report, said = [], [], ""
    try:
        monitor = run(text, lines)
        lines.append(f"end {monitor.fault or f'yes {len(monitor.labels)}'}")
        report.append(report_of(monitor))
        status = 1 if monitor.fault else 3 if monitor.refused else 0
    except Fault as why:
        said, status = f"{why}\n", 2
    written = ("".join(f"{it}\n" for it in given).encode() for given in (lines, lines + report))
    return [(it, said.encode(), status) for it in written]
