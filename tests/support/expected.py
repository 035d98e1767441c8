"""Histories of any size whose every reply is known beforehand, from how they are made.

All that are made here are honest, so that each line is accepted; what a read answers is kept beside, by a few plain
lines of each kind, and is neither the program's nor the model's. `no_op_lines.py` makes others.
"""
import json

# A replica makes so many updates in a round of crossing ones.
TURNS = 8
# A read of a list looks at all that was put in, so that of many rounds one reads.
ROUNDS_OF_A_READ = {"counter": 1, "register": 1, "lwwset": 1, "orset": 1, "rga": 128, "list": 128}
# Where elements are put in, one replica reads when there are so many.
READ_AT = (1, 255, 256, 257, 3_000, 4_096, 4_300, 65_535, 65_536, 65_537, 70_000)
# A replica joins where another one has made so many updates: about the numbers that bytes and 16 bits hold, and more
# than some round numbers at which a body might give up. Up to here the line of a read can hold all of them.
JOIN_AT = (1, 255, 256, 257, 4_096, 10_001, 50_001, 65_535, 65_536, 65_537, 100_001, 200_001, 524_289)
MOST_READ = 100_001
# The body of an update, with a number that rises.
UPDATES = {
    "counter": "inc",
    "register": "write {0} @{0}",
    "lwwset": "add {0} @{0}",
    "orset": "add {0} #{0}",
    "rga": "after 0 {0} @{0}",
    "list": "insert 0 {0} 0",
}
# The update of a text with this number, behind the one before.
TYPED = {"rga": "after {1} {0} @{0}", "list": "insert {1} {0} 0"}
# Kinds of which a read shows elements in the order of a text, and not in a rising one; and those of which a violation
# is final.
TEXTS, FINAL = tuple(TYPED), ("counter", "orset", "list")
# The greatest number of replicas, in a text RAH 2, and of commands of a text.
MOST_REPLICAS, MOST_COMMANDS = 64, 1_048_576


class History:
    """The lines of a history as it is made, each with its reply."""

    def __init__(self, kind, names="abc", form=1):
        self.kind, self.labels, self.replies = kind, 0, []
        self.lines, self.replicas = [f"RAH {form} {kind}", " ".join(["replicas", *names])], len(names)
        # How many commands are refused, and the label and the cause of a violation.
        self.refused, self.violation = 0, None

    def does(self, name, body):
        """An operation, which becomes the label that this gives."""
        self.lines.append(f"{name} {body}")
        self.replies.append(f"ok {self.labels}")
        self.labels += 1
        return self.labels - 1

    def gets(self, name, labels):
        self.lines += [f"{name} got {it}" for it in labels]
        self.replies += [f"got {it}" for it in labels]

    def joins(self, name, source):
        self.lines.append(f"join {name} {source}")
        self.replies.append(f"joined {self.replicas}")
        self.replicas += 1

    def asks(self):
        """A verdict before any violation."""
        self.lines.append("verdict")
        self.replies.append(f"yes {self.labels}")

    def refuses(self, line, why):
        """A line that is refused."""
        self.lines.append(line)
        self.replies.append(f"refused {why}")
        self.refused += 1

    def violates(self, name, body, cause):
        """An operation that becomes the first violating label."""
        self.lines.append(f"{name} {body}")
        self.violation = self.labels, cause
        self.replies.append(f"no {self.labels} {cause}")
        self.labels += 1

    def goes_on(self, line):
        """A line behind the violation, whose reply is that of the violation, whatever it says."""
        self.lines.append(line)
        self.replies.append(f"no {self.violation[0]} {self.violation[1]}")

    def text(self):
        return "".join(f"{it}\n" for it in self.lines).encode()

    def answer(self):
        """What is written to standard output and to standard error, and the exit status."""
        says = {"calls": len(self.replies), "kind": self.kind, "labels": self.labels, "refused": self.refused}
        if self.violation:
            label, cause = self.violation
            says, end = {**says, "cause": cause, "final": self.kind in FINAL, "label": label}, f"no {label} {cause}"
        else:
            end = f"yes {self.labels}"
        says["verdict"] = end.split()[0]
        report = json.dumps(says, separators=(",", ":"), sort_keys=True)
        written = "".join(f"{it}\n" for it in [*self.replies, f"end {end}", report]).encode()
        return written, b"", 1 if self.violation else 3 if self.refused else 0


def listed(numbers):
    return ",".join(map(str, numbers)) or "-"


# Each kind below has the state that the updates of all rounds lead to. `update` gives a line's body and an effect,
# which `apply` does: in the order of the stamps, after each round. In a round replica 0 is a, and replica 1 is b.


class Counter:
    def __init__(self):
        self.number = 0

    def update(self, replica, turn, clock):
        return ("dec", -1) if (clock + replica) % 3 == 0 else ("inc", 1)

    def apply(self, effect):
        self.number += effect

    def read(self):
        return self.number


class Register:
    def __init__(self):
        self.last = "none"

    def update(self, replica, turn, clock):
        return f"write {10 * clock + replica} @{clock}", 10 * clock + replica

    def apply(self, effect):
        self.last = effect

    def read(self):
        return self.last


class LwwSet:
    def __init__(self):
        self.elements = set()

    def update(self, replica, turn, clock):
        element, is_put_in = clock * (7 + replica) % 24, (clock + replica) % 3 > 0
        return f"{'add' if is_put_in else 'remove'} {element} @{clock}", (element, is_put_in)

    def apply(self, effect):
        element, is_put_in = effect
        (self.elements.add if is_put_in else self.elements.discard)(element)

    def read(self):
        return listed(sorted(self.elements))


class OrSet:
    """Of a round each replica's first update takes out what there was of one element. The other one may put it in."""

    def __init__(self):
        self.pairs = {it: set() for it in range(12)}

    def update(self, replica, turn, clock):
        if turn == 0:
            element = (clock // TURNS + replica) % len(self.pairs)
            ids = sorted(self.pairs[element])
            return f"remove {element} #{listed(ids)}", (element, False, ids)
        element, identifier = clock * (5 + 2 * replica) % len(self.pairs), 2 * clock + replica
        return f"add {element} #{identifier}", (element, True, [identifier])

    def apply(self, effect):
        element, is_put_in, ids = effect
        (self.pairs[element].update if is_put_in else self.pairs[element].difference_update)(ids)

    def read(self):
        return listed(it for it in self.pairs if self.pairs[it])


class Rga:
    """Each element is put in at the beginning. Of a round the first half removes what the other one put in before."""

    def __init__(self):
        self.shown, self.put_in, self.before = {}, ([], []), ([], [])

    def update(self, replica, turn, clock):
        if turn == 0:
            self.before[1 - replica][:], self.put_in[replica][:] = self.put_in[replica], []
        if turn < TURNS // 2 and self.before[replica]:
            element = self.before[replica].pop()
            return f"remove {element}", (element, False)
        element = 2 * clock + replica
        self.put_in[replica].append(element)
        return f"after 0 {element} @{clock}", (element, True)

    def apply(self, effect):
        element, is_put_in = effect
        if is_put_in:
            self.shown[element] = True
        else:
            del self.shown[element]

    def read(self):
        return listed(reversed(self.shown))


class List(Rga):
    """The same order with neighbours in place of anchors: an element stands before the last one of its replica."""

    def __init__(self):
        super().__init__()
        self.last = [0, 0]

    def update(self, replica, turn, clock):
        body, effect = super().update(replica, turn, clock)
        element, is_put_in = effect
        if is_put_in:
            body, self.last[replica] = f"insert 0 {element} {self.last[replica]}", element
        return body, effect


TYPES = {"counter": Counter, "register": Register, "lwwset": LwwSet, "orset": OrSet, "rga": Rga, "list": List}


def crossing(kind, count):
    """At least so many labels. In each round a and b make updates, one more now the one and now the other, get each
    other's, and one of them reads. At the end c gets all and reads."""
    history, data, sent = History(kind), TYPES[kind](), []
    clock = number = 0
    while history.labels < count:
        labels, effects = ([], []), []
        for replica, name in enumerate("ab"):
            for turn in range(TURNS - (number + replica) % 2):
                body, effect = data.update(replica, turn, clock + turn + 1)
                labels[replica].append(history.does(name, body))
                effects.append((turn, replica, effect))
        history.gets("a", labels[1])
        history.gets("b", labels[0])
        for _, _, effect in sorted(effects, key=lambda it: it[:2]):
            data.apply(effect)
        sent += labels[0] + labels[1]
        clock, number = clock + TURNS, number + 1
        if number % ROUNDS_OF_A_READ[kind] == 0:
            history.does("ab"[number % 2], f"read {data.read()}")
    history.gets("c", sent)
    history.does("c", f"read {data.read()}")
    return history


def elements(kind, count):
    """At a so many elements are put in. b gets them and reads now and then, and then removes each second one."""
    put_in = {**UPDATES, **TYPED}[kind]
    remove = {"lwwset": "remove {0} @{1}", "orset": "remove {0} #{0}", "rga": "remove {0}", "list": "remove {0}"}[kind]
    history, numbers = History(kind), range(1, count + 1)
    for number in numbers:
        label = history.does("a", put_in.format(number, number - 1))
        history.gets("b", [label])
        if number in READ_AT:
            history.does("b", f"read {listed(range(1, number + 1))}")
    removed = [history.does("b", remove.format(it, count + it)) for it in numbers[1::2]]
    history.does("b", f"read {listed(numbers[::2])}")
    history.does("a", f"read {listed(numbers)}")
    history.gets("a", removed)
    history.does("a", f"read {listed(numbers[::2])}")
    return history


def waiting(is_chain, count):
    """b puts so many elements in behind one that it has not got, or each behind the last one, so that they wait there
    and at c. When it comes, all follow."""
    history = History("rga")
    first = history.does("a", "after 0 1 @1")
    numbers = range(2, count + 2)
    labels = [history.does("b", f"after {it - 1 if is_chain else 1} {it} @{it}") for it in numbers]
    for name, missing in (("c", [*labels, first]), ("b", [first]), ("a", labels)):
        history.gets(name, missing)
        history.does(name, f"read {listed([1, *(numbers if is_chain else numbers[::-1])])}")
    return history


def removed(count):
    """a inserts `count` elements, each behind the previous one, removes them all, and reads `count` times."""
    history, numbers = History("rga"), range(1, count + 1)
    for number in numbers:
        history.does("a", f"after {number - 1} {number} @{number}")
    for number in numbers:
        history.does("a", f"remove {number}")
    for _ in numbers:
        history.does("a", f"read {listed([])}")
    return history


def far_apart(count):
    """a inserts `count` elements, removes all but the first and the last one, and reads `count` times."""
    history, numbers = History("rga"), range(1, count + 1)
    for number in numbers:
        history.does("a", f"after {number - 1} {number} @{number}")
    for number in numbers[1:-1]:
        history.does("a", f"remove {number}")
    for _ in numbers:
        history.does("a", f"read {listed([1, count])}")
    return history


def in_front(count):
    """a inserts `count` elements, each before all others. b and c, which have newer ones, receive them so."""
    history, numbers = History("rga"), range(1, count + 1)
    labels = [history.does("a", f"after 0 {number} @{number}") for number in numbers]
    for newer, name in enumerate("bc", count + 1):
        history.does(name, f"after 0 {newer} @{newer}")
        history.gets(name, labels)
        history.does(name, f"read {listed([newer, *numbers[::-1]])}")
    return history


def under_one_element(count):
    """a adds one element under `count` identifiers and another one under one, and reads after each addition."""
    history = History("orset")
    history.does("a", "add 2 #0")
    for number in range(1, count + 1):
        history.does("a", f"add 1 #{number}")
        history.does("a", f"read {listed([1, 2])}")
    return history


def far_clocks(kind, count):
    """Of a register or an RGA, b makes one update, a `count`, with lower stamps, and c one with the lowest. None receives
    any. Then c reads `count` times, so that its labels stand before all of a's, which stand before b's."""
    history, body = History(kind), {**UPDATES, **TYPED}[kind]
    history.does("b", body.format(count + 2, 0))
    for clock in range(2, count + 2):
        history.does("a", body.format(clock, 0 if clock == 2 else clock - 1))
    history.does("c", body.format(1, 0))
    for _ in range(count):
        history.does("c", "read 1")
    return history


class Typing:
    """Each element is put in behind the one before. Now and then one is taken out of sight."""

    def __init__(self, kind):
        self.shown, self.last, self.body = {}, 0, TYPED[kind]

    def update(self, replica, turn, clock):
        if turn == TURNS - 1:
            element = self.last - TURNS // 2
            return f"remove {element}", (element, False)
        return self.body.format(clock, self.last), (clock, True)

    def apply(self, effect):
        element, is_put_in = effect
        if is_put_in:
            self.shown[element], self.last = True, element
        else:
            self.shown.pop(element, None)

    def read(self):
        return listed(self.shown)


def crowd(kind, first, count):
    """About so many lines. So many replicas are there first, and the others join, spread over the history, until there
    are as many as there can be; one that joins may get what is late at the one from which it joins. In turn each one
    reads, gets what it lacks, makes an update and reads; so between its turns it lacks what the others do. At the end
    all get all and read."""
    names = [f"n{it}" for it in range(MOST_REPLICAS)]
    history, data = History(kind, names[:first], 2), Typing(kind) if kind in TEXTS else TYPES[kind]()
    # The updates, what is read after so many of the first ones, and how many of the first ones each replica has.
    labels, reads, had = [], [data.read()], [0] * first

    def reads_now(replica):
        history.does(names[replica], f"read {reads[had[replica]]}")

    def gets_all(replica):
        history.gets(names[replica], labels[had[replica] :])
        had[replica] = len(labels)

    while len(history.lines) < count:
        turn = len(labels)
        if first < MOST_REPLICAS and (len(had) - first) * count <= len(history.lines) * (MOST_REPLICAS - first):
            source = 7 * turn % len(had)
            history.joins(names[len(had)], names[source])
            had.append(had[source])
            reads_now(len(had) - 1)
        replica, has_reads = turn % len(had), kind not in TEXTS or turn % TURNS == 0
        if has_reads:
            reads_now(replica)
        gets_all(replica)
        body, effect = data.update(0, turn % TURNS, turn + 1)
        labels.append(history.does(names[replica], body))
        data.apply(effect)
        reads.append(data.read())
        had[replica] += 1
        if has_reads:
            reads_now(replica)
    for replica in range(len(had)):
        gets_all(replica)
        reads_now(replica)
    return history


# The update of a replica that joined, which needs the last one of the replica from which it joined. The other number is
# a new one.
NEEDS_LAST = {
    "counter": "inc",
    "register": "write {1} @{1}",
    "lwwset": "remove {0} @{1}",
    "orset": "remove {0} #{0}",
    "rga": "after {0} {1} @{1}",
    "list": "insert {0} {1} 0",
}


def joined(kind, count):
    """a makes so many updates. Now and then, and at the end, a replica joins from it, reads, makes an update that needs
    the last one, and gets the next one."""
    history, missing = History(kind, "a", 2), None
    update = {**UPDATES, **TYPED}[kind]
    for number in range(1, count + 1):
        label = history.does("a", update.format(number, number - 1))
        if missing:
            history.gets(missing, [label])
            missing = None
        if number in JOIN_AT or number == count:
            missing = f"n{history.replicas}"
            history.joins(missing, "a")
            if number <= MOST_READ:
                shown = number if kind in ("counter", "register") else listed(range(1, number + 1))
                history.does(missing, f"read {shown}")
            history.does(missing, NEEDS_LAST[kind].format(number, count + history.replicas))
    return history
