"""Histories of all kinds but list, made by a seed: texts whose replicas are honest, but for a few lies and a few odd lines.

Updates cross on their way, come late, twice, or before their cause; clocks tie, lag and are taken; answers are wrong; a
line is broken, or the text ends inside one. One of three is a text RAH 2, whose replicas join, or are many. What an
honest replica answers is the model's.
"""
import random

from model import GREATEST_NUMBER, KINDS, MOST_REPLICAS, START, Monitor, NotOfTheGrammar, command_of
from model import named_labels, state_after

NAMES = ["a", "b", "c", "d", "got", "read", "inc", "replicas", "r2", "none", "abcdefghijklmnop", "z9", "verdicts", "at"]
NAMES += ["joins", "x0"]
# More names than replicas that there can be.
MORE_NAMES = [*NAMES, *(f"n{it}" for it in range(MOST_REPLICAS))]
# The clock that all replicas begin behind. Of the last one only few are left above it.
FIRST_CLOCKS = [0, 0, 0, 0, 0, 0, 65_530, 65_530, GREATEST_NUMBER - 6]
# In a history one of so many operations is a lie, one of so many lines is odd, and one of so many updates of a list
# names an element that its replica has not.
LIES, ODDITIES, EARLY = [8, 30, 1_000], [6, 25, 1_000], [3, 1_000, 1_000]
# One of so many histories has a line that is none of the grammar, and one of so many has odd first lines.
BROKEN, ODD_HEADS = 8, 40
BROKEN_LINES = ["", "a", "verdict @1", "verdict inc", "a inc inc", "a inc @", "a inc @01", "a  inc", "a inc "]
BROKEN_LINES += [" a inc", "a got", "a got 1 @2", "a got -", "a got @1", "A inc", "a read", "a read 1,", "a read ,1"]
BROKEN_LINES += ["a read 1,,2", "a read -0", "a read --", "a write none", "a add 4 @2 #9", "a add 4 #"]
BROKEN_LINES += ["a add 4 #1,2", "a remove 4 #", "a remove 4 9", "a after 1", "a after 1 2 3", "a after 1 2 #3"]
BROKEN_LINES += ["a add 4294967296 @1", "a inc @4294967296", "join a", "1a inc", "a inc\r", "abcdefghijklmnopq inc"]
BROKEN_LINES += ["a read 00", "a read +1", "a \x00", "a inc\xff"]
# Joins that are none of the grammar; the first ones of RAH 1 alone.
BROKEN_JOINS = ["join n9 a", "join n9 a", "join a a", "join n9 n9"] * 2
BROKEN_JOINS += ["join", "join ", "join n9", "join n9 ", "join n9 a ", "join  n9 a", "join n9  a", " join n9 a"]
BROKEN_JOINS += ["join n9 a @1", "join n9 a @", "join n9 a b", "join n9,a", "join n9 verdict", "join verdict a"]
BROKEN_JOINS += ["join join a", "join n9 join", "join N9 a", "join 9n a", "join n9 0", "join abcdefghijklmnopq a"]
BROKEN_JOINS += ["join n9 abcdefghijklmnopq", "join n9 a\r", "Join n9 a", "a join n9", "n9 join a", "join n9 got 0"]
# In a history of RAH 2 one of so many lines is a join, and so many replicas are there first.
JOIN_ONE_OF = [3, 6, 12, 40]
FIRST_COUNTS = [1, 1, 2, 2, 3, 3, 5, 16, 17, 40, 62, 63, 64]
# Operations that are of another kind in most histories.
OTHERS = ["inc", "dec @0", "write 3 @4", "add 4 @9", "remove 4 @9", "add 3 #7", "remove 3 #2,1"]
ODD_FIRST_LINES = ["RAH 1", "RAH 3 rga", "RAH 1 set", "RAH 1 rga ", "rah 1 rga", "RAH 1 rga orset", ""]
ODD_SECOND_LINES = ["replicas", "replicas a a", "replicas a ", "replica a", "replicas a  b", "replicas a verdict", ""]
ODD_SECOND_LINES += ["replicas " + " ".join(f"n{it}" for it in range(count)) for count in (16, 17)]
# Those of RAH 2 beside them.
MORE_FIRST_LINES = ["RAH 2", "RAH 3 rga", "RAH 1 counter", "RAH 1 rga", "RAH 02 rga", "RAH 2 set", "RAH 2  orset"]
MORE_SECOND_LINES = ["replicas a b " + " ".join(f"n{it}" for it in range(count)) for count in (15, 62, 63, 64)]
MORE_SECOND_LINES += ["replicas a join", "replicas " + " ".join(["a", *NAMES])]


class Chance:
    """Draws, the same ones for one seed in each version of Python."""

    def __init__(self, seed):
        self.seed, self.draw = seed, random.Random(seed).random

    def below(self, bound):
        return int(self.draw() * bound)

    def one_of(self, items):
        return items[self.below(len(items))]

    def once_in(self, bound):
        return self.below(bound) == 0


class Author:
    """Makes the lines of one history of RAH 1, and follows it in a monitor of the model."""

    form, heads = "1", [(0, ODD_FIRST_LINES), (1, ODD_SECOND_LINES)]

    def __init__(self, chance):
        self.chance = chance
        self.kind = chance.one_of(KINDS)
        self.first_names = self.some_names()
        self.monitor = Monitor(self.kind, self.first_names)
        self.names = self.monitor.names
        self.first_clock = chance.one_of(FIRST_CLOCKS)
        self.lies, self.oddities, self.early = map(chance.one_of, (LIES, ODDITIES, EARLY))
        self.used, self.again = set(), None

    def some_names(self):
        count, chance = self.chance.one_of([1, 2, 2, 3, 3, 4, 5, 16]), self.chance
        return NAMES[:count] if chance.once_in(2) else sorted(NAMES, key=lambda _: chance.draw())[:count]

    def any_replica(self):
        return self.chance.below(len(self.names))

    # What the replicas have.

    def state(self, replica):
        """The state that an honest replica has, which leaves out what waits, and whether something does."""
        state, waits = START[self.kind], False
        for label in named_labels(self.monitor.labels):
            if label.number in self.monitor.had[replica]:
                update = label.operation.update
                after = update.what(state, *update.given)
                waits = waits or after is None
                state = state if after is None else after
        return state, waits

    def clock(self, replica):
        """A clock above all that the replica has seen; or the greatest of these, which is right at a later replica."""
        had = self.monitor.had[replica]
        return self.clock_above([it for it in self.monitor.labels if it.number in had])

    def clock_above(self, labels):
        seen = max((it.stamp[0] for it in labels if it.stamp), default=self.first_clock)
        if self.tells_a_lie():
            return self.chance.below(min(seen + 2, GREATEST_NUMBER))
        return min(max(1, seen + self.chance.one_of([0, 1, 1, 1, 1, 2, 3])), GREATEST_NUMBER)

    def tells_a_lie(self):
        return self.chance.once_in(self.lies)

    def number(self):
        return self.chance.one_of([0, 1, 1, 2, 2, 3, 4, 5, GREATEST_NUMBER])

    def fresh(self):
        """A number that was not given before, in most cases."""
        if self.used and self.tells_a_lie():
            return self.chance.one_of(sorted(self.used))
        while True:
            number = GREATEST_NUMBER if self.chance.once_in(20) else 1 + self.chance.below(99 + len(self.used))
            if number not in self.used:
                self.used.add(number)
                return number

    # Operations. Each is the line's body.

    def counter_update(self, replica):
        return self.chance.one_of(["inc", "inc", "dec"])

    def register_update(self, replica):
        return f"write {self.number()} @{self.clock(replica)}"

    def lwwset_update(self, replica):
        return f"{self.chance.one_of(['add', 'add', 'remove'])} {self.number()} @{self.clock(replica)}"

    def orset_update(self, replica):
        pairs = sorted(self.state(replica)[0])
        if not pairs or self.chance.below(3):
            return f"add {self.number()} #{self.fresh()}"
        element = self.number() if self.chance.once_in(8) else self.chance.one_of(pairs)[0]
        return f"remove {element} #{self.listed([it for at, it in pairs if at == element])}"

    def rga_update(self, replica):
        """Behind or of an element that the replica has, or in some histories of one that only others have."""
        elements, clock = [it for it, _ in self.state(replica)[0]], self.clock(replica)
        whole = state_after("rga", named_labels(self.monitor.labels)) or ()
        others = [it for it, _ in whole if it not in elements]
        if others and self.chance.once_in(self.early):
            elements, clock = [0, *others], self.clock_above(self.monitor.labels)
        if len(elements) > 1 and self.chance.once_in(4):
            return f"remove {self.chance.one_of(elements if self.tells_a_lie() else elements[1:])}"
        anchor = self.chance.one_of([0, elements[-1], self.chance.one_of(elements), self.chance.one_of(elements)])
        return f"after {anchor} {self.fresh()} @{clock}"

    def update(self, replica):
        return getattr(self, f"{self.kind}_update")(replica)

    def read(self, replica):
        state, _ = self.state(replica)
        if self.kind == "counter":
            return f"read {state + (self.chance.one_of([-1, 1]) if self.tells_a_lie() else 0)}"
        if self.kind == "register":
            return f"read {self.chance.one_of(['none', self.number()]) if self.tells_a_lie() else state}"
        if self.kind == "rga":
            return f"read {self.listed([it for it, is_shown in state if is_shown])}"
        return f"read {self.listed(sorted({it[0] if self.kind == 'orset' else it for it in state}))}"

    def listed(self, numbers):
        """The list, or in a few cases another one."""
        if self.tells_a_lie():
            at = self.chance.below(len(numbers) + 1)
            early, one, late = numbers[:at], numbers[at : at + 1], numbers[at + 1 :]
            others = [early + late, early + [self.number()] + one + late, early + one + one + late, []]
            others += [numbers[::-1], late + one + early, early + late[:1] + one + late[1:]]
            others += [sorted({*numbers, self.number()})] * 2
            numbers = self.chance.one_of(others)
        return ",".join(map(str, numbers)) or "-"

    # Lines.

    def delivery(self, replica):
        """An update that the replica lacks, whose causes it has in most cases; in some cases any number."""
        labels, had = self.monitor.labels, self.monitor.had[replica]
        lacking = [it for it in labels if it.operation.update and it.number not in had]
        ready = [it for it in lacking if it.sees <= had]
        if self.chance.once_in(self.oddities):
            return f"got {self.chance.below(len(labels) + 2)}"
        if not lacking:
            return self.update(replica)
        return f"got {self.chance.one_of(lacking if self.tells_a_lie() else ready).number}"

    def odd_line(self, replica):
        """A line that is refused in most cases. What it is made of may come again as it should be."""
        name, body = self.names[replica], self.update(replica)
        self.again = f"{name} {body}"
        other = self.chance.one_of(OTHERS)
        odd = [f"{name} {other}", f"nobody {self.chance.one_of([other, body, 'got 0', 'got 9', 'read none'])}"]
        odd += [f"{name} {body.split(' @')[0]}{self.chance.one_of(['', ' @0', ' @7'])}" for _ in range(2)]
        odd += [f"{name} {self.read(replica)} @{self.chance.below(2)}", "nobody got 4294967295", f"{name} after 0 0 @3"]
        odd += [f"{name} {self.listed_twice()}{end}" for end in ("", " @0", " @4")] + [f"{name} remove 0"]
        return self.chance.one_of(odd)

    def listed_twice(self):
        """A list with an element twice, or one that falls: of a read, or of identifiers."""
        numbers = self.chance.one_of(["1,1", "2,1", "1,3,2", "0,4294967295,4294967295"])
        return f"read {numbers}" if self.kind in ("lwwset", "orset", "rga") else f"remove 3 #{numbers}"

    def line(self):
        replica = self.any_replica()
        if self.again and self.chance.once_in(2):
            line, self.again = self.again, None
            return line
        if self.chance.once_in(self.oddities):
            return "verdict" if self.chance.once_in(4) else self.odd_line(replica)
        turn = self.chance.below(10)
        if turn < 4:
            return f"{self.names[replica]} {self.delivery(replica)}"
        # A read where something waits is answered no, so that little comes behind it.
        if turn < 7 or (self.state(replica)[1] and self.chance.once_in(2)):
            return f"{self.names[replica]} {self.update(replica)}"
        return f"{self.names[replica]} {self.read(replica)}"

    def lines(self):
        """The commands. Behind a no some are left, which are answered alike."""
        left = self.chance.one_of([4, 12, 20, 30, 50])
        while left > 0:
            line = self.line()
            yield line
            self.follow(line)
            left = min(left, self.chance.below(4)) if self.monitor.fault else left - 1

    def follow(self, line):
        try:
            self.monitor.answer(command_of(self.form, self.kind, line))
        except NotOfTheGrammar:
            pass


class JoiningAuthor(Author):
    """The same of RAH 2: replicas join, mostly to make updates soon, and there may be as many as there can be."""

    form, heads = "2", [(0, MORE_FIRST_LINES), (1, ODD_SECOND_LINES + MORE_SECOND_LINES)]

    def __init__(self, chance):
        super().__init__(chance)
        self.join_one_of = chance.one_of(JOIN_ONE_OF)
        # So many join one after another before all else.
        self.first_joins = chance.one_of([0, 0, 0, 1, 2, 3, MOST_REPLICAS - len(self.names)])

    def some_names(self):
        count, chance = self.chance.one_of(FIRST_COUNTS), self.chance
        return (MORE_NAMES if chance.once_in(2) else sorted(MORE_NAMES, key=lambda _: chance.draw()))[:count]

    def any_replica(self):
        """Mostly one of the first ones or of the last ones, so that not all of many replicas do one thing each."""
        among = min(len(self.names), 3)
        some = [self.chance.below(among), len(self.names) - 1 - self.chance.below(among)]
        return self.chance.one_of([*some, *some, self.chance.below(len(self.names))])

    def line(self):
        if self.first_joins:
            self.first_joins -= 1
            return self.join(self.any_replica())
        if self.chance.once_in(self.join_one_of):
            return self.odd_join() if self.chance.once_in(3) else self.join(self.any_replica())
        return super().line()

    def free_name(self):
        return next(it for it in MORE_NAMES if it not in self.names)

    def join(self, source):
        """The new name is the first free one, also where there are too many; so one that was refused may come again."""
        return f"join {self.free_name()} {self.names[source]}"

    def odd_join(self):
        """A join that is refused, or an operation of one that has not joined."""
        name, other, free = self.names[self.any_replica()], self.names[self.any_replica()], self.free_name()
        odd = [f"join {name} {other}", f"join {name} {name}", f"join {free} nobody", f"join {free} {free}"]
        odd += [f"join nobody {free}", f"join {name} {free}", f"{free} got 0"]
        odd += [f"{free} {self.update(self.any_replica())}"]
        return self.chance.one_of(odd)


def author_of(chance):
    """One of three is of RAH 2. A draw apart says which, so that the others are as they were before there were any."""
    return (JoiningAuthor if Chance(f"joins {chance.seed}").once_in(3) else Author)(chance)


def broken_line(chance):
    """One of four is a join. It is drawn apart, as above."""
    line, beside = chance.one_of(BROKEN_LINES), Chance(f"broken {chance.seed}")
    return beside.one_of(BROKEN_JOINS) if beside.once_in(4) else line


def history(chance):
    """The bytes of one history."""
    author = author_of(chance)
    lines = [f"RAH {author.form} {author.kind}", " ".join(["replicas", *author.first_names]), *author.lines()]
    if chance.once_in(ODD_HEADS):
        at, heads = chance.one_of(author.heads)
        lines[at] = chance.one_of(heads)
    if chance.once_in(BROKEN):
        lines.insert(2 + chance.below(len(lines) - 1), broken_line(chance))
    text = "".join(f"{it}\n" for it in lines).encode("latin-1")
    return text[: chance.below(len(text))] if chance.once_in(BROKEN) else text
