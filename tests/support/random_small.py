"""Small histories of each kind but list, made by a seed: so few labels that all sequences of them can be tried.

Two of five histories are honest: one hidden order of all updates explains each read. In the others each read has an
order of its own, or now and then a line is a lie, or both: a wrong value, a view that another replica has, an element
that exists or does not, a second delivery, a line to be rejected or, where the text is asked for, none of the grammar.
"""
from judgement import cause_of
from model import ALL_KINDS, Monitor, NotOfTheGrammar, command_of
from specification import START

KINDS = tuple(it for it in ALL_KINDS if it != "list")
NAMES = ["a", "b", "c", "update", "read"]
# In a history that is not honest one of this number of reads and updates is a lie, and one of this number of lines is
# odd.
LIES, ODDITIES = [2, 3, 5, 1_000], [6, 20, 1_000]
COUNTS = [2, 3, 4, 5, 6, 6, 7, 7]
# How many lines a history has at most, if that is not less than four for each label, and how many replicas.
MOST_LINES, MOST_REPLICAS = 30, 4
# Kinds of which an order decides what is read.
ORDERED = ("register", "lwwset", "rga")
# How often a line is a delivery, an update and a read: in the first half of a history, and in the second one. Where the
# updates come first there are several reads of what was done concurrently.
TURNS = [((5, 4, 3), (5, 4, 3)), ((1, 6, 0), (6, 0, 3)), ((3, 6, 0), (8, 0, 3))]
# Lines that most kinds reject, and lines that are none of the grammar in the kinds that this file alone draws.
OTHERS = ["inc", "dec @0", "write 3 @4", "add 4 @9", "add 3 #7", "remove 3 #2,1", "after 0 5 @3", "remove 2"]
BROKEN = ["a write", "a write -", "a write none", "a write 1,2", "a write 1 2", "a write 01", "a write #1", "write 1"]
BROKEN += ["a write 4294967296", "a write -1", "a read", "a read none", "a read -1", "a read 1,,2", "a read 1, 2"]
BROKEN += ["a read 1 2", "a read @1", "a update 1", "a update -", "a update @", "a updates", "update", "a part 1"]
BROKEN += ["a insert 0 1 0", "a read 4294967296", "a read 1,", "a  update", "a update ", "join n9", "a got -"]
HEADS = ["RAH 3 any", "RAH 1 Any", "RAH 1 any ", "RAH 2 mvregisters", "RAH 1 mv", "RAH 1 register", "RAH 2 counter"]
# One of this number of texts that are not honest has a line that is none of the grammar, another first line, or ends
# inside a line.
BROKEN_TEXTS, ODD_HEADS, CUT = 12, 40, 40


def written(numbers):
    return ",".join(map(str, numbers)) or "-"


class SmallAuthor:
    """Makes the lines of one history, and follows it in a monitor of the model."""

    def __init__(self, chance, kind, judge=cause_of, counts=COUNTS):
        self.chance, self.kind = chance, kind
        self.form, self.count = chance.one_of("112"), chance.one_of(counts)
        self.first_names = sorted(NAMES, key=lambda _: chance.draw())[: chance.one_of([1, 2, 2, 3, 3])]
        self.monitor = Monitor(kind, self.first_names, judge)
        self.names, self.labels = self.monitor.names, self.monitor.labels
        self.is_honest = chance.below(5) < 2
        self.diverges = not self.is_honest and kind in ORDERED and chance.below(3) > 0
        self.lies, self.oddities = chance.one_of(LIES), chance.one_of(ODDITIES)
        self.turns = chance.one_of(TURNS)
        # The numbers of all updates in the hidden order, and what a read of each set of updates is of the kind `any`.
        self.order, self.answers = [], {}

    def lies_now(self):
        """Where reads diverge, half of the histories have no lie."""
        return not self.is_honest and not (self.diverges and self.lies < 4) and self.chance.once_in(self.lies)

    # What the replicas have.

    def placed(self, order, number):
        """The order with this update anywhere behind what it sees."""
        sees = self.labels[number].sees
        low = max((at + 1 for at, it in enumerate(order) if it in sees), default=0)
        at = low + self.chance.below(len(order) + 1 - low)
        return [*order[:at], number, *order[at:]]

    def state(self, replica):
        """The state after what the replica has in the hidden order, or in another one. What is not admitted is left
        out."""
        order = self.order
        if self.diverges:
            order = []
            for number in sorted(self.order):
                order = self.placed(order, number)
        state = START[self.kind]
        for number in order:
            if number in self.monitor.had[replica]:
                update = self.labels[number].operation.update
                after = update.what(state, *update.given)
                state = state if after is None else after
        return state

    # Operations. Each is the line's body.

    def value(self):
        return 1 + self.chance.below(3)

    def clock(self, replica):
        """Above all that the replica has seen, mostly."""
        stamps = [it.stamp for it in self.labels if it.stamp and it.number in self.monitor.had[replica]]
        above = 1 + max((clock for clock, _ in stamps), default=0)
        return above if self.chance.below(4) else 1 + self.chance.below(9)

    def counter_update(self, replica):
        return self.chance.one_of(["inc", "inc", "dec"])

    def register_update(self, replica):
        return f"write {self.value()} @{self.clock(replica)}"

    def lwwset_update(self, replica):
        return f"{self.chance.one_of(['add', 'remove'])} {1 + self.chance.below(2)} @{self.clock(replica)}"

    def orset_update(self, replica):
        element, pairs = self.value(), self.state(replica)
        if self.chance.below(3):
            return f"add {element} #{1 + len(self.labels) - self.lies_now()}"
        element = self.chance.one_of(sorted(pairs))[0] if pairs else element
        identifiers = sorted(it for at, it in pairs if at == element)
        if self.lies_now():
            identifiers = sorted({*identifiers[1:], self.value()})
        return f"remove {element} #{written(identifiers)}"

    def rga_update(self, replica):
        has = [it for it, _ in self.state(replica)]
        elements, number = has, 1 + len(self.labels)
        if self.lies_now():
            elements, number = self.other_elements(has), self.chance.one_of([number] * 8 + has)
        if len(elements) > 1 and self.chance.once_in(4):
            return f"remove {self.chance.one_of(elements if elements != has else has[1:])}"
        return f"after {self.chance.one_of([0, *elements])} {number} @{self.clock(replica)}"

    def other_elements(self, has):
        """Mostly the elements of a list that others have inserted, or one that comes later or never, or the root."""
        given = [it.operation.update.given for it in self.labels if it.operation.update]
        others = [it[1] for it in given if len(it) == 2 and it[1] not in has]
        return self.chance.one_of([others] * 6 + [[len(self.labels) + 1 + self.chance.below(2)], [0, 0]])

    def mvregister_update(self, replica):
        return f"write {self.value()}"

    def any_update(self, replica):
        return "update"

    def update(self, replica):
        return getattr(self, f"{self.kind}_update")(replica)

    def read(self, replica):
        """What the replica has, or what another one has, or neither."""
        if self.lies_now() and self.chance.once_in(3):
            replica = self.chance.below(len(self.names))
        state = self.state(replica)
        if self.kind == "counter":
            return f"read {state + (self.chance.one_of([-1, 1]) if self.lies_now() else 0)}"
        if self.kind == "register":
            return f"read {self.chance.one_of(['none', self.value()]) if self.lies_now() else state}"
        if self.kind == "any":
            return f"read {self.answer(state)}"
        if self.kind == "rga":
            return f"read {self.listed([it for it, is_shown in state if is_shown])}"
        values = {"lwwset": lambda it: it, "orset": lambda it: it[0], "mvregister": lambda it: it[1]}
        return f"read {self.listed(sorted(set(map(values[self.kind], state))))}"

    def answer(self, state):
        """A number for this set of updates, the same one each time. Several sets may have one number."""
        number = self.answers.setdefault(state, self.chance.below(3))
        return self.chance.below(3) if self.lies_now() else number

    def listed(self, numbers):
        if self.lies_now():
            at = self.chance.below(len(numbers) + 1)
            early, one, late = numbers[:at], numbers[at : at + 1], numbers[at + 1 :]
            swapped, more = early + late[:1] + one + late[1:], early + [self.value()] + one + late
            others = [early + late, swapped, more, early + one + one + late]
            numbers = self.chance.one_of(others + ([swapped] * 3 + [numbers[::-1]] if self.kind == "rga" else []))
            is_sorted = self.kind != "rga" and self.chance.below(4)
            numbers = sorted({*numbers}) if is_sorted else numbers
        return written(numbers)

    # Lines.

    def delivery(self, replica):
        had = self.monitor.had[replica]
        lacking = [it for it in self.labels if it.operation.update and it.number not in had]
        ready = [it for it in lacking if it.sees <= had]
        if not lacking:
            return self.chance.one_of([self.update, self.read, self.read])(replica)
        return f"got {self.chance.one_of(lacking if self.lies_now() else ready).number}"

    def odd_line(self, replica):
        """A line that is rejected in most cases."""
        name, chance = self.names[replica], self.chance
        bodies = [self.update(replica), self.read(replica)]
        odd = [f"{name} {chance.one_of(OTHERS)}", f"nobody {chance.one_of([*bodies, *OTHERS])}", "verdict"]
        odd += [f"{name} {chance.one_of(bodies).split(' @')[0]} @{chance.below(3)}", f"{name} inc @1"]
        odd += [f"{name} got {chance.below(len(self.labels) + 2)}"] * 3
        if self.form == "2":
            odd += [f"join {name} {name}", f"join z {chance.one_of(['z', 'nobody'])}"]
        return chance.one_of(odd)

    def line(self):
        chance = self.chance
        replica = chance.below(len(self.names))
        if not self.is_honest and chance.once_in(self.oddities):
            return self.odd_line(replica)
        if self.form == "2" and len(self.names) < MOST_REPLICAS and chance.once_in(10):
            return f"join n{len(self.names)} {self.names[replica]}"
        acts, turns = (self.delivery, self.update, self.read), self.turns[2 * len(self.labels) >= self.count]
        act = chance.one_of([act for act, often in zip(acts, turns) for _ in range(often)])
        return f"{self.names[replica]} {act(replica)}"

    def lines(self):
        """The commands. Behind a violation up to two are left, which are answered alike."""
        lines = max(MOST_LINES, 4 * self.count)
        while lines > 0 and len(self.labels) < self.count:
            line = self.line()
            yield line
            self.follow(line)
            lines = min(lines - 1, self.chance.below(3)) if self.monitor.fault else lines - 1

    def follow(self, line):
        """Has the monitor answer the line, and puts an update into the hidden order."""
        before = len(self.labels)
        try:
            self.monitor.answer(command_of(self.form, self.kind, line))
        except NotOfTheGrammar:
            return
        if len(self.labels) > before and self.labels[before].operation.update:
            self.order = self.placed(self.order, before)

    def whole(self):
        """All lines of the history, first and second one included."""
        return [f"RAH {self.form} {self.kind}", " ".join(["replicas", *self.first_names]), *self.lines()]

    def text(self):
        """The bytes of the history, which may not parse."""
        lines, chance = self.whole(), self.chance
        if self.is_honest:
            return "".join(f"{it}\n" for it in lines).encode()
        if chance.once_in(ODD_HEADS):
            lines[0] = chance.one_of(HEADS)
        if chance.once_in(BROKEN_TEXTS):
            lines.insert(2 + chance.below(len(lines) - 1), chance.one_of(BROKEN))
        text = "".join(f"{it}\n" for it in lines).encode()
        return text[: chance.below(len(text))] if chance.once_in(CUT) else text


def history(chance, kind):
    """The bytes of one history."""
    return SmallAuthor(chance, kind).text()
