"""Histories of the kind list, made by a seed.

Three of four are small: so few elements that the model tries all orders of them. Two of five of these are honest: all
replicas keep one order, each reports its list as it is, and every line is accepted. In the others a line is a lie now
and then: a read in another order or of another set, neighbours that are wrong, a number that was used before, a line to
be rejected or none of the grammar. In some of these each replica orders what was inserted concurrently by itself.

One of four has more elements, at one replica that reports parts of the list: a few elements in an order each, until
what it says is a cycle or it stops. A few of the others have more elements and reports at all their replicas, and fewer
lies.
"""
from model import GREATEST_NUMBER, Monitor, NotOfTheGrammar, command_of
from random_histories import Chance
from specification import insert_between, mark_removed

NAMES = ["a", "b", "c", "d", "e", "insert", "part", "remove", "got", "n9"]
MOST_NAMES, MOST_ELEMENTS, MOST_LABELS, MOST_LINES = 5, 5, 14, 60
# In a history that is not honest one of this number of lines is a lie, of one sort or of any, and one of this number
# is odd. A lie about the order shows only where something else was said of it, so most histories have that sort.
LIES, ODDITIES = [2, 3, 6], [5, 20, 1_000]
SORTS = ["order"] * 7 + ["set"] * 2 + ["number"]
# One of this number of histories that are not honest has a line that is none of the grammar, or another first line, or
# ends inside a line.
BROKEN, ODD_HEADS, CUT = 16, 80, 40
BROKEN_LINES = ["a insert", "a insert 0 1", "a insert 0 1 0 0", "a insert 0 1 @3", "a insert 0 1 0 @", ""]
BROKEN_LINES += ["a insert 0 1 -", "a insert 0 01 0", "a insert 0 4294967296 0", "a insert 0 1,2 0", "a insert 0 1 #0"]
BROKEN_LINES += ["a insert -1 1 0", "a inserts 0 1 0", "a  insert 0 1 0", "a insert 0 1 0 ", "insert 0 1 0"]
BROKEN_LINES += ["a part", "a part 1,", "a part 1 2", "a part none", "a part 01", "a part -1", "a part #1"]
BROKEN_LINES += ["a remove", "a remove -", "a remove 1,2", "a remove 1 2", "a read", "a read none", "a read 1 2"]
BROKEN_LINES += ["a part - -", "join n9", "join n9 a @1"]
HEADS = ["RAH 1 lists", "RAH 1 List", "RAH 2 list ", "RAH 3 list", "RAH 1 list rga", "RAH 1 rga", "RAH 2 counter"]
# Operations of other kinds.
OTHERS = ["inc", "dec @0", "write 3 @4", "add 4 @9", "add 3 #7", "remove 3 #2,1", "after 0 5 @3"]


class ListAuthor:
    """Makes the lines of one history, and follows it in a monitor of the model."""

    most_elements, most_lines, often = MOST_ELEMENTS, MOST_LINES, LIES
    label_counts = [4, 6, 8, 10, 12, MOST_LABELS, MOST_LABELS]

    def __init__(self, chance):
        self.chance, self.is_honest = chance, chance.below(5) < 2
        self.form = chance.one_of("12")
        self.first_names = sorted(NAMES, key=lambda _: chance.draw())[: 1 + chance.below(MOST_NAMES)]
        self.monitor = Monitor("list", self.first_names)
        self.names = self.monitor.names
        self.lies, self.oddities = chance.one_of(self.often), chance.one_of(ODDITIES)
        self.sorts = SORTS if chance.once_in(4) else [chance.one_of(SORTS)]
        numbers = [*range(1, self.most_elements + 4), GREATEST_NUMBER]
        self.unused = sorted(numbers, key=lambda _: chance.draw())[: self.most_elements]
        self.used = []
        # The order of the elements at each replica: one list for all of them, or one for each.
        self.diverges = not self.is_honest and chance.once_in(2)
        shared = []
        self.orders = [[] if self.diverges else shared for _ in self.names]

    # What the replicas have.

    def given_to(self, replica, step):
        """What the updates of this sort that the replica has were given."""
        updates = [it.operation.update for it in self.monitor.labels if it.number in self.monitor.had[replica]]
        return [it.given for it in updates if it.what is step]

    def elements(self, replica):
        """The elements that the replica has, removed ones too, in its order."""
        order, insertions = self.orders[replica], self.given_to(replica, insert_between)
        for left, element, right in insertions:
            if element not in order:
                self.place(order, left, element, right)
        found = {element for _, element, _ in insertions}
        return [it for it in order if it in found]

    def shown(self, replica):
        removed = {it for (it,) in self.given_to(replica, mark_removed)}
        return [it for it in self.elements(replica) if it not in removed]

    def lacking(self, replica):
        """The elements that only others have, or where there are none what the replica has."""
        elements = self.elements(replica)
        return [it for it in self.used if it not in elements] or elements or [0]

    def place(self, order, left, element, right):
        """Puts the element anywhere between its neighbours, or anywhere if these are the other way round."""
        low = order.index(left) + 1 if left in order else 0
        high = order.index(right) if right in order else len(order)
        low, high = (low, high) if low <= high else (0, len(order))
        order.insert(low + self.chance.below(high - low + 1), element)

    # Lies.

    def lies_about(self, *sorts):
        """The sort of these that the next line is a lie about, or None."""
        sort = self.chance.one_of(self.sorts)
        return sort if sort in sorts and not self.is_honest and self.chance.once_in(self.lies) else None

    def any_number(self):
        """Mostly an element that some replica has."""
        return self.chance.one_of([*self.used * 3, *self.unused, 0, 9])

    def other_order(self, elements):
        """Two neighbours the other way round, or a cut, reversed or any other order."""
        at, chance = self.chance.below(len(elements) + 1), self.chance
        swapped = elements[:at] + elements[at : at + 2][::-1] + elements[at + 2 :]
        others = [swapped, swapped, elements[at:] + elements[:at], elements[::-1]]
        return chance.one_of([*others, sorted(elements, key=lambda _: chance.draw())])

    def other_set(self, replica, elements):
        """A list with one element less, more, twice or exchanged."""
        at = self.chance.below(len(elements) + 1)
        number = self.chance.one_of([self.any_number(), *self.lacking(replica)])
        early, one, late = elements[:at], elements[at : at + 1], elements[at + 1 :]
        others = [early + late, early + one + one + late, early + [number] + one + late, early + [number] + late]
        return self.chance.one_of(others)

    def other_neighbours(self, replica, left, right):
        """The other way round, one of them on both sides, or any that the replica has."""
        elements = [0, *self.elements(replica)]
        one, other = self.chance.one_of(elements), self.chance.one_of(elements)
        return self.chance.one_of([(right, left), (one, one), (one, right), (left, one), (one, other), (one, other)])

    def other_numbers(self, left, element, right):
        """A neighbour that the replica may not have; a number that was used before, or that is its own neighbour."""
        others = [(self.any_number(), element, right), (left, element, self.any_number())]
        others += [(left, self.chance.one_of([0, *self.used * 2]), right)] * 4 + [(left, element, element)]
        return self.chance.one_of(others)

    # Operations. Each is the line's body.

    def insertion(self, replica):
        sort, chance = self.lies_about("order", "set", "number"), self.chance
        if not self.unused and sort != "number":
            return self.removal(replica)
        elements = chance.one_of([self.elements, self.shown])(replica)
        at = chance.below(len(elements) + 1)
        left, right = [0, *elements][at], [*elements, 0][at]
        # Whoever knows one neighbour alone, or none, reports 0.
        left, right = chance.one_of([(left, right)] * 4 + [(left, 0), (0, right), (0, 0)])
        element = chance.one_of(self.unused or self.used)
        if sort == "order":
            left, right = self.other_neighbours(replica, left, right)
        if sort == "set":
            other = chance.one_of(self.lacking(replica))
            left, right = chance.one_of([(other, right), (left, other)])
        given = self.other_numbers(left, element, right) if sort == "number" else (left, element, right)
        return "insert {} {} {}".format(*given)

    def removal(self, replica):
        """Mostly of a shown element, or of one that was removed before."""
        elements, sort = self.elements(replica), self.lies_about("set", "number")
        if sort:
            return f"remove {self.any_number() if sort == 'number' else self.chance.one_of(self.lacking(replica))}"
        if not elements:
            return self.read(replica)
        return f"remove {self.chance.one_of((self.shown(replica) or elements) * 3 + elements)}"

    def read(self, replica):
        return f"read {self.listed(replica, self.shown(replica))}"

    def part(self, replica):
        return f"part {self.listed(replica, [it for it in self.shown(replica) if self.chance.below(3)])}"

    def listed(self, replica, elements):
        sort = self.lies_about("order", "set")
        if sort:
            elements = self.other_order(elements) if sort == "order" else self.other_set(replica, elements)
        return ",".join(map(str, elements)) or "-"

    def update(self, replica):
        return self.removal(replica) if self.chance.once_in(4) else self.insertion(replica)

    # Lines.

    def delivery(self, replica):
        labels, had = self.monitor.labels, self.monitor.had[replica]
        lacking = [it for it in labels if it.operation.update and it.number not in had]
        ready = [it for it in lacking if it.sees <= had]
        if not lacking:
            return self.update(replica)
        return f"got {self.chance.one_of(lacking if self.lies_about('set') else ready).number}"

    def join(self, replica):
        free = next(it for it in NAMES if it not in self.names)
        return f"join {free} {self.names[replica]}"

    def odd_line(self, replica):
        """A line that is rejected in most cases."""
        name, chance = self.names[replica], self.chance
        bodies = [self.update(replica), self.read(replica), self.part(replica)]
        odd = [f"{name} {chance.one_of(OTHERS)}", f"nobody {chance.one_of([*bodies, *OTHERS])}", "verdict"]
        odd += [f"{name} {chance.one_of(bodies)} @{chance.below(3)}", f"{name} inc @1"]
        odd += [f"{name} got {chance.below(len(self.monitor.labels) + 2)}"] * 3
        if self.form == "2":
            odd += [f"join {name} {name}", f"join z {chance.one_of(['z', 'nobody'])}"]
        return chance.one_of(odd)

    def line(self):
        chance = self.chance
        replica = chance.below(len(self.names))
        if not self.is_honest and chance.once_in(self.oddities):
            return self.odd_line(replica)
        if self.form == "2" and len(self.names) < MOST_NAMES and chance.once_in(12):
            return self.join(replica)
        acts = [self.delivery] * 6 + [self.update] * 3 + [self.read] * 3 + [self.part] * 2
        return f"{self.names[replica]} {chance.one_of(acts)(replica)}"

    def lines(self):
        """The commands. Behind a violation up to two are left, which are answered alike."""
        labels, lines = self.chance.one_of(self.label_counts), self.most_lines
        while lines > 0 and len(self.monitor.labels) < labels:
            line = self.line()
            yield line
            self.follow(line)
            lines = min(lines - 1, self.chance.below(3)) if self.monitor.fault else lines - 1

    def follow(self, line):
        """Has the monitor answer the line, and keeps what it says of numbers and replicas."""
        try:
            command = command_of(self.form, "list", line)
        except NotOfTheGrammar:
            return
        reply = self.monitor.answer(command)
        if reply.startswith("joined "):
            source = self.orders[self.names.index(command.source)]
            self.orders.append([*source] if self.diverges else source)
        update = command.operation.update if reply.startswith("ok ") else None
        if update and update.what is insert_between:
            self.inserts(self.names.index(command.name), *update.given)

    def inserts(self, replica, left, element, right):
        self.unused = [it for it in self.unused if it != element]
        self.used.append(element)
        self.place(self.orders[replica], left, element, right)

    def text(self):
        """The bytes of the history."""
        chance = self.chance
        lines = [f"RAH {self.form} list", " ".join(["replicas", *self.first_names]), *self.lines()]
        if not self.is_honest and chance.once_in(ODD_HEADS):
            lines[0] = chance.one_of(HEADS)
        if not self.is_honest and chance.once_in(BROKEN):
            lines.insert(2 + chance.below(len(lines) - 1), chance.one_of(BROKEN_LINES))
        text = "".join(f"{it}\n" for it in lines).encode()
        return text[: chance.below(len(text))] if not self.is_honest and chance.once_in(CUT) else text


class LongerAuthor(ListAuthor):
    """The same with more elements than the model tries all orders of."""

    most_elements, most_lines, often = 12, 160, [10, 30, 90]
    label_counts = [20, 30, 40]


class PartsAuthor:
    """Makes the lines of a history whose parts say edge after edge of some hidden order, or now and then against it."""

    def __init__(self, chance):
        self.chance = chance
        self.order = sorted(range(1, chance.one_of([7, 8, 10, 12]) + 1), key=lambda _: chance.draw())
        self.lies = chance.one_of([10, 20, 40, 1_000])

    def insertion(self, element, before):
        """Some have neighbours among those that were inserted before."""
        at = self.order.index(element)
        left = [it for it in before if self.order.index(it) < at]
        right = [it for it in before if self.order.index(it) > at]
        neighbours = [self.chance.one_of([0, 0, *its[:1], *its[-1:]]) for its in (left, right)]
        return f"a insert {neighbours[0]} {element} {neighbours[1]}"

    def part(self, elements):
        """Two to four elements in the hidden order, or in another one."""
        some = sorted(elements, key=lambda _: self.chance.draw())[: self.chance.one_of([2, 2, 2, 3, 4])]
        if not self.chance.once_in(self.lies):
            some.sort(key=self.order.index)
        return f"a part {','.join(map(str, some))}"

    def lines(self):
        before = []
        for element in sorted(self.order, key=lambda _: self.chance.draw()):
            yield self.insertion(element, before)
            before.append(element)
            if len(before) > 1:
                yield from (self.part(before) for _ in range(self.chance.below(3)))
        yield from (self.part(before) for _ in range(self.chance.below(2 * len(before))))
        yield f"a read {','.join(map(str, self.order))}"

    def text(self):
        """The bytes of the history."""
        return "".join(f"{it}\n" for it in ["RAH 1 list", "replicas a", *self.lines()]).encode()


def author_of(chance):
    if Chance(f"parts {chance.seed}").once_in(4):
        return PartsAuthor(chance)
    return (LongerAuthor if Chance(f"longer {chance.seed}").once_in(12) else ListAuthor)(chance)


def history(chance):
    """The bytes of one history."""
    return author_of(chance).text()
