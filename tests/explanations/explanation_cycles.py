"""Histories that no order explains, with certificates of each size: fewer lines than a picture shows, and more; and
random ones.

Of each replica a label has to come before one of the next replica, and of the last one before one of the first.
"""
from explanation_case import listed
from explanation_bounds import NAMES, text_of


def updates_in_a_cycle(names):
    """Of an LWW set: replica k adds element k and removes element k + 1, each by a greater clock than the one before."""
    for at, name in enumerate(names):
        yield f"{name} add {at + 1} @{2 * at + 1}"
        yield f"{name} remove {(at + 1) % len(names) + 1} @{2 * at + 2}"


def cycles_of_one_read():
    """A replica sees all updates and lists all elements, as no order explains."""
    for count, others in ((count, others) for count in (1, 2, 3, 7, 8, 9, 10) for others in (0, 20)):
        names = NAMES[:count]
        made = [*updates_in_a_cycle(names), *(f"z add 70 @{100 + it}" for it in range(others))]
        gets = [f"z got {it}" for it in range(2 * count)]
        read = f"z read {listed([*range(1, count + 1), *[70] * bool(others)])}"
        yield text_of("lwwset", [*names, "z"], [*made, *gets, read])
        # Columns are those of the certificate, also where other replicas come first.
        early = [f"y{it} add 80 @{200 + it}" for it in range(9)]
        late = [f"z got {it + 9}" for it in range(2 * count)]
        yield text_of("lwwset", [*(f"y{it}" for it in range(9)), *names, "z"], [*early, *made, *late, read])


def cycles_of_many_reads():
    """Each replica sees the updates of the one before it, and lists their elements. The first one comes last."""
    for count, others in ((count, others) for count in (3, 5, 7, 8, 10) for others in (0, 20)):
        names = NAMES[:count]
        lines = [*updates_in_a_cycle(names), *(f"z add 70 @{100 + it}" for it in range(others))]
        for at in [*range(1, count), 0]:
            before = (at - 1) % count
            lines += [f"{names[at]} got {2 * before + it}" for it in (0, 1)]
            lines.append(f"{names[at]} read {listed(sorted([before + 1, at + 1]))}")
        yield text_of("lwwset", [*names, "z"], lines)


def choices():
    """A register's reads that leave a choice of one, two or more writes, in short and long histories."""
    for count, others in ((count, others) for count in (1, 2, 3, 7, 18) for others in (0, 20)):
        names = NAMES[:count]
        made = [f"{it} write 7 @{at + 1}" for at, it in enumerate(names)]
        made += ["y write 9 @90", *(f"z write 5 @{100 + it}" for it in range(others))]
        reads = []
        for name in names:
            reads += [f"{name} got {count}", f"{name} read 9"]
        gets = [f"x got {it}" for it in range(count + 1)]
        yield text_of("register", [*names, "x", "y", "z"], [*made, *reads, *gets, "x read 7"])


def insertions_behind_themselves():
    """A label that has to come before itself, which is the violating one, in a short and in a long history."""
    for others in (0, 20):
        made = [f"a after 0 {70 + it} @{it + 1}" for it in range(others)]
        yield text_of("rga", "ab", [*made, "b after 3 3 @90"])
        yield text_of("rga", "ab", [*made, "b after 3 3 @90", "b read 3"])


class Author:
    """Makes a history in which a replica sees all updates and reads whatever is drawn: often no order explains it."""

    def __init__(self, chance):
        self.chance, self.kind = chance, chance.one_of(["lwwset", "lwwset", "rga"])
        self.names = NAMES[: 1 + chance.below(4)]
        # The elements that each replica has, and the number of the labels that it has received, from the first on.
        self.elements, self.received = {it: [0] for it in self.names}, dict.fromkeys(self.names, 0)
        self.labels, self.anchors = [], {}

    def text(self):
        lines = [line for _ in range(2 + self.chance.below(9)) for line in self.lines_of_update()]
        lines += [f"y {self.update('y', 70 + it)}" for it in range(self.chance.one_of([0, 0, 20]))]
        gets = [f"z got {it}" for it in range(len(self.labels))]
        return text_of(self.kind, [*self.names, "y", "z"], [*lines, *gets, f"z read {self.answer()}"]).encode()

    def lines_of_update(self):
        """An update of one replica, which receives some of the others' before it."""
        name = self.chance.one_of(self.names)
        first = self.received[name]
        self.received[name] = first + self.chance.below(len(self.labels) - first + 1)
        for label in range(first, self.received[name]):
            author, element = self.labels[label]
            if author != name:
                self.elements[name].append(element)
                yield f"{name} got {label}"
        yield f"{name} {self.update(name, len(self.labels) + 1)}"

    def update(self, name, number):
        """The update with this clock. Of a list it inserts this number, behind an element that the replica has."""
        if self.kind == "lwwset":
            element = 1 + self.chance.below(2)
            line = f"{self.chance.one_of(['add', 'remove'])} {element} @{number}"
        else:
            element, anchor = number, self.chance.one_of(self.elements.get(name, [0]))
            line = f"after {anchor} {element} @{number}"
            self.anchors[element] = anchor
        if name in self.elements:
            self.elements[name].append(element)
            self.labels.append((name, element))
        return line

    def answer(self):
        if self.kind == "lwwset":
            return listed(it for it in (1, 2) if self.chance.below(3))
        order, left = [0], [element for _, element in self.labels]
        while left:
            ready = [it for it in left if self.anchors[it] in order]
            order.append(self.chance.one_of(ready))
            left.remove(order[-1])
        return listed(order[1:])


def random_history(chance):
    return Author(chance).text()


SORTS = [cycles_of_one_read, cycles_of_many_reads, choices, insertions_behind_themselves]
