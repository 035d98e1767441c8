"""The picture of an explanation by the model: which rows and columns it has, what each shows, and that in letters."""
from collections import namedtuple

from explanation_arrows import HEAD, cell_of, named_labels, width_of_cells
from explanation_case import INSERTS, element_of
from explanation_text import MOST_REMEDIES, answer_of, words_of

# The most entries of a short history up to the violating one, all of which are drawn, and of a longer one for what a
# certificate names; and those of a longer one.
MOST_ENTRIES, FEW_ENTRIES = 19, 16
# The latest updates of an element at which the answers differ that are drawn, and the most replicas with a column.
MOST_NAMING, MOST_COLUMNS = 2, 8
# In letters: where the first column begins, how wide a page is, and how wide a column is at most.
MARGIN, PAGE, WIDEST = 16, 100, 28
# A row: what stands at its head, its words, the replica that it comes from, if from another one, and the one that has
# it then; the place in the log at which it stands; whether it is dashed, and whether it is the violating operation.
Row = namedtuple("Row", "head words source target place dashed asked")


# What is drawn.


class Choice:
    """The places of the entries that are drawn: all of a short history, else the first of each sort that have room."""

    def __init__(self, case, claims):
        self.case, self.places = case, [case.place]
        if case.place < MOST_ENTRIES:
            self.add(range(case.place), MOST_ENTRIES)
            return
        self.add([case.places[label] for label in named_labels(claims)], MOST_ENTRIES)
        self.add(self.places_of_a_cycle())
        self.add(self.places_of_remedies())
        self.add(self.places_of_needs())
        self.add(self.places_of_differences())
        self.add_the_latest()

    def add(self, places, most=FEW_ENTRIES):
        for at in places:
            is_drawn = self.case.replies[at].startswith(("ok ", "got ", "joined "))
            if len(self.places) < most and at not in self.places and is_drawn:
                self.places.append(at)

    def places_of_a_cycle(self):
        """The labels of a cycle of a list's elements, and then where they reached the replica."""
        labels = [it["label"] for it in self.case.cycle]
        arrivals = [self.case.arrival(self.case.name, it) for it in labels]
        yield from [*(self.case.places[it] for it in labels), *(it for it in arrivals if it is not None)]

    def places_of_remedies(self):
        for change in self.case.remedies()[:MOST_REMEDIES]:
            [(sort, number)] = change.items()
            yield self.case.places[number] if sort == "gets" else number - 3

    def places_of_needs(self):
        """Where the element was inserted that is inserted here again, and the one that is needed."""
        case, words = self.case, self.case.fields(self.case.place)
        elements = [element_of(words)] if words[1] in INSERTS else []
        if case.monitor.kind == "list" and words[1] in ("insert", "remove"):
            elements += [int(it) for it in words[2::2]]
        for element in [*elements, case.needed_by(len(case.places) - 1)]:
            if element is not None:
                yield from (case.places[it] for it in case.insertions(element)[:1])

    def differing_elements(self):
        """Of two lists those at the first difference; of two sets the first that is missing and that is too much."""
        case, right = self.case, self.case.right()
        words = case.fields(case.place)
        if right is None or case.monitor.kind in ("counter", "register"):
            return []
        if words[1] == "remove":
            return [int(words[2])]
        reported, right = answer_of(words), answer_of(right.split(" "))
        if case.monitor.kind == "rga":
            place = next((at for at, it in enumerate(zip(reported, right)) if it[0] != it[1]), None)
            place = min(len(reported), len(right)) if place is None else place
            return [*reported[place : place + 1], *right[place : place + 1]]
        # Of a list's read too: it is compared as a set.
        sorts = [[it for it in one if it not in other] for one, other in ((right, reported), (reported, right))]
        return [it[0] for it in sorts if it]

    def places_of_differences(self):
        """The latest updates of these elements, and where they reached the replica."""
        case = self.case
        for element in self.differing_elements():
            of_it = [it for it, at in enumerate(case.places[:-1]) if element_of(case.fields(at)) == element]
            for label in of_it[::-1][:MOST_NAMING]:
                arrival = case.arrival(case.name, label)
                yield from [case.places[label]] + ([arrival] if arrival is not None else [])

    def add_the_latest(self):
        """What the replica did and what was delivered to it last, each delivery with its label."""
        case = self.case
        for at in range(case.place)[::-1]:
            words = case.fields(at)
            if case.is_got(at, case.name):
                label = int(words[2])
                self.add([at, *case.places[label : label + 1]])
            elif words[0] == case.name or words[:2] == ["join", case.name]:
                self.add([at])
            if len(self.places) >= FEW_ENTRIES:
                return


def ends_of(case, place):
    """The replica that an entry comes from, if from another one, and the one that has it then."""
    words = case.fields(place)
    if words[0] == "join":
        return words[2], words[1]
    return (case.maker(int(words[2])) if words[1] == "got" else None), words[0]


class Picture:
    """The columns, by the numbers of their replicas, and the rows; of a fold the number of entries. Without claims it
    is that of a violation of which it is not asked whether another order explains it."""

    def __init__(self, case, claims):
        self.case, self.claims = case, claims
        places = sorted(Choice(case, claims).places)
        self.columns = self.columns_of(places)
        self.rows, following = [], 0
        for at in places:
            if ends_of(case, at)[1] not in self.columns:
                continue
            self.rows += [at - following] if at > following else []
            self.rows += self.rows_at(at)
            following = at + 1

    def columns_of(self, places):
        found = [self.case.name]
        names = [self.case.maker(label) for label in named_labels(self.claims)]
        for name in [*names, *(name for at in places for name in ends_of(self.case, at))]:
            if name and name not in found and len(found) < MOST_COLUMNS:
                found.append(name)
        return sorted(found, key=self.case.monitor.names.index)

    def rows_at(self, at):
        """The row of the entry, behind those of the remedies that concern it."""
        case = self.case
        is_asked, dashed = at == case.place, False
        for change in case.remedies()[:MOST_REMEDIES]:
            if "gets" in change and is_asked:
                label = change["gets"]
                yield Row("or with", f"got {label}", case.maker(label), case.name, at, True, False)
            elif change.get("comes_before_line") == at + 3:
                yield Row("or here", case.asked(": "), None, case.name, at, True, True)
            dashed = dashed or change.get("misses_line") == at + 3
        words = case.asked("? ") if is_asked else case.drawn(at)
        yield Row(f"line {at + 3}", words, *ends_of(case, at), at, dashed, is_asked)

    def begins(self, name):
        """The place of the replica's join, or 0 where it exists from the start."""
        joins = [at for at, it in enumerate(self.case.replies) if it.startswith("joined ")]
        return next((at for at in joins if self.case.fields(at)[1] == name), 0)

    def left_out(self):
        count = len(self.case.monitor.names) - len(self.columns)
        return f"{count} more replica{' is' if count == 1 else 's are'} not drawn" if count else ""


# In letters.


class Letters:
    """A picture in letters."""

    def __init__(self, picture):
        self.picture, self.columns = picture, picture.columns
        self.margin = MARGIN + width_of_cells(picture)
        self.width = min(WIDEST, (PAGE - self.margin) // len(self.columns))

    def lines(self):
        yield ""
        yield self.names()
        for row in self.picture.rows:
            yield f".. ({row} more)" if isinstance(row, int) else self.line(row)
        yield from filter(None, [self.picture.left_out()])

    def start(self, name):
        return self.margin + self.columns.index(name) * self.width

    def names(self):
        line = [" "] * PAGE
        if self.margin > MARGIN:
            line[MARGIN : MARGIN + len(HEAD)] = HEAD
        for name in self.columns:
            # Of a long name the end is shown, behind two points, and a space stands behind it.
            room = self.width - 3
            shown = name if len(name) < self.width else f"..{name[-room:]}"
            line[self.start(name) : self.start(name) + len(shown)] = shown
        return "".join(line).rstrip()

    def line(self, row):
        line = [" "] * PAGE
        line[: len(row.head)] = row.head
        cell = cell_of(self.picture, row)
        line[MARGIN : MARGIN + len(cell)] = cell
        for name in self.columns:
            if self.picture.begins(name) <= row.place:
                line[self.start(name)] = "|"
        if row.source in self.columns:
            self.draw_arrow(line, row)
        words = row.words if len(row.words) <= self.width else f"{row.words[: self.width - 3]}.. "
        line[self.start(row.target) : self.start(row.target) + len(words)] = words
        return "".join(line).rstrip()

    def draw_arrow(self, line, row):
        """From the column of its source to that of its target, where the words keep their room; dashed between bars."""
        source, target = self.start(row.source), self.start(row.target)
        tip = target - 2 if source < target else target + len(row.words) + 1
        shaft = range(source + 1, tip) if source < target else range(tip + 1, source)
        for at in shaft[:: 2 if row.dashed else 1]:
            if not row.dashed or line[at] == " ":
                line[at] = "-"
        line[tip] = ">" if source < target else "<"


def page_of(case):
    """The whole page in words."""
    lines = [case.end(), *words_of(case)]
    picture = Letters(Picture(case, case.claims)).lines() if case.fault else []
    return "".join(f"{it}\n" for it in [*lines, *picture])
