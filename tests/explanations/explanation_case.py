"""A history with a regular end, and each fact of its explanation as the model (tests/support/model.py) has it."""
from functools import cached_property

import model
from assertions import require
from explanation_orders import is_one_list, opinion_on, reported_labels

# The most changes of one sort that are tried of a list, and the most commands that are replayed for those of one sort.
MOST_TRIED, MOST_STEPS = 256, 1_048_576
ACCEPTED = ("ok ", "got ", "joined ", "no ")
INSERTS = ("after", "insert")


def listed(numbers):
    """The numbers as a line of the text lists them."""
    return ",".join(map(str, numbers)) or "-"


def element_of(words):
    """The element that the operation of this line inserts, adds or removes, or None."""
    place = {"add": 2, "remove": 2, "after": 3, "insert": 3}.get(words[1])
    return int(words[place]) if place and place < len(words) else None


class Case:
    """A text with a regular end, as the model answers it."""

    def __init__(self, text):
        self.replies, self.text = [], text
        self.monitor = model.run(text, self.replies)
        self.lines = text.decode().splitlines()
        self.head, self.fault = self.lines[:2], self.monitor.fault
        # The place of the violating operation among the commands.
        self.place = self.replies.index(self.fault) if self.fault else None
        accepted = [at for at, it in enumerate(self.replies) if it.startswith("ok ")]
        # The place of each label among the commands.
        self.places = accepted + ([self.place] if self.fault else [])
        self.refused = [at for at, it in enumerate(self.replies) if it.startswith("refused ")]
        self.tried = None
        # The program's own cycle and line that holds, once they are judged (explanation_lists.py).
        self.cycle, self.held = [], None
        # And its own claims by which no order explains the violation (explanation_certificates.py).
        self.claims = []
        # And what it says that the read can return (explanation_possible.py).
        self.possible = None

    # Lines.

    def said(self, place):
        """The line of the command at this place."""
        return self.lines[place + 2]

    def fields(self, place):
        return self.said(place).split(" ")

    def is_accepted(self, place):
        return self.replies[place].startswith(ACCEPTED)

    def line_of(self, label):
        """The number of the label's line, from 1."""
        return self.places[label] + 3

    def asked(self, sign):
        """What a picture says of the violating operation."""
        return f"{len(self.places) - 1}{sign}{self.said(self.place).partition(' ')[2]}"

    def drawn(self, place):
        """What a picture says of an accepted line before it."""
        word, number = self.replies[place].split(" ")
        body = self.said(place).partition(" ")[2]
        return {"ok": f"{number}: {body}", "got": f"got {number}", "joined": "joins"}[word]

    def end(self):
        """The last line of the check."""
        return f"end {self.fault or f'yes {len(self.monitor.labels)}'}"

    # Labels.

    @property
    def violating(self):
        return self.monitor.labels[-1]

    @property
    def cause(self):
        return self.fault.split(" ")[2]

    @property
    def name(self):
        """The name of the violating operation's replica."""
        return self.fields(self.place)[0]

    def maker(self, label):
        return self.monitor.names[self.monitor.labels[label].replica]

    def insertions(self, element):
        """The labels that insert the element into a list."""
        lines = {label: self.fields(at) for label, at in enumerate(self.places)}
        return [it for it, words in lines.items() if words[1] in INSERTS and element_of(words) == element]

    def needed_by(self, label):
        """The element of a list behind which the label inserts another one, or which it removes; else None."""
        words = self.fields(self.places[label])
        is_needing = self.monitor.kind == "rga" and words[1] in ("after", "remove")
        return int(words[2]) if is_needing else None

    def lacked(self, replica):
        monitor = self.monitor
        return [it.number for it in monitor.labels if it.operation.update and it.number not in monitor.had[replica]]

    def lacked_by_violating(self):
        return self.lacked(self.violating.replica)

    @cached_property
    def reported(self):
        """All labels that the text reports, whatever the monitor answers, and the number of the line of each."""
        return reported_labels(self.text)

    @cached_property
    def opinion(self):
        return opinion_on(self)

    @cached_property
    def one_list(self):
        return is_one_list(self)

    def arrival(self, name, label):
        """The place of the accepted delivery of this label to the replica, or None."""
        found = [at for at, it in enumerate(self.replies) if it == f"got {label}" and self.fields(at)[0] == name]
        return found[0] if found else None

    # The answer.

    def state_seen(self):
        """The state after the updates that the violating operation sees, or None where they are not admitted."""
        monitor = self.monitor
        seen = [it for it in model.named_labels(monitor.labels) if it.number in self.violating.sees]
        return model.state_after(monitor.kind, seen)

    def right(self):
        """The violating line with the expected answer; None where another cause fails, or where no answer holds."""
        if self.cause != "query" or self.monitor.kind in ("any", "mvregister"):
            return None
        state = self.state_seen()
        if state is None:
            return None
        if self.monitor.kind == "list" and self.fields(self.place)[1] not in ("read", "part"):
            return None
        return " ".join([*self.fields(self.place)[:-1], self.answered(state)])

    def answered(self, state):
        kind, words = self.monitor.kind, self.fields(self.place)
        if kind in ("counter", "register"):
            return str(state)
        if kind == "rga":
            return listed(element for element, is_shown in state if is_shown)
        if kind == "list":
            return listed(self.shown_in(state, words))
        if words[1] == "remove":
            return f"#{listed(sorted(identifier for element, identifier in state if element == int(words[2])))}"
        return listed(sorted({it[0] if kind == "orset" else it for it in state}))

    @staticmethod
    def shown_in(state, words):
        """The shown elements of a list in rising order; of a part those that are shown, each at its last place."""
        if words[1] == "read":
            return sorted(state.shown())
        part = [int(it) for it in words[2].split(",") if it != "-"]
        return [it for at, it in enumerate(part) if it in state.shown() and it not in part[at + 1 :]]

    # Changes that would make the violating operation hold.

    def holds_with(self, before, last):
        """Does the last line hold as a label behind these lines?"""
        replies = []
        model.run("".join(f"{it}\n" for it in [*self.head, *before, last]).encode(), replies)
        return replies[-1].startswith("ok ")

    def before(self, leaves_out=lambda place: False):
        """The accepted lines before the violating one, but for those left out."""
        return [
            self.said(place) for place in range(self.place) if self.is_accepted(place) and not leaves_out(place)
        ]

    def is_got(self, place, name):
        return self.is_accepted(place) and self.fields(place)[:2] == [name, "got"]

    def got_last(self, name):
        """Where something reached the replica since its last label, its join, or the join of another one from it."""
        found = []
        for place in range(self.place):
            words = self.fields(place)
            if self.is_got(place, name):
                found.append(place)
            elif self.is_accepted(place) and (words[0] == name or (words[0] == "join" and name in words[1:])):
                found = []
        return found

    def next_for(self, name):
        """Of each replica the first update that this one lacks, the latest first. None of the others would help."""
        labels, last = self.monitor.labels, self.said(self.place)
        first = {}
        for label in self.lacked(self.monitor.names.index(name)):
            if label != first.setdefault(labels[label].replica, label):
                require(not self.holds_with([*self.before(), f"{name} got {label}"], last), "another one helps", label)
        return sorted(first.values(), reverse=True)

    def made_changes(self):
        last, name = self.said(self.place), self.name
        most = min(MOST_STEPS // (self.place + 1), MOST_TRIED if self.monitor.kind in ("rga", "list") else MOST_STEPS)
        got = self.got_last(name)[::-1]
        lacked = self.next_for(name)
        for label in lacked if self.monitor.kind == "counter" else lacked[:most]:
            yield {"gets": label}, self.holds_with([*self.before(), f"{name} got {label}"], last)
        for at in got[:most]:
            yield {"misses_line": at + 3}, self.holds_with(self.before(lambda it: it == at), last)
        for at in got[1:][:most]:
            rest = self.before(lambda it: it >= at and self.is_got(it, name))
            yield {"comes_before_line": at + 3}, self.holds_with(rest, last)

    def changes(self):
        """Each change that is tried, and whether the operation holds with it, in the order in which it is printed."""
        if self.tried is None:
            self.tried = list(self.made_changes())
        return self.tried

    def remedies(self):
        """The changes that help."""
        return [it for it, holds in self.changes() if holds]
