"""Whether some sequence explains labels, decided by trying all that extend visibility, for the model (model.py).

Nothing here knows a named order or a law about a kind. Parts are placed one behind another, and a part only where the
placed ones admit it. Nothing is missed by that: whether an update is admitted depends on those before it alone, and the
updates that a query sees all stand before it.
"""
from itertools import permutations

from judgement import first_state, is_answered, linearizes, must_precede, parts_of


def is_visible_to(early, late):
    return early.number in late.sees


class Search:
    """The search for a sequence of the parts of these labels that extends an order of labels, at a parameter of the
    specification if it has one."""

    def __init__(self, kind, labels, parameter=None, precedes=must_precede):
        self.kind, self.labels, self.parameter = kind, labels, parameter
        self.parts = [part for label in labels for part in parts_of(label)]
        self.before = {part: self.predecessors(part, precedes) for part in self.parts}

    def predecessors(self, part, precedes):
        """The parts that must precede this one."""
        number, half = part
        late = self.labels[number]
        earlier = {it for early in self.labels if precedes(early, late) for it in parts_of(early)}
        return earlier | {(number, "query")} if half == "update" else earlier

    def found(self):
        """The first sequence that explains the labels, or None where none does."""
        return self.extended((), (), first_state(self.kind, self.parameter))

    def extended(self, sequence, changed, state):
        """The sequence with all other parts behind it, or None where they explain the labels in no way. Its updates are
        those of the labels `changed`, and lead to the state."""
        if len(sequence) == len(self.parts):
            return sequence
        placed = set(sequence)
        for part in self.parts:
            if part in placed or not self.before[part] <= placed:
                continue
            found = self.extended_by(part, sequence, changed, state)
            if found:
                return found
        return None

    def extended_by(self, part, sequence, changed, state):
        number, half = part
        label = self.labels[number]
        if half != "update" and not is_answered(self.kind, label, changed, self.parameter):
            return None
        if half != "query" and label.operation.update:
            what, given = label.operation.update
            changed, state = (*changed, label), what(state, *given)
        return None if state is None else self.extended((*sequence, part), changed, state)


def explaining_sequence(kind, labels, parameter=None):
    """The first sequence of the parts that is an RA-linearization of the labels, or None where none is."""
    return Search(kind, labels, parameter).found() if labels else ()


def is_explained_by_visibility_alone(kind, labels, parameter=None):
    """The same where a sequence need not keep the order in which a replica made its labels."""
    return Search(kind, labels, parameter, is_visible_to).found() is not None


def is_explained_literally(kind, labels, parameter=None):
    """The same by the definition alone: does one of all orders of the parts meet the three conditions?"""
    parts = [part for label in labels for part in parts_of(label)]
    return any(linearizes(kind, labels, it, parameter) for it in permutations(parts))
