"""Whether some sequence explains the labels of a counter, register, set or RGA, decided without trying any, for the
model (model.py).

For a counter and an OR-Set every order that respects visibility leads to the same answers, so the order of acceptance
decides. For the three other kinds some sequence exists if and only if two things hold:

- no label is wrong in all orders (`first_wrong`);
- some order of the updates meets all conditions of the labels (`conditions_of`): each says of some updates that they
  stand before at least one of some others.

`order_of` finds such an order from its end, in time linear in the size of the conditions: it puts last whatever no open
condition holds back. What it cannot put is stuck: each has to stand before one of the others, so none can be the last.
"""
from collections import Counter
from typing import NamedTuple, Optional

from judgement import failure_of
from specification import hide, insert_after, put_in, take_out


class Condition(NamedTuple):
    """Each of the early updates stands before at least one of the late ones, by this reason, as a label says."""

    early: frozenset
    late: frozenset
    reason: str
    label: int


class Wrong(NamedTuple):
    """A label that no order explains, and why: `repeated`, `absent`, `open`, `shown`, `below` or `unseen`."""

    label: int
    reason: str


class Decision(NamedTuple):
    """The numbers of all updates in an order that explains the labels; or a label that is wrong in all orders; or the
    updates that are stuck, and the conditions on all updates."""

    order: Optional[tuple] = None
    wrong: Optional[Wrong] = None
    stuck: frozenset = frozenset()
    conditions: tuple = ()


def queries_of(labels):
    return [it for it in labels if it.operation.query]


def updates_of(labels):
    return [it for it in labels if it.operation.update]


def visible_updates(query, labels):
    return [labels[it] for it in sorted(query.sees)]


def visibility_conditions(labels):
    """An update stands behind each one that it sees."""
    for late in updates_of(labels):
        for early in late.sees:
            yield Condition(frozenset([early]), frozenset([late.number]), "sees", late.number)


# Registers and LWW sets: the last one of the updates that a query sees decides, for a set the last one of each element.


def values_of_register(query, labels):
    """What the query asks about: the visible writes of its value, and those of another one."""
    (value,) = query.operation.query.given
    writes = visible_updates(query, labels)
    right = frozenset(it.number for it in writes if it.operation.update.given == (value,))
    return [(right, query.sees - right)] if writes or value != "none" else []


def values_of_set(query, labels):
    """For each element that is read or that has a visible update: the visible updates after which it is read as it is,
    and the others."""
    (elements,) = query.operation.query.given
    updates = visible_updates(query, labels)
    for element in sorted({*elements, *(it.operation.update.given[0] for it in updates)}):
        step = put_in if element in elements else take_out
        ours = frozenset(it.number for it in updates if it.operation.update.given == (element,))
        right = frozenset(it for it in ours if labels[it].operation.update.what is step)
        yield right, ours - right


def wrong_by_last(asked, labels):
    """A query is wrong if no visible update leads to what it returned."""
    for query in queries_of(labels):
        if not all(right for right, _ in asked(query, labels)):
            yield Wrong(query.number, "unseen")


def conditions_of_last(asked, labels):
    """The last one of the visible updates is one of those that lead to what the query returned, if and only if each of
    the others stands before one of them."""
    for query in queries_of(labels):
        for right, others in asked(query, labels):
            if others:
                yield Condition(others, right, "last", query.number)


# RGA: the list after some updates is the tree of anchors, read from the root, the children of an element from the last
# inserted one to the first.


class Tree:
    """Which label inserts which element, and the anchors, if no element is inserted twice."""

    def __init__(self, labels):
        insertions = [it for it in updates_of(labels) if it.operation.update.what is insert_after]
        self.inserting = {it.operation.update.given[1]: it.number for it in reversed(insertions)}
        self.anchors = {it.operation.update.given[1]: it.operation.update.given[0] for it in reversed(insertions)}

    def way_to(self, element):
        """The elements from a child of the root down to this one, or None where the anchors do not lead to the root."""
        way = []
        while element != 0:
            if element in way or element not in self.anchors:
                return None
            way.append(element)
            element = self.anchors[element]
        return way[::-1]

    def fork(self, left, right):
        """Where the ways to two elements part: the next element on each, or None on a way that is the whole of it."""
        one, other = self.way_to(left), self.way_to(right)
        at = next((it for it in range(min(len(one), len(other))) if one[it] != other[it]), min(len(one), len(other)))
        return (one[at] if at < len(one) else None), (other[at] if at < len(other) else None)


def needed_by(label):
    """The element that has to exist before this update: an anchor or what is removed. None at the start of the list,
    since the root always exists."""
    what, given = label.operation.update
    return None if what is insert_after and given[0] == 0 else given[0]


def wrong_updates_of_rga(labels, tree):
    """No element is inserted twice, nor the root; what is needed is inserted by another label, and anchors lead to the
    root, which is not removed."""
    for label in updates_of(labels):
        what, given = label.operation.update
        if what is insert_after and (given[1] == 0 or tree.inserting[given[1]] != label.number):
            yield Wrong(label.number, "repeated")
        elif needed_by(label) == 0 or tree.way_to(given[1] if what is insert_after else given[0]) is None:
            yield Wrong(label.number, "absent")


def shown_to(query, labels):
    """The elements that its visible updates insert and do not remove."""
    updates = [it.operation.update for it in visible_updates(query, labels)]
    removed = {it.given[0] for it in updates if it.what is hide}
    return {it.given[1] for it in updates if it.what is insert_after} - removed


def wrong_query_of_rga(query, labels, tree):
    """Why no order explains the query, or None."""
    (elements,) = query.operation.query.given
    needed = [it for it in map(needed_by, visible_updates(query, labels)) if it is not None]
    if not all(tree.inserting[it] in query.sees for it in needed):
        return "open"
    if sorted(elements) != sorted(shown_to(query, labels)):
        return "shown"
    if any(tree.fork(*pair)[1] is None for pair in zip(elements, elements[1:])):
        return "below"
    return None


def wrong_labels_of_rga(labels):
    """The queries are looked at only where the updates make a tree."""
    tree = Tree(labels)
    updates = list(wrong_updates_of_rga(labels, tree))
    reasons = [] if updates else [(it.number, wrong_query_of_rga(it, labels, tree)) for it in queries_of(labels)]
    return [*updates, *(Wrong(number, reason) for number, reason in reasons if reason)]


def conditions_of_rga(labels):
    """What is needed stands before; and of two neighbours in a read, neither of which is above the other, the left one
    is below the child that is inserted later."""
    tree = Tree(labels)
    for label in updates_of(labels):
        needed = needed_by(label)
        if needed is not None:
            yield Condition(frozenset([tree.inserting[needed]]), frozenset([label.number]), "needs", label.number)
    for query in queries_of(labels):
        (elements,) = query.operation.query.given
        for left, right in (tree.fork(*pair) for pair in zip(elements, elements[1:])):
            if left is not None:
                early, late = tree.inserting[right], tree.inserting[left]
                yield Condition(frozenset([early]), frozenset([late]), "read", query.number)


# The decision.


def wrong_labels_of(kind, labels):
    if kind == "rga":
        return wrong_labels_of_rga(labels)
    return list(wrong_by_last(values_of_register if kind == "register" else values_of_set, labels))


def conditions_of(kind, labels):
    """All conditions, if no label is wrong in all orders."""
    if kind == "rga":
        more = conditions_of_rga(labels)
    else:
        more = conditions_of_last(values_of_register if kind == "register" else values_of_set, labels)
    return (*visibility_conditions(labels), *more)


def order_of(updates, conditions):
    """An order of these numbers that meets the conditions, from its end; and those that are stuck."""
    held, waiting = Counter(it for one in conditions for it in one.early), {it: [] for it in updates}
    for at, one in enumerate(conditions):
        for late in one.late:
            waiting[late].append(at)
    free, met, order = [it for it in updates if not held[it]], set(), []
    while free:
        last = free.pop()
        order.append(last)
        for at in waiting[last]:
            freed = () if at in met else conditions[at].early
            met.add(at)
            for early in freed:
                held[early] -= 1
                free += [early] if not held[early] else []
    return tuple(reversed(order)), frozenset(updates) - frozenset(order)


def some_order(kind, labels):
    """Whether some sequence explains the labels, with what shows it."""
    updates = tuple(it.number for it in updates_of(labels))
    if kind in ("counter", "orset"):
        return Decision(order=None if failure_of(kind, labels) else updates)
    wrong = wrong_labels_of(kind, labels)
    if wrong:
        return Decision(wrong=min(wrong))
    conditions = conditions_of(kind, labels)
    order, stuck = order_of(updates, conditions)
    return Decision(conditions=conditions, **({"stuck": stuck} if stuck else {"order": order}))


def sequence_of(labels, order):
    """The parts of all labels, with the updates in this order: each one behind the queries that its replica made before
    it, and the other queries at the end. (For the kinds whose labels have one part each.)"""
    numbers = []
    for number in order:
        replica = labels[number].replica
        before = [it.number for it in queries_of(labels[:number]) if it.replica == replica]
        numbers += [it for it in before if it not in numbers] + [number]
    numbers += [it.number for it in labels if it.number not in numbers]
    return [(it, "whole") for it in numbers]


def is_stuck(numbers, conditions):
    """Can none of these updates be the last of them, whatever the order?"""
    held = {it for one in conditions if one.late <= numbers for it in one.early}
    return bool(numbers) and numbers <= held


def any_order_cause(kind, labels):
    """Why no sequence explains the labels, or None where one does: a judge of a `Monitor`."""
    decision = some_order(kind, labels)
    if decision.order is not None:
        return None
    return decision.wrong.reason if decision.wrong else "stuck" if decision.stuck else failure_of(kind, labels)


# One list: whether one order of the elements explains all reads of an RGA, wherever their anchors are.


def is_one_list(labels):
    """Does each read return what its visible updates insert and do not remove, each once, and do the neighbours in all
    reads make no cycle?"""
    reads = [(it.operation.query.given[0], it) for it in queries_of(labels)]
    if not all(sorted(elements) == sorted(shown_to(query, labels)) for elements, query in reads):
        return False
    edges = {pair for elements, _ in reads for pair in zip(elements, elements[1:])}
    remaining = {it for elements, _ in reads for it in elements}
    while remaining:
        first = {it for it in remaining if not any((other, it) in edges for other in remaining)}
        if not first:
            return False
        remaining -= first
    return True
