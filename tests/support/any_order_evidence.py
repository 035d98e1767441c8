"""What shows that some sequence explains the labels of a register, LWW set or RGA, or that none does, each held against
the definition, for the model (model.py).

An order of all updates shows that one does (`explains`). A refutation shows that none does (`refutes`): a label that no
order can make right, or updates each of which stands before one of the others. How either was found does not matter:
nothing here uses the conditions of any_order.py but `refutation_of`, which writes down what they decided.
`explaining_sequences` is the definition itself, one sequence after another.
"""
from typing import NamedTuple, Optional

from any_order import Tree, needed_by, queries_of, sequence_of, updates_of, visible_updates
from judgement import failure_of, linearizes, must_precede
from specification import hide, insert_after, put_in


class Fault(NamedTuple):
    """A label that no order makes right, by this reason (any_order.py), and what the reason is about: of `repeated` the
    label that inserts the element too, if it is not the root; of `open` the update whose element is not visible; of
    `below` the upper and the lower element; of `unseen` in a set its element. Otherwise nothing."""

    label: int
    reason: str
    about: Optional[object] = None


class Held(NamedTuple):
    """An update that is not the last one, by this reason, as a label says, and what the reason is about: of `read` the
    two neighbours, of `last` in a set its element. Otherwise nothing."""

    update: int
    reason: str
    label: int
    about: Optional[object] = None


class Refutation(NamedTuple):
    """A label that is wrong in all orders; or updates that are stuck, each with why it is not the last of them. Of an
    RGA they are a cycle: each stands before the next one, and the last one before the first."""

    fault: Optional[Fault] = None
    stuck: tuple = ()


# The definition.


def sequences(labels):
    """All orders of the labels that extend visibility and the order of each replica."""
    before = {late.number: {it.number for it in labels if must_precede(it, late)} for late in labels}

    def behind(placed):
        if len(placed) == len(labels):
            yield placed
        numbers = {it.number for it in placed}
        for label in labels:
            if label.number not in numbers and before[label.number] <= numbers:
                yield from behind((*placed, label))

    return behind(())


def explaining_sequences(kind, labels):
    """Those of them that are RA-linearizations. Nothing is left out before a sequence is complete."""
    return (it for it in sequences(labels) if failure_of(kind, it) is None)


# An order.


def explains(kind, labels, order):
    """Does some sequence with the updates in this order explain the labels?"""
    if sorted(order) != [it.number for it in updates_of(labels)]:
        return False
    return linearizes(kind, labels, sequence_of(labels, order))


# A refutation. Each function answers for any numbers, also those of no label.


def update_at(number, labels):
    """The update of a label, or None where the label does not exist or is a query."""
    return labels[number].operation.update if 0 <= number < len(labels) else None


def query_at(number, labels):
    return labels[number] if 0 <= number < len(labels) and labels[number].operation.query else None


def anchors_in(updates):
    """The anchor of each element that these labels insert, and the label that inserts it."""
    insertions = [it for it in updates if it.operation.update.what is insert_after]
    return {it.operation.update.given[1]: (it.operation.update.given[0], it.number) for it in insertions}


def possible_elements(updates):
    """The root and all elements that these labels can insert, in whatever order."""
    operations = [it.operation.update for it in updates]
    elements, insertions = {0}, [it.given for it in operations if it.what is insert_after]
    for _ in insertions:
        elements |= {element for anchor, element in insertions if anchor in elements}
    return elements


def is_never_admitted(label, updates):
    """Can these updates not make what this one of them needs?"""
    what, (needed, *_) = label.operation.update
    return (what is hide and needed == 0) or needed not in possible_elements(updates)


def line_above(element, anchors):
    """The element, its anchor and so on up to the root; or nothing where the anchors do not lead there."""
    line = [element]
    while line[-1] != 0:
        if line[-1] not in anchors or len(line) > len(anchors):
            return []
        line.append(anchors[line[-1]][0])
    return line


def right_and_wrong(query, labels, element):
    """The visible updates after which the query returns what it did, of this element if it is a set's; and all others
    of them."""
    (result,) = query.operation.query.given
    updates = [(it.number, it.operation.update) for it in visible_updates(query, labels)]
    if query.operation.kind == "register":
        right = {number for number, update in updates if update.given == (result,)}
        return right, {number for number, _ in updates} - right
    ours = {number: update.what is put_in for number, update in updates if update.given == (element,)}
    right = {it for it, adds in ours.items() if adds is (element in result)}
    return right, set(ours) - right


def is_repeated(label, first, labels):
    update, other = update_at(label, labels), update_at(first, labels) if first is not None else None
    if not update or update.what is not insert_after:
        return False
    if first is None:
        return update.given[1] == 0
    return bool(other) and first != label and other.what is insert_after and other.given[1] == update.given[1]


def is_shown_wrongly(query, labels):
    updates = [it.operation.update for it in visible_updates(query, labels)]
    removed = {it.given[0] for it in updates if it.what is hide}
    inserted = {it.given[1] for it in updates if it.what is insert_after}
    return sorted(query.operation.query.given[0]) != sorted(inserted - removed)


def is_below(query, labels, upper, lower):
    """Does the query return the lower element first, which is inserted below the other one?"""
    (elements,) = query.operation.query.given
    is_lower_first = any(pair == (lower, upper) for pair in zip(elements, elements[1:]))
    return is_lower_first and upper in line_above(lower, anchors_in(visible_updates(query, labels)))


def is_unseen(query, labels, element):
    """Does no visible update lead to what the query returned?"""
    right, others = right_and_wrong(query, labels, element)
    (result,) = query.operation.query.given
    if query.operation.kind == "register":
        return not right and (bool(others) or result != "none")
    return not right and (bool(others) or element in result)


def is_a_fault(kind, labels, fault):
    """Can no order of the updates make this label right, by the reason it is given?"""
    number, reason, about = fault
    if kind == "rga" and reason == "repeated":
        return is_repeated(number, about, labels)
    if kind == "rga" and reason == "absent":
        return update_at(number, labels) is not None and is_never_admitted(labels[number], updates_of(labels))
    query = query_at(number, labels)
    if not query or (kind == "rga") == (reason == "unseen"):
        return False
    if reason == "open":
        return about in query.sees and is_never_admitted(labels[about], visible_updates(query, labels))
    if reason == "shown":
        return is_shown_wrongly(query, labels)
    if reason == "below":
        return about is not None and is_below(query, labels, *about)
    return reason == "unseen" and is_unseen(query, labels, about)


def fork_in(query, labels, left, right):
    """The labels that insert where the lines above two elements part: the one on the left element's line, and the one
    on the right element's. None where one is above the other, or where a line does not lead to the root."""
    anchors = anchors_in(visible_updates(query, labels))
    one, other = line_above(left, anchors), line_above(right, anchors)
    common = next((it for it in one if it in other), None)
    if common is None or common in (left, right):
        return None
    return tuple(anchors[line[line.index(common) - 1]][1] for line in (one, other))


def held_by_neighbours(query, labels, held):
    """Below one element what is inserted later comes first. So where the lines of two neighbours part, the right one
    was inserted before the left one."""
    (elements,) = query.operation.query.given
    if held.about not in list(zip(elements, elements[1:])):
        return None
    late, early = fork_in(query, labels, *held.about) or (None, None)
    return {late} if early == held.update else None


def held_by(kind, labels, held):
    """The updates before one of which this one stands by the reason it is given, or None where that is not so."""
    if update_at(held.update, labels) is None:
        return None
    late, query = update_at(held.label, labels), query_at(held.label, labels)
    if late and held.reason == "sees":
        return {held.label} if held.update in labels[held.label].sees else None
    if kind == "rga" and late and held.reason == "needs":
        what, given = labels[held.update].operation.update
        is_needed = what is insert_after and given[1] == late.given[0] and held.update != held.label
        return {held.label} if is_needed else None
    if kind == "rga" and query and held.reason == "read":
        return held_by_neighbours(query, labels, held)
    if kind != "rga" and query and held.reason == "last":
        right, others = right_and_wrong(query, labels, held.about)
        return right if held.update in others else None
    return None


def are_stuck(kind, labels, stuck):
    """Does each of these updates stand before one of the others, so that none is the last of them?"""
    numbers = [it.update for it in stuck]
    wanted = [{it} for it in numbers[1:] + numbers[:1]] if kind == "rga" else [set(numbers)] * len(stuck)
    late = [held_by(kind, labels, it) for it in stuck]
    return bool(stuck) and len(set(numbers)) == len(stuck) and all(
        it is not None and it <= others for it, others in zip(late, wanted)
    )


def refutes(kind, labels, refutation):
    """Does it show that no sequence explains the labels?"""
    if refutation.fault:
        return is_a_fault(kind, labels, refutation.fault)
    return are_stuck(kind, labels, refutation.stuck)


# What can be said of labels, and the refutation of what any_order.py decided.


def elements_in(query, labels):
    """Of a set: what the query returns, and what any update names. Nothing of a register."""
    if query.operation.kind == "register":
        return [None]
    return sorted({*query.operation.query.given[0], *(it.operation.update.given[0] for it in updates_of(labels))})


def neighbours_in(query, _):
    """Each two neighbours in what the query of an RGA returns, in both directions."""
    (elements,) = query.operation.query.given
    return [*zip(elements, elements[1:]), *zip(elements[1:], elements)]


def possible_faults(kind, labels):
    """All that can be said of one label, right or not."""
    updates = [it.number for it in updates_of(labels)]
    for label in updates_of(labels) if kind == "rga" else []:
        yield Fault(label.number, "absent")
        yield from (Fault(label.number, "repeated", it.number) for it in labels)
        yield Fault(label.number, "repeated")
    for query in queries_of(labels):
        if kind != "rga":
            yield from (Fault(query.number, "unseen", it) for it in elements_in(query, labels))
            continue
        yield from (Fault(query.number, "open", it) for it in updates)
        yield Fault(query.number, "shown")
        yield from (Fault(query.number, "below", it) for it in neighbours_in(query, labels))


def possible_holds(kind, labels):
    """All that can be said of one update, right or not."""
    updates, queries = [it.number for it in updates_of(labels)], queries_of(labels)
    for update in updates:
        reasons = ("sees", "needs") if kind == "rga" else ("sees",)
        yield from (Held(update, reason, it) for reason in reasons for it in updates)
        for query in queries:
            reason, about = ("read", neighbours_in) if kind == "rga" else ("last", elements_in)
            yield from (Held(update, reason, query.number, it) for it in about(query, labels))


def cycle_in(held):
    """A cycle of updates, each of which stands before the next one. Each of these has one that it stands before."""
    update, way = min(held), []
    while update not in way:
        way.append(update)
        (update,) = held[update][1]
    return [held[it][0] for it in way[way.index(update):]]


def refutation_of(kind, labels, decision):
    """Why no sequence explains the labels, with what each reason is about."""
    if decision.wrong:
        wrong = tuple(decision.wrong)
        faults = [it for it in possible_faults(kind, labels) if (it.label, it.reason) == wrong]
        return Refutation(fault=next((it for it in faults if is_a_fault(kind, labels, it)), Fault(*wrong)))
    conditions = [it for it in decision.conditions if it.late <= decision.stuck]
    decided = {(early, it.reason, it.label): it.late for it in conditions for early in it.early & decision.stuck}
    held = {}
    for one in possible_holds(kind, labels):
        late = decided.get(one[:3])
        if late is not None and one.update not in held and held_by(kind, labels, one) == late:
            held[one.update] = (one, late)
    whole = len(held) == len(decision.stuck) > 0
    if kind == "rga":
        return Refutation(stuck=tuple(cycle_in(held)) if whole else ())
    return Refutation(stuck=tuple(it for it, _ in held.values()) if whole else ())
