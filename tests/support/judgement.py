"""Operations, labels, and when labels are explained, for the model (model.py): docs/explanation/model.md, from the
sequential specification to the cause of a fault.

At each new label all labels are sorted afresh, and all updates folded afresh.
"""
from itertools import permutations
from typing import Callable, NamedTuple, Optional

from list_order import elements_of, list_order_of
from specification import START, apply_update, replace_writes

# Kinds whose labels are tried in the order in which they were accepted. A violation of theirs is final.
IN_EXECUTION_ORDER = ("counter", "orset", "list", "mvregister", "any")
# Of at most this number of a list's elements all orders are tried.
MOST_ENUMERATED = 5
LOWEST_RANK = (0, 0)


# Operations and labels.


class Does(NamedTuple):
    """A step or a question, and what it takes beside the state."""

    what: Callable
    given: tuple


class Operation(NamedTuple):
    """What an operation changes and asks. An OR-Set's removal does both, as do a list's insertion and removal."""

    kind: str
    update: Optional[Does] = None
    query: Optional[Does] = None
    carries_stamp: bool = False
    rising: tuple = ()
    identifier: Optional[int] = None


class Label(NamedTuple):
    """An accepted operation; its own stamp, which is a clock and the replica; and the numbers of the labels it sees."""

    number: int
    replica: int
    operation: Operation
    stamp: Optional[tuple]
    sees: frozenset


def rises(numbers):
    return all(low < high for low, high in zip(numbers, numbers[1:]))


def competing_writes(numbers, labels):
    """Those of these labels that no other one of them sees."""
    return frozenset(it for it in numbers if not any(it in labels[other].sees for other in numbers))


def rewritten(operation, number, sees, labels):
    """The operation as the label of this number has it. A multi-value register's write names what it replaces: of the
    writes that the label sees those that none of the others sees. An update of any type is known by its label alone."""
    if not operation.update:
        return operation
    if operation.kind == "mvregister":
        (value,) = operation.update.given
        return operation._replace(update=Does(replace_writes, (competing_writes(sees, labels), number, value)))
    return operation._replace(update=Does(apply_update, (number,))) if operation.kind == "any" else operation


# When records hold: whether the named sequence is an RA-linearization.


def rank_of(label, labels):
    if label.operation.kind in IN_EXECUTION_ORDER:
        return LOWEST_RANK
    return label.stamp or max((labels[it].stamp or LOWEST_RANK for it in label.sees), default=LOWEST_RANK)


def named_labels(labels):
    """The labels in the named order. The two parts of one label follow one another, the query first."""
    return sorted(labels, key=lambda it: (rank_of(it, labels), it.number))


def first_state(kind, parameter):
    """The initial state of the specification at this parameter: a list's order of elements, the answers of any type.
    Without one it is the free specification."""
    if parameter is None:
        return START[kind]
    return START[kind]._replace(**{{"list": "order", "any": "answers"}[kind]: parameter})


def state_after(kind, labels, parameter=None):
    """The state after the updates of these labels, in this order, or None where one is not admitted."""
    state = first_state(kind, parameter)
    for update in (it.operation.update for it in labels):
        if update:
            state = update.what(state, *update.given)
        if state is None:
            return None
    return state


def must_precede(early, late):
    """Is the one seen by the other, or an earlier one of its replica? What is seen is an update."""
    return early.number in late.sees or (early.replica == late.replica and early.number < late.number)


def is_answered(kind, label, sequence, parameter=None):
    """Is its query answered yes after the updates that it sees, in the sequence's order?"""
    query = label.operation.query
    if not query:
        return True
    state = state_after(kind, [it for it in sequence if it.number in label.sees], parameter)
    return state is not None and query.what(state, *query.given)


def failure_of(kind, sequence, parameter=None):
    """The first condition on updates and queries that the sequence fails, or None where it fails none."""
    if state_after(kind, sequence, parameter) is None:
        return "update"
    if not all(is_answered(kind, it, sequence, parameter) for it in sequence):
        return "query"
    return None


def is_explained_by_an_order(sequence):
    """Is there an order of all elements of a list at which its sequence meets these conditions?"""
    elements = elements_of(sequence)
    if len(elements) > MOST_ENUMERATED:
        return list_order_of(sequence) is not None
    return any(failure_of("list", sequence, order) is None for order in permutations(elements))


def answers_of(labels):
    """What each set of updates is read as, or None where two reads of one set return different values."""
    answers = {}
    for label in labels:
        query = label.operation.query
        if query and answers.setdefault(label.sees, *query.given) != query.given[0]:
            return None
    return answers


def cause_of(kind, labels):
    """The first condition that the named sequence fails, or None where it fails none.

    A list's is execution order, which extends visibility. So its cause "order" says instead that the free specification
    is met, and at no order of the elements the specification with this order. A query of any type fails where an
    earlier one with the same visible updates returned another value.
    """
    sequence = named_labels(labels)
    if any(must_precede(late, early) for at, late in enumerate(sequence) for early in sequence[:at]):
        return "order"
    if kind == "any":
        return None if answers_of(sequence) is not None else "query"
    failure = failure_of(kind, sequence)
    return "order" if kind == "list" and not failure and not is_explained_by_an_order(sequence) else failure


# Evidence: any sequence of parts, held against the three conditions alone. Nothing here knows a named order.


def parts_of(label):
    """The parts of a label: two halves where it asks and changes."""
    halves = label.operation.update and label.operation.query
    return [(label.number, half) for half in (("query", "update") if halves else ("whole",))]


def extends_visibility(labels, parts):
    """Does each label stand behind what it sees and what its replica made before, and each query before its update?"""
    place = {part: at for at, part in enumerate(parts)}
    ends = [[place[it] for it in parts_of(label)] for label in labels]
    return all(it == sorted(it) for it in ends) and all(
        ends[early.number][-1] < ends[late.number][0]
        for late in labels
        for early in labels
        if must_precede(early, late)
    )


def linearizes(kind, labels, parts, parameter=None):
    """Is it each part once, in an order that extends visibility, admits each update and answers each query? Of a list
    the order of its elements is part of the evidence, of any type what each set of updates is read as."""
    if sorted(parts) != sorted(it for label in labels for it in parts_of(label)):
        return False
    if kind == "list" and sorted(parameter) != sorted(elements_of(labels)):
        return False
    changed = [labels[number] for number, half in parts if half != "query"]
    return (
        extends_visibility(labels, parts)
        and state_after(kind, changed, parameter) is not None
        and all(is_answered(kind, it, changed, parameter) for it in labels)
    )
