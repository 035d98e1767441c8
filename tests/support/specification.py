"""The sequential specification of each kind, for the model (model.py), from docs/explanation/model.md alone.

A step takes a state and what its update has, and gives the state after it, or None where the update is not admitted. A
question takes a state and what its query has, and gives a yes or a no. States: a number; a value or "none"; a set of
elements; a set of pairs; a tuple of elements, each with whether a read shows it; a `ListState`; a set of writes, each a
label's number with its value; an `AnyState`.
"""
from typing import NamedTuple, Optional


class ListState(NamedTuple):
    """What was ever inserted into a list and what was ever removed, and the order of all elements that is asked about.

    The order is the parameter of the specification and no step changes it. Without one (None) this is the free
    specification, which asks of elements whether they exist and nothing of where they are.
    """

    order: Optional[tuple] = None
    inserted: frozenset = frozenset()
    removed: frozenset = frozenset()

    def stands_before(self, early, late):
        return self.order is None or self.order.index(early) < self.order.index(late)

    def shown(self):
        return self.inserted - self.removed


class AnyState(NamedTuple):
    """The labels whose updates were applied to an object of any type, and what a read returns after each set of them.

    The answers are the parameter of the specification and no step changes it. Without them (None) this is the free
    specification, in which any answer is right.
    """

    answers: Optional[dict] = None
    applied: frozenset = frozenset()


START = {"counter": 0, "register": "none", "lwwset": frozenset(), "orset": frozenset(), "rga": ((0, False),)}
START["list"] = ListState()
START["mvregister"] = frozenset()
START["any"] = AnyState()


def add_one(state):
    return state + 1


def take_one(state):
    return state - 1


def write(_, value):
    return value


def put_in(state, element):
    return state | {element}


def take_out(state, element):
    return state - {element}


def put_pair_in(state, element, identifier):
    return state | {(element, identifier)}


def take_pairs_out(state, element, identifiers):
    return state - {(element, it) for it in identifiers}


def insert_after(state, anchor, element):
    elements = [it for it, _ in state]
    if anchor not in elements or element in elements:
        return None
    behind = elements.index(anchor) + 1
    return (*state[:behind], (element, True), *state[behind:])


def hide(state, element):
    if element == 0 or element not in [it for it, _ in state]:
        return None
    return tuple((it, is_shown and it != element) for it, is_shown in state)


def is_the_state(state, answer):
    return state == answer


def are_the_elements(state, elements):
    return state == set(elements)


def are_the_identifiers(state, element, identifiers):
    return {identifier for it, identifier in state if it == element} == set(identifiers)


def are_the_paired_elements(state, elements):
    return {element for element, _ in state} == set(elements)


def are_shown(state, elements):
    return [it for it, is_shown in state if is_shown] == list(elements)


# The steps and the questions of a list. 0 is no element: as a neighbour it says that there is none, or that it is not
# reported.


def insert_between(state, left, element, right):
    if element == 0 or element in state.inserted:
        return None
    if left and not (left in state.inserted and state.stands_before(left, element)):
        return None
    if right and not (right in state.inserted and state.stands_before(element, right)):
        return None
    return state._replace(inserted=state.inserted | {element})


def mark_removed(state, element):
    """A removed element stays inserted: it keeps its place, and it may be removed again."""
    return state._replace(removed=state.removed | {element}) if element in state.inserted else None


def are_inserted(state, left, right):
    return all(it == 0 or it in state.inserted for it in (left, right))


def is_inserted(state, element):
    return element in state.inserted


def are_all_shown(state, elements):
    """The shown elements, each once, in the order."""
    if state.order is None:
        return sorted(elements) == sorted(state.shown())
    return list(elements) == [it for it in state.order if it in state.shown()]


def are_some_shown(state, elements):
    """Shown elements, each once, that rise in the order. There may be others between them."""
    is_each_once = len(set(elements)) == len(elements)
    return (
        is_each_once
        and state.shown().issuperset(elements)
        and all(state.stands_before(*it) for it in zip(elements, elements[1:]))
    )


# The step and the question of a multi-value register. A write replaces the writes that its replica observed.


def replace_writes(state, over, number, value):
    return {it for it in state if it[0] not in over} | {(number, value)}


def are_the_values(state, values):
    """Each value once, also where several writes have it."""
    return {value for _, value in state} == set(values)


# The step and the question of any type.


def apply_update(state, number):
    return state._replace(applied=state.applied | {number})


def is_its_answer(state, value):
    return state.answers is None or state.answers.get(state.applied) == value
