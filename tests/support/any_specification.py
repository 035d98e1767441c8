"""Whether some deterministic specification and some sequence explain labels of the kind `any`, decided by trying all,
for the model (model.py) to be compared with.

A specification has states, of each update label a step from a state to a state or to none, and one answer of each
state. It explains labels with a sequence of all of them that extends visibility if all updates are admitted in this
order, and each read returns the answer of the state after the updates that it sees, in this order. Only the states that
these updates lead to matter, so there are finitely many cases: each step leads to one of the states so far, or to a new
one. A step that leads to none explains nothing, and is left out.
"""
from typing import NamedTuple, Optional

from judgement import must_precede


class Specification(NamedTuple):
    """States are numbers, and 0 is the first one. What is missing was not asked for so far."""

    steps: dict
    answers: dict
    states: int

    def state_after(self, updates):
        """The state after these labels, or None where a step is missing."""
        state = 0
        for it in updates:
            if (state, it) not in self.steps:
                return None
            state = self.steps[state, it]
        return state

    def first_missing(self, updates):
        """The first step on the way of these labels that is missing, or None."""
        for count, it in enumerate(updates):
            state = self.state_after(updates[:count])
            if (state, it) not in self.steps:
                return state, it
        return None


class Run(NamedTuple):
    """Update labels that one after another lead somewhere, and the value that was read there, if one was."""

    updates: tuple
    value: Optional[int] = None


def runs_of(labels, updates):
    """What a specification has to do, if the updates stand in this order."""
    reads = [it for it in labels if it.operation.query]
    seen = (tuple(it for it in updates if it in read.sees) for read in reads)
    return [*(Run(it, *read.operation.query.given) for it, read in zip(seen, reads)), Run(updates)]


def explains(specification, labels, updates):
    """Does it do all that, literally?"""
    states = [(specification.state_after(it.updates), it.value) for it in runs_of(labels, updates)]
    return all(at is not None and (it is None or specification.answers[at] == it) for at, it in states)


def completed(specification, runs):
    """The specification with all steps and answers that these runs need, or None where nothing explains them."""
    for at, run in enumerate(runs):
        missing = specification.first_missing(run.updates)
        if missing:
            return completed_by_a_step(specification, missing, runs[at:])
        state = specification.state_after(run.updates)
        if run.value is not None and specification.answers.get(state, run.value) != run.value:
            return None
        if run.value is not None:
            specification = specification._replace(answers={**specification.answers, state: run.value})
    return specification


def completed_by_a_step(specification, missing, runs):
    """The same, where the missing step leads to each of the states in turn, or to a new one."""
    for state in range(specification.states + 1):
        steps, states = {**specification.steps, missing: state}, max(specification.states, state + 1)
        found = completed(specification._replace(steps=steps, states=states), runs)
        if found:
            return found
    return None


def sequences_of(labels, sequence=()):
    """All sequences of the labels that extend visibility, as their numbers."""
    if len(sequence) == len(labels):
        yield sequence
    for label in labels:
        is_next = all(it.number in sequence for it in labels if must_precede(it, label))
        if label.number not in sequence and is_next:
            yield from sequences_of(labels, (*sequence, label.number))


def update_orders_of(labels):
    """The orders in which these sequences have the updates, each once. Nothing else of a sequence matters below."""
    orders = (tuple(it for it in them if labels[it].operation.update) for them in sequences_of(labels))
    return list(dict.fromkeys(orders))


def some_specification(labels):
    """A specification and the order of the updates with which it explains the labels, or None where there is none."""
    for updates in update_orders_of(labels):
        found = completed(Specification({}, {}, 1), runs_of(labels, updates))
        if found:
            return found, updates
    return None
