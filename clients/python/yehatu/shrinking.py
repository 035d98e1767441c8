"""Shrinks a failed run as long as it fails for the same cause. Each attempt is a real run."""
from typing import Any, Callable, Dict, Iterator, List, Optional, Sequence, Set, Tuple

from .delivery_state import DeliveryState
from .operations import OPERATIONS
from .plans import BOUNDARIES
from .runs import Failure
from .steps import COPYING, RECEIVING, Step, renumbered

Run = Callable[[Sequence[Step]], Optional[Failure]]
Strategy = Callable[[List[Step]], Iterator[List[Step]]]

# Removing each pair of steps is affordable up to this number of steps.
MAX_STEPS_FOR_PAIRS = 16


def shrink(failure: Failure, run: Run) -> Failure:
    """Returns a run from which no replica, no update and no other step can be removed, and no message delayed.

    No amount, and no value or element, can be lowered in it.
    """
    run = _without_repetition(run)
    while True:
        smaller = _apply_strategies(failure, run)
        if not _is_smaller(smaller.steps, failure.steps):
            return smaller
        failure = smaller


def _without_repetition(run: Run) -> Run:
    """Returns a function that runs each plan once, and returns `None` for one that it was called with before."""
    tried: Set[Tuple[Step, ...]] = set()

    def run_once(steps: Sequence[Step]) -> Optional[Failure]:
        # Plans that differ only in the numbers of their updates are equal.
        key = tuple(renumbered(steps))
        try:
            is_new = key not in tried
            tried.add(key)
        except TypeError:
            is_new = True
        return run(steps) if is_new else None

    return run_once


def _apply_strategies(failure: Failure, run: Run) -> Failure:
    removals = _remove_replica, _unite_replicas, _remove_range, _remove_update
    for strategy in (*removals, _merge_at_once, _calm, _lower_all, _lower_amount, _lower_value, _remove_pair):
        failure = _apply_strategy(failure, run, strategy)
    return failure


def _apply_strategy(failure: Failure, run: Run, strategy: Strategy) -> Failure:
    """Tries the candidates of a strategy, and starts again from each smaller run that fails for the same cause."""
    has_shrunk = True
    while has_shrunk:
        has_shrunk = False
        for steps in strategy(failure.steps):
            result = run(steps)
            if result is not None and result.cause == failure.cause and _is_smaller(result.steps, failure.steps):
                failure, has_shrunk = result, True
                break
    return failure


def _is_smaller(steps: Sequence[Step], others: Sequence[Step]) -> bool:
    """Returns whether there are fewer steps, or as many of which fewer are deliveries out of order, or as many with a
    smaller sum of their numbers."""
    if len(steps) != len(others):
        return len(steps) < len(others)
    early, others_early = len(early_arrivals(steps)), len(early_arrivals(others))
    if early != others_early:
        return early < others_early
    return sum(_numbers(steps)) < sum(_numbers(others))


def _numbers(steps: Sequence[Step]) -> List[int]:
    """Returns the amounts, values and elements in these steps."""
    return [it for step in steps for it in step.arguments if _is_number(it)]


def _is_number(argument: Any) -> bool:
    return isinstance(argument, int) and not isinstance(argument, bool)


def early_arrivals(steps: Sequence[Step]) -> Dict[int, int]:
    """Returns the deliveries, by their places, that come before an update that theirs sees, and that update."""
    replicas = 1 + max((max(it.replica, it.number if it.action in COPYING else 0) for it in steps), default=0)
    state = DeliveryState("", replicas)
    early: Dict[int, int] = {}
    for place, step in enumerate(steps):
        if step.action == "update":
            state.update(step)
        elif step.action == "join":
            state.join(step.replica, step.number)
        elif step.action == "merge":
            state.merge(step.replica, state.counts(step.number))
        elif step.action == "deliver" and state.can_arrive(step.replica, step.number):
            cause = state.missing_cause(step.replica, step.number)
            if cause:
                early[place] = cause
            state.arrive(step.replica, step.number)
    return early


def _remove_replica(steps: List[Step]) -> Iterator[List[Step]]:
    """Yields the steps without those of one replica and without all that it sent."""
    for replica in sorted({it.replica for it in steps}):
        own = {it.number for it in steps if it.action == "update" and it.replica == replica}
        yield [
            it
            for it in steps
            if it.replica != replica
            and not (it.action in RECEIVING and it.number in own)
            and not (it.action in COPYING and it.number == replica)
        ]


def _unite_replicas(steps: List[Step]) -> Iterator[List[Step]]:
    """Yields the steps with one replica in the place of another."""
    replicas = sorted({it.replica for it in steps})
    for removed, kept in ((one, other) for one in replicas for other in replicas if one != other):
        moved = [it._replace(replica=kept) if it.replica == removed else it for it in steps]
        yield [it._replace(number=kept) if it.action in COPYING and it.number == removed else it for it in moved]


def _remove_range(steps: List[Step]) -> Iterator[List[Step]]:
    """Yields the steps without a half, a quarter, down to one step.

    Later ranges come first, since the failure is at the end and needs few of the steps before it.
    """
    size = len(steps) // 2
    while size:
        for end in range(len(steps), 0, -size):
            yield [*steps[: max(end - size, 0)], *steps[end:]]
        size //= 2


def _remove_update(steps: List[Step]) -> Iterator[List[Step]]:
    """Yields the steps without one update and its deliveries."""
    for update in [it.number for it in steps if it.action == "update"]:
        yield [it for it in steps if it.action not in ("update", *RECEIVING) or it.number != update]


def _merge_at_once(steps: List[Step]) -> Iterator[List[Step]]:
    """Yields the steps with the current state in a merge, in the place of one that was taken early."""
    taken = {it.number: it.replica for it in steps if it.action == "snapshot"}
    for place, step in enumerate(steps):
        if step.action == "merge_snapshot" and step.number in taken:
            merge = Step("merge", step.replica, taken[step.number])
            changed = [*steps[:place], merge, *steps[place + 1 :]]
            yield [it for it in changed if it.action != "snapshot" or it.number != step.number]


def _calm(steps: List[Step]) -> Iterator[List[Step]]:
    """Yields the steps with one message delayed behind another of its replica, if it arrives before a cause."""
    for place in early_arrivals(steps):
        step = steps[place]
        for later in range(place + 1, len(steps)):
            if steps[later].action == "deliver" and steps[later].replica == step.replica:
                yield [*steps[:place], *steps[place + 1 : later + 1], step, *steps[later + 1 :]]


def _lower_all(steps: List[Step]) -> Iterator[List[Step]]:
    """Yields the steps with each amount 1, and with the values and elements numbered from 1 in their order."""
    values = dict.fromkeys(_numbers([it for it in steps if not _counts(it)]))
    number_of = {it: number for number, it in enumerate(values, 1)}
    yield [
        it._replace(arguments=(1,) * len(it.arguments)) if _counts(it) else _with_values(it, number_of) for it in steps
    ]


def _lower_amount(steps: List[Step]) -> Iterator[List[Step]]:
    """Yields the steps with one amount lowered to 1, and then by a half of it, a quarter, down to 1."""
    for place, step in enumerate(steps):
        amount = sum(_numbers([step])) if _counts(step) else 0
        lower = [1, *(amount - (amount >> shift) for shift in range(1, amount.bit_length()))]
        for it in dict.fromkeys(lower):
            if it < amount:
                yield [*steps[:place], step._replace(arguments=(it,)), *steps[place + 1 :]]


def _lower_value(steps: List[Step]) -> Iterator[List[Step]]:
    """Yields the steps with one value or element replaced by the smallest that is free, and then by lower boundaries.

    It is replaced wherever it occurs, since the steps of a list name its elements.
    """
    used = {*_numbers([it for it in steps if not _counts(it)])}
    smallest = next(it for it in range(1, len(used) + 2) if it not in used)
    for value in sorted(used, reverse=True):
        for lower in dict.fromkeys((smallest, *BOUNDARIES)):
            if smallest <= lower < value and lower not in used:
                yield [it if _counts(it) else _with_values(it, {value: lower}) for it in steps]


def _counts(step: Step) -> bool:
    """Returns whether the step is an update of a counter, whose argument is an amount."""
    return step.method in OPERATIONS["counter"]


def _with_values(step: Step, number_of: Dict[int, int]) -> Step:
    """Returns the step with these numbers in the place of its values."""
    return step._replace(
        arguments=tuple(number_of.get(it, it) if _is_number(it) else it for it in step.arguments)
    )


def _remove_pair(steps: List[Step]) -> Iterator[List[Step]]:
    """Yields the steps without two of them, since some can be removed only together."""
    if len(steps) > MAX_STEPS_FOR_PAIRS:
        return
    for second in range(len(steps)):
        for first in range(second):
            yield [it for number, it in enumerate(steps) if number not in (first, second)]
