"""Random runs of the user's own replicas, and the smallest history of the first failure."""
import sys
import time
from collections import deque
from typing import Any, Callable, Deque, Dict, Hashable, Iterable, Iterator, List, Mapping, Optional, Sequence, Tuple
from typing import Union

from . import program as programs
from .errors import NotRepresentable
from .operations import OTHER_NAMES, methods_of
from .plans import Planner, Seed, format_seed, parse_seed
from .profile import AMOUNT_RULE, Traits, default_names, own_method, traits_of
from .program import Program
from .random_failures import create_error, create_flaky, require_writable
from .runs import Failure, Run, Setting, find_failure
from .shrinking import shrink
from .steps import METHOD_OF, Step, renumbered
from .stored import load

# The shortest time between two lines of progress, in seconds.
PROGRESS_INTERVAL = 2.0
# The number of histories that are checked while the next run is executed.
OVERLAP = 4
# The number of times that a failed run is run again before it is shrunk.
REPEATS = 2
# What the command line of a test framework sets in the place of the numbers `seeds` and `operations`.
OVERRIDES: Dict[str, int] = {}


class Runs(int):
    """The number of runs that passed."""

    unused: Tuple[str, ...] = ()
    """The methods of the kind that the class does not have, so that they were not tried."""


class _Progress:
    """The lines on standard error that show the progress of a long test."""

    def __init__(self, test: str) -> None:
        self._test, self._last = test, time.monotonic()

    def report(self, status: str) -> None:
        """Prints the status, unless the last line is too recent."""
        now = time.monotonic()
        if now - self._last > PROGRESS_INTERVAL:
            self._last = now
            print(f"{self._test}: {status}", file=sys.stderr, flush=True)


def check_random(
    make_replica: Callable[[Hashable], Any],
    kind: str,
    replicas: Union[int, Sequence[Hashable]] = 3,
    operations: int = 30,
    seeds: Union[int, Iterable[Seed]] = 100,
    *,
    delivery: str = "causal",
    duplicates: bool = False,
    late_states: Optional[bool] = None,
    restarts: Optional[bool] = None,
    weights: Optional[Mapping[str, float]] = None,
    program: Program = None,
    failure: Optional[str] = None,
) -> Runs:
    """Tests replicas in random runs, one for each seed, and returns the number of runs.

    Args:
        make_replica: Creates the replica of a name. A replica has the methods of its kind (`increment` and
            `decrement`, `write(value)`, `add(element)` and `remove(element)`, `insert_after(anchor, element)` and
            `remove(element)` for the kind `rga`, `insert(index, element)` and `delete(index)` for the kind `list`, or
            `update(number)` for the kind `any`), `read()`, and `receive(message)`. A type that only grows has no
            `decrement`, `remove` or `delete`.
        replicas: The names of the replicas in the order in which the type breaks ties, lowest first, or their number.
        operations: The number of operations of a run.
        seeds: The seeds, such as 17 or "2-17" with the version of the planner, or their number, counted from 0.
        delivery: `causal` if the transport delivers in causal order, or `any` if the type buffers messages itself.
        duplicates: Whether a message may arrive again.
        late_states: Whether a state may be merged later than it was taken. By default, a type that merges promises it.
        restarts: Whether a replica restarts from what it saved. By default, one with `save()` and `load(saved)` does.
        weights: The relative frequency of each method, such as `{"remove": 3}`.
        failure: The file for the steps of a failure, whose folder exists. By default it is a temporary one beside the
            history.

    An update returns the message that the other replicas receive. The message has, as attributes or keys, the `stamp`
    of a write, of an LWW set's update or of an insertion, and the `identifier` or `identifiers` of an OR-Set's update
    if the type exposes them. A type whose states are merged has `state()` and `merge(state)` instead of `receive`. If
    a replica has `fork(name)`, which returns a copy of it under this name, some replicas join during the run. If the
    first parameter of each update of a counter is named `by`, it is an amount, and amounts up to 256 are tried. No
    argument is passed for a parameter of another name, which needs a default.

    The replicas receive the message or the state itself, so it must not change after it was returned. If `repr` shows
    that it did, the run fails. A state that is merged later than it was taken is copied when it is taken, as a network
    would do it, and so is what `save()` returns.

    Raises:
        NotLinearizable: A run has a violation.
        Refused: The program rejected a report.
        ReplicaRaised: A replica raised an exception, its `read()` returned what cannot be reported, or a message or a
            state changed after it was returned.
        FlakyRun: A run failed, and the same steps did not fail in the same way again.
        TypeError: The class lacks a method, or an update of a counter requires a parameter of another name than `by`.
        ValueError: An argument is wrong, for instance `failure` a file that cannot be written.

    The failed run is shrunk first. The message has the seed, the small history, the faults of the network that are at
    work in it, and a test of its own. `history` is the file with the history, and `steps` the one for `replay`.
    """
    names, count, chosen = _checked_arguments(replicas, operations, seeds)
    if failure is not None:
        require_writable(failure)
    promised = {"delivery": delivery, "duplicates": duplicates, "late_states": late_states, "restarts": restarts}
    traits = traits_of(make_replica, kind, names[0], promised, weights)
    setting = Setting(make_replica, kind, names, programs.find_for_many_runs(program), traits.profile)
    progress = _Progress(f"check_random {kind}")
    runs = 0
    plans = ((it, Planner(kind, len(names), count, it, traits).plan()) for it in chosen)
    for seed, steps, found in _overlapped(setting, plans):
        runs += 1
        if found is not None:
            raise _create_error(setting, steps, found, format_seed(seed), runs, progress, failure)
        progress.report(f"{runs} runs passed so far")
    if runs == 0:
        raise ValueError("there are no seeds, so nothing was run: pass at least one")
    return _result(runs, kind, traits)


def _checked_arguments(replicas: Any, operations: Any, seeds: Any) -> Tuple[List[Hashable], int, List[int]]:
    """Returns the names, the number of operations, and the seeds. Raises `ValueError` if one is none of these."""
    for name, value, least in (("replicas", replicas, 1), ("operations", operations, 0), ("seeds", seeds, 0)):
        if isinstance(value, bool) or (isinstance(value, int) and value < least):
            raise ValueError(f"{name}={value!r}: expected at least {least}")
    if not isinstance(operations, int):
        raise ValueError(f"operations={operations!r}: expected a whole number")
    try:
        names = default_names(replicas) if isinstance(replicas, int) else list(replicas)
        chosen = range(OVERRIDES.get("seeds", seeds)) if isinstance(seeds, int) else seeds
        numbers = [parse_seed(it) for it in chosen]
    except TypeError:
        raise ValueError(
            f"replicas={replicas!r}, seeds={seeds!r}: expected for each a whole number or a list"
        ) from None
    if not names:
        raise ValueError(f"replicas={replicas!r}: expected at least one name")
    return names, OVERRIDES.get("operations", operations), numbers


def _overlapped(
    setting: Setting, plans: Iterable[Tuple[int, List[Step]]]
) -> Iterator[Tuple[int, List[Step], Optional[Failure]]]:
    """Yields the seed, the steps and the failure of each plan in turn, while the next ones are executed."""
    pending: Deque[Tuple[int, List[Step], Run]] = deque()
    try:
        for seed, steps in plans:
            try:
                pending.append((seed, steps, Run(setting, steps)))
            except NotRepresentable:
                # An earlier run that failed is reported first.
                yield from _finished(pending, 0)
                raise
            yield from _finished(pending, OVERLAP)
        yield from _finished(pending, 0)
    finally:
        for _, _, run in pending:
            run.stop()


def _finished(
    pending: Deque[Tuple[int, List[Step], Run]], most: int
) -> Iterator[Tuple[int, List[Step], Optional[Failure]]]:
    """Yields the oldest runs until at most this number is pending."""
    while len(pending) > most:
        seed, steps, run = pending.popleft()
        yield seed, steps, run.find_failure()


def _result(runs: int, kind: str, traits: Traits) -> Runs:
    result = Runs(runs)
    result.unused = tuple(it for it in methods_of(kind) if not {it, OTHER_NAMES.get(it)} & {*traits.methods})
    if result.unused:
        print(f"check_random {kind}: the type has no {', '.join(result.unused)}, so it was not tried", file=sys.stderr)
    if traits.untried:
        untried = ", ".join(traits.untried)
        print(f"check_random {kind}: no argument was tried for {untried}: {AMOUNT_RULE}", file=sys.stderr)
    return result


def _create_error(
    setting: Setting, steps: List[Step], found: Failure, seed: str, runs: int, progress: _Progress, path: Optional[str]
) -> Exception:
    summary = f"run {runs}, seed {seed}"
    for _ in range(REPEATS):
        again = find_failure(setting, steps)
        if again is None or again.cause != found.cause:
            return create_flaky(setting, found, again, seed, summary, path)
    small = _shrink(setting, found, progress)
    shrunk = f"{summary}, shrunk from {len(found.steps)} steps to {len(small.steps)}"
    return create_error(setting, small, seed, shrunk, path)


def _shrink(setting: Setting, failure: Failure, progress: _Progress) -> Failure:
    smallest = len(failure.steps)

    def run(steps: Any) -> Any:
        nonlocal smallest
        result = find_failure(setting, steps)
        if result is not None and result.cause == failure.cause:
            smallest = min(smallest, len(result.steps))
        progress.report(f"a run failed with {len(failure.steps)} steps; shrunk to {smallest} so far")
        return result

    small = shrink(failure, run)
    # The messages of the small run are numbered from 1.
    numbered = find_failure(setting, renumbered(small.steps))
    return numbered if numbered is not None and numbered.cause == small.cause else small


def replay(make_replica: Callable[[Hashable], Any], path: str, *, program: Program = None) -> int:
    """Runs the steps of a stored failure again, and returns their number if they pass.

    Args:
        make_replica: Creates the replica of a name, as for `check_random`.
        path: The file that `check_random` wrote.

    Steps that the class cannot execute any more are left out.

    Raises:
        ReportFailed: The run still fails. The exception is the same as that of `check_random`.
        ValueError: The file is no stored failure.
    """
    stored = load(path)
    setting = Setting(
        make_replica, stored.kind, stored.replicas, programs.find_for_many_runs(program), stored.profile
    )
    replica = make_replica(stored.replicas[0])
    calls = ((it, METHOD_OF.get(it.action) or own_method(replica, it.method)) for it in stored.steps)
    steps = [it for it, method in calls if callable(getattr(replica, method, None))]
    if not steps:
        raise ValueError(f"{path}: the class has none of the methods that the stored steps call, so nothing was run")
    run = Run(setting, steps)
    found = run.find_failure()
    if found is None:
        return len(run.executed)
    same = found.cause == stored.cause
    cause = f"in another way ({' '.join(found.cause)}, and then {' '.join(stored.cause)})"
    summary = f"the stored run of seed {stored.seed} {'still fails' if same else f'fails {cause}'}"
    raise create_error(setting, found, stored.seed, summary, None, stored=path)
