"""Strategies and a state machine for Hypothesis, which has to be installed: `pip install hypothesis`.

Hypothesis chooses the steps and shrinks them, and the program checks what the replicas did.
"""
import os
import tempfile
from typing import Any, Callable, Dict, Hashable, List, NamedTuple, Optional, Sequence, Tuple, Union

from hypothesis import strategies
from hypothesis.stateful import RuleBasedStateMachine, rule

from . import program as programs
from .delivery_state import REMOVING, DeliveryState
from .driver import Setting
from .operations import LISTS, methods_of
from .plans import ANY_ARGUMENTS, BOUNDARIES, SET_ELEMENTS
from .profile import Profile, Traits, default_names, traits_of
from .program import Program
from .random_failures import create_error
from .runs import Failure, Run
from .steps import Step

# The largest number of steps of a plan before its last reads.
MAX_STEPS = 40
# What a drawn number is divided by, so that it chooses one of several things.
CHOICES = 1 << 16


class Plan(NamedTuple):
    """The steps of one run, and what they are made for."""

    kind: str
    replicas: Sequence[Hashable]
    profile: Profile
    steps: Sequence[Step]


def plans(
    kind: str, replicas: Union[int, Sequence[Hashable]] = 3, profile: Profile = Profile(), *, merges: bool = False,
    methods: Optional[Sequence[str]] = None,
) -> "strategies.SearchStrategy[Plan]":
    """Returns a strategy of plans for a kind, which `run_plan` runs.

    Args:
        kind: The kind of the type.
        replicas: The names of the replicas in the order in which the type breaks ties, or their number.
        profile: What the transport of the type may do.
        merges: Whether the type merges states instead of receiving messages.
        methods: The operations that are called, by default all of the kind.
    """
    names = default_names(replicas) if isinstance(replicas, int) else list(replicas)
    actions = ["update", "update", "update", "read", *(("merge",) if merges else ("deliver", "deliver"))]
    actions += ["duplicate"] if profile.duplicates else []
    actions += ["snapshot", "merge_snapshot"] if profile.late_states else []
    actions += ["save", "restart"] if profile.restarts else []
    number = strategies.integers(0, CHOICES - 1)
    draws = strategies.tuples(
        strategies.sampled_from(actions), strategies.integers(0, len(names) - 1),
        strategies.sampled_from([*(methods or methods_of(kind))]), number, number,
    )

    def build(drawn: List[Tuple[str, int, str, int, int]]) -> Plan:
        builder = _Builder(kind, len(names), profile)
        for it in drawn:
            builder.add(*it)
        return Plan(kind, names, profile, [*builder.steps, *(Step("read", it) for it in range(len(names)))])

    return strategies.lists(draws, max_size=MAX_STEPS).map(build)


class _Builder:
    """The steps of a plan, made of drawn numbers."""

    def __init__(self, kind: str, replicas: int, profile: Profile) -> None:
        self.steps: List[Step] = []
        self._kind, self._replicas, self._profile = kind, replicas, profile
        self._state = DeliveryState(kind, replicas)
        self._updates: List[int] = []
        self._early: Dict[int, Tuple[int, Tuple[int, ...]]] = {}

    def add(self, action: str, replica: int, method: str, first: int, second: int) -> None:
        """Adds the step that the numbers choose, if there is one."""
        step = getattr(self, f"_{action}")(replica, method, first, second)
        if step is not None:
            self.steps.append(step)

    def _update(self, replica: int, method: str, first: int, second: int) -> Optional[Step]:
        number = len(self._updates) + 1
        visible = self._state.visible[replica]
        arguments: Tuple[Any, ...] = ()
        if self._kind in LISTS and method in REMOVING:
            if not visible:
                return None
            arguments = (visible[first % len(visible)],)
        elif self._kind in LISTS:
            arguments = ([None, *visible][first % (len(visible) + 1)], number)
        elif self._kind == "register" or (self._kind == "mvregister" and second % 4):
            arguments = (number,)
        elif self._kind == "any":
            arguments = (ANY_ARGUMENTS[first % len(ANY_ARGUMENTS)],)
        elif self._kind != "counter":
            elements = [*range(1, SET_ELEMENTS + 1), *BOUNDARIES]
            arguments = (elements[first % (SET_ELEMENTS if second % 8 else len(elements))],)
        step = Step("update", replica, number, method, arguments)
        self._updates.append(number)
        self._state.update(step)
        return step

    def _deliver(self, replica: int, method: str, first: int, second: int) -> Optional[Step]:
        state = self._state
        arrives = state.can_arrive if self._profile.delivery == "any" else state.can_deliver
        ready = [it for it in self._updates if arrives(replica, it)]
        if not ready:
            return None
        number = ready[first % len(ready)]
        state.arrive(replica, number)
        return Step("deliver", replica, number)

    def _duplicate(self, replica: int, method: str, first: int, second: int) -> Optional[Step]:
        repeatable = self._state.repeatable(replica)
        return Step("duplicate", replica, repeatable[first % len(repeatable)]) if repeatable else None

    def _merge(self, replica: int, method: str, first: int, second: int) -> Optional[Step]:
        sender = first % self._replicas
        if sender == replica:
            return None
        self._state.merge(replica, self._state.counts(sender))
        return Step("merge", replica, sender)

    def _snapshot(self, replica: int, method: str, first: int, second: int) -> Step:
        number = len(self._early) + 1
        self._early[number] = replica, self._state.counts(replica)
        return Step("snapshot", replica, number)

    def _merge_snapshot(self, replica: int, method: str, first: int, second: int) -> Optional[Step]:
        if not self._early:
            return None
        number = first % len(self._early) + 1
        sender, counts = self._early[number]
        if sender == replica:
            return None
        self._state.merge(replica, counts)
        return Step("merge_snapshot", replica, number)

    def _save(self, replica: int, *_: Any) -> Step:
        return Step("save", replica)

    def _restart(self, replica: int, *_: Any) -> Step:
        return Step("restart", replica)

    def _read(self, replica: int, *_: Any) -> Step:
        return Step("read", replica)


def run_plan(make_replica: Callable[[Hashable], Any], plan: Plan, *, program: Program = None) -> None:
    """Runs a plan on replicas and checks it.

    Raises:
        ReportFailed: The run has a violation, a report was rejected, or a replica raised an exception. Nothing is
            shrunk, since Hypothesis does that.
    """
    setting = Setting(
        make_replica, plan.kind, plan.replicas, programs.find_for_many_runs(program), plan.profile
    )
    found = Run(setting, plan.steps).find_failure()
    if found is not None:
        _raise(setting, found)


def _raise(setting: Setting, found: Failure) -> None:
    # One file for all attempts of this process: the last one is the smallest.
    path = os.path.join(tempfile.gettempdir(), f"yehatu_hypothesis_{os.getpid()}.json")
    raise create_error(setting, found, "hypothesis", f"a plan of {len(found.steps)} steps", path)


def state_machine(
    make_replica: Callable[[Hashable], Any], kind: str, replicas: Union[int, Sequence[Hashable]] = 3, *,
    program: Program = None, **promised: Any,
) -> "type[RuleBasedStateMachine]":
    """Returns a state machine whose rules call the replicas, which are checked at the end of each run.

    Args:
        make_replica: Creates the replica of a name, as for `check_random`.
        kind: The kind of the type.
        replicas: The names of the replicas in the order in which the type breaks ties, or their number.
        program: The path of the program.
        promised: What the type promises: `delivery`, `duplicates`, `late_states` and `restarts` of `check_random`.
    """
    names = default_names(replicas) if isinstance(replicas, int) else list(replicas)
    options = {"delivery": "causal", "duplicates": False, "late_states": None, "restarts": None, **promised}
    traits = traits_of(make_replica, kind, names[0], options, None)
    setting = Setting(make_replica, kind, names, programs.find_for_many_runs(program), traits.profile)
    number = strategies.integers(0, CHOICES - 1)
    replica = strategies.integers(0, len(names) - 1)

    class Machine(RuleBasedStateMachine):
        """Replicas of one type, and the network between them."""

        def __init__(self) -> None:
            super().__init__()
            self.builder = _Builder(kind, len(names), traits.profile)

        def teardown(self) -> None:
            steps = [*self.builder.steps, *(Step("read", it) for it in range(len(names)))]
            run_plan(make_replica, Plan(kind, names, traits.profile, steps), program=setting.program)

    def add_rule(action: str, method: str) -> None:
        def act(self: Any, replica: int, first: int, second: int) -> None:
            self.builder.add(action, replica, method, first, second)

        act.__name__ = method or action
        setattr(Machine, act.__name__, rule(replica=replica, first=number, second=number)(act))

    for action, method in _rules(traits):
        add_rule(action, method)
    return Machine


def _rules(traits: Traits) -> List[Tuple[str, str]]:
    """Returns the actions of a state machine, each with the method that it calls if it is an update."""
    profile = traits.profile
    events = {
        "deliver": not traits.merges, "merge": traits.merges, "duplicate": profile.duplicates,
        "snapshot": profile.late_states, "merge_snapshot": profile.late_states, "save": profile.restarts,
        "restart": profile.restarts, "read": True,
    }
    return [*(("update", it) for it in traits.methods), *((it, "") for it, is_used in events.items() if is_used)]
