"""Random plans of what replicas do and what the network does, determined by a seed."""
import random
import re
from typing import Any, List, Set, Tuple, Union

from .delivery_state import REMOVING, DeliveryState
from .network import Network
from .operations import LISTS
from .profile import Traits
from .steps import Step

# The version of the planner. A seed means the same plan as long as this stays.
VERSION = 2
SEED = re.compile(r"(\d+)-(-?\d+)")
# A set has few elements, so that updates of one element are concurrent.
SET_ELEMENTS = 3
# The arguments of an update of any type: it may derive what it does from the number.
ANY_ARGUMENTS = range(1, 1001)
# The chance that a register with concurrent writes writes one of a few values, so that two of them may be equal.
EQUAL_WRITE_CHANCE = 0.2
# The values around the bounds of the usual sizes of numbers. All are exact in JavaScript too.
BOUNDARIES = (0, 1, 127, 128, 255, 256, 65535, 65536, 2**31 - 1, 2**31, 2**32 - 1, 2**32, 2**53 - 1)
# The chance that a value is one of these.
BOUNDARY_CHANCE = 0.15
# The amounts of a counter with `increment(by)`, and the largest sum of all amounts of a run.
AMOUNTS = (1, 1, 1, 2, 2, 127, 128, 255, 256)
MAX_TOTAL = 300
# The chance of a run in which one replica counts beyond seven bits, and the number of its increments.
CLIMB_CHANCE, SHORTEST_CLIMB, LONGEST_CLIMB = 0.06, 200, 260
# The chances, at each step, of events of the profile.
OLD_STATE_CHANCE, JOIN_CHANCE, BURST_CHANCE = 0.1, 0.15, 0.05
DUPLICATE_CHANCE, SNAPSHOT_CHANCE, LATE_CHANCE = 0.15, 0.1, 0.12
SAVE_CHANCE, RESTART_CHANCE = 0.05, 0.06
LONGEST_BURST = 8

Seed = Union[int, str]


def parse_seed(seed: Seed) -> int:
    """Returns the number of a seed, such as 17 or "2-17". Raises `ValueError` if it is of another version."""
    if isinstance(seed, int) and not isinstance(seed, bool):
        return seed
    found = SEED.fullmatch(seed) if isinstance(seed, str) else None
    if found is None:
        raise ValueError(f"the seed {seed!r} is unknown: expected a whole number, or a text such as '{VERSION}-17'")
    if int(found[1]) != VERSION:
        raise ValueError(
            f"the seed {seed!r} is of version {found[1]} of the planner, and this is version {VERSION}, which plans "
            "another run for it: run the stored failure again with replay(make_replica, PATH)"
        )
    return int(found[2])


def format_seed(seed: int) -> str:
    """Returns the seed with the version of the planner."""
    return f"{VERSION}-{seed}"


class Planner:
    """The maker of one plan. If replicas fork, some of them are initial and some of the others join."""

    def __init__(self, kind: str, replicas: int, operations: int, seed: int, traits: Traits) -> None:
        self._kind, self._operations, self._remaining, self._traits = kind, operations, operations, traits
        # The seed is a text, so that plans of neighbouring seeds have nothing in common.
        self._random = random.Random(f"{VERSION} {kind} {replicas} {operations} {seed}")
        self._replicas = replicas
        self._present = range(self._random.randint(1, replicas) if traits.forks else replicas)
        self._network = Network(self._random, replicas, operations)
        self._state = DeliveryState(kind, replicas)
        self._steps: List[Step] = []
        self._updates = 0
        self._total = 0
        self._states: List[Tuple[int, Tuple[int, ...]]] = []
        self._reordering = self._random.uniform(0.2, 0.9) if traits.profile.delivery == "any" else 0.0
        self._methods = list(traits.methods)
        self._weights = [traits.weights[it] for it in self._methods]
        self._boundaries = self._random.sample(BOUNDARIES, len(BOUNDARIES))
        self._elements = self._choose_elements()
        self._used: Set[int] = set()
        self._smallest = 1

    def plan(self) -> List[Step]:
        """Returns operations, deliveries and reads. Most plans end with all pending deliveries; all end with reads."""
        reads, deliveries = self._random.uniform(0.1, 0.3), self._random.uniform(0.3, 0.6)
        if self._kind == "counter" and self._operations >= 10 and self._random.random() < CLIMB_CHANCE:
            self._climb()
        while self._remaining > 0:
            chance = self._random.random()
            if chance < reads:
                self._add(Step("read", self._random.choice(self._present)))
            elif chance >= reads + deliveries or not self._deliver():
                self._update(self._random.choice(self._present))
            self._network.advance(len(self._steps), self._present)
            self._plan_events()
        if self._random.random() < 0.8:
            self._network.recover()
            while self._deliver():
                pass
        self._steps += [Step("read", it) for it in self._present]
        return self._steps

    def _add(self, step: Step) -> None:
        self._steps.append(step)

    def _plan_events(self) -> None:
        """Adds what the profile allows beside operations, deliveries and reads."""
        profile, draw = self._traits.profile, self._random.random
        if len(self._present) < self._replicas and draw() < JOIN_CHANCE:
            self._join()
        if draw() < BURST_CHANCE:
            self._burst()
        if self._traits.merges and draw() < OLD_STATE_CHANCE:
            self._merge_old_state()
        if profile.duplicates and draw() < DUPLICATE_CHANCE:
            self._duplicate()
        if profile.late_states:
            self._use_late_states()
        if profile.restarts:
            self._restart()

    # Deliveries.

    def _deliver(self) -> bool:
        """Adds a delivery between two connected replicas. Returns `False` if there is none."""
        if self._traits.merges:
            return self._deliver_state()
        reorders = self._reordering and self._random.random() < self._reordering
        ready = self._arriving(any_order=True) if reorders else self._arriving(any_order=False)
        if not ready and self._reordering:
            ready = self._arriving(any_order=True)
        if ready:
            replica, update = self._random.choice(ready)
            if self._reordering:
                self._state.arrive(replica, update)
            else:
                self._state.deliver(replica, update)
            self._add(Step("deliver", replica, update))
        return bool(ready)

    def _arriving(self, any_order: bool) -> List[Tuple[int, int]]:
        """Returns the messages that can arrive, each with its receiver: in causal order or in any."""
        state, network, now = self._state, self._network, len(self._steps)
        found: List[Tuple[int, int]] = []
        for replica in self._present:
            delivered, waiting = state.delivered[replica], state.waiting[replica]
            for sender in self._present:
                issued, first = state.issued[sender], delivered[sender]
                if sender == replica or first == len(issued) or not network.are_connected(replica, sender):
                    continue
                for it in issued[first:] if any_order else (issued[first],):
                    number = it.number
                    if not network.is_due(number, replica, now) or number in waiting:
                        continue
                    if any_order or state.can_deliver(replica, number):
                        found.append((replica, number))
        return found

    def _deliver_state(self) -> bool:
        ready = [
            (it, sender)
            for it in self._present
            for sender in self._present
            if self._state.is_behind(it, sender) and self._network.are_connected(it, sender)
        ]
        if ready:
            replica, sender = self._random.choice(ready)
            self._state.merge(replica, self._state.counts(sender))
            self._add(Step("merge", replica, sender))
        return bool(ready)

    def _merge_old_state(self) -> None:
        pairs = [(it, sender) for it in self._present for sender in self._present if it != sender]
        old = [pair for pair in pairs if not self._state.is_behind(*pair)]
        if old:
            self._add(Step("merge", *self._random.choice(old)))

    # Events of the profile.

    def _join(self) -> None:
        joining, source = len(self._present), self._random.choice(self._present)
        self._present = range(joining + 1)
        self._state.join(joining, source)
        self._add(Step("join", joining, source))

    def _burst(self) -> None:
        for _ in range(self._random.randint(2, LONGEST_BURST)):
            if not self._deliver():
                return

    def _duplicate(self) -> None:
        replica = self._random.choice(self._present)
        repeatable = self._state.repeatable(replica)
        if repeatable:
            self._add(Step("duplicate", replica, self._random.choice(repeatable)))

    def _use_late_states(self) -> None:
        """Takes a state for later, or merges one of those that were taken."""
        if self._random.random() < SNAPSHOT_CHANCE:
            sender = self._random.choice(self._present)
            self._states.append((sender, self._state.counts(sender)))
            self._add(Step("snapshot", sender, len(self._states)))
        if self._states and self._random.random() < LATE_CHANCE:
            number, replica = self._random.randint(1, len(self._states)), self._random.choice(self._present)
            sender, counts = self._states[number - 1]
            if replica != sender:
                self._state.merge(replica, counts)
                self._add(Step("merge_snapshot", replica, number))

    def _restart(self) -> None:
        """Saves the state of a replica, or restarts one."""
        chance = self._random.random()
        if chance < SAVE_CHANCE:
            self._add(Step("save", self._random.choice(self._present)))
        elif chance < SAVE_CHANCE + RESTART_CHANCE:
            self._add(Step("restart", self._random.choice(self._present)))

    # Operations.

    def _climb(self) -> None:
        """Lets one replica count in one direction, so that the value needs more than seven bits."""
        replica = self._random.choice(self._present)
        method = self._random.choices(self._methods, self._weights)[0]
        for _ in range(self._random.randint(SHORTEST_CLIMB, LONGEST_CLIMB)):
            self._issue(replica, method, (1,) if self._traits.amounts else ())
            self._total += 1
        self._add(Step("read", replica))

    def _update(self, replica: int) -> None:
        self._remaining -= 1
        self._issue(replica, *self._choose_operation(replica))

    def _issue(self, replica: int, method: str, arguments: Tuple[Any, ...]) -> None:
        self._updates += 1
        step = Step("update", replica, self._updates, method, arguments)
        self._state.update(step)
        self._network.send(self._updates, len(self._steps))
        self._add(step)

    def _choose_operation(self, replica: int) -> Tuple[str, Tuple[Any, ...]]:
        method = self._random.choices(self._methods, self._weights)[0]
        if self._kind == "counter":
            return method, self._choose_amount() if self._traits.amounts else ()
        if self._kind == "any":
            return method, (self._random.choice(ANY_ARGUMENTS),)
        if self._kind == "mvregister" and self._random.random() < EQUAL_WRITE_CHANCE:
            return method, (self._random.choice(self._elements),)
        if self._kind in ("register", "mvregister"):
            return method, (self._new_value(),)
        if self._kind not in LISTS:
            return method, (self._random.choice(self._elements),)
        visible = self._state.visible[replica]
        if method in REMOVING and visible:
            return method, (self._random.choice(visible),)
        return self._methods[0], (self._random.choice([None, *visible]), self._new_value())

    def _choose_amount(self) -> Tuple[int]:
        amount = self._random.choice([it for it in AMOUNTS if it == 1 or self._total + it <= MAX_TOTAL])
        self._total += amount
        return (amount,)

    def _new_value(self) -> int:
        """Returns a value that the plan did not use before: a small one, or one of the boundaries."""
        is_boundary = self._boundaries and self._random.random() < BOUNDARY_CHANCE
        value = self._boundaries[-1] if is_boundary else self._smallest
        while value in self._used:
            value = self._smallest = self._smallest + 1
        self._used.add(value)
        if value in self._boundaries:
            self._boundaries.remove(value)
        return value

    def _choose_elements(self) -> List[int]:
        small = range(1, SET_ELEMENTS + 1)
        return self._random.sample(BOUNDARIES, SET_ELEMENTS) if self._random.random() < BOUNDARY_CHANCE else [*small]
