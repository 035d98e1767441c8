"""The network of one plan: delays and partitions."""
import random
from typing import Dict, List, Sequence, Tuple

# The longest delays of a message, in steps, from which each plan chooses one.
LONGEST_DELAYS = (0, 0, 0, 6, 20)
PARTITION_CHANCES = (0.02, 0.03, 0.06)
SHORTEST_PARTITION, SHORT_PARTITION = 5, 25
# The chance that a partition is long, and the chance that it divides the replicas into two groups.
LONG_CHANCE, GROUPS_CHANCE = 0.2, 0.3


class Network:
    """The delays and partitions that a plan draws from its random numbers."""

    def __init__(self, numbers: random.Random, replicas: int, operations: int) -> None:
        self._random, self._replicas = numbers, replicas
        self._longest_delay = numbers.choice(LONGEST_DELAYS)
        self._partition_chance = numbers.choice(PARTITION_CHANCES)
        self._longest_partition = max(SHORT_PARTITION, 2 * operations)
        # For each partition its last step, and for each replica the side on which it is.
        self._partitions: List[Tuple[int, List[bool]]] = []
        # For each delayed message, the step from which on it may arrive at each replica.
        self._due: Dict[int, List[int]] = {}

    def advance(self, now: int, present: Sequence[int]) -> None:
        """Ends the partitions that are over, and perhaps begins another one."""
        if self._partitions:
            self._partitions = [it for it in self._partitions if it[0] > now]
        chance = self._random.random()
        if chance < self._partition_chance:
            is_long = self._random.random() < LONG_CHANCE
            length = self._random.randint(SHORTEST_PARTITION, self._longest_partition if is_long else SHORT_PARTITION)
            self._partitions.append((now + length, self._sides(present)))

    def _sides(self, present: Sequence[int]) -> List[bool]:
        sides = [False] * self._replicas
        if self._random.random() < GROUPS_CHANCE:
            return [self._random.random() < 0.5 for _ in sides]
        sides[self._random.choice(present)] = True
        return sides

    def send(self, message: int, now: int) -> None:
        """Draws the delays of a new message."""
        if self._longest_delay:
            longest = now + self._longest_delay
            self._due[message] = [self._random.randint(now, longest) for _ in range(self._replicas)]

    def is_due(self, message: int, replica: int, now: int) -> bool:
        """Returns whether the message may arrive at the replica."""
        due = self._due.get(message)
        return due is None or due[replica] <= now

    def are_connected(self, one: int, other: int) -> bool:
        """Returns whether no partition is between the two replicas."""
        return not self._partitions or all(sides[one] == sides[other] for _, sides in self._partitions)

    def recover(self) -> None:
        """Ends all partitions and delays."""
        self._partitions.clear()
        self._due.clear()
