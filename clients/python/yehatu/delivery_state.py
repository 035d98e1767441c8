"""Which updates were delivered to each replica, and which messages wait for others."""
from typing import Any, Dict, List, Sequence, Tuple

from .operations import LISTS
from .steps import Step

# The methods that insert an element, which is their second argument, and those that remove their first one.
INSERTING, REMOVING = ("insert_after", "insert", "insert_at"), ("remove", "delete", "remove_at")


class DeliveryState:
    """The updates that were delivered to each replica, those that each update sees, and the visible list elements.

    An update is delivered to a replica once all that it sees were delivered there, so the updates of one replica are
    delivered in their order, and a count represents them. A message that arrives earlier waits.
    """

    def __init__(self, kind: str, replicas: int) -> None:
        self.visible: List[List[Any]] = [[] for _ in range(replicas)]
        self._kind = kind
        # For each replica, how many updates of each other one were delivered to it.
        self.delivered = [[0] * replicas for _ in range(replicas)]
        self.issued: List[List[Step]] = [[] for _ in range(replicas)]
        # For each update its replica, its position among that replica's updates, and the counts of those that it sees.
        self._origins: Dict[int, Tuple[int, int, Tuple[int, ...]]] = {}
        # For each replica, the messages that arrived before one on which they depend, in the order of arrival.
        self.waiting: List[List[int]] = [[] for _ in range(replicas)]

    def can_update(self, step: Step) -> bool:
        """Returns whether the update is new, and the replica shows the element that a list's update names."""
        if step.number in self._origins:
            return False
        if self._kind not in LISTS or step.arguments[0] is None:
            return True
        return step.arguments[0] in self.visible[step.replica]

    def update(self, step: Step) -> None:
        """Records that the replica of this step issues its update."""
        issued = self.issued[step.replica]
        self._origins[step.number] = (step.replica, len(issued), tuple(self.delivered[step.replica]))
        issued.append(step)
        self.deliver(step.replica, step.number)

    def can_deliver(self, replica: int, update: int) -> bool:
        """Returns whether all that the update sees, and not the update itself, was delivered to the replica."""
        if update not in self._origins:
            return False
        issuer, position, seen = self._origins[update]
        delivered = self.delivered[replica]
        if delivered[issuer] != position:
            return False
        for needed, own in zip(seen, delivered):
            if needed > own:
                return False
        return True

    def can_arrive(self, replica: int, update: int) -> bool:
        """Returns whether the message of this update has not arrived at the replica yet."""
        return update in self._origins and not self.has_delivered(replica, update) and (
            update not in self.waiting[replica]
        )

    def has_delivered(self, replica: int, update: int) -> bool:
        """Returns whether the update was delivered to the replica."""
        issuer, position, _ = self._origins[update]
        return position < self.delivered[replica][issuer]

    def can_repeat(self, replica: int, update: int) -> bool:
        """Returns whether the message of this update arrived at the replica, from another one."""
        if update not in self._origins or self._origins[update][0] == replica:
            return False
        return self.has_delivered(replica, update) or update in self.waiting[replica]

    def repeatable(self, replica: int) -> List[int]:
        """Returns the updates whose messages arrived at the replica."""
        return [
            *(step.number for sender, issued in enumerate(self.issued) if sender != replica
              for step in issued[: self.delivered[replica][sender]]),
            *self.waiting[replica],
        ]

    def missing_cause(self, replica: int, update: int) -> int:
        """Returns the first update that this one sees and that was not delivered to the replica, or 0."""
        issuer, position, seen = self._origins[update]
        needed = [position if sender == issuer else count for sender, count in enumerate(seen)]
        missing = [
            issued[own].number
            for issued, own, count in zip(self.issued, self.delivered[replica], needed)
            if own < count
        ]
        return min(missing, default=0)

    def arrive(self, replica: int, update: int) -> List[int]:
        """Records that the message arrives, and returns the updates that are delivered thereby, in their order."""
        waiting = self.waiting[replica]
        waiting.append(update)
        freed: List[int] = []
        while True:
            ready = next((it for it in waiting if self.can_deliver(replica, it)), None)
            if ready is None:
                return freed
            waiting.remove(ready)
            self.deliver(replica, ready)
            freed.append(ready)

    def deliver(self, replica: int, update: int) -> None:
        """Records that the update is applied at the replica."""
        issuer, position, _ = self._origins[update]
        step = self.issued[issuer][position]
        self.delivered[replica][issuer] = position + 1
        if step.method in INSERTING:
            self.visible[replica].append(step.arguments[1])
        elif step.method in REMOVING and step.arguments[0] in self.visible[replica]:
            self.visible[replica].remove(step.arguments[0])

    def is_behind(self, replica: int, sender: int) -> bool:
        """Returns whether the sender has an update that the replica lacks."""
        return any(map(int.__lt__, self.delivered[replica], self.delivered[sender]))

    def join(self, replica: int, source: int) -> None:
        """Records that the replica, which is new, joins with a copy of the source's state."""
        self.delivered[replica] = list(self.delivered[source])
        self.visible[replica] = list(self.visible[source])
        self.waiting[replica] = list(self.waiting[source])

    def counts(self, replica: int) -> Tuple[int, ...]:
        """Returns how many updates of each replica are in the state of this one."""
        return tuple(self.delivered[replica])

    def merge(self, replica: int, counts: Sequence[int]) -> None:
        """Records that the replica merges a state with these counts."""
        missing = [
            it.number
            for issued, own, other in zip(self.issued, self.delivered[replica], counts)
            for it in issued[own:other]
        ]
        # Updates are numbered in the order in which they were issued, so this order is causal.
        for update in sorted(missing):
            self.deliver(replica, update)

