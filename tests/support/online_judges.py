"""Judges that follow a history event by event and keep a few numbers for each replica, for the model (model.py) to be
compared with. They know nothing of sequences.

In causal records a replica has of each other one the first updates, so a count for each says which. An update is seen
by another one if its place is below the other's count.
"""
from collections import Counter
from typing import NamedTuple, Optional


class Update(NamedTuple):
    """A replica's update: its place among those of the replica, what it wrote if it is a write, and the counts of what
    it sees."""

    replica: int
    place: int
    value: Optional[int]
    counts: Counter

    def sees(self, other):
        return other.place < self.counts[other.replica]


class OnlineJudge:
    """What each replica has, by counts."""

    def __init__(self, replicas):
        self.counts = [Counter() for _ in range(replicas)]
        self.updates = {}

    def joins(self, source):
        self.counts.append(Counter(self.counts[source]))

    def issues(self, replica, number, value=None):
        counts = self.counts[replica]
        self.updates[number] = Update(replica, counts[replica], value, Counter(counts))
        counts[replica] += 1

    def delivers(self, replica, number):
        self.counts[replica][self.updates[number].replica] += 1


class Siblings(OnlineJudge):
    """A multi-value register's: the writes of each replica that none of its other writes saw. A write replaces all of
    them, and a delivery those that the delivered write saw."""

    def __init__(self, replicas):
        super().__init__(replicas)
        self.kept = [[] for _ in range(replicas)]

    def joins(self, source):
        super().joins(source)
        self.kept.append([*self.kept[source]])

    def issues(self, replica, number, value=None):
        super().issues(replica, number, value)
        self.kept[replica] = [number]

    def delivers(self, replica, number):
        super().delivers(replica, number)
        update = self.updates[number]
        self.kept[replica] = [it for it in self.kept[replica] if not update.sees(self.updates[it])] + [number]

    def is_right(self, replica, answer):
        return list(answer) == sorted({self.updates[it].value for it in self.kept[replica]})


class ReadTable(OnlineJudge):
    """Of any type: what was read at each counts. The first read decides."""

    def __init__(self, replicas):
        super().__init__(replicas)
        self.table = {}

    def is_right(self, replica, answer):
        return self.table.setdefault(frozenset(self.counts[replica].items()), answer) == answer
