"""One order of the events of several replicas: each replica's own, and each update before its deliveries."""
from typing import Dict, Hashable, List, Optional, Sequence

from .log_lines import DELIVER, PART, READ, Event, LogFault, Place, shown

# The largest number of lines that the fault of a cycle names.
SHOWN_LINES = 4


def merge(events: Sequence[Event]) -> List[Event]:
    """Returns the events of one object in their order in the files, but each behind what it depends on.

    An event depends on the one before it at its replica, and a delivery on its update. No wall clock matters. Updates
    come early, so that an explanation of a read can name an update that was delivered too late. Raises `LogFault` if
    no line has an update of a delivered message, or lines wait for each other.
    """
    return _Merge(events).merged


class _Merge:
    def __init__(self, events: Sequence[Event]) -> None:
        self.merged: List[Event] = []
        self._senders = _senders(events)
        self._previous = _previous(events)
        # Whether an event is in its place, or only on the stack, by its place in the log.
        self._is_placed: Dict[Place, bool] = {}
        for event in events:
            if event.operation == DELIVER and event.fields.get("message") not in self._senders:
                raise _never_sent(event)
        for event in sorted(events, key=lambda it: it.operation in (READ, PART)):
            self._visit(event)

    def _visit(self, first: Event) -> None:
        # A stack of its own, since chains of events are as long as the log.
        stack = [first]
        while stack:
            event = stack[-1]
            lacking = self._lacking(event)
            if lacking is None:
                stack.pop()
                if not self._is_placed.get(event.place):
                    self._is_placed[event.place] = True
                    self.merged.append(event)
            elif lacking.place in self._is_placed:
                raise self._cycle(stack[stack.index(lacking) :])
            else:
                self._is_placed[event.place] = False
                stack.append(lacking)

    def _lacking(self, event: Event) -> Optional[Event]:
        """Returns what the event depends on and is in no place so far, or None."""
        if self._is_placed.get(event.place):
            return None
        sender = self._senders[event.fields["message"]] if event.operation == DELIVER else None
        both = (sender, self._previous.get(event.place))
        return next((it for it in both if it is not None and not self._is_placed.get(it.place)), None)

    def _cycle(self, chain: Sequence[Event]) -> LogFault:
        """Creates the fault of lines that wait for each other, each for the next one."""
        following = [*chain[1:], chain[0]]
        waiting = [
            it for it, awaited in zip(chain, following)
            if it.operation == DELIVER and self._senders[it.fields["message"]] is awaited
        ]
        at = min(range(len(waiting)), key=lambda it: waiting[it].place)
        first = waiting[at]
        parts = "; ".join(map(self._describe, (waiting[at:] + waiting[:at])[:SHOWN_LINES]))
        return LogFault(first.place, (
            f'the field "message" is {shown(first.fields["message"])}, and no order of the lines has each update '
            f"before its deliveries ({parts}): expected each replica's lines in the order in which they happened there"
        ))

    def _describe(self, delivery: Event) -> str:
        key = delivery.fields["message"]
        return f"{delivery.place} delivers {shown(key)}, which {self._senders[key].place} sends"


def _previous(events: Sequence[Event]) -> Dict[Place, Event]:
    """Returns the event before each event at its replica."""
    previous: Dict[Place, Event] = {}
    last: Dict[Hashable, Event] = {}
    for event in events:
        if event.replica in last:
            previous[event.place] = last[event.replica]
        last[event.replica] = event
    return previous


def _senders(events: Sequence[Event]) -> Dict[Hashable, Event]:
    """Returns the update of each message. Raises `LogFault` if two updates have one key."""
    senders: Dict[Hashable, Event] = {}
    for event in events:
        if event.operation == DELIVER or "message" not in event.fields:
            continue
        key = event.fields["message"]
        if key in senders:
            raise LogFault(event.place, (
                f'the field "message" is {shown(key)}, which {senders[key].place} has too: expected a key that no '
                "other update of the object has"
            ))
        senders[key] = event
    return senders


def _never_sent(event: Event) -> LogFault:
    return LogFault(event.place, (
        f'the field "message" is {shown(event.fields["message"])}, and no update of this object has this message: '
        "expected the key of an update; check the key, and pass the log of the replica that made the update too"
    ))
