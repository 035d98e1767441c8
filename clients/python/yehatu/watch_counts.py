"""What is known of a watched history: its counts, the lag of each replica, and the first violation."""
import re
from collections import Counter, deque
from typing import Deque, Dict, List, NamedTuple, Optional, Set, Tuple

from .errors import MonitorExited

# The lines in front of the first command, which have no replies.
HEADER_LINES = 2
# The replica of each update and of each delivery in a text of accepted commands, behind a line feed. A read is no
# update, and a `verdict` has one word.
CHANGE = re.compile(rb"\n([a-z0-9]+) (?!read )")


class Notice(NamedTuple):
    """A reply that is shown at once, with the line of its command, counted from 1."""

    line: int
    command: bytes
    reply: str


class Unanswered:
    """The commands that were sent and have no reply yet, in their order."""

    def __init__(self) -> None:
        self._batches: Deque[Tuple[bytes, int]] = deque()

    def append(self, lines: bytes) -> None:
        """Appends commands, each with its line feed."""
        self._batches.append((lines, lines.count(b"\n")))

    def take(self, number: int) -> bytes:
        """Removes this number of commands, or all if there are fewer, and returns them."""
        taken = []
        while number > 0 and self._batches:
            lines, count = self._batches.popleft()
            if count > number:
                rest = lines.split(b"\n", number)[number]
                self._batches.appendleft((rest, count - number))
                lines, count = lines[: len(lines) - len(rest)], number
            taken.append(lines)
            number -= count
        return b"".join(taken)


class Counts:
    """The counts of a history, from its commands and their replies.

    An update reaches the replica that issues it. An accepted delivery brings one more update to a replica, and a join
    brings those of its source. So a number for each replica is enough, and the size does not depend on the length.
    """

    def __init__(self) -> None:
        self.reports = 0
        """The number of commands that have a reply."""
        self.labels = self.refused = self.updates = 0
        self.violation: Optional[Notice] = None
        """The first `no`. What follows it is not judged, and only the reports are counted then."""
        self._reached: Dict[bytes, int] = {}
        self._causes: Set[bytes] = set()

    def begin(self, line: bytes) -> None:
        """Takes the initial replicas from the second line of the text."""
        self._reached = dict.fromkeys(line.split(b" ")[1:], 0)

    def lags(self) -> List[Tuple[str, int]]:
        """Returns for each replica the number of updates that have not reached it, the largest first."""
        lags = [(name.decode("latin-1"), self.updates - reached) for name, reached in self._reached.items()]
        return sorted(lags, key=lambda it: -it[1])

    def add(self, commands: bytes, replies: bytes) -> List[Notice]:
        """Counts commands and their replies. Returns the violation, and the first refusal for each cause."""
        count = replies.count(b"\n")
        if self.violation is not None:
            self.reports += count
            return []
        labels, deliveries = replies.count(b"ok "), replies.count(b"got ")
        if labels + deliveries + replies.count(b"yes ") != count:
            return self._add_each(commands.split(b"\n"), replies.split(b"\n")[:-1])
        # Nearly always all are accepted, and then the whole batch is counted without a loop over its lines.
        changes = Counter(CHANGE.findall(b"\n" + commands))
        for name, number in changes.items():
            self._reached[name] = self._reached.get(name, 0) + number
        self.reports += count
        self.labels += labels
        self.updates += sum(changes.values()) - deliveries
        return []

    def _add_each(self, commands: List[bytes], replies: List[bytes]) -> List[Notice]:
        notices = []
        for command, reply in zip(commands, replies):
            self.reports += 1
            if self.violation is None and self._add_one(command, reply):
                notices.append(Notice(self.reports + HEADER_LINES, command, reply.decode("latin-1")))
                if reply.startswith(b"no "):
                    self.violation = notices[-1]
        return notices

    def _add_one(self, command: bytes, reply: bytes) -> bool:
        """Counts a command and its reply. Returns whether they are shown at once."""
        answer, _, rest = reply.partition(b" ")
        fields = command.split(b" ")
        if answer == b"ok":
            self.labels += 1
            is_update = fields[1] != b"read"
            self.updates += is_update
            self._reached[fields[0]] += is_update
        elif answer == b"got":
            self._reached[fields[0]] += 1
        elif answer == b"joined":
            self._reached[fields[1]] = self._reached[fields[2]]
        elif answer == b"refused":
            self.refused += 1
            cause = rest.partition(b" ")[0]
            is_new = cause not in self._causes
            self._causes.add(cause)
            return is_new
        elif answer not in (b"yes", b"no"):
            raise MonitorExited(
                f"the program is not a monitor: it replied {reply[:60].decode('latin-1')!r}; "
                "set RA_MONITOR to the path of ra_monitor"
            )
        return answer == b"no"
