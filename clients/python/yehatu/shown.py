"""What a history's text says that a replica has: the elements of an LWW set, the identifiers of an OR-Set, updates."""
from typing import Any, Dict, FrozenSet, Iterator, List, Optional, Set, Tuple

# An update: the name of its replica, its word, its element, and its clock or its identifiers.
Update = Tuple[str, str, int, str]


def delivered_updates(commands: List[str], replica: str) -> Iterator[Update]:
    """Yields the updates that were delivered to the replica of this name, in the order of their delivery."""
    updates: Dict[int, Update] = {}
    received: Dict[str, List[int]] = {}
    label = 0
    for command in commands:
        name, word, *fields = command.split(" ")
        if name == "join":
            received[word] = list(received.get(fields[0], ()))
        elif word == "got":
            received.setdefault(name, []).append(int(fields[0]))
        else:
            if word in ("add", "remove"):
                updates[label] = name, word, int(fields[0]), fields[1][1:]
                received.setdefault(name, []).append(label)
            label += 1
    return (updates[it] for it in received.get(replica, ()))


def shown_elements(commands: List[str], replica: str, names: List[str]) -> List[int]:
    """Returns the numbers of the elements of an LWW set that the replica shows, in ascending order."""
    last: Dict[int, Tuple[Tuple[int, int], bool]] = {}
    for name, word, element, clock in delivered_updates(commands, replica):
        entry: Any = ((int(clock), names.index(name)), word == "add")
        last[element] = max(last.get(element, entry), entry)
    return sorted(element for element, (_, is_in) in last.items() if is_in)


def observed_identifiers(commands: List[str], replica: str, element: int) -> Set[int]:
    """Returns the numbers of the identifiers of an OR-Set's element that the replica has."""
    observed: Set[int] = set()
    for _, word, changed, identifiers in delivered_updates(commands, replica):
        if changed == element:
            numbers = {int(it) for it in identifiers.split(",") if it not in ("", "-")}
            observed = observed | numbers if word == "add" else observed - numbers
    return observed


def first_equal_read(commands: List[str]) -> Optional[int]:
    """Returns the number of the first read that sees the same updates as the last command, which is a read."""
    received: Dict[str, FrozenSet[int]] = {}
    first: Dict[FrozenSet[int], int] = {}
    label = 0
    for number, command in enumerate(commands):
        name, word, *fields = command.split(" ")
        if name == "join":
            received[word] = received.get(fields[0], frozenset())
            continue
        seen = received.get(name, frozenset())
        if word == "read":
            first.setdefault(seen, number)
        else:
            received[name] = seen | {int(fields[0]) if word == "got" else label}
        label += word != "got"
    last = received.get(commands[-1].split(" ")[0], frozenset())
    return first.get(last) if " read " in commands[-1] else None
