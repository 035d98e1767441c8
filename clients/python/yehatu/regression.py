"""The source of a regression test for a small run."""
import keyword
from typing import Any, Callable, Dict, Hashable, List, Mapping, NamedTuple, Optional, Sequence, Set, Tuple

from .delivery_state import DeliveryState
from .driver import initial_replicas
from .operations import LISTS
from .steps import RECEIVING, Step, call_arguments

MAX_LINES = 30
INDENT = " " * 8


class Expected(NamedTuple):
    """The expected result of the last read, if it is known."""

    value: Any


class _Source:
    """The statements of the test, one step after another."""

    def __init__(
        self, make: str, kind: str, names: Sequence[Hashable], steps: Sequence[Step], indexes: Mapping[int, int]
    ) -> None:
        self._make, self._kind, self._names, self._indexes = make, kind, names, indexes
        self._used = {it.number for it in steps if it.action in RECEIVING}
        self._restarts = {it.replica for it in steps if it.action == "restart"}
        self._received: Dict[int, List[str]] = {}
        self._joined: Set[int] = set()
        self.lines = [
            f"{self.variable(it)} = {make}({names[it]!r})" for it in initial_replicas(steps)
        ]
        for it in initial_replicas(steps):
            self._save(it)
        self.copies = bool(self._restarts) or any(it.action == "snapshot" for it in steps)

    def keep_read(self, replica: int) -> None:
        """Adds a read whose result the last read has to be equal to."""
        self.copies = True
        self.lines.append(f"read_1 = copy.deepcopy({self.variable(replica)}.read())")

    def compare_reads(self, replica: int) -> None:
        """Adds the last read, which has to be equal to the one that was kept."""
        self.lines.append(f"self.assertEqual({self.variable(replica)}.read(), read_1)")

    def variable(self, replica: int) -> str:
        """Returns the variable of a replica: its name, if it can be one."""
        name = self._names[replica]
        is_short = isinstance(name, str) and name.isidentifier() and not keyword.iskeyword(name)
        taken = self._make, "copy", "self", "unittest"
        is_reserved = str(name).startswith(("saved_", "state_", "read_")) or name in taken
        is_message = isinstance(name, str) and name[:1] == "m" and name[1:].isdigit()
        return str(name) if is_short and not is_reserved and not is_message else f"replica_{replica}"

    def add(self, step: Step) -> None:
        """Adds the statements of a step."""
        replica = self.variable(step.replica)
        if step.action == "update":
            target = f"m{step.number} = " if step.number in self._used else ""
            arguments = ", ".join(map(repr, call_arguments(step, self._indexes)))
            self.lines.append(f"{target}{replica}.{step.method}({arguments})")
            self._save(step.replica)
        elif step.action == "deliver":
            self._receive(step.replica, f"receive(m{step.number})")
        elif step.action == "duplicate":
            self.lines.append(f"{replica}.receive(m{step.number})")
        elif step.action == "merge":
            self._receive(step.replica, f"merge({self.variable(step.number)}.state())")
        elif step.action == "snapshot":
            self.lines.append(f"state_{step.number} = copy.deepcopy({replica}.state())")
        elif step.action == "merge_snapshot":
            self._receive(step.replica, f"merge(copy.deepcopy(state_{step.number}))")
        elif step.action == "save":
            self._save(step.replica)
        elif step.action == "restart":
            self._restart(step.replica)
        elif step.action == "join":
            self.lines.append(f"{replica} = {self.variable(step.number)}.fork({self._names[step.replica]!r})")
            self._save(step.replica)
        else:
            self.lines.append(f"{replica}.read()")

    def _save(self, replica: int) -> None:
        if replica in self._restarts:
            self._received[replica] = []
            self.lines.append(f"saved_{replica} = copy.deepcopy({self.variable(replica)}.save())")

    def _receive(self, replica: int, call: str) -> None:
        name = self.variable(replica)
        if replica in self._restarts and call.startswith("merge"):
            # The same state is merged again after a restart.
            state = f"state_{replica}_{len(self.lines)}"
            self.lines.append(f"{state} = copy.deepcopy({call[len('merge(') : -1]})")
            call = f"merge({state})"
        self._received.setdefault(replica, []).append(f"{name}.{call}")
        self.lines.append(f"{name}.{call}")

    def _restart(self, replica: int) -> None:
        name = self.variable(replica)
        self.lines.append(f"{name} = {self._make}({self._names[replica]!r})")
        self.lines.append(f"{name} = {name}.load(copy.deepcopy(saved_{replica})) or {name}")
        self.lines += self._received[replica]

    def add_assertion(self, step: Step, expected: Any) -> None:
        """Adds the last read, with its expected result."""
        read = f"{self.variable(step.replica)}.read()"
        if self._kind in ("lwwset", "orset", "mvregister"):
            elements = ", ".join(map(repr, sorted(expected)))
            self.lines.append(f"self.assertEqual(set({read}), {f'{{{elements}}}' if elements else 'set()'})")
        else:
            self.lines.append(f"self.assertEqual({f'list({read})' if self._kind in LISTS else read}, {expected!r})")


def regression_test(
    make_replica: Callable[..., Any], kind: str, names: Sequence[Hashable], steps: Sequence[Step], seed: str,
    indexes: Mapping[int, int], expected: Optional[Expected], raises: bool, path: str,
) -> str:
    """Returns the source of a test with the calls of the steps, or, if that is longer than 30 lines, with `replay`."""
    make, imports = _import_of(make_replica)
    begin = ["", "", "class Regression(unittest.TestCase):", f"    def test_seed_{seed.replace('-', '_')}(self):"]
    source = _Source(make, kind, names, steps, indexes)
    compared = first_equal_read(steps, len(names)) if kind == "any" and not raises else None
    says = expected is not None or compared is not None
    for place, step in enumerate(steps[:-1] if says else steps):
        if place == compared:
            source.keep_read(step.replica)
        else:
            source.add(step)
    if compared is not None:
        source.compare_reads(steps[-1].replica)
    elif expected:
        source.add_assertion(steps[-1], expected.value)
    body = _collapsed(source.lines)
    needed = ["import copy", "import unittest"] if source.copies else ["import unittest"]
    lines = [*needed, *imports, *begin, *(INDENT + it for it in body)]
    if len(lines) > MAX_LINES or not (says or raises):
        needed = ["import unittest", *imports, "from yehatu import replay"]
        lines = [*needed, *begin, f"{INDENT}replay({make}, {path!r})"]
    return "\n".join(lines) + "\n"


def first_equal_read(steps: Sequence[Step], replicas: int) -> Optional[int]:
    """Returns the place of the first read that sees the same updates as the last step, or `None` if that is the last
    one itself, or no read."""
    state = DeliveryState("", replicas)
    taken: Dict[int, Tuple[int, ...]] = {}
    first: Dict[Tuple[int, ...], int] = {}
    for place, step in enumerate(steps):
        if step.action == "update":
            state.update(step)
        elif step.action == "deliver":
            state.arrive(step.replica, step.number)
        elif step.action == "merge":
            state.merge(step.replica, state.counts(step.number))
        elif step.action == "snapshot":
            taken[step.number] = state.counts(step.replica)
        elif step.action == "merge_snapshot":
            state.merge(step.replica, taken[step.number])
        elif step.action == "join":
            state.join(step.replica, step.number)
        elif step.action == "read":
            first.setdefault(state.counts(step.replica), place)
    found = first.get(state.counts(steps[-1].replica), len(steps))
    return found if steps[-1].action == "read" and found < len(steps) - 1 else None


def _import_of(make_replica: Callable[..., Any]) -> "tuple[str, List[str]]":
    """Returns the name of the function or class, and the line that imports it."""
    name, module = getattr(make_replica, "__qualname__", ""), getattr(make_replica, "__module__", None)
    if module is None or not name.isidentifier():
        return "make_replica", ["# make_replica: what check_random was called with"]
    if module == "__main__":
        return name, [f"# {name}: import it from its module"]
    return name, [f"from {module} import {name}"]


def _collapsed(lines: Sequence[str]) -> List[str]:
    """Returns the lines with a loop in the place of three or more equal calls in a row."""
    result: List[str] = []
    start = 0
    while start < len(lines):
        end = start
        while end < len(lines) and lines[end] == lines[start]:
            end += 1
        count = end - start
        result += [f"for _ in range({count}):", f"    {lines[start]}"] if count > 2 else lines[start:end]
        start = end
    return result
