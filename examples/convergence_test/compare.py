#!/usr/bin/env python3
"""Compares a conventional convergence test with `check_random`, on the same planted bugs.

    examples/convergence_test/compare.py [--all] [--times]

For each bug, each test gets at most 200 runs of three replicas and 30 operations. There are 13 bugs, two or three in
each of five small replicated data types (clients/python/tests/replicas.py); with --all, every bug that is planted in
the tests of the Python client and that a history can show. Each type without a bug has to pass 20 runs of both tests.
Prints, for each bug, the run in which each test found it, and with --times the seconds until then. The status is 0 if
the random runs found each bug and no test failed a correct type.
"""
import os
import sys
import tempfile
import time
from pathlib import Path

sys.dont_write_bytecode = True
TOP = Path(__file__).resolve().parents[2]
sys.path[:0] = [str(TOP / "clients" / "python"), str(TOP / "clients" / "python" / "tests")]
os.environ.setdefault("RA_MONITOR", str(TOP / "ra_monitor"))

import planted
from convergence import NAMES, converges
from replicas import CORRECT, Message, OrSet
from yehatu import check_random
from yehatu.errors import ReportFailed

RUNS, CORRECT_RUNS, OPERATIONS = 200, 20, 30


class AddedOnlyOnce(OrSet):
    """Keeps a removed element out for ever: a two-phase set."""

    def __init__(self, name: str) -> None:
        super().__init__(name)
        self.removed = set()

    def apply(self, message: Message) -> None:
        super().apply(message)
        if "identifiers" in message:
            self.removed.add(message["element"])

    def read(self):
        return [it for it in super().read() if it not in self.removed]


ADDED_ONLY_ONCE = "a removed element cannot be added again"
BUGS = [
    ("counter", "a delivery is lost"),
    ("counter", "a delivery is applied twice"),
    ("register", "ties are broken by arrival"),
    ("register", "a read is stale"),
    ("register", "a clock is not raised on delivery"),
    ("lwwset", "a removal of an absent element is forgotten"),
    ("lwwset", "a clock is not raised on delivery"),
    ("orset", "a removal takes what it has not seen"),
    ("orset", "an element is back after its removal"),
    ("orset", ADDED_ONLY_ONCE),
    ("rga", "an insertion behind a tombstone is lost"),
    ("rga", "a clock is not raised on delivery"),
    ("rga", "children stand in rising order"),
]
ALL = [(kind, bug) for bug, kinds in planted.OBSERVABLE.items() for kind in kinds] + [("orset", ADDED_ONLY_ONCE)]


def buggy(kind, bug):
    """The class of this kind with this bug."""
    return AddedOnlyOnce if bug == ADDED_ONLY_ONCE else planted.OBSERVABLE[bug][kind]


def by_convergence(make, kind, runs=RUNS):
    """The run in which the conventional test fails, from 1, or None."""
    return next((seed + 1 for seed in range(runs) if not converges(make, kind, seed)), None)


def by_random_runs(make, kind, runs=RUNS):
    """The run in which `check_random` fails, from 1, or None."""
    try:
        check_random(make, kind, replicas=NAMES, operations=OPERATIONS, seeds=runs)
    except ReportFailed as failure:
        for path in (failure.history, failure.steps):
            Path(path).unlink()
        return int(str(failure).split("\nrun ")[1].split(",")[0])
    return None


def cell(run, seconds):
    text = f"run {run}" if run else "not found"
    return f"{text}, {seconds:.2f} s" if "--times" in sys.argv and run else text


def timed(test, make, kind):
    """The run in which the test fails, and the time that this took."""
    begin = time.monotonic()
    return test(make, kind), time.monotonic() - begin


def main():
    bugs, tests = ALL if "--all" in sys.argv else BUGS, (by_convergence, by_random_runs)
    wrong = [kind for kind, make in CORRECT.items() if any(test(make, kind, CORRECT_RUNS) for test in tests)]
    print(f"{'type':9} {'bug':44} {'convergence test':18} check_random")
    results = []
    for kind, bug in bugs:
        results.append([timed(test, buggy(kind, bug), kind) for test in tests])
        one, two = (cell(*it) for it in results[-1])
        print(f"{kind:9} {bug:44} {one:18} {two}")
    found = [sum(row[at][0] is not None for row in results) for at in (0, 1)]
    print(f"found: {found[0]} of {len(bugs)} by the convergence test, {found[1]} of {len(bugs)} by check_random")
    if "--times" in sys.argv:
        print(f"longest time of check_random: {max(row[1][1] for row in results):.2f} s")
    print(*(f"FAIL: a correct {kind} does not pass" for kind in wrong), sep="\n", end="")
    return 0 if found[1] == len(bugs) and not wrong else 1


if __name__ == "__main__":
    with tempfile.TemporaryDirectory() as folder:
        tempfile.tempdir = folder
        sys.exit(main())
