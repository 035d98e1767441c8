"""Random runs: correct replicas pass, and each seeded bug is found and shrunk."""
import contextlib
import copy
import io
import os
import re
import unittest
from typing import Any, Dict, Iterator, Tuple
from unittest import mock

import planted
from replicas import CORRECT, Counter, LwwSet, Message, Register, Rga, forking
from yehatu import NotRepresentable, NotLinearizable, Refused, ReplicaRaised, check_random, program, random_runs
from yehatu.plans import Planner
from yehatu.profile import Traits

# The number of runs of correct replicas. The gate runs fewer than the thousand of the README.
RUNS = int(os.environ.get("YEHATU_RUNS", "100"))
# The largest number of runs until a bug is found, and the largest number of commands of its history.
FOUND_WITHIN, LONGEST_HISTORY = 200, 12


class MergedCounter:
    """A counter with merged states: for each replica the largest numbers of its increments and decrements."""

    def __init__(self, name: str) -> None:
        self.name = name
        self.steps: Dict[Tuple[str, int], int] = {}

    def increment(self) -> None:
        self.steps[self.name, 1] = self.steps.get((self.name, 1), 0) + 1

    def decrement(self) -> None:
        self.steps[self.name, -1] = self.steps.get((self.name, -1), 0) + 1

    def state(self) -> Dict[Tuple[str, int], int]:
        return dict(self.steps)

    def merge(self, state: Dict[Tuple[str, int], int]) -> None:
        for key, number in state.items():
            self.steps[key] = max(self.steps.get(key, 0), number)

    def read(self) -> int:
        return sum(sign * number for (_, sign), number in self.steps.items())


class SummingCounter(MergedCounter):
    """Adds the numbers in a merge, so that common updates count twice."""

    def merge(self, state: Dict[Tuple[str, int], int]) -> None:
        for key, number in state.items():
            self.steps[key] = self.steps.get(key, 0) + number


class SummingAmounts(SummingCounter):
    """The same bug in a counter whose methods take an amount."""

    def increment(self, by: int = 1) -> None:
        self.steps[self.name, 1] = self.steps.get((self.name, 1), 0) + by

    def decrement(self, by: int = 1) -> None:
        self.steps[self.name, -1] = self.steps.get((self.name, -1), 0) + by


class ForgetfulCounter(MergedCounter):
    """Overwrites its state with one that has nothing new."""

    def merge(self, state: Dict[Tuple[str, int], int]) -> None:
        if all(number <= self.steps.get(key, 0) for key, number in state.items()):
            self.steps = dict(state)
        super().merge(state)


class ForksWithNothing(Counter):
    """Forks an empty replica."""

    def fork(self, name: str) -> Counter:
        return type(self)(name)


class ForksIntoNone(Counter):
    """Forks nothing."""

    def fork(self, name: str) -> None:
        type(self)(name)


class ForksShareTheirState(LwwSet):
    """Forks a replica that shares the state instead of copying it."""

    def fork(self, name: str) -> LwwSet:
        forked = copy.copy(self)
        forked.name = name
        return forked


class ForksForgetTheClock(Register):
    """Forks a replica whose clock starts at 0."""

    def fork(self, name: str) -> Register:
        forked = copy.copy(self)
        forked.name, forked.clock = name, 0
        return forked


class ForksKeepTheName(Register):
    """Forks a replica that keeps the name of its source."""

    def fork(self, name: str) -> Register:
        return copy.copy(self)


class ForksRaise(Counter):
    def fork(self, name: str) -> Counter:
        raise KeyError(name)


FORKING = (ForksWithNothing, "counter"), (ForksShareTheirState, "lwwset"), (ForksForgetTheClock, "register")


class RaisingRga(Rga):
    """Raises an exception at the third element behind one anchor."""

    def insert(self, message: Message) -> None:
        if len(self.nodes[message["anchor"]].children) == 2:
            raise IndexError("too many children")
        super().insert(message)


class StandingClock(Rga):
    """Does not advance its clock."""

    def tick(self) -> Tuple[int, str]:
        return 1, self.name


def cases(bugs: Dict[str, Dict[str, Any]]) -> Iterator[Tuple[str, str, Any]]:
    """Yields each bug in each kind."""
    return ((bug, kind, make) for bug, kinds in bugs.items() for kind, make in kinds.items())


class CorrectReplicas(unittest.TestCase):
    def test_all_runs_of_each_kind_pass(self) -> None:
        for kind, make in CORRECT.items():
            with self.subTest(kind=kind):
                self.assertEqual(check_random(make, kind, seeds=RUNS), RUNS)

    def test_states_that_are_merged(self) -> None:
        self.assertEqual(check_random(MergedCounter, "counter", seeds=RUNS), RUNS)

    def test_replicas_with_names_of_their_own(self) -> None:
        names = ["Ann", "Bob", "Carol", "Dave"]
        self.assertEqual(check_random(CORRECT["register"], "register", names, 20, range(7, 17)), 10)

    def test_a_seed_determines_the_plan(self) -> None:
        plans = [Planner("rga", 3, 30, seed, Traits(("insert_after", "remove"))).plan() for seed in (5, 5, 6)]
        self.assertEqual(plans[0], plans[1])
        self.assertNotEqual(plans[1], plans[2])


class ReplicasThatJoin(unittest.TestCase):
    def test_all_runs_of_each_kind_with_joins_pass(self) -> None:
        for kind, make in CORRECT.items():
            with self.subTest(kind=kind):
                self.assertEqual(check_random(forking(make), kind, 4, seeds=RUNS), RUNS)

    def test_states_that_are_merged_and_replicas_that_join(self) -> None:
        self.assertEqual(check_random(forking(MergedCounter), "counter", 4, seeds=RUNS), RUNS)

    def test_many_replicas(self) -> None:
        self.assertEqual(check_random(forking(Rga), "rga", 64, 40, 3), 3)
        self.assertEqual(check_random(Rga, "rga", 20, 40, 3), 3)

    def test_some_replicas_are_initial_and_others_join(self) -> None:
        joins = []
        for seed in range(20):
            plan = Planner("rga", 4, 30, seed, Traits(("insert_after", "remove"), forks=True)).plan()
            joins.append(sum(it.action == "join" for it in plan))
            self.assertTrue(all(it.number < it.replica for it in plan if it.action == "join"))
        self.assertEqual((min(joins), max(joins)), (0, 3))

    def test_bugs_of_a_copy_are_found_and_shrunk(self) -> None:
        for make, kind in FORKING:
            with self.subTest(kind=kind):
                with self.assertRaisesRegex(NotLinearizable, "joins with a copy of") as caught:
                    check_random(make, kind, seeds=FOUND_WITHIN)
                require_small_failure(self, caught.exception)

    def test_a_failure_that_needs_no_join_is_shrunk_to_none(self) -> None:
        with self.assertRaises(NotLinearizable) as caught:
            make = forking(planted.OBSERVABLE["children stand in rising order"]["rga"])
            check_random(make, "rga", seeds=FOUND_WITHIN)
        require_small_failure(self, caught.exception)
        self.assertNotIn("joins with a copy of", str(caught.exception))

    def test_a_copy_that_keeps_the_name_of_its_source_is_rejected(self) -> None:
        with self.assertRaisesRegex(NotRepresentable, "names another replica: expected"):
            check_random(ForksKeepTheName, "register")

    def test_a_copy_that_fails_is_reported(self) -> None:
        with self.assertRaises(ReplicaRaised) as caught:
            check_random(ForksRaise, "counter")
        self.assertRegex(caught.exception.operation, r"^'[ab]': fork\('([bc])'\) raised KeyError\('\1'\)$")


def require_small_failure(test: unittest.TestCase, failed: NotLinearizable) -> None:
    """Requires that the history is short, that the message quotes it, and that checking it again fails."""
    with open(failed.history or "") as file:
        text = file.read()
    test.assertLessEqual(len(text.splitlines()) - 2, LONGEST_HISTORY)
    for line in text.splitlines():
        test.assertRegex(str(failed), rf"(?m)^    {re.escape(line)}(?:  |$)")
    test.assertIn("seed ", str(failed))
    test.assertEqual(program.check_text(program.find_for_many_runs(), text.encode()).status, 1)


class PlantedBugs(unittest.TestCase):
    def test_each_observable_bug_is_found_and_shrunk(self) -> None:
        for bug, kind, make in cases(planted.OBSERVABLE):
            with self.subTest(bug=bug, kind=kind):
                with self.assertRaises((NotLinearizable, ReplicaRaised)) as caught:
                    check_random(make, kind, seeds=FOUND_WITHIN)
                if isinstance(caught.exception, NotLinearizable):
                    require_small_failure(self, caught.exception)
                else:
                    # An insertion behind an element that was lost has no place.
                    self.assertEqual((bug, kind), ("a delivery is lost", "rga"))

    def test_a_merge_that_counts_twice(self) -> None:
        with self.assertRaises(NotLinearizable) as caught:
            check_random(SummingCounter, "counter", seeds=FOUND_WITHIN)
        require_small_failure(self, caught.exception)

    def test_a_merge_that_counts_twice_is_shrunk_to_small_amounts(self) -> None:
        for seed in range(8):
            with self.subTest(seed=seed), self.assertRaises(NotLinearizable) as caught:
                check_random(SummingAmounts, "counter", seeds=[seed])
            require_small_failure(self, caught.exception)
            with open(caught.exception.history or "") as file:
                updates = [it for it in file if it.endswith((" inc\n", " dec\n"))]
            self.assertEqual(len(updates), 1, updates)

    def test_an_old_state_that_overwrites(self) -> None:
        with self.assertRaises(NotLinearizable) as caught:
            check_random(ForgetfulCounter, "counter", seeds=FOUND_WITHIN)
        require_small_failure(self, caught.exception)
        self.assertIn("merges the state of", str(caught.exception))

    def test_other_bugs_change_no_result(self) -> None:
        for bug, kind, make in cases(planted.UNOBSERVABLE):
            with self.subTest(bug=bug, kind=kind):
                self.assertEqual(check_random(make, kind, seeds=RUNS // 2), RUNS // 2)


class OtherFailures(unittest.TestCase):
    def test_an_empty_list_of_seeds_is_rejected(self) -> None:
        for seeds in (0, [], range(3, 3)):
            with self.subTest(seeds=seeds), self.assertRaisesRegex(ValueError, "nothing was run"):
                check_random(Counter, "counter", seeds=seeds)

    def test_a_replica_that_fails_is_shrunk_too(self) -> None:
        with self.assertRaises(ReplicaRaised) as caught:
            check_random(RaisingRga, "rga")
        self.assertIsInstance(caught.exception.__cause__, IndexError)
        self.assertIn("too many children", str(caught.exception))
        self.assertRegex(str(caught.exception), "shrunk from [0-9]+ steps to [345];")
        self.assertRegex(caught.exception.operation, "^'[abc]': insert_after")

    def test_a_refused_report_is_shrunk_too(self) -> None:
        with self.assertRaises(Refused) as caught:
            check_random(StandingClock, "rga")
        self.assertEqual(caught.exception.cause, "stamp-taken")
        self.assertIn(" steps to 2;", str(caught.exception))

    def test_a_class_that_lacks_methods_is_rejected(self) -> None:
        with self.assertRaisesRegex(TypeError, "needs the methods write, read, receive: this one lacks write"):
            check_random(Counter, "register")

    def test_a_fork_that_returns_nothing_is_reported(self) -> None:
        with self.assertRaisesRegex(ReplicaRaised, r"fork\('[bc]'\) raised TypeError\(.*returned None"):
            check_random(ForksIntoNone, "counter", seeds=FOUND_WITHIN)

    def test_an_unknown_kind_is_rejected(self) -> None:
        with self.assertRaisesRegex(NotRepresentable, "unknown kind 'bag': expected counter, "):
            check_random(Counter, "bag")

    def test_long_runs_report_their_progress(self) -> None:
        stderr = io.StringIO()
        with mock.patch.object(random_runs, "PROGRESS_INTERVAL", -1.0), contextlib.redirect_stderr(stderr):
            check_random(Counter, "counter", seeds=2)
        self.assertIn("check_random counter: 2 runs passed so far", stderr.getvalue())


if __name__ == "__main__":
    unittest.main()
