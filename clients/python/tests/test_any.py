"""The kind `any`: its reports, which values are one, what is found, and random runs of types."""
import importlib.util
import os
import tempfile
import unittest
from collections import OrderedDict, defaultdict, deque
from dataclasses import dataclass
from enum import Enum
from typing import Any, List

from any_replicas import DOCUMENT_BUGS, AppliesByArrival, Document, MergedDocument, ReadsFromACache
from replicas import forking
from test_random import FOUND_WITHIN, RUNS, require_small_failure
from yehatu import NotLinearizable, NotRepresentable, Recorder, check_random, replay, update
from yehatu.numbers import ValueNumbering

HAS_HYPOTHESIS = importlib.util.find_spec("hypothesis") is not None
# The number of pairs of values that are numbered.
PAIRS = 300


@dataclass
class Point:
    """A value that is no key of a dictionary."""

    x: float
    tags: List[str]


class Mark(Enum):
    """Values that are compared by identity, and are their own copies."""

    ONE, TWO = 1, 2


class Incomparable:
    """A value that cannot be compared, and is no key of a dictionary."""

    def __eq__(self, other: object) -> bool:
        raise ValueError("the truth value is ambiguous")


class Identified:
    """A value that is equal to itself alone."""


class Unequal:
    """A value that is equal to nothing, and is no key of a dictionary."""

    def __eq__(self, other: object) -> bool:
        return False


def lines(recorder: Recorder) -> List[str]:
    """Returns the commands that were reported."""
    return recorder.history().splitlines()[2:]


def numbers_of(*values: Any) -> List[int]:
    """Returns the numbers of these values."""
    numbering = ValueNumbering("a value")
    return [numbering.number_of(it) for it in values]


class Reports(unittest.TestCase):
    def test_an_update_and_a_read_of_any_value_are_reported(self) -> None:
        with Recorder("any", ["ann", "bob"]) as recorder:
            recorder.update("ann", message="m1")
            self.assertEqual(recorder.update("bob", act=lambda: "act", message="m2"), "act")
            recorder.read("ann", {"title": ["a"]})
            recorder.deliver("ann", "m2")
            recorder.deliver("bob", "m1")
            recorder.read("ann", {"title": ["a"], "done": None})
            recorder.read("bob", lambda: {"done": None, "title": ["a"]})
            recorder.update("ann", [update(), update()], message="both")
            recorder.merge("bob", recorder.seen("ann"))
            recorder.join("cat", "bob")
            recorder.read("cat", None)
        self.assertEqual(lines(recorder), [
            "ann update", "bob update", "ann read 1", "ann got 1", "bob got 0", "ann read 2", "bob read 2",
            "ann update", "ann update", "bob got 5", "bob got 6", "join cat bob", "cat read 3",
        ])

    def test_an_operation_of_another_kind_is_rejected(self) -> None:
        recorder = Recorder("any", ["a"])
        with self.assertRaisesRegex(NotRepresentable, "write is not an operation of the kind any: expected update"):
            recorder.write("a", 1)
        recorder.stop()
        recorder = Recorder("lwwset", ["a"])
        with self.assertRaisesRegex(NotRepresentable, "an update of the kind lwwset needs its operation: expected add"):
            recorder.update("a")
        recorder.stop()

    def test_two_values_for_the_same_updates_are_a_violation(self) -> None:
        recorder = Recorder("any", ["ann", "bob"], window=1)
        recorder.update("ann", message="m1")
        recorder.read("ann", {"title": "a"})
        recorder.read("bob", {})
        recorder.deliver("bob", "m1")
        with self.assertRaises(NotLinearizable) as caught:
            recorder.read("bob", {"title": "b"})
        recorder.stop()
        self.assertEqual(caught.exception.cause, "query")
        self.assertTrue(str(caught.exception).startswith(
            "'bob' reads {'title': 'b'}: not RA-linearizable, an earlier read that sees the same updates returned "
            "another value: 'ann' reads {'title': 'a'}\n"
        ), caught.exception)


class Values(unittest.TestCase):
    def test_values_are_one_if_they_are_equal(self) -> None:
        self.assertEqual(numbers_of(1, True, 1.0, "1", None, 0, False), [1, 1, 1, 2, 3, 4, 4])
        self.assertEqual(numbers_of([1, 2], [1, 2], (1, 2), [2, 1], (1, 2), [1, [2]]), [1, 1, 2, 3, 2, 4])
        ordered, default = OrderedDict(b=[2], a=1), defaultdict(list, a=1, b=[2])
        self.assertEqual(numbers_of({"a": 1, "b": [2]}, ordered, default, {"a": 1}), [1, 1, 1, 2])
        self.assertEqual(numbers_of({1, 2}, frozenset((2, 1)), [1, 2], [{1}, {}], [{1}, {}]), [1, 1, 2, 3, 3])
        one, same, other = Point(1, ["a"]), Point(1.0, ["a"]), Point(2, [])
        self.assertEqual(numbers_of(one, [one], same, other, [same]), [1, 2, 1, 3, 2])
        self.assertEqual(numbers_of(deque("ab"), deque("ab"), deque("ba"), bytearray(b"a"), b"a"), [1, 1, 2, 3, 4])
        self.assertEqual(numbers_of([float("nan")], [float("nan")], float("nan")), [1, 1, 2])
        self.assertEqual(numbers_of(Mark.ONE, Mark.TWO, Mark.ONE, len, None), [1, 2, 1, 3, 4])

    @unittest.skipUnless(HAS_HYPOTHESIS, "hypothesis is not installed: apt-get install python3-hypothesis")
    def test_values_of_any_shape_are_one_if_and_only_if_they_are_equal(self) -> None:
        from hypothesis import given, settings, strategies

        plain = strategies.one_of(strategies.integers(-2, 2), strategies.booleans(), strategies.sampled_from("ab"))
        values = strategies.recursive(plain, lambda it: strategies.one_of(
            strategies.lists(it, max_size=2), strategies.dictionaries(plain, it, max_size=2),
            strategies.tuples(it, it), strategies.builds(Point, plain, strategies.lists(it, max_size=2)),
            strategies.sets(plain, max_size=2),
        ), max_leaves=4)

        @settings(max_examples=PAIRS, deadline=None, database=None, derandomize=True)
        @given(first=values, second=values)
        def check(first: Any, second: Any) -> None:
            one, other = numbers_of(first, second)
            self.assertEqual(one == other, first == second, (first, second))

        check()

    def test_a_value_that_changes_later_is_known_as_it_was(self) -> None:
        with Recorder("any", ["a"]) as recorder:
            shown = {"items": [1]}
            recorder.read("a", shown)
            recorder.update("a")
            shown["items"].append(2)
            recorder.read("a", shown)
            recorder.update("a")
            recorder.read("a", {"items": [1]})
        self.assertEqual(lines(recorder), ["a read 1", "a update", "a read 2", "a update", "a read 1"])

    def test_a_value_that_has_no_equal_copy_is_rejected(self) -> None:
        cases = (
            (Unequal(), "is not equal to a copy of itself: expected a value that `==` compares"),
            (Incomparable(), r"cannot be compared by `==` \(the truth value is ambiguous\)"),
            (Identified(), "is not equal to a copy of itself: expected a value that `==` compares"),
            ([Identified()], "is not equal to a copy of itself: expected a value that `==` compares"),
            ((it for it in "ab"), r"cannot be copied \(.*\): expected plain data"),
            ([(it for it in "ab"), []], r"cannot be copied \(.*\): expected plain data"),
            ({}.values(), r"cannot be copied \(.*\): expected plain data"),
        )
        for value, message in cases:
            recorder = Recorder("any", ["a"])
            with self.assertRaisesRegex(NotRepresentable, message):
                recorder.read("a", value)
            recorder.stop()


class RandomTypes(unittest.TestCase):
    def test_all_runs_of_a_correct_type_pass(self) -> None:
        self.assertEqual(check_random(Document, "any", seeds=RUNS), RUNS)
        self.assertEqual(check_random(forking(Document), "any", 4, 40, seeds=RUNS, duplicates=True), RUNS)
        self.assertEqual(check_random(MergedDocument, "any", seeds=RUNS), RUNS)

    def test_each_planted_bug_of_a_type_is_found_and_shrunk(self) -> None:
        for bug, make in DOCUMENT_BUGS.items():
            with self.subTest(bug=bug):
                with self.assertRaises(NotLinearizable) as caught:
                    check_random(make, "any", seeds=FOUND_WITHIN)
                require_small_failure(self, caught.exception)

    def test_the_test_of_a_type_compares_two_reads(self) -> None:
        with self.assertRaises(NotLinearizable) as caught:
            check_random(AppliesByArrival, "any", seeds=FOUND_WITHIN)
        message = str(caught.exception)
        source = message.split("the same as a test:\n\n")[1]
        self.assertRegex(source, r"(?m)^ +read_1 = copy\.deepcopy\([abc]\.read\(\)\)$")
        self.assertRegex(source, r"(?m)^ +self\.assertEqual\([abc]\.read\(\), read_1\)$")
        with tempfile.TemporaryDirectory() as folder:
            path = os.path.join(folder, "regression.py")
            with open(path, "w", encoding="utf-8") as file:
                file.write("\n".join(it[4:] for it in source.splitlines()))
            for make, is_right in ((AppliesByArrival, False), (Document, True)):
                names = {"AppliesByArrival": make}
                with open(path, encoding="utf-8") as file:
                    text = file.read().replace("from any_replicas import AppliesByArrival\n", "")
                exec(text, names)  # pylint: disable=exec-used
                result = unittest.TestResult()
                unittest.defaultTestLoader.loadTestsFromTestCase(names["Regression"]).run(result)
                self.assertEqual((result.testsRun, result.wasSuccessful()), (1, is_right), result.errors)

    def test_a_failure_of_a_type_shows_the_call_of_each_update(self) -> None:
        with self.assertRaises(NotLinearizable) as caught:
            check_random(AppliesByArrival, "any", seeds=FOUND_WITHIN)
        shown = [it for it in str(caught.exception).splitlines() if " makes an update" in it]
        self.assertGreater(len(shown), 1, caught.exception)
        for line in shown:
            self.assertRegex(line, r"'[abc]' makes an update: update\([0-9]+\)")

    def test_a_failure_of_a_type_is_run_again(self) -> None:
        with tempfile.TemporaryDirectory() as folder:
            path = os.path.join(folder, "failure.json")
            with self.assertRaises(NotLinearizable):
                check_random(ReadsFromACache, "any", seeds=FOUND_WITHIN, failure=path)
            with self.assertRaisesRegex(NotLinearizable, "still fails: "):
                replay(ReadsFromACache, path)
            self.assertGreater(replay(Document, path), 2)


if __name__ == "__main__":
    unittest.main()
