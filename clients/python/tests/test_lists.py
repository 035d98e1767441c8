"""The kind `list`: its operations, the causes of its violations, and random runs of lists."""
import importlib.util
import os
import tempfile
import unittest
from typing import Any, Callable, List, Sequence

from list_replicas import BUGS, Fugue, LosesADelivery, Message, SiblingsByArrival, named_by_index
from replicas import forking
from test_random import FOUND_WITHIN, RUNS, require_small_failure
from yehatu import (
    NotLinearizable, NotRepresentable, Operation, Recorder, ReplicaRaised, check_random, difference, insert, inserted,
    remove, replay,
)

HAS_HYPOTHESIS = importlib.util.find_spec("hypothesis") is not None
# The number of pairs of lists whose difference is tried.
PAIRS = 300


class RaisesAtTheEnd(Fugue):
    """Raises an exception where a third element is inserted at the end."""

    def insert(self, index: int, element: Any) -> Message:
        if index == 2:
            raise IndexError("too far")
        return super().insert(index, element)


def lines(recorder: Recorder) -> List[str]:
    """Returns the commands that were reported."""
    return recorder.history().splitlines()[2:]


class Operations(unittest.TestCase):
    def test_an_insertion_is_reported_with_both_neighbours(self) -> None:
        with Recorder("list", ["ann", "bob"]) as recorder:
            recorder.insert("ann", None, "x", None, message=1)
            recorder.insert("ann", "x", "z", None, message=2)
            self.assertEqual(recorder.insert("ann", "x", "y", "z", act=lambda: "act", message=3), "act")
            for message in (1, 2, 3):
                recorder.deliver("bob", message)
            recorder.remove("bob", "x", message=4)
            recorder.insert("bob", None, "w", "y")
            recorder.read("bob", ["w", "y", "z"])
            recorder.deliver("ann", 4)
            recorder.read("ann", ("y", "z"))
        self.assertEqual(lines(recorder), [
            "ann insert 0 1 0", "ann insert 1 2 0", "ann insert 1 3 2", "bob got 0", "bob got 1", "bob got 2",
            "bob remove 1", "bob insert 0 4 3", "bob read 4,3,2", "ann got 3", "ann read 3,2",
        ])

    def test_a_move_in_a_list_is_one_message(self) -> None:
        with Recorder("list", ["a", "b"]) as recorder:
            recorder.update("a", [insert(None, "x", None), insert("x", "y", None)], message="both")
            recorder.update("a", [remove("x"), insert("y", "x again", None)], message="move")
            recorder.merge("b", recorder.seen("a"))
            recorder.read("b", ["y", "x again"])
        self.assertEqual(lines(recorder)[:4], ["a insert 0 1 0", "a insert 1 2 0", "a remove 1", "a insert 2 3 0"])

    def test_a_part_of_a_list_is_reported(self) -> None:
        with Recorder("list", ["a"]) as recorder:
            recorder.insert("a", None, "x", None)
            recorder.insert("a", "x", "y", None)
            recorder.insert("a", "y", "z", None)
            self.assertEqual(recorder.part("a", ["x", "z"]), ["x", "z"])
            self.assertEqual(recorder.part("a", lambda: []), [])
        self.assertEqual(lines(recorder)[-2:], ["a part 1,3", "a part -"])
        recorder = Recorder("rga", ["a"])
        with self.assertRaisesRegex(NotRepresentable, "part is not a read of the kind rga: it is one of the kind list"):
            recorder.part("a", [])
        recorder.stop()

    def test_an_operation_of_another_list_is_rejected(self) -> None:
        recorder = Recorder("list", ["a"])
        with self.assertRaisesRegex(NotRepresentable, "insert_after is not an operation of the kind list: expected"):
            recorder.insert_after("a", None, "x", 1)
        recorder.stop()


def applied(before: Sequence[int], operations: Sequence[Operation]) -> List[Any]:
    """Returns the list after these operations. Each insertion has to name its neighbours."""
    shown: List[Any] = [*before]
    for it in operations:
        if it.word == "remove":
            shown.remove(it.value)
            continue
        left, right = it.anchor
        index = 0 if left is None else shown.index(left) + 1
        if (shown[index] if index < len(shown) else None) != right:
            raise AssertionError(f"{it} does not stand between two neighbours of {shown}")
        shown.insert(index, it.value)
    return shown


class Differences(unittest.TestCase):
    def test_an_insertion_at_an_index_has_the_neighbours_on_both_sides(self) -> None:
        self.assertEqual(inserted([], 0, "x"), insert(None, "x", None))
        self.assertEqual(inserted("ab", 0, "x"), insert(None, "x", "a"))
        self.assertEqual(inserted("ab", 1, "x"), insert("a", "x", "b"))
        self.assertEqual(inserted(iter("ab"), 2, "x"), insert("b", "x", None))
        for index in (-1, 3):
            with self.assertRaisesRegex(IndexError, "into 2 elements: expected 0 to 2"):
                inserted("ab", index, "x")

    @unittest.skipUnless(HAS_HYPOTHESIS, "hypothesis is not installed: apt-get install python3-hypothesis")
    def test_a_difference_leads_from_one_list_to_the_other(self) -> None:
        from hypothesis import given, settings, strategies

        elements = strategies.lists(strategies.integers(1, 12), unique=True)

        @settings(max_examples=PAIRS, deadline=None, database=None, derandomize=True)
        @given(before=elements, changed=elements)
        def check(before: List[int], changed: List[int]) -> None:
            # What both lists have keeps its order.
            kept = iter([it for it in before if it in changed])
            after = [next(kept) if it in before else it for it in changed]
            operations = difference(before, after)
            self.assertEqual(applied(before, operations), after)
            self.assertEqual(len(operations), len({*before} ^ {*after}))

        check()

    def test_what_is_no_difference_is_rejected(self) -> None:
        with self.assertRaisesRegex(NotRepresentable, "'a' stands twice in the list before the change: expected"):
            difference("aba", "b")
        with self.assertRaisesRegex(NotRepresentable, "'a' stands twice in the list after the change: expected"):
            difference("ab", "aab")
        with self.assertRaisesRegex(NotRepresentable, "'c' and 'b' changed their order: report a moved element as"):
            difference("abcd", "acbd")

    def test_a_recorder_reports_the_difference_of_two_texts(self) -> None:
        with Recorder("list", ["ann", "bob"]) as recorder:
            recorder.update("ann", difference("", "word"), message=1)
            recorder.update("ann", difference("word", "wobld"), message=2)
            recorder.update("ann", difference("wobld", "wobld"), message=3)
            for message in (1, 2, 3):
                recorder.deliver("bob", message)
            recorder.read("ann", "wobld")
            recorder.read("bob", "wobld")
        self.assertEqual(lines(recorder)[:7], [
            "ann insert 0 1 0", "ann insert 1 2 0", "ann insert 2 3 0", "ann insert 3 4 0", "ann remove 3",
            "ann insert 2 5 4", "ann insert 5 6 4",
        ])


def two_elements(recorder: Recorder) -> None:
    """Reports two insertions by replicas that know nothing of each other, and their deliveries."""
    recorder.insert("a", None, "x", None, message=1)
    recorder.insert("b", None, "y", None, message=2)
    recorder.deliver("a", 2)
    recorder.deliver("b", 1)


class Causes(unittest.TestCase):
    def require_violation(self, cause: str, text: str, report: Callable[[Recorder], object]) -> None:
        recorder = Recorder("list", ["a", "b"], window=1)
        with self.assertRaises(NotLinearizable) as caught:
            report(recorder)
        recorder.stop()
        self.assertEqual(caught.exception.cause, cause)
        self.assertIn(text, str(caught.exception))

    def test_two_reads_that_no_order_explains(self) -> None:
        def report(recorder: Recorder) -> None:
            two_elements(recorder)
            recorder.part("a", ["x", "y"])
            recorder.read("b", ["y", "x"])

        self.require_violation("order", "no single order of the elements agrees with all reads and insertions", report)

    def test_an_element_that_is_inserted_twice(self) -> None:
        def report(recorder: Recorder) -> None:
            recorder.insert("a", None, "x", None)
            recorder.insert("b", None, "x", None)

        self.require_violation("update", "inserts 'x': not RA-linearizable, it inserts an element that was", report)

    def test_a_neighbour_that_did_not_arrive(self) -> None:
        def report(recorder: Recorder) -> None:
            recorder.insert("a", None, "x", None)
            recorder.insert("b", "x", "y", None)

        self.require_violation("query", "inserts 'y' behind 'x': not RA-linearizable, it does not follow", report)

    def test_a_list_that_leaves_out_an_element(self) -> None:
        def report(recorder: Recorder) -> None:
            two_elements(recorder)
            recorder.insert("a", "x", "z", "y")
            recorder.read("a", ["x", "z"])

        self.require_violation("query", "inserts 'z' behind 'x' and before 'y'", report)


class RandomLists(unittest.TestCase):
    def test_all_runs_of_a_correct_list_pass(self) -> None:
        self.assertEqual(check_random(Fugue, "list", seeds=RUNS), RUNS)
        self.assertEqual(check_random(forking(Fugue), "list", 4, 40, seeds=RUNS, duplicates=True), RUNS)

    def test_each_planted_bug_of_a_list_is_found_and_shrunk(self) -> None:
        for bug, make in BUGS.items():
            with self.subTest(bug=bug):
                with self.assertRaises(NotLinearizable) as caught:
                    check_random(make, "list", seeds=FOUND_WITHIN)
                require_small_failure(self, caught.exception)

    def test_a_list_may_name_its_methods_by_the_index(self) -> None:
        result = check_random(named_by_index(Fugue), "list", seeds=RUNS, weights={"remove_at": 2})
        self.assertEqual((result, result.unused), (RUNS, ()))
        with tempfile.TemporaryDirectory() as folder:
            path = os.path.join(folder, "failure.json")
            with self.assertRaises(NotLinearizable):
                check_random(named_by_index(SiblingsByArrival), "list", seeds=FOUND_WITHIN, failure=path)
            with self.assertRaisesRegex(NotLinearizable, "still fails: "):
                replay(SiblingsByArrival, path)
            self.assertGreater(replay(named_by_index(Fugue), path), 3)
        with self.assertRaises(ReplicaRaised) as caught:
            check_random(named_by_index(RaisesAtTheEnd), "list", seeds=FOUND_WITHIN)
        self.assertRegex(caught.exception.operation, r"^'[abc]': insert_at\(2, 3\) raised IndexError\('too far'\)$")
        self.assertRegex(str(caught.exception), r"(?m)^ +[abc]\.insert_at\(2, 3\)$")

    def test_the_test_of_a_list_has_the_indexes_of_its_calls(self) -> None:
        with self.assertRaises(ReplicaRaised) as caught:
            check_random(RaisesAtTheEnd, "list", seeds=FOUND_WITHIN)
        self.assertRegex(caught.exception.operation, r"^'[abc]': insert\(2, 3\) raised IndexError\('too far'\)$")
        self.assertRegex(str(caught.exception), r"(?m)^ +[abc]\.insert\(0, 1\)$")
        self.assertRegex(str(caught.exception), r"(?m)^ +[abc]\.insert\([01], 2\)$")
        self.assertRegex(str(caught.exception), r"(?m)^ +[abc]\.insert\(2, 3\)$")

    def test_a_failure_of_a_list_is_run_again(self) -> None:
        with tempfile.TemporaryDirectory() as folder:
            path = os.path.join(folder, "failure.json")
            with self.assertRaises(NotLinearizable):
                check_random(SiblingsByArrival, "list", seeds=FOUND_WITHIN, failure=path)
            with self.assertRaisesRegex(NotLinearizable, "still fails: "):
                replay(SiblingsByArrival, path)
            self.assertGreater(replay(Fugue, path), 3)

    def test_a_list_with_other_elements_is_reported_as_a_read(self) -> None:
        with self.assertRaises(NotLinearizable) as caught:
            check_random(LosesADelivery, "list", seeds=FOUND_WITHIN)
        self.assertEqual(caught.exception.cause, "query")
        self.assertRegex(caught.exception.operation, r"^'[abc]' reads \[")


if __name__ == "__main__":
    unittest.main()
