"""The kind `mvregister`: its reports, its violation, and random runs of registers that keep concurrent writes."""
import os
import tempfile
import unittest
from typing import List

from any_replicas import SIBLING_BUGS, DropsConcurrent, MergedSiblings, Siblings
from replicas import forking
from test_random import FOUND_WITHIN, RUNS, require_small_failure
from yehatu import NotLinearizable, NotRepresentable, Recorder, ReplicaRaised, check_random, replay, write


class ReadsOneValue(Siblings):
    """Returns a value in the place of a collection."""

    def read(self) -> str:  # type: ignore[override]
        return "milk"


def lines(recorder: Recorder) -> List[str]:
    """Returns the commands that were reported."""
    return recorder.history().splitlines()[2:]


class Reports(unittest.TestCase):
    def test_writes_and_a_read_of_several_values_are_reported(self) -> None:
        with Recorder("mvregister", ["ann", "bob"]) as recorder:
            recorder.read("ann", [])
            recorder.write("ann", "tea", message="m1")
            self.assertEqual(recorder.write("bob", "milk", act=lambda: "act", message="m2"), "act")
            recorder.deliver("ann", "m2")
            recorder.read("ann", ["milk", "tea"])
            recorder.read("ann", iter(("tea", "milk", "tea")))
            recorder.update("ann", write("milk"), message="m3")
            recorder.merge("bob", recorder.seen("ann"))
            recorder.read("bob", {"milk"})
        self.assertEqual(lines(recorder), [
            "ann read -", "ann write 1", "bob write 2", "ann got 2", "ann read 1,2", "ann read 1,2", "ann write 2",
            "bob got 1", "bob got 5", "bob read 2",
        ])

    def test_a_write_that_has_a_stamp_is_rejected(self) -> None:
        recorder = Recorder("mvregister", ["a"])
        with self.assertRaisesRegex(NotRepresentable, "the writes of the kind mvregister have no stamps: got 1"):
            recorder.write("a", "tea", 1)
        recorder.stop()
        recorder = Recorder("register", ["a"])
        with self.assertRaisesRegex(NotRepresentable, "the stamp is missing"):
            recorder.write("a", "tea")
        recorder.stop()

    def test_a_result_that_is_no_collection_is_rejected(self) -> None:
        for value in ("milk", 3, None):
            recorder = Recorder("mvregister", ["a"])
            with self.assertRaisesRegex(NotRepresentable, "expected a list or another iterable of the values"):
                recorder.read("a", value)
            recorder.stop()
        with self.assertRaisesRegex(ReplicaRaised, "returned 'milk': expected a list or another iterable of the val"):
            check_random(ReadsOneValue, "mvregister")

    def test_a_read_without_a_concurrent_value_is_a_violation(self) -> None:
        recorder = Recorder("mvregister", ["ann", "bob"], window=1)
        recorder.write("ann", "tea", message="m1")
        recorder.write("bob", "milk")
        recorder.deliver("bob", "m1")
        with self.assertRaises(NotLinearizable) as caught:
            recorder.read("bob", ["milk"])
        recorder.stop()
        self.assertEqual(caught.exception.cause, "query")
        self.assertTrue(str(caught.exception).startswith(
            "'bob' reads ['milk']: not RA-linearizable, it does not return exactly the values of the visible "
            "writes that no other visible write replaced\n"
        ), caught.exception)


class RandomRegisters(unittest.TestCase):
    def test_all_runs_of_a_correct_register_pass(self) -> None:
        self.assertEqual(check_random(Siblings, "mvregister", seeds=RUNS), RUNS)
        self.assertEqual(check_random(forking(Siblings), "mvregister", 4, 40, seeds=RUNS), RUNS)
        self.assertEqual(check_random(MergedSiblings, "mvregister", seeds=RUNS), RUNS)

    def test_each_planted_bug_of_a_register_is_found_and_shrunk(self) -> None:
        for bug, make in SIBLING_BUGS.items():
            with self.subTest(bug=bug):
                with self.assertRaises(NotLinearizable) as caught:
                    check_random(make, "mvregister", seeds=FOUND_WITHIN)
                require_small_failure(self, caught.exception)

    def test_a_failure_of_a_register_is_run_again(self) -> None:
        with tempfile.TemporaryDirectory() as folder:
            path = os.path.join(folder, "failure.json")
            with self.assertRaises(NotLinearizable):
                check_random(DropsConcurrent, "mvregister", seeds=FOUND_WITHIN, failure=path)
            with self.assertRaisesRegex(NotLinearizable, "still fails: "):
                replay(DropsConcurrent, path)
            self.assertGreater(replay(Siblings, path), 2)


if __name__ == "__main__":
    unittest.main()
