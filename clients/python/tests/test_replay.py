"""Failures that are run again: seeds with versions, stored steps, regression tests, and runs that do not repeat."""
import json
import os
import re
import subprocess
import sys
import tempfile
import unittest
from pathlib import Path
from typing import Any, Dict, List

import planted
import yehatu
from network_replicas import PLANTED, saving
from replicas import Counter, LwwSet, Register
from yehatu import FlakyRun, NotLinearizable, ReplicaRaised, ReportFailed, check_random, replay

TESTS = Path(__file__).resolve().parent
TIES = planted.OBSERVABLE["ties are broken by arrival"]["register"]


# The failures that were found before, since each is looked for and shrunk anew.
KNOWN: Dict[Any, ReportFailed] = {}


def known_failure(make: Any, kind: str) -> ReportFailed:
    """Returns the exception of the first run that fails, once found."""
    if make not in KNOWN:
        KNOWN[make] = failure_of(make, kind)
    return KNOWN[make]


def failure_of(make: Any, kind: str, seeds: Any = 200, **options: Any) -> ReportFailed:
    """Returns the exception of the first run that fails."""
    try:
        check_random(make, kind, seeds=seeds, **options)
    except ReportFailed as failed:
        return failed
    raise AssertionError("no run fails")


def source_of(failed: ReportFailed) -> str:
    """Returns the regression test at the end of a message."""
    indented = str(failed).partition("\nthe same as a test:\n\n")[2]
    return "\n".join(it[4:] for it in indented.splitlines()) + "\n"


def run_source(source: str, module: str = "network_replicas", name: str = "") -> "subprocess.CompletedProcess[str]":
    """Runs a regression test in a process of its own. `name` replaces what the source only comments on."""
    lines = [f"from {module} import *" if it.startswith("# ") else it for it in source.splitlines()]
    replaced = "\n".join(lines).replace("make_replica", name) if name else "\n".join(lines)
    environment = {**os.environ, "PYTHONPATH": f"{TESTS}:{Path(yehatu.__file__).parent.parent}"}
    with tempfile.TemporaryDirectory() as folder:
        path = Path(folder) / "regression.py"
        path.write_text(replaced + "\n")
        return subprocess.run(
            [sys.executable, "-m", "unittest", "regression.py"], cwd=folder, env=environment, capture_output=True,
            text=True,
        )


class Unrepaired(Register):
    """A register in which the last write to arrive wins."""

    def apply(self, message: Any) -> None:
        self.value, self.stamp = message["value"], message["stamp"]


class Stuttering(Counter):
    """Raises an exception at the third increment."""

    def increment(self) -> Any:
        if self.number == 2:
            raise ZeroDivisionError("three")
        return super().increment()


class Flaky(Counter):
    """Reads a wrong number once."""

    left = 1

    def read(self) -> int:
        if self.number and type(self).left:
            type(self).left -= 1
            return self.number + 1
        return self.number


class TwoLines:
    """A result that is shown in two lines."""

    def __repr__(self) -> str:
        return "one\ntwo"


def returning(result: Any) -> Any:
    """Returns a class of counters whose read returns this result for 2."""

    class Returning(Counter):
        def read(self) -> Any:
            return result if self.number == 2 else self.number

    return Returning


class Seeds(unittest.TestCase):
    def test_a_seed_with_its_version_runs_the_same_plan(self) -> None:
        failed = known_failure(TIES, "register")
        seed = str(failed).partition("seed ")[2].partition(",")[0]
        self.assertRegex(seed, r"^2-\d+$")
        for again in ([seed], [int(seed[2:])]):
            with self.subTest(again=again):
                found = failure_of(TIES, "register", again)
                self.assertEqual(_history(found), _history(failed))

    def test_a_seed_of_another_version_is_rejected(self) -> None:
        for seed, message in [
            ("1-17", r"of version 1 of the planner, and this is version 2, .* with replay\("),
            ("3-1", "of version 3 of the planner"), ("17", "the seed '17' is unknown"),
            ("2-x", "the seed '2-x' is unknown"), (1.5, "the seed 1.5 is unknown"), (True, "the seed True is unknown"),
        ]:
            with self.subTest(seed=seed), self.assertRaisesRegex(ValueError, message):
                check_random(Counter, "counter", seeds=[seed])  # type: ignore[list-item]


def _history(failed: ReportFailed) -> str:
    return Path(failed.history or "").read_text()


class StoredFailures(unittest.TestCase):
    def test_a_failure_is_stored_and_fails_again(self) -> None:
        failed = known_failure(TIES, "register")
        self.assertEqual(failed.steps, f"{os.path.splitext(failed.history or '')[0]}.json")
        stored = json.loads(Path(failed.steps or "").read_text())
        keys = ["version", "seed", "kind", "replicas", "profile", "steps", "cause", "history", "operation"]
        self.assertEqual([*stored], keys)
        self.assertEqual((stored["version"], stored["kind"], stored["cause"]), (1, "register", ["no"]))
        self.assertEqual((stored["history"], stored["operation"]), (_history(failed), failed.operation))
        with self.assertRaises(NotLinearizable) as caught:
            replay(TIES, failed.steps or "")
        self.assertTrue(str(caught.exception).startswith(f"the stored run of seed {stored['seed']} still fails: '"))
        self.assertEqual(caught.exception.operation, failed.operation)

    def test_a_class_that_was_repaired_passes_the_stored_run(self) -> None:
        failed = known_failure(TIES, "register")
        self.assertEqual(replay(Register, failed.steps or ""), 4)

    def test_steps_that_the_class_cannot_execute_are_left_out(self) -> None:
        case = PLANTED["forgets_its_clock"]
        failed = known_failure(case.make, case.kind)
        # Without save and load the restart is left out.
        self.assertEqual(replay(saving(Register), failed.steps or ""), 3)
        with self.assertRaises(ReportFailed) as caught:
            replay(Unrepaired, known_failure(Unrepaired, "register").steps or "")
        self.assertIn("still fails", str(caught.exception))
        with self.assertRaisesRegex(ValueError, "the class has none of the methods"):
            replay(lambda name: object(), failed.steps or "")

    def test_a_run_that_fails_in_another_way_says_so(self) -> None:
        class Raising(Register):
            def receive(self, message: Any) -> None:
                raise KeyError("else")

        failed = known_failure(TIES, "register")
        with self.assertRaisesRegex(ReplicaRaised, r"fails in another way \(raised KeyError, and then no\)"):
            replay(Raising, failed.steps or "")

    def test_a_failure_is_stored_at_a_given_path(self) -> None:
        with tempfile.TemporaryDirectory() as folder:
            path = os.path.join(folder, "register.json")
            failed = failure_of(TIES, "register", failure=path)
            self.assertEqual((failed.steps, sorted(os.listdir(folder))), (path, ["register.json", "register.rah"]))
            with self.assertRaises(NotLinearizable):
                replay(TIES, path)

    def test_a_path_that_cannot_be_written_is_rejected_before_the_runs(self) -> None:
        made = []

        def make(name: str) -> Any:
            made.append(name)
            return TIES(name)

        with tempfile.TemporaryDirectory() as folder:
            missing, file = os.path.join(folder, "no", "such"), os.path.join(folder, "file")
            Path(file).write_text("")
            os.mkdir(os.path.join(folder, "history.rah"))
            for path, problem in [
                (os.path.join(missing, "x.json"), f"the folder {missing!r} does not exist, .*: create it, or pass"),
                (os.path.join(file, "x.json"), f"the folder {file!r} is no folder"),
                ("", "expected the path of a file"), (folder, "is a folder: expected the path of a file"),
                (os.path.join(folder, "history.json"), "history.rah' is a folder: expected"),
            ]:
                with self.subTest(path=path), self.assertRaises(ValueError) as caught:
                    check_random(make, "register", failure=path)
                self.assertRegex(str(caught.exception), f"^failure={re.escape(repr(path))}: .*{problem}")
            self.assertEqual((sorted(os.listdir(folder)), made), (["file", "history.rah"], []))

    def test_a_file_that_is_no_failure_is_rejected(self) -> None:
        good: Dict[str, Any] = json.loads(Path(known_failure(TIES, "register").steps or "").read_text())
        with tempfile.TemporaryDirectory() as folder:
            path = Path(folder) / "failure.json"
            for text, message in [
                ("RAH 2 counter", "is not a stored failure: Expecting value"), ("[]", "it lacks version, seed, kind"),
                (json.dumps({**good, "version": 2}), "has version 2 of the format, and this client reads 1"),
                (json.dumps({**good, "steps": [[1]]}), r"step 1 is \[1\]: expected a list of five values"),
                (json.dumps({**good, "steps": [["jump", 0, 0, "", []]]}), "step 1 has the action 'jump'"),
                (json.dumps({**good, "steps": [["read", 7, 0, "", []]]}), "step 1 is of replica 7, and there are 3"),
                (json.dumps({**good, "profile": {"delivery": "fifo"}}), "has the delivery 'fifo'"),
            ]:
                path.write_text(text)
                with self.subTest(text=text), self.assertRaisesRegex(ValueError, message):
                    replay(TIES, str(path))

    def test_passing_runs_leave_no_files(self) -> None:
        before = tempfile.tempdir
        with tempfile.TemporaryDirectory() as folder:
            tempfile.tempdir = folder
            try:
                check_random(Counter, "counter", seeds=20)
                with yehatu.Recorder("counter", ["a"]) as recorder:
                    recorder.increment("a")
                self.assertEqual(os.listdir(folder), [])
                failure_of(TIES, "register")
                self.assertEqual([os.path.splitext(it)[1] for it in sorted(os.listdir(folder))], [".json", ".rah"])
            finally:
                tempfile.tempdir = before


class Messages(unittest.TestCase):
    def test_the_history_is_printed_once(self) -> None:
        message = str(known_failure(TIES, "register"))
        self.assertEqual(message.count("RAH 2 register"), 1)
        self.assertEqual(len([it for it in message.splitlines() if " write " in it]), 2)

    def test_the_middle_of_a_long_history_is_left_out(self) -> None:
        failed = failure_of(PLANTED["overflows_at_seven_bits"].make, "counter")
        self.assertRegex(str(failed), r"(?m)^    \.\. +\d+ lines are left out here, and not in the file$")
        self.assertGreater(len(_history(failed).splitlines()), 128)
        self.assertLess(len(str(failed).splitlines()), 80)

    def test_the_call_that_raised_ends_the_printed_history(self) -> None:
        class ReceivesOnce(Counter):
            def __init__(self, name: str) -> None:
                super().__init__(name)
                self.received: List[Any] = []

            def receive(self, message: Any) -> None:
                if any(it is message for it in self.received):
                    raise TypeError("again")
                self.received.append(message)
                super().receive(message)

        before, delivery = "[abc] inc  ok 1  '.' increments", "[abc] got 0  got 0  '.' receives message 1, label 0 .*"
        raised = r"'.': increment\(\) raised ZeroDivisionError\('three'\)"
        again = r"'.' receives message 1 again", r"'.': receive\(message 1\) again raised TypeError\('again'\)"
        for make, options, rows in [
            (Stuttering, {}, [before, raised]), (ReceivesOnce, {"duplicates": True}, [delivery, *again]),
            # The first line of an outcome is shown.
            (returning(TwoLines()), {}, [before, r"'.': read\(\) returned one"]),
        ]:
            with self.subTest(make=make.__name__):
                failed = failure_of(make, "counter", **options)
                with self.assertRaises(ReplicaRaised) as caught:
                    replay(make, failed.steps or "")
                for message in (str(failed).partition("\n\nthe same as a test:")[0], str(caught.exception)):
                    for line, row in zip(message.splitlines()[-len(rows):], rows):
                        self.assertRegex(line, rf"^    +{row}$")
                # The history is one that the program reads, so the call has no line in it.
                checked = yehatu.program.check_text(yehatu.program.find_for_many_runs(), _history(failed).encode())
                self.assertEqual(checked.status, 0)
                stored = json.loads(Path(failed.steps or "").read_text())
                self.assertEqual(stored["operation"], failed.operation)

    def test_the_regression_test_fails_alone_and_passes_once_the_class_is_right(self) -> None:
        for make, kind, right, options in [
            (Unrepaired, "register", "Register", {}), (Stuttering, "counter", "Counter", {}),
            (planted.LwwSetTakesUnseen, "lwwset", "LwwSet", {}), (planted.RgaRises, "rga", "Rga", {}),
        ]:
            with self.subTest(make=make.__name__):
                source = source_of(failure_of(make, kind, **options))
                self.assertLessEqual(len(source.splitlines()), 30)
                self.assertIn(f"import {make.__name__}\n", source)
                self.assertNotIn("import replay", source)
                ran = run_source(source)
                self.assertRegex(ran.stderr, r"FAILED \((failures|errors)=1\)")
                imports = f"from {make.__module__} import {make.__name__}", f"from replicas import {right}"
                repaired = source.replace(*imports)
                self.assertEqual(run_source(repaired.replace(make.__name__, right)).returncode, 0)

    def test_the_regression_test_has_the_faults_of_the_network(self) -> None:
        for bug, text in [
            ("counts_duplicates", ".receive(m1)"), ("keeps_one_message", ".receive(m2)"),
            ("undoes_newer_entries", "copy.deepcopy("), ("overflows_at_seven_bits", "for _ in range("),
        ]:
            with self.subTest(bug=bug):
                case = PLANTED[bug]
                source = source_of(failure_of(case.make, case.kind, **case.options))
                self.assertIn(text, source)
                self.assertLessEqual(len(source.splitlines()), 30)
                made = {"counts_duplicates": "Counter"}.get(bug, f"{bug}()")
                name = made if made == "Counter" else f"(lambda name: {made}(name))"
                ran = run_source(source, name=name)
                self.assertIn("FAILED (failures=1)", ran.stderr)

    def test_a_regression_test_without_an_assertion_replays_the_stored_run(self) -> None:
        case = PLANTED["forgets_its_clock"]
        failed = known_failure(case.make, case.kind)
        source = source_of(failed)
        self.assertIn(f"replay(make_replica, {failed.steps!r})", source)
        ran = run_source(source, name="(lambda name: forgets_its_clock()(name))")
        self.assertIn("FAILED (failures=1)", ran.stderr)
        self.assertEqual(run_source(source, name="(lambda name: saving(Register)(name))").returncode, 0)


class ReceivedMessages(unittest.TestCase):
    def test_an_error_in_receive_names_the_call_that_returned_the_message(self) -> None:
        class ReturnsNothing(Counter):
            def increment(self) -> Any:
                super().increment()

        class ReceivesNothing(Counter):
            def receive(self, message: Any) -> None:
                raise TypeError("no messages")

        class CountsOnce(Counter):
            received = False

            def receive(self, message: Any) -> None:
                if self.received:
                    raise TypeError("again")
                self.received = True
                super().receive(message)

        nothing = ", and is None: an update returns the message that the other replicas receive"
        for make, options, received, line in [
            (ReturnsNothing, {}, r"receive\(message 1\)", rf"'.': increment\(\){nothing}"),
            (ReceivesNothing, {}, r"receive\(message 1\)", r"'.': (in|de)crement\(\)"),
            (CountsOnce, {"duplicates": True}, r"receive\(message \d\)( again)?", r"'.': (in|de)crement\(\)"),
        ]:
            with self.subTest(make=make.__name__):
                failed = failure_of(make, "counter", **options)
                self.assertRegex(failed.operation, rf"^'.': {received} raised TypeError")
                second = str(failed).splitlines()[1]
                self.assertRegex(second, rf"^message \d was returned by {line}$")
                with self.assertRaises(ReplicaRaised) as caught:
                    replay(make, failed.steps or "")
                self.assertEqual(str(caught.exception).splitlines()[1], second)
        # An error in another call names no message.
        self.assertNotIn("was returned by", str(failure_of(Stuttering, "counter")))


class UnusableResults(unittest.TestCase):
    def test_a_result_that_cannot_be_reported_is_a_failure(self) -> None:
        for result, shown, cause in [
            (float("nan"), "nan", "float"), (2.0, r"2\.0", "float"), (None, "None", "NoneType"),
        ]:
            with self.subTest(result=result):
                make = returning(result)
                failed = failure_of(make, "counter")
                expected = r"expected a whole number from -2147483648 to 2147483647"
                self.assertRegex(failed.operation, rf"^'[abc]': read\(\) returned {shown}: {expected}$")
                self.assertIsInstance(failed, ReplicaRaised)
                self.assertIsInstance(failed.__cause__, yehatu.NotRepresentable)
                self.assertRegex(str(failed), r"run \d+, seed 2-\d+, shrunk from \d+ steps to 3;")
                self.assertEqual(_history(failed).count(" inc\n"), 2)
                self.assertEqual(json.loads(Path(failed.steps or "").read_text())["cause"], ["returned", cause])
                # The test at the end has to fail, which a read alone does not.
                self.assertIn("import replay", source_of(failed))
                with self.assertRaisesRegex(ReplicaRaised, rf"still fails: '.': read\(\) returned {shown}: expected"):
                    replay(make, failed.steps or "")
                self.assertEqual(replay(Counter, failed.steps or ""), 3)

    def test_a_result_of_a_set_that_cannot_be_reported_is_a_failure(self) -> None:
        class ReadsNothing(LwwSet):
            def read(self) -> Any:
                return super().read() or None

        with self.assertRaisesRegex(ReplicaRaised, r"read\(\) returned None: expected .* iterable of the elements"):
            check_random(ReadsNothing, "lwwset")


class FlakyRuns(unittest.TestCase):
    def test_a_run_that_does_not_fail_again_is_flaky(self) -> None:
        Flaky.left = 1
        with self.assertRaises(FlakyRun) as caught:
            check_random(Flaky, "counter")
        self.assertIsInstance(caught.exception, ReportFailed)
        self.assertRegex(str(caught.exception), r"at one time: '.' reads -?\d+: not RA-linearizable")
        self.assertIn("at another time: it passed", str(caught.exception))
        self.assertTrue(Path(caught.exception.steps or "").is_file())

    def test_a_failed_run_is_run_twice_more_before_it_is_shrunk(self) -> None:
        class FailsTwice(Counter):
            made = 0

            def __init__(self, name: str) -> None:
                super().__init__(name)
                FailsTwice.made += name == "a"

            def read(self) -> int:
                # The first replica is made to look for its methods.
                return 1000 if FailsTwice.made in (2, 3) else self.number

        with self.assertRaises(FlakyRun):
            check_random(FailsTwice, "counter", seeds=[0])
        self.assertEqual(FailsTwice.made, 4)
        Flaky.left = 1 << 30
        with self.assertRaises(NotLinearizable):
            check_random(Flaky, "counter")

    def test_a_run_that_fails_in_another_way_is_flaky(self) -> None:
        class Changing(Counter):
            reads = 0

            def read(self) -> int:
                Changing.reads += 1
                if Changing.reads > 1:
                    raise KeyError(Changing.reads)
                return 1000

        with self.assertRaisesRegex(FlakyRun, r"(?s)at one time: .*at another time: .* raised KeyError"):
            check_random(Changing, "counter")


if __name__ == "__main__":
    unittest.main()
