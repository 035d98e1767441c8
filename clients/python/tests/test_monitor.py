"""The program behind a pipe: replies, windows, threads, and programs that exit."""
import os
import shutil
import stat
import subprocess
import sys
import tempfile
import threading
import unittest
from pathlib import Path

import yehatu.program
from yehatu import Monitor, MonitorExited, Report


def script(folder: str, *lines: str) -> str:
    """Returns the path of a shell script with these lines."""
    path = Path(folder) / "program"
    path.write_text("\n".join(["#!/bin/sh", *lines, ""]))
    path.chmod(path.stat().st_mode | stat.S_IXUSR)
    return str(path)


class Replies(unittest.TestCase):
    def test_each_line_has_its_reply(self) -> None:
        with Monitor("counter", ["a", "b"]) as monitor:
            self.assertEqual(monitor.tell("a inc"), "ok 0")
            self.assertEqual(monitor.tell("b got 0"), "got 0")
            self.assertEqual(monitor.tell("b got 0"), "refused already-seen")
            self.assertEqual(monitor.verdict(), "yes 1")
        self.assertEqual(monitor.close(), Report("counter", "yes", 1, 4, 1))

    def test_a_command_is_one_line_with_or_without_its_end(self) -> None:
        monitor = Monitor("counter", ["a"])
        self.assertEqual(monitor.tell("a inc\n"), "ok 0")
        for two in ("a inc\na inc", "a inc\n\n"):
            with self.assertRaisesRegex(ValueError, "more than one line"):
                monitor.post(two, "ok 1")
        self.assertEqual(monitor.tell("a inc"), "ok 1")
        self.assertEqual(monitor.close().labels, 2)

    def test_the_report_has_the_violation(self) -> None:
        monitor = Monitor("counter", ["a"])
        self.assertEqual(monitor.tell("a read 1"), "no 0 query")
        self.assertEqual(monitor.close(), Report("counter", "no", 1, 1, 0, 0, "query", True))

    def test_lines_in_flight_keep_their_order(self) -> None:
        monitor = Monitor("counter", ["a"], window=7)
        for number in range(1000):
            monitor.post("a inc", f"ok {number}")
        self.assertEqual(monitor.tell("a read 1000"), "ok 1000")
        self.assertIsNone(monitor.unexpected)
        self.assertEqual(monitor.close().labels, 1001)

    def test_the_first_unexpected_reply_is_recorded(self) -> None:
        monitor = Monitor("counter", ["a"])
        for number, read in enumerate((0, 5, 6)):
            monitor.post(f"a read {read}", f"ok {number}")
        monitor.settle()
        self.assertEqual(monitor.unexpected, (1, "no 1 query"))
        self.assertEqual(monitor.history(2), "RAH 2 counter\nreplicas a\na read 0\na read 5\n")
        monitor.close()

    def test_a_partial_batch_is_written(self) -> None:
        monitor = Monitor("counter", ["a"])
        monitor.post("a read 1", "ok 0")
        for _ in range(1000):
            if monitor.unexpected is not None:
                break
            threading.Event().wait(0.01)
        self.assertEqual(monitor.unexpected, (0, "no 0 query"))
        monitor.close()

    def test_many_callers_report_to_one_monitor(self) -> None:
        monitor = Monitor("counter", ["a"])
        replies = []

        def work() -> None:
            replies.extend(monitor.tell("a inc") for _ in range(50))

        threads = [threading.Thread(target=work) for _ in range(8)]
        for thread in threads:
            thread.start()
        for thread in threads:
            thread.join()
        self.assertEqual(sorted(replies), sorted(f"ok {number}" for number in range(400)))
        self.assertEqual(monitor.close().verdict, "yes")


class Exits(unittest.TestCase):
    def setUp(self) -> None:
        self.folder = tempfile.TemporaryDirectory()
        self.addCleanup(self.folder.cleanup)

    def test_a_missing_program_is_reported(self) -> None:
        with self.assertRaisesRegex(MonitorExited, "nowhere/program is not a program"):
            Monitor("counter", ["a"], program="/nowhere/program")

    def test_a_program_that_exits_immediately_is_reported(self) -> None:
        monitor = Monitor("counter", ["a"], program=script(self.folder.name, "echo out of luck >&2", "exit 7"))
        with self.assertRaisesRegex(MonitorExited, "status 7; its standard error is 'out of luck'"):
            monitor.tell("a inc")
        with self.assertRaisesRegex(MonitorExited, "out of luck"):
            monitor.close()

    def test_a_program_that_exits_with_lines_in_flight_is_reported(self) -> None:
        program = script(self.folder.name, "read a; read b; read c; echo ok 0; echo tired >&2; exit 2")
        monitor = Monitor("counter", ["a"], program=program)
        with self.assertRaisesRegex(MonitorExited, "status 2; its standard error is 'tired'"):
            for number in range(100_000):
                monitor.post("a inc", f"ok {number}")
            monitor.settle()

    def test_as_many_commands_as_the_window_are_in_flight(self) -> None:
        for window, least in ((0, 1), (1, 1), (3, 3)):
            # It replies to the first command once the window is full.
            reads = "read line; " * (2 + least)
            program = script(self.folder.name, f"{reads}echo other; exec cat >&2")
            seen = []

            def work(monitor: Monitor, least: int) -> None:
                for _ in range(least):
                    seen.append(monitor.unexpected)
                    monitor.post("a inc", "ok 0")
                seen.append(monitor.unexpected)

            with self.subTest(window=window):
                monitor = Monitor("counter", ["a"], program=program, window=window)
                # A call that waits too early never returns.
                thread = threading.Thread(target=work, args=(monitor, least), daemon=True)
                thread.start()
                thread.join(20)
                monitor.stop()
                self.assertEqual(seen, [*[None] * least, (0, "other")])

    def test_the_end_of_standard_error_is_kept(self) -> None:
        monitor = Monitor("counter", ["a"], program=script(self.folder.name, "seq 100000 105000 >&2; exit 7"))
        with self.assertRaises(MonitorExited) as caught:
            monitor.tell("a inc")
        # The last 50 lines.
        last_lines = "\\n".join(map(str, range(104951, 105001)))
        message = str(caught.exception)
        self.assertTrue(message.endswith(f"status 7; its standard error is '{last_lines}'"), message)

    def test_a_syntax_fault_is_reported(self) -> None:
        monitor = Monitor("counter", ["a"])
        with self.assertRaisesRegex(MonitorExited, "line 3: syntax"):
            monitor.tell("a increments")

    def test_a_syntax_fault_is_explained(self) -> None:
        explains = "if [ $1 = explain ]; then cat; echo is no command; exit 2; fi"
        for fault in ("syntax", "truncated", "too long", "full"):
            lines = (explains, f"read one; read two; read three; echo line 3: {fault} >&2; exit 2")
            monitor = Monitor("counter", ["a"], program=script(self.folder.name, *lines))
            with self.assertRaises(MonitorExited) as caught:
                monitor.tell("a increments")
            description, _, page = str(caught.exception).partition("\n\n")
            expected = f"exited with status 2; its standard error is 'line 3: {fault}'"
            self.assertTrue(description.endswith(expected), description)
            self.assertEqual(page, "RAH 2 counter\nreplicas a\na increments\nis no command")

    def test_the_former_names_of_exceptions(self) -> None:
        for former, name in (("MonitorGone", "MonitorExited"), ("CannotTell", "NotRepresentable")):
            with self.assertWarnsRegex(DeprecationWarning, f"{former} is now called {name}"):
                self.assertIs(getattr(yehatu, former), getattr(yehatu, name))
        with self.assertRaises(AttributeError):
            getattr(yehatu, "MonitorWent")

    def test_a_stopped_monitor_rejects_commands(self) -> None:
        monitor = Monitor("counter", ["a"])
        monitor.stop()
        with self.assertRaises(MonitorExited):
            monitor.tell("a inc")

    def test_a_closed_monitor_rejects_commands(self) -> None:
        monitor = Monitor("counter", ["a"])
        monitor.close()
        with self.assertRaisesRegex(MonitorExited, "was closed"):
            monitor.post("a inc", "ok 0")

    def test_each_waiting_caller_gets_the_error(self) -> None:
        program = script(self.folder.name, "read a; read b; read c; sleep 0.1; exit 2")
        monitor = Monitor("counter", ["a"], program=program)
        errors = []

        def work() -> None:
            try:
                monitor.tell("a inc")
            except MonitorExited as error:
                errors.append(error)

        threads = [threading.Thread(target=work) for _ in range(4)]
        for thread in threads:
            thread.start()
        for thread in threads:
            thread.join(20)
        self.assertEqual(len(errors), 4)

    def test_a_monitor_that_is_left_open_does_not_keep_the_process_from_ending(self) -> None:
        code = """
from yehatu import Monitor
monitor = Monitor("counter", ["a"])
print(monitor.tell("a inc"))
monitor.post("a inc", "ok 1")
monitor.settle()
"""
        environment = {**os.environ, "PYTHONPATH": str(Path(yehatu.__file__).parent.parent)}
        ran = subprocess.run(
            [sys.executable, "-c", code], cwd=self.folder.name, env=environment, capture_output=True, text=True,
            timeout=20,
        )
        self.assertEqual((ran.stdout, ran.stderr, ran.returncode), ("ok 0\n", "", 0))

    def test_a_run_without_its_end_line_is_no_pass(self) -> None:
        for lines in (["echo broken >&2; exit 1"], ["cat > /dev/null; echo ok 0; echo broken >&2; exit 0"]):
            program = yehatu.program.find_for_many_runs(script(self.folder.name, *lines))
            with self.subTest(lines=lines), self.assertRaisesRegex(MonitorExited, "its standard error is 'broken'"):
                yehatu.program.check_text(program, b"RAH 2 counter\nreplicas a\na inc\n")

    def test_the_environment_names_the_program(self) -> None:
        before = os.environ.get("RA_MONITOR")
        os.environ["RA_MONITOR"] = script(self.folder.name, "echo of the environment >&2; exit 3")
        try:
            with self.assertRaisesRegex(MonitorExited, "of the environment"):
                Monitor("counter", ["a"]).tell("a inc")
        finally:
            os.environ.pop("RA_MONITOR")
            if before is not None:
                os.environ["RA_MONITOR"] = before

    def test_the_default_program_is_that_of_the_repository(self) -> None:
        top = Path(self.folder.name) / "repository"
        own = shutil.copytree(Path(yehatu.__file__).parent, top / "clients" / "python" / "yehatu").parent
        built = top / "crates" / "ra_check_cli" / "out" / "ra_check_cli"
        built.parent.mkdir(parents=True)
        built.symlink_to(Path(yehatu.program.find()).resolve())
        # By this file the client knows that it is in a clone.
        (top / "tools").mkdir()
        (top / "tools" / "build").touch()
        # It prints a line at each start.
        os.rename(script(self.folder.name, "echo started >&2", f'exec "{built}" "$@"'), top / "ra_monitor")
        code = """
from yehatu import Monitor, check_random
class Counter:
    number = 0
    def increment(self): self.number += 1; return 1
    def decrement(self): self.number -= 1; return -1
    def receive(self, by): self.number += by
    def read(self): return self.number
print(Monitor("counter", ["a"]).close().verdict, check_random(lambda name: Counter(), "counter", seeds=5))
"""
        environment = {it: value for it, value in os.environ.items() if it != "RA_MONITOR"}
        # The current folder is imported first, so it must have no other client.
        ran = subprocess.run(
            [sys.executable, "-c", code], cwd=self.folder.name, env={**environment, "PYTHONPATH": str(own)},
            capture_output=True, text=True,
        )
        self.assertEqual((ran.stdout, ran.stderr), ("yes 5\n", "started\n"))


if __name__ == "__main__":
    unittest.main()
