"""No call waits longer than the program takes to reply.

A call is timed alternately with a plain run of the same program, so that a busy machine slows both.
"""
import os
import stat
import subprocess
import tempfile
import time
import unittest
from pathlib import Path
from typing import Callable

from yehatu import Monitor, MonitorExited, program

ROUNDS = 5
# A client's run takes 2 to 5 times as long as a plain run; one that sleeps for two seconds, some hundred times.
MOST_TIMES = 100
# The largest number of polls for a reply, which take 10 seconds.
POLLS = 20_000
TEXT = b"RAH 2 counter\nreplicas a\na read 1\n"


def seconds(act: Callable[[], object]) -> float:
    """Returns the duration of this call."""
    before = time.perf_counter()
    act()
    return time.perf_counter() - before


class Waiting(unittest.TestCase):
    def takes_as_long(self, act: Callable[[], object], plain: Callable[[], object]) -> None:
        """Compares the fastest of several runs of each."""
        rounds = [(seconds(act), seconds(plain)) for _ in range(ROUNDS)]
        fastest, fastest_plain = (min(it) for it in zip(*rounds))
        self.assertLess(fastest, MOST_TIMES * fastest_plain, "seconds of the client, and those that it may take")

    def takes_as_long_as_a_check(self, use: Callable[[Monitor], object]) -> None:
        """Compares a monitor's whole life with the program's run on one command."""
        found = program.find_for_many_runs()

        def act() -> None:
            monitor = Monitor("counter", ["a"], program=found)
            try:
                use(monitor)
            finally:
                monitor.stop()

        self.takes_as_long(act, lambda: program.check_text(found, TEXT))

    def test_a_line_that_no_other_line_follows_is_written_soon(self) -> None:
        def use(monitor: Monitor) -> None:
            monitor.post("a read 1", "ok 0")
            for _ in range(POLLS):
                if monitor.unexpected is not None:
                    return
                time.sleep(0.0005)
            self.fail("there is no reply")

        self.takes_as_long_as_a_check(use)

    def test_a_call_waits_for_its_reply_alone(self) -> None:
        self.takes_as_long_as_a_check(lambda monitor: monitor.tell("a inc"))

    def test_settling_waits_for_the_replies_alone(self) -> None:
        def use(monitor: Monitor) -> None:
            monitor.post("a inc", "ok 0")
            monitor.settle()

        self.takes_as_long_as_a_check(use)

    def test_closing_waits_for_the_report_alone(self) -> None:
        def use(monitor: Monitor) -> None:
            monitor.post("a inc", "ok 0")
            self.assertEqual(monitor.close().labels, 1)

        self.takes_as_long_as_a_check(use)

    def test_a_program_that_exited_is_reported_immediately(self) -> None:
        with tempfile.TemporaryDirectory() as folder:
            path = Path(folder) / "program"
            path.write_text("#!/bin/sh\necho out of luck >&2\nexit 7\n")
            path.chmod(path.stat().st_mode | stat.S_IXUSR)

            def act() -> None:
                monitor = Monitor("counter", ["a"], program=os.fspath(path))
                with self.assertRaisesRegex(MonitorExited, "out of luck"):
                    monitor.tell("a inc")
                with self.assertRaisesRegex(MonitorExited, "out of luck"):
                    monitor.close()

            self.takes_as_long(act, lambda: subprocess.run([path], capture_output=True))


if __name__ == "__main__":
    unittest.main()
