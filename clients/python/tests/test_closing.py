"""Recorders that are not closed: the process warns and does not end with success."""
import gc
import os
import subprocess
import sys
import unittest
import warnings
from pathlib import Path

import yehatu
from yehatu import NotLinearizable, NotRepresentable, Recorder

BEGIN = "from yehatu import *\nrecorder = Recorder('counter', ['a'])\nrecorder.increment('a')\nprint('done')\n"


def run(code: str) -> "subprocess.CompletedProcess[str]":
    """Runs Python code in a process of its own."""
    environment = {**os.environ, "PYTHONPATH": str(Path(yehatu.__file__).parent.parent)}
    return subprocess.run([sys.executable, "-c", code], env=environment, capture_output=True, text=True, timeout=60)


class Closing(unittest.TestCase):
    def test_an_unclosed_recorder_ends_the_process_with_status_three(self) -> None:
        for end in ("", "del recorder\n"):
            with self.subTest(end=end):
                ran = run(BEGIN + end)
                self.assertEqual((ran.stdout, ran.returncode), ("done\n", 3))
                self.assertIn("the Recorder('counter', ..) that was created at <string>:2: not closed, so", ran.stderr)
                self.assertIn("call close(), use `with`, or pass must_close=False", ran.stderr)

    def test_a_closed_recorder_ends_the_process_with_status_zero(self) -> None:
        for end in ("recorder.close()\n", "recorder.stop()\n"):
            with self.subTest(end=end):
                ran = run(BEGIN + end)
                self.assertEqual((ran.stdout, ran.stderr, ran.returncode), ("done\n", "", 0))
        ran = run(BEGIN.replace("['a']", "['a'], must_close=False"))
        self.assertEqual((ran.stderr, ran.returncode), ("", 0))

    def test_a_process_that_failed_keeps_its_status(self) -> None:
        ran = run(BEGIN + "raise KeyError('own')\n")
        self.assertEqual(ran.returncode, 1)
        self.assertIn("KeyError: 'own'", ran.stderr)
        self.assertIn("not closed", ran.stderr)

    def test_a_recorder_that_is_collected_unclosed_warns(self) -> None:
        code = BEGIN.replace("from yehatu", "import warnings\nwarnings.simplefilter('error')\nfrom yehatu")
        ran = run(code + "del recorder\nrecorder = Recorder('counter', ['b'], must_close=False)\n")
        self.assertIn("ResourceWarning: the Recorder('counter', ..) that was created at <string>:4 was not", ran.stderr)
        with warnings.catch_warnings():
            warnings.simplefilter("error")
            for end in (Recorder.close, Recorder.stop):
                recorder = Recorder("counter", ["a"])
                end(recorder)
                del recorder
            gc.collect()

    def test_a_recorder_whose_failure_was_raised_counts_as_closed(self) -> None:
        for call, error in (("read('a', 5)", NotLinearizable), ("read('a', None)", NotRepresentable)):
            with self.subTest(call=call):
                code = f"""
from yehatu import *
recorder = Recorder("counter", ["a"], window=1, history="/dev/null")
try:
    recorder.{call}
except {error.__name__}:
    print("raised")
"""
                ran = run(code)
                self.assertEqual((ran.stdout, ran.stderr, ran.returncode), ("raised\n", "", 0))


if __name__ == "__main__":
    unittest.main()
