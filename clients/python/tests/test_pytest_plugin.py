"""The plugin for pytest: options, and the files of failures."""
import importlib.util
import os
import subprocess
import sys
import tempfile
import unittest
from pathlib import Path
from typing import List

import yehatu
from yehatu import program

TESTS = Path(__file__).resolve().parent
HAS_PYTEST = importlib.util.find_spec("pytest") is not None
SOURCE = """
from yehatu import check_random
from replicas import Counter
import planted

def test_right():
    print("runs:", check_random(Counter, "counter", seeds=7))

def test_wrong():
    check_random(planted.OBSERVABLE["ties are broken by arrival"]["register"], "register", seeds=50)
"""


def pytest(folder: str, *words: str) -> "subprocess.CompletedProcess[str]":
    """Runs pytest on the source, with the plugin."""
    (Path(folder) / "test_example.py").write_text(SOURCE)
    paths = [str(Path(yehatu.__file__).parent.parent), str(TESTS)]
    environment = {**os.environ, "PYTHONPATH": os.pathsep.join(paths)}
    return subprocess.run(
        [sys.executable, "-m", "pytest", "-s", "-p", "yehatu.pytest_plugin", "-p", "no:cacheprovider", *words],
        cwd=folder, env=environment, capture_output=True, text=True,
    )


@unittest.skipUnless(HAS_PYTEST, "pytest is not installed: apt-get install python3-pytest")
class PytestPlugin(unittest.TestCase):
    def setUp(self) -> None:
        folder = tempfile.TemporaryDirectory()
        self.addCleanup(folder.cleanup)
        self.folder = folder.name

    def test_the_options_change_the_numbers_of_runs_and_operations(self) -> None:
        words: List[str]
        for words, runs in (([], 7), (["--yehatu-seeds", "3", "--yehatu-operations", "4"], 3)):
            ran = pytest(self.folder, "-k", "right", *words)
            self.assertIn(f"runs: {runs}\n", ran.stdout)
        ran = pytest(self.folder, "--yehatu-seeds", "0")
        self.assertEqual(ran.returncode, 4)

    def test_the_files_of_a_failure_are_kept(self) -> None:
        ran = pytest(self.folder, "--yehatu-artifacts", "kept")
        self.assertIn("1 failed, 1 passed", ran.stdout)
        self.assertIn("yehatu artifacts", ran.stdout)
        kept = Path(self.folder) / "kept"
        names = sorted(it.name for it in kept.iterdir())
        expected = ["test_example.py_test_wrong.json", "test_example.py_test_wrong.rah"]
        if program.EXPLAIN_PROGRAM.is_file():
            expected.insert(0, "test_example.py_test_wrong.html")
            self.assertIn("<html", (kept / expected[0]).read_text())
        self.assertEqual(names, expected)


if __name__ == "__main__":
    unittest.main()
