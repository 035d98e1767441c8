"""The types of the package, and of a use of it."""
import importlib.util
import os
import subprocess
import sys
import tempfile
import unittest
from pathlib import Path

TESTS = Path(__file__).resolve().parent
HAS_ALL = all(importlib.util.find_spec(it) for it in ("mypy", "hypothesis", "pytest"))


def mypy(*paths: str) -> "subprocess.CompletedProcess[str]":
    """Runs mypy on these paths."""
    with tempfile.TemporaryDirectory() as cache:
        words = [sys.executable, "-m", "mypy", "--strict", "--cache-dir", cache, *paths]
        environment = {**os.environ, "MYPYPATH": str(TESTS.parent)}
        return subprocess.run(words, cwd=TESTS.parent, env=environment, capture_output=True, text=True)


@unittest.skipUnless(HAS_ALL, "not installed: apt-get install mypy python3-hypothesis python3-pytest")
class Types(unittest.TestCase):
    def test_the_package_and_a_use_of_it_have_strict_types(self) -> None:
        ran = mypy("yehatu", "tests/typed_use.py")
        self.assertEqual((ran.returncode, ran.stderr), (0, ""), ran.stdout)

    def test_a_wrong_use_is_rejected(self) -> None:
        with tempfile.TemporaryDirectory() as folder:
            path = Path(folder) / "wrong.py"
            path.write_text("from yehatu import check_random\nchecked: str = check_random(3, 'counter')\n")
            ran = mypy(str(path))
        self.assertEqual(ran.returncode, 1)
        self.assertIn("has incompatible type", ran.stdout)
        self.assertIn("Incompatible types in assignment", ran.stdout)


if __name__ == "__main__":
    unittest.main()
