"""The cases of a script, each of which registers itself, so that none is defined and never run."""
import ast
import subprocess
from pathlib import Path

# What registers a function that stands below it.
DECORATORS = ("case", "check")


class Cases:
    """The cases of a script in the order in which they are defined, each with what it is given."""

    def __init__(self):
        self.registered = []

    def case(self, *given):
        """Has a function be run once with each of these, or once with nothing where there are none."""

        def register(function):
            self.registered += [(function, [it]) for it in given] or [(function, [])]
            return function

        return register

    def run(self, name, path):
        """Runs all cases of the script at this path, and prints how many passed. Returns the exit status."""
        forgotten, failed = print_forgotten(path), 0
        for function, given in self.registered:
            try:
                function(*given)
            except (AssertionError, OSError, subprocess.TimeoutExpired) as why:
                failed += 1
                print(function.__name__, *(getattr(it, "name", it) for it in given), f"{type(why).__name__} {why}")
        passed = len(self.registered) - failed
        print(f"{name}: {passed} passed, {failed + forgotten} failed")
        return 0 if self.registered and not failed + forgotten else 1


def forgotten_in(path):
    """The functions of a script that neither register themselves nor are named anywhere: cases that nothing runs."""
    tree = ast.parse(Path(path).read_text())
    named = {it.id for it in ast.walk(tree) if isinstance(it, ast.Name)}
    functions = [it for it in tree.body if isinstance(it, ast.FunctionDef)]
    return [it.name for it in functions if it.name not in named and not registers(it)]


def registers(function):
    calls = [it.func if isinstance(it, ast.Call) else it for it in function.decorator_list]
    return any(isinstance(it, ast.Name) and it.id in DECORATORS for it in calls)


def print_forgotten(*paths):
    """Prints the cases of these scripts that nothing runs, and returns how many there are."""
    found = [(Path(path).name, it) for path in paths for it in forgotten_in(path)]
    for script, it in found:
        print(f"{script}: {it} is defined, and nothing runs it")
    return len(found)
