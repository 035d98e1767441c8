"""The demonstration: a register with a bug, its shrunk failure, and the page about it."""
from pathlib import Path
from typing import Any, Dict, Hashable, Tuple

from .errors import NotLinearizable
from .random_runs import check_random

INTRODUCTION = """\
A replicated register in which the greater clock should win, and of equal clocks the later name. This one has a bug:
of equal clocks, the write that arrives last wins. check_random runs three replicas at random, and shrinks what fails:
"""


class Register:
    """A last-writer-wins register with a bug: `>=` takes the later arrival where clocks are equal."""

    def __init__(self, name: Hashable) -> None:
        self.name, self.clock, self.value = str(name), 0, None
        self.stamp: Tuple[int, str] = (0, "")

    def write(self, value: Any) -> Dict[str, Any]:
        """Writes a value and returns the message for the other replicas."""
        message = {"value": value, "stamp": (self.clock + 1, self.name)}
        self.receive(message)
        return message

    def receive(self, message: Dict[str, Any]) -> None:
        """Applies a message."""
        self.clock = max(self.clock, message["stamp"][0])
        if message["stamp"][0] >= self.stamp[0]:
            self.stamp, self.value = message["stamp"], message["value"]

    def read(self) -> Any:
        """Returns the value."""
        return self.value


def run(failure: str) -> Tuple[str, bytes]:
    """Finds the bug, and stores its steps in this file. Returns what a terminal shows, and the history."""
    try:
        check_random(Register, "register", seeds=200, failure=failure)
    except NotLinearizable as error:
        text, history = str(error), Path(error.history or "").read_bytes()
    else:
        raise RuntimeError("the bug was not found in 200 runs")
    shown = text.split("\nthe same as a test:", 1)[0].rstrip()
    return f"{INTRODUCTION}\n{shown}\n", history
