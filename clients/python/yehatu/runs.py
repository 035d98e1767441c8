"""Runs of plans on the user's own replicas, which the program checks."""
from typing import List, Mapping, NamedTuple, Optional, Sequence, Tuple

from . import program
from .driver import Driver, Setting
from .recorder import Recorder
from .returned import Returned, Unusable
from .steps import Step

__all__ = ["Failure", "Run", "Setting", "find_failure"]


class Failure(NamedTuple):
    """A failed run, up to the step at which it failed."""

    cause: Tuple[str, ...]
    """`no`; `refused` and the reason; `raised` and the name of the exception; `returned` and the type of a result that
    cannot be reported; or `changed`, and `message` or `state`."""
    steps: List[Step]
    recorder: Recorder
    text: str
    replies: List[str]
    raised: Optional[Exception] = None
    messages: Mapping[int, Returned] = {}
    """What each update returned, by its number, if a replica raised an exception."""
    indexes: Mapping[int, int] = {}
    """The index of each update of a list, by the update's number."""


class Run:
    """A run whose history is being checked. The program checks it while other runs are executed."""

    def __init__(self, setting: Setting, steps: Sequence[Step]) -> None:
        self._driver = Driver(setting, steps)
        self._raised = self._driver.execute(steps)
        self._check = program.Check(setting.program, self._driver.text().encode())

    @property
    def executed(self) -> List[Step]:
        """The steps that could be executed."""
        return self._driver.executed

    def find_failure(self) -> Optional[Failure]:
        """Waits for the program, and returns the failure, or `None` if all passed."""
        driver, raised, replies = self._driver, self._raised, self._check.wait().replies
        failed = next((number for number, it in enumerate(replies) if it.startswith(("no ", "refused "))), None)
        if failed is not None:
            cause = ("no",) if replies[failed].startswith("no ") else ("refused", replies[failed].split(" ")[1])
            return Failure(
                cause, driver.steps_to(failed), driver.recorder, driver.text(failed + 1), replies[: failed + 1],
                indexes=driver.indexes,
            )
        if raised is not None:
            cause = raised.failure if isinstance(raised, Unusable) else ("raised", type(raised).__name__)
            return Failure(
                cause, driver.executed, driver.recorder, driver.text(), replies, raised, driver.messages,
                driver.indexes,
            )
        return None

    def stop(self) -> None:
        """Ends the check without its result."""
        self._check.stop()


def find_failure(setting: Setting, steps: Sequence[Step]) -> Optional[Failure]:
    """Runs the steps that can be executed and checks the history. Returns the failure, or `None` if all passed."""
    return Run(setting, steps).find_failure() if steps else None
