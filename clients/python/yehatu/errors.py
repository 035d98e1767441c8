"""The exceptions of the client, one for each cause."""
from typing import Optional


class MonitorExited(RuntimeError):
    """The program could not be started, or exited before its input ended. The message has its standard error."""


class NotRepresentable(ValueError):
    """The text format cannot represent a value. The message names the value and what to do instead."""


class ReportFailed(AssertionError):
    """A report that the program did not accept. An assertion, so that test frameworks count it as a failed test."""

    def __init__(self, message: str, operation: str, reply: str, history: Optional[str]) -> None:
        super().__init__(message)
        self.operation = operation
        """A description of what the replica did, in the user's names."""
        self.reply = reply
        """The program's reply."""
        self.history = history
        """The file with the history up to this report, which `ra_monitor check` reads."""
        self.steps: Optional[str] = None
        """The file with the steps of a random run, which `replay` runs again."""


class NotLinearizable(ReportFailed):
    """The program found a violation."""

    @property
    def cause(self) -> str:
        """The condition that fails: `order`, `update` or `query`."""
        return self.reply.split()[-1]


class Refused(ReportFailed):
    """The program rejected a report. The likely cause is that something was reported wrongly."""

    @property
    def cause(self) -> str:
        """The reason of the rejection, such as `not-causal 0`."""
        return self.reply.split(" ", 1)[1]


class ReplicaRaised(ReportFailed):
    """A replica of a random run raised an exception, which is the `__cause__` of this one.

    A `read()` that returned what the text format cannot represent counts too; the `__cause__` is `NotRepresentable`. So
    does a message or a state that changed after it was returned; then there is no `__cause__`. The history ends before
    the call, and the message and the stored steps have it.
    """


class FlakyRun(ReportFailed):
    """A random run failed, and the same steps did not fail in the same way again: the class is not deterministic."""
