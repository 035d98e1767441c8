"""What replicas return: results that cannot be reported, and messages and states, which must not change."""
from typing import Any, Optional, Tuple

REMEDIES = {"message": "return a copy, and change no received message", "state": "return a copy"}


class Unusable(Exception):
    """What a replica returned cannot be used. `failure` is the cause of the run's failure."""

    failure: Tuple[str, ...] = ()


class UnusableResult(Unusable):
    """A read's result that the text format cannot represent."""

    def __init__(self, value: Any, expected: str) -> None:
        super().__init__(f"returned {value!r}: expected {expected}")
        self.failure = "returned", type(value).__name__


class Changed(Unusable):
    """A message or a state that is not what it was when a replica returned it."""

    def __init__(self, what: str, number: int, before: str, now: str) -> None:
        super().__init__(f"failed: {what} {number} changed after it was returned; {REMEDIES[what]}")
        self.failure = "changed", what
        self.what, self.number, self.change = what, number, f", as {before}, and is {now} now"


class Returned:
    """A message or a state, with what `repr` showed when a replica returned it."""

    def __init__(self, what: str, number: int, value: Any) -> None:
        self.value = value
        self._what, self._number, self._shown = what, number, _shown(value)

    def require_unchanged(self) -> Any:
        """Returns the value. Raises `Changed` if `repr` shows something else now."""
        now = _shown(self.value)
        if now is not None and self._shown is not None and now != self._shown:
            raise Changed(self._what, self._number, self._shown, now)
        return self.value


def _shown(value: Any) -> Optional[str]:
    try:
        return repr(value)
    except Exception:  # Whatever the user's class raises, it is not about a change.
        return None
