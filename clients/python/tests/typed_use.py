"""A use of the whole client, which `mypy --strict` checks (test_types.py). It is run too."""
from typing import List, Optional, Tuple

from yehatu import Monitor, Recorder, Runs, add, check_random, replay, write
from yehatu.hypothesis import Plan, plans, run_plan, state_machine
from yehatu.profile import Profile
from yehatu.steps import Step

Stamp = Tuple[int, str]
Message = Tuple[int, Stamp]


class Register:
    """A register: the write with the later stamp wins."""

    def __init__(self, name: object) -> None:
        self.name, self.clock = str(name), 0
        self.last: Optional[Message] = None

    def write(self, value: int) -> "Sent":
        sent = Sent(value, (self.clock + 1, self.name))
        self.receive(sent)
        return sent

    def receive(self, sent: "Sent") -> None:
        self.clock = max(self.clock, sent.stamp[0])
        if self.last is None or sent.stamp > self.last[1]:
            self.last = sent.value, sent.stamp

    def read(self) -> Optional[int]:
        return None if self.last is None else self.last[0]


class Sent:
    """A message."""

    def __init__(self, value: int, stamp: Stamp) -> None:
        self.value, self.stamp = value, stamp


def main() -> List[int]:
    """Uses each part once."""
    runs: Runs = check_random(Register, "register", seeds=[1, "2-2"], duplicates=True, weights={"write": 2})
    register = Register("a")
    with Recorder("register", ["a", "b"], nothing=None) as recorder:
        sent: Sent = recorder.update(
            "a", lambda it: write(it.value, it.stamp), act=lambda: register.write(1), message=1
        )
        recorder.deliver("b", 1)
        recorder.merge("b", recorder.seen("a"))
        recorder.read("b", sent.value)
    with Recorder("orset", ["a"]) as sets:
        sets.update("a", [add("x"), add("y")], message="both")
        sets.clear("a")
    with Monitor("counter", ["a"]) as monitor:
        reply: str = monitor.tell("a inc")
    strategy = plans("register", 2, Profile("any", duplicates=True))
    run_plan(Register, Plan("register", ["a"], Profile(), [Step("update", 0, 1, "write", (3,)), Step("read", 0)]))
    machine = state_machine(Register, "register")
    return [runs, len(reply), len(machine.__name__), len(repr(strategy)), len(runs.unused), len(replay.__name__)]


if __name__ == "__main__":
    print(main())
