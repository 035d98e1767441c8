"""Messages and states, which must not change after a replica returned them."""
import json
import unittest
from pathlib import Path
from typing import Any, Dict, List

from network_replicas import MergedCounter, saving
from replicas import Counter, Message
from yehatu import ReplicaRaised, check_random, replay
from yehatu.driver import Driver, Setting
from yehatu.profile import Profile
from yehatu.returned import Changed
from yehatu.steps import Step


class Reuses(Counter):
    """Returns the same dictionary each time."""

    def __init__(self, name: str) -> None:
        super().__init__(name)
        self.message: Message = {}

    def step(self, by: int) -> Message:
        self.message.update(super().step(by))
        return self.message


class ChangesMessages(Counter):
    """Changes what it receives."""

    def receive(self, message: Message) -> None:
        super().receive(message)
        message["received"] = True


class Live(MergedCounter):
    """Returns its own dictionary as its state."""

    def state(self) -> Any:
        return self.name, self.steps


class Unshown(Dict[str, Any]):
    """A message whose `repr` raises."""

    def __repr__(self) -> str:
        raise RuntimeError("not shown")


class SendsUnshown(Counter):
    """Sends a message whose `repr` raises, and changes it."""

    def step(self, by: int) -> Message:
        return Unshown(super().step(by))

    def receive(self, message: Message) -> None:
        super().receive(message)
        message["received"] = True


class ReturnedObjects(unittest.TestCase):
    def failure_of(self, make: Any) -> ReplicaRaised:
        """Returns the exception, which is the same if the stored steps are run again, as the suggested test does."""
        with self.assertRaises(ReplicaRaised) as caught:
            check_random(make, "counter")
        failed = caught.exception
        self.assertIsNone(failed.__cause__)
        self.assertIn(f"replay({make.__name__}, {failed.steps!r})\n", f"{failed}\n")
        with self.assertRaises(ReplicaRaised) as caught:
            replay(make, failed.steps or "")
        self.assertEqual(caught.exception.operation, failed.operation)
        return failed

    def test_a_message_that_changed_after_it_was_returned_is_a_failure(self) -> None:
        for make, change in [
            (Reuses, r"\{'by': -?1\}, and is \{'by': -?1\} now"),
            (ChangesMessages, r"\{'by': (-?1)\}, and is \{'by': \1, 'received': True\} now"),
        ]:
            with self.subTest(make=make.__name__):
                failed = self.failure_of(make)
                remedy = "return a copy, and change no received message"
                outcome = f"failed: message 1 changed after it was returned; {remedy}"
                self.assertRegex(failed.operation, rf"^'[abc]': receive\(message 1\) {outcome}$")
                returning = r"message 1 was returned by '[abc]': (?:in|de)crement\(\)"
                self.assertRegex(str(failed).splitlines()[1], rf"^{returning}, as {change}$")
                stored = json.loads(Path(failed.steps or "").read_text())
                self.assertEqual(stored["cause"], ["changed", "message"])
                self.assertEqual(replay(Counter, failed.steps or ""), 3)

    def test_a_state_that_changed_after_it_was_returned_is_a_failure(self) -> None:
        failed = self.failure_of(Live)
        outcome = "failed: state 1 changed after it was returned; return a copy"
        self.assertRegex(failed.operation, rf"^'[abc]': merge\(state 1, which was taken earlier\) {outcome}$")
        change = r"as \('(.)', \{.*\}\), and is \('\1', \{.*\}\) now"
        self.assertRegex(str(failed).splitlines()[1], rf"^state 1 was returned by '[abc]': state\(\), {change}$")
        self.assertEqual(json.loads(Path(failed.steps or "").read_text())["cause"], ["changed", "state"])
        self.assertEqual(replay(MergedCounter, failed.steps or ""), 3)
        # A state that is merged at once has no time to change.
        self.assertEqual(check_random(Live, "counter", seeds=40, late_states=False), 40)

    def test_a_changed_message_is_not_received_again_after_a_restart(self) -> None:
        steps = [
            Step("update", 0, 1, "increment"), Step("deliver", 1, 1), Step("update", 0, 2, "decrement"),
            Step("restart", 1), Step("read", 1),
        ]
        driver = Driver(Setting(saving(Reuses), "counter", ["a", "b"], "", Profile(restarts=True)), steps)
        self.assertIsInstance(driver.execute(steps), Changed)
        self.assertEqual(driver.executed, steps[:-1])

    def test_a_message_that_cannot_be_shown_is_not_compared(self) -> None:
        self.assertEqual(check_random(SendsUnshown, "counter", seeds=20), 20)

    def test_each_replica_merges_a_copy_of_a_late_state(self) -> None:
        merged: List[int] = []

        class EmptiesStates(MergedCounter):
            """Empties what it receives."""

            def merge(self, state: Any) -> None:
                merged.append(sum(up - down for up, down in state[1].values()))
                super().merge(state)
                state[1].clear()

        steps = [
            Step("update", 0, 1, "increment"), Step("snapshot", 0, 1), Step("merge_snapshot", 1, 1),
            Step("merge_snapshot", 2, 1),
        ]
        driver = Driver(Setting(EmptiesStates, "counter", ["a", "b", "c"], "", Profile(late_states=True)), steps)
        self.assertIsNone(driver.execute(steps))
        self.assertEqual(merged, [1, 1])


if __name__ == "__main__":
    unittest.main()
