"""Shrinking: for each strategy a failed run that no other strategy shrinks.

The runs are simulated: a run fails exactly where a condition on its steps holds. Each step has a letter of its own,
so a run is named by its letters.
"""
import unittest
from typing import Callable, List, Optional, Sequence, Set, Tuple

from yehatu.steps import Step
from yehatu.runs import Failure
from yehatu.shrinking import shrink

Steps = Sequence[Step]
NO = ("no",)


def update(letter: str, number: int, replica: int = 0) -> Step:
    """Returns the update of this number at this replica."""
    return Step("update", replica, number, letter)


def deliver(letter: str, number: int, replica: int) -> Step:
    """Returns the delivery of the update of this number to this replica."""
    return Step("deliver", replica, number, letter)


def merge(letter: str, replica: int, source: int) -> Step:
    """Returns the merge of the source's state into this replica."""
    return Step("merge", replica, source, letter)


def read(letter: str, replica: int = 0) -> Step:
    """Returns a read at this replica."""
    return Step("read", replica, 0, letter)


def updates(letters: str) -> List[Step]:
    """Returns an update for each letter, all at one replica."""
    return [update(letter, number) for number, letter in enumerate(letters)]


def letters_of(steps: Steps) -> str:
    """Returns the letters of these steps."""
    return "".join(it.method for it in steps)


def executable(steps: Steps) -> List[Step]:
    """Returns the steps that a real run executes: each update is delivered once, and never to its own replica."""
    executed: List[Step] = []
    delivered: Set[Tuple[int, int]] = set()
    for step in steps:
        is_new = step.action not in ("update", "deliver") or (step.replica, step.number) not in delivered
        if is_new and not (step.action == "merge" and step.replica == step.number):
            executed.append(step)
            delivered.add((step.replica, step.number))
    return executed


def smallest(steps: Steps, cause_of: Callable[[Steps], Optional[Tuple[str, ...]]]) -> str:
    """Returns the letters of the shrunk run. `cause_of` returns the cause for which a run fails, or None."""

    def run(candidate: Steps) -> Optional[Failure]:
        executed = executable(candidate)
        cause = cause_of(executed)
        return None if cause is None else Failure(cause, executed, None, "", [])  # type: ignore[arg-type]

    failure = run(steps)
    if failure is None:
        raise AssertionError("the whole run does not fail")
    return letters_of(shrink(failure, run).steps)


def fails_with(needed: str, *together: str) -> Callable[[Steps], Optional[Tuple[str, ...]]]:
    """Returns a condition: a run fails if it has all needed steps, and all or none of each of these groups."""

    def cause_of(steps: Steps) -> Optional[Tuple[str, ...]]:
        letters = set(letters_of(steps))
        has_all_or_none = all(set(it) <= letters or not set(it) & letters for it in together)
        return NO if letters >= set(needed) and has_all_or_none else None

    return cause_of


def counting(method: str, amount: int) -> Step:
    """Returns the update of a counter by this amount."""
    return Step("update", 0, amount, method, (amount,))


def numbers_in(steps: Steps) -> List[int]:
    """Returns the amounts, values and elements in these steps."""
    return [number for it in steps for number in it.arguments if number is not None]


def numbers_of(steps: Steps, fails: Callable[[Steps], bool]) -> List[int]:
    """Returns the numbers in the shrunk run. `fails` returns whether a run fails."""

    def failure_of(candidate: Steps) -> Failure:
        return Failure(NO, [*candidate], None, "", [])  # type: ignore[arg-type]

    return numbers_in(shrink(failure_of(steps), lambda it: failure_of(it) if fails(it) else None).steps)


class Strategies(unittest.TestCase):
    def test_a_replica_is_removed_with_all_that_it_sent(self) -> None:
        steps = [
            update("a", 1), update("p", 2, 1), read("b"), deliver("q", 2, 0), read("c"), merge("r", 0, 1), read("d"),
            read("s", 1),
        ]
        self.assertEqual(smallest(steps, fails_with("abcd", "pqrs")), "abcd")

    def test_two_replicas_become_one(self) -> None:
        def smallest_where_reads_fail(replicas: Set[int], copy: Step) -> str:
            def cause_of(steps: Steps) -> Optional[Tuple[str, ...]]:
                # A read fails if its replica has the update and is one of these.
                has_update = {it.replica for it in steps if it.action != "read"} & replicas
                reads_it = any(it.action == "read" and it.replica in has_update for it in steps)
                return NO if reads_it and "a" in letters_of(steps) else None

            return smallest([update("a", 1), copy, read("c", 1)], cause_of)

        for copy in (deliver("b", 1, 1), merge("b", 1, 0)):
            for replicas in ({0, 1}, {1}):
                with self.subTest(copy=copy.action, replicas=replicas):
                    self.assertEqual(smallest_where_reads_fail(replicas, copy), "ac")

    def test_a_half_a_quarter_and_a_single_step_are_removed(self) -> None:
        self.assertEqual(smallest(updates("abcdefgh"), fails_with("abcd", "efgh")), "abcd")
        self.assertEqual(smallest(updates("abcdefghijklmnop"), fails_with("abcdefghmnop", "ijkl")), "abcdefghmnop")
        self.assertEqual(smallest([update("a", 1), read("b"), read("c")], fails_with("ac")), "ac")

    def test_an_update_is_removed_with_its_deliveries(self) -> None:
        steps = [update("p", 1), read("a"), deliver("q", 1, 1), read("b", 1), deliver("r", 1, 2), read("c", 2)]
        self.assertEqual(smallest(steps, fails_with("abc", "pqr")), "abc")

    def test_a_message_arrives_early_only_if_that_is_needed(self) -> None:
        steps = [update("a", 1), update("b", 2), deliver("c", 2, 1), deliver("d", 1, 1)]
        self.assertEqual(smallest(steps, fails_with("abcd")), "abdc")

        def fails_out_of_order(steps: Steps) -> Optional[Tuple[str, ...]]:
            letters = letters_of(steps)
            return NO if {*"abcd"} <= {*letters} and letters.index("c") < letters.index("d") else None

        self.assertEqual(smallest(steps, fails_out_of_order), "abcd")

    def test_a_state_is_merged_late_only_if_that_is_needed(self) -> None:
        steps = [update("a", 1), Step("snapshot", 0, 1, "b"), read("c"), Step("merge_snapshot", 1, 1, "d")]

        def fails_with_a_state(steps: Steps) -> Optional[Tuple[str, ...]]:
            actions = [it.action for it in steps]
            has_state = "merge" in actions or {"snapshot", "merge_snapshot"} <= {*actions}
            return NO if has_state and {*"ac"} <= {*letters_of(steps)} else None

        self.assertEqual(smallest(steps, fails_with_a_state), "ac")
        self.assertEqual(smallest(steps, fails_with("abcd")), "abcd")

    def test_two_steps_are_removed_together(self) -> None:
        self.assertEqual(smallest(updates("paq"), fails_with("a", "pq")), "a")
        self.assertEqual(smallest(updates("parbqs"), fails_with("ab", "pq", "rs")), "ab")

    def test_two_steps_of_sixteen_are_tried_and_of_seventeen_not(self) -> None:
        needed = "abcdefghijklmn"
        self.assertEqual(smallest(updates(f"p{needed}q"), fails_with(needed, "pq")), needed)
        self.assertEqual(smallest(updates(f"p{needed}oq"), fails_with(f"{needed}o", "pq")), f"p{needed}oq")

    def test_the_strategies_are_tried_again_after_a_later_one_succeeded(self) -> None:
        def cause_of(steps: Steps) -> Optional[Tuple[str, ...]]:
            # The half at the end can be removed only after two others.
            letters = set(letters_of(steps))
            return fails_with("abcd", "pq", "wxyz")(steps) if "w" in letters or "p" not in letters else None

        self.assertEqual(smallest(updates("paqbcdwxyz"), cause_of), "abcd")

    def test_amounts_are_lowered(self) -> None:
        steps = [counting("increment", 256), counting("decrement", 128), Step("read", 0)]

        def lowered(fails: Callable[[List[int]], bool]) -> List[int]:
            return numbers_of(steps, lambda it: len(it) == 3 and fails(numbers_in(it)))

        self.assertEqual(lowered(lambda amounts: True), [1, 1])
        self.assertEqual(lowered(lambda amounts: amounts[0] > 100), [101, 1])
        self.assertEqual(lowered(lambda amounts: amounts[0] - amounts[1] >= 128), [129, 1])
        self.assertEqual(lowered(lambda amounts: amounts[1] >= 128), [1, 128])

    def test_values_and_elements_are_lowered(self) -> None:
        steps = [
            Step("update", 0, 1, "insert_after", (None, 65536)), Step("update", 0, 2, "insert_after", (65536, 2**31)),
            Step("update", 0, 3, "remove", (65536,)),
        ]

        def lowered(fails: Callable[[List[int]], bool]) -> List[int]:
            return numbers_of(steps, lambda it: len(it) == 3 and fails(numbers_in(it)))

        self.assertEqual(lowered(lambda values: True), [1, 1, 2, 1])
        # Where one value has to be large, it is the smallest such boundary, and the others are small.
        self.assertEqual(lowered(lambda values: values[2] > 255), [1, 1, 256, 1])
        self.assertEqual(lowered(lambda values: min(values) >= 256), [65535, 65535, 256, 65535])

    def test_a_run_that_fails_for_another_cause_is_not_accepted(self) -> None:
        def cause_of(steps: Steps) -> Tuple[str, ...]:
            return NO if "b" in letters_of(steps) else ("refused", "stamp-taken")

        self.assertEqual(smallest(updates("abc"), cause_of), "b")


if __name__ == "__main__":
    unittest.main()
