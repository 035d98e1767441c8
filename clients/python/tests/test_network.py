"""Networks that lose the order and repeat messages, late states, and restarts: what a type promises is tried."""
import os
import random
import unittest
from typing import Any, Dict, List

from network_replicas import PLANTED, RIGHT, AmountCounter, MergedCounter, saving
from replicas import Counter, LwwSet
from yehatu import NotRepresentable, NotLinearizable, ReportFailed, check_random, replay
from yehatu.driver import Driver, Setting
from yehatu.network import Network
from yehatu.plans import AMOUNTS, BOUNDARIES, MAX_TOTAL, Planner
from yehatu.profile import Profile, Traits
from yehatu.steps import Step

# The number of runs of correct replicas. tests/release runs more.
RUNS = int(os.environ.get("YEHATU_RUNS", "500"))
FOUND_WITHIN = 200
SENTENCES = {
    "keeps_one_message": r"at work: message \d+ arrived before message \d+, on which it depends",
    "counts_duplicates": r"at work: message 1 arrived twice\n",
    "undoes_newer_entries": r"at work: a state of '[abc]' taken at step \d+ was merged at step \d+\n",
    "forgets_its_clock": r"at work: '[abc]' restarted from its state of step \d+\n",
    "overflows_at_seven_bits": r"reads -?12[89]: ",
    "overflows_at_seven_bits with amounts": r"reads -?\d+: ",
}
EVENTS = {
    "duplicates": ("duplicate",), "late_states": ("snapshot", "merge_snapshot"), "restarts": ("save", "restart"),
}


def plans(kind: str, traits: Traits, seeds: int = 60, operations: int = 30) -> List[Step]:
    """Returns the steps of plans of this number of seeds."""
    return [it for seed in range(seeds) for it in Planner(kind, 3, operations, seed, traits).plan()]


class PlantedBugs(unittest.TestCase):
    def test_each_bug_of_a_network_is_found_and_named(self) -> None:
        for bug, case in PLANTED.items():
            with self.subTest(bug=bug):
                with self.assertRaises(ReportFailed) as caught:
                    check_random(case.make, case.kind, seeds=FOUND_WITHIN, **case.options)
                self.assertRegex(str(caught.exception), SENTENCES[bug])
                with self.assertRaises(type(caught.exception)):
                    replay(case.make, caught.exception.steps or "")

    def test_no_bug_of_a_network_is_found_where_the_network_has_no_fault(self) -> None:
        for bug in ("keeps_one_message", "counts_duplicates", "undoes_newer_entries", "forgets_its_clock"):
            with self.subTest(bug=bug):
                make, kind, _ = PLANTED[bug]
                late = False if kind == "counter" and bug == "undoes_newer_entries" else None
                self.assertEqual(check_random(make, kind, seeds=40, late_states=late, restarts=False), 40)

    def test_a_fault_that_is_not_needed_is_not_named(self) -> None:
        make = RIGHT["counter in any order"].make

        class Bug(make):  # type: ignore[misc, valid-type]
            def read(self) -> int:
                return max(super().read(), 0)

        with self.assertRaises(NotLinearizable) as caught:
            check_random(Bug, "counter", seeds=FOUND_WITHIN, delivery="any", duplicates=True, restarts=True)
        self.assertNotIn("at work", str(caught.exception))


class CorrectReplicas(unittest.TestCase):
    def test_correct_replicas_raise_no_false_alarm_on_any_network(self) -> None:
        for name, case in RIGHT.items():
            with self.subTest(name=name):
                self.assertEqual(check_random(case.make, case.kind, seeds=RUNS, **case.options), RUNS)

    def test_a_saved_value_and_a_late_state_are_copied(self) -> None:
        loaded: List[int] = []
        merged: List[int] = []

        class Live(MergedCounter):
            """Saves its own dictionary."""

            def save(self) -> Any:
                return self.steps

            def load(self, saved: Any) -> None:
                self.steps = saved
                loaded.append(self.read())

            def merge(self, state: Any) -> None:
                merged.append(sum(up - down for up, down in state[1].values()))
                super().merge(state)

        steps = [
            Step("update", 0, 1, "increment"), Step("snapshot", 0, 1), Step("update", 0, 2, "increment"),
            Step("save", 1), Step("merge", 1, 0), Step("merge_snapshot", 1, 1), Step("restart", 1), Step("read", 1),
        ]
        driver = Driver(Setting(Live, "counter", ["a", "b"], "", Profile(late_states=True, restarts=True)), steps)
        self.assertIsNone(driver.execute(steps))
        # The save came before the merges, which are repeated after the restart.
        self.assertEqual((loaded, merged), ([0], [2, 1, 2, 1]))
        self.assertTrue(driver.text().endswith("\nb read 2\n"))

    def test_a_class_method_may_load(self) -> None:
        class Loaded(Counter):
            def save(self) -> int:
                return self.number

            @classmethod
            def load(cls, saved: int) -> "Loaded":
                fresh = cls("loaded")
                fresh.number = saved
                return fresh

        self.assertEqual(check_random(Loaded, "counter", seeds=40), 40)

    def test_what_cannot_be_copied_is_rejected(self) -> None:
        with self.assertRaisesRegex(NotRepresentable, "what 'a' saved cannot be copied .*or pass restarts=False"):
            check_random(lambda name: Uncopied(name, Counter), "counter")
        with self.assertRaisesRegex(NotRepresentable, "state of '.' cannot be copied .*or pass late_states=False"):
            check_random(lambda name: Uncopied(name, MergedCounter), "counter", restarts=False)


class Uncopied:
    """Saves, or has as its state, what cannot be copied."""

    def __init__(self, name: str, base: Any) -> None:
        replica = base(name)
        for method in ("increment", "decrement", "read"):
            setattr(self, method, getattr(replica, method))
        if base is MergedCounter:
            self.state, self.merge = lambda: uncopied(), lambda state: None
        else:
            self.receive, self.save, self.load = replica.receive, lambda: uncopied(), lambda saved: None


class _CannotCopy:
    def __deepcopy__(self, memo: Dict[int, Any]) -> Any:
        raise TypeError("a lock")


def uncopied() -> Any:
    """Returns what cannot be copied."""
    return _CannotCopy()


class Plans(unittest.TestCase):
    def test_a_plan_has_the_events_of_its_profile(self) -> None:
        for option, actions in EVENTS.items():
            with self.subTest(option=option):
                traits = Traits(("increment",), merges=option == "late_states")
                self.assertFalse({*actions} & {it.action for it in plans("counter", traits)})
                chosen = traits._replace(profile=Profile(**{option: True}))  # type: ignore[arg-type]
                self.assertLessEqual({*actions}, {it.action for it in plans("counter", chosen)})

    def test_messages_arrive_in_any_order_if_the_type_promises_it(self) -> None:
        for delivery in ("causal", "any"):
            with self.subTest(delivery=delivery):
                traits = Traits(("increment",), profile=Profile(delivery))
                early = 0
                for seed in range(30):
                    # Each message carries its place among those of its sender.
                    places: Dict[int, Any] = {}
                    last: Dict[Any, int] = {}
                    for step in Planner("counter", 3, 30, seed, traits).plan():
                        if step.action == "update":
                            place = len([it for it in places.values() if it[0] == step.replica])
                            places[step.number] = step.replica, place
                        elif step.action == "deliver":
                            sender, place = places[step.number]
                            early += place < last.get((step.replica, sender), -1)
                            last[step.replica, sender] = max(place, last.get((step.replica, sender), -1))
                self.assertEqual(early > 0, delivery == "any")

    def test_partitions_are_short_and_long_of_one_replica_and_of_two_groups(self) -> None:
        lengths, sides = [], set()
        for seed in range(200):
            network = Network(random.Random(seed), 4, 30)
            for now in range(100):
                before = [*network._partitions]
                network.advance(now, range(4))
                for it in network._partitions:
                    if it not in before:
                        lengths.append(it[0] - now)
                        sides.add(sum(it[1]))
                    self.assertFalse(network.are_connected(it[1].index(True), it[1].index(False))
                                     if len({*it[1]}) == 2 else False)
        self.assertEqual((min(lengths), max(lengths) > 50), (5, True))
        self.assertLessEqual({1, 2}, sides)

    def test_a_delayed_message_is_not_due(self) -> None:
        delayed = 0
        for seed in range(50):
            network = Network(random.Random(seed), 2, 30)
            network.send(1, 0)
            delayed += not network.is_due(1, 0, 0)
            self.assertTrue(network.is_due(1, 0, 20))
            network.recover()
            self.assertTrue(network.is_due(1, 0, 0))
        self.assertGreater(delayed, 5)

    def test_boundary_values_and_long_runs_occur(self) -> None:
        for kind, method in (("register", "write"), ("rga", "insert_after"), ("lwwset", "add")):
            with self.subTest(kind=kind):
                values = [it.arguments[-1] for it in plans(kind, Traits((method,)), 250) if it.action == "update"]
                self.assertLessEqual({*BOUNDARIES}, {*values})
                self.assertGreater(sum(it < 100 for it in values), len(values) // 2)
        counts = [
            sum(it.action == "update" for it in Planner("counter", 3, 30, seed, Traits(("increment",))).plan())
            for seed in range(200)
        ]
        self.assertEqual((min(counts), max(counts) >= 230), (30, True))
        self.assertGreaterEqual(sum(it >= 230 for it in counts), 4)

    def test_amounts_stay_within_what_the_monitor_counts(self) -> None:
        traits = Traits(("increment", "decrement"), amounts=True)
        seen = set()
        for seed in range(60):
            amounts = [it.arguments[0] for it in Planner("counter", 3, 30, seed, traits).plan() if it.arguments]
            seen |= {*amounts}
            self.assertLessEqual(sum(it for it in amounts if it > 1), MAX_TOTAL)
        self.assertEqual(seen, {*AMOUNTS})

    def test_a_seed_plans_no_value_twice(self) -> None:
        for seed in range(60):
            steps = Planner("rga", 3, 60, seed, Traits(("insert_after",))).plan()
            values = [it.arguments[1] for it in steps if it.action == "update"]
            self.assertEqual(len({*values}), len(values))


class Promises(unittest.TestCase):
    def test_what_a_type_cannot_promise_is_rejected(self) -> None:
        for make, options, message in [
            (Counter, {"delivery": "fifo"}, "delivery='fifo': expected 'causal' or 'any'"),
            (Counter, {"late_states": True}, r"late_states=True: .* expected one with state\(\) and merge\(state\)"),
            (MergedCounter, {"delivery": "any"}, "this type merges states, for which late_states is meant"),
            (MergedCounter, {"duplicates": True}, "this type merges states"),
        ]:
            with self.subTest(options=options), self.assertRaisesRegex(ValueError, message):
                check_random(make, "counter", **options)
        with self.assertRaisesRegex(TypeError, "this one lacks save, load"):
            check_random(Counter, "counter", restarts=True)

    def test_a_profile_follows_from_the_methods_of_the_class(self) -> None:
        bug = PLANTED["forgets_its_clock"]
        with self.assertRaises(ReportFailed):
            check_random(bug.make, bug.kind, seeds=FOUND_WITHIN)
        late = PLANTED["undoes_newer_entries"]
        with self.assertRaises(ReportFailed):
            check_random(late.make, late.kind, seeds=FOUND_WITHIN)
        self.assertEqual(check_random(saving(LwwSet), "lwwset", seeds=5), 5)
        self.assertEqual(check_random(AmountCounter, "counter", seeds=5), 5)


if __name__ == "__main__":
    unittest.main()
