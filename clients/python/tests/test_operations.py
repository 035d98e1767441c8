"""Operations of several reports, and what the errors of a recorder name."""
import contextlib
import io
import unittest
from typing import Any, List

from replicas import Counter, LwwSet, Message, OrSet
from yehatu import NotLinearizable, NotRepresentable, Recorder, add, check_random, insert_after, remove
from yehatu.plans import Planner
from yehatu.profile import Traits


def lines(recorder: Recorder) -> List[str]:
    """Returns the commands that were reported."""
    return recorder.history().splitlines()[2:]


class WithoutStamp(LwwSet):
    """Returns messages without their stamps."""

    def add(self, element: Any) -> Message:
        return {name: it for name, it in super().add(element).items() if name != "stamp"}


class Arguments(unittest.TestCase):
    def test_a_stamp_of_an_or_set_is_rejected(self) -> None:
        for call, named in (("add", "identifier"), ("remove", "identifiers")):
            recorder = Recorder("orset", ["a"])
            message = f"an OR-Set has no stamps, and 5 is one: pass `{named}=`, or nothing"
            with self.subTest(call=call), self.assertRaisesRegex(NotRepresentable, message):
                getattr(recorder, call)("a", "x", 5)
            recorder.stop()

    def test_identifiers_of_another_kind_are_rejected(self) -> None:
        for call, named in (("add", "identifier"), ("remove", "identifiers")):
            recorder = Recorder("lwwset", ["a"])
            message = "the kind lwwset has no identifiers: got"
            with self.subTest(call=call), self.assertRaisesRegex(NotRepresentable, message):
                getattr(recorder, call)("a", "x", 5, **{named: [7]})
            recorder.stop()

    def test_a_message_without_a_stamp_is_named(self) -> None:
        message = r"add\(.*\) returned a message without a stamp, .*: expected a key or an attribute `stamp`"
        with self.assertRaisesRegex(NotRepresentable, message):
            check_random(WithoutStamp, "lwwset")


class Compositions(unittest.TestCase):
    def test_an_amount_is_reported_as_that_number_of_increments(self) -> None:
        with Recorder("counter", ["a", "b"]) as recorder:
            self.assertEqual(recorder.increment("a", 3, act=lambda: "act", message="m"), "act")
            recorder.decrement("a", 2)
            recorder.deliver("b", "m")
            recorder.deliver("b", "m")
            recorder.read("b", 3)
            recorder.increment("b", 256)
            recorder.read("b", 259)
        self.assertEqual(lines(recorder)[:9], [
            *["a inc"] * 3, *["a dec"] * 2, "b got 0", "b got 1", "b got 2", "b read 3",
        ])

    def test_an_amount_that_cannot_be_counted_is_rejected_before_the_act(self) -> None:
        with Recorder("counter", ["a"]) as recorder:
            for by in (0, -1, 257, 1.5, "2"):
                message = rf"increment\('a', {by!r}\): the amount .* since the monitor counts by one: .* 1 to 256"
                with self.subTest(by=by), self.assertRaisesRegex(NotRepresentable, message):
                    recorder.increment("a", by, act=self.fail)  # type: ignore[arg-type]
            recorder.read("a", 0)

    def test_a_list_of_operations_is_one_message(self) -> None:
        with Recorder("rga", ["ann", "bob"]) as recorder:
            recorder.insert_after("ann", None, "a", 1, message=1)
            recorder.insert_after("ann", "a", "b", 2, message=2)
            move = [remove("a"), insert_after("b", "a again", 3)]
            recorder.update("ann", lambda sent: sent, act=lambda: move, message="move")
            for message in (1, 2, "move"):
                recorder.deliver("bob", message)
            recorder.read("bob", ["b", "a again"])
        self.assertEqual(lines(recorder)[-3:], ["bob got 2", "bob got 3", "bob read 2,3"])

    def test_a_composition_needs_a_new_message(self) -> None:
        recorder = Recorder("orset", ["a"])
        recorder.add("a", "x", message=1)
        with self.assertRaisesRegex(NotRepresentable, r"update\('a', .*\): the message 1 was reported before"):
            recorder.update("a", [add("x"), add("y")], message=1)
        recorder.stop()

    def test_clear_removes_what_the_replica_shows(self) -> None:
        with Recorder("orset", ["a", "b"]) as recorder:
            recorder.add("a", "x", message=1)
            recorder.add("b", "y", message=2)
            recorder.add("a", "z", message=3)
            recorder.remove("a", "z", message=4)
            recorder.deliver("a", 2)
            recorder.add("b", "x", message=5)
            recorder.clear("a", message="clear")
            recorder.read("a", [])
            for message in (1, 3, 4, "clear"):
                recorder.deliver("b", message)
            recorder.read("b", ["x"])
        self.assertIn("a remove 1 #1", lines(recorder))
        with Recorder("lwwset", ["a", "b"]) as recorder:
            for clock, element in enumerate(("x", "y", "z"), 1):
                recorder.add("a", element, clock, message=clock)
            recorder.remove("a", "y", 4, message=4)
            recorder.merge("b", recorder.seen("a"))
            recorder.clear("a", {"x": 6, "z": 5})
            recorder.clear("b", lambda sent: [(7, "b"), (8, "b")], act=lambda: None)
            recorder.read("a", [])
            recorder.read("b", [])
            recorder.clear("b")
        self.assertEqual([it for it in lines(recorder) if "remove" in it], [
            "a remove 2 @4", "a remove 3 @5", "a remove 1 @6", "b remove 1 @7", "b remove 3 @8",
        ])

    def test_clear_removes_what_won_by_its_stamp_and_not_what_came_last(self) -> None:
        with Recorder("lwwset", ["a", "b"]) as recorder:
            recorder.remove("b", "x", 1, message=1)
            recorder.add("a", "x", 5)
            recorder.deliver("a", 1)
            recorder.clear("a", [6])
            recorder.read("a", [])
        self.assertIn("a remove 1 @6", lines(recorder))

    def test_clear_of_another_kind_or_with_too_few_stamps_is_rejected(self) -> None:
        recorder = Recorder("counter", ["a"])
        with self.assertRaisesRegex(NotRepresentable, "clear is not an operation of the kind counter: it"):
            recorder.clear("a")
        recorder.stop()
        recorder = Recorder("lwwset", ["a"])
        recorder.add("a", "x", 1)
        with self.assertRaisesRegex(NotRepresentable, r"clear\('a'\): 0 stamps for the 1 elements .*\['x'\]"):
            recorder.clear("a")
        recorder.stop()


class Errors(unittest.TestCase):
    def test_an_error_names_the_call_and_what_was_looked_for(self) -> None:
        def report(recorder: Recorder) -> None:
            for number in range(1, 6):
                recorder.increment("bob", message=f"m{number}")
            recorder.deliver("bob", "m7")

        cases: Any = [
            (report, r"deliver\('bob', 'm7'\): no update was reported with the message 'm7'; "
                     r"known are 'm1', 'm2', 'm3' and 2 more: report the update"),
            (lambda it: it.merge("bob", [4]), r"merge\('bob', \[4\]\): no update .* 4; none is known"),
            (lambda it: it.deliver("bob", []), r"deliver\('bob', \[\]\): no update"),
            (lambda it: it.read("bob", "many"), r"read\('bob', 'many'\): a counter's read returned 'many'"),
            (lambda it: it.read("carl", 1), r"read\('carl', 1\): unknown replica 'carl': expected one of \['bob'\]"),
            (lambda it: it.increment(["bob"]), r"unknown replica \['bob'\]"),
            (lambda it: it.write("bob", 4, 1), r"write\('bob', 4, 1\): write is not an operation of the kind counter"),
        ]
        for call, message in cases:
            recorder = Recorder("counter", ["bob"])
            with self.subTest(message=message), self.assertRaisesRegex(NotRepresentable, message):
                call(recorder)
            recorder.stop()

    def test_an_act_that_returns_a_coroutine_is_rejected(self) -> None:
        async def act() -> Message:
            return {}

        for call in (
            lambda it: it.increment("a", act=act), lambda it: it.read("a", act), lambda it: it.read("a", act()),
        ):
            recorder = Recorder("counter", ["a"])
            with self.assertRaisesRegex(NotRepresentable, r"(increment|read)\('a'.*\): .* a coroutine, which"):
                call(recorder)
            recorder.stop()

        class Asynchronous(Counter):
            async def increment(self) -> Message:  # type: ignore[override]
                return super().increment()

        with self.assertRaisesRegex(NotRepresentable, "increment of '.' returned a coroutine"):
            check_random(Asynchronous, "counter")

    def test_a_removal_with_wrong_identifiers_is_told_apart_from_a_lost_addition(self) -> None:
        for named, message in [
            ([2], r"it names the identifiers 2, and by the reports its replica had 1, 2: the replica lost an addition"),
            ([1, 2, 3], r"it names the identifiers 1, 2, 3, and by the reports its replica had 1, 2: a delivery"),
            ([], r"it names the identifiers none, and by the reports its replica had 1, 2: the replica lost"),
        ]:
            recorder = Recorder("orset", ["a", "b"], window=1)
            recorder.add("a", "x", identifier=1)
            recorder.add("a", "x", identifier=2)
            recorder.add("b", "x", identifier=3)
            with self.subTest(named=named), self.assertRaisesRegex(NotLinearizable, message):
                recorder.remove("a", "x", identifiers=named)
            recorder.stop()

    def test_bad_arguments_are_errors_in_words(self) -> None:
        options: Any
        for options, message in [
            ({"replicas": 0}, "replicas=0: expected at least 1"), ({"replicas": []}, r"replicas=\[\]: expected"),
            ({"replicas": None}, "replicas=None, .* a whole number or a list"), ({"seeds": -1}, "seeds=-1: expected"),
            ({"operations": -1}, "operations=-1: expected at least 0"), ({"operations": "3"}, "operations='3'"),
            ({"replicas": True}, "replicas=True: expected at least 1"), ({"seeds": 1.5}, "a whole number or a list"),
        ]:
            with self.subTest(options=options), self.assertRaisesRegex(ValueError, message):
                check_random(Counter, "counter", **options)
        with self.assertRaisesRegex(NotRepresentable, "the replicas are 0: expected a list of their names"):
            Recorder("counter", 0)  # type: ignore[arg-type]


class GrowOnlySet:
    """A set without removals."""

    def __init__(self, name: str) -> None:
        self.elements: set = set()  # type: ignore[type-arg]

    def add(self, element: int) -> Message:
        self.elements.add(element)
        return {"element": element}

    def receive(self, message: Message) -> None:
        self.elements.add(message["element"])

    def read(self) -> Any:
        return self.elements


class GrowOnlyCounter:
    """A counter without decrements."""

    def __init__(self, name: str) -> None:
        self.number = 0

    def increment(self) -> int:
        self.number += 1
        return 1

    def receive(self, message: int) -> None:
        self.number += message

    def read(self) -> int:
        return self.number


class Methods(unittest.TestCase):
    def test_a_type_that_only_grows_needs_no_removal_and_the_result_says_so(self) -> None:
        for make, kind, unused in ((GrowOnlySet, "orset", "remove"), (GrowOnlyCounter, "counter", "decrement")):
            stderr = io.StringIO()
            with self.subTest(kind=kind), contextlib.redirect_stderr(stderr):
                runs = check_random(make, kind, seeds=20)
                self.assertEqual((runs, runs.unused), (20, (unused,)))
                self.assertIn(f"check_random {kind}: the type has no {unused}, so it was not tried", stderr.getvalue())
        self.assertEqual(check_random(OrSet, "orset", seeds=1).unused, ())

    def test_weights_change_how_often_a_method_is_called(self) -> None:
        def removals(**weights: float) -> int:
            traits = Traits(("add", "remove"), weights={"add": 2.0, "remove": 1.0, **weights})
            steps = [it for seed in range(20) for it in Planner("lwwset", 3, 30, seed, traits).plan()]
            return sum(it.method == "remove" for it in steps)

        self.assertLess(removals(), 300)
        self.assertGreater(removals(remove=8.0), 400)
        self.assertEqual(removals(remove=0.0), 0)
        self.assertEqual(check_random(LwwSet, "lwwset", seeds=5, weights={"remove": 3}), 5)

    def test_weights_of_unknown_methods_are_rejected(self) -> None:
        for weights, message in [
            ({"clear": 1}, "weights has 'clear': expected the methods of this type, add, remove"),
            ({"remove": -1}, "expected numbers of at least 0"), ({"add": 0}, "that of add above 0"),
        ]:
            with self.subTest(weights=weights), self.assertRaisesRegex(ValueError, message):
                check_random(LwwSet, "lwwset", weights=weights)

    def test_amounts_are_tried_if_the_methods_take_them(self) -> None:
        amounts: List[int] = []

        class Counting(Counter):
            def increment(self, by: int = 1) -> Message:
                amounts.append(by)
                return self.step(by)

            def decrement(self, by: int = 1) -> Message:
                return self.step(-by)

        self.assertEqual(check_random(Counting, "counter", seeds=20), 20)
        self.assertLessEqual({1, 2, 128, 256}, {*amounts})

    def test_a_parameter_that_is_no_amount_is_named(self) -> None:
        class Optional(Counter):
            def increment(self, amount: int = 1) -> Message:
                return self.step(amount)

        class Noted(Counter):
            def increment(self, by: int = 1, note: str = "") -> Message:
                return self.step(by)

            def decrement(self, by: int = 1, *others: Any) -> Message:
                return self.step(-by)

        class Uneven(Counter):
            def increment(self, by: int = 1) -> Message:
                return self.step(by)

        for make, named in (
            (Optional, "increment(amount)"), (Noted, "increment(note)"), (Uneven, "increment(by)"), (Counter, None),
        ):
            stderr = io.StringIO()
            with self.subTest(make=make.__name__), contextlib.redirect_stderr(stderr):
                self.assertEqual(check_random(make, "counter", seeds=3), 3)
                rule = "an amount is the first parameter of each update and is named `by`"
                warning = f"check_random counter: no argument was tried for {named}: {rule}\n"
                self.assertEqual([warning] if named else [], [
                    it for it in stderr.getvalue().splitlines(True) if "no argument" in it
                ])

    def test_a_required_parameter_that_is_no_amount_is_rejected(self) -> None:
        class Amount(Counter):
            def increment(self, amount: int) -> Message:  # type: ignore[override]
                return self.step(amount)

        class Uneven(Counter):
            def increment(self, by: int) -> Message:  # type: ignore[override]
                return self.step(by)

        for make, name in (Amount, "amount"), (Uneven, "by"):
            expected = f"increment requires the parameter {name}, for which no argument is passed: an amount is .* `by`"
            with self.subTest(name=name), self.assertRaisesRegex(TypeError, expected):
                check_random(make, "counter")

        class Right(Counter):
            def increment(self, by: int) -> Message:  # type: ignore[override]
                return self.step(by)

            def decrement(self, by: int) -> Message:  # type: ignore[override]
                return self.step(-by)

        self.assertEqual(check_random(Right, "counter", seeds=3), 3)


if __name__ == "__main__":
    unittest.main()
