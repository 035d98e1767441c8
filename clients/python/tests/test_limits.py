"""Each limit at its bound: the last value of the format, which the program accepts, and the first value beyond it."""
import unittest
from typing import Any, Sequence
from unittest import mock

from yehatu import NotRepresentable, NotLinearizable, Recorder
from yehatu.random_runs import check_random

GREATEST = 4_294_967_295
FIRST_GREAT = 268_435_456
LONGEST = "abcdefghijklmnop"
WHOLE_NUMBER = "expected a whole number from -2147483648 to 2147483647"


def lines(recorder: Recorder) -> str:
    """Returns the commands that were reported."""
    return recorder.history().split("\n", 2)[2]


class CounterReads(unittest.TestCase):
    def test_the_bounds_of_a_counters_read(self) -> None:
        for value in (2_147_483_647, -2_147_483_648):
            recorder = Recorder("counter", ["a"], window=1)
            with self.subTest(value=value):
                # The program reads the number, and finds that the counter is at 0.
                with self.assertRaises(NotLinearizable) as caught:
                    recorder.read("a", value)
                self.assertEqual((caught.exception.operation, caught.exception.cause), (f"'a' reads {value}", "query"))
                self.assertEqual(lines(recorder), f"a read {value}\n")
            recorder.stop()
        for value in (2_147_483_648, -2_147_483_649):
            recorder = Recorder("counter", ["a"], window=1)
            message = f"read returned {value}: {WHOLE_NUMBER}"
            with self.subTest(value=value), self.assertRaisesRegex(NotRepresentable, message):
                recorder.read("a", value)
            self.assertEqual(lines(recorder), "")
            recorder.stop()

    def test_a_counters_read_that_is_not_a_whole_number(self) -> None:
        for value in (None, True, 1.5, float("nan"), "7", "", []):
            recorder = Recorder("counter", ["a"], window=1)
            with self.subTest(value=value), self.assertRaisesRegex(NotRepresentable, WHOLE_NUMBER):
                recorder.read("a", value)
            recorder.stop()


class Clocks(unittest.TestCase):
    def written(self, clocks: Sequence[int]) -> str:
        """Returns the lines of writes with these clocks, which the program accepts."""
        with Recorder("register", [str(number) for number in range(len(clocks))], window=1) as recorder:
            for number, clock in enumerate(clocks):
                recorder.write(str(number), number, clock)
        return lines(recorder)

    def test_the_bounds_of_a_clock(self) -> None:
        self.assertEqual(self.written([1]), "r0 write 1 @1\n")
        self.assertEqual(self.written([GREATEST]), f"r0 write 1 @{GREATEST}\n")
        self.assertEqual(self.written([1, GREATEST]), f"r0 write 1 @1\nr1 write 2 @{GREATEST}\n")
        for clocks, message in [
            ([0], f"0 is too early: this history can represent the clocks from 1 to {GREATEST}"),
            ([1, GREATEST + 1], f"{GREATEST + 1} is too late: .* from 1 to {GREATEST}"),
            ([GREATEST, GREATEST + 1], f"{GREATEST + 1} is too late: .* from 1 to {GREATEST}"),
        ]:
            with self.subTest(clocks=clocks), self.assertRaisesRegex(NotRepresentable, message):
                self.written(clocks)

    def test_the_bounds_of_clocks_that_are_counted_from_the_first_one(self) -> None:
        first = GREATEST + 1
        early, late = first - 268_435_455, first + 4_026_531_839
        self.assertEqual(self.written([first]), f"r0 write 1 @{FIRST_GREAT}\n")
        self.assertEqual(self.written([first, early]), f"r0 write 1 @{FIRST_GREAT}\nr1 write 2 @1\n")
        self.assertEqual(self.written([first, late]), f"r0 write 1 @{FIRST_GREAT}\nr1 write 2 @{GREATEST}\n")
        for clocks, message in [
            ([first, early - 1], f"{early - 1} is too early: .* from {early} to {late}"),
            ([first, late + 1], f"{late + 1} is too late: .* from {early} to {late}"),
        ]:
            with self.subTest(clocks=clocks), self.assertRaisesRegex(NotRepresentable, message):
                self.written(clocks)


class Replicas(unittest.TestCase):
    def test_names_of_sixteen_letters_are_kept_and_longer_ones_are_replaced(self) -> None:
        for key, name in [
            (LONGEST, LONGEST), ("z123456789012345", "z123456789012345"), ("a", "a"), ("verdic", "verdic"),
            ("joins", "joins"), (LONGEST + "q", "r0"), (LONGEST + "0", "r0"), ("", "r0"), ("1a", "r0"), ("aB", "r0"),
            ("a_b", "r0"), ("a b", "r0"), ("a\n", "r0"), ("é", "r0"), ("join", "r0"), ("verdict", "r0"), (1, "r0"),
        ]:
            with self.subTest(key=key):
                with Recorder("counter", [key, "other"], window=1) as recorder:
                    recorder.increment(key, message=1)
                    recorder.deliver("other", 1)
                self.assertEqual(
                    recorder.history(), f"RAH 2 counter\nreplicas {name} other\n{name} inc\nother got 0\n"
                )
                with Recorder("counter", ["other"], window=1) as recorder:
                    recorder.join(key, "other")
                    recorder.read(key, 0)
                self.assertEqual(lines(recorder), f"join {name} other\n{name} read 0\n")

    def test_a_name_for_each_of_sixty_four_replicas(self) -> None:
        # The user's names take all but one of the names that the client assigns.
        keys = [*(f"r{number}" for number in range(63)), "Ann"]
        with Recorder("counter", keys, window=1) as recorder:
            recorder.read("Ann", 0)
        self.assertEqual(lines(recorder), "r63 read 0\n")
        with Recorder("counter", [*keys[1:], "Bob"], window=1) as recorder:
            recorder.read("Ann", 0)
            recorder.read("Bob", 0)
        self.assertEqual(lines(recorder), "r0 read 0\nr63 read 0\n")

    def test_the_bounds_of_the_number_of_replicas(self) -> None:
        for count in (1, 64):
            with self.subTest(count=count):
                with Recorder("counter", range(count), window=1) as recorder:
                    recorder.read(count - 1, 0)
                self.assertEqual(lines(recorder), f"r{count - 1} read 0\n")
        for count in (0, 65):
            with self.subTest(count=count), self.assertRaisesRegex(NotRepresentable, "1 to 64 replicas"):
                Recorder("counter", range(count))
        with self.assertRaisesRegex(NotRepresentable, "replicas with distinct names"):
            Recorder("counter", ["a", "b", "a"])

    def test_the_names_of_the_replicas_of_a_random_run(self) -> None:
        for count, first, last in ((1, "a", "a"), (26, "a", "z"), (27, "r00", "r26"), (64, "r00", "r63")):
            names = set()

            def make(name: Any) -> Any:
                names.add(name)
                return mock.Mock(spec=["increment", "decrement", "receive", "read"], read=lambda: 0)

            with self.subTest(count=count):
                self.assertEqual(check_random(make, "counter", count, 0, 1), 1)
                self.assertEqual((len(names), min(names), max(names)), (count, first, last))


if __name__ == "__main__":
    unittest.main()
