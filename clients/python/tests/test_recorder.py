"""Reports in the user's own names."""
import re
import subprocess
import threading
import unittest
from typing import Any, Dict, List

from yehatu import NotRepresentable, MonitorExited, NotLinearizable, Recorder, Refused, program, write

NOW = 1_764_076_489_000  # A clock of milliseconds since 1970.


def lines(recorder: Recorder) -> str:
    """Returns the commands that were reported."""
    return recorder.history().split("\n", 2)[2]


class Names(unittest.TestCase):
    def test_replicas_and_values_have_any_names(self) -> None:
        with Recorder("register", ["Ann's phone", 7, ("a", "pair")]) as recorder:
            recorder.write("Ann's phone", "milk", (1, "Ann's phone"), message=("m", 1))
            recorder.deliver(7, ("m", 1))
            recorder.read(7, "milk")
            recorder.read(("a", "pair"), None)
        self.assertEqual(recorder.history(), (
            "RAH 2 register\nreplicas r0 r1 r2\nr0 write 1 @1\nr1 got 0\nr1 read 1\nr2 read none\n"
        ))

    def test_valid_names_are_kept(self) -> None:
        with Recorder("counter", ["r1", "Bob", "ann", "verdict"]) as recorder:
            pass
        self.assertIn("replicas r1 r0 ann r2\n", recorder.history())

    def test_a_list_is_read_back_in_its_order(self) -> None:
        with Recorder("rga", ["ann", "bob"]) as recorder:
            recorder.insert_after("ann", None, "h", (1, "ann"), message=1)
            recorder.insert_after("ann", "h", "i", 2, message=2)
            recorder.merge("bob", [2, 1])
            recorder.remove("bob", "h")
            recorder.read("bob", ["i"])
        self.assertEqual(lines(recorder), (
            "ann after 0 1 @1\nann after 1 2 @2\nbob got 0\nbob got 1\nbob remove 1\nbob read 2\n"
        ))

    def test_a_set_may_be_read_in_any_order(self) -> None:
        with Recorder("lwwset", ["a"]) as recorder:
            for clock, element in enumerate(("x", "y", "z"), 1):
                recorder.add("a", element, clock)
            recorder.remove("a", "y", 4)
            recorder.read("a", {"z", "x"})
        self.assertIn("a read 1,3\n", recorder.history())

    def test_a_value_that_is_not_hashable_is_rejected(self) -> None:
        with self.assertRaises(NotRepresentable), Recorder("register", ["a"]) as recorder:
            with self.assertRaisesRegex(NotRepresentable, "as a value: expected .* a key of a dictionary"):
                recorder.write("a", ["a", "list"], 1)
            with self.assertRaisesRegex(NotRepresentable, "as a value: expected .* a key of a dictionary"):
                recorder.read("a", None)

    def test_the_value_of_an_unwritten_register_can_be_chosen(self) -> None:
        with Recorder("register", ["a"], nothing=0) as recorder:
            recorder.read("a", 0)
            recorder.write("a", None, 1)
            recorder.read("a", None)
        recorder = Recorder("register", ["a"])
        with self.assertRaisesRegex(NotRepresentable, "pass another `nothing`"):
            recorder.write("a", None, 1)
        recorder.stop()


class Clocks(unittest.TestCase):
    def test_large_clocks_are_counted_from_the_first_one(self) -> None:
        with Recorder("register", ["a", "b"]) as recorder:
            recorder.write("a", 1, (NOW, "a"), message=1)
            recorder.write("b", 2, (NOW - 5, "b"), message=2)
            recorder.deliver("b", 1)
            recorder.read("b", 1)
        self.assertIn("write 1 @268435456\n", recorder.history())

    def test_a_read_that_returns_no_list_is_rejected(self) -> None:
        for kind in ("lwwset", "orset", "rga"):
            recorder = Recorder(kind, ["a", "b"])
            with self.subTest(kind=kind), self.assertRaisesRegex(NotRepresentable, "returned None: expected a list"):
                recorder.read("a", None)
            recorder.stop()

    def test_clocks_that_cannot_be_represented_are_rejected(self) -> None:
        for clocks, message in [
            ([NOW, NOW - (1 << 28)], "too early"),
            ([NOW, NOW + (1 << 32)], "too late"),
            ([1, 1 << 32], "too late"),
            ([0], "too early"),
            ([1.5], "not a whole number"),
            ([True], "not a whole number"),
            ([(1, "b")], "names another replica: expected 'a'"),
            ([None], "the stamp is missing"),
        ]:
            recorder = Recorder("register", ["a", "b"])
            with self.subTest(message=message), self.assertRaisesRegex(NotRepresentable, message):
                for number, clock in enumerate(clocks):
                    recorder.write("a", number, clock)
            recorder.stop()


class Steps(unittest.TestCase):
    def test_what_is_known_only_after_the_act_is_a_function(self) -> None:
        with Recorder("register", ["a", "b"]) as recorder:
            sent = recorder.update(
                "a",
                lambda sent: write(sent["value"], sent["stamp"]),
                act=lambda: {"value": 3, "stamp": (9, "a"), "id": "m"},
                message=lambda sent: sent["id"],
            )
            recorder.write("a", 4, lambda clock: clock, act=lambda: 10)
            recorder.deliver("b", lambda sent: sent["id"], act=lambda: sent)
            self.assertEqual(recorder.read("b", lambda: 3), 3)

    def test_an_act_that_fails_is_not_reported(self) -> None:
        with Recorder("counter", ["a"]) as recorder:
            with self.assertRaises(ZeroDivisionError):
                recorder.increment("a", act=lambda: 1 // 0)
            recorder.read("a", 0)

    def test_repeated_deliveries_and_own_messages_are_not_reported(self) -> None:
        with Recorder("counter", ["a", "b"]) as recorder:
            recorder.increment("a", message=1)
            for replica in ("a", "b", "b"):
                recorder.deliver(replica, 1)
        self.assertEqual(lines(recorder), "a inc\nb got 0\n")

    def test_a_delivery_of_an_unknown_message_is_rejected(self) -> None:
        with self.assertRaisesRegex(NotRepresentable, "message 5; none"), Recorder("counter", ["a"]) as recorder:
            recorder.deliver("a", 5)

    def test_an_operation_of_another_kind_is_rejected(self) -> None:
        message = "write is not an operation of the kind counter: expected increment or decrement"
        with self.assertRaisesRegex(NotRepresentable, message), Recorder("counter", ["a"]) as recorder:
            recorder.write("a", 5, 1)

    def test_a_kind_that_does_not_exist_is_rejected(self) -> None:
        with self.assertRaisesRegex(NotRepresentable, "unknown kind 'map': expected counter, "):
            Recorder("map", ["a"])

    def test_a_merge_delivers_what_the_sender_had_seen_at_that_moment(self) -> None:
        with Recorder("counter", ["a", "b", "c"]) as recorder:
            recorder.increment("a")
            recorder.merge("b", recorder.seen("a"))
            recorder.decrement("b")
            state = recorder.seen("b")
            recorder.increment("b")
            recorder.merge("c", state)
            recorder.read("c", 0)

    def test_identifiers_that_the_type_does_not_expose(self) -> None:
        with Recorder("orset", ["a", "b"]) as recorder:
            recorder.add("a", "milk", message=1)
            recorder.deliver("b", 1)
            recorder.add("b", "milk", message=2)
            recorder.remove("a", "milk", message=3)
            recorder.deliver("b", 3)
            recorder.deliver("a", 2)
            recorder.read("a", ["milk"])
            recorder.read("b", ["milk"])
        self.assertIn("a remove 1 #1\n", recorder.history())

    def test_identifiers_that_the_type_exposes(self) -> None:
        recorder = Recorder("orset", ["a"], window=1)
        recorder.add("a", "milk", identifier=("a", 1))
        recorder.add("a", "milk", identifier=("a", 2))
        with self.assertRaisesRegex(NotLinearizable, r"'a' removes 'milk' under \('a', 2\)"):
            recorder.remove("a", "milk", identifiers=[("a", 2)])
        recorder.stop()

    def test_many_callers_with_a_replica_each(self) -> None:
        names = ["a", "b", "c", "d"]
        counters = dict.fromkeys(names, 0)
        inboxes: Dict[str, List[Any]] = {name: [] for name in names}

        def work(recorder: Recorder, name: str) -> None:
            for number in range(100):
                with recorder.step():
                    counters[name] += 1
                    recorder.increment(name, message=(name, number))
                    for inbox in inboxes.values():
                        inbox.append((name, number))
                with recorder.step():
                    counters[name] += inboxes[name][0][0] != name
                    recorder.deliver(name, inboxes[name].pop(0))
                recorder.read(name, lambda: counters[name])

        with Recorder("counter", names) as recorder:
            threads = [threading.Thread(target=work, args=(recorder, name)) for name in names]
            for thread in threads:
                thread.start()
            for thread in threads:
                thread.join()
        self.assertEqual(recorder.close().verdict, "yes")
        self.assertEqual(recorder.close().refused, 0)


class Joins(unittest.TestCase):
    def test_a_joining_replica_has_the_updates_of_its_source(self) -> None:
        with Recorder("counter", ["Ann", "bob"]) as recorder:
            recorder.increment("Ann", message=1)
            recorder.deliver("bob", 1)
            recorder.increment("Ann", message=2)
            early = recorder.seen("bob")
            self.assertEqual(recorder.join("Carol", "bob", act=lambda: "a copy"), "a copy")
            recorder.read("Carol", 1)
            recorder.deliver("Carol", 1)
            recorder.merge("Carol", early)
            recorder.increment("Carol", message=3)
            recorder.merge("Ann", recorder.seen("Carol"))
            recorder.join(("a", "pair"), "Ann")
            recorder.deliver(("a", "pair"), 2)
            recorder.read(("a", "pair"), 3)
            recorder.deliver("Carol", 2)
            recorder.read("Carol", 3)
        self.assertEqual(recorder.history(), (
            "RAH 2 counter\nreplicas r0 bob\nr0 inc\nbob got 0\nr0 inc\njoin r1 bob\nr1 read 1\nr1 inc\nr0 got 3\n"
            "join r2 r0\nr2 read 3\nr1 got 1\nr1 read 3\n"
        ))

    def test_a_valid_name_is_kept_if_it_is_free(self) -> None:
        with Recorder("counter", ["Ann"]) as recorder:
            recorder.join("carol", "Ann")
            recorder.join("r0", "carol")
        self.assertEqual(lines(recorder), "join carol r0\njoin r1 carol\n")

    def test_a_joining_replica_has_a_copy_of_the_identifiers_of_its_source(self) -> None:
        for element in ("milk", 7, ("a", "pair")):
            with self.subTest(element=element), Recorder("orset", ["a"], window=1) as recorder:
                recorder.add("a", element)
                recorder.join("b", "a")
                # Later additions and removals of one of them do not change the other one.
                recorder.add("a", element, message=2)
                recorder.remove("b", element, message=3)
                recorder.deliver("a", 3)
                recorder.read("a", [element])
                recorder.join("c", "a")
                recorder.remove("a", element, message=4)
                recorder.read("c", [element])
                recorder.remove("c", element)
                recorder.deliver("b", 2)
                recorder.read("b", [element])
                removals = re.findall("[abc] remove.*", recorder.history())
                self.assertEqual(removals, ["b remove 1 #1", "a remove 1 #2", "c remove 1 #2"])

    def test_at_equal_clocks_the_replica_that_joined_wins(self) -> None:
        with Recorder("register", ["z"]) as recorder:
            recorder.join("a", "z")
            recorder.write("a", 1, (1, "a"), message=1)
            recorder.write("z", 2, (1, "z"))
            recorder.deliver("z", 1)
            recorder.read("z", 1)

    def test_at_most_sixty_four_replicas_take_part(self) -> None:
        with Recorder("counter", range(63)) as recorder:
            recorder.increment(0, message=1)
            recorder.join(63, 0)
            recorder.read(63, 1)
            recorder.read(62, 0)
        with self.assertRaisesRegex(NotRepresentable, "1 to 64 replicas"):
            Recorder("counter", range(65))
        with Recorder("counter", range(64)) as recorder:
            with self.assertRaisesRegex(NotRepresentable, "64 cannot join: the history has 64 replicas"):
                recorder.join(64, 0, act=self.fail)
            recorder.read(63, 0)

    def test_an_impossible_join_is_rejected_before_the_act_and_the_history_continues(self) -> None:
        with Recorder("counter", ["a", "b"]) as recorder:
            for new, source, message in [("a", "b", "'a' cannot join"), ("c", "d", "unknown replica 'd'")]:
                with self.subTest(message=message), self.assertRaisesRegex(NotRepresentable, message):
                    recorder.join(new, source, act=self.fail)
            recorder.join("c", "b")
            recorder.read("c", 0)
        self.assertEqual(lines(recorder), "join c b\nc read 0\n")

    def test_a_violation_after_a_join_is_reported_in_the_users_names(self) -> None:
        recorder = Recorder("counter", ["Ann", "Bob"], window=1)
        recorder.join("Carol", "Bob")
        recorder.increment("Ann", message="up")
        recorder.deliver("Bob", "up")
        with self.assertRaises(NotLinearizable) as caught:
            recorder.read("Carol", 1)
        self.assertEqual(caught.exception.operation, "'Carol' reads 1")
        self.assertRegex(str(caught.exception), r"join r2 r1 +'Carol' joins with a copy of 'Bob'\n")
        self.assertIn("'Bob' receives message 'up', label 0 ('Ann' increments)", str(caught.exception))
        recorder.stop()


class Failures(unittest.TestCase):
    def failed(self, window: int) -> NotLinearizable:
        recorder = Recorder("lwwset", ["Ann", "Bob"], window=window)
        with self.assertRaises(NotLinearizable) as caught:
            recorder.add("Ann", "milk", (NOW, "Ann"), message="m")
            recorder.deliver("Bob", "m")
            recorder.read("Bob", [])
            recorder.settle()
        with self.assertRaises(NotLinearizable):
            recorder.read("Ann", ["milk"])
        with self.assertRaises(NotLinearizable):
            recorder.close()
        return caught.exception

    def test_a_violation_is_reported_in_the_users_names_with_its_file(self) -> None:
        for window in (1, 2, 4096):
            with self.subTest(window=window):
                failed = self.failed(window)
                self.assertEqual((failed.operation, failed.cause), ("'Bob' reads []", "query"))
                self.assertIn(f"'Ann' adds 'milk' at clock {NOW}", str(failed))
                self.assertIn("'Bob' receives message 'm', label 0 ('Ann' adds 'milk'", str(failed))
                with open(failed.history or "") as text:
                    again = subprocess.run([program.find(), "check"], stdin=text, stdout=subprocess.PIPE)
                self.assertEqual((again.returncode, again.stdout[-13:]), (1, b"end no 1 query\n"[-13:]))

    @unittest.skipUnless(program.EXPLAIN_PROGRAM.is_file(), "./ra_monitor explain is not built")
    def test_a_violation_is_reported_with_the_expected_result(self) -> None:
        failed = str(self.failed(1))
        self.assertIn("\nexpected: 'Bob' reads ['milk']\n", failed)
        without = "explained if this had not been delivered: 'Bob' receives message 'm', label 0 ('Ann' adds 'milk'"
        self.assertIn(without, failed)

    @unittest.skipUnless(program.EXPLAIN_PROGRAM.is_file(), "./ra_monitor explain is not built")
    def test_a_missing_delivery_is_suggested(self) -> None:
        recorder = Recorder("counter", ["Ann", "Bob"], window=1)
        recorder.increment("Ann", message="up")
        recorder.increment("Bob")
        with self.assertRaises(NotLinearizable) as caught:
            recorder.read("Bob", 2)
        self.assertIn("\nexpected: 'Bob' reads 1\n", str(caught.exception))
        explained = "\nexplained if message 'up', label 0 ('Ann' increments) had been delivered before\n"
        self.assertIn(explained, str(caught.exception))
        recorder.stop()

    @unittest.skipUnless(program.EXPLAIN_PROGRAM.is_file(), "./ra_monitor explain is not built")
    def test_whether_another_order_explains_a_violation_is_reported(self) -> None:
        another = "another order explains what was reported: suspect a clock, a tie-break or a delivery"
        for value, row in ((7, another), (8, "no order explains what was reported, whatever the clocks are")):
            recorder = Recorder("register", ["Ann", "Bob"], window=1)
            recorder.write("Ann", 7, (1, "Ann"), message="seven")
            recorder.write("Bob", 9, (2, "Bob"))
            recorder.deliver("Bob", "seven")
            with self.assertRaises(NotLinearizable) as caught:
                recorder.read("Bob", value)
            self.assertIn(f"\nexpected: 'Bob' reads 9\n{row}\n", str(caught.exception))
            recorder.stop()

    @unittest.skipUnless(program.EXPLAIN_PROGRAM.is_file(), "./ra_monitor explain is not built")
    def test_changes_that_do_not_help_are_counted(self) -> None:
        for replicas, row in ((["Bob", "Ann"], "the one change that was tried does not explain it"),
                              (["Bob", "Ann", "Cid"], "none of the 2 changes that were tried explains it")):
            recorder = Recorder("counter", replicas, window=1)
            for replica in replicas[1:]:
                recorder.increment(replica, message=replica)
            with self.assertRaises(NotLinearizable) as caught:
                recorder.read("Bob", 5)
            self.assertIn(f"\n{row}\n", str(caught.exception))
            recorder.stop()

    def test_a_delivery_before_its_cause_is_refused(self) -> None:
        recorder = Recorder("counter", ["a", "b", "c"])
        recorder.increment("a", message=1)
        recorder.deliver("b", 1)
        recorder.increment("b", message=2)
        with self.assertRaises(Refused) as caught:
            recorder.deliver("c", 2)
            recorder.settle()
        self.assertEqual(caught.exception.cause, "not-causal 0")
        lacking = "refused, message 1, label 0 ('a' increments) has to be delivered first"
        self.assertIn(lacking, str(caught.exception))
        recorder.stop()

    def test_the_last_sixteen_lines_are_shown(self) -> None:
        for before in (14, 15, 16, 40):
            recorder = Recorder("counter", ["a"], window=1)
            for _ in range(before):
                recorder.increment("a")
            with self.subTest(before=before):
                with self.assertRaises(NotLinearizable) as caught:
                    recorder.read("a", 0)
                shown = str(caught.exception).partition("; the last lines:\n")[2].splitlines()
                self.assertEqual([it.split("  ")[2] for it in shown], [*["a inc"] * min(before, 15), "a read 0"])
            recorder.stop()

    def test_an_act_that_cannot_be_reported_ends_the_history(self) -> None:
        recorder = Recorder("register", ["a"])
        with self.assertRaises(NotRepresentable):
            recorder.write("a", 1, "noon", act=lambda: None)
        with self.assertRaises(NotRepresentable):
            recorder.read("a", 1)
        with self.assertRaises(NotRepresentable):
            recorder.close()

    def test_a_merge_is_reported_with_its_sender(self) -> None:
        recorder = Recorder("counter", ["Ann", "Bob"], window=1)
        recorder.increment("Ann", message="up")
        recorder.merge("Bob", recorder.seen("Ann"))
        recorder.merge("Bob", recorder.seen("Ann"))
        with self.assertRaises(NotLinearizable) as caught:
            recorder.read("Bob", 2)
        merges = "'Bob' merges the state of 'Ann'"
        got = "r1 got 0   'Bob' receives message 'up', label 0 ('Ann' increments)"
        self.assertRegex(str(caught.exception), f"(?s){merges}.*{re.escape(got)}.*{merges}.*'Bob' reads 2")
        recorder.stop()

    def test_a_removal_that_names_too_few_identifiers_is_explained(self) -> None:
        recorder = Recorder("orset", ["a"], window=1)
        recorder.add("a", "x", identifier=1)
        recorder.add("a", "x", identifier=2)
        with self.assertRaisesRegex(NotLinearizable, "leave the identifiers out"):
            recorder.remove("a", "x", identifiers=[2])
        recorder.stop()

    def test_a_program_that_is_not_a_monitor_is_reported(self) -> None:
        recorder = Recorder("counter", ["a"], program="cat")
        with self.assertRaises(MonitorExited):
            recorder.increment("a")
            recorder.settle()
        recorder.stop()

    def test_an_exception_in_the_block_is_raised_unchanged(self) -> None:
        with self.assertRaises(KeyError):
            with Recorder("counter", ["a"]) as recorder:
                recorder.increment("a")
                raise KeyError("the user's own")


if __name__ == "__main__":
    unittest.main()
