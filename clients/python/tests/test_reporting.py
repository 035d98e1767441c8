"""The advice of docs/howto/instrument_a_library.md, as tests."""
import unittest

from yehatu import NotLinearizable, Recorder


class Reporting(unittest.TestCase):
    def test_a_state_in_transit_carries_what_its_sender_had_seen(self) -> None:
        with Recorder("lwwset", ["ann", "bob", "carol"]) as recorder:
            recorder.add("ann", "milk", 1)
            state = recorder.seen("ann")
            recorder.remove("ann", "milk", 2)
            recorder.merge("bob", state)
            recorder.read("bob", ["milk"])
            recorder.merge("carol", recorder.seen("ann"))
            recorder.read("carol", [])

    def test_a_tombstone_is_an_anchor(self) -> None:
        with Recorder("rga", ["ann", "bob"]) as recorder:
            recorder.insert_after("ann", None, "a", 1, message=1)
            recorder.deliver("bob", 1)
            recorder.remove("ann", "a")
            recorder.insert_after("bob", "a", "b", 2, message=2)
            recorder.deliver("ann", 2)
            recorder.read("ann", ["b"])

    def test_a_move_is_a_removal_and_a_new_element(self) -> None:
        with Recorder("rga", ["ann", "bob"]) as recorder:
            recorder.insert_after("ann", None, ("a", 0), 1, message=1)
            recorder.insert_after("ann", ("a", 0), ("b", 0), 2, message=2)
            with recorder.step():
                recorder.remove("ann", ("a", 0), message=3)
                recorder.insert_after("ann", ("b", 0), ("a", 1), 3, message=4)
            recorder.merge("bob", [1, 2, 3, 4])
            recorder.read("bob", [("b", 0), ("a", 1)])

    def test_a_removed_element_cannot_be_inserted_again(self) -> None:
        recorder = Recorder("rga", ["ann"], window=1)
        recorder.insert_after("ann", None, "a", 1)
        recorder.remove("ann", "a")
        with self.assertRaises(NotLinearizable) as caught:
            recorder.insert_after("ann", None, "a", 2)
        self.assertEqual(caught.exception.cause, "update")
        recorder.stop()

    def test_half_a_transaction_is_not_detected(self) -> None:
        with Recorder("lwwset", ["ann", "bob"]) as recorder:
            with recorder.step():
                recorder.add("ann", "x", 1, message=1)
                recorder.add("ann", "y", 2, message=2)
            recorder.deliver("bob", 1)
            recorder.read("bob", ["x"])

    def test_a_text_is_a_list_of_unique_characters(self) -> None:
        with Recorder("rga", ["ann"]) as recorder:
            word = [("b", 1), ("o", 2), ("o", 3)]
            for clock, (anchor, letter) in enumerate(zip([None, *word], word), 1):
                recorder.insert_after("ann", anchor, letter, clock)
            recorder.read("ann", word)

    def test_a_backup_under_the_old_name_is_a_violation(self) -> None:
        recorder = Recorder("register", ["ann"], window=1)
        recorder.write("ann", 1, 1)
        recorder.write("ann", 2, 2)
        with self.assertRaises(NotLinearizable) as caught:
            recorder.read("ann", 1)
        self.assertEqual(caught.exception.cause, "query")
        recorder.stop()

    def test_a_backup_under_a_name_of_its_own(self) -> None:
        with Recorder("register", ["ann", "bob", "ann again"]) as recorder:
            recorder.write("ann", 1, 1, message=1)
            backup = recorder.seen("ann")
            recorder.write("ann", 2, 2, message=2)
            recorder.merge("ann again", backup)
            recorder.read("ann again", 1)
            recorder.write("ann again", 3, 2, message=3)
            recorder.merge("bob", [1, 3])
            recorder.read("bob", 3)

    def test_a_later_participant_joins(self) -> None:
        with Recorder("rga", ["ann", "bob"]) as recorder:
            recorder.insert_after("ann", None, "a", 1, message=1)
            recorder.join("carol", "ann")
            recorder.insert_after("ann", "a", "b", 2, message=2)
            recorder.read("carol", ["a"])
            recorder.insert_after("carol", "a", "c", 2, message=3)
            recorder.deliver("carol", 2)
            recorder.read("carol", ["a", "c", "b"])
            recorder.merge("bob", [1, 2, 3])
            recorder.read("bob", ["a", "c", "b"])

    def test_a_monitor_that_starts_late_receives_the_existing_state(self) -> None:
        with Recorder("counter", ["ann", "bob"]) as recorder:
            for number in range(3):
                recorder.increment("ann", message=number)
            recorder.merge("bob", range(3))
            recorder.read("bob", 3)

    def test_a_read_that_is_reported_after_the_next_delivery_is_a_violation(self) -> None:
        recorder = Recorder("counter", ["ann", "bob"], window=1)
        recorder.increment("ann", message=1)
        value = 0
        recorder.deliver("bob", 1)
        with self.assertRaises(NotLinearizable):
            recorder.read("bob", value)
        recorder.stop()


if __name__ == "__main__":
    unittest.main()
