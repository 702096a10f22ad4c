"""Tests of the model: the known numbers of states of small mailboxes, and wrong cores."""
import contextlib
import io
import random
import unittest

from model import explore


def schedules(*words):
    """The schedules that the model prints."""
    with contextlib.redirect_stdout(io.StringIO()) as printed:
        explore.vectors(*words)
    return printed.getvalue()


class Explore(unittest.TestCase):
    def tearDown(self):
        explore.WRONG, explore.ENDS, explore.LONG = None, 64, False

    def test_the_smallest_mailbox_has_its_156_states(self):
        found = explore.explore(1, 1, 1, 1)
        self.assertIn("156 states, 294 steps", found)
        self.assertTrue(found.endswith("relation holds in each"))

    def test_a_sender_goes_round_its_ring(self):
        self.assertIn("2019 states, 4621 steps", explore.explore(1, 1, 2, 3))

    def test_a_pool_with_one_end_mark_has_fewer_states(self):
        explore.ENDS = 1
        found = explore.explore(1, 2, 1, 1)
        self.assertIn("end marks 1: ", found)
        self.assertLess(int(found.partition(": ")[2].split()[0]), 5308)

    def test_it_stops_at_the_most_states(self):
        self.assertTrue(explore.explore(1, 1, 1, 1, 20).startswith("stopped at 20 states"))

    def test_each_wrong_core_is_found_out(self):
        for explore.WRONG in explore.WRONGS:
            with self.assertRaises(explore.Refused, msg=explore.WRONG):
                explore.explore(1, 1, 1, 2)

    def test_a_wrong_pool_is_found_out(self):
        for explore.WRONG in ("second_call", "ended_in_all"):
            with self.assertRaises(explore.Refused, msg=explore.WRONG):
                explore.explore(1, 2, 1, 1)

    def test_what_is_received_out_of_order_is_refused(self):
        sent = explore.Mailbox((("a", "b"),), (explore.STUB, (0, 0), (0, 1)), (), 3, ())
        self.assertEqual(list(explore.received_in_order(4, sent)), [])
        swapped = sent._replace(order=(explore.STUB, (0, 1), (0, 0)))
        self.assertIn("in_order", "".join(explore.received_in_order(4, swapped)))


class Schedules(unittest.TestCase):
    def test_a_seed_gives_one_text_of_as_many_schedules_as_asked_for(self):
        text = schedules(5, 3, 1)
        self.assertEqual(text, schedules(5, 3, 1))
        self.assertNotEqual(text, schedules(5, 4, 1))
        self.assertEqual(text.count("core "), 5)

    def test_a_pool_has_its_mailboxes_in_steps_and_heads(self):
        text = schedules(3, 7, 2)
        self.assertEqual(text.count("pool "), 3)
        self.assertEqual(text.count("\nhead "), 6)
        self.assertRegex(text, r"LoadTurn\(\d,\d+,-?\d+\) in \d moved")

    def test_steps_that_are_not_due_are_among_those_picked(self):
        core = explore.opening_pooled(1, 1, 1)
        due = [(0, it) for it in explore.steps_in(core, explore.opening_pool(1, 1), 0, 1)]
        rng = random.Random(2)
        picked = {explore.picked(rng, core, due)[1] for _ in range(200)}
        self.assertLess({it.step for _, it in due}, picked)


if __name__ == "__main__":
    unittest.main()
