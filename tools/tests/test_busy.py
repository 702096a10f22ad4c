"""What is told of runs beside busy loops, and that the loops end."""
import unittest

from bench.busy import (
    Best, cells_of, is_one_text, is_soon, loops, met, short_aim, short_took)


def best(wall, processor=None):
    """A program with these times."""
    made = Best("1 x 1", [])
    made.wall, made.processor = wall, processor
    return made


class Busy(unittest.TestCase):
    """Times beside busy loops."""

    def test_loops_run_and_end(self):
        with loops(2) as begun:
            self.assertEqual([it.poll() for it in begun], [None, None])
        self.assertTrue(all(it.poll() is not None for it in begun))

    def test_loops_end_where_a_run_fails(self):
        with self.assertRaises(ValueError):
            with loops(1) as begun:
                raise ValueError
        self.assertIsNotNone(begun[0].poll())

    def test_times_beside_another(self):
        self.assertEqual(cells_of(best(4.5, 2.0), best(1.5)), ["1 x 1", "4.50", "3.0", "2.00"])
        self.assertEqual(cells_of(best(None), best(1.5))[1], "over")

    def test_an_aim_is_met_up_to_its_bound(self):
        self.assertTrue(met(best(4.5), best(1.5), 3))
        self.assertFalse(met(best(4.6), best(1.5), 3))
        self.assertFalse(met(best(None), best(1.5), 3))

    def test_the_short_list_is_told_of_with_its_postings(self):
        self.assertEqual(short_took(best(0.5, 0.25), 8896),
                         "4,000 usage lines of 500 works and 50 parties, 8,896 postings, 3 nodes: "
                         "1 x 1 took 0.50 s, and 0.25 s of processor time.")
        self.assertTrue(short_took(best(None), 8896).endswith("1 x 1 took too long and was ended."))
        self.assertEqual(short_aim(8896),
                         "1 x 4 with 3 nodes takes at most 5 s for 8,896 postings")

    def test_the_short_list_may_take_five_seconds(self):
        self.assertEqual([is_soon(best(wall)) for wall in (5.0, 5.1, None)], [True, False, False])

    def test_statements_are_those_of_the_runs_that_ended(self):
        ours, theirs, none = best(1.5), best(1.5), best(None)
        ours.digest, theirs.digest = "a", "a"
        self.assertTrue(is_one_text([ours, theirs, none]))
        theirs.digest = "b"
        self.assertFalse(is_one_text([ours, theirs, none]))


if __name__ == "__main__":
    unittest.main()
