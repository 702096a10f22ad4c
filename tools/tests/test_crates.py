"""Tests of what crates.txt says."""
import unittest

from tools.crates import above, below, crates, crates_in

TEXT = """# The crates, lowest first: this line names none.
low:
other: low csv
middle may_wait=3: low indexmap
high tests_may=Threads+Wait: middle other  # and a remark: low
"""


class CratesInText(unittest.TestCase):
    def test_each_line_has_a_crate_and_what_it_uses(self):
        self.assertEqual(crates_in(TEXT), {
            "low": [], "other": ["low", "csv"], "middle": ["low", "indexmap"],
            "high": ["middle", "other"]})

    def test_below_goes_all_the_way_down_and_leaves_out_the_kit(self):
        listed = crates_in(TEXT)
        self.assertEqual(below("high", listed), {"high", "middle", "other", "low"})
        self.assertEqual(below("middle", listed), {"middle", "low"})

    def test_above_keeps_the_order_of_the_lines(self):
        listed = crates_in(TEXT)
        self.assertEqual(above("low", listed), ["low", "other", "middle", "high"])
        self.assertEqual(above("middle", listed), ["middle", "high"])

    def test_each_crate_of_the_repository_is_listed_below_those_that_stand_on_it(self):
        listed = crates()
        places = {name: place for place, name in enumerate(listed)}
        program = below("royalty_run", listed)
        self.assertIn("line_split", program)
        self.assertTrue(all(places[it] <= places["royalty_run"] for it in program))


if __name__ == "__main__":
    unittest.main()
