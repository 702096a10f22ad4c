"""What `make prove` takes of a machine, and what it tells of the time."""
import unittest

from tools.prove import command, part_of, table


class Command(unittest.TestCase):
    """By which words a kit proves all."""

    def test_a_kit_that_keeps_what_passed_is_told_to_prove_anew(self):
        self.assertEqual(command(True, True), ["rt", "ci", "--anew"])
        self.assertEqual(command(False, True), ["rt", "ci"])

    def test_a_kit_that_keeps_nothing_has_no_such_word(self):
        self.assertEqual(command(True, False), ["rt", "ci"])


class Parts(unittest.TestCase):
    """What a command works for."""

    def test_each_part(self):
        check = ["/kit/bin/rattle", "check", "--crate-name", "line_split", "src/lib.rt"]
        self.assertEqual(part_of(check), ("proofs", "line_split"))
        self.assertEqual(part_of([*check, "--test"]), ("tests", "line_split"))
        edit = [*check, "--incremental", "rt-edits-7-x/seed"]
        self.assertEqual(part_of(edit), ("edits", "line_split"))
        self.assertEqual(part_of(["/kit/toolchain/bin/clang", "-O3"]), ("builds", "all"))

    def test_other_programs_are_passed_over(self):
        self.assertIsNone(part_of(["python3", "rt", "ci", "--crate-name", "x"]))
        self.assertIsNone(part_of([""]))


class Table(unittest.TestCase):
    """The table of times."""

    def test_the_longest_first_and_the_sums_last(self):
        none = {"proofs": 0.0, "tests": 0.0, "edits": 0.0, "builds": 0.0}
        large = {**none, "proofs": 90.0, "edits": 90.0}
        lines = table({"small": {**none, "proofs": 60.0}, "large": large})
        self.assertEqual([line.split()[0] for line in lines], ["crate", "large", "small", "in"])
        self.assertEqual(lines[-1].split()[2:], ["2.5", "0.0", "1.5", "0.0", "4.0"])


if __name__ == "__main__":
    unittest.main()
