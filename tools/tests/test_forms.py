"""Tests of the other forms that files are given, and of works that are claimed in part or over."""
import random
import tempfile
import unittest

from bench import compare
from tools import claimed, forms, made_up, plain
from tools.cwr_records import file_of, publisher_share, work
from tools.running import NAMES, run, words_of, written
from tools.tests.test_made_up_submitters import bytes_of

LINES = [b"HDR", b"GRHNWR0000102.20", work(b"W1"), publisher_share(b"P", 1),
         publisher_share(b"P", 1, b"E", 840), b"GRT00001", b"TRL"]
USES = b"usage,work,territory,right,amount\nu1,W1,276,P,100\nu2,W2,0840,M,-7\nu3,W1,4,S,0\n"

# A part of each line that reports have of the form of files and of what a run makes of them.
TOLD = ["line ends are CR alone", "record types that CWR 2.2 does not have", "byte beyond ASCII",
        "GRT says no number of transactions", "GRT says no number of records",
        " transactions, and its group has", " records, and its group has",
        "TRL says no number of groups", "TRL says no number of transactions",
        "TRL says no number of records", " groups, and the file has",
        " transactions, and the file has", " records, and the file has",
        "further control counts that differ", "its last record is no TRL", "a quote opens in it",
        "rows that are the same as an earlier one", " more\n", "is not claimed in full",
        "is claimed over", "further works that are not registered",
        "further works that are not claimed in full", "further works that are claimed over",
        "further territories that are not in the table"]


class Trailers(unittest.TestCase):
    def test_counts_are_those_of_the_group_and_of_the_file(self):
        # The group has one transaction and five records, the file seven.
        self.assertEqual(forms.counted(LINES), [*LINES[:5], b"GRT000010000000100000005",
                                                b"TRL000010000000100000007"])
        lines = [b"GRH", b"HDR", b"", b"ACK", b"GRT12345X", b"GRH", b"EXC", b"TRL9"]
        self.assertEqual(forms.counted(lines), [*lines[:4], b"GRT123450000000100000004",
                                                *lines[5:7], b"TRL000010000000200000006"])

    def test_a_closed_file_keeps_its_other_lines(self):
        groups = set()
        for seed in range(40):
            made = forms.closed(random.Random(seed), LINES)
            self.assertEqual([it for it in made if it[:3] not in forms.CONTROLS], LINES[2:5])
            self.assertEqual((made, made[0][:3]), (forms.counted(made), b"HDR"))
            groups.add(forms.count(made, b"GRT"))
        self.assertEqual(groups, {1, 2, 6})

    def test_wrong_numbers_stand_in_their_fields(self):
        right = b"GRT000010000000100000005"
        changed = 0
        for seed in range(60):
            made = forms.wrong_number(random.Random(seed), right, 8, 16)
            self.assertEqual(made[:8], right[:8])
            self.assertIn(made[16:], (b"", right[16:]))
            changed += made != right
        self.assertGreater(changed, 50)


class Others(unittest.TestCase):
    def test_ways_leave_the_lines_as_they_were_and_change_most(self):
        for way in forms.WAYS:
            given, changed = list(LINES), 0
            for seed in range(40):
                made = way(random.Random(seed), given)
                self.assertEqual(made, way(random.Random(seed), given))
                changed += made != LINES
            self.assertEqual(given, LINES)
            self.assertGreater(changed, 30, way)

    def test_an_exclusion_is_cut_off(self):
        for seed in range(20):
            made = forms.cut_at_exclusion(random.Random(seed), LINES)
            self.assertEqual(made[:-1], LINES[:4])
            self.assertTrue(LINES[4].startswith(made[-1]) and made[-1] != LINES[4])

    def test_lines_that_are_put_in_are_of_unknown_types(self):
        for seed in range(20):
            made = forms.with_types(random.Random(seed), LINES)
            others = [line for line in made if line not in LINES]
            self.assertEqual([line for line in made if line in LINES], LINES)
            self.assertTrue({line[:3] for line in others} <= set(forms.TYPES) and others)

    def test_a_quote_opens_in_a_field_of_a_table(self):
        for seed in range(40):
            made = forms.with_open_quote(random.Random(seed), b"a,b\nc,d\ne,f\n")
            self.assertEqual(made.removesuffix(b'""').count(b'"'), 1)

    def test_rows_that_are_repeated_say_the_same(self):
        def meaning(line):
            usage, of, land, right, amount = line.split(b",")
            return usage.strip(b'"'), of, int(land), right, int(amount)

        known = {meaning(line) for line in USES.split(b"\n")[1:-1]}
        spellings = set()
        for seed in range(60):
            made = forms.with_repeats(random.Random(seed), USES).split(b"\n")
            rows = [line for line in made[1:] if line]
            self.assertGreater(len(rows), 3)
            self.assertEqual({meaning(line) for line in rows}, known)
            spellings |= set(rows)
        self.assertTrue({b'"u1",W1,276,P,100', b"u1,W1,0276,P,100", b"u2,W2,0840,M,-07",
                         b"u3,W1,4,S,-00"} <= spellings)

    def test_any_file_may_have_another_form(self):
        data = {"cwr": file_of(*LINES), "usage": USES, "tis": b"code,groups\n276,\n", "works": b""}
        counts = {}
        for name, given in {**data, "payees": b"", "cwr2": b""}.items():
            kind = name.rstrip("2")
            made = [forms.changed(random.Random(seed), kind, given) for seed in range(400)]
            counts[name] = sum(it != given for it in made)
        self.assertTrue(all(5 < count < 200 for count in counts.values()), counts)


class Claimed(unittest.TestCase):
    def test_a_seed_gives_one_case(self):
        for seed in range(20):
            one, two = (claimed.one_file(random.Random(seed), {"payees": b""}) for _ in range(2))
            self.assertEqual(one, two)
            self.assertEqual(set(one), set(NAMES))
            one, two = (bytes_of(claimed.several(random.Random(seed))) for _ in range(2))
            self.assertEqual(one, two)


class Told(unittest.TestCase):
    """Reports of the plain program on made-up cases have all lines that they may have."""

    CASES = 300

    def report(self, program, seed):
        """The report on a small case."""
        rng = random.Random(seed)
        files = dict(zip(NAMES, made_up.in_other_forms(rng, made_up.small(rng))))
        files = compare.changed(rng, files) or files
        with tempfile.TemporaryDirectory() as folder:
            paths = written(folder, files)
            return run(words_of(program, "check", [*zip(files, paths)]))[1]

    def test_made_up_cases_bring_all_lines_about(self):
        program, missing = plain.build(), TOLD
        for seed in range(self.CASES):
            told = self.report(program, seed) if missing else b""
            missing = [line for line in missing if line.encode() not in told]
        self.assertEqual(missing, [])


if __name__ == "__main__":
    unittest.main()
