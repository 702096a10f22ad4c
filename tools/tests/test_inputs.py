"""Tests of the made-up inputs: the same seed gives the same bytes, and limits are honoured."""
import csv
import hashlib
import random
import tempfile
import unittest

from bench import fuzz
from tools import large_inputs, made_up, small_inputs, spoilt
from tools.running import NAMES


def generated(*words, **more):
    """The files that the large generator makes of its arguments."""
    with tempfile.TemporaryDirectory() as folder:
        large_inputs.generate(folder, *words, **more)
        return made_up.files_in(folder)


def digest(files):
    """The beginning of a sum of files."""
    total = hashlib.sha256(b"".join(b"%d:%b" % (len(it), it) for it in files))
    return total.hexdigest()[:16]


class Kept(unittest.TestCase):
    """A case is known by its number, and times are compared over the same data: so the bytes that
    a seed gives stay as they are. Whoever changes a generator changes these sums with it."""

    def test_large_files_are_those_of_before(self):
        self.assertEqual(digest(generated(300, 40, 20, 1)), "5ff60038bd47d558")
        self.assertEqual(digest(generated(300, 40, 20, 1, taken_back=0.5)), "2eb205be131b228b")

    def test_cases_are_those_of_before(self):
        with tempfile.TemporaryDirectory() as folder:
            compared = [it for n in range(12) for it in made_up.case(random.Random(n), folder)]
            fuzzed = [it for n in range(30) for it in fuzz.case(1, n, folder)[0]]
        self.assertEqual((digest(compared), digest(fuzzed)),
                         ("e994384799a0574c", "4a0cd184d514e7b0"))

    def test_spoilt_files_are_those_of_before(self):
        files = []
        for n in range(12):
            made = dict(zip(NAMES, made_up.small(random.Random(n))))
            files += spoilt.all_spoilt(random.Random(n), made).values()
        self.assertEqual(digest(files), "1a50a0179f02b4a9")


class Small(unittest.TestCase):
    def test_a_seed_gives_one_case(self):
        for seed in range(12):
            first, second, other = (made_up.small(random.Random(it)) for it in (seed, seed, ~seed))
            self.assertEqual(first, second)
            self.assertNotEqual(first, other)

    def test_groups_stand_before_the_territories_within_them(self):
        for seed in range(50):
            known = set()
            for row in small_inputs.territories(random.Random(seed)).split("\n")[1:]:
                code, _, groups = row.partition(",")
                self.assertLessEqual({int(it) for it in groups.split()}, known)
                known |= {int(code)} if code else set()

    def test_a_share_line_has_its_fields_in_their_places(self):
        for kind, shares, length in (("SPT", 34, 54), ("SWT", 28, 48)):
            line = small_inputs.share_line(random.Random(3), kind)
            self.assertEqual(len(line), length)
            self.assertRegex(line[shares:shares + 15], r"^(?:\d{5}| {5}){3}$")
            self.assertIn(line[shares + 15], "IE ")
            self.assertTrue(line[shares + 16:].isdigit())

    def test_payees_read_back_as_the_names_that_were_asked_for(self):
        rows = list(csv.reader(small_inputs.payees(random.Random(5)).split("\n")))
        known = {*small_inputs.PARTIES, "Z", "Z Y", 'Q"', "N" * 64, "0"}
        self.assertEqual(rows[0], ["party", "payee"])
        self.assertGreater(len(rows), 1)
        self.assertTrue(all(name.strip() in known for row in rows[1:] for name in row))

    def test_some_line_is_the_reversal_of_the_one_before(self):
        reversals = 0
        for seed in range(50):
            rows = [row.rsplit(",", 1) for row in
                    small_inputs.usage(random.Random(seed)).strip("\n").split("\n")[1:]]
            pairs = zip(rows, rows[1:])
            reversals += sum(a[0] == b[0] and a[1].lstrip("-") == b[1].lstrip("-")
                             and a[1] != b[1] for a, b in pairs)
        self.assertGreater(reversals, 5)


class Large(unittest.TestCase):
    def test_the_same_arguments_give_the_same_bytes(self):
        for seed in range(6):
            words = (300, 40 + seed, 20, seed)
            self.assertEqual(generated(*words), generated(*words))
        self.assertNotEqual(generated(300, 40, 20, 1), generated(300, 40, 20, 2))

    def test_there_are_as_many_lines_works_and_parties_as_asked_for(self):
        _, works, usage = generated(1234, 70, 50, 9)
        registered = [line for line in works.split(b"\r\n") if line[:3] == b"NWR"]
        self.assertEqual(usage.count(b"\n"), 1235)
        self.assertEqual(len({line[81:95] for line in registered}), 70)
        self.assertEqual(len(made_up.parties_of(works)), 50)

    def test_counts_beyond_the_limits_are_refused(self):
        for words in ((0, 1, 2, 1), (1, 0, 2, 1), (1, 1, 1, 1), (20_000_001, 1, 2, 1),
                      (1, 20_001, 2, 1), (1, 1, 16_384, 1)):
            with self.assertRaises(ValueError):
                generated(*words)

    def test_amounts_are_taken_back_as_often_as_asked_for(self):
        for part, least, most in ((0.0, 0, 0), (0.5, 400, 600)):
            usage = generated(1000, 20, 10, 4, taken_back=part)[2]
            self.assertTrue(least <= usage.count(b",-") <= most, usage.count(b",-"))

    def test_parts_add_up_and_are_positive(self):
        for seed in range(200):
            rng = random.Random(seed)
            total, count = rng.randint(4, 12_000), rng.randint(1, 4)
            found = large_inputs.parts(rng, total, count)
            self.assertEqual((len(found), sum(found)), (count, total))
            self.assertGreater(min(found), 0)

    def test_a_work_has_the_forced_party_and_two_to_six_lines(self):
        for seed in range(100):
            rng = random.Random(seed)
            _, lands = large_inputs.make_territories(rng)
            work = large_inputs.make_work(rng, lands, lambda: rng.choice("ABC"), "FORCED")
            self.assertEqual(work[0][0][0], "FORCED")
            self.assertTrue(2 <= sum(map(len, work)) <= 6)


class Cases(unittest.TestCase):
    def test_a_case_has_the_three_files_and_at_times_payees(self):
        counts = set()
        with tempfile.TemporaryDirectory() as folder:
            for seed in range(12):
                first = made_up.case(random.Random(seed), folder)
                self.assertEqual(first, made_up.case(random.Random(seed), folder))
                counts.add(len(first))
        self.assertEqual(counts, {3, len(NAMES)})

    def test_the_example_is_that_of_the_repository(self):
        self.assertEqual([it.split(b"\n")[0][:11] for it in made_up.example()],
                         [b"code,groups", b"HDRPB000000", b"usage,work,"])

    def test_parties_are_those_of_share_lines_alone(self):
        data = b"SPU" + b"0" * 16 + b"X" * 9 + b"\nSPT" + b"0" * 16 + b"B        \n"
        data += b"SWT" + b"0" * 16 + b"A        \nSWT" + b"0" * 16 + b" " * 9
        self.assertEqual(made_up.parties_of(data), [b"A", b"B"])


if __name__ == "__main__":
    unittest.main()
