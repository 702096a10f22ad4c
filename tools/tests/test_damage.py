"""Tests of the accidents to files."""
import random
import unittest

from tools import damage, spoilt

LINES = b"usage,work,territory,right,amount\nu1,W1,276,P,100\nu2,W2,840,M,-7\n"
SHARE = b"SPT" + b"0" * 16 + b"A        " + b" " * 6 + b"050001000010000I2136"


class Damage(unittest.TestCase):
    def test_a_seed_gives_one_accident_and_the_file_stays_as_it_was(self):
        data = bytes(LINES)
        for accident in (damage.in_bytes, damage.in_lines, damage.in_fields):
            for seed in range(40):
                first, second = (accident(random.Random(seed), data, [data]) for _ in range(2))
                self.assertEqual(first, second)
                self.assertIsInstance(first, bytes)
        self.assertEqual(data, LINES)

    def test_most_accidents_change_something(self):
        changed = sum(damage.damaged(random.Random(it), LINES) != LINES for it in range(100))
        self.assertGreater(changed, 90)

    def test_an_empty_file_can_be_damaged(self):
        for seed in range(60):
            rng = random.Random(seed)
            for accident in (damage.in_bytes, damage.in_lines, damage.in_fields):
                self.assertIsInstance(accident(rng, b"", [b"", LINES]), bytes)

    def test_a_column_changes_between_its_bounds_alone(self):
        columns = damage.COLUMNS[b"SPT"]
        for seed in range(60):
            line = damage.in_column(random.Random(seed), SHARE, columns)
            others = [SHARE[start:end] for start, end in columns]
            changed = []
            for start, end in columns:
                new = line[start:len(line) - len(SHARE) + end]
                wrong = damage.VALUES.get(end - start, [b"", b" ", b"0", b"\x80"])
                if line == SHARE[:start] + new + SHARE[end:] and new in wrong + others:
                    changed.append(new)
            self.assertTrue(changed, line)

    def test_columns_follow_one_another(self):
        for columns in damage.COLUMNS.values():
            self.assertTrue(all(a[1] == b[0] for a, b in zip(columns, columns[1:])))


class Spoilt(unittest.TestCase):
    FILES = {"tis": b"code,groups\n2136,\n276,2136\n", "cwr": b"NWR" + b"0" * 92 + b"\n" + SHARE,
             "usage": LINES, "payees": b"party,payee\nA,B\n"}

    def test_a_seed_gives_one_set_of_files_and_keeps_those_it_was_given(self):
        files = dict(self.FILES)
        for seed in range(20):
            first, second = (spoilt.all_spoilt(random.Random(seed), files) for _ in range(2))
            self.assertEqual(first, second)
            self.assertEqual(list(first), list(files))
        self.assertEqual(files, self.FILES)

    def test_a_share_line_keeps_its_record_and_other_records_stay(self):
        for seed in range(60):
            rng = random.Random(seed)
            self.assertEqual(spoilt.spoilt_line(rng, SHARE)[:3], b"SPT")
            self.assertEqual(spoilt.spoilt_line(rng, b"HDR123"), b"HDR123")

    def test_a_filled_file_has_the_most_rows_or_a_few_more(self):
        for name, least in (("tis", 2048), ("payees", 65_536), ("cwr", 16_383)):
            data = spoilt.filled(random.Random(1), name)
            if name == "cwr":
                count = data.count(b"SWT")
            else:
                self.assertTrue(data.startswith(spoilt.HEADERS[name] + b"\n"))
                count = data.count(b"\n") - 1
            self.assertTrue(least <= count <= least + 51, (name, count))

    def test_strange_lines_are_whole_rows_behind_the_header(self):
        for seed in range(20):
            registered = spoilt.titles_in(self.FILES["cwr"])
            made = spoilt.strange(random.Random(seed), self.FILES, registered)
            rows = made["usage"].split(b"\n")
            self.assertEqual(rows[0], spoilt.HEADERS["usage"])
            self.assertTrue(rows[1].startswith(b"s0,"))
            self.assertRegex(rows[1], rb",[PMS],-?\d+$")


if __name__ == "__main__":
    unittest.main()
