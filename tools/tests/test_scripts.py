"""Tests of what the scripts of bench/ compute by themselves."""
import os
import random
import tempfile
import unittest

from bench import adjustments, bench, fuzz, mail, merges, sizes
from tools.running import NAMES
from tools.small_inputs import registrations, usage
from tools.statement_texts import MOST, read, text_of


class Merges(unittest.TestCase):
    def test_parts_have_all_lines_in_order_and_each_the_header(self):
        header, lines = b"usage,work", [b"u%d,W" % n for n in range(9)]
        counts = set()
        for seed in range(60):
            parts = merges.parts_of(random.Random(seed), b"\n".join([header, *lines, b""]))
            rows = [part.split(b"\n") for part in parts]
            self.assertTrue(all(it[0] == header and it[-1] == b"" for it in rows))
            self.assertEqual([row for it in rows for row in it[1:-1]], lines)
            counts.add(len(parts))
        self.assertEqual(counts, set(range(1, 7)))

    def test_a_text_after_an_accident_is_another_one(self):
        text = b"L,A,u1,60\nS,A,1,60\nR,,1,60\nT,,1,60\n"
        changed = sum(merges.unlike(random.Random(seed), text) != text for seed in range(100))
        self.assertGreater(changed, 80)


class Adjustments(unittest.TestCase):
    TEXT = b"L,A,u1,60\nS,A,1,60\nM,OPEN,u1,40\nT,,1,40\nR,,3,100\n"

    def test_corrected_files_have_as_many_usage_lines(self):
        changed = set()
        for seed in range(60):
            rng = random.Random(seed)
            files = {"cwr": registrations(rng).encode(), "usage": usage(rng).encode()}
            others = adjustments.corrected(rng, files)
            lines = [it["usage"].strip().count(b"\n") for it in (files, others)]
            self.assertEqual(lines[0], lines[1])
            changed |= {name for name in others if others[name] != files.get(name)}
        self.assertEqual(changed, {"cwr", "usage", "payees"})

    def test_a_share_line_has_other_shares_and_is_as_long(self):
        line = b"SWT" + b"0" * 16 + b"A        100001000010000I2136"
        others = {adjustments.other_shares(random.Random(seed), line) for seed in range(20)}
        self.assertGreater(len(others), 10)
        self.assertEqual({(it[:28], it[43:]) for it in others}, {(line[:28], line[43:])})
        self.assertEqual(adjustments.other_shares(random.Random(1), b"HDR"), b"HDR")

    def test_pairs_made_by_hand_are_of_one_list_and_of_large_amounts(self):
        largest, alone = 0, 0
        for seed in range(60):
            texts = adjustments.by_hand(random.Random(seed), "", "")
            both = [read(text) for text in texts]
            self.assertEqual([text_of(it) for it in both], texts)
            self.assertEqual(both[0].lines, both[1].lines)
            for it in both:
                self.assertEqual(list(it.payees), sorted(it.payees))
                largest = max([largest, *(sum(amount for _, amount in portions)
                                          for portions in it.payees.values())])
            alone += set(both[0].payees) != set(both[1].payees)
        self.assertGreater(largest, 5 * MOST)
        self.assertGreater(alone, 20)

    def test_a_text_of_other_lines_differs_in_these_alone(self):
        for lines in (0, 1, 2, 10**18 - 1):
            text = text_of(read(self.TEXT)._replace(lines=lines))
            for seed in range(20):
                found = read(adjustments.of_other_lines(random.Random(seed), text))
                self.assertNotEqual(found.lines, lines)
                self.assertTrue(0 <= found.lines <= 10**18)
                self.assertEqual(text_of(found._replace(lines=lines)), text)

    def test_a_spoilt_pair_has_another_text(self):
        pairs = [adjustments.spoilt(random.Random(seed), [self.TEXT] * 2) for seed in range(60)]
        self.assertGreater(sum(pair != [self.TEXT] * 2 for pair in pairs), 45)
        self.assertLessEqual({(True, False), (False, True), (False, False)},
                             {tuple(text == self.TEXT for text in pair) for pair in pairs})


class Fuzz(unittest.TestCase):
    def test_a_number_gives_one_case_whatever_was_made_before(self):
        with tempfile.TemporaryDirectory() as folder, tempfile.TemporaryDirectory() as other:
            made = [fuzz.case(1, number, folder) for number in range(40)]
            self.assertEqual(made[33], fuzz.case(1, 33, other))
            self.assertNotEqual(made[33], fuzz.case(2, 33, other))
        self.assertEqual({len(files) for files, _ in made}, {3, len(NAMES)})
        for _, (workers, readers, nodes) in made:
            self.assertTrue(1 <= workers <= 8 and 1 <= readers <= 8 and 1 <= nodes <= 64)

    def test_payees_are_quoted_and_of_parties_of_the_file(self):
        line = b"SPT" + b"0" * 16 + b'E,"      \n'
        tables = {fuzz.payees_of(random.Random(seed), line) for seed in range(30)}
        self.assertTrue(all(it.startswith(b"party,payee\n") for it in tables))
        self.assertTrue(any(b'"E,"""' in it for it in tables))


class Sizes(unittest.TestCase):
    def test_a_file_is_filled_up_to_its_room_and_no_further(self):
        self.assertEqual(sizes.filled(b"ab", lambda n: b"%03d" % n, 9), b"ab000001")
        self.assertEqual([len(sizes.filled(b"ab", lambda n: b"%03d" % n, most))
                          for most in (10, 11, 12)], [8, 11, 11])

    def test_territories_each_stand_within_the_one_before(self):
        rows = sizes.tis(4).split(b"\n")
        self.assertEqual(rows, [b"code,groups", b"2136,", b"1,2136", b"2,1", b"3,2", b""])

    def test_parties_are_as_many_as_asked_for_and_256_a_work(self):
        data = sizes.parties(600)
        self.assertEqual((data.count(b"SPT"), data.count(b"NWR")), (600, 3))
        works = data.split(b"NWR")[1:]
        self.assertEqual([it.count(b"SPT") for it in works], [256, 256, 88])

    def test_payees_have_names_of_the_width_behind_the_first_two(self):
        rows = sizes.payees(4, 12).split(b"\n")[1:-1]
        self.assertEqual([it.split(b",")[0] for it in rows[:2]], [b"P0", b"P1"])
        self.assertEqual({len(it.split(b",")[0]) for it in rows[2:]}, {12})

    def test_a_work_number_stands_in_its_columns(self):
        self.assertEqual(sizes.nwr(b"W1")[81:], b"W1\n")


class Bench(unittest.TestCase):
    def test_postings_are_counted_with_those_to_the_residue(self):
        with tempfile.TemporaryDirectory() as folder:
            path = os.path.join(folder, "out")
            with open(path, "wb") as file:
                file.write(b"L,A,u1,6\nS,A,1,6\nM,OPEN,u1,4\nR,,1,4\nT,,2,10\n")
            self.assertEqual(bench.postings_in(path), 2)

    def test_times_are_those_of_the_best_runs_with_the_median_of_pairs(self):
        ours, theirs = bench.Row("ours", []), bench.Row("theirs", [])
        ours.walls, theirs.walls = [3.0, 2.0, 4.0], [1.0, 2.0, 2.0]
        ours.wall, theirs.wall = 2.0, 1.0
        self.assertEqual(bench.times(ours, theirs),
                         "2.00 times the time (median of the repeats 2.00)")

    def test_a_row_of_the_table_is_markdown(self):
        self.assertEqual(bench.row_of(["1 x 1", "0.50"]), "| 1 x 1 | 0.50 |")

    def test_a_plan_has_the_times_of_both_and_what_their_processors_took(self):
        ours, pool = bench.Row("ours", []), bench.Row("pool", [])
        ours.wall, ours.processor, ours.memory = 3.0, 4.5, 113.4
        pool.wall, pool.processor = 2.0, 3.25
        cells = bench.cells_of(ours, pool)
        self.assertEqual(cells, ["3.00", "2.00", "1.50", "4.50, 3.25", "113"])
        self.assertEqual(bench.cells_alone(ours), ["3.00", "", "", "4.50", "113"])
        self.assertEqual(len(bench.heads_of(16_000)), len(cells))
        self.assertEqual(len(bench.cells_alone(ours)), len(cells))

    def test_a_plan_stands_in_its_options(self):
        self.assertEqual(bench.with_plan(["run"], 4, 2, 64), [
            "run", "--workers", "4", "--readers", "2", "--nodes", "64"])

    def test_senders_are_the_first_number_of_a_line(self):
        self.assertEqual(mail.senders_of("2 64"), 2)
        self.assertEqual(mail.senders_of("pool 1 2 400 64"), 1)


if __name__ == "__main__":
    unittest.main()
