"""Tests of the made-up files of submitters, and of the ways in which a program is tried on them."""
import argparse
import os
import random
import tempfile
import unittest

from bench import fuzz, properties, sizes
from tools import comparing, made_up_submitters, plain, registered
from tools.cwr_records import file_of, publisher, publisher_share, work, writer
from tools.large_inputs import generate
from tools.made_up import files_in
from tools.submitters import TABLES, Submitted, table, written_options
from tools.tests.test_inputs import digest


def bytes_of(submitted):
    """All that a case has, as bytes."""
    tables = (submitted.tables.get(name, b"none") for name in TABLES)
    return [*tables, *(it for name, data in submitted.files for it in (name.encode(), data))]


class Kept(unittest.TestCase):
    """A case is known by its number, so the bytes that a seed gives stay as they are. Whoever
    changes a generator changes these sums with it."""

    def test_cases_are_those_of_before(self):
        with tempfile.TemporaryDirectory() as folder:
            made = [it for seed in range(12)
                    for it in bytes_of(made_up_submitters.case(random.Random(seed), folder))]
            damaged = [it for seed in range(12)
                       for it in bytes_of(made_up_submitters.fuzzed(random.Random(seed), folder))]
        self.assertEqual((digest(made), digest(damaged)),
                         ("3ad350eaac9ab311", "7ac483c41a45ab1b"))


class MadeUp(unittest.TestCase):
    def cases(self, count):
        """Cases, each by its seed."""
        with tempfile.TemporaryDirectory() as folder:
            return [made_up_submitters.case(random.Random(seed), folder) for seed in range(count)]

    def test_there_are_one_to_five_submitters(self):
        counts = {len(made_up_submitters.small(random.Random(seed)).files) for seed in range(60)}
        self.assertEqual(counts, {1, 2, 3, 4, 5})

    def test_half_of_the_cases_have_payees(self):
        count = sum("payees" in it.tables for it in self.cases(60))
        self.assertTrue(15 < count < 45, count)

    def test_works_are_of_several_submitters_and_some_rows_of_nothing(self):
        shared = unlinked = 0
        for seed in range(40):
            submitted = made_up_submitters.small(random.Random(seed))
            filed = {name.encode(): registered.in_force(data) for name, data in submitted.files}
            owners = {}
            for name, number, work_of in ((row[1], row[2].strip(b" "), row[0])
                                          for row in properties.rows_of(submitted.tables["works"])):
                if number in filed[name]:
                    owners.setdefault(work_of, set()).add(name)
                else:
                    unlinked += 1
            shared += any(len(it) > 1 for it in owners.values())
        self.assertTrue(shared > 10 and unlinked > 10, (shared, unlinked))

    def test_an_accident_leaves_the_case_as_it_was_and_changes_some(self):
        submitted = made_up_submitters.small(random.Random(3))
        before, changed = bytes_of(submitted), 0
        for seed in range(60):
            other = made_up_submitters.after_accident(random.Random(seed), submitted)
            changed += bytes_of(other) != before
        self.assertEqual(bytes_of(submitted), before)
        self.assertGreater(changed, 40)

    def test_a_case_is_changed_for_a_report_and_stays_as_it_was(self):
        submitted = made_up_submitters.small(random.Random(3))
        before = bytes_of(submitted)
        for change in (made_up_submitters.all_spoilt, made_up_submitters.strange_uses):
            first, second = ([bytes_of(change(random.Random(seed), submitted))
                              for seed in range(40)] for _ in range(2))
            self.assertEqual(first, second)
            self.assertGreater(sum(it != before for it in first), 30)
        self.assertEqual(bytes_of(submitted), before)

    def test_rows_are_of_other_works_of_the_table(self):
        rows = [[b"S%d" % n, b"A", b"W%d" % n, b""] for n in range(20)]
        submitted = Submitted({"works": table("works", rows)}, [])
        counts, absent = set(), 0
        for seed in range(40):
            made = made_up_submitters.relinked(random.Random(seed), submitted)
            others = properties.rows_of(made.tables["works"])
            self.assertEqual(len(others), len(rows))
            self.assertTrue({row[0] for row in others} <= {row[0] for row in rows})
            counts.add(len({row[0] for row in others}))
            absent += any(row[2].startswith(b"NONE") for row in others)
        self.assertTrue(1 in counts and max(counts) > 8 and 10 < absent < 40)

    def test_an_accident_to_a_record_stays_within_it(self):
        data = file_of(work(b"W1", b"T", b"T0345246801"), publisher(b"P", b"N", b"1" * 11),
                       publisher_share(b"P", 1), writer(b"Q", b"L", b"F", b"2" * 11))
        changed = 0
        for seed in range(60):
            other = made_up_submitters.in_records(random.Random(seed), data, [data])
            self.assertEqual([line[:3] for line in other.split(b"\n")],
                             [line[:3] for line in data.split(b"\n")])
            changed += other != data
        self.assertGreater(changed, 30)

    def test_files_of_a_cut_have_each_registration_once(self):
        with tempfile.TemporaryDirectory() as folder:
            generate(folder, 10, 120, 30, 1)
            tis, cwr, usage = files_in(folder)
        submitted = made_up_submitters.cut(tis, cwr, usage, ["S0", "S1", "S2"])
        whole, found = registered.in_force(cwr), {}
        for _, data in submitted.files:
            own = registered.in_force(data)
            self.assertTrue(30 < len(own) < 50 and not found.keys() & own.keys())
            found |= own
        self.assertEqual({number: registered.interests(lines) for number, lines in found.items()},
                         {number: registered.interests(lines) for number, lines in whole.items()})
        rows = properties.rows_of(submitted.tables["works"])
        self.assertEqual(sorted(row[0] for row in rows), sorted(whole))
        self.assertTrue(all(row[0] == row[2] for row in rows))

    def test_fuzzed_cases_are_those_of_their_number(self):
        words = argparse.Namespace(seed=1, submitters=True)
        with tempfile.TemporaryDirectory() as folder, tempfile.TemporaryDirectory() as room:
            first = [fuzz.commands(words, number, room, folder) for number in (7, 8, 7)]
        self.assertEqual(first[0], first[2])
        self.assertEqual([command for command, _ in first[0]],
                         ["run", "works", "parties", *["explain"] * 3, "check"])
        self.assertEqual({name for name, _ in first[0][1][1]}, {"cwr"})

    def test_options_name_tables_and_files(self):
        tables = {"usage": b"u", "tis": b"t", "works": b"w"}
        submitted = Submitted(tables, [("A", b"1"), ("B", b"")])
        with tempfile.TemporaryDirectory() as folder:
            options = written_options(folder, submitted, (4, 2, 64))
            self.assertEqual(options, [
                ("tis", f"{folder}/tis"), ("works", f"{folder}/works"),
                ("usage", f"{folder}/usage"), ("cwr", f"A={folder}/submitted/0.cwr"),
                ("cwr", f"B={folder}/submitted/1.cwr"), ("workers", 4), ("readers", 2),
                ("nodes", 64)])

    def test_a_field_is_quoted_where_it_has_to_be(self):
        self.assertEqual(table("works", [[b"a,b", b'"', b"c\rd", b" e"]]),
                         b'work,submitter,number,title\n"a,b","""","c\rd", e\n')


class Registered(unittest.TestCase):
    DATA = file_of(work(b"W1", b"ONE"), publisher_share(b"O", 1), work(b"W2"),
                   publisher_share(b"Q", 2), publisher(b"P"), publisher_share(b"P", 3),
                   publisher_share(b"Q", 4), b"ALT", publisher_share(b"P", 5), b"GRT",
                   publisher_share(b"X", 6), work(b"W1", b"TWO", kind=b"REV"))

    def test_registrations_in_force_stand_in_the_order_of_their_records(self):
        found = registered.in_force(self.DATA.replace(b"\n", b"\r\n"))
        self.assertEqual(list(found), [b"W2", b"W1"])
        self.assertEqual(found[b"W1"], [work(b"W1", b"TWO", kind=b"REV")])
        self.assertEqual(registered.parties(self.DATA), [b"P", b"Q"])

    def test_interests_have_their_parties(self):
        first, second = registered.interests(registered.in_force(self.DATA)[b"W2"])
        self.assertEqual({it: len(lines) for it, lines in first.items()}, {b"Q": 1})
        self.assertEqual({it: len(lines) for it, lines in second.items()}, {b"P": 2, b"Q": 1})


class Compared(unittest.TestCase):
    def test_refused_words_may_be_told_of_in_any_text(self):
        self.assertTrue(comparing.alike((2, b"", b"a\n"), (2, b"", b"b\n")))
        self.assertFalse(comparing.alike((2, b"x", b"a\n"), (2, b"x", b"a\n")))
        self.assertFalse(comparing.alike((1, b"", b"a\n"), (1, b"", b"b\n")))
        self.assertTrue(comparing.alike((0, b"x", b""), (0, b"x", b"")))

    def test_tables_to_begin_with_may_pass_limits_alone(self):
        for message, refused in ((b"payee fault 4\n", False), (b"payee fault 3 at row 1\n", True),
                                 (b"works fault 7 at row 12\n", False),
                                 (b"works fault 8\n", False), (b"works fault 6\n", False),
                                 (b"works fault 5 at row 6\n", True),
                                 (b"cwr fault 1 at line 1 of F\n", True),
                                 (b"usage fault 1 at row 0\n", False)):
            self.assertEqual(comparing.refuses_tables((1, b"", message)), refused, message)
        self.assertFalse(comparing.refuses_tables((0, b"T,,0,0\n", b"")))
        self.assertFalse(comparing.refuses_tables((2, b"", b"works or parties\n")))


class Sizes(unittest.TestCase):
    def test_files_are_linked_to_one_work(self):
        submitted = sizes.each(3)
        self.assertEqual(properties.rows_of(submitted.tables["works"]),
                         [[b"W1", b"A%d" % n, b"W1", b""] for n in range(3)])
        self.assertEqual([name for name, _ in submitted.files], ["A0", "A1", "A2"])

    def test_a_table_has_as_many_rows_as_are_asked_for(self):
        text = sizes.rows("works", lambda n: b"W1,A,%d,\n" % n, 3)
        self.assertEqual(text, b"work,submitter,number,title\nW1,A,0,\nW1,A,1,\nW1,A,2,\n")

    def test_all_works_of_the_parties_are_linked(self):
        numbers = {row[2] for row in properties.rows_of(sizes.linking_all(600))}
        self.assertEqual(numbers, set(registered.in_force(sizes.parties(600))))


class Properties(unittest.TestCase):
    """The plain program's answers have to do with one another as they should."""

    CASES = 30

    @classmethod
    def setUpClass(cls):
        cls.program = plain.build()

    def test_each_way_holds_and_compares_something(self):
        for way in properties.WAYS:
            with self.subTest(way.__name__), tempfile.TemporaryDirectory() as folder:
                compared = sum(properties.trial_of(way, self.program, number, 1, folder)
                               for number in range(self.CASES))
                self.assertGreater(compared, 3)

    def test_a_way_fails_where_answers_do_not_fit(self):
        # A program that answers each command with a text of its own.
        with tempfile.TemporaryDirectory() as folder:
            path = f"{folder}/program"
            with open(path, "w", encoding="utf-8") as file:
                file.write('#!/bin/sh\nprintf "%s" "$*" | cksum\n')
            os.chmod(path, 0o755)
            for way in properties.WAYS:
                with self.subTest(way.__name__), self.assertRaises(properties.Differ):
                    for number in range(12):
                        properties.trial_of(way, path, number, 1, folder)


if __name__ == "__main__":
    unittest.main()
