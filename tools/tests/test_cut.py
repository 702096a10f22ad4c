"""Tests of cluster/cut: rows are told apart as a run tells them apart, and none is cut through."""
import csv
import importlib.machinery
import importlib.util
import io
import os
import random
import tempfile
import unittest
from unittest import mock

from tools.crates import ROOT
from tools.made_up import files_in


def load():
    """cluster/cut, which is a script without an ending, as a module."""
    path = os.path.join(ROOT, "cluster", "cut")
    loader = importlib.machinery.SourceFileLoader("cut", path)
    module = importlib.util.module_from_spec(importlib.util.spec_from_loader("cut", loader))
    loader.exec_module(module)
    return module


CUT = load()
HEADER = b"usage,work,territory,right,amount\n"
QUOTED = ["u1", '"CLUB ""LIDO"", 3 MAY"', '"two\nlines"', '"two\r\nlines, with a comma"', '"\n"',
          '""""', '7" disc', '"a"b', ""]


def fields_in(text):
    """The rows of a text, by the reader of python3."""
    return [row for row in csv.reader(io.StringIO(text, newline="")) if row]


class Rows(unittest.TestCase):
    def rows(self, text):
        return [row for block in CUT.blocks_of_rows(io.BytesIO(text)) for row in block]

    def test_all_line_ends_part_rows_and_empty_lines_are_none(self):
        self.assertEqual(self.rows(b"a\nb\r\nc\rd\n\n\r\ne"),
                         [b"a\n", b"b\r\n", b"c\r", b"d\n", b"e"])

    def test_a_line_end_within_quotes_parts_nothing(self):
        text = b'"two\nlines",1\n7" disc,2\n"a""b\n",3\n'
        self.assertEqual(self.rows(text), [b'"two\nlines",1\n', b'7" disc,2\n', b'"a""b\n",3\n'])

    def test_a_byte_order_mark_is_left_out(self):
        self.assertEqual(self.rows(b"\xef\xbb\xbfab\n"), [b"ab\n"])

    def test_rows_go_on_over_the_end_of_a_block(self):
        rows = [b'"%d\n%s",x\r\n' % (n, b"y" * (n % 50)) for n in range(6000)]
        self.assertGreater(sum(map(len, rows)), 2 * CUT.BLOCK)
        self.assertEqual(self.rows(b"".join(rows)), rows)

    def test_a_quote_that_is_not_closed_is_refused(self):
        text = b'a\n"' + b"b\n" * CUT.BLOCK
        with mock.patch.object(CUT, "LONGEST", CUT.BLOCK):
            with self.assertRaisesRegex(CUT.Refused, "row 1 .*; is a quote not closed"):
                self.rows(text)

    def test_a_header_is_known_by_its_fields(self):
        self.assertTrue(CUT.is_header(HEADER.replace(b"work", b'"work"')))
        self.assertFalse(CUT.is_header(HEADER.replace(b"work", b" work")))
        self.assertFalse(CUT.is_header(HEADER[:-8] + b"\n"))


class Cut(unittest.TestCase):
    def parts(self, text, lines, most):
        with tempfile.TemporaryDirectory() as folder:
            counts = CUT.cut(io.BytesIO(text), folder, lines, most)
            names = sorted(os.listdir(folder))
            self.assertEqual(names.pop(), "sums")
            self.assertEqual(len(names), counts[0])
            return counts[1], files_in(folder, names)

    def test_parts_have_the_header_and_at_most_so_many_lines(self):
        rows = [b"u%d,W,276,P,1\n" % n for n in range(5)]
        count, parts = self.parts(HEADER + b"".join(rows), 2, 1000)
        self.assertEqual((count, parts), (5, [HEADER + b"".join(rows[at:at + 2])
                                              for at in (0, 2, 4)]))

    def test_parts_have_at_most_so_many_bytes(self):
        rows = [b"u%d,W,276,P,1\n" % n for n in range(4)]
        most = len(HEADER) + 2 * len(rows[0])
        self.assertEqual(len(self.parts(HEADER + b"".join(rows), 100, most)[1]), 2)
        self.assertEqual(len(self.parts(HEADER + b"".join(rows), 100, most - 1)[1]), 4)
        with self.assertRaisesRegex(CUT.Refused, "row 1 does not fit"):
            self.parts(HEADER + rows[0], 100, len(HEADER) + len(rows[0]) - 1)

    def test_parts_have_the_rows_of_the_list_whatever_its_quotes_and_line_ends(self):
        rng = random.Random(5)
        for _ in range(40):
            ends = rng.choice([["\n"], ["\r\n"], ["\r"], ["\n", "\r\n", "\n\n"]])
            lines = [f"{rng.choice(QUOTED)},W{k},276,P,{k}"
                     for k in range(rng.choice([0, 1, 7, 8, 300]))]
            text = rng.choice(["", "\ufeff"])
            text += "".join(line + rng.choice(ends) for line in [HEADER.decode()[:-1], *lines])
            if rng.random() < 0.5:
                text = text.rstrip("\r\n")
            self.compare(text, rng.choice([1, 4, 7, 8, 1000]), rng.choice([90, 200, 268_435_455]))

    def test_so_they_have_where_quotes_stand_at_the_end_of_a_block(self):
        rng = random.Random(6)
        many = "".join(f'"{rng.choice("abc")}{"x" * rng.randint(0, 9)}\n"",",W{k},276,P,{k}\r\n'
                       for k in range(9000))
        self.compare(HEADER.decode() + many, 1000, 20_000)
        odd = '7" disc,W1,276,P,1\r\n'
        self.compare(HEADER.decode() + many + odd + many, 1000, 268_435_455)

    def compare(self, text, lines, most):
        """Compares the rows of the parts with those of the list, by the reader of python3."""
        count, parts = self.parts(text.encode(), lines, most)
        header, *wanted = fields_in(text.removeprefix("\ufeff"))
        found = []
        for part in parts:
            first, *rows = fields_in(part.decode())
            self.assertEqual(first, header)
            self.assertTrue(len(rows) <= lines and len(part) <= most)
            self.assertTrue(rows or len(parts) == 1)
            found += rows
        self.assertEqual((found, count), (wanted, len(wanted)))

    def test_a_list_without_lines_gives_one_part_and_one_without_a_header_none(self):
        self.assertEqual(self.parts(HEADER, 2, 1000), (0, [HEADER]))
        with self.assertRaisesRegex(CUT.Refused, "it has no header"):
            self.parts(b"\n", 2, 1000)


if __name__ == "__main__":
    unittest.main()
