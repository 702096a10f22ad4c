"""Tests of statement texts, and of what is wrong in an adjustment."""
import unittest

from tools.statement_texts import (MOST, NOTHING, Statements, amounts_of, negated, read, sums_of,
                                   text_of, totals, wrong_in)

PAID = (b'L,A,"u,1",60\nL,A,u2,5\nS,A,2,65\nL,B,u1,30\nS,B,1,30\n'
        b"M,OPEN,u1,10\nM,WORK,u2,7\nM,OPEN,u1,1\nT,,3,18\nR,,4,113\n")
RIGHT = (b"L,A,u2,6\nL,A,u2,-1\nS,A,2,5\nL,C,u1,7\nS,C,1,7\nM,OPEN,u1,11\nT,,1,11\nR,,4,23\n")
ANSWER = (b'L,A,"u,1",-60\nS,A,1,-60\nL,B,u1,-30\nS,B,1,-30\nL,C,u1,7\nS,C,1,7\n'
          b"M,WORK,u2,-7\nT,,1,-7\nR,,0,-90\n")


class Texts(unittest.TestCase):
    def test_a_text_is_read_and_written_as_it_stands(self):
        found = read(PAID)
        self.assertEqual(found.payees, {"A": [("u,1", 60), ("u2", 5)], "B": [("u1", 30)]})
        self.assertEqual(found.rests, [("OPEN", "u1", 10), ("WORK", "u2", 7), ("OPEN", "u1", 1)])
        self.assertEqual(found.lines, 4)
        self.assertEqual(text_of(found), PAID)
        self.assertEqual(text_of(Statements({}, [], 0)), NOTHING)

    def test_quotes_are_written_where_they_are_needed(self):
        names = ['"', ",", " ", "a b", 'say "so"', "-1"]
        text = text_of(Statements({}, [("OPEN", name, 1) for name in names], 0))
        self.assertEqual([row.split(b",", 2)[2] for row in text.split(b"\n")[:6]],
                         [b'"""",1', b'",",1', b" ,1", b"a b,1", b'"say ""so""",1', b"-1,1"])

    def test_rows_of_a_use_add_up(self):
        sums = sums_of(read(PAID))
        self.assertEqual((sums["L", "A", "u,1"], sums["M", "3", "u1"], sums["M", "0", "u2"]),
                         (60, 11, 7))
        self.assertEqual(totals(PAID), {("S", "A"): 65, ("S", "B"): 30, ("T", ""): 18,
                                        ("R", ""): 113})
        self.assertEqual(totals(NOTHING), {})
        self.assertEqual(negated(b'L,"A,",u,-6\nS,"A,",1,-6\nT,,0,0\nR,,0,-6\n'),
                         b'L,"A,",u,6\nS,"A,",1,6\nT,,0,0\nR,,0,6\n')

    def test_a_difference_is_in_full_rows_and_one_of_what_is_left(self):
        self.assertEqual(amounts_of(0), [])
        self.assertEqual(amounts_of(MOST), [MOST])
        self.assertEqual(amounts_of(2 * MOST + 1), [MOST, MOST, 1])
        self.assertEqual(amounts_of(-2 * MOST), [-MOST, -MOST])
        self.assertEqual(amounts_of(-MOST - 1), [-MOST, -1])


class Wrong(unittest.TestCase):
    def found(self, answer, paid=PAID, right=RIGHT):
        """The beginning of what is wrong first in an adjustment, or nothing."""
        return " ".join((wrong_in(paid, right, answer) or [""])[0].split()[:4])

    def test_nothing_is_wrong_in_an_adjustment(self):
        self.assertEqual(wrong_in(PAID, RIGHT, ANSWER), [])
        self.assertEqual(wrong_in(RIGHT, PAID, negated(ANSWER)), [])
        self.assertEqual(wrong_in(PAID, PAID, NOTHING), [])

    def test_a_difference_that_is_not_told_is_wrong(self):
        self.assertEqual(self.found(NOTHING), "('L', 'A', 'u,1') is")
        self.assertEqual(self.found(ANSWER, right=PAID), "('L', 'A', 'u,1') is")
        other = ANSWER.replace(b"M,WORK", b"M,LAND")
        self.assertEqual(self.found(other), "('M', '1', 'u2') is")

    def test_the_form_of_a_text_is_looked_at(self):
        for wrong, place in [(b"S,A,1,-061", b"S,A,1,-60"),
                             (b"S,A,2,-60", b"S,A,1,-60"), (b"R,,0,-89", b"R,,0,-90"),
                             (b'L,C,"u1",7', b"L,C,u1,7"), (b"T,,0,-7", b"T,,1,-7"),
                             (b"S,C,1,7\nS,D,0,0", b"S,C,1,7")]:
            self.assertEqual(self.found(ANSWER.replace(place, wrong)), "the adjustment is not")
        self.assertEqual(self.found(ANSWER[:-1]), "the adjustment is not")
        self.assertEqual(self.found(ANSWER.replace(b"R,,0", b"R,,4")), "the adjustment is of")

    def test_rows_are_in_order(self):
        rests = [("OPEN", "u1", 1), ("OPEN", "u2", 2), ("WORK", "u", 3), ("LAND", "a", 4)]
        right = text_of(Statements({"B": [("b", 1), ("a", 1)], "A": [("a", 1)]}, rests, 0))
        self.assertEqual(self.found(right, NOTHING, right), "the rows are not")
        rests = [rests[2], rests[3], rests[0], rests[1]]
        for payees in ({"B": [("a", 1)], "A": [("a", 1)]}, {"A": [("b", 1), ("a", 1)]}):
            text = text_of(Statements(payees, rests, 0))
            self.assertEqual(self.found(text, NOTHING, text), "the rows are not")
        text = text_of(Statements({"A": [("a", 1), ("b", 1)], "B": [("a", 1)]}, rests, 0))
        self.assertEqual(self.found(text, NOTHING, text), "")

    def test_a_use_has_the_fewest_rows_and_full_ones_first(self):
        for amounts, is_right in [([MOST, 1], True), ([1, MOST], False), ([0], False),
                                  ([MOST + 1], False), ([MOST, MOST, 1, -MOST], False),
                                  ([1, 1], False), ([-MOST, -MOST], True), ([MOST, 0], False)]:
            text = text_of(Statements({"A": [("u", amount) for amount in amounts]}, [], 0))
            self.assertEqual(self.found(text, NOTHING, text),
                             "" if is_right else "a difference is in")


if __name__ == "__main__":
    unittest.main()
