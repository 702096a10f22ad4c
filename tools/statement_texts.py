"""Reads and writes statement texts slowly and by themselves, and looks at adjustments.

An adjustment is what has to be merged with a text that was paid so that it comes to one that is
right. It is looked at beside these two; a program that makes it has no part in that.
"""
import csv
import io
from collections import Counter
from itertools import groupby
from typing import NamedTuple

from tools.comparing import csv_rows

REASONS = ["WORK", "LAND", "OVER", "OPEN"]

# The largest amount of a row, either way.
MOST = 10**12

# The adjustment of a text to itself.
NOTHING = b"T,,0,0\nR,,0,0\n"


class Statements(NamedTuple):
    """What a statement text says; each name is a string."""

    payees: dict  # the uses and amounts of each payee, in the order of the text
    rests: list  # reasons, uses and amounts
    lines: int  # how many usage lines they are of


def read(text):
    """What a sound text says."""
    payees, rests, lines = {}, [], None
    for kind, whose, third, fourth in csv_rows(text):
        if kind == "L":
            payees.setdefault(whose, []).append((third, int(fourth)))
        elif kind == "M":
            rests.append((whose, third, int(fourth)))
        elif kind == "R":
            lines = int(third)
    return Statements(payees, rests, lines)


def written_rows(rows):
    """Rows as CSV, with quotes where they are needed."""
    out = io.StringIO(newline="")
    csv.writer(out, lineterminator="\n").writerows(rows)
    return out.getvalue().encode("latin-1")


def text_of(statements):
    """The text of statements, with payees and rows in the order that they have there."""
    rows = []
    for payee, portions in statements.payees.items():
        rows += [["L", payee, *portion] for portion in portions]
        rows.append(["S", payee, len(portions), sum(amount for _, amount in portions)])
    rests = sum(amount for *_, amount in statements.rests)
    rows += [["M", *rest] for rest in statements.rests]
    rows.append(["T", "", len(statements.rests), rests])
    paid = sum(amount for portions in statements.payees.values() for _, amount in portions)
    rows.append(["R", "", statements.lines, paid + rests])
    return written_rows(rows)


def negated(text):
    """A text of which each amount has the other sign."""
    return written_rows([[*row, -int(amount)] for *row, amount in csv_rows(text)])


def totals(text):
    """The totals of a sound text other than 0, by kind and payee."""
    return {(kind, whose): int(total) for kind, whose, _, total in csv_rows(text)
            if kind in ("S", "T", "R") and int(total)}


def portions_of(statements):
    """The rows of payees and of reasons: of each a key, by which they are in order, and an amount.

    The key has the kind, the payee or the place of the reason, and the use.
    """
    of_payees = [(("L", payee, usage), amount) for payee, portions in statements.payees.items()
                 for usage, amount in portions]
    return of_payees + [(("M", str(REASONS.index(reason)), usage), amount)
                        for reason, usage, amount in statements.rests]


def sums_of(statements):
    """What the rows of each payee and use, and of each reason and use, come to."""
    sums = Counter()
    for key, amount in portions_of(statements):
        sums[key] += amount
    return sums


def amounts_of(total):
    """The amounts of the rows of a difference: full ones, and one of what is left."""
    sign = -1 if total < 0 else 1
    full, left = divmod(abs(total), MOST)
    return [sign * MOST] * full + [sign * left] * (left > 0)


def wrong_in(paid, right, answer):
    """What is wrong in an adjustment beside the sound texts of what was paid and what is right."""
    before, wanted, adjusted = read(paid), read(right), read(answer)
    if text_of(adjusted) != answer:
        return ["the adjustment is not written as a statement text is"]
    wrong = []
    if adjusted.lines != 0:
        wrong.append("the adjustment is of usage lines")
    portions = portions_of(adjusted)
    keys = [key for key, _ in portions]
    if keys != sorted(keys):
        wrong.append("the rows are not in order")
    of_keys = [[amount for _, amount in rows]
               for _, rows in groupby(portions, key=lambda portion: portion[0])]
    wrong += [f"a difference is in other rows: {amounts[:10]}" for amounts in of_keys
              if amounts != amounts_of(sum(amounts))][:3]
    sums = sums_of(adjusted)
    sums.update(sums_of(before))
    sums.subtract(sums_of(wanted))
    wrong += [f"{key} is {difference} from what is right" for key, difference in sums.items()
              if difference][:3]
    amounts = [int(csv_rows(text)[-1][3]) for text in (paid, answer, right)]
    if amounts[0] + amounts[1] != amounts[2]:
        wrong.append("the amounts of all do not add up")
    return wrong
