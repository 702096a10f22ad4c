"""Compares what programs answer: reports, refusals, and explanations with the statements.

An outcome is what `tools.running.run` returns: a status, what was printed, and a message.
"""
import csv
import io
import re

# The limits that tables to begin with may pass.
LIMITS = re.compile(rb"payee fault 4\n|works fault (?:[68]|7 at row \d+)\n")

REFUSED = re.compile(rb"(tis|payee|works|cwr|usage) fault (\d+)"
                     rb"(?: at (row|line) (\d+)(?: of (.+))?)?\n")


def csv_rows(text):
    """The rows of a CSV text, each a list of fields."""
    return list(csv.reader(io.StringIO(text.decode("latin-1"))))


def contradicts(report, paths, refusal):
    """Whether the outcome of `check` doesn't fit how `run` over the same files ended.

    What a run is refused for has to be the first fault of the report; a run that isn't refused for
    a fault has to have a report without one, and its status and message. `paths` has the paths of
    the files by their options; of the files of several submitters a refusal names the path. Of
    these a run may be refused for a fault before it comes to a file that cannot be read.
    """
    status, text, message = report
    if refusal[0] != 1:
        has_fault = b"(fault " in text
        return has_fault or status != refusal[0] or (status != 0 and message != refusal[2])
    fault = REFUSED.fullmatch(refusal[2])
    if not fault:
        return True
    if status == 4 and "works" in paths:
        return text != b"" or not message.startswith(b"cannot read ")
    what, number, unit, place, path = fault.groups()
    if path is None:
        path = paths["payees" if what == b"payee" else what.decode()].encode()
    if place:
        subject = unit + b" " + place + b": "
    else:
        is_of_parties = (what, number) in [(b"cwr", b"8"), (b"works", b"8")]
        subject = b"the parties " if is_of_parties else b"there are "
    first = text.split(b"\n")[0]
    begins = first.startswith(path + b": " + subject)
    ends = first.endswith(b" (fault " + number + b")")
    return status != 1 or message != b"" or not (begins and ends)


def alike(ours, theirs):
    """Whether two outcomes are the same. Of refused words only the status is, and that nothing was
    printed: each program has a text of its own for them."""
    if ours[0] == theirs[0] == 2:
        return ours[1] == theirs[1] == b""
    return ours == theirs


def refuses_tables(outcome):
    """Whether a run over tables to begin with is refused for these, and not for a limit."""
    status, _, message = outcome
    is_of_table = message.startswith((b"payee ", b"works ", b"cwr "))
    return status == 1 and is_of_table and not LIMITS.fullmatch(message)


def first_difference(ours, theirs):
    """The statuses and messages of two outcomes, and the first lines in which they differ."""
    lines = [outcome[1].split(b"\n") for outcome in (ours, theirs)]
    shorter = min(map(len, lines))
    at = next((n for n in range(shorter) if lines[0][n] != lines[1][n]), shorter)
    shown = (f"{outcome[0]} {outcome[2]!r} {b''.join(printed[at:at + 1])!r}"
             for outcome, printed in zip((ours, theirs), lines))
    return " and ".join(shown) + f" in line {at + 1}"


def missing(statements, explanation):
    """The portions of an explanation that no row of the statements has, as payee and amount.

    The residue has no payee: its row of the statements gives the reason instead.
    """
    rows = csv_rows(explanation)
    usage, reason = rows[0][2], rows[1][-1] or "OPEN"
    lacking = []
    for row in rows:
        if row[0] == "P" and row[7] != "0":
            payee, amount = row[2] if row[1] != "0" else None, row[7]
            wanted = ["M", reason] if payee is None else ["L", payee]
            if [*wanted, usage, amount] not in statements:
                lacking.append((payee, amount))
    return lacking
