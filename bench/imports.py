"""Runs the program and the plain Rust one on made-up sales reports, and compares what they import.

    python3 -m bench.imports --program PATH [--cases 300] [--seed 1] [--largest] [--keep FOLDER]

Each case has a report, up to three tables of values, and words that name them (`tools/exports.py`).
Half of the cases are damaged: in the bytes of a file, in the words, in the names of columns, in the
tables, or in the paths. Each program runs in a folder of its own, in which both have the same
files. Compared are the status, what was printed, the message, and all that lies in the folder then:
the usage lines and the rejected rows, or what their paths had before, and that nothing else is
there. Where both programs refuse the words (status 2), their messages may differ.

What the program makes of a report is also looked at by itself. The counts and amounts of the
summary have to add up, and to be those of the two tables. No usage line counts without an amount,
and no row counts with one that is rejected for a line break, below a header for its fields, or for
its amount. Each rejected row has to be that row of the report, as python3 reads it, and those
rejected for a line break, or below a header for their fields, have to be just the rows of the
report with a line break, or with another number of fields than the header. And the rejected rows,
imported in place of the report, have to be rejected for the same reasons, and to count with the
same amounts.

With --largest, tables of values with the most rows, and with one more, are tried as well, which
takes a while. The files of cases that differ are left below FOLDER.
"""
import csv
import io
import os
import random
import re
import shutil
import sys
import tempfile

from tools import exports, plain
from tools.comparing import alike, csv_rows, first_difference
from tools.exports import FLAGS
from tools.running import parser_of_program, run

LINE = re.compile(r"(rows|usage lines|rejected rows|rejected since .+|rows passed over)"
                  r": (0|[1-9]\d*), amount (0|-?[1-9]\d*)"
                  r"(?:, without the amounts of ([1-9]\d*))?")

# Of the lines of a summary all are there but for those of reasons without rows.
LINES = ["rows", "usage lines", "rejected rows", "rows passed over"]

SINCE = "rejected since "

# Why a row is rejected that has a line break, or another number of fields than the header; and the
# beginning of the reasons for which a row has no amount.
BREAK = "a field of it has a line break"
FIELDS = "it does not have the fields that it should have"
AMOUNT = "its amount "

# The fields of the header of the rejected rows that stand before those of the report.
HEADER = ["rejected_row", "rejected_since"]

# The options whose values say where a value of a row stands.
PLACES = ("usage", "work", "territory", "right", "amount")

# Names of the rejected rows, and of what is made of them, where they are imported.
AGAIN, AGAIN_OUTPUT, AGAIN_REJECTS = "again.csv", "again.usage.csv", "again.rejects.csv"

# The most seconds that an import takes.
SECONDS = 60

# How many cases that differ are kept.
MOST_KEPT = 20


def lying_in(folder):
    """What lies in a folder, by name: bytes, the target of a link, or none for a folder."""
    found = {}
    for entry in os.scandir(folder):
        if entry.is_symlink():
            found[entry.name] = os.readlink(entry.path)
        elif entry.is_dir():
            found[entry.name] = exports.FOLDER
        else:
            with open(entry.path, "rb") as file:
                found[entry.name] = file.read()
    return found


def content(path):
    """The bytes of a file."""
    with open(path, "rb") as file:
        return file.read()


def answered(program, folder, words):
    """The outcome of an import in a folder."""
    return run([program, "import", *words], SECONDS, folder)


def summary_of(printed, export):
    """The rows of a summary, their amounts, and how many have none, by what they are of; none if
    it has another form."""
    found = {}
    for line in printed.decode().removesuffix("\n").split(f"\n{export}: "):
        fields = LINE.fullmatch(line.removeprefix(f"{export}: ") if not found else line)
        if not fields or fields[1] in found:
            return None
        found[fields[1]] = int(fields[2]), int(fields[3]), int(fields[4] or 0)
    begins = printed.startswith(f"{export}: rows: ".encode()) and printed.endswith(b"\n")
    kept = [what for what in found if not what.startswith(SINCE)]
    return found if begins and kept == LINES else None


def added(counts):
    """The sums of rows, of amounts, and of rows without one."""
    return tuple(map(sum, zip((0, 0, 0), *counts)))


def rows_of(text, delimiter):
    """The rows of a report, as python3 reads them."""
    text = text.removeprefix(b"\xef\xbb\xbf").decode("latin-1")
    rows = csv.reader(io.StringIO(text, newline=""), delimiter=delimiter)
    return [row for row in rows if row]


def moved(word):
    """A word for a column of a report, as it has to be for the rejected rows, which have two fields
    more before the others; none if there is no such word."""
    number = re.fullmatch("#0*([1-9][0-9]{0,4})", word)
    if number and int(number[1]) <= 65536:
        return f"#{int(number[1]) + 2}" if int(number[1]) <= 65534 else None
    return None if word in HEADER else word


def words_again(options):
    """The words with which the rejected rows are imported; none if there are no such words."""
    words = [AGAIN, f"--output={AGAIN_OUTPUT}", f"--rejects={AGAIN_REJECTS}"]
    for name, value in options:
        if name in ("output", "rejects", "delimiter"):
            continue
        if name == "where":
            column, text = value.split("=", 1)
            value = None if moved(column) is None else f"{moved(column)}={text}"
        elif name in PLACES and not value.startswith("="):
            value = moved(value)
        if value is None and name not in FLAGS:
            return None
        words.append(f"--{name}" if value is None else f"--{name}={value}")
    return words


def reasons_of(found):
    """What a summary says of rejected rows, by their reasons."""
    return {what[len(SINCE):]: counts for what, counts in found.items() if what.startswith(SINCE)}


def faults_of(rows, wide):
    """The rows of a report that are rejected whatever their fields are for, by their numbers, with
    the reasons: those that have a line break, or fields that are not as many as those of a header.
    """
    found = {}
    for number, row in enumerate(rows, 1):
        text = "".join(row)
        if "\n" in text or "\r" in text:
            found[number] = BREAK
        elif text and wide is not None and len(row) != wide:
            found[number] = FIELDS
    return found


class Imported:
    """What a program made of a report in a folder."""

    def __init__(self, folder, words, outcome):
        self.folder = folder
        self.options, self.export = exports.parsed(words)
        self.status, self.printed, self.message = outcome
        options = dict(self.options)
        self.has_header = "no-header" not in options
        self.delimiter = exports.DELIMITERS[options.get("delimiter", "comma")].decode()
        self.rejected = content(os.path.join(folder, options["rejects"]))
        self.lines = csv_rows(content(os.path.join(folder, options["output"])))

    def rows(self):
        """The rejected rows, with the numbers and reasons before them, and without the header."""
        return csv_rows(self.rejected)[self.has_header:]

    def may_count(self, reason, rows, amount, without):
        """Whether rows rejected for a reason may count with an amount, and so many without one."""
        has_none = reason == BREAK or reason.startswith(AMOUNT)
        if has_none or (reason == FIELDS and self.has_header):
            return (amount, without) == (0, rows)
        return without < rows or (amount, without) == (0, rows)

    def counts(self):
        """What is wrong in the summary, and in its numbers beside those of the two tables."""
        found = summary_of(self.printed, self.export)
        if found is None:
            return ["the summary has another form"]
        reasons = reasons_of(found)
        wrong = []
        if added(found[what] for what in LINES[1:]) != found["rows"]:
            wrong.append("the rows do not add up")
        if added(reasons.values()) != found["rejected rows"]:
            wrong.append("the reasons do not add up")
        amounts = [int(amount) for *_, amount in self.lines[1:]]
        if (len(amounts), sum(amounts), 0) != found["usage lines"]:
            wrong.append("the usage lines are not those of the summary")
        if not all(self.may_count(reason, *counts) for reason, counts in reasons.items()):
            wrong.append("rows without an amount count with one")
        told = [reason for _, reason, *_ in self.rows()]
        if {reason: count for reason, (count, *_) in reasons.items()} != {
                reason: told.count(reason) for reason in told}:
            wrong.append("the rejected rows are not those of the summary")
        if self.status != (1 if told else 0) or self.message:
            wrong.append("the status is another one, or there is a message")
        return wrong

    def rows_are_those_of(self, report):
        """What is wrong in the rejected rows beside the report."""
        rows = rows_of(report, self.delimiter)
        header = [[*HEADER, *rows[0]]] if self.has_header else []
        below = rows[self.has_header:]
        made = [[number, reason, *below[int(number) - 1]] for number, reason, *_ in self.rows()]
        numbers = [int(number) for number, *_ in self.rows()]
        wrong = []
        if csv_rows(self.rejected) != header + made or numbers != sorted(set(numbers)):
            wrong.append("the rejected rows are not those of the report")
        wide = len(rows[0]) if self.has_header else None
        told = {int(number): reason for number, reason, *_ in self.rows()
                if reason == BREAK or (reason == FIELDS and self.has_header)}
        if told != faults_of(below, wide):
            wrong.append("other rows have a line break, or too few or too many fields")
        found = summary_of(self.printed, self.export)
        if found and found["rows"][0] != len(below):
            wrong.append("the report has another number of rows")
        return wrong

    def once_more(self, program):
        """What is wrong where the rejected rows are imported."""
        words = words_again(self.options)
        if words is None:
            return []
        exports.laid(self.folder, {AGAIN: self.rejected})
        status, printed, message = answered(program, self.folder, words)
        rows = [[str(number), row[1], *row] for number, row in enumerate(self.rows(), 1)]
        if (status, message) != (1 if rows else 0, b""):
            return [f"imported again, the rejected rows end with {status} {message!r}"]
        rejected = csv_rows(content(os.path.join(self.folder, AGAIN_REJECTS)))
        if rejected[self.has_header:] != rows:
            return ["imported again, the rejected rows are not rejected for the same reasons"]
        before, found = summary_of(self.printed, self.export), summary_of(printed, AGAIN)
        if before is None or found is None:
            return ["imported again, the rejected rows have a summary of another form"]
        all_rows = before["rejected rows"]
        wanted = dict(zip(LINES, [all_rows, (0, 0, 0), all_rows, (0, 0, 0)]))
        wanted |= {what: counts for what, counts in before.items() if what.startswith(SINCE)}
        if found != wanted:
            return ["imported again, the rejected rows count with something else"]
        return []


def wrong_in(program, folder, words, outcome, report):
    """What is wrong in an import by itself; the rejected rows are imported once more."""
    try:
        done = Imported(folder, words, outcome)
        return [*done.counts(), *done.rows_are_those_of(report), *done.once_more(program)]
    except (OSError, ValueError, LookupError, csv.Error) as error:
        return [f"the tables have another form: {error!r}"]


class Comparison:
    """The two programs, and what has been compared so far."""

    def __init__(self, program, plain_program, seed, keep):
        self.programs = {"ours": program, "plain": plain_program}
        self.seed, self.keep = seed, keep
        self.statuses = {}
        self.imported = self.rejected = self.differing = 0

    def compare(self, name, folder, words, files):
        """Compares an import by both programs, each in a folder of its own below one."""
        shutil.rmtree(folder, ignore_errors=True)
        outcomes, left = [], []
        for place, program in self.programs.items():
            room = os.path.join(folder, place)
            exports.laid(room, files)
            outcomes.append(answered(program, room, words))
            left.append(lying_in(room))
        ours, theirs = outcomes
        self.statuses[ours[0]] = self.statuses.get(ours[0], 0) + 1
        wrong = []
        if not alike(ours, theirs):
            wrong.append(f"differs: {first_difference(ours, theirs)}")
        if left[0] != left[1]:
            names = [it for it in {**left[0], **left[1]}
                     if left[0].get(it, "absent") != left[1].get(it, "absent")]
            wrong.append(f"leaves other files: {', '.join(sorted(names))}")
        if ours[0] in (0, 1) and ours[1]:
            self.imported += 1
            self.rejected += ours[0]
            room = os.path.join(folder, "ours")
            report = files.get(exports.parsed(words)[1], b"")
            wrong += wrong_in(self.programs["ours"], room, words, ours, report)
        if wrong:
            self.tell(name, folder, words, wrong)

    def tell(self, name, folder, words, wrong):
        """Prints what is wrong in a case, counts it, and keeps its files."""
        self.differing += 1
        print(f"{name}: {'; '.join(wrong)}; import {words}")
        if self.differing <= MOST_KEPT:
            kept = os.path.join(self.keep, name.replace(" ", "_"))
            shutil.rmtree(kept, ignore_errors=True)
            shutil.copytree(folder, kept, symlinks=True)
            print(f"  its files are in {kept}")

    def compare_case(self, number, folder):
        """Compares the import of a made-up case."""
        rng = random.Random(self.seed * 1_000_003 + number)
        words, files = exports.small(rng)
        self.compare(f"case {number} of seed {self.seed}", folder, words, files)

    def compare_largest(self, folder):
        """Compares imports with the most rows that a table may have, and with one more."""
        words = ["export.csv", "--usage=#1", "--work=#2", "--territory=#3", "--right==P",
                 "--amount=#4", "--output=usage.csv", "--rejects=rejects.csv",
                 "--territories=territories.csv"]
        for more in (0, 1):
            files = {"export.csv": b"u,w,t,a\nx,W1,0,1\ny,W1,4194303,1\nz,W1,4194304,1\n",
                     "territories.csv": exports.filled(more)}
            self.compare(f"table of {more} more than the most", folder, words, files)

    def summary(self, cases):
        """What was compared, and how much of it differs."""
        counts = sorted(self.statuses.items())
        by_status = ", ".join(f"{count} with status {status}" for status, count in counts)
        return (f"{cases} cases ({by_status}; {self.imported} imports, {self.rejected} of them "
                f"with rejected rows): {self.differing} differ")


def main():
    """Compares the cases that are asked for."""
    parser = parser_of_program("bench.imports", __doc__)
    parser.add_argument("--cases", type=int, default=300)
    parser.add_argument("--seed", type=int, default=1)
    parser.add_argument("--largest", action="store_true",
                        help="tables with the most rows, too")
    parser.add_argument("--keep", default=os.path.join(tempfile.gettempdir(), "royalty_imports"))
    a = parser.parse_args()
    csv.field_size_limit(1 << 30)
    comparison = Comparison(a.program, plain.build(), a.seed, a.keep)
    with tempfile.TemporaryDirectory() as folder:
        for number in range(a.cases):
            comparison.compare_case(number, os.path.join(folder, "case"))
        if a.largest:
            comparison.compare_largest(os.path.join(folder, "case"))
    print(comparison.summary(a.cases))
    return 1 if comparison.differing else 0


if __name__ == "__main__":
    sys.exit(main())
