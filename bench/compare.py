"""Runs the program and the plain Rust one on made-up inputs, good and bad, and compares what they
answer.

    python3 -m bench.compare --program PATH [--cases 2000] [--explained 3] [--checked 1] [--seed 1]
        [--submitters]

Half of the inputs are small. The others are realistic, with up to 2,000 parties and 6,000 usage
lines, so that some of them are read in parts. Half have a table of payees. Some files have another
form, which a report remarks on (`tools/forms.py`).

Of each case it compares the status, the statements and the message of a run. It compares the
explanations of a few usage lines, at times one past the last; each portion of an explanation has to
be a row of the statements. And it compares the reports of `check`: half of them over files that
were spoilt further, a seventh over usage lists with many lines of unknown works and territories,
and as many over works that are claimed in part, in full or over 100.06 per cent. What a run is
refused for has to be the first fault of the report, and where a run gives statements the report has
no fault.

With --submitters each case has the files of one to five submitters, and a third of the cases have a
table, a file or the names of submitters damaged. Compared are a run, explanations and reports as
above, the tables that `works` and `parties` print, and a run over these tables, which may not be
refused for them. Reports are over files that were changed in the same ways; for half of the usage
lists with many lines of unknown works and territories the registrations are linked to other works.
In some cases all values stand behind a `=`. Where both programs refuse the words (status 2), their
messages may differ.
"""
import os
import random
import sys
import tempfile

from tools import claimed, made_up_submitters, plain
from tools.comparing import alike, contradicts, csv_rows, first_difference, missing, refuses_tables
from tools.made_up import case
from tools.running import NAMES, parser_of_program, run, run_options, words_of, written
from tools.spoilt import all_spoilt, strange, titles_in
from tools.submitters import over_tables, without_plan, written_options


def data_rows(path):
    """About how many usage lines a list has."""
    try:
        with open(path, "rb") as file:
            return max(1, file.read().count(b"\n") - 1)
    except FileNotFoundError:
        return 1


def changed(rng, files):
    """The files of a case, by name, as a report is on them; none where they stay as they are."""
    kind = rng.random()
    if kind < 0.5:
        return all_spoilt(rng, files)
    if kind < 0.65:
        return strange(rng, files, titles_in(files["cwr"]))
    return claimed.one_file(rng, files) if kind < 0.8 else None


def changed_submitted(rng, submitted):
    """A case of several submitters as a report is on it; none where it stays as it is."""
    kind = rng.random()
    if kind < 0.5:
        return made_up_submitters.all_spoilt(rng, submitted)
    if kind < 0.65:
        return made_up_submitters.strange_uses(rng, submitted)
    return claimed.several(rng) if kind < 0.8 else None


class Comparison:
    """The two programs, and what has been compared so far."""

    def __init__(self, program, plain_program, seed):
        self.programs = program, plain_program
        self.seed = seed
        self.statuses = {}
        self.rows = self.explained = self.checked = self.faulty = self.begun = self.differing = 0

    def both(self, command, options, are_joined=False):
        """The outcomes of a command, ours and the plain program's."""
        return [run(words_of(program, command, options, are_joined)) for program in self.programs]

    def tell(self, number, text):
        """Prints a difference in a case, and counts it."""
        self.differing += 1
        print(f"case {number} of seed {self.seed}{text}")

    def compare_run(self, number, paths, plan):
        """Compares a run; the rows of our statements."""
        options = run_options(paths, plan)
        ours, theirs = self.both("run", options)
        self.statuses[ours[0]] = self.statuses.get(ours[0], 0) + 1
        self.rows += ours[1].count(b"\n")
        if ours != theirs:
            self.tell(number, f" differs, run {options[len(paths):]}: {ours} and {theirs}")
        return csv_rows(ours[1])

    def compare_explanation(self, number, paths, row, statements):
        """Compares the explanation of a row, also with our statements."""
        asked = [("row", row)]
        ours, theirs = self.both("explain", [*zip(NAMES, paths), *asked])
        if ours[0] == 0:
            self.explained += 1
            unposted = missing(statements, ours[1])
            if unposted:
                self.tell(number, f", {asked}: the statements lack {unposted}")
        if ours != theirs:
            self.tell(number, f" differs, explain {asked}: {ours} and {theirs}")

    def compare_report(self, number, place, paths, plan):
        """Compares a report, also with what a run over the same files says."""
        ours, theirs = self.both("check", [*zip(NAMES, paths)])
        self.checked += 1
        self.faulty += ours[0] == 1
        if ours != theirs:
            self.tell(number, f", check {place} differs: {first_difference(ours, theirs)}")
        refusal = run(words_of(self.programs[0], "run", run_options(paths, plan)))
        if contradicts(ours, dict(zip(NAMES, paths)), refusal):
            self.tell(number, f", check {place}: {ours[0]} {ours[1][:300]!r}, "
                              f"but a run {refusal[0]} {refusal[2]!r}")

    def compare_case(self, number, folder, explained, checked):
        """Compares all answers on one case, whose files are written to a folder."""
        rng = random.Random(self.seed * 1_000_003 + number)
        files = dict(zip(NAMES, case(rng, os.path.join(folder, "made"))))
        used = written(folder, files)
        if rng.random() < 0.02:
            used[rng.randrange(len(used))] = os.path.join(folder, "absent")
        plan = rng.randint(1, 8), rng.randint(1, 8), rng.randint(1, 64)
        lines = data_rows(used[NAMES.index("usage")])
        rows = [rng.randint(1, lines + 1) for _ in range(explained)]
        statements = self.compare_run(number, used, plan)
        for row in rows:
            self.compare_explanation(number, used, row, statements)
        for place in range(checked):
            made = changed(rng, files)
            paths = written(os.path.join(folder, "changed"), made) if made else used
            self.compare_report(number, place, paths, plan)

    def compare_submitted(self, number, folder, command, options, are_joined):
        """Compares a command over the files of submitters; what our program answers."""
        ours, theirs = self.both(command, options, are_joined)
        if not alike(ours, theirs):
            words = " ".join(words_of("", command, options, are_joined))
            self.tell(number, f" differs,{words.replace(folder, '')}: "
                              f"{first_difference(ours, theirs)}")
        return ours

    def compare_explanation_over(self, number, folder, options, row, are_joined, run_over):
        """Compares the explanation of a row over the files of submitters, also with a run."""
        options = [*without_plan(options), ("row", row)]
        ours = self.compare_submitted(number, folder, "explain", options, are_joined)
        if ours[0] == 0:
            self.explained += 1
            unposted = run_over[0] == 0 and missing(csv_rows(run_over[1]), ours[1])
            if unposted:
                self.tell(number, f", row {row}: the statements lack {unposted}")

    def compare_report_over(self, number, folder, options, are_joined):
        """Compares a report on the files of submitters, also with what a run over them says."""
        files = without_plan(options)
        ours = self.compare_submitted(number, folder, "check", files, are_joined)
        self.checked += 1
        self.faulty += ours[0] == 1
        refusal = run(words_of(self.programs[0], "run", options, are_joined))
        if refusal[0] != 2 and contradicts(ours, dict(files), refusal):
            self.tell(number, f", check: {ours[0]} {ours[1][:300]!r}, "
                              f"but a run {refusal[0]} {refusal[2]!r}")

    def compare_tables(self, number, folder, options, are_joined):
        """Compares the tables to begin with, and a run over them."""
        files = [option for option in options if option[0] == "cwr"]
        tables = [self.compare_submitted(number, folder, command, files, are_joined)
                  for command in ("works", "parties")]
        if any(status for status, _, _ in tables):
            return
        works, payees = (printed for _, printed, _ in tables)
        options = over_tables(folder, options, works, payees)
        ours = self.compare_submitted(number, folder, "run", options, are_joined)
        self.begun += 1
        if refuses_tables(ours):
            self.tell(number, f": tables to begin with are refused: {ours[2]!r}")

    def compare_submitters(self, number, folder, explained, checked):
        """Compares all answers on one case with the files of several submitters."""
        rng = random.Random(self.seed * 1_000_003 + number)
        submitted = made_up_submitters.case(rng, os.path.join(folder, "made"))
        plan = rng.randint(1, 8), rng.randint(1, 8), rng.randint(1, 64)
        options = written_options(folder, submitted, plan)
        if rng.random() < 0.05:
            options = made_up_submitters.with_wrong_words(rng, options)
        are_joined = rng.random() < 0.2
        ours = self.compare_submitted(number, folder, "run", options, are_joined)
        self.statuses[ours[0]] = self.statuses.get(ours[0], 0) + 1
        self.rows += ours[1].count(b"\n")
        self.compare_tables(number, folder, options, are_joined)
        lines = data_rows(dict(options).get("usage", ""))
        for _ in range(explained):
            row = rng.randint(1, lines + 1)
            if rng.random() < 0.02:
                row = rng.choice([0, 1_000_000, 1_000_001, "+1", "x", ""])
            self.compare_explanation_over(number, folder, options, row, are_joined, ours)
        for _ in range(checked):
            asked, made = options, changed_submitted(rng, submitted)
            if made:
                asked = written_options(os.path.join(folder, "changed"), made, plan)
            self.compare_report_over(number, folder, asked, are_joined)

    def summary(self, cases):
        """What was compared, and how much of it differs."""
        counts = sorted(self.statuses.items())
        by_status = ", ".join(f"{count} with status {status}" for status, count in counts)
        begun = f"{self.begun} runs over tables to begin with, " if self.begun else ""
        return (f"{cases} cases ({by_status}; {self.rows} rows, {begun}"
                f"{self.explained} lines explained, "
                f"{self.checked} reports compared, {self.faulty} of them told of a fault): "
                f"{self.differing} differ")


def main():
    parser = parser_of_program("bench.compare", __doc__)
    parser.add_argument("--cases", type=int, default=2000)
    parser.add_argument("--explained", type=int, default=3,
                        help="usage lines explained in each case")
    parser.add_argument("--checked", type=int, default=1, help="reports on each case")
    parser.add_argument("--seed", type=int, default=1)
    parser.add_argument("--submitters", action="store_true",
                        help="cases with the files of several submitters")
    a = parser.parse_args()
    comparison = Comparison(a.program, plain.build(), a.seed)
    with tempfile.TemporaryDirectory() as folder:
        for number in range(a.cases):
            if a.submitters:
                comparison.compare_submitters(number, folder, a.explained, a.checked)
            else:
                comparison.compare_case(number, folder, a.explained, a.checked)
    print(comparison.summary(a.cases))
    return 1 if comparison.differing else 0


if __name__ == "__main__":
    sys.exit(main())
