"""Has a program run over the files of several submitters, and looks whether its answers have to do
with one another as they should.

    python3 -m bench.properties --program PATH [--cases 300] [--seed 1]

Each case is tried in five ways:

- alone: a run over one file gives the text of a run over several files that has this one alone, all
  of its numbers as works, and for each party the payee that it has in the first run;
- orders: neither the order of the files nor that of the rows of the tables changes the text;
- begun: the tables that `works` and `parties` print are those that its records say, and a run takes
  them, unless there are more rows, payees or accounts than it may have;
- joined: the text is that of a run over one file, in which each work has one registration with the
  share lines of all that are linked, each interest and party in an interest of its own, under the
  name of the payee;
- halves: where a file is cut in two, so that either has some of the interests of each work, and all
  parties keep their payees, the text is that of the whole file.

A way may find nothing to compare in a case, if the files are refused, say. The script fails where
answers do not fit, and where a way never found anything.
"""
import csv
import io
import os
import random
import sys
import tempfile

from tools import made_up, made_up_submitters, registered, small_inputs
from tools.comparing import refuses_tables
from tools.damage import damaged
from tools.running import NAMES, parser_of_program, run, run_options, words_of, written
from tools.submitters import (HEADERS, Submitted, over_tables, table, written_files,
                              written_options)

MOST_LINES = 256  # share lines of a registration


class Differ(Exception):
    """Answers that do not fit."""


def rows_of(text):
    """The rows of a sound table below its header."""
    rows = csv.reader(io.StringIO(text.decode("latin-1"), newline=""))
    return [[it.encode("latin-1") for it in row] for row in rows if row][1:]


def demand(holds, text):
    """Fails where something does not hold."""
    if not holds:
        raise Differ(text)


class Trial:
    """The ways in which a program is tried, with a folder for its files."""

    def __init__(self, program, folder):
        self.program, self.folder = program, folder

    def run_alone(self, files, payees, plan):
        """The outcome of a run over one file. `payees` has the payee of each party with a row."""
        rows = [b"party,payee", *(quoted(party) + b"," + quoted(payee)
                                  for party, payee in payees.items())]
        paths = written(os.path.join(self.folder, "alone"),
                        dict(zip(NAMES, [*files, b"\n".join(rows)])))
        return run(words_of(self.program, "run", run_options(paths, plan)))

    def run_over(self, submitted, plan):
        """The outcome of a run over several files."""
        options = written_options(os.path.join(self.folder, "over"), submitted, plan)
        return run(words_of(self.program, "run", options))

    def alone(self, rng):
        """A run over one file, and one over several of which there is one."""
        files, payees, plan = one_file(rng, self.folder)
        if rng.random() < 0.2:
            files[1] = damaged(rng, files[1])
        tis, cwr, usage = files
        alone = self.run_alone(files, payees, plan)
        numbers = [it for it in registered.in_force(cwr) if is_name(it, 14)]
        parties = [it for it in registered.parties(cwr) if is_name(it, 9)]
        tables = {"tis": tis, "usage": usage,
                  "works": table("works", [[it, b"A", it, b""] for it in numbers]),
                  "payees": table("payees", [[b"A", it, payees.get(it, it), b""]
                                             for it in parties])}
        over = self.run_over(Submitted(tables, [("A", cwr)]), plan)
        path = os.path.join(self.folder, "over", "submitted", "0.cwr").encode()
        status, printed, message = alone
        if message == b"cwr fault 8\n":
            message = b"works fault 8\n"
        elif message.startswith(b"cwr fault "):
            message = message[:-1] + b" of " + path + b"\n"
        demand(over == (status, printed, message), f"{alone} alone, {over} as one of several")
        return status == 0

    def orders(self, rng):
        """Two runs over the same files, which stand in another order, as the rows do."""
        submitted = several(rng, self.folder)
        plan = plan_of(rng)
        one = self.run_over(submitted, plan)
        tables = dict(submitted.tables)
        for name in ("works", "payees"):
            if name in tables:
                rows = rows_of(tables[name])
                tables[name] = table(name, rng.sample(rows, len(rows)))
        files = rng.sample(submitted.files, len(submitted.files))
        other = self.run_over(Submitted(tables, files), plan_of(rng))
        demand(one[0] == 0, f"made-up files are refused: {one[2]!r}")
        demand(one == other, "another order gives another text")
        return len(files) > 1

    def begun(self, rng):
        """Tables to begin with, of files of which a few are damaged."""
        submitted = several(rng, self.folder)
        if rng.random() < 0.3:
            place = rng.randrange(len(submitted.files))
            submitted = made_up_submitters.with_file(submitted, place,
                                                     lambda data: damaged(rng, data))
        folder = os.path.join(self.folder, "begun")
        values = [("cwr", value) for value in written_files(folder, submitted.files)]
        outcomes = [run(words_of(self.program, command, values))
                    for command in ("works", "parties")]
        if outcomes[0][0]:
            demand(outcomes[0] == outcomes[1], "one table is refused otherwise than the other")
            demand(outcomes[0][1] == b"", "a table is refused and printed")
            return False
        makers = registered.works_to_begin_with, registered.payees_to_begin_with
        for name, make, outcome in zip(("works", "payees"), makers, outcomes):
            rows = [row for called, data in submitted.files for row in make(called.encode(), data)]
            demand(outcome == (0, table(name, rows), b""), f"another table of {name}")
        options = written_options(folder, submitted, plan_of(rng))
        over = over_tables(folder, options, outcomes[0][1], outcomes[1][1])
        outcome = run(words_of(self.program, "run", over))
        demand(not refuses_tables(outcome), f"a run refuses them: {outcome[2]!r}")
        return outcome[0] == 0

    def joined(self, rng):
        """A run over several files, and one over their registrations in one file."""
        submitted = several(rng, self.folder)
        plan = plan_of(rng)
        files, payees = joined_files(submitted)
        if files is None:
            return False
        alone, over = self.run_alone(files, payees, plan), self.run_over(submitted, plan)
        demand(alone == over, f"joined {alone[0]} {alone[1][:400]!r} {alone[2]!r}, "
                              f"several {over[0]} {over[1][:400]!r} {over[2]!r}")
        return b"\nL," in b"\n" + alone[1]

    def halves(self, rng):
        """A run over one file, and one over the same registrations in two files."""
        files, payees, plan = one_file(rng, self.folder)
        tis, cwr, usage = files
        alone = self.run_alone(files, payees, plan)
        works, rows, halves = [], [], {b"A": [], b"B": []}
        for number, lines in registered.in_force(cwr).items():
            for name, own in zip(halves, half_lines(rng, lines)):
                halves[name] += own
                works.append([number, name, number, b""])
        for name, lines in halves.items():
            halves[name] = b"\n".join(lines)
            rows += [[name, party, payees.get(party, party), b""]
                     for party in registered.parties(halves[name])]
        tables = {"tis": tis, "usage": usage, "works": table("works", works),
                  "payees": table("payees", rows)}
        listed = [(name.decode(), data) for name, data in halves.items()]
        over = self.run_over(Submitted(tables, listed), plan)
        demand(over == alone, f"{alone[0]} {alone[2]!r} whole, {over[0]} {over[2]!r} in halves")
        return b"\nL," in b"\n" + alone[1]


WAYS = (Trial.alone, Trial.orders, Trial.begun, Trial.joined, Trial.halves)


def plan_of(rng):
    """Some plan."""
    return rng.randint(1, 8), rng.randint(1, 8), rng.randint(1, 64)


def is_name(text, most):
    """Whether a text is printable and has one to so many bytes."""
    return 1 <= len(text) <= most and all(0x20 <= byte <= 0x7e for byte in text)


def quoted(text):
    """A field in quotes."""
    return b'"' + text.replace(b'"', b'""') + b'"'


def one_file(rng, folder):
    """The files of a case with one CWR file, the payee of some parties, and a plan."""
    if rng.random() < 0.7:
        made = [make(rng).encode() for make in (small_inputs.territories,
                                                small_inputs.registrations, small_inputs.usage)]
        if rng.random() < 0.7:
            made[0] = made_up_submitters.LANDS
    else:
        made = made_up.realistic(rng, folder)[:3]
    parties = registered.parties(made[1])
    others = [*parties, b"Z", b"Z Y", b'Q"', b"N" * 64] or [b"Z"]
    part = rng.choice([0, 0.3, 1])
    payees = {party: rng.choice(others) for party in parties if rng.random() < part}
    return made, payees, plan_of(rng)


def several(rng, folder):
    """A case with the files of several submitters, none of them damaged."""
    if rng.random() < 0.8:
        return made_up_submitters.small(rng)
    return made_up_submitters.realistic(rng, folder, is_short=rng.random() < 0.5)


def joined_files(submitted):
    """Territories, one CWR file and usage lines that say the same as the files of several, and the
    payees of its parties. None where a work has more share lines than a registration may."""
    payees = {(name, party.strip(b" ")): payee.strip(b" ")
              for name, party, payee, _ in rows_of(submitted.tables.get("payees", b""))}
    filed = {name.encode(): registered.in_force(data) for name, data in submitted.files}
    linked = {}
    for work, name, number, _ in rows_of(submitted.tables["works"]):
        if number.strip(b" ") in filed[name]:
            linked.setdefault(work, []).append((name, filed[name][number.strip(b" ")]))
    # Payees have numbers by which they stand in for parties, works for submitter work numbers.
    stand_ins, lines = {}, []
    for place, registrations in enumerate(linked.values()):
        lines.append(b"NWR" + b"0" * 16 + b" " * 62 + b"W%d" % place)
        own = []
        for name, registration in registrations:
            for interest in registered.interests(registration):
                for party, share_lines in interest.items():
                    payee = payees.get((name, party), name + b":" + party)
                    stand_in = stand_ins.setdefault(payee, b"P%d" % len(stand_ins))
                    own.append(b"SPU")
                    own += [line[:19] + stand_in.ljust(9) + line[28:] for line in share_lines]
        if sum(line != b"SPU" for line in own) > MOST_LINES:
            return None, None
        lines += own
    numbers = {work: b"W%d" % place for place, work in enumerate(linked)}
    usage = [[name, numbers.get(work, b"X"), *rest]
             for name, work, *rest in rows_of(submitted.tables["usage"])]
    assert all(len(row) == len(HEADERS["usage"]) for row in usage)
    files = [submitted.tables["tis"], b"\n".join(lines), table("usage", usage)]
    return files, {stand_in: payee for payee, stand_in in stand_ins.items()}


def half_lines(rng, lines):
    """The lines of a registration in two, either with its record and some of its interests."""
    halves = [lines[0]], [lines[0]]
    # What stands before the first interest stays together.
    own = rng.choice(halves)
    for line in lines[1:]:
        if line[:3] in (b"SPU", b"SWR"):
            own = rng.choice(halves)
        own.append(line)
    return halves


def trial_of(way, program, number, seed, folder):
    """Tries a program in one way; whether something was compared."""
    rng = random.Random(seed * 1_000_003 + number)
    return way(Trial(program, folder), rng)


def main():
    parser = parser_of_program("bench.properties", __doc__)
    parser.add_argument("--cases", type=int, default=300)
    parser.add_argument("--seed", type=int, default=1)
    a = parser.parse_args()
    compared, wrong = {way.__name__: 0 for way in WAYS}, 0
    with tempfile.TemporaryDirectory() as folder:
        for number in range(a.cases):
            for way in WAYS:
                try:
                    compared[way.__name__] += trial_of(way, a.program, number, a.seed, folder)
                except Differ as differ:
                    wrong += 1
                    print(f"case {number} of seed {a.seed}, {way.__name__}: {differ}")
    counts = ", ".join(f"{count} {name}" for name, count in compared.items())
    print(f"{a.cases} cases ({counts}): {wrong} wrong")
    return 1 if wrong or not all(compared.values()) else 0


if __name__ == "__main__":
    sys.exit(main())
