"""Runs the program and the plain Rust one on the same large data, side by side, and prints a table
in Markdown.

    python3 -m bench.bench --program PATH [--lines 1000000] [--works 20000] [--parties 400 16000]
        [--seed 1] [--repeats 5] [--nodes 64] [--modes] [--phases] [--lanes PATH] [--submitters]

The program runs with each number of workers and of readers, and beside it the plain program's pool
of linked nodes with the same plan, whose threads tell each other and wait as those of the program
do (`parked`). The plain program also runs on one thread. All of this is done for each number of
parties. The table, with the commit and the machine above it and the aims below it, is made to be
pasted into README.md.

With --modes the plain program also runs without its hints to fetch memory ahead (`prefetch`), which
Rattle has no word for, and in each of its other modes with threads, with 4 workers and 2 readers.
With --lanes PATH, a build of the program in which a run goes over `LaneMail`, only mailboxes are
compared: linked nodes, lanes, and the plain program's linked queues, with 1, 2 and 4 workers, 1 and
2 readers, and 1, 8 and 64 nodes.

With --submitters only runs over one file, and over the same works cut into the files of eight
submitters, are compared: how long they take, and how long with a usage list without lines, where
nearly all of the time is that of reading the registrations. The tables link each registration to
the work of its number and pay each party to the account of its name, so that the statements are the
same bytes.

The data are made once. Every repeat runs each row once, so that noise hits all alike. Statements go
to a file, and have to be the same bytes. A time is the best wall time of the repeats, processor
seconds are those of all threads in that run, the kernel's included, and MB is the greatest peak
memory; how many times as long one program took as another is worked out from the wall times.
"""
import os
import statistics
import subprocess
import sys
import tempfile
import time

from tools import plain
from tools.crates import ROOT
from tools.large_inputs import FILES
from tools.made_up import files_in
from tools.made_up_submitters import cut
from tools.measuring import commit, digest_of, load, machine, run_measured
from tools.running import parser_of_program, program_at, words_of, written
from tools.submitters import table, written_options

PLANS = [(workers, readers) for workers in (1, 2, 4, 8) for readers in (1, 2, 4)] + [(8, 8)]

# The plain program's mode that does as the program does, with which each plan is compared.
MODE = "parked"

# Into whose files the works of one file are cut.
SUBMITTERS = [f"S{n}" for n in range(8)]


class Row:
    """One program, and the best of its runs."""

    def __init__(self, name, command):
        self.name, self.command = name, command
        self.wall = self.processor = self.digest = None
        self.walls = []
        self.memory = 0
        self.phases = ""

    def run(self, folder):
        """Runs the program once more; its statements are left as `out` in the folder."""
        cost = run_measured(self.command, folder)
        with open(os.path.join(folder, "err"), "rb") as file:
            text = file.read().decode(errors="replace")
        if cost.status != 0:
            sys.exit(f"{self.name}: status {cost.status}: {text.strip()[:200]}")
        digest = digest_of(os.path.join(folder, "out"))
        if self.digest not in (None, digest):
            sys.exit(f"{self.name}: its own runs differ")
        self.digest = digest
        self.memory = max(self.memory, cost.memory)
        self.walls.append(cost.wall)
        if self.wall is None or cost.wall < self.wall:
            self.wall, self.processor, self.phases = cost.wall, cost.processor, text


def times(ours, theirs):
    """How many times as long one program took as another, in words."""
    median = statistics.median(a / b for a, b in zip(ours.walls, theirs.walls))
    return f"{ours.wall / theirs.wall:.2f} times the time (median of the repeats {median:.2f})"


def make_data(a, parties, folder):
    """Makes the files of a run in a folder, and answers the words that name them.

    A process of its own makes them, so that the memory for it doesn't count as that of a run.
    """
    words = [sys.executable, "-m", "bench.large", folder, "--lines", str(a.lines), "--works",
             str(a.works), "--parties", str(parties), "--seed", str(a.seed)]
    subprocess.run(words, cwd=ROOT, check=True)
    words = ["run"]
    for option, name in zip(("tis", "cwr", "usage"), FILES):
        words += [f"--{option}", os.path.join(folder, name)]
    return words


def with_plan(words, workers, readers, nodes):
    """The words of a run with its plan."""
    return [*words, "--workers", str(workers), "--readers", str(readers), "--nodes", str(nodes)]


def compare_mailboxes(a, parties, plain_program):
    """Compares kinds of mailboxes: a line for each plan, with the best wall time over each kind."""
    kinds = {"links": [a.program], "lanes": [a.lanes],
             "plain links": [plain_program, "--mode", "linked"]}
    plans = [(w, r, n) for w in (1, 2, 4) for r in (1, 2) for n in (1, 8, 64)]
    before = load()
    with tempfile.TemporaryDirectory() as folder:
        files = make_data(a, parties, folder)
        rows = {(plan, kind): Row(kind, [command[0], *with_plan(files, *plan), *command[1:]])
                for plan in plans for kind, command in kinds.items()}
        for _ in range(a.repeats):
            for row in rows.values():
                row.run(folder)
    print(f"{a.lines} lines, {a.works} works, {parties} parties, best of {a.repeats}, "
          f"{os.cpu_count()} cores, load {before:.1f} to {load():.1f}")
    print(f"{'workers x readers, nodes':<26}" + "".join(f"{kind:>14}" for kind in kinds))
    for plan in plans:
        cells = "".join(f"{rows[plan, kind].wall:>14.3f}" for kind in kinds)
        print(f"{'{} x {}, {}'.format(*plan):<26}" + cells)
    if len({row.digest for row in rows.values()}) != 1:
        print("the statements differ")
        return 1
    print("the statements are the same bytes")
    return 0


def words_of_submitters(folder):
    """The words of runs over data in a folder, by how many files have the registrations and whether
    there are usage lines."""
    tis, cwr, usage = files_in(folder)
    submitted = cut(tis, cwr, usage, SUBMITTERS)
    words = {}
    for has_lines in (True, False):
        listed = usage if has_lines else table("usage", [])
        room = os.path.join(folder, "whole" if has_lines else "empty")
        paths = written(room, dict(zip(("tis", "cwr", "usage"), (tis, cwr, listed))))
        one = words_of("", "run", zip(("tis", "cwr", "usage"), paths))[1:]
        submitted.tables["usage"] = listed
        options = written_options(os.path.join(room, "submitters"), submitted)
        words[1, has_lines] = one
        words[len(SUBMITTERS), has_lines] = words_of("", "run", options)[1:]
    return words


def compare_submitters(a, parties, plain_program):
    """Compares runs over one file and over those of several submitters, in a table."""
    programs = {"program": [a.program], "plain": [plain_program, "--mode", MODE]}
    plans = (1, 1), (4, 2)
    before = load()
    with tempfile.TemporaryDirectory() as folder:
        make_data(a, parties, folder)
        listed = words_of_submitters(folder)
        rows = {(name, plan, *key): Row(f"{name} {plan} {key}", [
            command[0], *with_plan(words, *plan, a.nodes), *command[1:]])
            for name, command in programs.items() for plan in plans
            for key, words in listed.items()}
        for _ in range(a.repeats):
            for row in rows.values():
                row.run(folder)
    print(f"{time.strftime('%Y-%m-%d')}, commit {commit()}, {machine()}, "
          f"load {before:.1f} to {load():.1f}.")
    print(f"{a.lines:,} usage lines of {a.works:,} works, {parties:,} parties, best of "
          f"{a.repeats}; seconds with one file and with {len(SUBMITTERS)}.\n")
    heads = [f"{name}{more}" for name in programs for more in (" 1 file", " 8 files", " MB")]
    print(row_of(["workers x readers", *heads]))
    print("|" + "---|" * (len(heads) + 1))
    for plan in plans:
        for has_lines in (True, False):
            pairs = [(rows[name, plan, 1, has_lines], rows[name, plan, len(SUBMITTERS), has_lines])
                     for name in programs]
            title = "{} x {}".format(*plan) + ("" if has_lines else ", to read")
            print(row_of([title, *(cell for pair in pairs for cell in cells_of_two(*pair))]))
    digests = {(row.digest, key[-1]) for key, row in rows.items()}
    print("\nThe statements are the same bytes." if len(digests) == 2 else
          "\nthe statements differ")
    return 0 if len(digests) == 2 else 1


def cells_of_two(one, several):
    """What a table says of runs over one file and over several: both times, how many times as long
    the second one took, and the peak memory of both."""
    times_as_long = several.wall / one.wall
    return [f"{one.wall:.3f}", f"{several.wall:.3f} ({times_as_long:.2f} times)",
            f"{one.memory:.0f}, {several.memory:.0f}"]


class Measured:
    """What was measured with one number of parties."""

    def __init__(self, a, parties, folder, plain_program, no_hints):
        self.parties = parties
        files = make_data(a, parties, folder)

        def words(*plan):
            return with_plan(files, *plan, a.nodes)

        self.ours = {plan: Row("program {} x {}".format(*plan), [a.program, *words(*plan)])
                     for plan in PLANS}
        self.pools = {plan: Row("{} {} x {}".format(MODE, *plan),
                                [plain_program, *words(*plan), "--mode", MODE])
                      for plan in PLANS}
        self.plain = Row("plain", [plain_program, *words(1, 1), "--times"])
        self.others = []
        if a.modes:
            self.others = [Row("no hints", [no_hints, *words(1, 1)])] + [
                Row(f"{mode} 4 x 2", [plain_program, *words(4, 2), "--mode", mode])
                for mode in ("threads", "channels", "batches", "linked", "pool", "rings")]
        self.rows = [*self.ours.values(), *self.pools.values(), self.plain, *self.others]
        for _ in range(a.repeats):
            for row in self.rows:
                row.run(folder)
        self.postings = postings_in(os.path.join(folder, "out"))

    def best(self):
        """The row of the program's best plan."""
        return min(self.ours.values(), key=lambda row: row.wall)

    def cells(self, plan):
        """What the table says of a plan."""
        return cells_of(self.ours[plan], self.pools[plan])

    def worst(self):
        """The plan that took longest beside the plain pool, and how many times as long."""
        plan = max(PLANS, key=lambda plan: self.ours[plan].wall / self.pools[plan].wall)
        return plan, self.ours[plan].wall / self.pools[plan].wall

    def is_one_text(self):
        """Whether all rows gave the same statements."""
        return len({row.digest for row in self.rows}) == 1


def heads_of(parties):
    """The heads of the cells with a number of parties."""
    return [f"{parties:,} parties", "plain pool", "times as long", "processor s of both", "MB"]


def cells_of(ours, pool):
    """What the table says of the program beside the plain pool."""
    return [f"{ours.wall:.2f}", f"{pool.wall:.2f}", f"{ours.wall / pool.wall:.2f}",
            f"{ours.processor:.2f}, {pool.processor:.2f}", f"{ours.memory:.0f}"]


def cells_alone(row):
    """What it says of a program that stands beside none."""
    return [f"{row.wall:.2f}", "", "", f"{row.processor:.2f}", f"{row.memory:.0f}"]


def postings_in(path):
    """How many postings the statements in a file have, those to the residue included."""
    with open(path, "rb") as file:
        return sum(line.startswith((b"L,", b"M,")) for line in file)


def row_of(cells):
    """A row of a table in Markdown."""
    return "| " + " | ".join(cells) + " |"


def print_table(a, measured, before):
    """Prints the times of all plans; `before` was the load when the runs began."""
    print(f"{time.strftime('%Y-%m-%d')}, commit {commit()}, {machine()}, "
          f"load {before:.1f} to {load():.1f}.")
    print(f"{a.lines:,} usage lines of {a.works:,} works, {a.nodes} nodes, best of {a.repeats}.\n")
    heads = ["workers x readers", *(head for m in measured for head in heads_of(m.parties))]
    print(row_of(heads))
    print("|" + "---|" * len(heads))
    for plan in PLANS:
        cells = [cell for m in measured for cell in m.cells(plan)]
        print(row_of(["{} x {}".format(*plan), *cells]))
    cells = [cell for m in measured for cell in cells_alone(m.plain)]
    print(row_of(["the plain program, one thread", *cells]))


def print_aims(measured):
    """Prints each aim that these runs can meet: what was measured, and whether it is met."""
    print("\n" + row_of(["aim", "measured", "met"]) + "\n|---|---|---|")

    def tell(aim, value, most, unit=""):
        print(row_of([aim, f"{value:.2f}{unit}", "yes" if value <= most else "no"]))

    few, many = measured[0], measured[-1]
    for m, most in ((few, 1.25), (many, 1.3)):
        plan, value = m.worst()
        tell(f"{m.parties:,} parties: each plan takes at most {most} times as long as the plain "
             "pool", value, most, " ({} x {})".format(*plan))
    tell(f"{few.parties:,} parties: the best plan takes at most 1.15 times as long as the plain "
         "program on one thread",
         few.best().wall / few.plain.wall, 1.15, f" ({few.best().name.removeprefix('program ')})")
    tell(f"{few.parties:,} parties: 1 x 1 takes at most 1.0 s where the plain program takes 0.56, "
         "which is 1.79 times as long",
         few.ours[1, 1].wall / few.plain.wall, 1.79)
    per_posting = [min(row.wall for row in m.ours.values()) / m.postings for m in (few, many)]
    tell(f"the best plan takes at most twice as long a posting with {many.parties:,} parties as "
         f"with {few.parties:,}",
         per_posting[1] / per_posting[0], 2)
    tell(f"{many.parties:,} parties: 8 x 8 takes at most 40 MB more than the plain program",
         many.ours[8, 8].memory - many.plain.memory, 40, " MB")


def print_modes(measured):
    """Prints the times of the plain program without hints and in its other modes."""
    for m in measured:
        print(f"\n{m.parties:,} parties{'':<8}{'wall s':>10}{'user+sys':>10}{'MB':>8}")
        for row in (m.best(), m.plain, *m.others):
            print(f"{row.name:<20}{row.wall:>10.3f}{row.processor:>10.3f}{row.memory:>8.0f}")
        for other in (m.plain, *m.others):
            print(f"program 1 x 1 to {other.name}: {times(m.ours[1, 1], other)}")


def options():
    """The options as they were given."""
    parser = parser_of_program("bench.bench", __doc__)
    parser.add_argument("--lines", type=int, default=1_000_000)
    parser.add_argument("--works", type=int, default=20_000)
    parser.add_argument("--parties", type=int, nargs="+", default=[400, 16_000])
    parser.add_argument("--seed", type=int, default=1)
    parser.add_argument("--repeats", type=int, default=5)
    parser.add_argument("--nodes", type=int, default=64)
    parser.add_argument("--modes", action="store_true",
                        help="the plain program's other modes, and without hints")
    parser.add_argument("--phases", action="store_true", help="those of the plain program")
    parser.add_argument("--lanes", type=program_at, help="a build of the program over lanes")
    parser.add_argument("--submitters", action="store_true",
                        help="one file, and the same works cut into eight")
    return parser.parse_args()


def main():
    a = options()
    plain_program = plain.build()
    no_hints = plain.build("target/no_hints", "--no-default-features") if a.modes else None
    if a.lanes:
        return max(compare_mailboxes(a, parties, plain_program) for parties in a.parties)
    if a.submitters:
        return max(compare_submitters(a, parties, plain_program) for parties in a.parties)
    before = load()
    measured = []
    for parties in a.parties:
        with tempfile.TemporaryDirectory() as folder:
            measured.append(Measured(a, parties, folder, plain_program, no_hints))
    print_table(a, measured, before)
    print_aims(measured)
    if a.modes:
        print_modes(measured)
    if a.phases:
        print("\n" + measured[0].plain.phases, end="")
    if not all(m.is_one_text() for m in measured):
        print("\nthe statements differ")
        return 1
    print("\nThe statements are the same bytes.")
    return 0


if __name__ == "__main__":
    sys.exit(main())
