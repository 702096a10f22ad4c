"""Runs the program and the plain Rust one on a machine that others keep busy, and prints a table in
Markdown.

    python3 -m bench.busy --program PATH [--lines 1000000] [--works 20000] [--parties 400]
        [--seed 1] [--repeats 3] [--loops 8] [--seconds 120]

So many loops that only count are started, and ended by their ids when the runs are over. Beside
them the plain program runs on one thread, and the program by a few plans; the least time of each
stands in the table, with the processor time of that run. A run that takes more seconds than
--seconds is ended, and has `over` in its place. Statements have to be the same bytes.

Beside such loops the program also divides a short list with so few nodes that its worker waits for
a reader every few postings. The least time for that stands below the table.
"""
import argparse
import contextlib
import os
import subprocess
import sys
import tempfile
import time

from bench.bench import make_data, postings_in, row_of, with_plan
from tools import plain
from tools.measuring import commit, digest_of, load, machine, run_measured
from tools.running import parser_of_program

# The plans, each with how many times the plain program's time it may take there.
PLANS = {(1, 1): 3, (2, 1): 3, (4, 2): 3, (8, 8): 8}

# The short list, which comes to some 9,000 postings; its workers, readers and nodes; and how many
# seconds it may take.
SHORT = {"lines": 4_000, "works": 500, "parties": 50}
SHORT_PLAN = (1, 4, 3)
SHORT_SECONDS = 5

# What a loop does until it is ended.
LOOP = "while True: pass"


@contextlib.contextmanager
def loops(count):
    """Keeps so many processors busy, and ends what it started."""
    begun = [subprocess.Popen([sys.executable, "-ISc", LOOP]) for _ in range(count)]
    try:
        yield begun
    finally:
        for loop in begun:
            loop.kill()
        for loop in begun:
            loop.wait()


class Best:
    """One program, and the best of its runs."""

    def __init__(self, name, words):
        self.name, self.words = name, words
        self.wall = self.processor = self.digest = None

    def run(self, folder, seconds):
        """Runs it once more, for at most so many seconds."""
        cost = run_measured(["timeout", str(seconds), *self.words], folder)
        if cost.status == 124:
            return
        if cost.status:
            sys.exit(f"{self.name}: status {cost.status}")
        digest = digest_of(os.path.join(folder, "out"))
        if self.digest not in (None, digest):
            sys.exit(f"{self.name}: its own runs differ")
        self.digest = digest
        if self.wall is None or cost.wall < self.wall:
            self.wall, self.processor = cost.wall, cost.processor


def cells_of(best, beside):
    """What the table says of a program beside another."""
    if best.wall is None:
        return [best.name, "over", "", ""]
    times = f"{best.wall / beside.wall:.1f}" if beside.wall else ""
    return [best.name, f"{best.wall:.2f}", times, f"{best.processor:.2f}"]


def met(best, beside, most):
    """Whether a program takes at most so many times as long as another."""
    return None not in (best.wall, beside.wall) and best.wall <= most * beside.wall


def short_aim(postings):
    """The aim of the short list, in words."""
    workers, readers, nodes = SHORT_PLAN
    return (f"{workers} x {readers} with {nodes} nodes takes at most {SHORT_SECONDS} s for "
            f"{postings:,} postings")


def short_took(best, postings):
    """What the short list took, in words."""
    took = ("took too long and was ended" if best.wall is None else
            f"took {best.wall:.2f} s, and {best.processor:.2f} s of processor time")
    return (f"{SHORT['lines']:,} usage lines of {SHORT['works']:,} works and {SHORT['parties']:,} "
            f"parties, {postings:,} postings, {SHORT_PLAN[2]} nodes: {best.name} {took}.")


def is_soon(best):
    """Whether the short list took no more than it may."""
    return best.wall is not None and best.wall <= SHORT_SECONDS


def is_one_text(bests):
    """Whether all of these that ended gave the same statements."""
    return len({best.digest for best in bests if best.digest}) <= 1


def measure(a, plain_program):
    """The plain program and each plan, run in turn beside the loops."""
    with tempfile.TemporaryDirectory() as folder:
        files = make_data(a, a.parties, folder)
        beside = Best("the plain program, one thread",
                      [plain_program, *with_plan(files, 1, 1, 64)])
        ours = {plan: Best("{} x {}".format(*plan), [a.program, *with_plan(files, *plan, 64)])
                for plan in PLANS}
        with loops(a.loops):
            for _ in range(a.repeats):
                for best in (beside, *ours.values()):
                    best.run(folder, a.seconds)
    return beside, ours


def measure_short(a, plain_program):
    """The plain program and the program over the short list, and how many postings it comes to.

    The plain program runs once, before the loops, for the statements alone.
    """
    with tempfile.TemporaryDirectory() as folder:
        files = make_data(argparse.Namespace(**SHORT, seed=a.seed), SHORT["parties"], folder)
        beside = Best("the plain program", [plain_program, *with_plan(files, 1, 1, 64)])
        beside.run(folder, a.seconds)
        postings = postings_in(os.path.join(folder, "out"))
        ours = Best("{} x {}".format(*SHORT_PLAN), [a.program, *with_plan(files, *SHORT_PLAN)])
        with loops(a.loops):
            for _ in range(a.repeats):
                ours.run(folder, a.seconds)
    return beside, ours, postings


def options():
    """The options as they were given."""
    parser = parser_of_program("bench.busy", __doc__)
    parser.add_argument("--lines", type=int, default=1_000_000)
    parser.add_argument("--works", type=int, default=20_000)
    parser.add_argument("--parties", type=int, default=400)
    parser.add_argument("--seed", type=int, default=1)
    parser.add_argument("--repeats", type=int, default=3)
    parser.add_argument("--loops", type=int, default=8)
    parser.add_argument("--seconds", type=int, default=120)
    return parser.parse_args()


def main():
    a = options()
    before = load()
    plain_program = plain.build()
    beside, ours = measure(a, plain_program)
    short_beside, short, postings = measure_short(a, plain_program)
    print(f"{time.strftime('%Y-%m-%d')}, commit {commit()}, {machine()}, load {before:.1f} before.")
    print(f"{a.lines:,} usage lines of {a.works:,} works and {a.parties:,} parties, 64 nodes, "
          f"best of {a.repeats} beside {a.loops} busy loops.\n")
    print(row_of(["workers x readers", "wall s", "times the plain program", "processor s"]))
    print("|---|---|---|---|")
    for best in (*ours.values(), beside):
        print(row_of(cells_of(best, beside)))
    print("\n" + short_took(short, postings))
    print("\n" + row_of(["aim", "met"]) + "\n|---|---|")
    for plan, most in PLANS.items():
        aim = "{} x {} takes at most {} times as long as the plain program".format(*plan, most)
        print(row_of([aim, "yes" if met(ours[plan], beside, most) else "no"]))
    print(row_of([short_aim(postings), "yes" if is_soon(short) else "no"]))
    if not (is_one_text([beside, *ours.values()]) and is_one_text([short_beside, short])):
        print("\nthe statements differ")
        return 1
    return 0


if __name__ == "__main__":
    sys.exit(main())
