"""Runs the program and the plain Rust one on damaged files, and compares what they answer.

    python3 -m bench.fuzz --program PATH [--cases 100000] [--seed 1] [--jobs 2] [--seconds 60]
        [--submitters] [--keep FOLDER]
    python3 -m bench.fuzz --program PATH --only N [--seed 1] [--submitters] [--keep FOLDER]

A case starts from the example files, from small made-up inputs, or from small ones of a realistic
shape; half of the cases have a table of payees. Some files have another form (`tools/forms.py`).
One to three files of each are damaged, one to six times each: cut off, or with bytes, fields or
lines left out, doubled, swapped, changed, or put in from elsewhere or from another file.

With --submitters each case has the files of one to five submitters, which are damaged in the same
way. Beside a run, the tables that `works` and `parties` print are compared, the explanations of
three usage lines, at times one past the last, and a report of `check`. Of words that are refused
(status 2) only the status is compared.

The same seed and number give the same case, so a case that differs can be run again alone: its
files are left in a folder of their own below FOLDER, and the two commands are printed. A run that
takes longer than --seconds counts as one that differs.
"""
import multiprocessing
import os
import random
import sys
import tempfile

from tools import made_up_submitters, plain, small_inputs
from tools.comparing import alike, first_difference
from tools.damage import in_bytes, in_fields, in_lines
from tools.large_inputs import generate
from tools.made_up import example, files_in, in_other_forms, parties_of
from tools.running import NAMES, parser_of_program, run, run_options, words_of, written
from tools.submitters import without_plan, written_options

# Usage lines that are explained in each case of several submitters.
EXPLAINED = 3


def payees_of(rng, registrations):
    """A table of payees of some parties of the registrations, and of some that they don't have."""
    names = parties_of(registrations) + [b"Z", b"Y", b"N" * 64]
    some = [name for name in names if rng.random() < rng.choice([0.2, 0.8])]
    rows = [b"party,payee"]
    for party in some:
        pair = [party, rng.choice(names)]
        rows.append(b",".join(b'"' + name.replace(b'"', b'""') + b'"' for name in pair))
    return b"\n".join(rows) + b"\n"


def generated(rng, folder):
    """Small files of a realistic shape."""
    lines, works, parties = rng.randint(1, 60), rng.randint(1, 15), rng.randint(2, 9)
    generate(folder, lines, works, parties, rng.randrange(1 << 30), taken_back=1 / 3)
    return files_in(folder)


def case(seed, number, folder):
    """The files of a case, a table of payees last if it has one, and its plan."""
    rng = random.Random(seed * 1_000_003 + number)
    kind = rng.random()
    if kind < 0.3:
        files = example()
    elif kind < 0.65:
        makers = small_inputs.territories, small_inputs.registrations, small_inputs.usage
        files = [make(rng).encode() for make in makers]
    else:
        files = generated(rng, folder)
    places = [0, 1, 1, 2, 2]
    if rng.random() < 0.5:
        is_small = rng.random() < 0.3
        files.append(small_inputs.payees(rng).encode() if is_small else payees_of(rng, files[1]))
        places += [3, 3]
    files = in_other_forms(rng, files)
    for place in {rng.choice(places) for _ in range(rng.choice([1, 1, 1, 2, 3]))}:
        for _ in range(rng.choice([1, 1, 1, 2, 3, 6])):
            damage = rng.choice([in_bytes, in_lines, in_fields])
            files[place] = damage(rng, files[place], files)
    return files, (rng.randint(1, 8), rng.randint(1, 8), rng.choice([1, 2, 3, 8, 64]))


def commands(a, number, room, folder):
    """The commands of a case with their options. Its files are written to a folder."""
    if a.submitters:
        rng = random.Random(a.seed * 1_000_003 + number)
        submitted = made_up_submitters.fuzzed(rng, room)
        plan = rng.randint(1, 8), rng.randint(1, 8), rng.choice([1, 2, 3, 8, 64])
        options = written_options(folder, submitted, plan)
        files = [option for option in options if option[0] == "cwr"]
        inputs = without_plan(options)
        lines = max(1, submitted.tables["usage"].count(b"\n") - 1)
        explained = [("explain", [*inputs, ("row", rng.randint(1, lines + 1))])
                     for _ in range(EXPLAINED)]
        return [("run", options), ("works", files), ("parties", files), *explained,
                ("check", inputs)]
    files, plan = case(a.seed, number, room)
    paths = written(folder, dict(zip(NAMES, files)))
    return [("run", run_options(paths, plan))]


def end_of(outcome):
    """How a run ended, in words."""
    status, _, message = outcome
    if not status:
        return "statements"
    if status == 2:
        return "words refused"
    return message.decode("ascii", "replace").split(" at ")[0].strip()


def run_part(part):
    """Runs each jobs-th case, and answers how they ended and those that differ."""
    a, program, plain_program, first = part
    ends, differing = {}, []
    with tempfile.TemporaryDirectory() as folder:
        for number in range(first, a.cases, a.jobs):
            for command, options in commands(a, number, folder, folder):
                ours, theirs = (run(words_of(it, command, options), a.seconds)
                                for it in (program, plain_program))
                if command == "run":
                    end = end_of(ours)
                    ends[end] = ends.get(end, 0) + 1
                if not alike(ours, theirs):
                    differing.append((number, command, ours, theirs))
    return ends, differing


def keep(a, programs, number):
    """Leaves the files of a case, and says how to run it again."""
    name = f"submitters_{a.seed}_{number}" if a.submitters else f"case_{a.seed}_{number}"
    folder = os.path.join(os.path.abspath(a.keep), name)
    with tempfile.TemporaryDirectory() as room:
        asked = commands(a, number, room, folder)
    for command, options in asked:
        for program in programs:
            print("  " + " ".join(words_of(program, command, options)))


def main():
    parser = parser_of_program("bench.fuzz", __doc__)
    parser.add_argument("--cases", type=int, default=100_000)
    parser.add_argument("--seed", type=int, default=1)
    parser.add_argument("--jobs", type=int, default=2)
    parser.add_argument("--seconds", type=int, default=60)
    parser.add_argument("--only", type=int)
    parser.add_argument("--submitters", action="store_true",
                        help="cases with the files of several submitters")
    parser.add_argument("--keep", default=os.path.join(tempfile.gettempdir(), "royalty_fuzz"))
    a = parser.parse_args()
    programs = a.program, plain.build()
    if a.only is not None:
        keep(a, programs, a.only)
        return 0
    with multiprocessing.Pool(a.jobs) as pool:
        parts = pool.map(run_part, [(a, *programs, first) for first in range(a.jobs)])
    ends, differing = {}, []
    for part_ends, part_differing in parts:
        for end, count in part_ends.items():
            ends[end] = ends.get(end, 0) + count
        differing += part_differing
    for end, count in sorted(ends.items(), key=lambda e: -e[1]):
        print(f"{count:8} {end}")
    for number, command, ours, theirs in sorted(differing)[:20]:
        print(f"case {number} of seed {a.seed} differs, {command}: "
              f"{first_difference(ours, theirs)}; its files and commands:")
        keep(a, programs, number)
    print(f"{a.cases} cases of seed {a.seed}: {len(differing)} differ")
    return 1 if differing else 0


if __name__ == "__main__":
    sys.exit(main())
