"""Adjusts two large statement texts with the program and the plain Rust one, and prints how long that
took beside a merge of the two and beside `sort`.

    python3 -m bench.large_adjustment --program PATH [--rows 36000000] [--repeats 3]

Each text has half of the rows, in some 30 bytes each, and 16,000 payees. One payee in ten is paid
other amounts in the second text, for one use in five. Both adjustments have to be the same bytes.
"""
import os
import random
import sys
import tempfile

from tools import measuring, plain
from tools.running import parser_of_program

PAYEES = 16_000


def texts_in(paths, rows):
    """Writes what was paid and what is right, each with so many rows of portions."""
    rng = random.Random(1)
    uses = max(1, rows // PAYEES)
    totals = [0, 0]
    files = [open(path, "w", encoding="ascii") for path in paths]
    for number in range(PAYEES):
        payee = f"P{number:08}"
        paid = [rng.randrange(1, 200_000) for _ in range(uses)]
        right = list(paid)
        if number % 10 == 0:
            right = [it + (rng.randrange(-9, 10) if rng.random() < 0.2 else 0) or 1 for it in paid]
        for place, amounts in enumerate((paid, right)):
            rows_of = [f"L,{payee},USE-{use:06},{it}\n" for use, it in enumerate(amounts)]
            files[place].write("".join(rows_of) + f"S,{payee},{uses},{sum(amounts)}\n")
            totals[place] += sum(amounts)
    for file, total in zip(files, totals):
        file.write(f"T,,0,0\nR,,{rows},{total}\n")
        file.close()


def commands(paths, to, program):
    """The command lines over two texts, by name, and the file that has their answer."""
    return {
        "royalty_run adjust": [program, "adjust", *paths, "--output", to],
        "royalty_run adjust, to standard output": [program, "adjust", *paths],
        "royalty_run merge": [program, "merge", *paths, "--output", to],
        "plain adjust": [plain.build(), "adjust", *paths],
        "sort": ["sort", "--output", to, *paths],
    }


def main():
    parser = parser_of_program("bench.large_adjustment", __doc__)
    parser.add_argument("--rows", type=int, default=36_000_000, help="of both texts")
    parser.add_argument("--repeats", type=int, default=3, help="of which the best is told")
    words = parser.parse_args()
    os.environ["LC_ALL"] = "C"
    with tempfile.TemporaryDirectory() as folder:
        paths = [os.path.join(folder, name) for name in ("paid.csv", "right.csv")]
        texts_in(paths, words.rows // 2)
        size = sum(os.path.getsize(path) for path in paths) / 1e6
        print(f"{words.rows} rows, {size:.0f} MB, commit {measuring.commit()}, "
              f"{measuring.machine()}, load {measuring.load():.1f}\n")
        print("| command | wall s | processor s | MB a second | peak MB |")
        print("|---|---|---|---|---|")
        to, digests = os.path.join(folder, "answer"), set()
        lines = commands(paths, to, os.path.realpath(words.program))
        for name, line in lines.items():
            repeats = 1 if name.startswith("plain") else words.repeats
            costs = [measuring.run_measured(line, folder) for _ in range(repeats)]
            best = min(costs)
            if best.status != 0:
                sys.exit(f"{name}: status {best.status}")
            if "adjust" in name:
                digests.add(measuring.digest_of(to if to in line else os.path.join(folder, "out")))
            print(f"| {name} | {best.wall:.2f} | {best.processor:.2f} | {size / best.wall:.0f} | "
                  f"{best.memory:.0f} |", flush=True)
    if len(digests) > 1:
        sys.exit("they wrote different adjustments")


if __name__ == "__main__":
    main()
