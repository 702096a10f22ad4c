"""Writes tis.csv, works.cwr and usage.csv of a realistic shape into a folder.

    python3 -m bench.large FOLDER [--lines 100000] [--works 20000] [--parties 400] [--seed 1]
        [--taken-back 0.0]

The same arguments give the same bytes. Up to 20,000,000 lines are written, more than one run takes.
"""
import argparse

from tools.large_inputs import generate


def main():
    parser = argparse.ArgumentParser(prog="bench.large")
    parser.add_argument("outdir")
    parser.add_argument("--lines", type=int, default=100_000)
    parser.add_argument("--works", type=int, default=20_000)
    parser.add_argument("--parties", type=int, default=400)
    parser.add_argument("--seed", type=int, default=1)
    parser.add_argument("--taken-back", type=float, default=0.0,
                        help="which part of the amounts is negative")
    a = parser.parse_args()
    generate(a.outdir, a.lines, a.works, a.parties, a.seed, a.taken_back)


if __name__ == "__main__":
    main()
