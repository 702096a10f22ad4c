"""Imports one large sales report with the program, the plain Rust one, python3 and awk, and prints
how long each took.

    python3 -m bench.large_import --program PATH [--rows 5000000] [--repeats 3]

The report has seven columns, a table of 50,000 recordings, and amounts with two decimals; one row
in a thousand is rejected. All four write the usage lines, and have to write the same. The script
for python3 uses its modules csv and decimal, as one would write it in an hour. That for awk knows
no quotes, of which the report has none, and checks no names.
"""
import os
import random
import sys
import tempfile

from tools import measuring, plain
from tools.running import parser_of_program

HEADER = "status,use,isrc,title,country,right,net\n"
COUNTRIES = {"DE": "276", "FR": "250", "GB": "826", "NO": "578", "SE": "752", "US": "840"}
RIGHTS = {"Performance": "P", "Mechanical": "M", "Synchronisation": "S"}
RECORDINGS = 50_000

# How many rows are made up at a time.
PAGE = 100_000

PYTHON = r"""
import csv, decimal, re, sys
def table(path):
    with open(path, newline="") as file:
        return dict(list(csv.reader(file))[1:])
works, countries, rights = map(table, sys.argv[2:5])
with open(sys.argv[1], newline="") as file, open(sys.argv[5], "w", newline="") as lines, \
        open(sys.argv[6], "w", newline="") as rejects:
    rows = csv.DictReader(file)
    to = csv.writer(lines, lineterminator="\n")
    bad = csv.writer(rejects, lineterminator="\n")
    to.writerow(["usage", "work", "territory", "right", "amount"])
    for row in rows:
        try:
            units = decimal.Decimal(row["net"]) * 100
            if units != int(units):
                raise ValueError
            to.writerow([row["use"], works[row["isrc"]], countries[row["country"]],
                         rights[row["right"]], int(units)])
        except (KeyError, ValueError, decimal.InvalidOperation):
            bad.writerow(row.values())
"""

AWK = r"""
BEGIN { FS = OFS = ","; print "usage,work,territory,right,amount" > lines }
FILENAME != now { now = FILENAME; part++; next }
part < 4 { found[part, $1] = $2; next }
($7 ~ /^-?[0-9]+\.[0-9][0-9]$/) && ((1, $3) in found) && ((2, $5) in found) && ((3, $6) in found) {
    amount = $7; sub(/\./, "", amount); sub(/^-0+/, "-", amount); sub(/^0+/, "", amount)
    print $2, found[1, $3], found[2, $5], found[3, $6], (amount == "" || amount == "-") ? 0 : amount > lines
    next
}
{ print > rejects }
"""


def report_in(path, count):
    """Writes a report of so many rows."""
    rng = random.Random(1)
    countries, rights = list(COUNTRIES), list(RIGHTS)
    with open(path, "w", encoding="ascii") as file:
        file.write(HEADER)
        for begin in range(0, count, PAGE):
            page = []
            for number in range(begin, min(count, begin + PAGE)):
                recording = rng.randrange(RECORDINGS + RECORDINGS // 1000)
                amount = rng.randrange(-2_000, 200_000)
                sign, cents = "-" * (amount < 0), abs(amount)
                page.append(f"sale,PLAY-{number:08},QZABC26{recording:05},SONG {recording},"
                            f"{rng.choice(countries)},{rng.choice(rights)},"
                            f"{sign}{cents // 100}.{cents % 100:02}\n")
            file.write("".join(page))


def table_in(path, rows):
    """Writes a table of values."""
    with open(path, "w", encoding="ascii") as file:
        file.write("from,to\n" + "".join(f"{value},{to}\n" for value, to in rows))


def words_of(folder, program):
    """The words that import the report of a folder."""
    at = lambda name: os.path.join(folder, name)  # noqa: E731
    return [program, "import", at("sales.csv"), "--usage", "use", "--work", "isrc",
            "--territory", "country", "--right", "right", "--amount", "net",
            "--works", at("works.csv"), "--territories", at("countries.csv"),
            "--rights", at("rights.csv"), "--output", at("lines"), "--rejects", at("rejects")]


def commands(folder, program):
    """The command lines that import the report of a folder, by name."""
    names = ["sales.csv", "works.csv", "countries.csv", "rights.csv", "lines", "rejects"]
    report, *tables, lines, rejects = (os.path.join(folder, name) for name in names)
    return {
        "royalty_run": words_of(folder, program),
        "plain": words_of(folder, plain.build()),
        "python3": [sys.executable, "-c", PYTHON, report, *tables, lines, rejects],
        "awk": ["awk", "-v", f"lines={lines}", "-v", f"rejects={rejects}", AWK, *tables, report],
    }


def main():
    parser = parser_of_program("bench.large_import", __doc__)
    parser.add_argument("--rows", type=int, default=5_000_000, help="how long the report is")
    parser.add_argument("--repeats", type=int, default=3, help="of which the best is told")
    words = parser.parse_args()
    with tempfile.TemporaryDirectory() as folder:
        report = os.path.join(folder, "sales.csv")
        report_in(report, words.rows)
        table_in(os.path.join(folder, "works.csv"),
                 ((f"QZABC26{n:05}", f"W{n:05}") for n in range(RECORDINGS)))
        table_in(os.path.join(folder, "countries.csv"), COUNTRIES.items())
        table_in(os.path.join(folder, "rights.csv"), RIGHTS.items())
        size = os.path.getsize(report) / 1e6
        print(f"{words.rows} rows, {size:.0f} MB, commit {measuring.commit()}, "
              f"{measuring.machine()}, load {measuring.load():.1f}\n")
        print("| program | wall s | processor s | rows a second | MB a second | peak MB |")
        print("|---|---|---|---|---|---|")
        digests = set()
        for name, line in commands(folder, os.path.realpath(words.program)).items():
            costs = [measuring.run_measured(line, folder) for _ in range(words.repeats)]
            best = min(costs)
            if best.status not in (0, 1):
                sys.exit(f"{name}: status {best.status}")
            digests.add(measuring.digest_of(os.path.join(folder, "lines")))
            print(f"| {name} | {best.wall:.2f} | {best.processor:.2f} | "
                  f"{words.rows / best.wall:,.0f} | {size / best.wall:.0f} | {best.memory:.0f} |",
                  flush=True)
    if len(digests) > 1:
        sys.exit("they wrote different usage lines")


if __name__ == "__main__":
    main()
