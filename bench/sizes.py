"""Runs the program and the plain Rust one at each limit and one beyond it, and shows time and peak
memory.

    python3 -m bench.sizes --program PATH [--only TEXT] [--largest]
    python3 -m bench.sizes --program PATH --submitters [--only TEXT]

Each line is a case: its status and message, the wall time and the peak memory of the program, and
those of the plain one. A case that doesn't end as it has to makes the script fail. One case, a
million lines that are divided among 256 parties each, takes a minute, 5 GB of memory and 3 GB of
disk for its statements, so it is run with --largest alone, and without the plain program.

With --submitters the cases are those of runs over the files of several submitters, and of the
tables that `works` and `parties` print: files, rows of works and payees, payees of a work and of
all. A work of a million registrations and one whose claims go beyond 32 bits are among them. Of
words that are refused (status 2) the messages may differ.
"""
import os
import sys
import tempfile

from tools import plain
from tools.measuring import digest_of, run_measured
from tools.running import NAMES, message_in, parser_of_program, run_options, words_of, written
from tools.submitters import Submitted, table, written_files, written_options

MOST_BYTES = 268_435_456
USAGE = b"usage,work,territory,right,amount\n"
PLAN = (4, 4, 64)


def nwr(work):
    """The record that begins the registration of a work."""
    return b"NWR" + b"0" * 16 + b"SONG".ljust(62) + work + b"\n"


def spt(party, shares=b"000010000100001", code=b"2136"):
    """A share line of a party."""
    return b"SPT" + b"0" * 16 + party.ljust(9) + b" " * 6 + shares + b"I" + code + b"\n"


def tis(rows=1):
    """A table of this many territories, each within the one before: 2136, 1, 2 and so on."""
    codes = [2136, *(n for n in range(1, 9999) if n != 2136)][:rows]
    pairs = zip(codes, codes[1:])
    return b"code,groups\n2136,\n" + b"".join(b"%d,%d\n" % (code, group) for group, code in pairs)


def work_of(shares, name=b"W1"):
    """A work with this many share lines, each of another party."""
    lines = b"".join(spt(b"P%d" % n) for n in range(shares))
    return nwr(name) + b"SPU" + b"0" * 16 + b"\n" + lines


def uses(count, row=b"u,W1,2136,P,10000\n"):
    """A usage list with this many lines, all alike."""
    return USAGE + row * count


def filled(start, unit, most=MOST_BYTES):
    """The start and as many of the units, which are numbered, as there is room for."""
    parts, size, number = [start], len(start), 0
    while size + len(part := unit(number)) <= most:
        parts.append(part)
        size += len(part)
        number += 1
    return b"".join(parts)


def parties(count):
    """Registrations of this many parties in all, 256 a work."""
    works = []
    for first in range(0, count, 256):
        numbers = range(first, min(count, first + 256))
        works.append(nwr(b"W%d" % first) + b"".join(spt(b"P%d" % n) for n in numbers))
    return b"".join(works)


def payees(count, width=9):
    """A table of this many payees, with names of `width` bytes.

    The first two rows are those of the parties of a work of two.
    """
    def name(number):
        return b"P%d" % number if number < 2 else b"%0*d" % (width, number)

    rows = (name(n) + b",%0*d\n" % (width, n % 1000) for n in range(count))
    return b"party,payee\n" + b"".join(rows)


def counted_limits():
    """The cases at the limits of numbers: rows, accounts, share lines, texts and amounts."""
    one, few = work_of(2), uses(3)
    many = parties(16_384)
    yield "no lines, no works, no territories", b"code,groups\n", b"", USAGE, 0, b""
    yield ("2048 territories, each within the one before",
           tis(2048), one, uses(3, b"u,W1,2048,P,10000\n"), 0, b"")
    yield "2049 territories", tis(2049), one, few, 1, b"tis fault 5"
    yield "256 share lines", tis(), work_of(256), few, 0, b""
    yield "257 share lines", tis(), work_of(257), few, 1, b"cwr fault 7 at line 259"
    yield "16383 parties", tis(), parties(16_383), few, 0, b""
    yield "16384 parties", tis(), many, few, 1, b"cwr fault 8"
    yield "16384 parties of 16383 payees", tis(), many, few, b"party,payee\nP0,P1\n", 0, b""
    yield "65536 payees", tis(), one, few, payees(65_536), 0, b""
    yield "65536 payees, of the longest names", tis(), one, few, payees(65_536, 64), 0, b""
    yield "65537 payees", tis(), one, few, payees(65_537), 1, b"payee fault 4"
    yield "a payee of 65 bytes", tis(), one, few, payees(3, 65), 1, b"payee fault 2 at row 1"


def payee_bytes():
    """The cases at the most bytes that a table of payees may have."""
    one, few = work_of(2), uses(3)
    yield ("payees of the most bytes, one field",
           tis(), one, few, b"p" * MOST_BYTES, 1, b"payee fault 1 at row 0")
    yield ("payees of one byte more",
           tis(), one, few, b"p" * (MOST_BYTES + 1), 4, b"cannot read")


def usage_limits():
    """The cases at the limits of a usage list: texts, amounts and lines."""
    one = work_of(2)
    quotes = b'"' + b'""' * 64 + b'"'
    yield ("texts of 64 bytes",
           tis(), one, uses(3, b"u" * 64 + b"," + b"w" * 64 + b",2136,P,1\n"), 0, b"")
    yield ("a usage of 65 bytes",
           tis(), one, uses(1, b"u" * 65 + b",W1,2136,P,1\n"), 1, b"usage fault 2 at row 1")
    yield "the most amount", tis(), one, uses(3, b"u,W1,2136,P,1000000000000\n"), 0, b""
    yield ("the most amount taken back",
           tis(), one, uses(3, b"u,W1,2136,P,-1000000000000\n"), 0, b"")
    yield ("one more than the most",
           tis(), one, uses(1, b"u,W1,2136,P,1000000000001\n"), 1, b"usage fault 5 at row 1")
    yield ("one more than that taken back",
           tis(), one, uses(1, b"u,W1,2136,P,-1000000000001\n"), 1, b"usage fault 5 at row 1")
    yield "1000000 lines", tis(), one, uses(1_000_000), 0, b""
    yield ("1000000 lines of the most amount taken back",
           tis(), one, uses(1_000_000, b"u,W1,2136,P,-1000000000000\n"), 0, b"")
    yield "1000001 lines", tis(), one, uses(1_000_001), 1, b"usage fault 6"
    yield ("1000000 lines, of the longest texts",
           tis(2), one, uses(1_000_000, quotes + b"," + quotes + b",1,P,1\n"), 0, b"")
    yield ("1000001 rows, the last without five fields",
           tis(), one, uses(1_000_000) + b"u\n", 1, b"usage fault 6")


def most_bytes():
    """The cases at the most bytes that the other files may have."""
    one, few = work_of(2), uses(3)
    yield ("territories of the most bytes, one field",
           b"c" * MOST_BYTES, one, few, 1, b"tis fault 1 at row 0")
    yield ("territories of one byte more",
           b"c" * (MOST_BYTES + 1), one, few, 4, b"cannot read")
    yield ("registrations of the most bytes, one line",
           tis(), nwr(b"W1")[:-1].ljust(MOST_BYTES), few, 0, b"")
    yield ("registrations of the most bytes, as many works",
           tis(), filled(b"", lambda n: nwr(b"%014d" % n) + spt(b"A")), few, 0, b"")
    yield ("registrations of the most bytes, as many share lines",
           tis(), filled(b"", lambda n: work_of(256, b"%014d" % n)), few, 0, b"")
    yield ("registrations of the most bytes, empty lines",
           tis(), b"\n" * MOST_BYTES, few, 0, b"")
    yield ("registrations of one byte more",
           tis(), b"\n" * (MOST_BYTES + 1), few, 4, b"cannot read")
    yield ("usage lines of the most bytes, one field",
           tis(), one, b"u" * MOST_BYTES, 1, b"usage fault 1 at row 0")
    yield ("usage lines of the most bytes, a quote that is not closed",
           tis(), one, (USAGE + b'"').ljust(MOST_BYTES, b"u"), 1, b"usage fault 1 at row 1")
    yield ("usage lines of the most bytes, empty lines",
           tis(), one, USAGE.ljust(MOST_BYTES, b"\n"), 0, b"")
    yield ("usage lines of one byte more",
           tis(), one, USAGE.ljust(MOST_BYTES + 1, b"\n"), 4, b"cannot read")


def cases():
    """All cases but the largest.

    Each has a name, the three files, a table of payees where there is one, and how it has to end:
    a status, and the beginning of a message.
    """
    yield from counted_limits()
    yield from payee_bytes()
    yield from usage_limits()
    yield from most_bytes()


def largest():
    """The largest case."""
    work = nwr(b"W1") + b"".join(spt(b"P%d" % n, b"00039" * 3) for n in range(256))
    name = "1000000 lines on one work of 256 share lines"
    yield name, tis(), work, uses(1_000_000), 0, b""


MOST_ROWS = 1_048_576


def over(files, works, usage=None, payees=None):
    """The files of a run over those of several submitters."""
    tables = {"tis": tis(), "works": works, "usage": uses(3) if usage is None else usage}
    if payees is not None:
        tables["payees"] = payees
    return Submitted(tables, files)


def rows(name, row, count=MOST_ROWS):
    """A table of this many rows below its header, each made of its number."""
    return b"".join([table(name, []), *(row(n) for n in range(count))])


def linking(*numbers, work=b"W1", name=b"A"):
    """A table of works in which some numbers of a submitter are those of one work."""
    return table("works", [[work, name, number, b""] for number in numbers])


def linking_all(count):
    """A table of works for the registrations that `parties` makes of so many parties."""
    numbers = (b"W%d" % first for first in range(0, count, 256))
    return table("works", [[number, b"A", number, b""] for number in numbers])


def each(count):
    """This many small files, which have a registration of one work each, and their table."""
    files = [(f"A{n}", work_of(1)) for n in range(count)]
    return over(files, table("works", [[b"W1", name.encode(), b"W1", b""] for name, _ in files]))


def file_and_row_limits():
    """The cases at the limits of files and of the rows of their tables."""
    one = [("A", work_of(2))]
    yield "256 files", each(256), 0, b""
    yield "257 files", each(257), 2, b""
    for name, fault, row, wide in (
            ("works", b"works fault 6", b"W1,A,%d,\n", b"W" * 57 + b"%07d,A,%014d,SONG\n"),
            ("payees", b"payee fault 4", b"A,X%d,Y,\n", b"A,%064d,%064d,HOUSE\n")):
        def case(count, line=row, more=b"", name=name):
            numbers = line.count(b"%")
            text = rows(name, lambda n: line % ((n,) * numbers), count) + more
            return over(one, text) if name == "works" else over(one, linking(b"W1"), payees=text)

        yield f"1048576 rows of {name}", case(MOST_ROWS), 0, b""
        yield f"1048576 rows of {name}, of the longest texts", case(MOST_ROWS, wide), 0, b""
        yield f"1048577 rows of {name}", case(MOST_ROWS + 1), 1, fault
        yield (f"1048577 rows of {name}, the last without four fields",
               case(MOST_ROWS, more=b"x\n"), 1, fault)
        yield (f"1048576 rows of {name}, the last without four fields",
               case(MOST_ROWS - 1, more=b"x\n"), 1, fault[:-1] + b"1 at row 1048576")


def payee_limits():
    """The cases at the limits of payees: of a work, and of all."""
    two = nwr(b"W1") + b"".join(spt(b"P%d" % n) for n in range(256)) + nwr(b"W2") + spt(b"Q")
    both = linking(b"W1", b"W2")
    yield "256 payees of a work", over([("A", two)], linking(b"W1")), 0, b""
    yield "257 payees of a work", over([("A", two)], both), 1, b"works fault 7 at row 2"
    yield ("257 parties of 256 payees of a work",
           over([("A", two)], both, payees=table("payees", [[b"A", b"Q", b"A:P0", b""]])), 0, b"")
    yield ("16383 payees of all works",
           over([("A", parties(16_383))], linking_all(16_383)), 0, b"")
    many = [("A", parties(16_384))]
    yield "16384 payees of all works", over(many, linking_all(16_384)), 1, b"works fault 8"
    yield "16384 parties, a file that links 16128", over(many, linking_all(16_128)), 0, b""
    yield ("16384 parties of 16383 payees of all works",
           over(many, linking_all(16_384), payees=table("payees", [[b"A", b"P0", b"A:P1", b""]])),
           0, b"")


def share_line_counts():
    """The cases of works of many share lines."""
    def nothing(number):
        return nwr(number) + spt(b"P", b"0" * 15)

    numbers = [b"%014d" % n for n in range(MOST_ROWS)]
    works = rows("works", lambda n: b"W1,A,%014d,\n" % n)
    yield ("1048576 registrations of one work, and 1000 lines",
           over([("A", b"".join(map(nothing, numbers)))], works, uses(1000)), 0, b"")
    # 429,496 shares of 100.00 per cent and one of 72.96 come to 2 ^ 32 hundredths of a per cent.
    whole = spt(b"P", b"10000" * 3)
    full = [nwr(number) + whole * 256 for number in numbers[:1677]]
    rest = nwr(numbers[1677]) + whole * (429_496 - 1677 * 256) + spt(b"P", b"07296" * 3)
    yield ("claims of 2 ^ 32 hundredths of a per cent",
           over([("A", b"".join([*full, rest]))], linking(*numbers[:1678])), 0, b"")


def most_bytes_of_several():
    """The cases at the most bytes that each file may have."""
    one = [("A", work_of(2))]
    for name in ("works", "payees"):
        def case(text, name=name):
            return over(one, text) if name == "works" else over(one, linking(b"W1"), payees=text)

        what = {"works": b"works", "payees": b"payee"}[name]
        yield (f"a table of {name} of the most bytes, one field",
               case(b"w" * MOST_BYTES), 1, what + b" fault 1 at row 0")
        yield (f"a table of {name} of one byte more",
               case(b"w" * (MOST_BYTES + 1)), 4, b"cannot read")
    full = filled(b"", lambda n: nwr(b"%014d" % n) + spt(b"A"))
    yield ("two files of the most bytes, as many works, a million linked",
           over([("A", full), ("B", full)], rows("works", lambda n: b"W1,B,%014d,\n" % n)), 0, b"")
    yield ("a second file of one byte more",
           over([*one, ("B", b"\n" * (MOST_BYTES + 1))], linking(b"W1")), 4, b"cannot read")
    yield "as many works, listed", [("A", full)], "works", 0, b""
    full = filled(nwr(b"W1"), lambda n: spt(b"%09d" % n) + nwr(b"%014d" % n))
    yield "as many parties, listed", [("A", full)], "parties", 0, b""


def submitted_cases():
    """All cases over the files of several submitters.

    Each has a name, the files, the command if it is another than `run`, and how it has to end.
    """
    yield from file_and_row_limits()
    yield from payee_limits()
    yield from share_line_counts()
    yield from most_bytes_of_several()


def options_over(files, folder):
    """The options of a command over the files of several submitters, which are written."""
    if isinstance(files, Submitted):
        return written_options(folder, files, PLAN)
    return [("cwr", value) for value in written_files(folder, files)]


def asked(a, folder):
    """The cases that the words ask for: of each its name, the command, options, and end."""
    if a.submitters:
        for name, files, *command, status, message in submitted_cases():
            if a.only in name:
                command = command[0] if command else "run"
                yield name, command, options_over(files, folder), (status, message)
        return
    for name, *files, status, message in largest() if a.largest else cases():
        if a.only in name:
            paths = written(folder, dict(zip(NAMES, files)))
            yield name, "run", run_options(paths, PLAN), (status, message)


def run(words, folder):
    """The cost of a run; and its status, message, and the digest and size of what it printed."""
    cost = run_measured(words, folder)
    out, err = (os.path.join(folder, name) for name in ("out", "err"))
    with open(err, "rb") as file:
        message = message_in(file.read()).strip()
    if cost.status == 2:
        message = b""
    answer = cost.status, message, digest_of(out), os.path.getsize(out)
    os.remove(out)
    return cost, answer


def shown(message, most):
    """The beginning of a message."""
    return message.decode(errors="replace")[:most]


def is_right(name, command, options, end, programs, folder):
    """Runs one case with each program, prints what it took, and answers whether it ended right."""
    outcomes = [run(words_of(program, command, options), folder) for program in programs]
    (cost, ours), *others = outcomes
    status, message = end
    agree = all(answer == ours for _, answer in others)
    right = ours[0] == status and ours[1].startswith(message) and agree
    beside = "".join(f"; plain {it.wall:.2f} s, {it.memory:.0f} MB" for it, _ in others)
    print(f"{name}: status {ours[0]} {shown(ours[1], 40)}; {cost.wall:.2f} s, "
          f"{cost.memory:.0f} MB, {ours[3]} bytes out{beside}{'' if right else '; WRONG'}",
          flush=True)
    if not agree:
        theirs = others[0][1]
        print(f"  the plain program: status {theirs[0]} {shown(theirs[1], 60)}, "
              f"{theirs[3]} bytes out")
    return right


def main():
    parser = parser_of_program("bench.sizes", __doc__)
    parser.add_argument("--only", default="", help="the cases whose names have this in them")
    parser.add_argument("--largest", action="store_true")
    parser.add_argument("--submitters", action="store_true",
                        help="the cases over the files of several submitters")
    a = parser.parse_args()
    programs = [a.program] + [plain.build()] * (not a.largest)
    wrong = count = 0
    with tempfile.TemporaryDirectory() as folder:
        for name, command, options, end in asked(a, folder):
            wrong += not is_right(name, command, options, end, programs, folder)
            count += 1
    print(f"{count} cases, {wrong} wrong")
    return 1 if wrong else 0


if __name__ == "__main__":
    sys.exit(main())
