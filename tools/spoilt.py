"""Spoils files in the ways that `check` has words for: wrong fields, doubled rows, wrong headers.

The files of a case are given by the names of their options. A table of payees by submitter, which
has the same option as one of one file, is called SUBMITTED.
"""
SUBMITTED = "payees by submitter"

# What a field is changed to in any column.
ODD = [b"", b" ", b"x" * 70, b"caf\xc3\xa9", b"\xc3", b"a\tb", b"\x00", b"\x7f", b"'", b"\\x41",
       b'"x"']

# What else a field of a row is changed to, and its place in the row, counted from the end.
WRONG = {
    "tis": [(-2, [b"0", b"DE", b"10000", b"2136"]),
            (-1, [b"9998", b"2136 9998", b"DE", b"2136,", b"0"])],
    "usage": [(-5, []), (-4, []), (-3, [b"0", b"DE", b"00276"]), (-2, [b"p", b"PM"]),
              (-1, [b"12x4", b"+1", b"1.00", b"1000000000001", b"-1000000000001", b"-"])],
    "payees": [(-2, [b"A", b" A "]), (-1, [])],
    "works": [(-4, [b"W1", b" W1", b"w" * 65]), (-3, [b"A", b" A", b"a", b"B", b"NOBODY"]),
              (-2, [b"W1", b" W1 ", b"1" * 14, b"1" * 15]), (-1, [])],
    SUBMITTED: [(-4, [b"A", b"A ", b"b", b"B", b"NOBODY"]), (-3, [b"A", b" A "]),
                (-2, [b"A:A", b"w" * 65]), (-1, [])],
}

HEADERS = {"tis": b"code,groups", "usage": b"usage,work,territory,right,amount",
           "payees": b"party,payee", "works": b"work,submitter,number,title",
           SUBMITTED: b"submitter,party,payee,name"}

# Works that no registration has.
UNKNOWN = [b"X%d" % n for n in range(40)]
UNKNOWN += [b"X" * 64, b"W1 ", b"W", b"X'1", b"\\x41", b'"X,1"', b'"X"""']


def spoilt_row(rng, name, row):
    """A row of a table after an accident to it."""
    fields = row.split(b",")
    accident = rng.randrange(6)
    if accident == 0:
        fields.insert(rng.randrange(len(fields) + 1), rng.choice([b"", b"x"]))
    elif accident == 1:
        del fields[rng.randrange(len(fields))]
    else:
        place, wrong = rng.choice(WRONG[name])
        if len(fields) >= -place:
            fields[place] = rng.choice(wrong if wrong and rng.random() < 0.7 else ODD)
    return b",".join(fields)


def spoilt_line(rng, line):
    """A line of a CWR file after an accident to it, if it is a work's or a share's."""
    def at(place, wrong):
        return line[:place] + wrong + line[place + len(wrong):]

    if line[:3] in (b"NWR", b"REV"):
        return rng.choice([line[:rng.randint(3, 84)], line[:81], at(81, b" " * 14),
                           at(83, b"\xc3"), at(82, b"\x1b"), at(81, b"caf\xc3\xa9")])
    if line[:3] not in (b"SPT", b"SWT"):
        return line
    shares = 34 if line[:3] == b"SPT" else 28
    return rng.choice([
        line[:rng.randint(3, shares + 20)], line[:shares + 19],
        at(19, b" " * 9), at(20, b"\xc3"), at(19, b"\t"),
        at(shares + 5 * rng.randrange(3), rng.choice([b"10001", b"0500O", b" 5000", b"+5000"])),
        at(shares + 15, rng.choice([b"X", b"i", b"\xff"])),
        at(shares + 16, rng.choice([b"0000", b"DE  ", b" 276"])),
    ])


def wrong_headers(header):
    """What the first lines of a table may be instead of its header."""
    return [[], [header[:-1]], [header + b",x"], [b" " + header], [header.upper()],
            [b"\xef\xbb\xbf" + header], [b"", b'"' + header.replace(b",", b'","') + b'"'],
            [header, b"", b"\r"]]


def spoilt(rng, name, data):
    """A file after an accident that `check` has words for, or that leaves it sound."""
    lines = data.split(b"\n")
    is_cwr = name == "cwr"
    places = range(1, len(lines))
    if is_cwr:
        kinds = (b"NWR", b"REV", b"SPT", b"SWT")
        places = [n for n, line in enumerate(lines) if line[:3] in kinds]
    place = rng.choice(places) if places else 0

    def once(line):
        return spoilt_line(rng, line) if is_cwr else spoilt_row(rng, name, line)

    accident = rng.random()
    if accident < 0.6:
        for n in range(place, min(len(lines), place + rng.choice([1, 1, 4]))):
            lines[n] = once(lines[n])
    elif accident < 0.7:
        again = lines[place]
        if name == "payees" and rng.random() < 0.5:
            again = again.split(b",")[0] + rng.choice([b",A", b",Z", b",OTHER"])
        lines.insert(rng.randint(place, len(lines)), again)
    elif accident < 0.8 and is_cwr:
        count = rng.choice([255, 256, 257, 260, 355, 356, 357, 400])
        lines[place:place] = [lines[place]] * count
    elif accident < 0.8:
        lines[:1] = rng.choice(wrong_headers(HEADERS[name]))
    elif accident < 0.9:
        # About as many faults as a report tells, and many more.
        count = rng.choice([98, 99, 100, 101, 102, 250])
        if is_cwr:
            lines[place:place] = [once(lines[place]) for _ in range(count)]
        else:
            lines[place:place] = [lines[place] + b",x,y,z"] * count
    elif accident < 0.95:
        # All over the file.
        lines = [line if rng.random() < 0.7 else once(line) for line in lines]
    else:
        del lines[place]
    return b"\n".join(lines)


def filled(rng, name):
    """A file with the most rows or accounts that there may be, or with a few more."""
    more = rng.choice([0, 1, 2, 50])
    if name == "tis":
        return b"code,groups\n" + b"".join(b"%d,\n" % n for n in range(1, 2049 + more))
    if name == "payees":
        return b"party,payee\n" + b"".join(b"P%d,Q\n" % n for n in range(65_536 + more))
    lines = []
    for n in range(16_383 + more):
        if n % 256 == 0:
            lines.append(b"NWR%016d%-62sW%d" % (0, b"SONG", n))
        lines.append(b"SWT%016dP%08d100001000010000I2136" % (0, n))
    return b"\n".join(lines)


def all_spoilt(rng, files):
    """The files of a case, by name, after a few accidents all over."""
    files = dict(files)
    if rng.random() < 0.05:
        name = rng.choice([name for name in files if name != "usage"])
        files[name] = filled(rng, name)
    for _ in range(rng.randint(1, 5)):
        name = rng.choice(list(files))
        files[name] = spoilt(rng, name, files[name])
    return files


def some_or_few(rng):
    """About as many works or territories as a report names, or fewer, or more."""
    return rng.choice([1, 10, 11, 12, 40])


def titles_in(data):
    """The numbers of the works that a CWR file registers."""
    titles = (line for line in data.split(b"\n") if line[:3] in (b"NWR", b"REV"))
    return [line[81:95].strip() for line in titles]


def strange(rng, files, registered):
    """The files of a case, by name, with more usage lines, of works and territories that are
    unknown or known. Works that are known are given as fields.

    These lines have few different amounts, so that several works or territories come to the same
    amount, or to the opposite one, or to 0. In half of the cases there are no other usage lines.
    """
    codes = [line.split(b",")[0] for line in files["tis"].split(b"\n")[1:]]
    listed = [code for code in codes if code.isdigit()]
    works = rng.sample(UNKNOWN, some_or_few(rng))
    lands = [b"%0*d" % (rng.choice([1, 4]), code)
             for code in rng.sample(range(1, 10_000), some_or_few(rng))]
    amounts = rng.choice([[0], [5, -5], [0, 5, 5, -5, 7, -12], [10**12, -10**12],
                          range(-1000, 1001)])
    known = [rng.choice([0, 0.5, 0.5, 0.9]) for _ in range(2)]
    rows = []
    for n in range(rng.choice([1, 12, 80, 300])):
        work = rng.choice(registered if registered and rng.random() < known[0] else works)
        land = rng.choice(listed if listed and rng.random() < known[1] else lands)
        right = rng.choice([b"P", b"M", b"S"])
        rows.append(b"s%d,%b,%b,%b,%d" % (n, work, land, right, rng.choice(amounts)))
    lines = files["usage"].split(b"\n")
    others = lines[1:] if rng.random() < 0.5 else []
    return {**files, "usage": b"\n".join(lines[:1] + rows + others)}
