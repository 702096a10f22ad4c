"""Gives files another form, of the kinds that `check` remarks on: trailers, line ends, record
types, bytes beyond ASCII, quotes that do not end, and rows that are repeated.

Each function draws from a `random.Random`, so the same seed gives the same bytes. Most of the forms
are no fault. Lines of a CWR file are given without their ends.
"""
# The records that hold others together, and those that begin a transaction.
CONTROLS = (b"HDR", b"GRH", b"GRT", b"TRL")
TRANSACTIONS = (b"AGR", b"NWR", b"REV", b"ISW", b"EXC", b"ACK")

# The numbers of trailers, each from one place to another.
NUMBERS = {b"GRT": [(8, 16), (16, 24)], b"TRL": [(3, 8), (8, 16), (16, 24)]}

# Where the last field begins that is read of a record.
LAST_FIELDS = {b"NWR": 81, b"REV": 81, b"SPT": 50, b"SWT": 44}

# Places in these records that are not read.
UNREAD = {b"NWR": range(19, 79), b"REV": range(19, 79), b"SPT": range(28, 34),
          b"SWT": range(3, 19)}

BEYOND_ASCII = [b"\xc3\x89", b"\xe9", b"\x80", b"\xff"]

# Record types that CWR 2.2 does not have.
TYPES = [b"WRK", b"XYZ", b"nwr", b"NW", b"N", b"SP\xc3", b"   ", b"\x00AB", b"'A'", b"A,B",
         b"\x7f", b"HD", b"123", b"TRl", b"GRX", b"\\x4"]

# How often a file is given another form, by the name of its option.
OFTEN = {"cwr": 0.3, "usage": 0.15}
SELDOM = 0.05


def since(lines, kind):
    """The lines from the last one of a type on, or all of them."""
    places = [place for place, line in enumerate(lines) if line[:3] == kind]
    return lines[places[-1]:] if places else lines


def count(lines, *kinds):
    """How many lines are of some types."""
    return sum(line[:3] in kinds for line in lines)


def trailer(lines):
    """The last line, a GRT or a TRL, with the right counts of its group or of the file."""
    kind = lines[-1][:3]
    lines = since(lines, b"GRH" if kind == b"GRT" else b"HDR")
    counts = count(lines, *TRANSACTIONS), sum(line != b"" for line in lines)
    if kind == b"GRT":
        return lines[-1][:8].ljust(8, b"0") + b"%08d%08d" % counts
    return b"TRL%05d%08d%08d" % (count(lines, b"GRH"), *counts)


def counted(lines):
    """The lines with the right counts in all trailers."""
    made = []
    for line in lines:
        made.append(line)
        if line[:3] in NUMBERS:
            made[-1] = trailer(made)
    return made


def closed(rng, lines):
    """The lines with a header and trailers, in one group or a few, and with the right counts."""
    rest = [line for line in lines if line[:3] not in CONTROLS]
    groups = rng.choice([1, 1, 2, 2, 6])
    cuts = sorted(rng.randint(0, len(rest)) for _ in range(groups - 1))
    made = [b"HDRPB000000001SOCIETY"]
    for number, (start, end) in enumerate(zip([0, *cuts], [*cuts, len(rest)]), 1):
        made += [b"GRHNWR%05d02.20" % number, *rest[start:end], b"GRT%05d" % number]
    return counted([*made, b"TRL"])


def wrong_number(rng, line, start, end):
    """A trailer with another number in a field, with no number there, or cut off within it."""
    width = end - start
    accident = rng.randrange(4)
    if accident == 0:
        return line[:start + rng.randrange(width)]
    if accident == 1:
        wrong = b"%0*d" % (width, rng.choice([0, 1, 2, 7, 99_999]))
    else:
        wrong = rng.choice([b" " * width, b"+1".ljust(width), b"X".rjust(width, b"0"),
                            b"1".rjust(width), b"\xb9" * width])
    return line[:start].ljust(start) + wrong + line[end:]


def with_wrong_counts(rng, lines):
    """The lines with wrong counts in some trailers, or in all."""
    part = rng.choice([0.3, 1])
    made = counted(lines)
    for place, line in enumerate(made):
        for start, end in NUMBERS.get(line[:3], []):
            if rng.random() < part:
                made[place] = wrong_number(rng, made[place], start, end)
    return made


def with_other_end(rng, lines):
    """The lines without a trailer of the file, or with others behind it."""
    if rng.random() < 0.6:
        return [line for line in lines if line[:3] != b"TRL"]
    return [*lines, rng.choice([b"", b" ", b"TRLX", b"HDR", b"TR"])]


def is_exclusion(line):
    """Whether a line is a share line that excludes."""
    mark = {b"SPT": 49, b"SWT": 43}.get(line[:3])
    return mark is not None and line[mark:mark + 1] == b"E"


def cut_at_exclusion(rng, lines):
    """The lines as far as one that excludes a territory, of which the beginning may be there."""
    places = [place for place, line in enumerate(lines) if is_exclusion(line)]
    if not places:
        return lines[:rng.randint(0, len(lines))]
    place = rng.choice(places)
    return [*lines[:place], lines[place][:rng.choice([0, 0, 0, 2, 30])]]


def with_types(rng, lines):
    """The lines with some of types that CWR 2.2 does not have between them."""
    lines = list(lines)
    for kind in rng.sample(TYPES, rng.choice([1, 2, 3, 10, 11, 14])):
        line = kind + b"0" * 16 if len(kind) == 3 else kind
        for _ in range(rng.choice([1, 1, 2, 3])):
            lines.insert(rng.randint(0, len(lines)), line)
    return lines


def with_byte(rng, line):
    """A record of a work or of shares with a byte beyond ASCII, mostly where nothing is read of it.

    What stands behind may have moved by a byte, as it does where a program pads a text of UTF-8.
    """
    last, text = LAST_FIELDS[line[:3]], rng.choice(BEYOND_ASCII)
    place = rng.choice(UNREAD[line[:3]])
    if rng.random() < 0.25:
        place = rng.choice([rng.randrange(3, last), last - 1, last])
    gone = rng.choice([len(text), len(text), 1, 0])
    return line[:place] + text + line[place + gone:]


def with_bytes(rng, lines):
    """The lines with bytes beyond ASCII in some records of works or shares."""
    lines = list(lines)
    places = [place for place, line in enumerate(lines) if line[:3] in LAST_FIELDS]
    for place in rng.sample(places, min(len(places), rng.choice([1, 2, 10, 11, 12]))):
        lines[place] = with_byte(rng, lines[place])
    return lines


def with_empty_lines(rng, lines):
    """The lines with some between them that are empty, or nearly so."""
    lines = list(lines)
    for _ in range(rng.choice([1, 2, 5])):
        lines.insert(rng.randint(0, len(lines)), rng.choice([b"", b"", b"\r", b" "]))
    return lines


WAYS = [with_wrong_counts, with_wrong_counts, with_other_end, cut_at_exclusion, with_types,
        with_bytes, with_empty_lines]


def of_registrations(rng, data):
    """A CWR file of another form."""
    end = b"\r\n" if b"\r\n" in data else b"\n"
    lines = data.removesuffix(end).split(end)
    if rng.random() < 0.6:
        lines = closed(rng, lines)
    for way in rng.sample(WAYS, rng.choice([0, 1, 1, 1, 2])):
        lines = way(rng, lines)
    if rng.random() < 0.1:
        end = b"\r"
    return end.join(lines) + (end if rng.random() < 0.8 else b"")


def with_open_quote(rng, data):
    """A table with a quote that opens in a row and does not end. At times this is the last row."""
    lines = data.rstrip(b"\r\n").split(b"\n")
    place = rng.choice([len(lines) - 1, rng.randrange(len(lines))])
    fields = lines[place].split(b",")
    field = rng.choice([len(fields) - 1, rng.randrange(len(fields))])
    fields[field] = b'"' + fields[field].strip(b'"\r')
    lines[place] = b",".join(fields)
    behind = lines[place + 1:] if rng.random() < 0.5 else []
    return b"\n".join([*lines[:place + 1], *behind]) + rng.choice([b"", b"", b'""', b"\n"])


def respelt(rng, row):
    """A row of a usage list that says the same, at times in other words."""
    usage, work, territory, right, amount = row.split(b",")
    way = rng.randrange(4)
    if way == 0:
        territory = territory.zfill(4)
    elif way == 1:
        size = amount.removeprefix(b"-")
        is_zero = size.strip(b"0") == b""
        amount = (b"-" if is_zero or size != amount else b"") + b"0" + size
    elif way == 2:
        usage = b'"' + usage + b'"'
    return b",".join([usage, work, territory, right, amount])


def with_repeats(rng, data):
    """A usage list with some of its rows once more."""
    lines = data.split(b"\n")
    rows = [line.removesuffix(b"\r") for line in lines[1:]
            if b'"' not in line and line.count(b",") == 4]
    if rows:
        for _ in range(rng.choice([1, 2, 3, 10, 11, 12])):
            lines.insert(rng.randint(1, len(lines)), respelt(rng, rng.choice(rows)))
    return b"\n".join(lines)


def changed(rng, name, data):
    """A file, by the name of its option, which has another form at times."""
    if rng.random() >= OFTEN.get(name, SELDOM):
        return data
    if name == "cwr":
        return of_registrations(rng, data)
    if name == "usage" and rng.random() < 0.6:
        return with_repeats(rng, data)
    return with_open_quote(rng, data)
