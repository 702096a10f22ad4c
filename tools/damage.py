"""Damages files as accidents would, without regard to what they mean: bytes, lines and fields.

`damaged` makes a few small accidents. `in_bytes`, `in_lines` and `in_fields` make one each, with
`others`, the files from which a stretch may be put in.
"""
# What a byte is changed to in a small accident.
NEAR = b' ,"\r\n09-AIEX\x00\x7f\x80\xff'

# What a byte is changed to, or what is put in, more often than any byte.
BYTES = b' ,"\r\n0159AIEXPMS+-.\x00\x7f\x80\xff'

# Fields at and beyond the limits, and some that look like numbers.
FIELDS = [
    b"", b"0", b"00", b"0000", b"1", b"0001", b"9999", b"10000", b"2136", b"276", b"0276", b"+5",
    b"-1", b" 7", b"7 ", b"-", b"--5", b"-+5", b"- 5", b" -5", b"-5 ", b"-0", b"-0007",
    b"\xe2\x88\x925", b"\xe2\x80\x935", b"-1000000000000", b"-1000000000001", b"1000000000000",
    b"1000000000001", b"000000000000001", b"9" * 30, b"18446744073709551616", b"P", b"p", b"PM",
    b"u" * 64, b"u" * 65, b"W1", b"2136 276", b'"a,b"', b'"', b'""', b"\x7f", b"\xc3\xa9",
    b"\xef\xbb\xbf",
]

# The columns of a record, each from one place to another.
COLUMNS = {
    b"SPT": [(0, 3), (3, 19), (19, 28), (28, 34), (34, 39), (39, 44), (44, 49), (49, 50), (50, 54)],
    b"SWT": [(0, 3), (3, 19), (19, 28), (28, 33), (33, 38), (38, 43), (43, 44), (44, 48)],
    b"NWR": [(0, 3), (3, 19), (19, 81), (81, 95)],
    b"REV": [(0, 3), (3, 19), (19, 81), (81, 95)],
}

# What a column is changed to, by its width.
VALUES = {
    4: [b"0000", b"0276", b"2136", b" 276", b"276 ", b"21 6", b"9999"],
    5: [b"     ", b"00000", b"05000", b"10000", b"10001", b" 5000", b"+5000", b"99999"],
    1: [b"I", b"E", b" ", b"X", b"i"],
    9: [b" " * 9, b"A        ", b"\x80        ", b"ZZZZZZZZZ"],
    3: [b"NWR", b"REV", b"SPT", b"SWT", b"SPU", b"spt"],
    14: [b" " * 14, b"W1            "],
}


def damaged(rng, data):
    """The bytes after a few small accidents."""
    data = bytearray(data)
    for _ in range(rng.randint(1, 3)):
        place = rng.randint(0, len(data))
        accident = rng.randrange(6)
        if accident == 0:
            data[place:place] = bytes([rng.choice(NEAR)])
        elif accident == 1:
            del data[place:place + 1]
        elif accident == 2 and place < len(data):
            data[place] = rng.choice(NEAR)
        elif accident == 3:
            del data[place:]
        elif accident == 4:
            lines = data.split(b"\n")
            rng.shuffle(lines)
            data = bytearray(b"\n".join(lines))
        else:
            lines = data.split(b"\n")
            lines.insert(rng.randrange(len(lines) + 1), rng.choice(lines))
            data = bytearray(b"\n".join(lines))
    return bytes(data)


def stretch(rng, data):
    """A stretch of the bytes, mostly a short one: from one place to another."""
    start = rng.randint(0, len(data))
    most = rng.choice([1, 4, 16, 80, len(data) + 1])
    return start, min(len(data), start + rng.randint(0, most))


def in_bytes(rng, data, others):
    """The bytes after an accident to a stretch of them."""
    start, end = stretch(rng, data)
    part = data[start:end]
    accident = rng.randrange(8)
    if accident == 0:
        return data[:start]
    if accident == 1:
        return data[:start] + data[end:]
    if accident == 2:
        return data[:end] + part + data[end:]
    if accident == 3:
        other = rng.randint(end, len(data))
        stop = min(len(data), other + len(part))
        return data[:start] + data[other:stop] + data[end:other] + part + data[stop:]
    if accident == 4:
        return data[:start] + bytes([rng.choice(BYTES)]) + data[start:]
    if accident == 5 and start < len(data):
        wrong = rng.choice(BYTES) if rng.random() < 0.7 else rng.randrange(256)
        return data[:start] + bytes([wrong]) + data[start + 1:]
    if accident == 6 and start < len(data):
        return data[:start] + bytes([data[start] ^ (1 << rng.randrange(8))]) + data[start + 1:]
    other = rng.choice(others)
    low, high = stretch(rng, other)
    return data[:start] + other[low:high] + data[end:]


def in_lines(rng, data, others):
    """The bytes after an accident to their lines."""
    end = rng.choice([b"\n", b"\n", b"\n", b"\r\n", b"\r"])
    lines = data.split(b"\n")
    place = rng.randrange(len(lines))
    accident = rng.randrange(8)
    if accident == 0:
        del lines[place]
    elif accident == 1:
        lines.insert(rng.randrange(len(lines) + 1), lines[place])
    elif accident == 2:
        other = rng.randrange(len(lines))
        lines[place], lines[other] = lines[other], lines[place]
    elif accident == 3:
        rng.shuffle(lines)
    elif accident == 4:
        lines.insert(place, rng.choice([b"", b" ", b",", b'"', b"\r"]))
    elif accident == 5:
        lines[place:place] = [lines[place]] * rng.choice([2, 3, 255, 256, 257])
    elif accident == 6:
        lines.insert(place, rng.choice(rng.choice(others).split(b"\n")))
    else:
        return end.join(lines)
    return b"\n".join(lines)


def in_column(rng, line, columns):
    """A record after an accident to one of its columns."""
    start, end = rng.choice(columns)
    if rng.random() < 0.2:
        low, high = rng.choice(columns)
        return line[:start] + line[low:high] + line[end:]
    wrong = rng.choice(VALUES.get(end - start, [b"", b" ", b"0", b"\x80"]))
    return line[:start] + wrong + line[end:]


def in_field(rng, line, lines):
    """A row of a table after an accident to one of its fields."""
    fields = line.split(b",")
    field = rng.randrange(len(fields))
    accident = rng.randrange(6)
    if accident == 0:
        del fields[field]
    elif accident == 1:
        fields.insert(field, fields[field])
    elif accident == 2:
        other = rng.randrange(len(fields))
        fields[field], fields[other] = fields[other], fields[field]
    elif accident == 3:
        fields[field] = b'"' + fields[field] + rng.choice([b'"', b"", b'""', b'"x'])
    elif accident == 4:
        row = rng.choice(lines).split(b",")
        fields[field] = rng.choice(row)
    else:
        fields[field] = rng.choice(FIELDS)
    return b",".join(fields)


def in_fields(rng, data, _others):
    """The bytes after an accident to a field of a row, or to a column of a record."""
    lines = data.split(b"\n")
    place = rng.randrange(len(lines))
    columns = COLUMNS.get(lines[place][:3])
    if columns:
        lines[place] = in_column(rng, lines[place], columns)
    else:
        lines[place] = in_field(rng, lines[place], lines)
    return b"\n".join(lines)
