"""Reads CWR files slowly, by themselves and line by line, for what programs are compared with."""

ENDS = (b"HDR", b"GRH", b"GRT", b"TRL", b"AGR", b"ACK", b"ISW", b"EXC")


def column(line, first, last):
    """What stands in a line from one position to another, counted from 1, without outer spaces."""
    return line[first - 1:last].strip(b" ")


def in_force(data):
    """The registrations in force of a CWR file that has no fault: the lines of each, from the NWR
    or REV on, by number, in the order of these records."""
    found, lines = {}, None
    for line in data.removesuffix(b"\n").split(b"\n"):
        line = line.removesuffix(b"\r")
        if line[:3] in (b"NWR", b"REV"):
            number = column(line, 82, 95)
            found.pop(number, None)
            lines = found[number] = [line]
        elif line[:3] in ENDS:
            lines = None
        elif lines is not None:
            lines.append(line)
    return found


def interests(lines):
    """The interests of a registration: of each its parties in order, with the share lines of each.

    The first are those before any SPU or SWR.
    """
    found = [{}]
    for line in lines:
        if line[:3] in (b"SPU", b"SWR"):
            found.append({})
        elif line[:3] in (b"SPT", b"SWT"):
            found[-1].setdefault(column(line, 20, 28), []).append(line)
    return found


def parties(data):
    """The parties of the registrations in force of a file, in the order of their bytes."""
    found = {party for lines in in_force(data).values() for it in interests(lines) for party in it}
    return sorted(found)


def is_number(text, digits):
    """Whether a text is so many digits that are not all 0."""
    return len(text) == digits and text.isdigit() and text.strip(b"0") != b""


def works_to_begin_with(name, data):
    """The rows of works, submitters, numbers and titles that a submitter's file begins with."""
    rows, given = [], set()
    for number, (record, *_) in in_force(data).items():
        iswc = column(record, 96, 106)
        work = name + b":" + number
        if iswc[:1] == b"T" and is_number(iswc[1:], 10) and iswc not in given:
            given.add(iswc)
            work = iswc
        rows.append([work, name, number, column(record, 20, 79)])
    return rows


def payees_to_begin_with(name, data):
    """The rows of submitters, parties, payees and names that a submitter's file begins with."""
    names, numbers = {}, {}
    for lines in in_force(data).values():
        for line in lines:
            if line[:3] == b"SPU":
                party, called = column(line, 22, 30), column(line, 31, 75)
                number = column(line, 88, 98)
            elif line[:3] == b"SWR":
                party = column(line, 20, 28)
                called = (column(line, 74, 103) + b" " + column(line, 29, 73)).strip(b" ")
                number = column(line, 116, 126)
            else:
                continue
            names[party] = called or names.get(party, b"")
            if is_number(number, 11):
                numbers[party] = number
    return [[name, party, numbers.get(party, name + b":" + party), names.get(party, b"")]
            for party in parties(data)]
