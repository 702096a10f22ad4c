"""Records of a CWR file, with what the program reads of them at its positions.

Texts are bytes. A field that is longer than its room goes over into the next one.
"""


def placed(kind, *columns):
    """A record: its type and prefix, and texts, each with the number of bytes of its field."""
    fields = (text.ljust(width) for text, width in columns)
    return kind + b"0" * 16 + b"".join(fields)


def work(number, title=b"SONG", iswc=b"", kind=b"NWR"):
    """The record that begins a registration: the work number at 82, the ISWC at 96."""
    return placed(kind, (title, 60), (b"EN", 2), (number, 14), (iswc, 11))


def publisher(number=b"", name=b"", ipi=b""):
    """An SPU: the interested party number at 22, the name at 31, the IPI name number at 88."""
    return placed(b"SPU", (b"01", 2), (number, 9), (name, 45), (b"", 12), (ipi, 11))


def writer(number=b"", last=b"", first=b"", ipi=b""):
    """An SWR: the number at 20, the names at 29 and 74, the IPI name number at 116."""
    return placed(b"SWR", (number, 9), (last, 45), (first, 30), (b"", 12), (ipi, 11))


def share_text(share):
    """A share in hundredths of a per cent, or a blank one."""
    return b" " * 5 if share is None else b"%05d" % share


def publisher_share(party, shares, mark=b"I", code=2136):
    """An SPT, with a share for each right, or one for all of them."""
    return share_line(b"SPT", party.ljust(15), shares, mark, code)


def writer_share(party, shares, mark=b"I", code=2136):
    """An SWT, with a share for each right, or one for all of them."""
    return share_line(b"SWT", party.ljust(9), shares, mark, code)


def share_line(kind, party, shares, mark, code):
    """A share line whose party fills its columns."""
    if not isinstance(shares, tuple):
        shares = (shares,) * 3
    return kind + b"0" * 16 + party + b"".join(map(share_text, shares)) + mark + b"%04d" % code


def file_of(*records):
    """A CWR file of these records."""
    return b"".join(record + b"\n" for record in records)
