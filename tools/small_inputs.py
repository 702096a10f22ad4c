"""Makes up small inputs of a run: a few territories, registrations, usage lines and payees.

Each function draws from a `random.Random`, so the same seed gives the same text. Most of the names
come from short lists, so that works, parties and territories of one file occur in the others.
"""
CODES = [2136, 9001, 9002, 276, 840, 40, 756, 4, 9999]
PARTIES = ["A", "B", "C", "DD", 'E,"', "F G", "12345678", "ZZZZZZZZZ"]
WORKS = ["W1", "W2", "W 3", "LONGWORK123456", "W5"]

# Records that say nothing of shares.
OTHERS = ["HDR", "GRH", "GRT", "TRL", "AGR", "ACK", "ISW", "EXC", "ALT", "PWR", "XX", ""]


def territories(rng):
    """A table of territories, each within groups that stand before it."""
    codes = rng.sample(CODES, rng.randint(0, len(CODES)))
    rows = ["code,groups"]
    for place, code in enumerate(codes):
        groups = rng.choices(codes[:place], k=rng.randint(0, 3)) if place else []
        space = rng.choice([" ", " ", "  "])
        rows.append(f"{code:0{rng.choice([1, 1, 4])}d},{space.join(map(str, groups))}")
    return "\n".join(rows) + rng.choice(["\n", ""])


def share(rng):
    """A collection share in hundredths of a per cent, or a blank one."""
    return rng.choice(["     ", "00000", "10000", "05000", "03333", "03334", "02500", "05003"])


def share_line(rng, kind):
    """An SPT or SWT record."""
    shares = "".join(share(rng) for _ in range(3))
    mark = rng.choice("IIIE ")
    code = rng.choice(CODES)
    gap = " " * 6 if kind == "SPT" else ""
    return f"{kind}{0:016d}{rng.choice(PARTIES):<9}{gap}{shares}{mark}{code:04d}"


def registrations(rng):
    """A CWR file of up to 25 records in any order."""
    lines = []
    for _ in range(rng.randint(0, 25)):
        kind = rng.choice(["NWR", "REV", "SPU", "SWR", "SPT", "SPT", "SWT", "SWT", "other"])
        if kind in ("NWR", "REV"):
            lines.append(f"{kind}{0:016d}{'SONG':<62}{rng.choice(WORKS)}")
        elif kind in ("SPT", "SWT"):
            lines.append(share_line(rng, kind))
        elif kind == "other":
            lines.append(rng.choice(OTHERS) + "0" * 16)
        else:
            lines.append(f"{kind}{0:016d}")
    end = rng.choice(["\n", "\r\n"])
    return end.join(lines) + (end if lines and rng.random() < 0.8 else "")


def payees(rng, parties=PARTIES):
    """A table of payees for some of the parties, and for some that no registration has."""
    names = parties + ["Z", "Z Y", 'Q"', "N" * 64, "0"]

    def field(name):
        if set(name) & set(',"'):
            return '"' + name.replace('"', '""') + '"'
        return rng.choice([name, name, f" {name}  "])

    parties = rng.sample(names, rng.choice([0, 1, 2, 4, len(names)]))
    rows = ["party,payee"]
    for party in parties:
        rows.append(f"{field(party)},{field(rng.choice(names))}")
    return "\n".join(rows) + rng.choice(["\n", ""])


def usage(rng, works=(*WORKS, "W9")):
    """A list of up to 12 usage lines, some of them reversals of the line before.

    The names of the works are put in as they stand in the list.
    """
    rows = ["usage,work,territory,right,amount"]
    for n in range(rng.randint(0, 12)):
        name = rng.choice([f"u{n}", '"a ""b"", c"', "x y", "u" * 64])
        amount = rng.choice([0, 1, 2, 3, 99, 100, 1001, 98765, 10**12, rng.randrange(10**6)])
        sign = rng.choice(["", "", "-"])
        if n and rng.random() < 0.1:
            before, amount = rows[-1].rsplit(",", 1)
            rows.append(f"{before},{amount[1:] if amount.startswith('-') else '-' + amount}")
            continue
        rows.append(f"{name},{rng.choice(works)},{rng.choice(CODES + [1])},"
                    f"{rng.choice('PMS')},{sign}{amount}")
    return "\n".join(rows) + rng.choice(["\n", ""])
