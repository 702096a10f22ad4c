"""Makes up works that are claimed in part, in full or over 100.06 per cent, and lines that use
them: more of a kind than a report tells of.

Each function draws from a `random.Random`, so the same seed gives the same bytes.
"""
from tools.cwr_records import file_of, publisher, publisher_share, work
from tools.made_up_submitters import LANDS, NAMES
from tools.submitters import Submitted, table

# The claims on a work, each of a party of its own: in part, in full and over.
PARTLY = [[], [1], [5000], [9999], [3333, 3333]]
FULLY = [[10000], [5000, 5000], [5003, 5003]]
OVER = [[5003, 5004], [6000, 6000], [10000, 10000]]

# Few different amounts, so that several works come to the same one, to the opposite one, or to 0.
AMOUNTS = [[0], [5, -5], [0, 5, 5, -5, 7, -12], [10**12, -10**12], range(-1000, 1001)]


def claims(rng):
    """What the works of a case are claimed by: mostly of all kinds, at times of one."""
    return rng.choice([PARTLY + FULLY + OVER, PARTLY + OVER, PARTLY, OVER])


def registrations(rng, count, drawn):
    """A CWR file of the works W0, W1 and so on, with claims that are drawn from a list."""
    records = []
    for n in range(count):
        records.append(work(b"W%d" % n))
        for place, share in enumerate(rng.choice(drawn)):
            land = rng.choice([2136, 2136, 2136, 276])
            records += [publisher(), publisher_share(b"P%d" % place, share, b"I", land)]
    return file_of(*records)


def uses(rng, works):
    """A usage list of these works, and of some that are not registered, in a few territories."""
    amounts, lands = rng.choice(AMOUNTS), rng.choice([[b"276"], [b"276", b"840"], [b"276", b"4"]])
    others = [b"X%d" % n for n in range(rng.choice([0, 1, 12]))]
    rows = []
    for n in range(rng.choice([12, 60, 200])):
        used = rng.choice(others if others and rng.random() < 0.2 else works)
        right = rng.choice([b"P", b"M", b"S"])
        rows.append([b"u%d" % n, used, rng.choice(lands), right, b"%d" % rng.choice(amounts)])
    return table("usage", rows)


def one_file(rng, files):
    """The files of a case, by name, with other territories, registrations and usage lines."""
    count = rng.choice([1, 10, 11, 12, 40])
    works = [b"W%d" % n for n in range(count)]
    made = {"tis": LANDS, "cwr": registrations(rng, count, claims(rng)), "usage": uses(rng, works)}
    return {**files, **made}


def several(rng):
    """A case of one to four submitters, each of which may have a registration of each work."""
    count, drawn = rng.choice([1, 10, 11, 12, 40]), claims(rng)
    names = rng.sample(NAMES, rng.randint(1, 4))
    rows = [[b"S%d" % n, name.encode(), b"W%d" % n, b""] for name in names for n in range(count)
            if rng.random() < 0.8]
    works = [b"S%d" % n for n in range(count)]
    tables = {"tis": LANDS, "works": table("works", rows), "usage": uses(rng, works)}
    return Submitted(tables, [(name, registrations(rng, count, drawn)) for name in names])
