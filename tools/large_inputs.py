"""Makes up inputs of a realistic shape and of any size up to the limits of a run, and beyond.

The same arguments give the same bytes. The numbers of the territories, and of the groups other than
2136 (the world), are made up too.
"""
import os
import random
from itertools import accumulate

WORLD = 2136
CONTINENTS = [2100, 2101, 2106, 2120, 2130]
ALLIANCES = [2107, 2108, 2122, 2125]  # groups of territories that overlap
LANDS = 200  # territories that are no groups
FILES = ("tis.csv", "works.cwr", "usage.csv")


def make_territories(rng):
    """The rows of a table of territories, as code and groups, and the codes that are no groups."""
    lands = sorted(rng.sample(range(4, 900, 4), LANDS))
    rows = [(WORLD, [])]
    rows += [(continent, [WORLD]) for continent in CONTINENTS]
    rows += [(alliance, [rng.choice(CONTINENTS)]) for alliance in ALLIANCES]
    for land in lands:
        groups = [rng.choice(CONTINENTS)]
        groups += [alliance for alliance in ALLIANCES if rng.random() < 0.15]
        rows.append((land, groups))
    return rows, lands


def parts(rng, total, count):
    """`count` numbers of at least 1 that add up to `total`; often round ones."""
    step = rng.choice([1, 25, 100, 250, 500, 1000])
    if step * count > total:
        step = 1
    units, rest = divmod(total, step)
    cuts = sorted(rng.sample(range(1, units), count - 1)) if count > 1 else []
    out = [(b - a) * step for a, b in zip([0, *cuts], [*cuts, units])]
    out[-1] += rest
    return out


def total_of(rng):
    """What the shares of a work come to: mostly 100 per cent, at times less or more."""
    x = rng.random()
    if x < 0.94:
        return 10000
    if x < 0.96:
        return 9999
    if x < 0.97:
        return rng.randint(10001, 10006)
    if x < 0.99:
        return rng.choice([5000, 7500, 9000, 9500])
    return rng.randint(10007, 12000)


def make_interests(rng, count, draw_party, forced):
    """The first line of each interest of a work: the world, for a party and its three shares."""
    columns = [parts(rng, total, count) for total in [total_of(rng)] * 3]
    interests = []
    for i in range(count):
        shares = tuple(min(column[i], 10000) for column in columns)
        if rng.random() < 0.05:
            shares = (shares[0], shares[1], None)  # a blank synchronisation share
        party = forced if forced and i == 0 else draw_party()
        interests.append([(party, shares, "I", WORLD)])
    return interests


def make_work(rng, lands, draw_party, forced):
    """The interests of a work, each a list of share lines: party, shares, mark and territory.

    There are 2 to 6 lines. The first is of the party `forced`, where one is given.
    """
    count = rng.choices([1, 2, 3, 4], [25, 35, 25, 15])[0]
    total = rng.randint(max(2, count), 6)
    interests = make_interests(rng, count, draw_party, forced)
    extra = total - count
    while extra > 0:
        interest = rng.choice(interests)
        party, shares, _, _ = interest[0]
        x = rng.random()
        if extra >= 2 and x < 0.6:
            # A subpublisher takes the share in a group.
            group = rng.choice(CONTINENTS + ALLIANCES)
            other = draw_party()
            while other == party:
                other = draw_party()
            interest.append((party, (0, 0, 0), "E", group))
            interest.append((other, shares, "I", group))
            extra -= 2
        elif x < 0.85:
            interest.append((party, (0, 0, 0), "E", rng.choice(lands)))
            extra -= 1
        else:
            # Another share of the same interest in one territory.
            lower = tuple(share and share // 2 for share in shares)
            interest.append((party, lower, "I", rng.choice(lands)))
            extra -= 1
    return interests


def share_text(share):
    """A share as a CWR record has it."""
    return " " * 5 if share is None else f"{share:05d}"


def registration(kind, number, work, interests, rng):
    """The records of a registration: NWR or REV, and those of its interests."""
    record = 0

    def prefix(name):
        """The record prefix of the next record."""
        nonlocal record
        text = f"{name}{number:08d}{record:08d}"
        record += 1
        return text

    title = f"SONG OF {work} AND OTHER DAYS"
    out = [f"{prefix(kind)}{title:<60}EN{work:<14}{'':11}{'00000000':8}{'':12}POP"]
    for k, interest in enumerate(interests, 1):
        party = interest[0][0]
        name = f"HOUSE OF {party}"
        if rng.random() < 0.6:
            out.append(f"{prefix('SPU')}{k:02d}{party:<9}{name:<45} E {'':9}{'':11}{'':14}")
            head, gap = "SPT", " " * 6
        else:
            out.append(f"{prefix('SWR')}{party:<9}{name:<45}{'PAT':<30} CA{'':9}{'':11}")
            head, gap = "SWT", ""
        for n, (payee, shares, mark, code) in enumerate(interest, 1):
            texts = "".join(map(share_text, shares))
            out.append(f"{prefix(head)}{payee:<9}{gap}{texts}{mark}{code:04d} {n:03d}")
    if rng.random() < 0.2:
        out.append(f"{prefix('ALT')}{'ANOTHER TITLE':<60}AT")
    return out


def make_registrations(rng, lands, numbers, names):
    """The lines of a CWR file with a registration of each work, and a few revised ones.

    Each of the first works has an interest of a party of its own, so that none goes without.
    """
    weights = list(accumulate(1 / (k + 20) for k in range(len(names))))

    def draw_party():
        return rng.choices(names, cum_weights=weights)[0]

    body = ["HDRPB000000001SOCIETY", "GRHNWR0000102.20"]
    for i, work in enumerate(numbers):
        forced = names[i] if i < len(names) else None
        body += registration("NWR", i, work, make_work(rng, lands, draw_party, forced), rng)
    body += [f"GRT00001{len(numbers):08d}{len(body):08d}", "GRHREV0000202.20"]
    revised = numbers[len(names):]
    revised = rng.sample(revised, len(revised) // 50)
    for i, work in enumerate(revised):
        body += registration("REV", i, work, make_work(rng, lands, draw_party, None), rng)
    return body + [f"GRT00002{len(revised):08d}{0:08d}", "TRL"]


def write_usage(rng, path, lines, lands, numbers, taken_back):
    """Writes a usage list: a few works and territories are used most, and some are unknown."""
    works = rng.sample(numbers, len(numbers)) + ["UNKNOWN0001", "W-NOT-IN-THE-FILE"]
    popular = [1 / (k + 30) for k in range(len(numbers))]
    popular += [sum(popular) * 0.01] * 2
    works_drawn = rng.choices(works, cum_weights=list(accumulate(popular)), k=lines)
    places = [str(land) for land in rng.sample(lands, LANDS)] + [str(it) for it in CONTINENTS]
    places.append("9876")  # not in the table
    heavy = [1 / (k + 5) for k in range(LANDS)]
    heavy += [sum(heavy) * 0.002] * len(CONTINENTS) + [sum(heavy) * 0.005]
    places_drawn = rng.choices(places, cum_weights=list(accumulate(heavy)), k=lines)
    rights_drawn = rng.choices("PMS", [70, 25, 5], k=lines)
    with open(path, "w", encoding="ascii", newline="") as file:
        file.write("usage,work,territory,right,amount\n")
        out = []
        for i, (work, place, right) in enumerate(zip(works_drawn, places_drawn, rights_drawn)):
            amount = min(int(rng.lognormvariate(6, 2)), 10**12)
            if taken_back and rng.random() < taken_back:
                amount = -amount
            usage = f"2024Q3-{i:07d}"
            if i % 997 == 996:
                usage = f'"Radio ""{i % 90}"", evening {i}"'
            out.append(f"{usage},{work},{place},{right},{amount}\n")
            if len(out) == 50_000:
                file.writelines(out)
                out.clear()
        file.writelines(out)


def generate(outdir, lines, works, parties, seed, taken_back=0.0):
    """Writes tis.csv, works.cwr and usage.csv into a folder.

    `taken_back` is the part of the amounts that is negative. A usage list may be longer than one
    run takes, for a month that is cut in parts.
    """
    for what, count, least, most in (("lines", lines, 1, 20_000_000), ("works", works, 1, 20_000),
                                     ("parties", parties, 2, 16_383)):
        if not least <= count <= most:
            raise ValueError(f"{count} {what}: there have to be {least} to {most}")
    rng = random.Random(seed)
    os.makedirs(outdir, exist_ok=True)
    tis, cwr, usage = (os.path.join(outdir, name) for name in FILES)
    rows, lands = make_territories(rng)
    with open(tis, "w", encoding="ascii", newline="") as file:
        file.write("code,groups\n")
        file.writelines(f"{code},{' '.join(map(str, groups))}\n" for code, groups in rows)
    drawn = rng.sample(range(10_000 if parties <= 10_000 else 100_000), parties)
    names = [f"I{n:0{rng.choice([4, 6, 8])}d}" for n in drawn]
    numbers = [f"W{n:08d}" for n in rng.sample(range(10**8), works)]
    body = make_registrations(rng, lands, numbers, names)
    with open(cwr, "w", encoding="ascii", newline="") as file:
        file.write("\r\n".join(body) + "\r\n")
    write_usage(rng, usage, lines, lands, numbers, taken_back)
