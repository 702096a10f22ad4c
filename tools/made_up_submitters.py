"""Makes up the files of several submitters: their registrations, and the tables that link them.

Each function draws from a `random.Random`, so the same seed gives the same bytes. Works, parties,
ISWCs and IPI name numbers come from short lists, so that they occur in several files.
"""
import zlib

from tools import cwr_records, forms
from tools.damage import damaged, in_bytes, in_fields, in_lines
from tools.large_inputs import FILES, generate
from tools.made_up import files_in, parties_of
from tools.small_inputs import CODES, OTHERS, PARTIES, territories, usage
from tools.spoilt import ODD, SUBMITTED, filled, spoilt, strange
from tools.submitters import Submitted, field, table

NAMES = ["A", "B", "a", "0", "_", "P-1", "SIXTEEN_BYTES_16"]
NUMBERS = [b"W1", b"W2", b"W 3", b"LONGNUMBER1234", b'W,"5']
WORKS = [b"W1", b"A:W1", b"T0345246801", b"W" * 14, b"W" * 15, b"W" * 16, b"W" * 64, b'Q,"',
         b" W1"]

ISWCS = [b"T0345246801", b"T0000000001", b"T0345246801", b"T0000000000", b"t0345246801",
         b"T 345246801", b"T034524680X", b""]
IPIS = [b"00014107338", b"00000000199", b"00000000000", b" 0014107338", b"0001410733X", b""]
TITLES = [b"SONG", b"", b"  TWO  WORDS", b'ONE, "TWO"', b"\xc3\x89T\xc3\x89", b"A\rB", b"T" * 60]
PEOPLE = [b"MOON & CO", b"DOE, J.", b' "RAY" ', b"", b"\xff", b"N" * 45]

# Shares of works with one or two registrations, and with many.
SHARES = [[None, 0, 10000, 5000, 3333, 2500, 5003, 1667], [None, 0, 1000, 833, 500, 333, 250, 1]]

# A table of all territories that share lines and usage lines have, but for two.
LANDS = b"code,groups\n2136,\n9001,2136\n9002,2136\n276,9001\n840,9001 9002\n40,9002\n756,2136\n"

# The columns of records from which tables to begin with are made, each from one place to another.
COLUMNS = {b"NWR": [(19, 79), (81, 95), (95, 106)], b"REV": [(19, 79), (81, 95), (95, 106)],
           b"SPU": [(21, 30), (30, 75), (87, 98)],
           b"SWR": [(19, 28), (28, 73), (73, 103), (115, 126)]}

# Names that the command line refuses.
WRONG_NAMES = ["", "-A", "A B", "A.", "SEVENTEEN_BYTES_7", "\xe9", "A:"]


def shortened(rng, record, least):
    """A record, at times cut off behind so many bytes or more."""
    return cut_off(rng, record, least) if rng.random() < 0.1 else record


def cut_off(rng, record, least):
    """The beginning of a record, of so many bytes or more if it has them."""
    return record[:rng.randint(min(least, len(record)), len(record))]


def small_registration(rng, drawn):
    """The records of a registration of a few interests, at times with one of another kind.

    Shares are drawn from a list.
    """
    kind = rng.choice([b"NWR", b"NWR", b"REV"])
    record = cwr_records.work(rng.choice(NUMBERS), rng.choice(TITLES), rng.choice(ISWCS), kind)
    # A number that is cut off begins with its first byte.
    records = [shortened(rng, record, 82)]
    parties = [party.encode() for party in PARTIES]
    for _ in range(rng.randint(0, 3)):
        party, name, other, ipi = (rng.choice(it) for it in (parties, PEOPLE, PEOPLE, IPIS))
        is_firm = rng.random() < 0.5
        record = (cwr_records.publisher(party, name, ipi) if is_firm else
                  cwr_records.writer(party, name, other[:30], ipi))
        records.append(shortened(rng, record, 3))
        for _ in range(rng.choice([0, 1, 1, 1, 2])):
            party = party if rng.random() < 0.8 else rng.choice(parties)
            shares = tuple(rng.choice(drawn) for _ in range(3))
            make = cwr_records.publisher_share if is_firm else cwr_records.writer_share
            code = 2136 if rng.random() < 0.5 else rng.choice(CODES)
            records.append(make(party, shares, rng.choice([b"I", b"I", b"E", b" "]), code))
    if rng.random() < 0.15:
        records.insert(rng.randint(1, len(records)), rng.choice(OTHERS).encode() + b"0" * 16)
    return records


def small_file(rng, drawn):
    """A CWR file of up to eight registrations, some of them of one number."""
    records = []
    for _ in range(rng.choice([0, 1, 3, 5, 8])):
        records += small_registration(rng, drawn)
    if rng.random() < 0.1:
        rng.shuffle(records)
    end = rng.choice([b"\n", b"\n", b"\r\n"])
    return end.join(records) + (end if records and rng.random() < 0.8 else b"")


def small_works(rng, names):
    """A table of works that links some numbers of submitters, and the works that it names."""
    pairs = [(name.encode(), number) for name in names for number in [*NUMBERS, b"NONE"]]
    works = rng.sample(WORKS, rng.choice([1, 1, 2, 3, len(WORKS)]))
    rows = []
    for name, number in rng.sample(pairs, rng.choice([len(pairs) // 2, *[len(pairs)] * 3])):
        space = rng.choice([b"", b"", b" "])
        rows.append([rng.choice(works), name, space + number + space, rng.choice(TITLES)])
    return table("works", rows), works


def small_payees(rng, names):
    """A table of payees of some parties of submitters."""
    parties = [party.encode() for party in PARTIES]
    pairs = [(name.encode(), party) for name in names for party in parties]
    payees = [*parties, b"A:A", b"B:B", b"a:F G", b"Z", b"N" * 64, b"00014107338"]
    rows = []
    for name, party in rng.sample(pairs, rng.choice([0, 1, len(pairs) // 2, len(pairs)])):
        space = rng.choice([b"", b"", b"  "])
        rows.append([name, space + party, rng.choice(payees) + space, rng.choice(PEOPLE)])
    return table("payees", rows)


def small(rng):
    """A small case of one to five submitters, half of them with a table of payees."""
    names = rng.sample(NAMES, rng.randint(1, 5))
    works, known = small_works(rng, names)
    listed = [field(work).decode() for work in [*known, *known, *known, b"W9", b"W" * 63]]
    tables = {"tis": territories(rng).encode() if rng.random() < 0.3 else LANDS,
              "works": works, "usage": usage(rng, listed).encode()}
    if rng.random() < 0.5:
        tables["payees"] = small_payees(rng, names)
    drawn = rng.choice(SHARES)
    return Submitted(tables, [(name, small_file(rng, drawn)) for name in names])


def registrations_in(data):
    """The registrations of a CWR file of the large generator: the lines of each."""
    registrations = []
    for line in data.split(b"\r\n"):
        if line[:3] in (b"NWR", b"REV"):
            registrations.append([line])
        elif registrations and line[:3] in (b"SPU", b"SWR", b"SPT", b"SWT"):
            registrations[-1].append(line)
    return registrations


def number_of(registration):
    """The submitter work number of a registration."""
    return registration[0][81:95].strip()


def interests_in(registration):
    """The interests of a registration: the lines of each, the first an SPU or SWR."""
    interests = []
    for line in registration[1:]:
        if line[:3] in (b"SPU", b"SWR"):
            interests.append([])
        interests[-1].append(line)
    return interests


def with_numbers(registration, part):
    """A registration with an ISWC, and IPI name numbers, for about this part of those it is of.

    The same work has the same ISWC in all files, and the same party the same number.
    """
    def at(line, place, number):
        return line[:place].ljust(place) + number + line[place + len(number):]

    lines = []
    for line in registration:
        places = {b"NWR": (95, 81, 14), b"REV": (95, 81, 14), b"SPU": (87, 21, 9),
                  b"SWR": (115, 19, 9)}
        if line[:3] in places:
            place, start, width = places[line[:3]]
            known = zlib.crc32(line[start:start + width])
            if known % 100 < 100 * part:
                is_work = line[:3] in (b"NWR", b"REV")
                line = at(line, place, b"T%010d" % known if is_work else b"%011d" % known)
        lines.append(line)
    return lines


def shared_out(rng, registrations, names):
    """The registrations of each submitter, by name.

    Most works have one submitter. Of some, two have half of the interests each, and of a few, two
    have all of them.
    """
    files = {name: [] for name in names}
    owners = {}
    for registration in registrations:
        number = number_of(registration)
        if number not in owners:
            some = rng.sample(names, min(len(names), rng.choice([1, 1, 1, 2])))
            owners[number] = some, rng.random() < 0.25
        some, is_whole = owners[number]
        interests = interests_in(registration)
        for place, name in enumerate(some):
            own = interests if is_whole else interests[place::len(some)]
            files[name].append([registration[0], *(line for lines in own for line in lines)])
    return files


def sizes(rng, is_short):
    """How many usage lines, works and parties a realistic case has."""
    if is_short:
        return rng.randint(1, 60), rng.randint(1, 15), rng.randint(2, 9)
    parties = int(2 * 1000 ** rng.random())
    return rng.randint(1, 3_000), parties + rng.randint(0, 300), parties


def realistic(rng, folder, is_short=False):
    """A realistic case, with 2 to 2,000 parties in all; a folder has its files in between."""
    names = rng.sample(NAMES, rng.randint(1, 5))
    generate(folder, *sizes(rng, is_short), rng.randrange(10**9), rng.choice([0.0, 0.1]))
    tis, cwr, listed = files_in(folder, FILES)
    part = rng.choice([0, 0.5, 1])
    registrations = [with_numbers(it, part) for it in registrations_in(cwr)]
    submitted = shared_out(rng, registrations, names)
    files, rows = [], []
    for name, own in submitted.items():
        lines = [b"HDRPB000000001" + name.encode(), b"GRHNWR0000102.20",
                 *(line for registration in own for line in registration)]
        files.append((name, b"\r\n".join([*lines, b"TRL", b""])))
        numbers = sorted({number_of(registration) for registration in own})
        rows += [[number, name.encode(), number, b"SONG"] for number in numbers
                 if rng.random() < 0.98]
    rng.shuffle(rows)
    tables = {"tis": tis, "works": table("works", rows), "usage": listed}
    if rng.random() < 0.5:
        tables["payees"] = realistic_payees(rng, files)
    return Submitted(tables, files)


def cut(tis, cwr, usage, names):
    """The files of submitters that together say what one file of the large generator says.

    All registrations of a number are one submitter's, and are of the work of this number. Each
    party is paid to the account of its own name.
    """
    files = {name: [b"HDR"] for name in names}
    owners, works, payees = {}, [], []
    for registration in registrations_in(cwr):
        number = number_of(registration)
        if number not in owners:
            owners[number] = names[len(owners) % len(names)]
            works.append([number, owners[number].encode(), number, b"SONG"])
        files[owners[number]] += registration
    files = [(name, b"\r\n".join([*lines, b"TRL", b""])) for name, lines in files.items()]
    for name, data in files:
        payees += [[name.encode(), party, party, b"HOUSE"] for party in parties_of(data)]
    tables = {"tis": tis, "works": table("works", works), "payees": table("payees", payees),
              "usage": usage}
    return Submitted(tables, files)


def realistic_payees(rng, files):
    """A table of payees by which many parties of one number, of several submitters, are one."""
    rows = []
    for name, data in files:
        for party in parties_of(data):
            kind = rng.random()
            if kind < 0.7:
                rows.append([name.encode(), party, party, b"HOUSE OF " + party])
            elif kind < 0.8:
                rows.append([name.encode(), party, b"HOUSE", b""])
    return table("payees", rows)


def with_wrong_names(rng, files):
    """The files of submitters, of which some have names that are refused, or there are too many."""
    files = list(files)
    accident = rng.randrange(4)
    place = rng.randrange(len(files))
    if accident == 0:
        files[place] = rng.choice(WRONG_NAMES), files[place][1]
    elif accident == 1:
        files.insert(rng.randint(0, len(files)), files[place])
    elif accident == 2:
        files += [(f"more{n}", b"") for n in range(256 - len(files) + rng.choice([0, 1]))]
    else:
        del files[place]
    return files


def with_wrong_words(rng, options):
    """The options of a run over several files, with one that is missing, doubled or wrong, or with
    a path at which there is nothing."""
    options = list(options)
    accident = rng.randrange(4)
    # Without a table of works the words are those of a run over one file.
    place = rng.choice([place for place, (name, _) in enumerate(options)
                        if accident or name != "works"])
    name, value = options[place]
    is_path = name not in ("workers", "readers", "nodes")
    if accident == 0:
        del options[place]
    elif accident == 1:
        options.insert(rng.randint(0, len(options)), options[place])
    elif is_path:
        options[place] = name, rng.choice([value + ".absent"] * 2 + ["", value.split("=")[0]])
    else:
        options[place] = name, rng.choice([0, 99, "", "x"])
    rng.shuffle(options)
    return options


def kinds_of(submitted):
    """The places where an accident may happen: the names of tables, and the places of files."""
    tables = [name for name in submitted.tables if name != "usage"]
    return [*tables, "works", *range(len(submitted.files))]


def with_file(submitted, place, change):
    """A case in which the table of a name, or the file in a place, was changed by a function."""
    tables, files = dict(submitted.tables), list(submitted.files)
    if place in tables:
        tables[place] = change(tables[place])
    else:
        name, data = files[place]
        files[place] = name, change(data)
    return Submitted(tables, files)


def after_accident(rng, submitted):
    """A case with one of its tables or files damaged, or with wrong names."""
    if rng.random() < 0.1:
        return Submitted(submitted.tables, with_wrong_names(rng, submitted.files))
    place = rng.choice(kinds_of(submitted))
    if rng.random() < 0.1:
        place = "usage"
    if rng.random() < 0.4:
        return with_file(submitted, place, lambda data: damaged(rng, data))
    return with_spoilt(rng, submitted, place)


def with_spoilt(rng, submitted, place):
    """A case after an accident to a table or a file that `check` has words for."""
    kind = {"payees": SUBMITTED}.get(place, place) if place in submitted.tables else "cwr"
    return with_file(submitted, place, lambda data: spoilt(rng, kind, data))


def all_spoilt(rng, submitted):
    """A case after a few accidents all over."""
    if rng.random() < 0.05:
        submitted = with_file(submitted, "tis", lambda _: filled(rng, "tis"))
    for _ in range(rng.randint(1, 5)):
        submitted = with_spoilt(rng, submitted, rng.choice([*kinds_of(submitted), "usage"]))
    return submitted


def rows_without_quotes(data):
    """The rows below the header of a table that have no quotes, as lists of fields."""
    rows = (line.strip(b"\r").split(b",") for line in data.split(b"\n")[1:] if b'"' not in line)
    return [row for row in rows if row != [b""]]


def relinked(rng, submitted):
    """A case in which registrations are those of other works, of many or of a few.

    At times some of the rows are of numbers that no file has.
    """
    rows = [row for row in rows_without_quotes(submitted.tables["works"]) if len(row) == 4]
    works = [row[0] for row in rows]
    names = rng.sample(works, min(len(works), rng.choice([1, 3, 12, len(works)])))
    part = rng.choice([0, 0.1, 0.5])
    for place, row in enumerate(rows):
        row[0] = rng.choice(names)
        if rng.random() < part:
            row[2] = b"NONE%d" % place
    tables = {**submitted.tables, "works": table("works", rows)}
    return Submitted(tables, submitted.files)


def strange_uses(rng, submitted):
    """A case with more usage lines, of works and territories that are unknown or known. In half of
    the cases other registrations are linked to each work."""
    if rng.random() < 0.5:
        submitted = relinked(rng, submitted)
    works = [row[0] for row in rows_without_quotes(submitted.tables["works"])]
    return Submitted(strange(rng, submitted.tables, works), submitted.files)


def at_limits(rng):
    """A case with about as many payees of one work as there may be, or of all works."""
    names = rng.sample(NAMES, rng.randint(1, 4))
    is_of_one = rng.random() < 0.7
    count = (256 if is_of_one else 16_383) + rng.choice([-1, 0, 1, 2])
    files, works = [], []
    for place, name in enumerate(names):
        records = []
        for n in range(place, count, len(names)):
            if n // len(names) % 200 == 0:
                number = b"W%d" % n
                records.append(cwr_records.work(number))
                work = b"W1" if is_of_one else name.encode() + b"-" + number
                works.append([work, name.encode(), number, b""])
            records.append(cwr_records.writer_share(b"P%d" % n, rng.choice([1, 30])))
        works.append([b"W1", name.encode(), b"NONE", b""])
        files.append((name, b"\n".join(records)))
    rng.shuffle(works)
    listed = usage(rng, [row[0].decode() for row in works]).encode()
    tables = {"tis": LANDS, "works": table("works", works), "usage": listed}
    if rng.random() < 0.5:
        # The first party is paid to the account of the second one.
        tables["payees"] = table("payees", [[names[0].encode(), b"P0",
                                             names[1 % len(names)].encode() + b":P1", b""]])
    return Submitted(tables, files)


def in_other_forms(rng, submitted):
    """A case in which some of the tables and files have another form at times."""
    tables = {name: forms.changed(rng, name, data) for name, data in submitted.tables.items()}
    files = [(name, forms.changed(rng, "cwr", data)) for name, data in submitted.files]
    return Submitted(tables, files)


def case(rng, folder):
    """A case of one to five submitters, of which a third has something damaged. Some of the tables
    and files have another form."""
    if rng.random() < 0.03:
        return at_limits(rng)
    submitted = small(rng) if rng.random() < 0.6 else realistic(rng, folder)
    submitted = in_other_forms(rng, submitted)
    return after_accident(rng, submitted) if rng.random() < 1 / 3 else submitted


def in_records(rng, data, others):
    """A CWR file after an accident to what a record says of a work, a publisher or a writer."""
    lines = data.split(b"\n")
    places = [place for place, line in enumerate(lines) if line[:3] in COLUMNS]
    if not places:
        return data
    place = rng.choice(places)
    line = lines[place]
    start, end = rng.choice(COLUMNS[line[:3]])
    accident = rng.randrange(4)
    text = rng.choice([*IPIS, *ISWCS, *PEOPLE, *TITLES])
    if accident == 0:
        line = cut_off(rng, line, 3 if line[:1] == b"S" else 82)
    else:
        if accident == 1:
            text = b""
        elif accident == 2:
            text = rng.choice(rng.choice(others).split(b"\n"))[start:end]
        line = line[:start].ljust(start) + text[:end - start].ljust(end - start) + line[end:]
    lines[place] = line
    return b"\n".join(lines)


def fuzzed(rng, folder):
    """A case in which one to three of the tables and files are damaged, one to six times each."""
    submitted = small(rng) if rng.random() < 0.7 else realistic(rng, folder, is_short=True)
    submitted = in_other_forms(rng, submitted)
    kinds = [*kinds_of(submitted), "usage"]
    # A set of names would have another order in each process.
    for place in dict.fromkeys(rng.choice(kinds) for _ in range(rng.choice([1, 1, 1, 2, 3]))):
        others = [*submitted.tables.values(), *(data for _, data in submitted.files), *ODD]
        for _ in range(rng.choice([1, 1, 1, 2, 3, 6])):
            ways = [in_bytes, in_lines, in_fields]
            damage = rng.choice(ways if place in submitted.tables else [*ways, *[in_records] * 2])
            submitted = with_file(submitted, place, lambda data: damage(rng, data, others))
    if rng.random() < 0.02:
        return Submitted(submitted.tables, with_wrong_names(rng, submitted.files))
    return submitted
