"""Makes up sales reports, tables of values, and the words with which they are imported.

A case is a list of the words behind `import`, and the files that have to be in the folder in which
the program runs, by name. `small` draws all of it from a `random.Random`, so the same seed gives
the same case. Half of the cases are damaged.
"""
import os
from typing import NamedTuple

from tools.damage import damaged, in_bytes, in_fields, in_lines

OUTPUT, REJECTS = "usage.csv", "rejects.csv"

DELIMITERS = {"comma": b",", "semicolon": b";", "tab": b"\t", "pipe": b"|"}

# The options that have to be given once.
NEEDED = ("work", "territory", "right", "amount", "output", "rejects")

# The options without a value.
FLAGS = ("no-header", "decimal-comma")

# The tables of values, by what their values are for.
TABLES = {"work": "works", "territory": "territories", "right": "rights"}

# Names of columns. Some look like other words, or stand in quotes.
COLUMNS = ["Title", "Play ID", "title", "Work", "Territory", "Land", "Right", "Betrag", "Net (EUR)",
           "L\xe4nder\u00adcode", 'said "x"', "a=b", "=x", "a,b", "a;b", "c|d", "e\tf", " Work",
           "#0", "#70000", "#65537", "#x", "#", "#+1", "rejected_row", "rejected_since",
           "two\nlines", "-x", "\U0001f3b5", "Kind", "1", ""]

# What a report has in a column, by what it is for. A part of the name of a use may be empty. No
# value has a line break, for which a row is rejected; those stand below.
GOOD = {
    "usage": [b"Radio 1", b"club", b'say ""', b'"', b"a, b", b"a;b|c", b"x", b"0", b" ", b"-", b"~",
              b"12 May"] * 4 + [b"u" * 31, b"u" * 32, b"u" * 64],
    "work": [b"W1", b"W2", b"W 3", b"LONGWORK123456", b"T0345246801", b"w" * 64, b'"W"', b"W,1"],
    "territory": [b"2136", b"276", b"0276", b"1", b"9999", b"0001", b"840"],
    "right": [b"P", b"M", b"S"],
    "where": [b"sale", b"refund", b"", b"x=y", b"caf\xc3\xa9", b'"', b"-"],
    "other": [b"", b"", b"x", b"0", b"caf\xc3\xa9", b"\xff\xfe", b"\x00", b'a "b" c', b"1,5",
              b"\xef\xbb\xbf", b"=1", b"a;b", b"tab\there", b"p|q", b"\x0b\x0c\xc2\x85"],
}

WRONG = {
    "usage": [b"", b"u" * 65, b"caf\xc3\xa9", b"\xe9", b"\x7f", b"\x1f", b"\x00", b"a\nb", b"\t"],
    "work": [b"", b"w" * 65, b"caf\xc3\xa9", b"\x00", b"\x7f", b"W\r\n1"],
    "territory": [b"", b"0", b"0000", b"10000", b"00276", b"DE", b"27 ", b" 276", b"+276", b"-1",
                  b"\xd9\xa1"],
    "right": [b"", b"p", b"PM", b" P", b"P ", b"\x00", b"X"],
    "where": [b"Sale", b"sale ", b"\xff", b"other"],
    "other": [b"two\nlines", b"\r", b"a\r\nb", b"\n", b'"\n"'],
}

# What stands on the left in a table of values. One has a line break, which a text of all rows may
# have, but no field of a row that is not rejected.
SOURCES = {"work": [b"Song", b"Tune", b"song", b"", b'"Song"', b"a,b", b"\xff", b"two\nlines"],
           "territory": [b"DE", b"de", b"World", b"", b"\xc3\x96sterreich", b"US", b"276"],
           "right": [b"perf", b"mech", b"", b"Sync, other", b"P", b"\x00"]}

# First lines of a table of values that are not its header, but for the last one.
WRONG_HEADERS = [b"", b"from", b"from,to,x", b"From,To", b" from,to", b"to,from", b"from;to",
                 b"\xef\xbb\xbffrom,to"]


class Soft(NamedTuple):
    """A symbolic link to a name in the same folder."""

    name: str


class Hard(NamedTuple):
    """Another name of a file in the same folder."""

    name: str


FOLDER = None  # stands for a folder where else the bytes of a file would


def laid(folder, files):
    """Lays files in a folder, which is made if need be: bytes, links to other files, or folders.

    Links come last, and of a file that is not there a hard link is left out.
    """
    os.makedirs(folder, exist_ok=True)
    for name, it in sorted(files.items(), key=lambda pair: isinstance(pair[1], (Soft, Hard))):
        path = os.path.join(folder, name)
        if it is FOLDER:
            os.mkdir(path)
        elif isinstance(it, Soft):
            os.symlink(it.name, path)
        elif isinstance(it, Hard) and not isinstance(files.get(it.name), bytes):
            continue
        elif isinstance(it, Hard):
            os.link(os.path.join(folder, it.name), path)
        else:
            with open(path, "wb") as file:
                file.write(it)


class Form(NamedTuple):
    """How amounts are written, and how many decimals are kept of them."""

    mark: bytes
    parting: bytes
    decimals: int


def grouped(digits, parting):
    """Digits in groups of three, counted from the end."""
    first = len(digits) % 3 or 3
    return parting.join([digits[:first], *(digits[n:n + 3] for n in range(first, len(digits), 3))])


def digits_of(rng, most):
    """A few digits, or at times as many as there may be."""
    count = rng.choice([1, 1, 2, 3, 4, 4, 5, 6, 7, most])
    return b"".join(b"%d" % rng.choice([0, 0, rng.randrange(10)]) for _ in range(min(count, most)))


def amount(rng, form):
    """The text of an amount that is one, in any of its forms."""
    # 1,000,000,000,000 units have 13 digits, some of them decimals.
    digits = digits_of(rng, 12 - form.decimals)
    kept = b"".join(b"%d" % rng.randrange(10) for _ in range(rng.randint(0, form.decimals)))
    decimals = kept + b"0" * rng.choice([0, 0, 0, 1, 12])
    sign = rng.choice([b"", b"", b"", b"-"])
    kind = rng.randrange(8)
    if kind == 0:
        text = digits
    elif kind == 1:
        text = form.mark + (decimals or b"0")
    elif kind <= 3:
        text = grouped(digits, form.parting) + form.mark + (decimals or b"0")
    elif kind == 4:
        text = limit(rng, form, 0)
    elif kind == 5:
        text = b"0" * rng.randint(1, 20) + digits
        text += form.mark + decimals if decimals else b""
    elif kind == 6:
        # As long as an amount may be.
        text = (b"0" * 37 + digits + form.mark + (decimals or b"0"))[-37:]
        sign = rng.choice([b"0", b"-"])
    else:
        text = digits + (form.mark + decimals if decimals else b"")
    return sign + (text if len(text) <= 37 else digits)


def limit(rng, form, more):
    """The largest amount in units, and as many more."""
    units = b"%d" % (10**12 + more)
    whole, decimals = units[:len(units) - form.decimals], units[len(units) - form.decimals:]
    if not form.decimals:
        return units + rng.choice([b"", form.mark + b"0"])
    if rng.random() < 0.5:
        whole = grouped(whole, form.parting)
    return whole + form.mark + decimals + rng.choice([b"", b"0", b"000"])


def no_amount(rng, form):
    """A text that comes near to an amount, and most of the time is none."""
    mark, parting = form.mark, form.parting
    near = [b"", b"-", mark, b"-" + mark, b"5" + mark, b"+1", b" 1", b"1 ", b"--1", b"- 1", b"1-",
            b"1\n", b"1\r\n", b"\n1", b"1e3", b"0x10", b"12\x00", b"\xef\xbc\x91", b"EUR 1", b"NaN",
            b"(5)", b"\xe2\x88\x925", b"1" + parting + b"234", b"1" + parting + b"234" + mark,
            b"1" + mark + b"5-",
            b"1" + mark + b"2" + mark + b"3", parting + b"123" + mark + b"5",
            b"1234" + parting + b"567" + mark + b"5", b"12" + parting + b"34" + mark + b"5",
            b"1" + parting + parting + b"234" + mark + b"5", b"1" + parting + b"2345" + mark + b"5",
            b"1" + mark + b"234" + parting + b"5", b"1" + parting + b"234" + parting + mark + b"5",
            b"1'234" + mark + b"5"]
    beyond = b"1" + mark + b"0" * form.decimals + rng.choice([b"1", b"01", b"000001", b"5"])
    long = [b"0" * 39, b"-" + b"0" * 38, b"-" + b"1" * 38, b"x" * 39, b"1" + mark + b"0" * 37]
    # The first two have just as many bytes as there may be.
    full = [b"9" * 38, b"-" + b"9" * 37, mark + b"0" * 36 + b"1"]
    large = [limit(rng, form, 1), b"-" + limit(rng, form, 1), limit(rng, form, 10**12),
             b"9" * 20 + mark + b"5", b"1" + b"0" * (13 - form.decimals)]
    beyond = [beyond, b"-" + beyond]
    return rng.choice(rng.choice([near, near, beyond, beyond, long, full, large]))


class Column(NamedTuple):
    """A column of an export: what it is for, its name, and what it has in it."""

    use: str
    name: str
    good: list  # values of which the rows have some; an amount is made up for each row
    wrong: list


class Word(NamedTuple):
    """A word that says where a value stands: the option, and the number of its column, or none."""

    option: str
    column: int  # or None, where all rows have the text
    text: str = ""


def table_of(rng, use):
    """The rows of a table of values."""
    sources = rng.sample(SOURCES[use], rng.randint(1, len(SOURCES[use])))
    return [[source, rng.choice(GOOD[use])] for source in sources]


def has_break(value):
    """Whether a value has a line break."""
    return b"\n" in value or b"\r" in value


def column_of(rng, use, name, table):
    """A column of an export, with a few values; they have rows in a table, if there is one."""
    if table:
        sources = [source for source, _ in table]
        wrong = [b"no row", b"Song ", *GOOD[use][:1], *filter(has_break, sources)]
        good = [source for source in sources if not has_break(source)]
        return Column(use, name, good or [b"no row"], wrong)
    good = GOOD.get(use, [])
    return Column(use, name, rng.sample(good, min(len(good), 4)), WRONG.get(use, []))


def value_of(rng, column, form, is_wrong):
    """The value of a row in a column."""
    if column.use == "amount":
        return no_amount(rng, form) if is_wrong else amount(rng, form)
    return rng.choice(column.wrong if is_wrong else column.good)


def in_words(values):
    """The values that may stand in words: those in UTF-8, and without NUL."""
    texts = []
    for value in values:
        try:
            texts += [value.decode()] if b"\x00" not in value else []
        except UnicodeDecodeError:
            pass
    return texts


def text_word(rng, use, form, table):
    """A word that is the text of all rows."""
    is_wrong = rng.random() < 0.04
    column = column_of(rng, use, "", table)
    if table:
        column = column._replace(good=[source for source, _ in table])
    values = (value_of(rng, column, form, is_wrong) for _ in range(20))
    return "=" + next(iter(in_words(values)), "")


def field(rng, value, delimiter):
    """A field as a report may have it: in quotes where it needs them, and at times elsewhere."""
    special = delimiter + b"\r\n"
    needs_quotes = value.startswith(b'"') or any(byte in special for byte in value)
    if not needs_quotes and rng.random() < 0.9:
        return value
    tail = b""
    if rng.random() < 0.05:
        # What stands behind a closing quote is taken as it is.
        cut = max((n for n, byte in enumerate(value) if byte in special), default=-1) + 1
        value, tail = value[:cut], value[cut:]
        if tail.startswith(b'"'):
            value, tail = value + tail, b""
    return b'"' + value.replace(b'"', b'""') + b'"' + tail


def text_of(rng, rows, delimiter):
    """Rows as a text, with line ends of one kind, and at times with lines without a byte."""
    end = rng.choice([b"\n", b"\n", b"\n", b"\r\n", b"\r\n", b"\r"])
    blank = rng.choice([0, 0, 0.2])
    text = b"\xef\xbb\xbf" if rng.random() < 0.15 else b""
    for row in rows:
        if rng.random() < blank:
            text += end * rng.randint(1, 3)
        line = delimiter.join(field(rng, value, delimiter) for value in row)
        text += (line or b'""') + end
    return text if rng.random() < 0.7 else text.removesuffix(end)


def odd_row(rng, row):
    """A row with fields too many or too few, or with none that has a byte."""
    accident = rng.randrange(7)
    if accident == 0:
        return [*row, *rng.choices([b"", b"x", b"1.00"], k=rng.randint(1, 3))]
    if accident == 1:
        return row[:rng.randrange(len(row) + 1)] or [b""]
    if accident == 2:
        place = rng.randrange(len(row))
        return row[:place] + row[place + 1:] or [b"x"]
    if accident in (3, 4):
        return [b""] * rng.choice([1, len(row), len(row), len(row) + 2])
    if accident == 5:
        return [*row[:-1], b""]
    return [b"total"] + [b""] * (len(row) - 1)


class Made(NamedTuple):
    """A case as it is made up, before it is damaged and written."""

    columns: list
    words: list  # of Word
    conditions: list  # numbers of columns, maybe with one behind the last, with texts
    tables: dict  # rows, by what their values are for
    rows: list
    form: Form
    delimiter: str
    has_header: bool


def condition_on(rng, column):
    """The text that a condition asks for in a column."""
    return rng.choice(in_words(column.good) or ["sale"])


def makes_words(rng, form, tables, names):
    """Columns in any order, and a word for each value that a usage line has."""
    columns, words = [], []
    for option in ["usage"] * rng.choice([1, 1, 2, 3]) + ["work", "territory", "right", "amount"]:
        chance = rng.random()
        if chance < 0.15:
            words.append(Word(option, None, text_word(rng, option, form, tables.get(option))))
        elif chance < 0.2 and columns:
            words.append(Word(option, rng.randrange(len(columns))))
        else:
            words.append(Word(option, len(columns)))
            columns.append(column_of(rng, option, names.pop(), tables.get(option)))
    for use in ["where"] * rng.choice([0, 0, 1, 1, 2]) + ["other"] * rng.choice([0, 1, 1, 3]):
        columns.append(column_of(rng, use, names.pop(), None))
    if not columns:
        columns.append(column_of(rng, "other", names.pop(), None))
    order = rng.sample(range(len(columns)), len(columns))
    place_of = {old: new for new, old in enumerate(order)}
    words = [word if word.column is None else word._replace(column=place_of[word.column])
             for word in words]
    return [columns[old] for old in order], words


def made(rng):
    """A case without damage, though some of its rows have wrong values or odd forms."""
    is_comma = rng.random() < 0.3
    mark, parting = (b",", b".") if is_comma else (b".", b",")
    form = Form(mark, parting, rng.choice([2, 2, 2, 0, 1, 3, 6, 9]))
    tables = {use: table_of(rng, use) for use in TABLES if rng.random() < 0.4}
    names = rng.sample(COLUMNS, len(COLUMNS))
    columns, words = makes_words(rng, form, tables, names)
    asked = [n for n, column in enumerate(columns) if column.use == "where"]
    asked += [rng.randrange(len(columns))] if rng.random() < 0.05 else []
    conditions = [(n, condition_on(rng, columns[n])) for n in asked if rng.random() < 0.9]
    has_header = rng.random() < 0.75
    if not has_header and rng.random() < 0.15:
        # A field that only some rows have.
        conditions.append((len(columns), rng.choice(["", "", "x"])))
    part = rng.choice([0, 0, 0.02, 0.05, 0.1])
    rows = []
    for _ in range(rng.choice([0, 1, 3, 6, 12, 12, 30])):
        row = [value_of(rng, column, form, rng.random() < part) for column in columns]
        for place, text in conditions:
            if rng.random() < 0.6:
                row[place:place + 1] = [text.encode()]
        rows.append(odd_row(rng, row) if rng.random() < part else row)
    delimiter = rng.choice(["comma", "comma", *DELIMITERS])
    return Made(columns, words, conditions, tables, rows, form, delimiter, has_header)


def column_word(rng, case, place):
    """A word for a column: its name, or its number, with zeros before it at times."""
    if case.has_header and rng.random() < 0.75:
        name = case.columns[place].name
        # Names of these forms mean something else.
        if not name.startswith("=") and not (name[:1] == "#" and name[1:].isdigit()):
            return name
    return f"#{'0' * rng.choice([0, 0, 0, 1, 5])}{place + 1}"


def options_of(rng, case):
    """The options of a case, in any order, each a name with a value; a flag has no value."""
    options = []
    for word in case.words:
        text = word.text if word.column is None else column_word(rng, case, word.column)
        options.append((word.option, text))
    for place, text in case.conditions:
        word = column_word(rng, case, place)
        # A name ends at its first `=`, and may not be empty.
        word = f"#{place + 1}" if "=" in word or not word else word
        options.append(("where", f"{word}={text}"))
    options += [(TABLES[use], f"{TABLES[use]}.csv") for use in case.tables]
    options += [("output", OUTPUT), ("rejects", REJECTS)]
    if case.form.decimals != 2 or rng.random() < 0.2:
        options.append(("decimals", str(case.form.decimals)))
    if case.delimiter != "comma" or rng.random() < 0.3:
        options.append(("delimiter", case.delimiter))
    if case.form.mark == b",":
        options.append(("decimal-comma", None))
    if not case.has_header:
        options.append(("no-header", None))
    rng.shuffle(options)
    return options


def words_of(rng, options, export):
    """The words of options and of the export, which stands among them."""
    words = []
    place = rng.randint(0, len(options))
    for n, (name, value) in enumerate([*options, (None, None)]):
        if n == place:
            words.append(export)
        if name is None:
            continue
        if value is None:
            words.append(f"--{name}")
        elif value.startswith("-") or rng.random() < 0.3:
            words.append(f"--{name}={value}")
        else:
            words += [f"--{name}", value]
    return words


def written(rng, case, export):
    """The files of a case, by name."""
    header = [[column.name.encode() for column in case.columns]] if case.has_header else []
    files = {export: text_of(rng, header + case.rows, DELIMITERS[case.delimiter])}
    for use, rows in case.tables.items():
        files[f"{TABLES[use]}.csv"] = text_of(rng, [[b"from", b"to"], *rows], b",")
    for name in (OUTPUT, REJECTS):
        if rng.random() < 0.2:
            files[name] = b"before\n"
    return files


def wrong_column(rng, case, options, files, export):
    """Changes a column or a word so that the word names no column, two, or none that all have."""
    places = [n for n, (name, _) in enumerate(options)
              if name in ("usage", "work", "territory", "right", "amount", "where")]
    place = rng.choice(places)
    name, value = options[place]
    tail = "=" + value.partition("=")[2] if name == "where" else ""
    accident = rng.randrange(5)
    if accident == 0:
        word = rng.choice(["absent", "", "title ", "TITLE", "#0", "#70000", "#65537", "#x", "#",
                           "#-1", "caf\xe9"])
        options[place] = name, (word or "absent" if tail else word) + tail
    elif accident == 1:
        number = rng.choice([len(case.columns) + 1, len(case.columns) + 2, 100, 65536])
        options[place] = name, f"#{number}{tail}"
    else:
        # Another column of the name of one, at times of one that no word names.
        names = [column.name.encode() for column in case.columns]
        again = rng.choice(names)
        named = [it for it in names if it.decode() in (value, value.partition("=")[0])]
        if named and rng.random() < 0.8:
            again = named[0]
        rows = [[*names, again], *([*row, b"x"] for row in case.rows)]
        if accident == 4:
            rows = [names[:-1], *(row[:-1] or [b"x"] for row in case.rows)]
            rows[0] = rows[0] or [b"x"]
        files[export] = text_of(rng, rows if case.has_header else rows[1:],
                                DELIMITERS[case.delimiter])
    return options


def wrong_table(rng, case, options, files, export):
    """Damages a table of values in a way that has a fault, or leaves it out of the folder."""
    if not case.tables:
        return wrong_export(rng, case, options, files, export)
    use = rng.choice(list(case.tables))
    rows = [[b"from", b"to"], *case.tables[use]]
    name = f"{TABLES[use]}.csv"
    place = rng.randint(1, len(rows) - 1)
    source, value = rows[place]
    accident = rng.randrange(9)
    if accident <= 1:
        wrong = [it for it in WRONG[use] if it not in GOOD[use]]
        rows[place] = [source, rng.choice(wrong)]
    elif accident == 2:
        rows[place] = rng.choice([[source], [source, value, b""], [b""], [b"", b"", b""]])
    elif accident <= 4:
        rows.insert(rng.randint(place, len(rows)), [source, rng.choice(GOOD[use] + [b"no value"])])
    elif accident == 5:
        rows[0] = rng.choice(WRONG_HEADERS).split(b",")
    elif accident == 6:
        rows = rng.choice([[], [[b""]], rows[1:]])
    files[name] = text_of(rng, rows, b",")
    if accident == 7:
        del files[name]
    elif accident == 8:
        files[name] = rng.choice([damaged(rng, files[name]), FOLDER])
    return options


def wrong_words(rng, _case, options, _files, _export):
    """Leaves an option out, gives one twice or with another value, or adds one."""
    place = rng.randrange(len(options))
    name, value = options[place]
    accident = rng.randrange(8)
    if accident == 0:
        needed = [n for n, (it, _) in enumerate(options) if it in (*NEEDED, "usage")]
        del options[rng.choice(needed)]
    elif accident == 1:
        options.insert(rng.randrange(len(options) + 1), options[place])
    elif accident == 2:
        wrong = rng.choice(["10", "-1", "x", "", "1.0", " 1", "09", "+9", "9" * 20])
        options = [it for it in options if it[0] != "decimals"] + [("decimals", wrong)]
    elif accident == 3:
        wrong = rng.choice(["comma", ",", "Comma", "", "space", "tabs"])
        options = [it for it in options if it[0] != "delimiter"] + [("delimiter", wrong)]
    elif accident == 4:
        options.append(("where", rng.choice(["", "x", "=x", "=", "==", "#1", "Kind"])))
    elif accident == 5:
        options.append(rng.choice([("no-header", None), ("decimal-comma", None), ("usage", None),
                                   ("no-header", "x"), ("workers", "1"), ("Usage", "x"),
                                   ("tis", "works.csv"), ("output", None)]))
    elif accident == 6 and value:
        options[place] = name, None
    else:
        options[place] = name, rng.choice(["=x", "=", "#1", "", "x", "=-"])
    return options


def wrong_paths(rng, case, options, files, export):
    """Names an output that is an input or that both tables have, or one that cannot be written."""
    output = rng.choice(["output", "rejects"])
    other = {"output": REJECTS, "rejects": OUTPUT}[output]
    inputs = [export, *(f"{TABLES[use]}.csv" for use in case.tables)]
    source = rng.choice(inputs)
    accident = rng.randrange(12)
    if accident == 0:
        path = source
    elif accident == 1:
        path = f"./{source}"
    elif accident == 2:
        path, files["link.csv"] = "link.csv", rng.choice([Soft, Hard])(source)
    elif accident == 3:
        path = other
    elif accident == 4:
        path, files[other] = f"./{other}", b"before\n"
    elif accident == 5:
        path, files[other] = "link.csv", b"before\n"
        files["link.csv"] = rng.choice([Soft, Hard])(other)
    elif accident == 6:
        path = "absent/usage.csv"
    elif accident == 7:
        path, files["kept"] = "kept", FOLDER
    elif accident == 8:
        path = f"./{other}"
    elif accident == 9:
        # Neither can be written.
        path = "absent/usage.csv"
        options = [(name, "absent/other.csv" if name in ("output", "rejects") else value)
                   for name, value in options]
    elif accident == 10:
        # A file may be begun beside it, and never has its name.
        path = ""
    else:
        path, files["link.csv"] = "link.csv", Soft(rng.choice(["nothing", "kept.csv"]))
        files["kept.csv"] = b"kept\n"
    if accident in (6, 7, 9, 11) and rng.random() < 0.4:
        # An export that has a fault of its own, which may be told of before or behind that of the
        # path.
        files[export] = rng.choice([FOLDER, b"", b"x\n"])
        if rng.random() < 0.3:
            del files[export]
    return [(name, path if name == output else value) for name, value in options]


def wrong_export(rng, _case, options, files, export):
    """Damages the export, or leaves it out of the folder, or leaves it without rows."""
    text = files[export]
    accident = rng.randrange(10)
    if accident == 0:
        files[export] = rng.choice([b"", b"\n", b"\r\n\r", b"\xef\xbb\xbf", b"\xef\xbb\xbf\n",
                                    b"\xef\xbb", b'""', b'"', b" ", b",,,\n"])
    elif accident == 1:
        files[export] = text[:text.find(b"\n") + 1]
    elif accident == 2:
        del files[export]
    elif accident == 3:
        files[export] = FOLDER
    elif accident <= 5:
        files[export] = damaged(rng, text)
    else:
        for _ in range(rng.choice([1, 1, 2, 5])):
            accident = rng.choice([in_bytes, in_lines, in_fields])
            text = accident(rng, text, [it for it in files.values() if isinstance(it, bytes)])
        files[export] = text
    return options


DAMAGES = [wrong_column, wrong_table, wrong_words, wrong_paths, wrong_export, wrong_export]


def small(rng):
    """The words and the files of a case, which in half of the cases is damaged."""
    case = made(rng)
    export = rng.choice(["export.csv"] * 6 + ["sales 2026.csv", "a=b", "caf\xe9.txt", "x: rows"])
    options, files = options_of(rng, case), written(rng, case, export)
    if rng.random() < 0.5:
        for damage in rng.sample(DAMAGES, rng.choice([1, 1, 1, 1, 2])):
            if isinstance(files.get(export), bytes):
                options = damage(rng, case, options, files, export)
    words = words_of(rng, options, export)
    if rng.random() < 0.01:
        words = rng.choice([[it for it in words if it != export], [*words, "another.csv"], []])
    return words, files


def parsed(words):
    """The options of words that a program takes, as names with values, and the path of the export.

    A flag has no value.
    """
    options, paths, rest = [], [], iter(words)
    for word in rest:
        if not word.startswith("--"):
            paths.append(word)
            continue
        name, sign, value = word[2:].partition("=")
        if not sign:
            value = None if name in FLAGS else next(rest)
        options.append((name, value))
    (export,) = paths
    return options, export


def filled(more):
    """A table of values with the most rows that there may be, and as many more."""
    rows = (b"%d,1\n" % n for n in range(4_194_304 + more))
    return b"from,to\n" + b"".join(rows)
