"""Tests of the made-up sales reports, of what the plain program makes of them, and of what
bench.imports computes by itself.

What the plain program has to print was worked out by hand.
"""
import hashlib
import random
import re
import tempfile
import unittest
from decimal import Decimal

from bench import imports
from tools import exports, plain
from tools.running import run

PROGRAM = None

REASONS = ["a field of it has a line break",
           "it does not have the fields that it should have",
           "what its use is called is not 1 to 64 printable bytes",
           "its work has no row in the table of works",
           "its work is not 1 to 64 printable bytes",
           "its territory has no row in the table of territories",
           "its territory is no TIS numeric code",
           "its right has no row in the table of rights",
           "its right is not P or M or S",
           "its amount has more than 38 bytes",
           "its amount is no decimal number",
           "its amount has more decimal places than are kept",
           "its amount is more than 1000000000000 units"]

BREAK, FIELDS, USE, NO_WORK, _, NO_TERRITORY, CODE, NO_RIGHT, *_ = REASONS

# What stands before the header of an export in that of its rejected rows.
HEADER = "rejected_row,rejected_since,"

# Patterns of the lines that summaries and messages have.
TOLD = [f": rejected since {reason}: [1-9]" for reason in REASONS]
TOLD += [": rows passed over: [1-9]", ": rows: 0, amount 0\n", r"amount -\d",
         ", without the amounts of [1-9]", " has no header\n", " has no column '",
         " has no column '#[1-9]", " has more than one column '",
         "there is no header to find the column '", " is an input, which the output would replace",
         " is named for both tables", "import EXPORT --usage COL", "map fault 1 at row 0 of ",
         "map fault 1 at row [1-9]", "map fault 2 at row [1-9]", "map fault 3 at row [1-9]",
         "map fault 4 at row [1-9]", "map fault 5 at row [1-9]", "cannot read works.csv",
         "cannot read territories.csv", "cannot read rights.csv", "cannot read export.csv",
         "cannot write absent/usage.csv", "cannot write kept", "cannot write link.csv"]


def setUpModule():
    """Builds the plain program."""
    global PROGRAM
    PROGRAM = plain.build()


def shown(*lines):
    """What has to be printed of export.csv: a line for each."""
    return "".join(f"export.csv: {line}\n" for line in lines)


class Cases(unittest.TestCase):
    """What is made up."""

    def test_a_seed_gives_one_case(self):
        for seed in range(60):
            first, second, other = (exports.small(random.Random(it)) for it in (seed, seed, ~seed))
            self.assertEqual(first, second)
            self.assertNotEqual(first, other)

    def test_cases_are_those_of_before(self):
        total = hashlib.sha256(repr([exports.small(random.Random(n)) for n in range(60)]).encode())
        self.assertEqual(total.hexdigest()[:16], "225b6984eebaf8bb")

    def test_amounts_are_numbers_of_their_form_within_the_limit(self):
        plainly = r"-?(\d+|\d*\.\d+|\d{1,3}(,\d{3})+\.\d+)"
        for seed in range(2000):
            rng = random.Random(seed)
            decimals, is_comma = rng.randint(0, 9), rng.random() < 0.5
            form = exports.Form(*((b",", b".") if is_comma else (b".", b",")), decimals)
            text = exports.amount(rng, form).decode()
            self.assertLessEqual(len(text), 38)
            if is_comma:
                text = text.translate(str.maketrans(",.", ".,"))
            self.assertRegex(text, f"^{plainly}$")
            units = Decimal(text.replace(",", "")) * 10**decimals
            self.assertEqual(units, int(units))
            self.assertLessEqual(abs(units), 10**12)

    def test_digits_are_grouped_from_their_end(self):
        self.assertEqual([exports.grouped(b"1234567"[:n], b",") for n in range(1, 8)], [
            b"1", b"12", b"123", b"1,234", b"12,345", b"123,456", b"1,234,567"])

    def test_rows_read_back_as_they_were_made(self):
        values = [*exports.GOOD["other"], *exports.GOOD["usage"], b'""', b'"x', b"x;y|z\t"]
        for seed in range(400):
            rng = random.Random(seed)
            rows = [rng.choices(values, k=rng.randint(1, 4)) for _ in range(5)]
            # In front of a text a byte order mark does not count.
            rows[0][0] = b"first"
            delimiter = rng.choice(list(exports.DELIMITERS.values()))
            text = exports.text_of(rng, rows, delimiter)
            self.assertEqual(imports.rows_of(text, delimiter.decode()),
                             [[value.decode("latin-1") for value in row] for row in rows])

    def test_words_are_parsed_as_they_were_made(self):
        for seed in range(60):
            rng = random.Random(seed)
            options = exports.options_of(rng, exports.made(rng))
            words = exports.words_of(rng, options, "e.csv")
            self.assertEqual(exports.parsed(words), (options, "e.csv"))

    def test_a_filled_table_has_the_most_rows(self):
        data = exports.filled(1)
        self.assertTrue(data.startswith(b"from,to\n0,1\n"))
        self.assertEqual(data.count(b"\n"), 1 + 4_194_305)


class Told(unittest.TestCase):
    """Answers of the plain program on made-up cases have all lines that they may have."""

    CASES = 2000

    def told(self, seed):
        """What is said of a case."""
        words, files = exports.small(random.Random(seed))
        with tempfile.TemporaryDirectory() as folder:
            exports.laid(folder, files)
            _, printed, message = run([PROGRAM, "import", *words], folder=folder)
        return (printed + message).decode()

    def test_made_up_cases_bring_all_lines_about(self):
        missing = TOLD
        for seed in range(self.CASES):
            told = self.told(seed) if missing else ""
            missing = [line for line in missing if not re.search(line, told)]
        self.assertEqual(missing, [])


class Imports(unittest.TestCase):
    """What the plain program imports."""

    ROWS = "Song,Who,Where,How,Net\n"
    NAMED = ("--usage=Song", "--work=Who", "--territory=Where", "--right=How", "--amount=Net")
    NUMBERED = ("--usage=#1", "--work=#2", "--territory=#3", "--right=#4", "--amount=#5")
    OUTPUT = "usage,work,territory,right,amount\n"

    def answer(self, text, *words, named=NAMED, **tables):
        """The outcome of an import, with the text of each of the two tables, if it is there."""
        text = text.encode() if isinstance(text, str) else text
        with tempfile.TemporaryDirectory() as folder:
            exports.laid(folder, {"export.csv": text, **{name: table.encode()
                                                         for name, table in tables.items()}})
            words = ["export.csv", *named, "--output=o", "--rejects=r", *words,
                     *(f"--{name}={name}" for name in tables)]
            status, printed, message = run([PROGRAM, "import", *words], folder=folder)
            left = imports.lying_in(folder)
        both = [left[name].decode("latin-1") if name in left else None for name in "or"]
        return status, printed.decode(), message.decode(), *both

    def imports(self, text, lines, rejects, *words, **how):
        """Has an import make these usage lines and rejected rows; what it printed."""
        status, printed, message, output, rejected = self.answer(text, *words, **how)
        self.assertEqual((output, rejected), (self.OUTPUT + lines, rejects))
        is_rejected = any(f",{reason}" in rejects for reason in REASONS)
        self.assertEqual((status, message), (int(is_rejected), ""))
        return printed

    def refuses(self, message, status, text, *words, **how):
        """Has an import refused with this message, and neither table made."""
        outcome = self.answer(text, *words, **how)
        self.assertEqual(outcome, (status, "", f"{message}\n", None, None))

    def test_rows_become_usage_lines_and_a_summary_counts_them(self):
        # 1234.56 is 123456 units, -.5 is -50, and 7 is 700.
        text = self.ROWS + 'A,W1,276,P,"1,234.56"\n"B ""x""",W2,0840,M,-.5\n\n,,,,\nC,W3,DE,S,7\n'
        lines = 'A,W1,276,P,123456\n"B ""x""",W2,0840,M,-50\n'
        rejects = HEADER + self.ROWS + "4,its territory is no TIS numeric code,C,W3,DE,S,7\n"
        self.assertEqual(self.imports(text, lines, rejects), shown(
            "rows: 4, amount 124106, without the amounts of 1", "usage lines: 2, amount 123406",
            "rejected rows: 1, amount 700",
            "rejected since its territory is no TIS numeric code: 1, amount 700",
            "rows passed over: 1, amount 0, without the amounts of 1"))

    def test_amounts_are_read_exactly(self):
        for text, units, more in (
                ("0", 0, ()), ("-0", 0, ()), ("-0.00", 0, ()), ("00012", 1200, ()), (".5", 50, ()),
                ("1.50000000", 150, ()), ("12,345.6", 1234560, ()), ("0" * 37 + "1", 100, ()),
                ("123,456,789.01", 12345678901, ()), ("1.234,56", 123456, ("--decimal-comma",)),
                (",5", 50, ("--decimal-comma",)), ("1.9", 19, ("--decimals=1",)),
                ("5", 5, ("--decimals=0",)), ("5.0", 5, ("--decimals=0",)),
                ("-1000.000000000", -10**12, ("--decimals=9",)), ("10000000000.00", 10**12, ()),
                ("-" + "0" * 34 + ".01", -1, ())):
            self.imports(f'{self.ROWS}A,W,1,P,"{text}"\n', f"A,W,1,P,{units}\n",
                         HEADER + self.ROWS, *more)

    def test_other_amounts_are_none_for_the_first_reason(self):
        long, none, places, large = REASONS[9:]
        for text, reason, more in (
                ("0" * 39, long, ()), ("-" + "x" * 38, long, ()), ("", none, ()), ("-", none, ()),
                ("5.", none, ()), (".", none, ()), ("1,234", none, ()), ("1,2345.6", none, ()),
                ("1234,567.8", none, ()), (",123.4", none, ()), ("1,234,.5", none, ()),
                ("1.2.3", none, ()), ("1.2,345", none, ()), ("+1", none, ()), (" 1", none, ()),
                ("--1", none, ()), ("1e3", none, ()), ("1.234,5", none, ()),
                ("1,234.5", none, ("--decimal-comma",)), ("0.001", places, ()),
                ("99999999999999999999.001", places, ()), ("0.5", places, ("--decimals=0",)),
                ("10000000000.01", large, ()), ("-10000000000.01", large, ()),
                ("9" * 38, large, ("--decimals=9",)), ("1" + "0" * 37, large, ())):
            row = f'A,W,1,P,"{text}"\n' if "," in text else f"A,W,1,P,{text}\n"
            self.imports(self.ROWS + row, "", f"{HEADER}{self.ROWS}1,{reason},{row}", *more)

    def test_a_row_is_rejected_for_the_first_reason(self):
        row = ["\xe9", "\xe9", "0", "p", "x"]
        rejects = HEADER + self.ROWS
        wrong = [2, 4, 6, 8, 10]
        text = self.ROWS
        for number, (place, good) in enumerate(zip(wrong, ["A", "W", "1", "P", "1"]), 1):
            line = ",".join(row) + "\n"
            text += line
            rejects += f"{number},{REASONS[place]},{line}"
            row[number - 1] = good
        for number, reason, line in ((6, FIELDS, "A,W,1,P,1,"), (7, FIELDS, "\xe9,W,1,P"),
                                     (8, BREAK, 'A,W,1,P,"1\n"'), (9, BREAK, '"\r",\xe9')):
            text += f"{line}\n"
            rejects += f"{number},{reason},{line}\n"
        printed = self.imports(text.encode("latin-1"), "", rejects)
        self.assertEqual(printed, shown(
            "rows: 9, amount 0, without the amounts of 9", "usage lines: 0, amount 0",
            "rejected rows: 9, amount 0, without the amounts of 9",
            *(f"rejected since {reason}: 2, amount 0, without the amounts of 2"
              for reason in (BREAK, FIELDS)),
            *(f"rejected since {REASONS[place]}: 1, amount 0, without the amounts of 1"
              for place in wrong), "rows passed over: 0, amount 0"))

    def test_rows_count_with_their_amounts_or_without(self):
        text = self.ROWS + 'A,W,1,P,1\nB,W,DE,P,2\nC,W,DE,P,x\nD,W,1,P,4,\nE,W,1\n"F\n",W,1,P,6\n' \
            ",,,,\nG,W,1,M,8\n"
        rejects = HEADER + self.ROWS + f"2,{CODE},B,W,DE,P,2\n3,{CODE},C,W,DE,P,x\n" \
            f'4,{FIELDS},D,W,1,P,4,\n5,{FIELDS},E,W,1\n6,{BREAK},"F\n",W,1,P,6\n'
        self.assertEqual(self.imports(text, "A,W,1,P,100\n", rejects, "--where=How=P"), shown(
            "rows: 8, amount 1100, without the amounts of 5", "usage lines: 1, amount 100",
            "rejected rows: 5, amount 200, without the amounts of 4",
            f"rejected since {BREAK}: 1, amount 0, without the amounts of 1",
            f"rejected since {FIELDS}: 2, amount 0, without the amounts of 2",
            f"rejected since {CODE}: 2, amount 200, without the amounts of 1",
            "rows passed over: 2, amount 800, without the amounts of 1"))

    def test_rows_without_a_byte_count_with_a_text_of_all_rows(self):
        named = (*self.NAMED[:4], "--amount==5")
        text = self.ROWS + ",,,,\n,,\nA,W,1,P,x\n"
        printed = self.imports(text, "A,W,1,P,500\n", HEADER + self.ROWS, named=named)
        # The second of them has not as many fields as the header.
        self.assertEqual(printed, shown(
            "rows: 3, amount 1000, without the amounts of 1", "usage lines: 1, amount 500",
            "rejected rows: 0, amount 0",
            "rows passed over: 2, amount 500, without the amounts of 1"))

    def test_tables_say_what_values_become(self):
        tables = {"works": "from,to\nSong,W1\n,W2\n", "territories": "from,to\nDE,0276\n",
                  "rights": "from,to\nperf,P\n"}
        text = self.ROWS + "A,Song,DE,perf,1\nB,,DE,perf,2\nC,W1,DE,perf,3\nD,Song,276,perf,4\n" \
            "E,Song,DE,P,5\n"
        rejects = HEADER + self.ROWS + f"3,{NO_WORK},C,W1,DE,perf,3\n" \
            f"4,{NO_TERRITORY},D,Song,276,perf,4\n5,{NO_RIGHT},E,Song,DE,P,5\n"
        self.imports(text, "A,W1,0276,P,100\nB,W2,0276,P,200\n", rejects, **tables)

    def test_words_are_numbers_texts_or_names(self):
        text = "#0;#2;=x;a b\n7;8;9;10\n"
        named = ("--usage=#0", "--usage==at", "--usage", "#003", "--usage==", "--work=#2",
                 "--amount", "a b", "--territory==4", "--right==S")
        self.imports(text, "7-at-9-,8,4,S,1000\n", HEADER + "#0,#2,=x,a b\n",
                     "--delimiter=semicolon", named=named)
        text = "7;8\n;;\n9\n"
        named = ("--usage=#1", "--work=#2", "--amount==.01", "--territory==4", "--right==S")
        printed = self.imports(text, "7,8,4,S,1\n", f"3,{FIELDS},9\n", "--no-header",
                               "--delimiter=semicolon", named=named)
        # Each row has the amount, though it has no bytes or is rejected.
        self.assertEqual(printed, shown(
            "rows: 3, amount 3", "usage lines: 1, amount 1", "rejected rows: 1, amount 1",
            f"rejected since {FIELDS}: 1, amount 1", "rows passed over: 1, amount 1"))

    def test_rows_are_passed_over_that_do_not_meet_all_conditions(self):
        text = self.ROWS + "A,W,1,P,1\nA,W,1,M,2\nB,W,1,P,3\nA,W,DE,P,4\nB,W,1,P,5,\nB,W\n" \
            '"B\n",W,1,P,6\n,\n'
        # Line breaks and the number of fields come before the conditions.
        rejects = HEADER + self.ROWS + f"4,{CODE},A,W,DE,P,4\n5,{FIELDS},B,W,1,P,5,\n" \
            f'6,{FIELDS},B,W\n7,{BREAK},"B\n",W,1,P,6\n'
        printed = self.imports(text, "A,W,1,P,100\n", rejects, "--where=Song=A", "--where", "#4=P")
        self.assertIn(": rows passed over: 3, amount 500, without the amounts of 1\n", printed)

    def test_no_condition_holds_of_a_field_that_is_not_there(self):
        text = 'A,W,1,P,1\nA,W,1,P,2,\nA,W,1,P,3,x\nA\n,,,,,\n"\n"\n'
        printed = self.imports(text, "A,W,1,P,200\n", f'6,{BREAK},"\n"\n', "--no-header",
                               "--where=#6=", named=self.NUMBERED)
        self.assertIn(": rows passed over: 4, amount 400, without the amounts of 2\n", printed)
        # Where it holds, a row may lack other fields.
        lines = "".join(f"A,W,1,P,{units}\n" for units in (100, 200, 300))
        printed = self.imports(text, lines, f'4,{FIELDS},A\n6,{BREAK},"\n"\n',
                               "--no-header", "--where=#1=A", named=self.NUMBERED)
        self.assertIn(f": rejected since {FIELDS}: 1, amount 0, without the amounts of 1\n",
                      printed)

    def test_reports_are_read_as_the_crate_csv_reads_them(self):
        text = b'\xef\xbb\xbf"Song"|Who|Where|How|Net\r\r\n\n' \
            b'"a"b"c"|"x""|\r\ny"|1|P|1\rz"|W"|1|P|"2"'
        outcome = self.answer(text, "--delimiter=pipe")
        self.assertEqual(outcome[3], self.OUTPUT + '"z""","W""",1,P,200\n')
        self.assertEqual(outcome[4], HEADER + self.ROWS
                         + f'1,{BREAK},"ab""c""","x""|\r\ny",1,P,1\n')

    def test_columns_that_are_not_there_once_are_refused(self):
        refuses = self.refuses
        refuses("export.csv has no column 'Who'", 1, "Song,who,Where,How,Net\n")
        refuses("export.csv has no column 'x'", 1, self.ROWS, "--where=x=y=z")
        refuses("export.csv has more than one column 'How'", 1, "Song,Who,Where,How,Net,How\n")
        refuses("export.csv has no header", 1, "\n\r\n")
        refuses("there is no header to find the column 'Song' in", 2, self.ROWS, "--no-header")
        refuses("there is no header to find the column '#65537' in", 2, self.ROWS, "--no-header",
                "--where=#65537=", named=self.NUMBERED)
        # A word may not number a field that the header does not have.
        refuses("export.csv has no column '#5'", 1, "a,b,c,d\n1,2,3,4,5\n", named=self.NUMBERED)
        refuses("export.csv has no column '#006'", 1, self.ROWS, "--where=#006=")
        refuses("export.csv has no column '#65536'", 1, self.ROWS, "--where=#65536=x")
        # The first of two words is told of, whatever order their options have.
        refuses("export.csv has no column 'Song'", 1, "song\n", named=self.NAMED[::-1])
        # A column twice that no word names is no matter, and without rows none is rejected.
        self.imports("x,Song,Who,Where,How,Net,x\n", "", HEADER + "x,Song,Who,Where,How,Net,x\n")
        self.imports("", "", "", "--no-header", "--where=#65536=", named=self.NUMBERED)

    def test_tables_of_values_are_checked(self):
        for table, message in (
                ("", "1 at row 0"), ("from\n", "1 at row 0"), ("from,to,x\n", "1 at row 0"),
                ("from,to\na,1\nb\n", "1 at row 2"), ("from,to\na,1,\n", "1 at row 1"),
                ("from,to\na,10000\n", "3 at row 1"), ("from,to\n\na,1\n\na,DE\n", "3 at row 2"),
                ("from,to\na,1\na,1\n", "5 at row 2"), ("from,to\na,\n", "3 at row 1")):
            self.refuses(f"map fault {message} of territories", 1, self.ROWS, territories=table)
        self.refuses("map fault 2 at row 1 of works", 1, self.ROWS, works="from,to\na,\xe9\n")
        self.refuses("map fault 4 at row 1 of rights", 1, self.ROWS, rights="from,to\nP,p\n")
        bad = {"rights": "", "territories": "", "works": ""}
        self.refuses("map fault 1 at row 0 of works", 1, self.ROWS, **bad)
        self.refuses("cannot read absent", 4, self.ROWS, "--works=absent", rights="")

    def test_words_that_are_wrong_are_refused(self):
        for words in (["--decimals=10"], ["--decimals", "-1"], ["--decimals="], ["--delimiter=;"],
                      ["--decimals=09"], ["--decimals=+9"], ["--decimals= 9"],
                      ["--decimals=\u0663"], ["--delimiter="], ["--delimiter=Tab"],
                      ["--where=x"], ["--where==x"], ["--no-header", "--no-header"], ["x.csv"],
                      ["--work=#1"], ["--workers=1"], ["--no-header=x"], ["--usage"], ["-x"]):
            self.assertEqual(self.answer(self.ROWS, *words)[0], 2, words)
        for place in range(5):
            named = self.NAMED[:place] + self.NAMED[place + 1:]
            self.assertEqual(self.answer(self.ROWS, named=named)[0], 2)

    def test_outputs_that_are_an_input_or_one_file_are_refused(self):
        files = {"export.csv": self.ROWS.encode(), "t": b"from,to\n", "o": b"before\n",
                 "soft": exports.Soft("t"), "hard": exports.Hard("export.csv"),
                 "other": exports.Soft("o")}
        for output, rejects, message in (
                ("export.csv", "r", "export.csv is an input, which the output would replace"),
                ("r", "./export.csv", "./export.csv is an input, which the output would replace"),
                ("soft", "hard", "soft is an input, which the output would replace"),
                ("o", "hard", "hard is an input, which the output would replace"),
                ("r", "r", "r is named for both tables"),
                ("r", "./r", "./r is named for both tables"),
                ("o", "other", "other is named for both tables"),
                ("absent/o", "r", "cannot write absent/o"), ("o", ".", "cannot write ."),
                ("", "o", "cannot write "), ("o", "", "cannot write "), ("r", "", "cannot write ")):
            with tempfile.TemporaryDirectory() as folder:
                exports.laid(folder, files)
                before = imports.lying_in(folder)
                words = ["export.csv", *self.NAMED, "--territories=t", f"--output={output}",
                         f"--rejects={rejects}"]
                status, printed, told = run([PROGRAM, "import", *words], folder=folder)
                self.assertEqual((printed, told.decode()), (b"", f"{message}\n"))
                self.assertEqual(status, 4 if message.startswith("cannot") else 2)
                self.assertEqual(imports.lying_in(folder), before)


    def test_the_first_of_several_faults_is_told_of(self):
        options = {**dict(word[2:].split("=") for word in self.NAMED), "output": "o",
                   "rejects": "r"}
        files = {"export.csv": self.ROWS.encode(), "o": b"before\n", "t": b""}
        # From the last to the first; each comes on top of those before it.
        for message, wrong, laid in (
                ("export.csv has no column '#6'", {"amount": "#6"}, {}),
                ("export.csv has no column 'Song'", {}, {"export.csv": b"song\n"}),
                ("export.csv has no header", {}, {"export.csv": b""}),
                ("cannot read export.csv", {}, {"export.csv": exports.FOLDER}),
                ("cannot write absent/r", {"rejects": "absent/r"}, {}),
                ("cannot write absent/o", {"output": "absent/o"}, {}),
                ("cannot read export.csv", {}, {"export.csv": exports.Soft("nothing")}),
                ("map fault 1 at row 0 of t", {"rights": "t"}, {}),
                ("cannot read absent.csv", {"territories": "absent.csv"}, {}),
                ("map fault 2 at row 1 of works", {"works": "works"}, {"works": b"from,to\na,\n"}),
                ("s is named for both tables", {"output": "s", "rejects": "s"}, {}),
                ("t is an input, which the output would replace", {"rejects": "t"}, {}),
                ("works is an input, which the output would replace", {"output": "works"}, {}),
                ("import EXPORT --usage COL", {"decimals": "x"}, {})):
            options.update(wrong)
            files.update(laid)
            with tempfile.TemporaryDirectory() as folder:
                exports.laid(folder, files)
                before = imports.lying_in(folder)
                words = ["export.csv", *(f"--{name}={value}" for name, value in options.items())]
                status, printed, told = run([PROGRAM, "import", *words], folder=folder)
                self.assertEqual((printed, told.decode()[:len(message)]), (b"", message))
                self.assertEqual(imports.lying_in(folder), before)
                fault = {"cannot": 4, "export.csv": 1, "map": 1}
                self.assertEqual(status, fault.get(message.split()[0], 2))


class Comparing(unittest.TestCase):
    """What bench.imports computes by itself."""

    SUMMARY = b"e: rows: 3, amount 5, without the amounts of 1\ne: usage lines: 1, amount 7\n" \
        b"e: rejected rows: 1, amount -2\ne: rejected since its work: 1, amount -2\n" \
        b"e: rows passed over: 1, amount 0, without the amounts of 1\n"

    def test_a_summary_has_all_its_lines_once(self):
        found = imports.summary_of(self.SUMMARY, "e")
        self.assertEqual(found, {"rows": (3, 5, 1), "usage lines": (1, 7, 0),
                                 "rejected rows": (1, -2, 0), "rejected since its work": (1, -2, 0),
                                 "rows passed over": (1, 0, 1)})
        lines = self.SUMMARY.split(b"\n")
        for wrong in (self.SUMMARY[:-1], self.SUMMARY + b"\n", b"\n".join(lines[1:]),
                      b"\n".join(lines[:1] + lines),
                      self.SUMMARY.replace(b"amount 0", b"amount -0"),
                      self.SUMMARY.replace(b"amounts of 1", b"amounts of 0"),
                      self.SUMMARY.replace(b", without", b" without"),
                      self.SUMMARY.replace(b"e: rows:", b"f: rows:"), b""):
            self.assertIsNone(imports.summary_of(wrong, "e"), wrong)

    def test_words_are_moved_by_two_fields(self):
        self.assertEqual([imports.moved(word) for word in (
            "#1", "#007", "#65534", "#65535", "#0", "#70000", "#x", "Song", *imports.HEADER)],
            ["#3", "#9", "#65536", None, "#0", "#70000", "#x", "Song", None, None])
        words = imports.words_again([("usage", "=#1"), ("no-header", None), ("where", "#2=#2"),
                                     ("output", "o"), ("delimiter", "tab"), ("works", "#1")])
        self.assertEqual(words[3:], ["--usage==#1", "--no-header", "--where=#4=#2", "--works=#1"])
        self.assertIsNone(imports.words_again([("where", "rejected_row=x")]))

    def test_rows_that_break_or_have_another_width_are_found(self):
        rows = [["a", "b"], ["a\n", "b"], ["a"], ["", ""], [""], ["\r"], ["", "", "x"], []]
        self.assertEqual(imports.faults_of(rows, 2), {2: BREAK, 3: FIELDS, 6: BREAK, 7: FIELDS})
        self.assertEqual(imports.faults_of(rows, None), {2: BREAK, 6: BREAK})

    REPORT = b"Song,Net\nA,1\n\xe9,x\n"
    REJECTS = HEADER.encode() + b"Song,Net\n2," + USE.encode() + b",\xe9,x\n"
    LINES = b"usage,work,territory,right,amount\nA,W,1,P,100\n"
    PRINTED = b"e: rows: 2, amount 100, without the amounts of 1\n" \
        b"e: usage lines: 1, amount 100\n" \
        b"e: rejected rows: 1, amount 0, without the amounts of 1\n" \
        b"e: rejected since " + USE.encode() + b": 1, amount 0, without the amounts of 1\n" \
        b"e: rows passed over: 0, amount 0\n"

    def wrong(self, lines=LINES, rejected=REJECTS, said=PRINTED, status=1, message=b"",
              report=REPORT, reason=USE):
        """What is wrong where a program says this of a report, the second row of which is rejected
        for another reason, if one is given."""
        words = ["e", "--usage=Song", "--work==W", "--territory==1", "--right==P", "--amount=Net",
                 "--output=o", "--rejects=r"]
        said, rejected = (it.replace(USE.encode(), reason.encode()) for it in (said, rejected))
        with tempfile.TemporaryDirectory() as folder:
            exports.laid(folder, {"o": lines, "r": rejected})
            return imports.wrong_in(PROGRAM, folder, words, (status, said, message), report)

    def test_what_is_wrong_in_an_import_is_told(self):
        wrong, lines, rejects, printed = self.wrong, self.LINES, self.REJECTS, self.PRINTED
        self.assertEqual(wrong(), [])
        for how in (
                {"lines": lines + lines[34:]}, {"lines": b"x"}, {"lines": lines + b"x\n"},
                {"rejected": rejects[:20]}, {"rejected": rejects.replace(b"2,", b"1,")},
                {"rejected": rejects.replace(b",x", b",y")}, {"rejected": b"x"},
                {"rejected": rejects + b"x,y\n"}, {"rejected": b"\n9,x,y\n"},
                {"rejected": rejects.replace(b"rejected_row", b"row")},
                {"said": printed.replace(b"rows: 2", b"rows: 3")},
                {"said": printed.replace(b"100", b"1")}, {"said": b""}, {"status": 0},
                {"message": b"x"},
                {"said": printed.replace(b"passed over: 0, amount 0", b"passed over: 0, amount 0, "
                                                                      b"without the amounts of 1")},
                {"said": printed.replace(b"amounts of 1", b"amounts of 2")}):
            self.assertNotEqual(wrong(**how), [], how)

    def test_other_reasons_than_those_of_the_rows_are_told(self):
        again = "imported again, the rejected rows are not rejected for the same reasons"
        others = "other rows have a line break, or too few or too many fields"
        self.assertEqual(self.wrong(reason=CODE), [again])
        self.assertEqual(self.wrong(reason=BREAK), [others, again])
        self.assertEqual(self.wrong(reason=FIELDS), [others, again])
        self.assertEqual(self.wrong(report=self.REPORT.replace(b",x", b"")), [
            "the rejected rows are not those of the report", others])

    def test_other_amounts_than_those_of_the_rows_are_told(self):
        counts, again = "rows without an amount count with one", \
            "imported again, the rejected rows count with something else"
        with_one = self.PRINTED.replace(b"amount 100, without the amounts of 1", b"amount 107") \
            .replace(b"amount 0, without the amounts of 1", b"amount 7")
        self.assertEqual(self.wrong(said=with_one.replace(b"lines: 1, amount 107",
                                                          b"lines: 1, amount 100")), [again])
        # No row that is rejected for its amount counts with one, nor do as many as have none.
        reason = REASONS[-1]
        self.assertIn(counts, self.wrong(said=with_one, reason=reason))
        self.assertIn(counts, self.wrong(said=self.PRINTED.replace(b"amount 0, w", b"amount 7, w")))


if __name__ == "__main__":
    unittest.main()
