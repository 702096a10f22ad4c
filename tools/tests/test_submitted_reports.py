"""Tests of `explain` and `check` of the plain program over the files of several submitters.

What it has to print was worked out by hand. Claims are in hundredths of a per cent.
"""
import tempfile
import unittest

from tools import forms, plain
from tools.cwr_records import file_of, publisher_share, work
from tools.running import run, words_of
from tools.submitters import Submitted, table, written_options
from tools.tests.test_submitters import TERRITORIES, payees, shown, uses, works, world

PROGRAM = None


def setUpModule():
    global PROGRAM
    PROGRAM = plain.build()


class Answers(unittest.TestCase):
    """What the plain program answers over files that a test makes."""

    def setUp(self):
        folder = tempfile.TemporaryDirectory()
        self.addCleanup(folder.cleanup)
        self.folder = folder.name

    def answer(self, command, files, tables, *options):
        """The outcome of a command over files by submitter, each a list of records.

        A trailer with the right counts stands behind these. Paths are told from the test's folder
        on.
        """
        files = [(name, file_of(*records, forms.trailer([*records, b"TRL"])))
                 for name, records in files.items()]
        tables = {"tis": TERRITORIES, **tables}
        named = written_options(self.folder, Submitted(tables, files))
        status, printed, message = run(words_of(PROGRAM, command, [*named, *options]))
        here = self.folder.encode() + b"/"
        return status, printed.replace(here, b"").decode(), message.replace(here, b"").decode()

    def reports(self, files, tables, status, *lines):
        """Has a report have these lines."""
        answer = self.answer("check", files, tables)
        self.assertEqual(answer, (status, shown(*lines).decode(), ""))

    def tells(self, files, tables, *lines):
        """Has a report begin with these faults, and have no others."""
        status, printed, message = self.answer("check", files, tables)
        self.assertEqual((status, message), (1, ""))
        self.assertEqual([line for line in printed.split("\n") if "(fault " in line], [*lines])
        self.assertTrue(printed.startswith(shown(*lines).decode()))


class Explanations(Answers):
    """Why a usage line pays what it pays."""

    def explains(self, files, tables, row, *rows):
        """Has the explanation of a usage line have these rows."""
        answer = self.answer("explain", files, tables, ("row", row))
        self.assertEqual(answer, (0, shown(*rows).decode(), ""))

    def test_claims_of_two_files_that_are_over_are_all_shown(self):
        # 3000 + 1000 + 8000 = 12000, which is more than 10006. B's P is paid to MOON.
        files = {"A": world("W1", "P=8000"), "B": world("X9", "Q=3000", "P=1000")}
        tables = {"works": works("SONG B X9", "SONG A W1"), "payees": payees("B P MOON"),
                  "usage": uses("u1 TUNE 276 1", "u2 SONG 276 100")}
        self.explains(files, tables, 2, "U,2,u2,SONG,276,P,100", "R,OVER",
                      "W,B,X9,1", "C,B,3,1,Q,B:Q,3000,I,2136,yes,yes",
                      "C,B,5,2,P,MOON,1000,I,2136,yes,yes",
                      "W,A,W1,1", "C,A,3,1,P,A:P,8000,I,2136,yes,yes",
                      "A,1,A:P,8000", "A,2,B:Q,3000", "A,3,MOON,1000",
                      "B,10000,10000,0", "P,0,,10000,100,0,1,100")

    def test_each_row_of_the_work_is_shown_and_no_other_registration(self):
        # A's W1 is that of line 6, where Q has 2500 before the first interest. W2 is in no row. B
        # has no NONE. C's X is linked to another work, so Z:P is the last of four accounts.
        # 100 * 2500 / 10000 = 25, and 75 are open.
        files = {"A": [*world("W1", "P=10000"), *world("W2", "Y=1")[:2],
                       work(b"W1", kind=b"REV"), publisher_share(b"Q", 2500)],
                 "B": world("W1", "P=5000"), "Z": world("X", "P=1")}
        tables = {"works": works("SONG B NONE", "TUNE B W1", "SONG A W1", "TUNE Z X"),
                  "usage": uses("u SONG 276 100")}
        self.explains(files, tables, 1, "U,1,u,SONG,276,P,100", "R,",
                      "W,B,NONE,", "W,A,W1,6", "C,A,7,0,Q,A:Q,2500,I,2136,yes,yes",
                      "A,1,A:Q,2500", "B,10000,7500,0", "P,1,A:Q,2500,25,0,1,25",
                      "P,0,,7500,75,0,2,75")

    def test_what_decides_is_looked_for_within_each_registration(self):
        # In 840 the last line of W1 gives P nothing; W2's own line decides there, with 3000. Both
        # have an interest 1. -5 * 3000 / 10000 is -1, remainder 5000; and -3, remainder 5000. The
        # unit left goes to A:P.
        files = {"A": [*world("W1", "P=2000"), publisher_share(b"P", 100, b"E", 840),
                       *world("W2", "P=3000")]}
        tables = {"works": works("SONG A W1", "SONG A W2"), "usage": uses("u SONG 840 -5")}
        self.explains(files, tables, 1, "U,1,u,SONG,840,P,-5", "R,",
                      "W,A,W1,1", "C,A,3,1,P,A:P,2000,I,2136,yes,no",
                      "C,A,4,1,P,A:P,100,E,840,yes,yes",
                      "W,A,W2,5", "C,A,7,1,P,A:P,3000,I,2136,yes,yes",
                      "A,1,A:P,3000", "B,10000,7000,1", "P,1,A:P,3000,1,5000,1,-2",
                      "P,0,,7000,3,5000,2,-3")

    def test_reasons_come_in_their_order(self):
        # Nothing covers territory 4, which is not in the table.
        files = {"A": world("W1", "P=9000", "Q=9000")}
        tables = {"works": works("SONG A W1", "NONE A W2"),
                  "usage": uses("u1 SONG 4 1", "u2 NONE 4 2", "u3 W1 276 3")}
        open_rows = "B,10000,10000,0", "P,0,,10000,{0},0,1,{0}"
        for row, first, reason, filed in (
                (1, "U,1,u1,SONG,4,P,1", "R,LAND",
                 ["W,A,W1,1", "C,A,3,1,P,A:P,9000,I,2136,no,no",
                  "C,A,5,2,Q,A:Q,9000,I,2136,no,no"]),
                (2, "U,2,u2,NONE,4,P,2", "R,WORK", ["W,A,W2,"]),
                (3, "U,3,u3,W1,276,P,3", "R,WORK", [])):
            self.explains(files, tables, row, first, reason, *filed,
                          *(line.format(row) for line in open_rows))

    def test_fields_are_quoted_and_numbers_have_no_outer_spaces(self):
        files = {"A": world('W,"5', "P=10000")}
        tables = {"works": table("works", [[b"Q,", b"A", b'  W,"5 ', b"t"]]),
                  "usage": table("usage", [[b"u", b"Q,", b"0276", b"S", b"7"]])}
        self.explains(files, tables, 1, 'U,1,u,"Q,",276,S,7', "R,", 'W,A,"W,""5",1',
                      "C,A,3,1,P,A:P,10000,I,2136,yes,yes", "A,1,A:P,10000", "B,10000,0,0",
                      "P,1,A:P,10000,7,0,1,7", "P,0,,0,0,0,2,0")

    def test_an_explanation_is_refused_for_what_a_run_is_refused_for(self):
        files = {"A": world("W1", "P=10000"), "B": [work(b"X9"), publisher_share(b"P", 1)[:53]]}
        good = {"works": works("SONG A W1"), "usage": uses("u SONG 276 1")}
        many = {"C": world("W1", *(f"P{n}=1" for n in range(256))), "A": files["A"]}
        # 256 payees of C's parties, and A:P.
        linked = {**good, "works": works("SONG A W1", "SONG C W1"), "usage": b"x\n"}
        for case, message in (
                ((files, {**good, "tis": b"x\n", "works": b"x\n"}), "tis fault 1 at row 0"),
                ((files, {**good, "works": works("SONG C W1")}), "works fault 3 at row 1"),
                ((files, {**good, "usage": b"x\n"}),
                 "cwr fault 1 at line 2 of submitted/1.cwr"),
                ((many, linked), "works fault 7 at row 2"),
                (({"A": files["A"]}, {**good, "usage": b"x\n"}), "usage fault 1 at row 0")):
            self.assertEqual(self.answer("explain", *case, ("row", 5)), (1, "", message + "\n"))
        self.assertEqual(self.answer("explain", {"A": files["A"]}, good, ("row", 2)),
                         (2, "", "the usage list has no row 2\n"))
        for row in ("0", "1000001", "x"):
            answer = self.answer("explain", {"A": files["A"]}, good, ("row", row))
            self.assertEqual(answer[:2], (2, ""))


# The files of some tests, and what a report says is in them.
FILES = {"A": [*world("W1", "P=8000"), *world("W2", "Z=1"), *world("W1", "P=5003", kind=b"REV")],
         "B": world("X9", "Q=5004")}
FOUND = ["submitted/0.cwr: registrations in force: 2",
         "submitted/0.cwr: registrations replaced by later ones: 1",
         "submitted/1.cwr: registrations in force: 1",
         "submitted/1.cwr: registrations replaced by later ones: 0"]
USES = uses("u1 SONG 276 -7", "u2 SONG 840 3")
LINKED = works("SONG B X9", "SONG A W1")


class Reports(Answers):
    """What `check` says."""

    def test_a_work_that_is_over_has_the_claims_of_each_submitter(self):
        # 5003 + 5004 = 10007. Submitters stand in the order of the options, and the row is that of
        # the first line that is over: one of another right is not.
        lines = [[b"u0", b"SONG", b"276", b"M", b"9"], [b"u1", b"SONG", b"276", b"P", b"-7"],
                 [b"u2", b"SONG", b"840", b"P", b"3"]]
        files = {"A": [work(b"W1"), publisher_share(b"P", (5003, 0, 0)),
                       publisher_share(b"P", (9999, 0, 0), b"E", 4)],
                 "C": [work(b"W1")], "B": world("X9", "Q=5004")}
        tables = {"works": works("SONG B X9", "SONG C W1", "SONG A W1"),
                  "usage": table("usage", lines)}
        # 9 of 5004 / 10000: 4, remainder 5036, and 4, remainder 4964. The unit left is B's.
        self.reports(
            files, tables, 0, "tis: territories: 3", "works: registrations linked: 3",
            *(line for n in range(3) for line in (
                f"submitted/{n}.cwr: registrations in force: 1",
                f"submitted/{n}.cwr: registrations replaced by later ones: 0")),
            "works: works with a registration in force: 1", "works: parties in force: 2",
            "works: accounts, the residue's included: 3", "usage: usage lines: 3",
            "submitted/0.cwr: remark: share lines whose territory is not in the table: 1, in "
            "line 3",
            "usage: divided: lines 1, amount 9, to the residue 4",
            "usage: WORK, not registered: lines 0, amount 0",
            "usage: LAND, territory not in the table: lines 0, amount 0",
            "usage: OVER, claims over 100.06 per cent: lines 2, amount -4",
            "usage: work 'SONG' is not claimed in full: lines 1, to the residue 4",
            "usage: work 'SONG' is claimed over 100.06 per cent: lines 2, amount -4; in row 2: "
            "A claims 5003 of 10000, C claims 0 of 10000, B claims 5004 of 10000")

    def test_all_linked_registrations_of_a_submitter_claim_together(self):
        # W1 gives P 4000 in 840, W2 2000 and 3000 to two interests there, where X9 excludes Q:
        # 9000. In 276 W1 has 2000, so 7000 in all, and X9 5000.
        files = {"A": [*world("W1", "P=2000"), publisher_share(b"P", 4000, b"I", 840),
                       *world("W2", "P=2000", "P=3000")],
                 "B": [*world("X9", "Q=5000"), publisher_share(b"Q", 5000, b"E", 840)]}
        tables = {"works": works("SONG A W1", "SONG B X9", "SONG A W2"),
                  "usage": uses("u1 SONG 840 1", "u2 SONG 276 2")}
        printed = self.answer("check", files, tables)[1]
        self.assertTrue(printed.endswith(
            "usage: work 'SONG' is claimed over 100.06 per cent: lines 1, amount 2; in row 2: "
            "A claims 7000 of 10000, B claims 5000 of 10000\n"))

    def test_ten_works_that_are_over_are_told_those_with_most_money_first(self):
        # Works S0 to S11 have lines of 0, 1, -2, 3 and so on; S12 has 11 too, behind S11.
        numbers = range(13)
        files = {"A": [it for n in numbers for it in world(f"W{n}", "P=6000", "Q=6000")]}
        amounts = [n if n % 2 else -n for n in range(12)] + [11]
        tables = {"works": works(*(f"S{n} A W{n}" for n in numbers)),
                  "usage": uses(*(f"u S{n} 276 {amounts[n]}" for n in numbers))}
        printed = self.answer("check", files, tables)[1]
        *told, more, _ = printed.split("\n")
        told = [line.split("'")[1] for line in told if "is claimed over" in line]
        self.assertEqual(told, ["S11", "S12", *(f"S{n}" for n in range(10, 2, -1))])
        self.assertEqual(more, "usage: further works that are claimed over 100.06 per cent: 3")

    def test_rows_and_registrations_that_have_no_part_are_remarked_on(self):
        # Of payees, row 1 is of a party of A that is replaced, and row 3 of one that no row links.
        files = {**FILES, "A": [*world("W1", "O=1"), *FILES["A"][3:]]}
        tables = {"works": works("SONG B NONE", "SONG A W1", "TUNE A W9"),
                  "payees": payees("A O X", "A P X", "A Z X", "B P X"), "usage": uses()}
        self.reports(
            files, tables, 0, "tis: territories: 3", "payees: parties with a payee: 4",
            "works: registrations linked: 3", *FOUND,
            "works: works with a registration in force: 1", "works: parties in force: 1",
            "works: accounts, the residue's included: 2", "usage: usage lines: 0",
            "usage: remark: there are no usage lines",
            "payees: remark: rows whose party no registration that is linked has: 3, in row "
            "1, 3, 4",
            "works: remark: rows whose registration is not in force: 2, in row 1, 3",
            "submitted/0.cwr: remark: registrations in force that no row links: 1, 'W2'",
            "submitted/1.cwr: remark: registrations in force that no row links: 1, 'X9'",
            "usage: divided: lines 0, amount 0, to the residue 0",
            "usage: WORK, not registered: lines 0, amount 0",
            "usage: LAND, territory not in the table: lines 0, amount 0",
            "usage: OVER, claims over 100.06 per cent: lines 0, amount 0")

    def test_ten_numbers_are_named_in_the_order_of_their_records(self):
        # W0 is replaced by the last record, so its registration in force is the last one.
        files = {"A": [*(work(f"W{n}".encode()) for n in range(11)), work(b"W0")]}
        rows = [f"SONG A NONE{n}" for n in range(11)]
        printed = self.answer("check", files, {"works": works(*rows), "usage": USES})[1]
        self.assertIn(
            "works: remark: rows whose registration is not in force: 11, in row 1, 2, 3, 4, 5, 6, "
            "7, 8, 9, 10 and 1 more\n"
            "submitted/0.cwr: remark: registrations in force that no row links: 11, 'W1', 'W2', "
            "'W3', 'W4', 'W5', 'W6', 'W7', 'W8', 'W9', 'W10' and 1 more\n", printed)
        self.assertTrue(printed.endswith("works: remark: it has the work of no usage line\n"))

    def test_faults_of_a_table_of_works_are_told_of_each_row(self):
        rows = ["SONG,A,W1", ",A,W1,t,x", ",C,,t", "SONG, A,,t", "SONG,A,123456789012345,t",
                "SONG,A, W1 ,t", "TUNE,A,  W1,t"]
        text = "\n".join(["work,submitter,number,name", *rows]).encode()
        self.tells(
            FILES, {"works": text, "usage": USES},
            "works: row 0: the first row is not work,submitter,number,title (fault 1)",
            "works: row 1: the number of fields is 3, not 4; the first is 'SONG' (fault 1)",
            "works: row 2: the number of fields is 5, not 4; the first is '' (fault 1)",
            "works: row 3: work '' is not 1 to 64 printable ASCII characters (fault 2)",
            "works: row 4: submitter ' A' is the name of no file (fault 3)",
            "works: row 5: number '123456789012345' is not 1 to 14 printable ASCII characters, "
            "spaces at its ends not counted (fault 4)",
            "works: row 7: number '  W1' of submitter 'A' has an earlier row (fault 5)")

    def test_faults_of_a_table_of_payees_are_told_of_each_row(self):
        # Where it has one, nothing is said of what the links come to.
        rows = ["A,P,X", "C,,X,n", "a,P,X,n", "A, P,X,n", "B,P,X,n", "A,P ,Y,n"]
        text = "\n".join(["party,payee", *rows]).encode()
        self.reports(
            FILES, {"works": LINKED, "payees": text, "usage": USES}, 1,
            "payees: row 0: the first row is not submitter,party,payee,name (fault 1)",
            "payees: row 1: the number of fields is 3, not 4; the first is 'A' (fault 1)",
            "payees: row 2: party '' and payee 'X' are not both 1 to 64 printable ASCII "
            "characters that are not all spaces (fault 2)",
            "payees: row 3: submitter 'a' is the name of no file (fault 5)",
            "payees: row 6: party 'P ' of submitter 'A' has an earlier row (fault 3)",
            "tis: territories: 3", "works: registrations linked: 2", *FOUND,
            "usage: usage lines: 2")

    def test_the_form_of_a_file_is_told_behind_what_is_in_it(self):
        # The table of works ends within quotes, and B has a fault.
        files = {"A": [*world("W1", "P=1"), b"GRT", b"NEW"], "B": [b"NWR\xff"]}
        tables = {"works": b'work,submitter,number,title\nSONG,A,W1,"T',
                  "usage": uses("u SONG 4 1"),
                  "payees": b'submitter,party,payee,name\nA,P,X,"\n'}
        no_number = "remark: line 4: GRT says no number of"
        self.reports(
            files, tables, 1, "submitted/1.cwr: line 1: record 'NWR' ends before its last field: "
            "NWR and REV take 82 bytes, SPT 54, SWT 48 (fault 1)",
            "tis: territories: 3", "payees: parties with a payee: 1",
            "payees: remark: row 1: a quote opens in it that does not end",
            "works: registrations linked: 1",
            "works: remark: row 1: a quote opens in it that does not end",
            "submitted/0.cwr: registrations in force: 1",
            "submitted/0.cwr: registrations replaced by later ones: 0",
            "submitted/0.cwr: remark: record types that CWR 2.2 does not have: 1, 'NEW' (1)",
            f"submitted/0.cwr: {no_number} transactions, and its group has 1",
            f"submitted/0.cwr: {no_number} records, and its group has 4",
            "submitted/1.cwr: remark: NWR, REV, SPT or SWT with a byte beyond ASCII before the "
            "last field that is read: 1, in line 1", "usage: usage lines: 1")

    def test_files_with_faults_stand_in_their_order(self):
        # 103 share lines of A end too early, and a hundred of them are told. The line of C is one
        # of its second registration, as the first one is left out.
        short = publisher_share(b"P", 1)[:53]
        files = {"A": [work(b"W1"), *[short] * 103], "B": world("X9", "Q=1"),
                 "C": [work(b" "), work(b"W3"), publisher_share(b" ", 1)]}
        tables = {"tis": TERRITORIES + b"0,\n", "works": works("SONG A W1"),
                  "usage": uses("u SONG 0 1")}
        text = "ends before its last field: NWR and REV take 82 bytes, SPT 54, SWT 48"
        self.reports(
            files, tables, 1,
            "tis: row 4: code '0' is not one to four digits, or is 0 (fault 2)",
            *(f"submitted/0.cwr: line {n}: record 'SPT' {text} (fault 1)" for n in range(2, 102)),
            "submitted/0.cwr: further faults: 3",
            f"submitted/2.cwr: line 1: submitter work number '{' ' * 14}' is blank or not "
            "printable ASCII (fault 6)",
            f"submitted/2.cwr: line 3: interested party number '{' ' * 9}' is blank or not "
            "printable ASCII (fault 5)",
            "usage: row 1: territory '0' is not one to four digits, or is 0 (fault 3)",
            "works: registrations linked: 1",
            "submitted/1.cwr: registrations in force: 1",
            "submitted/1.cwr: registrations replaced by later ones: 0")

    def test_too_many_payees_of_a_work_are_told_once(self):
        # TUNE has 400 payees with row 3, SONG with row 4. What is in each file is said all the
        # same, and what has no part in a run, but for the payees.
        files = {name: world("W1", *(f"P{n}=1" for n in range(200))) for name in "ABCD"}
        files["A"] += world("W2")
        tables = {"works": works("SONG A W1", "TUNE B W1", "TUNE C W1", "SONG D W1", "SONG D W5"),
                  "payees": payees("A NONE X"), "usage": b"usage\n"}
        self.reports(
            files, tables, 1, "works: row 3: with this row the parties of work 'TUNE' have more "
            "than 256 payees (fault 7)",
            "usage: row 0: the first row is not usage,work,territory,right,amount (fault 1)",
            "tis: territories: 3", "payees: parties with a payee: 1",
            "works: registrations linked: 5",
            *(line for n in range(4) for line in (
                f"submitted/{n}.cwr: registrations in force: {1 if n else 2}",
                f"submitted/{n}.cwr: registrations replaced by later ones: 0")),
            "works: remark: rows whose registration is not in force: 1, in row 5",
            "submitted/0.cwr: remark: registrations in force that no row links: 1, 'W2'")

    def test_too_many_payees_of_all_works_have_no_row(self):
        # 64 works of 256 parties each have 16384.
        files = {"A": [it for n in range(64) for it in
                       world(f"W{n}", *(f"{256 * n + m}=1" for m in range(256)))]}
        tables = {"works": works(*(f"S{n} A W{n}" for n in range(64))), "usage": USES}
        fault = ("works: the parties of all registrations that are linked have more than 16383 "
                 "payees (fault 8)")
        self.tells(files, tables, fault)
        tables["payees"] = payees("A 0 A:1")
        printed = self.answer("check", files, tables)[1]
        self.assertIn("works: parties in force: 16384\n"
                      "works: accounts, the residue's included: 16384\n", printed)

    def test_a_file_that_cannot_be_read_ends_the_report(self):
        path = f"{self.folder}/gone"
        tables = {"tis": b"x\n", "works": LINKED, "usage": USES}
        for options, name in (
                ([("cwr", f"Y={path}1"), ("cwr", f"Z={path}2")], "gone1"),
                ([("cwr", f"Y={path}1"), ("payees", f"{path}2")], "gone2")):
            answer = self.answer("check", FILES, tables, *options)
            self.assertEqual(answer, (4, "", f"cannot read {name}\n"))

    def test_words_are_refused_as_those_of_a_run_are(self):
        tables = {"works": LINKED, "usage": USES}
        for option in (("row", 1), ("workers", 1), ("works", "x"), ("cwr", "A=x"), ("cwr", "x")):
            self.assertEqual(self.answer("check", FILES, tables, option)[:2], (2, ""))


if __name__ == "__main__":
    unittest.main()
