"""Tests of `check` of the plain program over one CWR file: the form of files, rows that are
repeated, and what a run makes of the usage lines.

What it has to print was worked out by hand.
"""
import re
import tempfile
import unittest

from tools import plain
from tools.cwr_records import file_of, publisher, publisher_share, work, writer_share
from tools.running import NAMES, run, words_of, written
from tools.tests.test_submitters import TERRITORIES, uses, world

PROGRAM = None


def setUpModule():
    global PROGRAM
    PROGRAM = plain.build()


def group_trailer(transactions, records):
    """The trailer of a group, with these numbers."""
    return b"GRT00001%08d%08d" % (transactions, records)


def trailer(groups, transactions, records):
    """The trailer of a file, with these numbers."""
    return b"TRL%05d%08d%08d" % (groups, transactions, records)


# A file of one work, whose trailers have the right counts.
SOUND = [b"HDRPB000000001MOON", b"GRHNWR0000102.20", *world("W1", "P=10000"),
         group_trailer(1, 5), trailer(1, 1, 7)]

# What is said of files without faults and remarks, of which the usage list has one line of W1.
FOUND = ["tis: territories: 3", "cwr: works with a registration in force: 1",
         "cwr: registrations replaced by later ones: 0", "cwr: parties in force: 1",
         "cwr: accounts, the residue's included: 2"]
DIVIDED = ["usage: divided: lines 1, amount 5, to the residue 0",
           "usage: WORK, not registered: lines 0, amount 0",
           "usage: LAND, territory not in the table: lines 0, amount 0",
           "usage: OVER, claims over 100.06 per cent: lines 0, amount 0"]
CUT = "cwr: remark: its last record is no TRL, so it may be cut off"


class Answers(unittest.TestCase):
    """What the plain program answers over files that a test makes."""

    def setUp(self):
        folder = tempfile.TemporaryDirectory()
        self.addCleanup(folder.cleanup)
        self.folder = folder.name

    def report(self, **files):
        """The status and the lines of a report. A CWR file may be given as a list of records."""
        made = {"tis": TERRITORIES, "cwr": SOUND, "usage": uses("u W1 276 5"), **files}
        if isinstance(made["cwr"], list):
            made["cwr"] = file_of(*made["cwr"])
        made = {name: made[name] for name in NAMES if name in made}
        paths = written(self.folder, made)
        status, printed, message = run(words_of(PROGRAM, "check", [*zip(made, paths)]))
        self.assertEqual(message, b"")
        printed = printed.replace(self.folder.encode() + b"/", b"")
        return status, printed.decode().split("\n")[:-1]

    def remarks_on(self, data, *lines):
        """Has a report have these lines on the form of a CWR file, and no others."""
        _, told = self.report(cwr=data)
        is_form = [line for line in told if line.startswith(("cwr: remark: ", "cwr: further "))]
        gone = "cwr: remark: no line is an NWR or REV", "cwr: remark: it has the work of no"
        self.assertEqual([it for it in is_form if not it.startswith(gone)], [*lines])


class Forms(Answers):
    """The form of CWR files."""

    def test_nothing_is_said_of_a_file_with_right_counts(self):
        self.assertEqual(self.report(), (0, [*FOUND, "usage: usage lines: 1", *DIVIDED]))
        self.remarks_on(b"\r\n".join([*SOUND[:3], b"", b"", *SOUND[3:], b""]))

    def test_an_empty_file_has_no_trailer(self):
        for data in (b"", b"\n", b"\r\n\n"):
            self.remarks_on(data, CUT)

    def test_the_form_is_told_behind_what_is_there_or_where_that_would_be(self):
        bad = [*SOUND[:4], publisher_share(b"P", 1)[:53], b"NEW"]
        form = ["cwr: remark: record types that CWR 2.2 does not have: 1, 'NEW' (1)", CUT]
        status, told = self.report(cwr=bad)
        fault = "ends before its last field: NWR and REV take 82 bytes, SPT 54, SWT 48 (fault 1)"
        self.assertEqual((status, told), (1, [
            f"cwr: line 5: record 'SPT' {fault}", "tis: territories: 3", *form,
            "usage: usage lines: 1"]))
        status, told = self.report(cwr=[*SOUND[:5], b"NEW"])
        self.assertEqual((status, told), (0, [*FOUND, *form, "usage: usage lines: 1", *DIVIDED]))

    def test_line_ends_that_are_cr_alone_make_one_line(self):
        alone = "cwr: remark: line ends are CR alone, so that all of it is one line"
        self.remarks_on(b"\r".join(SOUND), alone, CUT)
        self.remarks_on(trailer(0, 0, 1) + b"\r", alone)
        self.remarks_on(b"\r".join(SOUND) + b"\n", CUT)

    def test_types_are_told_in_the_order_in_which_they_come(self):
        # A line that is a CR is empty, so there are eleven records.
        types = [b"WRK", b"XYZ1", b"WRK0", b"nwr", b"HD", b"\xc3\x89T", b"\\x4", b" ", b"'A'"]
        self.remarks_on(
            [*types, b"WRK", b"\r", trailer(0, 0, 12)],
            "cwr: remark: record types that CWR 2.2 does not have: 8, 'WRK' (3), "
            "'XYZ' (1), 'nwr' (1), 'HD' (1), "
            "'\\xc3\\x89T' (1), '\\x4' (1), ' ' (1), ''A'' (1)",
            "cwr: remark: line 12: TRL says 12 records, and the file has 11")

    def test_ten_types_are_told(self):
        types = [b"X%02d" % n for n in range(12)] + [b"X11"]
        named = ", ".join(f"'X{n:02}' (1)" for n in range(10))
        what = "cwr: remark: record types that CWR 2.2 does not have"
        self.remarks_on(types, f"{what}: 12, {named} and 2 more", CUT)
        self.remarks_on(types[:10], f"{what}: 10, {named}", CUT)

    def test_all_types_of_cwr_are_known(self):
        # Six of them are transactions. The group begins with the second record.
        types = ("HDR GRH AGR TER IPA NPA NWR REV ISW EXC ACK SPU NPN SPT OPU OPT SWR NWN SWT PWR "
                 "OWR NOW OWT ALT NAT EWT NET VER NVT COM NCT PER NPR REC ORN INS IND ARI XRF MSG")
        self.remarks_on([*types.encode().split(), group_trailer(6, 40), trailer(1, 6, 42)])

    def test_a_byte_beyond_ascii_before_the_last_field_is_remarked_on(self):
        # The last byte that is told of is 81 of an NWR or REV, 50 of an SPT and 44 of an SWT.
        def at(record, position):
            return record[:position - 1] + b"\x80" + record[position:]

        what = ("cwr: remark: NWR, REV, SPT or SWT with a byte beyond ASCII before the last field "
                "that is read: ")
        records = [work(b"W1"), work(b"W2", kind=b"REV"), publisher_share(b"P", 1),
                   writer_share(b"P", 1)]
        for record, position in zip(records, (81, 81, 50, 44)):
            for other in (4, 20, position):
                self.remarks_on([b"HDR", at(record, other)], f"{what}1, in line 2", CUT)
            self.remarks_on([b"HDR", at(record, position + 1)], CUT)
        self.remarks_on([at(work(b"W1")[:40], 30)], f"{what}1, in line 1", CUT)
        self.remarks_on([at(publisher(b"P"), 40), b"NWR\x7f"], CUT)
        lines = ", ".join(map(str, range(1, 11)))
        self.remarks_on([at(records[0], 40)] * 11, f"{what}11, in line {lines} and 1 more", CUT)

    def test_counts_of_groups_and_of_the_file_are_compared(self):
        # The first group has two transactions and four records. The second has one and three at
        # its first trailer, and four records at the next. An empty line is no record.
        records = [b"HDR", b"GRH", work(b"W1"), b"ISW", b"", group_trailer(3, 4), b"GRH", b"EXC",
                   b"GRT00002", b"GRT0000200000001       4", trailer(1, 2, 7)]
        self.remarks_on(
            records, "cwr: remark: line 6: GRT says 3 transactions, and its group has 2",
            "cwr: remark: line 9: GRT says no number of transactions, and its group has 1",
            "cwr: remark: line 9: GRT says no number of records, and its group has 3",
            "cwr: remark: line 10: GRT says no number of records, and its group has 4",
            "cwr: remark: line 11: TRL says 1 groups, and the file has 2",
            "cwr: remark: line 11: TRL says 2 transactions, and the file has 3",
            "cwr: remark: line 11: TRL says 7 records, and the file has 10")

    def test_a_group_may_begin_with_the_file_and_a_file_with_its_last_header(self):
        # What stands behind byte 24 is not read. The third group begins with line 4, and its
        # number of records is cut off to 0000.
        records = [work(b"W1"), group_trailer(1, 2) + b"9", b"HDR", b"GRH", b"AGR",
                   group_trailer(1, 3), b"HDR", b"ACK", group_trailer(2, 0)[:20],
                   trailer(0, 10, 5)]
        self.remarks_on(
            records, "cwr: remark: line 9: GRT says 0 records, and its group has 6",
            "cwr: remark: line 10: TRL says 10 transactions, and the file has 1",
            "cwr: remark: line 10: TRL says 5 records, and the file has 4")

    def test_ten_counts_that_differ_are_told(self):
        for count, more in ((5, []), (6, ["cwr: further control counts that differ: 2"])):
            told = [f"cwr: remark: line {n}: GRT says no number of {what}, and its group has {has}"
                    for n in range(1, 6) for what, has in (("transactions", 0), ("records", n))]
            self.remarks_on([b"GRT00001"] * count, *told, *more, CUT)

    def test_lines_behind_the_trailer_are_its_end(self):
        self.remarks_on([*SOUND, b"", b"\r"])
        self.remarks_on([*SOUND, b"COM"], CUT)
        self.remarks_on([*SOUND, b"TR"], "cwr: remark: record types that CWR 2.2 does not have: 1, "
                        "'TR' (1)", CUT)


class Tables(Answers):
    """Quotes that do not end."""

    def quote_in(self, text):
        """The number of the row of a table of territories in which a quote does not end."""
        told = [line for line in self.report(tis=text)[1] if "a quote opens" in line]
        self.assertLessEqual(len(told), 1)
        found = [re.fullmatch(r"tis: remark: row (\d+): a quote opens in it that does not end", it)
                 for it in told]
        return int(found[0][1]) if found else None

    def test_a_quote_that_does_not_end_is_in_the_last_row(self):
        for text, row in ((b'code,groups\n2136,"', 1), (b'code,groups\n2136,""', None),
                          (b'code,groups\n2136,"""', 1), (b'code,groups\n2136," ""', 1),
                          (b'code,groups\n2136," "', None), (b'code,groups\n2136, "', None),
                          (b'code,groups\n2136," "x"', None), (b'\xef\xbb\xbf"code,groups', 0),
                          (b'\xef\xbb\xbf"code",groups\n', None), (b'"', 0), (b"", None),
                          (b'code,groups\r2136,\r\r\n"', 2), (b'code,groups\n1,"\n2,\n', 1)):
            self.assertEqual(self.quote_in(text), row, text)

    def test_it_is_told_behind_what_is_in_the_table(self):
        tables = {"tis": b'code,groups\n2136,\n276,"2136', "payees": b'party,payee\n"P","X',
                  "usage": b'usage,work,territory,right,amount\nu,W1,276,P,5\nu,W1,276,P,"5'}
        status, told = self.report(**tables)
        self.assertEqual((status, told[:11]), (0, [
            "tis: territories: 2", "tis: remark: row 2: a quote opens in it that does not end",
            "payees: parties with a payee: 1",
            "payees: remark: row 1: a quote opens in it that does not end", *FOUND[1:],
            "usage: usage lines: 2",
            "usage: remark: rows that are the same as an earlier one: 1, in row 2",
            "usage: remark: row 2: a quote opens in it that does not end"]))

    def test_it_is_told_of_a_table_with_a_fault(self):
        text = b'usage,work,territory,right,amount\nu,W1,276,P,x\n"u,W1,276,P,5\nv,W1,276,P,5\n'
        status, told = self.report(usage=text)
        self.assertEqual((status, told[2:]), (1, [
            *FOUND, "usage: remark: row 2: a quote opens in it that does not end"]))


class Uses(Answers):
    """Usage lines, and what a run makes of them."""

    def listing(self, *rows):
        """A usage list of rows as they stand."""
        return "\n".join(["usage,work,territory,right,amount", *rows]).encode()

    def repeated(self, *rows):
        """What is said of rows that are the same."""
        told = self.report(usage=self.listing(*rows))[1]
        return [line.removeprefix("usage: remark: rows that are the same as an earlier one: ")
                for line in told if "the same as" in line]

    def test_rows_that_say_the_same_are_repeated(self):
        # Rows 2 and 4 are row 1, row 7 is row 6, and row 9 is row 3.
        self.assertEqual(self.repeated(
            "u,W1,276,P,5", "u,W1,0276,P,05", "u,W1,276,P,-5", "", '"u","W1",276,P,5',
            "u,W1,276,M,5", "u,W1,276,P,-0", "u,W1,276,P,0", "u ,W1,276,P,5", "u,W1,276,P,-0005"),
            ["4, in row 2, 4, 7, 9"])

    def test_ten_repeated_rows_are_named_where_no_row_has_a_fault(self):
        rows = ["u,W1,276,P,5"] * 12
        self.assertEqual(self.repeated(*rows), ["11, in row 2, 3, 4, 5, 6, 7, 8, 9, 10, 11 and 1 "
                                                "more"])
        self.assertEqual(self.repeated(*rows, "u"), [])
        self.assertEqual(self.repeated(*rows[:1]), [])

    def test_ten_of_a_kind_are_told_and_how_many_more_there_are(self):
        # Half of each line of a work V goes to the residue: n minor units, below 0 where n is odd,
        # but 11 of V12, and nothing of V0. The one unit of V5's other line goes to P, which stands
        # before the residue.
        open_works = [record for n in range(13) for record in world(f"V{n}", "P=5000")]
        over = [record for n in range(11) for record in world(f"O{n}", "P=6000", "Q=6000")]
        left = [n if n % 2 == 0 else -n for n in range(12)] + [11]
        rows = [*(f"v V{n} 276 {2 * left[n]}" for n in range(13)), "v V5 276 1",
                *(f"o O{n} 276 {n}" for n in range(11)), *(f"x X{n} 276 {n}" for n in range(12)),
                *(f"l V0 {n} {n}" for n in range(1, 12))]
        status, told = self.report(cwr=[*open_works, *over], usage=uses(*rows))
        place = next(n for n, line in enumerate(told) if "usage: divided: " in line)
        self.assertEqual((status, told[place + 4:]), (0, [
            *(f"usage: work 'X{n}' is not registered: lines 1, amount {n}"
              for n in range(11, 1, -1)),
            "usage: further works that are not registered: 2",
            *(f"usage: territory {n} is not in the table: lines 1, amount {n}"
              for n in range(11, 1, -1)),
            "usage: further territories that are not in the table: 1",
            *(f"usage: work 'V{n}' is not claimed in full: lines 1, to the residue {left[n]}"
              for n in (11, 12, *range(10, 2, -1))),
            "usage: further works that are not claimed in full: 2",
            *(f"usage: work 'O{n}' is claimed over 100.06 per cent: lines 1, amount {n}"
              for n in range(10, 0, -1)),
            "usage: further works that are claimed over 100.06 per cent: 1"]))

    def test_what_stays_open_is_summed_up_by_work(self):
        # W2 leaves 5 and -5, W10 leaves -3, and W3 is claimed by nobody, so that all of it is left.
        records = [*world("W2", "P=5000"), *world("W10", "P=5000"), work(b"W3")]
        rows = ["a W2 276 10", "b W2 276 -10", "c W10 276 -6", "d W3 276 4", "e W3 276 -1"]
        told = self.report(cwr=records, usage=uses(*rows))[1]
        self.assertEqual(told[-7:], [
            "usage: divided: lines 5, amount -3, to the residue 0", *DIVIDED[1:],
            "usage: work 'W10' is not claimed in full: lines 1, to the residue -3",
            "usage: work 'W3' is not claimed in full: lines 2, to the residue 3",
            "usage: work 'W2' is not claimed in full: lines 2, to the residue 0"])

    def test_remarks_stand_behind_works_that_are_told(self):
        told = self.report(usage=uses("u X 4 5"))[1]
        self.assertEqual(told[-3:], [
            "usage: work 'X' is not registered: lines 1, amount 5",
            "cwr: remark: it has the work of no usage line",
            "tis: remark: it has the territory of no usage line"])


if __name__ == "__main__":
    unittest.main()
