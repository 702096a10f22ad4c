"""Tests of the plain program over the files of several submitters.

What it has to print was worked out by hand, and the arithmetic stands beside it. Claims are in
hundredths of a per cent. An account that no table of payees names is called by submitter and party.
"""
import os
import subprocess
import tempfile
import unittest

from tools import plain
from tools.crates import ROOT
from tools.cwr_records import (file_of, publisher, publisher_share, work, writer, writer_share)
from tools.running import run, words_of
from tools.submitters import Submitted, table, written_files, written_options

TERRITORIES = b"code,groups\n2136,\n276,2136\n840,2136\n"

PROGRAM = None


def setUpModule():
    global PROGRAM
    PROGRAM = plain.build()


def works(*rows):
    """A table of works, of rows WORK SUBMITTER NUMBER."""
    return table("works", [[*row.encode().split(b" "), b"for people"] for row in rows])


def payees(*rows):
    """A table of payees, of rows SUBMITTER PARTY PAYEE."""
    return table("payees", [[*row.encode().split(b" "), b"for people"] for row in rows])


def uses(*rows):
    """A usage list, of rows USAGE WORK TERRITORY AMOUNT, all of the right P."""
    rows = [row.encode().split(b" ") for row in rows]
    return table("usage", [[usage, of, land, b"P", amount] for usage, of, land, amount in rows])


def world(number, *shares, kind=b"NWR"):
    """A registration in which each of some parties has a share in the world, as PARTY=SHARE."""
    pairs = [share.encode().split(b"=") for share in shares]
    lines = ((publisher(), publisher_share(party, int(share))) for party, share in pairs)
    return [work(number.encode(), kind=kind), *(line for pair in lines for line in pair)]


def shown(*rows):
    """What has to be printed: a line for each row."""
    return "".join(f"{row}\n" for row in rows).encode()


class Answers(unittest.TestCase):
    """What the plain program answers over files that a test makes."""

    def setUp(self):
        folder = tempfile.TemporaryDirectory()
        self.addCleanup(folder.cleanup)
        self.folder = folder.name

    def answer(self, files, tables, **changed):
        """The outcome of a run over files by submitter, each a list of records."""
        files = [(name, file_of(*records)) for name, records in files.items()]
        tables = {"tis": TERRITORIES, **tables, **changed}
        options = written_options(self.folder, Submitted(tables, files), (2, 1, 16))
        return run(words_of(PROGRAM, "run", options))

    def pays(self, files, tables, *rows):
        """Has a run print these rows."""
        status, printed, message = self.answer(files, tables)
        self.assertEqual((status, printed.decode(), message), (0, shown(*rows).decode(), b""))

    def refuses(self, files, tables, message, status=1):
        """Has a run refused with this message, and nothing printed."""
        outcome = self.answer(files, tables)
        self.assertEqual(outcome, (status, b"", message.encode() + b"\n"))


class Statements(Answers):
    """What a usage line pays."""

    HALVES = {"A": world("W1", "P=5000"), "B": world("X9", "Q=5000")}
    BOTH = works("SONG A W1", "SONG B X9")

    def test_a_thousand_uses_of_a_unit_pay_a_thousand_units(self):
        # Each use: A:P and B:Q have half a unit each, 1 * 5000 / 10000 = 0, remainder 5000. One
        # unit is left, remainders are equal, and A:P stands first. The claims come to 10000, so
        # the residue has nothing.
        tables = {"works": self.BOTH, "usage": uses(*[f"u{n} SONG 276 1" for n in range(1000)])}
        self.pays(self.HALVES, tables, *[f"L,A:P,u{n},1" for n in range(1000)],
                  "S,A:P,1000,1000", "T,,0,0", "R,,1000,1000")

    def test_a_run_over_each_file_by_itself_would_pay_twice_as_much(self):
        # Each use in one file: the claim and the residue have half a unit each, and of equal
        # remainders the residue's comes last. So P has 1000 units in one run, and Q in the other.
        for name, number, party in (("A", "W1", "P"), ("B", "X9", "Q")):
            tables = {"works": works(f"SONG {name} {number}"),
                      "usage": uses(*[f"u{n} SONG 276 1" for n in range(1000)])}
            self.pays({name: self.HALVES[name]}, tables,
                      *[f"L,{name}:{party},u{n},1" for n in range(1000)],
                      f"S,{name}:{party},1000,1000", "T,,0,0", "R,,1000,1000")

    def test_two_claims_of_80_per_cent_are_over(self):
        # 8000 + 8000 = 16000, which is more than 10006.
        files = {"A": world("W1", "P=8000"), "B": world("X9", "Q=8000")}
        tables = {"works": self.BOTH, "usage": uses("u SONG 276 1000")}
        self.pays(files, tables, "M,OVER,u,1000", "T,,1,1000", "R,,1,1000")

    def test_claims_of_two_files_up_to_10006_are_scaled_and_beyond_are_over(self):
        # 5003 + 5003 = 10006 is the base: 100 * 5003 / 10006 = 50 for each, nothing left.
        # 5003 + 5004 = 10007 is too much.
        tables = {"works": self.BOTH, "usage": uses("u SONG 276 100")}
        self.pays({"A": world("W1", "P=5003"), "B": world("X9", "Q=5003")}, tables,
                  "L,A:P,u,50", "S,A:P,1,50", "L,B:Q,u,50", "S,B:Q,1,50", "T,,0,0", "R,,1,100")
        self.pays({"A": world("W1", "P=5003"), "B": world("X9", "Q=5004")}, tables,
                  "M,OVER,u,100", "T,,1,100", "R,,1,100")

    def test_claims_that_are_multiples_of_a_word_are_over(self):
        # 8 lines of 100.00 per cent in either file come to 160000. In words of 16 bits that would
        # be 28928, and with 7 lines and 5536 more, 75536 would be 10000.
        eight = [f"P{n}=10000" for n in range(8)]
        files = {"A": world("W1", *eight), "B": world("X9", *eight)}
        tables = {"works": self.BOTH, "usage": uses("u SONG 276 5")}
        self.pays(files, tables, "M,OVER,u,5", "T,,1,5", "R,,1,5")
        files = {"A": world("W1", *eight[:7]), "B": world("X9", "Q=5536")}
        self.pays(files, tables, "M,OVER,u,5", "T,,1,5", "R,,1,5")

    def test_claims_that_are_a_multiple_of_a_word_of_32_bits_are_over(self):
        # 429,496 lines of 100.00 per cent and one of 72.96 come to 4,294,967,296, which is 2 ^ 32.
        # 429,496 is 1,677 times 256, and 184.
        line = publisher_share(b"P", 10000)
        records = []
        for n in range(1678):
            records += [work(b"%d" % n), *[line] * (256 if n < 1677 else 184)]
        files = {"A": [*records, publisher_share(b"P", 7296)]}
        tables = {"works": works(*[f"SONG A {n}" for n in range(1678)]),
                  "usage": uses("u SONG 276 5")}
        self.pays(files, tables, "M,OVER,u,5", "T,,1,5", "R,,1,5")

    def test_the_same_party_of_two_submitters_is_two_parties(self):
        # 100 * 3333 / 10000 = 33, remainder 3300, for A:P and B:P; B:Q has 3334, so 33, remainder
        # 3400; the claims come to 10000. One unit is left and goes to B:Q.
        files = {"A": world("W1", "P=3333"), "B": world("X9", "P=3333", "Q=3334")}
        tables = {"works": self.BOTH, "usage": uses("u SONG 276 100")}
        self.pays(files, tables, "L,A:P,u,33", "S,A:P,1,33", "L,B:P,u,33", "S,B:P,1,33",
                  "L,B:Q,u,34", "S,B:Q,1,34", "T,,0,0", "R,,1,100")

    def test_a_table_of_payees_makes_them_one_account(self):
        # MOON has 3333 + 3333 = 6666: 66, remainder 6600. B:Q has 33, remainder 3400. One unit is
        # left and goes to MOON. Portions added up would give it 66.
        files = {"A": world("W1", "P=3333"), "B": world("X9", "P=3333", "Q=3334")}
        tables = {"works": self.BOTH, "payees": payees("A P MOON", "B P MOON"),
                  "usage": uses("u SONG 276 100")}
        self.pays(files, tables, "L,B:Q,u,33", "S,B:Q,1,33", "L,MOON,u,67", "S,MOON,1,67",
                  "T,,0,0", "R,,1,100")

    def test_a_payee_may_be_the_account_of_another_party(self):
        # B's P is paid to the account that A's P has without a row: 5000 + 2500 = 7500, so 75 of
        # 100. The residue has the other 25.
        files = {"A": world("W1", "P=5000"), "B": world("X9", "P=2500")}
        tables = {"works": self.BOTH, "payees": payees("B P A:P"), "usage": uses("u SONG 276 100")}
        self.pays(files, tables, "L,A:P,u,75", "S,A:P,1,75", "M,OPEN,u,25", "T,,1,25", "R,,1,100")

    def test_a_payee_is_not_looked_up_again(self):
        # A's P is paid to A:Q, the account of A's Q. That Q itself is paid to MOON.
        files = {"A": world("W1", "P=6000", "Q=4000")}
        tables = {"works": works("SONG A W1"), "payees": payees("A P A:Q", "A Q MOON"),
                  "usage": uses("u SONG 276 10")}
        self.pays(files, tables, "L,A:Q,u,6", "S,A:Q,1,6", "L,MOON,u,4", "S,MOON,1,4",
                  "T,,0,0", "R,,1,10")

    def test_an_exclusion_holds_in_its_own_registration_alone(self):
        # In 840 the first registration of A gives P nothing, and the second one 30.00 per cent:
        # interests of different registrations are different. 10 * 3000 / 10000 = 3. In 276 it has
        # 2000 + 3000, so 5.
        first = [*world("W1", "P=2000"), publisher_share(b"P", 0, b"E", 840)]
        files = {"A": [*first, *world("W2", "P=3000")]}
        tables = {"works": works("SONG A W1", "SONG A W2"),
                  "usage": uses("u1 SONG 840 10", "u2 SONG 276 10")}
        self.pays(files, tables, "L,A:P,u1,3", "L,A:P,u2,5", "S,A:P,2,8",
                  "M,OPEN,u1,7", "M,OPEN,u2,5", "T,,2,12", "R,,2,20")

    def test_lines_before_the_first_interest_are_of_their_registration(self):
        # The lines of P stand before any SPU or SWR. Were both of one interest, the second one
        # would decide alone: 1000. As they are of two registrations, they come to 5000.
        files = {"A": [work(b"W1"), publisher_share(b"P", 4000),
                       work(b"W2"), publisher_share(b"P", 1000)]}
        tables = {"works": works("SONG A W1", "SONG A W2"), "usage": uses("u SONG 276 10")}
        self.pays(files, tables, "L,A:P,u,5", "S,A:P,1,5", "M,OPEN,u,5", "T,,1,5", "R,,1,10")

    def test_a_registration_that_no_row_links_has_no_part(self):
        # W2 is in no row: no usage line has it, and its party Z no account. Its number is no work.
        files = {"A": [*world("W1", "P=10000"), *world("W2", "Z=10000")]}
        tables = {"works": works("SONG A W1"), "usage": uses("u1 SONG 276 7", "u2 W2 276 8",
                                                             "u3 W1 276 9")}
        self.pays(files, tables, "L,A:P,u1,7", "S,A:P,1,7", "M,WORK,u2,8", "M,WORK,u3,9",
                  "T,,2,17", "R,,3,24")

    def test_a_row_whose_registration_is_not_in_force_gives_nothing(self):
        # Of SONG only the row of A has a registration: 6000 of 10 is 6. No row of TUNE has one.
        files = {"A": world("W1", "P=6000"), "B": world("X9", "Q=4000")}
        tables = {"works": works("SONG B NONE", "SONG A W1", "TUNE A W2", "TUNE B W1"),
                  "usage": uses("u1 SONG 276 10", "u2 TUNE 276 5")}
        self.pays(files, tables, "L,A:P,u1,6", "S,A:P,1,6", "M,OPEN,u1,4", "M,WORK,u2,5",
                  "T,,2,9", "R,,2,15")

    def test_a_registration_replaces_those_of_its_own_file_alone(self):
        # In A the REV of W1 gives Q 2500 where P had 10000. B has a W1 of its own, with 5000, which
        # is of the same work: 100 * 2500 / 10000 = 25, and 50, and 25 stay open.
        files = {"A": [*world("W1", "P=10000"), *world("W2", "Z=1"),
                       *world("W1", "Q=2500", kind=b"REV")],
                 "B": world("W1", "P=5000")}
        tables = {"works": works("SONG A W1", "SONG B W1"), "usage": uses("u SONG 276 100")}
        self.pays(files, tables, "L,A:Q,u,25", "S,A:Q,1,25", "L,B:P,u,50", "S,B:P,1,50",
                  "M,OPEN,u,25", "T,,1,25", "R,,1,100")

    def test_a_registration_without_share_lines_links_its_work(self):
        # The work is registered, so nothing is WORK, and all of it is open.
        tables = {"works": works("SONG A W1"), "usage": uses("u1 SONG 276 3", "u2 SONG 4 2")}
        self.pays({"A": world("W1")}, tables, "M,OPEN,u1,3", "M,LAND,u2,2", "T,,2,5", "R,,2,5")

    def test_reasons_come_in_their_order(self):
        # Territory 4 is not in the table: LAND though the claims would be over, and WORK before it.
        files = {"A": world("W1", "P=9000", "Q=9000")}
        tables = {"works": works("SONG A W1", "NONE A W2"),
                  "usage": uses("u1 SONG 4 1", "u2 NONE 4 2", "u3 SONG 276 3")}
        self.pays(files, tables, "M,LAND,u1,1", "M,WORK,u2,2", "M,OVER,u3,3", "T,,3,6", "R,,3,6")

    def test_names_of_works_are_taken_as_they_stand(self):
        # Names of 14, 15 and 64 bytes, one within another, and one with a space at its end.
        names = ["F" * 14, "F" * 15, "F" * 64]
        rows = [[name.encode(), b"A", b" W%d " % n, b""] for n, name in enumerate(names)]
        rows.append([b"W ", b"A", b"W3", b'a "title", \xff\n'])
        files = {"A": [record for n in range(4) for record in world(f"W{n}", f"P{n}=10000")]}
        lines = [[b"u%d" % n, name.encode(), b"276", b"P", b"1"]
                 for n, name in enumerate([*names, "F" * 63, "W ", "W"])]
        tables = {"works": table("works", rows), "usage": table("usage", lines)}
        self.pays(files, tables, "L,A:P0,u0,1", "S,A:P0,1,1", "L,A:P1,u1,1", "S,A:P1,1,1",
                  "L,A:P2,u2,1", "S,A:P2,1,1", "L,A:P3,u4,1", "S,A:P3,1,1",
                  "M,WORK,u3,1", "M,WORK,u5,1", "T,,2,2", "R,,6,6")

    def test_a_work_of_many_registrations_pays_by_territory_and_right(self):
        # 300 registrations of either file give P 0.10, 0.15 and 0.05 per cent for P, M and S, in
        # the world: 6000, 9000 and 3000 in all. Those of B exclude 840: 3000, 4500 and 1500 there.
        # All are paid to P, and a line pays what an earlier one with the same words pays.
        shares = publisher_share(b"P", (10, 15, 5))
        one = [it for n in range(300) for it in (work(b"%d" % n), shares)]
        other = [it for n in range(300) for it in
                 (work(b"%d" % n), shares, publisher_share(b"P", 0, b"E", 840))]
        rows = [f"SONG {name} {n}" for n in range(300) for name in "AB"]
        asked = [(land, right) for _ in range(2) for land in ("276", "840", "4") for right in "PMS"]
        lines = [[b"u%d" % n, b"SONG", land.encode(), right.encode(), b"100"]
                 for n, (land, right) in enumerate(asked)]
        tables = {"works": works(*rows), "payees": payees("A P P", "B P P"),
                  "usage": table("usage", lines)}
        paid = [60, 90, 30, 30, 45, 15, 0, 0, 0] * 2
        reasons = (["OPEN"] * 6 + ["LAND"] * 3) * 2
        # 60 + 90 + 30 + 30 + 45 + 15 = 270, twice; 18 lines of 100 leave 1800 - 540 = 1260.
        self.pays({"A": one, "B": other}, tables,
                  *[f"L,P,u{n},{amount}" for n, amount in enumerate(paid) if amount],
                  "S,P,12,540",
                  *[f"M,{reason},u{n},{100 - amount}"
                    for n, (reason, amount) in enumerate(zip(reasons, paid))],
                  "T,,18,1260", "R,,18,1800")

    def test_what_is_taken_back_is_divided_as_what_came_in(self):
        # -3 by 5000 and 5000: the size gives 1 and 1, remainders 5000, and the unit left to A:P.
        tables = {"works": self.BOTH, "usage": uses("u SONG 276 -3")}
        self.pays(self.HALVES, tables, "L,A:P,u,-2", "S,A:P,1,-2", "L,B:Q,u,-1", "S,B:Q,1,-1",
                  "T,,0,0", "R,,1,-3")


class Refusals(Answers):
    """What a run is refused for, and in which order."""

    GOOD = {"works": works("SONG A W1"), "usage": uses("u SONG 276 1")}
    FILES = {"A": world("W1", "P=10000"), "B": world("X9", "Q=10000")}
    # An SPT that ends before its territory, in line 2.
    SHORT = [work(b"W1"), publisher_share(b"P", 1)[:53]]

    def with_works(self, text):
        """The tables of a run with another table of works."""
        return {**self.GOOD, "works": text}

    def with_payees(self, *rows):
        """The tables of a run with a table of payees of these lines."""
        lines = ["submitter,party,payee,name", *rows, ""]
        return {**self.GOOD, "payees": "\n".join(lines).encode()}

    def test_faults_of_a_table_of_works(self):
        head = b"work,submitter,number,title\n"
        for text, message in (
                (b"", "works fault 1 at row 0"),
                (b"work,submitter,number\n", "works fault 1 at row 0"),
                (head + b"SONG,A,W1\n", "works fault 1 at row 1"),
                (head + b"SONG,A,W1,t,x\n", "works fault 1 at row 1"),
                (head + b",A,W1,t\n", "works fault 2 at row 1"),
                (head + b"S\xc3,A,W1,t\n", "works fault 2 at row 1"),
                (head + b"S" * 65 + b",A,W1,t\n", "works fault 2 at row 1"),
                (head + b"SONG,C,W1,t\n", "works fault 3 at row 1"),
                (head + b"SONG, A,W1,t\n", "works fault 3 at row 1"),
                (head + b"SONG,a,W1,t\n", "works fault 3 at row 1"),
                (head + b"SONG,,W1,t\n", "works fault 3 at row 1"),
                (head + b"SONG,A,,t\n", "works fault 4 at row 1"),
                (head + b"SONG,A,   ,t\n", "works fault 4 at row 1"),
                (head + b"SONG,A,\tW1,t\n", "works fault 4 at row 1"),
                (head + b"SONG,A,123456789012345,t\n", "works fault 4 at row 1"),
                (head + b"SONG,A,W1,t\nTUNE,A, W1 ,t\n", "works fault 5 at row 2"),
                (head + b"SONG,A,W1,t\nSONG,A,W1,t\n", "works fault 5 at row 2")):
            self.refuses(self.FILES, self.with_works(text), message)

    def test_a_row_of_works_is_refused_for_the_first_of_its_faults(self):
        head = b"work,submitter,number,title\nSONG,A,W1,t\n"
        for row, number in ((b",C,,t,x", 1), (b",C,,t", 2), (b"SONG,C,,t", 3), (b"SONG,A,,t", 4),
                            (b"SONG,A,W1,t", 5)):
            text = head + row + b"\n,,\n"
            self.refuses(self.FILES, self.with_works(text), f"works fault {number} at row 2")

    def test_faults_of_a_table_of_payees(self):
        for rows, message in (
                (["A,P,X"], "payee fault 1 at row 1"),
                (["A,,X,n"], "payee fault 2 at row 1"),
                (["A,P, ,n"], "payee fault 2 at row 1"),
                (["A," + "P" * 65 + ",X,n"], "payee fault 2 at row 1"),
                (["C,P,X,n"], "payee fault 5 at row 1"),
                (["A ,P,X,n"], "payee fault 5 at row 1"),
                (["A,P,X,n", "A, P ,Y,n"], "payee fault 3 at row 2"),
                (["A,P,X,n", "B,P,X,n", "A,P,X,n"], "payee fault 3 at row 3"),
                (["C,,X"], "payee fault 1 at row 1"),
                (["C,,X,n"], "payee fault 2 at row 1")):
            self.refuses(self.FILES, self.with_payees(*rows), message)
        self.refuses(self.FILES, {**self.GOOD, "payees": b"party,payee\n"},
                     "payee fault 1 at row 0")
        # The same party of another submitter, and spaces at both ends, are no faults.
        tables = self.with_payees("A, P , MOON ,n", "B,P,MOON,")
        self.pays(self.FILES, tables, "L,MOON,u,1", "S,MOON,1,1", "T,,0,0", "R,,1,1")

    def test_tables_come_before_files_and_each_file_before_the_next(self):
        bad = {"tis": b"code\n", "payees": b"party\n", "works": b"work\n", "usage": b"usage\n"}
        files = {"A": self.SHORT, "B": [work(b"")]}
        path = os.path.join(self.folder, "submitted")
        for name, message in (
                ("tis", "tis fault 1 at row 0"), ("payees", "payee fault 1 at row 0"),
                ("works", "works fault 1 at row 0")):
            self.refuses(files, {**self.GOOD, **bad}, message)
            bad[name] = {"tis": TERRITORIES, "payees": payees()}.get(name, self.GOOD["works"])
        self.refuses(files, {**self.GOOD, **bad}, f"cwr fault 1 at line 2 of {path}/0.cwr")
        files["A"] = self.FILES["A"]
        self.refuses(files, {**self.GOOD, **bad}, f"cwr fault 6 at line 1 of {path}/1.cwr")
        files["B"] = self.FILES["B"]
        self.refuses(files, {**self.GOOD, **bad}, "usage fault 1 at row 0")

    def test_a_file_that_is_missing_counts_when_it_is_its_turn(self):
        def answer(files, tables, absent):
            files = [(name, file_of(*records)) for name, records in files.items()]
            tables = {"tis": TERRITORIES, "payees": payees(), **tables}
            options = written_options(self.folder, Submitted(tables, files), (1, 1, 1))
            # An option has the path, a submitter the name with the path.
            options = [(name, value.replace(absent, absent + ".gone")) if absent in str(value)
                       else (name, value) for name, value in options]
            return run(words_of(PROGRAM, "run", options))

        bad = {"tis": b"code\n", "payees": b"x\n", "works": b"x\n", "usage": b"x\n"}
        for name in ("tis", "payees", "works", "usage"):
            path = os.path.join(self.folder, name)
            self.assertEqual(answer(self.FILES, bad, path),
                             (4, b"", f"cannot read {path}.gone\n".encode()))
        second = os.path.join(self.folder, "submitted", "1.cwr")
        gone = 4, b"", f"cannot read {second}.gone\n".encode()
        self.assertEqual(answer(self.FILES, self.GOOD, second), gone)
        self.assertEqual(answer(self.FILES, {**self.GOOD, "usage": b"x\n"}, second), gone)
        first = os.path.join(self.folder, "submitted", "0.cwr")
        short = {"A": self.SHORT, "B": self.FILES["B"]}
        self.assertEqual(answer(short, self.GOOD, second),
                         (1, b"", f"cwr fault 1 at line 2 of {first}\n".encode()))
        self.assertEqual(answer(short, {**self.GOOD, "works": b"x\n"}, second),
                         (1, b"", b"works fault 1 at row 0\n"))

    def test_a_registration_that_no_row_links_is_checked_all_the_same(self):
        files = {"A": [*self.FILES["A"], *self.SHORT]}
        path = os.path.join(self.folder, "submitted", "0.cwr")
        self.refuses(files, {**self.GOOD, "works": works("SONG A NONE")},
                     f"cwr fault 1 at line 5 of {path}")

    def test_a_work_may_have_256_payees_and_no_more(self):
        # A has 200 parties of SONG, and B 56 others; a row that is not in force and one of another
        # work stand between. The 257th payee comes with the row of C, the sixth.
        files = {"A": world("W1", *[f"P{n}=1" for n in range(200)]),
                 "B": world("W1", *[f"P{n}=1" for n in range(56)]), "C": world("W1", "P=1")}
        rows = ["SONG A NONE", "SONG A W1", "TUNE B NONE", "SONG B W1", "SONG C NONE"]
        usage = uses("u TUNE 276 1")
        last = "M,WORK,u,1", "T,,1,1", "R,,1,1"
        self.pays(files, {"works": works(*rows), "usage": usage}, *last)
        tables = {"works": works(*rows, "SONG C W1", "SONG B NO"), "usage": b"x\n"}
        self.refuses(files, tables, "works fault 7 at row 6")
        # Where C's party has the payee of one of A's, there are 256 again.
        tables = {"works": works(*rows, "SONG C W1"), "payees": payees("C P A:P7"), "usage": usage}
        self.pays(files, tables, *last)

    def test_the_first_row_of_many_payees_is_named_whatever_its_work(self):
        # TUNE has too many payees from row 3 on, SONG from row 4 on; SONG stands first.
        many = [f"P{n}=1" for n in range(200)]
        files = {name: world("W1", *many) for name in "ABCD"}
        rows = works("SONG A W1", "TUNE B W1", "TUNE C W1", "SONG D W1")
        self.refuses(files, {**self.GOOD, "works": rows}, "works fault 7 at row 3")


class Words(Answers):
    """What the command line has to be like."""

    def status(self, *words):
        """The status of a command line, which has to print nothing where it is refused."""
        status, printed, _ = run([PROGRAM, *words])
        self.assertTrue(status == 0 or printed == b"")
        return status

    def setUp(self):
        super().setUp()
        files = [("A", file_of(*world("W1", "P=10000")))]
        tables = {"tis": TERRITORIES, "works": works("SONG A W1"), "usage": uses("u SONG 276 1")}
        options = written_options(self.folder, Submitted(tables, files), (1, 1, 1))
        self.words = words_of(PROGRAM, "run", options)[1:]
        self.path = os.path.join(self.folder, "submitted", "0.cwr")

    def test_names_of_submitters(self):
        for name in ("A", "a-b_C9", "_", "0", "SIXTEEN_BYTES_16", "9-"):
            for command in ("works", "parties"):
                self.assertEqual(self.status(command, "--cwr", f"{name}={self.path}"), 0, name)
        for value in (self.path, "A", "=", "A=", f"={self.path}", f"A B={self.path}",
                      f"\xe9={self.path}", f"A.={self.path}", f" A={self.path}",
                      f"SEVENTEEN_BYTES_7={self.path}", ""):
            self.assertEqual(self.status("works", "--cwr", value), 2, value)
            self.assertEqual(self.status(*self.words, "--cwr", value), 2, value)
        self.assertEqual(self.status("works", f"--cwr=-A={self.path}"), 2)

    def test_a_path_may_have_a_sign_of_equality_in_it(self):
        path = os.path.join(self.folder, "a=b.cwr")
        os.rename(self.path, path)
        status, printed, _ = run([PROGRAM, "parties", f"--cwr=A={path}"])
        self.assertEqual((status, printed), (0, b"submitter,party,payee,name\nA,P,A:P,\n"))

    def test_each_name_is_given_once(self):
        value = f"A={self.path}"
        self.assertEqual(self.status("parties", "--cwr", value, "--cwr", f"a={self.path}"), 0)
        self.assertEqual(self.status("parties", "--cwr", value, "--cwr", value), 2)
        self.assertEqual(self.status(*self.words, "--cwr", value), 2)

    def test_there_are_1_to_256_files(self):
        values = [word for n in range(257) for word in ("--cwr", f"A{n}={self.path}")]
        self.assertEqual(self.status("works", *values[:512]), 0)
        self.assertEqual(self.status("works", *values), 2)
        self.assertEqual(self.status("works"), 2)
        self.assertEqual(self.status(*self.words[:5], *self.words[7:]), 2)

    def test_options_are_given_once_and_are_known(self):
        self.assertEqual(self.status(*self.words), 0)
        for place in [n for n, word in enumerate(self.words) if word.startswith("--")]:
            name, value = self.words[place:place + 2]
            self.assertEqual(self.status(*self.words, name, value), 2, name)
            rest = self.words[:place] + self.words[place + 2:]
            # Without `--works` the path of `--cwr` is taken whole, and there is no such file.
            self.assertEqual(self.status(*rest), 4 if name == "--works" else 2, name)
            self.assertEqual(self.status(*rest, f"{name}={value}"), 0, name)
        self.assertEqual(self.status(*self.words, "--row", "1"), 2)
        self.assertEqual(self.status("works", "--cwr", f"A={self.path}", "--output", "o"), 2)
        self.assertEqual(self.status("works", "--cwr", f"A={self.path}", "--works", "w"), 2)

    def test_an_empty_path_cannot_be_read(self):
        place = self.words.index("--works")
        words = [*self.words[:place], "--works=", *self.words[place + 2:]]
        self.assertEqual(run([PROGRAM, *words]), (4, b"", b"cannot read \n"))


class Tables(Answers):
    """The tables to begin with."""

    def prints(self, command, files, *rows):
        """Has a command print a table of these rows, which a run then takes."""
        files = [(name, file_of(*records)) for name, records in files.items()]
        values = written_files(self.folder, files)
        outcome = run(words_of(PROGRAM, command, [("cwr", value) for value in values]))
        self.assertEqual(outcome, (0, b"".join(row + b"\n" for row in rows), b""))
        tables = {"tis": TERRITORIES, "works": works(), "usage": uses(),
                  "works" if command == "works" else "payees": outcome[1]}
        options = written_options(self.folder, Submitted(tables, files), (1, 1, 1))
        self.assertEqual(run(words_of(PROGRAM, "run", options)), (0, b"T,,0,0\nR,,0,0\n", b""))

    def test_works_are_of_one_iswc_or_by_themselves(self):
        # W1 and W2 of A have an ISWC, which is that of W1 of B; the second one of A goes without.
        # The others have none, one of zeros alone, one with a letter, one that is cut off, one
        # that does not begin with T, and none since the line ends before it.
        files = {
            "A": [work(b"W1", b"  ONE, TWO ", b"T0345246801"),
                  work(b"W2", b'THE "TWO"', b"T0345246801"),
                  work(b" W3", b"", b""), work(b"W4", b"FOUR", b"T0000000000"),
                  work(b"W5", b"\xc3\x89T\xc3\x89", b"T034524680X"),
                  work(b"W6", b"SIX")[:95] + b"T034524680",
                  work(b"W7", b"SEVEN", b"t0345246801"), work(b"W8", b"EIGHT")[:83]],
            "B": [work(b"W1", b"A\rB", b"T0345246801"), work(b"W,9", b"N", b"T0000000001")]}
        self.prints(
            "works", files, b"work,submitter,number,title",
            b'T0345246801,A,W1,"ONE, TWO"', b'A:W2,A,W2,"THE ""TWO"""', b"A:W3,A,W3,",
            b"A:W4,A,W4,FOUR", b"A:W5,A,W5,\xc3\x89T\xc3\x89", b"A:W6,A,W6,SIX",
            b"A:W7,A,W7,SEVEN", b"A:W8,A,W8,EIGHT",
            b'T0345246801,B,W1,"A\rB"', b'T0000000001,B,"W,9",N')

    def test_works_stand_in_the_order_of_the_records_in_force(self):
        # W1 is revised behind W2, and gives up its ISWC, which W3 then has for itself.
        files = {"A": [work(b"W1", b"OLD", b"T0345246801"), work(b"W2", b"TWO"),
                       work(b"W1", b"NEW", kind=b"REV"), work(b"W3", b"C", b"T0345246801")]}
        self.prints("works", files, b"work,submitter,number,title", b"A:W2,A,W2,TWO",
                    b"A:W1,A,W1,NEW", b"T0345246801,A,W3,C")

    def test_parties_have_the_names_and_numbers_that_stand_last(self):
        # P: the last name is that of the SWR, the last IPI name number that of the first SPU, since
        # the second one's has ten digits and the SWR's is zeros. Q has a last name alone, and a
        # later record that says nothing. R has a first name alone, and S no record of its own. X
        # has a record and no share line.
        files = {"A": [
            work(b"W1"), publisher(b"P", b" MOON & CO ", b"00014107338"), publisher_share(b"P", 1),
            publisher_share(b"S", 1), publisher(b"P", b"", b"0001410733"),
            work(b"W2"), writer(b" P", b"DOE ", b" JANE", b"0" * 11), writer_share(b"P", 1),
            writer(b"Q", b"ROE, R.", b"", b"00000000001"), writer_share(b"Q", 1),
            writer(b"R", b"", b"RAY"), writer_share(b"  R", 1), publisher(b"X", b"X", b"1" * 11),
            work(b"W3"), publisher(b"Q")]}
        self.prints("parties", files, b"submitter,party,payee,name", b"A,P,00014107338,JANE DOE",
                    b'A,Q,00000000001,"ROE, R."', b"A,R,A:R,RAY", b"A,S,A:S,")

    def test_parties_are_those_of_registrations_in_force(self):
        # The first W1 is replaced, with its party O and its name for P. The SPU behind the GRT is
        # of no registration. B comes before a, as bytes do, and each file has rows of its own.
        files = {
            "X": [work(b"W1"), publisher(b"P", b"OLD", b"2" * 11), publisher_share(b"P", 1),
                  publisher_share(b"O", 1), work(b"W2"), publisher(b"a", b"SMALL"),
                  publisher_share(b"a", 1), publisher_share(b"B", 0, b"E"), b"GRT" + b"0" * 5,
                  publisher(b"P", b"OUTSIDE", b"3" * 11),
                  work(b"W1", kind=b"REV"), b"ALT", publisher_share(b"P", 1)],
            "Y": [work(b"W1"), publisher(b"P", b"OF Y", b"2" * 11), publisher_share(b"P", 1)]}
        self.prints("parties", files, b"submitter,party,payee,name", b"X,B,X:B,", b"X,P,X:P,",
                    b"X,a,X:a,SMALL", b"Y,P,22222222222,OF Y")

    def test_a_line_may_end_within_what_is_read_of_it(self):
        # The name of the SPU ends with its line, and so does the first name of the SWR. An IPI name
        # number that is cut off is none.
        files = {"A": [
            work(b"W1"), publisher(b"P", b"MOON RIVER")[:34], publisher_share(b"P", 1),
            writer(b"Q", b"DOE", b"JANE")[:75], writer_share(b"Q", 1),
            writer(b"R", b"ROE", b"R", b"12345678901")[:125], writer_share(b"R", 1)]}
        self.prints("parties", files, b"submitter,party,payee,name", b"A,P,A:P,MOON",
                    b"A,Q,A:Q,JA DOE", b"A,R,A:R,R ROE")

    def test_a_fault_of_any_file_leaves_nothing_printed(self):
        good, bad = file_of(*world("W1", "P=1")), file_of(work(b""))
        values = written_files(self.folder, [("A", good), ("B", bad), ("C", bad)])
        path = os.path.join(self.folder, "1.cwr")
        for command in ("works", "parties"):
            words = words_of(PROGRAM, command, [("cwr", value) for value in values])
            message = f"cwr fault 6 at line 1 of {path}\n".encode()
            self.assertEqual(run(words), (1, b"", message))
            os.rename(path, path + ".gone")
            self.assertEqual(run(words), (4, b"", f"cannot read {path}\n".encode()))
            os.rename(path + ".gone", path)

    def test_an_output_that_refuses_a_table_is_told_of(self):
        values = written_files(self.folder, [("A", file_of(*world("W1", "P=1")))])
        for command in ("works", "parties"):
            with open("/dev/full", "wb") as full:
                done = subprocess.run([PROGRAM, command, "--cwr", *values], stdout=full,
                                      stderr=subprocess.PIPE, check=False)
            self.assertEqual((done.returncode, done.stderr[-14:]), (4, b" cannot write\n"))


class Example(unittest.TestCase):
    """The kept answers of the example of three submitters."""

    def test_the_kept_answers_are_those_printed(self):
        folder = os.path.join(ROOT, "examples", "three_submitters")
        files = [("cwr", f"{name.upper()}={os.path.join(folder, name)}.cwr")
                 for name in ("moon", "harbor", "north")]
        tables = [(option, os.path.join(folder, f"{name}.csv"))
                  for option, name in (("tis", "territories"), ("works", "works"),
                                       ("payees", "payees"), ("usage", "usage"))]
        plan = [("workers", 4), ("readers", 2), ("nodes", 64)]
        for command, options, kept in (("works", files, "works.printed.csv"),
                                       ("parties", files, "payees.printed.csv"),
                                       ("run", [*tables, *files, *plan], "statements.csv")):
            with self.subTest(command), open(os.path.join(folder, kept), "rb") as file:
                self.assertEqual(run(words_of(PROGRAM, command, options)), (0, file.read(), b""))


if __name__ == "__main__":
    unittest.main()
