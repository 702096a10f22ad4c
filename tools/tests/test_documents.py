"""Tests of the reader of documents: a small folder agrees, and each damage to it is found."""
import os
import subprocess
import sys
import tempfile
import unittest

from tools import documents
from tools.crates import ROOT

STATEMENTS = """L,A,=u1,-150
L,A,u2,1234567
S,A,2,1234417
L,"B,b",u2,-5
S,"B,b",1,-5
M,WORK,u3,70
T,,1,70
R,,3,1234482
"""

HEAD = """<!DOCTYPE html>
<html lang="en">
<head>
<meta charset="utf-8"/>
<meta http-equiv="Content-Security-Policy"
 content="default-src 'none'; style-src 'unsafe-inline'"/>
<title>%s: Mai &amp; June</title>
<style>td > b{color:red}</style>
</head>
<body>
<main>
"""
FOOT = "</main>\n<footer>Mai &amp; June. %s.</footer>\n</body>\n</html>\n"

TITLE = """<h1>%s</h1>
<dl class="facts"><div><dt>Account</dt><dd>%s</dd></div><div><dt>Distribution</dt>
<dd>Mai &amp; June</dd></div></dl>
"""

SHEET = "row,usage,work,title,territory,right,amount,share,base,portion\n"

# The rows of a work on the page of the payee A, one of which is another payee's, too.
FIRST = ('<tr class="neg"><td>1</td><th scope="row">=u1<span class="back">Reversal</span></th>'
         '<td>276</td><td>Performing</td><td>\u22123.00</td><td>50.00</td>'
         '<td>\u22121.50</td></tr>\n')
SECOND = ('<tr><td>2</td><th scope="row">u2</th><td>France <span class="code">250</span></td>'
          '<td>Mechanical</td><td>12\u202f345.62</td><td>33.34 / 100.02</td>'
          '<td>12\u202f345.67</td></tr>\n')


def ink(amount):
    """The class of what has an amount below 0, behind another."""
    return " neg" if "\u2212" in amount else ""


def figure(label, amount, note, currency=""):
    """A large figure."""
    return (f'<p class="fig{ink(amount)}"><span>{label}</span><b>{amount}{currency}</b> '
            f"<i>{note}</i></p>\n")


def table(caption, rows, total, kind=""):
    """A table, of rows of cells."""
    def line(row):
        tag = '<tr class="neg">' if ink("".join(row)) else "<tr>"
        return tag + "".join(f"<td>{it}</td>" for it in row) + "</tr>"

    body = "".join(line(it) + "\n" for it in rows)
    return (f'<table class="{kind}"><caption>{caption}</caption><tbody>\n{body}</tbody>'
            f'<tfoot>{line(total)}</tfoot></table>\n')


def uses(works, total):
    """A table of uses, of works with their rows."""
    return (f'<table class="uses"><caption>Works</caption>{works}<tfoot>'
            f'<tr class="work{ink(total[1])}"><th>{total[0]}</th><td>{total[1]}</td></tr></tfoot></table>\n')


def work(name, amount, rows):
    """A work and its rows."""
    return (f'<tbody class="short"><tr class="work{ink(amount)}"><th scope="rowgroup">{name}</th>'
            f'<td>{amount}</td></tr>\n{rows}</tbody>\n')


def payee_page(name, account, heads, works, total):
    """The page of a payee, whose portions are of one right and of one territory."""
    label, amount, note, count = heads
    sums = "".join(table(it, [["", "", count, amount]], ["", count, amount])
                   for it in ("By right", "By territory"))
    link = f'<p><a href="{total}.csv">rows</a></p>'
    return (HEAD % f"Royalty statement of {name}" + TITLE % (name, account)
            + figure(label, amount, note, "<i>EUR</i>") + sums + link
            + uses(works, ("Total", amount)) + FOOT % f"Royalty statement of {account}")


def first_payee():
    """The page of A, which has no other name."""
    total = "12\u202f344.17"
    return payee_page("A", "A", ("Total payable", total, "portions: 2, works: 1", "2"),
                      work('<b>&lt;TOM&gt;</b> <span class="code">W1</span>', total,
                           FIRST + SECOND), "0001-A")


def second_payee():
    """The page of B,b, which owes."""
    row = SECOND.replace("12\u202f345.67", "\u22120.05")
    return payee_page("Bé", "B,b", ("Balance owed by you", "\u22120.05", "portions: 1, works: 1",
                                    "1"), work("<b>W1</b>", "\u22120.05", row), "0003-B-b")


def reasons():
    """The table of what is held back."""
    rows = [["Unregistered WORK", "1", "1", "0.70"], ["Unknown LAND", "0", "0", "0.00"],
            ["Over OVER", "0", "0", "0.00"], ["Open OPEN", "0", "0", "0.00"]]
    return table("The residue by reason", rows, ["Residue", "1", "", "0.70"])


def residue():
    """The page of the residue."""
    row = ('<tr><td>3</td><th scope="row">u3</th><td>999</td><td>Performing</td><td>0.70</td></tr>')
    return (HEAD % "Residue" + TITLE % ("Unallocated", "") + figure("Held back", "0.70", "lines: 1",
                                                                    "<i>EUR</i>")
            + '<p><a href="index.html">Overview</a></p>' + reasons() + '<section id="WORK">'
            + uses(work("<b>W9</b>", "0.70", row), ("Held back", "0.70")) + "</section>"
            + FOOT % "Residue")


def overview():
    """The overview."""
    in_all, paid = "12\u202f344.82", "12\u202f344.12"
    files = ['<a href="payees/%s.html">%s</a>', '<a href="payees/%s.csv">CSV</a>']
    rows = [["1", files[0] % ("0001-A", "A"), "", "2", "12\u202f344.17", files[1] % "0001-A"],
            ["3", files[0] % ("0003-B-b", "B,b"), "Bé", "1", "\u22120.05", files[1] % "0003-B-b"]]
    return (HEAD % "Overview" + '<h1>Mai &amp; June</h1>\n<dl class="facts"><div>'
            "<dt>Amounts in</dt><dd>EUR</dd></div></dl>\n"
            + figure("Usage money", in_all, "lines: 3")
            + figure("To payees", paid, "payees: 2") + figure("Residue", "0.70", "lines: 1")
            + table("What came in", [["Performing", "3", in_all]], ["Usage money", "3", in_all])
            + table("What became of it", [["Payable", "2", "12\u202f344.17"],
                                          ["Owed", "1", "\u22120.05"], ["Residue", "1", "0.70"]],
                    ["All", "4", in_all])
            + '<p><a href="residue.html#WORK">Residue</a></p>' + reasons()
            + table("Payees with the highest totals", [["2 others", "", "3", paid]],
                    ["All", "3", paid])
            + table("All", rows, ["", "Payees: 2", "", "3", paid, ""], "payees")
            + FOOT % "Overview")


def good_folder():
    """The files of a folder that agrees, by their names."""
    first = "1,'=u1,W1,<TOM>,276,P,-300,5000,10000,-150\n"
    second = "2,u2,W1,<TOM>,250,M,1234562,3334,10002,1234567\n"
    return {"statements.csv": STATEMENTS, "index.html": overview(), "residue.html": residue(),
            "payees/0001-A.html": first_payee(), "payees/0001-A.csv": SHEET + first + second,
            "payees/0003-B-b.html": second_payee(),
            "payees/0003-B-b.csv": SHEET + "2,u2,W1,,250,M,1234562,3334,10002,-5\n"}


class Folders(unittest.TestCase):
    """What is found out about a folder."""

    def setUp(self):
        self.files = good_folder()
        self.folder = tempfile.TemporaryDirectory()
        self.addCleanup(self.folder.cleanup)

    def written(self):
        """The folder, with the files as they are."""
        for name, text in self.files.items():
            path = os.path.join(self.folder.name, name)
            os.makedirs(os.path.dirname(path), exist_ok=True)
            with open(path, "wb") as file:
                file.write(text if isinstance(text, bytes) else text.encode())
        return self.folder.name

    def differences(self, decimals=2):
        """What differs in the folder."""
        return documents.Documents(self.written(), decimals).differences()

    def change(self, name, old, new):
        """Puts another text for one that a file has once."""
        self.assertEqual(self.files[name].count(old), 1, (name, old))
        self.files[name] = self.files[name].replace(old, new)

    def check_found(self, *parts):
        """One document differs, and the line that says so has these parts."""
        told = self.differences()
        self.assertEqual(len(told), 1, told)
        for part in parts:
            self.assertIn(part, told[0])

    def test_a_good_folder_agrees(self):
        self.assertEqual(self.differences(), [])

    def test_the_command_says_how_many_pages_agree_or_what_differs(self):
        words = [sys.executable, "-m", "tools.documents", self.written()]
        run = lambda *more: subprocess.run([*words, *more], cwd=ROOT, capture_output=True)
        self.assertEqual(run().stdout, b"4 pages agree\n")
        done = run("--decimals", "3")
        self.assertEqual(done.returncode, 1)
        self.assertIn(b"payees/0001-A.html: works, 1, amount: ", done.stdout)

    def test_texts_are_those_of_the_pages(self):
        texts = documents.Documents(self.written(), 2).texts()
        self.assertEqual(list(texts), [
            "title Mai & June", "currency EUR", "payee A A", "payee B,b Bé", "work W1 ",
            "work W1 <TOM>", "work W9 ", "use 1 =u1", "use 2 u2", "use 3 u3", "territory 276",
            "territory 999", "territory France 250"])

    def test_a_lost_row_of_a_page_is_found(self):
        self.change("payees/0001-A.html", FIRST, "")
        self.check_found("payees/0001-A.html: works, 1, uses, 1, row: '2' is not '1'")

    def test_a_lost_row_of_a_sheet_is_found(self):
        self.change("payees/0001-A.csv", "1,'=u1,W1,<TOM>,276,P,-300,5000,10000,-150\n", "")
        self.check_found("payees/0001-A.html: portions in the sheet", "=u1")

    def test_a_row_that_stands_twice_is_found(self):
        self.change("payees/0001-A.html", SECOND, SECOND + SECOND)
        self.check_found("payees/0001-A.html: how many works, 1, uses: 3 is not 2")

    def test_a_row_of_another_payee_is_found(self):
        self.change("payees/0003-B-b.html", ">u2<", ">u1<")
        self.check_found("payees/0003-B-b.html: works, 1, uses, 1, usage: 'u1' is not 'u2'")

    def test_rows_of_another_payee_in_both_files_are_found(self):
        for ending in ("html", "csv"):
            name = f"payees/0003-B-b.{ending}"
            self.files[name] = self.files[f"payees/0001-A.{ending}"]
        self.change("index.html", "<td>Bé</td>", "<td>A</td>")
        self.check_found("payees/0003-B-b.html: portions in the sheet, 1", "=u1")

    def test_changed_sums_are_found(self):
        for before in ('<span class="code">W1</span></th><td>', "<th>Total</th><td>",
                       "<span>Total payable</span><b>", "<tfoot><tr><td></td><td>2</td><td>"):
            with self.subTest(before=before):
                self.files = good_folder()
                text = self.files["payees/0001-A.html"]
                at = text.index(before + "12\u202f344.17") + len(before)
                self.files["payees/0001-A.html"] = text[:at] + text[at:].replace("17", "18", 1)
                self.check_found("payees/0001-A.html: ", "12\\u202f344.18")

    def test_a_figure_that_is_written_otherwise_is_found(self):
        for old, new in (("\u22121.50", "-1.50"), ("12\u202f345.67", "12345.67"),
                         ("12\u202f345.67", "12\u202f345.7"), ("33.34 / 100.02", "33.34")):
            with self.subTest(new=new):
                self.files = good_folder()
                self.change("payees/0001-A.html", old, new)
                self.check_found("payees/0001-A.html: works, 1")

    def test_a_reversal_without_its_mark_is_found(self):
        self.change("payees/0001-A.html", '<span class="back">Reversal</span>', "")
        self.check_found("mark of a reversal")

    def test_the_ink_of_rows_is_compared(self):
        for name, old, new in (("payees/0001-A.html", '<tr class="work">', '<tr class="work neg">'),
                               ("payees/0003-B-b.html", '<tr class="neg">', "<tr>"),
                               ("index.html", '<tr class="neg"><td>Owed', "<tr><td>Owed")):
            with self.subTest(name=name):
                self.files = good_folder()
                self.files[name] = self.files[name].replace(old, new)
                self.check_found(f"{name}: ink of the row")

    def test_texts_that_are_not_escaped_are_found(self):
        for new in ("<TOM>", "&lt;TOM>&", "<b>TOM</b>", "<TOM/>", "<TOM"):
            with self.subTest(new=new):
                self.files = good_folder()
                self.change("payees/0001-A.html", "&lt;TOM&gt;", new)
                self.check_found("payees/0001-A.html: ")

    def test_what_a_page_must_not_have_is_found(self):
        for new in ("<script>1</script>", '<p onclick="x"></p>', '<a href="https://a.b/">x</a>',
                    '<a href="//a.b">x</a>', '<a href="../../x.html">x</a>', "<p><b></p></b>",
                    '<a href="0002-A.csv">x</a>', "<p class=fig></p>", "\x1b", "<img/>",
                    '<a href="#WORK">x</a>', '<a href="/etc/passwd">x</a>'):
            with self.subTest(new=new):
                self.files = good_folder()
                self.change("payees/0001-A.html", "<main>", "<main>" + new)
                self.check_found("payees/0001-A.html: ")
        self.files["payees/0001-A.html"] = good_folder()["payees/0001-A.html"].encode("utf-16")
        self.check_found("payees/0001-A.html: not UTF-8")
        for old in ("default-src 'none'; ", "Content-Security-Policy"):
            self.files = good_folder()
            self.change("payees/0001-A.html", old, "x")
            self.check_found("payees/0001-A.html: ", "policies")

    def test_a_page_too_many_or_too_few_is_found(self):
        self.files["payees/0004-C.html"] = self.files["payees/0001-A.html"]
        self.check_found("how many names of payees' files: 3 is not 2")
        os.remove(os.path.join(self.folder.name, "payees/0004-C.html"))
        self.files = good_folder()
        self.assertEqual(self.differences(), [])
        os.remove(os.path.join(self.folder.name, "payees/0003-B-b.csv"))
        self.files.pop("payees/0003-B-b.csv")
        self.check_found("files, ", "payees/0003-B-b.csv")

    def test_other_names_of_files_are_found(self):
        for name in ("payees/0003-C.html", "payees/3-B-b.html", "payees/0003-B b.html", "a.css"):
            with self.subTest(name=name):
                self.setUp()
                self.files[name] = self.files.pop("payees/0003-B-b.html")
                self.check_found("files")

    def test_what_is_held_back_is_compared(self):
        for old, new in (('"row">u3', '"row">u4'), ("<td>0.70</td></tr></tbody>", ""),
                         ("<b>W9</b></th><td>0.70", "<b>W9</b></th><td>0.71"),
                         ("Held back</th><td>0.70", "Held back</th><td>0.07"),
                         ("Held back</span><b>0.70", "Held back</span><b>7.00"),
                         ("WORK</td><td>1", "WORK</td><td>2"),
                         ("Residue</td><td>1</td><td></td><td>0.70",
                          "Residue</td><td>1</td><td></td><td>0.71")):
            with self.subTest(new=new):
                self.files = good_folder()
                self.change("residue.html", old, new)
                self.check_found("residue.html: ")

    def test_lines_under_another_reason_are_found(self):
        self.change("residue.html", 'id="WORK"', 'id="OPEN"><h2 id="WORK"></h2')
        self.assertIn("residue.html: sections of WORK: 0 is not 1", self.differences())

    def test_the_overview_is_compared(self):
        total = "<td>12\u202f344.82</td></tr></tfoot>"
        for old, new in (("Usage money</span><b>12", "Usage money</span><b>13"),
                         ("To payees</span><b>12", "To payees</span><b>13"),
                         ("lines: 3", "lines: 4"), ("payees: 2<", "payees: 3<"),
                         ("<td>Bé</td>", "<td>Be</td>"), ("<td>3</td><td><a", "<td>2</td><td><a"),
                         ("payees/0003-B-b.csv", "payees/0001-A.csv"),
                         ("Payees: 2", "Payees: 1"), (">B,b<", ">B<"),
                         ("<td>Owed</td><td>1</td>", "<td>Owed</td><td>2</td>"),
                         ("<td>Usage money</td><td>3</td>" + total,
                          "<td>Usage money</td><td>2</td>" + total)):
            with self.subTest(new=new):
                self.files = good_folder()
                self.change("index.html", old, new)
                self.check_found("index.html: ")

    def test_another_title_or_currency_is_found(self):
        for old in ("<dd>Mai", "<i>EUR", "of Bé: Mai", "r>Mai"):
            with self.subTest(old=old):
                self.files = good_folder()
                self.change("payees/0003-B-b.html", old, old[:-1])
                self.check_found("payees/0003-B-b.html: ")


class Parts(unittest.TestCase):
    def test_figures_are_printed_by_hand_alike(self):
        for amount, decimals, text in ((0, 2, "0.00"), (-7, 2, "\u22120.07"),
                                       (1234567, 0, "1\u202f234\u202f567"),
                                       (1234567, 9, "0.001234567"),
                                       (-100000, 2, "\u22121\u202f000.00")):
            self.assertEqual(documents.printed(amount, decimals), text)
            self.assertEqual(documents.number_in(text, decimals), amount)
        for text in ("-1.00", "1000.00", "1.0", "", "01.00", "1.00 "):
            with self.assertRaises(documents.Differs):
                documents.number_in(text, 2)

    def test_names_of_files_are_letters_digits_and_dashes(self):
        for name, text in (("TOM & CO.", "TOM-CO"), ("***", "payee"), ("-a-", "a"),
                           ("x" * 39 + "!y", "x" * 39)):
            self.assertEqual(documents.slug(name), text)


if __name__ == "__main__":
    unittest.main()
