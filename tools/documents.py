"""Reads the documents of a distribution back, and compares them with its statements.

    python3 -m tools.documents FOLDER [--decimals N] [--texts]

prints `N pages agree`, or a line for each document that differs, with status 1. FOLDER is what
`royalty_run statements` wrote with so many decimals:

- It has the files that `statements.csv` implies, and no others.
- Each page is well-formed, runs nothing, and leads to files of the folder alone.
- A payee's sheet has the payee's rows `L`, each once, and its page has the rows of the sheet, with
  figures as they are printed. The sums of works and of the tables come to the row `S`.
- The page of the residue has the rows `M`, each once, and comes to the row `T`.
- The overview has the row `R`, what all payees have and what is held back, and each payee.

With `--texts` it prints what the pages call things instead, a line for each: the distribution, the
currency, the payees, the works, the uses by their rows, and the territories.
"""
import argparse
import csv
import io
import os
import re
import sys
from collections import namedtuple
from html.parser import HTMLParser
from itertools import groupby
from xml.parsers import expat

RIGHTS = {"P": "Performing", "M": "Mechanical", "S": "Synchronisation"}
REASONS = ("WORK", "LAND", "OVER", "OPEN")
FULL_SHARE = 10_000

# All that a page may have. There is nothing that runs or that is fetched from elsewhere.
TAGS = set("""html head meta title style body nav main header footer section div p h1 h2 h3 dl dt dd
    table caption thead tbody tfoot tr th td a b i small span code svg rect""".split())
ATTRIBUTES = set("""lang charset http-equiv content name id class href scope colspan translate x
    width height viewbox preserveaspectratio aria-label aria-hidden aria-current""".split())
POLICY = "default-src 'none'; style-src 'unsafe-inline'"

FIGURE = re.compile("\u2212?[0-9\u202f]+([.][0-9]+)?")
PAYEE_FILES = re.compile(r"payees/(\d{4,5})-([A-Za-z0-9-]{1,40})\.(html|csv)")

Payee = namedtuple("Payee", "name portions total")
Row = namedtuple("Row", "row usage work title territory right amount share base portion")
Work = namedtuple("Work", "title number amount uses")
Use = namedtuple("Use", "row usage territory right figures is_reversal")
Figure = namedtuple("Figure", "label figure note")


class Differs(Exception):
    """What is wrong with a document."""


def same(what, wanted, found):
    """Two values have to be the same. Of lists and records the first parts that differ are told."""
    if hasattr(wanted, "_fields"):
        for name, one, other in zip(wanted._fields, wanted, found):
            same(f"{what}, {name}", one, other)
    elif isinstance(wanted, list):
        for number, (one, other) in enumerate(zip(wanted, found), 1):
            same(f"{what}, {number}", one, other)
        same(f"how many {what}", len(wanted), len(found))
    elif wanted != found:
        raise Differs(f"{what}: {found!r} is not {wanted!r}")


# --- Pages ---

class Element:
    """An element of a page: its tag, its attributes, and the elements and texts in it."""

    def __init__(self, tag, attributes):
        self.tag, self.attributes, self.inside = tag, attributes, []

    def elements(self):
        """The elements in it, those inside others too, in the order of the page."""
        for it in self.inside:
            if isinstance(it, Element):
                yield it
                yield from it.elements()

    def all(self, tag, kind=None):
        """Those of a tag, and of a class if one is given."""
        return [it for it in self.elements()
                if it.tag == tag and (kind is None or kind in it.kind().split())]

    def first(self, tag, kind=None):
        """The first of these, which has to be there."""
        for it in self.all(tag, kind):
            return it
        raise Differs(f"no {tag}{' of the class ' + kind if kind else ''} in {self.tag}")

    def kind(self):
        """Its classes."""
        return self.attributes.get("class", "")

    def own_text(self):
        """The text in it, without that of its elements."""
        return "".join(it for it in self.inside if isinstance(it, str))

    def text(self):
        """All text in it."""
        return "".join(it if isinstance(it, str) else it.text() for it in self.inside)


class Reader(HTMLParser):
    """Reads a page as a browser does."""

    def __init__(self):
        super().__init__()
        self.root = Element("page", {})
        self.open = [self.root]

    def handle_starttag(self, tag, attributes):
        element = Element(tag, dict(attributes))
        self.open[-1].inside.append(element)
        self.open.append(element)

    def handle_endtag(self, tag):
        same("end of an element", self.open.pop().tag, tag)

    def handle_data(self, data):
        self.open[-1].inside.append(data)


def page_of(text):
    """The page of a text, which is well-formed: tags nest, attributes are quoted, and characters
    that would open something else are escaped."""
    try:
        expat.ParserCreate().Parse(text.encode(), True)
    except expat.ExpatError as error:
        raise Differs(f"not well-formed: {error}") from error
    reader = Reader()
    reader.feed(text)
    reader.close()
    return reader.root


def check_elements(page):
    """A page has nothing but what pages have, and forbids that anything is run or fetched."""
    for it in page.elements():
        if it.tag not in TAGS:
            raise Differs(f"an element {it.tag}")
        for name in set(it.attributes) - ATTRIBUTES:
            raise Differs(f"an attribute {name} of {it.tag}")
    policies = [it.attributes["content"] for it in page.all("meta")
                if it.attributes.get("http-equiv") == "Content-Security-Policy"]
    same("policies", [POLICY], policies)


def links_of(page):
    """Where a page leads to."""
    return [it.attributes["href"] for it in page.elements() if "href" in it.attributes]


def check_link(folder, path, link):
    """A link leads to a file of the folder, and to an element in it if it names one."""
    name, _, place = link.partition("#")
    target = os.path.normpath(os.path.join(os.path.dirname(path), name)) if name else path
    if re.search(r"[:\\]|^/", link) or target.startswith("..") or not link:
        raise Differs(f"a link to {link!r}")
    whole = os.path.join(folder, target)
    if not os.path.isfile(whole):
        raise Differs(f"a link to {link!r}, which is not there")
    if place and f' id="{place}"' not in text_of(whole):
        raise Differs(f"a link to {link!r}, which has no such place")


def text_of(path):
    """The text of a file, which is UTF-8."""
    with open(path, "rb") as file:
        try:
            return file.read().decode()
        except UnicodeDecodeError as error:
            raise Differs(f"not UTF-8: {error}") from error


# --- Figures and tables ---

def printed(amount, decimals=0):
    """An amount of minor units, or a count, as pages have it: digits in groups of three."""
    size = str(abs(amount)).rjust(decimals + 1, "0")
    whole, part = size[:len(size) - decimals], size[len(size) - decimals:]
    groups = f"{int(whole):,}".replace(",", "\u202f")
    return ("\u2212" if amount < 0 else "") + groups + ("." + part if part else "")


def number_in(text, decimals=0):
    """The amount or count that a page has as this text."""
    size = int(re.sub(r"\D", "", text) or 0)
    number = -size if text.startswith("\u2212") else size
    same("figure", printed(number, decimals), text)
    return number


def guarded(text):
    """A text as sheets have it: none begins a formula."""
    return "'" + text if text[:1] in ("=", "+", "-", "@") and text else text


def cells_of(row):
    """The texts of a row's cells."""
    return [it.text() for it in row.inside if isinstance(it, Element)]


def rows_of(table, part="tbody"):
    """The texts of the cells of a table's rows."""
    return [cells_of(it) for it in table.first(part).all("tr")]


def table_of(page, caption):
    """The table of a caption."""
    for it in page.all("table"):
        if it.first("caption").text() == caption:
            return it
    raise Differs(f"no table {caption!r}")


def check_total(table, decimals, count, amount):
    """The rows of a table, whose last cells are a count and an amount, come to these, and so does
    its last row."""
    what = table.first("caption").text()
    rows = [row[-2:] for row in rows_of(table)]
    sums = [sum(number_in(it[0]) for it in rows), sum(number_in(it[1], decimals) for it in rows)]
    same(f"sums of {what!r}", [count, amount], sums)
    last = [printed(count), printed(amount, decimals)]
    same(f"last row of {what!r}", last, rows_of(table, "tfoot")[0][-2:])


def check_ink(page):
    """A row is red where its last figure is below 0 alone. Of tables of uses, these are the works'."""
    for table in page.all("table"):
        for row in table.all("tr", "work" if "uses" in table.kind().split() else None):
            figures = [it for it in cells_of(row) if FIGURE.fullmatch(it)]
            if figures:
                same(f"ink of the row {row.text()!r}", figures[-1].startswith("\u2212"),
                     "neg" in row.kind().split())


def figures_of(page):
    """The large figures of a page."""
    for it in page.all("p", "fig"):
        note = [inner for inner in it.inside if isinstance(inner, Element) and inner.tag == "i"]
        figure = it.first("b").own_text()
        same("ink of a figure", "fig neg" if figure.startswith("\u2212") else "fig", it.kind())
        yield Figure(it.first("span").text(), figure, note[0].text())


def facts_of(page):
    """The facts at the head of a page."""
    return {it.first("dt").text(): it.first("dd").text() for it in page.first("dl").all("div")}


def use_of(row):
    """A row of a table of uses. A territory is its code."""
    number, usage, land, right, *figures = [it for it in row.inside if isinstance(it, Element)]
    codes = [it.text() for it in land.all("span", "code")]
    marks = [it.text() for it in usage.all("span", "back")]
    is_reversal = marks == ["Reversal"]
    same("mark of a reversal", "neg" if is_reversal else "", row.kind())
    return Use(number.text(), usage.own_text(), (codes or [land.text()])[0], right.text(),
               [it.text() for it in figures], is_reversal)


def lands_of(table):
    """The territories of a table of uses, with their names."""
    return [row.all("td")[1].text() for body in table.all("tbody") for row in body.all("tr")[1:]]


def works_of(table):
    """The works of a table of uses."""
    for body in table.all("tbody"):
        head, *rows = body.all("tr")
        codes = [it.text() for it in head.all("span", "code")]
        name = head.first("b").text()
        title, number = (name, codes[0]) if codes else ("", name)
        yield Work(title, number, cells_of(head)[-1], [use_of(it) for it in rows])


# --- Statements and sheets ---

def csv_rows(text):
    """The rows of a CSV text, each a list of fields."""
    return list(csv.reader(io.StringIO(text, newline="")))


class Statements:
    """What a text of statements has: payees with their portions, what is held back, and lines."""

    def __init__(self, text):
        rows = csv_rows(text)
        self.payees, portions = [], []
        for kind, name, usage, amount in rows:
            if kind == "L":
                portions.append((usage, int(amount)))
            elif kind == "S":
                self.payees.append(Payee(name, portions, int(amount)))
                portions = []
        self.held = [(row[1], row[2], int(row[3])) for row in rows if row[0] == "M"]
        (self.residue,) = [(int(row[2]), int(row[3])) for row in rows if row[0] == "T"]
        (self.lines,) = [(int(row[2]), int(row[3])) for row in rows if row[0] == "R"]

    def held_for(self, reason):
        """The uses and amounts that are held back for a reason."""
        return [(usage, amount) for why, usage, amount in self.held if why == reason]

    def to_payees(self):
        """How many portions payees have, and what these come to."""
        return sum(len(it.portions) for it in self.payees), sum(it.total for it in self.payees)


def sheet_of(text):
    """The rows of a payee's sheet."""
    header, *rows = csv_rows(text)
    same("header", list(Row._fields), header)
    numbers = {Row._fields.index(it) for it in "row territory amount share base portion".split()}
    return [Row(*(int(field) if place in numbers else field for place, field in enumerate(row)))
            for row in rows]


def use_for(row, decimals):
    """A row of a sheet as a page has to have it."""
    share = printed(row.share, 2)
    base = "" if row.base == FULL_SHARE else f" / {printed(row.base, 2)}"
    figures = [printed(row.amount, decimals), share + base, printed(row.portion, decimals)]
    return Use(str(row.row), row.usage, str(row.territory), RIGHTS[row.right], figures,
               row.amount < 0)


def slug(name):
    """The letters and digits of a name, as names of files have them."""
    return re.sub("[^A-Za-z0-9]+", "-", name).lstrip("-")[:40].rstrip("-") or "payee"


# --- The documents of a folder ---

class Documents:
    """The documents of a folder, whose amounts have so many decimals."""

    def __init__(self, folder, decimals):
        self.folder, self.decimals = folder, decimals
        self.statements = Statements(text_of(os.path.join(folder, "statements.csv")))
        self.pages = {}

    def page(self, path):
        """A page, once all is looked at that every page has to keep to."""
        if path not in self.pages:
            page = page_of(text_of(os.path.join(self.folder, path)))
            check_elements(page)
            check_ink(page)
            for link in links_of(page):
                check_link(self.folder, path, link)
            self.pages[path] = page
        return self.pages[path]

    def names(self):
        """The names of the payees' files without their endings, in the order of the payees."""
        found = [os.path.relpath(os.path.join(top, name), self.folder)
                 for top, _, names in os.walk(self.folder) for name in names]
        parts = [PAYEE_FILES.fullmatch(it) for it in found if it.startswith("payees/")]
        if None in parts:
            raise Differs(f"names of files in payees: {sorted(found)}")
        numbers = sorted({(int(it[1]), f"{it[1]}-{it[2]}") for it in parts})
        names = [name for _, name in numbers]
        slugs = [slug(payee.name) for payee in self.statements.payees]
        same("names of payees' files", slugs, [name.split("-", 1)[1] for name in names])
        same("different names", len(names), len({name.lower() for name in names}))
        same("different numbers", len(names), len({number for number, _ in numbers}))
        wanted = ["index.html", "residue.html", "statements.csv"]
        wanted += [f"payees/{name}.{ending}" for name in names for ending in ("csv", "html")]
        same("files", sorted(wanted), sorted(found))
        return names

    def check_payee(self, name, payee):
        """A payee's page has the rows of its sheet, and these are the payee's portions."""
        page = self.page(f"payees/{name}.html")
        sheet = sheet_of(text_of(os.path.join(self.folder, f"payees/{name}.csv")))
        listed = sorted(sheet, key=lambda row: row.row)
        same("rows of the usage list", len(sheet), len({row.row for row in sheet}))
        same("portions in the sheet", [(guarded(usage), it) for usage, it in payee.portions],
             [(row.usage, row.portion) for row in listed])
        works = [(key, list(rows)) for key, rows in groupby(sheet, lambda it: (it.title, it.work))]
        wanted = [Work(*key, printed(sum(row.portion for row in rows), self.decimals),
                       [use_for(row, self.decimals) for row in rows]) for key, rows in works]
        table = page.first("table", "uses")
        same("works", wanted, [as_in_sheets(it) for it in works_of(table)])
        total, count = printed(payee.total, self.decimals), len(sheet)
        label = "Balance owed by you" if payee.total < 0 else "Total payable"
        note = f"portions: {printed(count)}, works: {printed(len(works))}"
        same("figures", [Figure(label, total, note)], list(figures_of(page)))
        same("total of uses", [["Total", total]], rows_of(table, "tfoot"))
        for caption in ("By right", "By territory"):
            check_total(table_of(page, caption), self.decimals, count, payee.total)
        same("links", [f"{name}.csv"], links_of(page))
        same("account", payee.name, facts_of(page)["Account"])
        self.check_wording(page, f"Royalty statement of {page.first('h1').text()}",
                           f"Royalty statement of {payee.name}")

    def check_residue(self):
        """The page of the residue has each row that is held back, by its reason."""
        page, held = self.page("residue.html"), self.statements.held_for
        count, total = self.statements.residue
        for reason in REASONS:
            parts = [it for it in page.all("section") if it.attributes.get("id") == reason]
            same(f"sections of {reason}", min(1, len(held(reason))), len(parts))
            for part in parts:
                self.check_held(reason, part.first("table"))
        figure = Figure("Held back", printed(total, self.decimals), f"lines: {printed(count)}")
        same("figures", [figure], list(figures_of(page)))
        self.check_reasons(page)
        self.check_wording(page, "Residue")

    def check_held(self, reason, table):
        """A table has the lines of a reason, and the sums of its works come to the whole."""
        held, works = self.statements.held_for(reason), list(works_of(table))
        uses = sorted((it for work in works for it in work.uses), key=lambda it: int(it.row))
        same(f"rows of {reason}", len(uses), len({it.row for it in uses}))
        same(f"lines of {reason}", [(usage, printed(it, self.decimals)) for usage, it in held],
             [(it.usage, it.figures[-1]) for it in uses])
        for work in works:
            amount = sum(number_in(it.figures[-1], self.decimals) for it in work.uses)
            same(f"amount of {work.number}", printed(amount, self.decimals), work.amount)
        total = printed(sum(amount for _, amount in held), self.decimals)
        same(f"total of {reason}", [["Held back", total]], rows_of(table, "tfoot"))

    def check_reasons(self, page):
        """The table by reason has what is held back, and how many works there are."""
        sections = {it.attributes.get("id"): it for it in self.page("residue.html").all("section")}
        wanted = []
        for reason in REASONS:
            held = self.statements.held_for(reason)
            works = list(works_of(sections[reason])) if reason in sections else []
            wanted.append([reason, printed(len(held)), printed(len(works)),
                           printed(sum(amount for _, amount in held), self.decimals)])
        table = table_of(page, "The residue by reason")
        same("reasons", wanted, [[row[0].split(" ")[-1], *row[1:]] for row in rows_of(table)])
        count, total = self.statements.residue
        last = ["Residue", printed(count), "", printed(total, self.decimals)]
        same("last row of the reasons", [last], rows_of(table, "tfoot"))

    def check_overview(self, names):
        """The overview has what came in, what became of it, and all payees."""
        page, payees = self.page("index.html"), self.statements.payees
        lines, held, (count, paid) = (self.statements.lines, self.statements.residue,
                                      self.statements.to_payees())
        shown = [("Usage money", lines[1], f"lines: {printed(lines[0])}"),
                 ("To payees", paid, f"payees: {printed(len(payees))}"),
                 ("Residue", held[1], f"lines: {printed(held[0])}")]
        same("figures", [Figure(label, printed(amount, self.decimals), note)
                         for label, amount, note in shown], list(figures_of(page)))
        check_total(table_of(page, "What came in"), self.decimals, *lines)
        check_total(table_of(page, "What became of it"), self.decimals, count + held[0],
                    paid + held[1])
        check_total(table_of(page, "Payees with the highest totals"), self.decimals, count, paid)
        self.check_reasons(page)
        self.check_payees(page.first("table", "payees"), names)
        self.check_wording(page, "Overview")

    def check_payees(self, table, names):
        """The table of all payees has a row for each, which leads to its files."""
        rows = table.first("tbody").all("tr")
        payees = self.statements.payees
        wanted = [[str(int(name.split("-")[0])), payee.name, printed(len(payee.portions)),
                   printed(payee.total, self.decimals), f"payees/{name}.html",
                   f"payees/{name}.csv"] for name, payee in zip(names, payees)]
        cells = [cells_of(it) for it in rows]
        same("payees", wanted, [[it[0], it[1], it[3], it[4], *links_of(row)]
                                for it, row in zip(cells, rows)])
        heads = [self.page(f"payees/{name}.html").first("h1").text() for name in names]
        same("names of payees", heads, [it[2] or it[1] for it in cells])
        count, total = self.statements.to_payees()
        last = ["", f"Payees: {printed(len(payees))}", "", printed(count),
                printed(total, self.decimals), ""]
        same("last row of the payees", [last], rows_of(table, "tfoot"))

    def check_wording(self, page, what, foot=None):
        """A page says in its title and at its foot what it is, and names the distribution and the
        currency as the overview does."""
        overview = self.page("index.html")
        distribution = overview.first("h1").text()
        same("title", f"{what}: {distribution}", page.first("title").text())
        same("foot", f"{distribution}. {foot or what}.", page.first("footer").text())
        if page is overview:
            return
        same("distribution", distribution, facts_of(page).get("Distribution", ""))
        currency = [it.text() for it in page.first("p", "fig").first("b").all("i")]
        named = facts_of(overview).get("Amounts in")
        same("currency", [] if named is None else [named], currency)

    def differences(self):
        """A line for each document that differs. Pages are compared once all can be read."""
        try:
            names = self.names()
        except Differs as error:
            return [str(error)]
        paths = ["index.html", "residue.html", *(f"payees/{name}.html" for name in names)]
        payees = [lambda it=it: self.check_payee(*it) for it in zip(names, self.statements.payees)]
        compared = [lambda: self.check_overview(names), self.check_residue, *payees]
        return (told_of(paths, [lambda it=it: self.page(it) for it in paths])
                or told_of(paths, compared))

    def texts(self):
        """What the pages call things, a line for each."""
        pages = [self.page(f"payees/{it}.html") for it in self.names()]
        yield "title " + self.page("index.html").first("h1").text()
        yield from (f"currency {it}" for key, it in facts_of(self.page("index.html")).items()
                    if key == "Amounts in")
        for page in pages:
            yield f"payee {facts_of(page)['Account']} {page.first('h1').text()}"
        tables = [table for page in [*pages, self.page("residue.html")]
                  for table in page.all("table", "uses")]
        works = [work for table in tables for work in works_of(table)]
        yield from sorted({f"work {it.number} {it.title}" for it in works})
        uses = {(int(it.row), it.usage) for work in works for it in work.uses}
        yield from (f"use {row} {usage}" for row, usage in sorted(uses))
        lands = {land for table in tables for land in lands_of(table)}
        yield from sorted(f"territory {it}" for it in lands)


def told_of(paths, checks):
    """A line for each path whose check finds something."""
    told = []
    for path, check in zip(paths, checks):
        try:
            check()
        except Differs as error:
            told.append(f"{path}: {error}")
        except (ValueError, IndexError, KeyError) as error:
            told.append(f"{path}: {error!r}")
    return told


def as_in_sheets(work):
    """A work of a page, with its texts as sheets have them."""
    uses = [it._replace(usage=guarded(it.usage)) for it in work.uses]
    return work._replace(title=guarded(work.title), number=guarded(work.number), uses=uses)


def main():
    parser = argparse.ArgumentParser(prog="tools.documents", description=__doc__.splitlines()[0])
    parser.add_argument("folder", metavar="FOLDER")
    parser.add_argument("--decimals", type=int, default=2, help="how many decimals amounts have")
    parser.add_argument("--texts", action="store_true", help="print what pages call things")
    words = parser.parse_args()
    sys.stdout.reconfigure(encoding="utf-8")
    try:
        documents = Documents(words.folder, words.decimals)
        if words.texts:
            print("\n".join(documents.texts()))
            return
        told = documents.differences()
    except (Differs, OSError) as error:
        told = [str(error)]
    print("\n".join(told) if told else f"{len(documents.pages)} pages agree")
    sys.exit(1 if told else 0)


if __name__ == "__main__":
    main()
