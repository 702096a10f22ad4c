"""Looks up each name that the documents cite in backquotes, and fails on one that isn't there.

    python3 -m tools.names [ROOT]

prints a line for each name that the sources don't have: the document, the line and the name.

How a text in backquotes is looked up is told by its form, in the order of `RULES`:

- a command is looked up by its first word: the target of `make`, the crates that `rt` names, the
  module that `python3 -m` runs, the command of `royalty_run`;
- a path, or the name of a file with one of the endings below, has to be there: from the top of the
  repository, from the document's folder or from the crate; a file name alone in any folder;
- `a::b` has to be declared by a crate, `b` in the type, module or crate `a`;
- an option has to be known to the program or to a script;
- a word has to be declared by a crate, or to stand in `WORDS`, with the reason why it isn't;
- a text that a program says has to be in the sources, apart from its numbers and single capitals;
- what is left are values and rows of tables, and notation, which have forms of their own.

In the tables of docs/PROOFS.md each column is read by its own rule: the modules and definitions of
`specs/`, the functions with their clauses, and the wrong bodies, *in italics* if they stand in
`more-edits/`. All of these have to be those of the crates in the heading, or of the crate named.
"""
import fnmatch
import glob
import os
import re
import sys

from tools.crates import ROOT, below, crates
from tools.declared import Crate, files_below

DOCUMENTS = ("README.md", "CONTRIBUTING.md", "docs/*.md", "crates/*/README.md",
             "crates/*/CALLING.md", "bench/README.md")

ENDINGS = ("rt antt edit md sh py rs txt csv cwr sbatch made failed statements").split()

# Words that no source declares or takes from the kit, and why they stand in backquotes.
WORDS = {
    "commands, and packages of the system":
        "bash cc cargo make python3 rt sbatch scancel slurmctld slurmd munged slurm-wlm fsync sha256sum",
    "words of Rattle, and of its kit's commands":
        "Self self main None Some Ok Err impl ensures requires search unused overflow_add-list",
    "words of Slurm": "afterok",
    "the folder of a month in the examples, and the path of some program": "march PATH",
    "notation that docs/HEADLINE.md explains":
        "NAME_.._= abbrev_pub_NAME_:_TYPE pub_record_R_.._where .0 .1 x.new x.now x.old "
        "Appends_a_b_t xs_++_ys List_A IfOk_r_P OnOk_r_P ensures_name_{_.._} requires_name_{_.._}",
}

# Files that aren't kept, and what makes them.
MADE = {
    "what `make build` leaves": ["out/*", "../../out/*"],
    "a month's folder, which cluster/month makes and cluster/test.sh looks through":
        ["march/*", "parts/part-*", "month.made", "month.statements", "inputs/*", "logs/",
         "merging/", "manifest", ".made"],
    "files of whoever calls": ["/dev/null", "usage.csv", "payees.csv", "territories.csv",
                               "works.cwr", "F.new"],
    "a folder of documents": ["FOLDER.new", "payees/0001-NAME.*"],
}

# Files in which what a program says isn't looked up: documents, proofs, and these rules.
UNREAD = r"\.md$|/proofs/|^tools/(?:names\.py|tests/)"

# What stands in a text for something else.
PLACEHOLDERS = (r"\b(?:[A-Z]|COL|FOLDER|MESSAGE|PATH|VAR)\b"
                r"|\.\.|\b\d[\d.]*\b|: |[\w/.-]+\.(?:%s)\b|[^ -~]")


class Sources:
    """What a repository has: its files, its crates and what they declare, and all of its text."""

    def __init__(self, root):
        self.root = root
        self.files = set(files_below(root))
        self.folders = {os.path.dirname(path) for path in self.files}
        for folder in list(self.folders):
            while folder := os.path.dirname(folder):
                self.folders.add(folder)
        self.file_names = {os.path.basename(path) for path in self.files}
        self.crates = {name: Crate(root, name) for name in crates(root)}
        self.targets = set(re.findall(r"^([a-z_]+):", self.text_of("Makefile"), re.M))
        self.kit = {it for uses in crates(root).values() for it in uses} - set(self.crates)
        self.kit |= {name for crate in self.crates.values()
                     for other, names in crate.imports.items()
                     if other not in (*self.crates, "crate", "super", "self") for name in names}
        self.kit |= set().union(*(it.traits | it.calls for it in self.crates.values()))
        self.text = "\n".join(self.text_of(path) for path in sorted(self.files)
                              if not re.search(UNREAD, path))
        self.literals = set(re.findall(r'"([^"\n]*)"', self.text))
        # Options, and the commands of cluster/month.
        self.options = set(re.findall(r"--([a-z][\w-]*)", self.text))
        self.commands = set(re.findall(r"^ +([a-z|]+)\) ", self.text, re.M))

    def text_of(self, path):
        """The text of a file."""
        with open(os.path.join(self.root, path), encoding="utf-8", errors="replace") as file:
            return file.read()

    def has_path(self, path, near):
        """Whether a file or a folder is there, from the top, from `near` folders, or by name."""
        path = path.rstrip("/")
        for folder in ("", "crates/", *near):
            whole = os.path.normpath(os.path.join(folder, path))
            pattern = re.sub("NAME|CRATE", "*", whole)
            if whole in self.files or whole in self.folders:
                return True
            if "*" in pattern and fnmatch.filter(self.files | self.folders, pattern):
                return True
        return "/" not in path and path in self.file_names


class Document:
    """A document, with the texts in backquotes of its lines, and the crate that it is of."""

    def __init__(self, sources, path):
        self.sources, self.path = sources, path
        self.folder = os.path.dirname(path)
        parts = path.split("/")
        self.crate = parts[1] if parts[0] == "crates" else None
        listed = crates(sources.root)
        near = below(self.crate, listed) if self.crate else set(sources.crates)
        self.crates = [sources.crates[it] for it in sorted(near)]
        # Where a path may begin, beside the top: in any crate, unless the document is of one.
        self.near = [self.folder] if self.crate else [self.folder, "bench/plain/src", "crates/*"]
        text = sources.text_of(path)
        self.lines = without_code(text).split("\n")
        # Clauses, functions and modules of an example that stands in the document itself.
        self.example = set(re.findall(r"(?:fn|ensures|requires) (\w+)", "\n".join(code_of(text))))

    def texts(self):
        """The texts in backquotes, with the numbers of their lines."""
        text = "\n".join(self.lines)
        for match in re.finditer(r"`([^`]+)`", text):
            yield text.count("\n", 0, match.start()) + 1, " ".join(match[1].split("\n"))

    def wrong(self):
        """Each name that isn't there: the number of its line, and what is wrong."""
        if os.path.basename(self.path) == "PROOFS.md":
            yield from self.wrong_in_tables()
        for number, text in self.texts():
            reason = reason_against(self, text)
            if reason:
                yield number, f"`{text}`: {reason}"

    def wrong_in_tables(self):
        """What is wrong in the tables of promises, by their columns."""
        named = []
        for number, line in enumerate(self.lines, 1):
            if line.startswith("## "):
                named = [it for it in quoted(line) if it in self.sources.crates]
            cells = [cell.strip() for cell in line.split("|")[1:-1]]
            if len(cells) == 4 and named and "Definition (`specs/`)" not in line:
                found = [self.sources.crates[it] for it in named]
                for check, cell in zip((wrong_definitions, wrong_functions, wrong_edits),
                                       cells[1:]):
                    yield from ((number, it) for it in check(self.sources, found, cell))


def without_code(text):
    """A document without its blocks of code, whose lines are left empty."""
    return re.sub(r"^```.*?^```$", lambda block: "\n" * block[0].count("\n"), text,
                  flags=re.M | re.S)


def code_of(text):
    """The blocks of code of a document."""
    return re.findall(r"^```.*?^```$", text, flags=re.M | re.S)


def quoted(text):
    """The texts in backquotes."""
    return re.findall(r"`([^`]+)`", text)


# --- The tables of promises ---


def crates_named(sources, found, text):
    """The crates that a text names behind `of` or `in`, or else those of the heading."""
    named = []
    for listed in re.findall(r"\b(?:of|in) ((?:(?:, | and )?`\w+`)+)", text):
        named += [it for it in quoted(listed) if it in sources.crates]
    return [sources.crates[it] for it in named] or found


def wrong_definitions(sources, found, cell):
    """What is wrong in a column of definitions: `Module` of `crate`: `definition`, ..; .."""
    for piece in cell.split(";"):
        before, colon, behind = piece.partition(":")
        if "of `std`" in before:
            yield from (f"`{it}`: nothing takes it from the kit"
                        for it in quoted(before + behind) if it not in sources.kit)
            continue
        here = crates_named(sources, found, before if colon else piece)
        modules = [it for it in quoted(before) if it not in sources.crates] if colon else []
        for module in modules:
            if not any(module in it.definitions for it in here):
                yield f"`{module}`: no module of specs/ in {shown(here)}"
        for name in quoted(behind if colon else piece):
            if name in sources.crates:
                continue
            if modules:
                places = [it.definitions.get(module, ()) for it in here for module in modules]
            else:
                places = [{*it.defined(), *it.definitions} for it in here]
            if not any(name in it for it in places):
                inside = f" in {', '.join(modules)}" if modules else ""
                yield f"`{name}`: no definition of {shown(here)}{inside}"


def wrong_functions(sources, found, cell):
    """What is wrong in a column of functions with their clauses.

    A piece, up to a semicolon, has functions and then clauses of these: `function`, `clause`. It
    may begin with types and a colon, `Type`: `method`, or name a definition that says what the
    clause does, or a field of it: `function`, by `field` of `Definition`. A piece with clauses
    alone goes on with the functions of the one before.
    """
    functions = []
    for piece in cell.split(";"):
        here = crates_named(sources, found, piece)
        before, colon, behind = piece.partition("`: `")
        types = [it for it in quoted(before + "`") if it not in sources.crates] if colon else []
        for name in types:
            if not any(name in it.names for it in here):
                yield f"`{name}`: no type of {shown(here)}"
        begun = False
        for name in quoted("`" + behind if colon else piece):
            if name in sources.crates:
                continue
            if is_clause(here, functions, name):
                continue
            known = [it for it in functions_of(here) if it == name or it.endswith("::" + name)]
            if types:
                known = [name] if all(f"{it}::{name}" in known for it in types) else []
            if name.startswith("impl "):
                block = name.split()[-1]
                known = [it for it in functions_of(here) if it.split("::")[0] == block]
            if known:
                functions = functions * begun + [*known]
                begun = True
            elif not is_other(sources, here, name, piece):
                of = f", no clause of {', '.join(sorted(set(functions)))}" if functions else ""
                yield f"`{name}`: no function of {shown(here)}{of}"


def functions_of(here):
    """The names of all functions, and of the types that have clauses for all of theirs."""
    return {name for it in here for name in it.functions}


def is_clause(here, functions, name):
    """Whether one of the functions has a clause of this name."""
    return any(name in it.functions.get(function, ()) for it in here for function in functions)


def is_other(sources, here, name, piece):
    """Whether a name that is neither function nor clause may stand in a column of functions.

    These are definitions and their fields, types, implementations, and files of the crate.
    """
    if name[0].isupper():
        is_kit = name in sources.kit and f"`{name}` for `" in piece
        return is_kit or any(name in it.defined() or name in it.names for it in here)
    records = [it for listed in re.findall(r"\bof ((?:(?:, | and )?`\w+`)+)", piece)
               for it in quoted(listed)]
    if any(name in it.fields[record] for it in sources.crates.values() for record in records):
        return True
    return any(f"crates/{it.name}/src/{name}" in sources.files for it in here)


def wrong_edits(sources, found, cell):
    """What is wrong in a column of wrong bodies, of which those in italics are in more-edits/."""
    for piece in cell.split(";"):
        here = crates_named(sources, found, piece)
        for star, name in re.findall(r"(\*?)`([^`]+)`", piece):
            if name in sources.crates:
                continue
            folder = "more-edits" if star else "must-fail"
            if not any(it.edits.get(name) == folder for it in here):
                yield f"`{name}`: no {folder}/{name}.edit in {shown(here)}"


def shown(found):
    """The names of crates."""
    return ", ".join(it.name for it in found)


# --- Texts outside of the tables ---


def is_listed(text, lists):
    """Whether a text is one of the words, or fits one of the patterns, of lists with reasons."""
    for listed in lists.values():
        for pattern in listed.split() if isinstance(listed, str) else listed:
            if fnmatch.fnmatchcase(text, pattern):
                return True
    return False


def reason_against(document, text):
    """What is wrong with a text in backquotes, if anything is."""
    if is_listed(text.replace(" ", "_"), WORDS):
        return None
    for fits, rule in RULES:
        if re.fullmatch(fits, text):
            return rule(document, text)
    return "of no form that is looked up; see the rules of tools/names.py"


def command_is_known(document, text):
    """Looks up what a command line names."""
    sources = document.sources
    first, *words = text.split()
    if first == "make":
        return next((f"make has no target {it}" for it in words
                     if "=" not in it and it not in sources.targets), None)
    if first == "python3":
        module = words[1].replace(".", "/") + ".py"
        is_known = module in sources.files or words[1] == "unittest"
        return None if is_known else f"there is no {module}"
    if first == "rt":
        names = [it.split("::") for it in words if "_" in it or "::" in it]
        return next((f"no crate {it[0]} with {it[-1]}" for it in names
                     if not (it[0] in sources.crates
                             and sources.crates[it[0]].has(it[-1]))), None)
    known = sources.commands if first.endswith("month") else sources.literals
    return next((f"{first} has no command {it}" for it in words[:1]
                 if not it.startswith("-") and it not in known), None)


def pipeline_is_known(document, text):
    """Looks up the commands of a pipeline that are the repository's."""
    for command in text.split(" | "):
        if re.fullmatch(COMMAND, command):
            reason = command_is_known(document, command)
            if reason:
                return reason
    return None


def path_is_there(document, text):
    """Looks up a file or a folder."""
    if is_listed(text, MADE):
        return None
    near = [it for pattern in document.near
            for it in (glob.glob(pattern, root_dir=document.sources.root)
                       if "*" in pattern else [pattern])]
    # A module of proofs may stand for a function of an example in the document.
    parts = text.split("/")
    if parts[0] == "proofs" and len(parts) > 2 and parts[1] in document.example:
        return None
    return None if document.sources.has_path(text, near) else "no such file"


def is_declared_in(document, text):
    """Looks up `a::b`."""
    *_, first, last = text.split("::")
    found = document.crates
    for crate in found:
        for owner in {first, *(it.aliases[first] for it in found if first in it.aliases)}:
            if f"{owner}::{last}" in crate.functions or f"{owner}::{last}" in crate.names:
                return None
        if first in (crate.name, *crate.modules) and crate.has(last):
            return None
    return f"nothing declares {last} in {first}"


def option_is_known(document, text):
    """Looks up an option."""
    option = re.match(r"--?([\w-]*)", text)[1]
    is_known = not option or option in document.sources.options | document.sources.literals
    return None if is_known else "no program has this option"


def word_is_declared(document, text):
    """Looks up a word."""
    sources = document.sources
    if text in sources.literals | sources.commands | sources.kit | document.example:
        return None
    if is_listed(text, MADE) or sources.has_path(text, [document.folder]):
        return None
    modules = set().union(*(crate.modules for crate in sources.crates.values()))
    if text in modules | set(sources.crates) or any(it.has(text) for it in document.crates):
        return None
    return "nothing declares it"


def call_is_declared(document, text):
    """Looks up the function, or the type, of a call."""
    return word_is_declared(document, text.partition("(")[0])


def implementation_is_declared(document, text):
    """Looks up the trait and the type of an implementation."""
    words = [it for it in text.split()[1:] if it != "for"]
    return next((it for it in (word_is_declared(document, word) for word in words) if it), None)


def line_of_crates_is_known(document, text):
    """Looks up the libraries in a line of crates.txt."""
    sources = document.sources
    return next((f"no crate {it}" for it in text.partition(": ")[2].split()
                 if it not in sources.crates and it not in sources.kit), None)


def text_is_said(document, text):
    """Looks up a text that a program says, piece by piece."""
    for piece in re.split(PLACEHOLDERS % "|".join(ENDINGS), text):
        piece = piece.strip(" :,'()")
        if len(piece) > 2 and piece not in document.sources.text:
            return f"no source has the text {piece!r}"
    return None


def is_of_a_form(_document, _text):
    """A value or notation: there is nothing to look up."""
    return None


COMMAND = r"(?:make|rt|royalty_run|month|cluster/month) .*|python3 -m .*"

# Each form, as a whole text has it, with its rule. The first one that fits holds.
RULES = [
    # Pipelines, commands of the system, options of sbatch, and the kit's own line.
    (r".+ \| .+", pipeline_is_known),
    (COMMAND, command_is_known),
    (r"(?:grep|sha256sum|ulimit) .*|\| head|-- --.*|rattle-kit-.*", is_of_a_form),
    (r"--?[a-z][\w-]*(?:[ =].*)?|--", option_is_known),
    # Files and folders.
    (r"[\w.*-]*(?:/[\w.*-]*)+|[\w.-]*\.(?:%s)|\.[a-z]+" % "|".join(ENDINGS), path_is_there),
    # Names.
    (r"\w+(?:::\w+)+", is_declared_in),
    (r"\w+\(.*\)", call_is_declared),
    (r"impl .*", implementation_is_declared),
    (r"\w+ may_wait=.*", line_of_crates_is_known),
    # Codes, records and other values: a letter, and what has no letters, or has digits.
    (r"[A-Za-z]|[^A-Za-z]*|[A-Z]+\d[A-Z\d]*", is_of_a_form),
    (r"[A-Za-z_]\w+", word_is_declared),
    # Rows of tables; notation of contracts; texts that a program says.
    (r"[^ ]*,[^ ]*|.*,\d+,.*", is_of_a_form),
    (r".*[^ -~].*", is_of_a_form),
    (r".*", text_is_said),
]


def wrong_names(root=ROOT):
    """What is wrong in the documents of a repository: document, line, and what."""
    sources = Sources(root)
    for pattern in DOCUMENTS:
        for path in sorted(glob.glob(pattern, root_dir=root)):
            for number, text in sorted(set(Document(sources, path).wrong())):
                yield path, number, text


def main():
    count = 0
    for path, number, text in wrong_names(*sys.argv[1:]):
        print(f"{path}:{number}: {text}")
        count += 1
    sys.exit(f"tools.names: {count} names are not there" if count else 0)


if __name__ == "__main__":
    main()
