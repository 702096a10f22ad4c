"""Reads which names the sources of a crate declare: functions, clauses, types and definitions.

The sources are laid out by `rt fmt`, so lines and indentation are enough to go by.
"""
import os
import re
from collections import defaultdict

BLOCK = re.compile(r"(?:pub(?:\([^)]*\))? )?(impl|trait|enum|struct)\b(.*)")
FUNCTION = re.compile(r"\bfn (\w+)")
CLAUSE = re.compile(r"\s*(?:ensures|requires) (\w+) *\{")

# A clause that stands in a trait, or in an implementation of one, and holds of all its functions.
CLAUSE_OF_ALL = re.compile(r"    ghost ([a-z]\w*)(?::| =) ")
CONSTANT = re.compile(r"\s*(?:pub(?:\([^)]*\))? )?(?:const|static|type|mod) (\w+)\b")
ALIAS = re.compile(r"(?:pub(?:\([^)]*\))? )?type (\w+)[^=]* = (\w+)")
IMPORT = re.compile(r"(?:pub )?(?:ghost )?use ([\w:.]+)(?:\.|::)(?:\{(.*)\}|(\w+))")
FIELD = re.compile(r" +(?:pub(?:\([^)]*\))? )?(\w+): ")
VARIANT = re.compile(r"    (\w+)(?:[,({]| =| \{|$)")

# Folders of what is built.
BUILT = ("out", "target", "__pycache__")

# A definition begins with one of these words, or its name is followed by its type.
DEFINES = {"abbrev", "unfoldable", "pub", "record", "data", "mod", "module"}
DEFINITION = re.compile(r"\s*((?:(?:%s) )*)([\w◌]+)( :|)" % "|".join(sorted(DEFINES)))


def without_parameters(text):
    """The text without what stands in angle brackets."""
    depth, kept = 0, []
    for sign in text.replace("->", ""):
        depth += (sign == "<") - (sign == ">")
        if depth == 0 and sign != ">":
            kept.append(sign)
    return "".join(kept)


def name_of_block(kind, head):
    """The type whose functions, fields or variants stand in a block with this head."""
    head = without_parameters(head).partition("{")[0].partition(" where ")[0]
    if kind == "impl" and " for " in head:
        head = head.partition(" for ")[2]
    found = re.findall(r"\w+", head.partition(":")[0] if kind == "trait" else head)
    return found[0] if kind != "impl" and found else found[-1] if found else ""


class Crate:
    """The names that a crate declares."""

    def __init__(self, root, name):
        self.name = name
        self.functions = defaultdict(set)  # each with its clauses; methods also as Type::method
        self.names = {name}  # all that code declares
        self.modules = set()
        self.aliases = {}  # the types that have another name, by that name
        self.imports = defaultdict(set)  # what the sources take from other crates, by crate
        self.traits = set()  # what is implemented, of whichever crate
        self.calls = set()  # methods that code calls, of whichever crate
        self.fields = defaultdict(set)  # the fields of each record of specs/ and proofs/
        self.definitions = defaultdict(set)  # by module of specs/ and of proofs/
        self.edits = {}  # the folder of each wrong body
        for path in files_below(os.path.join(root, "crates", name)):
            self.read(os.path.join(root, "crates", name), path)

    def read(self, top, path):
        """Takes in the names of a file."""
        folder, _, file = path.rpartition("/")
        stem, _, ending = file.rpartition(".")
        if ending == "edit":
            self.edits[stem] = folder
        elif ending in ("rt", "antt"):
            with open(os.path.join(top, path), encoding="utf-8") as f:
                lines = f.read().split("\n")
            self.modules.add(stem)
            if "proofs" not in folder.split("/"):
                for other, names in imports_in(lines):
                    self.imports[other] |= names
            if ending == "rt":
                self.read_code(lines)
            else:
                self.definitions[stem] |= definitions_in(lines)
                for record, field in fields_in(lines):
                    self.fields[record].add(field)

    def read_code(self, lines):
        """Takes in the names that lines of code declare."""
        kind = block = ""
        open_functions = []
        for line in lines:
            if line.lstrip().startswith("//"):
                continue
            if line.startswith("}"):
                kind = block = ""
            head = BLOCK.match(line)
            self.calls |= set(re.findall(r"\.(\w+)\(", line))
            if head:
                kind, block = head[1], name_of_block(head[1], head[2])
                if kind == "impl":
                    self.traits |= set(re.findall(r"(\w+) for ", without_parameters(head[2])))
                self.names.add(block)
                if line.rstrip().endswith(("}", ";")):
                    kind = ""
            found = FUNCTION.search(line)
            if found:
                open_functions = [found[1]] + [f"{block}::{found[1]}"] * (kind in ("impl", "trait"))
                for function in open_functions:
                    self.functions[function] |= set()
            clause = CLAUSE.match(line)
            if clause:
                for function in open_functions:
                    self.functions[function].add(clause[1])
            clause = CLAUSE_OF_ALL.match(line)
            if clause:
                self.functions[block].add(clause[1])
            self.take_in_line(kind, block, line)

    def take_in_line(self, kind, block, line):
        """Takes in a constant, a field or a variant, if the line declares one."""
        constant = CONSTANT.match(line)
        if constant:
            self.names |= {constant[1], f"{block}::{constant[1]}"}
        alias = ALIAS.match(line)
        if alias:
            self.aliases[alias[1]] = alias[2]
        field = FIELD.match(line)
        if field and kind == "struct":
            self.names.add(field[1])
        variant = VARIANT.match(line)
        if variant and kind == "enum":
            self.names |= {variant[1], f"{block}::{variant[1]}"}

    def clauses(self):
        """The clauses of all functions."""
        return set().union(*self.functions.values())

    def defined(self):
        """What specs/ and proofs/ define, in whichever module."""
        return set().union(*self.definitions.values())

    def has(self, name):
        """Whether the crate declares a name of any kind."""
        return (name in self.functions or name in self.names or name in self.modules
                or name in self.clauses() or name in self.defined() or name in self.edits)


def definitions_in(lines):
    """What lines of a module of specs/ or proofs/ define, fields and cases included."""
    found = set()
    for line in lines:
        match = DEFINITION.match(line)
        if match and (match[1] or match[3]):
            found.add(match[2])
    return found


def fields_in(lines):
    """The fields of records that lines of a module of specs/ or proofs/ define, as pairs."""
    record = depth = None
    for line in lines:
        head = re.match(r"( *)(?:pub )?record (\w+)", line)
        field = re.match(r"( *)(?:pub )?(\w+) :", line)
        if head:
            depth, record = len(head[1]), head[2]
        elif record and field and len(field[1]) > depth:
            yield record, field[2]
        elif line.strip() and not line.startswith(" " * (depth or 0) + " "):
            record = None


def imports_in(lines):
    """The names that lines take from elsewhere by `use`, by the crate that they are taken from."""
    for line in lines:
        match = IMPORT.match(line.lstrip())
        if match:
            path = re.split(r"[.:]+", match[1])
            crate = path[1] if path[0] == "Rattle" and len(path) > 1 else path[0]
            names = re.split(r"[, {}]+|::", match[2] or match[3] or "")
            yield crate, {*path, *names} - {"", "Rattle"}


def files_below(top):
    """The paths of all files below a folder, relative to it, without what is built or hidden."""
    for at, folders, files in os.walk(top):
        folders[:] = sorted(it for it in folders if not it.startswith(".") and it not in BUILT)
        for file in sorted(files):
            yield os.path.relpath(os.path.join(at, file), top).replace(os.sep, "/")
