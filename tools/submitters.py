"""Runs over the files of several submitters: their tables and files, and the options that name
them."""
import os
from typing import NamedTuple

from tools.running import written

# The tables and the list of a run, in the order in which they are read.
TABLES = ("tis", "payees", "works", "usage")

HEADERS = {"payees": [b"submitter", b"party", b"payee", b"name"],
           "works": [b"work", b"submitter", b"number", b"title"],
           "usage": [b"usage", b"work", b"territory", b"right", b"amount"]}


class Submitted(NamedTuple):
    """The files of a run over several submitters."""

    tables: dict  # the bytes of each of TABLES, by name; payees may be missing
    files: list  # the name of each submitter with the bytes of its CWR file, in their order


def field(text):
    """A field of a table as it is written, in quotes where it needs them."""
    if any(byte in text for byte in b',"\r\n'):
        return b'"' + text.replace(b'"', b'""') + b'"'
    return text


def table(name, rows):
    """A table with its header and these rows, each a list of fields."""
    return b"".join(b",".join(map(field, row)) + b"\n" for row in [HEADERS[name], *rows])


def written_files(folder, files):
    """Writes the files of submitters into a folder, and answers the values of `--cwr`."""
    paths = written(folder, {f"{place}.cwr": data for place, (_, data) in enumerate(files)})
    return [f"{name}={path}" for (name, _), path in zip(files, paths)]


def written_options(folder, submitted, plan=()):
    """Writes all files into a folder, and answers the options of a run over them.

    `plan` has the numbers of workers, readers and nodes, if the options are to have them.
    """
    tables = {name: submitted.tables[name] for name in TABLES if name in submitted.tables}
    paths = written(folder, tables)
    values = written_files(os.path.join(folder, "submitted"), submitted.files)
    return [*zip(tables, paths), *(("cwr", value) for value in values),
            *zip(("workers", "readers", "nodes"), plan)]


def without_plan(options):
    """The options of a run that name its files."""
    return [option for option in options if option[0] in (*TABLES, "cwr")]


def over_tables(folder, options, works, payees):
    """The options of a run, with other tables of works and of payees, which are written."""
    paths = written(folder, {"other.works": works, "other.payees": payees})
    rest = [option for option in options if option[0] not in ("works", "payees")]
    return [*zip(("works", "payees"), paths), *rest]
