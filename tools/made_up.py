"""Makes up the files of a case, small or realistic: territories, registrations, usage, payees.

A case is a list of three files in this order, or of four where it has a table of payees.
"""
import os
import re

from tools import forms
from tools.crates import ROOT
from tools.damage import damaged
from tools.large_inputs import FILES, generate
from tools.running import NAMES
from tools.small_inputs import payees, registrations, territories, usage


def files_in(folder, names=FILES):
    """The bytes of the files of these names in a folder."""
    found = []
    for name in names:
        with open(os.path.join(folder, name), "rb") as file:
            found.append(file.read())
    return found


def example():
    """The files of the main example, which has no table of payees."""
    names = ("territories.csv", "works.cwr", "usage.csv")
    return files_in(os.path.join(ROOT, "examples"), names)


def parties_of(data):
    """The parties that the share lines of a CWR file name, each once and in order."""
    lines = (line for line in data.split(b"\n") if line[:3] in (b"SPT", b"SWT"))
    return sorted({line[19:28].strip() for line in lines} - {b""})


def small(rng):
    """The three files of a small case, and a table of payees in half of them."""
    makers = [territories, registrations, usage] + [payees] * rng.randint(0, 1)
    return [make(rng).encode() for make in makers]


def realistic(rng, folder):
    """The files of a realistic case with 2 to 2,000 parties; a folder has them in between."""
    parties = int(2 * 1000 ** rng.random())
    lines, works = rng.randint(1, 6_000), parties + rng.randint(0, 300)
    generate(folder, lines, works, parties, rng.randrange(10**9), rng.choice([0.0, 0.1]))
    files = files_in(folder)
    if rng.random() < 0.5:
        # Without quotes, before which a usage list isn't cut in parts that are read side by side.
        files[2] = re.sub(rb'"Radio ""(\d+)"", evening (\d+)"', rb"Radio \1 evening \2", files[2])
    if rng.random() < 0.5:
        files.append(payees(rng, [party.decode() for party in parties_of(files[1])]).encode())
    return files


def in_other_forms(rng, files):
    """The files of a case, of which some have another form at times."""
    return [forms.changed(rng, name, data) for name, data in zip(NAMES, files)]


def case(rng, folder):
    """The files of a case, small or realistic, at times of another form. One is damaged in half of
    the cases."""
    files = in_other_forms(rng, small(rng) if rng.random() < 0.5 else realistic(rng, folder))
    if rng.random() < 0.5:
        place = rng.randrange(len(files))
        files[place] = damaged(rng, files[place])
    return files
