"""The crates that crates.txt lists, and what each stands on."""
import os
import re

ROOT = os.path.dirname(os.path.dirname(os.path.realpath(__file__)))


def crates_in(text):
    """For each crate of a crates.txt, in its order, the names of the libraries that it uses."""
    found = {}
    for line in text.splitlines():
        line = line.partition("#")[0]
        head, colon, uses = line.partition(":")
        if colon:
            found[head.split()[0]] = uses.split()
    return found


def crates(root=ROOT):
    """The crates of the repository, each with the libraries that it uses."""
    with open(os.path.join(root, "crates.txt"), encoding="utf-8") as f:
        return crates_in(f.read())


def below(name, listed):
    """A crate and all crates of the repository below it, by name."""
    found, waiting = set(), [name]
    while waiting:
        at = waiting.pop()
        if at in listed and at not in found:
            found.add(at)
            waiting += listed[at]
    return found


def above(name, listed):
    """A crate and all crates that stand on it, by name, in the order of crates.txt."""
    return [it for it in listed if name in below(it, listed)]


def has_tests(name, root=ROOT):
    """Whether a crate has test functions."""
    return any(re.search(r"^\s*#\[test\]", text, re.M) for _, text in sources(name, root))


def is_program(name, root=ROOT):
    """Whether a crate is a program."""
    return os.path.isfile(os.path.join(root, "crates", name, "src", "main.rt"))


def sources(name, root=ROOT):
    """The paths and texts of a crate's code, in the order of the paths."""
    top = os.path.join(root, "crates", name, "src")
    for at, folders, files in os.walk(top):
        folders.sort()
        for file in sorted(files):
            if file.endswith(".rt"):
                path = os.path.join(at, file)
                with open(path, encoding="utf-8") as f:
                    yield os.path.relpath(path, root), f.read()
