"""Builds the plain Rust program of bench/plain, with which the proved one is compared.

    python3 -m tools.plain

prints the path of the program. Cargo builds what has changed, without a network.
"""
import os
import subprocess

from tools.crates import ROOT

FOLDER = os.path.join(ROOT, "bench", "plain")


def build(target="target", *flags, name="plain"):
    """The path of the plain program, built into a folder; `name` may be another of its programs."""
    words = ["cargo", "build", "--release", "--offline", "--quiet", "--target-dir", target]
    subprocess.run([*words, *flags], cwd=FOLDER, check=True)
    return os.path.join(FOLDER, target, "release", name)


if __name__ == "__main__":
    print(build())
