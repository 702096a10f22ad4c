"""Measures time and peak memory of programs, and says on which machine and at which commit."""
import hashlib
import os
import subprocess
import sys
from typing import NamedTuple

from tools.crates import ROOT

# A child's peak memory begins with that of its parent. So a small process of its own starts the
# program and waits for it; no figure is below the few MB which that process takes itself.
LAUNCHER = """
import os, sys, time
def to(fd, name):
    # A new file each time: cutting off a large old one would be timed too.
    if os.path.exists(name):
        os.remove(name)
    opened = os.open(name, os.O_WRONLY | os.O_CREAT | os.O_EXCL, 0o600)
    return (os.POSIX_SPAWN_DUP2, opened, fd)
files = [(os.POSIX_SPAWN_OPEN, 0, "/dev/null", os.O_RDONLY, 0),
         to(1, sys.argv[1]), to(2, sys.argv[2])]
command = sys.argv[3:]
begin = time.perf_counter()
pid = os.posix_spawnp(command[0], command, os.environ, file_actions=files)
_, status, use = os.wait4(pid, 0)
wall = time.perf_counter() - begin
print(wall, use.ru_utime + use.ru_stime, use.ru_maxrss, os.waitstatus_to_exitcode(status))
"""


class Cost(NamedTuple):
    """What a run took, and how it ended."""

    wall: float  # seconds
    processor: float  # seconds of all threads together, those in the kernel included
    memory: float  # the peak, in MB
    status: int


def cost_in(line):
    """The cost that the launcher printed: seconds, processor seconds, kilobytes and the status."""
    wall, processor, kilobytes, status = line.split()
    return Cost(float(wall), float(processor), int(kilobytes) / 1024, int(status))


def run_measured(words, folder):
    """The cost of a command line. What it wrote is in the files `out` and `err` of a folder."""
    files = [os.path.join(folder, name) for name in ("out", "err")]
    launcher = [sys.executable, "-ISc", LAUNCHER, *files]
    done = subprocess.run([*launcher, *words], stdout=subprocess.PIPE, text=True, check=True)
    return cost_in(done.stdout)


def digest_of(path):
    """The SHA-256 of a file."""
    with open(path, "rb") as file:
        return hashlib.file_digest(file, "sha256").hexdigest()


def machine():
    """The processor, and how many of them there are."""
    with open("/proc/cpuinfo", encoding="utf-8") as file:
        names = [line.split(":", 1)[1].strip() for line in file if line.startswith("model name")]
    return f"{os.cpu_count()} x {names[0] if names else 'a processor without a name'}"


def load():
    """How many threads wanted a processor over the last minute."""
    return os.getloadavg()[0]


def commit():
    """The commit that is checked out, and whether files differ from it."""
    def git(*words):
        return subprocess.run(["git", "-C", ROOT, *words], stdout=subprocess.PIPE, text=True,
                              check=True).stdout.strip()
    return (git("rev-parse", "--short", "HEAD")
            + (", with changes" if git("status", "--porcelain") else ""))
