"""Proves everything by `rt ci`, and prints the minutes of processor time that each crate took.

    python3 -m tools.prove [--jobs N] [--times FILE] [--anew]

Kits differ in what `rt ci` leaves out: one proves every crate each time, another leaves out what it
has passed on this machine before, by the checksums of all that it read. With --anew nothing is left
out, whatever the kit.

How many crates are proved at once is for `rt ci` to say, by the processors and the memory that it
finds, unless --jobs or RT_JOBS does.
"""
import argparse
import os
import resource
import subprocess
import sys
import threading
import time

from tools.crates import ROOT

# The programs of the kit whose time is told, and the parts that it is told by.
TOOLS = ("rattle", "clang", "clang-14", "rattle-x64")
PARTS = ("proofs", "tests", "edits", "builds")


def part_of(words):
    """The part and the crate that a command of the kit works for, if it is one."""
    tool = os.path.basename(words[0]) if words else ""
    if tool not in TOOLS:
        return None
    name = words[words.index("--crate-name") + 1] if "--crate-name" in words[:-1] else "all"
    if tool != "rattle":
        return "builds", name
    if any("rt-edits" in it for it in words):
        return "edits", name
    return ("tests" if "--test" in words else "proofs"), name


class Times:
    """The processor time of the kit's programs that run below a process."""

    def __init__(self, ancestor):
        self.ancestor, self.seen = ancestor, {}

    def look(self):
        """Looks once at all processes."""
        parents, stats = {}, {}
        for number in filter(str.isdigit, os.listdir("/proc")):
            try:
                with open(f"/proc/{number}/stat", encoding="utf-8", errors="replace") as f:
                    fields = f.read().rpartition(")")[2].split()
                with open(f"/proc/{number}/cmdline", encoding="utf-8", errors="replace") as f:
                    words = f.read().split("\0")
            except OSError:
                continue
            parents[number] = fields[1]
            stats[number] = (fields[19], int(fields[11]) + int(fields[12]), words)
        for number, (begun, ticks, words) in stats.items():
            part = part_of(words)
            if part and self.is_below(number, parents):
                self.seen[number, begun] = (part, ticks / os.sysconf("SC_CLK_TCK"))

    def is_below(self, number, parents):
        """Whether a process stands below the one that is watched."""
        while number in parents and number != str(self.ancestor):
            number = parents[number]
        return number == str(self.ancestor)

    def by_crate(self):
        """The seconds of each part, by crate."""
        found = {}
        for (part, name), seconds in self.seen.values():
            found.setdefault(name, dict.fromkeys(PARTS, 0.0))[part] += seconds
        return found


def table(found):
    """The minutes of each crate's parts as lines, the longest first, and their sums."""
    rows = sorted(found.items(), key=lambda it: -sum(it[1].values()))
    rows.append(("in all", {part: sum(it[part] for it in found.values()) for part in PARTS}))
    lines = [f"{'crate':20}" + "".join(f"{part:>8}" for part in PARTS) + f"{'minutes':>10}"]
    for name, parts in rows:
        minutes = [parts[part] / 60 for part in PARTS]
        told = "".join(f"{it:8.1f}" for it in minutes)
        lines.append(f"{name:20}{told}{sum(minutes):10.1f}")
    return lines


def keeps_passed():
    """Whether this kit's `rt ci` leaves out what it has passed before: then it takes --anew."""
    told = subprocess.run(["rt", "help"], capture_output=True, text=True, check=False)
    return "--anew" in told.stdout + told.stderr


def command(anew, keeps):
    """The words by which a kit proves all, or all anew."""
    return ["rt", "ci", *["--anew"] * (anew and keeps)]


def prove(jobs=None, anew=False):
    """Runs `rt ci`: its status and the times of the kit's programs."""
    told = {**os.environ, **({"RT_JOBS": str(jobs)} if jobs else {})}
    begun = subprocess.Popen(command(anew, anew and keeps_passed()), cwd=ROOT, env=told)
    times, is_over = Times(begun.pid), threading.Event()

    def watch():
        while not is_over.wait(0.5):
            times.look()

    watcher = threading.Thread(target=watch)
    watcher.start()
    status = begun.wait()
    is_over.set()
    watcher.join()
    return status, times


def main():
    parser = argparse.ArgumentParser(prog="tools.prove", description=__doc__.splitlines()[0])
    parser.add_argument("--jobs", type=int, help="how many crates at once, if not as many as fit")
    parser.add_argument("--times", metavar="FILE", help="a file for the table of times")
    parser.add_argument("--anew", action="store_true",
                        help="prove what has passed on this machine before, too")
    words = parser.parse_args()
    began = time.time()
    status, times = prove(words.jobs, words.anew)
    lines = table(times.by_crate())
    used = resource.getrusage(resource.RUSAGE_CHILDREN)
    lines.append(f"{(time.time() - began) / 60:.1f} minutes on {os.cpu_count()} processors, "
                 f"{(used.ru_utime + used.ru_stime) / 60:.1f} minutes of processor time")
    print("\n".join(lines))
    if words.times:
        with open(words.times, "w", encoding="utf-8") as f:
            f.write("\n".join(lines) + "\n")
    sys.exit(status)


if __name__ == "__main__":
    main()
