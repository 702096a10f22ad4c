"""Runs every test over builds that prove nothing, and prints a line for each with its time.

    python3 -m tools.suite [NAME..]

With names of crates it runs only what stands on one of them. The last line is `N passed, M failed`.
"""
import argparse
import os
import shutil
import subprocess
import sys
import tempfile
import threading
import time
from concurrent.futures import FIRST_COMPLETED, ThreadPoolExecutor, wait

from tools import unproved
from tools.crates import ROOT, below, crates, has_tests, is_program

# The program, and the programs that scripts run.
PROGRAM = unproved.PROGRAM
REFUSED_CALLS = "refusal_runs"
REPLAY = "queue_replay"

# The most seconds that a driver takes, or a test function.
MOST_SECONDS = 600

# How many inputs are compared with the plain program's answers.
CASES = "200"


class Failed(Exception):
    """What a step wrote that failed."""


class Step:
    """A step: its name, what it does, the steps before it, and the crates that it concerns.

    A step that concerns no crate is left out where crates are named. One that is alone runs beside
    no other: its threads hand over to each other thousands of times, and beside builds each of
    these would wait for a slice of the builds' time.
    """

    def __init__(self, name, act, after=(), of=(), alone=False):
        self.name, self.act, self.after, self.of, self.alone = name, act, after, of, alone


def ran(words, **how):
    """Runs a command at the top of the repository; what it wrote is the reason where it fails."""
    how = {"cwd": ROOT, "stdin": subprocess.DEVNULL, "errors": "replace", **how}
    both = {"stdout": subprocess.PIPE, "stderr": subprocess.STDOUT}
    done = subprocess.run(words, check=False, text=True, **both, **how)
    if done.returncode:
        raise Failed(f"{' '.join(words[:6])}: status {done.returncode}\n{done.stdout or ''}")
    return done.stdout


def beside(name, file):
    """The bytes of a file beside a crate's code, or none."""
    try:
        with open(os.path.join(ROOT, "crates", name, file), "rb") as f:
            return f.read()
    except OSError:
        return b""


def tables_of(name):
    """The tables that a driver is given."""
    return [it for it in beside(name, "args").decode().split() if it.endswith(".txt")]


def driven(name, folder, given):
    """What a driver answers in a folder, with this on standard input."""
    words = [unproved.build(name), *beside(name, "args").decode().split()]
    how = {"input": given, "cwd": folder, "timeout": MOST_SECONDS}
    return subprocess.run(words, capture_output=True, check=False, **how)


def run_driver(name):
    """Runs a program on what lies beside it: it has to print what its file `stdout` has."""
    data = os.path.join(ROOT, "crates", name, "data")
    with tempfile.TemporaryDirectory() as room:
        done = driven(name, data if os.path.isdir(data) else room, beside(name, "stdin"))
    if done.returncode or done.stdout != beside(name, "stdout"):
        said = (done.stderr + done.stdout).decode(errors="replace")
        raise Failed(f"{name}: status {done.returncode}; it wrote:\n{said}")


def spoilt(table):
    """A table whose last answer is another, by a sign at its end."""
    return table.rstrip("\n") + "!\n"


def run_spoilt(name):
    """Runs a driver on each table with a wrong answer in it: it has to fail, and say where."""
    for table in tables_of(name):
        with tempfile.TemporaryDirectory() as room:
            folder = os.path.join(room, "data")
            shutil.copytree(os.path.join(ROOT, "crates", name, "data"), folder)
            path = os.path.join(folder, table)
            with open(path, encoding="utf-8") as f:
                text = f.read()
            with open(path, "w", encoding="utf-8") as f:
                f.write(spoilt(text))
            done = driven(name, folder, beside(name, "stdin"))
        if done.returncode != 1 or f"{table}:".encode() not in done.stderr:
            raise Failed(f"{name}: status {done.returncode} where {table} has a wrong answer")


def run_spoilt_schedule(name):
    """Replays schedules, one step of which is answered otherwise: the replay has to disagree."""
    given = beside(name, "stdin").replace(b" moved\n", b" not\n", 1)
    done = driven(name, os.path.join(ROOT, "crates", name, "data"), given)
    if done.returncode != 1 or b"line 2 does not agree" not in done.stdout:
        raise Failed(f"{name}: status {done.returncode} where a schedule has a wrong answer")


def run_tests(name):
    """Runs a crate's test functions, by the kit's runner."""
    runner = os.path.join(unproved.kit(), "bin", "rattle-test")
    ran([runner, "--seconds", str(MOST_SECONDS), unproved.build(name, tests=True)])


def python(*words):
    """A step's command in Python."""
    return lambda: ran([sys.executable, *words])


def script(path, of, *words):
    """A step's script, over the unproved build of a program."""
    return lambda: ran([path, unproved.build(of), *words])


def compared(module, *more):
    """A step's comparison with the plain program."""
    words = [sys.executable, "-m", module, "--cases", CASES, *more, "--program"]
    return lambda: ran([*words, unproved.build(PROGRAM)])


def steps_of_tests(name):
    """The steps of a crate's test functions: their build, and then they by themselves."""
    build = f"build of the tests of {name}"
    return [
        Step(build, lambda: unproved.build(name, tests=True), of=(name,)),
        Step(f"tests of {name}", lambda: run_tests(name), (build,), (name,), alone=True),
    ]


def steps_of(listed):
    """All steps, the longest first."""
    tested = [it for it in listed if has_tests(it)]
    drivers = [it for it in listed if is_program(it)]
    steps = [step for it in tested for step in steps_of_tests(it)]
    steps += [Step(f"build of {it}", lambda it=it: unproved.build(it), of=(it,)) for it in drivers]
    steps += [Step(it, lambda it=it: run_driver(it), (f"build of {it}",), (it,)) for it in drivers]
    built = (f"build of {PROGRAM}",)
    for name in [it for it in drivers if tables_of(it)]:
        act = lambda it=name: run_spoilt(it)
        steps.append(Step(f"wrong answers in {name}", act, (f"build of {name}",), (name,)))
    replay = lambda: run_spoilt_schedule(REPLAY)
    steps.append(Step("a wrong schedule", replay, (f"build of {REPLAY}",), (REPLAY,)))
    of_program = {
        "compared inputs": compared("bench.compare"),
        "compared inputs of submitters": compared("bench.compare", "--submitters"),
        "compared mergers": compared("bench.merges"),
        "compared adjustments": compared("bench.adjustments"),
        "compared imports": compared("bench.imports"),
        "refusals of the program": script("tests/refuse.sh", PROGRAM, "quick"),
        "the program's script": script("tests/program.sh", PROGRAM),
        "its documents": script("tests/documents.sh", PROGRAM),
        "its imports": script("tests/imports.sh", PROGRAM),
        "its installation": script("tests/install.sh", PROGRAM),
    }
    steps += [Step(name, act, built, (PROGRAM,)) for name, act in of_program.items()]
    calls = script("tests/refuse_calls.sh", REFUSED_CALLS)
    steps.append(Step("refusals of calls", calls, (f"build of {REFUSED_CALLS}",), (REFUSED_CALLS,)))
    unit_tests = ("unittest", "discover", "-s", "tools/tests", "-t", ".")
    steps.append(Step("the small model", python("-m", "model.explore", "2", "1", "1")))
    steps.append(Step("unit tests of the scripts", python("-m", *unit_tests)))
    steps.append(Step("names in documents", python("-m", "tools.names")))
    return steps


def chosen(steps, names, listed):
    """The steps that concern one of some crates, with those before them; or all."""
    if not names:
        return steps
    wanted = {it.name for it in steps if any(below(of, listed) & set(names) for of in it.of)}
    wanted |= {before for it in steps if it.name in wanted for before in it.after}
    return [it for it in steps if it.name in wanted]


def timed(step):
    """Runs a step: how long it took, and why it failed, if it did."""
    began, why = time.time(), ""
    try:
        step.act()
    except (Failed, SystemExit, subprocess.SubprocessError, OSError) as error:
        why = str(error)
    return time.time() - began, why


def may_begin(step, passed, under_way, waiting, jobs):
    """Whether a step may begin now: a step that is alone begins when nothing else can or does."""
    if not set(step.after) <= passed:
        return False
    if step.alone:
        return not under_way and all(it.alone for it in waiting)
    return len(under_way) < jobs


def run(steps, jobs, say=print):
    """Runs steps, so many at once, each when those before it have passed, and last those alone.

    The answer is the names of those that failed, or were left since one before them failed.
    """
    waiting, passed, failed, under_way = list(steps), set(), set(), {}
    with ThreadPoolExecutor(jobs) as pool:
        while waiting or under_way:
            for step in [it for it in waiting if set(it.after) & failed]:
                waiting.remove(step)
                failed.add(step.name)
                say(f"NOT RUN         {step.name}")
            for step in list(waiting):
                if may_begin(step, passed, under_way, waiting, jobs):
                    waiting.remove(step)
                    under_way[pool.submit(timed, step)] = step
            for future in wait(under_way, return_when=FIRST_COMPLETED).done:
                step = under_way.pop(future)
                (failed if tell(step, *future.result(), say) else passed).add(step.name)
    return failed


def tell(step, seconds, why, say):
    """Says how a step ended, and whether it failed."""
    say(f"{'FAILED' if why else 'ok':6} {seconds:6.1f} s  {step.name}")
    if why:
        say("\n".join("    " + line for line in why.splitlines()[-60:]))
    return bool(why)


def main():
    parser = argparse.ArgumentParser(prog="tools.suite", description=__doc__.splitlines()[0])
    parser.add_argument("names", nargs="*", metavar="NAME", help="a crate")
    processors = os.cpu_count() or 1
    parser.add_argument("--jobs", type=int, default=processors, help="how many steps at once")
    words = parser.parse_args()
    listed = crates()
    unknown = [it for it in words.names if it not in listed]
    if unknown:
        sys.exit(f"tools.suite: no such crate: {' '.join(unknown)}")
    began = time.time()
    lock = threading.Lock()

    def say(line):
        with lock:
            print(line, flush=True)

    steps = chosen(steps_of(listed), words.names, listed)
    failed = run(steps, words.jobs, say)
    print(f"{time.time() - began:.0f} s in all, over builds that prove nothing")
    print(f"{len(steps) - len(failed)} passed, {len(failed)} failed")
    sys.exit(1 if failed else 0)


if __name__ == "__main__":
    main()
