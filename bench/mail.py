"""Times a mailbox of linked nodes, and a pool of them, apart from a run: `mail_bench` and the plain
program's.

    python3 -m bench.mail --program PATH [--times 5] [--repeats 5]

One or two senders post a million times each, to one mailbox or to those of a pool in turn, and all
of this is done as often as --times says. Both programs run in turn, so that noise hits both alike.
Shown is the best wall time of a posting in nanoseconds, with the start of the threads and what
opens a pool in it.
"""
import os
import subprocess
import sys
import time

from tools import plain
from tools.measuring import load
from tools.running import parser_of_program

POSTS = 1_000_000

# Each is what a line of the input says, apart from the number of posts.
MAILBOXES = [f"{senders} {nodes}" for senders in (1, 2) for nodes in (1, 8, 64)]
POOLS = [f"pool {senders} {readers} {mailboxes} 64"
         for mailboxes in (4, 400) for senders, readers in ((1, 1), (2, 1), (2, 2))]


def senders_of(words):
    """How many senders there are."""
    return int(words.split(" ")[1 if words.startswith("pool") else 0])


def nanoseconds(name, program, words, times):
    """What a posting takes in one run of a program, which has to receive all that was posted."""
    line = f"{words} {POSTS}"
    posts = senders_of(words) * POSTS
    came = f"{line}: {posts} posts, {posts * (POSTS + 1) // 2}\n"
    begin = time.perf_counter()
    done = subprocess.run([program], input=f"{line}\n" * times, stdout=subprocess.PIPE, text=True,
                          check=True)
    took = (time.perf_counter() - begin) / (times * posts) * 1e9
    if done.stdout != came * times:
        sys.exit(f"{name}, {line}: not all that was posted came")
    return took


def main():
    parser = parser_of_program("bench.mail", __doc__)
    parser.add_argument("--times", type=int, default=5)
    parser.add_argument("--repeats", type=int, default=5)
    a = parser.parse_args()
    programs = {"proved": a.program, "plain": plain.build(name="mail")}
    best = {}
    before = load()
    for _ in range(a.repeats):
        for words in MAILBOXES + POOLS:
            for name, program in programs.items():
                took = nanoseconds(name, program, words, a.times)
                best[words, name] = min(took, best.get((words, name), took))
    print(f"nanoseconds a posting, best of {a.repeats}, {os.cpu_count()} cores, "
          f"load {before:.1f} to {load():.1f}")
    for title, lines in (("senders, nodes", MAILBOXES),
                         ("pool: senders, readers, mailboxes, nodes", POOLS)):
        print(f"{title:<42}" + "".join(f"{name:>10}" for name in programs))
        for words in lines:
            shown = ", ".join(words.removeprefix("pool ").split(" "))
            print(f"{shown:<42}" + "".join(f"{best[words, name]:>10.0f}" for name in programs))


if __name__ == "__main__":
    main()
