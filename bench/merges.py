"""Cuts made-up usage lists in parts, runs the program over each part, and merges the statements.

    python3 -m bench.merges --program PATH [--cases 300] [--seed 1]

The texts are merged at once, in two groups, and into a file. Each time the result has to be the
program's text of the whole list. A third of all cases is also merged with one of the texts damaged:
the plain program and the program have to say the same, and where the merge is refused nothing may
be printed.
"""
import os
import random
import sys
import tempfile

from tools import plain
from tools.damage import damaged
from tools.made_up import realistic, small
from tools.running import (NAMES, answer_into_file, answer_over, parser_of_program, run,
                           run_options, words_of, written)


def parts_of(rng, usage):
    """The usage lines of a list in one to six lists, some of them without lines.

    No field of a line may have a line feed.
    """
    header, *lines = usage.split(b"\n")
    lines = [line for line in lines if line]
    cuts = sorted(rng.randint(0, len(lines)) for _ in range(rng.randint(0, 5)))
    bounds = zip([0, *cuts], [*cuts, len(lines)])
    return [b"\n".join([header, *lines[begin:end], b""]) for begin, end in bounds]


def unlike(rng, text):
    """A statement text after an accident.

    It is cut off, or a row is doubled, left out, moved or has another field, or bytes are changed.
    """
    rows = text.split(b"\n")
    place = rng.randrange(len(rows))
    accident = rng.randrange(7)
    if accident == 0:
        return text[:rng.randrange(len(text))]
    if accident == 1:
        return damaged(rng, text)
    if accident == 2:
        rows.insert(place, rng.choice(rows))
    elif accident == 3:
        del rows[place]
    elif accident == 4:
        rows.insert(rng.randrange(len(rows)), rows.pop(place))
    else:
        fields = rows[place].split(b",")
        wrong = [b"", b"0", b"-1", b"01", b"+1", b"x", b"1000000000001", b"OPEN", b'"1"',
                 b"R", b"S", b"M", b"T", b"L"]
        fields[rng.randrange(len(fields))] = rng.choice(wrong)
        rows[place] = b",".join(fields)
    return b"\n".join(rows)


def numbered(texts):
    """Files of these texts, by name, in their order."""
    return {f"{n}.csv": text for n, text in enumerate(texts)}


def merged(program, folder, texts):
    """The outcome of merging texts."""
    return answer_over(program, "merge", folder, numbered(texts))


def merged_into(program, folder, texts):
    """The outcome of merging texts into a file."""
    return answer_into_file(program, "merge", folder, numbered(texts))


def made_files(rng, folder):
    """The files of a made-up run, by name; a folder has them in between."""
    return dict(zip(NAMES, small(rng) if rng.random() < 0.7 else realistic(rng, folder)))


def statements(program, folder, files):
    """The outcome of a run over files, which are given by name."""
    paths = written(folder, files)
    return run(words_of(program, "run", run_options(paths, (1, 1, 16))))


def texts_of(rng, program, folder):
    """The statements of a made-up run by its parts, and of the whole; none if it is refused."""
    files = made_files(rng, os.path.join(folder, "made"))
    outcomes = [statements(program, os.path.join(folder, "run"), {**files, "usage": usage})
                for usage in [*parts_of(rng, files["usage"]), files["usage"]]]
    if any(outcome[0] for outcome in outcomes):
        return None
    return [outcome[1] for outcome in outcomes[:-1]], outcomes[-1][1]


def come_to(rng, program, plain_program, folder, texts, whole):
    """Whether the texts, merged at once, in two groups and into a file, come to the whole."""
    cut = rng.randint(0, len(texts))
    groups = [merged(program, folder, group)[1] for group in (texts[:cut], texts[cut:]) if group]
    answers = [merge(program, folder, some)
               for merge in (merged, merged_into) for some in (texts, groups)]
    answers.append(merged(plain_program, folder, texts))
    return all(answer == (0, whole, b"") for answer in answers)


def main():
    parser = parser_of_program("bench.merges", __doc__)
    parser.add_argument("--cases", type=int, default=300)
    parser.add_argument("--seed", type=int, default=1)
    a = parser.parse_args()
    program, plain_program = a.program, plain.build()
    sets, refused, differing = 0, 0, 0
    with tempfile.TemporaryDirectory() as folder:
        for n in range(a.cases):
            rng = random.Random(a.seed * 1_000_003 + n)
            made = texts_of(rng, program, folder)
            if made is None:
                continue
            texts, whole = made
            sets += 1
            if not come_to(rng, program, plain_program, folder, texts, whole):
                differing += 1
                print(f"case {n} of seed {a.seed}: the parts do not merge to the whole")
            if rng.random() < 1 / 3:
                place = rng.randrange(len(texts))
                spoilt = [*texts[:place], unlike(rng, texts[place]), *texts[place + 1:]]
                outcome = merged(program, folder, spoilt)
                wanted = merged(plain_program, folder, spoilt)
                into_file = merged_into(program, folder, spoilt)
                refused += outcome[0] == 1
                if outcome != wanted or into_file != wanted or outcome[0] and outcome[1]:
                    differing += 1
                    print(f"case {n} of seed {a.seed}: a damaged text: {outcome} "
                          f"where the plain program says {wanted}")
    print(f"{sets} sets of statement texts, {refused} damaged ones refused: {differing} wrong")
    return 1 if differing or not sets else 0


if __name__ == "__main__":
    sys.exit(main())
