"""Makes pairs of statement texts of one usage list, and looks at the adjustment of each.

    python3 -m bench.adjustments --program PATH [--cases 300] [--seed 1]

The first text of a pair is what was paid, the second what is right. They are those of a made-up run
and of one over corrected files; of a list and of its parts; of several runs, merged in two orders;
or made by hand, with amounts that come to more than a row holds. A third of all pairs is spoilt: a
text is damaged, or of another number of usage lines.

The plain program and the program have to say the same, to standard output and into a file, and
where they refuse a pair nothing may be printed. An adjustment is also looked at by itself: with
what was paid it comes to what is right, as the program's `merge` says too; in the other direction
it has the opposite amounts; and where nothing differs it has no portions.
"""
import csv
import random
import sys
import tempfile

from bench.merges import made_files, merged, parts_of, statements, unlike
from tools import claimed, plain
from tools.comparing import csv_rows, first_difference
from tools.damage import COLUMNS
from tools.made_up import parties_of
from tools.running import answer_into_file, answer_over, parser_of_program
from tools.small_inputs import payees, registrations, share
from tools.statement_texts import (MOST, NOTHING, REASONS, Statements, negated, read, text_of,
                                   totals, wrong_in)
from tools.submitters import table

# Payees and uses of texts that are made by hand: some need quotes, which are no part of their
# order, and some begin like others.
HAND_MADE = ["A", "A ", "AA", "a", '"', '""', "!", ",", " ", "~", 'Q"', 'a ""b"", c', "A,B", "A#",
             "-1", "0", "L", "OPEN", "x" * 64, "x" * 63 + ",", '"' * 64]

# Their amounts, and how many rows of a use have one of them.
HAND_MADE_AMOUNTS = [1, -1, 2, 99, MOST - 1, MOST, MOST, -MOST, 1 - MOST, 5 * MOST // 9]
REPEATS = [1, 1, 1, 2, 3, 12]


def other_shares(rng, line):
    """A record that has other shares, if it is a share line."""
    places = [place for place in COLUMNS.get(line[:3], []) if place[1] - place[0] == 5]
    for start, end in places:
        line = line[:start] + share(rng).encode() + line[end:]
    return line


def other_registrations(rng, files):
    """Files with other registrations: some records left out, some shares changed, or all others."""
    kind = rng.random()
    if kind < 0.2:
        return {**files, "cwr": registrations(rng).encode()}
    often = rng.choice([0.02, 0.2, 0.9])
    lines = files["cwr"].split(b"\n")
    if kind < 0.6:
        lines = [line for line in lines if rng.random() >= often]
    else:
        lines = [other_shares(rng, line) if rng.random() < often else line for line in lines]
    return {**files, "cwr": b"\n".join(lines)}


def other_usage(rng, files):
    """Files with as many usage lines, some of which have other fields."""
    often = rng.choice([0.02, 0.3, 1])
    _, *rows = [[field.encode("latin-1") for field in row] for row in csv_rows(files["usage"])]
    for row in rows:
        if rng.random() < often:
            place = rng.choice([0, 1, 2, 4, 4, 4, 4])
            amounts = [b"0", b"-1", b"%d" % rng.randint(-MOST, MOST), b"%d" % -int(row[4])]
            row[place] = rng.choice(amounts if place == 4 else rng.choice(rows)[place:place + 1])
    return {**files, "usage": table("usage", rows)}


def other_payees(rng, files):
    """Files with another table of payees."""
    parties = [party.decode() for party in parties_of(files["cwr"])]
    return {**files, "payees": payees(rng, parties).encode()}


def corrected(rng, files):
    """Files of which one or two are others; the list has as many usage lines."""
    for change in rng.sample([other_registrations, other_usage, other_payees], rng.randint(1, 2)):
        files = change(rng, files)
    return files


def files_of(rng, folder):
    """The files of a made-up run, by name; at times works are claimed in part, in full or over."""
    return claimed.one_file(rng, {}) if rng.random() < 0.4 else made_files(rng, f"{folder}/made")


def told(outcomes):
    """What programs printed that refused nothing; none if one of them did."""
    return None if any(status for status, _, _ in outcomes) else [text for _, text, _ in outcomes]


def of_two_runs(rng, program, folder):
    """The texts of a made-up run and of one over corrected files; none if one is refused."""
    files = files_of(rng, folder)
    return told([statements(program, f"{folder}/run", each)
                 for each in (files, corrected(rng, files))])


def of_parts(rng, program, folder):
    """The texts of a list and of its parts, merged in any order, some of them with corrections."""
    files = files_of(rng, folder)
    others = corrected(rng, files)
    runs = [{**rng.choice([files, others]), "usage": part}
            for part in parts_of(rng, files["usage"])]
    texts = told([statements(program, f"{folder}/run", each) for each in [files, *runs]])
    if texts is None:
        return None
    paid, *parts = texts
    rng.shuffle(parts)
    return told([(0, paid, b""), merged(program, folder, parts)])


def of_several(rng, program, folder):
    """The texts of pairs of runs, merged in two orders; none if a run is refused."""
    pairs = [of_two_runs(rng, program, folder) for _ in range(rng.randint(2, 3))]
    if None in pairs:
        return None
    paid = [pair[0] for pair in pairs]
    rng.shuffle(pairs)
    return told([merged(program, folder, texts) for texts in (paid, [pair[1] for pair in pairs])])


def portions_by_hand(rng):
    """Uses and amounts, one at least, in any order."""
    found = []
    for _ in range(rng.randint(1, 4)):
        found += [(rng.choice(HAND_MADE), rng.choice(HAND_MADE_AMOUNTS))] * rng.choice(REPEATS)
    rng.shuffle(found)
    return found


def rests_by_hand(rng):
    """Reasons, uses and amounts, in any order."""
    return [(rng.choice(REASONS), *portion)
            for portion in rng.choice([[], portions_by_hand(rng), portions_by_hand(rng)])]


def by_hand(rng, _program, _folder):
    """Two texts that are made by hand: some payees and reasons are in one alone, some the same."""
    lines, texts = rng.choice([0, 1, 77, 10**18]), []
    portions = {payee: portions_by_hand(rng) for payee in HAND_MADE}
    rests = rests_by_hand(rng)
    for _ in range(2):
        some = sorted(rng.sample(HAND_MADE, rng.choice([0, 1, 5, len(HAND_MADE)])))
        given = {payee: rng.choice([portions[payee], portions[payee][1:] or portions[payee],
                                    portions_by_hand(rng)]) for payee in some}
        left = rng.choice([rests, rests[::-1], rests_by_hand(rng)])
        texts.append(text_of(Statements(given, left, lines)))
    return texts


def made_pair(rng, program, folder):
    """A pair of sound texts, at times twice the same; none if a run is refused."""
    make = rng.choices([of_two_runs, of_parts, of_several, by_hand], [4, 2, 2, 3])[0]
    pair = make(rng, program, folder)
    if pair and rng.random() < 0.05:
        pair = [rng.choice(pair)] * 2
    return pair


def of_other_lines(rng, text):
    """A text that says it is of another number of usage lines."""
    found = read(text)
    numbers = {0, 1, max(found.lines, 1) - 1, min(found.lines + 1, 10**18), 10**18}
    return text_of(found._replace(lines=rng.choice(sorted(numbers - {found.lines}))))


def spoilt(rng, pair):
    """A pair after an accident to one text or to both: it is damaged, or of other usage lines."""
    accidents = [[unlike, None], [None, unlike], [unlike, unlike], [of_other_lines, None],
                 [None, of_other_lines], [of_other_lines, unlike], [unlike, of_other_lines]]
    return [accident(rng, text) if accident else text
            for accident, text in zip(rng.choice(accidents), pair)]


def adjusted(program, folder, pair, answer=answer_over):
    """The outcome of adjusting what was paid to what is right."""
    return answer(program, "adjust", folder, dict(zip(("paid.csv", "right.csv"), pair)))


def wrong_beside_others(program, folder, pair, text):
    """What is wrong in an adjustment beside other answers of the program."""
    paid, right = pair
    wrong = []
    status, together, _ = merged(program, folder, [paid, text])
    if status or totals(together) != totals(right) or read(together).lines != read(right).lines:
        wrong.append("merged with what was paid, it does not come to what is right")
    others = {"in the other direction, the amounts are not the opposite ones":
              ((right, paid), negated(text)),
              "of what was paid there is an adjustment to itself": ((paid, paid), NOTHING),
              "of what is right there is an adjustment to itself": ((right, right), NOTHING),
              "once it was paid too, there is something to adjust":
              ((together, right), NOTHING)}
    wrong += [what for what, (other, wanted) in others.items()
              if adjusted(program, folder, other) != (0, wanted, b"")]
    return wrong


def wrong_of(program, plain_program, folder, pair):
    """The status with which a program adjusts a pair, and what is wrong in its answer."""
    outcome = adjusted(program, folder, pair)
    status, text, _ = outcome
    wrong = []
    wanted = adjusted(plain_program, folder, pair)
    if outcome != wanted:
        wrong.append(f"the plain program differs: {first_difference(outcome, wanted)}")
    into_file = adjusted(program, folder, pair, answer_into_file)
    if into_file != outcome:
        wrong.append(f"into a file it differs: {first_difference(into_file, outcome)}")
    if status:
        return status, wrong + ["a refusal printed something"] * bool(text)
    try:
        wrong += wrong_in(*pair, text)
        wrong += wrong_beside_others(program, folder, pair, text)
    except (ValueError, LookupError, csv.Error) as error:
        wrong.append(f"a text has another form: {error!r}")
    return status, wrong


def main():
    parser = parser_of_program("bench.adjustments", __doc__)
    parser.add_argument("--cases", type=int, default=300)
    parser.add_argument("--seed", type=int, default=1)
    a = parser.parse_args()
    program, plain_program = a.program, plain.build()
    pairs, refused, differing = 0, 0, 0
    with tempfile.TemporaryDirectory() as folder:
        for n in range(a.cases):
            rng = random.Random(a.seed * 1_000_003 + n)
            pair = made_pair(rng, program, folder)
            if pair is None:
                continue
            made = [("a pair", pair)]
            if rng.random() < 1 / 2:
                made.append(("a spoilt pair", spoilt(rng, pair)))
            for what, texts in made:
                status, wrong = wrong_of(program, plain_program, folder, texts)
                if status and texts is pair:
                    wrong.append("it is refused")
                pairs += 1
                refused += status == 1
                if wrong:
                    differing += 1
                    print(f"case {n} of seed {a.seed}, {what}: {'; '.join(wrong)}")
    print(f"{pairs} pairs of statement texts, {refused} of them refused: {differing} differ")
    return 1 if differing or not pairs else 0


if __name__ == "__main__":
    sys.exit(main())
