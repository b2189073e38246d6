#!/usr/bin/env python3
"""random_reports.py PROGRAM [OTHER] [COUNT [SEED]] [GAME ..]: measures and plays the plans of random reports, lawful or not.

Each of COUNT reports (500) is one that OTHER, any program with the same commands, or else PROGRAM prints for a random position
of the games, or of those named: as it is, with rows dropped, with weights changed, or with the rows of both sides exchanged. It goes to `exploit one`,
`exploit two` and `play`. Each answer has to be one of docs/FORMATS.md, and that of OTHER, byte for byte. The worst case
of a plan of a report as it is must be no worse than its bound, and the payoff of the first game lies between those of all. One
seed makes the same reports again. No part of the gate.
"""
import os
import random
import re
import subprocess
import sys

from pages import Formats
from random_positions import named, position


def run(program, words, text):
    done = subprocess.run([program, *words], input=text, capture_output=True, timeout=120)
    return done.returncode, done.stdout


def sheets(text):
    """The lines before the sheets, and the rows of both sides as lists of words."""
    lines = text.decode().splitlines()
    one = next(place for place, line in enumerate(lines) if re.fullmatch("one [0-9]+", line))
    two = next(place for place, line in enumerate(lines) if re.fullmatch("two [0-9]+", line))
    return lines[:one], [[line.split(" ") for line in lines[one + 1:two]], [line.split(" ") for line in lines[two + 1:-1]]]


def joined(head, rows):
    lines = list(head)
    for word, side in zip(("one", "two"), rows):
        lines += [f"{word} {len(side)}"] + [" ".join(row) for row in side]
    return ("\n".join(lines + ["end"]) + "\n").encode()


def changed_weights(r, row):
    """Weights exchanged, moved, cut off, put in or of another sum, so that the line is still a row."""
    weights = [int(word) for word in row[2:]]
    place, other = r.randrange(len(weights)), r.randrange(len(weights))
    kind = r.randrange(6)
    if kind < 2:
        weights[place], weights[other] = weights[other], weights[place]
    elif kind == 2:
        part = r.randint(0, weights[place])
        weights[place] -= part
        weights[other] += part
    elif kind == 3:
        weights[place] = min(1048576, max(0, weights[place] + r.choice([-1, 1, 5])))
    elif kind == 4 and len(weights) > 1:
        del weights[place]
    elif len(weights) < 32:
        weights.insert(place, r.choice([0, 0, 1]))
    return row[:2] + [str(weight) for weight in weights]


def changed(r, text):
    """A change of the report, and whether there is none."""
    kind = r.randrange(4)
    if kind == 0:
        return text, True
    head, rows = sheets(text)
    if kind == 1:
        share = r.random()
        rows = [[row for row in side if r.random() < share] for side in rows]
    elif kind == 2:
        rows = [[changed_weights(r, row) if r.random() < 0.5 else row for row in side] for side in rows]
    else:
        rows.reverse()
    return joined(head, rows), False


def undercut(text, answer, side):
    """Whether the worst case of a side's plan is worse than the bound of its report."""
    word, sign = {"one": ("lower", 1), "two": ("upper", -1)}[side]
    bound = int(re.search(rf"^{word} (-?\d+)$", text.decode(), re.M).group(1))
    words = answer.decode().split()
    if words[2] == "exact":
        amount, base, power = (int(number) for number in words[3:])
        return sign * amount * 1000000 < sign * bound * base**power
    # The interval has the worst case in it.
    return sign * max((int(number) for number in words[3:]), key=lambda number: sign * number) < sign * bound


def fault(formats, r, program, other, text, lawful):
    """What is wrong with the answers to a report, or None."""
    games = str(r.choice([1, 2, 10, 1000]))
    for words in (["exploit", "one"], ["exploit", "two"], ["play", games, str(r.choice([0, 1, r.randrange(2**64)]))]):
        ours = run(program, words, text)
        wrong = formats.fault(words[0], *ours)
        if wrong:
            return f"{words}: {wrong}"
        if other and run(other, words, text) != ours:
            return f"{words}: {ours} here, {run(other, words, text)} there"
        if ours[0] != 0:
            return f"{words}: {ours}"
        if words[0] == "exploit" and lawful and undercut(text, ours[1], words[1]):
            return f"{words}: {ours[1]} is worse than the bound"
        if words[0] == "play":
            payoff, count, total, least, most = (int(number) for number in re.search(
                rb"payoff (\S+)\ngames (\S+) sum (\S+) least (\S+) most (\S+)\n$", ours[1]).groups())
            if not least <= payoff <= most or not least * count <= total <= most * count:
                return f"{words}: {ours[1]}"
    return None


def main():
    games, words = named(sys.argv[1:])
    if not words:
        sys.exit("usage: random_reports.py PROGRAM [OTHER] [COUNT [SEED]] [GAME ..]")
    program = os.path.realpath(words.pop(0))
    other = os.path.realpath(words.pop(0)) if words and not words[0].isdigit() else None
    count, seed = (int(word) for word in (words + ["500", "1"][len(words):]))
    r, formats, tried, failed = random.Random(seed), Formats(), 0, 0
    while tried < count:
        status, report = run(other or program, ["solve"], position(r, False, games))
        if status not in (0, 3, 4, 5):
            continue
        text, lawful = changed(r, report)
        found = fault(formats, r, program, other, text, lawful)
        tried += 1
        if found:
            failed += 1
            print("FAILED", text.decode(), found)
    print(f"{tried - failed} passed, {failed} failed")
    sys.exit(failed > 0 or count == 0)


if __name__ == "__main__":
    main()
