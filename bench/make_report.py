#!/usr/bin/env python3
"""make_report.py PROGRAM POSITION > REPORT: makes a lawful report with a row for each state.

POSITION is a file with a position of Goofspiel, score 0 and the same cards in both hands. Each plan has a row for each state
that is no end, mixes over all moves, and claims no more than the least (the greatest) payoff of all. The resolution is
the program's. With eight cards and prizes that all sums tell apart there are 1,095,102 rows.
"""
import json
import subprocess
import sys

WEIGHT = 8192
SCALE = 1000000

program = sys.argv[1]
with open(sys.argv[2], "rb") as file:
    position = json.load(file)
position.update(gap=0, weight=WEIGHT, turns=0, visits=0, rows=1, workers=1)
cards, prizes = position["one"], position["prizes"]
answer = subprocess.run([program, "solve"], input=json.dumps(position).encode(), capture_output=True).stdout.decode()
head = dict(line.split(" ", 1) for line in answer.splitlines()[1:6])

full = sum(1 << (card - 1) for card in cards)
level = {(full, full, 0)}
states = set(level)
for prize in prizes[:-1]:
    after = set()
    for one, two, score in level:
        for a in cards:
            if one >> (a - 1) & 1:
                for b in cards:
                    if two >> (b - 1) & 1:
                        gain = prize if a > b else -prize if b > a else 0
                        after.add((one & ~(1 << (a - 1)), two & ~(1 << (b - 1)), score + gain))
    states |= after
    level = after

most = sum(prizes) * SCALE
rows = sorted(((one << 13 | two) << 13 | (score + 2300), bin(one).count("1")) for one, two, score in states)


def weights(moves):
    each = WEIGHT // moves
    return [WEIGHT - each * (moves - 1)] + [each] * (moves - 1)


out = sys.stdout
out.write(f"dosolve report 1\ngame {head['game']}\nweight {WEIGHT}\nturns 0\nasked 0\nresolution {head['resolution']}\n")
out.write(f"outcome full\nlower {-most}\nupper {most}\nspent 0\n")
for word, bound in (("one", -most), ("two", most)):
    out.write(f"{word} {len(rows)}\n")
    for key, moves in rows:
        out.write(f"{key} {bound} {' '.join(map(str, weights(moves)))}\n")
out.write("end\n")
