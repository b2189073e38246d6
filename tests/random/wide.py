#!/usr/bin/env python3
"""wide.py PROGRAM [VERIFIER] [COUNT [SEED]]: random positions beyond the narrow limits, with linear stages and without.

Each of COUNT positions (60) of Oshi-Zumo, pursuit and tables has more than 31 coins, 32 nodes, 31 rounds, 32 moves or 31 turns.
With linear stages, by double oracle and by induction, its report has version 3 and `check` accepts it; VERIFIER, any program with
a command `verify`, has to end with 0 for it, and its `bounds` to be those of PROGRAM. Without, or with regret matching, the
position is refused by the rule that the narrow limits break. A game of more than 32 moves is refused at weight 32767.
"""
import json
import os
import random
import sys

from random_positions import answer, ends

BUDGETS = dict(gap=0, turns=1 << 40, visits=2000, rows=1 << 17, workers=1)


def oshi_zumo(r):
    """A position, the rule that the narrow limits break, and how many moves a side may have."""
    one, two, least = r.randint(32, 63), r.randint(0, 40), r.randint(8, 40)
    size = r.choice([0, 1, 2])
    position = dict(game="oshi_zumo", size=size, one=one, two=two, least=least, place=r.randint(-size, size))
    return position, b"input 32 coin range\n", max(max(one, two) + 1 - least, 1)


def path_or_star(r, nodes):
    if r.random() < 0.5:
        return [node for first in range(nodes - 1) for node in (first, first + 1)], 3
    leaves = r.randint(1, nodes - 1)
    return [node for leaf in range(1, leaves + 1) for node in (0, leaf)], leaves + 1


def pursuit(r):
    nodes, rounds = r.choice([(r.randint(33, 64), r.randint(1, 4)), (r.randint(2, 5), r.randint(32, 63))])
    edges, moves = path_or_star(r, nodes)
    position = dict(game="pursuit", nodes=nodes, edges=edges, one=r.randrange(nodes), two=r.randrange(nodes), rounds=rounds)
    return position, b"input 71 nodes range\n" if nodes > 32 else b"input 76 rounds range\n", moves


def wide_table(r):
    rows, cols = r.choice([(r.randint(33, 64), r.randint(1, 3)), (r.randint(1, 3), r.randint(33, 64)), (r.randint(33, 40), r.randint(33, 40))])
    cells = [[r.randint(1, 4) for _ in range(cols)] for _ in range(rows)]
    refused = b"input 84 rows range 0\n" if rows > 32 else b"input 85 cells range 0\n"
    return dict(game="table", states=[cells] + [r.randint(-9, 9) for _ in range(4)]), refused, max(rows, cols)


def long_table(r):
    turns = r.randint(32, 63)
    states = [[[place + 1, r.choice([place + 1, turns])], [turns, place + 1]] for place in range(turns)]
    return dict(game="table", states=states + [r.randint(-9, 9)]), b"input 89 turns 0\n", 2


def fault(program, verifier, position, refused, moves):
    """What is wrong with the answers to a position, or None."""
    for stages in ({}, {"stages": "regret"}):
        status, text = answer(program, "solve", json.dumps(position | BUDGETS | {"weight": 32768} | stages).encode())
        if (status, text) != (2, refused):
            return f"{status} {text!r} with {stages}"
    linear = position | BUDGETS | {"weight": 32768, "stages": "linear"}
    status, text = answer(program, "solve", json.dumps(linear | {"weight": 32767}).encode())
    if (moves > 32) != ((status, text) == (2, b"input 91 weight\n")):
        return f"{status} {text[:40]!r} at weight 32767 with {moves} moves"
    for search in ("oracle", "induction"):
        status, report = answer(program, "solve", json.dumps(linear | {"search": search}).encode())
        if status not in (0, 3) or not report.startswith(b"dosolve report 3\n"):
            return f"{status} {report[:40]!r} by {search}"
        if answer(program, "check", report)[0] != 0:
            return f"not accepted by {search}"
        if verifier and answer(verifier, "verify", report)[0] != 0:
            return f"not guaranteed by {search}"
        status, text = answer(program, "bounds", json.dumps(linear).encode())
        if verifier and (status, text) != answer(verifier, "bounds", json.dumps(linear).encode()):
            return f"bounds {text!r}"
        if status == 0 and max(ends(text)[0], ends(report)[0]) > min(ends(text)[1], ends(report)[1]):
            return f"bounds {ends(text)} and {ends(report)} do not meet"
    return None


def main():
    words = sys.argv[1:]
    if not words:
        sys.exit("usage: wide.py PROGRAM [VERIFIER] [COUNT [SEED]]")
    program = os.path.realpath(words.pop(0))
    verifier = os.path.realpath(words.pop(0)) if words and not words[0].isdigit() else None
    count, seed = (int(word) for word in (words + ["60", "1"][len(words):]))
    r, failed = random.Random(seed), 0
    for _ in range(count):
        position, refused, moves = r.choice((oshi_zumo, pursuit, wide_table, long_table))(r)
        wrong = fault(program, verifier, position, refused, moves)
        if wrong:
            failed += 1
            print("FAILED", json.dumps(position), wrong)
    print(f"{count - failed} passed, {failed} failed")
    sys.exit(failed > 0 or count == 0)


if __name__ == "__main__":
    main()
