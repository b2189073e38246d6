#!/usr/bin/env python3
"""true_value.py PROGRAM [COUNT [SEED]] [regret] [GAME ..]: compares the program's bounds with true values on COUNT (100) tiny positions.

The values come from here alone, and share nothing with the program or its package: rules on plain tuples, backward induction
over all states in exact fractions, each state's matrix game by a simplex whose answer is checked against both sides. The
bounds that `solve` prints by regret matching and by linear programs, and those of `bounds`, have to enclose the value, those of
a closed report whose gap is 0 have to equal it, and `check` has to accept each report.
The positions are of the games of docs/FORMATS.md, or of those named. With the word `regret` no linear programs are asked
for. One seed makes the same positions again.
"""
import json
import random
import re
import subprocess
import sys
from fractions import Fraction
from pathlib import Path

import tables
from pages import PAGE

SCALE = 1_000_000


# A game is its root and three functions: the payoff of an end or None, the moves of both sides, and the states that follow a
# pair of moves, each with its share of the chance and what the turn pays.

def goofspiel(p):
    drawn = p["game"] == "goofspiel_drawn"

    def payoff(state):
        return None if state[0] else (state[2] > 0) - (state[2] < 0) if p["pay"] == "win" else state[2]

    def moves(state):
        return state[0], state[1]

    def after(state, a, b):
        one, two, score, prizes = state
        won = prizes[0] * ((a > b) - (a < b))
        later, now = (0, won) if p["pay"] == "prizes" else (won, 0)
        hands = tuple(c for c in one if c != a), tuple(c for c in two if c != b), score + later
        left = prizes[1:]
        if not drawn or not left:
            return [((*hands, left), 1, now)]
        return [((*hands, (left[i],) + left[:i] + left[i + 1:]), 1, now) for i in range(len(left))]

    return (tuple(p["one"]), tuple(p["two"]), p["score"], tuple(p["prizes"])), payoff, moves, after


def oshi_zumo(p):
    size, least = p["size"], p["least"]

    def payoff(state):
        place, *coins = state
        return (place > 0) - (place < 0) if abs(place) > size or max(coins) < least else None

    def moves(state):
        return [list(range(least, coins + 1)) or [0] for coins in state[1:]]

    def after(state, a, b):
        return [((state[0] + (a > b) - (a < b), state[1] - a, state[2] - b), 1, 0)]

    return (p["place"], p["one"], p["two"]), payoff, moves, after


def tron(p):
    def free(taken, cell):
        near = [cell - p["width"], cell + p["width"]]
        near += [cell - 1] * (cell % p["width"] > 0) + [cell + 1] * (cell % p["width"] < p["width"] - 1)
        return [c for c in near if 0 <= c < p["height"] * p["width"] and c not in taken]

    def payoff(state):
        taken, one, two = state
        shut = not free(taken, one), not free(taken, two)
        return 0 if one == two else shut[1] - shut[0] if any(shut) else None

    def moves(state):
        return free(state[0], state[1]), free(state[0], state[2])

    def after(state, a, b):
        return [((state[0] | {a, b}, a, b), 1, 0)]

    return (frozenset(p["walls"] + [p["one"], p["two"]]), p["one"], p["two"]), payoff, moves, after


def pursuit(p):
    edges = list(zip(p["edges"][::2], p["edges"][1::2]))

    def payoff(state):
        caught, rounds, _, _ = state
        return 1 if caught else -1 if rounds == 0 else None

    def near(node):
        return sorted({node} | {b for a, b in edges if a == node} | {a for a, b in edges if b == node})

    def moves(state):
        return near(state[2]), near(state[3])

    def after(state, a, b):
        return [((a == b or (a == state[3] and b == state[2]), state[1] - 1, a, b), 1, 0)]

    return (p["one"] == p["two"], p["rounds"], p["one"], p["two"]), payoff, moves, after


def table(p):
    states = p["states"]

    def payoff(state):
        return states[state] if isinstance(states[state], int) else None

    def moves(state):
        return range(len(states[state])), range(len(states[state][0]))

    def after(state, a, b):
        cell = states[state][a][b]
        return [(cell, 1, 0)] if isinstance(cell, int) else [(*draw, 0)[:3] for draw in cell]

    return 0, payoff, moves, after


RULES = {"goofspiel": goofspiel, "goofspiel_drawn": goofspiel, "oshi_zumo": oshi_zumo, "tron": tron, "pursuit": pursuit, "table": table}


def matrix_value(matrix):
    """The value of a matrix game, rows for the one who gets it: the columns' program by the simplex, least index first."""
    shift = 1 - min(map(min, matrix))
    rows, columns = len(matrix), len(matrix[0])
    # Greatest sum of y with (matrix + shift) y <= 1; behind the columns are a slack for each row, and the right side.
    table = [[cell + shift for cell in row] + [Fraction(i == j) for j in range(rows)] + [Fraction(1)] for i, row in enumerate(matrix)]
    table.append([Fraction(-1)] * columns + [Fraction(0)] * (rows + 1))
    basis = [columns + i for i in range(rows)]
    while True:
        enter = next((j for j in range(rows + columns) if table[-1][j] < 0), None)
        if enter is None:
            break
        ratios = [(table[i][-1] / table[i][enter], basis[i], i) for i in range(rows) if table[i][enter] > 0]
        leave = min(ratios)[2]
        pivot = table[leave][enter]
        table[leave] = [x / pivot for x in table[leave]]
        for i in range(rows + 1):
            if i != leave and table[i][enter]:
                factor = table[i][enter]
                table[i] = [x - factor * y for x, y in zip(table[i], table[leave])]
        basis[leave] = enter
    whole = table[-1][-1]
    value = 1 / whole - shift
    mine = [x / whole for x in table[-1][columns:columns + rows]]
    yours = [sum(table[i][-1] for i in range(rows) if basis[i] == j) / whole for j in range(columns)]
    assert min(mine) >= 0 and min(yours) >= 0 and sum(mine) == sum(yours) == 1
    assert min(sum(mine[i] * matrix[i][j] for i in range(rows)) for j in range(columns)) == value
    assert max(sum(yours[j] * row[j] for j in range(columns)) for row in matrix) == value
    return value


def mean(values, cell):
    return sum((values[state] + pay) * share for state, share, pay in cell) / sum(share for _, share, _ in cell)


def true_value(position):
    """The value of a position in payoffs, exactly; None where it has more than 3000 states."""
    root, payoff, moves, after = RULES[position["game"]](position)
    values, stack = {}, [root]
    while stack:
        state = stack[-1]
        if state in values:
            stack.pop()
            continue
        end = payoff(state)
        if end is not None:
            values[stack.pop()] = Fraction(end)
            continue
        ones, twos = moves(state)
        cells = [[after(state, a, b) for b in twos] for a in ones]
        missing = [t for row in cells for cell in row for t, *_ in cell if t not in values]
        if missing:
            stack += missing
            if len(values) > 3000:
                return None
        else:
            values[stack.pop()] = matrix_value([[mean(values, cell) for cell in row] for row in cells])
    return values[root]


def tiny_position(r, game):
    if game in ("goofspiel", "goofspiel_drawn"):
        cards = r.choice([1, 2, 3, 3])
        p = dict(one=r.sample(range(1, 14), cards), two=r.sample(range(1, 14), cards),
                 prizes=[r.randint(1, r.choice([2, 9, 100])) for _ in range(cards)], score=r.randint(-3, 3),
                 pay=r.choice(["margin", "win", "prizes"]))
    elif game == "oshi_zumo":
        size = r.choice([0, 1, 1, 2])
        p = dict(size=size, one=r.randint(0, 6), two=r.randint(0, 6), least=r.choice([1, 1, 2]), place=r.randint(-size, size))
    elif game == "tron":
        height, width = r.choice([(1, 4), (2, 3), (3, 3), (3, 4), (4, 3)])
        one, two, *rest = r.sample(range(height * width), height * width)
        p = dict(height=height, width=width, walls=rest[:r.randint(0, len(rest) // 3)], one=one, two=two)
    elif game == "table":
        p = dict(states=tables.playable(r, 6))
    else:
        nodes = r.randint(2, 6)
        p = dict(nodes=nodes, edges=[n for _ in range(r.randint(1, 2 * nodes)) for n in r.sample(range(nodes), 2)],
                 one=r.randrange(nodes), two=r.randrange(nodes), rounds=r.randint(0, 4))
    return dict(game=game, **p, gap=r.choice([0, 0, 1000]), weight=r.choice([8192, 65536]), turns=r.choice([0, 3, 1000, 1000]),
                visits=r.choice([0, 30, 100000]), rows=r.choice([3, 5000, 5000]), workers=r.choice([1, 1, 2]))


def answer(program, command, text):
    run = subprocess.run([program, command], input=text.encode(), capture_output=True, timeout=60)
    return run.returncode, run.stdout.decode()


def number(text, word):
    return int(re.search(rf"^{word} (-?\d+)$", text, re.M)[1])


def fault(program, position, value, linear):
    """What is wrong with the program's bounds of a position with this value, or None; and whether they were exact."""
    exact = False
    for asked in [position] + [dict(position, stages="linear", weight=1048576)] * linear:
        status, text = answer(program, "solve", json.dumps(asked))
        if status not in (0, 3, 4, 5):
            return f"solve: status {status}, {text}", False
        lower, upper = number(text, "lower"), number(text, "upper")
        if not lower <= value * SCALE <= upper:
            return f"solve: {lower} to {upper}", False
        if answer(program, "check", text)[0] != 0:
            return "check: the report is not accepted", False
        exact = exact or status == 0 and lower == upper
    status, text = answer(program, "bounds", json.dumps(position))
    if status == 0 and not number(text, "lower") <= value * SCALE <= number(text, "upper"):
        return f"bounds: {text}", exact
    return None, exact


def main():
    named = [word for word in sys.argv[1:] if word in RULES]
    linear = "regret" not in sys.argv
    words = [word for word in sys.argv[1:] if word not in RULES and word != "regret"]
    if not words:
        sys.exit("usage: true_value.py PROGRAM [COUNT [SEED]] [regret] [GAME ..]")
    program = str(Path(words[0]).resolve())
    count, seed = (int(word) for word in (words[1:] + ["100", "1"][len(words) - 1:]))
    games = re.findall(r"`(\w+)`", re.search(r"^\| each \| `game` \| text \|([^|]*)\|", PAGE.read_text(), re.M)[1])
    assert set(games) <= set(RULES), "rules are missing"
    games = named or games
    r, failed, tried, exact, mixed = random.Random(seed), 0, 0, 0, 0
    while tried < count:
        position = tiny_position(r, games[tried % len(games)])
        value = true_value(position)
        if value is None:
            continue
        tried += 1
        found, equal = fault(program, position, value, linear)
        exact += equal
        mixed += value.denominator > 1
        if found:
            failed += 1
            print("FAILED", json.dumps(position), "value", value * SCALE, found)
    print(f"{tried - failed} passed, {failed} failed, {exact} closed exactly, {mixed} with mixed values")
    sys.exit(failed > 0 or exact == 0 or mixed == 0)


if __name__ == "__main__":
    main()
