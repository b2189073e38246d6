#!/usr/bin/env python3
"""tables_of_games.py PROGRAM [COUNT [SEED]]: compares the bounds of COUNT (100) tiny positions with those of their tables.

The positions are those of true_value.py, of the games that have rules of their own; the table of a position has a state for each
state of the game, made of the rules there. `bounds` has to print the same for both. Where the table has the range of payoffs,
the width, the ranks and draws that docs/FORMATS.md has of the game, the reports of `solve` have to have the same bounds,
resolution, outcome and turns; elsewhere no lower bound may be above an upper one. With the word `linear` linear stages are asked
for too. One seed makes the same positions again.
"""
import json
import random
import sys
from pathlib import Path

import tables
from true_value import RULES, answer, number, tiny_position


def in_order(position, state, moves):
    """Moves in the order that docs/FORMATS.md numbers them in: Tron's by direction, others rising."""
    if position["game"] != "tron":
        return [sorted(side) for side in moves]
    steps = [-position["width"], 1, position["width"], -1]
    return [sorted(side, key=lambda cell: steps.index(cell - head)) for side, head in zip(moves, state[1:])]


def table(position):
    """The states of a position's game as those of a table, and the game's states in the same order."""
    root, payoff, moves, after = RULES[position["game"]](position)
    # The reverse of the order in which a walk in depth is done with states, so that each leads only to later ones.
    cells, done, stack = {}, {}, [root]
    while stack:
        state = stack[-1]
        if state in cells:
            done[stack.pop()] = None
            continue
        cells[state] = []
        if payoff(state) is None:
            ones, twos = in_order(position, state, moves(state))
            cells[state] = [[after(state, a, b) for b in twos] for a in ones]
            stack += [follower for row in cells[state] for cell in row for follower, *_ in cell if follower not in cells]
    known = list(reversed(done))
    place = {state: number for number, state in enumerate(known)}

    def draws(cell):
        whole = sum(share for _, share, _ in cell)
        drawn = [[place[state], tables.CHANCE * share // whole] + [pay] * (pay != 0) for state, share, pay in cell]
        return drawn if len(drawn) > 1 or len(drawn[0]) == 3 else drawn[0][0]

    return [[[draws(cell) for cell in row] for row in cells[state]] or payoff(state) for state in known], known


def shape_of_game(p, state):
    """Least and greatest payoff and width of a position, and the rank of a state that is no end, as docs/FORMATS.md has them."""
    if p["game"] in ("goofspiel", "goofspiel_drawn"):
        most = sum(p["prizes"])
        ends = (p["score"] - most, p["score"] + most) if p["pay"] == "margin" else (-1, 1)
        return *ends, max(1, len(p["one"])), len(state[0])
    if p["game"] == "oshi_zumo":
        return -1, 1, max(1, max(p["one"], p["two"]) - p["least"] + 1), max(state[1:]) // p["least"]
    if p["game"] == "tron":
        return -1, 1, 4, (p["height"] * p["width"] - len(state[0]) + 1) // 2
    edges = {frozenset(edge) for edge in zip(p["edges"][::2], p["edges"][1::2])}
    return -1, 1, max(sum(node in edge for edge in edges) for node in range(p["nodes"])) + 1, state[1]


def has_shape(p, states, known):
    """Whether the table has the states, the payoffs, the width, all ranks and the roundings of the game."""
    drawn = p["game"] == "goofspiel_drawn"
    # Keys tell equal prizes apart by their places, as the rules here do not.
    if drawn and len(set(p["prizes"])) < len(p["prizes"]):
        return False
    # Of each state a table knows what can still be got; Goofspiel goes by the sum of the prizes left.
    if p.get("pay") == "prizes":
        return False
    ends = [state for state in states if isinstance(state, int)]
    ranks, _, _, _, draws = tables.lists(states)
    shape = min(ends), max(ends), tables.width(states)
    return bool(draws) == drawn and all(shape_of_game(p, state) == (*shape, rank) for state, rank in zip(known, ranks) if rank > 0)


def numbers(report):
    """The lines of a report between the game's and the sheets."""
    lines = report.splitlines()
    return lines[2:10] + [line.rsplit(" ", 1)[1] for line in lines if line.startswith(("one", "two"))]


def fault(program, position, linear):
    """What differs between a position and its table, or None; and whether the reports had to be alike."""
    states, known = table(position)
    asked = {name: position[name] for name in ("gap", "weight", "turns", "visits", "rows", "workers")}
    as_table = dict(game="table", states=states, **asked)
    ample = dict(visits=1000000, rows=100000)
    bounds = [answer(program, "bounds", json.dumps(dict(p, **ample))) for p in (position, as_table)]
    if bounds[0] != bounds[1] or bounds[0][0] != 0:
        return f"bounds: {bounds}", False
    alike = has_shape(position, states, known) and position["workers"] == 1
    for more in [{}] + [dict(stages="linear", weight=1048576)] * linear:
        (status, game), (other, text) = (answer(program, "solve", json.dumps(dict(p, **more))) for p in (position, as_table))
        if alike and (status, numbers(game)) != (other, numbers(text)):
            return f"solve: {status} {game} and {other} {text}", alike
        if max(number(game, "lower"), number(text, "lower")) > min(number(game, "upper"), number(text, "upper")):
            return f"solve: {game} {text}", alike
    return None, alike


def main():
    words = [word for word in sys.argv[1:] if word != "linear"]
    if not words:
        sys.exit("usage: tables_of_games.py PROGRAM [COUNT [SEED]] [linear]")
    program = str(Path(words[0]).resolve())
    count, seed = (int(word) for word in (words[1:] + ["100", "1"][len(words) - 1:]))
    r, failed, same = random.Random(seed), 0, 0
    games = sorted(set(RULES) - {"table"})
    for tried in range(count):
        position = tiny_position(r, games[tried % len(games)])
        found, alike = fault(program, position, "linear" in sys.argv)
        same += alike
        if found:
            failed += 1
            print("FAILED", json.dumps(position), found)
    print(f"{count - failed} passed, {failed} failed, {same} with reports alike")
    sys.exit(failed > 0 or same == 0)


if __name__ == "__main__":
    main()
