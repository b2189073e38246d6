#!/usr/bin/env python3
"""random_positions.py PROGRAM [OTHER] [COUNT [SEED]] [linear] [verify] [GAME ..]: solves random positions, and has reports checked.

Each of COUNT positions (500) of the games, or of those named, goes to `solve` and `bounds`, with few or ample turns, visits and
rows, so that every outcome comes up, also with visits that end inside a search that was done before; every fourth is spoilt
first, so that it is refused. Each answer has to be one of docs/FORMATS.md, `check` has to accept each report, the line
of a table has to be that of its states, and no lower bound may be above an upper one of either command. Where OTHER is given,
any program with the same commands, bytes and status have to be those of OTHER. With the word `linear` each position asks for
linear stages, which no other program has to print alike. With the word `verify` OTHER has a command of that name too, which ends
with 0 where both bounds of a report are guaranteed. One seed makes the same positions again.
"""
import json
import os
import random
import re
import subprocess
import sys

import tables
from pages import Formats

SPOILT = [-1, 0, 1, 7, 255, 256, -129, 128, 1.5, -0.0, "x", "win", [], [1, 1], [300], [1, "a"], [1] * 256, None, True, {},
          2**63, 2**64, 8000000001, 1048577, 8191, 17, 1099511627777, -1000001]


def goofspiel(r):
    cards = r.choice([0, 1, 2, 2, 3, 3, 4, 4, 5])
    return dict(game="goofspiel", one=r.sample(range(1, 14), cards), two=r.sample(range(1, 14), cards),
                prizes=[r.randint(1, r.choice([1, 5, 100])) for _ in range(cards)],
                score=r.choice([0, r.randint(-1000, 1000)]), pay=r.choice(["margin", "win", "prizes"]))


def oshi_zumo(r):
    size = r.choice([0, 1, 1, 2, 8])
    return dict(game="oshi_zumo", size=size, one=r.randint(0, 12), two=r.randint(0, 12), least=r.choice([1, 1, 2, 3]),
                place=r.randint(-size, size))


def tron(r):
    height, width = r.choice([(1, 2), (1, 4), (2, 3), (3, 3), (4, 3), (4, 4)])
    one, two, *rest = r.sample(range(height * width), height * width)
    return dict(game="tron", height=height, width=width, walls=rest[:r.randint(0, len(rest) // 2)], one=one, two=two)


def goofspiel_drawn(r):
    p = goofspiel(r)
    # A deck of five has more states than a run should take.
    few = {name: p[name][:4] for name in ("one", "two", "prizes")}
    return dict(p, game="goofspiel_drawn", **few)


def pursuit(r):
    nodes = r.choice([1, 2, 3, 3, 4, 4, 5, 6, 9, 32])
    edges = []
    for _ in range(r.choice([0, nodes, 2 * nodes]) if nodes > 1 else 0):
        edges += r.sample(range(nodes), 2)
    if edges and r.random() < 0.3:
        # The same edge again, in the other order.
        edges += edges[1::-1]
    return dict(game="pursuit", nodes=nodes, edges=edges, one=r.randrange(nodes), two=r.randrange(nodes),
                rounds=r.choice([0, 1, 1, 2, 2, 3, 31 if nodes < 4 else 4]))


def table(r):
    return dict(game="table", states=tables.playable(r))


GAMES = {game.__name__: game for game in (goofspiel, oshi_zumo, tron, goofspiel_drawn, pursuit, table)}


def named(words):
    """The games that words name, all where there is none, and the other words."""
    return [GAMES[word] for word in words if word in GAMES] or list(GAMES.values()), [word for word in words if word not in GAMES]


def position(r, spoil, games=tuple(GAMES.values()), stages=None):
    p = r.choice(games)(r)
    p.update(gap=r.choice([0, 0, 1000, 1000000]), weight=r.choice([8192, 8193, 65536, 1048576]),
             turns=r.choice([0, 0, 1, 2, 5, 50, 5000]),
             visits=r.choice([0, 1, 5, 50, 1000, 100000, r.randint(20, 2000), r.randint(20, 20000), 1099511627776]),
             rows=r.choice([1, 2, 5, 20, 200, 65536, 65536]), workers=1)
    if stages:
        p.update(stages=stages)
    if p["game"] == "table":
        # The search of a large tree has to be cut, and wide stages at a fine weight take long.
        p.update(visits=min(p["visits"], 100000) if tables.tree_size(p["states"]) > 100000 else p["visits"])
        p.update(weight=8192 if tables.width(p["states"]) > 9 else p["weight"])
    if spoil and p["game"] == "table" and r.random() < 0.8:
        for _ in range(r.randint(1, 2)):
            p["states"] = tables.changed(r, p["states"]) if isinstance(p["states"], list) else p["states"]
        spoil = r.random() < 0.1
    for _ in range(r.randint(1, 2) if spoil else 0):
        name = r.choice(list(p))
        if r.random() < 0.2:
            del p[name]
        else:
            p[r.choice([name, name, name, "depth"])] = r.choice(SPOILT)
    return json.dumps(p).encode()


def answer(program, command, text):
    run = subprocess.run([program, command], input=text, capture_output=True, timeout=120)
    return run.returncode, run.stdout


def ends(text):
    """The lower and the upper bound of a text."""
    return [int(number) for word in ("lower", "upper") for number in re.findall(rf"^{word} (-?\d+)$", text.decode(), re.M)]


def report_fault(program, verifier, text, report):
    """What is wrong with a report that was printed for a position, or None."""
    if answer(program, "check", report)[0] != 0:
        return "the report is not accepted"
    asked = json.loads(text)
    if asked["game"] == "table" and report.split(b"\n")[1].decode() != tables.line(asked["states"]):
        return "the line is not that of the states"
    if verifier and answer(verifier, "verify", report)[0] != 0:
        return f"not guaranteed: {answer(verifier, 'verify', report)}"
    return None


def fault(formats, program, other, verifier, text):
    """What is wrong with the answers to a position, or None."""
    solved, bounded = answer(program, "solve", text), answer(program, "bounds", text)
    for command, ours in (("solve", solved), ("bounds", bounded)):
        wrong = formats.fault(command, *ours)
        if wrong:
            return f"{command}: {wrong}"
        if other and answer(other, command, text) != ours:
            return f"{command}: {ours} here, {answer(other, command, text)} there"
    if solved[0] in (0, 3, 4, 5):
        wrong = report_fault(program, verifier, text, solved[1])
        if wrong:
            return wrong
        # Serial bounds and a report's bounds are both guaranteed, so no lower one is above an upper one.
        low, high = zip(ends(solved[1]), ends(bounded[1])) if bounded[0] == 0 else ([0], [0])
        if max(low) > min(high):
            return f"bounds {low} and {high} do not meet"
    return None


def main():
    games, words = named(sys.argv[1:])
    linear, verify = "linear" in words, "verify" in words
    words = [word for word in words if word not in ("linear", "verify")]
    if not words:
        sys.exit("usage: random_positions.py PROGRAM [OTHER] [COUNT [SEED]] [linear] [verify] [GAME ..]")
    program = os.path.realpath(words.pop(0))
    other = os.path.realpath(words.pop(0)) if words and not words[0].isdigit() else None
    count, seed = (int(word) for word in (words + ["500", "1"][len(words):]))
    r, formats, failed = random.Random(seed), Formats(), 0
    for number in range(count):
        text = position(r, number % 4 == 3, games, "linear" if linear else None)
        found = fault(formats, program, None if linear else other, other if verify else None, text)
        if found:
            failed += 1
            print("FAILED", text.decode(), found)
    print(f"{count - failed} passed, {failed} failed")
    sys.exit(failed > 0 or count == 0)


if __name__ == "__main__":
    main()
