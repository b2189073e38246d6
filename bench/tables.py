#!/usr/bin/env python3
"""bench/tables.py PROGRAM [--runs N] [--regret]: times tables, and prints two Markdown tables.

The first has Goofspiel with the cards and prizes 1 to 6 (`margin`) beside its table: the median of N runs (5) of each step in
seconds, how many times as long the table takes, and the same without the time that reading takes, which is that of a `bounds`
without visits, or of a single game of a report. The second has tables that fill a position, whose states
have two or three moves a side, without draws and with: what reading, solving, writing and checking take together. Positions ask
for linear stages; with --regret for none, as of a program that does not know them. Each report has to be accepted.
"""
import argparse
import json
import os
import random
import subprocess
import sys
from pathlib import Path

from timing import Table, median, several

sys.path.insert(0, str(Path(__file__).resolve().parent.parent / "tests" / "random"))
sys.dont_write_bytecode = True
from tables import CHANCE  # noqa: E402
from tables_of_games import table  # noqa: E402

MOST_BYTES, TURNS = 1048576, 20
# What a step of a table may take beside the same step of the game, reading left out and up to NOISE seconds, and what a full
# table may take from reading to the check of its report.
MOST_TIMES, NOISE, MOST_SECONDS = 1.5, 0.005, 2.0


def asked(regret):
    most = dict(gap=0, weight=1048576, turns=1099511627776, visits=1099511627776, rows=1048576, workers=1)
    return dict(most, weight=8192, visits=40000) if regret else dict(most, stages="linear")


def goofspiel():
    cards = list(range(1, 7))
    return dict(game="goofspiel", one=cards, two=cards, prizes=cards, score=0, pay="margin")


def layers(count, moves, drawn):
    """So many states of so many moves a side, in layers of which each leads to the next, and ends behind them."""
    r, sizes = random.Random(1), [1]
    while sum(sizes) < count:
        left = max(1, TURNS - len(sizes))
        sizes.append(max(1, min(sizes[-1] * moves, -(-(count - sum(sizes)) // left))))
    sizes.append(41)
    states, first = [], 0
    for size, behind in zip(sizes, sizes[1:]):
        first += size

        def follower():
            return first + r.randrange(behind)

        def cell():
            return [[follower(), CHANCE // 3], [follower(), CHANCE - CHANCE // 3]] if drawn else follower()

        states += [[[cell() for _ in range(moves)] for _ in range(moves)] for _ in range(size)]
    return states + [r.randint(-100, 100) for _ in range(sizes[-1])]


def full(moves, drawn, ask):
    """The largest such position that is not too long."""
    def text(count):
        return json.dumps(dict(game="table", states=layers(count, moves, drawn), **ask), separators=(",", ":"))

    low, high = 1, 100000
    while low + 1 < high:
        middle = (low + high) // 2
        low, high = (middle, high) if len(text(middle)) <= MOST_BYTES else (low, middle)
    return text(low)


def solved(program, position):
    text = subprocess.run([program, "solve"], input=json.dumps(position).encode(), capture_output=True).stdout
    checked = subprocess.run([program, "check"], input=text, capture_output=True).stdout.decode()
    if not checked.startswith("accepted"):
        sys.exit(f"the report is not accepted: {checked or text[:200]}")
    return text


def steps(position, report, ask):
    """Two groups of steps, each a name, the words and the input; the first of a group only reads."""
    def put(**more):
        return json.dumps(dict(position, **dict(ask, **more))).encode()

    yield [("read a position", ["bounds"], put(visits=0)), ("solve", ["solve"], put()),
           ("solve without turns", ["solve"], put(turns=0, visits=1000000)), ("bounds", ["bounds"], put(visits=1000000))]
    yield [("read a report", ["play", "1", "0"], report), ("check", ["check"], report),
           ("exploit one", ["exploit", "one"], report), ("exploit two", ["exploit", "two"], report),
           ("play 1000 0", ["play", "1000", "0"], report)]


def beside(program, runs, ask):
    """Each step of the game and of its table, and whether all keep the limit, reading left out."""
    games = [goofspiel(), dict(game="table", states=table(goofspiel())[0])]
    print(f"The table has {len(games[1]['states'])} states and {len(json.dumps(games[1], separators=(',', ':')))} bytes.")
    shown = Table("step", "goofspiel s", "table s", "times as long", "reading left out")
    kept = True
    for groups in zip(*(steps(game, solved(program, dict(game, **ask)), ask) for game in games)):
        read = None
        for (name, words, text), (_, _, other) in zip(*groups):
            took = [median(several(program, words, each, runs)).wall for each in (text, other)]
            read = read or took
            net = [max(0.001, each - reading) for each, reading in zip(took, read)]
            left = "" if read is took else f"{net[1] / net[0]:.2f}"
            kept = kept and (read is took or net[1] <= MOST_TIMES * net[0] + NOISE)
            shown.row(name, f"{took[0]:.3f}", f"{took[1]:.3f}", f"{took[1] / took[0]:.2f}", left)
    return kept


def filled(program, runs, ask):
    """Full positions, and whether all keep the limit."""
    shown = Table("table", "bytes", "states", "solve s", "check s", "together s", "status", "verdict")
    kept = True
    for moves, drawn in ((2, False), (3, False), (2, True)):
        text = full(moves, drawn, ask)
        solve = median(several(program, ["solve"], text.encode(), runs))
        check = median(several(program, ["check"], solve.answer, runs))
        seconds = solve.wall + check.wall
        kept = kept and check.answer.startswith(b"accepted") and seconds <= MOST_SECONDS
        name = f"{moves} moves a side" + (", two draws a cell" if drawn else "")
        shown.row(name, len(text), len(json.loads(text)["states"]), f"{solve.wall:.2f}", f"{check.wall:.2f}", f"{seconds:.2f}",
                  solve.status, check.answer.decode().strip())
    return kept


def main():
    words = argparse.ArgumentParser(description=__doc__.split("\n")[0])
    words.add_argument("program")
    words.add_argument("--runs", type=int, default=5)
    words.add_argument("--regret", action="store_true")
    given = words.parse_args()
    program = os.path.realpath(given.program)
    kept = [beside(program, given.runs, asked(given.regret)), filled(program, given.runs, asked(given.regret))]
    print(f"\nAt most {MOST_TIMES} times as long as the game: {kept[0]}. Full tables in at most {MOST_SECONDS} seconds: {kept[1]}.")


main()
