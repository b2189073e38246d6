#!/usr/bin/env python3
"""results.py PROGRAM [--only WORD] [--position NAME]: values of classic positions, certified, as Markdown tables.

Each position is solved by one worker with linear stages at weight 1048576 for gap 0, and its report is checked by PROGRAM: no
line is printed of a report that is not accepted. A line has both bounds in millionths of a payoff, the seconds and megabytes
of the solve and of the check, and the first 16 digits of the report's SHA-256. --only takes the positions whose names contain
WORD; --position prints one position as JSON, for `PROGRAM solve`.
"""
from __future__ import annotations

import argparse
import hashlib
import json
import random
import re
import sys

from timing import Table, once

INDUCTION = dict(gap=0, weight=1 << 20, turns=1 << 40, visits=0, rows=1 << 24, workers=1, stages="linear", search="induction")
DIAGONALS = ("no diagonals", "one diagonal", "both diagonals")
ORACLE = dict(gap=0, weight=1 << 20, turns=1 << 40, visits=1 << 40, rows=1 << 20, workers=1, stages="linear")


def goofspiel(cards: int, prizes: list[int], pay: str = "prizes", game: str = "goofspiel") -> dict:
    hand = list(range(1, cards + 1))
    return dict(game=game, one=hand, two=hand, prizes=prizes, score=0, pay=pay, **INDUCTION)


def shuffled(cards: int, seed: int) -> list[int]:
    return random.Random(seed).sample(range(1, cards + 1), cards)


def oshi_zumo(size: int, one: int, two: int) -> dict:
    return dict(game="oshi_zumo", size=size, one=one, two=two, least=1, place=0, **INDUCTION)


def tron(height: int, width: int) -> dict:
    return dict(game="tron", height=height, width=width, walls=[], one=0, two=height * width - 1, **ORACLE)


def grid(height: int, width: int, diagonals: int) -> list[int]:
    """The edges of a grid, with none, one or both diagonals of each square."""
    edges = []
    for row in range(height):
        for column in range(width):
            node = row * width + column
            right, below = column + 1 < width, row + 1 < height
            edges += [node, node + 1] if right else []
            edges += [node, node + width] if below else []
            edges += [node, node + width + 1] if right and below and diagonals >= 1 else []
            edges += [node + 1, node + width] if right and below and diagonals == 2 else []
    return edges


def pursuit(height: int, width: int, diagonals: int, rounds: int) -> dict:
    return dict(game="pursuit", nodes=height * width, edges=grid(height, width, diagonals), one=0, two=height * width - 1,
                rounds=rounds, **INDUCTION)


def positions() -> dict[str, dict]:
    """The classic positions by name, the small ones of each kind first."""
    named = {}
    for cards in range(4, 14):
        rising = list(range(1, cards + 1))
        orders = {"rising": rising, "falling": rising[::-1]} | {f"shuffled by {seed}": shuffled(cards, seed) for seed in (1, 2, 3)}
        named |= {f"goofspiel 1 to {cards}, {order}": goofspiel(cards, prizes) for order, prizes in orders.items()}
    named["goofspiel 1 to 13, thirteen prizes of 1"] = goofspiel(13, [1] * 13)
    for cards in range(4, 7):
        hand = list(range(1, cards + 1))
        named[f"goofspiel 1 to {cards}, drawn"] = goofspiel(cards, hand, game="goofspiel_drawn")
    for one, two in ((15, 15), (20, 20), (31, 31), (50, 50), (50, 49), (50, 45), (50, 40)):
        named[f"oshi zumo 3, {one} and {two} coins"] = oshi_zumo(3, one, two)
    for height, width in ((3, 3), (3, 4), (4, 4), (4, 5), (5, 5), (5, 6), (6, 6)):
        named[f"tron {height} by {width}"] = tron(height, width)
    for height, width, diagonals, rounds in ((4, 5, 1, 24), (5, 6, 2, 24), (6, 6, 2, 40), (8, 8, 0, 40), (8, 8, 1, 40), (8, 8, 2, 40)):
        named[f"pursuit {height} by {width}, {DIAGONALS[diagonals]}, {rounds} rounds"] = pursuit(height, width, diagonals, rounds)
    return named


def number(word: bytes, report: bytes) -> int:
    return int(re.search(rb"^" + word + rb" (-?\d+)", report, re.M).group(1))


def line(program: str, position: dict) -> list[object]:
    """The cells of a position's line."""
    made = once(program, ["solve"], json.dumps(position).encode())
    checked = once(program, ["check"], made.answer)
    if not checked.answer.startswith(b"accepted"):
        raise SystemExit(f"refused: {checked.answer!r}")
    lower, upper = number(b"lower", made.answer), number(b"upper", made.answer)
    digest = hashlib.sha256(made.answer).hexdigest()[:16]
    return [lower, upper, upper - lower, number(b"one", made.answer), number(b"two", made.answer), f"{made.user:.2f}", made.megabytes,
            f"{checked.user:.2f}", checked.megabytes, f"`{digest}`"]


def main() -> None:
    words = argparse.ArgumentParser(description=__doc__.split("\n")[0])
    words.add_argument("program")
    words.add_argument("--only", default="")
    words.add_argument("--position")
    asked = words.parse_args()
    named = positions()
    if asked.position is not None:
        if asked.position not in named:
            sys.exit("no such position; these are there:\n" + "\n".join(named))
        print(json.dumps(named[asked.position]))
        return
    table = Table("position", "lower", "upper", "gap", "rows One", "rows Two", "solve s", "MB", "check s", "MB", "report")
    for name, position in named.items():
        if asked.only in name:
            table.row(name, *line(asked.program, position))
            sys.stdout.flush()


main()
