#!/usr/bin/env python3
"""linear.py PROGRAM [OTHER] [--runs N] [--only WORD]: linear stages on positions of bench/positions, as Markdown tables.

The positions are those that ask for gap 0 at weight 8192 with one worker and turns; here they ask for linear stages at weight
1048576. A time is the least wall time of N runs (3). The tables:

- each position for gap 0; where OTHER is given, beside its `solve` of the position as it is, and beside its `value`,
  backward induction with a linear program for each state
- a gap asked of a quarter and of a sixteenth of the range of payoffs, and half of the turns that gap 0 takes
- two and four workers

Each report is checked by PROGRAM. --only takes the files whose names contain WORD.
"""
import argparse
import json
import re

from timing import HERE, Table, least, megabytes, several

MOST = 1 << 40


def run(program, command, text, runs=1):
    """The least wall seconds, the most memory, and the first answer."""
    return least(several(program, [command], text, runs))


def solve(program, position, runs, **changes):
    """The run of a solve, whose report is checked, the turns of each worker, and the gap."""
    text = json.dumps({**position, "weight": 1 << 20, "stages": "linear", **changes}).encode()
    made = run(program, "solve", text, runs)
    verdict = run(program, "check", made.answer).answer
    if not verdict.startswith(b"accepted"):
        raise SystemExit(f"refused: {verdict!r}")
    lower, upper = (int(re.search(rb"^" + word + rb" (-?\d+)$", made.answer, re.M).group(1)) for word in (b"lower", b"upper"))
    turns = [int(turns) for turns in re.search(rb"^spent (.*)$", made.answer, re.M).group(1).split()]
    return made.wall, megabytes(program, ["solve"], text, made.megabytes), turns, upper - lower


def main():
    words = argparse.ArgumentParser(description=__doc__.split("\n")[0])
    words.add_argument("program")
    words.add_argument("other", nargs="?")
    words.add_argument("--runs", type=int, default=3)
    words.add_argument("--only", default="")
    asked = words.parse_args()
    cases = {}
    for file in sorted((HERE / "positions").glob("solve_*.json")):
        position = json.loads(file.read_text())
        if position["workers"] == 1 and position["turns"] == MOST and position["weight"] == 8192 and asked.only in file.stem:
            cases[file.stem.removeprefix("solve_").replace("_", " ")] = position

    whole = {}
    table = Table("position", "s", "MB", "turns", "gap", "other's solve s", "of it", "other's value s", "times it")
    for name, position in cases.items():
        wall, memory, turns, gap = solve(asked.program, position, asked.runs)
        whole[name] = wall, turns[0]
        cells = []
        if asked.other:
            plain = json.dumps(position).encode()
            other, value = run(asked.other, "solve", plain).wall, run(asked.other, "value", plain, asked.runs).wall
            cells = [f"{other:.2f}", f"{wall / other:.3f}", f"{value:.3f}", f"{wall / value:.1f}"]
        table.row(name, f"{wall:.3f}", memory, turns[0], gap, *cells)

    table = Table("position", "range", "a quarter asked: turns", "time of gap 0", "a sixteenth: turns", "time of gap 0", "half of the turns: gap of range")
    for name, position in cases.items():
        wall, turns = whole[name]
        if turns == 0:
            continue
        spread = solve(asked.program, position, 1, turns=0, visits=0)[3]
        cells = []
        for part in (4, 16):
            wide = solve(asked.program, position, asked.runs, gap=spread // part)
            cells += [wide[2][0], f"{wide[0] / wall:.2f}"]
        half = solve(asked.program, position, 1, turns=turns // 2)
        table.row(name, spread, *cells, f"{half[3] / spread:.3f}")

    table = Table("position", "workers", "s", "time of one", "turns", "turns of one", "gap")
    for name, position in cases.items():
        wall, turns = whole[name]
        if turns < 10_000:
            continue
        for workers in (2, 4):
            many = solve(asked.program, position, asked.runs, workers=workers)
            table.row(name, workers, f"{many[0]:.3f}", f"{many[0] / wall:.2f}", " ".join(map(str, many[2])), f"{sum(many[2]) / turns:.2f}", many[3])


main()
