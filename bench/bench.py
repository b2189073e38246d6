#!/usr/bin/env python3
"""bench.py PROGRAM [OTHER] [--runs N] [--only WORD]: times the program on bench/positions, and prints a Markdown table.

Each file there is COMMAND_NAME.json, a position that COMMAND is given; for `check`, `exploit` and `play` a lawful report is made
of it first, with a row for each state (make_report.py), and `exploit` is that of One, `play` of 1000 games. The programs run
in turn, N times each (5); a line has the median of wall and user seconds, the most memory, and the numbers of the answer. OTHER
is any program with the same commands; it is left out where several workers search, since their answers depend on the schedule.
--only takes the files whose names contain WORD.
"""
import argparse
import json
import os
import re
import subprocess
import sys
from pathlib import Path

from timing import HERE, Table, median, megabytes, once

WORDS = {"exploit": ["exploit", "one"], "play": ["play", "1000", "0"]}


def summary(command, answer):
    """The last two columns: the turns that the workers spent, and the bounds' gap or the first line."""
    spent = re.search(rb"^spent (.*)$", answer, re.M)
    ends = [int(found.group(1)) for word in (b"lower", b"upper") for found in [re.search(rb"^" + word + rb" (-?\d+)$", answer, re.M)] if found]
    gap = str(ends[1] - ends[0]) if len(ends) == 2 else answer.split(b"\n")[0].decode()
    return spent.group(1).decode() if spent and command == "solve" else "", gap


def measure(table, file, programs, runs):
    command, name = file.stem.split("_", 1)
    text = file.read_bytes()
    if json.loads(text)["workers"] > 1:
        programs = programs[:1]
    if command in ("check", *WORDS):
        text = subprocess.run([sys.executable, HERE / "make_report.py", programs[0], file], capture_output=True, check=True).stdout
    words = WORDS.get(command, [command])
    results = [[] for _ in programs]
    for _ in range(runs):
        for program, result in zip(programs, results):
            result.append(once(program, words, text))
    first = results[0][0].answer
    for program, result in zip(programs, results):
        run = median(result)
        memory = megabytes(program, words, text, run.megabytes)
        same = "" if program == programs[0] else "same bytes" if run.answer == first else "OTHER BYTES"
        table.row(command, name.replace("_", " "), Path(program).name, f"{run.wall:.3f}", f"{run.user:.3f}", memory,
                  *summary(command, run.answer), same)


def main():
    words = argparse.ArgumentParser(description=__doc__.split("\n")[0])
    words.add_argument("program")
    words.add_argument("other", nargs="?")
    words.add_argument("--runs", type=int, default=5)
    words.add_argument("--only", default="")
    asked = words.parse_args()
    programs = [os.path.realpath(program) for program in (asked.program, asked.other) if program]
    table = Table("command", "position", "program", "wall s", "user s", "MB", "turns", "gap or answer", "")
    for file in sorted((HERE / "positions").glob("*.json")):
        if asked.only in file.stem:
            measure(table, file, programs, asked.runs)


main()
