#!/usr/bin/env python3
"""table_limits.py PROGRAM: the longest lists of a report's line and the largest positions of a table, at the limit and beyond it.

The answers follow from docs/FORMATS.md: lists of as many numbers as it allows are read, one number more is `report number 2`, or needs version 3; a
position of 1048576 bytes is solved, its report accepted, and one byte more is `input 50 too long`. Prints what each took.
"""
import json
import subprocess
import sys
import time
from pathlib import Path

import tables

MOST_BYTES, MOST_NUMBERS = 1048576, 524288
ASKED = '"gap":0,"weight":8192,"turns":1000,"visits":1000,"rows":1024,"workers":1}'
# A root that is an end: no turn, no row, and the resolution 0.
REST = "weight 8192\nturns 1000\nasked 0\nresolution 0\noutcome closed\nlower 0\nupper 0\nspent 0\none 0\ntwo 0\nend\n"


def zeros(count, behind=""):
    return ",".join(["0"] * count) + behind if count else "-"


def report(ranks, moves, values, cells="-", draws="-"):
    return f"dosolve report 2\ngame table {ranks} {moves} {values} {cells} {draws}\n{REST}"


def ends(count):
    return report(zeros(count), zeros(2 * count), zeros(count))


def many_cells(count):
    """A root that is an end; so many cells of unreachable states of one cell, each leading to the last state, an end."""
    ranks, moves = ["0"] + ["1"] * count + ["0"], ["0,0"] + ["1,1"] * count + ["0,0"]
    values = ["0"] + [str(place) for place in range(count)] + ["0"]
    return report(",".join(ranks), ",".join(moves), ",".join(values), ",".join([str(count + 1)] * count))


def newest(text):
    """The same report under version 3."""
    return text.replace("report 2", "report 3", 1)


def many_draws(count, rewards=()):
    """The same with draws, one a cell, and with rewards."""
    cells = [str(-1 - place) for place in range(count)]
    text = many_cells(count).split("\n")
    words = text[1].split(" ")
    words[5:] = [",".join(cells), ",".join([f"{count + 1},360360"] * count)] + [",".join(map(str, rewards))] * bool(rewards)
    return "\n".join([text[0], " ".join(words)] + text[2:])


def longest():
    """The longest line that is read: each list full, of numbers that no others are longer than."""
    sizes = MOST_NUMBERS, 2 * MOST_NUMBERS, MOST_NUMBERS, MOST_NUMBERS, MOST_NUMBERS
    widest = "524288", "255", "-1000000", "-1048576", "1048575"
    text = report(*(",".join([number] * size) for number, size in zip(widest, sizes)))
    assert len(text.split("\n")[1]) + 1 == 21495819
    return text


def lists():
    """Reports, what they test, and the answers of `check`."""
    read, refused = (0, "accepted 0 0 closed\n"), (9, "report number 2\n")
    yield "as many ends as can be", ends(MOST_NUMBERS), read
    yield "one rank more", report(zeros(MOST_NUMBERS + 1), zeros(2), "0"), refused
    yield "two moves more", report("0", zeros(2 * MOST_NUMBERS + 2), "0"), refused
    yield "one value more", report("0", "0,0", zeros(MOST_NUMBERS + 1)), refused
    yield "one cell more", report("0", "0,0", "0", zeros(MOST_NUMBERS + 1)), refused
    yield "a draw more", report("0", "0,0", "0", "-", zeros(MOST_NUMBERS + 2)), refused
    yield "as many cells, which do not fit", report("0", "0,0", "0", zeros(MOST_NUMBERS)), (9, "report position 81\n")
    yield "as many draws, which do not fit", report("0", "0,0", "0", "-", zeros(MOST_NUMBERS)), (9, "report position 81\n")
    yield "the longest line, whose lists do not fit", longest(), (9, "report position 81\n")
    yield "states of one cell, two less than numbers", many_cells(MOST_NUMBERS - 2), read
    yield "as many draws as can be", many_draws(MOST_NUMBERS // 2), read
    yield "as many ends, under version 3", newest(ends(MOST_NUMBERS)), (9, "report head\n")
    yield "one end more, under version 3", newest(ends(MOST_NUMBERS + 1)), read
    yield "one cell more, under version 3", newest(many_cells(MOST_NUMBERS + 1)), read
    yield "one draw more, under version 3", newest(many_draws(MOST_NUMBERS // 2 + 1)), read
    yield "as many draws as can be, each with a reward", newest(many_draws(MOST_NUMBERS // 2, [0] * (MOST_NUMBERS // 2))), read
    yield "one reward less", newest(many_draws(9, [0] * 8)), (9, "report position 81\n")


def filled(states, size):
    """A position of so many bytes: a table with ends behind it, and blanks."""
    text = '{"game":"table","states":[' + states + "," + ",".join(["0"] * ((size - len(states) - 200) // 2)) + "]," + ASKED
    return text + " " * (size - len(text))


def one_cell(count):
    """The text of as many states of one cell, each leading to the state behind all."""
    return "0," + ",".join([f"[[{count + 1}]]"] * count) + ",0"


def positions():
    """Positions, what they test, the status of `solve` and the beginning of what it prints."""
    yield "ends alone, to the last byte", filled("0", MOST_BYTES), 0, "dosolve report 2\ngame table 0,0,"
    yield "one byte more", filled("0", MOST_BYTES + 1), 2, "input 50 too long\n"
    yield "pennies and ends, to the last byte", filled("[[1,2],[2,1]],1,-1", MOST_BYTES), 0, "dosolve report 2\ngame table 1,0,"
    yield "states of one cell", filled(one_cell(90000), MOST_BYTES), 0, "dosolve report 2\ngame table 0,1,1,"


def run(program, command, text):
    started = time.perf_counter()
    done = subprocess.run([program, command], input=text.encode(), capture_output=True)
    return done.returncode, done.stdout.decode(), time.perf_counter() - started


def main():
    if len(sys.argv) != 2:
        sys.exit("usage: table_limits.py PROGRAM")
    program, failed, tried = str(Path(sys.argv[1]).resolve()), 0, 0

    def show(name, text, command, took, right, answer):
        nonlocal failed, tried
        tried, failed = tried + 1, failed + (not right)
        print(f"{'      ' if right else 'FAILED'} {command} {name}: {len(text)} bytes, {took:.2f} s", "" if right else answer[:200])

    for name, text, wanted in lists():
        status, answer, took = run(program, "check", text)
        show(name, text, "check", took, (status, answer) == wanted, answer)
    for name, text, status, beginning in positions():
        found, answer, took = run(program, "solve", text)
        right = found == status and answer.startswith(beginning)
        if status == 0 and right:
            right = answer.split("\n")[1] == tables.line(json.loads(text)["states"])
        show(name, text, "solve", took, right, answer)
        if status == 0:
            accepted, verdict, took = run(program, "check", answer)
            show(name, answer, "check", took, accepted == 0, verdict)
    print(f"{tried - failed} passed, {failed} failed")
    sys.exit(failed > 0)


if __name__ == "__main__":
    main()
