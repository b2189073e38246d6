#!/usr/bin/env python3
"""backward_induction.py POSITION: the value of a game by backward induction, each state's matrix by a linear program.

POSITION is a file with a position of any game, as `solve` is given it; the rules are those of tests/random/true_value.py. Prints
the value in millionths of a payoff (floating point), the matrices solved, and the seconds taken. Needs scipy; without it there
is a message, and the status is 0. A game that is large takes very long: every reachable state is solved.
"""
import json
import sys
import time
from pathlib import Path

sys.path.insert(0, str(Path(__file__).resolve().parents[1] / "tests" / "random"))
from true_value import RULES, mean  # noqa: E402


def matrix_value(linprog, matrix):
    """The greatest v such that some mixture of the rows has at least v in each column."""
    low = [min(row) for row in matrix]
    high = [max(column) for column in zip(*matrix)]
    if max(low) == min(high):
        return max(low)
    rows, columns = len(matrix), len(matrix[0])
    answer = linprog([0] * rows + [-1], A_ub=[[-matrix[i][j] for i in range(rows)] + [1] for j in range(columns)], b_ub=[0] * columns,
                     A_eq=[[1] * rows + [0]], b_eq=[1], bounds=[(0, None)] * rows + [(None, None)])
    return -answer.fun


def value(linprog, root, payoff, moves, after):
    """The root's value, and how many states have a matrix; the states are solved children first."""
    values, solved, stack = {}, 0, [root]
    while stack:
        state = stack[-1]
        if state in values:
            stack.pop()
            continue
        end = payoff(state)
        if end is not None:
            values[stack.pop()] = float(end)
            continue
        one, two = moves(state)
        cells = [[after(state, a, b) for b in two] for a in one]
        missing = [child for row in cells for cell in row for child, _ in cell if child not in values]
        if missing:
            stack += missing
        else:
            values[stack.pop()] = matrix_value(linprog, [[mean(values, cell) for cell in row] for row in cells])
            solved += 1
    return values[root], solved


def main():
    if len(sys.argv) != 2:
        sys.exit("usage: backward_induction.py POSITION")
    try:
        from scipy.optimize import linprog
    except ImportError:
        print("skipped: scipy is missing")
        return
    with open(sys.argv[1], "rb") as file:
        position = json.load(file)
    started = time.perf_counter()
    found, solved = value(linprog, *RULES[position["game"]](position))
    print(f"value {found * 1e6:.1f} matrices {solved} seconds {time.perf_counter() - started:.2f}")


main()
