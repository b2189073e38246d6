#!/usr/bin/env python3
"""induction.py PROGRAM [VERIFIER] [COUNT [SEED]] [GAME ..]: solves random positions by induction, and has reports checked.

Each of COUNT positions (100) of the games, or of those named, goes to `solve` with linear stages: by double oracle with one
worker, and by induction with 1, 2, 4 and 16 workers; every other one with few turns, visits and rows, so that the way back to
double oracle is taken. `check` has to accept each report, and VERIFIER, any program with a command `verify` that ends with 0
where both bounds of a report are guaranteed. With ample budgets no report is `spent` or `full`, the gap is at most one and a
half times that of double oracle and four millionths, and the reports of all workers are the same but for the turns.
"""
import json
import os
import random
import re
import sys

from random_positions import answer, ends, named, position

WORKERS = (1, 2, 4, 16)
AMPLE = dict(turns=1 << 40, rows=1 << 17)


def solved(program, position):
    return answer(program, "solve", json.dumps(position).encode())


def unlike_turns(report):
    """The report without the numbers of turns."""
    return re.sub(rb"\nspent [\d ]+\n", b"\nspent\n", report)


def fault(program, verifier, position, is_ample):
    """What is wrong with the reports of a position, or None."""
    status, oracle = solved(program, position)
    if status == 2:
        return None
    reports = []
    for workers in WORKERS:
        status, report = solved(program, dict(position, search="induction", workers=workers))
        if status not in (0, 3) if is_ample else status not in (0, 3, 4, 5):
            return f"status {status} with {workers} workers"
        if answer(program, "check", report)[0] != 0:
            return f"not accepted with {workers} workers"
        if verifier and answer(verifier, "verify", report)[0] != 0:
            return f"not guaranteed with {workers} workers"
        reports.append(report)
    if is_ample:
        (low, high), (lower, upper) = ends(reports[0]), ends(oracle)
        if high - low > max(1.5 * (upper - lower) + 4, position["gap"]):
            return f"a gap of {high - low}, and of {upper - lower} by double oracle"
        if len({unlike_turns(report) for report in reports}) > 1:
            return "the reports of several workers are not alike"
    return None


def main():
    games, words = named(sys.argv[1:])
    if not words:
        sys.exit("usage: induction.py PROGRAM [VERIFIER] [COUNT [SEED]] [GAME ..]")
    program = os.path.realpath(words.pop(0))
    verifier = os.path.realpath(words.pop(0)) if words and not words[0].isdigit() else None
    count, seed = (int(word) for word in (words + ["100", "1"][len(words):]))
    r, failed = random.Random(seed), 0
    for number in range(count):
        is_ample = number % 2 == 0
        drawn = json.loads(position(r, False, games, "linear"))
        drawn |= AMPLE if is_ample else {}
        wrong = fault(program, verifier, drawn, is_ample)
        if wrong:
            failed += 1
            print("FAILED", json.dumps(drawn), wrong)
    print(f"{count - failed} passed, {failed} failed")
    sys.exit(failed > 0 or count == 0)


if __name__ == "__main__":
    main()
