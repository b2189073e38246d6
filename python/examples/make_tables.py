"""Writes the examples of tables into a folder: their positions with names, and with --reports what
the program prints for each.

    PYTHONPATH=python python3 python/examples/make_tables.py examples --reports
"""
import sys
from pathlib import Path

import best_of_three
import blotto
import dosolve
import raid
import soccer

COIN, SIGNS = ["heads", "tails"], best_of_three.SIGNS


def tables():
    """The examples by their names."""
    return {
        "table_pennies": dosolve.Table.from_matrix([[1, -1], [-1, 1]], COIN, COIN),
        "table_rock": dosolve.Table.from_matrix(best_of_three.ROUND, SIGNS, SIGNS),
        "table_blotto": blotto.table(),
        "table_best_of_three": best_of_three.table(),
        "table_soccer": soccer.table(),
        "table_raid": raid.table(),
    }


def main(folder, *options):
    """Writes the files."""
    for name, table in tables().items():
        # By the search that all versions of the program have.
        position = dosolve.Position(table, workers=1, search="oracle")
        position.save(Path(folder, f"{name}.json"))
        if "--reports" in options:
            report = dosolve.solve(position)
            report.save(Path(folder, f"{name}.report"))
            print(f"{name}\n{report}")


if __name__ == "__main__":
    main(*sys.argv[1:])
