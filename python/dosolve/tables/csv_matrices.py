"""Reads the matrix of a CSV file, with the names of moves where it has any.

Where the first cell of the first line is empty, the first line has the names of Two's moves and
the first column those of One's, numbers too. Without an empty first cell, the first line has names
where none of its cells is a number, and so has the first column.
"""
from __future__ import annotations

import csv
import re

from ..errors import NoTableError
from .building import exact

Matrix = tuple[list[list[str]], list[str] | None, list[str] | None]
"""The rows of payoffs, and the names of the moves of One and of Two."""

_SEPARATORS = {";": "semicolons", "\t": "tabs", " ": "blanks"}
_COMMA = re.compile(r"[-+]?\d*,\d+")


def read_csv(text: str) -> Matrix:
    """The rows and the names of a text. The message of a fault goes on behind the file's name."""
    rows = _rows(text)
    if not rows:
        return [], None, None
    has_corner = not rows[0][0]
    _require_points([cell for row in rows[has_corner:] for cell in row[has_corner:]])
    two = rows.pop(0) if has_corner or _has_names(rows[0]) else None
    one = None
    if has_corner or (rows and not any(_is_number(row[0]) for row in rows)):
        one = [row.pop(0) for row in rows]
        two = two[1:] if two else None
    if rows and two is not None:
        _require_names("first line", two, len(rows[0]), "columns")
    if one is not None:
        _require_names("first column", one, len(rows), "rows")
    return rows, one, two


def _rows(text: str) -> list[list[str]]:
    """The cells of each line that is not empty."""
    try:
        cells = [[cell.strip(" ") for cell in row] for row in csv.reader(text.splitlines())]
    except csv.Error as fault:
        raise NoTableError(f"is no CSV: {fault}") from None
    rows = [row for row in cells if row not in ([], [""])]
    for sign, what in _SEPARATORS.items():
        if any(len(row) == 1 for row in rows) and all(sign in ",".join(row) for row in rows):
            raise NoTableError(f"has {what}, and commas have to stand between payoffs")
    return [[cell.strip() for cell in row] for row in rows]


def _require_points(cells: list[str]) -> None:
    """Refuses numbers with a comma, which would be taken for names."""
    for cell in cells:
        if _COMMA.fullmatch(cell):
            raise NoTableError(f"has {cell!r} with a comma, and numbers have a point, as in 1.5")


def _has_names(line: list[str]) -> bool:
    """Whether the first line has names: where no cell is a number."""
    numbers = [_is_number(cell) for cell in line]
    if len(line) > 1 and numbers[0] and not any(numbers[1:]):
        raise NoTableError(f"begins with the number {line[0]} and goes on with {line[1]!r}: names "
                           f"stand in a first line without numbers, or behind an empty cell")
    return not any(numbers)


def _require_names(where: str, names: list[str], count: int, what: str) -> None:
    """Refuses names that are not as many as there are rows or columns."""
    found = len(names) if len(names) != count else sum(map(bool, names))
    if found != count:
        raise NoTableError(f"has {found} names in its {where} for {count} {what} of payoffs")


def _is_number(word: str) -> bool:
    try:
        exact(word)
    except NoTableError:
        return False
    return True
