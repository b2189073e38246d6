"""The files that the command line reads and writes: positions, tables and reports."""
from __future__ import annotations

import math
import sys
from collections.abc import Iterator
from contextlib import contextmanager, redirect_stdout
from dataclasses import replace
from fractions import Fraction
from pathlib import Path

from .errors import DosolveError, InputRefusedError, InvalidError
from .games.game import SCALE, SIDES, Side
from .players.loading import load_table
from .positions import Asked, Position
from .reports import Report
from .tables.making import SHOWN
from .tables.names import names_file
from .tables.table import Table, read_matrix

_GAMES = (".csv", ".nfg", ".efg", ".py")
"""The endings of files that tell a game, and ask for nothing."""

_NO_GAMES = (".json", ".jsonl", ".report")
"""The endings of files of which one knows what they are."""


@contextmanager
def naming(path: Path) -> Iterator[None]:
    """Has a refusal of what is in a file name the file."""
    try:
        yield
    except (DosolveError, UnicodeDecodeError) as fault:
        if str(path) not in str(fault):
            fault.add_note(str(path))
        raise


def read_position(path: Path, asked: Asked, gap: Fraction | None = None,
                  rounded: bool = False) -> Position:
    """The position of a file, with what is asked in place of what the file asks or leaves out, and
    a gap in payoffs of the rules; of a file that tells a game, the one with the package's
    defaults."""
    with naming(path):
        if path.suffix.lower() not in _GAMES:
            if rounded:
                raise InvalidError("only a matrix (.csv) can be rounded, or a Python file by "
                                   "rounded=True")
            found = _loaded(path, asked)
        else:
            found = Position(read_table(path, None, rounded), **asked)
        found = with_gap(found, gap)
        found.text()  # refused here where it is too long
    return found


def with_gap(position: Position, gap: Fraction | None) -> Position:
    """The position with a gap in payoffs of the rules, rounded down to what it can ask; itself
    where none is given."""
    if gap is None:
        return position
    game = position.game
    low, high = game.span
    span = game.of_rules(high - low)
    if gap >= span > 0:
        raise InvalidError(f"a gap of {float(gap):g} is no narrower than the range of payoffs, "
                           f"{float(span):g}: a gap is in payoffs, and a thousandth of one is "
                           f"0.001")
    return replace(position, gap=math.floor(gap * SCALE * game.scale))


@contextmanager
def aside() -> Iterator[None]:
    """Has what players and games of one's own print go to standard error, since standard output
    is for answers."""
    with redirect_stdout(sys.stderr):
        yield


def _loaded(path: Path, asked: Asked) -> Position:
    """The position of a file of JSON."""
    try:
        return Position.load(path, asked)
    except InputRefusedError as refusal:
        if refusal.code != 10 or path.suffix.lower() in _NO_GAMES:
            raise
        raise InputRefusedError(refusal.text, f"{refusal.hint}; a game is read where the file ends "
                                              f"with {', '.join(_GAMES)}") from None


def read_table(source: Path, rounds: int | None, rounded: bool = False) -> Table:
    """The table of a file, by its ending."""
    ending = source.suffix.lower()
    if rounds is not None and ending not in (".json", ".csv"):
        raise InvalidError(f"{source} is no matrix that is played for some rounds")
    if rounded and ending not in (".json", ".csv"):
        raise InvalidError(f"{source} is no matrix that can be rounded: a Python file rounds by "
                           f"rounded=True")
    if ending == ".py":
        shown = SHOWN.set(sys.stderr.isatty())
        try:
            with aside():
                return load_table(source)
        finally:
            SHOWN.reset(shown)
    if ending in (".nfg", ".efg"):
        return Table.from_gambit(source)
    matrix, one, two = read_matrix(source)
    if rounds is None:
        return Table.from_matrix(matrix, one, two, rounded)
    return Table.repeated(matrix, rounds, one, two, rounded)


def read_report(path: Path) -> Report:
    """The report of a file."""
    with naming(path):
        return Report.load(path)


def kept_report(folder: Path, side: Side) -> Path:
    """The file of `measure --keep` in which the player's plan is that of a side."""
    return folder / f"{side}.report"


def read_kept(path: Path) -> Report:
    """The report of a file; of a folder of `measure --keep`, one with the player's plan on both
    sides, or on the side that was measured."""
    if not path.is_dir():
        return read_report(path)
    found = [read_report(file) for file in (kept_report(path, side) for side in SIDES)
             if file.exists()]
    if not found:
        raise InvalidError(f"{path} has neither one.report nor two.report, which measure --keep "
                           f"writes")
    return found[0] if len(found) == 1 else Report.of(found[0].one, found[1].two)


def require_output(output: Path | None, *sources: Path) -> None:
    """Refuses an output that is also read or cannot be written, before anything is done for it."""
    if output is None:
        return
    require_other(output, *sources)
    if output == names_file(output):
        raise InvalidError(f"{output} ends as the file of names beside it would: name another "
                           f"output")
    if output.exists() and not output.is_file() and not output.is_dir():
        return  # a pipe would be ended by a try
    is_new = not output.exists()
    with output.open("ab"):
        pass
    if is_new:
        output.resolve().unlink()


def require_other(output: Path | None, *sources: Path) -> None:
    """Refuses an output that is one of the files that are read, with their names beside them."""
    read = [*sources, *map(names_file, sources)]
    if output is not None and any(_is_same(output, file) for file in read):
        raise InvalidError(f"{output} is read, and would be written over: name another output")


def _is_same(one: Path, other: Path) -> bool:
    return one.exists() and other.exists() and one.samefile(other)
