"""The file of a table's names, beside that of its position or report."""
from __future__ import annotations

import json
from pathlib import Path

from ..errors import InvalidError
from ..games.game import AnyGame
from ..values import FilePath
from .table import Table

NAMES = ".names"
"""The ending of the file of a table's names."""


def names_file(path: FilePath) -> Path:
    """The file of names beside that of a position or a report."""
    file = Path(path)
    return file.with_suffix(NAMES) if file.name else file / NAMES


def save_names(game: AnyGame, path: FilePath) -> None:
    """Writes the names of a table, where it has any or others stand there, beside its position or
    report."""
    file = names_file(path)
    if isinstance(game, Table) and (game.has_names or file.is_file()):
        file.write_text(game.names_text(), encoding="utf-8")


def require_names(game: AnyGame, path: FilePath) -> None:
    """Refuses the position or report of a table where a file with something else stands in the
    place of its names."""
    file = names_file(path)
    if isinstance(game, Table) and file.is_file() and not _are_names(file.read_bytes()):
        raise InvalidError(f"{file} would be written over, and has no names of a table: name "
                           f"another output")


def _are_names(text: bytes) -> bool:
    """Whether a file has what `Table.names_text` gave, of whichever table, or nothing."""
    try:
        found = json.loads(text or b"{}")
    except ValueError:
        return False
    known = {"table", "scale", "error", "total", "states", "moves"}
    return isinstance(found, dict) and found.keys() <= known


def with_names(game: AnyGame, path: FilePath) -> AnyGame:
    """The table with the names that stand beside its position or report."""
    file = names_file(path)
    if not isinstance(game, Table) or not file.is_file():
        return game
    try:
        return game.named(file.read_text(encoding="utf-8"))
    except InvalidError as fault:
        raise InvalidError(f"{file}: {fault}; delete the file, or write it anew") from None
