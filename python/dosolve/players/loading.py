"""Loads players and tables from Python files."""
from __future__ import annotations

import importlib.util
import os
import sys
import zlib
from collections.abc import Callable
from importlib.machinery import SourceFileLoader
from pathlib import Path

from ..errors import DosolveError, InvalidError, PlayerError
from ..tables.table import Table
from ..values import FilePath, shorten
from .histories import HistoryPlayer, takes_history
from .measuring import Player
from .plans import fault_place

_ENTERED: set[Path] = set()
"""The folders of which files were loaded."""


def load_player(path: FilePath) -> Player:
    """The function `play(side, state)` of a Python file, or `play(side, state, history)` as a
    `HistoryPlayer`. The file can import its neighbours, as when it is run."""
    found = _loaded(path, "play", "play(side, state)")
    if takes_history(found):
        return HistoryPlayer(found)
    return found


def load_table(path: FilePath) -> Table:
    """The table that the function `table()` of a Python file makes. The file can import its
    neighbours, as when it is run."""
    make = _loaded(path, "table", "table()")
    try:
        made = make()
    except DosolveError:
        raise
    except (Exception, SystemExit) as fault:
        where = "".join(f" {note}" for note in getattr(fault, "__notes__", ()))
        raise InvalidError(f"table() of {path} raised {type(fault).__name__}: {fault}{where}"
                           f"{fault_place(fault)}") from fault
    if not isinstance(made, Table):
        raise InvalidError(f"table() of {path} gives {shorten(made)}, and has to give a Table")
    return made


def _loaded(path: FilePath, function: str, called: str) -> Callable[..., object]:
    """A function of a Python file."""
    file = Path(path).resolve()
    if not file.is_file():
        raise InvalidError(f"{path} is no file")
    # Files of one stem are modules of their own.
    name = f"dosolve_{function}_{file.stem}_{zlib.crc32(os.fsencode(file)):08x}"
    loader = SourceFileLoader(name, str(file)) if file.suffix.lower() == ".py" else None
    spec = importlib.util.spec_from_file_location(name, file, loader=loader)
    if spec is None or spec.loader is None:
        raise InvalidError(f"{path} is no Python file")
    _enter(file.parent)
    module = importlib.util.module_from_spec(spec)
    sys.modules[name] = module
    try:
        spec.loader.exec_module(module)
    except (Exception, SystemExit) as fault:
        raise PlayerError(f"{path} raised {type(fault).__name__}: {fault}") from fault
    found: Callable[..., object] | None = getattr(module, function, None)
    if not callable(found):
        raise InvalidError(f"{path} defines no function {called}")
    return found


def _enter(folder: Path) -> None:
    """Has the files of a folder import their own neighbours, also where one of another folder was
    imported under the same name."""
    if str(folder) in sys.path:
        sys.path.remove(str(folder))
    sys.path.insert(0, str(folder))
    own = {file.stem for file in folder.glob("*.py")}
    own |= {file.parent.name for file in folder.glob("*/__init__.py")}
    own -= {"__main__", __name__.split(".")[0]}
    for name in [name for name in sys.modules if name.split(".")[0] in own]:
        folders = Path(getattr(sys.modules[name], "__file__", None) or name).parents
        if folder not in folders and not _ENTERED.isdisjoint(folders):
            del sys.modules[name]
    _ENTERED.add(folder)
