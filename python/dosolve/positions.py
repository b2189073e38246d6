"""Positions: a game and what is asked of the solver (its budgets), as the JSON object that the
program reads."""
from __future__ import annotations

import json
import math
import os
import re
from collections.abc import Mapping
from dataclasses import dataclass, replace
from pathlib import Path
from typing import TYPE_CHECKING, Any, cast

from .errors import InputRefusedError, InvalidError
from .games.game import AnyGame, Field, Game, State
from .games.goofspiel import Goofspiel, GoofspielDrawn
from .games.oshi_zumo import OshiZumo
from .games.pursuit import Pursuit
from .games.tron import Tron
from .limits import (
    FEW_VISITS, LEAST_WEIGHT, LEAST_WIDE_WEIGHT, MOST_DEPTH, MOST_GAP, MOST_TURNS, MOST_WEIGHT,
    MOST_WIDE_WIDTH, MOST_WORKERS, NARROW, WIDE, Limits, limits_of, up_to,
)
from .tables.names import require_names, save_names, with_names
from .tables.table import Table
from .values import FilePath, Record, as_field, cut, is_whole, shorten

if TYPE_CHECKING:
    from .reports import Report

_KINDS: tuple[type[AnyGame], ...] = (
    Goofspiel, OshiZumo, Tron, GoofspielDrawn, Pursuit, Table,
)
GAMES = {kind.name: kind for kind in _KINDS}
"""The games by the names that positions and reports have for them."""


class _Rows(Field):
    """The field `rows`, whose range is that of the limits."""

    def within(self, limits: Limits) -> Field:
        about = "" if limits is WIDE else f"with linear stages to {WIDE.rows}"
        return replace(self, high=limits.rows, about=about)


ASKED = (
    Field("gap", 0, MOST_GAP, about="millionths of a payoff"),
    Field("weight", LEAST_WEIGHT, MOST_WEIGHT),
    Field("turns", 0, MOST_TURNS), Field("visits", 0, MOST_TURNS),
    _Rows("rows", 1, WIDE.rows), Field("workers", 1, MOST_WORKERS),
    Field("stages", choices=("regret", "linear"), absent="regret"),
    Field("search", choices=("oracle", "induction"), absent="oracle"),
)
"""What is asked of the solver, with ranges, in the order in which it is refused. Optional fields
have in `absent` what the program takes where they are left out, and are written only where they
differ from it."""

Asked = Mapping[str, Any]
"""What is asked of the solver, by the names of `ASKED`."""

_ODD_NUMBER = re.compile(rb"-0|[0-9]{19}")
"""What each number has that is not read as `int` reads it."""

_DEFAULT = cast(int, None)
_WORD = cast(str, None)


@dataclass(frozen=True)
class Position:
    """A game and what is asked of the solver.

    - `gap`: the gap, in millionths of a payoff, that is narrow enough; the search ends there.
    - `weight`: what the weights of a row sum to (8192 to 1048576); more is finer.
    - `turns`: the budget of matrix games of each worker; a search that runs out of them has few
      bounds or none.
    - `visits`: the budget of states that each worker's serial searches may enter; left out, 100000
      with induction and where the board has no room for the game's states, else the most.
    - `rows`: the states that the board has room for; left out, twice as many as the game can
      have, at most 16777216 with linear stages; 1048576 at most with others, and where the game
      does not count its states or has more.
    - `workers`: the threads, which share one search; left out, one for each processor, at most
      16. One worker gives the same report, byte by byte, each time.
    - `stages`: how matrix games are solved, `linear` (linear programs: fast, small gaps) or
      `regret` (rounds of regret matching). Linear stages give the wide limits too
      (`dosolve.limits`).
    - `search`: how the game is searched, `oracle` (double oracle) or `induction` (each state once,
      children first; then double oracle, where that is not enough). Where nearly every state
      matters, as in Goofspiel, induction takes less time and far less memory. Left out, it is
      induction with linear stages where the board has a row for each state, as far as the game
      counts them; else, and for Tron, double oracle.
    """

    game: AnyGame
    gap: int = 0
    weight: int = MOST_WEIGHT
    turns: int = MOST_TURNS
    visits: int = _DEFAULT
    rows: int = _DEFAULT
    workers: int = _DEFAULT
    stages: str = "linear"
    search: str = _WORD

    def __post_init__(self) -> None:
        if type(self.game) not in _KINDS:
            hint = ("; Table.from_game makes a table of it" if isinstance(self.game, Game) else
                    "; Position.at(report, state) begins in a state"
                    if isinstance(self.game, State) else "")
            raise InvalidError(f"the program has the games {', '.join(GAMES)}, and "
                               f"{cut(repr(self.game), 60)} is none of them{hint}")
        for field in ASKED:
            object.__setattr__(self, field.name, as_field(getattr(self, field.name)))
        for name, fitting in (("rows", self._fitting_rows), ("search", self._fitting_search),
                              ("visits", self._fitting_visits), ("workers", _fitting_workers)):
            if getattr(self, name) is None:
                object.__setattr__(self, name, fitting())
        for field in ASKED:
            field.within(self.limits).refuse(getattr(self, field.name))
        if self.game.is_wide and self.limits is NARROW:
            self.game.refuse_beyond(NARROW)
        self._require_weight()

    @property
    def limits(self) -> Limits:
        """The limits that the position has, by its stages."""
        return limits_of(self.stages)

    @property
    def enough_rows(self) -> int | None:
        """Rows that suffice: a search never ends as `full` with so many. One for each state that
        the game can have, ends included; None where it does not count them."""
        count, ends = self.game.count_states(), self.game.most_ends
        return None if count is None or ends is None or count > WIDE.rows else count + ends

    @property
    def enough_turns(self) -> int | None:
        """Turns of each worker that suffice where the rows do: a search never ends as `spent` with
        so many. For each state, each turn of the game and one more they are 3 with linear stages,
        else 2 for each move of the side that has more but the first, and 1; and 3 more by
        induction. None where the game does not count its states. Most searches take far fewer."""
        if self.enough_rows is None:
            return None
        each = 3 if self.stages == "linear" else 2 * self.game.most_moves - 1
        before = 3 if self.search == "induction" else 0
        return (each + before) * (self.enough_rows + self.game.root().rank + 1)

    def _fitting_rows(self) -> int:
        """The rows of a board for all states of the game, or those of a board that opens at once
        where they are not counted, or too many."""
        limits = NARROW if isinstance(self.game, Tron) else self.limits
        most = limits.rows if self.game.fits(limits.rows) else NARROW.rows
        return min(most, max(1, 2 * self.game.most_states))

    def _fitting_search(self) -> str:
        """Induction for a game that counts its states, and a board that has room for them."""
        counted = self.limits is WIDE and not isinstance(self.game, Tron) and is_whole(self.rows)
        return "induction" if counted and self.game.fits(self.rows) else "oracle"

    def _fitting_visits(self) -> int:
        """Those of serial searches that are worth their time."""
        is_full = is_whole(self.rows) and self.game.fits(self.rows) is False
        return FEW_VISITS if is_full or self.search == "induction" else MOST_TURNS

    def _require_weight(self) -> None:
        """Refuses a weight that is too small for linear stages of so many moves."""
        moves = self.game.most_moves
        if self.limits is WIDE and moves > MOST_WIDE_WIDTH and self.weight < LEAST_WIDE_WEIGHT:
            raise InputRefusedError("input 91 weight", (
                f"the weight {self.weight} has to be from {LEAST_WIDE_WEIGHT} in a game of up to "
                f"{moves} moves a side, which are more than {MOST_WIDE_WIDTH}"))

    def text(self) -> str:
        """The position as one line of JSON."""
        entries = {"game": self.game.name} | self.game.record()
        entries |= {field.name: getattr(self, field.name) for field in ASKED
                    if field.absent is None or getattr(self, field.name) != field.absent}
        text = json.dumps(entries, separators=(",", ":")) + "\n"
        table = isinstance(self.game, Table)
        if len(text) > (self.limits if table else NARROW).bytes:
            most = up_to(self.limits, "bytes") if table else NARROW.bytes
            raise InputRefusedError("input 50 too long",
                                    f"{self.game.title()} has a text of {len(text)} bytes, and "
                                    f"{most} are possible")
        return text

    @classmethod
    def at(cls, report: Report | AnyGame, state: State, **asked: Any) -> Position:
        """The position of the game that begins in a state of a report's game, or of a game, one
        that the report's plans never come to too: "solve from here". It asks what the report
        asked for, its gap and weight, unless told otherwise, and else what `Position` asks."""
        game = report if isinstance(report, Game) else report.game
        if not isinstance(report, Game):
            asked = {"gap": report.asked, "weight": report.weight} | asked
        if not isinstance(state, State):
            raise InvalidError(f"Position.at takes a state, such as report.game.state_after(..), "
                               f"not {shorten(state)}")
        if state.is_end:
            raise InvalidError(f"the game is over in {state}")
        return cls(game.starting_at(state), **asked)

    @classmethod
    def read(cls, data: bytes | str, asked: Asked | None = None,
             absent: Asked | None = None) -> Position:
        """The position of a text; `load` reads a file. What is in `asked` takes the place of what
        the text asks, and of what it leaves out.

        What the program refuses is refused as the program does it, but for what is asked: where
        budgets are left out, `absent` and then the defaults of `Position` fill them in, with
        `stages` and `search` too. A text that has all that the program requires means what it means
        there, so that without `stages` it asks for `regret`, and without `search` for `oracle`.
        """
        entries, size = _entries(data)
        entries |= dict(asked or {})
        given = _filled(entries, absent)
        limits = limits_of(given.get("stages", cls.stages))
        _require_size(size, entries, limits)
        game = _game(entries)
        unknown = sorted(set(entries) - {"game"} - {each.name for each in (*game.settings, *ASKED)})
        if unknown:
            names = ", ".join(each.name for each in (*game.settings, *ASKED))
            raise InputRefusedError("input 13 unknown field",
                                    f"{shorten(unknown[0])} is no field of {game.name}, whose "
                                    f"fields are game, {names}")
        for field in (*game.settings, *ASKED):
            if field.name in entries:
                field.within(limits).refuse(entries[field.name])
            elif field not in ASKED:
                raise InputRefusedError(f"input 12 missing {field.name}", _missing(game, entries))
        settings = [entries[field.name] for field in game.settings]
        return cls(game.within(limits, *settings), **given)

    @classmethod
    def load(cls, path: FilePath, asked: Asked | None = None) -> Position:
        """The position of a file, as `read` gives it; a table with the names of a file beside it
        that ends with `.names`."""
        found = cls.read(Path(path).read_bytes(), asked)
        return replace(found, game=with_names(found.game, path))

    def save(self, path: FilePath) -> None:
        """Writes the position into a file, and the names of a table into one beside it."""
        require_names(self.game, path)
        Path(path).write_text(self.text())
        save_names(self.game, path)


def _fitting_workers() -> int:
    """A worker for each processor."""
    return min(MOST_WORKERS, processors())


def processors() -> int:
    """How many processors this process can use."""
    return len(os.sched_getaffinity(0)) if hasattr(os, "sched_getaffinity") else os.cpu_count() or 1


def require_position(position: object, call: str) -> Position:
    """Refuses what is no position."""
    if isinstance(position, Position):
        return position
    hint = ""
    if isinstance(position, _KINDS):
        hint = f"; Position({type(position).__name__}(..)) is one"
    elif isinstance(position, Game):
        hint = "; Position(Table.from_game(game)) is one of a game of your own"
    elif isinstance(position, (str, bytes, os.PathLike)):
        hint = "; Position.load reads a file, Position.read a text"
    raise InvalidError(f"{call} takes a Position, not {shorten(position)}{hint}")


def looks_like_path(data: bytes | str) -> bool:
    """Whether a text is rather the name of a file."""
    return (isinstance(data, str) and 0 < len(data) < 1000 and "\n" not in data
            and not data.lstrip().startswith(("{", "[")))


def _filled(entries: Record, absent: Asked | None) -> dict[str, Any]:
    """What the fields of a text ask, with what stands for those that it leaves out, as far as
    `Position` does not fill them in."""
    whole = all(field.name in entries for field in ASKED if field.absent is None)
    given: dict[str, Any] = {field.name: field.absent for field in ASKED if whole}
    given |= dict(absent or {})
    return given | {field.name: entries[field.name] for field in ASKED if field.name in entries}


def _require_size(size: int, entries: Record, limits: Limits) -> None:
    """Refuses a text that is too long for what it tells."""
    table = entries.get("game") == Table.name
    if size > (limits if table else NARROW).bytes:
        most = up_to(limits, "bytes") if table else NARROW.bytes
        raise InputRefusedError("input 50 too long", f"{size} bytes are more than {most}")


def _game(entries: Record) -> type[AnyGame]:
    if "game" not in entries:
        raise InputRefusedError("input 12 missing game", f"it is one of {', '.join(GAMES)}")
    name = entries["game"]
    if not isinstance(name, str):
        raise InputRefusedError("input 14 kind of game", f"it is one of {', '.join(GAMES)}")
    if name not in GAMES:
        raise InputRefusedError("input 16 game name",
                                f"there is no game {shorten(name)}, only {', '.join(GAMES)}")
    return GAMES[name]


def _missing(game: type[AnyGame], entries: Record) -> str:
    """Which fields of its game a position lacks."""
    names = ", ".join(each.name for each in game.settings if each.name not in entries)
    return f"the position lacks {names}"


def _entries(data: bytes | str) -> tuple[Record, int]:
    """The fields of the JSON object that the program sees in these bytes, and how many they are."""
    if not isinstance(data, (bytes, str)):
        raise InvalidError(f"read takes a text, not {shorten(data)}; load takes a path")
    encoded = data.encode("utf-8", "surrogatepass") if isinstance(data, str) else data
    if len(encoded) > WIDE.bytes:
        raise InputRefusedError("input 50 too long",
                                f"{len(encoded)} bytes are more than {WIDE.bytes}")
    try:
        return _parsed(data, encoded), len(encoded)
    except InputRefusedError:
        _require_size(len(encoded), {}, NARROW)
        raise


def _parsed(data: bytes | str, encoded: bytes) -> Record:
    """The fields of the JSON object in these bytes."""
    try:
        # Long texts of plain numbers are read by the parser's own functions.
        value = json.loads(encoded.decode(), parse_float=_float, parse_constant=_refuse,
                           parse_int=_integer if _ODD_NUMBER.search(encoded) else None)
        if b"\\u" in encoded:
            json.dumps(value, ensure_ascii=False).encode()
    except (ValueError, RecursionError) as fault:
        raise InputRefusedError("input 10 not json", _syntax(data, encoded, fault)) from None
    if _depth(value) > MOST_DEPTH:
        raise InputRefusedError("input 10 not json",
                                f"arrays and objects stand more than {MOST_DEPTH} deep")
    if not isinstance(value, dict):
        hint = ("; Table.from_matrix, or the command `table`, makes the position of a matrix"
                if isinstance(value, list) else "")
        raise InputRefusedError("input 11 not an object",
                                f"a position is one object {{..}}, not {shorten(value)}{hint}")
    return value


def _syntax(data: bytes | str, encoded: bytes, fault: Exception) -> str:
    """What keeps a text from being JSON."""
    if not encoded.strip():
        return "the text is empty"
    if encoded.startswith(b"dosolve report "):
        return "this is a report, not a position; Report.read reads one"
    if looks_like_path(data):
        return f"{shorten(data)} looks like the name of a file, which Position.load reads"
    if isinstance(fault, json.JSONDecodeError):
        hint = ("; the command `sweep` takes a file with one position on each line"
                if fault.msg == "Extra data" else "")
        return f"{fault.msg} at line {fault.lineno}, column {fault.colno}{hint}"
    return cut(str(fault), 80)


def _integer(digits: str) -> int | float:
    """A number without fraction and exponent; one that does not fit 64 bits, or is spelled -0, is
    no whole number."""
    if digits == "-0" or len(digits) > 20 or not -2**63 <= int(digits) < 2**63:
        return _float(digits)
    return int(digits)


def _float(digits: str) -> float:
    value = float(digits)
    if math.isinf(value):
        raise ValueError(f"the number {cut(digits, 40)} is too large")
    return value


def _refuse(word: str) -> None:
    raise ValueError(f"{word} is no number of JSON")


def _depth(value: object) -> int:
    """How deep arrays and objects stand in one another."""
    deepest, layer = 0, [value]
    while nested := [part for part in layer if isinstance(part, (list, dict))]:
        deepest += 1
        layer = [part for inner in nested
                 for part in (inner.values() if isinstance(inner, dict) else inner)]
    return deepest
