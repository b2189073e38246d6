"""Reports: read and written byte by byte as the program does, and made from two plans."""
from __future__ import annotations

import html
import math
import re
from collections.abc import Iterator, Sequence
from dataclasses import dataclass, field, replace
from fractions import Fraction
from pathlib import Path
from typing import TYPE_CHECKING

from .errors import InputRefusedError, InvalidError, ReportRefusedError
from .exact import steps
from .games.game import CHANCE, SCALE, SIDES, AnyGame, Move, Side, State, other, side_of
from .games.python_game import PythonGame
from .limits import (
    LEAST_WEIGHT, MOST_BOUND, MOST_GAP, MOST_KEY, MOST_REPORT_BYTES, MOST_RESOLUTION, MOST_TURNS,
    MOST_WEIGHT, MOST_WIDE_REPORT_BYTES, MOST_WORKERS, NARROW, NEWEST_VERSION, WIDE, Limits,
)
from .players.sheets import Row, Sheet
from .positions import GAMES, looks_like_path
from .tables.names import require_names, save_names, with_names
from .tables.table import Table
from .values import FilePath, Record, as_number, as_points, cut, require_range, shorten

if TYPE_CHECKING:
    from .drawings import Drawing

OUTCOMES = ("closed", "settled", "spent", "full", "stopped")

Setting = str | int | tuple[int, ...]
"""A field of a report's second line."""

_STOPPED = {"time": "the time was up", "interrupt": "the search was interrupted"}
"""What can end a search before its own end, in words."""

UNIT = "payoff of One"
"""The unit of bounds and payoffs in JSON: what One gets by the rules of the game."""

MOST_WALKED = 2000
"""The rows of a plan that is followed for notes."""

MOST_DRAWN = 512
"""The pairs of moves of a root whose picture a notebook shows with its report."""

_HEADS = {b"dosolve report %d\n" % version: version for version in range(1, NEWEST_VERSION + 1)}
_NUMBER = re.compile(rb"0|-?[1-9][0-9]*")


def outcome_of(gap: int, asked: int, resolution: int) -> str:
    """The outcome of these numbers, in millionths; `spent` where the gap is wider than both
    others."""
    return "closed" if gap <= asked else "settled" if gap <= resolution else "spent"


def table_notes(game: AnyGame) -> tuple[str, ...]:
    """What a reader of payoffs has to know of a table that was rounded, or made of a game whose
    payoffs sum to another number than 0."""
    if not isinstance(game, Table):
        return ()
    found = []
    if game.error:
        found.append(f"the table was rounded: the value of the game is within "
                     f"{as_points(math.ceil(game.error * SCALE))} of that of the table")
    if game.total:
        found.append(f"both players' payoffs sum to {as_number(game.total):g}: Two gets that less "
                     f"what One gets")
    return tuple(found)


@dataclass(frozen=True, repr=False)
class Report:
    """A report: the game, what its rows sum to, the turns that each worker had, the gap asked, the
    resolution, the outcome, both bounds, each worker's spent turns, and both plans. Gaps, bounds
    and the resolution are millionths of a payoff.

    The outcome says how wide the gap is, not how the search ended: `closed` is at most the gap
    asked, `settled` at most the resolution, which can be wider than all payoffs. `notes()` and
    `is_vacuous` say what the numbers are worth.

    `stopped` is what ended a search within seconds before its own end, `time` or `interrupt`,
    where that is known, and
    `board` the rows that were asked for, None where they are not known; both are no part of the
    text, and equal reports can differ in them.

    The fields are those of the text: millionths, of a table with a `scale` those of payoffs times
    that scale. What is printed, `record` and `interval` have payoffs of the rules.
    """

    game: AnyGame
    weight: int
    turns: int
    asked: int
    resolution: int
    outcome: str
    lower: int
    upper: int
    spent: Sequence[int]
    one: Sheet
    two: Sheet
    stopped: str = field(default="", compare=False)
    board: int | None = field(default=None, compare=False)

    def __post_init__(self) -> None:
        object.__setattr__(self, "spent", tuple(self.spent))
        require_range("weight", self.weight, LEAST_WEIGHT, MOST_WEIGHT)
        require_range("turns", self.turns, 0, MOST_TURNS)
        require_range("asked", self.asked, 0, MOST_GAP)
        require_range("resolution", self.resolution, 0, MOST_RESOLUTION)
        require_range("lower", self.lower, -MOST_BOUND, MOST_BOUND)
        require_range("upper", self.upper, -MOST_BOUND, MOST_BOUND)
        if self.outcome not in OUTCOMES:
            raise InvalidError(f"outcome is {self.outcome!r}, and has to be one of "
                               f"{', '.join(OUTCOMES)}")
        if self.stopped and self.stopped not in _STOPPED:
            raise InvalidError(f"stopped is {shorten(self.stopped)}, and has to be empty or one "
                               f"of {', '.join(_STOPPED)}")
        if not 1 <= len(self.spent) <= MOST_WORKERS:
            raise InvalidError(f"spent has {len(self.spent)} numbers, and has to have one for each "
                               f"of 1 to {MOST_WORKERS} workers")
        if isinstance(self.game, PythonGame):
            raise InvalidError(f"no report is on a game that is written in Python: "
                               f"{type(self.game).__name__} can be measured by plan, respond, "
                               f"expected_of and live_match, or made a table of by "
                               f"Table.from_game")
        for worker, turns in enumerate(self.spent):
            require_range(f"spent of worker {worker}", turns, 0, MOST_TURNS)
        for side, sheet in (("one", self.one), ("two", self.two)):
            if (sheet.game, sheet.side, sheet.total) != (self.game, side, self.weight):
                raise InvalidError(f"the sheet {side} is of another game, side or weight: "
                                   f"{sheet.game.title()}, {sheet.side}, {sheet.total}")

    @property
    def gap(self) -> int:
        """The upper bound less the lower one, in millionths."""
        return self.upper - self.lower

    @property
    def span(self) -> int:
        """The greatest payoff of the game less the least, in millionths."""
        low, high = self.game.span
        return (high - low) * SCALE

    @property
    def version(self) -> int:
        """The version of the report's form: the first that has its game, or the newest where no
        other tells the game, a plan of so many rows, or that the search was stopped."""
        wide = max(len(self.one.rows), len(self.two.rows)) > NARROW.rows
        newest = wide or self.game.is_new or self.outcome == "stopped"
        return NEWEST_VERSION if newest else self.game.version

    @property
    def interval(self) -> tuple[Fraction, Fraction]:
        """Both bounds as payoffs of the rules, before a table's `scale`: the value of the game
        lies between them."""
        return self.game.unscaled(self.lower), self.game.unscaled(self.upper)

    @property
    def closeness(self) -> str:
        """How the gap is beside the one asked, in words: `closed`, or what was asked."""
        return "closed" if self.gap <= self.asked else f"asked {self.game.shown(self.asked)}"

    @property
    def _ending(self) -> str:
        """The outcome, and where the gap is wider than asked, what was asked."""
        if self.gap <= self.asked:
            return self.outcome
        ending = {"time": "time up", "interrupt": "interrupted"}.get(self.stopped, self.outcome)
        if ending == "spent" and self.turns == 0:
            ending = "no turns"
        return f"{ending}, {self.closeness}"

    @property
    def is_vacuous(self) -> bool:
        """Whether the bounds are no better than the range of payoffs, so that nothing is known."""
        return self.gap >= self.span > 0

    @property
    def used_up(self) -> tuple[str, ...]:
        """The budgets that were used up, as far as a report shows: `turns`, `rows`."""
        turns = self.turns > 0 and all(spent >= self.turns for spent in self.spent)
        found = (("turns", turns), ("rows", self.outcome == "full"))
        return tuple(name for name, up in found if up)

    def notes(self) -> tuple[str, ...]:
        """What a reader of the bounds has to know, in sentences."""
        found = []
        if self.is_vacuous:
            found.append("the bounds are no better than the range of payoffs: nothing is known yet")
        more = self._more_notes()
        if self.stopped:
            found.append(f"{_STOPPED[self.stopped]}{more or ': more seconds can narrow the gap'}")
        elif self.outcome == "stopped":
            found.append(f"the search was stopped{more or ': more seconds can narrow the gap'}")
        elif "turns" in self.used_up:
            found.append("every worker used up its turns: more turns may narrow the gap")
        elif self.turns == 0 and self.gap > self.asked:
            found.append("no turns were allowed: the bounds are those of pure plans, or of plans "
                         "of players")
        if "rows" in self.used_up:
            rows = f" of {self.board} rows" if self.board else ""
            most = self.board == WIDE.rows
            linear = " with linear stages" if self.board == NARROW.rows else ""
            found.append(f"the board{rows} had no row left" + (
                more or (": that is the most that is possible" if most else
                         f": more rows can narrow the gap{linear}{self._counted()}")))
        return (*found, *table_notes(self.game))

    def _more_notes(self) -> str:
        """Why neither seconds nor rows help, where that is known."""
        if self.gap <= self.asked or self.game.fits() is not False:
            return ""
        return (f": the game has more than {WIDE.rows} states, the most that a board has room for, "
                f"so that neither more seconds nor more rows give more than wide bounds")

    def _counted(self) -> str:
        """How many rows the game needs, where it counts its states."""
        count = self.game.count_states()
        return f" ({count} states need one each)" if count is not None else ""

    def row_notes(self, side: Side) -> tuple[str, ...]:
        """What a reader of games and worst cases has to know: that a plan does not play what its
        rows say, or never comes to them; a plan of many rows is not followed for that."""
        states = list(self.sheet(side).unplayed())
        found = self._reach_notes(side, not states)
        if states:
            rows = f"{len(states)} such row{'s' if len(states) > 1 else ''}"
            found.append(f"the row of player {side} in {states[0]} has not one weight for each "
                         f"move with the sum {self.weight}: the first move is played there "
                         f"({rows})")
        return tuple(found)

    def _reach_notes(self, side: Side, follows: bool) -> list[str]:
        """Where a plan has no row for the root, or rows of no state of the game; and, followed,
        rows that it never comes to."""
        sheet, root = self.sheet(side), self.game.root()
        if root.is_end or not sheet.rows:
            return []
        found, strangers = [], sheet.strangers()
        if sheet.row(root) is None:
            found.append(f"the plan of player {side} has no row for the state in which the game "
                         f"begins, {root}: the first move is played there, and in every state "
                         f"without a row")
        elif follows and len(sheet.rows) <= MOST_WALKED:
            reached = self._reached(sheet)
            reached |= set(strangers)
            idle = [row.key for row in sheet.rows if row.key not in reached]
            if idle:
                found.append(f"the plan of player {side} never comes to {len(idle)} of its rows, "
                             f"such as that of the key {idle[0]}")
        if strangers:
            found.append(f"{len(strangers)} of the rows of player {side} are of no state of the "
                         f"game, such as that of the key {strangers[0]}: were they made for "
                         f"another position?")
        return found

    def _reached(self, sheet: Sheet) -> set[int]:
        """The keys of the states that a plan can come to."""
        root = self.game.root()
        found, waiting = {root.key}, [root]
        while waiting:
            state = waiting.pop()
            weights = () if state.is_end else sheet.weights(state)
            mine = [label for label, weight in zip(state.moves(sheet.side), weights) if weight]
            for own in mine:
                for reply in state.moves(other(sheet.side)):
                    pair = (own, reply) if sheet.side == "one" else (reply, own)
                    for _, after in state.outcomes_of_labels(*pair):
                        if after.key not in found:
                            found.add(after.key)
                            waiting.append(after)
        return found

    def summary(self) -> str:
        """A few lines that tell what was found, in payoffs, with notes."""
        shown = self.game.shown
        share = f" ({100 * self.gap / self.span:.3g}% of the range)" if self.span else ""
        lines = [f"game   {cut(self.game.title(), 90)}",
                 f"value  from {shown(self.lower)} to {shown(self.upper, True)}, payoff of One",
                 f"gap    {shown(self.gap, True)}{share}, {self._ending}",
                 f"turns  {sum(self.spent)} spent by {len(self.spent)} "
                 f"worker{'s' if len(self.spent) > 1 else ''}"]
        if not self.game.root().is_end and not self.is_vacuous:
            lines += self._root_lines()
        return "\n".join([*lines, *(f"note   {note}" for note in self.notes())]) + "\n"

    def _root_lines(self) -> list[str]:
        """What both sides play at the root; of one where chance alone moves, the draws."""
        root = self.game.root()
        draws = root.draw_names(Move(0), Move(0))
        if not draws or any(len(root.moves(side)) > 1 for side in SIDES):
            return [self._root_line(side) for side in SIDES]
        shown = [f"{name} {100 * chance / CHANCE:.1f}%"
                 for name, chance in zip(draws, root.chances(Move(0), Move(0)))]
        return [f"chance {', '.join(shown[:8])}{', ..' if len(shown) > 8 else ''}"]

    def told(self, state: State | None = None) -> str:
        """A few lines that tell what both plans play and guarantee in a state, that of the
        beginning where none is given."""
        from .pictures import state_words

        state = self.game.root() if state is None else state
        shown, lower, upper = self.game.shown, self.one.bound(state), self.two.bound(state)
        lines = [f"state  {state_words(state)}", f"key    {state.key}"]
        if state.is_end:
            return "\n".join([*lines, f"end    pays One {shown(state.payoff * SCALE)}", ""])
        still = " from here on" if self.game.has_rewards else ""
        lines.append(f"value  from {shown(lower)} to {shown(upper, True)}, payoff of One{still}")
        for side in SIDES:
            lines.append(self._line(side, state) if self.sheet(side).row(state) else
                         f"{side}    no row: plays the first move, {state.names(side)[0]}")
        return "\n".join([*lines, ""])

    def _root_line(self, side: Side) -> str:
        """What a side plays at the root."""
        return self._line(side, self.game.root())

    def _line(self, side: Side, root: State) -> str:
        """What a side plays in a state: the moves of most weight."""
        sheet = self.sheet(side)
        moves = sorted(zip(sheet.weights(root), root.names(side)), key=lambda move: -move[0])
        shown = [f"{name} {100 * weight / sheet.total:.1f}%" for weight, name in moves if weight]
        return f"{side}    {', '.join(shown[:8])}{', ..' if len(shown) > 8 else ''}"

    def __repr__(self) -> str:
        vacuous = ", which is the range of payoffs" if self.is_vacuous else ""
        shown = self.game.shown
        return (f"<Report on {cut(self.game.title(), 60)}: lower {shown(self.lower)}, upper "
                f"{shown(self.upper, True)}, gap {shown(self.gap, True)}{vacuous}, "
                f"{self.closeness}>")

    def __str__(self) -> str:
        return self.summary().removesuffix("\n")

    def _repr_html_(self) -> str:
        """The summary as a table, and what is guaranteed after each pair of moves of the root, for
        notebooks."""
        rows = [line.split(None, 1) for line in self.summary().splitlines()]
        cells = "".join(f"<tr><th>{html.escape(name)}</th><td>{html.escape(text)}</td></tr>"
                        for name, text in rows)
        root = self.game.root()
        count = len(root.moves("one")) * len(root.moves("two"))
        picture = f"<div>{self.heat_map()}</div>" if 1 < count <= MOST_DRAWN else ""
        return f"<table>{cells}</table>{picture}"

    def on(self, game: AnyGame) -> Report:
        """The same report on an equal game, as on a table with names; itself where the game is
        another one."""
        if game is self.game or game != self.game:
            return self
        one, two = (replace(sheet, game=game) for sheet in (self.one, self.two))
        return replace(self, game=game, one=one, two=two)

    def sheet(self, side: Side) -> Sheet:
        """The plan of a side."""
        return self.one if side == "one" else self.two

    def bound(self, side: Side) -> int:
        """What the plan of a side guarantees: the lower bound for One, the upper for Two;
        millionths."""
        return self.lower if side == "one" else self.upper

    def stage(self, state: State) -> list[list[tuple[Fraction, Fraction]]]:
        """The matrix game of a state, a row for each move of One: the lower and the upper bound
        that the two plans have for what follows each pair of moves, with what the turn pays, in
        payoffs, exactly. Where a plan has no row for a state that follows, its bound is the worst
        that its side can still get there."""
        if state.is_end:
            return []
        return [[self.worth(state, one, two) for two in state.moves("two")]
                for one in state.moves("one")]

    def worth(self, state: State, one: int, two: int) -> tuple[Fraction, Fraction]:
        """What `stage` has for a pair of labels: both bounds of what follows, the mean over the
        draws, with what each draw pays."""
        outcomes = list(steps(state, one, two))
        lower, upper = (sum((Fraction(chance * (sheet.bound(after) + SCALE * paid), CHANCE * SCALE)
                             for chance, after, paid in outcomes), Fraction(0))
                        for sheet in (self.one, self.two))
        return lower, upper

    def text(self) -> str:
        """The report's one spelling."""
        lines = [f"dosolve report {self.version}", f"game {self.game.line()}",
                 f"weight {self.weight}", f"turns {self.turns}", f"asked {self.asked}",
                 f"resolution {self.resolution}", f"outcome {self.outcome}", f"lower {self.lower}",
                 f"upper {self.upper}", _spaced("spent", *self.spent)]
        for sheet in (self.one, self.two):
            lines.append(f"{sheet.side} {len(sheet.rows)}")
            lines += [_spaced(row.key, row.bound, *row.weights) for row in sheet.rows]
        return "\n".join([*lines, "end", ""])

    def record(self) -> Record:
        """The numbers of the report, without its plans, for JSON and tables. Bounds, gaps and the
        resolution are payoffs of the rules, as all numbers of JSON are (`unit`); `scale` is what
        the report's own text has them times, beside being millionths."""
        in_payoffs = {name: float(self.game.unscaled(getattr(self, name)))
                      for name in ("lower", "upper", "gap", "asked", "resolution")}
        return {
            "game": self.game.name,
            "settings": self.game.record(),
            "unit": UNIT, "scale": str(self.game.scale),
            **in_payoffs, "outcome": self.outcome, "weight": self.weight,
            "turns": self.turns, "spent": list(self.spent), "is_vacuous": self.is_vacuous,
            "used_up": list(self.used_up), "notes": list(self.notes()),
            "rows": {side: len(self.sheet(side).rows) for side in SIDES},
        }

    @classmethod
    def read(cls, data: bytes | str, game: AnyGame | None = None) -> Report:
        """The report of a text; `load` reads a file. Refuses, with `check`'s text, what is no
        report and a position that the rules refuse; whether the rows and numbers are right only
        `check` says. Where the report is on `game`, it has that one, with the names of a
        table."""
        if not isinstance(data, (bytes, str)):
            raise InvalidError(f"read takes a text, not {shorten(data)}; load takes a path")
        if looks_like_path(data):
            hint = f"{shorten(data)} looks like the name of a file, which Report.load reads"
            raise ReportRefusedError("report head", hint)
        encoded = data.encode("utf-8", "surrogatepass") if isinstance(data, str) else data
        newest = encoded.startswith(b"dosolve report %d\n" % NEWEST_VERSION)
        if len(encoded) > (MOST_WIDE_REPORT_BYTES if newest else MOST_REPORT_BYTES):
            raise ReportRefusedError("report too long")
        found = _Reader(encoded).report()
        return found if game is None else found.on(game)

    @classmethod
    def load(cls, path: FilePath) -> Report:
        """The report of a file; a table with the names of a file beside it that ends with
        `.names`."""
        found = cls.read(Path(path).read_bytes())
        return found.on(with_names(found.game, path))

    def save(self, path: FilePath) -> None:
        """Writes the report into a file, and the names of a table into one beside it."""
        require_names(self.game, path)
        Path(path).write_text(self.text())
        save_names(self.game, path)

    def heat_map(self, state: State | None = None) -> Drawing:
        """A picture of what is guaranteed after each pair of moves of a state, or of the root; see
        `dosolve.drawings.heat_map`."""
        from .drawings import heat_map

        return heat_map(self, state)

    def explore(self, path: FilePath, against: Report | None = None,
                most_states: int = 10_000) -> None:
        """Writes a page to click through, which ends with `.html`; see `dosolve.explore.page`."""
        from .explore import save

        save(self, path, against, most_states)

    @classmethod
    def of(cls, one: Sheet, two: Sheet, asked: int = 0) -> Report:
        """The report of two plans in one game, as of a search that spent no turn; its bounds are
        those of the sheets."""
        lower, upper = one.root_bound, two.root_bound
        resolution = one.game.resolution(one.total)
        outcome = outcome_of(upper - lower, asked, resolution)
        return cls(one.game, one.total, 0, asked, resolution, outcome, lower, upper, (0,), one, two)


def explained(refusal: ReportRefusedError, given: Report | bytes | str) -> ReportRefusedError:
    """A refusal of the program with what is wrong, as far as the report tells it."""
    if refusal.words[0] == "report":
        return _read_again(refusal, given)
    if refusal.words[:2] == ["refused", "bound"] and refusal.key is not None:
        return _bound_explained(refusal, refusal.key, _as_report(given))
    if refusal.text == "refused outcome":
        return ReportRefusedError(refusal.text, _outcome_fault(_as_report(given)))
    return refusal


def _as_report(given: Report | bytes | str) -> Report:
    return given if isinstance(given, Report) else Report.read(given)


def _read_again(refusal: ReportRefusedError, given: Report | bytes | str) -> ReportRefusedError:
    """The same refusal of what is no report, by the package's own reader."""
    try:
        _as_report(given)
    except ReportRefusedError as found:
        return found if found.text == refusal.text else refusal
    return refusal


def _outcome_fault(report: Report) -> str:
    """Why the numbers of a report do not allow its outcome."""
    wanted = outcome_of(report.gap, report.asked, report.resolution)
    if wanted == "spent":
        spent = all(turns == report.turns for turns in report.spent)
        wanted = "spent, full or stopped" if spent else "full or stopped, since turns are left"
    shown = report.game.shown
    return (f"the gap is {shown(report.gap)}, asked was {shown(report.asked)}, and the "
            f"resolution is {shown(report.resolution)}: the outcome has to be {wanted}")


def _bound_explained(refusal: ReportRefusedError, key: int, report: Report) -> ReportRefusedError:
    """A refusal of a row whose weights prove less than its bound, with the state and the moves in
    words."""
    words = refusal.words
    side, state = side_of(words[2]), report.game.state(key)
    reply, found, needed = map(int, words[4:])
    sign = 1 if side == "one" else -1
    yields = sign * (sign * found // report.weight)
    return ReportRefusedError(refusal.text, (
        f"in {state} the row of player {side} yields {report.game.shown(yields)} against the move "
        f"{state.names(other(side))[reply]} of player {other(side)}, and its bound is "
        f"{report.game.shown(needed // report.weight)}"))


def _spaced(*fields: object) -> str:
    return " ".join(map(str, fields))


class _Line:
    """One line of a report, cut at its spaces."""

    def __init__(self, fields: list[bytes], number: int) -> None:
        self.fields, self.number = fields, number
        self.require(all(fields))

    def require(self, good: bool) -> None:
        if not good:
            line = cut(b" ".join(self.fields).decode("utf-8", "replace"), 60)
            raise ReportRefusedError(f"report line {self.number}", f"the line is {line!r}")

    def spelled(self, field: bytes, low: int, high: int) -> int:
        """The number of a field; one of more than 20 digits is in no range."""
        if not _NUMBER.fullmatch(field) or len(field) > 20 or not low <= int(field) <= high:
            word = cut(field.decode("utf-8", "replace"), 30)
            raise ReportRefusedError(f"report number {self.number}",
                                     f"{word!r} has to be a number from {low} to {high}")
        return int(field)

    def listed(self, field: bytes, low: int, high: int, most: int) -> tuple[int, ...]:
        pieces = [] if field == b"-" else field.split(b",")
        numbers = tuple(self.spelled(piece, low, high) for piece in pieces)
        if len(numbers) > most:
            raise ReportRefusedError(f"report number {self.number}",
                                     f"the list has more than {most} numbers")
        return numbers


class _Reader:
    """Reads a report line by line, to its first fault."""

    def __init__(self, data: bytes) -> None:
        self.data, self.at, self.number = data, 0, 0

    def line(self) -> _Line:
        end = self.data.find(b"\n", self.at)
        if end < 0:
            raise ReportRefusedError("report short", f"line {self.number + 1} does not end")
        self.number += 1
        fields = self.data[self.at:end].split(b" ")
        self.at = end + 1
        return _Line(fields, self.number)

    def named(self, word: str, low: int, high: int) -> int:
        """The number of a line `WORD NUMBER`."""
        line = self.line()
        line.require(line.fields[0] == word.encode() and len(line.fields) == 2)
        return line.spelled(line.fields[1], low, high)

    def game(self, version: int) -> tuple[type[AnyGame], list[Setting]]:
        """The kind and the settings of the game line."""
        line = self.line()
        line.require(line.fields[0] == b"game" and len(line.fields) >= 7)
        kind = GAMES.get(line.fields[1].decode("ascii", "replace"))
        if kind is None or version not in (kind.version, NEWEST_VERSION):
            raise ReportRefusedError(f"report line {line.number}",
                                     f"version {version} has no such game")
        known = kind.line_settings(version)
        asked = [each for each in known if not each.optional]
        line.require(len(line.fields) - 2 in (len(asked), len(known)))
        given = list(zip(known, line.fields[2:]))
        for each, word in given:
            line.require(not each.choices or word.decode("ascii", "replace") in each.choices)
            if each.optional and word == b"-":
                raise ReportRefusedError(f"report number {line.number}",
                                         f"the list {each.name} is left out where it is empty")
        settings: list[Setting] = []
        for each, word in given:
            if each.choices:
                settings.append(word.decode())
            elif each.most is None:
                settings.append(line.spelled(word, each.low, each.high))
            else:
                settings.append(line.listed(word, each.low, each.high, each.most))
        return kind, settings

    def outcome(self, version: int) -> str:
        line = self.line()
        word = line.fields[-1].decode("ascii", "replace")
        line.require(line.fields[0] == b"outcome" and len(line.fields) == 2 and word in OUTCOMES)
        line.require(word != "stopped" or version == NEWEST_VERSION)
        return word

    def spent(self) -> tuple[int, ...]:
        line = self.line()
        line.require(line.fields[0] == b"spent" and 2 <= len(line.fields) <= MOST_WORKERS + 1)
        return tuple(line.spelled(field, 0, MOST_TURNS) for field in line.fields[1:])

    def rows(self, side: Side, limits: Limits) -> Iterator[Row]:
        before = -1
        for _ in range(self.named(side, 0, limits.rows)):
            line = self.line()
            line.require(1 <= len(line.fields) - 2 <= limits.moves)
            key = line.spelled(line.fields[0], 0, MOST_KEY)
            bound = line.spelled(line.fields[1], -MOST_BOUND, MOST_BOUND)
            weights = tuple(line.spelled(field, 0, MOST_WEIGHT) for field in line.fields[2:])
            if key <= before:
                raise ReportRefusedError(f"report order {line.number}",
                                         f"the key {key} has to be greater than {before}")
            before = key
            yield Row(key, bound, weights)

    def head(self) -> int:
        """The version of the report's form."""
        for head, version in _HEADS.items():
            if self.data.startswith(head):
                self.line()
                return version
        raise ReportRefusedError("report head", head_fault(self.data))

    def report(self) -> Report:
        version = self.head()
        limits = WIDE if version == NEWEST_VERSION else NARROW
        kind, settings = self.game(version)
        numbers = (self.named("weight", LEAST_WEIGHT, MOST_WEIGHT),
                   self.named("turns", 0, MOST_TURNS), self.named("asked", 0, MOST_GAP),
                   self.named("resolution", 0, MOST_RESOLUTION))
        outcome = self.outcome(version)
        bounds = (self.named("lower", -MOST_BOUND, MOST_BOUND),
                  self.named("upper", -MOST_BOUND, MOST_BOUND))
        spent = self.spent()
        one, two = tuple(self.rows("one", limits)), tuple(self.rows("two", limits))
        end = self.line()
        end.require(end.fields == [b"end"])
        if self.at < len(self.data):
            raise ReportRefusedError("report tail", "something follows the line `end`")
        try:
            game = kind.of_line(*settings, limits=limits)
        except InputRefusedError as refusal:
            raise ReportRefusedError(f"report position {refusal.code}", refusal.hint) from None
        sheets = (Sheet(game, "one", numbers[0], one), Sheet(game, "two", numbers[0], two))
        found = Report(game, *numbers, outcome, *bounds, spent, *sheets)
        if version != found.version:
            raise ReportRefusedError("report head", f"the version of this report is "
                                                    f"{found.version}, and no other")
        return found


def head_fault(data: bytes) -> str:
    """Why a text does not begin as a report does."""
    if not data.strip():
        return "the text is empty"
    if data.startswith(b"dosolve report ") and b"\r\n" in data[:40]:
        return "its lines end with CR LF; the program's end with LF alone"
    if data.lstrip().startswith(b"{"):
        return "this is a position, not a report; Position.read reads one"
    return "a report begins with the line `dosolve report 1`, or 2 or 3"
