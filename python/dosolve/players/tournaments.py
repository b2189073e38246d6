"""Tournaments: each player against each on each position, as one table."""
from __future__ import annotations

import csv
import io
import json
from collections.abc import Iterable, Mapping
from dataclasses import dataclass, field
from fractions import Fraction

from ..errors import InvalidError, PlayerError
from ..exact import expected_of, respond
from ..games.game import SIDES, AnyGame, Side
from ..positions import Position, require_position
from ..reports import UNIT, Report
from ..solver.program import Solver
from ..values import Record, cut, html_table
from .histories import Contender, live_match, require_games, takes_history
from .measuring import plan_of
from .sheets import Sheet

SOLVER = "solver"
"""The name under which the solver's plans take part."""

_NEAR = 1e-5
"""What differences of means and of exploitabilities are nothing to go by."""

_COLUMNS = ("position", "game", "one", "two", "payoff", "error", "games")


@dataclass(frozen=True)
class Pairing:
    """One meeting: the number of the position, its game, both players' names, the payoff of One by
    the rules, its standard error and the games; the payoff is exact where the error is 0 and no
    games were played."""

    position: int
    game: str
    one: str
    two: str
    payoff: float
    error: float
    games: int


@dataclass(frozen=True)
class Guarantee:
    """What a player's plan guarantees on one side of a position against any opponent, as the
    player's own payoff by the rules."""

    position: int
    player: str
    side: Side
    payoff: float


@dataclass(frozen=True, repr=False)
class Tournament:
    """All meetings of a tournament, what to know of them, what plans guarantee, and the players
    that took no part, since they gave no answer somewhere, with what was wrong."""

    pairings: tuple[Pairing, ...]
    notes: tuple[str, ...] = ()
    guarantees: tuple[Guarantee, ...] = ()
    failed: Mapping[str, str] = field(default_factory=dict)

    def __repr__(self) -> str:
        return f"<Tournament of {len(self.standings())} players: {len(self.pairings)} meetings>"

    def __str__(self) -> str:
        return self.markdown().removesuffix("\n")

    def table(self) -> list[Record]:
        """The meetings as records, as `pandas.DataFrame` takes them."""
        return [{column: getattr(pairing, column) for column in _COLUMNS}
                for pairing in self.pairings]

    def standings(self) -> list[Record]:
        """Each player's mean payoff as One and as Two (its own: One's negative) and over both, the
        best first; then the means over positions of what its plans guarantee against any opponent,
        and its exploitability: what a best response wins against both of them more than the value
        of the game, the mean of both sides. These are None for a player of histories."""
        names = dict.fromkeys(name for pairing in self.pairings for name in (pairing.one,
                                                                             pairing.two))
        found: list[Record] = []
        for name in names:
            one = [pairing.payoff for pairing in self.pairings if pairing.one == name]
            two = [-pairing.payoff for pairing in self.pairings if pairing.two == name]
            found.append({"player": name, "as one": _mean(one), "as two": _mean(two),
                          "mean": _mean(one + two)} | self._guaranteed(name))
        return sorted(found, key=lambda standing: -float(standing["mean"]))

    def _guaranteed(self, name: str) -> Record:
        """The columns of what a player guarantees."""
        one, two = ([each.payoff for each in self.guarantees
                     if (each.player, each.side) == (name, side)] for side in SIDES)
        known = bool(one and two)
        return {"guarantees as one": _mean(one) if known else None,
                "guarantees as two": _mean(two) if known else None,
                "exploitability": 0.0 - _mean([*one, *two]) if known else None}

    def _order_notes(self) -> tuple[str, ...]:
        """Where a player is before another that guarantees more."""
        known = [each for each in self.standings() if each["exploitability"] is not None]
        for place, first in enumerate(known):
            for second in known[place + 1:]:
                if (first["mean"] > second["mean"] + _NEAR
                        and first["exploitability"] > second["exploitability"] + _NEAR):
                    return (f"{first['player']} is before {second['player']} by its mean, and "
                            f"guarantees less against an opponent that knows it (exploitability "
                            f"{first['exploitability']:.6f} and {second['exploitability']:.6f}): "
                            f"means depend on who takes part, guarantees do not",)
        return ()

    def all_notes(self) -> tuple[str, ...]:
        """The notes, with those on the order of players and on those that took no part."""
        return (*self.notes, *self._order_notes(),
                *(f"{name} took no part: {fault}" for name, fault in self.failed.items()))

    def markdown(self) -> str:
        """The standings and the meetings as tables of Markdown, then the notes."""
        parts = [f"Mean payoffs to the player itself:\n\n{_markdown(self.standings())}",
                 f"Meetings, with the payoff to One:\n\n{_markdown(self.table())}"]
        if self.all_notes():
            parts.append("".join(f"note {note}\n" for note in self.all_notes()))
        return "\n".join(parts)

    def _repr_html_(self) -> str:
        """The standings as a table, for notebooks."""
        records = self.standings()
        return html_table(list(records[0]) if records else [], (
            map(_cell, record.values()) for record in records))

    def csv(self) -> str:
        """The meetings as comma-separated values."""
        text = io.StringIO()
        writer = csv.DictWriter(text, _COLUMNS, lineterminator="\n")
        writer.writeheader()
        writer.writerows(self.table())
        return text.getvalue()

    def json(self) -> str:
        """The standings, the meetings and the notes as one object of JSON."""
        return json.dumps({"unit": UNIT, "standings": self.standings(), "meetings": self.table(),
                           "notes": list(self.all_notes()), "failed": dict(self.failed)}) + "\n"


def tournament(players: Mapping[str, Contender], positions: Iterable[Position],
               solver: Solver | None = None, games: int = 1000, seed: int = 0,
               seconds: float | None = None) -> Tournament:
    """Each player against each, itself too, on each position. All payoffs are those of the rules.

    Two players of states meet in an exact expected payoff; where one is a player of histories, in
    `games` live games with a standard error. With `solver`, a `Solver`, the solver's own plans
    take part under the name `solver`; `seconds` is what it has for each position. A player that
    gives no answer in some state takes no part (`failed`), and the others go on.
    """
    if solver is not None and SOLVER in players:
        raise InvalidError(f"no player can be named {SOLVER} where the solver takes part")
    given = [require_position(position, "tournament") for position in positions]
    if any(_is_live(player) for player in players.values()):
        require_games(games)
    room = _Room(dict(players), solver, games, seed)
    for number, position in enumerate(given):
        room.play(number, position, seconds)
    return room.end()


@dataclass
class _Room:
    """A tournament that is under way."""

    players: dict[str, Contender]
    solver: Solver | None
    games: int
    seed: int
    pairings: list[Pairing] = field(default_factory=list)
    guarantees: list[Guarantee] = field(default_factory=list)
    notes: list[str] = field(default_factory=list)
    failed: dict[str, str] = field(default_factory=dict)

    def play(self, number: int, position: Position, seconds: float | None) -> None:
        """All meetings on one position."""
        ready: dict[str, dict[Side, Contender]] = {}
        for name, player in self.players.items():
            if name not in self.failed:
                try:
                    ready[name] = {side: _ready(position, player, side) for side in SIDES}
                except PlayerError as fault:
                    self.failed[name] = str(fault)
        if self.solver is not None:
            report = self.solver.solve(position, seconds)
            ready[SOLVER] = {"one": report.one, "two": report.two}
            self.notes += [f"position {number}, the solver: {note}" for note in report.notes()]
        for name, plans in ready.items():
            self.guarantees += [Guarantee(number, name, side, payoff)
                                for side, payoff in _guaranteed(plans, self.solver)]
        for one in ready:
            for two in ready:
                if one not in self.failed and two not in self.failed:
                    self.meet(number, position.game, (one, ready[one]["one"]),
                              (two, ready[two]["two"]))

    def meet(self, number: int, game: AnyGame, one: tuple[str, Contender],
             two: tuple[str, Contender]) -> None:
        """One meeting."""
        try:
            met = _meet(game, one[1], two[1], self.games, self.seed)
        except PlayerError as fault:
            if fault.side is None:
                raise
            self.failed[one[0] if fault.side == "one" else two[0]] = str(fault)
            return
        self.pairings.append(Pairing(number, game.title(), one[0], two[0], *met))

    def end(self) -> Tournament:
        """The tournament, without the players that failed."""
        pairings = (each for each in self.pairings
                    if each.one not in self.failed and each.two not in self.failed)
        guarantees = (each for each in self.guarantees if each.player not in self.failed)
        return Tournament(tuple(pairings), tuple(dict.fromkeys(self.notes)), tuple(guarantees),
                          self.failed)


def _guaranteed(plans: Mapping[Side, Contender],
                solver: Solver | None) -> list[tuple[Side, float]]:
    """What both plans of a player guarantee, as its own payoffs; nothing where it has none. The
    program is asked where there is one."""
    one, two = plans["one"], plans["two"]
    if not isinstance(one, Sheet) or not isinstance(two, Sheet):
        return []
    if solver is None:
        worst = respond(one).value, respond(two).value
    else:
        report = Report.of(one, two)
        worst = solver.exploit(report, "one").payoff, solver.exploit(report, "two").payoff
    return [("one", float(one.game.of_rules(worst[0]))),
            ("two", float(-one.game.of_rules(worst[1])))]


def _is_live(player: Contender) -> bool:
    """Whether a player has no plan, and plays games."""
    return not isinstance(player, Sheet) and takes_history(player)


def _ready(position: Position, player: Contender, side: Side) -> Contender:
    """The player's plan where it has one."""
    return player if _is_live(player) else plan_of(position, player, side)


def _meet(game: AnyGame, one: Contender, two: Contender, games: int,
          seed: int) -> tuple[float, float, int]:
    """The payoff of One by the rules, its standard error, and the games."""
    if isinstance(one, Sheet) and isinstance(two, Sheet):
        payoff: Fraction = expected_of(one, two)
        return float(game.of_rules(payoff)), 0.0, 0
    match = live_match(game, one, two, games, seed)
    return float(game.of_rules(match.mean)), (match.error or 0.0) / float(game.scale), games


def _mean(numbers: list[float]) -> float:
    return sum(numbers) / len(numbers) if numbers else 0.0


def _markdown(records: list[Record]) -> str:
    """Records as a table."""
    if not records:
        return ""
    lines = [list(records[0]), ["---"] * len(records[0])]
    lines += [[_cell(value) for value in record.values()] for record in records]
    return "".join(f"| {' | '.join(line)} |\n" for line in lines)


def _cell(value: object) -> str:
    """A value of a table as a text; a dash where it is not known."""
    if value is None:
        return "-"
    return f"{value:z.6f}" if isinstance(value, float) else cut(str(value), 60)
