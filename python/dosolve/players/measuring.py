"""Measures a player given as a function: what it guarantees, and how it does against the
solver's plan."""
from __future__ import annotations

from collections.abc import Callable
from dataclasses import dataclass, replace
from fractions import Fraction
from functools import partial
from typing import Any

from ..errors import InvalidError
from ..exact import expected_of
from ..games.game import SIDES, Side, other, side_of
from ..positions import Position, require_position
from ..reports import UNIT, Report
from ..solver.program import Match, Solver, WorstCase, require_match
from ..solver.progress import EitherListener, PlanListener
from ..values import FilePath, Record, as_number
from .histories import takes_history
from .plans import ASKED_AGAIN, NO_PLAN, plan
from .sheets import Sheet

Player = Callable[[Side, Any], object]
"""A function from a side and a state to one probability or weight for each of
`state.moves(side)`, or to a mapping from these labels."""


@dataclass(frozen=True)
class Measured:
    """What was found of a player on one side.

    `report` has the player's plan for its side and the solver's for the other; `bound` is what the
    solver's own plan for the player's side guarantees, in millionths; `match` was played by the
    two plans of the report, and `expected` is their exact expected payoff.
    """

    side: Side
    report: Report
    bound: int
    worst: WorstCase
    match: Match
    expected: Fraction

    @property
    def exploitability(self) -> int:
        """By how many millionths the player guarantees less than the solver's plan; negative where
        it guarantees more."""
        guaranteed = self.worst.guaranteed
        return self.bound - guaranteed if self.side == "one" else guaranteed - self.bound

    @property
    def short(self) -> int:
        """The name of `exploitability` in earlier versions."""
        return self.exploitability

    def text(self) -> str:
        """Two lines on the player, in payoffs of One."""
        sheet, match, game = self.report.sheet(self.side), self.match, self.report.game
        mean, least = game.of_rules(match.mean), game.of_rules(match.least)
        most = game.of_rules(match.most)
        players = " ".join(f"{side} {'player' if side == self.side else 'solver'}"
                           for side in SIDES)
        return (f"player {self.side} rows {len(sheet.rows)} guarantees "
                f"{game.shown(self.worst.guaranteed, self.side == 'two')} exploitability "
                f"{game.shown(self.exploitability, True)}\n"
                f"match {players} expected {float(game.of_rules(self.expected)):z.6f} games "
                f"{match.games} mean {float(mean):z.6f} error "
                f"{(match.error or 0) / float(game.scale):z.6f} least {as_number(least)} most "
                f"{as_number(most)}\n")

    def __str__(self) -> str:
        return self.text().removesuffix("\n")

    def record(self) -> Record:
        """The numbers for JSON and tables, in payoffs of One by the rules; exact ones as fractions
        too. `short` is the name of `exploitability` in earlier versions."""
        game, match = self.report.game, self.match
        short = float(game.unscaled(self.exploitability))
        expected = game.of_rules(self.expected)
        return {
            "side": self.side, "unit": UNIT, "rows": len(self.report.sheet(self.side).rows),
            "guarantees": float(game.unscaled(self.worst.guaranteed)),
            "exploitability": short, "short": short,
            "fraction": str(game.of_rules(self.worst.payoff)) if self.worst.is_exact else None,
            "expected": float(expected), "expected_fraction": str(expected),
            "games": match.games, "mean": float(game.of_rules(match.mean)),
            "error": None if match.error is None else match.error / float(game.scale),
            "least": as_number(game.of_rules(match.least)),
            "most": as_number(game.of_rules(match.most)),
        }


def solved_text(report: Report) -> str:
    """One line on what the solver found, in payoffs of One, and a line for each note."""
    notes = "".join(f"note {note}\n" for note in report.notes())
    shown = report.game.shown
    return (f"solver lower {shown(report.lower)} upper {shown(report.upper, True)} gap "
            f"{shown(report.gap, True)} {report.closeness}\n{notes}")


def plan_of(position: Position, player: Player | Sheet, side: Side,
            ask_again: int = ASKED_AGAIN, progress: PlanListener | bool = False) -> Sheet:
    """The plan of a player for one side of a position, by rows of the position's weight; see
    `plan`."""
    if isinstance(player, Sheet):
        if (player.game, player.side, player.total) != (position.game, side, position.weight):
            raise InvalidError(f"the plan is not one of player {side} for this position: "
                               f"{player!r}")
        return player
    if not callable(player):
        raise InvalidError(f"a player is a function play(side, state), not {player!r}")
    if takes_history(player):
        raise InvalidError(NO_PLAN)
    return plan(position.game, side, partial(player, side), position.weight, ask_again, progress)


def measure(position: Position, player: Player | Sheet, side: Side, solved: Report | None = None,
            games: int = 1000, seed: int = 0, program: FilePath | Solver | None = None,
            progress: EitherListener | bool = False, timeout: float | None = None) -> Measured:
    """Measures a player, or a plan, on one side of a position, against the solver's report on it,
    which is made where none is given. `program` is the program's file, or a `Solver`, whose
    timeout counts where none is given. `progress` is a function that is called about once a second
    with each step of making the plan (`PlanProgress`) and of the search (`Progress`), or True for
    a line on the terminal."""
    require_position(position, "measure")
    require_match(games, seed)
    solver = program if isinstance(program, Solver) else Solver(program)
    if timeout is not None:
        solver = replace(solver, timeout=timeout)
    mine = plan_of(position, player, side_of(side), progress=progress)
    found = solved or solver.solve(position, progress=progress)
    if (found.game, found.weight) != (position.game, position.weight):
        raise InvalidError(f"the report is not of this position: {found.game.title()}, weight "
                           f"{found.weight}")
    yours = found.sheet(other(side))
    one, two = (mine, yours) if side == "one" else (yours, mine)
    report = Report.of(one, two, found.asked)
    return Measured(side, report, found.bound(side), solver.exploit(report, side),
                    solver.match(report, games, seed), expected_of(one, two))
