"""Soccer on a small grid, after Littman's Markov game, for a limited number of rounds.

One attacks to the east, Two to the west; the goals are the middle two rows of both ends. Both
choose a step at once; the steps are made one after the other, in an order that is drawn. A player
who steps onto the other's cell stays, and the ball goes to the other. A player with the ball who
steps into the goal that it attacks scores, and the game is over. Without a goal it pays 0.

    python3 -m dosolve table python/examples/soccer.py -o soccer.json
"""
from __future__ import annotations

from dataclasses import dataclass, replace
from fractions import Fraction

import dosolve

ROWS, COLUMNS, ROUNDS = 4, 5, 4
STEPS = {"north": (-1, 0), "south": (1, 0), "east": (0, 1), "west": (0, -1), "stay": (0, 0)}
ATTACKS = {"one": "east", "two": "west"}

Cell = tuple[int, int]


@dataclass(frozen=True)
class Pitch:
    """What both players see before each round."""

    rounds: int
    one: Cell
    two: Cell
    ball: dosolve.Side
    goals: int = 0

    def __str__(self) -> str:
        rows = [["."] * COLUMNS for _ in range(ROWS)]
        for side in dosolve.SIDES:
            row, column = self.cell(side)
            mark = "1" if side == "one" else "2"
            rows[row][column] = f"({mark})" if self.ball == side else mark
        return f"{self.rounds} rounds: {'/'.join(''.join(row) for row in rows)}"

    def cell(self, side: dosolve.Side) -> Cell:
        """Where a player stands."""
        return self.one if side == "one" else self.two

    def steps(self, side: dosolve.Side) -> list[str]:
        """The steps that stay on the grid, or score."""
        return [step for step in STEPS
                if self.is_on_grid(side, step) or (self.ball == side and self.scores(side, step))]

    def scores(self, side: dosolve.Side, step: str) -> bool:
        """Whether a step leads into the goal."""
        return (step == ATTACKS[side] and not self.is_on_grid(side, step)
                and self.cell(side)[0] in (ROWS // 2 - 1, ROWS // 2))

    def is_on_grid(self, side: dosolve.Side, step: str) -> bool:
        """Whether a step stays on the grid."""
        row, column = self.target(side, step)
        return 0 <= row < ROWS and 0 <= column < COLUMNS

    def target(self, side: dosolve.Side, step: str) -> Cell:
        """The cell that a step leads to."""
        row, column = self.cell(side)
        return row + STEPS[step][0], column + STEPS[step][1]

    def stepped(self, side: dosolve.Side, step: str) -> Pitch:
        """The pitch after one player's step."""
        if self.goals:
            return self
        if not self.is_on_grid(side, step):
            # The ball may have been lost in this round; then there is no goal.
            goal = 1 if side == "one" else -1
            return replace(self, goals=goal if self.ball == side else 0)
        target = self.target(side, step)
        if step != "stay" and target == self.cell(dosolve.other(side)):
            return replace(self, ball=dosolve.other(side))
        return replace(self, one=target) if side == "one" else replace(self, two=target)


def moves(pitch: Pitch) -> tuple[list[str], list[str]] | None:
    """The steps of both players; none where the game is over."""
    if pitch.goals or pitch.rounds == 0:
        return None
    return pitch.steps("one"), pitch.steps("two")


def after(pitch: Pitch, one: str, two: str) -> list[tuple[Pitch, Fraction]]:
    """The pitch after both steps, in either order with the same chance."""
    start, half = replace(pitch, rounds=pitch.rounds - 1), Fraction(1, 2)
    return [(start.stepped("one", one).stepped("two", two), half),
            (start.stepped("two", two).stepped("one", one), half)]


def table() -> dosolve.Table:
    """The game as a table."""
    start = Pitch(ROUNDS, one=(2, 2), two=(2, 3), ball="one")
    return dosolve.Table.from_functions(start, moves, after, lambda pitch: pitch.goals)
