"""Plans as sheets: rows of weights by keys of states, looked up and sampled."""
from __future__ import annotations

import html
import random
from collections.abc import Iterator, Sequence
from dataclasses import dataclass
from fractions import Fraction
from functools import cached_property
from typing import Protocol

from ..errors import InvalidError
from ..games.game import SCALE, AnyGame, Move, Side, State, side_of
from ..limits import (
    LEAST_WEIGHT, MOST_BOUND, MOST_KEY, MOST_OWN_MOVES, MOST_WEIGHT, MOST_WIDE_ROWS,
)
from ..values import Record, cut, html_table, require_range, shorten

SHOWN = 10
"""How many states of a plan a notebook shows."""

_SOURCE = random.Random()


class Source(Protocol):
    """A source of random numbers, as `random.Random` and numpy's `Generator` are."""

    def random(self) -> float:
        """A number from 0 to 1, 1 excluded."""


@dataclass(frozen=True)
class Row:
    """What a plan plays in one state: the state's key, the bound in millionths that the plan
    guarantees from there on, and a weight for each of the player's moves. In a report there are at
    most 64; a game that is written in Python can have more."""

    key: int
    bound: int
    weights: Sequence[int]

    def __post_init__(self) -> None:
        require_range("the key of a row", self.key, 0, MOST_KEY)
        require_range(f"the bound of the row {self.key}", self.bound, -MOST_BOUND, MOST_BOUND)
        object.__setattr__(self, "weights", tuple(self.weights))
        if not 1 <= len(self.weights) <= MOST_OWN_MOVES:
            raise InvalidError(f"the row {self.key} has {len(self.weights)} weights, and has to "
                               f"have 1 to {MOST_OWN_MOVES}")
        for move, weight in enumerate(self.weights):
            require_range(f"weight {move} of the row {self.key}", weight, 0, MOST_WEIGHT)


@dataclass(frozen=True, repr=False)
class Sheet:
    """A player's plan (a behavioural strategy) in a game: rows by rising key, whose weights sum to
    `total`.

    In the state of a row the player makes each move with probability weight / total. In any other
    state, and where a row has another number of weights than there are moves, or another sum, it
    makes its first move.
    """

    game: AnyGame
    side: Side
    total: int
    rows: Sequence[Row] = ()

    def __post_init__(self) -> None:
        side_of(self.side)
        require_range("the total of a sheet", self.total, LEAST_WEIGHT, MOST_WEIGHT)
        object.__setattr__(self, "rows", tuple(self.rows))
        if len(self.rows) > MOST_WIDE_ROWS:
            raise InvalidError(f"a sheet has at most {MOST_WIDE_ROWS} rows, not {len(self.rows)}")
        for before, row in zip(self.rows, self.rows[1:]):
            if before.key >= row.key:
                raise InvalidError(f"the keys of a sheet rise, but {row.key} follows {before.key}")

    @property
    def weight(self) -> int:
        """What the weights of a row sum to, as positions and reports call it."""
        return self.total

    def __repr__(self) -> str:
        return (f"<Sheet of player {self.side} in {cut(self.game.title(), 60)}: "
                f"{len(self.rows)} rows of weight {self.total}>")

    @cached_property
    def _by_key(self) -> dict[int, Row]:
        return {row.key: row for row in self.rows}

    def row(self, state: State) -> Row | None:
        """The row of the state, whether or not it is a good one; None where there is none."""
        if state.game != self.game:
            raise InvalidError(f"a state of the game {state.game.title()} is none of the plan's "
                               f"game {self.game.title()}")
        return self._by_key.get(state.key)

    def weights(self, state: State) -> tuple[int, ...]:
        """What the plan plays in a state that is no end: a weight for each move, which sum to the
        total."""
        row, count = self.row(state), len(state.moves(self.side))
        if count == 0:
            raise InvalidError(f"the game is over in {state}, so there is no move")
        if row is not None and len(row.weights) == count and sum(row.weights) == self.total:
            return tuple(row.weights)
        return (self.total,) + (0,) * (count - 1)

    def unplayed(self) -> Iterator[State]:
        """The states whose rows are not played, since they have not one weight for each move, or
        another sum than the total."""
        return iter(self._odd[0])

    def strangers(self) -> list[int]:
        """The keys of rows that are of no state of the game."""
        return self._odd[1]

    @cached_property
    def _odd(self) -> tuple[list[State], list[int]]:
        """The states whose rows are not played, and the keys that are of no state."""
        unplayed: list[State] = []
        strangers: list[int] = []
        for row in self.rows:
            try:
                state = self.game.state(row.key)
            except InvalidError:
                strangers.append(row.key)
                continue
            count = len(state.moves(self.side))
            if count and (len(row.weights) != count or sum(row.weights) != self.total):
                unplayed.append(state)
        return unplayed, strangers

    def probabilities(self, state: State) -> dict[int, Fraction]:
        """What the plan plays in a state that is no end: the probability of each label."""
        labels = state.moves(self.side)
        return {label: Fraction(weight, self.total)
                for label, weight in zip(labels, self.weights(state))}

    def named(self, state: State) -> dict[str, Fraction]:
        """What the plan plays in a state that is no end: the probability of each move by its
        name."""
        return dict(zip(state.names(self.side), self.probabilities(state).values()))

    def sample(self, state: State, source: Source | None = None) -> Move:
        """A move for a live match, its number from 0, drawn by the plan's weights; its label is
        `state.moves(side)[move]`.

        The source is a `random.Random`, or numpy's `Generator`.
        """
        weights = self.weights(state)
        draw = getattr(source or _SOURCE, "random", None)
        if not callable(draw):
            raise InvalidError(f"a source of random numbers has a method random(), as "
                               f"random.Random has: {shorten(source)} has none")
        left = int(draw() * self.total)
        for move, weight in enumerate(weights):
            left -= weight
            if left < 0:
                return Move(move)
        raise InvalidError("random() has to give a number from 0 to 1, 1 excluded")

    def items(self) -> Iterator[tuple[State, dict[int, Fraction]]]:
        """Each row's state with the probability of each label there."""
        for row in self.rows:
            state = self.game.state(row.key)
            yield state, self.probabilities(state)

    def table(self) -> list[Record]:
        """The rows as records, one for each move of each state, as `pandas.DataFrame` takes them:
        key, bound (a payoff of the rules), label, its name, weight and probability."""
        records = []
        for row in self.rows:
            state = self.game.state(row.key)
            moves = zip(state.moves(self.side), state.names(self.side), self.weights(state))
            for label, name, weight in moves:
                records.append({
                    "side": self.side, "key": row.key, "state": repr(state),
                    "bound": float(self.game.unscaled(row.bound)), "label": label,
                    "name": name, "weight": weight,
                    "probability": weight / self.total,
                })
        return records

    def _repr_html_(self) -> str:
        """What the plan plays at the root and in a few more states, for notebooks."""
        states = [self.game.root()]
        others = [row.key for row in self.rows[:SHOWN] if row.key != states[0].key]
        states += [self.game.state(key) for key in others]
        lines = []
        for state in states[:SHOWN]:
            if not state.is_end:
                moves = [f"{name} {100 * float(share):.1f}%"
                         for name, share in self.named(state).items() if share]
                bound = self.game.shown(self.bound(state), self.side == "two")
                lines.append((state, bound, ", ".join(moves)))
        table = html_table(("state", "bound", "moves"), lines)
        return f"<p>{html.escape(repr(self))}</p>{table}"

    @property
    def root_bound(self) -> int:
        """What the sheet says that it guarantees at the root, in millionths."""
        return self.bound(self.game.root())

    def bound(self, state: State) -> int:
        """The bound of the state's row; without one the payoff of an end, else the worst that the
        side can still get from the state on; millionths."""
        row = self.row(state)
        if row is not None:
            return row.bound
        return state.payoff * SCALE if state.is_end else state.opening(self.side)
