"""Tron on a small grid."""
from __future__ import annotations

import math
from collections.abc import Sequence
from dataclasses import dataclass
from functools import cached_property

from ..limits import MOST_GRID, Limits
from .game import AnyGame, Field, Game, Side, State, members, packed, side_of, unpacked

DIRECTIONS = ("north", "east", "south", "west")
"""What the labels 0 to 3 stand for."""


@dataclass(frozen=True, repr=False)
class TronState(State):
    """A state of Tron: the taken cells and both heads."""

    game: Tron
    taken: frozenset[int]
    one: int
    two: int

    def __repr__(self) -> str:
        return f"TronState(one={self.one}, two={self.two}, taken={sorted(self.taken)})"

    def free(self, side: Side) -> dict[int, int]:
        """The cells that the player's head can reach, by direction (0 north, 1 east, 2 south,
        3 west)."""
        near = self.game.neighbours(self.one if side_of(side) == "one" else self.two)
        return {direction: cell for direction, cell in near.items() if cell not in self.taken}

    @property
    def key(self) -> int:
        return packed((sum(1 << cell for cell in self.taken), 36), (self.one, 6), (self.two, 6))

    @property
    def rank(self) -> int:
        cells = self.game.height * self.game.width
        return 0 if self.is_end else (cells - len(self.taken) + 1) // 2

    @cached_property
    def _shut(self) -> tuple[bool, bool]:
        return not self.free("one"), not self.free("two")

    @property
    def is_end(self) -> bool:
        return self.one == self.two or any(self._shut)

    def _payoff(self) -> int:
        one, two = self._shut
        return 0 if self.one == self.two else two - one

    def _moves(self, side: Side) -> tuple[int, ...]:
        return tuple(self.free(side))

    def names(self, side: Side) -> tuple[str, ...]:
        return tuple(DIRECTIONS[label] for label in self.moves(side))

    def _after(self, one: int, two: int, draw: int) -> TronState:
        heads = self.free("one")[one], self.free("two")[two]
        return TronState(self.game, self.taken | set(heads), *heads)


@dataclass(frozen=True)
class Tron(Game[TronState]):
    """Tron: the rows and columns of the grid (1 to 6 each), its walls, and both heads. Cells are
    numbered row by row from 0."""

    name = "tron"
    settings = (Field("height"), Field("width"), Field("walls", most=255), Field("one"),
                Field("two"))
    height: int
    width: int
    walls: Sequence[int]
    one: int
    two: int

    def _fault(self, limits: Limits) -> tuple[str, str] | None:
        if not (1 <= self.height <= MOST_GRID and 1 <= self.width <= MOST_GRID):
            return ("41 grid range", f"a grid of {self.height} rows and {self.width} columns has "
                    f"to have 1 to {MOST_GRID} of each")
        for place, cell in enumerate((*self.walls, self.one, self.two)):
            if cell >= self.height * self.width:
                return (f"42 cell range {place}", f"the cell {cell} is not on the grid, whose "
                        f"cells are from 0 to {self.height * self.width - 1}")
        if self.one in self.walls or self.two in self.walls:
            return "43 head in wall", "a head stands on a wall"
        if self.one == self.two:
            return "44 heads meet", f"both heads stand on the cell {self.one}"
        return None

    @property
    def most_moves(self) -> int:
        return 4

    @property
    def most_states(self) -> int:
        free = self.height * self.width - len(set(self.walls)) - 2
        return 1 + sum(
            min(16 * int(9**(turn - 1)), 2 * turn * (2 * turn - 1) * math.comb(free, 2 * turn))
            for turn in range(1, free // 2 + 1))

    def neighbours(self, cell: int) -> dict[int, int]:
        """The cells beside a cell, by direction in the order north, east, south, west."""
        row, column = divmod(cell, self.width)
        steps = ((row - 1, column), (row, column + 1), (row + 1, column), (row, column - 1))
        return {direction: r * self.width + c for direction, (r, c) in enumerate(steps)
                if 0 <= r < self.height and 0 <= c < self.width}

    def starting_at(self, state: State) -> AnyGame:
        self._own(state)
        assert isinstance(state, TronState)
        walls = sorted(state.taken - {state.one, state.two})
        return Tron(self.height, self.width, walls, state.one, state.two)

    def root(self) -> TronState:
        return TronState(self, frozenset((*self.walls, self.one, self.two)), self.one, self.two)

    def _unpacked(self, key: int) -> TronState | None:
        cells, one, two = unpacked(key, 36, 6, 6)
        if cells >> self.height * self.width:
            return None
        taken = frozenset(members(cells))
        known = taken >= {*self.walls, self.one, self.two, one, two}
        return TronState(self, taken, one, two) if known else None
