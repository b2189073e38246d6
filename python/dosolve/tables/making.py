"""How far the making of a table is, and the limits that it is held to while it is made."""
from __future__ import annotations

import time
from collections.abc import Callable, Hashable, Iterator
from contextlib import contextmanager
from contextvars import ContextVar
from dataclasses import dataclass
from fractions import Fraction
from typing import NamedTuple

from ..errors import NoTableError
from ..limits import WIDE
from ..solver.progress import Bar


class Draw(NamedTuple):
    """A node that can follow, its weight in parts of `CHANCE`, and what the turn then pays One."""

    node: Hashable
    weight: int
    reward: Fraction


Told = Fraction | list[list[list[Draw]]]
"""The payoff of an end, or the rows of a state with the draws of each cell."""


@dataclass(frozen=True)
class TableProgress:
    """How far the making of a table is: the states with moves and the pairs of moves so far, the
    bytes of text that they take at least, and the seconds since it began."""

    states: int
    pairs: int
    bytes: int
    seconds: float

    def __str__(self) -> str:
        return (f"{self.seconds:.0f} s, {self.states} states with moves, {self.pairs} pairs of "
                f"moves, {100 * self.bytes // WIDE.bytes}% of the text that is possible")


TableListener = Callable[[TableProgress], object]
"""What is called with each step of making a table."""

SHOWN: ContextVar[bool] = ContextVar("shown", default=False)
"""Whether tables show their making on the terminal where nothing else is asked."""


class Making:
    """Counts states, and the least bytes that the text of the position will have.

    A state's number is the count of those that are done after it, so numbers only grow: `leads`
    has for each state, in the order in which they were done, how many cells name it.
    """

    def __init__(self, listener: TableListener | None, rounded: bool = False) -> None:
        self.listener = listener
        self.rounded = rounded
        self.places: dict[Hashable, int] = {}
        self.leads: list[int] = []
        self.fixed = self.pairs = self.to_ends = 0
        self.next = 64
        self.since = self.told = time.monotonic()

    def finish(self, node: Hashable, told: Told) -> None:
        """One more state that is done, behind all that follow it."""
        if isinstance(told, Fraction):
            return
        self.places[node] = len(self.leads)
        self.leads.append(0)
        self.fixed += 2
        for row in told:
            self.fixed += 2
            for cell in row:
                self._add(cell)
        now = time.monotonic()
        if len(self.leads) >= self.next:
            self.next = len(self.leads) + len(self.leads) // 16
            self._require()
        if self.listener is not None and now - self.told >= 1:
            self.told = now
            self.listener(TableProgress(len(self.leads), self.pairs, self.size(),
                                        now - self.since))

    def _add(self, cell: list[Draw]) -> None:
        """One pair of moves; ends of one payoff will be one state, and what turns pay may be
        rounded to nothing."""
        self.pairs += 1
        draws = {(self.places.get(draw.node, -1), 0 if self.rounded else draw.reward)
                 for draw in cell}
        paying = sum(reward != 0 for _, reward in draws)
        plain = len(draws) == 1 and not paying
        self.fixed += 1 if plain else 1 + 5 * len(draws) + 2 * paying
        for place, _ in draws:
            if place < 0:
                self.to_ends += 1
            else:
                self.leads[place] += 1

    def size(self) -> int:
        """The least bytes of the text."""
        count, digits, power, found = len(self.leads), 1, 10, self.fixed
        found += self.to_ends * len(str(count))
        low = count  # places below have more digits
        while low > 0:
            first = max(0, count - power)
            found += digits * sum(self.leads[first:low])
            low, digits, power = first, digits + 1, 10 * power
        return found

    def _require(self) -> None:
        size = self.size()
        if size > WIDE.bytes:
            raise NoTableError(
                f"the text of the position would have more than {WIDE.bytes} bytes: "
                f"{size} for the first {len(self.leads)} states, with {self.pairs} pairs of moves; "
                f"give equal continuations equal nodes, or leave out turns or moves")


@contextmanager
def making(progress: TableListener | bool, rounded: bool = False) -> Iterator[Making]:
    """Follows the making of one table; `progress` is a function that is called about once a second
    (`TableProgress`), or True for a line on the terminal."""
    bar = Bar()
    shown = progress is True or (progress is False and SHOWN.get())
    try:
        listener = bar if shown else None if isinstance(progress, bool) else progress
        yield Making(listener, rounded)
    finally:
        bar.close()
