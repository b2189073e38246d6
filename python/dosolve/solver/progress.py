"""How far a search is, as the program prints it while it works."""
from __future__ import annotations

import math
import re
import sys
import time
from collections.abc import Callable, Iterable
from dataclasses import dataclass, replace
from fractions import Fraction
from typing import TextIO

from ..values import as_points

_LINE = re.compile(r"worker (\d+) turns (\d+) seconds (\d+)"
                   r"(?: lower (-?\d+) upper (-?\d+) gap (\d+))?")
_INDUCTION = re.compile(r"induction listed (\d+) valued (\d+) planned (\d+) seconds (\d+)")


@dataclass(frozen=True)
class Progress:
    """How far a search is: the turns that all workers have spent, the seconds since it began, and
    both bounds with their gap in millionths, each None where they are not known yet.

    A turn solves the matrix game of one state. `states` is how many states with moves the game
    has, and `most` the most turns that the search can take; each is None where it is not known, as
    in lines that were read from a file. A search by linear stages takes at most three turns for a
    state, and none where pure plans suffice, so that it often ends long before `most`.

    While an induction is under way, `listed` is how many states it has found, all of them before it
    values the first, `valued` how many of these have a value, and `planned` how many rows of plans
    are made; a value and a row take a turn each. Each is None where no induction is under way.
    """

    turns: int
    seconds: float
    lower: int | None = None
    upper: int | None = None
    states: int | None = None
    most: int | None = None
    listed: int | None = None
    valued: int | None = None
    planned: int | None = None

    @property
    def gap(self) -> int | None:
        """The upper bound less the lower one, in millionths."""
        if self.lower is None or self.upper is None:
            return None
        return self.upper - self.lower

    def of_rules(self, scale: Fraction) -> Progress:
        """The same with the bounds of the rules, where payoffs were multiplied by this number;
        rounded to the safe side."""
        lower = None if self.lower is None else math.floor(self.lower / scale)
        upper = None if self.upper is None else math.ceil(self.upper / scale)
        return replace(self, lower=lower, upper=upper)

    @property
    def share(self) -> Fraction | None:
        """The turns as a part of the most; None where that is not known."""
        return Fraction(self.turns, self.most) if self.most else None

    def __str__(self) -> str:
        of_most = "" if self.most is None else f" of at most {self.most}"
        states = "" if self.states is None else f" for {self.states} states"
        found = f"{self.seconds:.0f} s, {self.turns}{of_most} turns{states}"
        if self.listed is not None:
            return f"{self.seconds:.0f} s, {self._of_induction()}"
        if self.lower is None or self.upper is None:
            return found
        return (f"{found}, {as_points(self.lower)} to {as_points(self.upper)}, gap "
                f"{as_points(self.upper - self.lower)}")

    def _of_induction(self) -> str:
        """The states done of how many."""
        if not self.valued:
            of_states = "" if self.states is None else f" of at most {self.states}"
            return f"{self.listed}{of_states} states listed"
        planned = f", {self.planned} rows of plans made" if self.planned else ""
        return f"{self.valued} of {self.listed} states valued{planned}"


@dataclass(frozen=True)
class PlanProgress:
    """How far the making of a plan is: the states in which the player was asked, and the seconds
    since it began."""

    states: int
    seconds: float

    def __str__(self) -> str:
        return f"{self.seconds:.0f} s, the player was asked in {self.states} states"


PlanListener = Callable[[PlanProgress], object]
"""What is called with each step of making a plan."""


class Asking:
    """Tells a listener, at most once a second, in how many states a player was asked."""

    def __init__(self, listener: PlanListener | None) -> None:
        self.listener, self.states = listener, 0
        self.since = self.told = time.monotonic()

    def count(self) -> None:
        """One more state."""
        self.states += 1
        if self.listener is not None and time.monotonic() - self.told >= 1:
            self.told = time.monotonic()
            self.listener(PlanProgress(self.states, self.told - self.since))


Listener = Callable[[Progress], object]
"""What is called with each step of a search."""

EitherListener = Callable[[Progress | PlanProgress], object]
"""What is called with each step of making a plan, and of a search."""


class _Lines:
    """The lines that the workers of one search print, and an induction before, put together.

    Each worker tells its own turns, and the bounds at the root as it last saw them, once it has
    seen any. All bounds are true, so the narrowest of all workers are those of the search.
    """

    def __init__(self, start: Progress | None = None) -> None:
        self.last = start or Progress(0, 0.0)
        self.turns: dict[int, int] = {}

    def take(self, line: str, seconds: float | None = None) -> Progress | None:
        """The step of a line, at these seconds or at its own; None where it is no progress."""
        found = _LINE.fullmatch(line.strip())
        if found is None:
            return self._take_induction(line, seconds)
        self.turns[int(found[1])] = int(found[2])
        lower, upper = self.last.lower, self.last.upper
        if found[4] is not None:
            told = int(found[4]), int(found[5])
            lower = told[0] if lower is None else max(told[0], lower)
            upper = told[1] if upper is None else min(told[1], upper)
        at = float(found[3]) if seconds is None else seconds
        self.last = replace(self.last, turns=sum(self.turns.values()), seconds=at, lower=lower,
                            upper=upper, listed=None, valued=None, planned=None)
        return self.last

    def _take_induction(self, line: str, seconds: float | None) -> Progress | None:
        """The step of a line of an induction, which is the first worker's; None where it is
        none."""
        found = _INDUCTION.fullmatch(line.strip())
        if found is None:
            return None
        listed, valued, planned, at = map(int, found.groups())
        self.turns[0] = valued + planned
        self.last = replace(self.last, turns=sum(self.turns.values()), listed=listed, valued=valued,
                            planned=planned, seconds=float(at) if seconds is None else seconds)
        return self.last


class Follower:
    """Calls a listener with a step for each line that the workers of one search print; `start` is
    what is known before the first."""

    def __init__(self, listener: Listener, since: float | None = None,
                 start: Progress | None = None) -> None:
        self.listener, self.lines = listener, _Lines(start)
        self.since = time.monotonic() if since is None else since

    def hear(self, line: str) -> bool:
        """Whether the line was one of progress; then the listener was called."""
        step = self.lines.take(line, time.monotonic() - self.since)
        if step is not None:
            self.listener(step)
        return step is not None


def read_progress(lines: Iterable[str]) -> list[Progress]:
    """The steps of a search whose lines of progress were kept, as those of a file; other lines
    are left out."""
    taken = _Lines()
    steps = (taken.take(line) for line in lines)
    return [step for step in steps if step is not None]


class Bar:
    """Shows progress on one line of a terminal or of a notebook's cell, and nothing elsewhere."""

    def __init__(self, stream: TextIO | None = None, most: int | None = None,
                 scale: Fraction = Fraction(1)) -> None:
        self.stream = stream or sys.stderr
        self.most = most
        self.scale = scale
        self.shown = 0

    def __call__(self, step: object) -> None:
        if not self._is_shown():
            return
        share = ""
        if isinstance(step, Progress):
            step = step.of_rules(self.scale)
            if self.most and step.most is None:
                share = f" ({100 * step.turns / self.most:.0f}% of the turns)"
        text = f"dosolve: {step}{share}"
        self.stream.write("\r" + text.ljust(self.shown))
        self.stream.flush()
        self.shown = len(text)

    def _is_shown(self) -> bool:
        """Whether one line can be written over here: a notebook is no terminal, but can."""
        return self.stream.isatty() or type(self.stream).__module__.startswith("ipykernel.")

    def close(self) -> None:
        """Clears the line."""
        if self.shown:
            self.stream.write("\r" + " " * self.shown + "\r")
            self.stream.flush()
            self.shown = 0
