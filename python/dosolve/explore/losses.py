"""Where a player gives something away, beside the plan of a report."""
from __future__ import annotations

from dataclasses import dataclass, field
from functools import cached_property
from typing import Final

from .. import CHANCE, SCALE, SIDES, InvalidError, Move, Report, Sheet, Side, State, limits, other
from .kinds import turn_payoff

MOST_LOSSES: Final = 100
"""How many states a page lists by each of the ways in which they can be sorted."""

Turn = tuple[int, int, int]
"""The numbers of both players' moves, and of the draw."""


@dataclass
class Visited:
    """A state that a player's plan can reach.

    - `came`: the state and the turn that first led here.
    - `after`: for each reply of the other side what follows, behind its probability and before
      what the turn pays.
    - `guarantee`: what the player's plan is worth from here on against the reply that hurts it
      most, `reply`; in payoffs.
    - `solved`: what the report's plan guarantees from here, None where that has no row.
    - `outlook`: against the same replies, what the report's plan guarantees at the states that
      come next of which it has one.
    - `reached`: the probability of coming here against these replies.
    """

    state: State
    came: tuple[Visited, Turn] | None
    after: list[list[tuple[float, Visited, int]]] = field(default_factory=list)
    guarantee: float = 0.0
    reply: int = 0
    solved: float | None = None
    outlook: float = 0.0
    reached: float = 0.0

    @property
    def known(self) -> float:
        """What the report's plan guarantees from here, or from the states that come next."""
        return self.outlook if self.solved is None else self.solved


@dataclass(frozen=True)
class Loss:
    """A state in which a player guarantees less than the report's plan does, in payoffs.

    `later` is what is given away from there on, `here` what of that by this turn, up to the next
    states of which the report's plan has a row; `reached` is how likely the replies that hurt most
    lead there. `way` is a way from the root.
    """

    side: Side
    state: State
    later: float
    here: float
    reached: float
    way: tuple[Turn, ...]

    @property
    def share(self) -> float:
        """What the state adds to all that is given away."""
        return self.here * self.reached


class PlayerPlan:
    """What the plan of a player guarantees, state by state, beside the plan of a report."""

    def __init__(self, solved: Sheet, mine: Sheet) -> None:
        self.side, self.solved, self.mine = mine.side, solved, mine
        self.sign = 1 if self.side == "one" else -1
        self.visited: dict[int, Visited] = {}
        self._walk(mine.game.root())
        by_rank = sorted(self.visited.values(), key=lambda found: found.state.rank)
        for visited in by_rank:
            self._weigh(visited)
        by_rank[-1].reached = 1.0
        for visited in reversed(by_rank):
            for chance, after, _ in visited.after[visited.reply] if visited.after else ():
                after.reached += visited.reached * chance

    def _walk(self, root: State) -> None:
        """Finds all states that the player can come to, ends too."""
        waiting = [Visited(root, None)]
        self.visited[root.key] = waiting[0]
        for visited in waiting:
            if len(waiting) > limits.MOST_ROWS:
                raise InvalidError(f"the player's plan reaches more than {limits.MOST_ROWS} "
                                   f"states")
            if not visited.state.is_end:
                self._follow(visited, waiting)

    def _follow(self, visited: Visited, waiting: list[Visited]) -> None:
        """Finds what can follow a state, and adds to those waiting what is new."""
        state, total = visited.state, self.mine.weight
        shares = [weight / total for weight in self.mine.weights(state)]
        for reply in range(len(state.moves(other(self.side)))):
            found: list[tuple[float, Visited, int]] = []
            for move, share in enumerate(shares):
                one, two = map(Move, (move, reply) if self.side == "one" else (reply, move))
                for draw, (chance, after) in enumerate(state.outcomes(one, two) if share else ()):
                    key = after.key
                    if key not in self.visited:
                        self.visited[key] = Visited(after, (visited, (one, two, draw)))
                        waiting.append(self.visited[key])
                    found.append((share if chance == CHANCE else share * chance / CHANCE,
                                  self.visited[key], turn_payoff(state, one, two, draw)))
            visited.after.append(found)

    def _weigh(self, visited: Visited) -> None:
        """Finds the numbers of a state from those of what follows it."""
        state = visited.state
        if state.is_end:
            visited.guarantee = visited.solved = float(state.payoff)
            return
        worths = [sum(chance * (paid + after.guarantee) for chance, after, paid in found)
                  for found in visited.after]
        visited.guarantee = min(worths) if self.side == "one" else max(worths)
        visited.reply = worths.index(visited.guarantee)
        visited.outlook = sum(chance * (paid + after.known)
                              for chance, after, paid in visited.after[visited.reply])
        row = self.solved.row(state)
        visited.solved = None if row is None else row.bound / SCALE

    @property
    def unknown(self) -> int:
        """The states of the player's plan in which the report's has no row."""
        return sum(visited.solved is None for visited in self.visited.values())

    @cached_property
    def losses(self) -> list[Loss]:
        """The states in which the player gives something away, those that add most to it first."""
        found = [self._loss(visited) for visited in self.visited.values()
                 if visited.solved is not None and not visited.state.is_end]
        lost = [loss for loss in found if loss.later > 1e-9 or abs(loss.here) > 1e-9]
        return sorted(lost, key=lambda loss: -loss.share)

    def _loss(self, visited: Visited) -> Loss:
        solved = visited.solved or 0.0
        return Loss(self.side, visited.state, self.sign * (solved - visited.guarantee),
                    self.sign * (solved - visited.outlook), visited.reached,
                    tuple(self._way(visited)))

    def _way(self, visited: Visited) -> list[Turn]:
        """The turns from the root to a state."""
        turns: list[Turn] = []
        while visited.came is not None:
            visited, turn = visited.came
            turns.append(turn)
        return turns[::-1]

    def listed(self) -> list[Loss]:
        """The losses that a page lists: those that are greatest, by each way to sort them."""
        ways = (lambda loss: -loss.share, lambda loss: -loss.here, lambda loss: -loss.later)
        first = {loss.state.key for way in ways
                 for loss in sorted(self.losses, key=way)[:MOST_LOSSES]}
        return [loss for loss in self.losses if loss.state.key in first]


def player_plans(report: Report, against: Report) -> list[PlayerPlan]:
    """The plans of another report on the same game that are not the report's own."""
    same = against.on(report.game)
    return [PlayerPlan(report.sheet(side), same.sheet(side)) for side in SIDES
            if report.sheet(side).rows != same.sheet(side).rows]
