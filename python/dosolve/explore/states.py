"""The states of a page: those that are likeliest to be reached, and what follows them; with all
that the page shows of each."""
from __future__ import annotations

from collections.abc import Iterable, Iterator, Sequence
from dataclasses import dataclass
from typing import Final

from .. import CHANCE, SIDES, Move, Report, Sheet, State
from .kinds import Pool, picture, turn_payoff
from .losses import PlayerPlan

LEAST_FOLLOWED: Final = 10_000
"""How many states with equally many turns left are followed on a page of fewer states too."""

PAIRS_EACH: Final = 100
"""How many pairs of moves a page has for each state that it may have, all states together; a pair
that leads to a draw counts for each."""


@dataclass(frozen=True)
class _Draw:
    """What can follow a pair of moves: its chance in parts of `CHANCE`, the state's key, and what
    the turn pays."""

    chance: int
    key: int
    paid: int


def _pairs(ones: Iterable[int], twos: Sequence[int]) -> Iterator[tuple[Move, Move]]:
    return ((Move(one), Move(two)) for one in ones for two in twos)


def likeliest(report: Report, most: int) -> tuple[list[tuple[State, float]], bool]:
    """The states that both plans reach together, ends too, with their probabilities, the likeliest
    first; and whether these are all. Of the states with equally many turns left the `most`
    likeliest are followed, so that probabilities are too small where these are not all."""
    root: State = report.game.root()
    layers: dict[int, dict[int, tuple[State, float]]] = {root.rank: {root.key: (root, 1.0)}}
    found: list[tuple[State, float]] = []
    whole = True
    while layers:
        layer = sorted(layers.pop(max(layers)).values(), key=lambda reached: -reached[1])
        found += layer
        whole = whole and len(layer) <= most
        for state, chance in layer[:most]:
            for share, after in [] if state.is_end else _steps(report, state):
                below, key = layers.setdefault(after.rank, {}), after.key
                before = below.get(key, (after, 0.0))[1]
                below[key] = (after, before + chance * share)
    return sorted(found, key=lambda reached: -reached[1]), whole


def _steps(report: Report, state: State) -> Iterator[tuple[float, State]]:
    """What follows a state where both play their plans, with its probability."""
    mine, yours = (report.sheet(side).weights(state) for side in SIDES)
    whole = report.weight**2 * CHANCE
    support = ([move for move, weight in enumerate(row) if weight] for row in (mine, yours))
    for one, two in _pairs(*support):
        for chance, after in state.outcomes(one, two):
            yield mine[one] * yours[two] * chance / whole, after


def _pairs_of(state: State) -> int:
    """The pairs of moves of a state, each as often as it has draws; of a state with draws about so
    many, as those of One's first move have."""
    ones, twos = (len(state.moves(side)) for side in SIDES)
    if state.game.chance_free or not ones:
        return ones * twos
    return ones * sum(len(state.chances(Move(0), Move(two))) for two in range(twos))


class Shown:
    """The states of a page, at most `most` of them with moves, and their data.

    All their pairs of moves together are at most `PAIRS_EACH` for each of `most` states, so that
    a page of a game with many moves has fewer states, and opens as soon.

    First come the root, the ways to the losses, and the likeliest states, in at most three
    quarters of the page; then states that follow any moves, the likeliest before. Ends that follow
    are there without a limit. A state that is not on the page has a place in `stubs`, with both
    plans' bounds.
    """

    def __init__(self, report: Report, players: Sequence[PlayerPlan], most: int) -> None:
        self.report, self.players = report, players
        self.pool, self.stubs = Pool(), Pool()
        reached, self.exact = likeliest(report, max(most, LEAST_FOLLOWED))
        self.chances = {state.key: chance for state, chance in reached}
        self.reached = sum(not state.is_end for state, _ in reached)
        self.states: dict[int, State] = {}
        self.pairs = 0
        root: State = report.game.root()
        losses = [loss for player in players for loss in player.listed()]
        self._add([root], most)
        for loss in losses:
            self._add(self._on_way(loss.way), most - most // 4)
        self._add((state for state, _ in reached if not state.is_end), most - most // 4)
        first = [state for state in self.states.values() if not state.is_end]
        self.inner = self.first = len(first)
        self.likely = sum(state.key in self.chances for state in first)
        self.outside: dict[int, State] = {}
        self.cells = self._spread(most)
        self.places = {key: place for place, key in enumerate(self.states)}

    def _add(self, states: Iterable[State], most: int) -> None:
        """Adds states up to a number of them."""
        for state in states:
            if state.key not in self.states and self._has_room(state, len(self.states), most):
                self.states[state.key] = state

    def _has_room(self, state: State, count: int, most: int) -> bool:
        """Whether a state with moves fits beside so many others, and if so, counts its pairs of
        moves; the root always fits."""
        pairs = self.pairs + _pairs_of(state)
        fits = count < most and (count == 0 or pairs <= PAIRS_EACH * most)
        if fits:
            self.pairs = pairs
        return fits

    def _on_way(self, way: Iterable[tuple[int, int, int]]) -> Iterator[State]:
        """The states on a way from the root."""
        state: State = self.report.game.root()
        for one, two, draw in way:
            state = state.after(Move(one), Move(two), draw)
            yield state

    def _spread(self, most: int) -> dict[int, list[list[_Draw]]]:
        """What follows each pair of moves in each state of the page, to which the states that
        follow are added while there is room."""
        cells: dict[int, list[list[_Draw]]] = {}
        ends: dict[int, State] = {}
        waiting = list(self.states.values())
        for state in waiting:
            found = cells[state.key] = []
            for one, two in _pairs(*(range(len(state.moves(side))) for side in SIDES)):
                outcomes = state.outcomes(one, two)
                found.append([_Draw(chance, after.key, turn_payoff(state, one, two, draw))
                              for draw, (chance, after) in enumerate(outcomes)])
                for draw, (_, after) in zip(found[-1], outcomes):
                    if draw.key in self.states or draw.key in ends or draw.key in self.outside:
                        continue
                    if after.is_end:
                        ends[draw.key] = after
                    elif self._has_room(after, self.inner, most):
                        self.inner += 1
                        self.states[draw.key] = after
                        waiting.append(after)
                    else:
                        self.outside[draw.key] = after
        self.states.update(ends)
        return cells

    def data(self) -> list[list[object]]:
        """The states of the page, the root first."""
        return [self._state(state) for state in self.states.values()]

    def _state(self, state: State) -> list[object]:
        """Key, picture, how likely it is; then the payoff of an end, or both players' names of
        moves, their rows, what follows each pair of moves, what these turns pay, and the rows of
        players."""
        chance = float(f"{self.chances.get(state.key, 0.0):.4g}")
        head = [str(state.key), picture(state, self.pool), chance]
        if state.is_end:
            return [*head, state.payoff]
        names = [self.pool.place(state.names(side)) for side in SIDES]
        rows = [self._row(self.report.sheet(side), state) for side in SIDES]
        cells = self.cells[state.key]
        found = [*head, *names, *rows, [self._cell(cell) for cell in cells]]
        paid = {at: [draw.paid for draw in cell] for at, cell in enumerate(cells)
                if any(draw.paid for draw in cell)}
        if paid or self.players:
            found += [paid or 0, *(self._played(player, state) for player in self.players)]
        return found

    def _row(self, sheet: Sheet, state: State) -> list[int] | int:
        """The bound and the weights of a row; 1 where it does not fit the moves and is not played;
        without one 0, or its bound alone where that is better than the game's worst payoff."""
        bound, row = self._bound(sheet, state), sheet.row(state)
        if row is None:
            return 0 if bound is None else [bound]
        return 1 if bound is None else [bound, self.pool.place(row.weights)]

    def _bound(self, sheet: Sheet, state: State) -> int | None:
        """What a plan has proved of a state; None where that is no more than the worst payoff of
        the game, for want of a row that is played."""
        row = sheet.row(state)
        if row is None:
            bound = sheet.bound(state)
            return None if bound == self.report.game.opening(sheet.side) else bound
        return row.bound if tuple(row.weights) == sheet.weights(state) else None

    def _played(self, player: PlayerPlan, state: State) -> list[object]:
        """What a player plays; and where it comes here, what its plan guarantees in payoffs, and
        the reply that hurts it most."""
        weights, visited = player.mine.weights(state), player.visited.get(state.key)
        known = [] if visited is None else [round(visited.guarantee, 9), visited.reply]
        return [self.pool.place(weights), *known]

    def _cell(self, draws: list[_Draw]) -> int | list[int]:
        """The place of what follows a pair of moves; with several draws, places and chances by
        turns. What is not on the page has a negative place."""
        if len(draws) == 1:
            return self._place(draws[0].key)
        return [number for draw in draws for number in (self._place(draw.key), draw.chance)]

    def _place(self, key: int) -> int:
        if key not in self.places:
            bounds = [self._stub(self.report.sheet(side), self.outside[key]) for side in SIDES]
            self.places[key] = -1 - self.stubs.place(bounds)
        return self.places[key]

    def _stub(self, sheet: Sheet, state: State) -> int | tuple[int] | None:
        """The bound of a row, as a list where there is a bound without one; None where that is the
        worst payoff of the game."""
        bound = self._bound(sheet, state)
        return bound if bound is None or sheet.row(state) is not None else (bound,)

    def losses(self, player: PlayerPlan) -> list[list[object]]:
        """The losses of a player that are on the page: the state's place, what is given away from
        there on and here, the probability of coming there, and a way."""
        return [[self.places[loss.state.key], *(round(number, 9) for number in
                                                (loss.later, loss.here, loss.reached)),
                 [number for turn in loss.way for number in turn]]
                for loss in player.listed() if loss.state.key in self.states]

    def player(self, player: PlayerPlan) -> dict[str, object]:
        """What a page has of a player's plan."""
        root: State = self.report.game.root()
        listed = self.losses(player)
        return {
            "side": SIDES.index(player.side), "weight": player.mine.weight,
            "guarantee": player.visited[root.key].guarantee,
            "losses": listed, "count": len(player.losses), "missing": player.unknown,
            "left": len(player.listed()) - len(listed),
            "rest": sum(loss.share for loss in player.losses) - sum(
                loss.share for loss in player.listed() if loss.state.key in self.states),
        }
