"""Sums over the states that two plans can reach: what plans are worth against each other, the best
response to one, and the bounds that a plan proves.

Each is one `fold` over a graph, from its ends to the root. All sums are of whole numbers.
"""
from __future__ import annotations

from collections.abc import Callable, Iterator, Mapping, Sequence
from dataclasses import dataclass, field
from fractions import Fraction
from itertools import repeat

from .errors import InvalidError
from .games.game import CHANCE, SCALE, SIDES, AnyGame, Side, State, other
from .limits import MOST_WIDE_ROWS
from .players.sheets import Row, Sheet

Followed = Callable[[State], tuple[Sequence[int], Sequence[int]]]
"""From a state that is no end to the numbers of both players' moves that are followed."""

Cell = int | tuple[tuple[int, int, int], ...]
"""The state behind a pair of moves, by its number in a graph; where there are draws, or the turn
pays, for each draw its chance in parts of `CHANCE`, its state, and what it pays."""

Mean = Callable[[State, Cell, Sequence[int]], int]
"""From a state, a cell of it and a number for each state of the graph to the cell's number."""

Pairs = list[tuple[int, int, int]]
"""The pairs of moves that are followed in a state: both moves, and the number of the cell."""


@dataclass
class Graph:
    """States in the order in which they were met; ends are among them.

    For each state, `pairs` has the pairs of moves that are followed, and `cells` what each leads
    to, in the same order.
    """

    states: list[State] = field(default_factory=list)
    pairs: list[list[tuple[int, int]]] = field(default_factory=list)
    cells: list[list[Cell]] = field(default_factory=list)

    @property
    def by_rank(self) -> list[int]:
        """The numbers of all states, those with fewer turns left first."""
        ranks = [state.rank for state in self.states]
        return sorted(range(len(ranks)), key=ranks.__getitem__)


def walk(game: AnyGame, followed: Followed, most: int = MOST_WIDE_ROWS) -> Graph:
    """The states that moves that are followed, and any draws, reach from the root."""
    graph, index = Graph(), {}
    inner = 0

    def number(state: State) -> int:
        key = state.key
        if key not in index:
            index[key] = len(graph.states)
            graph.states.append(state)
            graph.pairs.append([])
            graph.cells.append([])
        return index[key]

    number(game.root())
    at = 0
    while at < len(graph.states):
        state = graph.states[at]
        if not state.is_end:
            inner += 1
            if inner > most:
                raise InvalidError(f"the plan reaches more than {most} states")
            _follow(graph, at, *followed(state), number)
        at += 1
    return graph


def _follow(graph: Graph, at: int, ones: Sequence[int], twos: Sequence[int],
            number: Callable[[State], int]) -> None:
    """Adds what the pairs of moves lead to."""
    state = graph.states[at]
    mine, yours = state.moves("one"), state.moves("two")
    pairs, cells = graph.pairs[at], graph.cells[at]
    for one in ones:
        for two in twos:
            pairs.append((one, two))
            draws = tuple((chance, number(after), paid) for chance, after, paid
                          in steps(state, mine[one], yours[two]))
            plain = len(draws) == 1 and not draws[0][2]
            cells.append(draws[0][1] if plain else draws)


def steps(state: State, one: int, two: int) -> Iterator[tuple[int, State, int]]:
    """What moves with these labels lead to: for each draw its chance in parts of `CHANCE`, the
    state, and what the turn pays One."""
    outcomes = state.outcomes_of_labels(one, two)
    paid = (state.rewards_of_labels(one, two) if state.game.has_rewards
            else repeat(0, len(outcomes)))
    for (chance, after), reward in zip(outcomes, paid):
        yield chance, after, reward


def fold(graph: Graph, end: Callable[[State], int], mean: Mean,
         node: Callable[[State, Pairs], int]) -> list[int]:
    """A number for each state by backward induction: `end` gives that of an end, `node` that of
    any other state from its pairs of moves, whose numbers are what `mean` gives."""
    numbers = [0] * len(graph.states)
    for at in graph.by_rank:
        state = graph.states[at]
        if state.is_end:
            numbers[at] = end(state)
            continue
        numbers[at] = node(state, [(one, two, mean(state, cell, numbers)) for (one, two), cell
                                   in zip(graph.pairs[at], graph.cells[at])])
    return numbers


class _Powers:
    """Exact numbers of states, each over a base to the power of the state's rank: the base is what
    weights and draws of one turn sum to."""

    def __init__(self, graph: Graph, weight: int) -> None:
        self.graph = graph
        self.draws = 1 if graph.states[0].game.chance_free else CHANCE
        self.ranks = [state.rank for state in graph.states]
        self.powers: list[int] = [(weight * self.draws)**rank
                                  for rank in range(max(self.ranks) + 1)]

    def root(self, node: Callable[[State, Pairs], int]) -> Fraction:
        """The value of the first state."""
        return Fraction(fold(self.graph, self.end, self.mean, node)[0], self.powers[self.ranks[0]])

    def end(self, state: State) -> int:
        """The payoff of an end."""
        return state.payoff * self.powers[state.rank]

    def mean(self, state: State, cell: Cell, numbers: Sequence[int]) -> int:
        """What a cell of a state is worth, with what its turn pays, over base to the power of the
        rank less 1, times the draws' sum."""
        if isinstance(cell, int):
            return self.raised(cell, state.rank, numbers) * self.draws
        turn = self.powers[state.rank - 1]
        return sum(chance * self.draws // CHANCE * (
            self.raised(after, state.rank, numbers) + paid * turn) for chance, after, paid in cell)

    def raised(self, at: int, rank: int, numbers: Sequence[int]) -> int:
        """The number of a state over base to the power of one less than this rank."""
        return numbers[at] * self.powers[rank - 1 - self.ranks[at]]


def expected_of(one: Sheet, two: Sheet) -> Fraction:
    """The exact expected payoff of One where both play these plans, in payoffs."""
    if one.game != two.game or (one.side, two.side) != SIDES:
        raise InvalidError("a payoff is that of a plan of player one and one of player two in one "
                           "game")

    def followed(state: State) -> tuple[Sequence[int], Sequence[int]]:
        return _support(one, state), _support(two, state)

    def node(state: State, pairs: Pairs) -> int:
        mine, yours = one.weights(state), two.weights(state)
        return sum(mine[move] * yours[reply] * worth for move, reply, worth in pairs)

    return _Powers(walk(one.game, followed), one.total * two.total).root(node)


@dataclass(frozen=True)
class BestResponse:
    """The plan of `side` that does best against a fixed plan of the other side.

    `value` is what One then gets, in payoffs, exactly. The plan is pure; where the other side's
    plan never comes, it makes its first move.
    """

    side: Side
    value: Fraction
    plan: Sheet


def respond(sheet: Sheet) -> BestResponse:
    """The other side's best response to a plan."""
    side = other(sheet.side)
    best: dict[int, int] = {}

    def followed(state: State) -> tuple[Sequence[int], Sequence[int]]:
        moves, replies = range(len(state.moves(side))), _support(sheet, state)
        return (moves, replies) if side == "one" else (replies, moves)

    def node(state: State, pairs: Pairs) -> int:
        weights = sheet.weights(state)
        sums = [0] * len(state.moves(side))
        for one, two, worth in pairs:
            move, reply = (one, two) if side == "one" else (two, one)
            sums[move] += weights[reply] * worth
        chosen = max(sums) if side == "one" else min(sums)
        best[state.key] = sums.index(chosen)
        return chosen

    def pure(state: State) -> list[int]:
        chosen = best.get(state.key, 0)
        return [sheet.total * (move == chosen) for move in range(len(state.moves(side)))]

    value = _Powers(walk(sheet.game, followed), sheet.total).root(node)
    return BestResponse(side, value, sheet_of(sheet.game, side, pure, sheet.total))


def sheet_of(game: AnyGame, side: Side, weights_in: Callable[[State], Sequence[int]],
             total: int) -> Sheet:
    """The sheet of a plan: a row for each state that the plan can reach, with its weights there,
    which sum to `total`, and the bound that they prove. It asks for the weights of a state once,
    in the order in which states are met."""
    weights: dict[int, tuple[int, ...]] = {}

    def followed(state: State) -> tuple[Sequence[int], Sequence[int]]:
        row = weights[state.key] = tuple(weights_in(state))
        moves = [move for move, weight in enumerate(row) if weight]
        replies = range(len(state.moves(other(side))))
        return (moves, replies) if side == "one" else (replies, moves)

    bounds = _proved(walk(game, followed), side, weights, total)
    rows = (Row(key, bounds[key], weights[key]) for key in sorted(weights))
    return Sheet(game, side, total, tuple(rows))


def _proved(graph: Graph, side: Side, weights: Mapping[int, Sequence[int]],
            total: int) -> dict[int, int]:
    """The tightest bounds that the weights prove from bounds of the states that follow."""
    # Two's numbers are negated, so that both sides look for the least and round down.
    sign = 1 if side == "one" else -1

    def node(state: State, pairs: Pairs) -> int:
        row = weights[state.key]
        sums: dict[int, int] = {}
        for one, two, bound in pairs:
            move, reply = (one, two) if side == "one" else (two, one)
            sums[reply] = sums.get(reply, 0) + row[move] * bound
        return min(sums.values()) // total

    def mean(state: State, cell: Cell, numbers: Sequence[int]) -> int:
        """The mean over the draws of one pair of moves, rounded down."""
        if isinstance(cell, int):
            return numbers[cell]
        return sum(chance * (numbers[after] + sign * SCALE * paid)
                   for chance, after, paid in cell) // CHANCE

    bounds = fold(graph, lambda state: sign * state.payoff * SCALE, mean, node)
    return {state.key: sign * bound for state, bound in zip(graph.states, bounds)}


def _support(sheet: Sheet, state: State) -> list[int]:
    """The moves of positive weight."""
    return [move for move, weight in enumerate(sheet.weights(state)) if weight]
