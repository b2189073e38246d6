"""Players whose moves depend on what was played, and live matches of any players."""
from __future__ import annotations

import inspect
import math
import random
from collections.abc import Callable, Sequence
from dataclasses import dataclass
from typing import Any

from ..errors import InvalidError
from ..games.game import SIDES, AnyGame, Move, Side, State, side_of
from ..limits import MOST_WEIGHT
from ..solver.program import Match, Turn
from ..values import as_field, can_take, require_range
from .plans import chosen
from .sheets import Sheet

HistoryPlay = Callable[[Side, Any, Sequence[Turn]], object]
"""A function from a side, a state and the turns played so far to probabilities or weights."""


@dataclass(frozen=True)
class HistoryPlayer:
    """A player whose move may depend on the turns that were played, and on anything else, as
    chance: `play(side, state, history)`, where `history` is a tuple with a `Turn` for each turn so
    far, the first one first: its `one` and `two` are labels of moves, its `draw` is a number. It
    can play matches; it has no plan."""

    play: HistoryPlay

    def __call__(self, side: Side, state: State, history: Sequence[Turn] = ()) -> object:
        return self.play(side, state, history)


def takes_history(play: Callable[..., object]) -> bool:
    """Whether a function takes a history beside its side and state."""
    if isinstance(play, HistoryPlayer):
        return True
    if can_take(play, 2):
        return False
    if can_take(play, 3):
        return True
    raise InvalidError(f"a player is a function play(side, state) or play(side, state, history), "
                       f"not of {inspect.signature(play)}")


Contender = Sheet | Callable[..., object]
"""A plan, a player of states `play(side, state)`, or a player of histories."""


def live_match(game: AnyGame, one: Contender, two: Contender, games: int = 1000,
               seed: int = 0) -> Match:
    """Games between any two players, plans among them, in Python, with the standard error of
    their mean. Draws are made from `seed`; a player that draws for itself is not bound by it."""
    games = require_games(games)
    source = random.Random(f"dosolve live match {seed}")
    asks = [_asking(player, side) for player, side in zip((one, two), SIDES)]
    payoffs, first = [], None
    for _ in range(games):
        turns, payoff = _one_game(game, asks, source)
        payoffs.append(payoff)
        first = first or (turns, payoff)
    assert first is not None
    mean = sum(payoffs) / games
    error = math.sqrt(sum((payoff - mean)**2 for payoff in payoffs) / (games - 1) / games)
    return Match(*first, games, sum(payoffs), min(payoffs), max(payoffs), error)


def require_games(games: object) -> int:
    """The number of games of a live match, refused where it is out of range."""
    count: int = as_field(games)
    require_range("games", count, 2, 1_000_000_000)
    return count


Ask = Callable[[State, Sequence[Turn]], Sequence[int]]


def _asking(player: Contender, side: Side) -> Ask:
    """A function from a state and the turns before to whole weights."""
    if isinstance(player, Sheet):
        sheet = player
        if sheet.side != side_of(side):
            raise InvalidError(f"a plan of player {sheet.side} cannot play for player {side}")
        return lambda state, turns: sheet.weights(state)
    if not callable(player):
        raise InvalidError(f"a player is a plan or a function, not {player!r}")
    play, by_history = player, takes_history(player)

    def ask(state: State, turns: Sequence[Turn]) -> tuple[int, ...]:
        def choose(at: State) -> object:
            return play(side, at, turns) if by_history else play(side, at)
        return chosen(choose, state, side, MOST_WEIGHT)

    return ask


def _one_game(game: AnyGame, asks: Sequence[Ask],
              source: random.Random) -> tuple[tuple[Turn, ...], int]:
    """The turns of one game, and what they and its end pay."""
    state = game.root()
    turns: list[Turn] = []
    paid = 0
    while not state.is_end:
        weights = [ask(state, tuple(turns)) for ask in asks]
        one, two = (Move(source.choices(range(len(each)), each)[0]) for each in weights)
        chances = state.chances(one, two)
        draw = source.choices(range(len(chances)), chances)[0]
        paid += state.rewards(one, two)[draw] if game.has_rewards else 0
        turns.append(Turn(state.moves("one")[one], state.moves("two")[two], draw))
        state = state.after(one, two, draw)
    return tuple(turns), paid + state.payoff
