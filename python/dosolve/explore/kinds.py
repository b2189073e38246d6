"""What a page has of each kind of game: its name and settings in words, what a payoff means, the
numbers of a state's picture, and what a turn pays."""
from __future__ import annotations

from collections.abc import Hashable, Sequence
from dataclasses import dataclass, field
from typing import Final

from .. import pictures
from .. import (
    GoofspielDrawnState, GoofspielState, Move, OshiZumoState, Pursuit, PursuitState, Report, State,
    TableState, TronState,
)

_PRIZES: Final = {
    "margin": "A payoff is the prizes that One has won, less those of Two.",
    "win": "A payoff is 1 where One ends with more prizes, −1 where Two does, 0 if equal.",
    "prizes": "A payoff is the prizes that One wins, less those of Two; each is paid when it is "
              "won, so that bounds are of what is still to come.",
}

_MEANINGS: Final = {
    "oshi_zumo": "A payoff is 1 where the wrestler ends on Two’s side, −1 where it ends on One’s, "
                 "0 in the middle.",
    "tron": "A payoff is 1 where Two alone cannot move on, −1 where One alone cannot, 0 otherwise.",
    "pursuit": "A payoff is 1 where One catches Two, −1 where Two gets away: the chance of a catch "
               "is (payoff + 1) / 2.",
}

_ANY: Final = "A payoff is what One gets; Two gets the negative."

_PAID: Final = " Turns pay too, and are summed; bounds are of what is still to come."


@dataclass
class Pool:
    """Lists that many states share, each once."""

    items: list[list[object]] = field(default_factory=list)
    places: dict[Hashable, int] = field(default_factory=dict)

    def place(self, item: Sequence[object]) -> int:
        """The place of a list in `items`."""
        key = tuple(item)
        if key not in self.places:
            self.places[key] = len(self.items)
            self.items.append(list(key))
        return self.places[key]


def turn_payoff(state: State, one: Move, two: Move, draw: int) -> int:
    """What One gets by a turn itself; all that a page shows and sums of turns that pay comes from
    here."""
    return state.rewards(one, two)[draw] if state.game.has_rewards else 0


def title(report: Report) -> str:
    """The game's name in words."""
    return pictures.TITLES.get(report.game.name, report.game.name)


def about(report: Report) -> str:
    """The settings in words."""
    game = report.game
    if game.name == "table":
        return f"{game.title().capitalize()}."
    shown = dict(game.record())
    if isinstance(game, Pursuit):
        shown["edges"] = [f"{low}-{high}" for low, high in sorted(game.pairs)]
    words = (f"{name} {' '.join(map(str, value)) or 'none'}" if isinstance(value, (list, tuple))
             else f"{name} {value}" for name, value in shown.items())
    return f"{', '.join(words)}.".capitalize()


def meaning(report: Report) -> str:
    """What a payoff of One is."""
    game = report.game
    if game.name in ("goofspiel", "goofspiel_drawn"):
        return _PRIZES.get(game.record()["pay"], _ANY)
    return _MEANINGS.get(game.name, _ANY) + (_PAID if game.has_rewards else "")


def settings(report: Report) -> dict[str, object]:
    """What pictures need of the game."""
    game = report.game
    if game.name == "table":
        return {}
    if isinstance(game, Pursuit):
        return {"rounds": game.rounds, "pairs": sorted(game.pairs),
                "places": [[round(x, 3), round(y, 3)] for x, y in pictures.node_places(game)]}
    return dict(game.record())


def picture(state: State, pool: Pool) -> list[object]:
    """The numbers that the picture of a state shows."""
    if isinstance(state, GoofspielState):
        left = len(state.one)
        coming = tuple(state.game.prizes[len(state.game.prizes) - left:])
        return [state.score, coming[0] if left else 0, pool.place(coming[1:])]
    if isinstance(state, GoofspielDrawnState):
        coming = tuple(state.game.prizes[place] for place in state.undrawn)
        return [state.score, 0 if state.is_end else state.prize, pool.place(coming)]
    if isinstance(state, OshiZumoState):
        return [state.place, state.one, state.two]
    if isinstance(state, TronState):
        return [state.one, state.two, pool.place(sorted(state.taken))]
    if isinstance(state, PursuitState):
        return [int(state.caught), state.rounds, state.one, state.two]
    if isinstance(state, TableState):
        return [state.number, state.name]
    return [str(state)]
