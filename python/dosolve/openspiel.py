"""Games and policies by the names that OpenSpiel has for them; OpenSpiel itself is not needed.

    game = dosolve.Goofspiel([1, 2, 3], [1, 2, 3], [1, 2, 3])
    state = dosolve.openspiel.new_initial_state(game)
    while not state.is_terminal():
        if state.is_chance_node():
            state.apply_action(random.choice(state.legal_actions()))
        else:
            state.apply_actions([random.choice(state.legal_actions(player)) for player in (0, 1)])
    print(state.returns(), state.history())

Players are 0 (One) and 1 (Two), actions are labels: the cards, bids, directions or nodes. At a
chance node an action is the number of the draw.
"""
from __future__ import annotations

import re
from collections.abc import Mapping, Sequence
from typing import Any, Protocol

from .errors import InvalidError
from .games.game import CHANCE, SIDES, AnyGame, Move, Side, State
from .games.goofspiel import Goofspiel
from .games.oshi_zumo import OshiZumo
from .limits import MOST_WEIGHT
from .players.plans import ASKED_AGAIN, plan
from .players.sheets import Sheet

CHANCE_PLAYER, SIMULTANEOUS_PLAYER, TERMINAL_PLAYER = -1, -2, -4
"""What `current_player` gives, as in OpenSpiel."""


class PlayState:
    """A state that is changed by moves, with the names of OpenSpiel's `State`."""

    def __init__(self, state: State) -> None:
        self.state = state
        self._chosen: tuple[Move, Move] | None = None
        self._history: list[int] = []
        self._paid = self._last = 0

    def __str__(self) -> str:
        return f"{self.state!r}{' before a draw' if self._chosen else ''}"

    def clone(self) -> PlayState:
        """Another state that is equal now, and changes by itself."""
        found = PlayState(self.state)
        found._chosen, found._history = self._chosen, list(self._history)
        found._paid, found._last = self._paid, self._last
        return found

    def current_player(self) -> int:
        """The chance player, both players at once, or none at an end."""
        if self.is_terminal():
            return TERMINAL_PLAYER
        return CHANCE_PLAYER if self.is_chance_node() else SIMULTANEOUS_PLAYER

    def is_terminal(self) -> bool:
        """Whether the game is over."""
        return self.state.is_end

    def is_chance_node(self) -> bool:
        """Whether a draw has to be made."""
        return self._chosen is not None

    def is_simultaneous_node(self) -> bool:
        """Whether both players have to move."""
        return not self.is_terminal() and not self.is_chance_node()

    def legal_actions(self, player: int | None = None) -> list[int]:
        """The labels of a player's moves; the draws at a chance node, without a player."""
        if self.is_chance_node():
            return [draw for draw, _ in self.chance_outcomes()]
        if player is None:
            if self.is_terminal():
                return []
            raise InvalidError("both players move at once: legal_actions takes 0 or 1")
        return list(self.state.moves(_side(player)))

    def chance_outcomes(self) -> list[tuple[int, float]]:
        """Each draw with its probability."""
        if self._chosen is None:
            raise InvalidError(f"no draw is to be made in {self.state}")
        chances = self.state.chances(*self._chosen)
        return [(draw, chance / CHANCE) for draw, chance in enumerate(chances)]

    def apply_actions(self, actions: Sequence[int]) -> None:
        """Plays both players' labels."""
        if self.is_chance_node() or len(actions) != len(SIDES):
            raise InvalidError("apply_actions takes the label of One's move and that of Two's")
        one, two = (int(action) for action in actions)
        moves = self.state.move_labelled("one", one), self.state.move_labelled("two", two)
        self._history += [one, two]
        if len(self.state.chances(*moves)) > 1:
            self._chosen, self._last = moves, 0
        else:
            self._go(moves, 0)

    def apply_action(self, action: int) -> None:
        """Makes a draw."""
        if self._chosen is None:
            raise InvalidError("apply_action makes a draw, and none is to be made; both players' "
                               "moves are made by apply_actions")
        self._go(self._chosen, int(action))
        self._history.append(int(action))
        self._chosen = None

    def _go(self, moves: tuple[Move, Move], draw: int) -> None:
        """Goes on to the state after both moves and a draw."""
        after = self.state.after(*moves, draw)
        self._last = self.state.rewards(*moves)[draw]
        self._paid += self._last
        self.state = after

    def child(self, action: int) -> PlayState:
        """A clone after a draw."""
        found = self.clone()
        found.apply_action(action)
        return found

    def rewards(self) -> list[float]:
        """What both players got by the last turn, an end's payoff included."""
        return self._both(self._last)

    def returns(self) -> list[float]:
        """What both players got so far, an end's payoff included."""
        return self._both(self._paid)

    def _both(self, paid: int) -> list[float]:
        """What One got, and its negative; where the game is over, with the end's payoff."""
        payoff = float(paid + (self.state.payoff if self.is_terminal() else 0))
        return [payoff, -payoff]

    def history(self) -> list[int]:
        """All actions so far: One's label, Two's label, and the draw where there was one."""
        return list(self._history)

    def action_to_string(self, player: int, action: int) -> str:
        """A label as a word."""
        side = _side(player)
        return self.state.names(side)[self.state.move_labelled(side, action)]

    def num_players(self) -> int:
        """Two."""
        return len(SIDES)


class Policy(Protocol):
    """What OpenSpiel calls a policy."""

    def action_probabilities(self, state: Any, player_id: int | None = None) -> Mapping[int, float]:
        """The probability of each action of a player in a state."""


class SheetPolicy:
    """Both plans of a report, or one plan, as a policy of OpenSpiel."""

    def __init__(self, *sheets: Sheet) -> None:
        self._sheets = {sheet.side: sheet for sheet in sheets}

    def action_probabilities(self, state: Any, player_id: int | None = None) -> dict[int, float]:
        """The probability of each action in a `PlayState` or a `State`."""
        if player_id is None:
            raise InvalidError("both players move at once: player_id has to be 0 or 1")
        side = _side(player_id)
        if side not in self._sheets:
            raise InvalidError(f"the policy has no plan of player {side}")
        at = state.state if isinstance(state, PlayState) else state
        probabilities = self._sheets[side].probabilities(at)
        return {label: float(chance) for label, chance in probabilities.items()}


_PARAMETERS: dict[str, dict[str, str]] = {
    "goofspiel": {"num_cards": "13", "points_order": "random", "returns_type": "win_loss",
                  "imp_info": "False", "egocentric": "False", "num_turns": "-1", "players": "2"},
    "oshi_zumo": {"coins": "50", "size": "3", "horizon": "1000", "min_bid": "0",
                  "alesia": "False"},
}
"""The parameters of OpenSpiel's games with its defaults."""


def load_game(text: str) -> AnyGame:
    """The game of a string of OpenSpiel, such as
    `goofspiel(num_cards=4,points_order=descending,returns_type=point_difference)` or
    `oshi_zumo(coins=10,min_bid=1)`.

    What the program does not have is refused with the reason: hidden bids, a first prize that is
    drawn, more than 63 coins, bids of 0. OpenSpiel numbers the cards from 0, here an action is the
    card itself.
    """
    found = re.fullmatch(r"\s*(\w+)\s*(?:\((.*)\))?\s*", text)
    if found is None or found[1] not in _PARAMETERS:
        raise InvalidError(f"{text!r} is none of {', '.join(_PARAMETERS)}, each with parameters "
                           f"in brackets")
    values = dict(_PARAMETERS[found[1]])
    for part in (found[2] or "").split(","):
        name, _, value = (word.strip() for word in part.partition("="))
        if part.strip() and name not in values:
            raise InvalidError(f"{found[1]} has no parameter {name!r}, only {', '.join(values)}")
        values |= {name: value} if part.strip() else {}
    return _goofspiel(values) if found[1] == "goofspiel" else _oshi_zumo(values)


def _goofspiel(values: Mapping[str, str]) -> AnyGame:
    cards = range(1, _whole("num_cards", values) + 1)
    orders = {"ascending": list(cards), "descending": list(reversed(cards))}
    pays = {"win_loss": "win", "point_difference": "margin"}
    for name, good in (("imp_info", ["False", "false"]), ("players", ["2"]), ("num_turns", ["-1"]),
                       ("points_order", [*orders]), ("returns_type", [*pays])):
        if values[name] not in good:
            raise InvalidError(f"{name}={values[name]} is not what the program solves, which is "
                               f"{' or '.join(good)}; GoofspielDrawn has drawn prizes behind a "
                               f"known first one")
    prizes = orders[values["points_order"]]
    return Goofspiel(cards, cards, prizes, 0, pays[values["returns_type"]])


def _oshi_zumo(values: Mapping[str, str]) -> AnyGame:
    coins, least = _whole("coins", values), _whole("min_bid", values)
    if values["alesia"] not in ("False", "false") or _whole("horizon", values) < coins:
        raise InvalidError("the program has neither alesia nor a horizon below the coins")
    return OshiZumo(_whole("size", values), coins, coins, least)


def _whole(name: str, values: Mapping[str, str]) -> int:
    if not values[name].isdecimal():
        raise InvalidError(f"{name}={values[name]} has to be a whole number")
    return int(values[name])


def new_initial_state(game: AnyGame) -> PlayState:
    """The root of a game."""
    return PlayState(game.root())


def policy_of(*sheets: Sheet) -> SheetPolicy:
    """A policy that plays these plans: `policy_of(report.one, report.two)`."""
    return SheetPolicy(*sheets)


def plan_of_policy(game: AnyGame, side: Side, policy: Policy, weight: int = MOST_WEIGHT,
                   ask_again: int = ASKED_AGAIN) -> Sheet:
    """The plan of a policy whose states are `PlayState` and whose actions are labels."""
    player = SIDES.index(side)

    def choose(state: State) -> list[float]:
        shares, labels = policy.action_probabilities(PlayState(state), player), state.moves(side)
        unknown = [action for action in shares if action not in labels]
        if unknown:
            raise InvalidError(f"{unknown[0]!r} is no label of a move")
        return [shares.get(label, 0.0) for label in labels]

    return plan(game, side, choose, weight, ask_again)


def _side(player: int) -> Side:
    if player not in (0, 1):
        raise InvalidError(f"a player is 0 or 1, not {player!r}")
    return SIDES[player]
