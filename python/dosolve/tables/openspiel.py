"""Makes tables of games with the calls of OpenSpiel's `State`; OpenSpiel itself is not needed."""
from __future__ import annotations

import copy
from collections.abc import Callable, Hashable, Iterable, Sequence
from fractions import Fraction
from typing import Any, Protocol, cast

from ..errors import NoTableError
from ..games.game import SIDES
from ..limits import SUM_ERROR
from ..values import shorten
from .building import ONLY, Built, Deal, End, Outcome, Outcomes, Turn, build, exact, merged
from .building import unique
from .making import TableListener

Key = Callable[[Any], Hashable]
"""A function that tells states apart."""


class OpenSpielState(Protocol):
    """The calls of OpenSpiel's `State` that make a table. `clone`, `action_to_string`,
    `num_players`, `get_game` and `rewards` are used where they are there; `apply_actions` where
    both players move at once, and the calls of chance nodes where there are any."""

    def is_terminal(self) -> bool:
        """Whether the game is over."""

    def is_chance_node(self) -> bool:
        """Whether a draw has to be made."""

    def is_simultaneous_node(self) -> bool:
        """Whether both players have to move."""

    def current_player(self) -> int:
        """Whose move it is, where one player moves."""

    def legal_actions(self, player: int, /) -> Sequence[int]:
        """The actions of a player."""

    def returns(self) -> Sequence[float]:
        """The payoffs of both players at an end."""

    def chance_outcomes(self) -> Iterable[tuple[int, float]]:
        """The draws with their chances."""

    def apply_action(self, action: int, /) -> object:
        """Makes one player's move, or a draw."""

    def apply_actions(self, actions: list[int], /) -> object:
        """Makes both players' moves."""


class OpenSpielGame(Protocol):
    """The call of OpenSpiel's `Game` that makes a table."""

    def new_initial_state(self) -> OpenSpielState:
        """The state in which the game begins."""


Reached = list[tuple[OpenSpielState, Fraction]]
"""States with their chances."""


def of_openspiel(game: OpenSpielGame | OpenSpielState, key: Key | None, rounded: bool, trust: bool,
                 progress: TableListener | bool = False
                 ) -> tuple[Built, list[OpenSpielState | None]]:
    """The table of the game that begins at a state or at the root of a game; and its states."""
    state = cast(OpenSpielState, game) if hasattr(game, "is_terminal") else _root(game)
    _require_calls(state)
    _require_known(state, trust)
    walker = _Walker(key, rounded, _has_rewards(state))
    first = walker.behind(state, 0, Fraction(0))
    root = first[0].node if len(first) == 1 else Deal(tuple(merged(first, rounded)))
    built = build(root, walker.expand, rounded, progress=progress)
    return built, [None if node is None else walker.states[node] for node in built.nodes]


def _has_rewards(state: object) -> bool:
    """Whether a state tells what the turn before it paid: where its game says so, or does not say
    that its ends alone pay."""
    of_game = getattr(state, "get_game", lambda: None)()
    kind = getattr(of_game, "get_type", lambda: None)()
    ends_alone = "TERMINAL" in str(getattr(kind, "reward_model", ""))
    return callable(getattr(state, "rewards", None)) and not ends_alone


def _root(game: object) -> OpenSpielState:
    """The state in which a game begins."""
    begin = getattr(game, "new_initial_state", None)
    if not callable(begin):
        raise NoTableError(f"{shorten(game)} has not the calls of OpenSpiel's State or Game")
    return cast(OpenSpielState, begin())


def _require_calls(state: object) -> None:
    """Refuses a state without the calls that every table needs."""
    calls = ("is_terminal", "is_chance_node", "is_simultaneous_node", "current_player",
             "legal_actions", "returns")
    missing = [call for call in calls if not callable(getattr(state, call, None))]
    if missing:
        raise NoTableError(f"{shorten(state)} lacks calls of OpenSpiel's State: "
                           f"{', '.join(missing)}")


def _require_known(state: object, trust: bool) -> None:
    """Refuses games of other numbers of players, and those that hide something."""
    count = getattr(state, "num_players", lambda: len(SIDES))()
    if count != len(SIDES):
        raise NoTableError(f"a table has two players, and this game has {count}")
    of_state = getattr(state, "get_game", lambda: None)()
    kind = getattr(of_state, "get_type", lambda: None)()
    if "IMPERFECT" in str(getattr(kind, "information", "")) and not trust:
        raise NoTableError("the players of this game do not see its whole state, as those of a "
                           "table do; where they do all the same, set trust")


class _Walker:
    """The states that a walk has met, one for each key, with the turns before each.

    Without a function `key`, states of one text are the same where as many turns were played. With
    `rewards`, a turn pays what the state behind it and its draws says; what the last turn pays the
    end pays, which has this beside its key. `paid` has what was paid on the way to a state, and
    `before` what was paid before the first one.
    """

    def __init__(self, key: Key | None, rounded: bool, rewards: bool) -> None:
        self.own_key = key
        self.rounded = rounded
        self.rewards = rewards
        self.states: dict[Hashable, OpenSpielState] = {}
        self.turns: dict[Hashable, int] = {}
        self.paid: dict[Hashable, Fraction] = {}
        self.compared: set[Hashable] = set()
        self.sum: Fraction | None = None
        self.before: Fraction | None = None

    def key(self, state: OpenSpielState, turns: int) -> Hashable:
        """What tells a state apart."""
        key = (turns, str(state)) if self.own_key is None else self.own_key(state)
        if self.rewards and state.is_terminal():
            return key, self.reward(state)
        return key

    def reward(self, state: OpenSpielState) -> Fraction:
        """What One got by the turn that led to a state; both rewards sum to 0."""
        told: Sequence[float] = getattr(state, "rewards")()
        one, two = (exact(each, "reward", self.rounded) for each in told)
        if one + two:
            raise NoTableError(f"the game is not zero-sum: rewards sum to {one + two}")
        return one

    def node(self, state: OpenSpielState, turns: int, before: Fraction) -> Outcome:
        """A certain outcome: the state's key, and what the turn to it pays. Of the states that
        share a key, each has to have the moves of the first, and the second also what follows
        them. `before` is what was paid before that turn."""
        key = self.key(state, turns)
        reward = self.reward(state) if self.rewards and turns else Fraction(0)
        paid = Fraction(0) if state.is_terminal() else reward
        first = self.states.setdefault(key, state)
        if first is state:
            self.turns[key], self.paid[key] = turns, before + reward
            return Outcome(key, Fraction(1), paid)
        same = _moves(first, self.rewards) == _moves(state, self.rewards)
        if same and key not in self.compared and not state.is_terminal():
            self.compared.add(key)
            same = self.followers(first, turns + 1) == self.followers(state, turns + 1)
        if not same:
            raise NoTableError(f"the key {shorten(key)} stands for states that go on differently; "
                               f"hand over another function `key`")
        return Outcome(key, Fraction(1), paid)

    def followers(self, state: OpenSpielState, turns: int) -> list[list[tuple[object, ...]]]:
        """The keys of what each pair of moves leads to, with chances and rewards."""
        return [[(self.key(after, turns), chance, self.rewards and self.reward(after))
                 for after, chance in outcomes] for row in self.rows(state) for outcomes in row]

    def behind(self, state: OpenSpielState, turns: int, before: Fraction) -> Outcomes:
        """The nodes of a state that was reached, behind draws where these come first."""
        return self.outcomes(_drawn(state), turns, before)

    def outcomes(self, reached: Reached, turns: int, before: Fraction) -> Outcomes:
        """States that were reached as outcomes."""
        return [self.node(after, turns, before)._replace(chance=chance)
                for after, chance in reached]

    def rows(self, state: OpenSpielState) -> list[list[Reached]]:
        """The states that each pair of moves leads to, behind draws."""
        if state.is_simultaneous_node():
            one, two = (_actions(state, player) for player in (0, 1))
            return [[_drawn(_after(state, (a, b))) for b in two] for a in one]
        player = state.current_player()
        ways = [_drawn(_after(state, action)) for action in _actions(state, player)]
        return [[way] for way in ways] if player == 0 else [ways]

    def expand(self, key: Hashable) -> End | Turn:
        """What the state of a key is."""
        state = self.states[key]
        if state.is_terminal():
            return End(self.payoff(state, key))
        turns, paid = self.turns[key] + 1, self.paid[key]
        rows = [[self.outcomes(reached, turns, paid) for reached in row]
                for row in self.rows(state)]
        one, two = (_names(state, player) for player in (0, 1))
        return Turn(rows, (one, two))

    def payoff(self, state: OpenSpielState, key: Hashable) -> Fraction:
        """The first return of an end, or what its last turn paid; both returns have the same sum at
        each end."""
        one, two = (exact(each, rounded=self.rounded) for each in state.returns())
        if self.sum is None:
            self.sum = one + two
        if one + two != self.sum:
            raise NoTableError(f"the game is not zero-sum: returns sum to {self.sum} and to "
                               f"{one + two}")
        if not self.rewards or not self.turns[key]:
            return one
        before = one - self.paid[key]
        if self.before is None:
            self.before = before
        if abs(before - self.before) > (SUM_ERROR if self.rounded else 0):
            raise NoTableError(f"the returns are not the sums of the rewards: in "
                               f"{shorten(str(state))} the first is {one}, and the rewards on the "
                               f"way there sum to {self.paid[key]}")
        return self.reward(state)


def _moves(state: OpenSpielState, rewards: bool) -> tuple[object, ...]:
    """What can be told at once of how a state goes on."""
    if state.is_terminal():
        return ("end",) if rewards else ("end", *state.returns())
    if state.is_simultaneous_node():
        return _actions(state, 0), _actions(state, 1)
    player = state.current_player()
    return player, _actions(state, player)


def _actions(state: OpenSpielState, player: int) -> tuple[int, ...]:
    """A player's actions; 0 alone where both move and the player has none."""
    return tuple(state.legal_actions(player)) or (0,)


def _names(state: OpenSpielState, player: int) -> tuple[str, ...]:
    """The names of a player's moves."""
    if not state.is_simultaneous_node() and state.current_player() != player:
        return (ONLY,)
    actions = tuple(state.legal_actions(player))
    told = getattr(state, "action_to_string", lambda player, action: str(action))
    return unique(told(player, action) for action in actions) if actions else (ONLY,)


def _after(state: OpenSpielState, action: int | tuple[int, int]) -> OpenSpielState:
    """A state after an action, or after those of both players."""
    clone = getattr(state, "clone", None)
    child = cast(OpenSpielState, clone()) if clone is not None else copy.deepcopy(state)
    if isinstance(action, tuple):
        child.apply_actions(list(action))
    else:
        child.apply_action(action)
    return child


def _drawn(state: OpenSpielState) -> Reached:
    """The states behind the draws that come first, with their chances."""
    if state.is_terminal() or not state.is_chance_node():
        return [(state, Fraction(1))]
    found = []
    for action, chance in state.chance_outcomes():
        for after, inner in _drawn(_after(state, action)):
            found.append((after, exact(chance, "chance") * inner))
    return found
