"""The base class of games that are written in Python, to be measured there, or made a table of.

    class Race(dosolve.PythonGame[tuple[int, int, int]]):
        name = "race"
        low, high = -1, 1

        def start(self):
            return 0, 0, 3

        def moves(self, node):
            return ([1, 2, 3], [1, 2, 3]) if node[2] else None

        def after(self, node, one, two):
            return node[0] + one % two, node[1] + two % one, node[2] - 1

        def payoff(self, node):
            return (node[0] > node[1]) - (node[0] < node[1])

        def turns_left(self, node):
            return node[2]

A method `reward(node, one, two, after)` says what One gets by a turn, where turns pay too.

`plan`, `respond`, `expected_of` and `live_match` take such a game, of any number of states and of
up to 4096 moves a side; nothing of it is proved. `Table.from_game` makes a table of a small one.
"""
from __future__ import annotations

from abc import abstractmethod
from collections.abc import Hashable, Mapping, Sequence
from dataclasses import dataclass, field
from fractions import Fraction
from typing import Any, ClassVar, Generic, Self, TypeVar, cast

from ..errors import InvalidError
from ..limits import Limits
from ..values import is_whole, shorten
from .game import CHANCE, Field, Game, Side, State, side_of

Node = TypeVar("Node", bound=Hashable)
"""What tells the states of a game apart."""

ALONE = "-"
"""The move of a player who has nothing to choose."""


@dataclass(frozen=True, repr=False)
class PythonState(State):
    """A state of a game written in Python: its node, and the number of that as its key."""

    game: PythonGame[Any]
    node: Any = field(compare=False)
    number: int

    def __repr__(self) -> str:
        return f"{self.game.name}({self.node!r})"

    def __str__(self) -> str:
        return self.game.state_name(self.node)

    @property
    def key(self) -> int:
        return self.number

    @property
    def rank(self) -> int:
        return 0 if self.is_end else self.game.rank_of(self.number)

    @property
    def is_end(self) -> bool:
        return self.game.moves_of(self.number) is None

    def choices(self, side: Side) -> tuple[Any, ...]:
        """The moves themselves, as `moves` of the game gives them; none at an end."""
        both = self.game.moves_of(self.number)
        return () if both is None else both[side_of(side) == "two"]

    def names(self, side: Side) -> tuple[str, ...]:
        return tuple(map(str, self.choices(side)))

    def _payoff(self) -> int:
        found = self.game.payoff(self.node)
        if not is_whole(found):
            raise InvalidError(f"payoff({shorten(self.node)}) is {shorten(found)}, and has to be "
                               f"a whole number")
        return found

    def _moves(self, side: Side) -> tuple[int, ...]:
        return self.game.labels_of(self.number)[side == "two"]

    def outcomes_of_labels(self, one: int, two: int) -> list[tuple[int, Self]]:
        # The game is asked once for all draws.
        return [(weight, cast(Self, self.game.state(after)))
                for weight, after, _ in self._outcomes(one, two)]

    def _outcomes(self, one: int, two: int) -> tuple[tuple[int, int, int], ...]:
        """The states that follow moves with these labels: their weights and numbers, and what the
        turn pays."""
        return self.game.outcomes_of(self.number, *self.game.choices_of(self.number, one, two))

    def _chances(self, one: int, two: int) -> tuple[int, ...]:
        return tuple(weight for weight, _, _ in self._outcomes(one, two))

    def _rewards(self, one: int, two: int) -> tuple[int, ...]:
        return tuple(reward for _, _, reward in self._outcomes(one, two))

    def _after(self, one: int, two: int, draw: int) -> PythonState:
        return self.game.state(self._outcomes(one, two)[draw][1])

    def _draw_names(self, one: int, two: int) -> tuple[str, ...]:
        return tuple(str(self.game.state(after)) for _, after, _ in self._outcomes(one, two))


class PythonGame(Game[PythonState], Generic[Node]):
    """A game written in Python: a subclass has the five methods that are asked for below, and a
    `name`; `low` and `high`, the least and the greatest payoff, where these are not -1 and 1. Where
    turns pay, it has a method `reward` too, and One gets from `low` to `high` from each node on.

    A node is any hashable value that has all that the rest of the game depends on. What the
    methods answer has to depend on the node alone. Two such games are equal only if they are one.
    """

    name: ClassVar[str] = "python"
    settings: ClassVar[tuple[Field, ...]] = ()

    @abstractmethod
    def start(self) -> Node:
        """The node in which the game begins."""

    @abstractmethod
    def moves(self, node: Node) -> tuple[Sequence[object], Sequence[object]] | None:
        """The moves of One and those of Two, two lists; None where the game is over. A player who
        has nothing to choose may have none, and moves "-" then. Whole numbers are labels as they
        are; of other moves `str` is the name."""

    @abstractmethod
    def after(self, node: Node, one: Any, two: Any) -> object:
        """The node that follows both players' moves, or a dict of nodes with their chances, which
        are multiples of 1/360360."""

    @abstractmethod
    def payoff(self, node: Node) -> int:
        """What One gets where the game is over, a whole number."""

    @abstractmethod
    def turns_left(self, node: Node) -> int:
        """At least the number of turns that are left; each turn has to leave less."""

    def reward(self, node: Node, one: Any, two: Any, after: Node) -> int:
        """What One gets by a turn, a whole number; `after` is the node that follows."""
        return 0

    def state_name(self, node: Node) -> str:
        """A node in words."""
        return str(node)

    def _fault(self, limits: Limits) -> tuple[str, str] | None:
        return None

    @property
    def chance_free(self) -> bool:
        return False

    @property
    def has_rewards(self) -> bool:
        return type(self).reward is not PythonGame.reward

    @property
    def most_moves(self) -> int:
        both = self.moves_of(self.root().number) or ((), ())
        return max(1, *map(len, both))

    def root(self) -> PythonState:
        return self.state_of(self.start())

    def state_of(self, node: Hashable) -> PythonState:
        """The state of a node."""
        known = self._known
        number = known.numbers.setdefault(node, len(known.nodes))
        if number == len(known.nodes):
            known.nodes.append(node)
        return PythonState(self, node, number)

    def _unpacked(self, key: int) -> PythonState | None:
        nodes = self._known.nodes
        return PythonState(self, nodes[key], key) if key < len(nodes) else None

    @property
    def _known(self) -> _Known:
        """What has been met so far; made when it is first asked for, so that a subclass may have
        an `__init__` of its own."""
        found: _Known | None = self.__dict__.get("_met")
        if found is None:
            found = self.__dict__["_met"] = _Known()
        return found

    def moves_of(self, number: int) -> tuple[tuple[Any, ...], tuple[Any, ...]] | None:
        """Both players' moves in the state of this number; None at an end."""
        known = self._known
        if number not in known.moves:
            from ..tables.building import both_moves

            node = known.nodes[number]
            given = self.moves(node)
            one, two = both_moves(node, given)
            both = (tuple(one) or (ALONE,), tuple(two) or (ALONE,))
            known.moves[number] = both if one or two else None
        return known.moves[number]

    def labels_of(self, number: int) -> tuple[tuple[int, ...], tuple[int, ...]]:
        """The labels of both players' moves in the state of this number: the moves themselves
        where all of a player's are whole numbers, else numbers from 0; none at an end."""
        labels = self._known.labels
        if number not in labels:
            one, two = self.moves_of(number) or ((), ())
            labels[number] = _labels(one), _labels(two)
        return labels[number]

    def choices_of(self, number: int, one: int, two: int) -> tuple[Any, Any]:
        """The moves with these labels, which have to be there."""
        mine, yours = self.moves_of(number) or ((), ())
        labels = self.labels_of(number)
        return (one if labels[0] is mine else mine[one],
                two if labels[1] is yours else yours[two])

    def rank_of(self, number: int) -> int:
        """The turns left in the state of this number, at least 1."""
        known = self._known
        if number not in known.ranks:
            node = known.nodes[number]
            turns = self.turns_left(node)
            if not is_whole(turns) or turns < 1:
                raise InvalidError(f"turns_left({shorten(node)}) is {shorten(turns)}, and has to "
                                   f"be a whole number from 1 where the game is not over")
            known.ranks[number] = turns
        return known.ranks[number]

    def outcomes_of(self, number: int, one: Any, two: Any) -> tuple[tuple[int, int, int], ...]:
        """The weights and numbers of the states that follow both players' moves, and what the turn
        pays."""
        from ..tables.building import merged, outcomes_of

        node, rank = self._known.nodes[number], self.rank_of(number)
        given = self.after(node, one, two)
        outcomes, found = outcomes_of(given), []
        if isinstance(given, (Mapping, list)):
            outcomes = merged(outcomes)  # a node alone has the chance 1
        for after, chance, _ in outcomes:
            weight = Fraction(chance) * CHANCE
            if weight.denominator != 1:
                raise InvalidError(f"after({shorten(node)}, {one!r}, {two!r}) has the chance "
                                   f"{chance}, which is no multiple of 1/{CHANCE}")
            state = self.state_of(after)
            if state.rank >= rank:
                raise InvalidError(f"turns_left of {shorten(after)} is not less than that of "
                                   f"{shorten(node)}, which it follows")
            reward = self.reward(node, one, two, state.node)
            if not is_whole(reward):
                raise InvalidError(f"reward({shorten(node)}, {one!r}, {two!r}, {shorten(after)}) "
                                   f"is {shorten(reward)}, and has to be a whole number")
            found.append((int(weight), state.number, reward))
        return tuple(found)


@dataclass
class _Known:
    """The nodes of a game in the order in which they were met, their moves with their labels, and
    the turns left."""

    nodes: list[Any] = field(default_factory=list)
    numbers: dict[Any, int] = field(default_factory=dict)
    moves: dict[int, tuple[tuple[Any, ...], tuple[Any, ...]] | None] = field(default_factory=dict)
    labels: dict[int, tuple[tuple[int, ...], tuple[int, ...]]] = field(default_factory=dict)
    ranks: dict[int, int] = field(default_factory=dict)


def _labels(moves: tuple[Any, ...]) -> tuple[int, ...]:
    """The moves themselves where all are whole numbers, else numbers from 0."""
    return moves if all(map(is_whole, moves)) else tuple(range(len(moves)))
