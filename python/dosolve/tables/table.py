"""Tables: any finite game, told state by state.

    pennies = dosolve.Table([[[1, 2], [2, 1]], 1, -1])
    pennies = dosolve.Table.from_matrix([[1, -1], [-1, 1]], ["heads", "tails"], ["heads", "tails"])

A table is a list of states, numbered from 0; state 0 is the root. A state is an end, its payoff to
One; or a list of rows, one for each move of One. A row is a list of cells, one for each move of
Two. A cell is the number of the state that follows, or a list of draws, each a state and its
weight, which sum to 360360; and where the turn pays, behind them what One gets by it. A cell leads
only to states that stand behind its own.

Both players know the state before each move. The classmethods make tables of matrices, of
functions, of games of this package, and of those of OpenSpiel and Gambit; a game that cannot be a
table is refused by a `NoTableError` with the reason.
"""
from __future__ import annotations

import hashlib
import json
from collections.abc import Callable, Hashable, Iterator, Mapping, Sequence
from dataclasses import dataclass, field, replace
from fractions import Fraction
from functools import cached_property
from pathlib import Path
from typing import Any, Self, cast

from ..errors import InputRefusedError, InvalidError, NoTableError
from ..games.game import CHANCE, AnyGame, Field, Game, Side, State, side_of
from ..limits import NARROW, NEWEST_VERSION, WIDE, Limits
from ..values import FilePath, as_field, cut, shorten
from .building import (
    BothMoves, Built, MoveLists, Node, Rewarding, of_functions, of_game, of_matrix, of_rounds,
    of_stages,
)
from .csv_matrices import read_csv
from .gambit import of_gambit, save_gambit
from .lists import (
    LINE, WIDE_LINE, Cell, Listing, Lists, fault_of, kind_fault, listed, nested, range_fault,
    spelled, totals,
)
from .making import TableListener
from .openspiel import Key, OpenSpielGame, OpenSpielState, of_openspiel

_DEALT = "chance"
"""The name of a state that only deals out chances."""

MoveNames = tuple[Sequence[str], Sequence[str]]
"""The names of both players' moves in a state."""


@dataclass(frozen=True)
class _States(Field):
    """The field `states` of a position."""

    limits: Limits = WIDE

    def within(self, limits: Limits) -> Field:
        return replace(self, limits=limits)

    def refuse(self, value: object) -> None:
        fault, told = "14 kind", kind_fault(value)
        if told is None:
            fault, told = "15 range", range_fault(cast(Listing, value), self.limits)
        if told is not None:
            raise InputRefusedError(f"input {fault} of states", told)


@dataclass(frozen=True, repr=False)
class TableState(State):
    """A state of a table: its number, from 0, which is its key. The labels of moves are numbers
    too; `name` and `names(side)` are words."""

    game: Table
    number: int

    def __repr__(self) -> str:
        name = cut(" ".join(self.name.split()), 60)
        return f"TableState({self.number}{f', {name!r}' if name else ''})"

    def __str__(self) -> str:
        return self.name or f"state {self.number}"

    @property
    def name(self) -> str:
        """The state's name, empty where the table has none."""
        return self.game.state_names[self.number] if self.game.state_names else ""

    @property
    def node(self) -> Any:
        """What the table was made of here: the node of its functions, the state of its game; None
        where it was made of numbers alone, or this state only deals out chances."""
        return self.game.nodes[self.number] if self.game.nodes else None

    @property
    def key(self) -> int:
        return self.number

    @property
    def rank(self) -> int:
        return self.game.lists.ranks[self.number]

    @property
    def is_end(self) -> bool:
        return self.game.lists.ranks[self.number] == 0

    def names(self, side: Side) -> tuple[str, ...]:
        if self.is_end or not self.game.move_names:
            return super().names(side)
        one, two = self.game.move_names[self.number]
        return tuple(one if side_of(side) == "one" else two)

    @property
    def least(self) -> int:
        return self.game.totals[self.number][0] if self.game.has_rewards else self.game.low

    @property
    def most(self) -> int:
        return self.game.totals[self.number][1] if self.game.has_rewards else self.game.high

    def _payoff(self) -> int:
        return self.game.lists.values[self.number]

    def _moves(self, side: Side) -> tuple[int, ...]:
        return tuple(range(self.game.lists.moves[2 * self.number + (side == "two")]))

    def _draws(self, one: int, two: int) -> Sequence[Sequence[int]]:
        """The states that can follow, with their weights, and what the turn pays where it may."""
        cell: Cell = self.game.listing[self.number][one][two]
        return ((cell, CHANCE),) if isinstance(cell, int) else cell

    def _chances(self, one: int, two: int) -> tuple[int, ...]:
        return tuple(draw[1] for draw in self._draws(one, two))

    def _rewards(self, one: int, two: int) -> tuple[int, ...]:
        return tuple(sum(draw[2:]) for draw in self._draws(one, two))

    def _draw_names(self, one: int, two: int) -> tuple[str, ...]:
        if not self.game.state_names:
            return super()._draw_names(one, two)
        return tuple(self.game.state_names[draw[0]] for draw in self._draws(one, two))

    def _after(self, one: int, two: int, draw: int) -> TableState:
        return TableState(self.game, self._draws(one, two)[draw][0])


@dataclass(frozen=True, repr=False, eq=False)
class Table(Game[TableState]):
    """Any finite game, as a list of states.

    - `listing`: the states as a position has them.
    - `state_names`, `move_names`: a name for each state, and the names of both players' moves in
      each; left out, there are none. Names are no part of the game: tables with equal states are
      equal, and positions and reports have no names. `Position.save` and `Report.save` write them
      into a file beside theirs that ends with `.names`, and `load` reads them there.
    - `nodes`: what each state was made of.
    - `scale`: what the payoffs of the rules were multiplied by.
    - `error`: how far the value of the table can be from that of the game that it was made of, in
      payoffs of the rules; more than 0 only where something was rounded.
    - `total`: what both players' payoffs sum to in the file of Gambit that it was read from. Two
      gets this less what One gets; 0 everywhere else.
    """

    name = "table"
    version = 2
    settings = (_States("states"),)
    listing: Sequence[Any]
    state_names: Sequence[str] = ()
    move_names: Sequence[MoveNames] = ()
    nodes: Sequence[Any] = field(default=(), repr=False)
    scale: Fraction = Fraction(1)
    error: Fraction = Fraction(0)
    total: Fraction = Fraction(0)

    def __post_init__(self) -> None:
        super().__post_init__()
        self._require_names()

    def _settle(self, limits: Limits) -> None:
        object.__setattr__(self, "listing", _frozen(self.listing))
        self.refuse_beyond(limits)

    def _fault(self, limits: Limits) -> tuple[str, str] | None:
        return fault_of(self.lists, limits)

    @cached_property
    def is_wide(self) -> bool:
        return (self._width > NARROW.moves or max(self.lists.ranks) > NARROW.rank
                or len(self.listing) - 1 > NARROW.number)

    def _require_names(self) -> None:
        count = len(self.listing)
        for what, given in (("names of states", self.state_names), ("nodes", self.nodes),
                            ("names of moves", self.move_names)):
            if len(given) not in (0, count):
                raise InvalidError(f"{len(given)} {what} for {count} states")
        for state, names in enumerate(self.move_names):
            wanted = tuple(self.lists.moves[2 * state:2 * state + 2])
            if tuple(map(len, names)) != wanted or any(len(set(each)) < len(each)
                                                       for each in names):
                raise InvalidError(f"the names {shorten(names)} of the moves of state {state} "
                                   f"have to be {wanted[0]} and {wanted[1]} different ones")

    def __eq__(self, other: object) -> bool:
        if not isinstance(other, Table):
            return NotImplemented
        if self.listing is not other.listing and self.listing == other.listing:
            # From now on both share one list, so that they are told to be equal at once.
            object.__setattr__(other, "listing", self.listing)
        return self.listing is other.listing or self._spelled == other._spelled

    def __hash__(self) -> int:
        return self._hash

    @cached_property
    def _hash(self) -> int:
        return hash(self._spelled)

    @cached_property
    def _spelled(self) -> Listing:
        """The states with one spelling of what turns pay."""
        return spelled(self.listing)

    def __repr__(self) -> str:
        return f"<Table: {self.title().removeprefix('table of ')}>"

    @cached_property
    def lists(self) -> Lists:
        """The lists of a report's line."""
        return listed(self.listing)

    @cached_property
    def totals(self) -> list[tuple[int, int]]:
        """For each state the least and the greatest sum that One can still get from it on, where
        turns pay; else none."""
        return totals(self.lists)

    @property
    def has_rewards(self) -> bool:
        return bool(self.lists.rewards)

    @classmethod
    def line_settings(cls, version: int) -> tuple[Field, ...]:
        return WIDE_LINE if version >= NEWEST_VERSION else LINE

    def line_values(self) -> tuple[object, ...]:
        return self.lists.told()

    @classmethod
    def of_line(cls, *values: Any, limits: Limits = WIDE) -> Self:
        lists = Lists(*values)
        fault = fault_of(lists, limits)
        if fault is not None:
            raise InputRefusedError(f"input {fault[0]}", fault[1])
        # Not by the constructor, whose ranges are those of positions.
        made = object.__new__(cls)
        object.__setattr__(made, "listing", nested(lists))
        return made

    def values(self) -> Iterator[object]:
        yield self.listing

    @cached_property
    def _line(self) -> str:
        shown = (",".join(map(str, numbers)) or "-" for numbers in self.lists.told())
        return " ".join([self.name, *shown])

    def line(self) -> str:
        return self._line

    def title(self) -> str:
        turns = self.lists.ranks[0]
        return (f"table of {len(self.listing)} states, {self.most_states} with moves; at most "
                f"{self.most_moves} moves a side and {turns} turn{'s' if turns != 1 else ''}")

    def root(self) -> TableState:
        return TableState(self, 0)

    def _unpacked(self, key: int) -> TableState | None:
        return TableState(self, key) if key < len(self.listing) else None

    def at(self, node: Hashable) -> TableState:
        """The state that was made of this node."""
        try:
            return TableState(self, self._numbers[node])
        except KeyError:
            raise InvalidError(f"no state of the table was made of {shorten(node)}") from None

    @cached_property
    def _numbers(self) -> dict[Hashable, int]:
        return {node: number for number, node in enumerate(self.nodes)
                if node is not None or self.state_names[number:number + 1] != (_DEALT,)}

    @cached_property
    def _payoffs(self) -> list[int]:
        return [value for value, rank in zip(self.lists.values, self.lists.ranks) if not rank]

    @cached_property
    def _range(self) -> tuple[int, int]:
        """The least and the greatest of what One can still get in the states of the list."""
        leasts, mosts = zip(*self.totals) if self.has_rewards else (self._payoffs, self._payoffs)
        return min(leasts), max(mosts)

    @property
    def low(self) -> int:
        return self._range[0]

    @property
    def high(self) -> int:
        return self._range[1]

    @cached_property
    def _width(self) -> int:
        return max(1, *self.lists.moves)

    @cached_property
    def _drawn(self) -> bool:
        """Whether a cell has several draws."""
        return len(self.lists.draws) // 2 > sum(cell < 0 for cell in self.lists.cells)

    @property
    def most_moves(self) -> int:
        return self._width

    @property
    def most_states(self) -> int:
        return sum(map(bool, self.lists.ranks))

    @property
    def most_ends(self) -> int:
        return len(self.lists.ranks) - self.most_states

    def count_states(self) -> int:
        return self.most_states

    def starting_at(self, state: State) -> Table:
        self._own(state)
        assert isinstance(state, TableState)
        kept = sorted(self._behind(state.number))
        place = {number: at for at, number in enumerate(kept)}

        def moved(cell: Cell) -> Cell:
            if isinstance(cell, int):
                return place[cell]
            return tuple((place[draw[0]], *draw[1:]) for draw in cell)

        listing = [told if isinstance(told, int) else
                   tuple(tuple(map(moved, row)) for row in told)
                   for told in (self.listing[number] for number in kept)]
        names, moves, nodes = ([given[number] for number in kept] if given else ()
                               for given in (self.state_names, self.move_names, self.nodes))
        return Table(listing, names, moves, nodes, self.scale, self.error, self.total)

    def _behind(self, first: int) -> set[int]:
        """A state and all that can follow it."""
        found, waiting = {first}, [first]
        while waiting:
            told = self.listing[waiting.pop()]
            cells = [] if isinstance(told, int) else [cell for row in told for cell in row]
            for cell in cells:
                for after in (cell,) if isinstance(cell, int) else [draw[0] for draw in cell]:
                    if after not in found:
                        found.add(after)
                        waiting.append(after)
        return found

    @property
    def chance_free(self) -> bool:
        return not self._drawn

    @property
    def has_names(self) -> bool:
        """Whether there is anything to be kept beside the numbers."""
        return bool(self.state_names or self.move_names or self.error or self.total
                    ) or self.scale != 1

    def names_text(self) -> str:
        """The names as a line of JSON, with what tells which table they are of."""
        moves = [[list(one), list(two)] for one, two in self.move_names]
        found = {"table": self._digest, "scale": str(self.scale)}
        found |= {name: str(number) for name, number in (("error", self.error),
                                                         ("total", self.total)) if number}
        return json.dumps(found | {"states": list(self.state_names), "moves": moves}) + "\n"

    def named(self, text: str) -> Table:
        """The same table with names that `names_text` gave."""
        try:
            found = json.loads(text)
            digest, scale = found["table"], Fraction(found["scale"])
            error, total = (Fraction(found.get(name, 0)) for name in ("error", "total"))
            states, moves = map(str, found["states"]), found["moves"]
            pairs = [(tuple(map(str, one)), tuple(map(str, two))) for one, two in moves]
        except (ValueError, KeyError, TypeError, AttributeError, ZeroDivisionError) as fault:
            raise InvalidError(f"these are no names of a table: {fault}") from None
        if digest != self._digest:
            raise InvalidError("these are names of another table")
        return replace(self, state_names=tuple(states), move_names=tuple(pairs), scale=scale,
                       error=error, total=total)

    @property
    def _digest(self) -> str:
        return hashlib.sha256(self.line().encode()).hexdigest()

    @classmethod
    def _of(cls, built: Built, name: Callable[[Any], str],
            nodes: Sequence[object] | None = None) -> Table:
        """The table that was built, its states named by their nodes."""
        kept = built.nodes if nodes is None else nodes
        names = [f"payoff {state / built.scale}" if isinstance(state, int) else
                 _DEALT if number in built.deals else name(node)
                 for number, (state, node) in enumerate(zip(built.listing, kept))]
        return cls(built.listing, tuple(names), built.names, tuple(kept), built.scale, built.error,
                   built.total)

    @classmethod
    def from_matrix(cls, payoffs: object, one: Sequence[object] | None = None,
                    two: Sequence[object] | None = None, rounded: bool = False) -> Table:
        """A game of one turn: One's payoffs, a row for each move of One, with the names of both
        players' moves. A payoff can also be a list of pairs, of a payoff and its chance. With
        `rounded` payoffs of any size and number of digits are taken, and rounded where they have
        to be; `error` of the table says how wrong that makes its value at most."""
        return cls._of(of_matrix(payoffs, one, two, rounded), lambda node: "root")

    @classmethod
    def repeated(cls, payoffs: object, rounds: int, one: Sequence[object] | None = None,
                 two: Sequence[object] | None = None, rounded: bool = False) -> Table:
        """A matrix that is played for some rounds (1 to 63), each of which pays; `rounded` as in
        `from_matrix`. A node is the number of rounds that are left."""
        return cls._of(of_rounds(payoffs, rounds, one, two, rounded), _left)

    @classmethod
    def markov(cls, stages: Mapping[Any, object] | Sequence[object],
               transitions: Mapping[Any, object] | Sequence[object], rounds: int,
               start: Hashable = None, one: MoveLists = None, two: MoveLists = None,
               rounded: bool = False, progress: TableListener | bool = False) -> Table:
        """A Markov game of some rounds (1 to 63): in each round both play the matrix of the stage
        in which they are, which pays at once.

        - `stages`: a dict from stages, any hashable values, to matrices as `from_matrix` takes
          them; or a list, whose stages are 0, 1, ..
        - `transitions`: for each stage what follows each pair of moves, by rows of One's moves: a
          stage, a dict (or list of pairs) of stages with their chances, or None where the game
          ends.
        - `start`: the stage of the first round; left out, the first one.
        - `one`, `two`: the names of a player's moves, a list for all stages or a dict of lists.

        A node is a pair of the rounds that are left and the stage.
        """
        built = of_stages(stages, transitions, rounds, start, one, two, rounded, progress)
        return cls._of(built, lambda node: f"{node[1]}, {_left(node[0])}")

    @classmethod
    def from_functions(cls, root: Node, moves: Callable[[Node], BothMoves],
                       after: Callable[[Node, Any, Any], object],
                       payoff: Callable[[Node], object] | None = None,
                       name: Callable[[Node], str] = str, rounded: bool = False,
                       progress: TableListener | bool = False,
                       reward: Rewarding | None = None) -> Table:
        """The game that begins at a node, any hashable value, told by functions:

        - `moves(node)`: the moves of One and those of Two, two lists of any values; a player who
          has nothing to choose may have none, and moves "-" then. Without any move, or None, the
          game is over.
        - `after(node, one, two)`: the node that follows, or a dict (or list of pairs) of nodes
          with their chances.
        - `payoff(node)`: what One gets where the game is over; left out, nothing.
        - `reward(node, one, two)`: what One gets by a turn; or `reward(node, one, two, after)`,
          where `after` is the node that follows, which a draw can decide. Left out, nothing.

        What a play pays is the sum. A sum that turns pay need not be in the node, so that there are
        fewer states than where the end pays it.

        Equal nodes are one state, so a node has to have all that the rest of the game depends on,
        and to count the turns where the game could come back to it. `name` names states, and
        `str` the moves. Payoffs and chances are numbers, fractions too. Payoffs that are not whole
        at one scale, and chances that cannot be dealt out exactly, are refused, or with `rounded`
        rounded; `error` of the table says how wrong that makes its value at most. `progress` is a
        function that is called about once a second (`TableProgress`), or True for a line on the
        terminal.
        """
        built = of_functions(root, moves, after, payoff, reward, rounded, progress)
        return cls._of(built, name)

    @classmethod
    def from_openspiel(cls, game: OpenSpielGame | OpenSpielState, key: Key | None = None,
                       rounded: bool = False, trust: bool = False,
                       progress: TableListener | bool = False) -> Table:
        """The game that begins at a state, or the root of a game, with OpenSpiel's calls: moves at
        once or in turns, and draws in the open.

        States of one text (`str`) after equally many turns are one state of the table. A function
        `key` tells states apart otherwise: `key=str` also joins those of different turns, where
        the text has all that the rest of the game depends on. A turn pays what `rewards()` says
        behind it and its draws, where states have that call and their game does not say that ends
        alone pay. A game that says that its players do not see the whole state is refused unless
        `trust` is set.
        """
        built, states = of_openspiel(game, key, rounded, trust, progress)
        return cls._of(built, str, states)

    @classmethod
    def from_game(cls, game: AnyGame, progress: TableListener | bool = False) -> Table:
        """Any game of this package, also a `PythonGame` of your own, with the same order of moves
        and draws."""
        built, states = of_game(game, progress)
        return cls._of(built, str, states)

    @classmethod
    def from_gambit(cls, path: FilePath) -> Table:
        """The game of a file of Gambit: a strategic form (.nfg), or an extensive form (.efg) whose
        players see each other's earlier moves. An outcome on the way is what the turn that leads
        there pays."""
        return cls._of(*of_gambit(Path(path).read_text(encoding="utf-8-sig")))

    def to_gambit(self, path: FilePath) -> None:
        """Writes the table as an extensive form of Gambit (.efg), with the payoffs of its rules;
        see `save_gambit`."""
        save_gambit(self, path)


def _left(rounds: int) -> str:
    """How many rounds are left, in words."""
    return f"{rounds} round{'s' if rounds > 1 else ''} left"


def _frozen(value: object) -> Any:
    """Lists as tuples, and numbers as Python's own."""
    if type(value) is int:
        return value
    return tuple(map(_frozen, value)) if isinstance(value, (list, tuple)) else as_field(value)


def read_matrix(path: FilePath) -> tuple[object, list[str] | None, list[str] | None]:
    """The matrix of a file, with the names of the moves of One and of Two where it has any.

    A JSON file has a list of rows. A CSV file has a row on each line. Where its first cell is
    empty, the first line has the names of Two's moves and the first column those of One's; else
    either has names where it has no number.
    """
    file = Path(path)
    ending = file.suffix.lower()
    if ending not in (".json", ".csv"):
        raise NoTableError(f"{path} has to end with .csv, .json, .nfg, .efg or .py")
    text = file.read_text(encoding="utf-8-sig")
    if ending == ".json":
        try:
            matrix = json.loads(text)
        except ValueError as fault:
            raise NoTableError(f"{path} is no JSON: {fault}") from None
        if not isinstance(matrix, list):
            hint = ("; this is a position, which `solve` takes as it is"
                    if isinstance(matrix, dict) and "game" in matrix else "")
            raise NoTableError(f"{path} has to be a matrix, a list of rows of payoffs{hint}")
        return matrix, None, None
    try:
        return read_csv(text)
    except NoTableError as fault:
        raise NoTableError(f"{path} {fault}") from None
