"""What a game is: settings, states, moves, labels, draws and keys, as the program has them.

A game is a frozen dataclass of its settings, in the order in which positions and reports have
them. Its constructor refuses what the program refuses, by the same text. A state belongs to its
game, and never changes. Moves are numbered from 0 (`Move`); what a player sees of a move is its
label, `state.moves(side)[move]`. `state.play(one=.., two=..)` takes labels, `state.after(..)`
numbers. Payoffs are whole numbers, what One gets; Two gets the negative. An end pays, and in some
games a turn pays too (`state.rewards(..)`): what a play pays is the sum. Bounds, elsewhere, are
millionths of a payoff.
"""
from __future__ import annotations

import math
from abc import ABC, abstractmethod
from collections.abc import Collection, Iterable, Iterator, Sequence, Set
from dataclasses import dataclass, fields, replace
from fractions import Fraction
from functools import cached_property
from typing import Any, ClassVar, Final, Generic, Literal, NewType, Self, TypeVar, cast

from ..errors import InputRefusedError, InvalidError
from ..limits import MOST_KEY, MOST_WIDE_ROWS, NARROW, NEWEST_VERSION, WIDE, Limits
from ..values import Record, as_field, as_points, is_whole, shorten

Side = Literal["one", "two"]
SIDES: Final[tuple[Side, Side]] = ("one", "two")
"""Both sides: `for side in dosolve.SIDES`."""

Move = NewType("Move", int)
"""The number of a move, from 0; `state.moves(side)[move]` is its label."""

SCALE: Final = 1_000_000
"""Millionths in one payoff."""

CHANCE: Final = 360_360
"""What the chances of the draws after one pair of moves sum to."""


def side_of(word: str) -> Side:
    """The side of this name, `one` or `two`."""
    if word not in SIDES:
        raise InvalidError(f"a side is 'one' or 'two', not {word!r}")
    return cast(Side, word)


def other(side: Side) -> Side:
    """The other player."""
    return "two" if side == "one" else "one"


@dataclass(frozen=True)
class Field:
    """A field of a position: a whole number in its range, or a list of at most `most` of them, or
    one of `choices`.

    An optional field has in `absent` the value that it stands for where it is left out. `late` has
    the choices that reports have in the newest version alone. A list that is `optional` is left out
    of a line where it is empty.
    """

    name: str
    low: int = 0
    high: int = 255
    most: int | None = None
    choices: tuple[str, ...] = ()
    absent: str | int | None = None
    about: str = ""
    late: tuple[str, ...] = ()
    optional: bool = False

    def refuse(self, value: object) -> None:
        """Refuses a value of another kind, then one out of range."""
        kind, good = self._judged(value)
        if not good:
            fault = "range" if kind else "kind"
            raise InputRefusedError(f"input {15 if kind else 14} {fault} of {self.name}",
                                    self.told(value))

    def within(self, limits: Limits) -> Field:
        """The field as these limits have it."""
        return self

    def takes(self, value: object) -> bool:
        """Whether a value is of the field's kind and in its range."""
        return self._judged(value)[1]

    def _judged(self, value: object) -> tuple[bool, bool]:
        """Whether a value is of the field's kind, and whether it is in its range too."""
        if self.choices:
            return isinstance(value, str), value in self.choices
        if self.most is None:
            return is_whole(value), is_whole(value) and self.low <= value <= self.high
        if not isinstance(value, (list, tuple)) or not all(map(is_whole, value)):
            return False, False
        return True, len(value) <= self.most and all(map(self._is_in, value))

    def _is_in(self, number: int) -> bool:
        return self.low <= number <= self.high

    def told(self, value: object) -> str:
        """What is wrong with a value, and what it has to be."""
        if self.choices:
            wanted = " or ".join(map(repr, self.choices))
        elif self.most is None:
            wanted = f"a whole number from {self.low} to {self.high}"
        else:
            wanted = f"a list of at most {self.most} whole numbers from {self.low} to {self.high}"
        about = f" ({self.about})" if self.about else ""
        if isinstance(value, Set):
            about += "; a set has no order: hand over sorted(..) of it"
        return f"{self.name} is {shorten(value)}, and has to be {wanted}{about}"


def packed(*parts: tuple[int, int]) -> int:
    """One field behind the other, each a value with its bits, the last in the lowest bits."""
    key = 0
    for value, bits in parts:
        if not 0 <= value < 1 << bits:
            raise InvalidError(f"{value} does not fit {bits} bits of a key")
        key = key << bits | value
    return key


def unpacked(key: int, *bits: int) -> tuple[int, ...]:
    """The fields of a key, of these widths; what lies above them is left out."""
    found = []
    for width in reversed(bits):
        found.append(key & (1 << width) - 1)
        key >>= width
    return tuple(reversed(found))


def members(bits: int) -> tuple[int, ...]:
    """The places of the bits that are set, rising."""
    return tuple(place for place in range(bits.bit_length()) if bits >> place & 1)


def sign(number: int) -> int:
    """-1, 0 or 1."""
    return (number > 0) - (number < 0)


def require_clear(given: Collection[object], labels: Sequence[int], names: Sequence[str]) -> None:
    """Refuses labels that could as well be meant as names, and of other moves then."""
    if not all(str(label) in names for label in given):
        return
    for label in given:
        numbered = names[labels.index(label)] if label in labels else str(label)
        if numbered != str(label):
            raise InvalidError(f"{label} is the number of the move {numbered!r} and the name of "
                               f"another: write a name as a word, '{label}' or {numbered!r}")


class State(ABC):
    """A state of a game: all that the rest of the game depends on."""

    game: AnyGame

    @property
    @abstractmethod
    def key(self) -> int:
        """The number by which reports name this state; states with equal keys are equal."""

    @property
    @abstractmethod
    def rank(self) -> int:
        """At least the number of turns left, 0 at an end."""

    @property
    @abstractmethod
    def is_end(self) -> bool:
        """Whether the game is over."""

    @property
    def payoff(self) -> int:
        """What One gets here, in whole payoffs; asked of an end alone."""
        if not self.is_end:
            raise InvalidError(f"the game is not over in {self}, so it pays nothing")
        return self._payoff()

    @property
    def least(self) -> int:
        """At most what One still gets from here on, in turns and at the end together."""
        return self.game.low

    @property
    def most(self) -> int:
        """At least what One still gets from here on, in turns and at the end together."""
        return self.game.high

    def opening(self, side: Side) -> int:
        """The bound that each plan of the side guarantees from here on, in millionths."""
        return SCALE * (self.least if side_of(side) == "one" else self.most)

    def moves(self, side: Side) -> tuple[int, ...]:
        """The labels of the player's moves, in the order of their numbers; none at an end."""
        return () if self.is_end else self._moves(side_of(side))

    def names(self, side: Side) -> tuple[str, ...]:
        """The labels as words to show."""
        return tuple(map(str, self.moves(side)))

    def move(self, side: Side, label: int | str) -> Move:
        """The number of the move with this label, or with this name; a label as a text will do
        where no move has that name. A label that is the name of another move is refused."""
        if not isinstance(label, str):
            require_clear((label,), self.moves(side), self.names(side))
        return self.move_labelled(side, label)

    def move_labelled(self, side: Side, label: int | str) -> Move:
        """The number of the move with this label, whatever the names are, or with this name."""
        known: tuple[int | str, ...] = self.moves(side)
        if isinstance(label, str):
            names = self.names(side)
            if label in names or not label.isdecimal():
                known = names
            else:
                label = int(label)
        if label not in known:
            named = f", and one named '{label}'" if str(label) in self.names(side) else ""
            raise InvalidError(f"player {side} has no move {shorten(label)} in {self}, whose moves "
                               f"are {known}{named}")
        return Move(known.index(label))

    def play(self, *, one: int | str, two: int | str, draw: int = 0) -> Self:
        """The state after the moves with these labels or names, and this draw (a number from
        0)."""
        return self.after(self.move("one", one), self.move("two", two), draw)

    def chances(self, one: Move, two: Move) -> tuple[int, ...]:
        """The chance of each draw after these moves (numbers), in parts of `CHANCE`."""
        return self._chances(*self._in_range(one, two))

    def rewards(self, one: Move, two: Move) -> tuple[int, ...]:
        """What One gets by the turn of these moves (numbers) itself, with each draw; all 0 in a
        game that pays at its ends alone."""
        return self.rewards_of_labels(*self._in_range(one, two))

    def draw_names(self, one: Move, two: Move) -> tuple[str, ...]:
        """A name for each draw after these moves (numbers); none where there is but one."""
        labels = self._in_range(one, two)
        count = len(self._chances(*labels))
        return self._draw_names(*labels) if count > 1 else ()

    def after(self, one: Move, two: Move, draw: int = 0) -> Self:
        """The state after the moves with these numbers, and this draw, all from 0; `play` takes
        labels."""
        labels = self._in_range(one, two)
        count = len(self._chances(*labels))
        if not 0 <= draw < count:
            raise InvalidError(f"draw {draw} of {count} in {self}")
        return self.after_labels(*labels, draw)

    def outcomes(self, one: Move, two: Move) -> list[tuple[int, Self]]:
        """Each state that these moves (numbers) can lead to, behind its chance in parts of
        `CHANCE`, in the order of draws."""
        return self.outcomes_of_labels(*self._in_range(one, two))

    def after_labels(self, one: int, two: int, draw: int = 0) -> Self:
        """The state after moves with these labels, which have to be there, and this draw."""
        return cast(Self, self._after(one, two, draw))

    def outcomes_of_labels(self, one: int, two: int) -> list[tuple[int, Self]]:
        """What `outcomes` gives, of moves with these labels, which have to be there."""
        return [(chance, self.after_labels(one, two, draw))
                for draw, chance in enumerate(self._chances(one, two))]

    def rewards_of_labels(self, one: int, two: int) -> tuple[int, ...]:
        """What `rewards` gives, of moves with these labels, which have to be there."""
        return self._rewards(one, two)

    def _in_range(self, one: int, two: int) -> tuple[int, int]:
        """The labels of both moves."""
        mine, yours = self.moves("one"), self.moves("two")
        for side, move, labels in (("one", one, mine), ("two", two, yours)):
            if not 0 <= move < len(labels):
                raise InvalidError(
                    f"player {side} has no move number {move} in {self}, which has {len(labels)}, "
                    f"numbered from 0; play(one=.., two=..) takes labels")
        return mine[one], yours[two]

    def _chances(self, one: int, two: int) -> tuple[int, ...]:
        """The chance of each draw after the moves with these labels."""
        return (CHANCE,)

    def _rewards(self, one: int, two: int) -> tuple[int, ...]:
        """What each draw after the moves with these labels pays One."""
        return (0,) * len(self._chances(one, two))

    def _draw_names(self, one: int, two: int) -> tuple[str, ...]:
        """A name for each of several draws after the moves with these labels."""
        return tuple(f"draw {draw}" for draw in range(len(self._chances(one, two))))

    @abstractmethod
    def _payoff(self) -> int:
        """The payoff of an end."""

    @abstractmethod
    def _moves(self, side: Side) -> tuple[int, ...]:
        """The labels of the moves in a state that is no end."""

    @abstractmethod
    def _after(self, one: int, two: int, draw: int) -> State:
        """The state after the moves with these labels, and this draw."""


S_co = TypeVar("S_co", bound=State, covariant=True)
"""The states of a game."""


class Game(ABC, Generic[S_co]):
    """The settings of a game, as a position has them; `Game[S]` has states of the type `S`."""

    name: ClassVar[str]
    version: ClassVar[int] = 1
    """The first version of reports that has this game."""
    settings: ClassVar[tuple[Field, ...]]
    """The fields of a position."""

    def __post_init__(self) -> None:
        self._settle(WIDE)

    def _settle(self, limits: Limits) -> None:
        """Keeps the settings as plain numbers and lists, and refuses them by these limits."""
        for field in self.settings:
            object.__setattr__(self, field.name, as_field(getattr(self, field.name)))
        self.refuse_beyond(limits)

    def refuse_beyond(self, limits: Limits) -> None:
        """Refuses the settings that these limits do not allow, as the program does."""
        for field, value in zip(self.settings, self.values()):
            field.within(limits).refuse(value)
        fault = self._fault(limits)
        if fault is not None:
            raise InputRefusedError(f"input {fault[0]}", fault[1])

    @classmethod
    def within(cls, limits: Limits, *values: Any) -> Self:
        """The game of these settings, refused by these limits; the constructor has the wide
        ones."""
        made = object.__new__(cls)
        for field, value in zip(fields(cast(Any, cls)), values):
            object.__setattr__(made, field.name, value)
        made._settle(limits)
        return made

    @abstractmethod
    def _fault(self, limits: Limits) -> tuple[str, str] | None:
        """The first rule that the settings break within these limits: its number and words, and
        what is wrong."""

    @cached_property
    def is_wide(self) -> bool:
        """Whether only the wide limits allow the game, so that it asks for linear stages."""
        return self._fault(NARROW) is not None

    @classmethod
    def line_settings(cls, version: int) -> tuple[Field, ...]:
        """The fields of the second line of a report of this version."""
        return tuple(field if version >= NEWEST_VERSION or not field.late else
                     replace(field, choices=tuple(word for word in field.choices
                                                  if word not in field.late))
                     for field in cls.settings)

    @property
    def is_new(self) -> bool:
        """Whether only a report of the newest version can be on the game."""
        before, values = self.line_settings(NEWEST_VERSION - 1), self.line_values()
        return self.is_wide or len(values) > len(before) or not all(
            field.takes(value) for field, value in zip(before, values))

    @classmethod
    def of_line(cls, *values: Any, limits: Limits = WIDE) -> Self:
        """The game of the fields of a report's second line, within these limits."""
        return cls.within(limits, *values)

    @abstractmethod
    def root(self) -> S_co:
        """The state in which the game begins."""

    @property
    def chance_free(self) -> bool:
        """Whether each pair of moves leads to one state."""
        return True

    @property
    def scale(self) -> Fraction:
        """What the payoffs of the rules were multiplied by, to make them whole numbers."""
        return Fraction(1)

    @property
    def low(self) -> int:
        """At most what One still gets from any state on; the least payoff where ends alone pay."""
        return -1

    @property
    def high(self) -> int:
        """At least what One still gets from any state on; the greatest payoff where ends alone
        pay."""
        return 1

    @property
    def span(self) -> tuple[int, int]:
        """The least and the greatest payoff of a whole play, as far as they are told by the
        root."""
        root = self.root()
        return root.least, root.most

    @property
    def has_rewards(self) -> bool:
        """Whether turns may pay, beside ends."""
        return False

    @property
    @abstractmethod
    def most_moves(self) -> int:
        """At least the number of moves of either player in any state, 1 or more."""

    @property
    def most_states(self) -> int:
        """At least the number of states that are no ends, where that is known without a walk;
        else the rows that a board can have."""
        return MOST_WIDE_ROWS

    @property
    def most_ends(self) -> int | None:
        """At least the number of ends that play can reach; None where that is not known."""
        return None

    def count_states(self) -> int | None:
        """The number of states with moves that play can reach, where the game counts them without
        a walk; `MOST_WIDE_ROWS + 1` where they are more than a board has room for. None where it
        does not count them."""
        return None

    def fits(self, rows: int = MOST_WIDE_ROWS) -> bool | None:
        """Whether a board of so many rows has room for all states with moves; None where that is
        not known."""
        if self.most_states < rows:
            return True
        count = self.count_states()
        return None if count is None else count <= rows

    def starting_at(self, state: State) -> AnyGame:
        """The game that begins in a state of this one."""
        raise InvalidError(f"{type(self).__name__} has no game that begins in another state")

    def _own(self, state: State) -> None:
        """Refuses a state of another game."""
        if state.game != self:
            raise InvalidError(f"a state of {state.game.title()} is none of {self.title()}")

    def state(self, key: int) -> S_co:
        """The state with this key, as reports name it."""
        found = self._unpacked(key) if is_whole(key) and 0 <= key <= MOST_KEY else None
        if found is None or found.key != key:
            raise InvalidError(f"no state of {self.title()} has the key {shorten(key)}")
        return found

    def _unpacked(self, key: int) -> S_co | None:
        """The state of a key, or None. A game may do better than search."""
        return next((state for state in self.states() if state.key == key), None)

    def states(self) -> Iterator[S_co]:
        """Each state that play can reach, terminal ones too, each once."""
        root = self.root()
        seen, waiting = {root.key}, [root]
        while waiting:
            state = waiting.pop()
            yield state
            for one in state.moves("one"):
                for two in state.moves("two"):
                    for _, after in state.outcomes_of_labels(one, two):
                        if after.key not in seen:
                            seen.add(after.key)
                            waiting.append(after)

    def state_after(self, turns: Iterable[Sequence[int | str]]) -> S_co:
        """The state after turns from the root: for each the labels or names of both moves, and
        the number of the draw where it is not 0."""
        state = self.root()
        for turn in turns:
            if len(turn) not in (2, 3):
                raise InvalidError(f"a turn is One's move, Two's move and a draw, not {turn!r}")
            draw = int(turn[2]) if len(turn) == 3 else 0
            state = state.play(one=turn[0], two=turn[1], draw=draw)
        return state

    def opening(self, side: Side) -> int:
        """The bound that each plan of the side guarantees from any state on, in millionths: `low`
        for One, `high` for Two. `state.opening(side)` is that of one state."""
        return SCALE * (self.low if side_of(side) == "one" else self.high)

    def resolution(self, weight: int) -> int:
        """The gap, in millionths, that a search reaches for certain where rows sum to `weight` and
        turns and rows suffice."""
        spread = (self.high - self.low) * SCALE
        quotient = -(-2 * self.most_moves * spread * spread // weight)
        least = math.isqrt(quotient)
        least += least * least < quotient
        return self.root().rank * (least + 1 + (not self.chance_free))

    def unscaled(self, bound: int | Fraction) -> Fraction:
        """A bound, in millionths, as a payoff of the rules, before `scale`."""
        return Fraction(bound) / SCALE / self.scale

    def of_rules(self, payoff: int | Fraction) -> Fraction:
        """A payoff as one of the rules, before `scale`."""
        return Fraction(payoff) / self.scale

    def shown(self, bound: int, up: bool = False) -> str:
        """A bound or gap, in millionths, as a payoff of the rules with 6 digits behind the point,
        rounded down, or up."""
        exact = bound / self.scale
        return as_points(math.ceil(exact) if up else math.floor(exact))

    def line_values(self) -> tuple[object, ...]:
        """The fields of a report's second line."""
        return tuple(self.values())

    def values(self) -> Iterator[object]:
        """The settings in the order of their fields."""
        return (getattr(self, field.name) for field in self.settings)

    def record(self) -> Record:
        """The settings by the names of their fields."""
        return {field.name: value for field, value in zip(self.settings, self.values())}

    def line(self) -> str:
        """The game as a report's second line has it, without `game`."""
        lists = (",".join(map(str, value)) or "-" if isinstance(value, tuple) else str(value)
                 for value in self.line_values())
        return " ".join([self.name, *lists])

    def title(self) -> str:
        """The game in a few words, as summaries and messages have it."""
        return self.line()


AnyGame = Game[State]
"""A game of any kind."""
