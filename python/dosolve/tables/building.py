"""Makes the states of a table of a game that is told otherwise: by functions, as a matrix, by the
states of this package or of OpenSpiel.

Nodes are any hashable values; equal nodes become one state. An end pays, and a turn may pay too.
Payoffs and chances are fractions. Payoffs, those of turns among them, are multiplied by the least
number that makes all of them whole. Chances that are no parts
of 360360, or are more than 13, are dealt out over further states of one move each, exactly, where
that is possible. What does not fit is rounded where that is asked for (`rounded`); `Built.error`
says how far the value of the table can then be from that of the game.
"""
from __future__ import annotations

import math
from collections.abc import Callable, Hashable, Iterable, Iterator, Mapping, Sequence
from dataclasses import dataclass, field
from decimal import Decimal
from fractions import Fraction
from numbers import Rational
from typing import Any, NamedTuple, TypeVar

from ..errors import NoTableError
from ..exact import steps
from ..games.game import CHANCE, AnyGame, State
from ..limits import MOST_DRAWS, MOST_PAYOFF, SUM_ERROR, WIDE
from ..values import as_plain, can_take, is_whole, shorten
from .lists import Cell, Listed
from .making import Draw, Making, TableListener, Told, making

MOST_DENOMINATOR = 1_000_000
"""The greatest denominator that a float is read as."""

ONLY = "-"
"""The name of the one move of a player who has nothing to choose."""

Node = TypeVar("Node", bound=Hashable)
"""What tells the states of a game apart."""


class Outcome(NamedTuple):
    """A node that can follow, its chance, and what the turn then pays One."""

    node: Hashable
    chance: Fraction = Fraction(1)
    reward: Fraction = Fraction(0)


Outcomes = list[Outcome]
"""What can follow a pair of moves."""

Names = tuple[tuple[str, ...], tuple[str, ...]]
"""The names of both players' moves."""


@dataclass(frozen=True)
class End:
    """A node where the game is over, and its payoff to One."""

    payoff: Fraction


@dataclass(frozen=True)
class Turn:
    """A node where both move: what each pair of moves leads to, by rows of One's moves, and the
    names of both players' moves."""

    rows: Sequence[Sequence[Outcomes]]
    names: Names


Expand = Callable[[Any], End | Turn]
"""A function from a node to what it is."""

BothMoves = Sequence[Iterable[object]] | None
"""The moves of One and those of Two; None where the game is over."""


@dataclass(frozen=True)
class Built:
    """A table: its states as a position has them, the node of each (None where a state only deals
    out chances), the names of moves (none at an end), what payoffs were multiplied by, which states
    only deal out chances, how far its value can be from the game's, and what both players' payoffs
    sum to, both in payoffs of the rules."""

    listing: tuple[Listed, ...]
    nodes: tuple[Hashable, ...]
    names: tuple[Names, ...]
    scale: Fraction
    deals: frozenset[int]
    error: Fraction = Fraction(0)
    total: Fraction = Fraction(0)


def exact(number: object, what: str = "payoff", rounded: bool = False) -> Fraction:
    """A number as a fraction. A float is the nearest one with a denominator of at most a million,
    refused where that is not the same to nine digits; with `rounded` it is what it is then."""
    number = as_plain(number)
    if isinstance(number, (Rational, Decimal, str)) and not isinstance(number, bool):
        try:
            return Fraction(number)
        except (ValueError, ZeroDivisionError, OverflowError):
            raise NoTableError(f"{shorten(number)} is no {what}") from None
    if not isinstance(number, float) or not math.isfinite(number):
        raise NoTableError(f"{shorten(number)} is no {what}, which is a finite number")
    near = Fraction(number).limit_denominator(MOST_DENOMINATOR)
    if abs(float(near) - number) > 1e-9 * max(1.0, abs(number)):
        if rounded:
            return Fraction(number)
        raise NoTableError(f"the {what} {number!r} is near no fraction with a denominator of at "
                           f"most {MOST_DENOMINATOR}; a Fraction is taken as it is, and "
                           f"rounded=True (--rounded) rounds it")
    return near


def unique(names: Iterable[object]) -> tuple[str, ...]:
    """Words for moves; where two are the same, each has its number too."""
    words = [str(name) for name in names]
    return tuple(word if words.count(word) == 1 else f"{word} #{place}"
                 for place, word in enumerate(words))


@dataclass(frozen=True)
class Deal:
    """A state of one move each that only deals out chances. Its node is told to be None."""

    outcomes: tuple[Outcome, ...]


def merged(outcomes: Iterable[tuple[Hashable, object, Fraction]],
           rounded: bool = False) -> Outcomes:
    """Outcomes with the chances of equal nodes added where they pay the same, in the order of their
    first, without those of chance 0."""
    found: dict[tuple[Hashable, Fraction], Fraction] = {}
    for node, number, reward in outcomes:
        chance = exact(number, "chance", rounded)
        if chance < 0:
            raise NoTableError(f"a chance is {chance}, and must not be negative")
        if chance:
            found[node, reward] = found.get((node, reward), Fraction(0)) + chance
    total = sum(found.values(), Fraction(0))
    if abs(total - 1) > SUM_ERROR:
        raise NoTableError(f"chances sum to {float(total)}, and have to sum to 1")
    return [Outcome(node, chance / total, reward) for (node, reward), chance in found.items()]


def _parts(chances: Sequence[Fraction]) -> list[int] | None:
    """The chances in parts of `CHANCE`, None where they are no whole ones."""
    parts = [chance * CHANCE for chance in chances]
    whole = all(part.denominator == 1 for part in parts)
    return [int(part) for part in parts] if whole else None


def _rounded_parts(chances: Sequence[Fraction]) -> list[int]:
    """Parts of `CHANCE` near the chances, each at least 1: rounded down, and what is missing goes
    to the largest remainders."""
    parts = [max(1, math.floor(chance * CHANCE)) for chance in chances]
    order = sorted(range(len(parts)), key=lambda place: parts[place] - chances[place] * CHANCE)
    missing = CHANCE - sum(parts)
    for place in range(missing):
        parts[order[place % len(order)]] += 1
    for _ in range(-missing):
        parts[parts.index(max(parts))] -= 1
    return parts


def _dealt(outcomes: Outcomes, rounded: bool) -> list[Draw]:
    """At most 13 draws with weights: the nodes themselves, or states that deal out the rest."""
    parts = (_parts([each.chance for each in outcomes]) if len(outcomes) <= MOST_DRAWS else None)
    if parts is not None:
        return [Draw(each.node, part, each.reward) for each, part in zip(outcomes, parts)]
    for groups in _groupings(outcomes):
        parts = _parts(_shares(groups))
        if parts is not None:
            try:
                return _drawn(groups, parts, rounded)
            except NoTableError:
                continue
    if not rounded:
        odd = next((each.chance for each in outcomes if (each.chance * CHANCE).denominator != 1),
                   None)
        which = f" ({odd} is none)" if odd is not None else f", at most {MOST_DRAWS} at a time"
        raise NoTableError(f"{len(outcomes)} chances cannot be dealt out in parts of 1/{CHANCE}"
                           f"{which}; rounded=True (--rounded) rounds them")
    size = -(-len(outcomes) // MOST_DRAWS)
    groups = [outcomes[at:at + size] for at in range(0, len(outcomes), size)]
    return _drawn(groups, _rounded_parts(_shares(groups)), rounded)


def _shares(groups: Sequence[Outcomes]) -> list[Fraction]:
    """The chance of each group."""
    return [sum((each.chance for each in group), Fraction(0)) for group in groups]


def _drawn(groups: Sequence[Outcomes], parts: Sequence[int], rounded: bool) -> list[Draw]:
    """For each group a draw with its weight: the only node of the group, or the state that deals
    it out, which pays what its outcomes pay."""
    found = []
    for group, share, part in zip(groups, _shares(groups), parts):
        if len(group) == 1:
            found.append(Draw(group[0].node, part, group[0].reward))
            continue
        inner = [each._replace(chance=each.chance / share) for each in group]
        _dealt(inner, rounded)  # refused here where it is not possible
        found.append(Draw(Deal(tuple(inner)), part, Fraction(0)))
    return found


def _groupings(outcomes: Outcomes) -> Iterator[list[Outcomes]]:
    """Ways to cut outcomes into 2 to 13 groups: equal numbers of outcomes, then the outcomes
    sorted by chance, then single outcomes and the rest together."""
    ordered = sorted(outcomes, key=lambda outcome: outcome.chance)
    most = min(MOST_DRAWS, len(outcomes) - 1)
    for given in (outcomes, ordered):
        for count in range(most, 1, -1):
            if len(given) % count == 0:
                size = len(given) // count
                yield [given[at:at + size] for at in range(0, len(given), size)]
    for count in range(most - 1, 0, -1):
        for given in (ordered, ordered[::-1]):
            yield [*([outcome] for outcome in given[:count]), given[count:]]


Rows = tuple[tuple[Cell, ...], ...]
"""The rows of a state as a table has them."""


@dataclass
class _Walk:
    """A walk in depth through a game: what each node is, and the nodes in the order in which the
    walk was done with them, so that each leads to earlier ones alone."""

    expand: Expand
    rounded: bool
    advice: str
    making: Making
    told: dict[Hashable, Told] = field(default_factory=dict)
    names: dict[Hashable, Names] = field(default_factory=dict)
    done: dict[Hashable, None] = field(default_factory=dict)
    wrong: dict[Hashable, Fraction] = field(default_factory=dict)
    """How much the rounded chances after a pair of moves differ from the given ones at most, the
    half of the sum of differences, for each node where they do."""
    pays: bool = False
    """Whether some turn pays."""

    def walk(self, root: Hashable) -> None:
        waiting: list[tuple[Hashable, bool]] = [(root, False)]
        on_way: set[Hashable] = set()
        while waiting:
            node, is_left = waiting.pop()
            if is_left:
                on_way.discard(node)
                self.done[node] = None
                self.making.finish(node, self.told[node])
            elif node in on_way:
                raise NoTableError(f"the game comes back to {shorten(node)}: a table has no ways "
                                   f"that go round; count the turns in the node")
            elif node not in self.done:
                on_way.add(node)
                waiting.append((node, True))
                behind = self.look(node)
                if behind and len(on_way) > WIDE.rank and not isinstance(node, Deal):
                    raise NoTableError(f"the game goes on for more than {WIDE.rank} turns, at "
                                       f"{shorten(node)}: {self.advice}")
                waiting += [(after, False) for after in reversed(behind)
                            if after not in self.done]

    def look(self, node: Hashable) -> list[Hashable]:
        """Keeps what a node is, and gives the nodes that follow."""
        what: End | Turn
        what = (Turn([[list(node.outcomes)]], ((ONLY,), (ONLY,))) if isinstance(node, Deal)
                else self.expand(node))
        if isinstance(what, End):
            self.told[node] = what.payoff
            return []
        widths = {len(row) for row in what.rows}
        if not 1 <= len(what.rows) <= WIDE.moves or not widths <= {*range(1, WIDE.moves + 1)}:
            raise NoTableError(f"{shorten(node)} has {len(what.rows)} by {max(widths, default=0)} "
                               f"moves, and has to have 1 to {WIDE.moves} for each player")
        if len(widths) > 1:
            raise NoTableError(f"the rows of {shorten(node)} are not equally long")
        rows = [[self.draws(node, what.names, one, two, cell) for two, cell in enumerate(row)]
                for one, row in enumerate(what.rows)]
        self.told[node], self.names[node] = rows, what.names
        return [draw.node for row in rows for cell in row for draw in cell]

    def draws(self, node: Hashable, names: Names, one: int, two: int,
              outcomes: Outcomes) -> list[Draw]:
        """The draws after a pair of moves; the message of a fault names both and the node."""
        self.pays = self.pays or any(each.reward for each in outcomes)
        if len(outcomes) == 1 and outcomes[0].chance == 1 and outcomes[0].chance is not True:
            return [Draw(outcomes[0].node, CHANCE, outcomes[0].reward)]
        try:
            given = merged(outcomes, self.rounded)
            found = _dealt(given, self.rounded)
        except NoTableError as fault:
            raise NoTableError(f"{fault}: after {names[0][one]} and {names[1][two]} in "
                               f"{shorten(node)}") from None
        if self.rounded:
            wrong = _difference(given, found)
            if wrong:
                self.wrong[node] = max(wrong, self.wrong.get(node, wrong))
        return found

    def error(self, scale: Fraction) -> Fraction:
        """How far, in payoffs of the rules, the value of the table can be from that of the game:
        at each state what its chances add, on the worst way, and what payoffs are rounded by."""
        leasts, mosts = zip(*self.totals().values())
        spread = max(mosts) - min(leasts)

        def wrong(payoff: Fraction) -> Fraction:
            return abs(payoff - round(payoff * scale) / scale) if payoff else Fraction(0)

        found: dict[Hashable, Fraction] = {}
        for node in self.done:
            told = self.told[node]
            if isinstance(told, Fraction):
                found[node] = wrong(told)
            else:
                behind = max(found[draw.node] + wrong(draw.reward)
                             for row in told for cell in row for draw in cell)
                found[node] = behind + self.wrong.get(node, Fraction(0)) * spread
        return found[node]  # the root, which the walk leaves last

    def totals(self) -> dict[Hashable, tuple[Fraction, Fraction]]:
        """For each node the least and the greatest sum that One can still get from it on; where no
        turn pays only those of ends, since all others lie between them."""
        found: dict[Hashable, tuple[Fraction, Fraction]] = {}
        for node in self.done:
            told = self.told[node]
            if isinstance(told, Fraction):
                found[node] = told, told
            elif self.pays:
                draws = [draw for row in told for cell in row for draw in cell]
                found[node] = (min(draw.reward + found[draw.node][0] for draw in draws),
                               max(draw.reward + found[draw.node][1] for draw in draws))
        return found

    def scale(self) -> Fraction:
        """What makes all payoffs whole, those of turns among them."""
        payoffs = [told for told in self.told.values() if isinstance(told, Fraction)]
        if not self.pays:
            return _scale(payoffs, max(abs(payoff) for payoff in payoffs), self.rounded)
        rewards = {draw.reward for told in self.told.values() if not isinstance(told, Fraction)
                   for row in told for cell in row for draw in cell}
        greatest = max(max(abs(least), abs(most)) for least, most in self.totals().values())
        return _scale([*payoffs, *rewards], greatest, self.rounded, MOST_PAYOFF - WIDE.rank)


def _difference(given: Outcomes, found: list[Draw]) -> Fraction:
    """The half of the sum of what the chances of draws differ by from those that were given; 0
    where they are dealt out exactly. A state that deals out several has their sum."""
    shares = {(each.node, each.reward): each.chance for each in given}
    wanted = [sum((shares[inner.node, inner.reward] for inner in draw.node.outcomes), Fraction(0))
              if isinstance(draw.node, Deal) and (draw.node, draw.reward) not in shares
              else shares[draw.node, draw.reward] for draw in found]
    return sum((abs(share - Fraction(draw.weight, CHANCE))
                for share, draw in zip(wanted, found)), Fraction(0)) / 2


def build(root: Hashable, expand: Expand, rounded: bool = False,
          advice: str = "a table has to end before",
          progress: TableListener | bool = False) -> Built:
    """The table of the game that begins at a node. `advice` says what to do about one that goes on
    for too long."""
    with making(progress, rounded) as told:
        walk = _Walk(expand, rounded, advice, told)
        walk.walk(root)
    inner = [node for node in reversed(walk.done) if not isinstance(walk.told[node], Fraction)]
    payoffs = {node: value for node, value in walk.told.items() if isinstance(value, Fraction)}
    scale = walk.scale()
    place = {node: number for number, node in enumerate(inner)}
    ends: dict[int, Hashable] = {}
    for node, payoff in payoffs.items():
        ends.setdefault(round(payoff * scale), node)
    falling = sorted(ends, reverse=True)
    of_payoff = {payoff: len(inner) + number for number, payoff in enumerate(falling)}
    place |= {node: of_payoff[round(payoff * scale)] for node, payoff in payoffs.items()}
    rows = [_numbered(walk.told[node], place, scale) for node in inner]
    _require_rank(rows)
    nodes = [None if isinstance(node, Deal) else node for node in inner]
    nodes += [ends[payoff] for payoff in falling]
    names = [walk.names[node] for node in inner] + [((), ()) for _ in falling]
    deals = frozenset(place for place, node in enumerate(inner) if isinstance(node, Deal))
    return Built((*rows, *falling), tuple(nodes), tuple(names), scale, deals,
                 walk.error(scale) if rounded else Fraction(0))


def _scale(given: Sequence[Fraction], greatest: Fraction, rounded: bool,
           most: int = MOST_PAYOFF) -> Fraction:
    """What makes all payoffs whole; where the greatest sum of them is too large then, what divides
    out their greatest common divisor too. With `rounded`, where it is too large still, what makes
    it about as large as `most`."""
    scale = Fraction(math.lcm(*(payoff.denominator for payoff in given)))
    if greatest * scale > MOST_PAYOFF:
        scale /= math.gcd(*(int(payoff * scale) for payoff in given))
    if greatest * scale <= MOST_PAYOFF:
        return scale
    if rounded:
        room = most / greatest
        return Fraction(math.floor(room)) if room >= 1 else 1 / Fraction(math.ceil(1 / room))
    times, size = ("a number of more than 20 digits" if number > 10**20 else str(number)
                   for number in (scale, greatest * scale))
    what = "payoffs" if most == MOST_PAYOFF else "payoffs of a play, summed,"
    raise NoTableError(f"as whole numbers (times {times}) the {what} are as large as {size}, and "
                       f"have to be at most {MOST_PAYOFF}; round them, or have them rounded by "
                       f"rounded=True (--rounded)")


def _numbered(told: Told, place: Mapping[Hashable, int], scale: Fraction) -> Rows:
    """The rows of a state with the numbers of states; draws of one state that pay the same are
    one."""
    assert not isinstance(told, Fraction)
    return tuple(tuple(_cell_of(cell, place, scale) for cell in row) for row in told)


def _cell_of(cell: Sequence[Draw], place: Mapping[Hashable, int], scale: Fraction) -> Cell:
    """A cell with the numbers of states, and third numbers in the draws that pay."""
    sums: dict[tuple[int, int], int] = {}
    for node, weight, reward in cell:
        key = place[node], round(reward * scale) if reward else 0
        sums[key] = sums.get(key, 0) + weight
    if len(sums) == 1 and not any(paid for _, paid in sums):
        return next(iter(sums))[0]
    return tuple((after, weight, paid) if paid else (after, weight)
                 for (after, paid), weight in sums.items())


def _require_rank(rows: Sequence[Rows]) -> None:
    """Refuses a game of too many turns."""
    ranks: dict[int, int] = {}
    for state in reversed(range(len(rows))):
        cells = (cell for row in rows[state] for cell in row)
        after = [number for cell in cells
                 for number in ((cell,) if isinstance(cell, int) else (draw[0] for draw in cell))]
        ranks[state] = 1 + max(ranks.get(number, 0) for number in after)
    if ranks.get(0, 0) > WIDE.rank:
        raise NoTableError(f"the game takes up to {ranks[0]} turns, those included that only deal "
                           f"out chances; {WIDE.rank} are possible")


Payoffs = list[tuple[Fraction, Fraction]]
"""Payoffs with their chances."""

Stage = tuple[list[list[Payoffs]], Names]
"""A matrix: the payoffs of each pair of moves, and the names of both players' moves."""

MoveLists = Sequence[object] | Mapping[Any, Sequence[object]] | None
"""The names of a player's moves in all stages, or by stages."""


def of_matrix(payoffs: object, one: Sequence[object] | None, two: Sequence[object] | None,
              rounded: bool = False) -> Built:
    """The table of a matrix that is played once."""
    rows, names = _stage(payoffs, one, two, rounded)

    def expand(node: Fraction | None) -> End | Turn:
        if node is not None:
            return End(node)
        return Turn([[[Outcome(payoff, chance) for payoff, chance in cell] for cell in row]
                     for row in rows], names)

    return build(None, expand, rounded)


def of_rounds(payoffs: object, rounds: int, one: Sequence[object] | None,
              two: Sequence[object] | None, rounded: bool = False) -> Built:
    """The table of a matrix that is played for some rounds, each of which pays. A node is the
    number of rounds that are left."""
    _require_rounds(rounds)
    rows, names = _stage(payoffs, one, two, rounded)

    def expand(left: int) -> End | Turn:
        if left == 0:
            return End(Fraction(0))
        return Turn([[[Outcome(left - 1, chance, payoff) for payoff, chance in cell]
                      for cell in row] for row in rows], names)

    return build(rounds, expand, rounded)


def of_stages(stages: object, transitions: object, rounds: int, start: Hashable, one: MoveLists,
              two: MoveLists, rounded: bool, progress: TableListener | bool) -> Built:
    """The table of a Markov game: in each round both play the matrix of the stage in which they
    are, which pays at once, and its transitions say which stage follows. A node is the number of
    rounds that are left with the stage; None is the end."""
    _require_rounds(rounds)
    matrices, ways = _by_stage("stages", stages), _by_stage("transitions", transitions)
    for stage in {**matrices, **ways}:
        if stage not in matrices or stage not in ways:
            raise NoTableError(f"{shorten(stage)} is no stage of both, stages and transitions")
    first = next(iter(matrices)) if start is None else start
    if first not in matrices:
        raise NoTableError(f"start is {shorten(first)}, which is no stage")
    known = {}
    for stage, matrix in matrices.items():
        try:
            found = _stage(matrix, _moves_of(one, stage), _moves_of(two, stage), rounded)
            known[stage] = found, _transitions(ways[stage], found[1], matrices)
        except NoTableError as fault:
            raise NoTableError(f"{fault}: in the stage {shorten(stage)}") from None

    def expand(node: tuple[int, Hashable] | None) -> End | Turn:
        if node is None:
            return End(Fraction(0))
        (rows, names), after = known[node[1]]
        left = node[0] - 1
        return Turn([[[Outcome(None if stage is None or left == 0 else (left, stage),
                               chance * share, payoff)
                       for payoff, chance in cell for stage, share in follows]
                      for cell, follows in zip(row, below)]
                     for row, below in zip(rows, after)], names)

    return build((rounds, first), expand, rounded, progress=progress)


def _require_rounds(rounds: object) -> None:
    if not is_whole(rounds) or not 0 < rounds <= WIDE.rank:
        raise NoTableError(f"rounds is {shorten(rounds)}, and has to be a whole number from 1 to "
                           f"{WIDE.rank}")


def _stage(payoffs: object, one: Sequence[object] | None, two: Sequence[object] | None,
           rounded: bool) -> Stage:
    """A matrix with the names of its moves."""
    matrix = _matrix(payoffs)
    names = (_named(one, len(matrix), "one"), _named(two, len(matrix[0]), "two"))
    return [[_cell(cell, names[0][at], names[1][to], rounded) for to, cell in enumerate(row)]
            for at, row in enumerate(matrix)], names


def _by_stage(what: str, given: object) -> dict[Hashable, object]:
    """What was handed in for each stage: a dict by stages, or a list for the stages 0, 1, .."""
    if isinstance(given, Mapping):
        found = dict(given)
    else:
        try:
            found = dict(enumerate(as_plain(given)))
        except TypeError:
            found = {}
    if not found or isinstance(given, (str, bytes)):
        raise NoTableError(f"{what} is {shorten(given)}, and has to be a dict by stages, or a list")
    if None in found:
        raise NoTableError("None is no stage, but what follows where the game ends")
    return found


def _moves_of(names: MoveLists, stage: Hashable) -> Sequence[object] | None:
    """The names of a player's moves in a stage."""
    return names.get(stage) if isinstance(names, Mapping) else names


def _transitions(given: object, names: Names,
                 stages: Mapping[Hashable, object]) -> list[list[list[tuple[Hashable, Fraction]]]]:
    """What follows each pair of moves of a stage: stages with their chances, None the end."""
    rows = _matrix(given)
    if (len(rows), len(rows[0])) != (len(names[0]), len(names[1])):
        raise NoTableError(f"transitions for {len(rows)} by {len(rows[0])} moves, and the matrix "
                           f"has {len(names[0])} by {len(names[1])}")
    return [[_follows(cell, stages, f"after {one} and {two}") for two, cell in zip(names[1], row)]
            for one, row in zip(names[0], rows)]


def _follows(cell: object, stages: Mapping[Hashable, object],
             where: str) -> list[tuple[Hashable, Fraction]]:
    """The stages that a cell of transitions has, with their chances."""
    found: Iterable[tuple[Hashable, object]] = [(cell, 1)]
    if isinstance(cell, Mapping):
        found = cell.items()
    elif isinstance(cell, list):
        found = cell
    try:
        pairs = [(stage, exact(chance, "chance")) for stage, chance in found]
        unknown = [stage for stage, _ in pairs if stage is not None and stage not in stages]
    except (TypeError, ValueError):
        raise NoTableError(f"{shorten(cell)} is no stage, and no stages with their chances: {where}"
                           ) from None
    if unknown:
        raise NoTableError(f"{shorten(unknown[0])} is no stage: {where}")
    return pairs


def _matrix(payoffs: object) -> list[list[object]]:
    """A matrix as a list of rows, all of one length."""
    try:
        lines = [as_plain(row) for row in as_plain(payoffs)]
        if any(isinstance(row, (str, bytes)) for row in (payoffs, *lines)):
            raise TypeError("a text is no row")
        matrix = [list(row) for row in lines]
    except TypeError:
        raise NoTableError(f"a matrix is a list of rows of payoffs, not {shorten(payoffs)}"
                           ) from None
    if not matrix or not matrix[0]:
        raise NoTableError("the matrix is empty")
    for number, row in enumerate(matrix):
        if len(row) != len(matrix[0]):
            raise NoTableError(f"row {number} of the matrix (from 0) has the length {len(row)}, "
                               f"and row 0 has {len(matrix[0])}")
    if len(matrix) > WIDE.moves or len(matrix[0]) > WIDE.moves:
        raise NoTableError(f"the matrix has {len(matrix)} by {len(matrix[0])} moves, and each "
                           f"player can have at most {WIDE.moves}")
    return matrix


def _cell(cell: object, one: str, two: str, rounded: bool) -> Payoffs:
    """The payoffs of a pair of moves with their chances."""
    try:
        if not isinstance(cell, (list, tuple)):
            return [(exact(cell, rounded=rounded), Fraction(1))]
        pairs = [(exact(payoff, rounded=rounded), exact(chance, "chance", rounded))
                 for payoff, chance in cell]
        merged((Outcome(*pair) for pair in pairs), rounded)  # refused where these are no chances
        return pairs
    except NoTableError as fault:
        raise NoTableError(f"{fault}: in row {one}, column {two}") from None
    except (TypeError, ValueError):
        raise NoTableError(f"{shorten(cell)} is no payoff, and no list of pairs of a payoff and "
                           f"its chance: in row {one}, column {two}") from None


def _named(names: Sequence[object] | None, count: int, side: str) -> tuple[str, ...]:
    """The names of moves, their numbers where none are given."""
    if names is None:
        return tuple(map(str, range(count)))
    if len(names) != count:
        raise NoTableError(f"{len(names)} names for {count} moves of player {side}")
    return unique(names)


Rewarding = Callable[..., object]
"""A function from a node and both moves to what One gets by the turn; or from these and the node
that follows."""


def of_functions(root: Node, moves: Callable[[Node], BothMoves],
                 after: Callable[[Node, Any, Any], object],
                 payoff: Callable[[Node], object] | None, reward: Rewarding | None,
                 rounded: bool, progress: TableListener | bool = False) -> Built:
    """The table of a game that functions tell."""
    if payoff is None and reward is None:
        raise NoTableError("a game needs a function payoff, which says what an end pays, or a "
                           "function reward, which says what a turn pays")
    paid = None if reward is None else _Reward(reward, rounded)

    def expand(node: Node) -> End | Turn:
        with _At("moves", node):
            ones, twos = both_moves(node, moves(node))
        if not ones and not twos:
            with _At("payoff", node):
                return End(Fraction(0) if payoff is None else
                           _payoff(payoff(node), rounded, f"payoff({shorten(node)})"))
        ones, twos = ones or [ONLY], twos or [ONLY]
        rows = []
        for one in ones:
            row = []
            for two in twos:
                with _At("after", node, one, two):
                    found = outcomes_of(after(node, one, two))
                row.append(found if paid is None else paid.told(node, one, two, found))
            rows.append(row)
        return Turn(rows, (unique(ones), unique(twos)))

    return build(_hashed(root), expand, rounded, "let moves return None where it ends", progress)


class _Reward:
    """What turns pay by a function of the game."""

    def __init__(self, function: Rewarding, rounded: bool) -> None:
        self.function, self.rounded = function, rounded
        self.by_draw = can_take(function, 4)
        if not self.by_draw and not can_take(function, 3):
            raise NoTableError("reward is a function of the node and both moves, or of these and "
                               "the node that follows")

    def told(self, node: Node, one: object, two: object, outcomes: Outcomes) -> Outcomes:
        """The outcomes of a turn with what they pay."""
        if self.by_draw:
            return [each._replace(reward=self.paid(node, one, two, each.node))
                    for each in outcomes]
        reward = self.paid(node, one, two)
        return [each._replace(reward=reward) for each in outcomes]

    def paid(self, *given: object) -> Fraction:
        """What one call of the function gives."""
        with _At("reward", *given) as call:
            try:
                return exact(self.function(*given), rounded=self.rounded)
            except NoTableError as fault:
                raise NoTableError(f"{fault}: {call}") from None


class _At:
    """Has an error that a function of the game raises say in which call that was."""

    __slots__ = "name", "given"

    def __init__(self, name: str, *given: object) -> None:
        self.name, self.given = name, given

    def __str__(self) -> str:
        return f"{self.name}({', '.join(map(shorten, self.given))})"

    def __enter__(self) -> _At:
        return self

    def __exit__(self, kind: object, fault: BaseException | None, trace: object) -> None:
        if isinstance(fault, Exception) and not isinstance(fault, NoTableError):
            fault.add_note(f"in {self}")


def _payoff(found: object, rounded: bool, call: str) -> Fraction:
    """What One gets by a call of a function of the game; the message of a fault names the call."""
    try:
        return exact(found, rounded=rounded)
    except NoTableError as fault:
        raise NoTableError(f"{fault}: {call}") from None


def both_moves(node: Hashable, found: BothMoves) -> tuple[list[object], list[object]]:
    """The moves of both players."""
    if isinstance(found, (str, bytes)):
        raise NoTableError(f"moves({shorten(node)}) is the text {shorten(found)}, and has to be a "
                           f"pair of lists, the moves of One and those of Two")
    try:
        one, two = ((), ()) if found is None else found
    except (TypeError, ValueError):
        raise NoTableError(f"moves({shorten(node)}) is {shorten(found)}, and has to be the moves "
                           f"of One and those of Two") from None
    for side, listed in (("One", one), ("Two", two)):
        if isinstance(listed, (str, bytes)):
            raise NoTableError(f"moves({shorten(node)}) is {shorten(found)}, where the moves of "
                               f"{side} are the text {shorten(listed)}, not a list of moves: it "
                               f"has to be a pair of lists, such as (moves, moves), and one move "
                               f"is a list too, [{shorten(listed)}]")
    try:
        return list(one), list(two)
    except TypeError:
        raise NoTableError(f"moves({shorten(node)}) is {shorten(found)}, and has to be the moves "
                           f"of One and those of Two") from None


def _hashed(node: Node) -> Node:
    """The node, which has to be a value that can be looked up."""
    try:
        hash(node)
    except TypeError:
        raise NoTableError(f"the node {shorten(node)} is not hashable: use tuples and frozen "
                           f"dataclasses") from None
    return node


def outcomes_of(found: object) -> Outcomes:
    """What a pair of moves leads to: a node, or nodes with their chances."""
    if found is None:
        raise NoTableError("after gives None, and has to give the node that follows, or a dict of "
                           "nodes with their chances")
    if isinstance(found, Mapping):
        return [Outcome(node, chance) for node, chance in found.items()]
    if not isinstance(found, list):
        return [Outcome(_hashed(found))]
    try:
        return [Outcome(_hashed(node), chance) for node, chance in found]
    except NoTableError:
        raise
    except (TypeError, ValueError):
        raise NoTableError(f"{shorten(found)} is no list of pairs of a node and its chance"
                           ) from None


def of_game(game: AnyGame,
            progress: TableListener | bool = False) -> tuple[Built, list[State | None]]:
    """The table of a game of this package, with the same order of moves and draws; and its
    states."""
    states: dict[int, State] = {}

    def number(state: State) -> int:
        states.setdefault(state.key, state)
        return state.key

    def expand(key: int) -> End | Turn:
        state = states[key]
        if state.is_end:
            return End(Fraction(state.payoff))
        rows: list[list[Outcomes]] = [
            [[Outcome(number(after), Fraction(chance, CHANCE), Fraction(reward))
              for chance, after, reward in steps(state, one, two)]
             for two in state.moves("two")] for one in state.moves("one")]
        return Turn(rows, (state.names("one"), state.names("two")))

    built = build(number(game.root()), expand, progress=progress)
    return built, [states[key] if isinstance(key, int) else None for key in built.nodes]
