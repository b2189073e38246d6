"""Goofspiel, with a known order of prizes and with prizes drawn by chance."""
from __future__ import annotations

import math
from abc import abstractmethod
from collections.abc import Iterable, Iterator, Sequence
from dataclasses import dataclass, field, fields
from functools import lru_cache
from itertools import accumulate, combinations

from ..limits import MOST_CARD, MOST_PRIZE, MOST_SCORE, MOST_WIDE_ROWS, Limits
from .game import (
    CHANCE, AnyGame, Field, Game, S_co, Side, State, members, packed, sign, unpacked,
)

_SCORE_SHIFT = 2300


def _cards(name: str, about: str) -> Field:
    return Field(name, most=255, about=about)


_CARDS = f"cards from 1 to {MOST_CARD}"
_GOOFSPIEL = (
    _cards("one", _CARDS), _cards("two", _CARDS), _cards("prizes", f"from 1 to {MOST_PRIZE}"),
    Field("score", -1_000_000, 1_000_000),
    Field("pay", choices=("margin", "win", "prizes"), late=("prizes",)),
)


@lru_cache(1 << 16)
def _mask(cards: tuple[int, ...]) -> int:
    """The cards as bits."""
    return sum(1 << card - 1 for card in cards)


@lru_cache(1 << 16)
def _without(cards: tuple[int, ...], card: int) -> tuple[int, ...]:
    """The cards but one."""
    return tuple(left for left in cards if left != card)


Order = tuple[int, ...]
"""How played cards of both hands lie among one another, rising: 1 is a card of One, 2 of Two, 3 of
both."""

Scores = dict[tuple[Order, tuple[int, ...]], int]
"""For each order of played cards, and each set of prizes that were bid for, by their places, the
scores that they can have come to, as bits."""


@lru_cache(64)
def _count(one: tuple[int, ...], two: tuple[int, ...], prizes: tuple[int, ...],
           drawn: bool) -> int:
    """How many states with moves play can reach; one more than a board has room for where they are
    more than that.

    Scores depend on how the played cards lie among one another, and there are far fewer such orders
    than pairs of hands. On the average they are no fewer in later layers of the game, so that a
    layer tells what is left at least.
    """
    cards = len(prizes)
    places = [cards - played if drawn and played else 1 for played in range(cards)]
    sizes = [math.comb(cards, played)**2 * places[played] * (
        math.comb(cards - 1, played - 1) if drawn and played else 1) for played in range(cards)]
    found: Scores = {}
    count = 0
    for played in range(cards):
        orders = dict(_orders(one, two, played))
        found = _scores_after(found, orders, prizes, played, drawn)
        here = places[played] * sum(orders[order] * scores.bit_count()
                                    for (order, _), scores in found.items())
        if count + here * sum(sizes[played:]) // sizes[played] > MOST_WIDE_ROWS:
            return MOST_WIDE_ROWS + 1
        count += here
    return count


def _orders(one: tuple[int, ...], two: tuple[int, ...],
            played: int) -> Iterator[tuple[Order, int]]:
    """The orders of so many cards of each hand, with how many such cards have it. `ends` has the
    ways in which an order can end with each card of the deck."""
    deck = [(card in one) + 2 * (card in two) for card in sorted({*one, *two})]
    waiting: list[tuple[Order, int, int, list[int]]] = [
        ((), played, played, [1] + [0] * len(deck))]
    while waiting:
        order, ones, twos, ends = waiting.pop()
        if ones == twos == 0:
            yield order, sum(ends)
            continue
        before = list(accumulate(ends))
        for kind in (1, 2, 3):
            left = ones - (kind & 1), twos - (kind >> 1)
            after = [0, *(before[at] if each & kind == kind else 0 for at, each in enumerate(deck))]
            if min(left) >= 0 and any(after):
                waiting.append(((*order, kind), *left, after))


def _scores_after(before: Scores, orders: Iterable[Order], prizes: tuple[int, ...], played: int,
                  drawn: bool) -> Scores:
    """The scores of a layer, by those of the layer before: for each pair of cards that can have
    been the last, and each prize."""
    if played == 0:
        return {((), ()): 1 << sum(prizes)}
    found: Scores = {}
    for paid in _paid(len(prizes), played, drawn):
        lasts = [paid.index(0)] if played == 1 else range(1, played) if drawn else [played - 1]
        for order in orders:
            scores = 0
            for rest, step in _without_last(order):
                for last in lasts:
                    known, prize = before[rest, paid[:last] + paid[last + 1:]], prizes[paid[last]]
                    scores |= (known << prize, known, known >> prize)[step]
            found[order, paid] = scores
    return found


def _paid(cards: int, played: int, drawn: bool) -> Iterator[tuple[int, ...]]:
    """The sets of prizes, by their places, that were bid for; the first is always the first of the
    list."""
    if not drawn:
        yield tuple(range(played))
    else:
        yield from ((0, *later) for later in combinations(range(1, cards), played - 1))


@lru_cache(1 << 14)
def _without_last(order: Order) -> tuple[tuple[Order, int], ...]:
    """What an order is without a card of each hand, and whether One wins the prize with these (0),
    both share it (1) or Two wins it (2)."""
    found: set[tuple[Order, int]] = set()
    for mine, kind in enumerate(order):
        for yours, reply in enumerate(order):
            if kind & 1 and reply & 2:
                rest = list(order)
                rest[mine] -= 1
                rest[yours] -= 2
                found.add((tuple(filter(None, rest)), 1 - sign(mine - yours)))
    return tuple(found)


class _Goofspiel(Game[S_co]):
    """What both forms of Goofspiel share."""

    one: Sequence[int]
    two: Sequence[int]
    prizes: Sequence[int]
    score: int
    pay: str
    settings = _GOOFSPIEL

    def _fault(self, limits: Limits) -> tuple[str, str] | None:
        hands = (("one", self.one), ("two", self.two))
        for side, cards in hands:
            for place, card in enumerate(cards):
                if not 1 <= card <= MOST_CARD:
                    return (f"21 card range {side} {place}",
                            f"the card {card} at place {place} (from 0) of {side} has to be from "
                            f"1 to {MOST_CARD}")
        for side, cards in hands:
            for place, card in enumerate(cards):
                if card in cards[:place]:
                    return f"22 card twice {side} {card}", f"{side} has the card {card} twice"
        if not len(self.one) == len(self.two) == len(self.prizes):
            return (f"23 lengths {len(self.one)} {len(self.two)} {len(self.prizes)}",
                    f"{len(self.one)} cards of one, {len(self.two)} of two and "
                    f"{len(self.prizes)} prizes have to be equally many")
        for place, prize in enumerate(self.prizes):
            if not 1 <= prize <= MOST_PRIZE:
                return (f"24 prize range {place}",
                        f"the prize {prize} at place {place} (from 0) has to be from 1 to "
                        f"{MOST_PRIZE}")
        if abs(self.score) <= MOST_SCORE:
            return None
        return ("25 score range",
                f"the score {self.score} has to be from -{MOST_SCORE} to {MOST_SCORE}")

    @property
    def low(self) -> int:
        return -1 if self.pay == "win" else self.score - sum(self.prizes)

    @property
    def high(self) -> int:
        return 1 if self.pay == "win" else self.score + sum(self.prizes)

    @property
    def has_rewards(self) -> bool:
        return self.pay == "prizes"

    @property
    def most_moves(self) -> int:
        return max(1, len(self.prizes))

    def _scores(self, played: int) -> int:
        """At most how many scores there are after so many prizes."""
        if self.has_rewards:
            return 1
        most = sorted(self.prizes, reverse=True)[:played]
        return int(min(3**played, 2 * sum(most) + 1))

    def _bid_of(self, one: int, two: int, score: int,
                left: Sequence[int]) -> tuple[tuple[int, ...], tuple[int, ...], int] | None:
        """Hands and score of the fields of a key, where these prizes are left; None where the game
        cannot have them."""
        hands = [tuple(place + 1 for place in members(bits)) for bits in (one, two)]
        held = set(hands[0]) <= set(self.one) and set(hands[1]) <= set(self.two)
        found = score - _SCORE_SHIFT
        paid = 0 if self.has_rewards else sum(self.prizes) - sum(left)
        equal = len(hands[0]) == len(hands[1]) == len(left)
        near = abs(found - self.score) <= paid
        return (hands[0], hands[1], found) if held and equal and near else None


@dataclass(frozen=True, repr=False)
class _Hands(State):
    """The cards left to each player, rising, and One's prizes so far less Two's; where each prize
    is paid when it is won, the score with which the game began."""

    game: _Goofspiel[_Hands] = field(repr=False)
    one: tuple[int, ...]
    two: tuple[int, ...]
    score: int

    def __repr__(self) -> str:
        shown = {each.name: getattr(self, each.name) for each in fields(self) if each.repr}
        shown |= {} if self.is_end else {"prize": self.prize}
        told = ", ".join(f"{name}={value!r}" for name, value in shown.items())
        return f"{type(self).__name__}({told})"

    @property
    @abstractmethod
    def prize(self) -> int:
        """The prize that is bid for now; asked of a state that is no end."""

    @property
    @abstractmethod
    def left(self) -> tuple[int, ...]:
        """The prizes that are still to be won, that which is bid for now first."""

    @property
    def rank(self) -> int:
        return len(self.one)

    @property
    def is_end(self) -> bool:
        return not self.one

    @property
    def least(self) -> int:
        return self.score - sum(self.left) if self.game.has_rewards else self.game.low

    @property
    def most(self) -> int:
        return self.score + sum(self.left) if self.game.has_rewards else self.game.high

    def _payoff(self) -> int:
        return sign(self.score) if self.game.pay == "win" else self.score

    def _rewards(self, one: int, two: int) -> tuple[int, ...]:
        paid = sign(one - two) * self.prize if self.game.has_rewards else 0
        return (paid,) * len(self._chances(one, two))

    def _moves(self, side: Side) -> tuple[int, ...]:
        return self.one if side == "one" else self.two

    def _key_parts(self) -> tuple[tuple[int, int], ...]:
        return (_mask(self.one), 13), (_mask(self.two), 13), (self.score + _SCORE_SHIFT, 13)

    def _bid(self, one: int, two: int) -> tuple[tuple[int, ...], tuple[int, ...], int]:
        """The hands and the score after these cards."""
        won = 0 if self.game.has_rewards else sign(one - two) * self.prize
        score = self.score + won
        return _without(self.one, one), _without(self.two, two), score


@dataclass(frozen=True, repr=False)
class GoofspielState(_Hands):
    """A state of Goofspiel: the cards left to each player, rising, and the score."""

    game: Goofspiel = field(repr=False)

    @property
    def prize(self) -> int:
        return self.game.prizes[len(self.game.prizes) - len(self.one)]

    @property
    def left(self) -> tuple[int, ...]:
        return tuple(self.game.prizes[len(self.game.prizes) - len(self.one):])

    @property
    def key(self) -> int:
        return packed(*self._key_parts())

    def _after(self, one: int, two: int, draw: int) -> GoofspielState:
        return GoofspielState(self.game, *self._bid(one, two))


@dataclass(frozen=True)
class Goofspiel(_Goofspiel[GoofspielState]):
    """Goofspiel with a known order of prizes.

    Cards of One and Two (1 to 13 each), the prizes in the order of play (1 to 100 each), One's
    prizes so far less Two's, and how it pays: an end pays the score (`margin`) or its sign (`win`);
    or each prize is paid when it is won, and an end the score of the beginning (`prizes`). The
    value of `prizes` is that of `margin`, with far fewer states.
    """

    name = "goofspiel"
    one: Sequence[int]
    two: Sequence[int]
    prizes: Sequence[int]
    score: int = 0
    pay: str = "margin"

    def root(self) -> GoofspielState:
        return GoofspielState(self, tuple(sorted(self.one)), tuple(sorted(self.two)), self.score)

    @property
    def most_states(self) -> int:
        count = len(self.prizes)
        return sum(math.comb(count, left)**2 * self._scores(count - left)
                   for left in range(1, count + 1))

    @property
    def most_ends(self) -> int:
        return self._scores(len(self.prizes))

    def count_states(self) -> int:
        if self.has_rewards:
            return min(self.most_states, MOST_WIDE_ROWS + 1)
        return _count(tuple(self.one), tuple(self.two), tuple(self.prizes), False)

    def starting_at(self, state: State) -> AnyGame:
        self._own(state)
        assert isinstance(state, GoofspielState)
        return Goofspiel(state.one, state.two, state.left, state.score, self.pay)

    def _unpacked(self, key: int) -> GoofspielState | None:
        one, two, score = unpacked(key, 13, 13, 13)
        played = len(self.prizes) - one.bit_count()
        found = self._bid_of(one, two, score, self.prizes[max(0, played):])
        return GoofspielState(self, *found) if found else None


@dataclass(frozen=True, repr=False)
class GoofspielDrawnState(_Hands):
    """A state of Goofspiel with drawn prizes: the hands, the score, the places of the prizes not
    yet drawn, rising, and the place of the prize that is bid for (0 at an end)."""

    game: GoofspielDrawn = field(repr=False)
    undrawn: tuple[int, ...]
    place: int

    @property
    def prize(self) -> int:
        return self.game.prizes[self.place]

    @property
    def left(self) -> tuple[int, ...]:
        places = () if self.is_end else (self.place, *self.undrawn)
        return tuple(self.game.prizes[place] for place in places)

    @property
    def key(self) -> int:
        undrawn = sum(1 << place for place in self.undrawn)
        return packed(*self._key_parts(), (undrawn, 13), (self.place, 4))

    def _chances(self, one: int, two: int) -> tuple[int, ...]:
        count = max(1, len(self.undrawn))
        return (CHANCE // count,) * count

    def _draw_names(self, one: int, two: int) -> tuple[str, ...]:
        return tuple(f"prize {self.game.prizes[place]}" for place in self.undrawn)

    def _after(self, one: int, two: int, draw: int) -> GoofspielDrawnState:
        hands = self._bid(one, two)
        if not hands[0]:
            return GoofspielDrawnState(self.game, *hands, (), 0)
        left = self.undrawn[:draw] + self.undrawn[draw + 1:]
        return GoofspielDrawnState(self.game, *hands, left, self.undrawn[draw])


@dataclass(frozen=True)
class GoofspielDrawn(_Goofspiel[GoofspielDrawnState]):
    """Goofspiel whose first prize is the first of the list, and each further one is drawn from
    those that are left; settings as those of `Goofspiel`."""

    name = "goofspiel_drawn"
    version = 2
    one: Sequence[int]
    two: Sequence[int]
    prizes: Sequence[int]
    score: int = 0
    pay: str = "margin"

    @property
    def chance_free(self) -> bool:
        return False

    def root(self) -> GoofspielDrawnState:
        hands = tuple(sorted(self.one)), tuple(sorted(self.two)), self.score
        return GoofspielDrawnState(self, *hands, tuple(range(1, len(self.prizes))), 0)

    @property
    def most_states(self) -> int:
        count = len(self.prizes)
        later = (math.comb(count, left)**2 * self._scores(count - left)
                 * math.comb(count - 1, left) * left for left in range(1, count))
        return min(1, count) + sum(later)

    @property
    def most_ends(self) -> int:
        return self._scores(len(self.prizes))

    def count_states(self) -> int:
        if self.has_rewards:
            return min(self.most_states, MOST_WIDE_ROWS + 1)
        return _count(tuple(self.one), tuple(self.two), tuple(self.prizes), True)

    def starting_at(self, state: State) -> AnyGame:
        self._own(state)
        assert isinstance(state, GoofspielDrawnState)
        return GoofspielDrawn(state.one, state.two, state.left, state.score, self.pay)

    def _unpacked(self, key: int) -> GoofspielDrawnState | None:
        one, two, score, undrawn, place = unpacked(key, 13, 13, 13, 13, 4)
        left = members(undrawn)
        places = (place, *left) if one else ()
        known = all(at < len(self.prizes) for at in places) and place not in left
        if not known or (not one and undrawn | place):
            return None
        found = self._bid_of(one, two, score, [self.prizes[at] for at in places])
        return GoofspielDrawnState(self, *found, left, place) if found else None
