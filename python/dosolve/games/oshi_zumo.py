"""Oshi-Zumo: bids of coins push a wrestler from place to place."""
from __future__ import annotations

from dataclasses import dataclass, field
from functools import lru_cache

from ..limits import MOST_SIZE, Limits, up_to
from .game import AnyGame, Field, Game, Side, State, packed, sign, unpacked


@dataclass(frozen=True)
class OshiZumoState(State):
    """A state of Oshi-Zumo: where the wrestler stands, 0 in the middle, and the coins of both."""

    game: OshiZumo = field(repr=False)
    place: int
    one: int
    two: int

    @property
    def key(self) -> int:
        bits = self.game.bits
        return packed((self.place + 16, 5), (self.one, bits), (self.two, bits))

    @property
    def rank(self) -> int:
        return 0 if self._is_off else max(self.one, self.two) // self.game.least

    @property
    def _is_off(self) -> bool:
        return abs(self.place) > self.game.size

    @property
    def is_end(self) -> bool:
        return self._is_off or max(self.one, self.two) < self.game.least

    def _payoff(self) -> int:
        return sign(self.place)

    def _moves(self, side: Side) -> tuple[int, ...]:
        coins = self.one if side == "one" else self.two
        return tuple(range(self.game.least, coins + 1)) or (0,)

    def _after(self, one: int, two: int, draw: int) -> OshiZumoState:
        place = self.place + sign(one - two)
        return OshiZumoState(self.game, place, self.one - one, self.two - two)


@dataclass(frozen=True)
class OshiZumo(Game[OshiZumoState]):
    """Oshi-Zumo: places on each side of the middle (0 to 8), the coins of both (0 to 63), the
    least bid (1 to 63), and where the wrestler stands. More than 31 coins, or a least bid above
    that, need linear stages."""

    name = "oshi_zumo"
    settings = (Field("size"), Field("one"), Field("two"), Field("least"),
                Field("place", -128, 127))
    size: int
    one: int
    two: int
    least: int = 1
    place: int = 0

    def _fault(self, limits: Limits) -> tuple[str, str] | None:
        if self.size > MOST_SIZE:
            return "31 size range", f"the size {self.size} has to be from 0 to {MOST_SIZE}"
        coins = up_to(limits, "coins")
        if max(self.one, self.two) > limits.coins:
            return ("32 coin range",
                    f"{max(self.one, self.two)} coins are too many: a side has 0 to {coins}")
        if not 1 <= self.least <= limits.coins:
            return "33 least range", f"the least bid {self.least} has to be from 1 to {coins}"
        if abs(self.place) > self.size:
            return ("34 place range",
                    f"the place {self.place} has to be from -{self.size} to {self.size}")
        return None

    @property
    def bits(self) -> int:
        """The bits of the coins of a side in a key."""
        return 6 if self.is_wide else 5

    @property
    def most_moves(self) -> int:
        return max(1, max(self.one, self.two) - self.least + 1)

    @property
    def most_states(self) -> int:
        return (2 * self.size + 1) * (self.one + 1) * (self.two + 1)

    @property
    def most_ends(self) -> int:
        return (2 * self.size + 3) * (self.one + 1) * (self.two + 1)

    def count_states(self) -> int:
        return _reached(self)

    def starting_at(self, state: State) -> AnyGame:
        self._own(state)
        assert isinstance(state, OshiZumoState)
        return OshiZumo(self.size, state.one, state.two, self.least, state.place)

    def root(self) -> OshiZumoState:
        return OshiZumoState(self, self.place, self.one, self.two)

    def _unpacked(self, key: int) -> OshiZumoState | None:
        place, one, two = unpacked(key, 5, self.bits, self.bits)
        found = OshiZumoState(self, place - 16, one, two)
        known = abs(found.place) <= self.size + 1 and one <= self.one and two <= self.two
        return found if known else None


@lru_cache(64)
def _reached(game: OshiZumo) -> int:
    """How many states with moves play can reach. For each pair of purses, richer ones first, the
    places where the wrestler can stand, as bits."""
    within = (1 << 2 * game.size + 1) - 1
    places = {(game.one, game.two): 1 << game.place + game.size}
    count = 0
    for one in range(game.one, -1, -1):
        for two in range(game.two, -1, -1):
            stands = places.get((one, two), 0)
            if not stands or max(one, two) < game.least:
                continue
            count += stands.bit_count()
            steps = stands << 1 & within, stands, stands >> 1
            for bid in range(game.least, one + 1) or (0,):
                for reply in range(game.least, two + 1) or (0,):
                    key = one - bid, two - reply
                    places[key] = places.get(key, 0) | steps[1 - sign(bid - reply)]
    return count
