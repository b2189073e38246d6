"""Pursuit and evasion on an undirected graph: One chases Two for a limited number of rounds."""
from __future__ import annotations

from collections.abc import Iterable, Sequence
from dataclasses import dataclass, field
from functools import cached_property, lru_cache

from ..limits import Limits, up_to
from ..values import as_field
from .game import AnyGame, Field, Game, Side, State, packed, unpacked


@dataclass(frozen=True)
class PursuitState(State):
    """A state of the pursuit: whether Two is caught, the rounds left, and the nodes of both."""

    game: Pursuit = field(repr=False)
    caught: bool
    rounds: int
    one: int
    two: int

    @property
    def key(self) -> int:
        bits = self.game.bits
        return packed((self.caught, 1), (self.rounds, bits), (self.one, bits), (self.two, bits))

    @property
    def rank(self) -> int:
        return 0 if self.caught else self.rounds

    @property
    def is_end(self) -> bool:
        return self.caught or self.rounds == 0

    def _payoff(self) -> int:
        return 1 if self.caught else -1

    def _moves(self, side: Side) -> tuple[int, ...]:
        return self.game.near[self.one if side == "one" else self.two]

    def _after(self, one: int, two: int, draw: int) -> PursuitState:
        passed = (one, two) == (self.two, self.one)
        return PursuitState(self.game, one == two or passed, self.rounds - 1, one, two)


@dataclass(frozen=True)
class Pursuit(Game[PursuitState]):
    """The nodes (1 to 64), the edges, the nodes of both players, and the rounds (0 to 63); more
    than 32 nodes, or than 31 rounds, need linear stages.

    Edges are pairs of nodes, or the nodes of all pairs one after the other, as positions have
    them: `[(0, 1), (1, 2)]` or `[0, 1, 1, 2]`.
    """

    name = "pursuit"
    version = 2
    settings = (
        Field("nodes"),
        Field("edges", most=1024, about="both nodes of each edge, one edge after the other"),
        Field("one"), Field("two"), Field("rounds"),
    )
    nodes: int
    edges: Sequence[int] | Iterable[tuple[int, int]]
    one: int
    two: int
    rounds: int

    def __post_init__(self) -> None:
        edges = as_field(self.edges)
        if isinstance(edges, tuple) and edges and all(map(_is_pair, edges)):
            edges = tuple(node for pair in edges for node in pair)
        object.__setattr__(self, "edges", edges)
        super().__post_init__()

    @property
    def bits(self) -> int:
        """The bits of each number in a key."""
        return 6 if self.is_wide else 5

    @property
    def _ends(self) -> tuple[int, ...]:
        """The nodes of all edges, one after the other."""
        return self.edges  # type: ignore[return-value]

    def _fault(self, limits: Limits) -> tuple[str, str] | None:
        ends = self._ends
        if not 1 <= self.nodes <= limits.nodes:
            return ("71 nodes range",
                    f"{self.nodes} nodes have to be from 1 to {up_to(limits, 'nodes')}")
        if len(ends) % 2:
            return "72 edge odd", f"{len(ends)} nodes of edges are no pairs"
        for place, node in enumerate(ends):
            if node >= self.nodes:
                return (f"73 edge range {place}", f"the node {node} at place {place} (from 0) of "
                        f"the edges has to be from 0 to {self.nodes - 1}")
        for place in range(0, len(ends), 2):
            if ends[place] == ends[place + 1]:
                return (f"74 edge loop {place}",
                        f"the edge at place {place} (from 0) joins {ends[place]} with itself")
        if self.one >= self.nodes or self.two >= self.nodes:
            side, node = ("one", self.one) if self.one >= self.nodes else ("two", self.two)
            return (f"75 place range {side}",
                    f"{side} stands on {node}, and nodes are from 0 to {self.nodes - 1}")
        if self.rounds > limits.rank:
            return ("76 rounds range",
                    f"{self.rounds} rounds have to be from 0 to {up_to(limits, 'rank')}")
        return None

    @property
    def pairs(self) -> frozenset[tuple[int, int]]:
        """The edges, each once, the lesser node first."""
        ends = zip(self._ends[::2], self._ends[1::2])
        return frozenset((min(edge), max(edge)) for edge in ends)

    @cached_property
    def near(self) -> tuple[tuple[int, ...], ...]:
        """For each node the nodes that are a move away, rising, itself included."""
        near = [{node} for node in range(self.nodes)]
        for low, high in self.pairs:
            near[low].add(high)
            near[high].add(low)
        return tuple(tuple(sorted(nodes)) for nodes in near)

    @property
    def most_moves(self) -> int:
        return max(map(len, self.near))

    @property
    def most_states(self) -> int:
        return self.nodes * self.nodes * self.rounds

    @property
    def most_ends(self) -> int:
        return self.nodes * self.nodes * (self.rounds + 1)

    def count_states(self) -> int:
        return _reached(self)

    def starting_at(self, state: State) -> AnyGame:
        self._own(state)
        assert isinstance(state, PursuitState)
        return Pursuit(self.nodes, self.edges, state.one, state.two, state.rounds)

    def root(self) -> PursuitState:
        return PursuitState(self, self.one == self.two, self.rounds, self.one, self.two)

    def _unpacked(self, key: int) -> PursuitState | None:
        caught, rounds, one, two = unpacked(key, 1, self.bits, self.bits, self.bits)
        known = rounds <= self.rounds and max(one, two) < self.nodes
        return PursuitState(self, bool(caught), rounds, one, two) if known else None


@lru_cache(64)
def _reached(game: Pursuit) -> int:
    """How many states with moves play can reach: for each round the pairs of nodes. Who may stay
    reaches no fewer pairs with each round, so a round adds only what new pairs lead to."""
    pairs = new = {(game.one, game.two)} if game.one != game.two else set()
    count = 0
    for _ in range(game.rounds):
        count += len(pairs)
        met = {(one, two) for at, to in new for one in game.near[at] for two in game.near[to]
               if one != two and (one, two) != (to, at)}
        new = met - pairs
        pairs = pairs | new
    return count


def _is_pair(value: object) -> bool:
    return isinstance(value, tuple) and len(value) == 2
