"""Every limit of the program's input, its reports and its commands, once.

Some limits are narrow or wide: `NARROW` and `WIDE` have both by one name. A position with linear
stages has the wide ones, as a report of the newest version has; all others the narrow ones.
"""
from __future__ import annotations

from dataclasses import dataclass

MOST_CARD = 13
"""The highest card of Goofspiel."""

MOST_PRIZE = 100
"""The greatest prize of Goofspiel."""

MOST_SCORE = 1000
"""How far from 0 Goofspiel can begin."""

MOST_SIZE = 8
"""The places on each side of the middle in Oshi-Zumo."""

MOST_GRID = 6
"""The rows, and the columns, of Tron."""

LEAST_WEIGHT = 8192
MOST_WEIGHT = 1_048_576
"""What the weights of a row can sum to."""

MOST_TURNS = 1_099_511_627_776
"""The turns of a worker, and the visits of its serial searches."""

FEW_VISITS = 100_000
"""The visits that the package gives where none are named, to induction and where a game has more
states than the board has rows. A serial search of so many takes some hundredths of a second, and
closes what pure plans decide soon; one of a large game would take longer than all else, and close
nothing."""

NEWEST_VERSION = 3
"""The version of reports that tells what no version before can."""

MOST_WIDE_WIDTH = 32
"""The moves of a side up to which the weight can be any within the wide limits."""

LEAST_WIDE_WEIGHT = 32_768
"""The least weight beyond that."""

MOST_WORKERS = 16
"""The threads of a search."""

MOST_OWN_MOVES = 4096
"""The moves of a player in a state of a game that is written in Python, which no report is on."""

MOST_DRAWS = 13
"""The draws after a pair of moves."""

MOST_PAYOFF = 4000
"""The greatest size of a payoff of a table, and of what One can still get in a state of it."""

MOST_REWARD = 1_000_000
"""The greatest size of what a turn of a table pays."""

MOST_STATES = 524_288
"""The states of a table in a report below the newest version."""

MOST_WIDE_STATES = 16_777_216
"""The states, and the cells, of a table."""

MOST_GAP = 8_000_000_000
"""The widest gap that can be asked, in millionths."""

MOST_BOUND = 4_000_000_000
"""The greatest size of a bound in a report, in millionths."""

MOST_RESOLUTION = 99_999_999_999
"""The greatest resolution of a report, in millionths."""

MOST_KEY = 2**63 - 1
"""The greatest key of a state."""

MOST_REPORT_BYTES = 1_073_741_824
"""How long a report below the newest version can be."""

MOST_WIDE_REPORT_BYTES = 4_294_967_296
"""How long a report of the newest version can be."""

MOST_DEPTH = 127
"""How deep arrays and objects of JSON can stand in one another."""

MOST_GAMES = 100_000
"""The games of one match of the program."""

MOST_SEED = 2**64 - 1
"""The greatest seed of a match."""

SUM_ERROR = 1e-6
"""How far from 1 the sum of probabilities can be."""


@dataclass(frozen=True)
class Limits:
    """What a position, and a report of it, can have at most.

    - `rows`: the rows of a board, and of a sheet.
    - `moves`: the moves of a player in a state.
    - `rank`: the turns of a game, and the rounds of a pursuit.
    - `coins`: the coins of a side, and the greatest least bid, in Oshi-Zumo.
    - `nodes`: the nodes of a pursuit.
    - `number`: the number of a state, and a weight, in `states` of a table.
    - `bytes`: the bytes of the text of a table's position; of all others 1048576.
    """

    rows: int
    moves: int
    rank: int
    coins: int
    nodes: int
    number: int
    bytes: int


NARROW = Limits(rows=1_048_576, moves=32, rank=31, coins=31, nodes=32, number=1_048_575,
                bytes=1_048_576)
"""The limits of positions with any stages but linear ones, and of reports below the newest
version."""

WIDE = Limits(rows=16_777_216, moves=64, rank=63, coins=63, nodes=64, number=16_777_215,
              bytes=67_108_864)
"""The limits of positions with linear stages, and of reports of the newest version."""


def limits_of(stages: object) -> Limits:
    """The limits of a position that asks for these stages."""
    return WIDE if stages == "linear" else NARROW


def up_to(limits: Limits, name: str) -> str:
    """A limit in words, with the wide one where the narrow one holds."""
    found = str(getattr(limits, name))
    return found if limits is WIDE else f"{found} (with linear stages {getattr(WIDE, name)})"


MOST_ROWS = NARROW.rows
MOST_WIDE_ROWS = WIDE.rows
"""The rows of a board and of a sheet, within the narrow and within the wide limits."""

MOST_MOVES = NARROW.moves
MOST_WIDE_MOVES = WIDE.moves
"""The moves of a player in a state, likewise."""

MOST_RANK = NARROW.rank
MOST_WIDE_RANK = WIDE.rank
"""The turns of a game, likewise."""

MOST_COINS = NARROW.coins
MOST_WIDE_COINS = WIDE.coins
"""The coins of a side in Oshi-Zumo, likewise."""

MOST_NODES = NARROW.nodes
MOST_WIDE_NODES = WIDE.nodes
"""The nodes of a pursuit, likewise."""

MOST_ROUNDS = NARROW.rank
MOST_WIDE_ROUNDS = WIDE.rank
"""The rounds of a pursuit, likewise."""

MOST_POSITION_BYTES = NARROW.bytes
MOST_WIDE_POSITION_BYTES = WIDE.bytes
"""How long the text of a position can be, and that of a table with linear stages."""
