"""What the tests of the package share: the program, the cases of tests/vectors, random positions.

DOSOLVE names the program. Which of its commands and games are tried is what docs/FORMATS.md tells of it.
"""
from __future__ import annotations

import atexit
import os
import random
import re
import signal
import tempfile
from pathlib import Path

import dosolve

TOP = Path(__file__).resolve().parents[2]
VECTORS = TOP / "tests" / "vectors"
_FORMATS = (TOP / "docs" / "FORMATS.md").read_text()

# A shell that runs the tests in the background ignores the signal, and so would the programs that they start.
signal.signal(signal.SIGINT, signal.default_int_handler)

# The commands that tests start find the package compiled, and leave nothing in the repository.
_COMPILED = tempfile.TemporaryDirectory()
atexit.register(_COMPILED.cleanup)
os.environ["PYTHONPYCACHEPREFIX"] = _COMPILED.name
os.environ.pop("PYTHONDONTWRITEBYTECODE", None)


def commands() -> set[str]:
    """The commands that the page on formats tells."""
    table = _FORMATS.split("## Commands")[1].split("| Status |")[0]
    return set(re.findall(r"^\| `(\w+)", table, re.MULTILINE))


def games() -> list[str]:
    """The games that the page on formats tells."""
    told = re.search(r"^\| each \| `game` \| text \|([^|]*)\|", _FORMATS, re.MULTILINE)
    return re.findall(r"`(\w+)`", told[1]) if told else []


def cases(command: str) -> list[tuple[str, bytes, bytes, int]]:
    """Name, input, answer and status of each case of a command."""
    found = []
    for file in sorted((VECTORS / command).glob("*.args")):
        given = file.with_suffix(".in").read_bytes()
        if given.startswith(b"@spaces "):
            given = b" " * int(given.split()[1])
        status = int(file.with_suffix(".status").read_text())
        found.append((f"{command}/{file.stem}", given, file.with_suffix(".out").read_bytes(), status))
    return found


def children(parent: int) -> list[int]:
    """The numbers of a process's children."""
    found = []
    for status in Path("/proc").glob("[0-9]*/stat"):
        try:
            fields = status.read_text().rpartition(")")[2].split()
        except OSError:
            continue
        if int(fields[1]) == parent:
            found.append(int(status.parent.name))
    return found


def _goofspiel(kind: type[dosolve.Game], r: random.Random) -> dosolve.Game:
    cards = r.choice([1, 2, 3, 3, 4] if kind is dosolve.Goofspiel else [1, 2, 3])
    hands = [r.sample(range(1, 14), cards) for _ in range(2)]
    return kind(*hands, [r.randint(1, r.choice([3, 100])) for _ in range(cards)], r.randint(-9, 9),
                r.choice(["margin", "win", "prizes"]))


def _oshi_zumo(r: random.Random) -> dosolve.Game:
    size = r.choice([0, 1, 2, 3])
    return dosolve.OshiZumo(size, r.randint(1, 7), r.randint(1, 7), r.choice([1, 1, 2, 3]), r.randint(-size, size))


def _tron(r: random.Random) -> dosolve.Game:
    height, width = r.choice([(2, 3), (3, 3), (3, 4), (2, 5)])
    one, two, *rest = r.sample(range(height * width), height * width)
    return dosolve.Tron(height, width, rest[:r.randint(0, len(rest) // 3)], one, two)


def _pursuit(r: random.Random) -> dosolve.Game:
    nodes = r.randint(2, 9)
    edges = [node for _ in range(r.randint(1, 2 * nodes)) for node in r.sample(range(nodes), 2)]
    one, two = r.sample(range(nodes), 2)
    return dosolve.Pursuit(nodes, edges, one, two, r.randint(1, 4))


def _cell(r: random.Random, state: int, count: int, pays: bool) -> int | list[list[int]]:
    """A cell of a state that leads to one state behind it, or to several; what it pays, where it may pay."""
    if r.random() < 0.7:
        after = r.randint(state + 1, count - 1)
        return [[after, dosolve.CHANCE, r.randint(-4, 4)]] if pays and r.random() < 0.7 else after
    cuts = sorted(r.sample(range(1, dosolve.CHANCE), r.randint(0, 3)))
    weights = [high - low for low, high in zip([0, *cuts], [*cuts, dosolve.CHANCE])]
    return [[r.randint(state + 1, count - 1), weight, *([r.randint(-4, 4)] if pays and r.random() < 0.8 else [])]
            for weight in weights]


def random_listing(r: random.Random, most: int = 9) -> list:
    """The states of a small table: some with moves, some ends among them. In half of the tables turns may pay."""
    count, pays = r.randint(1, most), r.random() < 0.5
    listing: list = []
    for state in range(count):
        if state == count - 1 or r.random() < 0.3:
            listing.append(r.randint(-5, 5))
            continue
        ones, twos = r.randint(1, 3), r.randint(1, 3)
        listing.append([[_cell(r, state, count, pays) for _ in range(twos)] for _ in range(ones)])
    return listing


def _table(r: random.Random) -> dosolve.Game:
    return dosolve.Table(random_listing(r))


def random_game(name: str, r: random.Random) -> dosolve.Game:
    """A small game of this name."""
    made = {"oshi_zumo": _oshi_zumo, "tron": _tron, "pursuit": _pursuit, "table": _table}
    return made[name](r) if name in made else _goofspiel(dosolve.GAMES[name], r)
