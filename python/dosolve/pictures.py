"""Pictures of reports: both plans at a state, both bounds on one axis, the board of games that
have one, a tree of the first turns, and bounds over time.

Matplotlib draws them, and is asked for only here. `figure`, `tree` and `history` give a figure of
matplotlib, as notebooks show it; `show` writes a file.
"""
from __future__ import annotations

import math
import random
from collections.abc import Iterator, Sequence
from dataclasses import dataclass, field, fields, is_dataclass
from fractions import Fraction
from pathlib import Path
from typing import TYPE_CHECKING

from .errors import DosolveError, InvalidError
from .exact import steps
from .games.game import CHANCE, SCALE, SIDES, Move, Side, State
from .games.goofspiel import GoofspielDrawnState, GoofspielState
from .games.pursuit import Pursuit, PursuitState
from .games.tron import TronState
from .players.sheets import Sheet
from .reports import Report
from .solver.progress import Progress
from .tables.table import Table, TableState
from .values import FilePath, as_number, as_points, cut

if TYPE_CHECKING:
    from matplotlib.axes import Axes
    from matplotlib.figure import Figure

_COLOURS: dict[Side, str] = {"one": "#1f6fb4", "two": "#c8501e"}
_BOUNDS: tuple[tuple[Side, str], ...] = (("one", "lower"), ("two", "upper"))
_STEPS = ((-1, 0), (0, 1), (1, 0), (0, -1))
TITLES = {
    "goofspiel": "Goofspiel", "goofspiel_drawn": "Goofspiel with drawn prizes",
    "oshi_zumo": "Oshi-Zumo", "tron": "Tron", "pursuit": "Pursuit on a graph",
    "table": "Table",
}

_GREY = "#555555"
_PAPER = {"facecolor": "white", "edgecolor": "none", "pad": 1}
"""What stands behind a text, so that no line goes through it."""

_CAPTION = "Moves of One and Two with their probability; below, the bounds of what follows"
_PAYING = ("Moves of One and Two with what the turn pays and its probability; below, the bounds of "
           "what is still to come")

_MOST_LABELS = 7
"""How many labels an axis of gaps has with other digits than 1."""

Players = tuple[str, str]
"""Who plays for One and for Two, for the titles."""


def show(report: Report, output: FilePath, key: int | None = None, zoom: bool = False,
         players: Players | None = None) -> None:
    """Draws a report into a file; see `figure`."""
    save(figure(report, key, zoom, players), output)


def save(picture: Figure, output: FilePath) -> None:
    """Writes a figure into a file, whose ending is the format: `.svg`, `.png` or `.pdf`."""
    path = Path(output)
    kind = path.suffix.removeprefix(".")
    if kind not in ("svg", "png", "pdf"):
        raise DosolveError(f"{path} has to end with .svg, .png or .pdf")
    import matplotlib

    # Without the date and with a fixed salt one report gives the same bytes again.
    dated = None if kind == "png" else {"Date" if kind == "svg" else "CreationDate": None}
    with matplotlib.rc_context({"svg.hashsalt": "dosolve"}):
        picture.savefig(path, metadata=dated)


def _blank(width: float, height: float) -> Figure:
    """An empty figure."""
    try:
        from matplotlib.backends.backend_agg import FigureCanvasAgg
        from matplotlib.figure import Figure
    except ImportError:
        raise DosolveError("pictures need matplotlib: install the package python3-matplotlib, or "
                           "pip install matplotlib") from None
    picture = Figure(figsize=(width, height), layout="constrained")
    FigureCanvasAgg(picture)
    picture.get_layout_engine().set(w_pad=0.1, h_pad=0.1)
    return picture


def figure(report: Report, key: int | None = None, zoom: bool = False,
           players: Players | None = None) -> Figure:
    """The picture of a report as a figure of matplotlib: both plans at the root, or at the state
    with this key, and both bounds there.

    The axis of payoffs goes from the least to the greatest, and with `zoom` round the bounds
    alone.
    """
    state = report.game.root() if key is None else report.game.state(key)
    board = isinstance(state, (TronState, PursuitState))
    picture = _blank(11 if board else 7.5, 7)
    picture.suptitle(_title(report, state, key), fontsize=11)
    grid = picture.add_gridspec(3, 2 if board else 1, height_ratios=(5, 5, 3),
                                width_ratios=(5, 6) if board else None)
    for place, side in enumerate(SIDES):
        name = f" ({players[place]})" if players else ""
        _bars(picture.add_subplot(grid[place, 0]), report.sheet(side), state, name)
    _axis(picture.add_subplot(grid[2, 0]), report, state, key is None, zoom)
    if isinstance(state, TronState):
        _grid(picture.add_subplot(grid[:, 1]), report, state)
    elif isinstance(state, PursuitState):
        _graph(picture.add_subplot(grid[:, 1]), report, state)
    return picture


def _title(report: Report, state: State, key: int | None) -> str:
    """The game's name in words, its settings, cut where they are long, and the state."""
    if isinstance(report.game, Table):
        words = report.game.title().removeprefix("table of ").split("; ")
    else:
        words = [cut(f"{name} {_shown(value)}", 48)
                 for name, value in report.game.record().items()]
    lines = [f"{TITLES.get(report.game.name, report.game.name)}: {words[0]}"]
    for word in words[1:]:
        if len(lines[-1]) + len(word) > 80:
            lines[-1] += ","
            lines.append(word)
        else:
            lines[-1] += f", {word}"
    if key is not None:
        lines.append(cut(f"state {key}: {state_words(state)}", 90))
    return "\n".join(lines)


def state_words(state: State) -> str:
    """A state in words: its name in a table, else its fields."""
    if isinstance(state, TableState) or not is_dataclass(state):
        return " ".join(str(state).split())
    names = [each.name for each in fields(state) if each.name != "game"]
    if isinstance(state, (GoofspielState, GoofspielDrawnState)) and not state.is_end:
        names.append("prize")
    return ", ".join(f"{name} {_shown(getattr(state, name))}" for name in names)


def _shown(value: object) -> str:
    """A setting as words."""
    if isinstance(value, bool):
        return "yes" if value else "no"
    if isinstance(value, frozenset):
        value = tuple(sorted(value))
    return " ".join(map(str, value)) or "none" if isinstance(value, tuple) else str(value)


def _shares(sheet: Sheet, state: State) -> list[float]:
    """The chance of each move at a state; empty at an end."""
    return [] if state.is_end else [weight / sheet.total for weight in sheet.weights(state)]


def _bars(axes: Axes, sheet: Sheet, state: State, name: str) -> None:
    """The plan of one side at a state, a bar for each move."""
    shares, names = _shares(sheet, state), [cut(word, 14) for word in state.names(sheet.side)]
    without = "" if sheet.row(state) or state.is_end else ", no row: the first move"
    axes.set_title(f"Player {sheet.side}{name}: probability of each move{without}", loc="left",
                   fontsize=10)
    axes.set_ylim(0, 1.25)
    axes.set_yticks([0, 0.5, 1], ["0%", "50%", "100%"])
    for spine in ("top", "right"):
        axes.spines[spine].set_visible(False)
    if not shares:
        axes.set_xticks([])
        axes.text(0.5, 0.5, "the game is over", ha="center", va="center",
                  transform=axes.transAxes)
        return
    bars = axes.bar(range(len(shares)), shares, color=_COLOURS[sheet.side], width=0.7)
    many = len(shares) > 10
    axes.set_xticks(range(len(shares)), names, fontsize=7 if many else 9,
                    rotation=90 if sum(map(len, names)) > 60 else 0)
    middle, room = (len(shares) - 1) / 2, max(len(shares), 3) / 2 + 0.1
    axes.set_xlim(middle - room, middle + room)
    for bar, share in zip(bars, shares):
        axes.text(bar.get_x() + bar.get_width() / 2, share + 0.03, _percent(share, many),
                  ha="center", va="bottom", fontsize=6 if many else 8, rotation=90 if many else 0)


def _percent(share: float, short: bool = False) -> str:
    """A chance in percent; nothing for none where there is little room."""
    if share == 0:
        return "" if short else "0%"
    if 0.0005 <= share < 0.9995:
        return f"{100 * share:.1f}%"
    return "<0.1%" if share < 0.5 else ">99.9%" if share < 1 else "100%"


def _axis(axes: Axes, report: Report, state: State, is_root: bool, zoom: bool) -> None:
    """Both bounds and the gap on the axis of payoffs."""
    bounds = {side: report.bound(side) if is_root else report.sheet(side).bound(state)
              for side in SIDES}
    gap, shown = bounds["two"] - bounds["one"], report.game.shown
    ends = [float(report.game.unscaled(bounds[side])) for side in SIDES]
    _set_range(axes, state, ends, zoom)
    axes.set_ylim(0, 4)
    axes.set_yticks([])
    for spine in ("top", "left", "right"):
        axes.spines[spine].set_visible(False)
    axes.set_xlabel("payoff of player one", fontsize=9)
    axes.axvspan(*ends, ymin=0.02, ymax=0.5, color="#c9c9c9", linewidth=0)
    for (side, word), at in zip(_BOUNDS, ends):
        # One above the other, so that both are seen where they meet.
        height = 0.6 if side == "one" else 1.4
        axes.plot([at, at], [0, 2], color=_COLOURS[side], linewidth=1.2)
        axes.plot([at], [height], marker=">" if side == "one" else "<", markersize=10,
                  color=_COLOURS[side], clip_on=False)
        axes.text(0 if side == "one" else 1, 0.96, f"{word} {shown(bounds[side], side == 'two')}",
                  color=_COLOURS[side], va="top", ha="left" if side == "one" else "right",
                  fontsize=10, transform=axes.transAxes)
    closeness = f", {report.closeness}" if is_root else ""
    axes.text(0.5, 0.68, f"gap {shown(gap, True)}{closeness}", ha="center", va="top", fontsize=9,
              transform=axes.transAxes)


def _set_range(axes: Axes, state: State, ends: list[float], zoom: bool) -> None:
    """The axis from the least to the greatest that One can still get, or round the bounds alone."""
    low, high = (float(state.game.of_rules(end)) for end in (state.least, state.most))
    if zoom:
        room = abs(ends[1] - ends[0]) or max(1e-6, (high - low) / 1e6)
        axes.set_xlim(min(ends) - room, max(ends) + room)
        axes.ticklabel_format(useOffset=False, style="plain", axis="x")
        axes.locator_params(axis="x", nbins=3)
        return
    room = (high - low) * 0.04 or 0.1
    axes.set_xlim(low - room, high + room)


def history(steps: Sequence[Progress]) -> Figure:
    """The bounds and the gap, or the turns where no bounds are told, over the seconds of a
    search."""
    if not steps:
        raise InvalidError("there are no lines of progress: a search of less than a second prints "
                           "none")
    told = [step for step in steps if step.gap is not None]
    picture = _blank(7.5, 6 if told else 3.5)
    axes = picture.subplots(2 if told else 1, 1, sharex=True, squeeze=False)[:, 0]
    axes[0].ticklabel_format(useOffset=False, style="plain")
    if told:
        _draw_bounds(axes[0], told)
        _draw_gaps(axes[1], told)
    else:
        axes[0].plot([step.seconds for step in steps], [step.turns for step in steps], ".-",
                     color=_GREY)
        axes[0].set_title("Turns spent", loc="left", fontsize=10)
    axes[-1].set_xlabel("seconds", fontsize=9)
    axes[-1].set_xlim(0, 1.02 * (max(step.seconds for step in steps) or 1))
    return picture


def _draw_bounds(axes: Axes, told: Sequence[Progress]) -> None:
    """Both bounds over time."""
    for side, word in _BOUNDS:
        values = [(step.lower if side == "one" else step.upper) or 0 for step in told]
        axes.step([step.seconds for step in told], [value / SCALE for value in values], ".-",
                  where="post", color=_COLOURS[side], label=f"{word} bound")
    axes.set_title("Bounds of the value over time", loc="left", fontsize=10)
    axes.set_ylabel("payoff of player one", fontsize=9)
    axes.legend(fontsize=8)


def _draw_gaps(axes: Axes, told: Sequence[Progress]) -> None:
    """The gap over time on a logarithmic axis, 0 as a millionth. The axis goes from a label to
    another, each of them 1, 2 or 5 times a power of ten, or a power of ten alone where these are
    many."""
    gaps = [max(1, step.gap or 0) for step in told]
    axes.step([step.seconds for step in told], [gap / SCALE for gap in gaps], ".-", where="post",
              color=_GREY)
    axes.set_title("Gap", loc="left", fontsize=10)
    axes.set_yscale("log")
    axes.minorticks_off()
    labels = _labels(min(gaps), max(gaps))
    words = [as_points(label).rstrip("0").rstrip(".") for label in labels]
    axes.set_yticks([label / SCALE for label in labels], words)
    axes.set_ylim(labels[0] / SCALE / 1.2, labels[-1] / SCALE * 1.2)


def _labels(least: int, most: int) -> list[int]:
    """Two labels or more round all gaps, in millionths."""
    for digits in ((1, 2, 5), (1,)):
        known = [digit * 10**power for power in range(12) for digit in digits]
        low = max(place for place, label in enumerate(known) if label <= least)
        high = min(place for place, label in enumerate(known) if label >= most)
        if low == high:
            low, high = max(0, low - 1), high + 1
        if high - low < _MOST_LABELS:
            break
    return known[low:high + 1]


@dataclass
class _Branch:
    """A state of the tree, what led there, and with what probability from the state before."""

    state: State | None
    chance: Fraction
    moves: str
    depth: int
    place: float = 0.0
    branches: list[_Branch] = field(default_factory=list)


def tree(report: Report, turns: int = 2, most: int | None = None) -> Figure:
    """The first turns where both sides play their plans of a report: the pairs of moves that are
    most probable, at most `most` after each state, with the probability of each; left out, 4, and
    2 from three turns on."""
    if most is None:
        most = 4 if turns <= 2 else 2
    if not 1 <= turns <= 6 or not 1 <= most <= 12:
        raise InvalidError("a tree has 1 to 6 turns, and 1 to 12 branches at a state")
    root = _Branch(report.game.root(), Fraction(1), "", 0)
    leaves = _grow(root, report, turns, most)
    _place(root, iter(range(leaves)))
    picture = _blank(3 + 3 * turns, max(4, 0.62 * leaves))
    axes = picture.add_subplot()
    axes.set_axis_off()
    axes.set_xlim(-0.45, turns + 0.1)
    axes.set_ylim(leaves - 0.3, -0.7)
    picture.suptitle(_title(report, report.game.root(), None), fontsize=10)
    caption = _PAYING if report.game.has_rewards else _CAPTION
    axes.text(0.5, 1, caption, ha="center", va="bottom", fontsize=8, color=_GREY,
              transform=axes.transAxes)
    _draw_branch(axes, root, report)
    return picture


def _grow(branch: _Branch, report: Report, turns: int, most: int) -> int:
    """Adds what follows, and gives the number of leaves."""
    state = branch.state
    if state is None or state.is_end or branch.depth == turns:
        return 1
    found = sorted(_steps(state, report), key=lambda step: -step[1])
    for moves, chance, after in found[:most]:
        branch.branches.append(_Branch(after, chance, moves, branch.depth + 1))
    left = sum((chance for _, chance, _ in found[most:]), Fraction(0))
    if left:
        count = len(found) - most
        others = f"{count} other{'s' if count > 1 else ''}"
        branch.branches.append(_Branch(None, left, others, branch.depth + 1))
    return sum(_grow(after, report, turns, most) for after in branch.branches)


def _steps(state: State, report: Report) -> list[tuple[str, Fraction, State]]:
    """What can follow a state where both play their plans: the moves, the chance, the state."""
    names = [state.names(side) for side in SIDES]
    weights = [report.sheet(side).weights(state) for side in SIDES]
    found = []
    for one, mine in enumerate(weights[0]):
        for two, yours in enumerate(weights[1]):
            both = Fraction(mine * yours, report.weight**2)
            if both:
                draws = state.draw_names(Move(one), Move(two))
                outcomes = steps(state, state.moves("one")[one], state.moves("two")[two])
                for draw, (chance, after, reward) in enumerate(outcomes):
                    drawn = f", {cut(draws[draw], 24)}" if draws else ""
                    found.append((f"{names[0][one]} - {names[1][two]}{drawn}"
                                  f"{_paid(state, reward)}",
                                  both * Fraction(chance, CHANCE), after))
    return found


def _paid(state: State, reward: int) -> str:
    """What a turn pays, in payoffs of the rules; nothing where it pays nothing."""
    return f", pays {as_number(state.game.of_rules(reward)):g}" if reward else ""


def _place(branch: _Branch, places: Iterator[int]) -> None:
    """Puts leaves one below the other, and each state in the middle of what follows it."""
    for after in branch.branches:
        _place(after, places)
    between = [after.place for after in branch.branches]
    branch.place = (between[0] + between[-1]) / 2 if between else float(next(places))


def _draw_branch(axes: Axes, branch: _Branch, report: Report) -> None:
    """One state with its lines to what follows."""
    for after in branch.branches:
        axes.plot([branch.depth, after.depth - 0.42, after.depth],
                  [branch.place, after.place, after.place], color="#999999", zorder=1,
                  linewidth=0.6 + 3 * float(after.chance))
        share = _percent(float(after.chance))
        axes.text(after.depth - 0.05, after.place - 0.16, f"{after.moves}  {share}", fontsize=8,
                  ha="right", va="bottom", bbox=_PAPER)
        _draw_branch(axes, after, report)
    if branch.state is not None:
        axes.scatter([branch.depth], [branch.place], s=18, color="#333333", zorder=3)
        axes.text(branch.depth - 0.05, branch.place + 0.12, _worth(branch.state, report),
                  fontsize=7, ha="right", va="top", color=_GREY, bbox=_PAPER)


def _worth(state: State, report: Report) -> str:
    """What is known of the value of a state, behind the name that a table has for it."""
    game = report.game
    if state.is_end:
        return f"end, payoff {as_number(game.of_rules(state.payoff)):g}"
    name = cut(" ".join(state.name.split()), 28) if isinstance(state, TableState) else ""
    bounds = [float(game.unscaled(report.sheet(side).bound(state))) for side in SIDES]
    return f"{name}{': ' if name else ''}{bounds[0]:z.3f} to {bounds[1]:z.3f}"


def _plain(axes: Axes, title: str) -> None:
    axes.set_title(title, loc="left", fontsize=10)
    axes.set_aspect("equal")
    axes.set_xticks([])
    axes.set_yticks([])
    axes.set_axis_off()


def _head(axes: Axes, x: float, y: float, side: Side, size: float) -> None:
    """A player's place: a disc with the number."""
    axes.scatter([x], [y], s=size, color=_COLOURS[side], zorder=4)
    axes.text(x, y, "1" if side == "one" else "2", color="white", ha="center", va="center",
              fontsize=11, fontweight="bold", zorder=5)


def _grid(axes: Axes, report: Report, root: TronState) -> None:
    """The grid with taken cells, heads and the weights of the next moves."""
    from matplotlib.patches import Rectangle

    height, width = root.game.height, root.game.width
    over = "the game is over" if root.is_end else "taken cells, heads, probabilities of moves"
    _plain(axes, f"The grid: {over}")
    axes.set_xlim(-0.55, width - 0.45)
    axes.set_ylim(height - 0.45, -0.55)
    for cell in range(height * width):
        row, column = divmod(cell, width)
        wall = cell in root.taken and cell not in (root.one, root.two)
        axes.add_patch(Rectangle((column - 0.5, row - 0.5), 1, 1, edgecolor="#999999",
                                 facecolor=_GREY if wall else "white"))
    for side in SIDES:
        row, column = divmod(root.one if side == "one" else root.two, width)
        _head(axes, column, row, side, 380)
        for label, share in zip(root.moves(side), _shares(report.sheet(side), root)):
            down, right = _STEPS[label]
            if share:
                axes.annotate("", (column + 0.57 * right, row + 0.57 * down),
                              (column + 0.22 * right, row + 0.22 * down), zorder=3,
                              arrowprops={"arrowstyle": "-|>", "color": _COLOURS[side],
                                          "linewidth": 1 + 3 * share})
            # One's chances stand in the upper half of a cell, Two's in the lower: they never meet.
            shift = -0.32 if side == "one" else 0.32
            axes.text(column + right, row + down + shift, _percent(share), color=_COLOURS[side],
                      ha="center", va="center", fontsize=9)


def _graph(axes: Axes, report: Report, root: PursuitState) -> None:
    """The graph with both players and the weights of their next moves."""
    game = root.game
    places = node_places(game)
    _plain(axes, f"The graph: One chases Two, {root.rounds} rounds left, probabilities of moves")
    for low, high in sorted(game.pairs):
        axes.plot(*zip(places[low], places[high]), color="#999999", linewidth=1.2, zorder=1)
    size = 330 if game.nodes <= 16 else 200
    for node, (x, y) in enumerate(places):
        axes.scatter([x], [y], s=size, color="white", edgecolor="#666666", zorder=2)
        axes.text(x, y, str(node), ha="center", va="center", zorder=3,
                  fontsize=9 if game.nodes <= 16 else 7)
    for side in SIDES:
        node = root.one if side == "one" else root.two
        axes.scatter([places[node][0]], [places[node][1]], facecolor="none", zorder=4,
                     s=size * (2.2 if side == "one" else 1.6), edgecolor=_COLOURS[side],
                     linewidth=2.5)
        for label, share in zip(root.moves(side), _shares(report.sheet(side), root)):
            if share:
                # One's chances stand above a node, Two's below it.
                axes.annotate(_percent(share), places[label], (0, 24 if side == "one" else -24),
                              textcoords="offset points", color=_COLOURS[side], ha="center",
                              va="center", fontsize=8, zorder=5,
                              bbox=_PAPER)
    # Round the nodes, of a grid of one row too, there is room for chances.
    for numbers, widen in zip(zip(*places), (axes.set_xlim, axes.set_ylim)):
        low, high = min(numbers), max(numbers)
        room = max(0.6, 0.15 * (high - low))
        widen(low - room, high + room)
    axes.text(0.5, -0.02, "One: blue ring, Two: orange ring", ha="center", va="top", fontsize=8,
              transform=axes.transAxes)


def node_places(game: Pursuit) -> list[tuple[float, float]]:
    """Places of the nodes of a graph in the plane, y upwards: as they are numbered where the graph
    is a grid, else by their distances."""
    width = _grid_width(game.nodes, game.pairs)
    if width is None:
        return layout(game.near)
    return [(float(node % width), float(-(node // width))) for node in range(game.nodes)]


def _grid_width(nodes: int, pairs: frozenset[tuple[int, int]]) -> int | None:
    """The columns of a grid whose nodes are numbered row by row and joined to their neighbours,
    with or without diagonals; None where the graph is no grid. Of two the squarer, or wider."""
    found = []
    for width in range(1, nodes + 1):
        steps = {(node, node + 1) for node in range(nodes) if (node + 1) % width}
        steps |= {(node, node + width) for node in range(nodes - width)}
        close = all(abs(low // width - high // width) <= 1 and abs(low % width - high % width) <= 1
                    for low, high in pairs)
        if nodes % width == 0 and close and steps <= pairs:
            found.append(width)
    if not found:
        return None
    return min(found, key=lambda each: (abs(each - nodes // each), -each))


def layout(near: tuple[tuple[int, ...], ...]) -> list[tuple[float, float]]:
    """Places of nodes in the plane whose distances are about those in the graph: stress
    majorization, the best of some starts."""
    steps = [_distances(near, node) for node in range(len(near))]
    source = random.Random(0)
    found = []
    for _ in range(8):
        start = [(source.random() * len(near), source.random() * len(near)) for _ in near]
        found.append(_settled(start, steps))
    return _turned(min(found, key=lambda places: _stress(places, steps)))


def _settled(places: list[tuple[float, float]],
             steps: list[list[float]]) -> list[tuple[float, float]]:
    """The places after each node was moved many times."""
    for _ in range(100 if len(places) > 1 else 0):
        for node in range(len(places)):
            places[node] = _moved(node, places, steps[node])
    return places


def _stress(places: list[tuple[float, float]], steps: list[list[float]]) -> float:
    """How far the places' distances are from those in the graph."""
    pairs = ((a, b) for a in range(len(places)) for b in range(a))
    return sum((math.dist(places[a], places[b]) / steps[a][b] - 1) ** 2 for a, b in pairs)


def _distances(near: tuple[tuple[int, ...], ...], start: int) -> list[float]:
    """Moves from a node to each; nodes that cannot be reached are a little further than the
    farthest."""
    steps = {start: 0}
    front = [start]
    while front:
        reached = sorted({node for at in front for node in near[at]} - steps.keys())
        steps |= {node: steps[front[0]] + 1 for node in reached}
        front = reached
    far = max(steps.values()) + 2
    return [steps.get(node, far) for node in range(len(near))]


def _moved(node: int, places: list[tuple[float, float]],
           steps: list[float]) -> tuple[float, float]:
    """Where the other nodes, each by its weight, would have this one."""
    x = y = whole = 0.0
    for index, (at_x, at_y) in enumerate(places):
        if index != node:
            weight = 1 / steps[index] ** 2
            away = math.dist(places[node], (at_x, at_y)) or 1e-9
            x += weight * (at_x + steps[index] * (places[node][0] - at_x) / away)
            y += weight * (at_y + steps[index] * (places[node][1] - at_y) / away)
            whole += weight
    return x / whole, y / whole


def _turned(places: list[tuple[float, float]]) -> list[tuple[float, float]]:
    """The same places, turned so that node 0 is at the upper left and the farthest node from it at
    the lower right."""
    start = places[0]
    far = max(places, key=lambda place: math.dist(place, start))
    angle = -math.pi / 4 - math.atan2(far[1] - start[1], far[0] - start[0])
    sine, cosine = math.sin(angle), math.cos(angle)
    return [(x * cosine - y * sine, x * sine + y * cosine) for x, y in places]
