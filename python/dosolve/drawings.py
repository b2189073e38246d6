"""Pictures as SVG, without any library: what is guaranteed after each pair of moves of a state, and
both bounds over the time of a search.

`heat_map` and `over_time` give a `Drawing`, which a notebook shows and `save` writes.
"""
from __future__ import annotations

import html
import math
import textwrap
from collections.abc import Iterable, Sequence
from dataclasses import dataclass, field, replace
from fractions import Fraction
from pathlib import Path
from typing import Final

from .errors import DosolveError, InvalidError
from .games.game import SCALE, SIDES, Move, Side, State
from .pictures import TITLES, state_words
from .reports import Report
from .solver.progress import Progress
from .values import FilePath, as_points, cut

__all__ = ["Drawing", "heat_map", "over_time"]

_INK, _DIM, _LINE, _UNKNOWN = "#1b1d20", "#55595f", "#d6d6d0", "#e9e9e4"
_COLOURS: Final[dict[Side, tuple[int, int, int]]] = {"one": (31, 111, 180), "two": (184, 71, 26)}
_STRENGTH: Final = 0.45
"""How much of a side's colour the strongest cell has."""

_FONT = "font-family='system-ui, DejaVu Sans, sans-serif'"
_LETTER: Final = 0.62
"""The width of a letter, as a part of its height, where nothing measures it."""

_MOST_POINTS: Final = 60
"""How many steps of a search have a point each."""


@dataclass(frozen=True)
class Drawing:
    """A picture as the text of an SVG file, which needs nothing beside it."""

    text: str

    def __str__(self) -> str:
        return self.text

    def __repr__(self) -> str:
        return f"<Drawing of {len(self.text.encode())} bytes>"

    def _repr_svg_(self) -> str:
        """The picture, for notebooks."""
        return self.text

    def save(self, path: FilePath) -> None:
        """Writes the picture into a file that ends with `.svg`."""
        require_svg(path)
        Path(path).write_text(self.text, encoding="utf-8")


def require_svg(path: FilePath | None) -> None:
    """Refuses a file of a drawing that does not end with `.svg`."""
    if path is not None and Path(path).suffix.lower() != ".svg":
        raise DosolveError(f"{path} has to end with .svg")


@dataclass
class _Paper:
    """What is drawn so far. Places are in pixels from the upper left."""

    width: float
    height: float
    title: str
    parts: list[str] = field(default_factory=list)

    def add(self, tag: str, inside: str = "", /, **attributes: object) -> None:
        """Adds an element; of its attributes, `_` stands for `-`, and text is escaped."""
        self.parts.append(_element(tag, inside, attributes))

    def write(self, text: str, x: float, y: float, size: float = 12, anchor: str = "start",
              colour: str = _INK, **more: object) -> None:
        """Adds a text, whose middle is at the height `y`."""
        self.add("text", html.escape(text), x=x, y=y + 0.36 * size, font_size=size, fill=colour,
                 text_anchor=anchor, **more)

    def line(self, points: Iterable[tuple[float, float]], colour: str, width: float = 1) -> None:
        """Adds a line through points."""
        path = " ".join(f"{_short(x)},{_short(y)}" for x, y in points)
        self.add("polyline", points=path, fill="none", stroke=colour, stroke_width=width)

    def drawing(self) -> Drawing:
        """The picture."""
        width, height = math.ceil(self.width), math.ceil(self.height)
        inside = "\n".join([_element("title", html.escape(self.title), {}),
                            _element("rect", "", {"width": width, "height": height,
                                                  "fill": "#ffffff"}), *self.parts])
        return Drawing(f"<svg xmlns='http://www.w3.org/2000/svg' viewBox='0 0 {width} {height}' "
                       f"width='{width}' height='{height}' role='img' {_FONT}>\n{inside}\n</svg>\n")


def _element(tag: str, inside: str, attributes: dict[str, object]) -> str:
    words = "".join(f" {name.replace('_', '-')}='{_attribute(value)}'"
                    for name, value in attributes.items())
    return f"<{tag}{words}>{inside}</{tag}>" if inside else f"<{tag}{words}/>"


def _attribute(value: object) -> str:
    return _short(value) if isinstance(value, float) else html.escape(str(value), quote=True)


def _short(number: float) -> str:
    """A place with two digits behind the point at most."""
    return f"{number:.2f}".rstrip("0").rstrip(".").replace("-0", "0", number > -0.005)


def _width(text: str, size: float) -> float:
    """About how wide a text is."""
    return _LETTER * size * len(text)


def _wrapped(text: str, width: float, size: float, most: int = 3) -> list[str]:
    """The lines of a text that are no wider than this, its end left out where they are many."""
    lines = textwrap.wrap(text, max(8, int(width / (_LETTER * size))))
    return lines if len(lines) <= most else [*lines[:most - 1], f"{lines[most - 1]} .."]


def _colour(side: Side, share: float = 1.0) -> str:
    """A side's colour, with white where the share is below 1."""
    return "#" + "".join(f"{round(255 + share * (part - 255)):02x}" for part in _COLOURS[side])


def _number(value: float | Fraction, digits: int = 3) -> str:
    """A number in few digits."""
    text = f"{float(value):z.{digits}f}"
    return (text.rstrip("0").rstrip(".") if "." in text else text).replace("-", "−")


# A matrix of what is guaranteed.


@dataclass(frozen=True)
class _Cell:
    """What is guaranteed after a pair of moves, in payoffs of the rules; a bound is None where no
    row tells it. `paid` is what the turn itself pays, with each draw."""

    lower: Fraction | None
    upper: Fraction | None
    paid: tuple[Fraction, ...]

    @property
    def middle(self) -> Fraction | None:
        """The middle between both bounds, where these are known."""
        if self.lower is None or self.upper is None:
            return None
        return (self.lower + self.upper) / 2

    def lines(self) -> list[str]:
        """What stands in the cell: one number where both bounds round to it, else both."""
        if self.lower is None or self.upper is None:
            known = "no row" if self.lower is self.upper else ""
            return [known or (f"≥ {_number(self.lower)}" if self.lower is not None
                              else f"≤ {_number(self.upper or 0)}")]
        texts = [_number(self.lower), _number(self.upper)]
        return texts[:1] if texts[0] == texts[1] else texts

    def told(self) -> str:
        """The bounds in words, rounded to the safe side."""
        lower = "" if self.lower is None else as_points(math.floor(self.lower * SCALE))
        upper = "" if self.upper is None else as_points(math.ceil(self.upper * SCALE))
        words = (f"from {lower} to {upper}" if lower and upper else f"at least {lower}" if lower
                 else f"at most {upper}" if upper else "no row for what follows")
        return f"{words}{f', of which this turn pays {self.pay()}' if any(self.paid) else ''}"

    def pay(self) -> str:
        """What the turn pays, the least and the most of its draws where these are several."""
        ends = sorted({min(self.paid), max(self.paid)})
        return " to ".join(f"{'+' if paid > 0 else ''}{_number(paid)}" for paid in ends)


def heat_map(report: Report, state: State | None = None) -> Drawing:
    """The matrix of a state, or of the root: what both plans of a report guarantee after each pair
    of moves, with what the turn pays. Blue is better for One than the value of the state, orange
    better for Two; grey is not known. Beside the moves stand the plans' probabilities; the pairs
    that both play are framed."""
    at = report.game.root() if state is None else state
    if at.is_end:
        raise InvalidError("the game is over in this state, so that there is no matrix")
    cells = [[_cell(report, at, Move(one), Move(two)) for two in range(len(at.moves("two")))]
             for one in range(len(at.moves("one")))]
    return _Matrix(report, at, cells).drawing()


def _cell(report: Report, state: State, one: Move, two: Move) -> _Cell:
    """What is known of a pair of moves. A bound that is only what can still come, for want of a
    row, is none, but where the other side's meets it."""
    game = report.game
    labels = state.moves("one")[one], state.moves("two")[two]
    lower, upper = report.worth(state, *labels)
    after = [follower for _, follower in state.outcomes(one, two)]
    closed = 2 * SCALE * (upper - lower) <= 1
    known = {side: closed or all(_has_row(report, side, each) for each in after)
             for side in SIDES}
    paid = state.rewards(one, two) if game.has_rewards else ()
    return _Cell(game.of_rules(lower) if known["one"] else None,
                 game.of_rules(upper) if known["two"] else None,
                 tuple(game.of_rules(each) for each in paid))


def _has_row(report: Report, side: Side, state: State) -> bool:
    """Whether a side's plan has a row for a state that is played; an end needs none."""
    sheet = report.sheet(side)
    row = sheet.row(state)
    return state.is_end or (row is not None and tuple(row.weights) == sheet.weights(state))


class _Matrix:
    """The drawing of a matrix of cells."""

    MOST = 14
    """How many letters of a move's name are shown."""

    def __init__(self, report: Report, state: State, cells: list[list[_Cell]]) -> None:
        self.report, self.state, self.cells = report, state, cells
        self.names = {side: [cut(name, self.MOST) for name in state.names(side)] for side in SIDES}
        self.shares = {side: [weight / report.weight for weight in
                              report.sheet(side).weights(state)] for side in SIDES}
        self.pays = report.game.has_rewards
        self.middle, self.reach = self._scale()
        self._measure()

    def _scale(self) -> tuple[Fraction, Fraction]:
        """The value that has no colour, and how far the strongest colour is from it."""
        middles = [cell.middle for line in self.cells for cell in line if cell.middle is not None]
        bounds = [self.report.game.unscaled(self.report.sheet(side).bound(self.state))
                  for side in SIDES]
        known = all(_has_row(self.report, side, self.state) for side in SIDES)
        ends = bounds if known or not middles else [min(middles), max(middles)]
        middle = sum(ends, Fraction(0)) / 2
        return middle, max((abs(each - middle) for each in middles), default=Fraction(0))

    def _measure(self) -> None:
        """The sizes of cells and margins, by the texts that they hold."""
        texts = [cell.lines() + ([f"pays {cell.pay()}"] if self.pays else [])
                 for line in self.cells for cell in line]
        widest = max(_width(text, 12) for lines in texts for text in lines)
        across = max(_width(name, 12) for name in self.names["two"])
        self.is_turned = across > max(64, widest)
        self.cell_width = max(46, widest + 10, 0 if self.is_turned else across + 6)
        self.cell_height = 14 + 14 * max(map(len, texts))
        self.left = 76 + max(22.0, *(_width(name, 12) for name in self.names["one"]))
        self.width = max(self.left + self.cell_width * len(self.names["two"]) + 14, 450)
        title = TITLES.get(self.report.game.name, self.report.game.name)
        self.title = f"{title}: guaranteed after each pair of moves"
        self.head = [(line, 14) for line in _wrapped(self.title, self.width - 28, 14)]
        state = state_words(self.state)
        self.head += [(line, 12) for line in _wrapped(state, self.width - 28, 12)]
        self.top = 20 * len(self.head) + 68 + (across if self.is_turned else 0)
        self.height = self.top + self.cell_height * len(self.names["one"]) + 58

    def drawing(self) -> Drawing:
        """The picture."""
        paper = _Paper(self.width, self.height, f"{self.title}, {state_words(self.state)}")
        for place, (words, size) in enumerate(self.head):
            strong = size > 12
            paper.write(words, 14, 20 + 20 * place, size, colour=_INK if strong else _DIM,
                        font_weight="bold" if strong else "normal")
        self._heads(paper)
        for one, line in enumerate(self.cells):
            for two, cell in enumerate(line):
                self._cell(paper, one, two, cell)
        self._legend(paper)
        return paper.drawing()

    def _heads(self, paper: _Paper) -> None:
        """The moves of both sides with their probabilities."""
        paper.write("One", self.left - 58, self.top - 10, 12, "end", _colour("one"),
                    font_weight="bold")
        paper.write("Two", self.left + 2, 20 * len(self.head) + 22, 12, "start", _colour("two"),
                    font_weight="bold")
        for two, (name, share) in enumerate(zip(self.names["two"], self.shares["two"])):
            x = self.left + self.cell_width * (two + 0.5)
            colour = _colour("two") if share else _DIM
            if self.is_turned:
                y = self.top - 20
                paper.write(name, x, y, 12, "start", colour, transform=_turned(x, y))
            else:
                paper.write(name, x, self.top - 26, 12, "middle", colour)
            paper.write(_percent(share), x, self.top - 10, 10, "middle", colour)
        for one, (name, share) in enumerate(zip(self.names["one"], self.shares["one"])):
            y = self.top + self.cell_height * (one + 0.5)
            colour = _colour("one") if share else _DIM
            paper.write(name, self.left - 58, y, 12, "end", colour)
            paper.write(_percent(share), self.left - 8, y, 10, "end", colour)

    def _cell(self, paper: _Paper, one: int, two: int, cell: _Cell) -> None:
        """One cell, whose title has the bounds exactly."""
        x, y = self.left + self.cell_width * two, self.top + self.cell_height * one
        both = self.shares["one"][one] and self.shares["two"][two]
        names = self.state.names("one")[one], self.state.names("two")[two]
        words = html.escape(f"One {names[0]}, Two {names[1]}: {cell.told()}")
        paper.add("rect", f"<title>{words}</title>", x=x + 1.5, y=y + 1.5,
                  width=self.cell_width - 3, height=self.cell_height - 3, rx=4,
                  fill=self._fill(cell.middle), stroke=_INK if both else _LINE)
        lines = [(text, 12) for text in cell.lines()]
        lines += [(f"pays {cell.pay()}", 10)] if self.pays else []
        for place, (text, size) in enumerate(lines):
            shift = 14 * (place - (len(lines) - 1) / 2)
            paper.write(text, x + self.cell_width / 2, y + self.cell_height / 2 + shift, size,
                        "middle", pointer_events="none")

    def _fill(self, middle: Fraction | None) -> str:
        """The colour of a payoff."""
        if middle is None:
            return _UNKNOWN
        far = float(abs(middle - self.middle) / self.reach) if self.reach else 0.0
        return _colour("one" if middle > self.middle else "two", _STRENGTH * far)

    def _legend(self, paper: _Paper) -> None:
        """What the colours mean, and the bounds of the state."""
        y = self.height - 36
        for step in range(-6, 7):
            payoff = self.middle + self.reach * Fraction(step, 6)
            paper.add("rect", x=14 + 13.0 * (step + 6), y=y, width=13, height=10,
                      fill=self._fill(payoff) if self.reach else "#ffffff")
        paper.add("rect", x=14, y=y, width=169, height=10, fill="none", stroke=_LINE)
        ends = self.middle - self.reach, self.middle, self.middle + self.reach
        for place, (end, anchor) in enumerate(zip(ends, ("start", "middle", "end"))):
            paper.write(_number(end), 14 + 84.5 * place, y + 20, 10, anchor, _DIM)
        sheets = [self.report.sheet(side) for side in SIDES]
        game = self.report.game
        bounds = (game.shown(sheets[0].bound(self.state)),
                  game.shown(sheets[1].bound(self.state), True))
        paper.write("payoff of One; this state:", 196, y + 5, 10, colour=_DIM)
        paper.write(f"{bounds[0]} to {bounds[1]}".replace("-", "−"), 196, y + 20, 10)


def _turned(x: float, y: float) -> str:
    """Turned to read upwards round a point."""
    return f"rotate(-90 {_short(x)} {_short(y)})"


def _percent(share: float) -> str:
    """A probability in percent."""
    if share in (0, 1):
        return f"{100 * share:.0f}%"
    return "<0.1%" if share < 0.0005 else ">99.9%" if share > 0.9995 else f"{100 * share:.1f}%"


# Bounds over time.


@dataclass(frozen=True)
class _Axes:
    """A part of the paper with an axis of seconds and one of numbers."""

    left: float
    top: float
    width: float
    height: float
    seconds: float
    low: float
    high: float

    def x(self, seconds: float) -> float:
        """The place of a time."""
        return self.left + self.width * seconds / self.seconds

    def y(self, value: float) -> float:
        """The place of a number."""
        return self.top + self.height * (self.high - value) / (self.high - self.low)

    def frame(self, paper: _Paper, title: str, labels: Iterable[tuple[float, str]]) -> None:
        """The title, and lines with labels."""
        paper.write(title, self.left, self.top - 12, 12, font_weight="bold")
        for value, text in labels:
            y = self.y(value)
            paper.line([(self.left, y), (self.left + self.width, y)], _LINE)
            paper.write(text, self.left - 6, y, 10, "end", _DIM)

    def times(self, paper: _Paper) -> None:
        """The labels of the axis of seconds."""
        for seconds in _ticks(0, self.seconds):
            x = self.x(seconds)
            paper.line([(x, self.top + self.height), (x, self.top + self.height + 4)], _DIM)
            paper.write(_number(seconds), x, self.top + self.height + 13, 10, "middle", _DIM)
        paper.write("seconds", self.left + self.width, self.top + self.height + 28, 10, "end", _DIM)

    def steps(self, paper: _Paper, points: Sequence[tuple[float, float]], colour: str) -> None:
        """A line that keeps each number until the next one, with a point for each where these are
        few."""
        places = [(self.x(at), self.y(value)) for at, value in points]
        corners = [places[0]]
        for before, place in zip(places, places[1:]):
            corners += [(place[0], before[1]), place]
        paper.line(corners, colour, 1.8)
        for x, y in places if len(places) <= _MOST_POINTS else places[-1:]:
            paper.add("circle", cx=x, cy=y, r=2.6, fill=colour)


def over_time(steps: Sequence[Progress], report: Report | None = None) -> Drawing:
    """Both bounds, and their gap on a logarithmic axis, over the seconds of a search: of the steps
    that `solve(.., progress=steps.append)` gave, or `read_progress` read. Where no bounds were
    told, the turns.

    With the report, the title has its game, payoffs are those of the rules, the range of payoffs
    stands first, and the bounds of the report last.
    """
    if not steps:
        raise InvalidError("there are no steps of a search: lines of progress come once a second")
    taken = list(steps) if report is None else _within(steps, report)
    bounded = [step for step in taken if step.gap is not None]
    name = "Search" if report is None else TITLES.get(report.game.name, report.game.name)
    title = f"{name}: {'bounds' if bounded else 'turns'} over time"
    paper = _Paper(560, 446 if bounded else 266, title)
    paper.write(title, 14, 20, 14, font_weight="bold")
    about = str(taken[-1]).replace("-", "−")
    for place, line in enumerate(_wrapped(about, 532, 11, 2)):
        paper.write(line, 14, 38 + 15 * place, 11, colour=_DIM)
    seconds = max(step.seconds for step in taken) or 1.0
    if bounded:
        _draw_bounds(paper, bounded, seconds)
    else:
        points = [(step.seconds, float(step.turns)) for step in taken]
        axes = _Axes(78, 88, 466, 130, seconds, 0, max(1.0, max(turns for _, turns in points)))
        axes.frame(paper, "Turns", [(each, f"{each:.0f}") for each in _ticks(0, axes.high)])
        axes.times(paper)
        axes.steps(paper, points, _DIM)
    return paper.drawing()


def _within(steps: Sequence[Progress], report: Report) -> list[Progress]:
    """The steps between what is known before a search, and the report of it."""
    root = report.game.root()
    first = Progress(0, 0.0, root.opening("one"), root.opening("two"))
    last = replace(steps[-1], turns=sum(report.spent), lower=report.lower, upper=report.upper)
    taken = [first, *steps] + ([last] if steps[-1] != last else [])
    return [step.of_rules(report.game.scale) for step in taken]


def _draw_bounds(paper: _Paper, bounded: Sequence[Progress], seconds: float) -> None:
    """Both bounds over time, and below the gap."""
    lines = {side: [(step.seconds, ((step.lower if side == "one" else step.upper) or 0) / SCALE)
                    for step in bounded] for side in SIDES}
    values = [value for points in lines.values() for _, value in points]
    room = 0.06 * (max(values) - min(values)) or 0.5
    axes = _Axes(78, 88, 466, 130, seconds, min(values) - room, max(values) + room)
    axes.frame(paper, "Bounds of the value, payoff of One",
               [(each, _number(each, 6)) for each in _ticks(axes.low, axes.high)])
    for side, points in lines.items():
        axes.steps(paper, points, _colour(side))
    for place, (side, word) in enumerate(zip(SIDES, ("lower", "upper"))):
        paper.write(word, 490 + 50 * place, 76, 11, "end", _colour(side), font_weight="bold")
    # No gap is shown as a millionth: an axis of powers of ten has no 0.
    gaps = [(step.seconds, math.log10(max(1, step.gap or 0) / SCALE)) for step in bounded]
    powers = [gap for _, gap in gaps]
    low, high = math.floor(min(powers)), math.ceil(max(powers))
    high += low == high
    axes = _Axes(78, 268, 466, 130, seconds, low, high)
    apart = -(-(high - low) // 7)
    axes.frame(paper, "Gap", [(each, _number(10.0**each, 6)) for each in
                              range(low, high + 1, apart)])
    axes.times(paper)
    axes.steps(paper, gaps, _DIM)


def _ticks(low: float, high: float, most: int = 6) -> list[float]:
    """Round numbers between two others, two or more, apart by 1, 2 or 5 times a power of ten."""
    power = 10.0 ** math.floor(math.log10((high - low) / most))
    for factor in (1, 2, 5, 10):
        apart = factor * power
        found = [apart * number for number in
                 range(math.ceil(low / apart - 1e-9), math.floor(high / apart + 1e-9) + 1)]
        if len(found) <= most:
            return found
    return [low, high]
