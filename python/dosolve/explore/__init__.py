"""A page to click through: one HTML file with the states of a report, both strategies, their
bounds, and what each pair of moves leads to.

`save` writes the page of a report, and `page` gives it as text. The page asks no network and uses
no library. The rules of games are in Python alone: the page has its states as data, and its script
draws them and follows their places.
"""
from __future__ import annotations

import html
import json
import os
from dataclasses import dataclass, replace
from fractions import Fraction
from importlib import resources
from pathlib import Path
from typing import Final

from .. import CHANCE, SCALE, SIDES, InvalidError, Report, Table
from .kinds import about, meaning, settings, title
from .losses import MOST_LOSSES, player_plans
from .states import Shown

__all__ = ["MOST_STATES", "MOST_LOSSES", "Page", "page", "save"]

MOST_STATES: Final = 10_000
"""How many states with moves a page has, where nothing else is asked."""

_ENDINGS = (".html", ".htm")


@dataclass(frozen=True)
class Page:
    """A page as text, and what is on it: how many states with moves, and whether these are all
    that play can reach."""

    text: str
    states: int
    is_whole: bool

    def __str__(self) -> str:
        whole = "all that play can reach" if self.is_whole else "not all that play can reach"
        return (f"{self.states} state{'s' if self.states != 1 else ''} with moves, {whole}; "
                f"{_size(len(self.text.encode()))}")


def save(report: Report, path: str | os.PathLike[str], against: Report | None = None,
         most_states: int = MOST_STATES) -> Page:
    """Writes the page of a report into a file that ends with `.html`; see `page`."""
    file = Path(path)
    if file.suffix.lower() not in _ENDINGS:
        raise InvalidError(f"{path} has to end with .html")
    made = page(report, against, most_states)
    file.write_text(made.text, encoding="utf-8")
    return made


def page(report: Report, against: Report | None = None, most_states: int = MOST_STATES) -> Page:
    """The page of a report.

    It has at most `most_states` states with moves: those that are likeliest to be reached where
    both play their plans, and where there is room, those that follow other moves. `against` is a
    report on the same game with the plan of a player, such as `measure` keeps: the page then lists
    the states in which the player gives something away beside the plan of the report.
    """
    _require(report, against, most_states)
    players = [] if against is None else player_plans(report, against)
    shown = Shown(report, players, most_states)
    data: dict[str, object] = _head(report) | {
        "inner": shown.inner, "first": shown.first, "likely": shown.likely,
        "reached": shown.reached, "exact": shown.exact,
        "whole": not shown.outside, "compared": against is not None, "listed": MOST_LOSSES,
        "states": shown.data(), "players": [shown.player(player) for player in players],
    }
    data |= {"stubs": shown.stubs.items, "pool": shown.pool.items}
    return Page(_filled(data), shown.inner, not shown.outside)


def _require(report: object, against: object, most_states: object) -> None:
    """Refuses what no page is made of."""
    for given in (report, against):
        if not isinstance(given, Report) and (given is report or given is not None):
            raise InvalidError(f"a page shows a report, which Report.load reads, not {given!r}")
    if not isinstance(most_states, int) or isinstance(most_states, bool) or most_states < 1:
        raise InvalidError(f"a page has 1 or more states, not {most_states!r}")
    if isinstance(report, Report) and isinstance(against, Report) and against.game != report.game:
        raise InvalidError(f"the report to compare with is on another game: "
                           f"{against.game.title()}, not {report.game.title()}")


def _head(report: Report) -> dict[str, object]:
    """What a page has of the report as a whole."""
    game = report.game
    return {
        "title": f"{title(report)}: both strategies", "game": game.name, "about": about(report),
        "meaning": meaning(report), "settings": settings(report),
        "low": game.low, "high": game.high, "scale": float(game.scale), "unscaled": SCALE,
        "weight": report.weight, "chance": CHANCE, "lower": report.lower, "upper": report.upper,
        "notes": list(_unscaled(report).notes()),
        "rows": [len(report.sheet(side).rows) for side in SIDES],
    }


def _unscaled(report: Report) -> Report:
    """The same report on a table of which no scale is noted: the page shows payoffs of the
    rules."""
    game = report.game
    return report.on(replace(game, scale=Fraction(1))) if isinstance(game, Table) else report


def _filled(data: dict[str, object]) -> str:
    """The text of the page with this data."""
    parts = {name: (resources.files(__name__) / f"page.{name}").read_text(encoding="utf-8")
             for name in ("html", "css", "js")}
    shown = json.dumps(data, separators=(",", ":")).replace("<", "\\u003c")
    text = parts["html"].replace("@TITLE@", html.escape(str(data["title"])))
    text = text.replace("@STYLE@", parts["css"]).replace("@SCRIPT@", parts["js"])
    before, after = text.split("@DATA@")
    size = _size(len((before + shown + after).encode()))
    return before.replace("@SIZE@", size) + shown + after.replace("@SIZE@", size)


def _size(count: int) -> str:
    """A number of bytes in words."""
    return f"{count / 1e6:.1f} MB" if count >= 1e6 else f"{max(1, round(count / 1e3))} kB"
