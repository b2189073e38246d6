"""Calls of the built program, which is the judge: solve, check, bounds, exploit and play."""
from __future__ import annotations

import hashlib
import math
import os
import re
import shutil
import time
from dataclasses import dataclass, replace
from fractions import Fraction
from pathlib import Path

from ..errors import (
    DosolveError, InputRefusedError, InvalidError, LimitReachedError, ProgramFailedError,
    ProgramMissingError, ReportRefusedError,
)
from ..exact import BestResponse, expected_of, respond
from ..games.game import SCALE, AnyGame, Side, other, side_of
from ..games.python_game import ALONE
from ..limits import MOST_GAMES, MOST_SEED, WIDE
from ..positions import Position, require_position
from ..reports import Report, explained
from ..values import FilePath, as_field, as_number, cut, require_range, shorten
from .library import find_library
from .process import GROUP, Stop, run
from .progress import Bar, Follower, Listener, Progress

BLOCKS = 40
"""The blocks of games of a match, from whose means its standard error is made."""

_OWN = Path(__file__).resolve().parents[1] / "bin" / "dosolve"
_REPOSITORY = Path(__file__).resolve().parents[3]
_BESIDE = _REPOSITORY / "crates" / "dosolve" / "out" / "dosolve"
_FAILURES = {6: "its standard input failed", 7: "its standard output failed",
             8: "it ran out of memory"}
_SWEEPS = 3
_MANY_TURNS = 10**9
"""So many turns are no limit."""

_LIMITS = (15, 32, 33, 50, 71, 76, 84, 85, 89)
"""The refusals by limits that were narrower before."""


def find_program(program: FilePath | None = None) -> str:
    """The program's file: the one that is handed in, else that of the environment variable
    DOSOLVE, else the one that the wheel of a release has in this package, else the one built beside
    it in its repository, else `dosolve` on the path."""
    named = program or os.environ.get("DOSOLVE")
    if named:
        found = shutil.which(os.fspath(named))
        if found is None:
            raise ProgramMissingError(f"{os.fspath(named)} is no program that can be run")
        return found
    found = shutil.which(str(_OWN)) or shutil.which(str(_BESIDE)) or shutil.which("dosolve")
    if found is None:
        built = f"build {_BESIDE}, " if (_REPOSITORY / "crates").is_dir() else ""
        raise ProgramMissingError(f"dosolve was not found: {built}put it on the path, or name the "
                                  f"program in the variable DOSOLVE")
    return found


@dataclass(frozen=True)
class Accepted:
    """A report that `check` accepts: both bounds in millionths, and the outcome."""

    lower: int
    upper: int
    outcome: str


@dataclass(frozen=True)
class WorstCase:
    """The worst that any plan of the other player does to a plan: at least `low` and at most
    `high` millionths, an exact fraction where these are equal."""

    side: Side
    low: Fraction
    high: Fraction

    @property
    def is_exact(self) -> bool:
        """Whether the worst case is known exactly."""
        return self.low == self.high

    @property
    def guaranteed(self) -> int:
        """What the plan guarantees, in whole millionths: rounded down for One and up for Two."""
        return math.floor(self.low) if self.side == "one" else math.ceil(self.high)

    @property
    def payoff(self) -> Fraction:
        """What the plan guarantees, as a payoff, exactly where that is known."""
        return (self.low if self.side == "one" else self.high) / SCALE


@dataclass(frozen=True)
class Turn:
    """One turn of a game: the labels of both moves, and the number of the draw, 0 where there is
    no chance. The `history` of a player has one for each turn so far, the first turn first."""

    one: int
    two: int
    draw: int


@dataclass(frozen=True)
class Match:
    """Games between two plans: the turns and the payoff of the first, and of all games their
    number, the sum of payoffs, the least and the greatest. Payoffs are whole, and One's: what the
    turns and the end of a game pay, summed.

    `error` is the standard error of the mean, None where the games came of one seed: `match` has
    it, `play` has not.
    """

    turns: tuple[Turn, ...]
    payoff: int
    games: int
    sum: int
    least: int
    most: int
    error: float | None = None

    @property
    def mean(self) -> Fraction:
        """The mean payoff of One."""
        return Fraction(self.sum, self.games)

    def told(self, game: AnyGame) -> list[str]:
        """The turns of the first game in words: the state, both moves by their names, the draw
        where there are several, and what the turn pays where it does."""
        state = game.root()
        lines = []
        for turn in self.turns:
            one, two = state.move_labelled("one", turn.one), state.move_labelled("two", turn.two)
            draws = state.draw_names(one, two)
            names = state.names("one")[one], state.names("two")[two]
            # Where both have nothing to choose, the turn is chance's alone.
            played = "" if draws and set(names) == {ALONE} else f"{names[0]} - {names[1]}"
            played += (", " if played and draws else "") + (draws[turn.draw] if draws else "")
            reward = game.of_rules(state.rewards(one, two)[turn.draw])
            paid = f", pays {as_number(reward):g}" if reward else ""
            lines.append(f"{state}: {played}{paid}")
            state = state.after(one, two, turn.draw)
        return lines


@dataclass(frozen=True)
class Solver:
    """The program with a limit of seconds for each call, both of which may be left out.

    The functions of the same names are its methods with the program that `find_program` finds.
    """

    program: FilePath | None = None
    timeout: float | None = None

    def solve(self, position: Position, seconds: float | None = None,
              progress: Listener | bool = False) -> Report:
        """The program's report on a position, whatever its outcome.

        With `seconds`, rounded up, the search stops when time is up, or at Ctrl-C, and its report
        has what it has found by then: the outcome is `stopped` where it has not come to its end.
        Induction, whose bounds stand at its end alone, leaves those of pure plans then.
        `math.inf` goes on until the search ends by itself. `progress` is a function that is called
        with each step
        (`Progress`) about once a second, and at last with the bounds of the report; or True for a
        line on the terminal or in a notebook.
        """
        require_position(position, "solve")
        bar = Bar(None, None, position.game.scale)
        listener = bar if progress is True else progress or None
        since = time.monotonic()
        try:
            if seconds is None:
                found, ended = self._solved(position, listener, self.timeout, since)
            else:
                found, ended = self._solve_within(position, seconds, listener, since)
            # A line on the terminal would be gone at once.
            if listener is not None and listener is not bar:
                listener(_step(position, found, ended - since))
            return found
        finally:
            bar.close()

    def _solve_within(self, position: Position, seconds: float, listener: Listener | None,
                      since: float) -> tuple[Report, float]:
        """The report of a search that stops when time is up, and when it ended."""
        if not isinstance(seconds, (int, float)) or not seconds >= 0:
            raise InvalidError(f"seconds is {shorten(seconds)}, and has to be a number from 0")
        with Stop.after(seconds) as stop:
            found, ended = self._solved(position, listener, None, since, stop)
            if found.outcome != "stopped":
                return found, ended
            return replace(found, stopped="interrupt" if stop.was_interrupted else "time"), ended

    def _solved(self, position: Position, listener: Listener | None, timeout: float | None,
                since: float, stop: Stop | None = None) -> tuple[Report, float]:
        """The report of one run of the program, and when that ended: to read it takes time too."""
        follower = None
        if listener is not None:
            follower = Follower(listener, since, _step(position, None, 0.0))
        text = self._answer(["solve"], position.text(), {0, 3, 4, 5}, follower, timeout, stop)
        ended = time.monotonic()
        try:
            return replace(Report.read(text, position.game), board=position.rows), ended
        except ReportRefusedError as refusal:
            raise self._unexpected(f"no report ({refusal.text})", text) from None

    def check(self, report: Report | bytes | str) -> Accepted:
        """What `check` says of a right report; any other is refused with the first fault. Takes
        any bytes too."""
        text = self._answer(["check"], report, {0})
        found = self._matched(r"accepted (-?\d+) (-?\d+) (\w+)\n", text)
        return Accepted(int(found[1]), int(found[2]), found[3])

    def bounds(self, position: Position) -> tuple[int, int]:
        """The lower and the upper bound by pure plans that are disclosed before the other player
        replies, in millionths."""
        require_position(position, "bounds")
        text = self._answer(["bounds"], position.text(), {0})
        found = self._matched(r"lower (-?\d+)\nupper (-?\d+)\n", text)
        return int(found[1]), int(found[2])

    def exploit(self, report: Report | bytes | str, side: Side) -> WorstCase:
        """The worst case of a side's plan in a report, which need not be right: what One gets
        against the other side's best response."""
        text = self._answer(["exploit", side_of(side)], report, {0})
        found = self._matched(rf"exploit {side} (?:exact (-?\d+) (\d+) (\d+)|"
                              rf"between (-?\d+) (-?\d+))\n", text)
        if found[1] is not None:
            exact = Fraction(SCALE * int(found[1]), int(found[2]) ** int(found[3]))
            return WorstCase(side, exact, exact)
        return WorstCase(side, Fraction(int(found[4])), Fraction(int(found[5])))

    def worst_case(self, report: Report | bytes | str, side: Side) -> WorstCase:
        """The same as `exploit`."""
        return self.exploit(report, side)

    def play(self, report: Report | bytes | str, games: int = 1000, seed: int = 0) -> Match:
        """Games (1 to 100000) between both plans of a report; one seed (0 to 2^64 - 1) makes the
        same games again. Games of seeds that are near each other are alike: `match` takes seeds
        that are far apart, and gives the error."""
        games, seed = as_field(games), as_field(seed)
        require_range("games", games, 1, MOST_GAMES)
        require_range("seed", seed, 0, MOST_SEED)
        text = self._answer(["play", str(games), str(seed)], report, {0})
        found = self._matched(r"((?:turn \d+ \d+ \d+\n)*)payoff (-?\d+)\n"
                              r"games (\d+) sum (-?\d+) least (-?\d+) most (-?\d+)\n", text)
        turns = tuple(Turn(*map(int, line.split(" ")[1:])) for line in found[1].splitlines())
        return Match(turns, *map(int, found.groups()[1:]))

    def match(self, report: Report | bytes | str, games: int = 1000, seed: int = 0) -> Match:
        """Games between both plans of a report, with the standard error of their mean: blocks of
        games, each of a seed that a hash makes of `seed` and the block's number."""
        games, seed = require_match(games, seed)
        blocks = min(BLOCKS, games)
        sizes = [games // blocks + (block < games % blocks) for block in range(blocks)]
        found = [self.play(report, size, _hashed(seed, block)) for block, size in enumerate(sizes)]
        whole = sum(match.sum for match in found)
        mean = whole / games
        spread = sum(match.games * (float(match.mean) - mean)**2 for match in found)
        return Match(found[0].turns, found[0].payoff, games, whole,
                     min(match.least for match in found), max(match.most for match in found),
                     math.sqrt(spread / (blocks - 1) / games))

    def best_response(self, report: Report, side: Side) -> BestResponse:
        """The side's best response to the other side's plan in a report, as a plan, with what One
        then gets exactly. It is checked against what `exploit` says of the other side's plan."""
        found = respond(report.sheet(other(side_of(side))))
        worst = self.exploit(report, other(side))
        if not worst.low <= found.value * SCALE <= worst.high:
            raise ProgramFailedError(f"exploit says {worst.low} to {worst.high} millionths, and "
                                     f"the best response gets {found.value * SCALE}")
        return found

    def nash_conv(self, report: Report) -> Fraction:
        """How much both sides together could gain by best responses to the plans of a report, as a
        payoff: 0 where they are an equilibrium. Exact where `exploit` is, else at most that."""
        return self.exploit(report, "two").payoff - self.exploit(report, "one").payoff

    def expected(self, report: Report) -> Fraction:
        """The exact expected payoff of One between both plans of a report."""
        return expected_of(report.one, report.two)

    def _answer(self, words: list[str], given: Report | bytes | str, good: set[int],
                follower: Follower | None = None, timeout: float | None = None,
                stop: Stop | None = None) -> str:
        """What the program prints with one of the good statuses; every other answer is an
        exception."""
        said = given.text() if isinstance(given, Report) else given
        if not isinstance(said, (bytes, str)):
            raise InvalidError(f"{words[0]} takes a Report or its text, not {shorten(given)}")
        data = said.encode() if isinstance(said, str) else said
        limit = self.timeout if timeout is None and stop is None else timeout
        # A call of the library cannot be followed, nor ended when time is up or with a sweep.
        needs = self.program, follower, limit, stop, GROUP.get()
        library = find_library() if needs == (None,) * len(needs) else None
        if library is not None:
            status, text, told = *library.answer(words, data), ""
            answer = text.decode("utf-8", "replace")
        else:
            status, answer, told = run([find_program(self.program), *words], data, follower, limit,
                                       stop)
        if status in good:
            return answer
        raise self._refusal(words, data, status, answer.removesuffix("\n"), told)

    def _refusal(self, words: list[str], given: bytes, status: int, text: str,
                 told: str) -> DosolveError:
        if status == 2 and text.startswith("input "):
            newer = (("search", "oracle"), ("stages", "regret"))
            unknown = [f"field `{name}`: ask {name}={absent!r}" for name, absent in newer
                       if f'"{name}":'.encode() in given]
            if text == "input 13 unknown field" and unknown:
                return InputRefusedError(text, "the program is older than this package, and has no "
                                               f"{unknown[0]}")
            if text in ("input 15 range of pay", "input 15 range of states"):
                # The package has refused what no program takes.
                return InputRefusedError(text, "the program is older than this package, and does "
                                               "not know turns that pay")
            if text == "input 16 game name":
                return InputRefusedError(text, "the program is older than this package, and does "
                                               "not know the game")
            found = InputRefusedError(text)
            if found.code in _LIMITS:
                return InputRefusedError(text, "the program is older than this package, and has "
                                               "narrower limits")
            return found
        if status == 9 and text.startswith(("report ", "refused ")):
            return explained(ReportRefusedError(text), given)
        if status in (4, 5) and re.fullmatch(r"visits spent \w+|board full|states full", text):
            return LimitReachedError(text)
        if status == 1 and text.startswith("usage: dosolve "):
            return ProgramFailedError(f"the program does not know {' '.join(words)}: {text}",
                                      status)
        if status in _FAILURES:
            why = _FAILURES[status]
        else:
            why = f"{find_program(self.program)} is not dosolve, or failed: status {status}"
        shown = cut(" ".join((told or text).split()), 200)
        return ProgramFailedError(f"{' '.join(words)}: {why}{': ' if shown else ''}{shown}", status)

    def _matched(self, pattern: str, text: str) -> re.Match[str]:
        found = re.fullmatch(pattern, text)
        if found is None:
            raise self._unexpected("no answer of dosolve", text)
        return found

    def _unexpected(self, what: str, text: str) -> ProgramFailedError:
        shown = f": {text[:200]!r}" if text else ", nothing at all"
        return ProgramFailedError(f"{find_program(self.program)} gave {what}{shown}; is it "
                                  f"dosolve?", 0)


def _step(position: Position, report: Report | None, seconds: float) -> Progress:
    """What is known of a search with this report, or with none yet."""
    count = position.game.count_states()
    states = count if count is not None and count <= WIDE.rows else None
    most = _most_turns(position, states)
    if report is None:
        return Progress(0, seconds, None, None, states, most)
    return Progress(sum(report.spent), seconds, report.lower, report.upper, states, most)


def _most_turns(position: Position, states: int | None) -> int | None:
    """The most turns that a search can take, where that is known and says something. One worker
    with linear stages makes at most three sweeps, each of at most a turn for each state and for
    each turn that is left in the game; several workers share the states, and each may take all.
    Induction takes at most as many turns for each state before."""
    limits = [position.turns] if position.turns < _MANY_TURNS else []
    if position.stages == "linear" and position.workers == 1 and states is not None:
        before = _SWEEPS * states if position.search == "induction" else 0
        limits.append(before + _SWEEPS * (states + position.game.root().rank))
    return position.workers * min(limits) if limits else None


def require_match(games: object, seed: object) -> tuple[int, int]:
    """The number of games and the seed of a match, refused where they are out of range."""
    numbers: tuple[int, int] = as_field(games), as_field(seed)
    require_range("games", numbers[0], 2, BLOCKS * MOST_GAMES)
    require_range("seed", numbers[1], 0, MOST_SEED)
    return numbers


def _hashed(seed: int, block: int) -> int:
    """A seed for a block of games, far from those of other blocks and seeds."""
    digest = hashlib.sha256(f"dosolve match {seed} {block}".encode()).digest()
    return int.from_bytes(digest[:8], "big")


def solve(position: Position, program: FilePath | None = None, timeout: float | None = None,
          seconds: float | None = None, progress: Listener | bool = False) -> Report:
    """The program's report on a position, whatever its outcome; see `Solver.solve`."""
    return Solver(program, timeout).solve(position, seconds, progress)


def check(report: Report | bytes | str, program: FilePath | None = None,
          timeout: float | None = None) -> Accepted:
    """What `check` says of a right report; any other is refused with the first fault."""
    return Solver(program, timeout).check(report)


def bounds(position: Position, program: FilePath | None = None,
           timeout: float | None = None) -> tuple[int, int]:
    """The lower and the upper bound by pure plans that are disclosed before the other player
    replies, in millionths."""
    return Solver(program, timeout).bounds(position)


def exploit(report: Report | bytes | str, side: Side, program: FilePath | None = None,
            timeout: float | None = None) -> WorstCase:
    """The worst case of a side's plan in a report: what One gets against the other side's best
    response."""
    return Solver(program, timeout).exploit(report, side)


def play(report: Report | bytes | str, games: int = 1000, seed: int = 0,
         program: FilePath | None = None, timeout: float | None = None) -> Match:
    """Games between both plans of a report, all of one seed; see `Solver.play`."""
    return Solver(program, timeout).play(report, games, seed)


def match(report: Report | bytes | str, games: int = 1000, seed: int = 0,
          program: FilePath | None = None, timeout: float | None = None) -> Match:
    """Games between both plans of a report, with the standard error of their mean."""
    return Solver(program, timeout).match(report, games, seed)


def best_response(report: Report, side: Side, program: FilePath | None = None,
                  timeout: float | None = None) -> BestResponse:
    """The side's best response to the other side's plan in a report, as a plan."""
    return Solver(program, timeout).best_response(report, side)


def nash_conv(report: Report, program: FilePath | None = None,
              timeout: float | None = None) -> Fraction:
    """How much both sides together could gain by best responses to the plans of a report."""
    return Solver(program, timeout).nash_conv(report)


def expected(report: Report) -> Fraction:
    """The exact expected payoff of One between both plans of a report."""
    return expected_of(report.one, report.two)
