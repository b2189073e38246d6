"""The commands of the command line, one class each: its name, its help, its arguments and what it
does."""
from __future__ import annotations

import argparse
import csv
import hashlib
import importlib.util
import json
import math
import os
import sys
from abc import ABC, abstractmethod
from argparse import ArgumentParser, Namespace
from collections.abc import Iterable, Sequence
from contextlib import closing
from fractions import Fraction
from functools import partial
from pathlib import Path
from typing import TYPE_CHECKING, ClassVar

from . import __version__, drawings, explore, pictures
from .drawings import Drawing
from .errors import DosolveError, InputRefusedError, InvalidError, ProgramMissingError
from .files import (
    aside, kept_report, naming, read_kept, read_position, read_report, read_table, require_other,
    require_output, with_gap,
)
from .games.game import SCALE, SIDES, AnyGame, Field, Side
from .limits import WIDE
from .players.loading import load_player
from .players.measuring import Measured, measure, plan_of, solved_text
from .players.tournaments import tournament
from .positions import ASKED, Asked, Position
from .reports import UNIT, Report, table_notes
from .solver.library import find_library
from .solver.program import Solver, WorstCase, find_program, require_match
from .solver.progress import Bar, Progress, read_progress
from .sweeps import SWEPT_COLUMNS, Summary, Swept, read_positions, sweep
from .tables.names import names_file, require_names
from .values import as_number, as_points, cut

if TYPE_CHECKING:
    from matplotlib.figure import Figure

_POSITION = "a position (.json), or a game: a matrix (.csv), a Gambit file, a Python file"

_EXAMPLES = """examples:
  python3 -m dosolve solve examples/goofspiel_mixed.json -o mixed.report
  python3 -m dosolve solve python/examples/goofspiel_five.json --seconds 10
  python3 -m dosolve measure examples/goofspiel_mixed.json python/examples/even.py
  python3 -m dosolve exploit examples/goofspiel_mixed.report one
  python3 -m dosolve show examples/goofspiel_mixed.report -o mixed.svg
  python3 -m dosolve show examples/goofspiel_mixed.report -o matrix.svg --matrix
  python3 -m dosolve explore examples/goofspiel_five.report -o five.html
  python3 -m dosolve sweep positions.jsonl -o results.jsonl
  python3 -m dosolve table python/examples/soccer.py -o soccer.json

Payoffs and bounds are what player one gets. The program is the one of --program, else that of the
variable DOSOLVE, else the one of this package's release, else the one built in the repository, else
dosolve on the path."""


class Command(ABC):
    """A command: its name, what it does in a few words, its arguments, and what it does."""

    name: ClassVar[str]
    about: ClassVar[str]

    def add_arguments(self, parser: ArgumentParser) -> None:
        """Adds the arguments; these are those of every command."""
        parser.add_argument("--program", metavar="FILE", help="the program")
        parser.add_argument("--json", action="store_true", help="print JSON")

    @abstractmethod
    def run(self, words: Namespace) -> None:
        """Does what the command does, with the arguments that were given."""


class Solve(Command):
    """Bounds of a position."""

    name = "solve"
    about = "bounds of a position's value, with notes"

    def add_arguments(self, parser: ArgumentParser) -> None:
        super().add_arguments(parser)
        parser.add_argument("position", type=Path, metavar="POSITION", help=_POSITION)
        parser.add_argument("-o", "--output", type=Path, metavar="REPORT", help="write the report")
        _add_rounded(parser)
        parser.add_argument("--report", action="store_true", help="print the report itself")
        parser.add_argument("--over-time", type=Path, metavar="FILE.svg",
                            help="draw both bounds over the seconds of the search")
        _add_seconds(parser)
        _add_asked(parser)

    def run(self, words: Namespace) -> None:
        position = read_position(words.position, _asked(words), words.gap, words.rounded)
        for output in (words.output, words.over_time):
            require_output(output, words.position)
        drawings.require_svg(words.over_time)
        if words.output:
            require_names(position.game, words.output)
        _tell_size(position)
        steps: list[Progress] = []
        report = self._solved(words, position, steps)
        try:
            if words.output:
                report.save(words.output)
            if words.over_time:
                drawings.over_time(steps, report).save(words.over_time)
        finally:
            self._print(words, report)

    def _solved(self, words: Namespace, position: Position, steps: list[Progress]) -> Report:
        """The report, and where they are drawn the steps of the search."""
        solver = _solver(words)
        if not words.over_time:
            return solver.solve(position, words.seconds, progress=sys.stderr.isatty())
        with closing(Bar(scale=position.game.scale)) as bar:
            def hear(step: Progress) -> None:
                steps.append(step)
                bar(step)

            return solver.solve(position, words.seconds, progress=hear)

    def _print(self, words: Namespace, report: Report) -> None:
        if words.report:
            print(report.text(), end="")
        elif words.json:
            _print_record(report.record() | {"states": _counted(report.game)})
        else:
            print(report.summary(), end="")


class Check(Command):
    """Whether a report is right."""

    name = "check"
    about = "verify a report"

    def add_arguments(self, parser: ArgumentParser) -> None:
        super().add_arguments(parser)
        parser.add_argument("report", type=Path, metavar="REPORT")

    def run(self, words: Namespace) -> None:
        game = self._game_beside(words.report)
        notes = () if game is None else table_notes(game)
        with naming(words.report):
            found = _solver(words).check(words.report.read_bytes())
        if words.json:
            scale = Fraction(SCALE) if game is None else SCALE * game.scale
            _print_record({"unit": UNIT, "lower": float(found.lower / scale),
                           "upper": float(found.upper / scale), "outcome": found.outcome,
                           "notes": list(notes)})
            return
        shown = (as_points(found.lower), as_points(found.upper))
        if game is not None:
            shown = game.shown(found.lower), game.shown(found.upper, True)
        print(f"accepted lower {shown[0]} upper {shown[1]} {found.outcome}")
        _print_notes(notes)

    def _game_beside(self, path: Path) -> AnyGame | None:
        """The game of a report, where names beside it may tell of its payoffs. The report is read
        only then, and what is wrong with either is not told."""
        try:
            return Report.load(path).game if names_file(path).is_file() else None
        except DosolveError:
            return None


class Exploit(Command):
    """The worst cases of plans."""

    name = "exploit"
    about = "what each plan of a report guarantees, and how much both could gain"

    def add_arguments(self, parser: ArgumentParser) -> None:
        super().add_arguments(parser)
        parser.add_argument("report", type=Path, metavar="REPORT")
        parser.add_argument("side", choices=SIDES, nargs="?", help="one side alone")

    def run(self, words: Namespace) -> None:
        report, solver = read_report(words.report), _solver(words)
        with naming(words.report):
            found = {side: solver.exploit(report, side) for side in _sides(words)}
        both = {}
        if len(found) == len(SIDES):
            gains = found["two"].payoff - found["one"].payoff
            both["nash_conv"] = float(report.game.of_rules(gains))
        if words.json:
            _print_record([self._record(report, worst) | both for worst in found.values()])
            return
        for side, worst in found.items():
            shown = report.game.shown(worst.guaranteed, side == "two")
            print(f"player {side} guarantees {shown}")
        for name, payoff in both.items():
            print(f"{name} {payoff:z.6f}")
        _print_notes(table_notes(report.game))
        for side in found:
            _print_notes(report.row_notes(side))

    def _record(self, report: Report, worst: WorstCase) -> dict[str, object]:
        unscaled = report.game.unscaled
        exact = report.game.of_rules(worst.payoff)
        return {"side": worst.side, "unit": UNIT,
                "guarantees": float(unscaled(worst.guaranteed)),
                "low": float(unscaled(worst.low)), "high": float(unscaled(worst.high)),
                "exact": worst.is_exact, "fraction": str(exact) if worst.is_exact else None,
                "notes": [*table_notes(report.game), *report.row_notes(worst.side)]}


class Measure(Command):
    """What a player is worth."""

    name = "measure"
    about = "what a player guarantees, and how it does against the solver's plan"

    def add_arguments(self, parser: ArgumentParser) -> None:
        super().add_arguments(parser)
        parser.add_argument("position", type=Path, metavar="POSITION", help=_POSITION)
        parser.add_argument("player", type=Path, metavar="PLAYER.py",
                            help="a file with a function play(side, state)")
        parser.add_argument("--side", choices=SIDES, help="one side alone")
        _add_games(parser)
        _add_seconds(parser)
        _add_asked(parser)
        parser.add_argument("--keep", type=Path, metavar="FOLDER",
                            help="write one.report and two.report, with the player's plan")

    def run(self, words: Namespace) -> None:
        require_match(words.games, words.seed)
        position = read_position(words.position, _asked(words), words.gap)
        with aside():
            player = load_player(words.player)
        shown, kept = sys.stderr.isatty(), self._kept(words, position)
        _tell_size(position)
        # First the player, so that its faults are found before a long search.
        with aside():
            plans = {side: plan_of(position, player, side, progress=shown)
                     for side in _sides(words)}
        solved = _solver(words).solve(position, words.seconds, progress=shown)
        if not words.json:
            print(solved_text(solved), end="")
        found: dict[Side, Measured] = {}
        for side, mine in plans.items():
            found[side] = measure(position, mine, side, solved, words.games, words.seed,
                                  words.program)
            if not words.json:
                print(found[side].text(), end="")
        if words.json:
            _print_record({"solver": solved.record(),
                           "player": [measured.record() for measured in found.values()]})
        for side, file in kept.items():
            found[side].report.save(file)

    def _kept(self, words: Namespace, position: Position) -> dict[Side, Path]:
        """The file of each report that is to be written, tried before anything is done for it."""
        kept = {side: kept_report(words.keep, side) for side in _sides(words) if words.keep}
        for file in kept.values():
            file.parent.mkdir(parents=True, exist_ok=True)
            require_output(file, words.position, words.player)
            require_names(position.game, file)
        return kept


class Match(Command):
    """Games between both plans of a report."""

    name = "match"
    about = "games between both plans of a report, the first turn by turn"

    def add_arguments(self, parser: ArgumentParser) -> None:
        super().add_arguments(parser)
        parser.add_argument("report", type=Path, metavar="REPORT")
        _add_games(parser)

    def run(self, words: Namespace) -> None:
        report = read_report(words.report)
        found = _solver(words).match(report, words.games, words.seed)
        told, of_rules = found.told(report.game), report.game.of_rules
        payoff, least, most = (as_number(of_rules(each))
                               for each in (found.payoff, found.least, found.most))
        mean, error = float(of_rules(found.mean)), (found.error or 0) / float(report.game.scale)
        notes = [*table_notes(report.game), *report.row_notes("one"), *report.row_notes("two")]
        if words.json:
            _print_record({"turns": told, "unit": UNIT, "payoff": payoff, "games": found.games,
                           "mean": mean, "error": error, "least": least, "most": most,
                           "notes": notes})
            return
        for line in told:
            print(f"turn {line}")
        print(f"payoff {payoff}\ngames {found.games} mean {mean:z.6f} error {error:z.6f} least "
              f"{least} most {most}")
        _print_notes(notes)


class Tournament(Command):
    """Each player against each."""

    name = "tournament"
    about = "each player against each"

    def add_arguments(self, parser: ArgumentParser) -> None:
        super().add_arguments(parser)
        parser.add_argument("players", type=Path, nargs="+", metavar="PLAYER.py")
        parser.add_argument("--position", type=Path, action="append", required=True,
                            metavar="POSITION", help=f"{_POSITION}; can be given several times")
        parser.add_argument("--no-solver", action="store_true", help="without the solver's plans")
        parser.add_argument("--csv", action="store_true", help="print the meetings as CSV")
        _add_games(parser)
        _add_seconds(parser, " for each position")
        _add_asked(parser, "in place of what the positions ask")

    def run(self, words: Namespace) -> None:
        names = self._names(words.players)
        positions = [read_position(path, _asked(words), words.gap) for path in words.position]
        with aside():
            players = {name: load_player(path) for name, path in zip(names, words.players)}
            found = tournament(players, positions, None if words.no_solver else _solver(words),
                               words.games, words.seed, words.seconds)
        if words.json:
            print(found.json(), end="")
        elif words.csv:
            print(found.csv(), end="")
            for note in found.all_notes():
                print(f"dosolve: note {note}", file=sys.stderr)
        else:
            print(found.markdown(), end="")
        if found.failed:
            raise DosolveError(f"{len(found.failed)} of {len(players)} players took no part: "
                               f"{', '.join(found.failed)}")

    def _names(self, paths: Sequence[Path]) -> list[str]:
        """A name for each file of a player: its stem, and before that as many of its folders as
        tell it from the others."""
        full = [(*path.parent.resolve().parts, path.stem) for path in paths]
        names = []
        for path, parts in zip(paths, full):
            count = next((count for count in range(1, len(parts) + 1)
                          if [other[-count:] for other in full].count(parts[-count:]) == 1), 0)
            if count == 0:
                raise InvalidError(f"{path} is given twice")
            names.append("/".join(parts[-count:]))
        return names


class Show(Command):
    """Pictures of reports."""

    name = "show"
    about = "draw a report, or tell what it plays in a state"

    def add_arguments(self, parser: ArgumentParser) -> None:
        super().add_arguments(parser)
        parser.add_argument("report", type=Path, metavar="REPORT")
        parser.add_argument("-o", "--output", type=Path, metavar="FILE.svg",
                            help="or .png, .pdf; without it, what both play is told in words")
        where = parser.add_mutually_exclusive_group()
        where.add_argument("--key", type=int, metavar="KEY", help="a state other than the root")
        where.add_argument("--history", nargs="+", metavar="ONE,TWO[,DRAW]",
                           help="the state after these turns: both moves, and the number of the "
                                "draw")
        parser.add_argument("--zoom", action="store_true", help="the axis round the bounds alone")
        parser.add_argument("--players", nargs=2, metavar=("ONE", "TWO"),
                            help="names for the titles")
        parser.add_argument("--matrix", action="store_true",
                            help="what is guaranteed after each pair of moves (.svg alone)")
        parser.add_argument("--tree", type=int, metavar="TURNS", help="a tree of the first turns")
        parser.add_argument("--most", type=int, metavar="N",
                            help="the pairs of moves after each state of a tree (4, and 2 from "
                                 "three turns on)")
        parser.add_argument("--progress", action="store_true",
                            help="REPORT has lines of progress: draw bounds over time")

    def run(self, words: Namespace) -> None:
        require_output(words.output, words.report)
        if words.output is None:
            self._tell(words)
            return
        picture = self._picture(words)
        if isinstance(picture, Drawing):
            picture.save(words.output)
        else:
            pictures.save(picture, words.output)
        if words.json:
            _print_record({"output": str(words.output)})

    def _tell(self, words: Namespace) -> None:
        """What both plans play and guarantee in a state."""
        if words.progress or words.matrix or words.zoom or words.players or words.tree is not None:
            raise InvalidError("a picture needs a file: -o FILE.svg")
        report = read_report(words.report)
        state = report.game.root()
        if words.key is not None:
            state = report.game.state(words.key)
        elif words.history:
            state = report.game.state_after([turn.split(",") for turn in words.history])
        if not words.json:
            print(report.told(state), end="")
            return
        plays = {side: {name: float(share) for name, share in sheet.named(state).items()}
                 if sheet.row(state) else None
                 for side, sheet in (("one", report.one), ("two", report.two))}
        lower, upper = (report.game.unscaled(sheet.bound(state))
                        for sheet in (report.one, report.two))
        _print_record({"key": state.key, "state": pictures.state_words(state), "unit": UNIT,
                       "lower": float(lower), "upper": float(upper)} | plays)

    def _picture(self, words: Namespace) -> Figure | Drawing:
        """The picture that the options ask for. Bounds over time need no library."""
        if words.progress:
            steps = read_progress(words.report.read_text().splitlines())
            missing = importlib.util.find_spec("matplotlib") is None
            return drawings.over_time(steps) if missing else pictures.history(steps)
        report, key = read_report(words.report), words.key
        if words.tree is not None:
            return pictures.tree(report, words.tree, words.most)
        if words.history:
            key = report.game.state_after([turn.split(",") for turn in words.history]).key
        if words.matrix:
            return report.heat_map(None if key is None else report.game.state(key))
        return pictures.figure(report, key, words.zoom, words.players)


class Explore(Command):
    """Pages to click through."""

    name = "explore"
    about = "a page to click through, of a report"

    def add_arguments(self, parser: ArgumentParser) -> None:
        super().add_arguments(parser)
        parser.add_argument("report", type=Path, metavar="REPORT")
        parser.add_argument("-o", "--output", type=Path, required=True, metavar="PAGE.html",
                            help="one file for any browser, which asks no network")
        parser.add_argument("--against", type=Path, metavar="REPORT",
                            help="a report with a player's plan, or the folder of `measure --keep` "
                                 "for the player on both sides: lists where the player loses")
        parser.add_argument("--most-states", type=int, default=explore.MOST_STATES, metavar="N",
                            help=f"the states of a large report ({explore.MOST_STATES})")

    def run(self, words: Namespace) -> None:
        require_output(words.output, words.report, *([words.against] if words.against else []))
        report = read_report(words.report)
        _require_right(report, words)
        against = read_kept(words.against) if words.against else None
        made = explore.save(report, words.output, against, words.most_states)
        if words.json:
            _print_record({"output": str(words.output), "states": made.states,
                           "is_whole": made.is_whole})
        else:
            print(f"{words.output}: {made}")


class Sweep(Command):
    """Many positions."""

    name = "sweep"
    about = "solve many positions on all processors"

    def add_arguments(self, parser: ArgumentParser) -> None:
        super().add_arguments(parser)
        parser.add_argument("positions", type=Path, metavar="FILE.jsonl",
                            help="one position on each line; or one position (.json)")
        parser.add_argument("-o", "--output", type=Path, metavar="RESULTS.jsonl",
                            help="write results, and go on where an earlier call stopped, by "
                                 "Ctrl-C too, or was cut short by fewer seconds")
        parser.add_argument("--csv", action="store_true", help="print a line of CSV for each")
        _add_seconds(parser, " for each position")

    def run(self, words: Namespace) -> None:
        summary = Summary()
        require_other(words.output, words.positions)
        results = sweep(self._positions(words.positions), None, words.output, _solver(words),
                        words.seconds)
        table = csv.DictWriter(sys.stdout, SWEPT_COLUMNS, lineterminator="\n")
        if words.csv and not words.json:
            table.writeheader()
        with closing(results):
            for found in results:
                summary.add(found)
                if words.json:
                    print(json.dumps({"number": found.number} | found.record()))
                elif words.csv:
                    table.writerow(found.line())
                else:
                    print(self._line(found))
                sys.stdout.flush()
        if not words.json and not words.csv:
            print(summary)
        if summary.old:
            print(f"dosolve: results taken from {words.output}: {summary.old}", file=sys.stderr)
        if summary.failed:
            raise DosolveError(f"{summary.failed} positions failed; a second call tries them again")

    def _positions(self, path: Path) -> Sequence[Position | str]:
        """The positions of a file; a single one has the names beside it."""
        lines = read_positions(path)
        if lines and lines[0].startswith("dosolve report "):
            raise InvalidError(f"{path} is a report, and a sweep takes positions, one on each line")
        if path.suffix.lower() != ".json":
            return lines
        with naming(path):
            return [Position.load(path)]

    def _line(self, found: Swept) -> str:
        """One result in words."""
        told = found.numbers()
        if "error" in told:
            return f"{found.number} failed {found.error}"
        notes = f" note {'; '.join(told['notes'])}" if told["notes"] else ""
        closeness = "closed" if told["gap"] <= told["asked"] else f"asked {told['asked']:.6f}"
        lower, upper, gap = (
            as_points(rounded(round(1e6 * told[name], 3)))
            for name, rounded in (("lower", math.floor), ("upper", math.ceil), ("gap", math.ceil)))
        return (f"{found.number} {told['game']} {cut(found.line()['settings'], 60)} lower {lower} "
                f"upper {upper} gap {gap} {closeness} seconds {found.seconds:.1f}{notes}")


class MakeTable(Command):
    """A position of a game of one's own."""

    name = "table"
    about = "make a position of a game of your own"

    def add_arguments(self, parser: ArgumentParser) -> None:
        super().add_arguments(parser)
        parser.add_argument("source", type=Path, metavar="SOURCE",
                            help="a matrix (.json, .csv), a file of Gambit (.nfg, .efg), or a "
                                 "Python file with a function table()")
        parser.add_argument("-o", "--output", type=Path, required=True, metavar="POSITION",
                            help="write the position, and the names beside it")
        parser.add_argument("--rounds", type=int, metavar="N", help="play the matrix for N rounds")
        _add_rounded(parser)
        _add_asked(parser)

    def run(self, words: Namespace) -> None:
        asked = _asked(words)
        require_output(words.output, words.source)
        with naming(words.source):
            table = read_table(words.source, words.rounds, words.rounded)
            with_gap(Position(table, **asked), words.gap).save(words.output)
        if words.json:
            _print_record({"states": len(table.listing), "scale": str(table.scale),
                           "error": float(table.error)})
        else:
            scale = f", payoffs times {table.scale}" if table.scale != 1 else ""
            print(f"{table.title()}{scale}")
            _print_notes(table_notes(table))


COMMANDS: tuple[Command, ...] = (Solve(), Check(), Exploit(), Measure(), Match(), Tournament(),
                                 Show(), Explore(), Sweep(), MakeTable())
"""All commands, in the order of the help."""


class _Version(argparse.Action):
    """Prints the version of the package, where the program is and its checksum, and the version of
    the library where one is named."""

    def __call__(self, parser: ArgumentParser, *_: object, **__: object) -> None:
        print(f"dosolve-py {__version__}, {self._program()}")
        print(self._library())
        parser.exit()

    def _program(self) -> str:
        """The program's place and checksum: it tells no version of its own, and the checksum is
        the one that a release's list has."""
        try:
            where = find_program()
            with open(where, "rb") as program:
                checksum = hashlib.file_digest(program, "sha256").hexdigest()
        except (ProgramMissingError, OSError) as fault:
            return f"program {fault}"
        return f"program {where}\nprogram sha256 {checksum}"

    def _library(self) -> str:
        """The library's place and version."""
        try:
            library = find_library()
        except ProgramMissingError as fault:
            return f"library {fault}"
        if library is None:
            return "library none (DOSOLVE_LIBRARY names one)"
        return f"library {library.version or 'without a version'}, {os.environ['DOSOLVE_LIBRARY']}"


def make_parser() -> ArgumentParser:
    """The parser of the command line; what it reads has the command's `run` as `run`."""
    parser = ArgumentParser(
        prog="dosolve-py", epilog=_EXAMPLES, formatter_class=argparse.RawDescriptionHelpFormatter,
        description="Solves games with simultaneous moves, measures players, draws reports.")
    parser.add_argument("--version", action=_Version, nargs=0,
                        help="the versions of package and library, and which program is used")
    parsers = parser.add_subparsers(required=True, metavar="COMMAND")
    for command in COMMANDS:
        own = parsers.add_parser(command.name, help=command.about, description=command.about)
        command.add_arguments(own)
        own.set_defaults(run=command.run)
    return parser


def _add_seconds(parser: ArgumentParser, each: str = ", or at Ctrl-C") -> None:
    parser.add_argument("--seconds", type=_seconds, metavar="S",
                        help=f"solve with growing turns, and take the best report after S "
                             f"seconds{each}; `inf` goes on to the end")


def _add_rounded(parser: ArgumentParser) -> None:
    parser.add_argument("--rounded", action="store_true",
                        help="round the payoffs of a matrix where they have too many digits; a "
                             "note says how wrong the value can be then")


def _add_asked(parser: ArgumentParser, title: str = "in place of what the position asks") -> None:
    group = parser.add_argument_group(title)
    for field in ASKED:
        if field.name == "gap":
            group.add_argument("--gap", type=_payoff, metavar="G",
                               help="the gap that is narrow enough, in payoffs, such as 0.001")
        elif field.choices:
            group.add_argument(f"--{field.name}", choices=field.choices)
        else:
            about = f", {field.about}" if field.about else ""
            group.add_argument(f"--{field.name}", type=partial(_number, field), metavar="N",
                               help=f"{field.low} to {field.high}{about}")


def _add_games(parser: ArgumentParser) -> None:
    parser.add_argument("--games", type=int, default=1000, metavar="N",
                        help="games of a match (1000)")
    parser.add_argument("--seed", type=int, default=0, metavar="N", help="of a match (0)")


def _seconds(word: str) -> float:
    """A number of seconds, `inf` too."""
    try:
        seconds = float(word)
    except ValueError:
        seconds = -1.0
    if not seconds >= 0:
        raise argparse.ArgumentTypeError(f"{word!r} has to be a number from 0, or inf")
    return seconds


def _payoff(word: str) -> Fraction:
    """A payoff from 0, such as 0.001 or 1/1000."""
    try:
        payoff = Fraction(word)
    except (ValueError, ZeroDivisionError):
        payoff = Fraction(-1)
    if payoff < 0:
        raise argparse.ArgumentTypeError(f"{word!r} has to be a payoff from 0, such as 0.001")
    return payoff


def _number(field: Field, word: str) -> int:
    """A whole number in the range of its field."""
    try:
        number = int(word)
        field.refuse(number)
    except (ValueError, InputRefusedError):
        raise argparse.ArgumentTypeError(field.told(word)) from None
    return number


def _asked(words: Namespace) -> Asked:
    """What the options ask for, but for the gap, whose unit depends on the game."""
    return {field.name: getattr(words, field.name) for field in ASKED
            if field.name != "gap" and getattr(words, field.name, None) is not None}


def _counted(game: AnyGame) -> int | str | None:
    """How many states with moves a game has, where it counts them."""
    count = game.count_states()
    return f"more than {WIDE.rows}" if count is not None and count > WIDE.rows else count


def _tell_size(position: Position) -> None:
    """Says on standard error how many states there are before a search, where the game counts
    them: on a terminal, and anywhere if a board has no room for them."""
    count = _counted(position.game)
    if isinstance(count, str):
        print(f"dosolve: the game has {count} states with moves, and a board has room for no "
              f"more: only wide bounds are possible", file=sys.stderr)
    elif count is not None and count > position.rows:
        print(f"dosolve: the game has {count} states with moves, and the board {position.rows} "
              f"rows", file=sys.stderr)
    elif count is not None and sys.stderr.isatty():
        print(f"dosolve: {count} states with moves", file=sys.stderr)


def _sides(words: Namespace) -> tuple[Side, ...]:
    """The side that was given, else both."""
    return (words.side,) if words.side else SIDES


def _solver(words: Namespace) -> Solver:
    return Solver(words.program)


def _require_right(report: Report, words: Namespace) -> None:
    """Refuses a report that `check` refuses; where no program is found, a note says so."""
    try:
        with naming(words.report):
            _solver(words).check(report)
    except ProgramMissingError as fault:
        if words.program is not None:
            raise
        print(f"dosolve: note {words.report} was not checked: {fault}", file=sys.stderr)


def _print_record(record: object) -> None:
    print(json.dumps(record))


def _print_notes(notes: Iterable[str]) -> None:
    for note in notes:
        print(f"note {note}")
