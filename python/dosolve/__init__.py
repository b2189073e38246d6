"""Feeds and reads dosolve, a proved solver of two-player zero-sum games with simultaneous moves.

    import dosolve

    game = dosolve.Goofspiel(one=[1, 3], two=[2, 3], prizes=[1, 1])
    solved = dosolve.solve(dosolve.Position(game))
    print(solved)
    mine = dosolve.plan(game, "one", lambda state: [1 for card in state.moves("one")])
    report = dosolve.Report.of(mine, solved.two)
    print(dosolve.exploit(report, "one").payoff, dosolve.expected(report))

The program is the judge, and has to be built; `find_program` says where it is looked for.

Calls of the program:

    solve(position, seconds=.., progress=..)   bounds of the value, and a plan of each side
    check(report)                              verifies a report, or refuses it
    bounds(position)                           bounds by pure plans alone
    exploit(report, side)                      what a side's plan guarantees, exactly
    play(report, games, seed)                  games between both plans, of one seed
    match(report, games, seed)                 the same with a standard error
    best_response(report, side)                the plan that does best against the other side's
    nash_conv(report)                          what both sides together could gain
    expected(report)                           the exact expected payoff of both plans
    Solver(program, timeout)                   all of these as methods of one program
    sweep(positions, executor, output)         many positions, on any executor, resumable

Players:

    plan(game, side, function)                 the plan of a function of a state
    measure(position, player, side)            what a player guarantees, and how it does
    tournament(players, positions)             each against each, as a table
    live_match(game, one, two)                 games of any players, of histories too
    load_player(path), load_table(path)        the player, the table of a Python file

Any finite game:

    Table.from_matrix(payoffs, ones, twos)     a game of one turn
    Table.repeated(payoffs, rounds)            a matrix played for some rounds
    Table.from_functions(root, moves, after, payoff)   a game told by functions
    Table.from_openspiel(game)                 anything with OpenSpiel's calls
    Table.from_game(game)                      a game of this package, or a `PythonGame`
    Table.from_gambit(path)                    a file of Gambit

A `Position` is a game with what is asked, a `Report` has bounds and both plans, a `Sheet` is a
plan. Games are `Goofspiel`, `GoofspielDrawn`, `OshiZumo`, `Tron`, `Pursuit` and `Table`; a state
has `moves(side)`, `play(one=.., two=..)`, `is_end` and `payoff`. A game that is too large for a
table can be measured here as a `PythonGame`. Both sides are `SIDES`. Pictures are in
`dosolve.drawings`, and with matplotlib in `dosolve.pictures`; a page to click through is made by
`report.explore(path)`, OpenSpiel's names are in `dosolve.openspiel`, limits in `dosolve.limits`.
Bounds, gaps and resolutions of objects are those of the program's texts, millionths of a payoff,
what One gets, and payoffs are whole; what is printed and `record()` are in payoffs of the rules.
Moves, draws and cells are numbered from 0. `dosolve-py --help` is the same on a command line.
"""
from . import drawings, limits, openspiel, pictures
from .drawings import Drawing
from .errors import (
    DosolveError, InputRefused, InputRefusedError, Invalid, InvalidError, LimitReached,
    LimitReachedError, NoTableError, PlayerError, ProgramFailed, ProgramFailedError,
    ProgramMissing, ProgramMissingError, ProgramTimeoutError, Refused, RefusedError,
    ReportRefused, ReportRefusedError,
)
from .exact import BestResponse, expected_of, respond
from .games.game import CHANCE, SCALE, SIDES, Game, Move, Side, State, other
from .games.goofspiel import Goofspiel, GoofspielDrawn, GoofspielDrawnState, GoofspielState
from .games.oshi_zumo import OshiZumo, OshiZumoState
from .games.pursuit import Pursuit, PursuitState
from .games.python_game import PythonGame, PythonState
from .games.tron import DIRECTIONS, Tron, TronState
from .players.histories import HistoryPlayer, live_match
from .players.loading import load_player, load_table
from .players.measuring import Measured, Player, measure
from .players.plans import Choice, plan, whole_weights
from .players.sheets import Row, Sheet
from .players.tournaments import Guarantee, Pairing, Tournament, tournament
from .positions import ASKED, GAMES, Position, processors
from .reports import OUTCOMES, Report
from .solver.program import (
    Accepted, Match, Solver, Turn, WorstCase, best_response, bounds, check, expected, exploit,
    find_program, match, nash_conv, play, solve,
)
from .solver.progress import Bar, PlanProgress, Progress, read_progress
from .sweeps import Swept, read_positions, sweep
from .tables.gambit import save_gambit
from .tables.making import TableProgress
from .tables.table import Table, TableState
from . import explore  # last, since it takes the names above from here

__version__ = "2.0.0"

__all__ = [
    # Calls of the program.
    "solve", "check", "bounds", "exploit", "play", "match", "best_response", "nash_conv",
    "expected", "sweep", "Solver", "find_program",
    # Players.
    "plan", "measure", "tournament", "live_match", "load_player", "load_table", "whole_weights",
    "expected_of", "respond", "save_gambit", "read_positions", "read_progress", "processors",
    "other",
    # What is handed over and handed back.
    "Position", "Report", "Sheet", "Row", "Accepted", "WorstCase", "Match", "Turn", "Measured",
    "BestResponse", "Swept", "Tournament", "Pairing", "Guarantee", "Progress", "PlanProgress",
    "TableProgress", "Bar", "Drawing",
    "HistoryPlayer",
    # Games.
    "Goofspiel", "GoofspielDrawn", "OshiZumo", "Tron", "Pursuit", "Table", "Game", "State",
    "PythonGame", "PythonState",
    "GoofspielState", "GoofspielDrawnState", "OshiZumoState", "TronState", "PursuitState",
    "TableState",
    # Types and constants.
    "Side", "SIDES", "Move", "Choice", "Player", "SCALE", "CHANCE", "GAMES", "ASKED", "OUTCOMES",
    "DIRECTIONS", "drawings", "explore", "limits", "openspiel", "pictures",
    # Errors.
    "DosolveError", "InvalidError", "PlayerError", "ProgramMissingError", "ProgramFailedError",
    "ProgramTimeoutError", "RefusedError", "InputRefusedError", "ReportRefusedError",
    "LimitReachedError", "NoTableError",
    # Names of earlier versions.
    "Invalid", "ProgramMissing", "ProgramFailed", "Refused", "InputRefused", "ReportRefused",
    "LimitReached",
]
