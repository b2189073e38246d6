"""What the tests of players share: a game with its position, and a player."""
import importlib

import dosolve

GAME = dosolve.Goofspiel([1, 2, 3], [1, 2, 3], [1, 2, 3])
POSITION = dosolve.Position(GAME, 0, 65536, 10**6, 10**6, 4096, 1, "regret")


def even(side, state):
    """Each move with the same chance."""
    return [1 for _ in state.moves(side)]


def optional(name):
    """A module where it is installed."""
    try:
        return importlib.import_module(name)
    except ImportError:
        return None
