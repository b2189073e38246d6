"""A Markov game in which every turn pays: raids of the north or the south against a guard, ten
rounds, as `docs/OWN_GAME.md` tells it.

    PYTHONPATH=python python3 -m dosolve solve python/examples/raid.py
"""
import dosolve

STAGES = {"calm": [[0, 3], [1, 0], [0, 0]], "alert": [[-1, 3], [1, -1], [0, 0]]}
CAUGHT = {"calm": 0.5, "alert": 0.5}
TRANSITIONS = {
    "calm": [[CAUGHT, "calm"], ["calm", CAUGHT], ["calm", "calm"]],
    "alert": [["alert", "alert"], ["alert", "alert"], ["calm", "calm"]],
}


def table() -> dosolve.Table:
    """The table of ten rounds."""
    return dosolve.Table.markov(STAGES, TRANSITIONS, 10, one=["north", "south", "wait"], two=["north", "south"])
