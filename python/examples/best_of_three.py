"""Three rounds of rock, paper, scissors, in which a won round counts 1 and one won by rock counts
2; who is ahead in the end wins.

    python3 -m dosolve table python/examples/best_of_three.py -o best_of_three.json
"""
import dosolve

SIGNS = ["rock", "paper", "scissors"]
ROUND = [[0, -1, 2], [1, 0, -1], [-2, 1, 0]]


def moves(node):
    """The moves of One and of Two; none where the game is over."""
    left, ahead = node
    return (SIGNS, SIGNS) if left else None


def after(node, one, two):
    """What follows when both have moved."""
    left, ahead = node
    return left - 1, ahead + ROUND[SIGNS.index(one)][SIGNS.index(two)]


def payoff(node):
    """What One gets at the end."""
    left, ahead = node
    return (ahead > 0) - (ahead < 0)


def name(node):
    """How a state is shown."""
    left, ahead = node
    return f"round {4 - left}, One is ahead by {ahead}"


def table():
    """The game as a table."""
    return dosolve.Table.from_functions((3, 0), moves, after, payoff, name)
