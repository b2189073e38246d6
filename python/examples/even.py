"""A player of any game: each move with the same chance."""


def play(side, state):
    return [1 for move in state.moves(side)]
