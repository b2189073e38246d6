"""A player of Goofspiel: bids the card that equals the prize, and without it the lowest."""


def play(side, state):
    cards = state.moves(side)
    wanted = state.prize if state.prize in cards else cards[0]
    return [card == wanted for card in cards]
