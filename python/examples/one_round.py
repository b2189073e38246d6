"""A player of best_of_three.py that plays each round as if it were the only one: the signs of a
single round's equilibrium, whatever the score is."""


def play(side, state):
    return {"rock": 0.25, "paper": 0.5, "scissors": 0.25}
