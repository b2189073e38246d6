"""What the tests of tables share: a table without draws, one with draws, and games with
OpenSpiel's calls."""
from __future__ import annotations

from types import SimpleNamespace

PENNIES = [[[1, 2], [2, 1]], 1, -1]
"""Matching pennies."""

STAGES = [[[2, [[2, 120120], [5, 240240]]], [[[1, 90090], [6, 270270]], 1]], [[3, 6], [6, 3]],
          [[3, 4], [5, 6]], 5, 1, -1, -5]
"""Two stages with draws."""


class Bids:
    """Goofspiel by OpenSpiel's calls: prizes in random order, the first one too where none is
    told."""

    def __init__(self, cards, first=None):
        self.one = self.two = self.left = tuple(cards)
        self.prize, self.score = None, 0
        if first is not None:
            self.draw(first)

    def draw(self, prize):
        self.left, self.prize = tuple(left for left in self.left if left != prize), prize

    def clone(self):
        found = type(self).__new__(type(self))
        vars(found).update(vars(self))
        return found

    def __str__(self):
        return repr((self.one, self.two, self.left, self.prize, self.score))

    def is_terminal(self):
        return not self.one

    def is_chance_node(self):
        return bool(self.one) and self.prize is None

    def is_simultaneous_node(self):
        return bool(self.one) and self.prize is not None

    def current_player(self):
        return -1 if self.is_chance_node() else -2

    def chance_outcomes(self):
        return [(prize, 1.0 / len(self.left)) for prize in self.left]

    def legal_actions(self, player):
        return list((self.one, self.two)[player])

    def apply_action(self, action):
        assert self.is_chance_node()
        self.draw(action)

    def apply_actions(self, actions):
        one, two = actions
        self.one = tuple(card for card in self.one if card != one)
        self.two = tuple(card for card in self.two if card != two)
        self.score += self.prize * ((one > two) - (one < two))
        self.prize = None

    def returns(self):
        return [float(self.score), float(-self.score)]


class Nim:
    """A game of turns: who takes the last of a heap loses half a point."""

    def __init__(self, left, player=0, returns=lambda x: [x, -x], players=2, information=""):
        self.left, self.player, self.make_returns = left, player, returns
        self.players, self.information = players, information

    def __str__(self):
        return f"{self.left} {self.player}"

    def num_players(self):
        return self.players

    def get_game(self):
        kind = SimpleNamespace(information=f"Information.{self.information}")
        return SimpleNamespace(get_type=lambda: kind)

    def is_terminal(self):
        return self.left == 0

    def is_chance_node(self):
        return False

    def is_simultaneous_node(self):
        return False

    def current_player(self):
        return self.player

    def legal_actions(self, player):
        assert player == self.player
        return list(range(1, min(3, self.left) + 1))

    def apply_action(self, action):
        self.left, self.player = self.left - action, 1 - self.player

    def returns(self):
        return self.make_returns(0.5 if self.player == 0 else -0.5)
