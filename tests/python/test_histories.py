"""Keys, moves, labels and draws on random histories, against what the program prints by `play` and by reports."""
import random
import unittest

import dosolve
from support import commands, games, random_game

HISTORIES = 200


class Words:
    """The words of one seed, as `play` takes them: three a turn, for One's move, Two's move and the draw."""

    def __init__(self, seed):
        self.last = seed

    def pick(self, weights):
        self.last = (self.last * 6364136223846793005 + 1442695040888963407) % 2**64
        left = (self.last >> 32) % sum(weights)
        for move, weight in enumerate(weights):
            left -= weight
            if left < 0:
                return move


def random_sheet(game, side, source):
    """A sheet that plays at random, most moves without a chance."""
    def choose(state):
        weights = [source.choice([0, 0, 1, 2, 7]) for _ in state.moves(side)]
        return weights if any(weights) else [1 for _ in weights]
    return dosolve.plan(game, side, choose, source.choice([8192, 65536, 99991]), ask_again=0)


class Histories(unittest.TestCase):
    @unittest.skipUnless("play" in commands(), "docs/FORMATS.md tells no command play")
    def test_play_goes_by_the_same_rules_and_keys(self):
        for name in games():
            source = random.Random(name)
            for number in range(HISTORIES):
                with self.subTest(name, number=number):
                    self.one_history(random_game(name, source), source)

    def one_history(self, game, source):
        one = random_sheet(game, "one", source)
        two = dosolve.plan(game, "two", lambda state: [source.randint(1, 9) for _ in state.moves("two")], one.total, ask_again=0)
        seed = source.randrange(2**64)
        match = dosolve.play(dosolve.Report.of(one, two), 1, seed)
        words, state, paid = Words(seed), game.root(), 0
        for turn in match.turns:
            # That the moves are those of the sheets shows that the program found the rows by the package's keys.
            moves = words.pick(one.weights(state)), words.pick(two.weights(state))
            draw = words.pick(state.chances(*moves))
            labels = state.moves("one")[moves[0]], state.moves("two")[moves[1]]
            self.assertEqual((*labels, draw), (turn.one, turn.two, turn.draw))
            self.assertEqual(sum(state.chances(*moves)), dosolve.CHANCE)
            rank = state.rank
            paid += state.rewards(*moves)[draw]
            state = state.after(*moves, draw)
            self.assertLess(state.rank, rank)
        self.assertTrue(state.is_end)
        self.assertEqual((paid + state.payoff, state.rank, 1), (match.payoff, 0, match.games))

    def test_reports_have_the_keys_and_counts_of_moves(self):
        rows = 0
        for name in games():
            source = random.Random(name)
            for number in range(40):
                game = random_game(name, source)
                report = dosolve.solve(dosolve.Position(game, source.choice([0, 100_000]), 8192, 50, 10_000, 50_000, 1, "regret"))
                self.assertEqual((report.game, report.resolution), (game, game.resolution(8192)))
                for sheet in (report.one, report.two):
                    with self.subTest(name, number=number, side=sheet.side):
                        states = self.reached(sheet)
                        self.assertLessEqual({row.key for row in sheet.rows}, states.keys())
                        for key, state in states.items():
                            self.assertEqual(game.state(key), state)
                        for row in sheet.rows:
                            self.assertEqual(sheet.weights(states[row.key]), row.weights)
                        rows += len(sheet.rows)
        self.assertGreater(rows, 500)

    @staticmethod
    def reached(sheet):
        """The states that a sheet comes to, by key."""
        found, waiting = {}, [sheet.game.root()]
        while waiting:
            state = waiting.pop()
            if state.is_end or state.key in found:
                continue
            found[state.key] = state
            replies = len(state.moves(dosolve.other(sheet.side)))
            for move, weight in enumerate(sheet.weights(state)):
                for reply in range(replies if weight else 0):
                    pair = (move, reply) if sheet.side == "one" else (reply, move)
                    waiting += [after for _, after in state.outcomes(*pair)]
        return found

    def test_the_program_accepts_the_bounds_of_made_plans(self):
        for name in games():
            source = random.Random(name)
            for _ in range(20):
                one = random_sheet(random_game(name, source), "one", source)
                two = dosolve.plan(one.game, "two", lambda state: [1 for _ in state.moves("two")], one.total)
                report = dosolve.Report.of(one, two, source.choice([0, 10**6]))
                self.assertEqual(dosolve.check(report), dosolve.Accepted(report.lower, report.upper, report.outcome))
                if "exploit" in commands():
                    worst = [dosolve.exploit(report, side) for side in dosolve.SIDES]
                    self.assertLessEqual(report.lower, worst[0].high)
                    self.assertGreaterEqual(report.upper, worst[1].low)
                    self.assertLessEqual(worst[0].low - report.lower, 2 * one.game.root().rank)
                    self.assertLessEqual(report.upper - worst[1].high, 2 * one.game.root().rank)


if __name__ == "__main__":
    unittest.main()
