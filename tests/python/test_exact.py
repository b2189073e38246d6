"""Exact payoffs and best responses, against `exploit` and `play` of the program and by hand."""
import math
import random
import unittest
from fractions import Fraction

import dosolve
from support import TOP, games, random_game


def sheets(game, source, weight):
    """A random plan of each side."""
    return [dosolve.plan(game, side, lambda state, side=side: [
        source.choice([0, 0, 1, 5]) or 1 for _ in state.moves(side)], weight, ask_again=0)
        for side in dosolve.SIDES]


class Exact(unittest.TestCase):
    def test_worked_by_hand(self):
        game = dosolve.Goofspiel([1, 3], [2, 3], [1, 1])
        even, first = (dosolve.plan(game, "one", choose, 8192) for choose in (
            lambda state: [1 for _ in state.moves("one")],
            lambda state: {state.moves("one")[0]: 1.0}))
        high = dosolve.plan(game, "two", lambda state: {state.moves("two")[-1]: 1}, 8192)
        # One's 1 against Two's 3 loses, then 3 beats 2; One's 3 meets 3, then 1 loses against 2.
        self.assertEqual(dosolve.expected_of(even, high), Fraction(-1, 2))
        self.assertEqual(dosolve.expected_of(first, high), 0)
        self.assertEqual(dosolve.respond(even).value, Fraction(-1, 2))
        self.assertEqual(dosolve.respond(first).value, -1)

    def test_best_responses_are_what_exploit_says(self):
        checked = 0
        for name in games():
            source = random.Random(name)
            for _ in range(8):
                game = random_game(name, source)
                report = dosolve.Report.of(*sheets(game, source, source.choice([8192, 99991])))
                values = {}
                for side in dosolve.SIDES:
                    # best_response compares with exploit itself.
                    found = dosolve.best_response(report, side)
                    fixed = report.sheet(dosolve.other(side))
                    pair = (found.plan, fixed) if side == "one" else (fixed, found.plan)
                    self.assertEqual(dosolve.expected_of(*pair), found.value)
                    self.assertEqual(sorted(set(map(max, (row.weights for row in found.plan.rows)))
                                            | {report.weight}), [report.weight])
                    self.assertEqual(dosolve.check(dosolve.Report.of(*pair)).outcome,
                                     dosolve.Report.of(*pair).outcome)
                    values[side] = found.value
                    checked += 1
                self.assertLessEqual(values["two"], dosolve.expected(report))
                self.assertLessEqual(dosolve.expected(report), values["one"])
                self.assertAlmostEqual(float(dosolve.nash_conv(report)),
                                       float(values["one"] - values["two"]), 4)
        self.assertGreater(checked, 50)

    def test_what_is_exact_is_a_fraction_and_bounds_are_its_floor_or_ceiling(self):
        game = dosolve.Goofspiel([1, 2, 3], [1, 2, 3], [1, 1, 2])
        report = dosolve.Report.of(*sheets(game, random.Random(4), 8193))
        values = [dosolve.expected(report), dosolve.nash_conv(report),
                  dosolve.match(report, 40).mean, *report.one.probabilities(game.root()).values(),
                  *report.stage(game.root())[0][0]]
        for side, rounded in zip(dosolve.SIDES, (math.floor, math.ceil)):
            worst = dosolve.exploit(report, side)
            found = dosolve.best_response(report, dosolve.other(side)).value
            self.assertEqual((worst.is_exact, worst.payoff), (True, found))
            self.assertEqual(worst.guaranteed, rounded(found * dosolve.SCALE))
            self.assertNotEqual(worst.guaranteed, found * dosolve.SCALE)
            better = worst.guaranteed - report.bound(side)
            self.assertIn(better if side == "one" else -better, range(4))
            values += [worst.low, worst.high, worst.payoff, found]
        for value in values:
            self.assertIsInstance(value, Fraction)

    def test_matches_come_near_the_exact_payoff(self):
        source, within = random.Random(8), 0
        for name in games():
            game = random_game(name, source)
            report = dosolve.Report.of(*sheets(game, source, 65536))
            found = dosolve.match(report, 4000, 3)
            self.assertEqual(found.games, 4000)
            away = abs(float(found.mean - dosolve.expected(report)))
            within += away <= 2 * found.error + 1e-9
            self.assertLessEqual(away, 5 * found.error + 0.01)
        self.assertGreaterEqual(within, len(games()) - 1)

    def test_the_matrix_of_a_state_proves_its_rows(self):
        checked = 0
        for file in sorted((TOP / "examples").glob("*.report")):
            report = dosolve.Report.load(file)
            for row in report.one.rows[:20]:
                state = report.game.state(row.key)
                sums = [sum(weight * math.floor(dosolve.SCALE * lower)
                            for weight, (lower, _) in zip(row.weights, column))
                        for column in zip(*report.stage(state))]
                self.assertGreaterEqual(min(sums) // report.weight, row.bound)
                checked += 1
        self.assertGreater(checked, 20)
        root = dosolve.Report.load(TOP / "examples" / "goofspiel_mixed.report")
        self.assertEqual(root.stage(root.game.root()), [[(-1, -1), (0, 0)], [(0, 0), (-1, -1)]])
        end = dosolve.Goofspiel([], [], [])
        sheets = (dosolve.Sheet(end, side, 8192) for side in dosolve.SIDES)
        self.assertEqual(dosolve.Report.of(*sheets).stage(end.root()), [])

    def test_a_game_of_ones_own_is_measured_in_python(self):
        game = Matching()
        even = dosolve.plan(game, "one", lambda state: [0.5, 0.5], 8192)
        self.assertEqual([row.bound for row in even.rows], [0])
        self.assertEqual(dosolve.respond(even).value, 0)
        for call, words in ((dosolve.Position, "has the games goofspiel.*none of them; Table.from"),
                            (dosolve.solve, r"; Position\(Table.from_game\(game\)\) is one of")):
            with self.assertRaisesRegex(dosolve.InvalidError, words):
                call(game)

    def test_plans_of_two_games_are_refused(self):
        one = dosolve.Sheet(dosolve.OshiZumo(1, 2, 1), "one", 8192)
        two = dosolve.Sheet(dosolve.OshiZumo(1, 2, 2), "two", 8192)
        for pair in ((one, two), (two, one), (one, one)):
            with self.assertRaises(dosolve.InvalidError):
                dosolve.expected_of(*pair)


class Matching(dosolve.Game):
    """Matching pennies, a game of one's own."""

    name, settings, most_moves, low, high = "matching", (), 2, -1, 1

    def __eq__(self, other):
        return isinstance(other, Matching)

    def _fault(self):
        return None

    def root(self):
        return Pennies(self, None)


class Pennies(dosolve.State):
    """Before or after both pennies are shown."""

    def __init__(self, game, shown):
        self.game, self.shown = game, shown

    @property
    def key(self):
        return 0 if self.shown is None else 1 + 2 * self.shown[0] + self.shown[1]

    @property
    def rank(self):
        return int(self.shown is None)

    @property
    def is_end(self):
        return self.shown is not None

    def _payoff(self):
        return 1 if self.shown[0] == self.shown[1] else -1

    def _moves(self, side):
        return 0, 1

    def _after(self, one, two, draw):
        return Pennies(self.game, (one, two))


if __name__ == "__main__":
    unittest.main()
