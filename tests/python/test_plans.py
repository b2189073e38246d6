"""Plans: rounding to whole weights, wrong answers of players, what a sheet plays, samples."""
import dataclasses
import random
import unittest
from fractions import Fraction

import dosolve
from dosolve import Row, Sheet, whole_weights
from support import games, random_game

GAME = dosolve.Goofspiel([1, 3], [2, 3], [1, 1])
ROOT = 335595772


class Rounding(unittest.TestCase):
    def test_worked_by_hand(self):
        self.assertEqual(whole_weights([1, 1, 1], 3, 8192), (2731, 2731, 2730))
        self.assertEqual(whole_weights([0.5, 0.25, 0.25], 3, 8193), (4097, 2048, 2048))
        self.assertEqual(whole_weights([Fraction(1, 3), Fraction(2, 3)], 2, 8192), (2731, 5461))
        self.assertEqual(whole_weights([True, False], 2, 8192), (8192, 0))
        self.assertEqual(whole_weights([8000, 0, 192], 3, 8192), (8000, 0, 192))

    def test_the_sum_is_the_total_and_no_weight_is_one_off(self):
        source = random.Random(1)
        for _ in range(2000):
            values = [source.choice([0, source.random(), 1e-9]) for _ in range(source.randint(1, 32))]
            if sum(values) < 1e-6:
                continue
            chances = [value / sum(values) for value in values]
            total = source.randint(8192, 1_048_576)
            weights = whole_weights(chances, len(chances), total)
            self.assertEqual(sum(weights), total)
            for weight, chance in zip(weights, chances):
                self.assertLess(abs(weight - chance * total), 1.001)
                self.assertGreaterEqual(weight, 0)

    def test_what_is_no_plan_is_refused(self):
        for values, words in (([0.5, -0.5, 1], "weight 1 is -0.5, and must not be negative"), ([1, 2], "2 weights for 3 moves"),
                              ([0.5, 0.4, 0], "the probabilities sum to 0.9, and have to sum to 1"), ([0, 0, 0], "all 0"),
                              (None, "None is no list of weights"), ([1, "x", 0], "weight 1 is 'x'"), ([float("nan"), 0, 1], "weight 0 is nan"),
                              ([2.0, 1.0, 1.0], "sum to 4.0"), ([float("inf"), 0, 0], "weight 0 is inf")):
            with self.assertRaisesRegex(dosolve.Invalid, words):
                whole_weights(values, 3, 8192)


class Sheets(unittest.TestCase):
    def test_a_made_plan(self):
        sheet = dosolve.plan(GAME, "one", lambda state: [0.5, 0.5] if state.key == ROOT else [1], 65536)
        self.assertEqual([(row.key, row.bound, row.weights) for row in sheet.rows],
                         [(67127548, -1000000, (65536,)), (67143933, 0, (65536,)), (268454139, 0, (65536,)),
                          (268470523, -1000000, (65536,)), (ROOT, -500000, (32768, 32768))])

    def test_what_is_no_function_of_a_state_is_refused(self):
        for player, words in ((lambda side, state: [1], "partial"), (3, "not 3"), (lambda: [1], "of a state alone"),
                              (lambda side, state, history: [1], "player of histories has no plan")):
            with self.assertRaisesRegex(dosolve.InvalidError, words):
                dosolve.plan(GAME, "one", player)

    def test_a_wrong_answer_names_side_state_and_moves(self):
        with self.assertRaisesRegex(dosolve.Invalid, r"3 weights for 2 moves: player two in .*moves are \(2, 3\)"):
            dosolve.plan(GAME, "two", lambda state: [1, 1, 1])

    def test_a_notebook_shows_the_root_first(self):
        sheet = dosolve.plan(GAME, "one", lambda state: [1 for _ in state.moves("one")])
        shown = sheet._repr_html_()
        self.assertIn("&lt;Sheet of player one", shown)
        self.assertIn("</tr><tr><td>GoofspielState(one=(1, 3), two=(2, 3), score=0, prize=1)</td><td>-0.500000</td>"
                      "<td>1 50.0%, 3 50.0%</td>", shown)
        self.assertEqual(shown.count("<tr>"), 1 + len(sheet.rows))
        over = dosolve.Sheet(dosolve.Goofspiel([], [], []), "one", 8192)
        self.assertEqual(over._repr_html_().count("<tr>"), 1)

    def test_rows_that_are_no_good_play_the_first_move(self):
        root = GAME.root()
        for weights in ((8192,), (4096, 4095), (0, 8192, 0)):
            self.assertEqual(Sheet(GAME, "one", 8192, [Row(ROOT, 0, weights)]).weights(root), (8192, 0))
        self.assertEqual(Sheet(GAME, "one", 8192, [Row(ROOT, 0, (0, 8192))]).weights(root), (0, 8192))
        self.assertEqual(Sheet(GAME, "one", 8192).weights(root), (8192, 0))
        self.assertEqual(Sheet(GAME, "one", 8192).root_bound, -2_000_000)

    def test_rows_that_are_not_played_are_told(self):
        rows = [Row(1, 0, (8192,)), Row(67127548, 0, (8192,)), Row(67143933, 0, (8192, 0)), Row(ROOT, 0, (4096, 4095))]
        good, bad = (Sheet(GAME, "one", 8192, given) for given in (rows[:2], rows))
        self.assertEqual([state.key for state in bad.unplayed()], [67143933, ROOT])
        report = dosolve.Report.of(bad, Sheet(GAME, "two", 8192))
        self.assertEqual(report.row_notes("one"), (
            "1 of the rows of player one are of no state of the game, such as that of the key 1: were they made for another "
            "position?",
            "the row of player one in GoofspielState(one=(1,), two=(3,), score=1, prize=1) has not one weight for each move "
            "with the sum 8192: the first move is played there (2 such rows)",))
        self.assertEqual((list(good.unplayed()), report.row_notes("two")), ([], ()))

    def test_a_state_of_another_game_is_refused(self):
        other = dataclasses.replace(GAME, prizes=(1, 2)).root()
        with self.assertRaisesRegex(dosolve.Invalid, "goofspiel 1,3 2,3 1,2 0 margin is none of the plan's game"):
            Sheet(GAME, "one", 8192).weights(other)

    def test_wrong_rows_are_refused(self):
        for make, words in ((lambda: Row(-1, 0, (8192,)), "the key of a row is -1"),
                            (lambda: Row(5, 4 * 10**9 + 1, (1,)), "the bound of the row 5"),
                            (lambda: Row(5, 0, (-1, 8193)), "weight 0 of the row 5 is -1"), (lambda: Row(5, 0, ()), "has 0 weights"),
                            (lambda: Sheet(GAME, "one", 8191), "the total of a sheet is 8191"),
                            (lambda: Sheet(GAME, "three", 8192), "a side is 'one' or 'two', not 'three'"),
                            (lambda: Sheet(GAME, "one", 8192, [Row(2, 0, (1,)), Row(2, 0, (1,))]), "2 follows 2")):
            with self.assertRaisesRegex(dosolve.Invalid, words):
                make()

    def test_wrong_reports_are_refused(self):
        one, two = (Sheet(GAME, side, 8192) for side in dosolve.SIDES)
        good = dosolve.Report.of(one, two)
        for changes, words in (({"lower": 0.5}, "lower is 0.5"), ({"outcome": "won"}, "outcome is 'won'"), ({"spent": ()}, "spent has 0"),
                               ({"one": two}, "the sheet one is of another"), ({"weight": 8193}, "the sheet one is of another"),
                               ({"turns": -1}, "turns is -1")):
            with self.assertRaisesRegex(dosolve.Invalid, words):
                dataclasses.replace(good, **changes)

    def test_samples_follow_the_weights(self):
        sheet, source = Sheet(GAME, "one", 8192, [Row(ROOT, 0, (2048, 6144))]), random.Random(5)
        moves = [sheet.sample(GAME.root(), source) for _ in range(4000)]
        self.assertAlmostEqual(sum(moves) / 4000, 0.75, delta=0.03)
        self.assertEqual(Sheet(GAME, "one", 8192, [Row(ROOT, 0, (0, 8192))]).sample(GAME.root()), 1)


class States(unittest.TestCase):
    def test_states_of_goofspiel_tell_the_prize(self):
        state = dosolve.Goofspiel([1, 3], [2, 3], [5, 7]).root()
        self.assertEqual(str(state), "GoofspielState(one=(1, 3), two=(2, 3), score=0, prize=5)")
        self.assertTrue(str(state.after(0, 0)).endswith("score=-5, prize=7)"))
        self.assertEqual(str(state.after(0, 0).after(0, 0)), "GoofspielState(one=(), two=(), score=-5)")
        drawn = dosolve.GoofspielDrawn([1, 2, 3], [1, 2, 3], [5, 7, 9]).root()
        self.assertTrue(str(drawn.after(0, 0, 1)).endswith("undrawn=(1,), place=2, prize=9)"))

    def test_labels_and_numbers_are_told_apart(self):
        root = GAME.root()
        self.assertEqual(root.play(one=3, two=2), root.after(1, 0))
        self.assertEqual((root.move("one", 3), root.move("two", 2)), (1, 0))
        with self.assertRaisesRegex(dosolve.InvalidError, "has no move 2 in Goof.*moves are .1, 3."):
            root.play(one=2, two=2)
        with self.assertRaisesRegex(dosolve.InvalidError, r"no move number 3 in .* play\(one="):
            root.after(3, 0)
        with self.assertRaises(TypeError):
            root.play(1, 2)

    def test_histories_and_names_lead_to_states(self):
        root = GAME.root()
        self.assertEqual(GAME.state_after([]), root)
        self.assertEqual(GAME.state_after([(3, 2)]), root.play(one=3, two=2))
        self.assertEqual(GAME.state_after([("3", "2", "0"), ["1", "3"]]).payoff, 0)
        drawn = dosolve.GoofspielDrawn([1, 2, 3], [1, 2, 3], [1, 2, 3])
        self.assertEqual(drawn.state_after([(1, 1, 1)]).prize, 3)
        tron = dosolve.Tron(3, 4, [], 0, 11)
        self.assertEqual(tron.state_after([("east", "0")]), tron.root().play(one=1, two="north"))
        for turns, words in (([(2, 2)], "no move 2"), ([(3,)], "a turn is One's move"),
                             ([("x", "2")], "no move 'x'"), ([("9", "2")], "no move 9"),
                             ([(3, 2, 1)], "draw 1 of 1")):
            with self.assertRaisesRegex(dosolve.InvalidError, words):
                GAME.state_after(turns)

    def test_keys_name_states(self):
        source = random.Random(4)
        for name in games():
            for _ in range(4):
                game = random_game(name, source)
                states = list(game.states())
                self.assertEqual(len({state.key for state in states}), len(states))
                for state in states:
                    self.assertEqual(game.state(state.key), state)
                inner = sum(not state.is_end for state in states)
                self.assertLessEqual(inner, game.most_states, game)
                for key in (-1, 2**63, 2**62, 1.5, "x"):
                    with self.assertRaisesRegex(dosolve.InvalidError, "has the key"):
                        game.state(key)

    def test_what_follows_labels_is_what_follows_their_numbers(self):
        for name in dosolve.GAMES:
            root = random_game(name, random.Random(7)).root()
            for one, mine in enumerate(root.moves("one")):
                for two, yours in enumerate(root.moves("two")):
                    outcomes = root.outcomes(one, two)
                    self.assertEqual(root.outcomes_of_labels(mine, yours), outcomes)
                    self.assertEqual([root.after_labels(mine, yours, draw)
                                      for draw in range(len(outcomes))],
                                     [after for _, after in outcomes])

    def test_moves_out_of_range_and_payoffs_too_early_are_refused(self):
        root = GAME.root()
        for call in (lambda: root.after(2, 0), lambda: root.after(-1, 0), lambda: root.after(0, 0, 1), lambda: root.payoff,
                     lambda: root.moves("three"), lambda: root.after(0, 0).after(0, 0).after(0, 0)):
            with self.assertRaises(dosolve.Invalid):
                call()

    def test_keys_worked_by_hand(self):
        """The keys that docs/FORMATS.md works out, and others."""
        tron = dosolve.Tron(3, 4, [], 0, 11).root()
        self.assertEqual((GAME.root().key, GAME.root().after(1, 0).key), (ROOT, 67143933))
        self.assertEqual(dosolve.OshiZumo(1, 6, 5, 2).root().key, 16581)
        self.assertEqual((tron.key, tron.moves("one"), tron.moves("two")), (8392715, (1, 2), (0, 3)))
        self.assertEqual(dosolve.GoofspielDrawn([2], [1], [1]).root().key, 17593561251840)
        drawn = dosolve.GoofspielDrawn([4, 5, 6], [1, 2, 3], [1, 2, 3]).root()
        self.assertEqual((drawn.key, drawn.chances(0, 0)), (492589026902112, (180180, 180180)))
        pursuit = dosolve.Pursuit(3, [0, 1, 1, 2], 0, 2, 2).root()
        self.assertEqual((pursuit.key, pursuit.moves("one"), pursuit.after(1, 0).payoff), (2050, (0, 1), 1))

    def test_resolutions_worked_by_hand(self):
        for game, weight, resolution in ((GAME, 65536, 62502), (dosolve.OshiZumo(1, 2, 1), 65536, 31252),
                                         (dosolve.GoofspielDrawn([2], [1], [1]), 65536, 11051),
                                         (dosolve.Pursuit(3, [0, 1, 1, 2], 0, 2, 2), 65536, 38276)):
            self.assertEqual(game.resolution(weight), resolution)


if __name__ == "__main__":
    unittest.main()
