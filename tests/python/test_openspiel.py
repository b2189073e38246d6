"""States, games and policies by the names of OpenSpiel."""
import random
import unittest

import dosolve
from players_support import GAME, POSITION


class OpenSpiel(unittest.TestCase):
    def test_states(self):
        names, source = dosolve.openspiel, random.Random(3)
        for game in (GAME, dosolve.GoofspielDrawn([1, 2, 3], [1, 2, 3], [1, 2, 3]),
                     dosolve.Tron(2, 3, [], 0, 5)):
            state = names.new_initial_state(game)
            while not state.is_terminal():
                if state.is_chance_node():
                    self.assertEqual(state.current_player(), names.CHANCE_PLAYER)
                    self.assertAlmostEqual(sum(p for _, p in state.chance_outcomes()), 1)
                    state.apply_action(source.choice(state.legal_actions()))
                    continue
                self.assertTrue(state.is_simultaneous_node())
                actions = [source.choice(state.legal_actions(player)) for player in (0, 1)]
                copy = state.clone()
                state.apply_actions(actions)
                self.assertEqual(state.history()[:len(copy.history())], copy.history())
                self.assertNotEqual(state.history(), copy.history())
            self.assertEqual(sum(state.returns()), 0)
            self.assertEqual((state.returns()[0], state.current_player(), state.legal_actions(0)),
                             (state.state.payoff, names.TERMINAL_PLAYER, []))
        for call in (lambda: state.legal_actions(2), lambda: state.apply_action(0),
                     lambda: names.new_initial_state(GAME).apply_actions([9, 1])):
            with self.assertRaises(dosolve.InvalidError):
                call()

    def test_strings_of_games(self):
        load = dosolve.openspiel.load_game
        self.assertEqual(load("goofspiel(num_cards=3, points_order=descending,"
                              "returns_type=point_difference)"),
                         dosolve.Goofspiel([1, 2, 3], [1, 2, 3], [3, 2, 1]))
        self.assertEqual(load("goofspiel(points_order=ascending)").pay, "win")
        self.assertEqual(load("oshi_zumo(coins=10,min_bid=1)"), dosolve.OshiZumo(3, 10, 10, 1))
        self.assertEqual(load("oshi_zumo(min_bid=1)"), dosolve.OshiZumo(3, 50, 50, 1))
        for text, words in (("goofspiel", "points_order=random is not what"), ("chess", "none of"),
                            ("goofspiel(imp_info=True,points_order=ascending)", "imp_info=True"),
                            ("goofspiel(cards=3)", "no parameter 'cards'"),
                            ("oshi_zumo(coins=64)", "coin range: 64 coins"),
                            ("oshi_zumo(coins=9)", "least range: the least bid 0"),
                            ("oshi_zumo(coins=x)", "has to be a whole number")):
            with self.assertRaisesRegex(dosolve.DosolveError, words):
                load(text)

    def test_policies_go_out_and_in(self):
        report = dosolve.solve(POSITION)
        policy = dosolve.openspiel.policy_of(report.one, report.two)
        state = dosolve.openspiel.new_initial_state(GAME)
        shares = policy.action_probabilities(state, 0)
        self.assertAlmostEqual(sum(shares.values()), 1)
        for side in dosolve.SIDES:
            back = dosolve.openspiel.plan_of_policy(GAME, side, policy, report.weight)
            sheet = report.sheet(side)
            self.assertEqual({row.key: row.weights for row in back.rows},
                             {row.key: sheet.weights(GAME.state(row.key)) for row in back.rows})


if __name__ == "__main__":
    unittest.main()
