"""What a player may answer, and what is found out about it."""
import itertools
import random
import sys
import unittest
from unittest import mock

import dosolve
from dosolve import whole_weights
from players_support import GAME, POSITION, even, optional


class Answers(unittest.TestCase):
    def test_a_mapping_is_read_by_labels(self):
        sheet = dosolve.plan(GAME, "one", lambda state: {state.moves("one")[-1]: 0.75,
                                                         state.moves("one")[0]: 0.25}
                             if len(state.moves("one")) > 1 else {state.moves("one")[0]: 1}, 8192)
        self.assertEqual(sheet.weights(GAME.root()), (2048, 0, 6144))
        self.assertEqual(whole_weights({1: 0.9, 3: 0.1}, 2, 65536, (1, 3)), (58982, 6554))
        self.assertEqual(whole_weights({3: 1}, 2, 8192, (1, 3)), (0, 8192))
        for values, words in (({0: 0.5, 1: 0.5}, "0 is no label of a move"),
                              ({1: 0.5}, "sum to 0.5"), ({1, 3}, "a set, .1, 3. has no order"),
                              (frozenset({1}), "has no order"), ({1: 1}.keys(), "has no order"),
                              ("13", "no list of weights")):
            with self.subTest(values), self.assertRaisesRegex(dosolve.InvalidError, words):
                whole_weights(values, 2, 8192, (1, 3))
        with self.assertRaisesRegex(dosolve.PlayerError, "9 is no label.*one in Goof.*1, 2, 3"):
            dosolve.plan(GAME, "one", lambda state: {9: 1})

    def test_a_mapping_is_read_by_names(self):
        tron = dosolve.Tron(3, 4, [], 0, 11)
        plan = dosolve.plan(tron, "one", lambda state: {state.names("one")[-1]: 1}, 8192)
        self.assertEqual(plan.named(tron.root()), {"east": 0, "south": 1})
        with self.assertRaisesRegex(dosolve.PlayerError, "'up' is no .*named .'east', 'south'"):
            dosolve.plan(tron, "one", lambda state: {"up": 1})

    def test_a_number_that_is_the_name_of_another_move_is_refused(self):
        table = dosolve.Table.from_matrix([[5, 6], [7, 8]], [1, 2], ["1", "2"])
        root, words = table.root(), "1 is the number of the move '2' and the name of another: write"
        for call in (lambda: root.play(one=1, two="1"), lambda: table.state_after([("1", 1)]),
                     lambda: dosolve.plan(table, "one", lambda state: {1: 1.0}),
                     lambda: dosolve.live_match(table, lambda side, state: {1: 1}, even, 2)):
            with self.assertRaisesRegex(dosolve.InvalidError, f"{words} a name as a word, '1' or"):
                call()
        with self.assertRaisesRegex(dosolve.InvalidError, "has no move 2 .* and one named '2'"):
            root.play(one=2, two="1")
        self.assertEqual(root.play(one="1", two="2").payoff, 6)
        self.assertEqual(root.play(one=0, two=0).payoff, 5)
        self.assertEqual(table.state_after([("2", "1")]).payoff, 7)
        for answer, named in (({"1": 0.25, "2": 0.75}, (0.25, 0.75)), ({"2": 1}, (0, 1)),
                              ({0: 0.25, 1: 0.75}, (0.25, 0.75)), ([0, 1], (0, 1))):
            plan = dosolve.plan(table, "one", lambda state, answer=answer: answer)
            self.assertEqual(tuple(plan.named(root).values()), named)
        agreeing = dosolve.Table.from_matrix([[5, 6], [7, 8]]).root()
        self.assertEqual((agreeing.play(one=1, two=1).payoff, agreeing.move("one", 1)), (8, 1))

    def test_labels_that_the_package_takes_itself_are_no_names(self):
        table = dosolve.Table.from_game(GAME)
        match = dosolve.live_match(table, even, even, 20, 1)
        self.assertEqual(len(match.told(table)), 3)
        state = dosolve.openspiel.new_initial_state(table)
        state.apply_actions([1, 2])
        self.assertEqual(state.state, table.root().after(1, 2))
        self.assertEqual(state.action_to_string(0, 1), state.state.names("one")[1])
        plan = dosolve.plan(table, "one", lambda state: [1] * len(state.moves("one")))
        policy = dosolve.openspiel.policy_of(plan)
        self.assertEqual(dosolve.openspiel.plan_of_policy(table, "one", policy), plan)

        class Wrong:
            def action_probabilities(self, state, player_id=None):
                return {9: 1.0}

        with self.assertRaisesRegex(dosolve.PlayerError, "9 is no label of a move"):
            dosolve.openspiel.plan_of_policy(table, "one", Wrong())

    def test_making_a_plan_tells_how_far_it_is(self):
        steps = []
        with mock.patch("dosolve.solver.progress.time.monotonic", itertools.count().__next__):
            dosolve.plan(GAME, "one", lambda state: [1] * len(state.moves("one")), 8192,
                         progress=steps.append)
        self.assertEqual([step.states for step in steps], list(range(1, len(steps) + 1)))
        self.assertIn("the player was asked in 1 states", str(steps[0]))
        self.assertGreater(len(steps), 10)
        told = []
        with mock.patch("dosolve.solver.progress.time.monotonic", itertools.count().__next__):
            dosolve.measure(POSITION, even, "two", games=40, progress=told.append)
        self.assertGreater(len([step for step in told if isinstance(step, dosolve.PlanProgress)]), 10)

    @unittest.skipUnless(optional("numpy"), "numpy is missing")
    def test_numbers_of_numpy_are_taken(self):
        numpy = optional("numpy")
        self.assertEqual(whole_weights(numpy.array([1, 2, 3]) == 2, 3, 8192), (0, 8192, 0))
        self.assertEqual(whole_weights([numpy.bool_(True), numpy.bool_(False)], 2, 8192),
                         (8192, 0))
        self.assertEqual(whole_weights(numpy.array([0.5, 0.5]), 2, 8192), (4096, 4096))
        self.assertEqual(whole_weights({numpy.int64(3): numpy.float32(1)}, 2, 8192, (1, 3)),
                         (0, 8192))
        game = dosolve.Goofspiel(numpy.array([1, 2]), [numpy.int8(1), numpy.int64(2)],
                                 numpy.arange(1, 3), numpy.int32(4))
        self.assertEqual(game, dosolve.Goofspiel([1, 2], [1, 2], [1, 2], 4))
        self.assertEqual(dosolve.Position(game, gap=numpy.int64(7)).gap, 7)
        self.assertIn('"one":[1,2]', dosolve.Position(game).text())
        sheet = dosolve.plan(game, "one", lambda state: numpy.ones(len(state.moves("one"))) / len(
            state.moves("one")))
        self.assertIn(sheet.sample(game.root(), numpy.random.default_rng(0)), (0, 1))

    def test_a_player_that_draws_or_changes_is_found(self):
        def draws(state):
            card = random.choice(state.moves("one"))
            return [move == card for move in state.moves("one")]

        own, calls = random.Random(1), []

        def hides(state):
            card = own.choice(state.moves("one"))
            return [move == card for move in state.moves("one")]

        def counts(state):
            calls.append(state)
            return [len(calls) % 2 + 1, 1, 1][:len(state.moves("one"))]

        with self.assertRaisesRegex(dosolve.PlayerError, "one drew random numbers in Goofspiel"):
            dosolve.plan(GAME, "one", draws)
        for player in (hides, counts):
            with self.assertRaisesRegex(dosolve.PlayerError, "asked again, .* in GoofspielState"):
                dosolve.plan(GAME, "one", player)
        self.assertTrue(dosolve.plan(GAME, "one", draws, ask_again=0).rows)

    def test_a_player_that_raises_is_named_with_state_and_line(self):
        def fails(state):
            return state.no_such_field

        with self.assertRaisesRegex(dosolve.PlayerError, "player two raised AttributeError: .*"
                                    r"GoofspielState.*test_answers.py, line \d+") as caught:
            dosolve.plan(GAME, "two", fails)
        self.assertIsInstance(caught.exception.__cause__, AttributeError)

    def test_a_player_that_ends_the_process_is_told(self):
        def ends(side, state):
            sys.exit(0)

        words = "player one raised SystemExit: 0: in GoofspielState"
        with self.assertRaisesRegex(dosolve.PlayerError, words):
            dosolve.measure(POSITION, ends, "one")
        with self.assertRaisesRegex(dosolve.PlayerError, words):
            dosolve.live_match(GAME, ends, even, 2)

    def test_sources_of_numbers(self):
        sheet = dosolve.Sheet(GAME, "one", 8192)
        with self.assertRaisesRegex(dosolve.InvalidError, r"has a method random\(\)"):
            sheet.sample(GAME.root(), object())


if __name__ == "__main__":
    unittest.main()
