"""Tables made of games with OpenSpiel's calls."""
import random
import unittest
from types import SimpleNamespace

from dosolve import NoTableError, Table, openspiel
from support import random_game
from table_support import Bids, Nim


class OpenSpiel(unittest.TestCase):
    def test_states_of_the_package_by_its_names(self):
        source = random.Random(6)
        for name in ("goofspiel", "goofspiel_drawn", "oshi_zumo", "tron", "pursuit"):
            game = random_game(name, source)
            walked = Table.from_openspiel(openspiel.new_initial_state(game), str)
            if not game.has_rewards:
                self.assertEqual(walked, Table.from_game(game))
            self.assertEqual(walked.root().names("two"), game.root().names("two"))

    def test_states_of_different_turns_are_joined_where_that_is_asked(self):
        apart, joined = Table.from_openspiel(Nim(9)), Table.from_openspiel(Nim(9), str)
        self.assertGreater(len(apart.listing), len(joined.listing))
        self.assertEqual(apart.root().rank, joined.root().rank)
        self.assertEqual(sorted(set(apart.state_names)), sorted(set(joined.state_names)))

    def test_turns_and_draws(self):
        table = Table.from_openspiel(Nim(3, 1))
        self.assertEqual((table.root().names("one"), table.root().names("two")),
                         (("-",), ("1", "2", "3")))
        self.assertEqual((table.scale, table.root().name), (2, "3 1"))
        drawn = Table.from_openspiel(Bids([1, 2]))
        self.assertEqual((drawn.root().name, drawn.root().chances(0, 0)),
                         ("chance", (180180, 180180)))
        self.assertEqual(str(drawn.root().after(0, 0, 1).node), drawn.root().after(0, 0, 1).name)

    def test_what_is_no_table(self):
        def refused(words, game, **more):
            with self.subTest(words), self.assertRaisesRegex(NoTableError, words):
                Table.from_openspiel(game, **more)

        refused("stands for states that go on differently", Nim(5),
                key=lambda state: str(state.left))
        refused("stands for states that go on differently", Bids([1, 2, 3], 1),
                key=lambda state: repr((state.one, state.two, state.left, state.prize)))
        refused("has not the calls", object())
        refused("lacks calls of OpenSpiel's State: is_chance_node, is_sim",
                SimpleNamespace(is_terminal=lambda: False))
        refused("sum to 1 and to 0|sum to 0 and to 1", Nim(4, returns=lambda x: [x, 0.5]))
        refused("this game has 3", Nim(4, players=3))
        refused("do not see its whole state", Nim(4, information="IMPERFECT_INFORMATION"))
        self.assertTrue(Table.from_openspiel(Nim(4, information="IMPERFECT_INFORMATION"),
                                             trust=True))

    def test_a_root_of_a_game_is_taken_too(self):
        class Game:
            def new_initial_state(self):
                return Nim(4)

        self.assertEqual(Table.from_openspiel(Game()), Table.from_openspiel(Nim(4)))


if __name__ == "__main__":
    unittest.main()
