"""Files of Gambit as tables: both spellings of a strategic form, extensive forms, what is none."""
import random
import tempfile
import unittest
from fractions import Fraction
from pathlib import Path

import dosolve
from dosolve import NoTableError, Table
from support import random_listing

PENNIES = """NFG 1 R "Matching pennies" { "One" "Two" }

{ { "heads" "tails" }
{ "heads" "tails" }
}
"A comment of several words"

1 -1 -1 1 -1 1 1 -1
"""
OUTCOMES = """NFG 1 R "By outcomes" { "One" "Two" } { { "a" "b" "c" } { "d" "e" } }
{ { "won" 1, 0 } { "half" 1/2, 0.5 } { "lost" 0, 1 } }
1 2 3 3 2 1
"""
TWO_STEPS = r"""EFG 2 R "One moves, a draw, Two moves" { "One" "Two" } "comment"
p "" 1 1 "first" { "left" "right" } 0
c "coin" 1 "toss" { "1" 1/3 "2" 2/3 } 0
p "" 2 1 "low" { "up" "down" } 0
t "" 1 "a \"win\"" { 2, -2 }
t "" 2 "b" { -1.0 1.0 }
p "" 2 2 "high" { "up" "down" } 0
t "" 2
t "" 1
p "other" 2 3 "" { "x" "y" } 3 "paid" { 1 -1 }
t "" 0
t "" 1
"""
AT_ONCE = """EFG 2 R "Two does not see the move of One" { "One" "Two" }
p "root" 1 1 { "H" "T" } 0
p "" 2 1 { "H" "T" } 0
t "" 1 "" { 1 -1 }
t "" 2 "" { -1 1 }
p "" 2 1 0
t "" 2
t "" 1
"""


class Files(unittest.TestCase):
    def read(self, text, name="game.efg"):
        with tempfile.TemporaryDirectory() as folder:
            file = Path(folder, name)
            file.write_text(text)
            return Table.from_gambit(file)

    def test_strategic_forms(self):
        table = self.read(PENNIES)
        self.assertEqual(table, Table.from_matrix([[1, -1], [-1, 1]]))
        self.assertEqual(table.root().names("two"), ("heads", "tails"))
        table = self.read(OUTCOMES)
        # The first player's strategies change first.
        self.assertEqual(table, Table.from_matrix([[1, 0], [Fraction(1, 2)] * 2, [0, 1]]))
        self.assertEqual((table.scale, table.root().names("one")), (2, ("a", "b", "c")))
        short = self.read('NFG 1 D "" { "One" "Two" } { 2 1 } 1.5 -1.5 0 0')
        self.assertEqual(short.listing, (((1,), (2,)), 3, 0))
        self.assertEqual(short.root().names("one"), ("1", "2"))
        empty = self.read('NFG 1 R "" { "One" "Two" } { { "a" } { "b" } } "" { { "" 1 -1 } } 0')
        self.assertEqual(empty.listing, (((1,),), 0))

    def test_turns_and_draws(self):
        table = self.read(TWO_STEPS)
        root = table.root()
        self.assertEqual((root.names("one"), root.names("two")), (("left", "right"), ("-",)))
        self.assertEqual(root.chances(0, 0), (120120, 240240))
        low, high = (root.after(0, 0, draw) for draw in (0, 1))
        self.assertEqual((low.names("one"), low.names("two")), (("-",), ("up", "down")))
        self.assertEqual([low.after(0, move).payoff for move in (0, 1)], [2, -1])
        self.assertEqual([high.after(0, move).payoff for move in (0, 1)], [-1, 2])
        paid = root.play(one="right", two="-")
        self.assertEqual(paid.name, "other")
        self.assertEqual([paid.after(0, move).payoff for move in (0, 1)], [0, 2])
        self.assertEqual((root.rewards(0, 0), root.rewards(1, 0)), ((0, 0), (1,)))

    def test_moves_at_once(self):
        self.assertEqual(self.read(AT_ONCE), Table.from_matrix([[1, -1], [-1, 1]]))
        turned = AT_ONCE.replace("2 1 {", "3 1 {").replace("1 1 {", "2 1 {").replace("3 1 {",
                                                                                   "1 1 {")
        table = self.read(turned.replace('p "" 2 1 0', 'p "" 1 1 0'))
        self.assertEqual(table.listing, Table.from_matrix([[1, -1], [-1, 1]]).listing)
        uneven = AT_ONCE.replace('"H" "T" } 0\nt', '"H" } 0\nt').replace('t "" 2 "" { -1 1 }\n', "")
        uneven = uneven.replace('t "" 2\n', "")
        self.assertEqual(self.read(uneven).root().moves("two"), (0,))

    def test_a_draw_at_the_root(self):
        text = ('EFG 2 R "" { "One" "Two" } c "" 1 "" { "a" 1/14 "b" 13/14 } 0 t "" 1 "" { 1 -1 } '
                't "" 2 "" { 0 0 }')
        table = self.read(text)
        self.assertEqual((table.root().name, table.root().moves("one")), ("chance", (0,)))
        self.assertEqual(table.listing, ((((((1, 25740), (2, 334620)),),)), 1, 0))

    def test_written_games_are_worth_the_same(self):
        source = random.Random(31)
        games = [Table(random_listing(source)) for _ in range(60)]
        games += [Table.from_matrix([[Fraction(1, 3), 0], [0, 1]], ['a "b"', "c\\"], ["d", "e"]),
                  Table.repeated([[1, -1], [-1, 1]], 3), dosolve.Goofspiel([1, 2, 3], [1, 2, 3],
                                                                          [2, 1, 3]),
                  dosolve.GoofspielDrawn([1, 2, 3], [1, 2, 3], [2, 1, 3]),
                  dosolve.OshiZumo(1, 3, 3), dosolve.Tron(2, 3, [], 0, 5)]
        refused = 0
        for game in games:
            with tempfile.TemporaryDirectory() as folder, self.subTest(game.title()):
                file = Path(folder, "game.efg")
                dosolve.save_gambit(game, file)
                try:
                    again = Table.from_gambit(file)
                except NoTableError as fault:
                    # Draws of turns in which nobody chooses are one draw in a file.
                    self.assertIn("cannot be dealt out", str(fault))
                    refused += 1
                    continue
                self.assertEqual(self.worth(again), self.worth(game))
        self.assertLess(refused, 10)
        with tempfile.TemporaryDirectory() as folder:
            games[60].to_gambit(Path(folder, "game.efg"))
            again = Table.from_gambit(Path(folder, "game.efg"))
            self.assertEqual((again, again.scale), (games[60], 3))
            self.assertEqual(again.root().names("one"), ('a "b"', "c/"))
            with self.assertRaisesRegex(dosolve.InvalidError, "more than 200000 nodes"):
                dosolve.save_gambit(dosolve.OshiZumo(3, 20, 20), Path(folder, "game.efg"))

    def worth(self, game):
        """What players are worth that move at random, against each other and against the best, in
        payoffs of the rules."""
        even = [dosolve.plan(game, side, lambda state, side=side: [1] * len(state.moves(side)),
                             2**3 * 3**3 * 5 * 7 * 11) for side in dosolve.SIDES]
        worth = [dosolve.expected_of(*even), *(dosolve.respond(sheet).value for sheet in even)]
        return [value / game.scale for value in worth]

    def test_what_is_no_table(self):
        hidden = AT_ONCE.replace('p "" 2 1 0', 'p "" 2 2 { "H" "T" } 0').replace(
            'p "root" 1 1 { "H" "T" } 0', 'c "" 1 "" { "a" 1/2 "b" 1/2 } 0').replace(
            'p "" 2 2 { "H" "T" } 0', 'p "" 2 1 0')
        for text, words in (
                ("", "begins with NFG or EFG: it is empty"), ("XYZ 1 R \"\"", "it begins with 'XYZ'"),
                (PENNIES.replace('"Two"', '"Two" "Three"', 1), "this game has 3"),
                (PENNIES.replace("1 -1 -1 1 ", "1 -1 -1 2 "), "line 8: the game is not zero-sum: payoffs sum to 1 here, and to 0 before"),
                (PENNIES + "5", "'5' stands behind the end"),
                (PENNIES.replace("1 -1\n", ""), "line 8: expected a payoff, and the file ends"),
                (OUTCOMES.replace("2 1\n", "2 4\n"), "no outcome of some number"),
                (OUTCOMES.replace("1/2, 0.5", "1/2"), "1 payoffs for two"),
                (hidden, "line 3: player 2 does not tell 'a' from other nodes"),
                (AT_ONCE.replace('t "" 2\n', 't "" 7\n'), "the outcome 7 has no payoffs"),
                (AT_ONCE.replace('t "" 2\n', 'z "" 7\n'), "line 7: expected a node .*, not 'z'"),
                (AT_ONCE.replace("p \"\" 2 1 {", "p \"\" 3 1 {"), "no player 3"),
                (AT_ONCE[:-9], "line 7: expected the number of an outcome, and the file ends"), (AT_ONCE + "t", "behind the end"),
                (AT_ONCE.replace('{ 1 -1 }', '{ 1 -2 }'), "not zero-sum"),
                (AT_ONCE.replace('p "" 2 1 { "H" "T" } 0', 'p "" 2 1 0'), "has no actions")):
            with self.subTest(words), self.assertRaisesRegex(NoTableError, words):
                self.read(text)


if __name__ == "__main__":
    unittest.main()
