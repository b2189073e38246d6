"""Tables made of matrices, functions and games of the package."""
import random
import unittest
from fractions import Fraction

import dosolve
from dosolve import NoTableError, Table
from support import random_game
from table_support import PENNIES, Nim
from test_exact import Matching


class Making(unittest.TestCase):
    def refused(self, words, call, *given, **more):
        with self.subTest(words), self.assertRaisesRegex(NoTableError, words):
            call(*given, **more)

    def test_matrices(self):
        self.assertEqual(Table.from_matrix([[1, -1], [-1, 1]]), Table(PENNIES))
        table = Table.from_matrix([[Fraction(1, 3), 0.5], ["1/4", 1]], ["top", "bottom"])
        self.assertEqual((table.scale, table.listing[1:]), (12, (12, 6, 4, 3)))
        self.assertEqual(table.root().names("one"), ("top", "bottom"))
        self.assertEqual(table.root().names("two"), ("0", "1"))
        self.assertEqual(table.state_names[1:], ("payoff 1", "payoff 1/2", "payoff 1/3",
                                                 "payoff 1/4"))
        self.assertEqual(table.unscaled(4_000_000), Fraction(1, 3))
        wide = Table.from_matrix([[80000, -40000], [-40000, 40000]])
        self.assertEqual((wide.scale, wide.listing[1:]), (Fraction(1, 40000), (2, 1, -1)))
        drawn = Table.from_matrix([[[(1, Fraction(1, 3)), (-1, Fraction(2, 3))], 0]])
        self.assertEqual(drawn.listing, (((((1, 120120), (3, 240240)), 2),), 1, 0, -1))

    def test_what_is_no_matrix(self):
        for given, words in (([[4001, 1]], "as large as 4001"),
                             ([[1], [1, 2]], "row 1 .* has the length 2, and row 0 has 1"),
                             ([], "the matrix is empty"), ([[]], "the matrix is empty"),
                             ([[1] * 65], "1 by 65 moves"), (5, "a list of rows"),
                             ([5], "a list of rows"), ([["x"]], "'x' is no payoff"),
                             ([[float("nan")]], "nan is no payoff"), ([[True]], "True is no"),
                             ([[0.1234567891234]], "near no fraction"), ([["1/0"]], "no payoff"),
                             ([[[(1, 0.5), (2, 0.4)]]], "sum to 0.9"),
                             ([[[(1, 1.5), (2, -0.5)]]], "must not be negative"),
                             ([[Fraction(1, 4001)]], None)):
            if words is None:
                self.assertEqual(Table.from_matrix(given).listing[1], 1)
            else:
                self.refused(words, Table.from_matrix, given)
        self.refused("1 names for 2 moves of player one", Table.from_matrix, [[1], [2]], ["a"])
        self.refused("as large as", Table.from_matrix, [[Fraction(1, 4001), 1]])

    def test_names_that_are_the_same_get_numbers(self):
        table = Table.from_matrix([[1, 2]], ["only"], ["a", "a"])
        self.assertEqual(table.root().names("two"), ("a #0", "a #1"))

    def test_rounds(self):
        table = Table.repeated([[1, -1], [-1, 1]], 3, "HT", "HT")
        self.assertEqual((table.root().rank, table.root().name), (3, "3 rounds left"))
        after = table.root().play(one="H", two="H").play(one="H", two="T")
        self.assertEqual((after.name, after.node), ("1 round left", 1))
        self.assertEqual((table.at(1), len(table.listing)), (after, 4))
        self.assertEqual(Table.repeated([[1, -1], [-1, 1]], 63).root().rank, 63)
        self.refused("rounds is 64, .* from 1 to 63", Table.repeated, [[1, -1], [-1, 1]], 64)
        self.refused("rounds is 0", Table.repeated, [[1]], 0)

    def test_a_game_that_does_not_end_is_refused_at_once(self):
        asked = []

        def moves(node):
            asked.append(node)
            return ["a", "b"], ["c", "d"]

        for after in (lambda node, one, two: node + 1, lambda node, one, two: (node, one, two),
                      lambda node, one, two: {node + 1: 0.5, node + 2: 0.5},
                      lambda node, one, two: [(node + draw, Fraction(1, 16))
                                              for draw in range(1, 17)]):
            asked.clear()
            self.refused("goes on for more than 63 turns, at .*: let moves return None where it "
                         "ends$", Table.from_functions, 0, moves, after, int)
            self.assertLessEqual(len(asked), 64)

        def counted(turns, step=lambda node, one: node + 1):
            return Table.from_functions(0, lambda node: None if node >= turns else (["a", "b"], ["c"]),
                                        lambda node, one, two: step(node, one), lambda node: 0)

        self.assertEqual(counted(63).root().rank, 63)
        self.refused("more than 63 turns, at 63: let moves", counted, 64)
        self.refused("takes up to 80 turns", counted, 80, lambda node, one: node + 1 + (one == "a"))
        self.refused("more than 63 turns, at .*: a table has to end before", Table.from_openspiel,
                     Nim(200))

    def test_chances_are_dealt_out(self):
        for count, levels in ((13, 1), (14, 2), (16, 2), (52, 2), (36, 2), (1001, 3), (784, 4)):
            ends = {node: node % 3 for node in range(count)}
            table = Table.from_functions(
                "root", lambda node: ([0], [0]) if node == "root" else None,
                lambda node, one, two: dict.fromkeys(ends, Fraction(1, count)), ends.get)
            want = Fraction(sum(ends.values()), count)
            self.assertEqual(self.mean(table.root()), want)
            self.assertLessEqual(table.root().rank, levels)

    def mean(self, state):
        """The exact payoff of a game without choices."""
        if state.is_end:
            return Fraction(state.payoff)
        return sum(Fraction(chance, dosolve.CHANCE) * self.mean(after)
                   for chance, after in state.outcomes(0, 0))

    def test_chances_that_are_no_parts(self):
        uneven = [(1, Fraction(1, 16)), (2, Fraction(15, 16))]

        def made(outcomes, **more):
            return Table.from_functions(0, lambda node: None if node else ([0], [0]),
                                        lambda *_: list(outcomes), lambda node: node, **more)

        self.refused("2 chances cannot be dealt out .*1/16 is none", made, uneven)
        table = made(uneven, rounded=True)
        self.assertAlmostEqual(float(self.mean(table.root())), 31 / 16, 5)
        self.refused("17 chances", made, [(node + 1, Fraction(1, 17)) for node in range(17)])
        many = made([(node + 1, Fraction(1, 17)) for node in range(17)], rounded=True)
        self.assertAlmostEqual(float(self.mean(many.root())), 9, 3)
        self.assertEqual(many.state_names.count("chance"), sum(
            node is None for node in many.nodes))
        small = made([(1, Fraction(1, 10**6)), (2, 1 - Fraction(1, 10**6))], rounded=True)
        self.assertEqual(small.root().chances(0, 0), (1, 360359))
        self.refused("sum to 0.5", made, [(1, 0.5)])
        self.refused("sum to 0.0", made, [])
        self.refused("no list of pairs", made, [1])

    def test_functions(self):
        table = Table.from_functions(
            (2, 0), lambda node: (["up", "down"], []) if node[0] else None,
            lambda node, one, two: (node[0] - 1, node[1] + (1 if one == "up" else -1)),
            lambda node: Fraction(node[1], 2), name=lambda node: f"sum {node[1]}")
        root = table.root()
        self.assertEqual((root.names("one"), root.names("two"), root.name),
                         (("up", "down"), ("-",), "sum 0"))
        self.assertEqual(root.play(one="up", two="-").name, "sum 1")
        self.assertEqual((table.scale, table.low, table.high), (1, -1, 1))
        with self.assertRaisesRegex(dosolve.InvalidError, "no move 'left' in .*'up', 'down'"):
            root.play(one="left", two="-")
        with self.assertRaisesRegex(dosolve.InvalidError, "no state of the table was made of"):
            table.at((7, 7))

    def test_none_can_be_a_node(self):
        share = Fraction(1, 17)
        table = Table.from_functions(
            None, lambda node: (["a", "b"], ["c"]) if node is None else None,
            lambda node, one, two: dict.fromkeys(range(17), share), int, rounded=True)
        self.assertEqual((table.root().name, table.at(None)), ("None", table.root()))
        self.assertEqual(set(table.state_names[1:]) & {"None", "chance"}, {"chance"})

    def test_what_functions_cannot_tell(self):
        both = ([0], [0])
        for words, given in (
                ("comes back to 0", (0, lambda n: both, lambda n, a, b: n ^ 1, int)),
                ("comes back to 0", (0, lambda n: both, lambda n, a, b: n, int)),
                ("not hashable", ([0], lambda n: None, None, len)),
                ("not hashable", (0, lambda n: both, lambda n, a, b: {1}, int)),
                (r"moves\(0\) is 5, and has to be", (0, lambda n: 5, None, int)),
                ("65 by 1 moves", (0, lambda n: None if n else (range(65), [0]),
                                   lambda n, a, b: 1, int)),
                ("'x' is no payoff", (0, lambda n: None, None, lambda n: "x"))):
            self.refused(words, Table.from_functions, *given)

    def test_games_of_the_package(self):
        source = random.Random(5)
        for name in ("goofspiel", "goofspiel_drawn", "oshi_zumo", "tron", "pursuit"):
            for _ in range(5):
                game = random_game(name, source)
                table = Table.from_game(game)
                self.same(game.root(), table.root(), {})

    def test_a_game_of_ones_own(self):
        table = Table.from_game(Matching())
        self.assertEqual(table, Table(PENNIES))
        self.assertEqual(table.root().play(one=0, two=1).payoff, -1)
        with self.assertRaisesRegex(dosolve.InvalidError, "Table.from_game makes a table of it"):
            dosolve.Position(Matching())

    def same(self, theirs, ours, seen):
        """That two states go on alike, move by move and draw by draw."""
        if seen.setdefault(theirs.key, ours) != ours:
            self.fail(f"{theirs} is {ours} and {seen[theirs.key]}")
        self.assertEqual(theirs.is_end, ours.is_end)
        if theirs.is_end:
            return self.assertEqual(theirs.payoff, ours.payoff)
        self.assertTrue(theirs.least <= ours.least <= ours.most <= theirs.most)
        self.assertEqual((ours.node, ours.name), (theirs, str(theirs)))
        for side in dosolve.SIDES:
            self.assertEqual(theirs.names(side), ours.names(side))
        for one in range(len(theirs.moves("one"))):
            for two in range(len(theirs.moves("two"))):
                self.assertEqual(theirs.rewards(one, two), ours.rewards(one, two))
                pairs = zip(theirs.outcomes(one, two), ours.outcomes(one, two), strict=True)
                for (chance, their), (weight, our) in pairs:
                    self.assertEqual(chance, weight)
                    if their.key not in seen:
                        self.same(their, our, seen)


if __name__ == "__main__":
    unittest.main()
