"""Tables as listings and as lists: how they stand for each other, and what is refused."""
import json
import pickle
import random
import unittest
from unittest import mock

import dosolve
from dosolve import Table
from dosolve.tables.lists import listed, nested, spelled
from support import random_listing
from table_support import PENNIES, STAGES


class Listings(unittest.TestCase):
    def test_the_lists_of_the_page(self):
        self.assertEqual(Table(PENNIES).line(), "table 1,0,0 2,2,0,0,0,0 0,1,-1 1,2,2,1 -")
        self.assertEqual(Table(STAGES).line(),
                         "table 2,1,1,0,0,0,0 2,2,2,2,2,2,0,0,0,0,0,0,0,0 0,4,8,5,1,-1,-5 "
                         "2,-1,-3,1,3,6,6,3,3,4,5,6 2,120120,5,240240,1,90090,6,270270")
        self.assertEqual((Table(PENNIES).resolution(65536), Table(STAGES).resolution(65536)),
                         (15626, 156254))

    def test_lists_and_listings_stand_for_each_other(self):
        source = random.Random(1)
        for _ in range(300):
            table = Table(random_listing(source))
            self.assertEqual(nested(listed(table.listing)), spelled(table.listing))
            fields = table.line().split(" ")[1:]
            numbers = [tuple(map(int, field.split(","))) if field != "-" else ()
                       for field in fields]
            self.assertEqual(Table.of_line(*numbers), table)

    def test_one_draw_is_not_a_number(self):
        one, other = Table([[[1]], 3]), Table([[[[[1, 360360]]]], 3])
        self.assertNotEqual(one, other)
        self.assertTrue(one.chance_free and other.chance_free)
        self.assertEqual(other.line(), "table 1,0 1,1,0,0 0,3 -1 1,360360")
        self.assertFalse(Table(STAGES).chance_free)

    def test_rewards_have_one_meaning_however_they_are_written(self):
        def made(*cell):
            return Table([[[list(cell), 1]], [[2, 3]], 1, -1])

        same = made([1, 180180, 2], [2, 180180]), made([1, 180180, 2], [2, 180180, 0])
        zero = made([1, 180180, 0], [2, 180180]), made([1, 180180], [2, 180180, 0])
        none = made([1, 180180], [2, 180180])
        for one, other in (same, zero):
            self.assertEqual((one, hash(one), one.line()), (other, hash(other), other.line()))
            self.assertNotEqual(one.listing, other.listing)
            self.assertEqual(Table.of_line(*one.lists.told()), one)
            self.assertEqual(one.starting_at(one.root()), one)
        self.assertEqual(same[0].line().split(" ")[6:], ["2,0"])
        self.assertEqual(zero[0].line().split(" ")[6:], ["0,0"])
        self.assertEqual(len(none.line().split(" ")), 6)
        self.assertEqual(len({same[0], zero[0], none}), 3)
        # Where the list of rewards is there, each state has its own least and greatest sum.
        self.assertEqual([(each.low, each.high) for each in (same[0], zero[0], none)],
                         [(-1, 3), (-1, 1), (-1, 1)])
        self.assertEqual(zero[0].state(2).opening("one"), 1_000_000)
        self.assertEqual(none.state(2).opening("one"), -1_000_000)
        self.assertEqual(same[0].root().rewards(0, 0), (2, 0))
        later = same[0].starting_at(same[0].state(1))
        self.assertEqual((later.listing, later.has_rewards), (((((1, 2),)), 1, -1), False))

    def test_states_are_like_those_of_other_games(self):
        root = Table(STAGES).root()
        self.assertEqual((root.key, root.rank, root.is_end), (0, 2, False))
        self.assertEqual(root.moves("one"), (0, 1))
        self.assertEqual(root.chances(0, 1), (120120, 240240))
        self.assertEqual([(chance, after.key) for chance, after in root.outcomes(0, 1)],
                         [(120120, 2), (240240, 5)])
        end = root.play(one=0, two=1, draw=1)
        self.assertEqual((end.payoff, end.rank, end.moves("two")), (-1, 0, ()))
        self.assertEqual((root.game.low, root.game.high, root.game.most_moves), (-5, 5, 2))
        self.assertEqual({state.key for state in root.game.states()}, set(range(7)))
        self.assertEqual(repr(root), "TableState(0)")
        for call in (lambda: root.payoff, lambda: root.after(0, 2), lambda: root.after(0, 0, 1),
                     lambda: root.game.state(7), lambda: root.game.state(-1)):
            with self.assertRaises(dosolve.InvalidError):
                call()

    def test_equal_tables(self):
        one, other = Table(PENNIES), Table(json.loads(json.dumps(PENNIES)), ["a", "b", "c"])
        self.assertEqual((one, hash(one)), (other, hash(other)))
        self.assertIs(one.listing, other.listing)
        self.assertEqual(one.root(), other.root())
        self.assertNotEqual(one, Table([[[1, 2], [2, 2]], 1, -1]))
        self.assertNotEqual(one, dosolve.Tron(1, 2, [], 0, 1))
        self.assertEqual(pickle.loads(pickle.dumps(other)), one)


class Refusals(unittest.TestCase):
    def refused(self, listing, text, words=""):
        with self.subTest(text), self.assertRaisesRegex(dosolve.InputRefusedError, words) as found:
            Table(listing)
        self.assertEqual(found.exception.text, text)
        return found.exception

    def test_kinds_come_before_ranges(self):
        for listing, words in (
                (5, "has to be a list of states"), (["x"], r"states\[0\] is 'x'"),
                ([[1]], r"states\[0\]\[0\] is 1, and has to be a list of cells"),
                ([[["x"]]], r"states\[0\]\[0\]\[0\] is 'x'"), ([[[[1]]]], "list of whole num"),
                ([[[[[1, 2.0]]]]], "list of whole num"), ([True], "is True"), ([1.0], "is 1.0"),
                ([[[[[1, 360360, "2"]]]], 0], "out of 360360 and, where the turn pays, what One"),
                ([[[[[1, 360360, None]]]], 0], "list of whole"),
                ([2000000, "x"], r"states\[1\] is 'x'"), ({0: 1}, "has to be a list of states")):
            self.refused(listing, "input 14 kind of states", words)

    def test_ranges(self):
        for listing, words in (
                ([1_000_001], r"states\[0\] is 1000001"), ([[[-1]]], "is -1"),
                ([[[16_777_216]]], "from 0 to 16777215"), ([[[[[1, 2, 3, 4]]]]], "two numbers from 0"),
                ([[[[[1, 360360, 1_000_001]]]], 0],
                 r"states\[0\]\[0\]\[0\]\[0\]\[2\] is 1000001, .* from -1000000 to 1000000"),
                ([[[[[1, 360360, -1_000_001]]]], 0], "is -1000001"),
                ([[[[[]]]]], "two numbers"), ([[[[[0, 16_777_216]]]]], "two numbers"),
                ([[[1]] * 256, 0], "at most 255 rows"), ([[[1] * 256], 0], "at most 255 rows"),
                ([[[[[1, 1]] * 256]], 0], "at most 255 draws")):
            self.refused(listing, "input 15 range of states", words)
        with mock.patch("dosolve.tables.lists.MOST_WIDE_STATES", 5):
            self.refused([0] * 6, "input 15 range of states", "6 states with 0 cells are more than 5")
            self.refused([[[1] * 6], 0], "input 15 range of states", "2 states with 6 cells")

    def test_each_rule_in_order(self):
        half, wide = [[1, 180180], [2, 180180]], [[1] * 65]
        for listing, text, words in (
                ([], "82 no states", "at least one state"),
                ([[[1]], 4001], "83 payoff range 1", "the payoff 4001 of the state 1"),
                ([[[1]] * 65, 4000], "84 rows range 0", "1 to 64 rows"),
                ([[], 4000], "84 rows range 0", "1 to 64 rows"),
                ([[[1]], [], 0], "84 rows range 1", "the state 1"),
                ([[[1], [1, 1]], 0], "85 cells range 0", "equally many"),
                ([[[], []], 0], "85 cells range 0", "1 to 64 cells"),
                ([wide, 0], "85 cells range 0", "1 to 64 cells"),
                ([[[1, []]], 0], "86 draws range 0 0 1", r"cell states\[0\]\[0\]\[1\] has 0 draws"),
                ([[[[[1, 27720]] * 14]], 0], "86 draws range 0 0 0", "has 14 draws"),
                ([[[1, 1], [1, [[1, 180180], [2, 180181]]]], 0, 1], "87 weights 0 1 1",
                 "180180, 180181"),
                ([[[[[1, 360360], [2, 0]]]], 0, 1], "87 weights 0 0 0", "weights from 1"),
                ([[[1], [0]], 0], "88 order 0 1 0", "leads to the state 0"),
                ([[[1], [2]], 0], "88 order 0 1 0", "of the 2 that there are"),
                ([[[half]], 0], "88 order 0 0 0", "leads to the state 2"),
                ([*([[next_one]] for next_one in range(1, 65)), 0], "89 turns 0", "takes 64 turns"),
                ([[[[[1, 360360, 1]]]], 4000], "90 total 0", "can get from 4001 to 4001, and has to"),
                ([[[[[2, 360360, 1]]]], [[[[2, 360360, -1]]]], -4000], "90 total 1", "-4001 to"),
                ([[[2]], [[[[2, 360360, -1]]]], -4000], "90 total 1", "the state 1 on"),
                ([[[[[1, 360360, 1]]]], 4001], "83 payoff range 1", ""),
                ([[[[[0, 360360, 4001]]]], 0], "88 order 0 0 0", "")):
            found = self.refused(listing, f"input {text}", words)
            self.assertEqual((found.field, found.code), ("states", int(text.split()[0])))
            self.assertEqual(found.place, tuple(map(int, [word for word in text.split()[1:]
                                                          if word.isdecimal()])))
        self.assertEqual(Table([*([[next_one]] for next_one in range(1, 64)), 0]).root().rank, 63)

    def test_lists_that_do_not_fit(self):
        good = [(1, 0, 0), (2, 2, 0, 0, 0, 0), (0, 1, -1), (1, 2, 2, 1), ()]
        drawn = [(1, 0, 0), (1, 1, 0, 0, 0, 0), (0, 1, -1), (-1,), (1, 180180, 2, 180180)]
        self.assertEqual(Table.of_line(*good), Table(PENNIES))
        self.assertEqual(Table.of_line(*drawn).listing[0], (((((1, 180180), (2, 180180))),),))
        for lists, place, value, code in (
                (good, 1, (2, 2, 0, 0, 0), 81), (good, 2, (0, 1), 81), (good, 4, (1,), 81),
                (good, 1, (2, 2, 1, 0, 0, 0), 81), (good, 1, (2, 2, 0, 1, 0, 0), 81),
                (good, 2, (1, 1, -1), 81), (good, 3, (1, 2, 2), 81), (good, 4, (1, 2), 81),
                (drawn, 3, (-2,), 81), (drawn, 3, (1,), 81), (good, 3, (1, 2, 2, -1), 86),
                (drawn, 4, (1, 180180, 2, 180181), 87), (good, 3, (1, 2, 2, 0), 88),
                (good, 0, (2, 0, 0), 89), (good, 2, (0, 1, -4001), 83),
                ([*drawn, ()], 5, (1,), 81), ([*drawn, ()], 5, (1, 2, 3), 81),
                ([*good, ()], 5, (1,), 81), ([*drawn, ()], 5, (4000, 0), 90)):
            changed = list(lists)
            changed[place] = value
            with self.subTest(changed), self.assertRaises(dosolve.InputRefusedError) as found:
                Table.of_line(*changed)
            self.assertEqual(found.exception.code, code)
        paid = Table.of_line(*drawn, (2, 0))
        self.assertEqual(paid.listing[0], (((((1, 180180, 2), (2, 180180)),),)))
        self.assertEqual(Table.of_line(*drawn, ()), Table.of_line(*drawn))
        self.assertNotEqual(Table.of_line(*drawn, (0, 0)), Table.of_line(*drawn))
        for code in range(81, 91):
            self.assertTrue(dosolve.ReportRefusedError(f"report position {code}").hint)
            self.assertTrue(dosolve.InputRefusedError(f"input {code} x").hint)

    def test_names_have_to_fit(self):
        for more, words in (({"state_names": ["a"]}, "1 names of states for 3 states"),
                            ({"nodes": [1, 2]}, "2 nodes for 3 states"),
                            ({"move_names": [((), ())] * 3}, "have to be 2 and 2 different ones"),
                            ({"move_names": [(("a", "a"), ("b", "c")), ((), ()), ((), ())]},
                             "different ones")):
            with self.assertRaisesRegex(dosolve.InvalidError, words):
                Table(PENNIES, **more)


if __name__ == "__main__":
    unittest.main()
