"""Games whose turns pay: prizes that are paid when they are won, tables with rewards and where they come from,
sums on the way in payoffs, matches, reports and pages. The program has to know rewards."""
import itertools
import math
import random
import tempfile
import unittest
from fractions import Fraction
from pathlib import Path
from types import SimpleNamespace
from unittest import mock

import dosolve
from dosolve import CHANCE, SCALE, SIDES, NoTableError, Table, openspiel
from support import random_game, random_listing
from table_support import Bids

ROCK = [[0, -1, 2], [1, 0, -1], [-2, 1, 0]]
MIXED = """dosolve report 3
game goofspiel 1,3 2,3 1,1 0 prizes
weight 65536
turns 1000
asked 0
resolution 62502
outcome closed
lower -500000
upper -500000
spent 3
one 3
268454140 1000000 65536
268470524 0 65536
335595772 -500000 32768 32768
two 4
67127548 -1000000 65536
67143932 -1000000 65536
268470524 0 65536
335595772 -500000 32768 32768
end
"""
TWO_STAGES = [[[[[1, CHANCE, 2]], 1], [1, [[1, CHANCE // 2, 1], [2, CHANCE // 2, -1]]]], [[2, 3], [3, 2]], 1, -1]


def even(game, side, weight=8192):
    """The plan that plays each move alike."""
    return dosolve.plan(game, side, lambda state: [1] * len(state.moves(side)), weight)


def worths(game):
    """What plans are worth that play each move alike, against each other and against the best, by the rules."""
    one, two = (even(game, side, 2**3 * 3**3 * 5 * 7 * 11) for side in SIDES)
    values = dosolve.expected_of(one, two), dosolve.respond(one).value, dosolve.respond(two).value
    return [game.of_rules(value) for value in values]


def paid_by_play(game, turns):
    """What the turns and the end of a play pay, state by state."""
    state, paid = game.root(), 0
    for turn in turns:
        one, two = state.move_labelled("one", turn.one), state.move_labelled("two", turn.two)
        paid += state.rewards(one, two)[turn.draw]
        state = state.after(one, two, turn.draw)
    return paid + state.payoff


class Laws(unittest.TestCase):
    def test_what_can_still_be_got_encloses_each_turn(self):
        source, paying = random.Random(1), 0
        for name in dosolve.GAMES:
            for _ in range(6):
                game = random_game(name, source)
                paying += game.has_rewards
                self.assertEqual(game.span, (game.root().least, game.root().most))
                for state in game.states():
                    with self.subTest(state=state):
                        self.holds(game, state)
        self.assertGreater(paying, 5)

    def holds(self, game, state):
        self.assertTrue(game.low <= state.least <= state.most <= game.high)
        self.assertEqual([state.opening(side) for side in SIDES], [SCALE * state.least, SCALE * state.most])
        if state.is_end:
            return self.assertTrue(state.least <= state.payoff <= state.most)
        for one, two in itertools.product(range(len(state.moves("one"))), range(len(state.moves("two")))):
            rewards = state.rewards(one, two)
            self.assertEqual(len(rewards), len(state.chances(one, two)))
            self.assertEqual(game.has_rewards or not any(rewards), True)
            for reward, (_, after) in zip(rewards, state.outcomes(one, two)):
                self.assertTrue(state.least <= reward + after.least)
                self.assertTrue(reward + after.most <= state.most)


class Prizes(unittest.TestCase):
    def test_worked_by_hand(self):
        game = dosolve.Goofspiel([1, 3], [2, 3], [1, 1], 0, "prizes")
        report = dosolve.Report.read(MIXED)
        self.assertEqual((report.game, report.text(), report.version), (game, MIXED, 3))
        self.assertEqual(dosolve.check(report).lower, -500_000)
        after = game.root().play(one=3, two=2)
        self.assertEqual((after.key, after.score, after.least, after.most), (67143932, 0, -1, 1))
        self.assertEqual((game.root().rewards(1, 0), game.root().rewards(0, 1)), ((1,), (-1,)))
        self.assertEqual(game.root().rewards(1, 1), (0,))
        self.assertEqual([report.sheet(side).bound(after) for side in SIDES], [-1_000_000] * 2)
        # Seen from the root it is -1 and the prize.
        self.assertEqual(report.stage(game.root())[1][0], (0, 0))
        self.assertEqual(dosolve.exploit(report, "one").payoff, Fraction(-1, 2))
        self.assertEqual(dosolve.nash_conv(report), 0)
        self.assertEqual(report.interval, (Fraction(-1, 2), Fraction(-1, 2)))

    def test_the_score_at_the_beginning_is_paid_at_the_end(self):
        for kind in (dosolve.Goofspiel, dosolve.GoofspielDrawn):
            game = kind([1, 2, 3], [1, 2, 4], [2, 5, 1], -7, "prizes")
            self.assertEqual((game.low, game.high), (-15, 1))
            self.assertEqual({state.payoff for state in game.states() if state.is_end}, {-7})
            for state in game.states():
                self.assertEqual(game.state(state.key), state)
                self.assertEqual((state.score, state.most - state.score), (-7, sum(state.left)))
            with self.assertRaisesRegex(dosolve.InvalidError, "has the key"):
                game.state(kind(game.one, game.two, game.prizes, -6, "prizes").root().key)

    def test_there_are_few_states(self):
        for count in range(1, 7):
            cards = range(1, count + 1)
            game = dosolve.Goofspiel(cards, cards, cards, 0, "prizes")
            states = list(game.states())
            self.assertEqual(len(states), math.comb(2 * count, count))
            self.assertEqual([len(states) - 1] * 2, [game.count_states(), game.most_states])
            drawn = dosolve.GoofspielDrawn(cards[:4], cards[:4], cards[:4], 0, "prizes")
            inner = sum(not state.is_end for state in drawn.states())
            self.assertEqual([inner] * 2, [drawn.count_states(), drawn.most_states])
        deck = range(1, 14)
        self.assertEqual(dosolve.Goofspiel(deck, deck, deck, 0, "prizes").most_states, 10_400_599)
        self.assertIs(dosolve.Goofspiel(deck, deck, deck, 0, "prizes").fits(), True)
        self.assertIs(dosolve.Goofspiel(deck, deck, deck, 0, "prizes").fits(1_048_576), False)

    def test_the_value_is_that_of_the_margin(self):
        source = random.Random(3)
        for kind in (dosolve.Goofspiel, dosolve.GoofspielDrawn):
            for _ in range(5):
                cards = source.randint(1, 3)
                given = [source.sample(range(1, 14), cards) for _ in range(2)]
                given += [[source.randint(1, 9) for _ in range(cards)], source.randint(-9, 9)]
                margin, prizes = kind(*given, "margin"), kind(*given, "prizes")
                with self.subTest(prizes.line()):
                    self.assertEqual(worths(prizes), worths(margin))
                    self.assertEqual(*(dosolve.bounds(dosolve.Position(game, workers=1)) for game in (prizes, margin)))
                    solved = [dosolve.solve(dosolve.Position(game, 10_000, 8192, 2000, workers=1, stages=stages))
                              for game in (prizes, margin) for stages in ("regret", "linear")]
                    self.assertLessEqual(max(each.lower for each in solved), min(each.upper for each in solved))

    def test_a_game_can_begin_in_each_state(self):
        for kind in (dosolve.Goofspiel, dosolve.GoofspielDrawn):
            game = kind([1, 2, 4], [1, 2, 3], [2, 5, 1], 3, "prizes")
            states = [state for state in game.states() if not state.is_end]
            for state in states[::3]:
                later = game.starting_at(state)
                self.assertEqual((later.low, later.high), (state.least, state.most))
                self.assertEqual(later.root().moves("one"), state.moves("one"))

    def test_positions_and_refusals(self):
        position = dosolve.Position(dosolve.Goofspiel([1, 2], [1, 2], [1, 2], 0, "prizes"), workers=1)
        self.assertIn('"pay":"prizes"', position.text())
        self.assertEqual(dosolve.Position.read(position.text()), position)
        with self.assertRaisesRegex(dosolve.InputRefusedError, "'margin' or 'win' or 'prizes'") as caught:
            dosolve.Goofspiel([1], [1], [1], 0, "prize")
        self.assertEqual(caught.exception.text, "input 15 range of pay")


class Versions(unittest.TestCase):
    def test_each_report_has_one_version(self):
        margin = MIXED.replace("prizes", "margin")
        drawn = MIXED.replace("goofspiel", "goofspiel_drawn")
        table = dosolve.Report.of(*(dosolve.Sheet(Table(TWO_STAGES), side, 8192) for side in SIDES)).text()
        five = table.replace(" 2,1,-1\n", "\n")
        for text, wanted in (
                (MIXED, None), (drawn, None), (table, None), (MIXED.replace("report 3", "report 1"), "report line 2"),
                (MIXED.replace("report 3", "report 2"), "report line 2"), (margin, "report head"),
                (margin.replace("report 3", "report 1"), None), (margin.replace("report 3", "report 2"), "report line 2"),
                (MIXED.replace("report 3", "report 4"), "report head"), (five, "report head"),
                (five.replace("report 3", "report 2"), None), (table.replace("report 3", "report 2"), "report line 2"),
                (table.replace("2,1,-1\n", "-\n"), "report number 2"), (table.replace("2,1,-1\n", "2,1,-1 1\n"), "report line 2"),
                (table.replace("2,1,-1\n", "2,1\n"), "report position 81"),
                (table.replace("2,1,-1\n", "2,1,1000001\n"), "report number 2"),
                (table.replace("2,1,-1\n", "4000,1,-1\n"), "report position 90"),
                (MIXED.replace(" prizes", " prizes 1"), "report line 2"), (margin + "x", "report tail"),
                (MIXED.replace("32768\ntwo", "32768" + " 0" * 62 + "\ntwo"), None),
                (MIXED.replace("32768\ntwo", "32768" + " 0" * 63 + "\ntwo"), "report line 14"),
                (MIXED.replace("one 3", "one 16777217"), "report number 11")):
            with self.subTest(text.splitlines()[:2]):
                found = self.told(text)
                self.assertEqual(found, wanted)
                if wanted is not None:
                    with self.assertRaises(dosolve.ReportRefusedError) as caught:
                        dosolve.check(text)
                    self.assertEqual(caught.exception.text, wanted)

    def told(self, text):
        """How a text is refused; None where it is a report, whose only spelling it is."""
        try:
            self.assertEqual(dosolve.Report.read(text).text(), text)
        except dosolve.ReportRefusedError as refused:
            return refused.text
        return None

    def test_lines_of_the_newest_version_have_wide_ranges(self):
        count = 1_100_000
        narrow = Table.line_settings(2)
        self.assertFalse(narrow[0].takes((0,) * count))
        self.assertTrue(Table.line_settings(3)[0].takes((0,) * count))
        self.assertFalse(Table([5]).is_new)
        self.assertTrue(Table([1] * 524_289).is_new)
        for place, value in ((0, (524_289,)), (1, (256,)), (2, (1_000_001,)), (3, (1_048_576,)), (4, (1_048_576,))):
            self.assertEqual((len(narrow), narrow[place].takes(value)), (5, False))
            self.assertEqual(Table.line_settings(3)[place].takes(value), place != 1)


class Programs(unittest.TestCase):
    def test_an_older_program_is_told(self):
        prizes = dosolve.Position(dosolve.Goofspiel([1], [1], [1], 0, "prizes"), workers=1)
        for position, text in ((prizes, "pay"), (dosolve.Position(Table(TWO_STAGES), workers=1), "states")):
            with tempfile.TemporaryDirectory() as folder:
                program = Path(folder, "program")
                program.write_text(f"#!/bin/sh\ncat > /dev/null; echo input 15 range of {text}; exit 2\n")
                program.chmod(0o755)
                with self.assertRaisesRegex(dosolve.InputRefusedError, "older than this package"):
                    dosolve.bounds(position, program=program)


class Tables(unittest.TestCase):
    def test_the_two_stages_of_the_page(self):
        table = Table(TWO_STAGES)
        self.assertEqual(table.totals, [(-1, 3), (-1, 1), (1, 1), (-1, -1)])
        self.assertEqual((table.low, table.high, table.span), (-1, 3, (-1, 3)))
        self.assertEqual(table.resolution(65536), 62_504)
        position = dosolve.Position(table, weight=65536, turns=1000, visits=1000, rows=1024, workers=1)
        self.assertEqual(dosolve.bounds(position), (-1_000_000, 1_000_000))
        report = dosolve.solve(position)
        self.assertTrue(report.lower <= 400_000 <= report.upper)
        self.assertLess(report.gap, 62_504)
        self.assertEqual(dosolve.Position.read(position.text()), position)
        self.assertEqual(report.game, table)
        self.assertIs(report.game, table)

    def test_functions_tell_what_turns_pay(self):
        moves = (lambda node: (["a", "b"], ["c"]) if node < 3 else None)
        both = Table.from_functions(0, moves, lambda node, one, two: node + 1, lambda node: 5,
                                    reward=lambda node, one, two: node if one == "a" else "-1/2")
        self.assertEqual((both.scale, both.listing[0]), (2, ((1,), (((1, CHANCE, -1),),))))
        self.assertEqual(both.listing[1], ((((2, CHANCE, 2),),), (((2, CHANCE, -1),),)))
        root = both.root()
        self.assertEqual([root.rewards(one, 0) for one in (0, 1)], [(0,), (-1,)])
        self.assertEqual([both.at(2).rewards(one, 0) for one in (0, 1)], [(4,), (-1,)])
        self.assertEqual((both.listing[-1], root.least, root.most), (10, 7, 16))
        drawn = Table.from_functions(
            0, lambda node: None if node else ([0], [0]), lambda *_: {1: 0.25, 2: 0.25, 3: 0.5},
            reward=lambda node, one, two, after: 6 if after < 3 else -2)
        # Ends of one payoff are one state, and draws to it that pay the same are one.
        self.assertEqual(drawn.listing, ((((((1, CHANCE // 2, 6), (1, CHANCE // 2, -2)),),)), 0))
        self.assertEqual(dosolve.respond(even(drawn, "one")).value, 2)

    def test_what_functions_cannot_tell(self):
        def made(**more):
            return Table.from_functions(0, lambda node: None if node else ([0], [0]), lambda node, one, two: 1, **more)

        for words, more in (("needs a function payoff", {}), ("reward is a function of", {"reward": lambda node: 0}),
                            (r"'x' is no payoff: reward\(0, 0, 0\)", {"reward": lambda node, one, two: "x"}),
                            (r"None is no payoff.*: reward\(0, 0, 0, 1\)", {"reward": lambda *given: None}),
                            ("of a play, summed, are as large as 4001", {"reward": lambda *_: 4000, "payoff": lambda _: 1}),
                            ("of a play, summed, are as large as", {"reward": lambda *_: Fraction(1, 4001), "payoff": int})):
            with self.subTest(words), self.assertRaisesRegex(NoTableError, words):
                made(**more)
        with self.assertRaises(ZeroDivisionError) as caught:
            made(reward=lambda node, one, two: 1 / node)
        self.assertIn("in reward(0, 0, 0)", caught.exception.__notes__[0])

    def test_sums_on_the_way_are_worth_what_summed_states_are(self):
        source = random.Random(9)
        for _ in range(12):
            rows, columns, rounds = source.randint(1, 3), source.randint(1, 3), source.randint(1, 3)
            matrix = [[source.choice([source.randint(-5, 5), Fraction(source.randint(-5, 5), 3)])
                       for _ in range(columns)] for _ in range(rows)]
            summed = Table.from_functions(
                (rounds, Fraction(0)), lambda node: (range(rows), range(columns)) if node[0] else None,
                lambda node, one, two: (node[0] - 1, node[1] + matrix[one][two]), lambda node: node[1])
            table = Table.repeated(matrix, rounds)
            self.assertEqual(worths(table), worths(summed))
            self.assertEqual(len(table.listing), rounds + 1)
            found = [dosolve.bounds(dosolve.Position(each, workers=1)) for each in (table, summed)]
            self.assertEqual(*([each.unscaled(number) for number in both]
                               for each, both in zip((table, summed), found)))

    def test_drawn_payoffs_of_a_round(self):
        table = Table.repeated([[[(1, Fraction(1, 3)), (-1, Fraction(2, 3))], 0]], 2)
        self.assertEqual(table.listing, (
            ((((1, 120120, 1), (1, 240240, -1)), 1),), ((((2, 120120, 1), (2, 240240, -1)), 2),), 0))
        self.assertEqual(dosolve.respond(even(table, "one")).value, Fraction(-2, 3))

    def test_a_table_of_31_rounds(self):
        table = Table.repeated(ROCK, 31, "RPS", "RPS")
        self.assertEqual((table.root().rank, table.high), (31, 62))
        report = dosolve.solve(dosolve.Position(table, weight=8192, turns=200, visits=1000, workers=1))
        self.assertTrue(report.lower <= 0 <= report.upper)
        self.assertEqual(dosolve.check(report).outcome, report.outcome)

    def test_rounded_rewards(self):
        source = random.Random(4)
        for _ in range(10):
            rounds = source.randint(1, 4)
            matrix = [[source.uniform(-9, 9) for _ in range(2)] for _ in range(2)]
            with self.assertRaisesRegex(NoTableError, "rounded=True"):
                Table.repeated(matrix, rounds)
            table = Table.repeated(matrix, rounds, rounded=True)
            self.assertTrue(max(abs(table.low), abs(table.high)) <= 4000)
            exact = rounds * sum(Fraction(cell) for row in matrix for cell in row) / 4
            self.assertLessEqual(abs(worths(table)[0] - exact), table.error)
            self.assertLess(table.error, Fraction(rounds, 100))

    def test_chances_that_are_dealt_out_pay_once(self):
        for count in (14, 52, 16):
            table = Table.from_functions(
                "root", lambda node: ([0], [0]) if node == "root" else None,
                lambda *_: {node: Fraction(1, count) for node in range(count)},
                reward=lambda node, one, two, after: after)
            self.assertEqual(dosolve.respond(even(table, "one")).value, Fraction(count - 1, 2))
        seventeen = Table.from_functions(
            "root", lambda node: ([0], [0]) if node == "root" else None,
            lambda *_: {node: Fraction(1, 17) for node in range(17)},
            reward=lambda node, one, two, after: after, rounded=True)
        self.assertLessEqual(abs(dosolve.respond(even(seventeen, "one")).value - 8), seventeen.error)
        self.assertGreater(seventeen.error, 0)

    def test_a_table_of_a_game_pays_as_the_game_does(self):
        source = random.Random(5)
        for name in ("goofspiel", "goofspiel_drawn", "table"):
            for _ in range(12):
                game = random_game(name, source)
                table = Table.from_game(game)
                self.assertEqual(worths(table), worths(game), game.line())

    def test_names_are_kept(self):
        table = Table.repeated([["1/2", 0], [0, 1]], 3, "ab", "cd")
        with tempfile.TemporaryDirectory() as folder:
            dosolve.Position(table, workers=1).save(Path(folder, "t.json"))
            kept = dosolve.Position.load(Path(folder, "t.json")).game
            self.assertEqual((kept, kept.state_names, kept.scale), (table, table.state_names, 2))
            self.assertEqual(kept.root().play(one="a", two="d").name, "2 rounds left")


class Markov(unittest.TestCase):
    STAGES = {"calm": [[0, 3], [1, 0], [0, 0]], "alert": [[-1, 3], [1, -1], [0, 0]]}
    UP = {"calm": 0.5, "alert": 0.5}
    WAYS = {"calm": [[UP, "calm"], ["calm", UP], ["calm", "calm"]],
            "alert": [[None, "alert"], ["alert", None], ["calm", "calm"]]}

    def test_it_is_the_game_of_its_functions(self):
        names = ["north", "south", "wait"], ["north", "south"]
        for start in ("calm", "alert"):
            table = Table.markov(self.STAGES, self.WAYS, 4, start, *names)
            told = Table.from_functions(
                (4, start), lambda node: names if node and node[0] else None,
                lambda node, one, two: self.after(node, names[0].index(one), names[1].index(two)),
                reward=lambda node, one, two: self.STAGES[node[1]][names[0].index(one)][names[1].index(two)])
            self.assertEqual(worths(table), worths(told))
            self.assertEqual(table, told)
            self.assertEqual((table.root().node, table.root().name), ((4, start), f"{start}, 4 rounds left"))
            self.assertEqual(table.root().names("one"), tuple(names[0]))
            self.assertEqual(len(table.listing), 8 if start == "alert" else 8)

    def after(self, node, one, two):
        """What follows, as functions tell it."""
        left, found = node[0] - 1, self.WAYS[node[1]][one][two]
        if isinstance(found, dict):
            return {(left, stage) if left else None: share for stage, share in found.items()} if left else None or (0,)
        return (left, found) if left and found else (0,)

    def test_stages_of_a_list_with_drawn_payoffs(self):
        table = Table.markov([[[[(2, 0.5), (0, 0.5)]]], [[-1]]], [[[[(0, "1/3"), (1, "2/3")]]], [[0]]], 2)
        self.assertEqual(table.root().names("one"), ("0",))
        self.assertEqual(dosolve.respond(even(table, "one")).value, Fraction(1) + Fraction(1, 3) - Fraction(2, 3))
        self.assertEqual(sorted(set(table.root().rewards(0, 0))), [0, 2])

    def test_one_stage_is_a_repeated_matrix(self):
        same = [[[0] * 3] * 3]
        self.assertEqual(Table.markov([ROCK], same, 4), Table.repeated(ROCK, 4))
        by_stage = Table.markov([ROCK], same, 2, one={0: "RPS"}, two="rps")
        self.assertEqual((by_stage.root().names("one"), by_stage.root().names("two")), (tuple("RPS"), tuple("rps")))

    def test_what_is_no_markov_game(self):
        for words, given in (
                ("rounds is 0", ([[[1]]], [[[0]]], 0)), ("rounds is 64", ([[[1]]], [[[0]]], 64)),
                ("stages is 5, and has to be a dict", (5, [[[0]]], 1)), ("stages is 'x'", ("x", [[[0]]], 1)),
                ("transitions is .., and", ([[[1]]], [], 1)), ("1 is no stage of both", ([[[1]]], [[[0]], [[0]]], 1)),
                ("'b' is no stage of both", ({"a": [[1]], "b": [[1]]}, {"a": [["a"]]}, 1)),
                ("start is 'c', which is no stage", ({"a": [[1]]}, {"a": [["a"]]}, 1, "c")),
                ("7 is no stage: after 0 and 1: in the stage 0", ([[[1, 2]]], [[[0, 7]]], 1)),
                ("transitions for 1 by 1 moves, and the matrix has 1 by 2: in the stage 0", ([[[1, 2]]], [[[0]]], 1)),
                ("'x' is no payoff: in row 0, column 0: in the stage 0", ([[["x"]]], [[[0]]], 1)),
                ("is no stage, and no stages with their chances", ([[[1]]], [[[[0, 1]]]], 1)),
                ("None is no stage, but", ({None: [[1]]}, {None: [[None]]}, 1)),
                ("chances sum to 0.5", ([[[1]]], [[[{0: 0.5}]]], 2))):
            with self.subTest(words), self.assertRaisesRegex(NoTableError, words):
                Table.markov(*given)


class PaidBids(Bids):
    """Goofspiel by OpenSpiel's calls whose turns pay the prizes."""

    last = 0

    def __str__(self):
        return repr((self.one, self.two, self.left, self.prize))

    def apply_actions(self, actions):
        before = self.score
        super().apply_actions(actions)
        self.last = self.score - before

    def rewards(self):
        assert not self.is_chance_node()
        return [float(self.last), float(-self.last)]


class OpenSpiel(unittest.TestCase):
    def test_rewards_are_what_turns_pay(self):
        for cards in ([1, 2], [1, 2, 3]):
            for first in cards:
                rest = [prize for prize in cards if prize != first]
                table = Table.from_openspiel(PaidBids(cards, first))
                game = dosolve.GoofspielDrawn(cards, cards, [first, *rest], 0, "prizes")
                self.assertEqual(worths(table), worths(game))
                self.assertEqual(table.most_states, game.count_states())
            summed = Table.from_openspiel(Bids(cards))
            self.assertEqual(worths(Table.from_openspiel(PaidBids(cards))), worths(summed))

    def test_states_of_the_package(self):
        source = random.Random(6)
        for name in ("goofspiel", "goofspiel_drawn", "table"):
            for _ in range(6):
                game = random_game(name, source)
                walked = Table.from_openspiel(openspiel.new_initial_state(game))
                self.assertEqual(worths(walked), worths(game), game.line())
        game = dosolve.Goofspiel([1, 2, 3], [1, 2, 3], [5, 1, 1], 4, "prizes")
        state = openspiel.new_initial_state(game)
        state.apply_actions([3, 1])
        self.assertEqual((state.rewards(), state.returns()), ([5, -5], [5, -5]))
        later = Table.from_openspiel(state)
        self.assertEqual(later.span, (2, 3))
        state.apply_actions([1, 2])
        copy = state.clone()
        self.assertEqual((copy.rewards(), copy.returns()), ([-1, 1], [4, -4]))
        copy.apply_actions([2, 3])
        self.assertEqual((copy.rewards(), copy.returns()), ([3, -3], [7, -7]))

    def test_a_game_that_says_that_ends_alone_pay_is_not_asked_for_rewards(self):
        class Ends(PaidBids):
            def get_game(self):
                kind = SimpleNamespace(information="PERFECT_INFORMATION", reward_model="RewardModel.TERMINAL")
                return SimpleNamespace(get_type=lambda: kind)

            def rewards(self):
                raise AssertionError("not asked")

            __str__ = Bids.__str__

        self.assertEqual(Table.from_openspiel(Ends([1, 2], 1)), Table.from_openspiel(Bids([1, 2], 1)))

    def test_what_is_no_table(self):
        class Odd(PaidBids):
            def rewards(self):
                return [float(self.last), 0.0]

        class Less(PaidBids):
            def returns(self):
                return [0.0, 0.0]

        class Later(PaidBids):
            def rewards(self):
                return [float(self.score), -float(self.score)]

        for words, game in (("rewards sum to", Odd([1, 2], 1)), ("not the sums of the rewards: in", Less([1, 2], 2)),
                            ("go on differently|not the sums", Later([1, 2, 3], 1))):
            with self.subTest(words), self.assertRaisesRegex(NoTableError, words):
                Table.from_openspiel(game)


class Gambit(unittest.TestCase):
    PAID = """EFG 2 R "Payoffs on the way" { "One" "Two" }
p "start" 1 1 "" { "l" "r" } 1 "entry" { 1 -1 }
p "left" 2 1 "" { "u" "d" } 2 "toll" { 3 -3 }
t "" 3 "won" { 1/2 -1/2 }
c "toss" 1 "" { "h" 1/2 "t" 1/2 } 4 "bonus" { -2 2 }
t "" 3
p "late" 1 2 "" { "x" "y" } 2
t "" 0
t "" 4
t "" 3
"""

    def read(self, text):
        with tempfile.TemporaryDirectory() as folder:
            file = Path(folder, "game.efg")
            file.write_text(text)
            return Table.from_gambit(file)

    def test_outcomes_on_the_way_are_what_turns_pay(self):
        table = self.read(self.PAID)
        root = table.root()
        self.assertEqual((table.scale, root.rewards(0, 0), root.rewards(1, 0)), (2, (8,), (2,)))
        left = root.play(one="l", two="-")
        self.assertEqual((left.rewards(0, 0), left.rewards(0, 1)), ((0,), (-4, 2)))
        late = left.play(one="-", two="d", draw=1)
        self.assertEqual(late.name, "late")
        self.assertEqual([late.after(move, 0).payoff for move in (0, 1)], [0, -4])
        # The values of both ways: 1 + 3 + min(1/2, (-2 + 1/2 + (-2 + 3 + 0)) / 2), and 1 + 1/2.
        plan = dosolve.plan(table, "one", lambda state: {0: 1}, 8192)
        self.assertEqual(table.of_rules(dosolve.respond(plan).value), 4 + Fraction(-1, 4))

    def test_written_games_are_worth_the_same(self):
        source = random.Random(31)
        games = [table for table in (Table(random_listing(source)) for _ in range(60)) if table.has_rewards]
        self.assertGreater(len(games), 10)
        games += [Table.repeated([[1, -1], [-1, "1/3"]], 3), Table(TWO_STAGES), Table.repeated([[2]], 3),
                  Table.repeated([[1, 2]], 2), Table.repeated([[1], [2]], 2), self.read(self.PAID),
                  dosolve.Goofspiel([1, 2, 3], [1, 2, 3], [2, 1, 3], 5, "prizes"),
                  dosolve.GoofspielDrawn([1, 2, 3], [1, 2, 4], [2, 1, 3], -1, "prizes")]
        for game in games:
            with tempfile.TemporaryDirectory() as folder, self.subTest(game.title()):
                dosolve.save_gambit(game, Path(folder, "game.efg"))
                try:
                    again = Table.from_gambit(Path(folder, "game.efg"))
                except NoTableError as fault:
                    # Draws of turns in which nobody chooses are one draw in a file.
                    self.assertIn("cannot be dealt out", str(fault))
                    continue
                self.assertEqual(worths(again), worths(game))


class Raid(dosolve.PythonGame):
    """Two rounds of a matrix, one of which is doubled at a toss."""

    name = "raid"
    low, high = -4, 8

    def start(self):
        return 2, 1

    def moves(self, node):
        return (["a", "b"], ["c", "d"]) if node[0] else None

    def after(self, node, one, two):
        return {(node[0] - 1, 1): Fraction(1, 2), (node[0] - 1, 2): Fraction(1, 2)}

    def payoff(self, node):
        return 0

    def turns_left(self, node):
        return node[0]

    def reward(self, node, one, two, after):
        return after[1] * (2 if (one, two) == ("a", "c") else -1 if one == "b" else 0)


class OwnGames(unittest.TestCase):
    def test_it_pays_as_its_table_does(self):
        game = Raid()
        table = Table.from_game(game)
        self.assertTrue(game.has_rewards and table.has_rewards)
        self.assertEqual(worths(table), worths(game))
        self.assertEqual(game.root().rewards(0, 0), (2, 4))
        match = dosolve.live_match(game, even(game, "one"), even(game, "two"), 400, 2)
        self.assertAlmostEqual(float(match.mean), float(worths(game)[0]), delta=5 * match.error)

    def test_a_reward_has_to_be_a_whole_number(self):
        class Half(Raid):
            def reward(self, node, one, two, after):
                return 0.5

        with self.assertRaisesRegex(dosolve.InvalidError, r"reward\(\(2, 1\), 'a', 'c', \(1, 1\)\) is 0.5, and has to"):
            Half().root().rewards(0, 0)


class Played(unittest.TestCase):
    def test_matches_sum_what_turns_and_ends_pay(self):
        source = random.Random(8)
        games = [random_game(name, source) for name in ("goofspiel", "goofspiel_drawn", "table") for _ in range(15)]
        games = [game for game in games if game.has_rewards and not game.root().is_end]
        self.assertGreater(len(games), 5)
        for game in games:
            report = dosolve.Report.of(*(even(game, side, 65536) for side in SIDES))
            played, live = dosolve.match(report, 2000, 3), dosolve.live_match(game, report.one, report.two, 2000, 3)
            for match in (played, live):
                self.assertEqual(match.payoff, paid_by_play(game, match.turns))
                self.assertTrue(game.span[0] <= match.least <= match.most <= game.span[1])
                self.assertLessEqual(abs(float(match.mean - dosolve.expected(report))), 6 * match.error + 1e-9)

    def test_turns_say_what_they_pay(self):
        table = Table.repeated([["1/2", -1]], 2, ["a"], ["c", "d"])
        match = dosolve.live_match(table, even(table, "one"), dosolve.plan(table, "two", lambda state: {0: 1}), 2)
        self.assertEqual(match.told(table), ["2 rounds left: a - c, pays 0.5", "1 round left: a - c, pays 0.5"])
        self.assertEqual(table.of_rules(match.payoff), 1)

    def test_players_are_measured(self):
        position = dosolve.Position(Table.repeated(ROCK, 3, "RPS", "RPS"), 1000, 65536, workers=1)
        solved = dosolve.solve(position)
        found = dosolve.measure(position, lambda side, state: {"R": 1}, "one", solved, games=100)
        self.assertEqual(found.worst.payoff, -3)
        self.assertAlmostEqual(found.exploitability / SCALE, 3, 2)
        self.assertEqual(dosolve.check(found.report).outcome, found.report.outcome)
        best = dosolve.best_response(found.report, "two")
        self.assertEqual((best.value, best.plan.named(position.game.root())["P"]), (-3, 1))
        table = dosolve.tournament({"rock": lambda side, state: {"R": 1},
                                    "even": lambda side, state: [1, 1, 1]}, [position])
        self.assertEqual({row["player"] for row in table.standings()}, {"rock", "even"})

    def test_bounds_that_no_plan_has_are_those_of_the_state(self):
        game = dosolve.Goofspiel([1, 2, 3], [1, 2, 3], [1, 2, 3], 0, "prizes")
        nothing = dosolve.Sheet(game, "one", 8192)
        report = dosolve.Report.of(nothing, dosolve.Sheet(game, "two", 8192))
        self.assertEqual((report.lower, report.upper, report.is_vacuous), (-6 * SCALE, 6 * SCALE, True))
        after = game.root().play(one=3, two=1)
        self.assertEqual(nothing.bound(after), -5 * SCALE)
        self.assertEqual(report.stage(game.root())[2][0], (-4, 6))
        self.assertEqual(dosolve.check(report).upper, 6 * SCALE)


class Shown(unittest.TestCase):
    def test_pages_have_what_turns_pay(self):
        from dosolve import explore

        report = dosolve.Report.of(*(even(Table(TWO_STAGES), side) for side in SIDES))
        data = explore.page(report).text
        self.assertIn('{"0":[2],"3":[1,-1]}', data)
        self.assertIn("Turns pay too, and are summed", data)
        prizes = dosolve.Report.read(MIXED)
        self.assertIn("each is paid when it is won", explore.page(prizes).text)

    def test_a_page_says_where_a_player_loses(self):
        from dosolve.explore.losses import player_plans

        position = dosolve.Position(Table.repeated(ROCK, 2, "RPS", "RPS"), 1000, 65536, workers=1)
        solved = dosolve.solve(position)
        rock = dosolve.plan(position.game, "one", lambda state: {"R": 1}, 65536)
        (plan,) = player_plans(solved, dosolve.Report.of(rock, solved.two))
        self.assertEqual(plan.visited[0].guarantee, -2)
        self.assertAlmostEqual(sum(loss.share for loss in plan.losses), 2, 2)

    def test_trees_have_what_turns_pay(self):
        from dosolve import pictures

        table = Table.repeated([["1/2", -1], [0, 1]], 2, "ab", "cd")
        report = dosolve.Report.of(*(even(table, side) for side in SIDES))
        steps = pictures._steps(table.root(), report)
        self.assertEqual([moves for moves, _, _ in steps],
                         ["a - c, pays 0.5", "a - d, pays -1", "b - c", "b - d, pays 1"])

    def test_an_axis_is_that_of_the_state(self):
        try:
            from dosolve import pictures

            pictures._blank(1, 1)
        except dosolve.DosolveError:
            self.skipTest("matplotlib is missing")
        report = dosolve.Report.read(MIXED)
        after = report.game.root().play(one=3, two=2)
        for key, end in ((None, 2), (after.key, 1)):
            low, high = pictures.figure(report, key).axes[2].get_xlim()
            self.assertTrue(1.2 * end > high > end and -1.2 * end < low < -end, (low, high))

    def test_a_gap_is_measured_by_the_payoffs_of_the_root(self):
        from dosolve.files import with_gap

        table = Table([[[[[2, CHANCE, 1]], 2]], [[[[2, CHANCE, 100]], 2]], 0])
        self.assertEqual((table.span, table.high), ((0, 1), 100))
        with self.assertRaisesRegex(dosolve.InvalidError, "a gap of 2 is no narrower than the range of payoffs, 1"):
            with_gap(dosolve.Position(table, workers=1), Fraction(2))

    def test_long_tables_are_refused_while_they_are_made(self):
        asked = []

        def moves(node):
            asked.append(node)
            return (range(4), range(4)) if node[0] else None

        with mock.patch("dosolve.tables.making.WIDE", mock.Mock(bytes=10_000)), \
                self.assertRaisesRegex(NoTableError, "more than 10000 bytes"):
            Table.from_functions((5, 0), moves, lambda node, one, two: (node[0] - 1, 16 * node[1] + 4 * one + two),
                                 reward=lambda node, one, two: one - two)
        self.assertLess(len(asked), 2000)


if __name__ == "__main__":
    unittest.main()
