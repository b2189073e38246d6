"""The narrow and the wide limits: what each stages allow, keys and reports of wide games, long tables; and what `Position`
asks for where nothing is said."""
import dataclasses
import json
import random
import subprocess
import unittest
from unittest import mock

import dosolve
from dosolve import limits
from dosolve.limits import NARROW, WIDE

ASKED = {"gap": 0, "weight": 65536, "turns": 0, "visits": 100, "rows": 1000, "workers": 1}
GRID = [node for row in range(8) for column in range(8) for near in ((row, column + 1), (row + 1, column))
        if max(near) < 8 for node in (8 * row + column, 8 * near[0] + near[1])]


def star(nodes):
    """A graph whose first node is beside all others."""
    return [node for other in range(1, nodes) for node in (0, other)]


def fields(game, **more):
    return json.dumps({"game": game} | ASKED | more).encode()


def oshi_zumo(**more):
    return fields("oshi_zumo", **({"size": 1, "one": 4, "two": 4, "least": 1, "place": 0} | more))


def pursuit(**more):
    return fields("pursuit", **({"nodes": 3, "edges": [0, 1, 1, 2], "one": 0, "two": 2, "rounds": 2} | more))


def table(states, **more):
    return fields("table", states=states, **more)


def square(moves):
    """A table of one turn with equally many moves of both."""
    return [[[1 + (one == two) for two in range(moves)] for one in range(moves)], -1, 1]


def line(turns):
    """A table of so many turns, one after the other."""
    return [*([[turn + 1]] for turn in range(turns)), 3]


def said(data):
    """What the program says of a position that it refuses, else nothing."""
    run = subprocess.run([dosolve.find_program(), "bounds"], input=data, capture_output=True, check=False)
    return run.stdout.decode().strip() if run.returncode == 2 else ""


def refused(data):
    """What the package says of a position that it refuses, else nothing."""
    try:
        dosolve.Position.read(data)
    except dosolve.InputRefusedError as refusal:
        return refusal.text
    return ""


class Names(unittest.TestCase):
    def test_both_limits_have_names(self):
        self.assertEqual(dataclasses.astuple(NARROW), (1_048_576, 32, 31, 31, 32, 1_048_575, 1_048_576))
        self.assertEqual(dataclasses.astuple(WIDE), (16_777_216, 64, 63, 63, 64, 16_777_215, 67_108_864))
        for name in ("ROWS", "MOVES", "RANK", "COINS", "NODES", "ROUNDS", "POSITION_BYTES"):
            self.assertLess(getattr(limits, f"MOST_{name}"), getattr(limits, f"MOST_WIDE_{name}"))
        game = dosolve.Tron(2, 2, [], 0, 3)
        self.assertIs(dosolve.Position(game, stages="regret").limits, NARROW)
        self.assertIs(dosolve.Position(game).limits, WIDE)


class Refusals(unittest.TestCase):
    def test_each_limit_and_one_beyond_it_with_both_stages(self):
        """The refusal of each pair, the wide limit, and one beyond it; the narrow limit, and one beyond that."""
        for told, make, narrow, wide in (
                ("input 15 range of rows", lambda most: oshi_zumo(rows=most), NARROW.rows, WIDE.rows),
                ("input 32 coin range", lambda most: oshi_zumo(one=most, least=20), NARROW.coins, WIDE.coins),
                ("input 33 least range", lambda most: oshi_zumo(least=most), NARROW.coins, WIDE.coins),
                ("input 71 nodes range", lambda most: pursuit(nodes=most), NARROW.nodes, WIDE.nodes),
                ("input 76 rounds range", lambda most: pursuit(rounds=most), NARROW.rank, WIDE.rank),
                ("input 84 rows range 0", lambda most: table([[[1]] * most, 1]), NARROW.moves, WIDE.moves),
                ("input 85 cells range 0", lambda most: table([[[1] * most], 1]), NARROW.moves, WIDE.moves),
                ("input 89 turns 0", lambda most: table(line(most)), NARROW.rank, WIDE.rank)):
            linear = {"stages": "linear"}
            for most, more, wanted in ((narrow, {}, ""), (narrow + 1, {}, told), (narrow + 1, linear, ""), (wide, linear, ""),
                                       (wide + 1, linear, told), (wide, {"search": "induction"}, told)):
                data = json.dumps(json.loads(make(most)) | more).encode()
                with self.subTest(told, most=most, more=more):
                    self.assertEqual((refused(data), said(data)), (wanted, wanted))

    def test_a_number_of_states_has_the_range_of_the_limits(self):
        for number, stages, wanted in ((NARROW.number, "regret", "88 order 0 0 0"), (NARROW.number + 1, "regret", "15 range of states"),
                                       (WIDE.number, "linear", "88 order 0 0 0"), (WIDE.number + 1, "linear", "15 range of states")):
            data = table([[[number]], 1], stages=stages)
            self.assertEqual((refused(data), said(data)), (f"input {wanted}",) * 2)

    def test_a_wide_game_asks_for_linear_stages(self):
        for game, told in ((dosolve.OshiZumo(3, 40, 20), "32 coin range"), (dosolve.OshiZumo(3, 20, 20, 40), "33 least range"),
                           (dosolve.Pursuit(64, GRID, 0, 63, 31), "71 nodes range"), (dosolve.Pursuit(2, [0, 1], 0, 0, 32), "76 rounds range"),
                           (dosolve.Table(square(33)), "84 rows range 0"), (dosolve.Table(line(32)), "89 turns 0")):
            self.assertTrue(game.is_wide)
            self.assertEqual(dosolve.Position.read(dosolve.Position(game).text()).game, game)
            for search in ("oracle", "induction"):
                with self.assertRaisesRegex(dosolve.InputRefusedError, f"^input {told}: .*with linear stages") as caught:
                    dosolve.Position(game, stages="regret", search=search)
                self.assertEqual(caught.exception.text, f"input {told}")
        with self.assertRaisesRegex(dosolve.InputRefusedError, "range of rows: .*from 1 to 1048576 .*with linear stages to 16777216"):
            dosolve.Position(dosolve.OshiZumo(1, 3, 3), rows=NARROW.rows + 1, stages="regret")
        for make in (lambda: dosolve.OshiZumo(3, 64, 1), lambda: dosolve.Pursuit(65, [], 0, 0, 1), lambda: dosolve.Pursuit(2, [], 0, 0, 64),
                     lambda: dosolve.Table(square(65)), lambda: dosolve.Table(line(64))):
            with self.assertRaises(dosolve.InputRefusedError):
                make()

    def test_the_first_rule_is_that_of_the_limits(self):
        """Coins come before the place, where they are too many."""
        for stages, told in (("regret", "32 coin range"), ("linear", "34 place range")):
            data = oshi_zumo(one=40, place=5, stages=stages)
            self.assertEqual((refused(data), said(data)), (f"input {told}",) * 2)

    def test_many_moves_need_weight(self):
        for make in (lambda **more: table(square(33), **more), lambda **more: oshi_zumo(one=41, two=41, least=9, **more),
                     lambda **more: pursuit(nodes=33, edges=star(33), **more)):
            for weight, wanted in ((32767, "input 91 weight"), (32768, "")):
                data = make(weight=weight, stages="linear")
                self.assertEqual((refused(data), said(data)), (wanted,) * 2)
        with self.assertRaisesRegex(dosolve.InputRefusedError, "input 91 weight: .*8192 has to be from 32768 .*33 moves"):
            dosolve.Position(dosolve.Table(square(33)), weight=8192)
        self.assertEqual(dosolve.Position(dosolve.OshiZumo(0, 40, 20, 20), weight=8192).weight, 8192)

    def test_long_texts_are_of_tables_with_linear_stages(self):
        long = b" " * NARROW.bytes
        for data, wanted in ((table(square(2), stages="linear") + long, ""), (table(square(2)) + long, "input 50 too long"),
                             (oshi_zumo(stages="linear") + long, "input 50 too long"), (b"{" + long, "input 50 too long"),
                             (b"[]" + long, "input 50 too long"),
                             (json.dumps({"game": [], "stages": "linear"}).encode() + long, "input 50 too long")):
            self.assertEqual((refused(data), said(data)), (wanted,) * 2)
        self.assertEqual(refused(b" " * (WIDE.bytes + 1)), "input 50 too long")

    def test_a_program_with_narrower_limits_is_named_as_older(self):
        solver, position = dosolve.Solver(), dosolve.Position(dosolve.OshiZumo(3, 40, 40))
        for text in ("input 32 coin range", "input 15 range of rows", "input 50 too long"):
            refusal = solver._refusal(["solve"], position.text().encode(), 2, text, "")
            self.assertRegex(str(refusal), f"{text}: .*older than this package, and has narrower limits")


    def test_refusals_without_more_words_have_both_limits(self):
        self.assertEqual(dosolve.InputRefusedError("input 91 weight").field, "weight")
        for text in ("input 84 rows range 0", "input 85 cells range 0", "input 89 turns 0"):
            self.assertRegex(str(dosolve.InputRefusedError(text)), "with linear stages 6[34]")


class Keys(unittest.TestCase):
    def test_keys_within_the_narrow_limits_are_those_of_before(self):
        self.assertEqual(dosolve.OshiZumo(3, 31, 20).root().key, (16 * 32 + 31) * 32 + 20)
        self.assertEqual(dosolve.Pursuit(32, star(32), 31, 4, 31).root().key, (31 * 32 + 31) * 32 + 4)

    def test_keys_of_wide_positions_have_six_bits(self):
        self.assertEqual(dosolve.OshiZumo(0, 40, 20, 20).root().key, 68116)
        self.assertEqual(dosolve.OshiZumo(2, 20, 20, 40, -1).root().key, (15 * 64 + 20) * 64 + 20)
        self.assertEqual(dosolve.Pursuit(64, GRID, 0, 63, 31).root().key, (31 * 64 + 0) * 64 + 63)
        self.assertEqual(dosolve.Pursuit(2, [0, 1], 1, 1, 32).root().key, ((64 + 32) * 64 + 1) * 64 + 1)

    def test_states_of_wide_positions_are_found_by_their_keys(self):
        r = random.Random(4)
        for game in (dosolve.OshiZumo(2, 40, 12, 9), dosolve.Pursuit(40, star(40), 3, 7, 2), dosolve.Pursuit(2, [0, 1], 0, 1, 40)):
            states = list(game.states())
            self.assertEqual(len({state.key for state in states}), len(states))
            for state in r.sample(states, min(len(states), 50)):
                self.assertEqual(game.state(state.key), state)


class Reports(unittest.TestCase):
    def test_reports_of_wide_games_have_version_3(self):
        for game in (dosolve.OshiZumo(1, 34, 6, 5), dosolve.OshiZumo(1, 9, 9, 33), dosolve.Pursuit(36, star(36), 3, 7, 2),
                     dosolve.Pursuit(3, [0, 1, 1, 2], 0, 2, 33), dosolve.Table(square(64)), dosolve.Table(line(63))):
            report = dosolve.solve(dosolve.Position(game, workers=1))
            text = report.text()
            with self.subTest(game):
                self.assertEqual((text.splitlines()[0], report.outcome in ("closed", "settled")), ("dosolve report 3", True))
                self.assertEqual(dosolve.Report.read(text).text(), text)
                self.assertEqual(dosolve.check(report).lower, report.lower)
                self.assertGreaterEqual(dosolve.exploit(report, "one").guaranteed, report.lower)
                self.assertLessEqual(dosolve.exploit(report, "two").guaranteed, report.upper)
                self.assertLessEqual(report.lower, dosolve.expected(report) * dosolve.SCALE)
                for version in (1, 2):
                    older = text.replace("report 3", f"report {version}")
                    with self.assertRaises(dosolve.ReportRefusedError) as caught:
                        dosolve.Report.read(older)
                    run = subprocess.run([dosolve.find_program(), "check"], input=older.encode(), capture_output=True, check=False)
                    self.assertEqual(caught.exception.text, run.stdout.decode().strip())

    def test_a_position_within_the_narrow_limits_keeps_its_version(self):
        for game, version in ((dosolve.OshiZumo(1, 31, 3, 30), 1), (dosolve.Pursuit(3, [0, 1, 1, 2], 0, 2, 31), 2), (dosolve.Table(square(32)), 2)):
            report = dosolve.solve(dosolve.Position(game, workers=1))
            self.assertEqual((report.version, report.text().split()[2]), (version, str(version)))
            with self.assertRaisesRegex(dosolve.ReportRefusedError, "report head"):
                dosolve.Report.read(report.text().replace(f"report {version}", "report 3", 1))

    def test_a_sheet_of_many_rows_has_version_3(self):
        self.enterContext(mock.patch("dosolve.reports.NARROW", dataclasses.replace(NARROW, rows=1000)))
        game = dosolve.Table(square(2))
        rows = tuple(dosolve.Row(key, 0, (8192, 0)) for key in range(1001))
        one, two = dosolve.Sheet(game, "one", 8192, rows), dosolve.Sheet(game, "two", 8192)
        report = dataclasses.replace(dosolve.Report.of(dosolve.Sheet(game, "one", 8192), two), one=one)
        self.assertEqual(report.version, 3)
        self.assertEqual(dataclasses.replace(report, one=dosolve.Sheet(game, "one", 8192, rows[:-1])).version, 2)


class Tables(unittest.TestCase):
    def test_makers_go_to_the_wide_limits(self):
        for moves in (33, 64):
            made = dosolve.Table.from_matrix([[one * two % 5 for two in range(moves)] for one in range(moves)])
            self.assertEqual(made.most_moves, moves)
        self.assertEqual(dosolve.Table.repeated([[1, 0], [0, 1]], 63).root().rank, 63)
        self.assertEqual(dosolve.Table.markov([[[1, 0], [0, 1]]], [[[0, 0], [0, 0]]], 63).root().rank, 63)

        def walk(turns):
            return dosolve.Table.from_functions(turns, lambda left: ([0, 1], [0, 1]) if left else None,
                                                lambda left, one, two: left - 1, lambda left: 0)

        self.assertEqual(walk(63).root().rank, 63)
        for make, told in ((lambda: dosolve.Table.from_matrix([[0] * 65]), "1 by 65 moves, and each player can have at most 64"),
                           (lambda: dosolve.Table.repeated([[0]], 64), "from 1 to 63"), (lambda: walk(64), "more than 63 turns")):
            with self.assertRaisesRegex(dosolve.NoTableError, told):
                make()

    def test_a_long_table_is_written_read_solved_and_checked(self):
        layers, width = 12, 700
        rows = [[[layer * width + (5 * at + one * 7 + two * 11) % width for two in range(5)] for one in range(5)]
                for layer in range(1, layers + 1) for at in range(width)]
        made = dosolve.Table([*rows, *(at % 7 - 3 for at in range(width))])
        position = dosolve.Position(made, workers=1)
        text = position.text()
        self.assertGreater(len(text), NARROW.bytes)
        self.assertEqual(dosolve.Position.read(text).game, made)
        report = dosolve.solve(position)
        self.assertEqual(dosolve.check(report).outcome, report.outcome)
        self.assertLess(report.gap, 100)
        with self.assertRaisesRegex(dosolve.InputRefusedError, r"input 50 too long: .*1048576 \(with linear stages 67108864\)"):
            dosolve.Position(made, stages="regret").text()


class Defaults(unittest.TestCase):
    def asked(self, game, **more):
        position = dosolve.Position(game, **more)
        return position.stages, position.search, position.visits

    def test_induction_is_for_games_that_count_their_states(self):
        hand = range(1, 14)
        induction, oracle = ("linear", "induction", limits.FEW_VISITS), ("linear", "oracle", limits.MOST_TURNS)
        for game in (dosolve.Goofspiel(hand, hand, hand, 0, "prizes"), dosolve.Goofspiel(hand[:10], hand[:10], hand[:10]),
                     dosolve.GoofspielDrawn(hand[:7], hand[:7], hand[:7]), dosolve.GoofspielDrawn(hand[:9], hand[:9], hand[:9], 0, "prizes"),
                     dosolve.OshiZumo(8, 63, 63), dosolve.Pursuit(64, GRID, 0, 63, 40), dosolve.Table(square(2))):
            self.assertEqual(self.asked(game), induction, game)
            self.assertEqual(self.asked(game, search="oracle"), oracle)
        full = "linear", "oracle", limits.FEW_VISITS
        for game, asked in ((dosolve.Tron(6, 6, [], 0, 35), oracle), (dosolve.Tron(2, 3, [], 0, 5), oracle),
                            (dosolve.Goofspiel(hand, hand, hand), full),
                            (dosolve.GoofspielDrawn(hand[:10], hand[:10], hand[:10], 0, "prizes"), full)):
            self.assertEqual(self.asked(game), asked, game)
            self.assertEqual(dosolve.Position(game).rows, min(NARROW.rows, 2 * game.most_states))

    def test_what_is_named_is_kept(self):
        game = dosolve.Goofspiel([1, 2, 3], [1, 2, 3], [1, 2, 3])
        self.assertEqual(self.asked(game, stages="regret"), ("regret", "oracle", limits.MOST_TURNS))
        self.assertEqual(self.asked(game, stages="regret", search="induction"), ("regret", "induction", limits.FEW_VISITS))
        self.assertEqual(self.asked(game, stages="linear"), ("linear", "induction", limits.FEW_VISITS))
        self.assertEqual(self.asked(game, visits=7), ("linear", "induction", 7))
        self.assertEqual(self.asked(dosolve.Tron(2, 3, [], 0, 5), search="induction")[1], "induction")

    def test_too_few_rows_are_for_double_oracle(self):
        game = dosolve.Goofspiel([1, 2, 3], [1, 2, 3], [1, 2, 3])
        self.assertEqual(game.count_states(), 37)
        for rows, search in ((36, "oracle"), (37, "induction"), (16_777_216, "induction")):
            self.assertEqual(dosolve.Position(game, rows=rows).search, search)
        for rows, visits in ((36, limits.FEW_VISITS), (37, limits.MOST_TURNS)):
            self.assertEqual(dosolve.Position(game, rows=rows, search="oracle").visits, visits)

    def test_rows_fit_the_game_and_the_stages(self):
        hand = range(1, 14)
        prizes = dosolve.Goofspiel(hand, hand, hand, 0, "prizes")
        self.assertEqual((prizes.count_states(), dosolve.Position(prizes).rows), (10_400_599, WIDE.rows))
        self.assertEqual(dosolve.Position(prizes, stages="regret").rows, NARROW.rows)
        small = dosolve.OshiZumo(3, 50, 50)
        self.assertEqual(dosolve.Position(small).rows, 2 * small.most_states)

    def test_a_text_without_budgets_gets_the_defaults_and_a_whole_one_means_what_it_says(self):
        game = {"game": "oshi_zumo", "size": 1, "one": 34, "two": 4, "least": 1, "place": 0}
        read = dosolve.Position.read(json.dumps(game | {"gap": 5}))
        self.assertEqual(read, dosolve.Position(read.game, gap=5))
        self.assertEqual((read.stages, read.search), ("linear", "induction"))
        self.assertEqual(refused(json.dumps(game | {"stages": "regret"})), "input 32 coin range")
        self.assertEqual(dosolve.Position.read(oshi_zumo(stages="linear")).search, "oracle")
        self.assertEqual(dosolve.Position.read(oshi_zumo()).stages, "regret")
        self.assertEqual(dosolve.Position.read(oshi_zumo(one=34), {"stages": "linear"}).search, "oracle")

    def test_both_searches_agree(self):
        for game in (dosolve.Goofspiel([1, 2, 3, 4], [1, 2, 3, 4], [2, 1, 4, 3]), dosolve.OshiZumo(2, 9, 8),
                     dosolve.Pursuit(5, [0, 1, 1, 2, 2, 3, 3, 4, 4, 0], 0, 2, 4)):
            found = [dosolve.solve(dosolve.Position(game, search=search, workers=1)) for search in ("induction", "oracle")]
            self.assertLessEqual(max(report.lower for report in found), min(report.upper for report in found))
            for report in found:
                self.assertLess(report.gap, 60)
                self.assertEqual(dosolve.check(report).outcome, report.outcome)

    def test_induction_within_seconds_has_the_last_word(self):
        position, steps = dosolve.Position(dosolve.OshiZumo(3, 20, 20), workers=1), []
        report = dosolve.solve(position, seconds=100, progress=steps.append)
        self.assertEqual((report.turns, report.stopped), (position.turns, ""))
        self.assertEqual(report, dosolve.solve(position))
        cut = dosolve.solve(position, seconds=0)
        self.assertEqual((cut.outcome, cut.stopped, cut.is_vacuous), ("stopped", "time", True))


if __name__ == "__main__":
    unittest.main()
