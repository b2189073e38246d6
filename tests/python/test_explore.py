"""The pages to click through: their data against the package, what a player loses, what is refused."""
import contextlib
import io
import json
import os
import random
import re
import subprocess
import sys
import tempfile
import unittest
import zipfile
from fractions import Fraction
from pathlib import Path
from unittest import mock

import dosolve
from dosolve import SIDES, explore
from dosolve.__main__ import main
from support import TOP, random_game

EXAMPLES = sorted((TOP / "examples").glob("*.report")) + sorted((TOP / "python" / "examples").glob("*.report"))
FIVE = TOP / "examples" / "goofspiel_five.report"
MATCH_THE_PRIZE = TOP / "python" / "examples" / "match_the_prize.report"


def data_of(text):
    """The data of a page."""
    return json.loads(re.search(r'<script type="application/json" id="data">(.*?)</script>', text, re.DOTALL)[1])


def lowest_and_next(state):
    """A player of One that bids its two lowest cards alike."""
    return [1 if move < 2 else 0 for move in range(len(state.moves("one")))]


def player_report(solved, side="one", choose=lowest_and_next):
    """The report that `measure --keep` writes: the player's plan on its side, the solver's on the other."""
    mine = dosolve.plan(solved.game, side, choose, solved.weight, ask_again=0)
    return dosolve.Report.of(*((mine, solved.two) if side == "one" else (solved.one, mine)))


def drawn_table():
    """A table with draws and two rounds, and a plan of each side at its root alone."""
    table = dosolve.Table([[[[[1, 180180], [2, 180180]], 3], [4, 1]], [[3, 4], [4, 3]], 2, 1, -1])
    sheets = [dosolve.Sheet(table, side, 8192, [dosolve.Row(0, bound, [4096, 4096])])
              for side, bound in (("one", 0), ("two", 1500000))]
    return dosolve.Report.of(*sheets)


class Data(unittest.TestCase):
    def check(self, report, page, most=explore.MOST_STATES):
        """Each state of a page, its rows and what follows it, against the package."""
        data = data_of(page.text)
        self.assertLessEqual(page.states, most)
        self.assertEqual(page.states, sum(len(record) > 4 for record in data["states"]))
        self.assertEqual(data["states"][0][0], str(report.game.root().key))
        states = [report.game.state(int(record[0])) for record in data["states"]]
        self.assertEqual(len({state.key for state in states}), len(states))
        for state, record in zip(states, data["states"]):
            if state.is_end:
                self.assertEqual(record[3:], [state.payoff])
                continue
            self.check_state(report, data, state, record)
            self.check_cells(report, data, states, state, record[7])
        everything = {state.key for state in report.game.states() if not state.is_end}
        self.assertEqual(page.is_whole, everything == {state.key for state in states if not state.is_end})
        return data

    def check_state(self, report, data, state, record):
        pool = data["pool"]
        for side, names, row in zip(SIDES, record[3:5], record[5:7]):
            self.assertEqual(tuple(pool[names]), state.names(side))
            found = report.sheet(side).row(state)
            if found is None:
                known = state.opening(side) != report.game.opening(side)
                self.assertEqual(row, [state.opening(side)] if known else 0)
            elif tuple(found.weights) != report.sheet(side).weights(state):
                self.assertEqual(row, 1)
            else:
                self.assertEqual((row[0], pool[row[1]]), (found.bound, list(found.weights)))

    def check_cells(self, report, data, states, state, cells):
        count = len(state.moves("two"))
        self.assertEqual(len(cells), len(state.moves("one")) * count)
        for at, cell in enumerate(cells):
            outcomes = state.outcomes(*divmod(at, count))
            pairs = [(cell, dosolve.CHANCE)] if isinstance(cell, int) else list(zip(cell[::2], cell[1::2]))
            self.assertEqual([chance for _, chance in pairs], [chance for chance, _ in outcomes])
            for (place, _), (_, after) in zip(pairs, outcomes):
                if place >= 0:
                    self.assertEqual(states[place].key, after.key)
                else:
                    self.assertEqual(data["stubs"][-1 - place], [self.stub(report, side, after) for side in SIDES])

    def stub(self, report, side, state):
        """What a page has of a state that is not on it: the bound of a row, or what can still come as a list, but
        where that is all that the game can pay."""
        row, opening = report.sheet(side).row(state), state.opening(side)
        return row.bound if row else None if opening == report.game.opening(side) else [opening]

    def test_examples(self):
        self.assertGreater(len(EXAMPLES), 15)
        for file in EXAMPLES:
            with self.subTest(file.stem):
                report = dosolve.Report.load(file)
                self.check(report, explore.page(report))

    def test_random_games(self):
        source = random.Random(1)
        for name in sorted(dosolve.GAMES):
            for _ in range(4):
                game = random_game(name, source)
                plans = [dosolve.plan(game, side, lambda state, side=side: [1] * len(state.moves(side)), ask_again=0)
                         for side in SIDES]
                with self.subTest(game=game):
                    self.check(dosolve.Report.of(*plans), explore.page(dosolve.Report.of(*plans)))

    def test_pages_that_have_a_part_alone(self):
        names = ("goofspiel_drawn_mixed", "table_soccer", "table_raid")
        for file in (FIVE, *(TOP / "examples" / f"{name}.report" for name in names)):
            report = dosolve.Report.load(file)
            for most in (1, 2, 7, 15 if file.stem == "table_raid" else 60):
                with self.subTest(file.stem, most=most):
                    page = explore.page(report, most_states=most)
                    data = self.check(report, page, most)
                    self.assertFalse(page.is_whole)
                    self.assertEqual((page.states, len(data["states"]) > 0), (most, True))

    def test_a_page_of_many_moves_has_fewer_states(self):
        report = dosolve.Report.load(FIVE)
        with mock.patch("dosolve.explore.states.PAIRS_EACH", 4):
            pairs = 0
            for most in (1, 60, 200):
                page = explore.page(report, most_states=most)
                data = self.check(report, page, most)
                pairs = sum(len(record[7]) for record in data["states"] if len(record) > 4)
                self.assertTrue(pairs <= 4 * most or page.states == 1, (most, pairs))
            self.assertGreater(pairs, 4 * most - 25)
            self.assertTrue(1 < page.states < most)
        self.assertEqual(explore.page(report, most_states=200).states, 200)

    def test_a_bound_without_a_row_is_told_from_one_with(self):
        game = dosolve.Goofspiel([1, 2, 3], [1, 2, 3], [1, 2, 3], pay="prizes")
        mine = dosolve.plan(game, "one", lambda state: [1] * len(state.moves("one")), 8192, ask_again=0)
        report = dosolve.Report.of(mine, dosolve.Sheet(game, "two", 8192))
        page = explore.page(report, most_states=1)
        stubs = self.check(report, page, 1)["stubs"]
        self.assertEqual({type(one) for one, _ in stubs}, {int})
        self.assertEqual({tuple(two) for _, two in stubs}, {(5 * 10**6,)})

    def test_the_likeliest_states_come_first(self):
        report = dosolve.Report.load(FIVE)
        whole, some = (data_of(explore.page(report, most_states=most).text)["states"] for most in (10_000, 40))
        chances = sorted((record[2] for record in whole if len(record) > 4), reverse=True)
        self.assertEqual(chances[0], 1)
        self.assertEqual([record[2] for record in some[:30]], chances[:30])
        with mock.patch("dosolve.explore.states.LEAST_FOLLOWED", 1):
            cut = data_of(explore.page(report, most_states=5).text)
        self.assertEqual((cut["exact"], data_of(explore.page(report, most_states=5).text)["exact"]), (False, True))
        # Each turn is played once in a game, so that the chances of equally many cards sum to 1.
        for cards in range(1, 6):
            layer = (record[2] for record in whole if report.game.state(int(record[0])).rank == cards)
            self.assertAlmostEqual(sum(layer), 1, places=3)

    def test_a_row_that_is_not_played_has_no_bound(self):
        report = dosolve.Report.load(MATCH_THE_PRIZE)
        bad = dosolve.Sheet(report.game, "one", report.weight, [dosolve.Row(report.game.root().key, 7, [1, 2])])
        data = self.check(report, explore.page(report))
        self.assertEqual(data["rows"], [0, 0])
        report = dosolve.Report.of(bad, report.two)
        self.assertEqual(self.check(report, explore.page(report))["states"][0][5], 1)

    def test_a_game_that_is_over_from_the_start(self):
        game = dosolve.Pursuit(3, [(0, 1), (1, 2)], 1, 1, 2)
        page = explore.page(dosolve.Report.of(*(dosolve.Sheet(game, side, 8192) for side in SIDES)))
        self.assertEqual((page.states, page.is_whole), (0, True))
        self.assertEqual(len(data_of(page.text)["states"][0]), 4)

    def test_payoffs_of_a_table_are_those_of_its_rules(self):
        table = dosolve.Table.from_matrix([["1/2", "-1/3"], [0, 1]])
        report = dosolve.Report.of(*(dosolve.Sheet(table, side, 8192) for side in SIDES))
        data = data_of(explore.page(report).text)
        self.assertEqual((data["scale"], data["low"], data["high"]), (6, -2, 6))
        self.assertFalse(any("times 6" in note for note in data["notes"]))
        self.assertTrue(any("nothing is known" in note for note in data["notes"]))

    def test_what_a_turn_pays_is_on_the_page(self):
        report = drawn_table()
        self.assertEqual([len(record) for record in data_of(explore.page(report).text)["states"]], [8, 8, 4, 4, 4])
        with mock.patch("dosolve.explore.states.turn_payoff", lambda state, one, two, draw: 10 * one + two - draw):
            data = self.check(report, explore.page(report))
        self.assertEqual(data["states"][0][8], {"0": [0, -1], "1": [1], "2": [10], "3": [11]})


    def test_each_turn_that_pays_is_on_the_pages_of_the_examples(self):
        found = 0
        for file in EXAMPLES:
            report = dosolve.Report.load(file)
            for record in data_of(explore.page(report).text)["states"]:
                state = report.game.state(int(record[0]))
                paid = record[8] if len(record) > 8 else 0
                if state.is_end or not report.game.has_rewards:
                    self.assertEqual(paid, 0)
                    continue
                count = len(state.moves("two"))
                rewards = {str(one * count + two): list(state.rewards(one, two))
                           for one in range(len(state.moves("one"))) for two in range(count)}
                self.assertEqual(paid or {}, {cell: each for cell, each in rewards.items() if any(each)})
                found += bool(paid)
        self.assertGreater(found, 20)


class Text(unittest.TestCase):
    def test_a_page_asks_no_network_and_has_no_holes(self):
        for file in EXAMPLES:
            text = explore.page(dosolve.Report.load(file)).text
            frame = text.replace(re.search(r'id="data">(.*?)</script>', text, re.DOTALL)[1], "")
            self.assertFalse(re.search(r"(src|href|url)\s*[=(]\s*[\"']?(?!#)\w", frame.replace("href: \"#\"", "")))
            self.assertNotIn("@", frame.replace("@media", ""))
            self.assertIn("default-src 'none'", frame)

    def test_names_stay_words(self):
        wild = '</script><script>alert("x")</script><!--'
        table = dosolve.Table.from_matrix([[1, -1], [-1, 1]], [wild, "\ud800"], ["a", "b"])
        report = dosolve.Report.of(*(dosolve.Sheet(table, side, 8192) for side in SIDES))
        text = explore.page(report).text
        text.encode()
        self.assertNotIn("alert", text.replace(json.dumps(wild)[1:-1].replace("<", "\\u003c"), ""))
        self.assertIn([wild, "\ud800"], data_of(text)["pool"])

    def test_colours_can_be_told_apart(self):
        def light(colour):
            parts = [part / 12.92 if part <= 0.04045 else ((part + 0.055) / 1.055)**2.4 for part in colour]
            return 0.2126 * parts[0] + 0.7152 * parts[1] + 0.0722 * parts[2]

        themes = re.findall(r":root \{(.*?)\}", explore.page(dosolve.Report.load(FIVE)).text, re.DOTALL)
        self.assertEqual(len(themes), 2)
        for theme in themes:
            colours = {}
            for name, code in re.findall(r"--([a-z-]+): #([0-9a-f]{3,6})", theme):
                code = code if len(code) == 6 else "".join(digit * 2 for digit in code)
                colours[name] = [int(code[at:at + 2], 16) / 255 for at in (0, 2, 4)]
            for side in SIDES:
                colours[f"heat-{side}"] = [0.38 * a + 0.62 * b for a, b in zip(colours[side], colours["panel"])]
            for ink, paper in (("ink", "panel"), ("ink", "paper"), ("dim", "panel"), ("dim", "paper"), ("one", "panel"),
                               ("two", "panel"), ("gold", "gold-soft"), ("ink", "gold-soft"), ("ink", "track"),
                               ("ink", "heat-one"), ("ink", "heat-two")):
                high, low = sorted(map(light, (colours[ink], colours[paper])), reverse=True)
                self.assertGreaterEqual((high + 0.05) / (low + 0.05), 4.5, (ink, paper))

    def test_settings_in_words(self):
        told = {file.stem: data_of(explore.page(dosolve.Report.load(file)).text)["about"] for file in EXAMPLES}
        self.assertEqual(told["goofspiel_mixed"], "One 1 3, two 2 3, prizes 1 1, score 0, pay margin.")
        self.assertIn("edges 0-1 0-3", told["pursuit_grid"])
        self.assertEqual(told["table_soccer"],
                         "Table of 643 states, 640 with moves; at most 5 moves a side and 4 turns.")

    def test_a_grid_is_drawn_as_it_is_numbered(self):
        def edges(height, width, diagonals):
            cells = [(row, column) for row in range(height) for column in range(width)]
            return [(a * width + b, c * width + d) for a, b in cells for c, d in cells if (a, b) < (c, d)
                    and max(abs(a - c), abs(b - d)) == 1 and (diagonals or a == c or b == d)]

        def places(nodes, pairs):
            game = dosolve.Pursuit(nodes, pairs, 0, 1, 1)
            report = dosolve.Report.of(*(dosolve.Sheet(game, side, 8192) for side in SIDES))
            return data_of(explore.page(report).text)["settings"]["places"]

        for height, width in ((1, 4), (2, 3), (3, 2), (5, 6), (4, 4)):
            for diagonals in (False, True):
                self.assertEqual(places(height * width, edges(height, width, diagonals)),
                                 [[node % width, -(node // width)] for node in range(height * width)])
        for pairs in ([(0, 1), (1, 2), (2, 0)], edges(2, 3, False)[1:], [*edges(2, 3, False), (0, 5)]):
            nodes = max(map(max, pairs)) + 1
            found = places(nodes, pairs)
            self.assertEqual(len(set(map(tuple, found))), nodes)
            self.assertTrue(any(x % 1 for x, _ in found))


class Losses(unittest.TestCase):
    """What the player gives away, beside exact best responses."""

    def check(self, solved, against, side):
        players = {player["side"]: player for player in data_of(explore.page(solved, against).text)["players"]}
        player = players[SIDES.index(side)]
        value = dosolve.respond(against.sheet(side)).value
        self.assertAlmostEqual(player["guarantee"], float(value), places=9)
        sign = 1 if side == "one" else -1
        lost = sign * (Fraction(solved.bound(side), dosolve.SCALE) - value)
        adds = sum(here * reached for _, _, here, reached, _ in player["losses"]) + player["rest"]
        self.assertAlmostEqual(adds, float(lost), places=6)
        first = next(loss for loss in player["losses"] if loss[0] == 0)
        self.assertAlmostEqual(first[1], float(lost), places=6)
        self.assertEqual(first[3:], [1, []])
        return player

    def test_a_player_of_one_move(self):
        solved = dosolve.Report.load(FIVE)
        against = dosolve.Report.load(MATCH_THE_PRIZE)
        for side in SIDES:
            player = self.check(solved, against, side)
            self.assertEqual(abs(player["guarantee"]), 5)
            on_the_way = [loss for loss in player["losses"] if loss[3]]
            self.assertEqual([reached for _, _, _, reached, _ in on_the_way], [1] * len(on_the_way))
            self.assertLessEqual(len(on_the_way), 5)

    def test_players_that_mix(self):
        examples = TOP / "examples"
        for name in ("goofspiel_five", "goofspiel_drawn_mixed", "oshi_zumo_mixed", "tron_corners", "pursuit_grid",
                     "table_soccer"):
            solved = dosolve.Report.load(examples / f"{name}.report")
            for side in SIDES:
                def even(state, side=side):
                    return [1] * len(state.moves(side))

                with self.subTest(name, side=side):
                    self.check(solved, player_report(solved, side, even), side)

    def test_what_turns_pay_counts_too(self):
        table = dosolve.Table([[[1, 2], [2, 1]], 1, -1])
        two = dosolve.Sheet(table, "two", 8192, [dosolve.Row(0, 0, [4096, 4096])])
        solved, mine = (dosolve.Report.of(dosolve.Sheet(table, "one", 8192, [dosolve.Row(0, 0, weights)]), two)
                        for weights in ([4096, 4096], [8192, 0]))
        for paid, guarantee in ((lambda state, one, two, draw: 0, -1),
                                (lambda state, one, two, draw: 10 * one + 3 * two, 1)):
            with mock.patch("dosolve.explore.losses.turn_payoff", paid):
                [player] = data_of(explore.page(solved, mine).text)["players"]
            self.assertEqual(player["guarantee"], guarantee)
            self.assertEqual(player["losses"], [[0, -guarantee, -guarantee, 1, []]])

    def test_ways_lead_to_their_states(self):
        solved = dosolve.Report.load(FIVE)
        data = data_of(explore.page(solved, player_report(solved)).text)
        [player] = data["players"]
        self.assertGreater(len(player["losses"]), 20)
        for place, *_, way in player["losses"]:
            state = solved.game.root()
            for at in range(0, len(way), 3):
                state = state.after(*way[at:at + 3])
            self.assertEqual(str(state.key), data["states"][place][0])

    def test_each_state_has_what_the_player_plays_and_guarantees(self):
        solved = dosolve.Report.load(FIVE)
        against = player_report(solved)
        data = data_of(explore.page(solved, against).text)
        known = {int(record[0]): record[9][1:] if len(record) > 4 else [record[3]] for record in data["states"]}
        visited = 0
        for record in data["states"]:
            state = solved.game.state(int(record[0]))
            if state.is_end:
                continue
            weights = against.one.weights(state)
            self.assertEqual(tuple(data["pool"][record[9][0]]), weights)
            if known[state.key]:
                worths = [sum(Fraction(weight, against.weight) * Fraction(known[state.after(move, reply).key][0])
                              for move, weight in enumerate(weights) if weight)
                          for reply in range(len(state.moves("two")))]
                guarantee, reply = known[state.key]
                self.assertAlmostEqual(guarantee, float(min(worths)), places=7)
                self.assertAlmostEqual(guarantee, float(worths[reply]), places=7)
                visited += 1
        self.assertEqual(visited, len(against.one.rows))
        self.assertAlmostEqual(known[solved.game.root().key][0], float(dosolve.respond(against.one).value), places=9)

    def test_the_same_plans_lose_nothing(self):
        solved = dosolve.Report.load(FIVE)
        data = data_of(explore.page(solved, solved).text)
        self.assertEqual((data["compared"], data["players"]), (True, []))
        self.assertFalse(data_of(explore.page(solved).text)["compared"])

    def test_a_small_page_says_which_are_left_out(self):
        solved = dosolve.Report.load(FIVE)
        data = data_of(explore.page(solved, player_report(solved), 4).text)
        [player] = data["players"]
        self.assertEqual(data["inner"], 4)
        self.assertGreater(player["left"], 0)
        self.assertLessEqual(len(player["losses"]), 4)


class Commands(unittest.TestCase):
    def setUp(self):
        folder = tempfile.TemporaryDirectory()
        self.addCleanup(folder.cleanup)
        self.folder = Path(folder.name)

    def call(self, *words):
        """Status, standard output and standard error of a command."""
        out, err = io.StringIO(), io.StringIO()
        with contextlib.redirect_stdout(out), contextlib.redirect_stderr(err):
            status = main(["explore", *map(str, words)])
        return status, out.getvalue(), err.getvalue()

    def test_the_command_writes_the_page(self):
        output = self.folder / "page.html"
        status, out, err = self.call(FIVE, "-o", output, "--against", MATCH_THE_PRIZE)
        self.assertEqual((status, err), (0, ""))
        self.assertRegex(out, rf"^{output}: 1413 states with moves, all that play can reach; \d+ kB\n$")
        page = explore.page(dosolve.Report.load(FIVE), dosolve.Report.load(MATCH_THE_PRIZE))
        self.assertEqual(output.read_text(encoding="utf-8"), page.text)
        dosolve.Report.load(FIVE).explore(output, most_states=3)
        self.assertEqual(data_of(output.read_text(encoding="utf-8"))["inner"], 3)
        status, out, _ = self.call(FIVE, "-o", output, "--most-states", "9", "--json")
        self.assertEqual((status, json.loads(out)), (0, {"output": str(output), "states": 9, "is_whole": False}))

    def test_the_folder_of_a_measure_has_the_player_on_both_sides(self):
        kept, output = self.folder / "kept", self.folder / "page.html"
        player = dosolve.Report.load(MATCH_THE_PRIZE)
        kept.mkdir()
        self.assertIn("neither one.report nor two.report", self.call(FIVE, "-o", output, "--against", kept)[2])
        none = {side: dosolve.Sheet(player.game, side, player.weight) for side in SIDES}
        alone = dosolve.Report.of(player.one, none["two"]), dosolve.Report.of(none["one"], player.two)
        for side, report, against in zip(SIDES, alone, (alone[0], player)):
            report.save(kept / f"{side}.report")
            self.assertEqual(self.call(FIVE, "-o", output, "--against", kept)[::2], (0, ""))
            self.assertEqual(output.read_text(encoding="utf-8"), explore.page(dosolve.Report.load(FIVE), against).text)

    def test_the_size_is_printed_on_the_page(self):
        page = explore.page(dosolve.Report.load(FIVE))
        size = re.search(r"This file is (\d+) kB", page.text)[1]
        self.assertAlmostEqual(int(size), len(page.text.encode()) / 1000, delta=1)

    def test_refusals(self):
        page, mixed = self.folder / "page.html", TOP / "examples" / "goofspiel_mixed.report"
        broken = self.folder / "broken.report"
        broken.write_text(FIVE.read_text()[:700])
        position = TOP / "examples" / "goofspiel_five.json"
        named = self.folder / "named.html"
        named.write_text(FIVE.read_text())
        wrong = self.folder / "wrong.report"
        wrong.write_text(FIVE.read_text().replace("\nlower -3\n", "\nlower -2\n"))
        for words, told in (
                ((FIVE, "-o", page, "--against", mixed), "is on another game: goofspiel 1,3 2,3"),
                ((broken, "-o", page), "broken.report: report short"),
                ((FIVE, "-o", page, "--against", broken), "broken.report: report short"),
                ((wrong, "-o", page), "wrong.report: refused root one"),
                ((position, "-o", page), "this is a position, not a report"),
                ((self.folder / "none.report", "-o", page), "none.report: No such file or directory"),
                ((FIVE, "-o", self.folder / "no" / "page.html"), "page.html: No such file or directory"),
                ((FIVE, "-o", self.folder), "Is a directory"),
                ((FIVE, "-o", self.folder / "page.svg"), "page.svg has to end with .html"),
                ((named, "-o", named), "would be written over"),
                ((FIVE, "-o", page, "--most-states", "0"), "a page has 1 or more states, not 0")):
            status, out, err = self.call(*words)
            self.assertEqual((status, out), (1, ""), words)
            self.assertIn(told, err)
            self.assertEqual((err.startswith("dosolve: "), err.count("\n")), (True, 1), err)
            self.assertFalse(page.exists(), words)

    def test_without_a_program_a_note_says_that_nobody_checked(self):
        page = self.folder / "page.html"
        with mock.patch.dict(os.environ, {"DOSOLVE": str(self.folder / "none")}):
            status, out, err = self.call(FIVE, "-o", page)
            self.assertEqual((status, out.count("\n")), (0, 1))
            self.assertRegex(err, r"^dosolve: note .*goofspiel_five\.report was not checked: .* is no program that can be run\n$")
            self.assertEqual(self.call(FIVE, "-o", page, "--program", self.folder / "none")[0], 1)

    def test_calls_that_are_refused(self):
        report = dosolve.Report.load(FIVE)
        for given in (None, "a.report", 3):
            with self.assertRaisesRegex(dosolve.InvalidError, "a page shows a report"):
                explore.page(given)
        with self.assertRaisesRegex(dosolve.InvalidError, "a page shows a report"):
            explore.page(report, "a.report")
        for most in (0, -1, True, 1.5, None):
            with self.assertRaisesRegex(dosolve.InvalidError, "1 or more states"):
                explore.page(report, most_states=most)
        with self.assertRaises(OSError):
            report.explore(self.folder / "no" / "page.html")

    def test_the_package_that_is_installed_has_the_page(self):
        words = f"import wheel_backend; print(wheel_backend.build_wheel({str(self.folder)!r}))"
        run = subprocess.run([sys.executable, "-c", words], cwd=TOP / "python", capture_output=True, text=True,
                             check=True)
        wheel = self.folder / run.stdout.strip()
        with zipfile.ZipFile(wheel) as files:
            inside = set(files.namelist())
        wanted = {f"dosolve/explore/{file.name}" for file in Path(explore.__file__).parent.iterdir() if file.is_file()}
        self.assertLessEqual({"dosolve/explore/page.html", "dosolve/explore/page.js"}, wanted)
        self.assertLessEqual(wanted, inside)
        # The page is made from within the archive too.
        words = (f"import sys; sys.path[0] = {str(wheel)!r}; import dosolve\n"
                 f"dosolve.Report.load({str(FIVE)!r}).explore({str(self.folder / 'page.html')!r})")
        subprocess.run([sys.executable, "-c", words], cwd=self.folder, check=True, env={})
        self.assertEqual((self.folder / "page.html").read_text(encoding="utf-8"),
                         explore.page(dosolve.Report.load(FIVE)).text)


if __name__ == "__main__":
    unittest.main()
