"""Drawings: their cells, colours and lines against the package, and in a browser that no text is cut off."""
import contextlib
import dataclasses
import io
import math
import random
import re
import sys
import tempfile
import unittest
from fractions import Fraction
from pathlib import Path
from unittest import mock
from xml.etree import ElementTree

import dosolve
import explore_browser
from dosolve import SCALE, SIDES, drawings
from dosolve.__main__ import main
from support import TOP, random_game

EXAMPLES = sorted((TOP / "examples").glob("*.report"))
SVG = "{http://www.w3.org/2000/svg}"
TAGS = {"svg", "title", "rect", "text", "polyline", "circle"}


def parsed(drawing):
    """The elements of a drawing."""
    return ElementTree.fromstring(drawing.text)


def texts(root):
    """The texts of a drawing with their places."""
    return [(each.text, float(each.get("x")), float(each.get("y"))) for each in root.iter(f"{SVG}text")]


def cells(root):
    """The title, the fill and the frame of each cell of a matrix."""
    found = [(each.find(f"{SVG}title"), each) for each in root.iter(f"{SVG}rect")]
    return [(title.text, each.get("fill"), each.get("stroke")) for title, each in found if title is not None]


def numbers(text):
    """The bounds that the title of a cell tells."""
    return dict(re.findall(r"(from|to|at least|at most) (-?\d+\.\d+)", text))


def even(game, side):
    """The plan that plays each move alike."""
    return dosolve.plan(game, side, lambda state: [1] * len(state.moves(side)), ask_again=0)


class Matrices(unittest.TestCase):
    def check(self, report, state):
        """Each cell of a state's matrix, beside the report's own numbers."""
        root = parsed(report.heat_map(state))
        ones, twos = (state.names(side) for side in SIDES)
        stage = report.stage(state)
        found = cells(root)
        self.assertEqual(len(found), len(ones) * len(twos))
        shares = [report.sheet(side).weights(state) for side in SIDES]
        for at, (title, _, frame) in enumerate(found):
            one, two = divmod(at, len(twos))
            self.assertTrue(title.startswith(f"One {ones[one]}, Two {twos[two]}: "), title)
            self.check_cell(report, state, title, one, two, stage[one][two])
            self.assertEqual(frame == "#1b1d20", bool(shares[0][one] and shares[1][two]))

    def check_cell(self, report, state, title, one, two, bounds):
        told = numbers(title)
        lower, upper = (report.game.of_rules(bound) for bound in bounds)
        for word, bound in (("from", lower), ("at least", lower), ("to", upper), ("at most", upper)):
            if word in told:
                self.assertTrue(abs(Fraction(told[word]) - bound) < Fraction(1, SCALE), (title, bound))
                self.assertTrue((Fraction(told[word]) <= bound) == (word in ("from", "at least"))
                                or Fraction(told[word]) == bound, title)
        after = [state for _, state in state.outcomes(one, two)]
        known = [lower == upper or all(each.is_end or report.sheet(side).row(each) for each in after)
                 for side in SIDES]
        self.assertEqual(["from" in told or "at least" in told, "to" in told or "at most" in told], known, title)
        paid = state.rewards(one, two) if report.game.has_rewards else ()
        self.assertEqual("this turn pays" in title, any(paid))

    def test_examples(self):
        for file in EXAMPLES:
            report = dosolve.Report.load(file)
            for state in [report.game.root(), *(report.game.state(row.key) for row in report.one.rows[-3:])]:
                if not state.is_end:
                    with self.subTest(file.stem, key=state.key):
                        self.check(report, state)

    def test_random_games(self):
        source = random.Random(5)
        for name in sorted(dosolve.GAMES):
            for _ in range(4):
                game = random_game(name, source)
                if not game.root().is_end:
                    with self.subTest(game=game):
                        self.check(dosolve.Report.of(*(even(game, side) for side in SIDES)), game.root())

    def test_colours_tell_what_is_better_for_whom(self):
        table = dosolve.Table.from_matrix([[3, -1, 1], [1, 1, 1]], ["a", "b"], ["c", "d", "e"])
        row = dosolve.Row(0, 1_000_000, [0, 8192])
        report = dosolve.Report.of(dosolve.Sheet(table, "one", 8192, [row]),
                                   dosolve.Sheet(table, "two", 8192, [dosolve.Row(0, 1_000_000, [0, 0, 8192])]))
        fills = [fill for _, fill, _ in cells(parsed(report.heat_map()))]
        parts = [[int(fill[at:at + 2], 16) for at in (1, 3, 5)] for fill in fills]
        self.assertTrue(parts[0][2] > parts[0][0], fills)
        self.assertTrue(parts[1][2] < parts[1][0], fills)
        self.assertEqual(set(fills[2:]), {"#ffffff"})

    def test_what_is_not_known_is_grey(self):
        for pay in ("margin", "prizes"):
            with self.subTest(pay):
                self.check_grey(dosolve.Goofspiel([1, 2, 3], [1, 2, 3], [1, 2, 3], pay=pay))

    def check_grey(self, game):
        report = dosolve.Report.of(*(dosolve.Sheet(game, side, 8192) for side in SIDES))
        found = cells(parsed(report.heat_map()))
        self.assertEqual({(title.split(": ")[1].split(", of")[0], fill) for title, fill, _ in found},
                         {("no row for what follows", drawings._UNKNOWN)})
        one = even(game, "one")
        report = dosolve.Report.of(one, dosolve.Sheet(game, "two", one.total))
        found = cells(parsed(report.heat_map()))
        self.assertEqual({word for title, _, _ in found for word in numbers(title)}, {"at least"})
        self.assertEqual({fill for _, fill, _ in found}, {drawings._UNKNOWN})

    def test_what_turns_pay_stands_in_the_cells(self):
        report = dosolve.Report.load(TOP / "examples" / "table_rewards.report")
        told = [text for text, _, _ in texts(parsed(report.heat_map())) if text.startswith("pays")]
        self.assertEqual(told, ["pays +2", "pays 0", "pays 0", "pays −1 to +1"])
        table = dosolve.Table.repeated([["1/2", -1]], 2, ["a"], ["c", "d"])
        report = dosolve.Report.of(*(even(table, side) for side in SIDES))
        told = [title for title, _, _ in cells(parsed(report.heat_map()))]
        self.assertEqual([title.split("this turn pays ")[1] for title in told], ["+0.5", "−1"])
        plain = dosolve.Report.load(TOP / "examples" / "goofspiel_mixed.report")
        self.assertNotIn("pays", plain.heat_map().text)

    def test_every_text_can_be_read(self):
        def light(colour):
            parts = [int(colour[at:at + 2], 16) / 255 for at in (1, 3, 5)]
            parts = [part / 12.92 if part <= 0.04045 else ((part + 0.055) / 1.055)**2.4 for part in parts]
            return 0.2126 * parts[0] + 0.7152 * parts[1] + 0.0722 * parts[2]

        papers = ["#ffffff", drawings._UNKNOWN, *(drawings._colour(side, drawings._STRENGTH) for side in SIDES)]
        pairs = [(drawings._INK, paper) for paper in papers]
        pairs += [(ink, "#ffffff") for ink in (drawings._DIM, *map(drawings._colour, SIDES))]
        for ink, paper in pairs:
            self.assertGreaterEqual((light(paper) + 0.05) / (light(ink) + 0.05), 4.5, (ink, paper))

    def test_a_game_that_is_over_has_no_matrix(self):
        report = dosolve.Report.load(TOP / "examples" / "oshi_zumo_end.report")
        with self.assertRaisesRegex(dosolve.InvalidError, "the game is over"):
            report.heat_map()

    def test_a_notebook_shows_it_with_the_report(self):
        report = dosolve.Report.load(TOP / "examples" / "goofspiel_mixed.report")
        self.assertIn(f"</table><div>{report.heat_map()}</div>", report._repr_html_())
        self.assertEqual(report.heat_map()._repr_svg_(), report.heat_map().text)
        for name in ("oshi_zumo_end", "goofspiel_mixed"):
            with mock.patch("dosolve.reports.MOST_DRAWN", 3):
                self.assertNotIn("<svg", dosolve.Report.load(TOP / "examples" / f"{name}.report")._repr_html_())


class OverTime(unittest.TestCase):
    STEPS = [dosolve.Progress(10, 1.0, -4 * SCALE, 6 * SCALE), dosolve.Progress(20, 2.5, -SCALE, 2 * SCALE),
             dosolve.Progress(30, 4.0, 0, 500_000)]

    def points(self, root, colour):
        return [(float(each.get("cx")), float(each.get("cy"))) for each in root.iter(f"{SVG}circle")
                if each.get("fill") == colour]

    def scale(self, root, places, wanted):
        """The line through labels: from a place to a number."""
        found = [(place, float(text.replace("−", "-"))) for text, *place in texts(root)
                 if re.fullmatch(r"−?\d+(\.\d+)?", text)]
        chosen = [(place[places], value) for place, value in found if wanted(*place)]
        (first, low), (last, high) = chosen[0], chosen[-1]
        return lambda place: low + (place - first) * (high - low) / (last - first)

    def test_points_stand_at_their_bounds_and_seconds(self):
        root = parsed(drawings.over_time(self.STEPS))
        value = self.scale(root, 1, lambda x, y: x < 78 and y < 230)
        seconds = self.scale(root, 0, lambda x, y: x >= 78 and y > 400)
        for side, bounds in (("one", (-4, -1, 0)), ("two", (6, 2, 0.5))):
            found = self.points(root, drawings._colour(side))
            self.assertEqual(len(found), 3)
            for (x, y), step, bound in zip(found, self.STEPS, bounds):
                # A label stands a little below its line.
                self.assertAlmostEqual(value(y + 3.6), bound, delta=0.06)
                self.assertAlmostEqual(seconds(x), step.seconds, delta=0.02)
        lower, upper = (self.points(root, drawings._colour(side))[0] for side in SIDES)
        self.assertLess(upper[1], lower[1])
        power = [(y, math.log10(float(text))) for text, x, y in texts(root) if x < 78 and y > 230]
        for (_, y), gap in zip(self.points(root, drawings._DIM), (10, 3, 0.5)):
            (first, low), (last, high) = power[0], power[-1]
            self.assertAlmostEqual(low + (y + 3.6 - first) * (high - low) / (last - first), math.log10(gap), delta=0.02)

    def test_each_bound_holds_until_the_next(self):
        lines = [each.get("points").split() for each in parsed(drawings.over_time(self.STEPS)).iter(f"{SVG}polyline")
                 if each.get("stroke") == drawings._colour("one")]
        ((*corners,),) = lines
        places = [tuple(map(float, corner.split(","))) for corner in corners]
        for before, after in zip(places, places[1:]):
            self.assertTrue(before[0] == after[0] or before[1] == after[1], (before, after))
        self.assertEqual(len(places), 5)

    def test_the_report_stands_last_in_payoffs_of_the_rules(self):
        table = dosolve.Table.from_matrix([["1/2", 0], [0, 1]])
        self.assertEqual(table.scale, 2)
        report = dosolve.solve(dosolve.Position(table, workers=1))
        text = drawings.over_time([dosolve.Progress(1, 0.5)], report).text
        self.assertIn("Table: bounds over time", text)
        self.assertRegex(" ".join(text.split()), r"0 s, \d+ turns, 0.33333\d to 0.33333\d, gap 0.00000")
        root = parsed(drawings.over_time([dosolve.Progress(1, 0.5)], report))
        self.assertEqual(len(self.points(root, drawings._colour("one"))), 2)

    def test_without_bounds_there_are_turns(self):
        steps = dosolve.read_progress(["worker 0 turns 12 seconds 1", "worker 0 turns 40 seconds 2"])
        text = drawings.over_time(steps).text
        self.assertIn("Search: turns over time", text)
        self.assertEqual(text.count("<circle"), 2)
        with self.assertRaisesRegex(dosolve.InvalidError, "there are no steps"):
            drawings.over_time([])

    def test_many_steps_are_a_line_alone(self):
        steps = [dosolve.Progress(at, at, -SCALE, SCALE) for at in range(200)]
        self.assertEqual(drawings.over_time(steps).text.count("<circle"), 3)

    def test_labels_are_round_and_two_or_more(self):
        for low, high in ((0, 1), (0, 0.001), (-3.2, 7), (-20, 20), (0.33, 0.34), (0, 86_400), (5, 5000)):
            found = drawings._ticks(low, high)
            self.assertTrue(2 <= len(found) <= 6, (low, high, found))
            self.assertTrue(all(low - 1e-9 <= each <= high + 1e-9 for each in found))
            self.assertRegex(f"{found[1] - found[0]:.0e}", r"[125]e")


class Steps(unittest.TestCase):
    """What a search tells while it runs."""

    def test_the_last_step_has_the_bounds_of_the_report(self):
        for seconds in (None, 20):
            steps = []
            position = dosolve.Position(dosolve.Goofspiel([1, 2, 3, 4], [1, 2, 3, 4], [1, 2, 3, 4]), workers=1)
            report = dosolve.solve(position, seconds=seconds, progress=steps.append)
            last = steps[-1]
            self.assertEqual((last.lower, last.upper, last.turns), (report.lower, report.upper, sum(report.spent)))
            self.assertEqual(last.states, sum(not state.is_end for state in position.game.states()))
            self.assertEqual(last.most, 3 * (2 * last.states + 4))
            self.assertEqual(last.share, Fraction(last.turns, last.most))
            self.assertIn(f"{last.turns} of at most {last.most} turns for {last.states} states", str(last))

    def test_no_search_takes_more_turns_than_the_most(self):
        source, tried = random.Random(6), 0
        for name in sorted(dosolve.GAMES):
            for _ in range(12):
                steps = []
                position = dosolve.Position(random_game(name, source), workers=1)
                dosolve.solve(position, progress=steps.append)
                if steps[-1].most is not None:
                    self.assertLessEqual(steps[-1].turns, steps[-1].most, position.game)
                    tried += steps[-1].turns > 0
        self.assertGreater(tried, 8)

    def test_what_is_not_known_is_not_told(self):
        game = dosolve.Goofspiel([1, 3], [2, 3], [1, 1])
        for position, most in ((dosolve.Position(game, workers=2), None),
                               (dosolve.Position(game, workers=2, turns=100), 200),
                               (dosolve.Position(game, workers=1, turns=7), 7),
                               (dosolve.Position(game, workers=1, stages="regret"), None),
                               (dosolve.Position(dosolve.Tron(2, 3, [], 0, 5), workers=1), None)):
            steps = []
            dosolve.solve(position, progress=steps.append)
            self.assertEqual(steps[-1].most, most, position)
            self.assertEqual(steps[-1].states is None, isinstance(position.game, dosolve.Tron))
        self.assertIsNone(dosolve.read_progress(["worker 0 turns 12 seconds 1"])[0].share)

    def test_the_bar_is_shown_in_a_notebook(self):
        kind = type("OutStream", (io.StringIO,), {"__module__": "ipykernel.iostream"})
        stream = kind()
        bar = dosolve.Bar(stream)
        bar(dosolve.Progress(30, 2.0, states=100, most=300))
        self.assertEqual(stream.getvalue(), "\rdosolve: 2 s, 30 of at most 300 turns for 100 states")


class Files(unittest.TestCase):
    def setUp(self):
        folder = tempfile.TemporaryDirectory()
        self.addCleanup(folder.cleanup)
        self.folder = Path(folder.name)

    def call(self, *words):
        """Status and standard error of a command."""
        err = io.StringIO()
        with contextlib.redirect_stdout(io.StringIO()), contextlib.redirect_stderr(err):
            status = main(list(map(str, words)))
        return status, err.getvalue()

    def test_drawings_are_whole_files_that_ask_nothing(self):
        report = dosolve.Report.load(TOP / "examples" / "goofspiel_five.report")
        wild = dosolve.Table.from_matrix([[1, -1], [-1, 1]], ["<script>&'\"", "]]>"], ["a", "b"])
        made = [report.heat_map(), drawings.over_time(OverTime.STEPS, report),
                dosolve.Report.of(*(even(wild, side) for side in SIDES)).heat_map()]
        for drawing in made:
            self.assertLessEqual({each.tag.removeprefix(SVG) for each in parsed(drawing).iter()}, TAGS)
            self.assertFalse(re.search("href|url\\(|@import|<script", drawing.text))
            self.assertEqual(parsed(drawing).get("role"), "img")
        made[0].save(self.folder / "a.svg")
        self.assertEqual((self.folder / "a.svg").read_text(encoding="utf-8"), str(made[0]))
        for name in ("a.png", "a"):
            with self.assertRaisesRegex(dosolve.DosolveError, "has to end with .svg"):
                made[0].save(self.folder / name)

    def test_the_commands_draw(self):
        report, output = TOP / "examples" / "goofspiel_five.report", self.folder / "a.svg"
        loaded = dosolve.Report.load(report)
        self.assertEqual(self.call("show", report, "-o", output, "--matrix"), (0, ""))
        self.assertEqual(output.read_text(encoding="utf-8"), loaded.heat_map().text)
        self.assertEqual(self.call("show", report, "-o", output, "--matrix", "--history", "1,2"), (0, ""))
        state = loaded.game.root().play(one=1, two=2)
        self.assertEqual(output.read_text(encoding="utf-8"), loaded.heat_map(state).text)
        position = TOP / "python" / "examples" / "goofspiel_five.json"
        self.assertEqual(self.call("solve", position, "--over-time", output), (0, ""))
        self.assertIn("1523 of at most 4254 turns for 1413 states", " ".join(
            text for text, _, _ in texts(ElementTree.parse(output).getroot())))
        status, err = self.call("solve", position, "--over-time", self.folder / "a.png")
        self.assertEqual((status, err), (1, f"dosolve: {self.folder / 'a.png'} has to end with .svg\n"))
        self.assertFalse((self.folder / "a.png").exists())
        status, err = self.call("show", report, "-o", self.folder / "a.png", "--matrix")
        self.assertEqual(status, 1)

    def test_bounds_over_time_need_no_library(self):
        lines, output = self.folder / "lines", self.folder / "b.svg"
        lines.write_text("worker 0 turns 3 seconds 1 lower -5 upper 7 gap 12\n")
        with mock.patch.dict(sys.modules, {"matplotlib": None}):
            self.assertEqual(self.call("show", lines, "--progress", "-o", output), (0, ""))
        self.assertIn("Search: bounds over time", output.read_text(encoding="utf-8"))


@unittest.skipUnless(explore_browser.PROGRAM, "no browser is installed")
class InABrowser(unittest.TestCase):
    """What a browser makes of the drawings: no text leaves the paper or its cell, and no two overlap."""

    @classmethod
    def setUpClass(cls):
        folder = tempfile.TemporaryDirectory()
        cls.addClassCleanup(folder.cleanup)
        cls.file = Path(folder.name, "drawing.svg")
        cls.browser = explore_browser.Browser()
        cls.addClassCleanup(cls.browser.close)

    def look(self, drawing):
        drawing.save(self.file)
        self.browser.open(self.file)
        boxes = self.browser.run("[...document.querySelectorAll('text')].map(each => (box => "
                                 "[each.textContent, box.left, box.top, box.right, box.bottom])"
                                 "(each.getBoundingClientRect()))")
        width, height = map(float, parsed(drawing).get("viewBox").split()[2:])
        for text, left, top, right, bottom in boxes:
            self.assertTrue(0 <= left <= right <= width and 0 <= top <= bottom <= height, f"{text!r} is cut off")
        for at, (text, left, top, right, bottom) in enumerate(boxes):
            for other, *box in boxes[at + 1:]:
                # A line is 1.2 letters high, more than what is inked.
                apart = right <= box[0] or box[2] <= left or bottom - 3 <= box[1] or box[3] - 3 <= top
                self.assertTrue(apart, f"{text!r} and {other!r} overlap")
        self.assertEqual(self.browser.errors, [])

    def test_matrices(self):
        source = random.Random(7)
        for file in EXAMPLES:
            report = dosolve.Report.load(file)
            if not report.game.root().is_end:
                with self.subTest(file.stem):
                    self.look(report.heat_map())
        names = ["a move with a long name", "another one", "x"]
        table = dosolve.Table.from_matrix([[1, -1, "1/7"], [-1, 1, 0], [3, 2, 1]], names, names[::-1])
        games = [table, dosolve.OshiZumo(8, 20, 20, 1), *(random_game(name, source) for name in dosolve.GAMES)]
        for game in games:
            if not game.root().is_end:
                with self.subTest(game=game):
                    sheets = [dosolve.Sheet(game, side, 8192) for side in SIDES]
                    self.look(dosolve.Report.of(*sheets).heat_map())

    def test_bounds_over_time(self):
        report = dosolve.Report.load(TOP / "examples" / "goofspiel_five.report")
        many = [dataclasses.replace(step, turns=10**12, states=10**6, most=3 * 10**12) for step in OverTime.STEPS]
        for steps in (OverTime.STEPS, many, [dosolve.Progress(3, 0.0)], [dosolve.Progress(3, 7e5, -5, 7)]):
            self.look(drawings.over_time(steps))
            self.look(drawings.over_time(steps, report))


if __name__ == "__main__":
    unittest.main()
