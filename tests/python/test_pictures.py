"""Pictures: no two texts overlap, nothing is cut off, both bounds can be read; without matplotlib
there is a message."""
import random
import sys
import tempfile
import unittest
from itertools import combinations
from pathlib import Path
from unittest import mock

import dosolve
from dosolve import pictures
from dosolve.__main__ import main
from support import TOP, random_game

try:
    import matplotlib
except ImportError:
    matplotlib = None

NAMES = ("goofspiel_mixed", "tron_corners", "oshi_zumo_mixed", "oshi_zumo_end")
EXAMPLES = [TOP / "examples" / f"{name}.report" for name in NAMES]
EXAMPLES.append(TOP / "python" / "examples" / "pursuit_diagonals.report")


def made(game, source):
    """A report of two random plans that play the first moves only."""
    rows = [[], []]
    for side, into in zip(dosolve.SIDES, rows):
        count = len(game.root().moves(side))
        if count:
            chances = [source.choice([0, 1, 5, 300]) for _ in range(count - 1)] + [1]
            weights = dosolve.whole_weights(chances, count, 8192)
            into.append(dosolve.Row(game.root().key, 0, weights))
    sheets = (dosolve.Sheet(game, side, 8192, into) for side, into in zip(dosolve.SIDES, rows))
    return dosolve.Report.of(*sheets)


@unittest.skipIf(matplotlib is None, "matplotlib is missing")
class Pictures(unittest.TestCase):
    def look(self, picture, *words):
        """That no text is cut off or overlaps another, at the picture's own size, and that these
        words stand there."""
        picture.draw_without_rendering()
        hidden = set()
        for axis in (axis for axes in picture.axes for axis in (axes.xaxis, axes.yaxis)):
            low, high = sorted(axis.get_view_interval())
            for tick in axis.get_major_ticks():
                if not low <= tick.get_loc() <= high:
                    hidden |= {tick.label1, tick.label2}
        texts = [text for text in picture.findobj(matplotlib.text.Text)
                 if text not in hidden and text.get_visible() and text.get_text().strip()]
        renderer, whole = picture.canvas.get_renderer(), picture.bbox
        shown = [(text.get_text(), text.get_window_extent(renderer)) for text in texts]
        for text, box in shown:
            inside = (whole.x0 <= box.x0 and box.x1 <= whole.x1 and whole.y0 <= box.y0
                      and box.y1 <= whole.y1)
            self.assertTrue(inside, f"{text!r} is cut off")
        self.assertLessEqual(set(words), {text for text, _ in shown})
        for (first, a), (second, b) in combinations(shown, 2):
            apart = a.x1 <= b.x0 or b.x1 <= a.x0 or a.y1 <= b.y0 or b.y1 <= a.y0
            self.assertTrue(apart, f"{first!r} and {second!r} overlap")

    def look_at(self, report, **more):
        words = [f"lower {report.lower / dosolve.SCALE:.6f}",
                 f"upper {report.upper / dosolve.SCALE:.6f}"]
        words += [name for side in dosolve.SIDES for name in report.game.root().names(side)]
        picture = pictures.figure(report, **more)
        self.look(picture, *words)
        labels = self.labels(picture.axes[2].xaxis)
        self.assertGreaterEqual(len(labels), 2)
        self.assertEqual("".join(labels).strip("\N{MINUS SIGN}.0123456789"), "")
        self.assertEqual(picture.axes[2].xaxis.get_offset_text().get_text(), "")

    def test_examples(self):
        for file in EXAMPLES:
            report = dosolve.Report.load(file)
            for more in ({}, {"zoom": True, "players": ("my player", "solver")}):
                with self.subTest(file.stem, **more):
                    self.look_at(report, **more)

    def test_wide_and_random_games(self):
        source = random.Random(2)
        games = [dosolve.Goofspiel(range(1, 14), range(13, 0, -1), [100] * 13),
                 dosolve.OshiZumo(8, 31, 31, 1), dosolve.Tron(6, 6, [7, 8], 14, 21),
                 dosolve.Tron(1, 2, [], 0, 1), dosolve.Tron(3, 3, [], 3, 5),
                 dosolve.Pursuit(1, [], 0, 0, 0), dosolve.Goofspiel([], [], [])]
        games += [random_game(name, source) for name in dosolve.GAMES for _ in range(2)]
        for game in games:
            with self.subTest(game.line()):
                self.look_at(made(game, source))

    def test_other_states(self):
        for file in EXAMPLES:
            report = dosolve.Report.load(file)
            for row in (*report.one.rows[:1], *report.two.rows[1:2]):
                with self.subTest(file.stem, key=row.key):
                    state = report.game.state(row.key)
                    names = [name for side in dosolve.SIDES for name in state.names(side)]
                    self.look(pictures.figure(report, row.key), *names)

    def test_a_grid_is_drawn_as_it_is_numbered(self):
        edges = [node for at in range(6) for step in (1, 3) for node in (at, at + step)
                 if at + step < 6 and (step == 3 or (at + 1) % 3)]
        grid = dosolve.Pursuit(6, edges, 0, 5, 3)
        self.assertEqual(pictures.node_places(grid),
                         [(float(node % 3), float(-(node // 3))) for node in range(6)])
        self.look_at(made(grid, random.Random(2)))
        ring = dosolve.Pursuit(5, [0, 1, 1, 2, 2, 3, 3, 4, 4, 0], 0, 2, 3)
        self.assertNotIn((0.0, 0.0), pictures.node_places(ring))
        for nodes in (1, 2, 5):
            row = dosolve.Pursuit(nodes, [end for node in range(nodes - 1) for end in (node, node + 1)],
                                  0, nodes - 1, 3)
            self.look_at(made(row, random.Random(nodes)))

    def test_trees(self):
        for file in EXAMPLES:
            report = dosolve.Report.load(file)
            for turns, most in ((1, 4), (2, 3), (3, None)):
                with self.subTest(file.stem, turns=turns):
                    picture = pictures.tree(report, turns, most)
                    self.look(picture)
                    texts = [text.get_text() for text in picture.axes[0].texts]
                    self.assertFalse([text for text in texts if "-0.000" in text], texts)
                    self.assertNotIn("1 others", " ".join(texts))
        with self.assertRaisesRegex(dosolve.InvalidError, "1 to 6 turns"):
            pictures.tree(report, 0)

    def test_a_state_is_told_in_words(self):
        for file, words in zip(EXAMPLES, ("one 3, two 2, score -1", "taken 0 1 5 6 10 11, one 5",
                                          "place 0, one 2, two", "", "caught no, rounds 1")):
            report = dosolve.Report.load(file)
            states = [report.game.state(row.key) for row in report.one.rows]
            titles = [pictures._title(report, state, state.key) for state in states]
            self.assertFalse([title for title in titles if "State(" in title])
            self.assertTrue(not titles or any(words in title for title in titles), titles)
        report = dosolve.Report.load(EXAMPLES[0])
        root = report.game.root()
        self.assertTrue(pictures._title(report, root, root.key).endswith("score 0, prize 1"))

    def test_axes_have_payoffs_of_the_rules(self):
        table = dosolve.Table.from_matrix([[0.5, 0], [0, 1]], ["a", "b"], ["c", "d"])
        for given, most in ((table, 1), (dosolve.Table(table.listing), 2)):
            picture = pictures.figure(made(given, random.Random(1)))
            self.look(picture, "payoff of player one")
            low, high = picture.axes[2].get_xlim()
            self.assertTrue(-most / 10 < low < 0 and most < high < 1.1 * most, (low, high))

    def test_bounds_over_time(self):
        lines = [f"worker 0 turns {100 * at} seconds {at}" for at in range(1, 9)]
        self.look(pictures.history(dosolve.read_progress(lines)), "Turns spent")
        lines = [f"{line} lower {-10**6 // at} upper {10**6 // at} gap {2 * 10**6 // at}"
                 for at, line in enumerate(lines, 1)]
        self.look(pictures.history(dosolve.read_progress(lines)), "Gap", "lower bound")
        with self.assertRaisesRegex(dosolve.InvalidError, "no lines of progress"):
            pictures.history([])

    def test_each_axis_over_time_has_two_labels_or_more(self):
        for gaps, wanted in (
                ([600_000, 599_999], ["0.5", "1"]), ([10**6], ["0.5", "1", "2"]),
                ([2 * 10**6, 1_100_000], ["1", "2"]), ([7, 0], ["0.000001", "0.000002",
                                                                "0.000005", "0.00001"]),
                ([60 * 10**6, 26], ["0.00001", "0.0001", "0.001", "0.01", "0.1", "1", "10",
                                    "100"]),
                ([8 * 10**9, 5 * 10**9], ["5000", "10000"]), ([0], ["0.000001", "0.000002"])):
            steps = [dosolve.Progress(9 * at, at / 7, -gap // 2, gap - gap // 2)
                     for at, gap in enumerate(gaps, 1)]
            picture = pictures.history(steps)
            with self.subTest(gaps):
                self.look(picture, "Gap")
                self.assertEqual(self.labels(picture.axes[1].yaxis), wanted)
                low, high = picture.axes[1].get_ylim()
                self.assertTrue(low * dosolve.SCALE < max(1, min(gaps)) <= max(1, *gaps, 0)
                                < high * dosolve.SCALE)
                for axis in (picture.axes[0].yaxis, picture.axes[1].xaxis):
                    self.assertGreaterEqual(len(self.labels(axis)), 2)

    @staticmethod
    def labels(axis):
        """The labels that an axis shows."""
        low, high = sorted(axis.get_view_interval())
        return [tick.label1.get_text() for tick in axis.get_major_ticks()
                if low <= tick.get_loc() <= high]

    def test_one_report_gives_the_same_file(self):
        report = dosolve.Report.load(EXAMPLES[0])
        with tempfile.TemporaryDirectory() as folder:
            for end in ("svg", "png", "pdf"):
                files = [Path(folder, f"{name}.{end}") for name in "ab"]
                for file in files:
                    pictures.show(report, file)
                self.assertEqual(files[0].read_bytes(), files[1].read_bytes())
                self.assertGreater(files[0].stat().st_size, 3000)
            with self.assertRaisesRegex(dosolve.DosolveError, "has to end with"):
                pictures.show(report, Path(folder, "a.txt"))


    def test_the_command_draws_each_of_them(self):
        with tempfile.TemporaryDirectory() as folder:
            lines = Path(folder, "lines")
            lines.write_text("worker 0 turns 3 seconds 1 lower -5 upper 7 gap 12\n")
            report = dosolve.Report.load(EXAMPLES[1])
            for number, words in enumerate((
                    (EXAMPLES[1], "--key", report.one.rows[0].key, "--zoom"),
                    (EXAMPLES[0], "--history", "3,2"), (EXAMPLES[1], "--history", "east,0", "1,3"),
                    (EXAMPLES[0], "--tree", 2), (lines, "--progress"),
                    (EXAMPLES[0], "--players", "my player", "solver"))):
                output = Path(folder, f"{number}.svg")
                self.assertEqual(main(["show", *map(str, words), "-o", str(output)]), 0)
                self.assertGreater(output.stat().st_size, 3000)


class Without(unittest.TestCase):
    def test_a_message_tells_what_to_install(self):
        modules = ("matplotlib", "matplotlib.figure", "matplotlib.backends.backend_agg")
        with mock.patch.dict(sys.modules, dict.fromkeys(modules)):
            for draw in (pictures.figure, pictures.tree):
                with self.assertRaisesRegex(dosolve.DosolveError, "python3-matplotlib"):
                    draw(dosolve.Report.load(EXAMPLES[0]))


if __name__ == "__main__":
    unittest.main()
