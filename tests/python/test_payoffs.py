"""One unit: what is printed, and JSON, has payoffs of the rules; the report's text alone has
millionths, times what made a table's payoffs whole."""
import io
import json
import random
import tempfile
import unittest
from fractions import Fraction
from pathlib import Path
from unittest import mock

import dosolve
from test_command import run

THIRDS = ",x,y\na,1/3,0\nb,0,2/3\n"
"""A matrix that is worth 2/9."""


class Rules(unittest.TestCase):
    @classmethod
    def setUpClass(cls):
        folder = tempfile.TemporaryDirectory()
        cls.addClassCleanup(folder.cleanup)
        cls.folder = Path(folder.name)
        cls.matrix, cls.report = cls.folder / "m.csv", cls.folder / "m.report"
        cls.matrix.write_text(THIRDS)
        cls.asked = ("--weight", 8192, "--stages", "regret", "--workers", 1)
        cls.solved = run("solve", cls.matrix, "-o", cls.report, *cls.asked)
        cls.player = cls.folder / "player.py"
        cls.player.write_text("def play(side, state):\n    print('thinking')\n"
                              "    return [1, 0] if side == 'one' else [0, 1]\n")

    def near(self, text, value):
        self.assertAlmostEqual(float(text), value, delta=0.02)

    def test_solve_and_check_print_payoffs_of_the_rules(self):
        words = self.solved.stdout.splitlines()[1].split()
        self.near(words[2], 2 / 9)
        self.assertLess(float(words[2]), 2 / 9)
        self.assertGreater(float(words[4].strip(",")), 2 / 9)
        self.assertNotIn("times", self.solved.stdout)
        raw = dosolve.Report.load(self.report)
        self.assertIn("\nlower 66", f"\n{self.report.read_text()}")
        told = json.loads(run("solve", self.matrix, "--json", *self.asked).stdout)
        self.assertEqual((told["unit"], told["scale"]), ("payoff of One", "3"))
        for name in ("lower", "upper", "gap", "asked", "resolution"):
            self.assertEqual(told[name], float(Fraction(getattr(raw, name), 3 * 10**6)))
        checked = run("check", self.report).stdout.split()
        self.assertEqual((checked[2], checked[4]), (words[2], words[4].strip(",")))
        told = json.loads(run("check", self.report, "--json").stdout)
        self.near(told["lower"], 2 / 9)

    def test_exploit_and_match_print_payoffs_of_the_rules(self):
        for line in run("exploit", self.report).stdout.splitlines()[:2]:
            self.near(line.split()[-1], 2 / 9)
        told = json.loads(run("exploit", self.report, "--json").stdout)
        for worst in told:
            self.near(worst["low"], 2 / 9)
            self.near(Fraction(worst["fraction"]), 2 / 9)
        told = json.loads(run("match", self.report, "--json").stdout)
        self.assertAlmostEqual(told["most"], 2 / 3)
        self.near(told["mean"], 2 / 9)

    def test_a_player_that_prints_does_not_spoil_json(self):
        found = run("measure", self.matrix, self.player, "--json", *self.asked)
        told = json.loads(found.stdout)
        self.assertIn("thinking", found.stderr)
        one, two = told["player"]
        self.assertEqual((one["guarantees"], two["fraction"]), (0.0, "2/3"))
        self.near(one["exploitability"], 2 / 9)
        self.assertEqual(one["exploitability"], one["short"])
        self.near(told["solver"]["lower"], 2 / 9)
        told = json.loads(run("tournament", self.player, "--position", self.matrix, "--json",
                              *self.asked).stdout)
        standings = {each["player"]: each for each in told["standings"]}
        self.near(standings["solver"]["guarantees as one"], 2 / 9)
        self.assertEqual(standings["player"]["guarantees as two"], -2 / 3)
        self.near(standings["player"]["exploitability"], 1 / 3)

    def test_gaps_are_asked_in_payoffs_of_the_rules(self):
        output = self.folder / "gap.json"
        for gap, millionths in (("0.001", 3000), ("1/6", 500_000), ("0", 0)):
            self.assertEqual(run("table", self.matrix, "-o", output, "--gap", gap).returncode, 0)
            self.assertEqual(dosolve.Position.load(output).gap, millionths)

    def test_the_line_on_a_terminal_has_payoffs_of_the_rules(self):
        shown = io.StringIO()
        with mock.patch.object(shown, "isatty", lambda: True):
            dosolve.Bar(shown, None, Fraction(3))(dosolve.Progress(5, 1.0, -1_000_000, 2_000_000))
        self.assertIn("1 s, 5 turns, -0.333334 to 0.666667, gap 1.000001", shown.getvalue())

    def test_records_of_rows_and_pictures_have_payoffs_of_the_rules(self):
        report = dosolve.Report.load(self.report)
        self.near(report.one.table()[0]["bound"], 2 / 9)
        self.assertEqual(report.game.shown(-1), "-0.000001")
        self.assertEqual(report.game.shown(-1, up=True), "0.000000")


class Rounded(unittest.TestCase):
    def test_floats_of_any_digits_are_rounded_with_a_stated_error(self):
        source = random.Random(3)
        matrix = [[source.uniform(-3, 3) for _ in range(4)] for _ in range(4)]
        with self.assertRaisesRegex(dosolve.NoTableError, r"rounded by rounded=True \(--rounded\)"):
            dosolve.Table.from_matrix(matrix)
        table = dosolve.Table.from_matrix(matrix, rounded=True)
        root = table.root()
        wrong = max(abs(Fraction(matrix[one][two]) - table.of_rules(root.play(one=one, two=two).payoff))
                    for one in range(4) for two in range(4))
        self.assertAlmostEqual(float(table.error), float(wrong), delta=1e-9)
        self.assertLess(table.error, 1e-3)
        self.assertGreater(max(abs(table.low), table.high), 3000)
        self.assertEqual(dosolve.Table.from_matrix([[0.5, 1]], rounded=True).error, 0)

    def test_what_each_round_pays_is_rounded(self):
        matrix = [[0.123456789, -1 / 3.1], [2 ** 0.5, 0]]
        table = dosolve.Table.repeated(matrix, 4, rounded=True)
        self.assertEqual(len(table.listing), 5)
        self.assertTrue(0 < table.error < 4 * 0.001)
        wrong = max(abs(Fraction(matrix[one][two]) - table.of_rules(table.root().rewards(one, two)[0]))
                    for one in (0, 1) for two in (0, 1))
        self.assertAlmostEqual(float(table.error), float(4 * wrong), delta=1e-9)
        self.assertTrue(3000 < table.high <= 4000)

    def test_rounded_chances_are_in_the_error(self):
        table = dosolve.Table.from_functions(
            0, lambda node: ([0], [0]) if node == 0 else None,
            lambda node, one, two: {1: Fraction(1, 17), 2: Fraction(16, 17)},
            lambda node: node, rounded=True)
        (cell,), = table.listing[0]
        weights = {table.of_rules(table.listing[after]): weight for after, weight in cell}
        value = sum(payoff * weight for payoff, weight in weights.items()) / dosolve.CHANCE
        true = Fraction(1 * 1 + 2 * 16, 17)
        self.assertNotEqual(value, true)
        self.assertLessEqual(abs(value - true), table.error)
        self.assertLess(table.error, Fraction(1, 100_000))

    def test_the_error_is_kept_beside_the_position_and_told(self):
        with tempfile.TemporaryDirectory() as folder:
            matrix, output = Path(folder, "m.csv"), Path(folder, "m.json")
            matrix.write_text("0.123456789012,1\n3.14159265358979,0\n")
            self.assertIn("have them rounded by", run("table", matrix, "-o", output).stderr)
            made = run("table", matrix, "-o", output, "--rounded")
            self.assertRegex(made.stdout, r"payoffs times \d+\nnote the table was rounded: the value "
                             r"of the game is within 0\.000\d+ of that of the table\n$")
            kept = dosolve.Position.load(output).game
            self.assertTrue(0 < kept.error < 0.001)
            self.assertIn("note   the table was rounded", run(
                "solve", output, "--weight", 8192, "--stages", "regret").stdout)

    def test_what_is_wrong_with_large_numbers_is_told_in_short(self):
        third = Fraction(1, 3**400)
        with self.assertRaisesRegex(dosolve.NoTableError, "a number of more than 20 digits") as caught:
            dosolve.Table.from_matrix([[1, third]])
        self.assertLess(len(str(caught.exception)), 300)


if __name__ == "__main__":
    unittest.main()
