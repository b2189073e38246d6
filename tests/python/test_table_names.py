"""The names of a table's states and moves, and the file beside it that keeps them."""
import tempfile
import unittest
from fractions import Fraction
from pathlib import Path

import dosolve
from dosolve import Table
from table_support import PENNIES


class Names(unittest.TestCase):
    def test_they_are_kept_beside_positions_and_reports(self):
        table = Table.from_matrix([[Fraction(1, 2), 0], [0, 1]], ["a", "b"], ["c", "d"])
        plain = Table(table.listing)
        one, two = (dosolve.Sheet(table, side, 8192) for side in dosolve.SIDES)
        with tempfile.TemporaryDirectory() as folder:
            for kept, load in ((dosolve.Position(table, rows=3), dosolve.Position.load),
                               (dosolve.Report.of(one, two), dosolve.Report.load)):
                file = Path(folder, "game.txt")
                kept.save(file)
                again = load(file)
                self.assertEqual(again, kept)
                self.assertEqual(again.game.root().names("one"), ("a", "b"))
                self.assertEqual((again.game.scale, again.game.state_names),
                                 (2, table.state_names))
                Path(folder, "game.names").unlink()
                self.assertEqual(load(file).game.root().names("one"), ("0", "1"))
            dosolve.Position(plain, rows=3).save(Path(folder, "plain.json"))
            self.assertEqual([path.name for path in Path(folder).iterdir()
                              if path.suffix == ".names"], [])
            Path(folder, "plain.names").write_text(Table(PENNIES, ["x"] * 3).names_text())
            with self.assertRaisesRegex(dosolve.InvalidError, "plain.names: these are names of an"):
                dosolve.Position.load(Path(folder, "plain.json"))
            Path(folder, "plain.names").write_text("{}")
            with self.assertRaisesRegex(dosolve.InvalidError, "no names of a table"):
                dosolve.Position.load(Path(folder, "plain.json"))

    def test_plans_and_notes_are_told_by_names(self):
        table = Table.from_matrix([[Fraction(1, 2), 0], [0, 1]], ["a", "b"], ["c", "d"])
        plan = dosolve.plan(table, "one", lambda state: {"b": 0.25, "a": 0.75}, 8192)
        report = dosolve.Report.of(plan, dosolve.Sheet(table, "two", 8192))
        self.assertEqual([(row["name"], row["probability"]) for row in plan.table()],
                         [("a", 0.75), ("b", 0.25)])
        self.assertIn("one    a 75.0%, b 25.0%", str(report))
        self.assertIn("value  from 0.250000 to 1.000000, payoff of One", str(report))
        self.assertEqual(report.interval, (Fraction(1, 4), 1))
        again = dosolve.Report.read(report.text(), table)
        self.assertEqual(again.game.root().names("two"), ("c", "d"))
        self.assertIs(again.one.game, table)
        with self.assertRaisesRegex(dosolve.PlayerError, r"'c' is no label .*named \('a', 'b'\)"):
            dosolve.plan(table, "one", lambda state: {"c": 1})

    def test_positions_have_no_names_and_a_limit(self):
        position = dosolve.Position(Table(PENNIES, ["a", "b", "c"]), workers=1)
        self.assertIn('"states":[[[1,2],[2,1]],1,-1],"gap":0', position.text())
        self.assertEqual((position.rows, dosolve.Position.read(position.text())), (2, position))
        long = Table([[[1] * 32] * 32] * 1 + [[[at] * 32] * 32 for at in [1025] * 300] + [0] * 725)
        with self.assertRaisesRegex(dosolve.InputRefusedError, "input 50 too long: table of 1026"):
            dosolve.Position(long, stages="regret").text()


if __name__ == "__main__":
    unittest.main()
