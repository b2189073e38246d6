"""Plans as records for tables, and as short texts."""
import unittest

import dosolve
from players_support import optional
from support import TOP


class Tables(unittest.TestCase):
    def test_items_and_records(self):
        report = dosolve.Report.load(TOP / "examples" / "tron_corners.report")
        for side in dosolve.SIDES:
            sheet = report.sheet(side)
            items = list(sheet.items())
            self.assertEqual(len(items), len(sheet.rows))
            for state, shares in items:
                self.assertEqual((sum(shares.values()), tuple(shares)), (1, state.moves(side)))
            records = sheet.table()
            self.assertEqual(len(records), sum(len(row.weights) for row in sheet.rows))
            self.assertIn(records[0]["name"], dosolve.DIRECTIONS)
        pandas = optional("pandas")
        if pandas:
            frame = pandas.DataFrame(report.one.table())
            self.assertAlmostEqual(frame.groupby("key").probability.sum().min(), 1)

    def test_texts_are_short(self):
        report = dosolve.Report.load(TOP / "examples" / "tron_corners.report")
        for text in (repr(report), repr(report.one), repr(report.game.root()), str(report)):
            self.assertLess(len(text), 500, text)
        self.assertIn("<table>", report._repr_html_())
        self.assertIn("value", str(report))


if __name__ == "__main__":
    unittest.main()
