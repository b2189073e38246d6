"""docs/MEASURING.md: its commands and snippets are run as they stand, their output is compared,
and following it leaves the repository clean."""
import unittest

import dosolve
import guide
from support import TOP

FIVE = TOP / "python" / "examples"

try:
    import matplotlib
except ImportError:
    matplotlib = None


class Guide(guide.Checks, unittest.TestCase):
    page, least = guide.MEASURING, 16

    def skips(self, command):
        return " show " in command and "--matrix" not in command and matplotlib is None

    def test_the_player_of_the_page(self):
        player = next(block for block in guide.parts()[1::2] if block.startswith("def play"))
        self.assertIn(player, (FIVE / "match_the_prize.py").read_text())

    def test_the_player_is_measured_as_by_hand(self):
        by_hand = dosolve.Report.load(FIVE / "match_the_prize.report")
        position = dosolve.Position.load(FIVE / "goofspiel_five.json")
        player, solved = dosolve.load_player(FIVE / "match_the_prize.py"), dosolve.solve(position)
        for side in dosolve.SIDES:
            found = dosolve.measure(position, player, side, solved, games=10)
            self.assertEqual(found.worst, dosolve.exploit(by_hand, side))
            self.assertEqual(dosolve.check(found.report).outcome, found.report.outcome)
            self.assertGreaterEqual(found.short, -solved.gap)


if __name__ == "__main__":
    unittest.main()
