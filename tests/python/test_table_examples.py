"""The examples of tables: as python/examples makes them, with the reports that the program prints,
whose bounds enclose the values that are known. The program has to know tables."""
import sys
import unittest
from fractions import Fraction

import dosolve
from support import TOP

sys.path.insert(0, str(TOP / "python" / "examples"))
import make_tables  # noqa: E402
import soccer  # noqa: E402

VALUES = {"table_pennies": 0, "table_rock": 0, "table_best_of_three": 0,
          "table_blotto": Fraction(1, 2), "table_soccer": Fraction(1, 10),
          "table_raid": Fraction("6.4291001")}
"""Their values, of raid to seven digits: those of symmetric games are 0, the others come of linear
programs by backward induction."""


class Examples(unittest.TestCase):
    def test_positions_are_those_that_are_made(self):
        for name, table in make_tables.tables().items():
            with self.subTest(name):
                position = dosolve.Position.load(TOP / "examples" / f"{name}.json")
                self.assertEqual(position, dosolve.Position(table, workers=1, search="oracle"))
                self.assertEqual((position.game.state_names, position.game.scale),
                                 (table.state_names, table.scale))
                for kept, made in zip(position.game.move_names, table.move_names):
                    self.assertEqual(tuple(map(tuple, kept)), tuple(map(tuple, made)))

    def test_reports_are_the_program_s(self):
        for name in make_tables.tables():
            with self.subTest(name):
                report = dosolve.Report.load(TOP / "examples" / f"{name}.report")
                position = dosolve.Position.load(TOP / "examples" / f"{name}.json")
                self.assertEqual(dosolve.solve(position), report)
                self.assertEqual(dosolve.check(report).outcome, report.outcome)
                self.assertFalse(report.is_vacuous)
                self.assertLess(report.gap, 10_000)
                low, high = report.interval
                self.assertTrue(low <= VALUES[name] <= high)


class Soccer(unittest.TestCase):
    def pitch(self, **changes):
        start = {"rounds": 2, "one": (1, 3), "two": (1, 4), "ball": "one"}
        return soccer.Pitch(**start | changes)

    def test_who_steps_onto_the_other_loses_the_ball(self):
        for two in ("stay", "south"):
            found = soccer.after(self.pitch(), "east", two)
            self.assertEqual(found[0][0].ball, "two")
            self.assertEqual(found[1][0].ball, "two" if two == "stay" else "one")
        self.assertEqual(sum(chance for _, chance in found), 1)

    def test_goals(self):
        for row, goal in ((0, False), (1, True), (2, True), (3, False)):
            pitch = self.pitch(one=(row, 4), two=(2, 0))
            self.assertEqual("east" in pitch.steps("one"), goal)
        scored = [after.goals for after, _ in soccer.after(self.pitch(one=(1, 4), two=(2, 0)),
                                                           "east", "stay")]
        self.assertEqual(scored, [1, 1])
        pitch = self.pitch(one=(1, 1), two=(1, 0), ball="two")
        self.assertEqual([after.goals for after, _ in soccer.after(pitch, "stay", "west")],
                         [-1, -1])
        # Who steps onto the player with the ball does not take it.
        found = [(after.goals, after.ball) for after, _ in soccer.after(pitch, "west", "stay")]
        self.assertEqual(found, [(0, "two"), (0, "two")])
        # Two loses the ball first in one of the orders, and does not score then.
        pitch = self.pitch(one=(1, 0), two=(1, 1), ball="two")
        found = soccer.after(pitch, "south", "west")
        self.assertEqual([after.ball for after, _ in found], ["two", "one"])

    def test_steps_stay_on_the_grid(self):
        for state in soccer.table().states():
            if state.node is not None and not state.is_end:
                for side in dosolve.SIDES:
                    row, column = state.node.cell(side)
                    self.assertTrue(0 <= row < soccer.ROWS and 0 <= column < soccer.COLUMNS)
                self.assertNotEqual(state.node.one, state.node.two)


if __name__ == "__main__":
    unittest.main()
