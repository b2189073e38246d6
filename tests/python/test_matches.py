"""Live matches and tournaments."""
import json
import unittest

import dosolve
from players_support import GAME, POSITION, even


class Matches(unittest.TestCase):
    def test_live_matches(self):
        seen = []

        def copies(side, state, history):
            seen.append(history)
            last = history[-1].two if history else 3
            return {last if last in state.moves(side) else state.moves(side)[0]: 1}

        match = dosolve.live_match(GAME, copies, even, 200, 1)
        self.assertEqual(match, dosolve.live_match(GAME, copies, even, 200, 1))
        self.assertNotEqual(match, dosolve.live_match(GAME, copies, even, 200, 2))
        self.assertTrue(any(len(turns) == 2 and isinstance(turns[0], dosolve.Turn)
                            for turns in seen))
        self.assertEqual((match.games, len(match.turns)), (200, 3))
        self.assertGreater(match.error, 0)
        sheets = [dosolve.plan(GAME, side, lambda state, side=side: even(side, state))
                  for side in dosolve.SIDES]
        live = dosolve.live_match(GAME, *sheets, games=2000)
        self.assertLess(abs(float(live.mean - dosolve.expected_of(*sheets))), 5 * live.error)
        with self.assertRaisesRegex(dosolve.InvalidError, "a plan of player two cannot play"):
            dosolve.live_match(GAME, sheets[1], sheets[1])

    def test_a_tournament(self):
        players = {"even": even, "last": lambda side, state: {state.moves(side)[-1]: 1},
                   "past": lambda side, state, history: [1 + len(history) for _ in
                                                         state.moves(side)]}
        found = dosolve.tournament(players, [POSITION], dosolve.Solver(), games=50)
        self.assertEqual(len(found.table()), 16)
        exact = {(row["one"], row["two"]): row for row in found.table()}
        self.assertEqual((exact["even", "last"]["error"], exact["even", "last"]["games"]), (0, 0))
        self.assertEqual(exact["even", "past"]["games"], 50)
        self.assertGreater(exact["past", "last"]["payoff"], -7)
        names = [standing["player"] for standing in found.standings()]
        self.assertEqual(set(names), {"even", "last", "past", "solver"})
        self.assertIn("| player | as one | as two | mean |", found.markdown())
        self.assertIn("<th>as one</th>", found._repr_html_())
        self.assertEqual(found.csv().splitlines()[0], "position,game,one,two,payoff,error,games")
        self.assertEqual(len(json.loads(found.json())["meetings"]), 16)
        self.assertEqual(repr(found), "<Tournament of 4 players: 16 meetings>")
        self.assertEqual(str(found) + "\n", found.markdown())
        with self.assertRaisesRegex(dosolve.InvalidError, "named solver"):
            dosolve.tournament({"solver": even}, [POSITION], dosolve.Solver())

    def test_a_tournament_refuses_what_it_cannot_do_before_it_solves(self):
        asked = []

        class Asked(dosolve.Solver):
            def solve(self, position, *more):
                asked.append(position)
                return super().solve(position, *more)

        whole = dosolve.Position(dosolve.Table.from_matrix([[0, 1], [1, 0]]), workers=1)
        past = {"past": lambda side, state, history: [1] * len(state.moves(side))}
        with self.assertRaisesRegex(dosolve.InvalidError, "games is 1, and has to be a whole"):
            dosolve.tournament(past, [whole], Asked(), games=1)
        self.assertEqual(asked, [])

    def test_a_tournament_has_notes_and_a_limit_of_time(self):
        halves = dosolve.Position(dosolve.Table.from_matrix([[0, 0.5], [1, 0]]), workers=1)
        found = dosolve.tournament({"even": even}, [halves, halves], dosolve.Solver(), seconds=0)
        rest = found.notes
        self.assertEqual([note.split(":")[0] for note in rest],
                         [f"position {number}, the solver" for number in (0, 1)])
        self.assertIn("the time was up", rest[0])
        self.assertTrue(found.markdown().endswith("".join(f"note {note}\n" for note in found.notes)))
        self.assertEqual(json.loads(found.json())["notes"], list(found.notes))
        self.assertRegex(found.markdown(), r"payoffs to the player itself:\n\n\| player \| as one "
                         r"[^:]*payoff to One:\n\n\| position")
        good = dosolve.tournament({"even": even}, [POSITION], dosolve.Solver(), seconds=20)
        self.assertEqual(good.notes, ())


if __name__ == "__main__":
    unittest.main()
