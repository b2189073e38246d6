"""How many states a game has: counted before a search, told in notes, and held to while a table is
made."""
import contextlib
import dataclasses
import io
import random
import time
import unittest
from unittest import mock

import dosolve
from dosolve.__main__ import main
from dosolve.limits import NARROW, WIDE
from support import TOP, random_game

HAND = tuple(range(1, 14))


def goofspiel(cards, kind=dosolve.Goofspiel):
    return kind(HAND[:cards], HAND[:cards], HAND[:cards])


def vacuous(game, **more):
    """A report of which nothing is known."""
    one, two = (dosolve.Sheet(game, side, 8192) for side in dosolve.SIDES)
    return dataclasses.replace(dosolve.Report.of(one, two), **more)


class Counts(unittest.TestCase):
    def test_a_count_is_that_of_a_walk(self):
        source, seen = random.Random(5), set()
        for _ in range(60):
            name = source.choice([name for name in dosolve.GAMES if name != "tron"])
            game = random_game(name, source)
            walked = sum(not state.is_end for state in game.states())
            if name == "table":
                self.assertGreaterEqual(game.count_states(), walked)
            else:
                self.assertEqual(game.count_states(), walked, game)
            seen.add(name)
        self.assertEqual(len(seen), 5)
        self.assertIsNone(dosolve.Tron(3, 3, [], 0, 8).count_states())

    def test_ends_are_no_more_than_is_said(self):
        source = random.Random(6)
        for _ in range(60):
            game = random_game(source.choice([name for name in dosolve.GAMES if name != "tron"]), source)
            self.assertLessEqual(sum(state.is_end for state in game.states()), game.most_ends, game)
        self.assertIsNone(dosolve.Tron(3, 3, [], 0, 8).most_ends)

    def test_enough_turns_and_rows_leave_no_search_spent_or_full(self):
        source = random.Random(7)
        for number in range(30):
            game = random_game(source.choice([name for name in dosolve.GAMES if name != "tron"]), source)
            asked = dosolve.Position(game, weight=8192, workers=1 + number % 4, visits=0,
                                     **source.choice([dict(stages="regret", search="oracle"), dict(search="oracle"),
                                                      dict(search="induction")]))
            enough = dataclasses.replace(asked, turns=asked.enough_turns, rows=asked.enough_rows)
            self.assertIn(dosolve.solve(enough).outcome, ("closed", "settled"), enough.text())

    def test_enough_turns_by_the_pages(self):
        asked = dosolve.Position(goofspiel(3), stages="regret", search="oracle", workers=1)
        rows = asked.game.count_states() + 13
        self.assertEqual((asked.enough_rows, asked.enough_turns), (rows, 5 * (rows + 4)))
        linear = dataclasses.replace(asked, stages="linear")
        self.assertEqual(linear.enough_turns, 3 * (rows + 4))
        self.assertEqual(dataclasses.replace(linear, search="induction").enough_turns, 6 * (rows + 4))
        tron = dosolve.Position(dosolve.Tron(3, 3, [], 0, 8))
        self.assertEqual((tron.enough_rows, tron.enough_turns), (None, None))

    def test_counts_of_the_pages(self):
        for game, count in ((goofspiel(6), 7625), (goofspiel(7), 39_167), (goofspiel(8), 194_175),
                            (goofspiel(5, dosolve.GoofspielDrawn), 16_721),
                            (goofspiel(7, dosolve.GoofspielDrawn), 2_611_895)):
            self.assertEqual((game.count_states(), game.fits()), (count, True))

    def test_what_no_board_has_room_for_is_known_soon(self):
        since = time.process_time()
        for game in (*map(goofspiel, (11, 12, 13)),
                     *(goofspiel(cards, dosolve.GoofspielDrawn) for cards in (8, 10, 13))):
            self.assertEqual((game.count_states(), game.fits()), (WIDE.rows + 1, False))
        self.assertLess(time.process_time() - since, 10)
        self.assertEqual((goofspiel(10).fits(), goofspiel(9).fits(NARROW.rows // 2)), (True, False))
        self.assertIs(goofspiel(6).fits(), True)
        self.assertIsNone(dosolve.Tron(6, 6, [], 0, 35).fits())

    def test_it_is_told_before_a_search(self):
        file = TOP / "examples" / "goofspiel_mixed.json"
        for words, is_terminal, told in (
                ((), True, "dosolve: 5 states with moves\n"), ((), False, ""),
                (("--rows", "4"), False, "dosolve: the game has 5 states with moves, and the board "
                 "4 rows\n")):
            with (contextlib.redirect_stderr(io.StringIO()) as errors,
                  contextlib.redirect_stdout(io.StringIO()),
                  mock.patch.object(errors, "isatty", lambda shown=is_terminal: shown)):
                self.assertEqual(main(["solve", str(file), *words]), 0)
            self.assertEqual(errors.getvalue().replace("\r", "").strip(" "), told)
        large = dosolve.Position(goofspiel(13))
        with (contextlib.redirect_stderr(io.StringIO()) as errors,
              mock.patch("dosolve.cli.read_position", lambda *_: large),
              mock.patch("dosolve.solver.program.Solver.solve", lambda *_, **__: vacuous(large.game)),
              contextlib.redirect_stdout(io.StringIO())):
            self.assertEqual(main(["solve", "x.json"]), 0)
        self.assertIn("the game has more than 16777216 states with moves, and a board has room for "
                      "no more: only wide bounds are possible", errors.getvalue())


class Notes(unittest.TestCase):
    def test_no_note_promises_what_cannot_help(self):
        large, small, unknown = goofspiel(13), goofspiel(6), dosolve.Tron(6, 6, [], 0, 35)
        for game, more, wanted, never in (
                (large, {"stopped": "time"}, "neither more seconds nor more rows", "can narrow"),
                (small, {"stopped": "time"}, "the time was up: more seconds can narrow the gap", "x"),
                (large, {"outcome": "full", "board": NARROW.rows}, "neither more seconds", "can narrow"),
                (small, {"outcome": "full", "board": 100}, r"the board of 100 rows had no row left: "
                 r"more rows can narrow the gap \(7625 states need one each\)", "neither"),
                (unknown, {"outcome": "full", "board": WIDE.rows}, "left: that is the most that is "
                 "possible", "can narrow"),
                (unknown, {"outcome": "full", "board": NARROW.rows}, "more rows can narrow the gap "
                 "with linear stages$", "the most that"),
                (unknown, {"outcome": "full", "board": 9}, "more rows can narrow the gap$", "need")):
            notes = vacuous(game, **more).notes()
            with self.subTest(more):
                self.assertRegex("\n".join(notes), wanted)
                self.assertNotIn(never, "\n".join(notes))

    def test_a_search_keeps_the_rows_that_it_was_given(self):
        position = dosolve.Position(goofspiel(3), weight=8192, rows=5, stages="regret", workers=1)
        solved = dosolve.solve(position)
        self.assertEqual((solved.outcome, solved.board), ("full", 5))
        self.assertIn("(37 states need one each)", " ".join(solved.notes()))
        self.assertEqual(solved, dosolve.Report.read(solved.text()))

    def test_nothing_known_shows_no_strategy(self):
        text = vacuous(goofspiel(3), stopped="time").summary()
        self.assertRegex(text, r"(?m)^gap .*, time up, asked 0\.000000$")
        self.assertNotRegex(text, "(?m)^(one|two) |spent,")
        self.assertRegex(vacuous(goofspiel(3)).summary(), r", no turns, asked 0\.000000\n")
        self.assertRegex(dosolve.solve(dosolve.Position(
            goofspiel(3), weight=8192, stages="regret")).summary(), "(?m)^one .*%")


class Making(unittest.TestCase):
    def grid(self, width, calls):
        """A game of 20 turns in which a state has 25 pairs of moves."""
        def moves(node):
            calls.append(node)
            return (range(5), range(5)) if node[0] else None

        def after(node, one, two):
            return node[0] - 1, (node[1] + one) % width, (node[2] + two) % width

        return dosolve.Table.from_functions((20, 0, 0), moves, after, lambda node: node[1] - node[2])

    def test_a_table_that_becomes_too_long_is_refused_soon(self):
        calls = []
        with (mock.patch("dosolve.tables.making.WIDE", NARROW),
              self.assertRaisesRegex(dosolve.NoTableError, r"the text of the position would have more "
                                     r"than 1048576 bytes: \d+ for the first \d+ states, with \d+ pai")):
            self.grid(60, calls)
        self.assertLess(len(calls), 30_000)
        self.assertGreater(len(self.grid(6, calls).listing), 500)

    def test_the_least_bytes_are_no_more_than_the_text(self):
        for seed in range(12):
            game, sizes = random_game("table", random.Random(seed)), []

            class Spy(dosolve.tables.making.Making):
                def finish(self, node, told):
                    super().finish(node, told)
                    sizes.append(self.size())

            with mock.patch("dosolve.tables.making.Making", Spy):
                table = dosolve.Table.from_game(game)
            text = dosolve.Position(table, workers=1).text()
            self.assertLessEqual(max(sizes), len(text.partition('"gap"')[0]))
        self.assertLess(len(text), NARROW.bytes)

    def test_progress_is_told(self):
        steps, clock = [], iter(range(10**6))
        with mock.patch("dosolve.tables.making.time.monotonic", lambda: next(clock)):
            dosolve.Table.from_functions(3, lambda n: ([0, 1], [0, 1]) if n else None,
                                         lambda n, a, b: n - 1, lambda n: 0, progress=steps.append)
        self.assertEqual([step.states for step in steps], [1, 2, 3][-len(steps):])
        self.assertRegex(str(steps[-1]), r"3 states with moves, 12 pairs of moves, 0% of the text")


if __name__ == "__main__":
    unittest.main()
