"""The solver's own ways: time, Ctrl-C, progress, notes on what was found, wrong programs."""
import dataclasses
import io
import math
import os
import pickle
import signal
import subprocess
import sys
import tempfile
import time
import unittest
from pathlib import Path

import dosolve
from support import TOP

GAME = dosolve.Goofspiel([1, 3], [2, 3], [1, 1])
POSITION = dosolve.Position(GAME, 0, 8192, 10**6, 10**6, 1024, 1, "regret")


class Programs(unittest.TestCase):
    def program(self, script):
        """A program in place of dosolve."""
        folder = tempfile.TemporaryDirectory()
        self.addCleanup(folder.cleanup)
        file = Path(folder.name, "dosolve")
        file.write_text("#!/bin/sh\n" + script)
        file.chmod(0o755)
        return file

    def slow_program(self):
        """A program that works until the file is there or the seconds are over, half a minute at
        most, and then prints a report of what it has found."""
        row = dosolve.Row(GAME.root().key, -10**6, (1, 8191))
        two = dosolve.Sheet(GAME, "two", 8192)
        report = dosolve.Report.of(dosolve.Sheet(GAME, "one", 8192, [row]), two)
        report = dataclasses.replace(report, turns=10**6, spent=(256,), outcome="stopped")
        script = self.program(
            'cat > /dev/null\necho worker 0 turns 5 seconds 1 >&2\n'
            'echo worker 0 turns 9 seconds 2 lower -5 upper 7 gap 12 >&2\nlooks=0\n'
            'while [ ! -e "$DOSOLVE_STOP" ] && [ $looks -lt "${DOSOLVE_SECONDS:-30}0" ]; do\n'
            'sleep 0.1; looks=$((looks + 1)); done\ncat "$0.report"; exit 4\n')
        Path(f"{script}.report").write_text(report.text())
        return script, report


class Time(Programs):
    def test_what_was_found_is_handed_back_when_time_is_up(self):
        program, report = self.slow_program()
        since, steps = time.monotonic(), []
        found = dosolve.solve(POSITION, program, seconds=1.5, progress=steps.append)
        self.assertEqual(found, report)
        self.assertLess(time.monotonic() - since, 20)
        self.assertEqual((found.used_up, found.stopped, found.version), ((), "time", 3))
        self.assertEqual(found.notes(), ("the time was up: more seconds can narrow the gap",))
        self.assertEqual([(step.turns, step.lower, step.upper, step.gap) for step in steps],
                         [(5, None, None, None), (9, -5, 7, 12),
                          (256, report.lower, report.upper, report.gap)])
        self.assertEqual([(step.states, step.most) for step in steps], [(5, 10**6)] * 3)

    def test_with_no_time_there_are_the_bounds_of_pure_plans(self):
        found = dosolve.solve(POSITION, seconds=0)
        self.assertEqual((found.outcome, found.stopped, found.spent), ("stopped", "time", (0,)))
        self.assertEqual((found.lower, found.upper), dosolve.bounds(POSITION))
        self.assertEqual(dosolve.check(found).outcome, found.outcome)
        self.assertEqual(found.notes(), ("the time was up: more seconds can narrow the gap",))
        read = dosolve.Report.read(found.text())
        self.assertEqual(read.notes(), ("the search was stopped: more seconds can narrow the gap",))
        wide = dosolve.solve(dataclasses.replace(POSITION, gap=4 * 10**6), seconds=0)
        self.assertEqual((wide.outcome, wide.stopped), ("closed", ""))

    def test_a_search_that_ends_is_handed_back(self):
        found = dosolve.solve(POSITION, seconds=math.inf)
        self.assertEqual((found.lower, found.upper, found.used_up), (-500_000, -500_000, ()))
        self.assertEqual(found.stopped, "")
        few = dosolve.solve(dataclasses.replace(POSITION, turns=1), seconds=math.inf)
        self.assertEqual((few.stopped, few.used_up), ("", ("turns",)))

    def test_interrupted_there_is_the_report_of_what_was_found(self):
        program, report = self.slow_program()
        words = (f"import dosolve, math; p = dosolve.Position.read({POSITION.text()!r}); "
                 f"r = dosolve.solve(p, {str(program)!r}, seconds=math.inf, "
                 f"progress=lambda step: print(step, flush=True)); print(r.text() + r.notes()[-1])")
        run = subprocess.Popen([sys.executable, "-c", words], stdout=subprocess.PIPE, text=True,
                               start_new_session=True,
                               env=os.environ | {"PYTHONPATH": str(TOP / "python")})
        self.assertIn("5 of at most 1000000 turns for 5 states\n", run.stdout.readline())
        os.killpg(run.pid, signal.SIGINT)
        answer, _ = run.communicate(timeout=20)
        self.assertEqual((run.returncode, answer[answer.index("dosolve"):].strip()),
                         (0, f"{report.text()}the search was interrupted: more seconds can narrow "
                             f"the gap"))

    def test_a_limit_of_time_is_an_error_of_time(self):
        program = self.program("cat > /dev/null; exec sleep 30")
        for error in (TimeoutError, dosolve.ProgramFailed, dosolve.DosolveError):
            with self.assertRaisesRegex(error, "solve took more than 0.2 seconds"):
                dosolve.Solver(program, 0.2).solve(POSITION)
        for seconds in (-1, "x", math.nan):
            with self.assertRaisesRegex(dosolve.InvalidError, "seconds is"):
                dosolve.solve(POSITION, seconds=seconds)


class Steps(unittest.TestCase):
    def test_lines_are_read_with_and_without_bounds(self):
        lines = ["worker 0 turns 12 seconds 1", "nothing of it", "worker 1 turns 5 seconds 1",
                 "worker 0 turns 20 seconds 2 lower -1000000 upper 500000 gap 1500000"]
        found = dosolve.read_progress(lines)
        self.assertEqual([step.turns for step in found], [12, 17, 25])
        self.assertEqual([step.gap for step in found], [None, None, 1_500_000])
        self.assertEqual(str(found[2]), "2 s, 25 turns, -1.000000 to 0.500000, gap 1.500000")

    def test_the_narrowest_bounds_of_all_workers_are_told(self):
        lines = ["worker 0 turns 9 seconds 1 lower -30 upper 40 gap 70",
                 "worker 1 turns 3 seconds 1 lower -50 upper 20 gap 70",
                 "worker 2 turns 4 seconds 1", "worker 1 turns 5 seconds 2 lower 0 upper 20 gap 20"]
        found = dosolve.read_progress(lines)
        self.assertEqual([(step.turns, step.lower, step.upper) for step in found],
                         [(9, -30, 40), (12, -30, 20), (16, -30, 20), (18, 0, 20)])

    def test_states_of_an_induction_are_told(self):
        lines = ["induction listed 700 valued 0 planned 0 seconds 1",
                 "induction listed 900 valued 30 planned 0 seconds 2",
                 "induction listed 900 valued 900 planned 40 seconds 3",
                 "worker 0 turns 950 seconds 4 lower -50 upper 20 gap 70",
                 "induction listed 1 valued x planned 0 seconds 1"]
        found = dosolve.read_progress(lines)
        self.assertEqual([(step.listed, step.valued, step.planned, step.turns) for step in found],
                         [(700, 0, 0, 0), (900, 30, 0, 30), (900, 900, 40, 940),
                          (None, None, None, 950)])
        self.assertEqual([str(step) for step in found],
                         ["1 s, 700 states listed", "2 s, 30 of 900 states valued",
                          "3 s, 900 of 900 states valued, 40 rows of plans made",
                          "4 s, 950 turns, -0.000050 to 0.000020, gap 0.000070"])
        listing = dosolve.Progress(0, 1.0, states=900, listed=700, valued=0, planned=0)
        self.assertEqual(str(listing), "1 s, 700 of at most 900 states listed")

    def test_the_bar_is_for_terminals(self):
        class Terminal(io.StringIO):
            def isatty(self):
                return True
        for stream, shown in ((io.StringIO(), ""), (Terminal(), "dosolve: 2 s, 30 turns (30%")):
            bar = dosolve.Bar(stream, 100)
            bar(dosolve.Progress(30, 2.0))
            self.assertIn(shown, stream.getvalue())
            bar.close()
            self.assertTrue(not shown or stream.getvalue().endswith("\r"))


class Notes(unittest.TestCase):
    def test_what_the_bounds_are_worth(self):
        position = dosolve.Position(dosolve.OshiZumo(3, 20, 20, 1), 0, 8192, 0, 0, 1 << 16, 1,
                                    "regret")
        found = dosolve.solve(position)
        self.assertEqual((found.outcome, found.is_vacuous), ("settled", True))
        self.assertIn("no better than the range of payoffs", str(found))
        self.assertIn("gap 2.000000, which is the range of payoffs, asked", repr(found))
        self.assertIn("no turns were allowed: the bounds are those of pure plans, or of plans of "
                      "players", str(found))
        self.assertIn("gap    2.000000 (100% of the range), settled, asked 0.000000", str(found))
        few = dosolve.solve(dataclasses.replace(position, turns=10, visits=10**6))
        self.assertEqual(few.used_up, ("turns",))
        self.assertIn("used up its turns: more turns may narrow the gap", str(few))
        good = dosolve.solve(POSITION)
        self.assertIn("gap    0.000000 (0% of the range), closed\n", str(good))
        with self.assertRaisesRegex(dosolve.InvalidError, "stopped is 'x', and has to be empty or"):
            dataclasses.replace(good, stopped="x")
        self.assertEqual((good.notes(), good.is_vacuous, good.used_up), ((), False, ()))
        end = dosolve.solve(dataclasses.replace(POSITION, game=dosolve.Goofspiel([], [], [])))
        self.assertEqual((end.is_vacuous, end.notes(), end.span), (False, (), 0))
        few_rows = dosolve.solve(dosolve.Position(dosolve.Goofspiel([1, 2, 3, 4], [1, 2, 3, 4],
                                                                    [1, 2, 3, 4]), 0, 8192, 10**6,
                                                  10**6, 3, 1, "regret"))
        self.assertEqual(few_rows.used_up, ("rows",) if few_rows.outcome == "full" else ())


class Wrong(Programs):
    def test_wrong_programs_are_told_for_what_they_are(self):
        for script, words in (("exit 0", "gave no report .report head., nothing at all; is it d"),
                              ("cat", "gave no report .report head.: '.*; is it dosolve"),
                              ("exit 1", "is not dosolve, or failed: status 1"),
                              ("exit 2", "is not dosolve, or failed: status 2"),
                              ("echo hm; exit 9", "is not dosolve, or failed: status 9: hm"),
                              ("kill -9 $$", "failed: status -9")):
            with self.subTest(script), self.assertRaisesRegex(dosolve.ProgramFailedError, words):
                dosolve.solve(POSITION, self.program(script))
        older = self.program("cat > /dev/null; echo input 13 unknown field; exit 2")
        with self.assertRaisesRegex(dosolve.InputRefusedError, "older than this package"):
            dosolve.solve(dosolve.Position(GAME), older)
        older = self.program("cat > /dev/null; echo input 16 game name; exit 2")
        with self.assertRaisesRegex(dosolve.InputRefusedError, "older .* does not know the game"):
            dosolve.solve(dosolve.Position(dosolve.Table([5])), older)

    def test_what_is_no_position_or_report_is_said(self):
        for given, words in ((GAME, r"takes a Position, not .*; Position\(Goofspiel"),
                             ("file.json", "Position.load reads a file"), (7, "not 7")):
            for call in (dosolve.solve, dosolve.bounds):
                with self.assertRaisesRegex(dosolve.InvalidError, words):
                    call(given)
        with self.assertRaisesRegex(dosolve.InvalidError, "check takes a Report or its text"):
            dosolve.check(POSITION)

    def test_errors_can_be_sent(self):
        for error in (dosolve.InputRefusedError("input 15 range of gap", "gap is 9"),
                      dosolve.ReportRefusedError("report line 7"), dosolve.PlayerError("x"),
                      dosolve.ProgramFailedError("x", 8), dosolve.ProgramTimeoutError("x")):
            again = pickle.loads(pickle.dumps(error))
            self.assertEqual((str(again), vars(again)), (str(error), vars(error)))


if __name__ == "__main__":
    unittest.main()
