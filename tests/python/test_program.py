"""Calls of the program: every refusal and failure is an exception with the program's text."""
import dataclasses
import os
import subprocess
import sys
import tempfile
import unittest
from pathlib import Path
from unittest import mock

import dosolve
from support import TOP, cases, commands

EXAMPLE = (TOP / "examples" / "goofspiel_mixed.report").read_bytes()
POSITION = dosolve.Position.read((TOP / "examples" / "goofspiel_mixed.json").read_bytes())


class Calls(unittest.TestCase):
    def test_solve_gives_the_report(self):
        self.assertEqual(dosolve.solve(POSITION).text().encode(), EXAMPLE)

    def test_check_accepts_or_raises_the_text(self):
        for name, given, out, status in cases("check"):
            with self.subTest(name):
                if status == 0:
                    found = dosolve.check(given)
                    self.assertEqual(f"accepted {found.lower} {found.upper} {found.outcome}\n", out.decode())
                else:
                    with self.assertRaises(dosolve.ReportRefused) as caught:
                        dosolve.check(given)
                    self.assertEqual(caught.exception.text + "\n", out.decode())

    def test_refusals_are_explained_by_every_call(self):
        calls = (dosolve.check, lambda text: dosolve.exploit(text, "one"), lambda text: dosolve.play(text, 1))
        for given, wanted, words in ((b"weight 65536", b"weight 6", "report number 3: '6' has to be a number from 8192"),
                                     (b"\nend\n", b"\nend", "report short: line 23 does not end"),
                                     (b"\nasked ", b"\nasked  ", "report line 5: the line is .asked  1000"),
                                     (b"goofspiel 1,3", b"goofspiel 1,14", "report position 21: the card 14")):
            for call in calls:
                with self.subTest(words), self.assertRaisesRegex(dosolve.ReportRefused, words):
                    call(EXAMPLE.replace(given, wanted))

    def test_a_refused_outcome_is_explained(self):
        wide = dosolve.Report.load(TOP / "python" / "examples" / "high_card_first.report")
        one, two = (dosolve.Sheet(wide.game, side, 65536) for side in dosolve.SIDES)
        for made, words in ((dosolve.Report.read(EXAMPLE.replace(b"outcome closed", b"outcome spent")),
                             "gap is 0.000000, asked was 0.001000, and .* 0.062502: the outcome has to be closed"),
                            (dataclasses.replace(dosolve.Report.of(one, two), outcome="settled"), "has to be spent, full or stopped"),
                            (dataclasses.replace(dosolve.Report.of(one, two), turns=1), "has to be full or stopped, since turns are left")):
            with self.assertRaisesRegex(dosolve.ReportRefused, f"^refused outcome: the .*{words}"):
                dosolve.check(made)
        self.assertIn("do not allow the outcome", str(dosolve.ReportRefused("refused outcome")))

    def test_bounds_gives_numbers_or_raises_what_stopped_it(self):
        for name, given, out, status in cases("bounds"):
            if status == 2:
                continue
            with self.subTest(name):
                position = dosolve.Position.read(given)
                if status == 0:
                    self.assertEqual("lower {}\nupper {}\n".format(*dosolve.bounds(position)), out.decode())
                else:
                    with self.assertRaises(dosolve.LimitReached) as caught:
                        dosolve.bounds(position)
                    self.assertEqual(caught.exception.text + "\n", out.decode())

    @unittest.skipUnless("exploit" in commands(), "docs/FORMATS.md tells no command exploit")
    def test_exploit_gives_the_worst_case(self):
        for side in dosolve.SIDES:
            found = dosolve.exploit(EXAMPLE, side)
            self.assertEqual((found.low, found.is_exact, found.guaranteed), (-500000, True, -500000))
        thirteen = dosolve.Goofspiel(range(1, 14), range(1, 14), [100] * 13)
        one, two = (dosolve.Sheet(thirteen, side, 1_048_576) for side in dosolve.SIDES)
        found = dosolve.exploit(dosolve.Report.of(one, two), "one")
        self.assertEqual((found.low, found.high), (-1_100_000_000, -1_100_000_000))
        with self.assertRaisesRegex(dosolve.ReportRefused, "report short"):
            dosolve.exploit(EXAMPLE[:-1], "one")

    @unittest.skipUnless("play" in commands(), "docs/FORMATS.md tells no command play")
    def test_play_gives_turns_and_sums(self):
        game = dosolve.OshiZumo(1, 2, 1)
        match = dosolve.play(dosolve.Report.of(dosolve.Sheet(game, "one", 8192), dosolve.Sheet(game, "two", 8192)), 3, 0)
        self.assertEqual(match, dosolve.Match((dosolve.Turn(1, 1, 0), dosolve.Turn(1, 0, 0)), 1, 3, 3, 1, 1))
        self.assertEqual(match.mean, 1)
        for games, seed in ((0, 0), (100_001, 0), (1, -1), (1, 2**64), (1.5, 0)):
            with self.assertRaises(dosolve.Invalid):
                dosolve.play(EXAMPLE, games, seed)


class Failures(unittest.TestCase):
    def program(self, script):
        """A program in place of dosolve."""
        folder = tempfile.TemporaryDirectory()
        self.addCleanup(folder.cleanup)
        file = Path(folder.name, "dosolve")
        file.write_text("#!/bin/sh\n" + script)
        file.chmod(0o755)
        return file

    def test_each_status_is_an_exception(self):
        for script, kind, words in (("cat > /dev/null; exit 8", dosolve.ProgramFailed, "ran out of memory"),
                                    ("cat > /dev/null; exit 6", dosolve.ProgramFailed, "standard input failed"),
                                    ("cat > /dev/null; echo 'usage: dosolve x'; exit 1", dosolve.ProgramFailed, "does not know check: usage: dosolve x"),
                                    ("cat > /dev/null; echo oops >&2; exit 77", dosolve.ProgramFailed, "status 77: oops"),
                                    ("cat > /dev/null; echo accepted", dosolve.ProgramFailed, "gave no answer of dosolve: 'accepted.n'; is it dosolve"),
                                    ("cat > /dev/null; echo states full; exit 5", dosolve.LimitReached, "^states full$"),
                                    ("cat > /dev/null; sleep 5", dosolve.ProgramFailed, "took more than 0.2 seconds")):
            with self.subTest(script), self.assertRaisesRegex(kind, words):
                dosolve.check(EXAMPLE, program=self.program(script), timeout=0.2 if "sleep" in script else None)

    def test_what_is_told_meanwhile_goes_through_where_it_is_asked_for(self):
        program = self.program("cat > /dev/null; echo turns 5 >&2; echo accepted 0 0 closed")
        words = "import dosolve; print(dosolve.check(b'').outcome)"
        for asked, told in (({}, ""), ({"DOSOLVE_PROGRESS": ""}, "turns 5\n")):
            environment = {name: value for name, value in os.environ.items() if name != "DOSOLVE_PROGRESS"}
            run = subprocess.run([sys.executable, "-c", words], capture_output=True, text=True, check=True,
                                 env=environment | asked | {"DOSOLVE": str(program), "PYTHONPATH": str(TOP / "python")})
            self.assertEqual((run.stdout, run.stderr), ("closed\n", told))

    def test_a_program_that_is_not_there_is_said(self):
        with self.assertRaisesRegex(dosolve.ProgramMissing, "/no/such is no program"):
            dosolve.solve(POSITION, program="/no/such")
        with mock.patch.dict(os.environ, {"DOSOLVE": "", "PATH": ""}), mock.patch("dosolve.solver.program._BESIDE", Path("/no/such")):
            with self.assertRaisesRegex(dosolve.ProgramMissing, "name the program in the variable DOSOLVE"):
                dosolve.find_program()


if __name__ == "__main__":
    unittest.main()
