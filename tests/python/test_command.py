"""The command line: each command, its JSON, its messages, and what ends it."""
import contextlib
import dataclasses
import hashlib
import io
import json
import os
import re
import signal
import subprocess
import sys
import tempfile
import time
import unittest
from pathlib import Path
from unittest import mock

import dosolve
from dosolve.__main__ import main
from support import TOP, children

ENVIRONMENT = os.environ | {"PYTHONPATH": str(TOP / "python")}
POSITION, REPORT = "examples/goofspiel_mixed.json", "examples/goofspiel_mixed.report"
GOOD = json.loads((TOP / POSITION).read_text())


def run(*words):
    """The ended command with its output and errors; run in this process, at the top of the repository."""
    given, told, shown = [str(word) for word in words], io.StringIO(), io.StringIO()
    with (contextlib.chdir(TOP), contextlib.redirect_stderr(told), contextlib.redirect_stdout(shown),
          mock.patch("sys.path", list(sys.path))):
        try:
            status = main(given)
        except SystemExit as ended:
            status = ended.code or 0
    return subprocess.CompletedProcess(given, status, shown.getvalue(), told.getvalue())


def started(*words):
    """The ended command, as a process of its own."""
    return subprocess.run([sys.executable, "-m", "dosolve", *map(str, words)], cwd=TOP, text=True,
                          capture_output=True, check=False, env=ENVIRONMENT, timeout=120)


class Commands(unittest.TestCase):
    def setUp(self):
        folder = tempfile.TemporaryDirectory()
        self.addCleanup(folder.cleanup)
        self.folder = Path(folder.name)

    def test_solve_prints_a_summary_a_report_or_json(self):
        kept = self.folder / "kept.report"
        found = started("solve", POSITION, "-o", kept)
        self.assertEqual((found.returncode, found.stderr), (0, ""))
        self.assertRegex(found.stdout, r"(?m)^gap    0\.000000 \(0% of the range\), closed$")
        self.assertEqual(kept.read_text(), (TOP / REPORT).read_text())
        self.assertEqual(run("solve", POSITION, "--report").stdout, kept.read_text())
        record = json.loads(run("solve", POSITION, "--json", "--seconds", "20").stdout)
        self.assertEqual((record["lower"], record["upper"], record["notes"]),
                         (-0.5, -0.5, []))
        self.assertEqual((record["unit"], record["states"]), ("payoff of One", 5))

    def test_check_and_exploit(self):
        self.assertEqual(run("check", REPORT).stdout,
                         "accepted lower -0.500000 upper -0.500000 closed\n")
        self.assertEqual(json.loads(run("check", REPORT, "--json").stdout)["outcome"], "closed")
        self.assertEqual(run("exploit", REPORT).stdout,
                         "player one guarantees -0.500000\nplayer two guarantees -0.500000\n"
                         "nash_conv 0.000000\n")
        found = json.loads(run("exploit", REPORT, "two", "--json").stdout)
        self.assertEqual([(worst["side"], worst["guarantees"], worst["fraction"])
                          for worst in found], [("two", -0.5, "-1/2")])
        self.assertNotIn("nash_conv", found[0])
        found = json.loads(run("exploit", REPORT, "--json").stdout)
        self.assertEqual([(worst["nash_conv"], worst["notes"]) for worst in found], [(0, [])] * 2)

    def test_rows_that_are_not_played_are_told(self):
        file, good = self.folder / "x.report", (TOP / REPORT).read_text()
        file.write_text(good.replace("335595772 -500000 32768 32768", "335595772 -500000 1 1"))
        notes = [f"the row of player {side} in GoofspielState(one=(1, 3), two=(2, 3), score=0, prize"
                 f"=1) has not one weight for each move with the sum 65536: the first move is "
                 f"played there (1 such row)" for side in dosolve.SIDES]
        told = "".join(f"note {note}\n" for note in notes)
        self.assertTrue(run("exploit", file).stdout.endswith(f"nash_conv 1.000000\n{told}"))
        self.assertTrue(run("exploit", file, "two").stdout.endswith(f"\nnote {notes[1]}\n"))
        self.assertTrue(run("match", file, "--games", 2).stdout.endswith(f"most -1\n{told}"))
        found = json.loads(run("exploit", file, "--json").stdout)
        self.assertEqual([worst["notes"] for worst in found], [[note] for note in notes])
        self.assertEqual(json.loads(run("match", file, "--json").stdout)["notes"], notes)

    def test_measure_and_tournament(self):
        found = json.loads(run("measure", POSITION, "python/examples/even.py", "--json",
                               "--games", 40).stdout)
        self.assertEqual([player["guarantees"] for player in found["player"]], [-0.5, -0.5])
        self.assertEqual([(player["fraction"], player["expected_fraction"])
                          for player in found["player"]], [("-1/2", "-1/2")] * 2)
        words = ("tournament", "python/examples/even.py", "python/examples/match_the_prize.py",
                 "--position", POSITION)
        self.assertIn("| even |", run(*words).stdout)
        self.assertEqual(len(run(*words, "--csv", "--no-solver").stdout.splitlines()), 5)
        self.assertEqual(len(json.loads(run(*words, "--json").stdout)["meetings"]), 9)

    def test_a_tournament_takes_players_of_one_name_and_what_solve_takes(self):
        files = [self.folder / name / "player.py" for name in ("ann", "bob")]
        for move, file in enumerate(files):
            file.parent.mkdir()
            file.write_text(f"def play(side, state):\n    return {{state.moves(side)[-{move}]: 1}}\n")
        words = ("tournament", *files, "python/examples/even.py", "--position", POSITION)
        found = json.loads(run(*words, "--json").stdout)
        self.assertEqual({standing["player"] for standing in found["standings"]},
                         {"ann/player", "bob/player", "even", "solver"})
        self.assertEqual([meeting["payoff"] for meeting in found["meetings"]
                          if (meeting["one"], meeting["two"]) == ("bob/player", "ann/player")], [0])
        limited = run(*words, "--csv", "--seconds", 0, "--workers", 2)
        self.assertEqual((limited.returncode, len(limited.stdout.splitlines())), (0, 17))
        self.assertRegex(limited.stderr,
                         "^dosolve: note position 0, the solver: the time was up.*\n$")
        self.assertRegex(run(*words, "--seconds", 0).stdout, r"\n\nnote position 0.*\n$")
        twice = run("tournament", files[0], files[0], "--position", POSITION)
        self.assertEqual((twice.returncode, twice.stderr),
                         (1, f"dosolve: {files[0]} is given twice\n"))

    def test_sweep_is_resumed(self):
        given, output = self.folder / "given.jsonl", self.folder / "out.jsonl"
        line = json.dumps(GOOD)
        given.write_text(f'{line}\n\n{line.replace("1000,", "999,")}\n{{"game": 7}}\n')
        for _ in range(2):
            found = run("sweep", given, "-o", output)
            self.assertEqual((found.returncode, found.stdout.count("\n")), (1, 4))
            self.assertRegex(found.stdout, r"(?m)^0 goofspiel 1,3 2,3 1,1 0 margin lower "
                             r"-0\.500000 .* closed seconds")
            self.assertRegex(found.stdout, r"(?m)^3 positions: 2 with bounds, 0 of which nothing is "
                             r"known, 1 failed; widest gap 0\.000000 \(position 0\); .* of search$")
            self.assertRegex(found.stdout, r"(?m)^2 failed .*input 14 kind of game")
            self.assertIn("1 positions failed", found.stderr)
        self.assertIn(f"dosolve: results taken from {output}: 2\n", found.stderr)
        self.assertEqual(len(output.read_text().splitlines()), 4)
        given.write_text(json.dumps(GOOD | {"turns": 0, "visits": 0}) + "\n")
        self.assertRegex(run("sweep", given).stdout, "seconds .* note .*range of payoffs: nothing")
        given.write_text(f'{line}\n\n{line.replace("1000,", "999,")}\n{{"game": 7}}\n')
        self.assertEqual(len(run("sweep", given, "--json").stdout.splitlines()), 3)
        for seconds, times in ((0, 0), (9, 0), (9, 1)):
            found = run("sweep", POSITION, "-o", self.folder / "one.jsonl", "--seconds", seconds)
            self.assertEqual((found.returncode, found.stderr.count("results taken")), (0, times))
            self.assertEqual("note" in found.stdout, seconds == 0, found.stdout)

    def test_help_and_version(self):
        self.assertIn("examples:", run("--help").stdout)
        for call in (run, started):
            found = call("--version")
            self.assertEqual((found.returncode, found.stderr), (0, ""))
            self.assertRegex(found.stdout, rf"^dosolve-py {dosolve.__version__}, program /")
            checksum = hashlib.sha256(Path(dosolve.find_program()).read_bytes()).hexdigest()
            self.assertIn(f"\nprogram sha256 {checksum}\nlibrary ", found.stdout)
        with mock.patch.dict(os.environ, {"DOSOLVE": "/no/such", "DOSOLVE_LIBRARY": "/no/such.so"}):
            missing = run("--version").stdout
        self.assertRegex(missing, r"^dosolve-py \S+, program .*no/such.*\nlibrary /no/such.so is no")
        for command in ("solve", "check", "exploit", "measure", "match", "tournament", "show",
                        "sweep", "table"):
            self.assertEqual(run(command, "--help").returncode, 0)
        self.assertEqual(run().returncode, 2)
        self.assertIn("the gap that is narrow enough, in payoffs, such as 0.001",
                      " ".join(run("solve", "--help").stdout.split()))
        for words, told in ((("--gap", "-1"), "argument --gap: '-1' has to be a payoff from 0"),
                            (("--workers", 64), "argument --workers: workers is '64', and has to "
                             "be a whole number from 1 to 16")):
            wrong = run("solve", POSITION, *words)
            self.assertEqual(wrong.returncode, 2)
            self.assertIn(told, wrong.stderr)


class Messages(unittest.TestCase):
    def setUp(self):
        folder = tempfile.TemporaryDirectory()
        self.addCleanup(folder.cleanup)
        self.folder = Path(folder.name)

    def fails(self, words, pattern, *command):
        """That a command, run in this process, ends with 1 and one line."""
        found = run(*command)
        self.assertEqual((found.returncode, found.stderr.count("\n")), (1, 1), found.stderr)
        self.assertRegex(found.stderr, pattern, words)

    def test_positions(self):
        file = self.folder / "position.json"
        for changes, pattern in (
                ({"one": [1, 14]}, "input 21 card range one 1: the card 14 .* from 1 to 13"),
                ({"game": "goofspeil"}, "input 16 game name: .*'goofspeil', only goofspiel, osh"),
                ({"comment": "x"}, "input 13 unknown field: 'comment' is no field of goofspiel"),
                ({"gap": 0.001}, "kind of gap: gap is 0.001, and .* from 0 to 8000.*millionths"),
                ({"weight": 100}, "range of weight: weight is 100, .* from 8192 to 1048576"),
                ({"one": [1, 1]}, "card twice one 1: one has the card 1 twice"),
                ({"prizes": [1]}, "lengths 2 2 1: 2 cards of one, 2 of two and 1 prizes"),
                ({"prizes": [1, 101]}, "prize range 1: the prize 101 .* from 1 to 100"),
                ({"stages": "quick"}, "range of stages: .* 'regret' or 'linear'")):
            file.write_text(json.dumps(GOOD | changes))
            with self.subTest(changes):
                self.fails(changes, pattern, "solve", file)
        file.write_text(json.dumps({"game": "pursuit", "nodes": 3, "edges": [[0, 1], [1, 2]],
                                    "one": 0, "two": 2, "rounds": 1}))
        self.fails("pairs", "kind of edges: .*both nodes of each edge, one edge after the other",
                   "solve", file)
        for text, pattern in (("", "not json: the text is empty"),
                              ("{\n  'game'", "not json: Expecting .* at line 2, column 3"),
                              ((TOP / REPORT).read_text(), "this is a report, not a position"),
                              ("[[1, 2]]", "not an object: .*makes the position of a matrix")):
            file.write_text(text)
            self.fails(text, pattern, "solve", file)
        self.fails("no file", "^dosolve: no.json: No such file or directory$", "solve", "no.json")

    def test_options_fill_what_a_position_leaves_out(self):
        file = self.folder / "position.json"
        file.write_text(json.dumps({name: value for name, value in GOOD.items()
                                    if name not in ("gap", "turns", "workers", "prizes")}))
        self.fails("a list", "missing prizes: the position lacks prizes$", "solve", file)
        file.write_text(json.dumps({name: value for name, value in GOOD.items()
                                    if name not in ("gap", "turns", "workers")}))
        filled = run("solve", file, "--gap", 0.001, "--turns", 1000, "--workers", 1, "--stages",
                     "regret", "--report")
        self.assertEqual((filled.returncode, filled.stdout), (0, (TOP / REPORT).read_text()))
        file.write_text(json.dumps({name: value for name, value in GOOD.items() if name != "one"}))
        self.fails("no cards", "missing one: the position lacks one$", "solve", file)
        for gap in (1000, 4):
            self.fails("a wide gap", f"a gap of {gap} is no narrower than the range of payoffs, 4: a "
                       "gap is in payoffs, and a thousandth of one is 0.001$", "solve", POSITION,
                       "--gap", gap)

    def test_files_that_are_no_position_of_their_own(self):
        file = self.folder / "many.jsonl"
        file.write_text(2 * (TOP / POSITION).read_text())
        self.fails("several", "Extra data at line 2, column 1; the command `sweep` takes a file "
                   "with one position on each line$", "solve", file)
        for name in ("rock.txt", "rock"):
            file = self.folder / name
            file.write_text("0,1\n1,0\n")
            self.fails(name, "not json: .*; a game is read where the file ends with .csv, .nfg, "
                       ".efg, .py$", "solve", file)
        (self.folder / "rock.CSV").write_text("0,1\n1,0\n")
        self.assertEqual(run("solve", self.folder / "rock.CSV").returncode, 0)
        (self.folder / "wide.csv").write_bytes(",a\nb,1\n".encode("utf-16"))
        self.fails("UTF-16", "^dosolve: .*wide.csv: .*can't decode", "solve",
                   self.folder / "wide.csv")

    def test_outputs_are_tried_before_the_search(self):
        (self.folder / "file").write_text("")
        player, new = "python/examples/even.py", self.folder / "new"
        with mock.patch("dosolve.solver.program.Solver.solve", side_effect=AssertionError):
            for pattern, *words in (
                    ("no/x: No such file", "solve", POSITION, "-o", self.folder / "no" / "x"),
                    ("Is a directory", "solve", POSITION, "-o", self.folder),
                    ("file: File exists", "measure", POSITION, player, "--keep",
                     self.folder / "file"),
                    ("games is 1, and has to", "measure", POSITION, player, "--games", 1),
                    ("seed is -1, and has to", "measure", POSITION, player, "--seed", -1),
                    ("no/x.svg: No such file", "show", REPORT, "-o", self.folder / "no" / "x.svg")):
                self.fails(pattern, pattern, *words)
        self.fails("a wrong program", "gave no report", "solve", POSITION, "-o", new, "--program",
                   "/bin/true")
        self.assertFalse(new.exists())
        link = self.folder / "link"
        link.symlink_to(new)
        self.assertEqual(run("solve", POSITION, "-o", link).returncode, 0)
        self.assertEqual(new.read_text(), (TOP / REPORT).read_text())

    def test_what_was_found_is_printed_where_it_cannot_be_saved(self):
        full = OSError(28, "No space left on device", "x")
        for words, wanted in ((("solve", POSITION, "-o", self.folder / "x"), "^game   goofspiel"),
                              (("measure", POSITION, "python/examples/even.py", "--json", "--keep",
                                self.folder), '"guarantees": -0.5')):
            shown = io.StringIO()
            with (mock.patch("dosolve.reports.Report.save", side_effect=full),
                  contextlib.chdir(TOP), contextlib.redirect_stdout(shown),
                  contextlib.redirect_stderr(io.StringIO()) as told):
                self.assertEqual(main([str(word) for word in words]), 1)
            self.assertRegex(shown.getvalue(), wanted)
            self.assertEqual(told.getvalue(), "dosolve: x: No space left on device\n")

    def test_no_source_is_written_over(self):
        position, player = self.folder / "one.report", self.folder / "player.py"
        position.write_text((TOP / POSITION).read_text())
        player.write_text("def play(side, state): return [1] * len(state.moves(side))\n")
        matrix, report = self.folder / "m.csv", self.folder / "r.report"
        matrix.write_text(",a,b\nc,1,0\nd,0,1\n")
        report.write_text((TOP / REPORT).read_text())
        self.assertEqual(run("table", matrix, "-o", self.folder / "m.json").returncode, 0)
        before = {file.name: file.read_text() for file in self.folder.iterdir()}
        for words in (("solve", position, "-o", position), ("solve", matrix, "-o", matrix),
                      ("solve", position, "-o", self.folder / "x" / ".." / "one.report"),
                      ("solve", self.folder / "m.json", "-o", self.folder / "m.names"),
                      ("table", matrix, "-o", matrix), ("sweep", position, "-o", position),
                      ("measure", position, player, "--side", "one", "--keep", self.folder),
                      ("show", report, "-o", report)):
            (self.folder / "x").mkdir(exist_ok=True)
            self.fails(words, "is read, and would be written over: name another output", *words)
        (self.folder / "x").rmdir()
        self.fails("names", "new.names ends as the file of names beside it would", "table", matrix,
                   "-o", self.folder / "new.names")
        self.assertEqual({file.name: file.read_text() for file in self.folder.iterdir()}, before)
        before["of.names"] = "names of my own\n"
        (self.folder / "of.names").write_text(before["of.names"])
        for words in (("solve", matrix, "-o", self.folder / "of.report"),
                      ("table", matrix, "-o", self.folder / "of.json")):
            self.fails(words, "of.names would be written over, and has no names of a table", *words)
        self.assertEqual({file.name: file.read_text() for file in self.folder.iterdir()}, before)

    def test_reports(self):
        file, good = self.folder / "x.report", (TOP / REPORT).read_text()
        for text, pattern in ((good.replace("\n", "\r\n"), "report head: its lines end with CR LF"),
                              ("", "report head: the text is empty"),
                              (json.dumps(GOOD), "report head: this is a position, not"),
                              (good.replace("weight 65536", "weight 6"),
                               "report number 3: '6' has to be a number from 8192")):
            file.write_bytes(text.encode())
            for words in (("show", file, "-o", self.folder / "x.svg"), ("match", file)):
                self.fails(text, f"^dosolve: {file}: {pattern}", *words)
        file.write_bytes(good.replace("\n", "\r\n").encode())
        for words in (("check", file), ("exploit", file)):
            self.fails("CRLF", f"^dosolve: {file}: report head: its lines end with CR LF", *words)
        self.fails("a position", f"^dosolve: {POSITION}: report head: this is a position, not",
                   "check", POSITION)
        file.write_text(good.replace("335595772 -500000", "335595772 -499999", 1))
        self.fails("a wrong row", r"refused bound one 335595772 0 -32768000000 -32767934464: in "
                   r"Goof.* the row of player one yields -0\.500000 against the move 2 of player "
                   r"two, and its bound is -0\.499999$", "check", file)
        file.write_text(good.replace("335595772 -500000", "335595772 -500001")
                        .replace("335595772 -500001", "335595772 -500000", 1))
        self.fails("a wrong row of Two", r"the row of player two yields -0\.500000 against the move "
                   r"1 of player one, and its bound is -0\.500001$", "check", file)

    def test_paths_handed_as_texts(self):
        with self.assertRaisesRegex(dosolve.InputRefusedError, "Position.load reads"):
            dosolve.Position.read(POSITION)
        with self.assertRaisesRegex(dosolve.ReportRefusedError, "Report.load reads"):
            dosolve.Report.read(REPORT)
        for read in (dosolve.Position.read, dosolve.Report.read):
            with self.assertRaisesRegex(dosolve.InvalidError, "load takes a path"):
                read(TOP / POSITION)

    def test_programs_and_players(self):
        self.fails("/bin/true", "/true gave no report.*is it dosolve", "solve", POSITION,
                   "--program", "/bin/true")
        player = self.folder / "player.py"
        for text, pattern in (
                ("", "defines no function play"), ("import no_such_module", "No module named"),
                ("def play(side, state): return [1]", "1 weights for 2 moves: player one in"),
                ("def play(side, state): return state.rounds",
                 "one raised AttributeError: .*player.py, line 1"),
                ("def play(side, state): return [-1, 2][:len(state.moves(side))]",
                 "must not be negative"),
                ("import random\ndef play(side, state):\n    card = random.choice(state.moves("
                 "side))\n    return {card: 1}", "drew random numbers in Goofspiel"),
                ("import sys\ndef play(side, state): sys.exit(0)", "one raised SystemExit: 0: in G"),
                ("import sys\nsys.exit()", "player.py raised SystemExit"),
                ("def play(side, state): raise ValueError('two\\nlines')", "ValueError: two lines:"),
                ("def play(side, state, history): return [1]", "has no plan by states")):
            player.write_text(text)
            self.fails(text, pattern, "measure", POSITION, player)
        for words in (("show", REPORT, "-o", self.folder / "x.txt"),
                      ("show", REPORT, "-o", self.folder / "x.svg", "--key", "7"),
                      ("solve", POSITION, "-o", self.folder / "no" / "x")):
            found = run(*words)
            self.assertEqual((found.returncode, found.stderr.count("\n")), (1, 1), found.stderr)
        self.assertEqual(run("solve", POSITION, "--seconds", "-1").returncode, 2)

    def test_a_closed_pipe_is_no_fault(self):
        words = f"{sys.executable} -m dosolve solve {POSITION} --report; echo $? >&2"
        found = subprocess.run(["bash", "-c", f"({words}) | true"], cwd=TOP, env=ENVIRONMENT,
                               capture_output=True, text=True, check=True)
        self.assertIn(found.stderr, ("0\n", "141\n"))
        words = f"{sys.executable} -c \"import sys; from dosolve.__main__ import main; " \
                f"sys.stdout.write('x' * 10**6); sys.exit(main(['check', '{REPORT}']))\""
        found = subprocess.run(["bash", "-c", f"({words}; echo $? >&2) | head -c 10 > /dev/null"],
                               cwd=TOP, env=ENVIRONMENT, capture_output=True, text=True,
                               check=True)
        self.assertIn("141", found.stderr.split())

    def test_interrupted(self):
        slow = self.folder / "slow"
        slow.write_text("#!/bin/sh\ncat > /dev/null\nlooks=0\n"
                        "while [ ! -e \"${DOSOLVE_STOP:-/none}\" ] && [ $looks -lt 300 ]; do\n"
                        "sleep 0.1; looks=$((looks + 1)); done\ncat \"$0.report\"; exit 4\n")
        game = dosolve.Position.load(TOP / POSITION).game
        nothing = dosolve.Report.of(*(dosolve.Sheet(game, side, 65536) for side in ("one", "two")))
        Path(f"{slow}.report").write_text(
            dataclasses.replace(nothing, turns=1000, outcome="stopped").text())
        slow.chmod(0o755)
        for more, status, pattern in (((), 130, "dosolve: interrupted\n"),
                                      (("--seconds", "inf"), 0, "")):
            command = subprocess.Popen(
                [sys.executable, "-m", "dosolve", "solve", POSITION, "--program", slow, *more],
                cwd=TOP, env=ENVIRONMENT, stdout=subprocess.PIPE, stderr=subprocess.PIPE,
                text=True)
            self.wait_for_child(command.pid)
            command.send_signal(signal.SIGINT)
            answer, told = command.communicate(timeout=20)
            self.assertEqual((command.returncode, told), (status, pattern))
            self.assertEqual(bool(re.search("nothing is known yet", answer)), status == 0)

    @staticmethod
    def wait_for_child(parent):
        """Waits until the process has started the program."""
        for _ in range(200):
            if children(parent):
                time.sleep(0.3)
                return
            time.sleep(0.05)


if __name__ == "__main__":
    unittest.main()
