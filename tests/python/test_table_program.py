"""Tables through the program: positions, reports and refusals alike, the values of made tables,
and the tables of built-in games beside these games. The program has to know tables."""
import json
import random
import re
import subprocess
import tempfile
import unittest
from fractions import Fraction
from pathlib import Path

import dosolve
from dosolve import Table
from support import random_game, random_listing
from table_support import STAGES, Bids, Nim
from test_command import run
from test_texts import changed, read_back


def position(table, **asked):
    """A position with one worker."""
    return dosolve.Position(table, workers=1, **asked)


def answer(command, given):
    """The text and the status of the program."""
    run = subprocess.run([dosolve.find_program(), *command.split()], input=given,
                         capture_output=True, check=False)
    return run.stdout, run.returncode


class Enclosing(unittest.TestCase):
    def encloses(self, table, value, most=Fraction(1, 100)):
        """That the bounds of a table, in payoffs of its rules, enclose this value narrowly."""
        low, high = dosolve.solve(position(table, turns=10**6)).interval
        self.assertTrue(low <= value <= high, (low, value, high))
        self.assertLess(high - low, most)


class Texts(unittest.TestCase):
    def test_positions_are_refused_alike(self):
        source, told = random.Random(21), set()
        for number in range(600):
            listing = random_listing(source)
            text = json.dumps({"game": "table", "states": listing, "gap": 0, "weight": 8192,
                               "turns": 0, "visits": 1, "rows": 9, "workers": 1}).encode()
            for _ in range(number % 3):
                text = self.bent(text, source)
            found = read_back(dosolve.Position.read, text)
            out, status = answer("bounds", text)
            if status == 2:
                self.assertEqual(found, out.decode()[:-1], text)
                told.add(dosolve.InputRefusedError(found).code)
            else:
                self.assertEqual(json.loads(found), json.loads(text), text)
        self.assertLessEqual({14, 15, 83, 85, 86, 87, 88}, told)

    @staticmethod
    def bent(text, source):
        """The text with one number or bracket changed."""
        pieces = text.split(b",")
        place = source.randrange(len(pieces))
        pieces[place] = source.choice([
            pieces[place] + b",1", pieces[place].replace(b"[", b"[[", 1),
            re.sub(rb"[0-9]+", b"4001", pieces[place]), pieces[place].replace(b"1", b"0"),
            pieces[place].replace(b"2", b"999999999"), pieces[place].replace(b"1", b'"x"'),
            pieces[place].replace(b"[[", b"[[1],[", 1), re.sub(rb"[0-9]+", b"[]", pieces[place])])
        return b",".join(pieces)

    def test_each_refusal(self):
        deep = [*([[next_one]] for next_one in range(1, 33)), 0]
        for listing in ([], [4001], [[], 0], [[[1], []], 0], [[[[]]], 0], [[[[[1, 1]]]], 0],
                        [[[0]], 0], deep, ["x"], [[[-1]], 0], 7, [[[1, [[1, 2.0]]]], 0]):
            text = json.dumps({"game": "table", "states": listing, "gap": 0, "weight": 8192,
                               "turns": 0, "visits": 0, "rows": 9, "workers": 1}).encode()
            out, status = answer("solve", text)
            self.assertEqual((read_back(dosolve.Position.read, text), status),
                             (out.decode()[:-1], 2))

    def test_reports_are_read_and_refused_alike(self):
        source, told = random.Random(22), set()
        texts = [answer("solve", position(Table(listing), weight=8192, turns=50,
                                          stages="regret").text().encode())[0]
                 for listing in (STAGES, [[[1, 2], [2, 1]], 1, -1], [[[[[1, 360360]]]], 3], [2],
                                 [[[[[1, 360360, 2]], 1], [1, [[1, 180180], [2, 180180, -1]]]],
                                  [[2, 3], [3, 2]], 1, -1])]
        for _ in range(400):
            text = source.choice(texts)
            head, line, rest = text.split(b"\n", 2)
            if source.random() < 0.7:
                text = b"\n".join([head, changed(line, source), rest])
            else:
                text = changed(text, source)
            out, _ = answer("check", text)
            refused = out.startswith(b"report ")
            self.assertEqual(read_back(dosolve.Report.read, text).encode(),
                             out[:-1] if refused else text, text)
            told.add(out.split(b" ", 1)[1][:11] if refused else b"")
        self.assertLessEqual({b"", b"line 2\n", b"number 2\n", b"position 81"}, told)

    def test_reports_are_written_as_they_were_read(self):
        source = random.Random(23)
        for _ in range(60):
            asked = position(Table(random_listing(source)), weight=8192, turns=500)
            text, status = answer("solve", asked.text().encode())
            self.assertIn(status, (0, 3, 4))
            report = dosolve.Report.read(text, asked.game)
            self.assertEqual(report.text().encode(), text)
            self.assertIs(report.game, asked.game)
            self.assertEqual(report.resolution, asked.game.resolution(8192))
            self.assertEqual(dosolve.check(report).outcome, report.outcome)
            for side in dosolve.SIDES:
                self.assertEqual(dosolve.best_response(report, side).side, side)


class Values(Enclosing):
    def test_matrices(self):
        for matrix, value in (([[0, -1, 1], [1, 0, -1], [-1, 1, 0]], 0),
                              ([[Fraction(1, 3), 0.5], [0.25, 1]], Fraction(1, 3)),
                              ([[3, -1], [-1, 1]], Fraction(1, 3)),
                              ([[80000, -40000], [-40000, 40000]], Fraction(40000, 5))):
            self.encloses(Table.from_matrix(matrix), value, 500 if value > 1 else 0.01)

    def test_equal_payoffs(self):
        asked = position(Table([[[1, 2], [2, 1]], 3, 3]), visits=0, rows=1)
        self.assertEqual(dosolve.bounds(asked), (3_000_000, 3_000_000))
        found = dosolve.solve(asked)
        self.assertEqual((found.outcome, found.lower, found.upper, found.spent, found.one.rows),
                         ("closed", 3_000_000, 3_000_000, (0,), ()))
        self.assertEqual(dosolve.check(found).outcome, "closed")

    def test_rounds(self):
        self.encloses(Table.repeated([[2, -1], [-1, 1]], 3), Fraction(3, 5))
        self.encloses(Table.repeated([[1, -1], [-1, 1]], 8), 0, Fraction(1, 20))

    def test_chances(self):
        for count in (13, 14, 36, 52, 1001):
            table = Table.from_functions(
                "root", lambda node: (["only"], []) if node == "root" else None,
                lambda *_: dict.fromkeys(range(count), Fraction(1, count)), lambda node: node % 3)
            self.encloses(table, Fraction(sum(node % 3 for node in range(count)), count))

    def test_nim(self):
        for left in range(1, 12):
            for player in (0, 1):
                wins = (left % 4 != 1) == (player == 0)
                self.encloses(Table.from_openspiel(Nim(left, player)), Fraction(2 * wins - 1, 2))


class BuiltIn(Enclosing):
    def test_tables_of_games_are_worth_what_the_games_are(self):
        D = dosolve
        games = [D.Goofspiel([1, 2, 3], [1, 2, 3], [1, 2, 3]),
                 D.Goofspiel([1, 3, 4], [2, 3, 5], [3, 1, 2], 2, "win"),
                 D.GoofspielDrawn([1, 2, 3], [1, 2, 4], [2, 1, 3]), D.OshiZumo(1, 5, 4, 1, 0),
                 D.OshiZumo(2, 4, 4, 1, -1), D.Tron(3, 3, [4], 0, 8), D.Tron(2, 4, [], 0, 7),
                 D.Pursuit(4, [0, 1, 1, 2, 2, 3], 0, 3, 4)]
        source = random.Random(24)
        games += [random_game(name, source) for name in
                  ("goofspiel", "goofspiel_drawn", "oshi_zumo", "tron", "pursuit")
                  for _ in range(6)]
        solved = 0
        for game in games:
            table = Table.from_game(game)
            with self.subTest(game.line()):
                self.assertEqual(dosolve.bounds(position(table)), dosolve.bounds(position(game)))
                if (table.low, table.high) == (game.low, game.high):
                    solved += 1
                    self.overlap(game, table)
        self.assertGreater(solved, 10)

    def overlap(self, game, table):
        """That the bounds of both leave room for one value."""
        found = [dosolve.solve(position(each, weight=65536, turns=10**5, visits=10**6))
                 for each in (game, table)]
        self.assertLessEqual(max(report.lower for report in found),
                             min(report.upper for report in found))
        self.assertLess(max(report.gap for report in found), 20_000)

    def test_walked_games_have_the_bounds_of_the_built_in_ones(self):
        for cards in ([1, 2], [1, 2, 3]):
            for first in cards:
                rest = [prize for prize in cards if prize != first]
                walked = Table.from_openspiel(Bids(cards, first))
                game = dosolve.GoofspielDrawn(cards, cards, [first, *rest])
                self.assertEqual(dosolve.bounds(position(walked)), dosolve.bounds(position(game)))
            self.encloses(Table.from_openspiel(Bids(cards)), 0)

    def test_plans_are_measured_alike(self):
        game = dosolve.Goofspiel([1, 2, 3], [1, 2, 3], [3, 1, 2])
        table = Table.from_game(game)
        for side in dosolve.SIDES:
            mine = dosolve.plan(game, side, lambda state: [1] * len(state.moves(side)), 8192)
            ours = dosolve.plan(table, side, lambda state: mine.weights(state.node), 8192)
            worst = []
            for sheet in (mine, ours):
                other = dosolve.Sheet(sheet.game, dosolve.other(side), 8192)
                pair = (sheet, other) if side == "one" else (other, sheet)
                worst.append(dosolve.exploit(dosolve.Report.of(*pair), side))
            self.assertEqual(worst[0], worst[1])


class Names(unittest.TestCase):
    def test_matches_and_reports_are_told_by_names(self):
        table = Table.repeated([[0, -1], [1, 0]], 2, ["rock", "paper"], ["rock", "paper"])
        report = dosolve.solve(position(table))
        self.assertIs(report.game, table)
        self.assertIn("one    paper 100.0%", str(report))
        told = dosolve.play(report, 1).told(table)
        self.assertEqual(told[0], "2 rounds left: paper - paper")
        self.assertEqual(len(told), 2)

    def test_sweeps_keep_names(self):
        tables = [Table.from_matrix([[0, bet], [1, 0]], ["a", "b"], ["c", "d"]) for bet in (1, 2)]
        with tempfile.TemporaryDirectory() as folder:
            for _ in range(2):
                found = list(dosolve.sweep(map(position, tables), output=Path(folder, "out")))
                self.assertEqual([swept.report.game for swept in found], tables)
                self.assertEqual(found[1].report.one.named(found[1].report.game.root()).keys(),
                                 {"a", "b"})

    def test_the_command_line(self):
        with tempfile.TemporaryDirectory() as path:
            folder = Path(path)
            (folder / "m.csv").write_text(",rock,paper\nrock,0,-1/2\npaper,1/2,0\n")
            made = run("table", folder / "m.csv", "-o", folder / "m.json", "--workers", 1)
            self.assertEqual((made.returncode, made.stderr), (0, ""))
            self.assertIn("at most 2 moves a side and 1 turn, payoffs times 2", made.stdout)
            solved = run("solve", folder / "m.json", "-o", folder / "m.report")
            self.assertIn("one    paper 100.0%", solved.stdout)
            self.assertIn("value  from 0.000000 to 0.000000, payoff of One", solved.stdout)
            told = run("match", folder / "m.report", "--games", 10)
            self.assertIn("turn root: paper - paper\npayoff 0\n", told.stdout)
            even = folder / "even.py"
            even.write_text("def play(side, state): return [1] * len(state.moves(side))\n")
            for words in (("check", "m.report"), ("exploit", "m.report"), ("match", "m.report"),
                          ("measure", "m.json", even), ("sweep", "m.json"),
                          ("tournament", even, "--position", "m.json"), ("solve", "m.json")):
                told = run(*(folder / word if str(word)[0] == "m" and "." in str(word) else word
                             for word in words))
                self.assertEqual((told.returncode, told.stderr), (0, ""))
                self.assertNotIn("times", told.stdout)
                if words[0] in ("check", "match", "tournament"):
                    told = run(words[0], *(word if word in (even, "--position") else folder / word
                                           for word in words[1:]), "--json")
                    told = json.loads(told.stdout)
                    self.assertEqual((told["notes"], told["unit"]), ([], "payoff of One"))
            (folder / "m.names").rename(folder / "kept")
            (folder / "m.names").write_text("{}")
            self.assertEqual(run("check", folder / "m.report").stdout.count("\n"), 1)
            self.assertIn("these are no names", run("exploit", folder / "m.report").stderr)
            (folder / "kept").rename(folder / "m.names")
            told = run("solve", folder / "m.csv", "--workers", 1, "-o", folder / "c.report")
            self.assertEqual((told.returncode, told.stdout), (0, solved.stdout))
            self.assertTrue((folder / "c.names").is_file())
            (folder / "game.py").write_text(
                "import dosolve\n\n\ndef table():\n    return dosolve.Table.from_functions(\n"
                "        0, lambda node: None if node else (['a', 'b'], ['c']), "
                "lambda node, one, two: one, lambda node: int(node == 'a'))\n")
            (folder / "player.py").write_text(
                "def play(side, state):\n    return [1 + state.node] + [0] * "
                "(len(state.moves(side)) - 1)\n")
            told = run("measure", folder / "game.py", folder / "player.py", "--games", 2)
            self.assertEqual((told.returncode, told.stderr), (0, ""))
            self.assertIn("player one rows 1 guarantees 1.000000 exploitability 0.000000", told.stdout)
            (folder / "m.json").unlink()
            (folder / "n.json").write_text("[[0, -1], [1, 0]]")
            made = run("table", folder / "n.json", "-o", folder / "n.position", "--rounds", 3,
                       "--json")
            self.assertEqual(json.loads(made.stdout), {"states": 4, "scale": "1", "error": 0.0})


if __name__ == "__main__":
    unittest.main()
