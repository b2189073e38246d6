"""The command `table`: each kind of source, and its messages."""
import io
import tempfile
import unittest
from contextlib import redirect_stderr, redirect_stdout
from pathlib import Path

import dosolve
from dosolve import Table
from dosolve.__main__ import main


class CommandLine(unittest.TestCase):
    """`table` needs no program."""

    def setUp(self):
        folder = tempfile.TemporaryDirectory()
        self.addCleanup(folder.cleanup)
        self.folder = Path(folder.name)

    def run_table(self, name, text, *words):
        """Status, output and errors of the command on a file with this text."""
        (self.folder / name).write_text(text)
        out, told = io.StringIO(), io.StringIO()
        with redirect_stdout(out), redirect_stderr(told):
            status = main(["table", str(self.folder / name), "-o",
                           str(self.folder / "made.position"), *words])
        return status, out.getvalue(), told.getvalue()

    def test_each_kind_of_source(self):
        rps = Table.from_matrix([[0, -1], [1, 0]], ["rock", "paper"], ["rock", "paper"])
        efg = ('EFG 2 R "" { "One" "Two" } p "" 1 1 "" { "a" "b" } 0 t "" 1 "" { 1 -1 } '
               't "" 2 "" { 0 0 }')
        for name, text, words, table in (
                ("a.csv", ",rock,paper\nrock,0,-1\npaper,1,0\n", [], rps),
                ("b.csv", "rock,paper\n0,-1\n1,0\n", [], rps),
                ("c.csv", "rock,0,-1\npaper,1,0\n", [], rps),
                ("d.csv", "0,-1\n\n1,0\n", [], rps), ("e.json", "[[0, -1], [1, 0]]", [], rps),
                ("f.json", '[["0", "-1/1"], [1, 0.0]]', ["--rounds", "2"],
                 Table.repeated([[0, -1], [1, 0]], 2)),
                ("g.efg", efg, [], Table([[[1], [2]], 1, 0])),
                ("g.EFG", f"\ufeff{efg}", [], Table([[[1], [2]], 1, 0])),
                ("i.CSV", "\ufeff,rock,paper\nrock,0,-1\npaper,1,0\n", [], rps),
                ("j.csv", "sign, rock, paper\nrock, 0, -1\npaper, 1, 0\n", [], rps),
                ("k.csv", "paper\n0\n1\n", [], Table.from_matrix([[0], [1]])),
                ("l.Json", "\ufeff[[0, -1], [1, 0]]", [], rps),
                ("h.py", "import dosolve\ndef table(): return dosolve.Table([5])", [], Table([5]))):
            with self.subTest(name):
                status, out, told = self.run_table(name, text, "--gap", "0.000007", *words)
                self.assertEqual((status, told), (0, ""))
                self.assertIn(table.title(), out)
                made = dosolve.Position.load(self.folder / "made.position")
                self.assertEqual((made.game, made.gap), (table, 7))
        named = self.run_table("a.csv", ",rock,paper\nrock,0,-1/2\npaper,1,0\n")[1]
        self.assertIn(", payoffs times 2", named)
        made = dosolve.Position.load(self.folder / "made.position").game
        self.assertEqual(made.root().names("two"), ("rock", "paper"))

    def test_numbers_are_names_where_the_first_cell_is_empty(self):
        for text, ones, twos, payoffs in (
                (",low,high\n1,5,6\n2,7,-8", ("1", "2"), ("low", "high"), (5, 6, 7, -8)),
                (",1,2\n1,5,6\n2,7,8", ("1", "2"), ("1", "2"), (5, 6, 7, 8)),
                (',"1,5",b\nx,5,6\ny,7,8', ("x", "y"), ("1,5", "b"), (5, 6, 7, 8)),
                ("1,2\n5,6", ("0", "1"), ("0", "1"), (1, 2, 5, 6))):
            self.assertEqual(self.run_table("a.csv", text)[::2], (0, ""))
            root = dosolve.Position.load(self.folder / "made.position").game.root()
            self.assertEqual((root.names("one"), root.names("two")), (ones, twos))
            self.assertEqual(tuple(root.after(one, two).payoff for one in range(2)
                                   for two in range(2)), payoffs)

    def test_messages(self):
        for name, text, words, pattern in (
                ("a.txt", "", [], "a.txt has to end with .csv, .json, .nfg, .efg or .py"),
                ("a.json", "[", [], "a.json is no JSON: Expecting"), ("a.json", "5", [], "list of"),
                ("a.csv", "0,1\n1,2\nz,3\n", [], "'z' is no payoff: in row 2, column 0"),
                ("a.csv", "1,x\n3,0\n", [], "a.csv begins with the number 1 and goes on with 'x'"),
                ("a.csv", '"1,5","2,5"\n3,4\n', [], "a.csv has '1,5' with a comma, and numbers ha"),
                ("a.csv", 'a,b\n3,"4,5"\n', [], "has '4,5' with a comma"),
                ("a.csv", "low,high\n1,5,6\n", [], "has 2 names in its first line for 3 columns"),
                ("a.csv", "low,high\nx,5,6\n", [], "has 1 names in its first line for 2 columns"),
                ("a.csv", ",low,\n1,5,6\n", [], "has 1 names in its first line for 2 columns"),
                ("a.csv", ",low\n,5\n", [], "has 0 names in its first column for 1 rows"),
                ("a.csv", "0\t1\n1\t0\n", [], "a.csv has tabs, and commas have to"),
                ("a.csv", "0 1\n1 0\n", [], "a.csv has blanks, and commas have to"),
                ("a.csv", ";a;b\nx;1,5;2\n", [], "a.csv has semicolons, and commas have to"),
                ("a.csv", ",a,b\nx,1,no\n", [], "'no' is no payoff: in row x, column b"),
                ("a.csv", ",a,b\nx,1,2\ny,3\n", [], "row 1 .* has the length 1"),
                ("a.csv", "0;1\n1;0\n", [], "a.csv has semicolons"),
                ("a.csv", "", [], "the matrix is empty"),
                ("a.json", '{"game":"table"}', [], "a.json has to be a matrix, .* a position"),
                ("a.py", "", [], "defines no function table"),
                ("a.py", "def table(): return 5", [], "gives 5, and has to give a Table"),
                ("a.py", "def table():\n    return [][1]", [],
                 "raised IndexError: list index out of range .*a.py, line 2"),
                ("a.py", "import dosolve\ndef table(): return dosolve.Table([])", [],
                 "input 82 no states: a table has at least one"),
                ("a.py", "x", ["--rounds", "2"], "no matrix that is played for some rounds"),
                ("a.json", "[[1]]", ["--rounds", "0"], "rounds is 0"),
                ("a.py", "import sys\ndef table(): sys.exit('no')", [], "raised SystemExit: no .*2"),
                ("a.py", "raise SystemExit", [], "a.py raised SystemExit"),
                ("a.py", "import dosolve\ndef table(): return dosolve.Table([[[1] * 32] * 32] + "
                         "[[[1025] * 32] * 32] * 300 + [0] * 725)", ["--stages", "regret"],
                 r"a.py: input 50 too long: table of .* bytes, and 1048576 \(with linear stages "
                 r"67108864\) are possible"),
                ("a.nfg", "5", [], "is no file of Gambit, which begins with NFG or EFG: it begins with '5")):
            with self.subTest(pattern):
                status, out, told = self.run_table(name, text, *words)
                self.assertEqual((status, out, told.count("\n")), (1, "", 1), told)
                self.assertRegex(told, f"dosolve: .*{pattern}")


if __name__ == "__main__":
    unittest.main()
