"""The package is clean under mypy --strict, ruff and flake8 where they are installed, and so are
the snippets of the pages; its help begins with what one looks for."""
import importlib.util
import pydoc
import re
import shutil
import subprocess
import sys
import tempfile
import unittest
from pathlib import Path

import dosolve
import guide
from support import TOP

PACKAGE = TOP / "python"


def run(*words, **more):
    return subprocess.run(list(map(str, words)), capture_output=True, text=True, check=False,
                          **more)


class Types(unittest.TestCase):
    @classmethod
    def setUpClass(cls):
        # One folder for all of them, so that mypy looks at the package once.
        folder = tempfile.TemporaryDirectory()
        cls.addClassCleanup(folder.cleanup)
        cls.folder = Path(folder.name)

    def mypy(self, *files):
        """What mypy says of files beside the package."""
        words = ("mypy", "--strict", "--cache-dir", self.folder / "cache", "--config-file",
                 PACKAGE / "pyproject.toml", "--python-executable", sys.executable)
        return run(*words, *files, cwd=PACKAGE)

    @unittest.skipUnless(shutil.which("mypy"), "mypy is missing")
    def test_the_package_and_the_snippets_are_typed(self):
        files = []
        given = [snippet for page in guide.PAGES for snippet, _ in guide.snippets(page)]
        for number, snippet in enumerate(given):
            files.append(self.folder / f"snippet_{number}.py")
            files[-1].write_text(snippet)
        opening = dosolve.__doc__.split("\n\n")[1]
        files.append(self.folder / "opening.py")
        files[-1].write_text(re.sub(r"^ {4}", "", opening, flags=re.MULTILINE))
        found = self.mypy(PACKAGE / "dosolve", PACKAGE / "wheel_backend.py", *files)
        self.assertEqual(found.returncode, 0, found.stdout + found.stderr)

    @unittest.skipUnless(shutil.which("mypy"), "mypy is missing")
    def test_numbers_of_moves_are_told_from_labels(self):
        file = self.folder / "wrong.py"
        file.write_text("import dosolve\nroot = dosolve.Tron(1, 3, [], 0, 2).root()\n"
                        "root.after(0, 1)\nroot.after(root.move('one', 1), dosolve.Move(0))\n"
                        "print(root.play(one=1, two=3).taken)\n")
        found = self.mypy(file)
        self.assertEqual(found.returncode, 1)
        self.assertEqual(set(re.findall(r"wrong.py:(\d+)", found.stdout)), {"3"}, found.stdout)

    @unittest.skipUnless(shutil.which("mypy"), "mypy is missing")
    def test_a_game_knows_the_type_of_its_states_and_a_table_that_of_its_nodes(self):
        file = self.folder / "typed.py"
        file.write_text(
            "import dosolve\n\ngame = dosolve.Goofspiel([1, 2], [1, 2], [1, 2])\n"
            "print(game.root().prize, [state.score for state in game.states()])\n"
            "print(game.root().bid, dosolve.Tron(1, 3, [], 0, 2).state(5).prize)\n"
            "dosolve.plan(game, 'one', lambda state: [state.prize, 1])\n"
            "dosolve.plan(game, 'one', lambda state: [state.walls, 1])\n\n\n"
            "def moves(left: int) -> tuple[list[str], list[str]] | None:\n"
            "    return (['a'], ['b', 'c']) if left else None\n\n\n"
            "def after(left: int, one: str, two: str) -> int:\n    return left - 1\n\n\n"
            "def payoff(left: str) -> int:\n    return 1\n\n\n"
            "dosolve.Table.from_functions(3, moves, after, lambda left: left + 1)\n"
            "dosolve.Table.from_functions(3, moves, after, payoff)\n"
            "dosolve.Table.from_openspiel(dosolve.openspiel.new_initial_state(game))\n"
            "dosolve.Table.from_openspiel(game)\n")
        found = self.mypy(file)
        self.assertEqual(found.returncode, 1)
        self.assertEqual(set(re.findall(r"typed.py:(\d+)", found.stdout)), {"5", "7", "23", "25"},
                         found.stdout)

    @unittest.skipUnless(shutil.which("ruff"), "ruff is missing")
    def test_ruff(self):
        found = run("ruff", "check", "--no-cache", "dosolve", "wheel_backend.py", cwd=PACKAGE)
        self.assertEqual(found.returncode, 0, found.stdout)

    @unittest.skipUnless(importlib.util.find_spec("flake8"), "flake8 is missing")
    def test_flake8(self):
        found = run(sys.executable, "-m", "flake8", "--max-line-length", "100", "dosolve",
                    "wheel_backend.py", cwd=PACKAGE)
        self.assertEqual((found.returncode, found.stdout), (0, ""))

    def test_lines_are_at_most_100_columns(self):
        for file in (PACKAGE / "dosolve").rglob("*.py"):
            for number, line in enumerate(file.read_text().splitlines(), 1):
                self.assertLessEqual(len(line), 100, f"{file.name}:{number}")


class Help(unittest.TestCase):
    def test_help_begins_with_the_functions(self):
        text = pydoc.render_doc(dosolve, renderer=pydoc.plaintext)
        begin = text[:3500]
        for name in ("solve(", "exploit(", "best_response(", "plan(", "measure(", "sweep("):
            self.assertIn(name, begin)

    def test_all_names_are_there(self):
        self.assertEqual(len(set(dosolve.__all__)), len(dosolve.__all__))
        for name in dosolve.__all__:
            self.assertTrue(hasattr(dosolve, name), name)
        self.assertEqual(dosolve.__all__[0], "solve")


if __name__ == "__main__":
    unittest.main()
