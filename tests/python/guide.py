"""The parts of the pages in docs/ that are run: commands and snippets, with what they print.

    DOSOLVE=PROGRAM PYTHONPATH=python python3 tests/python/guide.py [PAGE ..]

runs them all, and writes what they print into the pages anew.
"""
from __future__ import annotations

import os
import re
import subprocess
import sys
import tempfile
from pathlib import Path
from typing import ClassVar

import dosolve
from support import TOP

MEASURING, OWN_GAME = (TOP / "docs" / f"{name}.md" for name in ("MEASURING", "OWN_GAME"))
PAGES = (MEASURING, OWN_GAME)
FOLDER = "/tmp/dosolve"
"""Where the pages write."""


def parts(page=MEASURING):
    """A page as text and indented blocks in turn; blocks without their indent."""
    found = re.split(r"((?:^ {4}.*\n(?:\n+(?= {4}))?)+)", page.read_text(), flags=re.MULTILINE)
    return [re.sub(r"^ {4}", "", part, flags=re.MULTILINE) if place % 2 else part
            for place, part in enumerate(found)]


def lines_of(block):
    """The commands of a block with what each prints."""
    for line in re.split(r"^\$ ", block, flags=re.MULTILINE)[1:]:
        command, _, answer = line.partition("\n")
        yield command, answer


def commands(page=MEASURING):
    """Each command of a page with what it prints."""
    return [pair for block in parts(page)[1::2] if block.startswith("$ ")
            for pair in lines_of(block)]


def snippets(page=MEASURING):
    """Each snippet that is a whole program, with what it prints, None where the page has none."""
    found = parts(page)
    for place in range(1, len(found), 2):
        if found[place].startswith("import "):
            told = found[place + 1].strip().startswith("prints")
            yield found[place], found[place + 2] if told else None


class Folder:
    """A folder that looks like the top of the repository, beside one to write into."""

    def __init__(self, folder):
        self.top, self.out = Path(folder, "top"), Path(folder, "out")
        self.top.mkdir()
        self.out.mkdir()
        for name in ("python", "examples", "docs"):
            (self.top / name).symlink_to(TOP / name)
        program = self.top / "crates" / "dosolve" / "out" / "dosolve"
        program.parent.mkdir(parents=True)
        found = Path(dosolve.find_program()).resolve()
        program.symlink_to(found)
        bins = Path(folder, "bin")
        bins.mkdir()
        (bins / "python3").symlink_to(sys.executable)
        self.environment = os.environ | {
            "PATH": os.pathsep.join([str(bins), os.environ["PATH"]]), "PYTHONPATH": "python",
            "DOSOLVE": str(found)}

    def run(self, *words):
        """The ended run of a command of a page, which writes into the folder."""
        words = [word.replace(FOLDER, str(self.out)) for word in words]
        return subprocess.run(words, cwd=self.top, capture_output=True, text=True, timeout=120,
                              check=False, env=self.environment)


class Checks:
    """Tests of a page, for a `unittest.TestCase`: its commands and snippets are run as they stand,
    what they print is compared, and following it leaves the repository clean."""

    page: ClassVar[Path]
    least: ClassVar[int]
    """How many commands the page has at least."""

    def setUp(self):
        folder = tempfile.TemporaryDirectory()
        self.addCleanup(folder.cleanup)
        self.folder = Folder(folder.name)
        self.before = self.files()

    def files(self):
        """The files of the folder that stands for the repository, and those of the examples."""
        return sorted(map(str, (*self.folder.top.glob("**/*"), *(TOP / "examples").iterdir(),
                                *(TOP / "python" / "examples").iterdir())))

    def skips(self, command):
        """Whether a command cannot be run here."""
        return False

    def test_every_command_gives_what_stands_below_it(self):
        given = commands(self.page)
        self.assertGreaterEqual(len(given), self.least)
        for command, answer in given:
            if self.skips(command):
                continue
            with self.subTest(command):
                run = self.folder.run("bash", "-c", command)
                self.assertEqual((run.returncode, run.stdout, run.stderr), (0, answer, ""))
        self.assertEqual(self.files(), self.before)

    def test_every_snippet_prints_what_stands_below_it(self):
        given = list(snippets(self.page))
        self.assertTrue(given)
        for snippet, answer in given:
            with self.subTest(snippet):
                run = self.folder.run(sys.executable, "-c", snippet)
                self.assertEqual((run.returncode, run.stderr), (0, ""))
                if answer is not None:
                    self.assertEqual(run.stdout, answer)
        self.assertEqual(self.files(), self.before)


def fill(page):
    """Writes what commands and snippets print into a page."""
    found, answer = parts(page), None
    with tempfile.TemporaryDirectory() as path:
        folder = Folder(path)
        for place in range(1, len(found), 2):
            block = found[place]
            if answer is not None and found[place - 1].strip().startswith("prints"):
                block, answer = answer, None
            elif block.startswith("$ "):
                block = "".join(f"$ {command}\n{folder.run('bash', '-c', command).stdout}"
                                for command, _ in lines_of(block))
            elif block.startswith("import "):
                answer = folder.run(sys.executable, "-c", block).stdout
            found[place] = re.sub(r"^(?=.)", "    ", block, flags=re.MULTILINE)
    page.write_text("".join(found))


if __name__ == "__main__":
    for each in list(map(Path, sys.argv[1:])) or PAGES:
        fill(each)
