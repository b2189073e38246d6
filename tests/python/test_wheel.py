"""The wheels of `pip install ./python` and `pip install -e ./python` have what they should."""
import base64
import hashlib
import os
import re
import subprocess
import sys
import tarfile
import tempfile
import tomllib
import unittest
import venv
import zipfile
from pathlib import Path

import dosolve
from support import TOP

PACKAGE = TOP / "python"


class Wheel(unittest.TestCase):
    def setUp(self):
        folder = tempfile.TemporaryDirectory()
        self.addCleanup(folder.cleanup)
        self.folder = Path(folder.name)

    def build(self, hook):
        """The wheel that a hook of the backend writes."""
        words = f"import wheel_backend; print(wheel_backend.{hook}({str(self.folder)!r}))"
        run = subprocess.run([sys.executable, "-c", words], cwd=PACKAGE, capture_output=True,
                             text=True, check=True)
        return self.folder / run.stdout.strip()

    def look(self, wheel):
        """The files of a wheel, whose record has to be right."""
        with zipfile.ZipFile(wheel) as files:
            inside = set(files.namelist())
            record = next(file for file in inside if file.endswith("RECORD"))
            for line in files.read(record).decode().splitlines():
                file, digest, size = line.split(",")
                if digest:
                    data = files.read(file)
                    found = base64.urlsafe_b64encode(hashlib.sha256(data).digest())
                    self.assertEqual((f"sha256={found.decode().rstrip('=')}", str(len(data))),
                                     (digest, size))
        return inside

    def test_the_wheel_is_built_and_imported(self):
        wheel = self.build("build_wheel")
        inside = self.look(wheel)
        files = {str(file.relative_to(PACKAGE)) for file in (PACKAGE / "dosolve").glob("**/*")
                 if file.is_file() and "__pycache__" not in file.parts}
        self.assertEqual(files, {name for name in inside if ".dist-info" not in name})
        self.assertIn("dosolve/games/game.py", files)
        words = "import dosolve; print(dosolve.__file__, dosolve.Tron(1, 3, [], 0, 2).root().key)"
        run = subprocess.run([sys.executable, "-c", words], cwd=self.folder, capture_output=True,
                             env=os.environ | {"PYTHONPATH": str(wheel)}, text=True, check=True)
        self.assertEqual(run.stdout, f"{wheel}/dosolve/__init__.py 20482\n")
        with tarfile.open(self.build("build_sdist")) as sources:
            names = {name.partition("/")[2] for name in sources.getnames()}
        self.assertEqual(names, files | {"pyproject.toml", "README.md", "wheel_backend.py"})

    def test_the_editable_wheel_names_the_folder(self):
        wheel = self.build("build_editable")
        self.assertIn("dosolve.pth", self.look(wheel))
        place = self.folder / "venv"
        venv.create(place)
        with zipfile.ZipFile(wheel) as files:
            self.assertIn("dosolve-py = dosolve.__main__:run", files.read(
                next(name for name in files.namelist() if name.endswith("entry_points.txt"))
            ).decode())
            files.extractall(next(place.glob("lib/python3*/site-packages")))
        environment = {name: value for name, value in os.environ.items() if name != "PYTHONPATH"}
        run = subprocess.run([place / "bin" / "python", "-c", "import dosolve.__main__ as m; m.run()",
                              "--version"], cwd=self.folder, capture_output=True, text=True,
                             check=True, env=environment)
        self.assertIn(f"dosolve-py {dosolve.__version__}", run.stdout)

    def test_the_wheel_of_a_release_has_the_program_twice(self):
        program, paper = self.folder / "any", self.folder / "PAPER.txt"
        program.write_bytes(b"\x7fELF")
        paper.write_text("told\n")
        named = f"{dosolve.__version__}+other"
        words = ("import sys, wheel_backend; "
                 "print(wheel_backend.build_release(*sys.argv[1:]))")
        made = []
        for at in ("1000000000", "1000000000", "1000000002"):
            run = subprocess.run(
                [sys.executable, "-c", words, self.folder, program, "manylinux_9_9_x86_64", named, paper],
                cwd=PACKAGE, capture_output=True, text=True, check=True,
                env=os.environ | {"SOURCE_DATE_EPOCH": at})
            made.append((self.folder / run.stdout.strip()).read_bytes())
        self.assertEqual(made[0], made[1])
        self.assertNotEqual(made[0], made[2])
        stem = f"dosolve-{named}"
        wheel = self.folder / f"{stem}-py3-none-manylinux_9_9_x86_64.whl"
        inside = self.look(wheel)
        both = {f"{stem}.data/scripts/dosolve", "dosolve/bin/dosolve"}
        with zipfile.ZipFile(wheel) as files:
            self.assertEqual({entry.filename for entry in files.infolist() if entry.external_attr >> 16 & 0o111},
                             both)
            self.assertEqual({files.read(name) for name in both}, {b"\x7fELF"})
            self.assertEqual(files.read(f"{stem}.dist-info/PAPER.txt"), b"told\n")
            self.assertIn(f"\nVersion: {named}\n", files.read(f"{stem}.dist-info/METADATA").decode())
            about = files.read(f"{stem}.dist-info/WHEEL").decode()
            self.assertIn("Root-Is-Purelib: false\nTag: py3-none-manylinux_9_9_x86_64\n", about)
        self.assertEqual(inside - self.look(self.build("build_wheel")),
                         both | {name for name in inside if name.startswith(f"{stem}.dist-info/")})
        words = "import dosolve; print(dosolve.__version__)"
        run = subprocess.run([sys.executable, "-c", words], cwd=self.folder, capture_output=True,
                             env=os.environ | {"PYTHONPATH": str(wheel)}, text=True, check=True)
        self.assertEqual(run.stdout, f"{named}\n")

    def test_the_changelog_and_the_citation_repeat_the_version(self):
        project = tomllib.loads((PACKAGE / "pyproject.toml").read_text())["project"]
        self.assertEqual((project["dynamic"], "version" in project), (["version"], False))
        cited = re.search(r'^version: (.*)\ndate-released: "(.*)"$', (TOP / "CITATION.cff").read_text(), re.MULTILINE)
        self.assertEqual(cited[1], dosolve.__version__)
        listed = re.search(r"^## (\d.*)$", (TOP / "CHANGELOG.md").read_text(), re.MULTILINE)
        self.assertEqual(listed[1], f"{cited[1]}, {cited[2]}")


if __name__ == "__main__":
    unittest.main()
