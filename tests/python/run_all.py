"""run_all.py [JOBS]: the tests of the package, each file in a process of its own, JOBS at a time (as many as there are
processors where none is named), the longest first. Prints what a file printed only where it failed; the last line is
`N tests, M of K files failed`. `python3 -m unittest discover -s tests/python` runs the same in one process."""
from __future__ import annotations

import os
import re
import subprocess
import sys
import time
from concurrent.futures import ThreadPoolExecutor
from pathlib import Path

HERE = Path(__file__).resolve().parent
LONGEST = ("test_explore_browser", "test_guide", "test_pictures", "test_types", "test_explore", "test_histories")
"""The files that take longest: begun last, one of them would be waited for alone."""


def run(file: Path) -> tuple[bool, int, str]:
    """Whether the tests of a file passed, how many there were, and what was printed."""
    began = time.monotonic()
    ended = subprocess.run([sys.executable, "-m", "unittest", file.stem], cwd=HERE, env=environment(), check=False,
                           stdout=subprocess.PIPE, stderr=subprocess.STDOUT, text=True)
    count = re.search(r"^Ran (\d+) test", ended.stdout, re.MULTILINE)
    passed = ended.returncode == 0 and count is not None
    print(f"{'ok    ' if passed else 'FAILED'} {file.stem} {time.monotonic() - began:.1f} s", flush=True)
    return passed, int(count[1]) if count else 0, "" if passed else ended.stdout


def environment() -> dict[str, str]:
    """Paths that hold wherever a test runs."""
    package = str(HERE.parents[1] / "python")
    given = {name: str(Path(os.environ[name]).resolve()) for name in ("DOSOLVE", "DOSOLVE_LIBRARY") if os.environ.get(name)}
    return os.environ | given | {"PYTHONPATH": package}


def order(file: Path) -> tuple[int, str]:
    """Where a file stands among all."""
    return (LONGEST.index(file.stem) if file.stem in LONGEST else len(LONGEST)), file.stem


def main() -> None:
    jobs = int(sys.argv[1]) if len(sys.argv) > 1 else len(os.sched_getaffinity(0))
    files = sorted(HERE.glob("test_*.py"), key=order)
    with ThreadPoolExecutor(jobs) as pool:
        found = list(pool.map(run, files))
    for _, _, text in found:
        print(text, end="")
    failed = sum(not passed for passed, _, _ in found)
    print(f"{sum(count for _, count, _ in found)} tests, {failed} of {len(files)} files failed")
    sys.exit(failed > 0)


if __name__ == "__main__":
    main()
