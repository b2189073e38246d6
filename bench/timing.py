"""What the benchmarks share: a run of the program with its time and memory, and tables in Markdown."""
from __future__ import annotations

import os
import resource
import shutil
import statistics
import subprocess
import tempfile
import time
from dataclasses import dataclass
from pathlib import Path

HERE = Path(__file__).resolve().parent
# GNU time: a process that Python starts begins with Python's own memory, and so reports no less.
TIME = shutil.which("time")


@dataclass(frozen=True)
class Run:
    """One run, or the least, median or greatest of several."""

    status: int
    answer: bytes
    wall: float
    user: float
    megabytes: int


def once(program: str, words: list[str], text: bytes) -> Run:
    """A run of the program with these words and this input."""
    with tempfile.TemporaryFile() as source, tempfile.TemporaryFile() as sink:
        source.write(text)
        source.seek(0)
        started = time.perf_counter()
        child = subprocess.Popen([program, *words], stdin=source, stdout=sink)
        _, status, used = os.wait4(child.pid, 0)
        wall = time.perf_counter() - started
        child.returncode = os.waitstatus_to_exitcode(status)
        sink.seek(0)
        return Run(child.returncode, sink.read(), wall, used.ru_utime, used.ru_maxrss // 1024)


def megabytes(program: str, words: list[str], text: bytes, at_most: int) -> int:
    """The memory of the program, which is at most so much: by GNU time where that could be the memory of this script."""
    if TIME is None or at_most > resource.getrusage(resource.RUSAGE_SELF).ru_maxrss // 1024 + 1:
        return at_most
    with tempfile.NamedTemporaryFile("r") as file:
        subprocess.run([TIME, "-q", "-f", "%M", "-o", file.name, program, *words], input=text, stdout=subprocess.DEVNULL)
        return int(file.read()) // 1024


def several(program: str, words: list[str], text: bytes, runs: int) -> list[Run]:
    return [once(program, words, text) for _ in range(runs)]


def least(runs: list[Run]) -> Run:
    """The first answer, with the least times and the most memory."""
    return Run(runs[0].status, runs[0].answer, min(run.wall for run in runs), min(run.user for run in runs),
               max(run.megabytes for run in runs))


def median(runs: list[Run]) -> Run:
    """The first answer, with the median times and the most memory."""
    return Run(runs[0].status, runs[0].answer, statistics.median(run.wall for run in runs),
               statistics.median(run.user for run in runs), max(run.megabytes for run in runs))


class Table:
    """A Markdown table, whose head is printed with its first row."""

    def __init__(self, *heads: str) -> None:
        self.heads = heads
        self.is_empty = True

    def row(self, *cells: object) -> None:
        if self.is_empty:
            print("\n| " + " | ".join(self.heads) + " |\n|" + "---|" * len(self.heads))
            self.is_empty = False
        cells += ("",) * (len(self.heads) - len(cells))
        print("| " + " | ".join(str(cell) for cell in cells) + " |", flush=True)
