"""Sweeps: many positions solved by any executor, in order, kept in a file that can be resumed."""
from __future__ import annotations

import copy
import io
import json
import time
from collections.abc import Generator, Iterable, Iterator
from concurrent.futures import FIRST_COMPLETED, BrokenExecutor, Executor, Future, wait
from contextlib import AbstractContextManager, closing, nullcontext
from dataclasses import dataclass, field, replace
from pathlib import Path
from typing import Any

from .errors import DosolveError, InvalidError, ProgramFailedError
from .games.game import AnyGame
from .positions import Position, processors, require_position
from .processes import Programs
from .reports import Report
from .solver.program import Solver
from .values import FilePath, Record

MOST_WAITING = 256
"""How many positions an executor is handed at once."""

_TRIES = 3


@dataclass(frozen=True, repr=False)
class Swept:
    """One position of a sweep: its number from 0 and its text, the report or the error, the
    seconds that the search took, those that it was given where it was cut short, and whether the
    result was in the output file before.

    The report of such a result is read where it is asked for; `record` has its numbers without.
    """

    number: int
    text: str
    report: Report | None = field(compare=False)
    error: str | None
    seconds: float
    limit: float | None = None
    is_old: bool = False

    def __repr__(self) -> str:
        return f"<Swept {self.number}: {self.error or repr(self.report)}, {self.seconds:.1f} s>"

    @property
    def position(self) -> Position:
        """The position; raises what is wrong with its text."""
        return read_swept(self.text)

    def record(self) -> Record:
        """The line of the output file, without the position's number."""
        found = self.numbers()
        return found if self.report is None else found | {"report": self.report.text()}

    def numbers(self) -> Record:
        """The same without the report itself: the position, seconds, and what was found."""
        found: Record = {"position": self.text.strip(), "seconds": round(self.seconds, 3)}
        if self.limit is not None:
            found["limit"] = self.limit
        return found | ({"error": self.error} if self.report is None else self.report.record())

    def line(self) -> Record:
        """The result as a line of a table: number, game and settings in words, bounds and gap in
        payoffs, the outcome, and what to know."""
        told = self.numbers()
        return {"number": self.number, "game": told.get("game", ""),
                "settings": _settings(told.get("settings", {})),
                "lower": told.get("lower"), "upper": told.get("upper"), "gap": told.get("gap"),
                "outcome": told.get("outcome", "failed"), "seconds": round(self.seconds, 3),
                "notes": "; ".join(told.get("notes", ())), "error": told.get("error") or ""}


class _Kept(Swept):
    """A result of an output file: the numbers of its line, and where in the file it is."""

    _told: Record
    _place: tuple[Path, int, int]
    _game: AnyGame | None

    def __init__(self, told: Record, path: Path, at: int, size: int) -> None:
        for name, value in (("number", 0), ("text", told["position"]), ("error", None),
                            ("seconds", float(told["seconds"])), ("is_old", True),
                            ("limit", told.get("limit")), ("_told", told),
                            ("_place", (path, at, size)), ("_game", None)):
            object.__setattr__(self, name, value)

    def moved(self, number: int, text: str, game: AnyGame | None) -> Swept:
        """The same result as that of a position of this number, on its game."""
        found = copy.copy(self)
        for name, value in (("number", number), ("text", text), ("_game", game)):
            object.__setattr__(found, name, value)
        return found

    def __getattr__(self, name: str) -> Any:
        if name != "report":
            raise AttributeError(name)
        told = self._told
        path, at, size = self._place
        with path.open("rb") as file:
            file.seek(at)
            found = Report.read(json.loads(file.read(size))["report"], self._game)
        found = replace(found, stopped="time") if told.get("limit") is not None else found
        object.__setattr__(self, "report", found)
        return found

    def __repr__(self) -> str:
        return f"<Swept {self.number}: {self._told['game']}, taken from {self._place[0]}>"

    def numbers(self) -> Record:
        return {name: value for name, value in self._told.items() if name != "report"}


SWEPT_COLUMNS = ("number", "game", "settings", "lower", "upper", "gap", "outcome", "seconds",
                 "notes", "error")
"""The names of what `Swept.line` has."""


def _settings(told: Record) -> str:
    """The settings of a game in words; of a table how many states it has."""
    if "states" in told:
        return f"{len(told['states'])} states"
    return " ".join((",".join(map(str, value)) or "-") if isinstance(value, (list, tuple))
                    else str(value) for value in told.values())


def read_swept(text: str) -> Position:
    """A position of a sweep: where it does not say how many workers it has, one, so that a sweep
    has as many searches as there are processors."""
    return Position.read(text, absent={"workers": 1})


@dataclass
class Summary:
    """What came of a sweep as a whole."""

    count: int = 0
    failed: int = 0
    vacuous: int = 0
    old: int = 0
    seconds: float = 0.0
    widest: tuple[float, int] | None = None

    def add(self, found: Swept) -> None:
        """One more result."""
        told = found.numbers()
        self.count += 1
        self.old += found.is_old
        self.seconds += found.seconds
        if "error" in told:
            self.failed += 1
        elif told["is_vacuous"]:
            self.vacuous += 1
        elif self.widest is None or told["gap"] > self.widest[0]:
            self.widest = told["gap"], found.number

    def __str__(self) -> str:
        widest = ""
        if self.widest is not None:
            widest = f"; widest gap {self.widest[0]:.6f} (position {self.widest[1]})"
        known = self.count - self.failed - self.vacuous
        return (f"{self.count} positions: {known} with bounds, {self.vacuous} of which nothing is "
                f"known, {self.failed} failed{widest}; {self.seconds:.1f} seconds of search")


Results = Generator[Swept, None, None]
"""Results as they come; to close them ends the sweep."""


def sweep(positions: Iterable[Position | str], executor: Executor | None = None,
          output: FilePath | None = None, solver: Solver | None = None,
          seconds: float | None = None) -> Results:
    """Solves positions, and gives the results in their order, each as soon as it is there.

    The executor is any of `concurrent.futures`, as Dask's `Client.get_executor()` and
    `mpi4py.futures.MPIPoolExecutor`; without one, as many programs run on this machine as there
    are processors for the workers of a position. A position whose search fails gives a result with
    `error`, and the sweep goes on. With `output`, each result is a line of JSON in that file, and
    what is already there is not solved again, except failures, and searches that were cut short
    where there are more seconds now; so a sweep that was stopped goes on where it was when it is
    started once more. Positions can be texts too, and have the defaults of `Position` where they
    leave budgets out, but one worker each.

    At Ctrl-C, or where the results are closed, what waits is cancelled, and programs of this
    machine end; other executors are left to end what they have begun. A search whose program or
    process was killed is tried again, three times in all.
    """
    given = list(positions)
    texts = [_text(position) for position in given]
    old = _read_output(Path(output)) if output is not None and Path(output).exists() else {}
    known = {text: swept for text, swept in old.items() if _suffices(swept, seconds)}
    todo = [number for number, text in enumerate(texts) if text.strip() not in known]
    jobs = {number: (texts[number], solver or Solver(), seconds) for number in todo}
    return _in_order(given, texts, known, _solved(jobs, executor), output)


def _named(found: Swept, position: Position | str) -> Swept:
    """The result on the game that was handed over, with the names of a table."""
    if found.report is None or isinstance(position, str):
        return found
    return replace(found, report=found.report.on(position.game))


def _text(position: Position | str) -> str:
    if isinstance(position, str):
        return position.strip() + "\n"
    return require_position(position, "sweep").text()


def _in_order(given: list[Position | str], texts: list[str], known: dict[str, _Kept],
              found: Results, output: FilePath | None) -> Results:
    """The results in the order of the positions; each new one is written when it comes."""
    ready: dict[int, Swept] = {}
    with _opened(output) as file, closing(found):
        for number, text in enumerate(texts):
            old = known.get(text.strip())
            if old is not None:
                position = given[number]
                game = None if isinstance(position, str) else position.game
                yield old.moved(number, text, game)
                continue
            while number not in ready:
                new = next(found)
                new = ready[new.number] = _named(new, given[new.number])
                if file is not None:
                    _append(file, json.dumps(new.record()) + "\n")
            yield ready.pop(number)


def _opened(output: FilePath | None) -> AbstractContextManager[io.FileIO | None]:
    """The output file, to be appended to."""
    if output is None:
        return nullcontext()
    return io.FileIO(output, "a")


def _append(file: io.FileIO, line: str) -> None:
    """Writes a line at once, so that Ctrl-C does not cut it."""
    left = line.encode()
    while left:
        left = left[file.write(left):]


_BEGIN = b'{"position": '
_REPORT = b', "report": "'


def _read_output(path: Path) -> dict[str, _Kept]:
    """The results of an output file by their positions, failures left out. The reports in it are
    not read. Lines that were cut off, and those of earlier versions, which are in millionths, are
    mended first."""
    found: dict[str, _Kept] = {}
    keeps: list[tuple[int, int] | bytes] = []
    at, mended = 0, False
    with path.open("rb") as file:
        for line in file:
            kept = line if line.endswith(b"\n") else line + b"\n"
            told = _told(line)
            if told is None and _is_cut(line):
                kept = b""
            elif told is not None and "error" not in told and "unit" not in told:
                kept = _renewed(line)
            elif told is not None and "error" not in told:
                found[told["position"]] = _Kept(told, path, at, len(line))
            mended = mended or kept != line
            keeps.append((at, len(line)) if kept == line else kept)
            at += len(line)
    if not mended:
        return found
    _write_over(path, keeps)
    return _read_output(path)


def _write_over(path: Path, keeps: list[tuple[int, int] | bytes]) -> None:
    """Writes a file anew, of parts of its own and of other lines, as a whole or not at all."""
    other = path.with_name(f"{path.name}.mended")
    with path.open("rb") as file, other.open("wb") as new:
        for kept in keeps:
            if isinstance(kept, tuple):
                file.seek(kept[0])
                kept = file.read(kept[1])
            new.write(kept)
    other.replace(path)


def _told(line: bytes) -> Record | None:
    """The numbers of a line of an output file, without its report; None where it is none."""
    head, _, report = line.partition(_REPORT)
    if report and not report.rstrip().endswith(b'end\\n"}'):
        return None
    try:
        told = json.loads(head + b"}" if report else line)
        good = isinstance(told["position"], str) and float(told["seconds"]) >= 0
        return told if good and (report or "error" in told) else None
    except (ValueError, KeyError, TypeError):
        return None


def _is_cut(line: bytes) -> bool:
    """Whether a line is the beginning of one of an output file."""
    try:
        json.loads(line)
    except ValueError:
        return line.startswith(_BEGIN) or _BEGIN.startswith(line)
    return False


def _renewed(line: bytes) -> bytes:
    """A line of an earlier version as one of this; itself where it cannot be read."""
    try:
        entry = json.loads(line)
        text, report, took = entry["position"], Report.read(entry["report"]), entry["seconds"]
        if not _is_whole(report, read_swept(text)):
            report = replace(report, stopped="time")
        # Files of earlier versions tell what a search took, and not what it was given.
        limit = float(entry.get("limit", took)) if report.stopped else None
        found = Swept(0, text, report, None, float(took), limit)
        return json.dumps(found.record()).encode() + b"\n"
    except (ValueError, KeyError, TypeError, DosolveError):
        return line.removesuffix(b"\n") + b"\n"


def _is_whole(report: Report, position: Position) -> bool:
    """Whether a search within seconds ended by itself, in versions that began it anew with ever
    more turns."""
    more = report.turns == 0 or "turns" in report.used_up
    return not more or report.gap <= position.gap or report.turns == position.turns


def _suffices(old: Swept, seconds: float | None) -> bool:
    """Whether a result need not be searched again within so many seconds: its search ended by
    itself, or had as many."""
    return old.limit is None or (seconds is not None and seconds <= old.limit)


@dataclass
class _Jobs:
    """The jobs of a sweep, those that wait for an executor and those that run."""

    jobs: dict[int, tuple[str, Solver, float | None]]
    waiting: list[int] = field(default_factory=list)
    running: dict[Future[Swept], int] = field(default_factory=dict)
    tries: dict[int, int] = field(default_factory=dict)

    def submit(self, executor: Executor) -> None:
        """Hands over as many jobs as the executor may have; those of a broken one by themselves,
        so that the one that breaks it is found."""
        while self.waiting and len(self.running) < MOST_WAITING:
            if self.waiting[0] in self.tries and self.running:
                break
            number = self.waiting.pop(0)
            self.running[executor.submit(_solve, number, *self.jobs[number])] = number
            if number in self.tries:
                break

    def take(self) -> Iterator[Swept]:
        """What has ended; jobs of an executor that broke wait again, until they broke three."""
        done, _ = wait(self.running, return_when=FIRST_COMPLETED)
        for future in done:
            number = self.running.pop(future)
            try:
                yield future.result()
            except BrokenExecutor as fault:
                self.tries[number] = self.tries.get(number, 0) + 1
                if self.tries[number] >= _TRIES:
                    yield self._failed(number, fault)
                else:
                    self.waiting.insert(0, number)
            except Exception as fault:
                yield self._failed(number, fault)

    def _failed(self, number: int, fault: Exception) -> Swept:
        error = f"{type(fault).__name__}: {fault}"
        return Swept(number, self.jobs[number][0], None, error, 0.0)


def _solved(jobs: dict[int, tuple[str, Solver, float | None]],
            executor: Executor | None) -> Results:
    """The results as they come."""
    if executor is None:
        with Programs(_size(jobs)) as own:
            yield from _solved(jobs, own)
        return
    left = _Jobs(jobs, list(jobs))
    try:
        while left.waiting or left.running:
            left.submit(executor)
            yield from left.take()
    finally:
        for future in left.running:
            future.cancel()


def _size(jobs: dict[int, tuple[str, Solver, float | None]]) -> int:
    """How many searches this machine has room for."""
    most = 1
    for text, _, _ in jobs.values():
        try:
            most = max(most, read_swept(text).workers)
        except DosolveError:
            continue
    return max(1, min(len(jobs), processors() // most))


def _solve(number: int, text: str, solver: Solver, seconds: float | None) -> Swept:
    """Solves one position; what an executor runs."""
    since = time.monotonic()
    report, error, limit = None, None, None
    try:
        report = solver.solve(read_swept(text), seconds)
    except ProgramFailedError as fault:
        if fault.status is not None and fault.status < 0:
            raise BrokenExecutor(f"the program was killed: {fault}") from None
        error = f"{type(fault).__name__}: {fault}"
    except (DosolveError, OSError) as fault:
        error = f"{type(fault).__name__}: {fault}"
    took = time.monotonic() - since
    if seconds is not None and report is not None and report.stopped:
        limit = min(seconds, took)
    return Swept(number, text, report, error, took, limit)


def read_positions(path: FilePath) -> list[str]:
    """The lines of a file, each one a position as JSON; empty lines are left out. A file that ends
    with `.json` has one position, on however many lines."""
    text = Path(path).read_text(encoding="utf-8")
    if Path(path).suffix.lower() != ".json":
        return [line for line in text.splitlines() if line.strip()]
    try:
        json.loads(text)
    except ValueError:
        raise InvalidError(f"{path} is no JSON of one position; a file with one position on each "
                           f"line has to end with .jsonl") from None
    return [" ".join(text.splitlines())]
