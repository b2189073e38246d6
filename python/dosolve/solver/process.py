"""One run of the program as a process."""
from __future__ import annotations

import math
import os
import subprocess
import tempfile
import threading
from collections.abc import Iterator, Sequence
from contextlib import contextmanager
from contextvars import ContextVar
from pathlib import Path
from typing import IO

from ..errors import ProgramMissingError, ProgramTimeoutError
from .progress import Follower

GROUP: ContextVar[int | None] = ContextVar("group", default=None)
"""The group of processes in which programs are started; None is that of this process."""


class Stop:
    """What ends a search before its own end: a time, and a file, which Ctrl-C writes."""

    def __init__(self, seconds: float, file: Path) -> None:
        self.was_interrupted = False
        self.environment = {"DOSOLVE_STOP": str(file)}
        self._file = file
        if seconds == 0:
            file.touch()
        elif not math.isinf(seconds):
            self.environment["DOSOLVE_SECONDS"] = str(math.ceil(seconds))

    @staticmethod
    @contextmanager
    def after(seconds: float) -> Iterator[Stop]:
        """One that ends a search after so many seconds, which are rounded up; `inf` is never."""
        with tempfile.TemporaryDirectory(prefix="dosolve-") as folder:
            yield Stop(seconds, Path(folder) / "stop")

    def interrupt(self) -> None:
        """Ends the search now."""
        self.was_interrupted = True
        self._file.touch()


def run(words: Sequence[str], data: bytes, follower: Follower | None, timeout: float | None,
        stop: Stop | None = None) -> tuple[int, str, str]:
    """The status, the answer and what the program printed on standard error.

    Without a follower, and with DOSOLVE_PROGRESS set, standard error goes where this process's
    goes. The program is ended with the call, whatever ends it; with a stop, the first Ctrl-C ends
    the search alone, whose answer is handed back.
    """
    told: list[str] = []
    passed = follower is None and "DOSOLVE_PROGRESS" in os.environ
    environment = os.environ | ({"DOSOLVE_PROGRESS": "1"} if follower else {})
    group = GROUP.get()
    if stop is not None:
        environment |= stop.environment
        # Ctrl-C in a terminal goes to a whole group, and the program has to go on to its answer.
        group = 0 if group is None else group
    try:
        process = subprocess.Popen(words, stdin=subprocess.PIPE, stdout=subprocess.PIPE,
                                   stderr=None if passed else subprocess.PIPE, env=environment,
                                   process_group=group)
    except OSError as fault:
        raise ProgramMissingError(f"{words[0]} cannot be run: {fault}") from fault
    with process:
        errors = process.stderr
        process.stderr = None
        listening = threading.Thread(target=_listen, args=(errors, follower, told), daemon=True)
        listening.start()
        try:
            answer = _answer(process, data, timeout, stop)
        except subprocess.TimeoutExpired:
            raise ProgramTimeoutError(f"{' '.join(words[1:])} took more than {timeout} "
                                      f"seconds") from None
        finally:
            if process.poll() is None:
                process.kill()
                process.wait()
            listening.join(1)
    return process.returncode, answer.decode("utf-8", "replace"), "\n".join(told)


def _answer(process: subprocess.Popen[bytes], data: bytes, timeout: float | None,
            stop: Stop | None) -> bytes:
    """What the program prints."""
    try:
        answer, _ = process.communicate(data, timeout)
    except KeyboardInterrupt:
        if stop is None:
            raise
        stop.interrupt()
        answer, _ = process.communicate()
    return answer


def _listen(errors: IO[bytes] | None, follower: Follower | None, told: list[str]) -> None:
    """Reads standard error to its end, and keeps what is no progress."""
    if errors is None:
        return
    with errors:
        for line in errors:
            text = line.decode("utf-8", "replace").rstrip()
            if follower is None or not follower.hear(text):
                told.append(text)
