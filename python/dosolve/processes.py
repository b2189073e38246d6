"""An executor of `concurrent.futures` for sweeps on this machine: threads, each of which waits for
one program at a time.

The programs are one group of processes, so that all of them end at once, with what they started:
at `shutdown`, and where this process ends, whatever ends it.
"""
from __future__ import annotations

import os
import queue
import signal
import subprocess
import sys
import threading
from collections.abc import Callable
from concurrent.futures import Executor, Future
from typing import ParamSpec, TypeVar

from .solver.process import GROUP

_WATCH = "read -r line; kill -KILL 0"
"""What the first process of the group does: it ends the group when this process has ended."""

P = ParamSpec("P")
T = TypeVar("T")


class Programs(Executor):
    """Does at most `count` jobs at a time, each in a thread; `run` starts their programs in the
    group. `shutdown` ends the programs, cancels what has not begun, and waits for no program."""

    def __init__(self, count: int) -> None:
        self._jobs: queue.SimpleQueue[Callable[[], None] | None] = queue.SimpleQueue()
        self._lock = threading.Lock()
        self._is_closed = False
        self._watcher = subprocess.Popen(["/bin/sh", "-c", _WATCH], stdin=subprocess.PIPE,
                                         stdout=subprocess.DEVNULL, process_group=0)
        # An interpreter that ends by a fault waits for no daemon.
        self._threads = [threading.Thread(target=self._serve, daemon=True) for _ in range(count)]
        for thread in self._threads:
            thread.start()

    def submit(self, work: Callable[P, T], /, *arguments: P.args, **named: P.kwargs) -> Future[T]:
        """A future of what a function gives, or raises."""
        future: Future[T] = Future()

        def job() -> None:
            if self._is_closed:
                future.cancel()
            if not future.set_running_or_notify_cancel():
                return
            try:
                future.set_result(work(*arguments, **named))
            except BaseException as fault:
                future.set_exception(fault)

        with self._lock:
            if self._is_closed:
                raise RuntimeError("the programs have been ended")
            self._jobs.put(job)
        return future

    def shutdown(self, wait: bool = True, *, cancel_futures: bool = True) -> None:
        """Ends the programs, cancels what has not begun, and waits for the threads."""
        with self._lock:
            if self._is_closed:
                return
            self._is_closed = True
        for _ in self._threads:
            self._jobs.put(None)
        os.killpg(self._watcher.pid, signal.SIGKILL)
        while any(thread.is_alive() for thread in self._threads) and not sys.is_finalizing():
            for thread in self._threads:
                thread.join(0.01)
            # Once more, since a thread may just have been starting a program.
            os.killpg(self._watcher.pid, signal.SIGKILL)
        self._watcher.communicate()

    def _serve(self) -> None:
        """Does jobs, one after the other."""
        GROUP.set(self._watcher.pid)
        while (job := self._jobs.get()) is not None:
            job()
