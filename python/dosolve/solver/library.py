"""The commands in this process, by the shared library that tools/build_library.sh makes."""
from __future__ import annotations

import ctypes
import functools
import mmap
import os
from collections.abc import Sequence
from fractions import Fraction
from typing import NamedTuple

from ..errors import ProgramMissingError
from ..games.game import SCALE

_ROOM = 4096
"""Room in bytes that every answer but a report of `solve` fits into."""

_REPORT_ROOM = 1 << 26
"""Room in bytes for a report of `solve`; memory that is not written is not taken."""

_OUTPUT = (ctypes.c_void_p, ctypes.c_size_t, ctypes.POINTER(ctypes.c_uint64))
_INPUT = (ctypes.c_char_p, ctypes.c_size_t)


class _WorstPayoff(ctypes.Structure):
    _fields_ = [("replies", ctypes.c_uint64), ("exact", ctypes.c_uint32),
                ("power", ctypes.c_uint32), ("base", ctypes.c_uint64),
                ("sum_high", ctypes.c_int64), ("sum_low", ctypes.c_uint64),
                ("low", ctypes.c_int64), ("high", ctypes.c_int64)]


class _MatchPayoffs(ctypes.Structure):
    _fields_ = [("games", ctypes.c_uint32), ("first", ctypes.c_int32), ("sum", ctypes.c_int64),
                ("least", ctypes.c_int32), ("most", ctypes.c_int32)]


_ARGUMENTS: dict[str, tuple[type, ...]] = {
    "solve": (*_INPUT, *_OUTPUT),
    "check": (*_INPUT, *_OUTPUT),
    "bounds": (*_INPUT, *_OUTPUT),
    "exploit": (ctypes.c_uint32, *_INPUT, *_OUTPUT),
    "play": (ctypes.c_uint32, ctypes.c_uint64, *_INPUT, *_OUTPUT),
    "worst": (*_INPUT, ctypes.POINTER(_WorstPayoff), ctypes.POINTER(_WorstPayoff)),
    "games": (ctypes.c_uint32, ctypes.POINTER(ctypes.c_uint64), ctypes.c_size_t, *_INPUT,
              ctypes.POINTER(_MatchPayoffs), ctypes.c_size_t),
}
"""The calls, and the types of what they are given."""


class Worst(NamedTuple):
    """What One gets, in millionths, where the best replies are made to a plan: between both,
    exactly where they are equal."""

    low: Fraction
    high: Fraction


class Payoffs(NamedTuple):
    """What One gets in games of one seed, in whole payoffs: in the first, and in all."""

    games: int
    first: int
    sum: int
    least: int
    most: int


class Library:
    """A shared library with the commands. One object may be used by several threads at once.

    A call cannot be ended from outside: Ctrl-C is heard when it is done.
    """

    def __init__(self, path: str | os.PathLike[str]) -> None:
        try:
            loaded = ctypes.CDLL(os.fspath(path))
            self._calls = {name: getattr(loaded, f"dosolve_{name}") for name in _ARGUMENTS}
        except (OSError, AttributeError) as fault:
            told = f"{os.fspath(path)} is no library of dosolve: {fault}"
            raise ProgramMissingError(told) from fault
        for name, call in self._calls.items():
            call.argtypes = _ARGUMENTS[name]
            call.restype = ctypes.c_uint32
        self._version = getattr(loaded, "dosolve_version", None)

    @property
    def version(self) -> str:
        """The version of the library; empty where it is older than this call."""
        if self._version is None:
            return ""
        self._version.restype = ctypes.c_char_p
        told: bytes = self._version()
        return told.decode()

    def answer(self, words: Sequence[str], data: bytes) -> tuple[int, bytes]:
        """The status and the text of a command: `solve`, `check`, `bounds`, `exploit SIDE` or
        `play COUNT SEED`, as the program's, but that `solve` does the work of all workers on the
        caller's thread, one after the other."""
        command, *rest = words
        numbers = [{"one": 0, "two": 1}[word] for word in rest] if command == "exploit" else [
            int(word) for word in rest]
        room = _REPORT_ROOM if command == "solve" else _ROOM
        while True:
            status, text, size = self._call(command, numbers, data, room)
            if size <= room:
                return status, text
            room = size

    def worst(self, report: bytes) -> tuple[int, Worst | None, Worst | None]:
        """The worst cases of the plans of One and of Two, from one reading of the report, and the
        status: 0, or why there are none (5 a plan comes to too many states, 8 want of memory, 9
        no report)."""
        one, two = _WorstPayoff(), _WorstPayoff()
        status = self._calls["worst"](report, len(report), one, two)
        return (status, _worst(one), _worst(two)) if status == 0 else (status, None, None)

    def games(self, games: int, seeds: Sequence[int], report: bytes) -> tuple[int, list[Payoffs]]:
        """The payoffs of so many games of each seed (0 to 2^64 - 1) between the plans of a report,
        which is read once, and the status: 0, or why there are none (1 no number from 1 to
        100000, 8 want of memory, 9 no report)."""
        count = len(seeds)
        told = (_MatchPayoffs * count)()
        given = (ctypes.c_uint64 * count)(*seeds)
        status = self._calls["games"](games, given, count, report, len(report), told, count)
        if status != 0:
            return status, []
        return status, [Payoffs(x.games, x.first, x.sum, x.least, x.most) for x in told]

    def _call(self, command: str, numbers: list[int], data: bytes,
              room: int) -> tuple[int, bytes, int]:
        """The status, the front of the text, and the length of the whole text."""
        size = ctypes.c_uint64(0)
        if room <= _ROOM:
            small = ctypes.create_string_buffer(room)
            status = self._calls[command](*numbers, data, len(data), small, room, size)
            return status, small.raw[:size.value], size.value
        with mmap.mmap(-1, room) as output:
            first = ctypes.c_char.from_buffer(output)
            try:
                status = self._calls[command](*numbers, data, len(data), ctypes.addressof(first),
                                              room, size)
            finally:
                del first
            return status, output[:min(size.value, room)], size.value


def _worst(told: _WorstPayoff) -> Worst:
    if not told.exact:
        return Worst(Fraction(told.low), Fraction(told.high))
    exact = Fraction(SCALE * ((told.sum_high << 64) + told.sum_low), told.base**told.power)
    return Worst(exact, exact)


@functools.cache
def _loaded(path: str) -> Library:
    return Library(path)


def find_library() -> Library | None:
    """The library of the environment variable DOSOLVE_LIBRARY, if it names one."""
    path = os.environ.get("DOSOLVE_LIBRARY")
    return _loaded(path) if path else None
