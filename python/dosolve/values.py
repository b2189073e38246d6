"""Numbers and lists as users have them: Python's own, and those of numpy and pandas."""
from __future__ import annotations

import html
import inspect
import os
from collections.abc import Callable, Iterable, Sequence, Set
from fractions import Fraction
from numbers import Integral
from typing import Any, TypeGuard

from .errors import InvalidError

FilePath = str | os.PathLike[str]
"""A file's name."""

Record = dict[str, Any]
"""Values by their names, as `json` has an object and `pandas.DataFrame` a line."""


def as_plain(value: object) -> Any:
    """The value as Python's own: a number or array of numpy, or a series of pandas, as a number or
    a list. Anything else stays as it is."""
    listed = getattr(value, "tolist", None)
    return listed() if callable(listed) else value


def as_field(value: object) -> Any:
    """A setting of a game or of a search: whole numbers as int, lists as tuples of them."""
    value = as_plain(value)
    if isinstance(value, Sequence) and not isinstance(value, (str, bytes)):
        return tuple(as_field(each) for each in value)
    return int(value) if isinstance(value, Integral) and not isinstance(value, bool) else value


def is_whole(value: object) -> TypeGuard[int]:
    """Whether the value is a whole number; True and False are none."""
    return isinstance(value, int) and not isinstance(value, bool)


def require_range(what: str, value: object, low: int, high: int) -> None:
    """Refuses a value that is no whole number from `low` to `high`."""
    if not is_whole(value) or not low <= value <= high:
        raise InvalidError(f"{what} is {shorten(value)}, and has to be a whole number from {low} "
                           f"to {high}")


def can_take(function: Callable[..., object], count: int) -> bool:
    """Whether a function can be called with so many arguments, as far as it tells."""
    try:
        inspect.signature(function).bind(*range(count))
    except TypeError:
        return False
    except ValueError:
        return True
    return True


def shorten(value: object, most: int = 60) -> str:
    """A value to show in a message."""
    if isinstance(value, Set) and not isinstance(value, frozenset):
        return f"a set, {cut(repr(value), most)}"
    return cut(repr(value), most)


def cut(text: str, most: int) -> str:
    """A text, its end left out where it is long."""
    return text if len(text) <= most else text[:most - 2] + ".."


def html_table(head: Sequence[str], lines: Iterable[Iterable[object]]) -> str:
    """A table for notebooks."""
    found = [f"<tr>{''.join(f'<th>{html.escape(name)}</th>' for name in head)}</tr>"]
    found += [f"<tr>{''.join(f'<td>{html.escape(str(cell))}</td>' for cell in line)}</tr>"
              for line in lines]
    return f"<table>{''.join(found)}</table>"


def as_points(millionths: int) -> str:
    """Millionths of a payoff as a payoff, exactly: 6 digits behind the point."""
    whole, rest = divmod(abs(millionths), 1_000_000)
    return f"{'-' if millionths < 0 else ''}{whole}.{rest:06d}"


def as_number(payoff: Fraction) -> int | float:
    """A payoff as a whole number where it is one, else as a float."""
    return int(payoff) if payoff.denominator == 1 else float(payoff)
