"""Plans made from any function of a state."""
from __future__ import annotations

import math
import random
from collections.abc import Callable, Iterable, Mapping, Sequence, Set
from fractions import Fraction
from numbers import Integral, Rational, Real
from typing import Any, TypeVar

from ..errors import InvalidError, PlayerError
from ..exact import sheet_of
from ..games.game import Game, Side, State, require_clear, side_of
from ..limits import LEAST_WEIGHT, MOST_WEIGHT, SUM_ERROR
from ..solver.progress import Asking, Bar, PlanListener
from ..values import as_plain, can_take, require_range, shorten
from .sheets import Sheet

ASKED_AGAIN = 64
"""How many states of a plan a player is asked about once more, to see that its answer stays."""

NO_PLAN = ("a player of histories has no plan by states: what it guarantees cannot be measured, "
           "only how it does in matches (live_match, tournament)")

S = TypeVar("S", bound=State)

Choice = Callable[[Any], object]
"""A function from a state to one probability or weight for each move, as a list or an array, or
to a mapping from labels to them."""


def whole_weights(values: object, count: int, total: int, labels: Sequence[int] | None = None,
                  names: Sequence[str] = ()) -> tuple[int, ...]:
    """One weight for each of `count` moves, which sum to `total`.

    The values stand in the order of the moves, or in a mapping by their labels or names, where a
    move that is left out has none. Whole numbers, and True and False, are weights, whatever their
    sum; else the values are probabilities, whose sum has to be 1 within 1e-6. Each value's exact
    share of the total is rounded down; what is missing then goes one each to the largest
    remainders, the earlier move first where two are equal. So whole weights of that sum stay as
    they are.
    """
    numbers = [as_plain(number) for number in _listed(values, labels, names)]
    if len(numbers) != count:
        raise InvalidError(f"{len(numbers)} weights for {count} moves")
    ratios = [_ratio(move, number) for move, number in enumerate(numbers)]
    scale = math.lcm(*(below for _, below in ratios)) if ratios else 1
    exact = [above * (scale // below) for above, below in ratios]
    whole = sum(exact)
    if whole == 0:
        raise InvalidError("the weights are all 0")
    weights = all(isinstance(number, Integral) for number in numbers)
    if not weights and abs(Fraction(whole, scale) - 1) > SUM_ERROR:
        raise InvalidError(f"the probabilities sum to {whole / scale}, and have to sum to 1")
    floors = [number * total // whole for number in exact]
    by_remainder = sorted(range(count), key=lambda move: -(exact[move] * total % whole))
    for move in by_remainder[:total - sum(floors)]:
        floors[move] += 1
    return tuple(floors)


def _listed(values: object, labels: Sequence[int] | None,
            names: Sequence[str]) -> list[object]:
    """The values in the order of the moves."""
    values = as_plain(values)
    if isinstance(values, Mapping):
        if labels is None:
            raise InvalidError(f"{shorten(values)} is a mapping, and the labels are not known")
        by_name = any(isinstance(label, str) for label in values)
        known: Sequence[object] = names if by_name else labels
        unknown = [label for label in values if as_plain(label) not in known]
        if unknown:
            raise InvalidError(f"{shorten(unknown[0])} is no label of a move")
        if not by_name:
            require_clear([as_plain(label) for label in values], labels, names)
        return [values.get(label, 0) for label in known]
    if isinstance(values, Set):
        raise InvalidError(f"{shorten(values)} has no order, so it is no list of weights")
    if isinstance(values, (str, bytes)) or not isinstance(values, Iterable):
        advice = _advice(values, labels, names)
        raise InvalidError(f"{shorten(values)} is no list of weights{advice}")
    return list(values)


def _advice(value: object, labels: Sequence[int] | None, names: Sequence[str]) -> str:
    """What to return in place of a move alone, or of nothing."""
    if value is None:
        return ": the player has to return one weight for each move, or a dict {move: weight}"
    known = value in names if isinstance(value, str) else value in (labels or ())
    if known:
        return f": return {{{value!r}: 1}} to play that move, or one weight for each move"
    return ": return one weight for each move, or a dict such as {move: 1}"


def _ratio(move: int, number: object) -> tuple[int, int]:
    """The value of a weight as a fraction; it has to be a finite number and not negative."""
    if isinstance(number, Rational):
        ratio = int(number.numerator), int(number.denominator)
    elif isinstance(number, Real) and math.isfinite(number):
        ratio = float(number).as_integer_ratio()
    else:
        raise InvalidError(f"weight {move} is {shorten(number)}, and has to be a finite number")
    if ratio[0] < 0:
        raise InvalidError(f"weight {move} is {shorten(number)}, and must not be negative")
    return ratio


def plan(game: Game[S], side: Side, choose: Callable[[S], object], weight: int = MOST_WEIGHT,
         ask_again: int = ASKED_AGAIN, progress: PlanListener | bool = False) -> Sheet:
    """The sheet of a player given as a function from a state to a probability or weight for each
    move, in their order or as a mapping from labels.

    `choose` is called for each state that the plan can reach and that is not terminal, and again
    for the first `ask_again` of them: a player that answers otherwise then, or draws its move by
    the module `random` itself, is no plan, and is refused. `whole_weights` makes the row's weights
    of its answer, which sum to `weight` (8192 to 1048576). Each row's bound is what the weights
    prove from the bounds of the states that follow, in millionths, rounded down for One and up for
    Two, so that `check` accepts the sheet. `progress` is a function that is called about once a
    second (`PlanProgress`), or True for a line on the terminal.
    """
    require_range("the weight of a row", weight, LEAST_WEIGHT, MOST_WEIGHT)
    side_of(side)
    _require_choice(choose)
    met: list[tuple[State, tuple[int, ...]]] = []
    bar = Bar()
    asking = Asking(bar if progress is True else progress or None)

    def weights_in(state: State) -> tuple[int, ...]:
        weights = chosen(choose, state, side, weight, watched=ask_again > 0)
        met.append((state, weights))
        asking.count()
        return weights

    try:
        sheet = sheet_of(game, side, weights_in, weight)
        _ask_again(choose, side, met, ask_again)
    finally:
        bar.close()
    return sheet


def _require_choice(choose: object) -> None:
    """Refuses what is no function of a state."""
    if not callable(choose):
        raise InvalidError(f"plan takes a function of a state, not {shorten(choose)}")
    if can_take(choose, 1):
        return
    if not can_take(choose, 2) and can_take(choose, 3):
        raise InvalidError(NO_PLAN)
    raise InvalidError("plan takes a function of a state alone; of a player play(side, state), "
                       "functools.partial(play, side) is one, and measure takes it as it is")


def chosen(choose: Choice, state: State, side: Side, weight: int,
           watched: bool = False) -> tuple[int, ...]:
    """What a player answers in a state, as whole weights; the message of a fault names both."""
    try:
        return _chosen(choose, state, side, weight, watched)
    except PlayerError as fault:
        fault.side = side
        raise


def _chosen(choose: Choice, state: State, side: Side, weight: int,
            watched: bool) -> tuple[int, ...]:
    before = random.getstate() if watched else None
    try:
        answer = choose(state)
    except (Exception, SystemExit) as fault:
        raise PlayerError(f"player {side} raised {type(fault).__name__}: {fault}: in {state}, "
                          f"whose moves are {state.moves(side)}{fault_place(fault)}") from fault
    if watched and random.getstate() != before:
        raise PlayerError(f"player {side} drew random numbers in {state}: a plan is one "
                          f"probability for each move, the same whenever it is asked; answer the "
                          f"probabilities instead of a move drawn by them")
    labels = state.moves(side)
    try:
        return whole_weights(answer, len(labels), weight, labels, state.names(side))
    except InvalidError as fault:
        raise PlayerError(f"{fault}: player {side} in {state}, whose moves are {labels}"
                          f"{_named(state, side)}") from None


def _named(state: State, side: Side) -> str:
    """The names of the moves, where these are more than their labels."""
    names = state.names(side)
    return "" if names == tuple(map(str, state.moves(side))) else f", named {names}"


def fault_place(fault: BaseException) -> str:
    """The file and line where a player's exception was raised."""
    trace = fault.__traceback__
    while trace is not None and trace.tb_next is not None:
        trace = trace.tb_next
    return f" ({trace.tb_frame.f_code.co_filename}, line {trace.tb_lineno})" if trace else ""


def _ask_again(choose: Choice, side: Side, met: Sequence[tuple[State, tuple[int, ...]]],
               most: int) -> None:
    """Refuses a player that answers otherwise than before; few states are asked several times."""
    wide = [(state, first) for state, first in met if len(state.moves(side)) > 1][:most]
    for _ in range(min(8, max(1, most // max(1, len(wide))))):
        for state, first in wide:
            second = chosen(choose, state, side, sum(first))
            if first != second:
                raise PlayerError(
                    f"player {side} answers {list(first)} and, asked again, {list(second)} in "
                    f"{state}: a plan is one probability for each move, the same whenever it is "
                    f"asked")
