"""The lists of a table's line in a report, five or six, and the rules that a playable table keeps.

`listing` is a table as a position has it: ends, and lists of rows of cells.
"""
from __future__ import annotations

from collections.abc import Iterator, Mapping, Sequence
from dataclasses import dataclass
from itertools import accumulate

from ..games.game import CHANCE, Field
from ..limits import (
    MOST_DRAWS, MOST_PAYOFF, MOST_REWARD, MOST_STATES, MOST_WIDE_STATES, NARROW, WIDE, Limits,
    up_to,
)
from ..values import shorten

MOST_WIDTH = 255
"""The rows, cells and draws that a text can have in one place."""

MOST_END = 1_000_000
"""The greatest size of an end in a text."""

LINE = (
    Field("ranks", 0, MOST_STATES, most=MOST_STATES),
    Field("moves", 0, MOST_WIDTH, most=2 * MOST_STATES),
    Field("values", -MOST_END, MOST_END, most=MOST_STATES),
    Field("cells", -NARROW.number - 1, NARROW.number, most=MOST_STATES),
    Field("draws", 0, NARROW.number, most=MOST_STATES),
)
"""The fields of the line of a report below the newest version."""

WIDE_LINE = (
    Field("ranks", 0, MOST_WIDE_STATES, most=MOST_WIDE_STATES),
    Field("moves", 0, MOST_WIDTH, most=2 * MOST_WIDE_STATES),
    Field("values", -MOST_END, MOST_WIDE_STATES, most=MOST_WIDE_STATES),
    Field("cells", -WIDE.number - 1, WIDE.number, most=MOST_WIDE_STATES),
    Field("draws", 0, WIDE.number, most=2 * MOST_WIDE_STATES),
    Field("rewards", -MOST_REWARD, MOST_REWARD, most=MOST_WIDE_STATES, optional=True),
)
"""The fields of the line of a report of the newest version."""

Fault = tuple[str, str]
"""The number and the words of a refusal, and what is wrong."""

Draws = list[tuple[int, int, int]]
"""The states that can follow, with their weights, and what One gets by the turn."""

Cell = int | Sequence[Sequence[int]]
"""The state that follows, or draws, each a state and a weight, or these and what it pays."""

Listed = int | Sequence[Sequence[Cell]]
"""A state: the payoff of an end, or rows of cells."""

Listing = Sequence[Listed]
"""The states of a table."""

_LIST = (list, tuple)


@dataclass(frozen=True)
class Lists:
    """The lists of a table: for each state its rank, the moves of both sides, and the payoff of an
    end or the place of the first cell; the cells of all states; the draws, two numbers each; and
    what each draw pays, where any turn of the table may pay."""

    ranks: Sequence[int]
    moves: Sequence[int]
    values: Sequence[int]
    cells: Sequence[int]
    draws: Sequence[int]
    rewards: Sequence[int] = ()

    def told(self) -> tuple[Sequence[int], ...]:
        """The lists as a line has them, without rewards where there are none."""
        five = self.ranks, self.moves, self.values, self.cells, self.draws
        return (*five, self.rewards) if self.rewards else five

    @property
    def inner(self) -> Iterator[int]:
        """The states that are no ends."""
        return (state for state, rank in enumerate(self.ranks) if rank)

    def cells_of(self, state: int) -> range:
        """The places of a state's cells in `cells`."""
        first = self.values[state]
        return range(first, first + self.moves[2 * state] * self.moves[2 * state + 1])

    def place(self, at: int) -> tuple[int, int, int]:
        """The state, the row and the place there of a cell by its place in `cells`."""
        state = next(state for state in self.inner if at in self.cells_of(state))
        return state, *divmod(at - self.values[state], self.moves[2 * state + 1])

    def draws_of(self) -> dict[int, Draws]:
        """The draws of each cell that has any, by its place in `cells`."""
        drawn = [(at, -1 - cell) for at, cell in enumerate(self.cells) if cell < 0]
        ends = [first for _, first in drawn[1:]] + [len(self.draws) // 2]
        rewards = self.rewards or [0] * (len(self.draws) // 2)
        found = list(zip(self.draws[::2], self.draws[1::2], rewards))
        return {at: found[first:end] for (at, first), end in zip(drawn, ends)}


def kind_fault(listing: object) -> str | None:
    """What has the wrong kind, the first in order."""
    if not isinstance(listing, _LIST):
        return f"states is {shorten(listing)}, and has to be a list of states"
    return next(_kind_faults(listing), None)


def _kind_faults(listing: Sequence[object]) -> Iterator[str]:
    for state, told in enumerate(listing):
        if type(told) is int:
            continue
        if not isinstance(told, _LIST):
            yield _told((state,), told, "a whole number (an end) or a list of rows")
            return
        for one, row in enumerate(told):
            if not isinstance(row, _LIST):
                yield _told((state, one), row, "a list of cells")
                return
            for two, cell in enumerate(row):
                if type(cell) is not int:
                    yield from _draw_kinds((state, one, two), cell)


def _draw_kinds(place: tuple[int, ...], cell: object) -> Iterator[str]:
    if not isinstance(cell, _LIST):
        yield _told(place, cell, "the number of a state or a list of draws")
        return
    for number, draw in enumerate(cell):
        if not isinstance(draw, _LIST) or not all(type(each) is int for each in draw):
            yield _told((*place, number), draw, "a list of whole numbers, a state, its weight out "
                                                f"of {CHANCE} and, where the turn pays, what "
                                                "One gets")


def range_fault(listing: Listing, limits: Limits = WIDE) -> str | None:
    """What is out of range in a listing whose kinds are right, the first in order."""
    cells = sum(len(row) for state in listing if not isinstance(state, int) for row in state)
    if len(listing) > MOST_WIDE_STATES or cells > MOST_WIDE_STATES:
        return f"{len(listing)} states with {cells} cells are more than {MOST_WIDE_STATES}"
    return next(_range_faults(listing, limits), None)


def _range_faults(listing: Listing, limits: Limits) -> Iterator[str]:
    draws = 0
    for state, told in enumerate(listing):
        if isinstance(told, int):
            if abs(told) > MOST_END:
                yield _told((state,), told, f"from -{MOST_END} to {MOST_END}")
            continue
        if len(told) > MOST_WIDTH or any(len(row) > MOST_WIDTH for row in told):
            yield f"states[{state}] has to have at most {MOST_WIDTH} rows and cells of a row"
        for one, row in enumerate(told):
            for two, cell in enumerate(row):
                if isinstance(cell, int):
                    if not 0 <= cell <= limits.number:
                        yield _told((state, one, two), cell, f"from 0 to {up_to(limits, 'number')}")
                    continue
                draws += len(cell)
                yield from _draw_ranges((state, one, two), cell, limits)
    if draws >= MOST_WIDE_STATES:
        yield f"{draws} draws are more than {MOST_WIDE_STATES - 1}"


def _draw_ranges(place: tuple[int, ...], cell: Sequence[Sequence[int]],
                 limits: Limits) -> Iterator[str]:
    if len(cell) > MOST_WIDTH:
        yield f"{_at(place)} has to have at most {MOST_WIDTH} draws"
    for number, draw in enumerate(cell):
        if len(draw) not in (2, 3) or not all(0 <= each <= limits.number for each in draw[:2]):
            yield _told((*place, number), draw,
                        f"two numbers from 0 to {up_to(limits, 'number')}, and a third where the "
                        f"turn pays")
        elif abs(sum(draw[2:])) > MOST_REWARD:
            yield _told((*place, number, 2), draw[2], f"from -{MOST_REWARD} to {MOST_REWARD}")


def _at(place: tuple[int, ...]) -> str:
    """A place as one writes it in Python."""
    return f"states{''.join(f'[{number}]' for number in place)}"


def _told(place: tuple[int, ...], value: object, wanted: str) -> str:
    return f"{_at(place)} is {shorten(value)}, and has to be {wanted}"


def listed(listing: Listing) -> Lists:
    """The lists of a listing that is in range."""
    moves: list[int] = []
    values: list[int] = []
    cells: list[int] = []
    draws: list[int] = []
    rewards: list[int] = []
    pays = False
    after: list[list[int]] = []
    for state in listing:
        after.append([])
        if isinstance(state, int):
            moves += [0, 0]
            values.append(state)
            continue
        widths = {len(row) for row in state}
        moves += [len(state), widths.pop() if len(widths) == 1 else 0]
        values.append(len(cells))
        for cell in (cell for row in state for cell in row) if moves[-1] else ():
            if isinstance(cell, int):
                cells.append(cell)
                after[-1].append(cell)
            else:
                cells.append(-1 - len(draws) // 2)
                draws += [number for draw in cell for number in draw[:2]]
                rewards += [sum(draw[2:]) for draw in cell]
                pays = pays or any(len(draw) > 2 for draw in cell)
                after[-1] += [draw[0] for draw in cell]
    return Lists(_ranks(listing, after), moves, values, cells, draws, rewards if pays else [])


def spelled(listing: Listing) -> Listing:
    """The same table with one spelling of rewards: where any draw pays, a draw that does not has
    two numbers; where none does, and one has three numbers, all have."""
    thirds = [draw[2] for state in listing if not isinstance(state, int) for row in state
              for cell in row if not isinstance(cell, int) for draw in cell if len(draw) > 2]
    if not thirds:
        return listing
    none = not any(thirds)

    def told(cell: Cell) -> Cell:
        if isinstance(cell, int):
            return cell
        return tuple(_draw(draw[0], draw[1], sum(draw[2:]), none) for draw in cell)

    return tuple(state if isinstance(state, int) else tuple(tuple(map(told, row)) for row in state)
                 for state in listing)


def _draw(state: int, weight: int, reward: int, third: bool) -> tuple[int, ...]:
    """A draw, with a third number where it pays or is to have one."""
    return (state, weight, reward) if reward or third else (state, weight)


def _ranks(listing: Listing, after: list[list[int]]) -> list[int]:
    """The turns of the longest way from each state, over states that stand behind it."""
    ranks = [0] * len(listing)
    for state in reversed(range(len(listing))):
        if not isinstance(listing[state], int):
            ranks[state] = 1 + max((ranks[next_one] for next_one in after[state]
                                    if state < next_one < len(ranks)), default=0)
    return ranks


def nested(lists: Lists) -> tuple[Listed, ...]:
    """The listing of the lists of a playable table."""
    third = bool(lists.rewards) and not any(lists.rewards)
    draws = {at: tuple(_draw(*draw, third) for draw in cell)
             for at, cell in lists.draws_of().items()}
    listing: list[Listed] = []
    for state, rank in enumerate(lists.ranks):
        if not rank:
            listing.append(lists.values[state])
            continue
        twos = lists.moves[2 * state + 1]
        cells: list[Cell] = [draws[at] if at in draws else lists.cells[at]
                             for at in lists.cells_of(state)]
        listing.append(tuple(tuple(cells[at:at + twos]) for at in range(0, len(cells), twos)))
    return tuple(listing)


def fault_of(lists: Lists, limits: Limits = WIDE) -> Fault | None:
    """The first rule that the lists break within these limits."""
    if not _fit(lists):
        return "81 lists", "the lists of the line do not fit each other"
    if not lists.ranks:
        return "82 no states", "a table has at least one state, its root"
    return next(_faults(lists, limits), None)


def _fit(lists: Lists) -> bool:
    """Whether the lists are those of some listing."""
    count = len(lists.ranks)
    if (len(lists.moves), len(lists.values), len(lists.draws) % 2) != (2 * count, count, 0):
        return False
    if lists.rewards and 2 * len(lists.rewards) != len(lists.draws):
        return False
    if any(lists.moves[2 * state] or lists.moves[2 * state + 1]
           for state, rank in enumerate(lists.ranks) if not rank):
        return False
    sizes = [lists.moves[2 * state] * lists.moves[2 * state + 1] for state in lists.inner]
    places = list(accumulate(sizes, initial=0))
    if [lists.values[state] for state in lists.inner] + [len(lists.cells)] != places:
        return False
    starts = [-1 - cell for cell in lists.cells if cell < 0]
    rising = starts == sorted(starts) and starts[:1] in ([], [0])
    return rising and (starts or [0])[-1] <= len(lists.draws) // 2 and bool(
        starts or not lists.draws)


def _faults(lists: Lists, limits: Limits) -> Iterator[Fault]:
    """What breaks the rules from 83, each rule over all states before the next."""
    for state, rank in enumerate(lists.ranks):
        if not rank and abs(lists.values[state]) > MOST_PAYOFF:
            yield (f"83 payoff range {state}", f"the payoff {lists.values[state]} of the state "
                   f"{state} has to be from -{MOST_PAYOFF} to {MOST_PAYOFF}")
    for rule, side, about in (("84 rows", 0, "rows, one for each move of One"),
                              ("85 cells", 1, "cells in each row, equally many")):
        for state in lists.inner:
            if not 1 <= lists.moves[2 * state + side] <= limits.moves:
                yield (f"{rule} range {state}", f"the state {state} has to have 1 to "
                       f"{up_to(limits, 'moves')} {about}")
    draws = lists.draws_of()
    for judge in (_count_fault, _weight_fault):
        for at, drawn in draws.items():
            fault = judge(drawn)
            if fault is not None:
                yield _of_cell(lists, at, fault)
    for state in lists.inner:
        for at in lists.cells_of(state):
            for after in _after(lists, draws, at):
                if not state < after < len(lists.ranks):
                    yield _of_cell(lists, at, (
                        "88 order", f"leads to the state {after}, and has to lead to one that "
                        f"stands behind {state}, of the {len(lists.ranks)} that there are"))
    yield from _rank_faults(lists, draws, limits)
    yield from _total_faults(lists)


def _of_cell(lists: Lists, at: int, fault: Fault) -> Fault:
    """A fault with the place of its cell."""
    place = lists.place(at)
    return f"{fault[0]} {' '.join(map(str, place))}", f"the cell {_at(place)} {fault[1]}"


def _after(lists: Lists, draws: Mapping[int, Draws], at: int) -> Sequence[int]:
    """The states that a cell leads to."""
    return [draw[0] for draw in draws[at]] if at in draws else (lists.cells[at],)


def _count_fault(draws: Draws) -> Fault | None:
    if 1 <= len(draws) <= MOST_DRAWS:
        return None
    return "86 draws range", f"has {len(draws)} draws, and has to have 1 to {MOST_DRAWS}"


def _weight_fault(draws: Draws) -> Fault | None:
    weights = [draw[1] for draw in draws]
    if all(weights) and sum(weights) == CHANCE:
        return None
    return "87 weights", (f"has the weights {shorten(weights)}, and needs weights from 1 that sum "
                          f"to {CHANCE}")


def _rank_faults(lists: Lists, draws: Mapping[int, Draws], limits: Limits) -> Iterator[Fault]:
    for state in lists.inner:
        rank = lists.ranks[state]
        after = max(lists.ranks[reached] for at in lists.cells_of(state)
                    for reached in _after(lists, draws, at))
        if rank > limits.rank or rank != 1 + after:
            yield (f"89 turns {state}", f"the longest way from the state {state} takes "
                   f"{1 + after} turns, its rank is {rank}, and at most {up_to(limits, 'rank')} "
                   f"are possible")


def _total_faults(lists: Lists) -> Iterator[Fault]:
    for state, (least, most) in enumerate(totals(lists)):
        if least < -MOST_PAYOFF or most > MOST_PAYOFF:
            yield (f"90 total {state}", f"from the state {state} on One can get from {least} to "
                   f"{most}, and has to get from -{MOST_PAYOFF} to {MOST_PAYOFF}")


def totals(lists: Lists) -> list[tuple[int, int]]:
    """For each state of a table whose turns may pay the least and the greatest sum that One can
    still get from it on; none where no turn may pay. Cells have to lead to states behind their
    own."""
    if not lists.rewards:
        return []
    draws = lists.draws_of()
    found = [(0, 0)] * len(lists.ranks)
    for state in reversed(range(len(lists.ranks))):
        if not lists.ranks[state]:
            found[state] = lists.values[state], lists.values[state]
            continue
        steps = [draw for at in lists.cells_of(state)
                 for draw in draws.get(at) or [(lists.cells[at], CHANCE, 0)]]
        found[state] = (min(reward + found[after][0] for after, _, reward in steps),
                        max(reward + found[after][1] for after, _, reward in steps))
    return found
