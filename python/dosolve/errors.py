"""What the program and the package refuse, as exceptions."""
from __future__ import annotations


class DosolveError(Exception):
    """The base of every exception of this package."""


class InvalidError(DosolveError, ValueError):
    """Something that was handed to the package is not what it takes; the message says what."""


class PlayerError(InvalidError):
    """A player gave no answer that is a plan, or raised an exception; the message names the
    player's side and the state, and `side` is the side, None where it is not one player's."""

    side: str | None = None


class NoTableError(InvalidError):
    """A game cannot be a table; the message says why."""


class ProgramMissingError(DosolveError):
    """The program was not found, or cannot be run."""


class ProgramFailedError(DosolveError):
    """The program gave no answer: it failed, ran out of memory or time, does not know the command,
    or is another program. `status` is its exit status, None where it had none."""

    def __init__(self, message: str, status: int | None = None) -> None:
        super().__init__(message, status)
        self.message = message
        self.status = status

    def __str__(self) -> str:
        return self.message


class ProgramTimeoutError(ProgramFailedError, TimeoutError):
    """The program took longer than it was given."""


class RefusedError(DosolveError):
    """A refusal: `text` is exactly what the program prints, without its line feed; `hint` says in
    words what is wrong, where more is known."""

    def __init__(self, text: str, hint: str = "") -> None:
        super().__init__(text, hint)
        self.text = text
        self.hint = hint
        self.words = text.split(" ")

    def __str__(self) -> str:
        return f"{self.text}: {self.hint}" if self.hint else self.text

    def number_at(self, place: int) -> int | None:
        """The word at `place` as a number, None where it is none."""
        word = self.words[place] if place < len(self.words) else ""
        return int(word) if word.removeprefix("-").isdecimal() else None


# The field that a rule is about, where it is one; -1 stands for the text's last word, 4 for its
# fifth.
_NAMED: dict[int, str | int] = {
    12: -1, 14: -1, 15: -1, 16: "game", 21: 4, 22: 4, 24: "prizes", 25: "score", 31: "size",
    33: "least", 34: "place", 71: "nodes", 72: "edges", 73: "edges", 74: "edges", 75: -1,
    76: "rounds", 91: "weight",
}
_FIELDS = _NAMED | {code: "states" for code in range(81, 91)}

_TABLE = {
    81: "the lists of the game's line do not fit each other",
    82: "a table has at least one state, its root",
    83: "a payoff has to be from -4000 to 4000",
    84: "a state that is no end has to have 1 to 32 rows (with linear stages 64), one for each "
        "move of One",
    85: "the rows of a state have to be equally long, with 1 to 32 cells (with linear stages 64)",
    86: "a cell has to have 1 to 13 draws",
    87: "the weights of a cell's draws have to be from 1, and to sum to 360360",
    88: "a cell has to lead to states that stand behind its own, and are there",
    89: "from a state at most 31 turns can be played (with linear stages 63), and its rank is that "
        "of the longest way",
    90: "what One can still get from a state on has to be from -4000 to 4000",
}
"""What the rules of tables ask for, by the numbers of their refusals."""


class InputRefusedError(RefusedError):
    """A position is refused: `code` is the number of the refusal, `field` the field at fault,
    None where it is not one; `place` has the numbers in the text, of a table the state, the row
    and the cell."""

    def __init__(self, text: str, hint: str = "") -> None:
        super().__init__(text, hint)
        self.code = self.number_at(1) or 0
        named = _FIELDS.get(self.code)
        self.field: str | None = self.words[named] if isinstance(named, int) else named
        numbers = (self.number_at(place) for place in range(2, len(self.words)))
        self.place = tuple(number for number in numbers if number is not None)
        if not hint:
            self.hint = _TABLE.get(self.code, "")


class ReportRefusedError(RefusedError):
    """A report is refused.

    `line` is the number of the faulty line, from 1, where the text itself is at fault; `code` the
    number of the refusal where the rules refuse the position; `side` and `key` the row at fault.
    Each is None where the refusal does not tell it.
    """

    def __init__(self, text: str, hint: str = "") -> None:
        super().__init__(text, hint)
        kind, what = (self.words + ["", ""])[:2]
        refused = kind == "refused" and len(self.words) > 2 and what != "resolution"
        self.line = self.number_at(2) if kind == "report" and what != "position" else None
        self.code = self.number_at(2) if what == "position" else None
        self.side: str | None = self.words[2] if refused else None
        self.key = self.number_at(3) if self.side else None
        if not hint:
            self.hint = _explained(self.words) or _TABLE.get(self.code or 0, "")


def _explained(words: list[str]) -> str:
    """What a refusal of `check` means, where its words do not say it."""
    if words == ["report", "head"]:
        return ("a report begins with the line `dosolve report 1`, or 2 or 3, its lines end with "
                "LF alone, and version 3 is for what no version before can tell")
    if words[:2] == ["refused", "idle"] and len(words) == 4:
        return f"the plan of {words[2]} never reaches the state {words[3]}"
    if words[:2] == ["refused", "weights"] and len(words) == 4:
        return (f"the row {words[3]} of {words[2]} needs one weight for each move, which sum to "
                f"the report's weight")
    if words[:2] == ["refused", "root"] and len(words) == 3:
        return f"the report's bound of {words[2]} is not that of its plan"
    if words[:2] == ["refused", "resolution"] and len(words) == 3:
        return f"the game's resolution is {words[2]}"
    if words == ["refused", "outcome"]:
        return "the gap, the gap asked, the resolution and the turns do not allow the outcome"
    return ""


class LimitReachedError(RefusedError):
    """The visits or rows that the program was given, or its own limit of states, did not
    suffice."""


# Names of earlier versions.
Invalid = InvalidError
ProgramMissing = ProgramMissingError
ProgramFailed = ProgramFailedError
Refused = RefusedError
InputRefused = InputRefusedError
ReportRefused = ReportRefusedError
LimitReached = LimitReachedError
