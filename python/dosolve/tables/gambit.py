"""Reads files of Gambit, strategic forms (.nfg) and extensive forms (.efg) of two players, and
writes extensive forms."""
from __future__ import annotations

import re
from bisect import bisect
from collections.abc import Callable
from dataclasses import dataclass, field, replace
from fractions import Fraction
from pathlib import Path
from typing import Any

from ..errors import InvalidError, NoTableError
from ..exact import steps
from ..games.game import CHANCE, SIDES, AnyGame, State
from ..values import FilePath, cut, shorten
from .building import ONLY, Built, Deal, End, Outcome, Outcomes, Turn, build, exact, merged
from .building import of_matrix, unique

MOST_NODES = 200_000
"""The nodes of an extensive form that is written."""

_TOKEN = re.compile(r'"((?:[^"\\]|\\.)*)"|([{}])|([^\s{},"]+)')

Group = list[Any]
"""Words, and groups of them, that stand between braces."""

Made = tuple[Built, Callable[[Any], str]]
"""A table that was built, and a function from its nodes to names."""


def of_gambit(text: str) -> Made:
    """The table of the text of a file of Gambit."""
    words = _Words(text)
    kind = words.peek()
    if kind not in ("NFG", "EFG"):
        raise NoTableError(f"this is no file of Gambit, which begins with NFG or EFG: it "
                           f"{f'begins with {shorten(kind)}' if kind else 'is empty'}")
    try:
        words.take("NFG or EFG")
        words.take("a version")
        words.take("R or D")
        words.quoted("a title")
        return _strategic(words) if kind == "NFG" else _extensive(words)
    except NoTableError as fault:
        raise NoTableError(f"line {words.fault or words.line}: {fault}") from None


class _Text(str):
    """A word that stood in quotation marks."""


class _Words:
    """The words of a file, one after the other."""

    def __init__(self, text: str) -> None:
        tokens = list(_TOKEN.finditer(text))
        self.words = [_Text(found[1].replace('\\"', '"')) if found[1] is not None else found[0]
                      for found in tokens]
        ends = [place for place, letter in enumerate(text) if letter == "\n"]
        self.lines = [1 + bisect(ends, found.start()) for found in tokens]
        self.at = 0
        self.fault = 0
        """The line of a fault that is found when all was read."""

    @property
    def line(self) -> int:
        """The line of the word that was taken last."""
        return self.lines[max(0, min(self.at, len(self.lines)) - 1)] if self.lines else 1

    def peek(self) -> str:
        """The next word, empty at the end."""
        return self.words[self.at] if self.at < len(self.words) else ""

    def take(self, what: str) -> str:
        """The next word."""
        if self.at >= len(self.words):
            raise NoTableError(f"expected {what}, and the file ends")
        self.at += 1
        return self.words[self.at - 1]

    def quoted(self, what: str) -> str:
        """The next word, which has to stand in quotation marks."""
        word = self.take(what)
        if not isinstance(word, _Text):
            raise NoTableError(f"expected {what} in quotation marks, not {shorten(word)}")
        return str(word)

    def number(self, what: str) -> int:
        """The next word, a whole number."""
        word = self.take(what)
        if isinstance(word, _Text) or not re.fullmatch(r"-?\d+", word):
            raise NoTableError(f"expected {what}, a whole number, not {shorten(word)}")
        return int(word)

    def is_next(self, word: str) -> bool:
        """Whether this word is next, not in quotation marks."""
        return self.peek() == word and not isinstance(self.peek(), _Text)

    def group(self, what: str) -> Group:
        """What stands between braces, groups in it as lists."""
        if not self.is_next("{"):
            there = f"not {shorten(self.peek())}" if self.peek() else "and the file ends"
            raise NoTableError(f"expected {what} in braces, {there}")
        self.take(what)
        found: Group = []
        while not self.is_next("}"):
            found.append(self.group(what) if self.is_next("{") else self.take(what))
        self.take(what)
        return found


def _players(words: _Words) -> None:
    """Reads the names of the players."""
    names = words.group("the names of the players")
    if len(names) != len(SIDES):
        raise NoTableError(f"a table has two players, and this game has {len(names)}")


def _strategic(words: _Words) -> Made:
    """The table of a strategic form."""
    _players(words)
    strategies = words.group("the strategies")
    if len(strategies) != len(SIDES):
        raise NoTableError(f"{len(strategies)} lists of strategies for two players")
    one, two = ([str(place + 1) for place in range(int(given))] if isinstance(given, str)
                else given for given in strategies)
    if isinstance(words.peek(), _Text):
        words.take("a comment")
    count = len(one) * len(two)
    if words.is_next("{"):
        outcomes = [_pair(outcome[1:]) for outcome in words.group("the outcomes")]
        chosen = [words.number("the number of an outcome") for _ in range(count)]
        if any(not 0 <= number <= len(outcomes) for number in chosen):
            raise NoTableError("there is no outcome of some number")
        pairs = [outcomes[number - 1] if number else (Fraction(0), Fraction(0))
                 for number in chosen]
    else:
        pairs = [_pair([words.take("a payoff"), words.take("a payoff")]) for _ in range(count)]
    if words.peek():
        raise NoTableError(f"{shorten(words.peek())} stands behind the end of the game")
    total = _sum(words, pairs, [words.line] * len(pairs))
    matrix = [[pairs[row + len(one) * column][0] for column in range(len(two))]
              for row in range(len(one))]
    return replace(of_matrix(matrix, one, two), total=total), lambda node: "root"


def _pair(words: Group) -> tuple[Fraction, Fraction]:
    """Both players' payoffs."""
    if len(words) != len(SIDES):
        raise NoTableError(f"{len(words)} payoffs for two players")
    one, two = (exact(str(word)) for word in words)
    return one, two


def _sum(words: _Words, pairs: list[tuple[Fraction, Fraction]], lines: list[int]) -> Fraction:
    """What both payoffs sum to everywhere; refused where that differs. The lines are those where
    they stand."""
    sums = [one + two for one, two in pairs]
    for line, each in zip(lines, sums):
        if each != sums[0]:
            words.fault = line
            raise NoTableError(f"the game is not zero-sum: payoffs sum to {each} here, and to "
                               f"{sums[0]} before")
    return sums[0] if sums else Fraction(0)


@dataclass
class _Node:
    """A node of an extensive form: whose it is (0 chance, 1 or 2 a player, -1 nobody's), its
    information set, what One gets on coming to it, the payoffs of both on the whole way to it, and
    its actions with what follows."""

    name: str
    player: int
    group: int = 0
    reward: Fraction = Fraction(0)
    paid: tuple[Fraction, Fraction] = (Fraction(0), Fraction(0))
    actions: list[str] = field(default_factory=list)
    chances: list[Fraction] = field(default_factory=list)
    after: list[int] = field(default_factory=list)
    line: int = 0
    drawn: str = ""


class _Tree:
    """The nodes of an extensive form, in the order of the file, and its information sets."""

    def __init__(self, words: _Words) -> None:
        self.words = words
        self.nodes: list[_Node] = []
        self.actions: dict[tuple[int, int], Group] = {}
        self.groups: dict[tuple[int, int], list[int]] = {}
        self.outcomes: dict[int, tuple[Fraction, Fraction]] = {0: (Fraction(0), Fraction(0))}
        open_nodes: list[int] = []
        while not self.nodes or open_nodes:
            number = len(self.nodes)
            above = self.nodes[open_nodes[-1]] if open_nodes else None
            node = self.node(above)
            self.nodes.append(node)
            if above is not None:
                above.after.append(number)
            if node.actions:
                open_nodes.append(number)
            while open_nodes and (len(self.nodes[open_nodes[-1]].after)
                                  == len(self.nodes[open_nodes[-1]].actions)):
                open_nodes.pop()
        if words.peek():
            raise NoTableError(f"{shorten(words.peek())} stands behind the end of the game")

    def node(self, above: _Node | None) -> _Node:
        """Reads one node."""
        kind = self.words.take("a node")
        if kind not in ("c", "p", "t") or isinstance(kind, _Text):
            raise NoTableError(f"expected a node (c, p or t), not {shorten(kind)}")
        line = self.words.line
        node = _Node(self.words.quoted("the name of a node"), -1 if kind == "t" else 0, line=line)
        if above is not None and above.player == 0:
            node.drawn = above.actions[len(above.after)]
        if kind == "p":
            node.player = self.words.number("the number of a player")
            if node.player not in (1, 2):
                raise NoTableError(f"there is no player {node.player}")
        if kind != "t":
            self.read_actions(node)
        paid = self.paid()
        before = above.paid if above is not None else self.outcomes[0]
        node.reward = paid[0]
        node.paid = before[0] + paid[0], before[1] + paid[1]
        return node

    def read_actions(self, node: _Node) -> None:
        """Reads the information set of a node with its actions, which may stand at its first node
        alone."""
        node.group = self.words.number("the number of an information set")
        known = node.player, node.group
        if isinstance(self.words.peek(), _Text):
            self.words.take("the name of an information set")
        if self.words.is_next("{"):
            self.actions[known] = self.words.group("the actions")
        if not self.actions.get(known):
            raise NoTableError(f"the information set {node.group} of player {node.player} has no "
                               f"actions")
        listed = self.actions[known]
        node.actions = list(map(str, listed if node.player else listed[::2]))
        if node.player == 0:
            node.chances = [exact(str(word), "chance") for word in listed[1::2]]
        self.groups.setdefault(known, []).append(len(self.nodes))

    def paid(self) -> tuple[Fraction, Fraction]:
        """Reads the outcome of a node, whose payoffs may stand at its first node alone."""
        number = self.words.number("the number of an outcome")
        if isinstance(self.words.peek(), _Text):
            self.words.take("the name of an outcome")
        if self.words.is_next("{"):
            self.outcomes[number] = _pair(self.words.group("payoffs"))
        if number not in self.outcomes:
            raise NoTableError(f"the outcome {number} has no payoffs")
        return self.outcomes[number]

    def name(self, number: int) -> str:
        """The name of a node; where it has none, that of the draw that leads to it, or its
        number."""
        return self.nodes[number].name or self.nodes[number].drawn or f"node {number}"

    def behind(self, number: int, paid: Fraction = Fraction(0)) -> Outcomes:
        """A node, or the nodes behind its draws, with what is paid on the way there, behind what
        was paid before; an end pays its own outcome itself."""
        node = self.nodes[number]
        if not node.actions:
            return [Outcome(number, Fraction(1), paid)]
        paid += node.reward
        if node.player:
            return [Outcome(number, Fraction(1), paid)]
        return [each._replace(chance=chance * each.chance)
                for at, chance in zip(node.after, node.chances) for each in self.behind(at, paid)]

    def is_alone(self, number: int) -> bool:
        """Whether a player tells a node from each other."""
        node = self.nodes[number]
        return self.groups[node.player, node.group] == [number]

    def expand(self, number: int) -> End | Turn:
        """What a node is: the end, one player's move, or both moves where the second player does
        not see the first one's."""
        node = self.nodes[number]
        if not node.actions:
            return End(node.reward)
        if not self.is_alone(number):
            self.words.fault = node.line
            raise NoTableError(f"player {node.player} does not tell {self.name(number)!r} from "
                               f"other nodes: a table shows the state to both players, so such a "
                               f"game is one only as a matrix of whole strategies (.nfg)")
        below = [self.nodes[after] for after in node.after]
        members = self.groups.get((below[0].player, below[0].group), [])
        names = unique(node.actions)
        # What the first node pays is paid by its turn, since no turn leads there.
        before = node.reward if number == 0 else Fraction(0)
        if below[0].player == 3 - node.player and members == node.after and len(members) > 1:
            rows = [[self.behind(after, before + each.reward) for after in each.after]
                    for each in below]
            both = names, unique(below[0].actions)
        else:
            rows = [[self.behind(after, before)] for after in node.after]
            both = names, (ONLY,)
        if node.player == 1:
            return Turn(rows, both)
        return Turn([list(column) for column in zip(*rows)], (both[1], both[0]))


def _extensive(words: _Words) -> Made:
    """The table of an extensive form."""
    _players(words)
    if isinstance(words.peek(), _Text):
        words.take("a comment")
    tree = _Tree(words)
    ends = [node for node in tree.nodes if not node.actions]
    total = _sum(words, [node.paid for node in ends], [node.line for node in ends])
    first = [Outcome(0)] if tree.nodes[0].player else tree.behind(0)
    plain = len(first) == 1 and not first[0].reward
    built = build(first[0].node if plain else Deal(tuple(merged(first))), tree.expand)
    return replace(built, total=total), tree.name


def save_gambit(game: AnyGame, path: FilePath) -> None:
    """Writes any game of this package as an extensive form of Gambit (.efg), with the payoffs of
    its rules; of at most 200,000 nodes, since equal states are written again and again."""
    Path(path).write_text(_Writer(game).text(), encoding="utf-8")


class _Writer:
    """The lines of an extensive form."""

    def __init__(self, game: AnyGame) -> None:
        self.game = game
        self.lines = [f'EFG 2 R {_quoted(cut(game.title(), 200))} {{ "One" "Two" }}']
        self.groups = [0, 0, 0]
        self.outcomes: dict[int, int] = {}
        """The numbers of outcomes by what they pay One."""

    def text(self) -> str:
        """The file."""
        self.add_state(self.game.root())
        return "\n".join([*self.lines, ""])

    def add(self, line: str) -> None:
        """One node."""
        if len(self.lines) > MOST_NODES:
            raise InvalidError(f"{self.game.title()} has more than {MOST_NODES} nodes as a tree")
        self.lines.append(line)

    def group(self, player: int) -> int:
        """The number of another information set of a player; 0 is chance."""
        self.groups[player] += 1
        return self.groups[player]

    def outcome(self, paid: int) -> str:
        """An outcome that pays this, as a node that is no end has it."""
        return self.end(paid) if paid else "0"

    def end(self, paid: int) -> str:
        """An outcome that pays this."""
        number = self.outcomes.setdefault(paid, len(self.outcomes) + 1)
        payoff = paid / self.game.scale
        return f'{number} "" {{ {payoff} {-payoff} }}'

    def add_state(self, state: State, paid: int = 0) -> None:
        """A state and all that follows it, at whose first node this is paid. Who has one move alone
        has no node."""
        if state.is_end:
            self.add(f't "" {self.end(paid + state.payoff)}')
            return
        name, of_two = _quoted(cut(str(state), 100)), self.group(2)
        one, two = state.names("one"), state.names("two")
        if len(one) > 1:
            self.add(f'p {name} 1 {self.group(1)} "" {_actions(one)} {self.outcome(paid)}')
            paid = 0
        for mine in state.moves("one"):
            if len(two) > 1:
                self.add(f'p {name} 2 {of_two} "" {_actions(two)} {self.outcome(paid)}')
            left = paid if len(two) == 1 else 0
            for yours in state.moves("two"):
                self.add_outcomes(list(steps(state, mine, yours)), left)

    def add_outcomes(self, outcomes: list[tuple[int, State, int]], paid: int) -> None:
        """What follows a pair of moves, behind what is yet to be paid."""
        if len(outcomes) > 1:
            draws = " ".join(f'"{draw}" {Fraction(chance, CHANCE)}'
                             for draw, (chance, _, _) in enumerate(outcomes))
            self.add(f'c "" {self.group(0)} "" {{ {draws} }} {self.outcome(paid)}')
            paid = 0
        for _, after, reward in outcomes:
            self.add_state(after, paid + reward)


def _quoted(text: str) -> str:
    """A text in quotation marks."""
    return '"' + " ".join(text.split()).replace("\\", "/").replace('"', '\\"') + '"'


def _actions(names: tuple[str, ...]) -> str:
    return "{ " + " ".join(map(_quoted, names)) + " }"
