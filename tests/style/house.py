#!/usr/bin/env python3
"""The rules of the house that a script can check: no clause wider than 120 columns, no line of a proof wider than 200, no
function of more than seven parameters, more than ten clauses or a body of more than 40 lines, no name of specs/ and no type
of src/ defined in two crates, at most ten wrong bodies a crate, each crate on the map and in the README, each name of
docs/DEFINITIONS.md in the place that is given there.

    tests/style/house.py      prints what breaks a rule, and ends with 1 if something does
"""
import re
import sys
from collections import defaultdict
from dataclasses import dataclass
from pathlib import Path

TOP = Path(__file__).resolve().parents[2]
CRATES = TOP / "crates"
MOST_COLUMNS, MOST_PROOF_COLUMNS, MOST_PARAMETERS, MOST_CLAUSES, MOST_LINES, MOST_EDITS = 120, 200, 7, 10, 40, 10

# Crates of tests alone, which have whole reports as literals.
TESTS = {"worked_rows", "worked_runs"}
# Names that mean one thing in each of several crates: every game has its own setting, rules and refusals, and a reader
# and a writer speak of the same lines.
SHARED = {
    "first_fault", "IsSettingOf", "IsPosition", "KeepsRules", "number_of", "words_of", "HasOneGame",
    "Gives", "Fails", "◌>>=◌",
}

# Types that each game has.
OF_GAMES = {"State", "Setting"}

WORDS = r"(?:(?:abbrev|unfoldable|ruleset) )*"
DEFINED = re.compile(WORDS + r"pub " + WORDS + r"(?:(?:record|data) )?([^\s:{}().,]+)")
OPENED = re.compile(WORDS + r"(?:pub )?(module|record|data) ")
FUNCTION = re.compile(r"( *)(?:pub(?:\([a-z]+\))? )?(?:const )?fn (\w+)")
CLAUSE = re.compile(r" *(?:requires|ensures)\b")
TYPE = re.compile(r"(?: *(?:pub(?:\([a-z]+\))? )?(?:struct|enum|trait|union) |(?:pub )?type )(\w+)")


def definitions(text):
    """The names that a file of specs gives to other files: what is public at the top or in a module, but no field."""
    found, within = set(), []
    for line in text.splitlines():
        bare = line.lstrip()
        if not bare or bare.startswith("--"):
            continue
        indent = len(line) - len(bare)
        while within and indent <= within[-1][0]:
            within.pop()
        match = DEFINED.match(bare)
        if match and match.group(1) not in ("use", "mod", "module") and all(kind == "module" for _, kind in within):
            found.add(match.group(1))
        opened = OPENED.match(bare)
        if opened:
            within.append((indent, opened.group(1)))
    return found


def parameters(signature):
    """How many parameters a function has, `self` counted."""
    depth = angles = 0
    commas, last = 0, ""
    for letter in signature[signature.index("fn ") + 3 :].replace("->", ""):
        if letter in "([":
            depth += 1
        elif letter in ")]":
            depth -= 1
            if depth == 0:
                return 0 if last == "" else commas + (last != ",")
        elif depth == 1 and letter in "<>":
            angles += 1 if letter == "<" else -1
        if depth == 1 and angles == 0 and letter == ",":
            commas += 1
        if depth >= 1 and not letter.isspace() and not (letter == "(" and depth == 1):
            last = letter
    return 0


@dataclass
class Function:
    line: int
    name: str
    parameters: int
    clauses: int
    length: int  # lines of the body


def functions(text):
    """Each function of a source."""
    lines = text.splitlines()
    for number, line in enumerate(lines):
        head = FUNCTION.match(line)
        if not head:
            continue
        indent, name = head.groups()
        signature, clauses, length, start = "", 0, 0, None
        for at in range(number, len(lines)):
            if at > number and FUNCTION.match(lines[at]):
                break
            if start is None:
                signature += lines[at].split("//")[0] + " "
                clauses += CLAUSE.match(lines[at]) is not None
            if start is None and (lines[at] == indent + "{" or (at == number and line.endswith(" {"))):
                start = at
            elif start is not None and lines[at] == indent + "}":
                length = at - start - 1
                break
        yield Function(number + 1, name, parameters(signature), clauses, length)


def wide(path, most, skipped):
    """What is said of each line that has more columns."""
    for number, line in enumerate(path.read_text().splitlines(), 1):
        if len(line) > most and not line.lstrip().startswith(skipped):
            yield f"{path.relative_to(CRATES)}:{number}: {len(line)} columns"


def faults_of_sources():
    where = defaultdict(set)
    for path in sorted(CRATES.glob("*/src/**/*.rt")):
        place = path.relative_to(CRATES)
        crate = place.parts[0]
        if crate in TESTS:
            continue
        yield from wide(path, MOST_COLUMNS, ("ghost use", "//"))
        text = path.read_text()
        for line in text.splitlines():
            found = TYPE.match(line)
            if found:
                where[found.group(1)].add(crate)
        for f in functions(text):
            if f.parameters > MOST_PARAMETERS:
                yield f"{place}:{f.line}: {f.name} has {f.parameters} parameters"
            if f.length > MOST_LINES:
                yield f"{place}:{f.line}: the body of {f.name} has {f.length} lines"
            if f.clauses > MOST_CLAUSES:
                yield f"{place}:{f.line}: the contract of {f.name} has {f.clauses} clauses"
    for name, crates in sorted(where.items()):
        if len(crates) > 1 and name not in OF_GAMES:
            yield f"the type {name} is defined in {', '.join(sorted(crates))}"


def faults_of_proofs():
    where = defaultdict(set)
    for folder in ("proofs", "specs"):
        for path in sorted(CRATES.glob(f"*/{folder}/**/*.antt")):
            yield from wide(path, MOST_PROOF_COLUMNS, ("use ", "pub use ", "unfoldable pub use "))
            if folder == "specs":
                for name in definitions(path.read_text()):
                    where[name].add(path.relative_to(CRATES).parts[0])
    for name, crates in sorted(where.items()):
        if len(crates) > 1 and name not in SHARED:
            yield f"{name} is defined in {', '.join(sorted(crates))}"
    for crate in sorted(CRATES.glob("*/must-fail")):
        count = len(list(crate.glob("*.edit")))
        if count > MOST_EDITS:
            yield f"{crate.parent.name} has {count} wrong bodies"


def faults_of_pages():
    crates = re.findall(r"^(\w+)[^:#]*:", (TOP / "crates.txt").read_text(), re.MULTILINE)
    for page in ("docs/ARCHITECTURE.md", "README.md"):
        text = (TOP / page).read_text()
        for name in crates:
            if f"`{name}`" not in text:
                yield f"{page} does not name the crate {name}"
    for line in (TOP / "docs" / "DEFINITIONS.md").read_text().splitlines():
        cells = line.strip("|").split(" | ")
        if line.startswith("| ") and len(cells) == 3:
            yield from faults_of_definition(re.findall(r"`([^`]+)`", cells[2]), set(crates))


def faults_of_definition(words, crates):
    """Names, and behind them their place: a file of specs/ as `plan_book/Plans`, or a crate whose src/ has the type."""
    names = []
    for word in words:
        crate, _, file = word.partition("/")
        if crate not in crates:
            names.append(word)
            continue
        files = [CRATES / crate / "specs" / f"{file}.antt"] if file else sorted((CRATES / crate / "src").rglob("*.rt"))
        text = "".join(path.read_text() for path in files if path.exists())
        for name in names:
            if not re.search(rf"(?<!\w){re.escape(name)}(?!\w)", text):
                yield f"docs/DEFINITIONS.md: {name} is not in {word}"
        names = []
    for name in names:
        yield f"docs/DEFINITIONS.md: {name} has no place"


def main():
    found = [*faults_of_sources(), *faults_of_proofs(), *faults_of_pages()]
    print("\n".join(found + [f"house: {len(found)} faults"]))
    return 1 if found else 0


if __name__ == "__main__":
    sys.exit(main())
