#!/usr/bin/env python3
"""crates.py: writes the table of crates in docs/FIRST_DAY.md anew: lines, seconds of a first check, the crates above.

Seconds that were measured stay, unless a crate has changed by more than a tenth of its lines; the others, with a `~`, are
reckoned by lines: BASE seconds, and EACH for a thousand lines.
"""
import re
from pathlib import Path

TOP = Path(__file__).resolve().parents[1]
PAGE = TOP / "docs" / "FIRST_DAY.md"
ROW = re.compile(r"^\| `(\w+)` \| (\d+) \| (~?\d+) \|.*\n", re.MULTILINE)
BASE, EACH = 10, 28


def uses():
    """The crates in the order of crates.txt, each with those that it uses."""
    lines = (TOP / "crates.txt").read_text().splitlines()
    pairs = [line.split(":") for line in lines if line and not line.startswith("#")]
    return {name.split()[0]: set(used.split()) for name, used in pairs}


def lines_of(crate):
    folders = [TOP / "crates" / crate / part for part in ("src", "specs", "proofs")]
    files = [path for folder in folders for path in folder.rglob("*") if path.suffix in (".rt", ".antt")]
    return sum(len(path.read_text().splitlines()) for path in files)


def above(crate, used):
    """The crates that use it, those that use them, and so on."""
    found = {name for name, names in used.items() if crate in names}
    return found.union(*(above(name, used) for name in found))


def seconds(lines, old):
    if old and not old[1].startswith("~") and abs(int(old[0]) - lines) <= 0.1 * lines:
        return old[1]
    return f"~{5 * round((BASE + EACH * lines / 1000) / 5)}"


def main():
    page, used = PAGE.read_text(), uses()
    old = {name: (lines, took) for name, lines, took in ROW.findall(page)}
    lines = {name: lines_of(name) for name in used}
    rows = []
    for name in used:
        higher = above(name, used)
        whole = f" {round(sum(lines[each] for each in higher) / 1000)}" if higher else ""
        rows.append(f"| `{name}` | {lines[name]} | {seconds(lines[name], old.get(name))} | {len(higher)} |{whole} |\n")
    places = [match.span() for match in ROW.finditer(page)]
    PAGE.write_text(page[: places[0][0]] + "".join(rows) + page[places[-1][1] :])


main()
