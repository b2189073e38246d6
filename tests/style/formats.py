#!/usr/bin/env python3
"""formats.py [FOLDER]: looks whether docs/FORMATS.md documents the status and the text of each case of tests/vectors.

The regular expressions are made from that page: a table with the columns Status and Text has the texts of answers, one with
Line and Form the lines of a report, one with Word and Spelling what the words in capitals mean, one with Field the
fields of a position, one with Words and Statuses the commands. Several lines in one cell follow each other; one that ends
with ` ..` can come any number of times. Texts that no case has are printed, and are no fault.
"""
import re
import sys
from pathlib import Path

TOP = Path(__file__).resolve().parents[2]
NUMBER = "(?:0|[1-9][0-9]*)"
WHOLE = "(?:0|-?[1-9][0-9]*)"
SPELLINGS = {
    "number": NUMBER,
    "whole number": WHOLE,
    "numbers": f"{NUMBER}(?: {NUMBER})*",
    "list": f"(?:-|{NUMBER}(?:,{NUMBER})*)",
    "whole list": f"(?:-|{WHOLE}(?:,{WHOLE})*)",
}
# Those of every command: standard input failed, standard output failed, out of memory.
FAILED, CUT_OFF, NO_MEMORY = 6, 7, 8


def tables(text):
    """The rows of each table, as dictionaries from the column's name to the cell."""
    rows, names = [], None
    for line in text.splitlines() + [""]:
        if not line.startswith("|"):
            if names:
                yield names, rows
            rows, names = [], None
            continue
        cells = [cell.strip() for cell in line.strip("|").split("|")]
        if names is None:
            names = cells
        elif not set("".join(cells)) <= set("-:"):
            rows.append(dict(zip(names, cells)))


def coded(cell):
    return re.findall(r"`([^`]*)`", cell)


def numbers(cell):
    return {int(number) for number in re.findall(r"\d+", cell)}


class Formats:
    def __init__(self, page=TOP / "docs" / "FORMATS.md"):
        found = list(tables(page.read_text()))
        self.words = {}
        fields = {name for names, rows in found if "Field" in names and "Kind" in names for row in rows for name in coded(row["Field"])}
        for names, rows in found:
            if "Spelling" in names:
                for row in rows:
                    options = coded(row["Spelling"]) or sorted(fields)
                    either = "(?:" + "|".join(options) + ")"
                    self.words[coded(row["Word"])[0]] = SPELLINGS.get(row["Spelling"], either)
        # The statuses and the expression of each text, and the statuses of each command.
        self.texts, self.statuses, self.outcomes = [], {}, set()
        for names, rows in found:
            if "Text" in names:
                self.texts += [(numbers(row["Status"]), self.expression(coded(row["Text"])), row["Text"]) for row in rows]
            if "Statuses" in names:
                for row in rows:
                    command = (coded(row["Words"]) or [""])[0].split(" ")[0]
                    self.statuses[command] = numbers(row["Statuses"]) | {FAILED, CUT_OFF, NO_MEMORY}
            if "Outcome" in names:
                self.outcomes |= {(coded(row["Outcome"])[0], int(row["Status"])) for row in rows}
        self.report = self.report_expression([row for names, rows in found if "Form" in names for row in rows])

    def line(self, text):
        if text.startswith("usage:"):
            return re.escape(text) + "\n"
        if text.endswith(" .."):
            return f"(?:{self.line(text[:-3])})*"
        return " ".join(self.words.get(word, re.escape(word)) for word in text.split(" ")) + "\n"

    def expression(self, lines):
        return re.compile("".join(self.line(line) for line in lines).encode())

    def report_expression(self, rows):
        """The lines in their order; `or` is another form of the line before, `row` a line that may be repeated."""
        parts = []
        for row in rows:
            form = "".join(self.line(text) for text in coded(row["Form"]))
            if row["Line"] == "or":
                parts[-1] = f"(?:{parts[-1]}|{form})"
            else:
                parts.append(f"(?:{form})*" if row["Line"] == "row" else form)
        self.head = re.compile(parts[0].encode())
        return re.compile("".join(parts).encode())

    def documented(self, status, text):
        """Where the page has this answer, or None: the cell of a text, or the name of an outcome of a report."""
        if status in (FAILED, NO_MEMORY):
            return None if text else str(status)
        if status == CUT_OFF:
            return str(status)
        for statuses, expression, cell in self.texts:
            if status in statuses and expression.fullmatch(text):
                return cell
        if self.report.fullmatch(text):
            for outcome, of in self.outcomes:
                if of == status and b"\noutcome " + outcome.encode() + b"\n" in text:
                    return outcome
        return None

    def fault(self, command, status, text):
        """Why this answer to a command is none that the page documents, or None."""
        if status not in self.statuses.get(command, self.statuses[""]):
            return f"status {status} of {command or 'no command'}"
        return None if self.documented(status, text) else f"text with status {status}: {text[:200]!r}"


def main():
    folder = Path(sys.argv[1]) if len(sys.argv) > 1 else TOP / "tests" / "vectors"
    formats = Formats()
    used, faults, cases = set(), 0, sorted(folder.glob("*/*.args"))
    for case in cases:
        command = case.parent.name if case.parent.name != "usage" else ""
        status, text = int(case.with_suffix(".status").read_text()), case.with_suffix(".out").read_bytes()
        fault = formats.fault(command, status, text)
        if fault:
            faults += 1
            print(f"FAILED {case.parent.name}/{case.stem}: {fault}")
        used.add(formats.documented(status, text))
    missing = [cell for _, _, cell in formats.texts if cell not in used] + [name for name, _ in formats.outcomes if name not in used]
    print("texts that no case has:", "; ".join(missing) or "none")
    print(f"{len(cases) - faults} documented, {faults} not")
    return 1 if faults or not cases else 0


if __name__ == "__main__":
    sys.exit(main())
