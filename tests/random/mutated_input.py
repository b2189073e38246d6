#!/usr/bin/env python3
"""mutated_input.py PROGRAM [OTHER] [SECONDS [SEED]] [GAME]: gives PROGRAM positions and reports that were changed at random.

Positions and reports of tests/vectors, of all games or of the one that is named, and random tables are changed in bytes,
numbers, fields, states, rows and lines, and given to `solve`, `bounds`, `check`, `exploit` and `play` for SECONDS (60). An answer
is wrong if docs/FORMATS.md has no such status or text, if it takes more than 20 seconds, or if it is not that of
OTHER, any program with the same commands. Reports of several workers are not compared, since they depend on the schedule; nor
those of linear stages or by induction, which no other program has to print alike; nor versions of a report that the page does
not have. Each wrong answer is shown and its input kept. One seed makes the same inputs again. The last line counts the inputs;
no part of the gate.
"""
import json
import os
import random
import re
import signal
import sys
import tempfile
import time
from pathlib import Path

import tables
from pages import TOP, Formats
from random_positions import GAMES

LIMIT = 20
EDGES = [-1000001, -1000000, -1001, -1000, -129, -128, -9, -1, 0, 1, 2, 3, 6, 7, 8, 9, 13, 14, 31, 32, 36, 100, 101, 127, 128,
         255, 256, 1000, 1001, 1000000, 1000001, 8191, 8192, 8193, 1048576, 1048577, 4000000000, 4000000001, -4000000000,
         8000000000, 8000000001, 99999999999, 100000000000, 1099511627776, 1099511627777, 2**31 - 1, 2**31, 2**32, 2**53,
         2**63 - 1, 2**63, -2**63, -2**63 - 1, 2**64 - 1, 2**64, 10**30]
KINDS = ["x", "", "win", "margin", "prizes", "tron", None, True, False, {}, [], [[1]], ["a"], [1, None], [1] * 255, [1] * 256, 0.5]
SPELLED = ["1.0", "1e2", "-0", "-0.0", "01", "+1", "1e400", "0x10", "1.", ".5", "-", "1_000", "NaN", '"\\u0031"', '"\\ud800"',
           "1 ", "\t2", "[1,]", "[,1]", "[" * 126 + "]" * 126, "[" * 127 + "]" * 127, "[" * 128 + "]" * 128]
BYTES = b'"\\{}[]:,-+.eE0123456789 \n\r\t\0\x7f\x80\xc3\xff'
NUMBER = re.compile(rb"-?[0-9]+")
# The most that a position may ask for, so that a run is short.
MOST = {"turns": 6, "visits": 3000, "rows": 3000, "weight": 10000, "workers": 1}
ASKED = ["gap", "weight", "turns", "visits", "rows", "workers"]


class Runner:
    """Runs a program on bytes; input and output are files in memory."""

    def __init__(self):
        self.input, self.output = os.memfd_create("input"), os.memfd_create("output")
        self.errors = os.open(os.devnull, os.O_WRONLY)
        signal.signal(signal.SIGALRM, self.stop)
        self.child = None

    def stop(self, _signal, _frame):
        os.kill(self.child, signal.SIGKILL)

    def __call__(self, program, words, text):
        for fd in (self.input, self.output):
            os.ftruncate(fd, 0)
            os.lseek(fd, 0, os.SEEK_SET)
        os.pwrite(self.input, text, 0)
        actions = [(os.POSIX_SPAWN_DUP2, self.input, 0), (os.POSIX_SPAWN_DUP2, self.output, 1), (os.POSIX_SPAWN_DUP2, self.errors, 2)]
        self.child = os.posix_spawn(program, [program, *words], os.environ, file_actions=actions)
        signal.setitimer(signal.ITIMER_REAL, LIMIT)
        _, status = os.waitpid(self.child, 0)
        signal.setitimer(signal.ITIMER_REAL, 0)
        size = os.fstat(self.output).st_size
        return os.waitstatus_to_exitcode(status), os.pread(self.output, size, 0)


def changed_number(r, number):
    return r.choice([number - 1, number + 1, -number, number * 10, r.randint(0, 300), r.choice(EDGES), r.choice(EDGES)])


def changed_list(r, items):
    items = list(items)
    for _ in range(r.randint(1, 2)):
        place = r.randrange(len(items) + 1)
        kind = r.randrange(5)
        if kind == 0 or place == len(items):
            items.insert(place, r.choice(EDGES[:28] + KINDS[:6]))
        elif kind == 1:
            del items[place]
        elif kind == 2:
            items.insert(place, items[place])
        elif kind == 3:
            items[place] = r.choice(EDGES[:28] + KINDS[:6])
        else:
            r.shuffle(items)
    return items


def changed_inside(r, items):
    """A list of lists with a change at some depth."""
    lists = [place for place, item in enumerate(items) if isinstance(item, list)]
    if not lists or r.random() < 0.2:
        return changed_list(r, items)
    place = r.choice(lists)
    return items[:place] + [changed_inside(r, items[place])] + items[place + 1:]


def changed_value(r, value):
    if r.random() < 0.15:
        return r.choice(KINDS)
    if isinstance(value, list) and any(isinstance(item, list) for item in value):
        return tables.changed(r, value) if r.random() < 0.5 else changed_inside(r, value)
    if isinstance(value, list):
        return r.sample(range(1, 14), len(value)) if len(value) < 14 and r.random() < 0.5 else changed_list(r, value)
    if isinstance(value, int):
        return r.randint(0, 6) if r.random() < 0.5 else changed_number(r, value)
    return r.choice(KINDS + ["goofspiel", "oshi_zumo", "tron", "goofspiel_drawn", "pursuit", "table", "goofspiel "])


def changed_fields(r, fields):
    """Changes values, leaves fields out, repeats and exchanges them. An asked field alone may get more than MOST."""
    fields = list(fields)
    names = [name for name, _ in fields]
    for _ in range(r.choice([1, 1, 1, 2, 3])):
        place = r.randrange(len(fields))
        name, value = fields[place]
        kind = r.randrange(20)
        if kind < 12:
            fields[place] = (name, changed_value(r, value))
        elif kind == 12 and len(fields) > 1:
            del fields[place]
        elif kind == 13:
            fields.append((name, changed_value(r, value)))
        elif kind == 14:
            r.shuffle(fields)
        elif kind == 15:
            fields[place] = (r.choice(names + ["depth", "", "Gap", "gap "]), value)
        elif kind == 16:
            fields.append((r.choice(["depth", "size", "walls", "edges", "gap"]), r.choice(EDGES)))
    return fields


def joined(r, fields):
    """The object's text, now and then with blanks or with a value that JSON or the page spells in another way."""
    parts = [json.dumps(name) + ":" + json.dumps(value) for name, value in fields]
    if r.random() < 0.1:
        place = r.randrange(len(parts))
        parts[place] = parts[place].split(":")[0] + ":" + r.choice(SPELLED)
    gap = r.choice(["", "", "", " ", "\n", "\r\n\t"])
    return ("{" + gap + ("," + gap).join(parts) + gap + "}" + gap).encode()


def changed_bytes(r, text):
    text = bytearray(text)
    for _ in range(r.choice([1, 1, 1, 2, 5])):
        place, kind = r.randrange(len(text) + 1), r.randrange(7)
        if kind == 0:
            text[place:place + 1] = bytes([r.choice(BYTES)])
        elif kind == 1:
            text.insert(place, r.choice(BYTES))
        elif kind == 2:
            del text[place:place + r.choice([1, 1, 3, 20])]
        elif kind == 3:
            text[place:place] = text[place:place + r.randint(1, 20)]
        elif kind == 4:
            text[place:place + 1] = bytes([r.randrange(256)])
        elif kind == 5 and r.random() < 0.3:
            del text[place:]
        else:
            found = list(NUMBER.finditer(text))
            if found:
                number = r.choice(found)
                text[number.start():number.end()] = str(changed_number(r, int(number.group()[:40]))).encode()
    return bytes(text)


def bounded(text):
    """The text with less asked, where a field of it asks for much and not too much."""
    def less(match):
        name, number = match.group(1).decode(), int(match.group(3))
        within = number <= {"weight": 1048576, "rows": 1048576, "workers": 16}.get(name, 1099511627776)
        return match.group(1) + match.group(2) + (b"%d" % MOST[name] if MOST[name] < number and within else match.group(3))
    return re.sub(rb"(turns|visits|rows|weight|workers)(\"\s*:\s*)([0-9]{1,14})(?![0-9.eE])", less, text)


def changed_position(r, bases):
    fields = list(r.choice(bases))
    if fields[0] == ("game", "table") and r.random() < 0.5:
        fields[1] = ("states", tables.playable(r, 4))
    kind = r.random()
    if kind < 0.02:
        # What is asked at its limits, over a small game.
        fields = [(name, r.choice([0, 1, value, 1048576, 1099511627776, 16, 8192]) if name in ASKED else value) for name, value in bases[0]]
        return joined(r, fields)
    if kind < 0.7:
        return bounded(joined(r, changed_fields(r, fields)))
    return bounded(changed_bytes(r, joined(r, fields)))


def changed_lines(r, text):
    lines = text.split(b"\n")
    place, other = r.randrange(len(lines)), r.randrange(len(lines))
    kind = r.randrange(6)
    if kind == 0:
        del lines[place]
    elif kind == 1:
        lines.insert(other, lines[place])
    elif kind == 2:
        lines[place], lines[other] = lines[other], lines[place]
    elif kind == 3:
        words = lines[place].split(b" ")
        words.insert(r.randrange(len(words) + 1), r.choice(words + [b"", b"0", b"-"]))
        lines[place] = b" ".join(words)
    elif kind == 4:
        words = lines[place].split(b" ")
        r.shuffle(words)
        lines[place] = b" ".join(words)
    else:
        lines = lines[:place] + lines[other:]
    return b"\n".join(lines)


def changed_row(r, text):
    """A row taken out, put in or changed a little, with the count of its sheet, so that the text is still a report."""
    lines = text.split(b"\n")
    heads = [place for place, line in enumerate(lines) if re.fullmatch(rb"(one|two) [0-9]{1,7}", line)]
    if not heads:
        return changed_lines(r, text)
    head = r.choice(heads)
    word, count = lines[head].split(b" ")
    count = int(count)
    place = head + 1 + r.randrange(max(1, count))
    row = lines[place].split(b" ") if place < len(lines) else []
    if count and len(row) > 2 and r.random() < 0.5:
        at = r.randrange(1, len(row))
        row[at] = b"%d" % changed_number(r, int(row[at])) if r.random() < 0.3 else row[at]
        if len(row) > 3 and r.random() < 0.5:
            one, two = r.sample(range(2, len(row)), 2)
            row[one], row[two] = row[two], row[one]
        elif r.random() < 0.7:
            row[1] = b"%d" % (int(row[1]) + r.choice([-1, 1, -1000000, 1000000]))
        lines[place] = b" ".join(row)
    elif count and r.random() < 0.7:
        del lines[place]
        lines[head] = word + b" %d" % (count - 1)
    elif len(row) > 2:
        row[0] = b"%d" % (int(row[0]) + r.choice([1, 1, 2, 8192]))
        lines.insert(place + 1, b" ".join(row))
        lines[head] = word + b" %d" % (count + 1)
    return b"\n".join(lines)


def changed_lists(r, text):
    """A number of a list of the game's line changed, taken out, put in or exchanged with another."""
    lines = text.split(b"\n")
    words = lines[1].split(b" ")
    place = r.randrange(2, len(words))
    numbers = [] if words[place] == b"-" else words[place].split(b",")
    at, kind = r.randrange(len(numbers) + 1), r.randrange(6)
    if kind == 0 or at == len(numbers):
        numbers.insert(at, r.choice(numbers + [b"0", b"1", b"-1", b"360360"]))
    elif kind == 1:
        del numbers[at]
    elif kind == 2:
        other = r.randrange(len(numbers))
        numbers[at], numbers[other] = numbers[other], numbers[at]
    elif kind == 3:
        numbers[at] = b"%d" % changed_number(r, int(numbers[at]))
    else:
        numbers[at] = b"%d" % (int(numbers[at]) + r.choice([-1, 1]))
    words[place] = b",".join(numbers) or b"-"
    return b"\n".join(lines[:1] + [b" ".join(words)] + lines[2:])


def changed_report(r, bases):
    text = r.choice(bases)
    for _ in range(r.choice([1, 1, 2])):
        try:
            changes = [changed_bytes, changed_lines, changed_row, changed_row]
            changes += [changed_lists] * (4 if b"\ngame table " in text else 1)
            text = r.choice(changes)(r, text)
        except (ValueError, IndexError):
            text = changed_bytes(r, text)
    return text


def bases(game):
    """The positions of the cases that are JSON objects, as lists of fields, the smallest first, and the reports."""
    vectors = TOP / "tests" / "vectors"
    positions, reports = [], []
    for case in sorted(vectors.glob("*/*.in")):
        text = case.read_bytes()
        if case.parent.name in ("check", "exploit", "play"):
            reports.append(text)
        elif case.parent.name in ("solve", "bounds") and text.startswith(b"{"):
            try:
                positions.append(list(json.loads(text).items()))
            except ValueError:
                pass
    reports += [case.read_bytes() for case in sorted(vectors.glob("solve/*.out")) if case.read_bytes().startswith(b"dosolve")]
    small = list(json.loads((TOP / "examples" / "goofspiel_mixed.json").read_bytes()).items())
    positions = [small] + [fields for fields in positions if fields and (not game or ("game", game) in fields)]
    reports = [text for text in reports if not game or b"\ngame %s " % game.encode() in text]
    return positions, [text for text in reports if 0 < len(text) < 20000]


def main():
    words = sys.argv[1:]
    game = words.pop() if words and words[-1] in GAMES else None
    if not words:
        sys.exit("usage: mutated_input.py PROGRAM [OTHER] [SECONDS [SEED]] [GAME]")
    program = os.path.realpath(words.pop(0))
    other = os.path.realpath(words.pop(0)) if words and not words[0].isdigit() else None
    seconds, seed = (int(word) for word in (words + ["60", "1"][len(words):]))
    r, run, formats = random.Random(seed), Runner(), Formats()
    positions, reports = bases(game)
    # The words of each command that reads, and what makes its input.
    commands = [(["solve"], changed_position, positions), (["bounds"], changed_position, positions)]
    commands += [(words, changed_report, reports) for words in (["check"], ["exploit", "one"], ["exploit", "two"], ["play", "20", "7"])]
    tried, wrong, statuses, kept, end = 0, 0, {}, None, time.monotonic() + seconds
    while time.monotonic() < end:
        words, change, texts = r.choice(commands)
        command, text = words[0], change(r, texts)
        started = time.monotonic()
        status, answer = run(program, words, text)
        fault = formats.fault(command, status, answer)
        if time.monotonic() - started > LIMIT:
            fault = f"more than {LIMIT} seconds"
        several = command == "solve" and re.search(rb"\nspent [0-9]+ ", answer)
        own = command == "solve" and answer.startswith(b"dosolve report ") and re.search(rb'"(linear|induction)"', text)
        newer = text.startswith(b"dosolve report ") and not formats.head.match(text)
        if other and not fault and not several and not own and not newer:
            theirs = run(other, words, text)
            fault = None if theirs == (status, answer) else f"{(status, answer[:300])} here, {theirs[0], theirs[1][:300]} there"
        tried += 1
        statuses[command, status] = statuses.get((command, status), 0) + 1
        if fault:
            wrong += 1
            kept = kept or tempfile.mkdtemp(prefix="mutated_input.")
            Path(kept, f"{tried}.{'.'.join(words)}").write_bytes(text)
            print(f"WRONG {kept}/{tried}.{'.'.join(words)}: {fault}", flush=True)
    for (command, status), count in sorted(statuses.items()):
        print(f"{command}, status {status}: {count}")
    print(f"{tried} tried, {wrong} wrong, seed {seed}")
    return 1 if wrong or not tried else 0


if __name__ == "__main__":
    sys.exit(main())
