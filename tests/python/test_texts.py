"""Positions and reports are read, written and refused as the program does it."""
import dataclasses
import json
import random
import re
import subprocess
import tempfile
import unittest
from pathlib import Path

import dosolve
from support import TOP, cases, commands, games, random_game


def read_back(read, given):
    """The text that a reader's value is written as, or that of its refusal."""
    try:
        return read(given).text()
    except dosolve.Refused as refused:
        return refused.text


def changed(data, source):
    """The bytes with one or two small changes: a byte, a number, or a piece between spaces, lines or commas."""
    for _ in range(source.randint(1, 2)):
        cut = source.choice([b"\n", b"\n", b" ", b",", b":"])
        pieces = data.split(cut)
        place, other = source.randrange(len(pieces)), source.randrange(len(pieces))
        way = source.randrange(6)
        if way == 0:
            del pieces[place]
        elif way == 1:
            pieces.insert(place, pieces[other])
        elif way == 2:
            pieces[place], pieces[other] = pieces[other], pieces[place]
        elif way == 3:
            pieces[place] = source.choice([b"", b"-", b"-0", b"0", b"00", b"+1", b"1.0", b"256", b"-1", b"9223372036854775808", b"win", b"end"])
        elif way == 4:
            number = re.fullmatch(rb"(.*?)(-?\d+)(.*)", pieces[place], re.DOTALL)
            if number:
                pieces[place] = number[1] + str(int(number[2]) + source.choice([-1, 1, 300])).encode() + number[3]
        else:
            at = source.randint(0, len(pieces[place]))
            pieces[place] = pieces[place][:at] + bytes([source.choice([32, 10, 34, 44, 45, 48, 57, 91, 125, 200])]) + pieces[place][at + 1:]
        data = cut.join(pieces)
    return data


def whole(text):
    """The fields of a position, the optional ones too."""
    return {"stages": "regret", "search": "oracle"} | json.loads(text)


class Page(unittest.TestCase):
    def test_the_page_on_formats_is_read(self):
        self.assertLessEqual({"solve", "check", "bounds", "sample"}, commands())
        self.assertLessEqual({"goofspiel", "oshi_zumo", "tron"}, set(games()))
        self.assertLessEqual(set(games()), dosolve.GAMES.keys())


class Reports(unittest.TestCase):
    def test_every_report_of_the_cases_is_written_as_it_was_read(self):
        texts = [out for name, _, out, _ in cases("solve") if out.startswith(b"dosolve report ")]
        texts += [given for command in {"check", "exploit", "play"} & commands() for _, given, out, status in cases(command)
                  if not out.startswith(b"report ")]
        texts += [file.read_bytes() for file in sorted(TOP.glob("**/examples/*.report"))]
        self.assertGreater(len(texts), 20)
        for text in texts:
            self.assertEqual(dosolve.Report.read(text).text().encode(), text)

    def test_a_text_that_check_refuses_is_refused_with_the_same_words(self):
        refused = 0
        for name, given, out, _ in cases("check"):
            if out.startswith(b"report "):
                with self.subTest(name), self.assertRaises(dosolve.ReportRefused) as caught:
                    dosolve.Report.read(given)
                self.assertEqual(caught.exception.text + "\n", out.decode())
                refused += 1
        self.assertGreater(refused, 10)

    def test_changed_reports_are_read_and_refused_alike(self):
        source, told = random.Random(11), set()
        kinds = [[], []]
        for _, given, _, status in cases("check"):
            if status == 0:
                kinds[b"\ngame table " in given].append(given)
        for _ in range(400):
            text = changed(source.choice(source.choice(kinds)), source)
            run = subprocess.run([dosolve.find_program(), "check"], input=text, capture_output=True, check=False)
            refused = run.stdout.startswith(b"report ")
            self.assertEqual(read_back(dosolve.Report.read, text).encode(), run.stdout[:-1] if refused else text, text)
            told.add(run.stdout.split()[1] if refused else b"")
        self.assertLessEqual({b"", b"line", b"number", b"order", b"short", b"position"}, told)

    def test_the_refusal_names_line_side_and_key(self):
        refused = dosolve.ReportRefused("refused bound one 16449 0 -5 5")
        self.assertEqual((refused.line, refused.side, refused.key), (None, "one", 16449))
        self.assertEqual(dosolve.ReportRefused("report line 7").line, 7)
        self.assertEqual(dosolve.ReportRefused("report position 25").code, 25)


class Positions(unittest.TestCase):
    def test_a_position_that_the_program_refuses_is_refused_with_the_same_words(self):
        refused = 0
        for name, given, out, status in cases("solve") + cases("bounds"):
            with self.subTest(name):
                found = read_back(dosolve.Position.read, given)
                if status == 2:
                    self.assertEqual(found + "\n", out.decode())
                    refused += 1
                else:
                    self.assertEqual(whole(found), whole(given))
        self.assertGreater(refused, 50)

    def test_optional_fields_are_written_where_they_differ_from_what_their_absence_means(self):
        optional = {field.name: field.absent for field in dosolve.ASKED if field.absent is not None}
        self.assertEqual(optional, {"stages": "regret", "search": "oracle"})
        for file in sorted(TOP.glob("**/examples/*.json")):
            position, text = dosolve.Position.load(file), file.read_text()
            self.assertEqual("stages" in json.loads(text), position.stages != "regret")
            for stages in ("regret", "linear"):
                asked = dataclasses.replace(position, stages=stages)
                again = json.loads(asked.text())
                self.assertEqual(again.get("stages"), "linear" if stages == "linear" else None)
                self.assertEqual(dosolve.Position.read(asked.text()), asked)
            for search in ("oracle", "induction"):
                asked = dataclasses.replace(position, search=search)
                again = json.loads(asked.text())
                self.assertEqual(again.get("search"), "induction" if search == "induction" else None)
                self.assertEqual(dosolve.Position.read(asked.text()), asked)

    def test_defaults_serve(self):
        position = dosolve.Position(dosolve.Goofspiel([1, 3], [2, 3], [1, 1]))
        self.assertEqual((position.gap, position.weight, position.stages), (0, 1_048_576, "linear"))
        self.assertEqual((position.turns, position.visits, position.search), (2**40, 100_000, "induction"))
        self.assertEqual(dosolve.Position(position.game, search="oracle").visits, 2**40)
        self.assertEqual(position.workers, min(16, dosolve.processors()))
        self.assertEqual(position.rows, 2 * position.game.most_states)
        thirteen = dosolve.Goofspiel(range(1, 14), range(1, 14), range(1, 14))
        self.assertEqual((dosolve.Position(thirteen).rows, dosolve.Position(thirteen).visits), (1_048_576, 100_000))
        self.assertEqual(dosolve.Position(dosolve.Tron(6, 6, [], 0, 35)).visits, 2**40)
        self.assertEqual(dosolve.Position(dosolve.Goofspiel([], [], [])).rows, 1)

    def test_files_are_loaded_and_saved(self):
        with tempfile.TemporaryDirectory() as folder:
            for kind, name in ((dosolve.Position, "tron_corners.json"),
                               (dosolve.Report, "tron_corners.report")):
                kept = Path(folder, name)
                kind.load(TOP / "examples" / name).save(kept)
                self.assertEqual(kept.read_bytes(), (TOP / "examples" / name).read_bytes())

    def test_changed_positions_are_read_and_refused_alike(self):
        source, told = random.Random(12), set()
        texts = [json.dumps(json.loads(given) | {"visits": 1, "rows": 9}).encode() for _, given, _, status in cases("bounds") if status != 2]
        for _ in range(400):
            text = changed(source.choice(texts), source)
            run = subprocess.run([dosolve.find_program(), "bounds"], input=text, capture_output=True, check=False)
            found = read_back(dosolve.Position.read, text)
            said = run.stdout.decode()[:-1]
            if said in {f"input 12 missing {field.name}" for field in dosolve.ASKED}:
                # The package has defaults for what the program requires; a later fault may be told.
                self.assertNotEqual(found, said)
                if not found.startswith("input "):
                    self.assertEqual(whole(found), whole(dosolve.Position.read(found).text()) | whole(text) | {
                        "stages": json.loads(text).get("stages", "linear"),
                        "search": json.loads(text).get("search", dosolve.Position.read(found).search)})
                    told.add(0)
            elif run.returncode == 2:
                self.assertEqual(found, said, text)
                told.add(dosolve.InputRefused(found).code)
            else:
                self.assertEqual(whole(found), whole(text))
        self.assertLessEqual({0, 10, 12, 13, 14, 15}, told)

    def test_what_is_written_is_what_the_program_reads(self):
        source = random.Random(3)
        for name in games():
            position = dosolve.Position(random_game(name, source), 5, 8193, 0, 0, 7, 3)
            self.assertEqual(dosolve.Position.read(position.text()), position)
            self.assertEqual(dosolve.solve(position).game, position.game)

    def test_examples_are_written_as_they_stand(self):
        for file in sorted(TOP.glob("**/examples/*.json")):
            self.assertEqual(dosolve.Position.read(file.read_bytes()).text(), file.read_text())

    def test_the_refusal_names_its_field(self):
        good = {"game": "tron", "height": 2, "width": 2, "walls": [], "one": 0, "two": 3, "gap": 0, "weight": 8192, "turns": 0,
                "visits": 0, "rows": 1, "workers": 1}
        for field, value, code in (("gap", -1, 15), ("walls", [1, True], 14), ("two", 2.0, 14), ("workers", 17, 15),
                                   ("rows", 2**70, 14), ("weight", None, 14), ("turns", "1", 14)):
            with self.assertRaises(dosolve.InputRefused) as caught:
                dosolve.Position.read(json.dumps(good | {field: value}))
            self.assertEqual((caught.exception.code, caught.exception.field), (code, field))

    def test_bytes_that_are_no_json_here_are_none_there(self):
        good = (TOP / "examples" / "tron_corners.json").read_text()
        for text in ("", "[1] 2", "NaN", '{"gap":Infinity}', '"\\ud800"', "[1e999]", "[" * 128 + "]" * 128, "\ufeff{}", "[01]", "\x00",
                     good.replace('"gap":0', '"gap":-0'), good.replace('"gap":0', '"gap":1e2'), good.replace('"gap":0', '"gap":1.0'),
                     good.replace('"gap":0', '"gap":9223372036854775808'), good.replace('"gap":0', '"gap":7,"gap":"x","gap":0')):
            for data in (text.encode("utf-8", "surrogatepass"), text.encode("utf-8", "surrogatepass") + b"\xff"):
                ours = read_back(dosolve.Position.read, data)
                run = subprocess.run([dosolve.find_program(), "bounds"], input=data, capture_output=True, check=False)
                theirs = run.stdout.decode().strip() if run.returncode == 2 else ours
                self.assertEqual(ours.startswith("input "), run.returncode == 2, data)
                self.assertEqual(ours, theirs, data)


if __name__ == "__main__":
    unittest.main()
