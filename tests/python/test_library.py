"""The shared library in this process, against the cases of tests/vectors and the program. DOSOLVE_LIBRARY names it."""
import os
import threading
import time
import unittest
from unittest import mock

import dosolve
from dosolve.library import Library, find_library
from support import TOP, VECTORS, cases

COMMANDS = ["solve", "check", "bounds", "exploit", "play"]


@unittest.skipUnless(os.environ.get("DOSOLVE_LIBRARY"), "DOSOLVE_LIBRARY names no library")
class Answers(unittest.TestCase):
    def setUp(self):
        self.library = find_library()

    def answers(self, name, given):
        words = (VECTORS / f"{name}.args").read_text().splitlines()
        return self.library.answer(words, given)

    def test_all_cases(self):
        for command in COMMANDS:
            found = cases(command)
            self.assertGreater(len(found), 0)
            for name, given, text, status in found:
                with self.subTest(name):
                    self.assertEqual(self.answers(name, given), (status, text))

    def test_several_threads(self):
        found = cases("check")
        wrong = []

        def work(first):
            for name, given, text, status in found[first:] + found[:first]:
                if self.answers(name, given) != (status, text):
                    wrong.append(name)

        threads = [threading.Thread(target=work, args=(number * len(found) // 8,)) for number in range(8)]
        for thread in threads:
            thread.start()
        for thread in threads:
            thread.join()
        self.assertEqual(wrong, [])

    def test_solver_takes_the_library(self):
        report = dosolve.Report.load(TOP / "examples" / "table_rock.report")
        position = dosolve.Position.load(TOP / "examples" / "table_rock.json")
        plain = {name: value for name, value in os.environ.items() if name != "DOSOLVE_LIBRARY"}
        with mock.patch.dict(os.environ, plain, clear=True):
            by_program = dosolve.solve(position), dosolve.check(report), dosolve.play(report, 5, 3)
        with mock.patch.dict(os.environ, {"DOSOLVE": "/nowhere/dosolve"}):
            by_library = dosolve.solve(position), dosolve.check(report), dosolve.play(report, 5, 3)
        self.assertEqual(by_library, by_program)

    def test_worst_cases_of_both_plans(self):
        for path in sorted((TOP / "examples").glob("*.report")):
            with self.subTest(path.name):
                given = path.read_bytes()
                found = dosolve.exploit(given, "one"), dosolve.exploit(given, "two")
                wanted = [(worst.low, worst.high) for worst in found]
                self.assertEqual(self.library.worst(given), (0, *wanted))
        self.assertEqual(self.library.worst(b"no report"), (9, None, None))

    def test_games_of_several_seeds(self):
        seeds = [3, 0, 2**64 - 1, 3]
        for path in sorted((TOP / "examples").glob("*.report")):
            with self.subTest(path.name):
                given = path.read_bytes()
                found = [dosolve.play(given, 20, seed) for seed in seeds]
                wanted = [(x.games, x.payoff, x.sum, x.least, x.most) for x in found]
                self.assertEqual(self.library.games(20, seeds, given), (0, wanted))
                self.assertEqual(self.library.games(20, [], given), (0, []))
        self.assertEqual(self.library.games(20, seeds, b"no report"), (9, []))
        for games in 0, 100001:
            self.assertEqual(self.library.games(games, seeds, given), (1, []))

    def test_refusals_are_exceptions(self):
        with self.assertRaises(dosolve.ReportRefusedError):
            dosolve.check("no report")

    def test_a_small_check_takes_a_twentieth(self):
        given = (TOP / "examples" / "table_rock.report").read_bytes()
        program = dosolve.find_program()

        def seconds(answer, times):
            taken = []
            for _ in range(times):
                since = time.perf_counter()
                answer()
                taken.append(time.perf_counter() - since)
            return sorted(taken)[times // 2]

        by_program = seconds(lambda: dosolve.check(given, program=program), 11)
        by_library = seconds(lambda: dosolve.check(given), 101)
        self.assertLess(by_library * 20, by_program)


class Finding(unittest.TestCase):
    def test_no_library(self):
        with self.assertRaises(dosolve.ProgramMissingError):
            Library("/nowhere/libdosolve.so")

    def test_none_is_named(self):
        with mock.patch.dict(os.environ):
            os.environ.pop("DOSOLVE_LIBRARY", None)
            self.assertIsNone(find_library())
