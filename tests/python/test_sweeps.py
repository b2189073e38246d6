"""Sweeps: in order, resumed, failures kept, nothing lost where a worker is killed, and nothing left
running where a sweep is stopped."""
import concurrent.futures
import contextlib
import dataclasses
import importlib.util
import json
import logging
import os
import random
import shutil
import signal
import subprocess
import sys
import tempfile
import threading
import time
import unittest
from pathlib import Path
from unittest import mock

import dosolve
import guide
from dosolve.processes import Programs
from dosolve.solver.process import run
from support import TOP, children, random_game

try:
    import distributed
    logging.getLogger("distributed.client").setLevel(logging.ERROR)
except ImportError:
    distributed = None


def positions(count, source):
    """Positions of random small games."""
    return [dosolve.Position(random_game(source.choice(list(dosolve.GAMES)), source), 0, 8192, 200,
                             10_000, 4096, 1, "regret") for _ in range(count)]


class Sweeps(unittest.TestCase):
    def setUp(self):
        folder = tempfile.TemporaryDirectory()
        self.addCleanup(folder.cleanup)
        self.folder = Path(folder.name)

    def test_results_come_in_order_from_any_executor(self):
        given = positions(12, random.Random(1))
        wanted = [dosolve.solve(position) for position in given]
        with concurrent.futures.ThreadPoolExecutor(3) as threads:
            for executor in (None, threads):
                found = list(dosolve.sweep(given, executor))
                self.assertEqual([swept.number for swept in found], list(range(12)))
                self.assertEqual([swept.report for swept in found], wanted)
                self.assertEqual([swept.position for swept in found], given)

    def test_a_sweep_goes_on_where_it_stopped(self):
        given, output = positions(8, random.Random(2)), self.folder / "out.jsonl"
        texts = [position.text() for position in given]
        texts[2] = '{"game":"chess"}'
        some = dosolve.sweep(texts, output=output)
        for _ in range(4):
            next(some)
        some.close()
        lines = output.read_text().splitlines()
        self.assertGreaterEqual(len(lines), 4)
        output.write_text("\n".join(lines) + '\n{"position":"{cut o')
        asked = []

        class Counting(concurrent.futures.ThreadPoolExecutor):
            def submit(self, work, number, *rest):
                asked.append(number)
                return super().submit(work, number, *rest)

        with Counting(2) as executor:
            found = list(dosolve.sweep(texts, executor, output))
        self.assertIn(2, asked)
        self.assertEqual(len(asked), 8 - len([line for line in lines if '"report"' in line]))
        self.assertEqual([swept.number for swept in found if swept.error], [2])
        self.assertIn("there is no game 'chess'", found[2].error)
        self.assertEqual(found[7].report, dosolve.solve(given[7]))
        self.assertRegex(repr(found[2]), "^<Swept 2: InputRefusedError: input 16 .*, 0.0 s>$")
        # On a busy machine the first sweep can have ended before it was closed.
        last = "goofspiel, taken from .*" if found[7].is_old else "<Report on .*>, .* s"
        self.assertRegex(repr(found[7]), f"^<Swept 7: {last}>$")
        for line in output.read_text().splitlines():
            self.assertTrue("cut o" in line or {"position", "seconds"} <= json.loads(line).keys())

    def test_what_time_cut_short_is_searched_again_where_there_is_more(self):
        position = dosolve.Position(dosolve.Goofspiel(*[[1, 2, 3, 4]] * 2, [4, 3, 2, 1]), workers=1)
        output = self.folder / "out.jsonl"

        def swept(seconds, **more):
            with concurrent.futures.ThreadPoolExecutor(1) as threads:
                return next(dosolve.sweep([position], threads, output, seconds=seconds, **more))

        first = swept(0)
        self.assertEqual((first.report.stopped, first.limit, first.is_old), ("time", 0, False))
        self.assertEqual(json.loads(output.read_text())["limit"], 0)
        again = swept(0)
        self.assertEqual((again.is_old, again.limit, again.report.notes()),
                         (True, 0, first.report.notes()))
        self.assertIn("the time was up: more seconds can narrow the gap", again.report.notes())
        whole = output.read_text()
        for seconds in (30, None):
            output.write_text(whole)
            better = swept(seconds)
            self.assertEqual((better.is_old, better.limit, better.report.stopped),
                             (False, None, ""))
            self.assertLess(better.report.gap, 100)
            self.assertNotIn('"limit"', output.read_text().splitlines()[1])
            for later in (0, 60, None):
                kept = swept(later, solver=dosolve.Solver("/no/such"))
                self.assertEqual((kept.is_old, kept.report), (True, better.report))

    def test_results_of_earlier_versions_are_read(self):
        position = dosolve.Position(dosolve.Goofspiel(*[[1, 2, 3, 4]] * 2, [4, 3, 2, 1]), workers=1)
        output, done = self.folder / "out.jsonl", dosolve.solve(position)
        cut = dosolve.solve(dataclasses.replace(position, turns=0))
        for report, limits in ((done, {None: True, 1: True}), (cut, {None: False, 1: True, 3: False})):
            for seconds, is_old in limits.items():
                told = {name: value for name, value in report.record().items()
                        if name not in ("unit", "scale")}
                told |= {name: getattr(report, name) for name in ("lower", "upper", "gap", "asked")}
                output.write_text(json.dumps({"position": position.text().strip(), "seconds": 2.01}
                                             | told | {"report": report.text()}) + "\n")
                with concurrent.futures.ThreadPoolExecutor(1) as threads:
                    found = next(dosolve.sweep([position], threads, output, seconds=seconds))
                self.assertEqual((found.is_old, found.report == report), (is_old, is_old))
                mended = json.loads(output.read_text().splitlines()[0])
                self.assertEqual((mended["unit"], mended["lower"], mended["report"]),
                                 ("payoff of One", report.lower / 10**6, report.text()))

    def test_files_of_positions(self):
        file = self.folder / "one.json"
        text = (TOP / "examples" / "goofspiel_mixed.json").read_text()
        for given in (text, json.dumps(json.loads(text), indent=1)):
            file.write_text(given)
            self.assertEqual([dosolve.Position.read(line) for line in dosolve.read_positions(file)],
                             [dosolve.Position.read(text)])
        file.write_text(2 * text)
        with self.assertRaisesRegex(dosolve.InvalidError, "one.json is no JSON of one position; a "
                                    "file with one position on each line has to end with .jsonl"):
            dosolve.read_positions(file)

    def test_a_killed_program_loses_nothing(self):
        given = positions(40, random.Random(3))
        solver = dosolve.Solver(self.slow_program(0.3))
        found = dosolve.sweep(given, solver=solver)
        results = [next(found)]
        killed = 0
        while not killed:
            for child in children(os.getpid()):
                with contextlib.suppress(FileNotFoundError, ProcessLookupError):  # It ended first.
                    if str(self.folder).encode() in Path(f"/proc/{child}/cmdline").read_bytes():
                        os.kill(child, signal.SIGKILL)
                        killed += 1
        results += list(found)
        self.assertEqual([swept.number for swept in results], list(range(40)))
        self.assertEqual([swept.error for swept in results], [None] * 40)

    def test_a_program_that_is_always_killed_is_a_failure(self):
        script = self.folder / "killed"
        script.write_text(f'#!/bin/sh\necho >> "{self.folder}/runs"\nkill -KILL $$\n')
        script.chmod(0o755)
        found = list(dosolve.sweep(positions(1, random.Random(3)), solver=dosolve.Solver(script)))
        self.assertRegex(found[0].error, "^BrokenExecutor: the program was killed: solve: .*-9$")
        self.assertEqual((self.folder / "runs").read_text(), "\n" * 3)

    def test_it_runs_the_program_and_not_the_library_whose_calls_cannot_be_ended(self):
        given = positions(4, random.Random(8))
        with mock.patch("dosolve.solver.program.find_library", side_effect=AssertionError):
            found = list(dosolve.sweep(given))
        self.assertEqual([swept.error for swept in found], [None] * 4)

    def slow_program(self, seconds):
        script = self.folder / "slow"
        script.write_text(f'#!/bin/sh\nsleep {seconds}\nexec "{dosolve.find_program()}" "$@"\n')
        script.chmod(0o755)
        return str(script)

    @unittest.skipUnless(distributed, "Dask is missing: Debian's python3-distributed")
    def test_dask_loses_nothing_where_a_worker_is_killed(self):
        environment = os.environ | {"PYTHONPATH": str(TOP / "python")}
        port = 20_000 + os.getpid() % 20_000
        address = f"tcp://127.0.0.1:{port}"
        words = [sys.executable, "-m", "distributed.cli.dask_scheduler", "--host", "127.0.0.1",
                 "--port", str(port), "--no-dashboard"]
        started = [self.start(words, environment)]
        words = [sys.executable, "-m", "distributed.cli.dask_worker", address, "--nthreads", "1",
                 "--no-nanny", "--no-dashboard", "--local-directory", str(self.folder)]
        started += [self.start(words, environment) for _ in range(2)]
        given = positions(60, random.Random(4))
        with distributed.Client(address, timeout=60) as client:
            client.wait_for_workers(2, timeout=60)
            solver = dosolve.Solver(self.slow_program(0.05))
            found = dosolve.sweep(given, client.get_executor(), solver=solver)
            results = [next(found)]
            killing = threading.Timer(0.3, started[1].kill)
            killing.start()
            results += list(found)
            killing.join()
            self.assertEqual(len(client.scheduler_info()["workers"]), 1)
        self.assertEqual([swept.number for swept in results], list(range(60)))
        self.assertEqual([swept.error for swept in results], [None] * 60)
        self.assertEqual(results[59].report, dosolve.solve(given[59]))

    @unittest.skipUnless(importlib.util.find_spec("mpi4py") and shutil.which("mpiexec"),
                         "MPI is missing: Debian's python3-mpi4py")
    def test_mpi_runs_the_snippet_of_the_page(self):
        snippet = next(block for block in guide.parts()[1::2] if "MPIPoolExecutor" in block)
        (self.folder / "sweep.py").write_text(snippet)
        given = positions(10, random.Random(5))
        lines = "".join(position.text() for position in given)
        (self.folder / "positions.jsonl").write_text(lines)
        more = dict.fromkeys(("OMPI_ALLOW_RUN_AS_ROOT", "OMPI_ALLOW_RUN_AS_ROOT_CONFIRM",
                              "OMPI_MCA_rmaps_base_oversubscribe"), "1")
        for _ in range(2):
            run = subprocess.run(
                ["mpiexec", "-n", "3", sys.executable, "-m", "mpi4py.futures", "sweep.py"],
                cwd=self.folder, capture_output=True, text=True, timeout=100, check=False,
                env=os.environ | {"PYTHONPATH": str(TOP / "python")} | more)
            self.assertEqual((run.returncode, run.stdout.count("<Report on ")), (0, 10), run.stderr)
        written = (self.folder / "results.jsonl").read_text()
        results = [json.loads(line) for line in written.splitlines()]
        self.assertEqual({result["position"] for result in results},
                         {position.text().strip() for position in given})
        self.assertEqual(len(results), 10)

    def start(self, words, environment):
        """A process that is ended with the test."""
        process = subprocess.Popen(words, env=environment, stdout=subprocess.DEVNULL,
                                   stderr=subprocess.DEVNULL, cwd=self.folder)

        def end():
            process.terminate()
            try:
                process.wait(10)
            except subprocess.TimeoutExpired:
                process.kill()
                process.wait()
        self.addCleanup(end)
        time.sleep(0.2)
        return process


class Executors(unittest.TestCase):
    """The programs of this machine as an executor of `concurrent.futures`."""

    def test_jobs_are_done_or_raise(self):
        with Programs(2) as executor:
            self.assertEqual(list(executor.map(pow, range(9), [2] * 9)),
                             [number**2 for number in range(9)])
            futures = [executor.submit(int, "x"), executor.submit(pow, 2, exp=5)]
            with self.assertRaisesRegex(ValueError, "invalid literal"):
                futures[0].result()
            self.assertEqual(futures[1].result(), 32)
        with self.assertRaisesRegex(RuntimeError, "have been ended"):
            executor.submit(pow, 2, 2)
        executor.shutdown()

    def test_what_runs_and_what_waits_ends_with_it(self):
        before = children(os.getpid())
        executor = Programs(1)
        futures = [executor.submit(run, ["sleep", "60"], b"", None, None) for _ in range(3)]
        while not futures[0].running() or len(children(os.getpid())) < len(before) + 2:
            time.sleep(0.01)
        since = time.monotonic()
        executor.shutdown()
        self.assertLess(time.monotonic() - since, 5)
        self.assertEqual(futures[0].result()[0], -signal.SIGKILL)
        self.assertTrue(futures[1].cancelled() and futures[2].cancelled())
        self.assertEqual(children(os.getpid()), before)


class Stopped(unittest.TestCase):
    """A sweep of which some positions take a minute ends soon, with what it runs."""

    QUICK, SLOW, SOON = 4, 8, 5

    def setUp(self):
        folder = tempfile.TemporaryDirectory()
        self.addCleanup(folder.cleanup)
        self.folder = Path(folder.name)
        self.output = self.folder / "out.jsonl"
        self.given = positions(self.QUICK + self.SLOW, random.Random(6))
        self.given[self.QUICK:] = [dataclasses.replace(position, visits=9_999)
                                   for position in self.given[self.QUICK:]]
        script = self.folder / "slow"
        # Without exec, so that there is a process below the program.
        script.write_text("#!/bin/sh\nposition=$(cat)\ncase $position in *'\"visits\":9999,'*) "
                          "sleep 60 ;; esac\n"
                          f'printf "%s\\n" "$position" | "{dosolve.find_program()}" "$@"\n')
        script.chmod(0o755)
        self.program = str(script)
        self.addCleanup(self.end_all)

    def running(self):
        """The processes of this sweep, those of its programs too."""
        mark, found = f"SWEEP={self.folder}".encode(), []
        for file in Path("/proc").glob("[0-9]*/environ"):
            try:
                if mark in file.read_bytes().split(b"\0"):
                    found.append(int(file.parent.name))
            except OSError:
                continue
        return found

    def end_all(self):
        for process in self.running():
            os.kill(process, signal.SIGKILL)

    def wait_until(self, what, is_true, seconds=60):
        """Waits for something, and gives how long it took."""
        since = time.monotonic()
        while not is_true():
            self.assertLess(time.monotonic() - since, seconds, what)
            time.sleep(0.05)
        return time.monotonic() - since

    def lines(self):
        return self.output.read_text().splitlines() if self.output.exists() else []

    def sweep(self, *more):
        """The command, at the head of a group of processes."""
        given = self.folder / "given.jsonl"
        given.write_text("".join(position.text() for position in self.given))
        environment = os.environ | {"PYTHONPATH": str(TOP / "python"), "SWEEP": str(self.folder)}
        return subprocess.Popen(
            [sys.executable, "-m", "dosolve", "sweep", given, "-o", self.output, *more], text=True,
            env=environment, start_new_session=True, stdout=subprocess.PIPE,
            stderr=subprocess.PIPE)

    def test_interrupted_it_ends_soon_and_can_be_resumed(self):
        for stop in (os.kill, os.killpg):
            with self.subTest(stop.__name__):
                self.output.unlink(missing_ok=True)
                command = self.sweep("--program", self.program)
                self.wait_until("results", lambda: len(self.lines()) == self.QUICK)
                time.sleep(0.2)
                since = time.monotonic()
                stop(command.pid, signal.SIGINT)
                answer, told = command.communicate(timeout=60)
                self.assertLess(time.monotonic() - since, self.SOON)
                self.assertEqual((command.returncode, told), (130, "dosolve: interrupted\n"))
                self.wait_until("the end of all", lambda: not self.running(), self.SOON)
                self.assertEqual(answer.count("\n"), self.QUICK)
                kept = self.lines()
                self.assertEqual(sorted(json.loads(line)["position"] for line in kept), sorted(
                    position.text().strip() for position in self.given[:self.QUICK]))
        command = self.sweep()
        answer, told = command.communicate(timeout=60)
        self.assertEqual((command.returncode, told, answer.count("\n")),
                         (0, f"dosolve: results taken from {self.output}: {self.QUICK}\n",
                          len(self.given) + 1))
        self.assertEqual(self.lines()[:self.QUICK], kept)
        self.assertEqual(sorted(json.loads(line)["report"] for line in self.lines()),
                         sorted(dosolve.solve(position).text() for position in self.given))

    def test_where_it_is_killed_its_processes_end(self):
        command = self.sweep("--program", self.program)
        self.wait_until("results", lambda: len(self.lines()) == self.QUICK)
        command.kill()
        command.communicate()
        self.wait_until("the end of all", lambda: not self.running(), self.SOON)

    def test_where_a_script_ends_by_a_fault_its_programs_end(self):
        given = self.folder / "given.jsonl"
        given.write_text("".join(position.text() for position in self.given))
        script = (f"import dosolve\ngiven = dosolve.read_positions({str(given)!r})\n"
                  f"for found in dosolve.sweep(given, solver=dosolve.Solver({self.program!r})):\n"
                  f"    if found.number == {self.QUICK - 1}:\n        raise ValueError\n")
        environment = os.environ | {"PYTHONPATH": str(TOP / "python"), "SWEEP": str(self.folder)}
        since = time.monotonic()
        ended = subprocess.run([sys.executable, "-c", script], env=environment, text=True,
                               capture_output=True, timeout=60, check=False)
        self.assertLess(time.monotonic() - since, 30)
        self.assertEqual((ended.returncode, ended.stderr.splitlines()[-1]), (1, "ValueError"))
        self.wait_until("the end of all", lambda: not self.running(), self.SOON)

    def test_where_its_results_are_closed_it_ends(self):
        before = children(os.getpid())
        found = dosolve.sweep(self.given, solver=dosolve.Solver(self.program))
        self.assertIsNone(next(found).error)
        self.assertNotEqual(children(os.getpid()), before)
        since = time.monotonic()
        found.close()
        self.assertLess(time.monotonic() - since, self.SOON)
        self.assertEqual(children(os.getpid()), before)

    def test_what_waits_in_another_executor_is_cancelled(self):
        futures = []

        class Keeping(concurrent.futures.ThreadPoolExecutor):
            def submit(self, *work):
                futures.append(super().submit(*work))
                return futures[-1]

        with Keeping(1) as threads:
            found = dosolve.sweep(self.given[:self.QUICK] * 40, threads)
            next(found)
            found.close()
        self.assertGreater(sum(future.cancelled() for future in futures), 100)


if __name__ == "__main__":
    unittest.main()
