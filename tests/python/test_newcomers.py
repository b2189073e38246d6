"""What a newcomer does wrong, and what is offered in its place."""
import contextlib
import io
import json
import tempfile
import unittest
import unittest.mock
from fractions import Fraction
from pathlib import Path

import dosolve
from dosolve import Table, pictures
from players_support import even
from support import TOP
from test_command import POSITION, REPORT, run

MIXED = TOP / REPORT


def pennies(node):
    return None if node else ["heads", "tails"]


class Texts(unittest.TestCase):
    def test_a_text_is_no_list_of_moves(self):
        for moves, words in (
                (pennies, r"the moves of One are the text 'heads', not a list of moves.*\['heads'\]"),
                (lambda node: None if node else (["a", "b"], "ab"), "moves of Two are the text 'ab'"),
                (lambda node: None if node else "ab", "is the text 'ab', and has to be a pair of lists"),
                (lambda node: None if node else ["a", "b", "c"], "has to be the moves of One and")):
            with self.assertRaisesRegex(dosolve.NoTableError, words):
                Table.from_functions(0, moves, lambda node, one, two: 1, lambda node: 1)
        with self.assertRaisesRegex(dosolve.NoTableError, "a matrix is a list of rows"):
            Table.from_matrix(["12", "34"])
        right = Table.from_functions(0, lambda node: None if node else (["h", "t"], ["h", "t"]),
                                     lambda node, one, two: 1 + (one != two), lambda node: 3 - 2 * node)
        self.assertEqual(right.listing, (((1, 2), (2, 1)), 1, -1))

    def test_the_chance_that_cannot_be_dealt_out_is_named(self):
        for chances, odd in (((Fraction(1, 4), Fraction(3, 16), Fraction(9, 16)), "3/16"),
                             ((Fraction(1, 17), Fraction(16, 17)), "1/17")):
            with self.assertRaisesRegex(dosolve.NoTableError, rf"\({odd} is none\)"):
                Table.from_functions(0, lambda node: None if node else ([0], [0]),
                                     lambda node, one, two: list(enumerate(chances, 1)),
                                     lambda node: node)

    def test_an_error_in_a_function_says_where(self):
        def after(node, one, two):
            return node["x"]

        with self.assertRaises(TypeError) as caught:
            Table.from_functions(0, lambda node: ([7], [8]), after, lambda node: 0)
        self.assertEqual(caught.exception.__notes__, ["in after(0, 7, 8)"])
        with tempfile.TemporaryDirectory() as folder:
            file = Path(folder, "game.py")
            file.write_text("import dosolve\ndef table():\n    return dosolve.Table.from_functions(\n"
                            "        0, lambda node: ([7], [8]), lambda *all: 1 / 0, int)\n")
            self.assertRegex(run("solve", file).stderr, r"raised ZeroDivisionError: division by zero in "
                             r"after\(0, 7, 8\) \(.*game.py, line 4\)")
        with self.assertRaisesRegex(dosolve.NoTableError, "after gives None, and has to give the node"):
            Table.from_functions(0, lambda node: ([7], [8]), lambda *_: None, lambda node: 0)

    def test_a_move_alone_is_answered_with_what_to_return(self):
        game = dosolve.Tron(3, 4, [], 0, 11)
        for answer, words in ((2, r"2 is no list of weights: return \{2: 1\} to play that move"),
                              ("south", r"return \{'south': 1\} to play that move"),
                              (9, "return one weight for each move, or a dict such as"),
                              (None, "the player has to return one weight for each move")):
            with self.assertRaisesRegex(dosolve.PlayerError, words):
                dosolve.plan(game, "one", lambda state, answer=answer: answer)


class Rows(unittest.TestCase):
    def test_a_plan_that_is_never_reached_is_told(self):
        with tempfile.TemporaryDirectory() as folder:
            file = Path(folder, "x.report")
            file.write_text(MIXED.read_text().replace("game goofspiel 1,3 2,3 1,1",
                                                      "game goofspiel 1,4 2,3 1,1"))
            for command in ("exploit", "match"):
                found = run(command, file)
                self.assertEqual(found.returncode, 0)
                self.assertRegex(found.stdout, "note the plan of player one has no row for the state in "
                                 r"which the game begins, .*: the first move is played there, and in")
                self.assertRegex(found.stdout, "note [0-9] of the rows of player two are of no state of "
                                 "the game, .*: were they made for another position")
        self.assertEqual([dosolve.Report.load(MIXED).row_notes(side) for side in dosolve.SIDES], [(), ()])

    def test_rows_that_no_play_comes_to_are_told(self):
        solved = dosolve.Report.load(MIXED)
        first = dosolve.plan(solved.game, "one", lambda state: {state.moves("one")[0]: 1}, solved.weight)
        spare = [row for row in solved.one.rows if row.key not in {each.key for each in first.rows}]
        rows = sorted([*first.rows, *spare], key=lambda row: row.key)
        report = dosolve.Report.of(dosolve.Sheet(solved.game, "one", solved.weight, rows), solved.two)
        self.assertTrue(spare)
        self.assertEqual(report.row_notes("one"), (
            f"the plan of player one never comes to {len(spare)} of its rows, such as that of the key "
            f"{spare[0].key}",))
        bare = dosolve.Report.of(dosolve.Sheet(solved.game, "one", solved.weight), solved.two)
        self.assertEqual(bare.row_notes("one"), ())


class Tournaments(unittest.TestCase):
    def test_what_is_guaranteed_stands_beside_the_means(self):
        game = dosolve.Table.from_matrix([[0, -1, 1], [1, 0, -1], [-1, 1, 0]])
        position = dosolve.Position(game, weight=8192, workers=1)
        best = {side: dosolve.plan(game, side, lambda state: [1, 1, 1], 8192) for side in dosolve.SIDES}
        players = {"rock": lambda side, state: [1, 0, 0], "paper": lambda side, state: [0, 1, 0],
                   "third": lambda side, state: [1, 1, 1],
                   "past": lambda side, state, history: [1, 1, 1]}
        for solver in (None, dosolve.Solver()):
            with unittest.mock.patch.object(dosolve.Solver, "solve", lambda *_: dosolve.Report.of(
                    best["one"], best["two"])):
                found = dosolve.tournament(players, [position], solver, games=10)
            told = {each["player"]: each for each in found.standings()}
            self.assertEqual((told["paper"]["exploitability"], told["paper"]["guarantees as one"],
                              told["paper"]["guarantees as two"]), (1, -1, -1))
            self.assertLess(told["third"]["exploitability"], 0.001)
            self.assertIsNone(told["past"]["exploitability"])
            self.assertRegex(found.markdown(), r"\| past \|.*\| - \| - \| - \|")
            self.assertRegex(found.markdown(), "note paper is before .* by its mean, and guarantees less "
                             r"against an opponent that knows it \(exploitability 1\.000000 and 0\.000")

    def test_a_bad_player_takes_no_part_and_the_others_go_on(self):
        position = dosolve.Position.load(TOP / POSITION)
        calls = []

        def late(side, state, history):
            calls.append(state)
            return [1, 1, 1] if len(calls) > 20 else [1] * len(state.moves(side))

        def bad(side, state):
            return state.no_such_field

        found = dosolve.tournament({"bad": bad, "even": even, "late": late}, [position, position],
                                   games=50)
        self.assertEqual({each["player"] for each in found.standings()}, {"even"})
        self.assertEqual(len(found.pairings), 2)
        self.assertEqual(found.failed.keys(), {"bad", "late"})
        self.assertRegex(found.markdown(), "note bad took no part: player one raised AttributeError")
        with tempfile.TemporaryDirectory() as folder:
            file = Path(folder, "bad.py")
            file.write_text("def play(side, state): return 5\n")
            shown = run("tournament", file, "python/examples/even.py", "--position", POSITION)
            self.assertEqual((shown.returncode, shown.stderr),
                             (1, "dosolve: 1 of 2 players took no part: bad\n"))
            self.assertRegex(shown.stdout, r"(?s)\| even \|.*\| solver \|.*note bad took no part: 5 is")


class Positions(unittest.TestCase):
    def test_a_game_alone_is_a_position(self):
        game = '{"game":"oshi_zumo","size":1,"one":3,"two":3,"least":1,"place":0'
        position = dosolve.Position.read(f"{game}}}")
        self.assertEqual(position, dosolve.Position(dosolve.OshiZumo(1, 3, 3)))
        self.assertEqual(dosolve.Position.read(f'{game},"weight":8192}}').stages, "linear")
        whole = f'{game},"gap":0,"weight":8192,"turns":9,"visits":9,"rows":9,"workers":1}}'
        self.assertEqual(dosolve.Position.read(whole).stages, "regret")
        swept = next(dosolve.sweep([f'{game},"weight":8192,"stages":"regret"}}']))
        self.assertEqual((swept.error, swept.position.workers), (None, 1))

    def test_a_position_begins_in_a_state_that_no_plan_comes_to(self):
        report = dosolve.Report.load(MIXED)
        state = report.game.root().play(one=3, two=2)
        position = dosolve.Position.at(report, state, workers=1)
        self.assertEqual(position.game, dosolve.Goofspiel([1], [3], [1], 1))
        self.assertEqual((position.weight, position.gap), (report.weight, report.asked))
        table = Table.from_game(dosolve.Goofspiel([1, 2, 3], [1, 2, 3], [1, 2, 3]))
        other = table.root().after(0, 2)
        from_here = dosolve.Position.at(table, other).game
        self.assertEqual(from_here.root().names("one"), other.names("one"))
        self.assertLess(len(from_here.listing), len(table.listing) / 4)
        for draw, reply in ((0, 0), (1, 1)):
            ours, theirs = from_here.root().after(draw, reply), other.after(draw, reply)
            self.assertEqual((ours.name, ours.after(0, 0).payoff), (theirs.name, theirs.after(0, 0).payoff))
        end = state.play(one=1, two=3)
        for call, words in ((lambda: dosolve.Position.at(report, end), "the game is over in"),
                            (lambda: dosolve.Position.at(report, 5), "takes a state"),
                            (lambda: dosolve.Position(state), r"Position.at\(report, state\) begins in"),
                            (lambda: dosolve.Position.at(table, state), "is none of table")):
            with self.assertRaisesRegex(dosolve.InvalidError, words):
                call()

    def test_each_game_goes_on_as_from_its_state(self):
        for game in (dosolve.Goofspiel([1, 2, 3], [1, 2, 3], [3, 1, 2]), dosolve.OshiZumo(1, 4, 3),
                     dosolve.GoofspielDrawn([1, 2, 3], [1, 2, 3], [3, 1, 2]),
                     dosolve.Tron(3, 3, [4], 0, 8), dosolve.Pursuit(4, [0, 1, 1, 2, 2, 3], 0, 3, 3)):
            for state in game.states():
                if not state.is_end:
                    root = dosolve.Position.at(game, state).game.root()
                    self.assertEqual([root.moves(side) for side in dosolve.SIDES],
                                     [state.moves(side) for side in dosolve.SIDES])
                    for (share, ours), (other, theirs) in zip(root.outcomes(0, 0), state.outcomes(0, 0)):
                        self.assertEqual((share, ours.is_end), (other, theirs.is_end))
                        if ours.is_end:
                            self.assertEqual(ours.payoff, theirs.payoff)


class Names(unittest.TestCase):
    def test_draws_have_names(self):
        drawn = dosolve.GoofspielDrawn([1, 2, 3], [1, 2, 3], [3, 1, 2])
        self.assertEqual(drawn.root().draw_names(0, 1), ("prize 1", "prize 2"))
        table = Table.from_functions("deal", lambda node: ([0], [0]) if node == "deal" else None,
                                     lambda node, one, two: {"queen": 0.5, "king": 0.5}, len)
        self.assertEqual(table.root().draw_names(0, 0), ("payoff 5", "payoff 4"))
        self.assertEqual(dosolve.OshiZumo(1, 2, 2).root().draw_names(0, 1), ())

    def test_trees_have_names_of_draws_and_states(self):
        drawn = dosolve.GoofspielDrawn([1, 2, 3], [1, 2, 3], [3, 1, 2])
        table = Table.from_matrix([[Fraction(1, 4), 0], [0, Fraction(1, 2)]])
        for game, moves, worth in ((drawn, "1 - 1, prize 1", "-6.000 to 6.000"),
                                   (table, "0 - 0", "root: 0.000 to 0.500")):
            report = dosolve.Report.of(*(dosolve.Sheet(game, side, 8192) for side in dosolve.SIDES))
            steps = pictures._steps(game.root(), report)
            self.assertEqual(steps[0][0], moves)
            self.assertEqual(pictures._worth(game.root(), report), worth)
        self.assertEqual(pictures._worth(steps[0][2], report), "end, payoff 0.25")

    def test_a_drawn_node_of_gambit_has_the_name_of_its_draw(self):
        text = ('EFG 2 R "" { "One" "Two" }\nc "" 1 "" { "heads" 1/2 "tails" 1/2 } 0\n'
                'p "" 1 1 "" { "a" "b" } 0\nt "" 1 "" { 1 -1 }\nt "" 2 "" { 0 0 }\n'
                'p "" 1 2 "" { "a" "b" } 0\nt "" 3 "" { 2 -2 }\nt "" 2\n')
        with tempfile.TemporaryDirectory() as folder:
            file = Path(folder, "x.efg")
            file.write_text(text)
            table = Table.from_gambit(file)
            self.assertEqual(set(table.root().draw_names(0, 0)), {"heads", "tails"})
            for old, new, words in (
                    ("{ 2 -2 }", "{ 2 2 }", "line 7: the game is not zero-sum: payoffs sum to 4 here"),
                    ('"a" "b" } 0\nt "" 3', '"a" "b" } x\nt "" 3', "line 6: expected the number of an o"),
                    ('t "" 2\n', "", "line 7: expected a node, and the file ends"),
                    ('p "" 1 2 ""', 'p "" 1 1 ""', "line 3: player 1 does not tell"),
                    ("EFG", "XYZ", "no file of Gambit, which begins with NFG or EFG: it begins with 'X")):
                file.write_text(text.replace(old, new))
                with self.assertRaisesRegex(dosolve.NoTableError, words):
                    Table.from_gambit(file)


    def test_a_root_at_which_chance_alone_moves_is_told_by_its_draws(self):
        text = ('EFG 2 R "" { "One" "Two" }\nc "" 1 "" { "heads" 1/4 "tails" 3/4 } 0\n'
                'p "" 1 1 "" { "a" "b" } 0\nt "" 1 "" { 1 -1 }\nt "" 2 "" { 0 0 }\n'
                'p "" 1 2 "" { "a" "b" } 0\nt "" 3 "" { 2 -2 }\nt "" 2\n')
        with tempfile.TemporaryDirectory() as folder:
            file = Path(folder, "x.efg")
            file.write_text(text)
            report = dosolve.solve(dosolve.Position(Table.from_gambit(file), workers=1))
        lines = report.summary().splitlines()
        self.assertEqual(lines[-1], "chance heads 25.0%, tails 75.0%")
        turns = {dosolve.play(report, 1, seed * 2**40).told(report.game)[0] for seed in range(12)}
        self.assertEqual(turns, {"chance: heads", "chance: tails"})
        alone = dosolve.Report.load(MIXED).summary()
        self.assertIn("\none    1 50.0%, 3 50.0%\n", alone)

    def test_a_constant_sum_is_told(self):
        with tempfile.TemporaryDirectory() as folder:
            file, position = Path(folder, "x.efg"), Path(folder, "x.json")
            text = ('EFG 2 R "" { "One" "Two" }\np "" 1 1 "" { "a" "b" } 0\n'
                    't "" 1 "" { 3 3/2 }\nt "" 2 "" { 1 7/2 }\n')
            note = "both players' payoffs sum to 4.5: Two gets that less what One gets"
            file.write_text(text)
            (Path(folder, "x.nfg")).write_text('NFG 1 R "" { "One" "Two" } { 1 2 }\n3 3/2 1 7/2\n')
            for given in (file, Path(folder, "x.nfg")):
                table = Table.from_gambit(given)
                self.assertEqual(table.total, Fraction(9, 2))
                self.assertIn(f"note   {note}\n", run("solve", given).stdout)
            self.assertIn(f"note {note}\n", run("table", file, "-o", position).stdout)
            read = dosolve.Position.load(position)
            self.assertEqual((read.game.total, read.game), (Fraction(9, 2), Table.from_gambit(file)))
            self.assertIn(note, dosolve.solve(read).notes())
            self.assertEqual(dosolve.Position.at(read.game, read.game.root()).game.total, Fraction(9, 2))
            file.write_text(text.replace("3/2", "-3").replace("7/2", "-1"))
            self.assertNotIn("sum to", run("solve", file).stdout)
            position.unlink()
            run("table", file, "-o", position)
            self.assertNotIn("total", position.with_suffix(".names").read_text())


class Words(unittest.TestCase):
    def test_a_state_of_a_report_is_told_in_words(self):
        found = run("show", REPORT)
        self.assertEqual((found.returncode, found.stderr), (0, ""))
        self.assertEqual(found.stdout, "state  one 1 3, two 2 3, score 0, prize 1\nkey    335595772\n"
                         "value  from -0.500000 to -0.500000, payoff of One\n"
                         "one    1 50.0%, 3 50.0%\ntwo    2 50.0%, 3 50.0%\n")
        self.assertEqual(run("show", REPORT, "--key", 335595772).stdout, found.stdout)
        off = run("show", REPORT, "--history", "1,3").stdout
        self.assertEqual(off, run("show", REPORT, "--key", off.split("key")[1].split()[0]).stdout)
        report = dosolve.Report.load(MIXED)
        first = dosolve.Report.of(dosolve.Sheet(report.game, "one", report.weight), report.two)
        self.assertIn("one    no row: plays the first move, 1\ntwo    2 50.0%", first.told())
        self.assertIn("value  from -2.000000 to -0.500000", first.told())
        end = report.game.root().play(one=3, two=2).play(one=1, two=3)
        self.assertRegex(report.told(end), "\nend    pays One 0.000000\n$")
        told = json.loads(run("show", REPORT, "--json").stdout)
        self.assertEqual((told["lower"], told["two"], told["unit"]),
                         (-0.5, {"2": 0.5, "3": 0.5}, "payoff of One"))

    def test_a_table_is_told_in_payoffs_of_its_rules(self):
        table = Table.from_matrix([[Fraction(1, 4), 0], [0, Fraction(1, 4)]], ["a", "b"], "cd")
        report = dosolve.solve(dosolve.Position(table, workers=1))
        self.assertRegex(report.told(), "state  root\nkey    0\nvalue  from 0.12.* to 0.12")

    def test_a_picture_needs_a_file(self):
        for words in (("--matrix",), ("--tree", 2), ("--zoom",), ("--players", "a", "b"), ("--progress",)):
            found = run("show", REPORT, *words)
            self.assertEqual((found.returncode, found.stderr),
                             (1, "dosolve: a picture needs a file: -o FILE.svg\n"))


class Calls(unittest.TestCase):
    def test_measure_takes_a_solver_and_a_timeout(self):
        position = dosolve.Position.load(TOP / POSITION)
        found = dosolve.measure(position, even, "one", games=2, program=dosolve.Solver(timeout=60))
        self.assertEqual((found.exploitability, found.short), (0, 0))
        with self.assertRaises(dosolve.ProgramMissingError):
            dosolve.measure(position, even, "one", games=2, program=dosolve.Solver("/no/such"))
        with self.assertRaises(dosolve.ProgramTimeoutError):
            dosolve.measure(position, even, "one", games=2, timeout=1e-9)
        self.assertEqual(dosolve.Solver().worst_case(found.report, "one"),
                         dosolve.exploit(found.report, "one"))


class Bids(dosolve.PythonGame[tuple[int, int, int]]):
    """Oshi-Zumo with any number of coins."""

    name = "bids"

    def __init__(self, coins):
        self.coins = coins

    def start(self):
        return 0, self.coins, self.coins

    def moves(self, node):
        place, one, two = node
        if abs(place) > 1 or max(one, two) < 1:
            return None
        return range(1, one + 1), range(1, two + 1)

    def after(self, node, one, two):
        place, mine, yours = node
        paid, lost = (0 if bid == "-" else bid for bid in (one, two))
        return place + (paid > lost) - (paid < lost), mine - paid, yours - lost

    def payoff(self, node):
        return (node[0] > 0) - (node[0] < 0)

    def turns_left(self, node):
        return max(node[1:])


class PythonGames(unittest.TestCase):
    def test_it_is_measured_as_the_same_game_of_the_package(self):
        ours, theirs = Bids(5), dosolve.OshiZumo(1, 5, 5)
        plans = [dosolve.plan(game, "one", lambda state: [1] * len(state.moves("one")), 8192)
                 for game in (ours, theirs)]
        self.assertEqual(*(dosolve.respond(plan).value for plan in plans))
        self.assertEqual(*(plan.root_bound for plan in plans))
        self.assertEqual(len(Table.from_game(ours).listing), len(Table.from_game(theirs).listing))

    def test_more_moves_than_a_report_can_have_are_measured(self):
        game = Bids(65)
        plans = [dosolve.plan(game, side, lambda state, side=side: {state.moves(side)[-1]: 1}, 8192)
                 for side in dosolve.SIDES]
        self.assertEqual(dosolve.respond(plans[0]).value, -1)
        self.assertEqual(dosolve.expected_of(*plans), 0)
        self.assertEqual(dosolve.live_match(game, *plans, games=5).mean, 0)
        for call, words in ((lambda: dosolve.Report.of(*plans), "no report is on a game that is written"),
                            (lambda: dosolve.Position(game), "Table.from_game makes a table of it"),
                            (lambda: Table.from_game(game), "65 by 65 moves")):
            with self.assertRaisesRegex(dosolve.InvalidError, words):
                call()

    def test_it_is_asked_once_for_what_a_pair_of_moves_leads_to(self):
        class Counted(Bids):
            def after(self, node, one, two):
                calls.append((node, one, two))
                return super().after(node, one, two)

        calls, game = [], Counted(6)
        list(game.states())
        self.assertGreater(len(calls), 300)
        self.assertEqual(len(set(calls)), len(calls))
        root = game.root()
        self.assertEqual(root.play(one=3, two=5).node, (-1, 3, 1))
        self.assertEqual([after.node for _, after in root.outcomes(2, 4)], [(-1, 3, 1)])

    def test_what_is_wrong_with_it_is_told(self):
        class Half(Bids):
            def after(self, node, one, two):
                return [(super(Half, self).after(node, one, two), 0.5)]

        with self.assertRaisesRegex(dosolve.InvalidError, "chances sum to 0.5"):
            Half(3).root().outcomes(0, 0)

        class Wrong(Bids):
            def turns_left(self, node):
                return 5

        class Text(Bids):
            def moves(self, node):
                return ["a", "b"]

        for kind, words in ((Wrong, "turns_left of .* is not less than that of"),
                            (Text, "moves of One are the text 'a'")):
            with self.assertRaisesRegex(dosolve.InvalidError, words):
                dosolve.plan(kind(3), "one", lambda state: [1] * len(state.moves("one")))


class Sweeps(unittest.TestCase):
    def test_a_file_is_mended_and_its_reports_are_read_only_where_they_are_asked_for(self):
        games = [dosolve.Goofspiel([1, 2], [1, 3], [prize, 1]) for prize in (1, 2, 3)]
        positions = [dosolve.Position(game, workers=1, weight=8192, stages="regret") for game in games]
        with tempfile.TemporaryDirectory() as folder:
            output = Path(folder, "out.jsonl")
            first = list(dosolve.sweep(positions, output=output))
            whole = output.read_bytes()
            output.write_bytes(whole[:-40])
            done = {json.loads(line)["position"] for line in whole.splitlines()[:2]}
            kept = [position for position in positions if position.text().strip() in done]
            with unittest.mock.patch("dosolve.sweeps.Report.read") as read:
                numbers = [each.numbers() for each in dosolve.sweep(kept, output=output)]
                self.assertEqual([each["outcome"] for each in numbers], [first[0].report.outcome] * 2)
                read.assert_not_called()
            self.assertEqual(output.read_bytes(), b"".join(whole.splitlines(True)[:2]))
            again = list(dosolve.sweep(positions, output=output))
            self.assertEqual([each.report for each in again], [each.report for each in first])
            self.assertEqual(sum(each.is_old for each in again), 2)
            other = Path(folder, "notes.txt")
            own = b'my own notes\n{"position": 5}\n{"position": "x", "seconds": 1, "report": 2}\nand more'
            other.write_bytes(own)
            next(dosolve.sweep(positions, output=other))
            self.assertTrue(other.read_bytes().startswith(own + b"\n"))

    def test_a_table_is_swept_in_payoffs_of_its_rules(self):
        table = Table.from_matrix([[Fraction(1, 3), 0], [0, Fraction(2, 3)]])
        position = dosolve.Position(table, weight=8192, workers=1, stages="regret")
        with tempfile.TemporaryDirectory() as folder:
            output = Path(folder, "out.jsonl")
            for is_old in (False, True):
                found = next(dosolve.sweep([position], output=output))
                self.assertEqual(found.is_old, is_old)
                for told in (found.numbers(), found.record(), json.loads(output.read_text())):
                    self.assertEqual(told["scale"], "3")
                    self.assertAlmostEqual(told["lower"], 2 / 9, delta=0.01)

    def test_lines_have_settings_and_csv_is_for_pandas(self):
        with tempfile.TemporaryDirectory() as folder:
            given = Path(folder, "given.jsonl")
            given.write_text('{"game":"oshi_zumo","size":1,"one":2,"two":2,"least":1,"place":0,'
                             '"weight":8192}\n{"game":7}\n')
            found = run("sweep", given, "--csv")
            head, first, second = found.stdout.splitlines()
            self.assertEqual(head, "number,game,settings,lower,upper,gap,outcome,seconds,notes,error")
            self.assertRegex(first, r"^0,oshi_zumo,1 2 2 1 0,-?0\.0")
            self.assertRegex(second, "^1,,,,,,failed,0.0,,.*kind of game")
            self.assertRegex(run("sweep", MIXED).stderr, "is a report, and a sweep takes positions")


if __name__ == "__main__":
    with contextlib.redirect_stdout(io.StringIO()):
        unittest.main()
