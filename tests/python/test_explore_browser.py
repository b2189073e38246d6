"""The pages in a headless browser, where one is installed: what was clicked, and what was to be read then."""
import random
import re
import tempfile
import unittest
from fractions import Fraction
from pathlib import Path
from unittest import mock

import dosolve
import explore_browser
from dosolve import SIDES
from support import TOP
from test_explore import FIVE, MATCH_THE_PRIZE, drawn_table, player_report

PAYING = ("goofspiel_prizes", "table_rewards", "table_raid")
"""Reports on games whose turns pay."""

KINDS = ("goofspiel_mixed", "goofspiel_drawn_mixed", "oshi_zumo_mixed", "oshi_zumo_wide", "tron_corners",
         "pursuit_grid", "table_soccer", "table_blotto", *PAYING)
WIDE, PHONE = 1300, 390
TURNS = 5
"""Random turns on each page, at each width."""


def number(bound):
    """A bound as the page writes it."""
    return f"{bound / 10**6:.6f}".rstrip("0").rstrip(".").replace("-", "−")


def paid_text(payoff):
    """What a turn pays, as the page writes it."""
    return ("+" if payoff > 0 else "") + number(payoff * 10**6)


def percent(share):
    if share in (0, 1):
        return f"{100 * share:.0f}%"
    return "<0.1%" if share < 0.0005 else ">99.9%" if share > 0.9995 else f"{int(1000 * share + 0.5) / 10:.1f}%"


@unittest.skipUnless(explore_browser.PROGRAM, "no browser is installed")
class Pages(unittest.TestCase):
    @classmethod
    def setUpClass(cls):
        folder = tempfile.TemporaryDirectory()
        cls.addClassCleanup(folder.cleanup)
        cls.folder = Path(folder.name)
        cls.browser = explore_browser.Browser()
        cls.addClassCleanup(cls.browser.close)

    def setUp(self):
        self.browser.errors.clear()
        self.browser.wide(WIDE)

    def tearDown(self):
        self.assertEqual(self.browser.errors, [])

    def show(self, report, fragment="", **more):
        """Opens the page of a report."""
        file = self.folder / "page.html"
        report.explore(file, **more)
        return self.browser.open(file, fragment)

    def state(self, report):
        return report.game.state(int(self.browser.run("here().key")))

    def trail(self):
        return self.browser.texts("#trail button")

    def read(self, report, width):
        """That the page says of its state what the report does."""
        state, browser = self.state(report), self.browser
        self.assertLessEqual(browser.run("document.documentElement.scrollWidth"), width)
        if width == WIDE:
            cut = "[...document.querySelectorAll('.scroll')].filter(each => each.scrollWidth > each.clientWidth).length"
            self.assertEqual(browser.run(cut), 0)
        text = browser.text("main")
        if state.is_end:
            word = "The end pays One" if report.game.has_rewards else "One gets"
            self.assertIn(f"{word} {number(state.payoff * 10**6)},", text)
            return
        for at, side in enumerate(SIDES):
            row = report.sheet(side).row(state)
            names = browser.texts(f'[data-side="{at}"] .name')
            self.assertEqual(names, list(state.names(side)))
            shares = [share.split("\n")[0] for share in browser.texts(f'[data-side="{at}"] .share')]
            wanted = [percent(weight / report.weight) for weight in row.weights] if row else ["first"] + [""] * 40
            self.assertEqual(shares, wanted[:len(names)])
            words = ("gets One at least ", "holds One to at most ")[at]
            still = " from here on" if report.game.has_rewards else ""
            self.assertIn(f"{side.capitalize()}’s strategy {words}{number(row.bound)}{still}" if row else
                          f"{side.capitalize()}’s strategy has no row here", text)
        self.read_matrix(report, state)

    def read_matrix(self, report, state):
        labels = self.browser.run("[...document.querySelectorAll('[data-cell]')].map(each => each.ariaLabel)")
        cells = [(one, two, bounds) for one, line in enumerate(report.stage(state)) for two, bounds in enumerate(line)]
        self.assertEqual(len(labels), len(cells))
        for label, (one, two, bounds) in zip(labels, cells):
            head = f"One {state.names('one')[one]}, Two {state.names('two')[two]}: "
            self.assertTrue(label.startswith(head), label)
            told = label[len(head):].replace("−", "-")
            found = re.findall(r"(from|to|at least|at most) (-?\d+(?:\.\d+)?)", told)
            for word, value in found:
                self.assertAlmostEqual(float(value), float(bounds[word in ("to", "at most")]), places=5)
            after = [state for _, state in state.outcomes(one, two)]
            known = [all(state.is_end or report.sheet(side).row(state) for state in after) for side in SIDES]
            closed = bounds[1] - bounds[0] <= Fraction(1, 2 * 10**6)
            told_of = {word for word, _ in found}
            for words, is_known in zip((("from", "at least"), ("to", "at most")), known):
                self.assertEqual(not told_of.isdisjoint(words), is_known or closed, label)
            self.assertEqual(", the game ends" in told, all(state.is_end for state in after))
            self.read_pay(state, one, two, told)

    def read_pay(self, state, one, two, told):
        """That a cell says what the turn itself pays, in games whose turns pay."""
        shown = self.browser.run(f"document.querySelectorAll('[data-cell]')[{one * len(state.moves('two')) + two}]"
                                 ".innerText").replace("−", "-")
        if not state.game.has_rewards:
            self.assertNotIn("pays", told + shown)
            return
        paid = [paid_text(each).replace("−", "-") for each in sorted(set(state.rewards(one, two)))]
        words = " or ".join(paid) if len(paid) < 3 else f"{paid[0]} to {paid[-1]}"
        self.assertIn(f", of which this turn pays {words}", told)
        self.assertEqual(shown.split("\n")[-1], f"pays {words}")

    def turn(self, report, source):
        """Plays a random turn by clicks, and looks where it leads."""
        state, before = self.state(report), self.browser.run("location.hash")
        moves = [source.randrange(len(state.moves(side))) for side in SIDES]
        outcomes, draw = state.outcomes(*moves), 0
        for side, move in enumerate(moves):
            if len(state.moves(SIDES[side])) > 1 or len(state.moves(SIDES[1 - side])) == 1 == side:
                self.browser.click(f'[data-side="{side}"][data-move="{move}"]')
        if len(outcomes) > 1:
            draw = source.randrange(len(outcomes))
            self.browser.click(f'[data-draw="{draw}"]')
        after = outcomes[draw][1]
        if self.browser.run("location.hash") != before:
            self.assertEqual(self.state(report).key, after.key)
            return
        message = self.browser.text("#message")
        self.assertIn("is not on this page", message)
        for side, word in zip(SIDES, ("at least", "at most")):
            row = report.sheet(side).row(after)
            if row:
                self.assertIn(f"{word} {number(row.bound)}", message)
            else:
                self.assertNotIn(word, message)

    def wander(self, report, **more):
        source = random.Random(3)
        for width in (WIDE, PHONE):
            self.browser.wide(width)
            self.show(report, **more)
            for _ in range(TURNS):
                self.read(report, width)
                if self.state(report).is_end:
                    self.browser.click("#home")
                else:
                    self.turn(report, source)

    def test_each_kind_of_game(self):
        for name in KINDS:
            with self.subTest(name):
                self.wander(dosolve.Report.load(TOP / "examples" / f"{name}.report"))

    def test_what_turns_pay_is_summed_on_the_way(self):
        source, browser = random.Random(4), self.browser
        for name in PAYING:
            report = dosolve.Report.load(TOP / "examples" / f"{name}.report")
            for width in (WIDE, PHONE):
                browser.wide(width)
                self.show(report)
                self.assertFalse(browser.run("document.getElementById('paid')"))
                self.pay_to_the_end(report, source)
                self.assertLessEqual(browser.run("document.documentElement.scrollWidth"), width)
        self.assertEqual(browser.run("[pay(0), pay(-1), pay(3)]"), ["0", "−1", "+3"])

    def test_each_draw_pays_its_own(self):
        browser = self.browser
        self.show(dosolve.Report.load(TOP / "examples" / "table_rewards.report"))
        for draw, paid in enumerate(("+1", "−1")):
            browser.click("[data-cell]", 3)
            self.assertTrue(browser.texts("[data-draw]")[draw].endswith(f"50.0% pays {paid}"))
            browser.click("[data-draw]", draw)
            self.assertEqual(browser.text("#paid"), paid)
            browser.click("#home")

    def pay_to_the_end(self, report, source):
        """Plays at random by cells and draws, and looks at the sums after each turn."""
        state, browser, paid = report.game.root(), self.browser, 0
        while not state.is_end:
            one, two = (source.randrange(len(state.moves(side))) for side in SIDES)
            outcomes, draw = state.outcomes(one, two), 0
            browser.click("[data-cell]", one * len(state.moves("two")) + two)
            reward = state.rewards(one, two)
            if len(outcomes) > 1:
                draw = source.randrange(len(outcomes))
                told = browser.texts("[data-draw]")[draw]
                self.assertEqual(f" pays {paid_text(reward[draw])}" in told, reward[draw] != 0, told)
                browser.click(f'[data-draw="{draw}"]')
            paid += reward[draw]
            state = outcomes[draw][1]
            self.assertEqual(self.state(report).key, state.key)
            self.assertEqual(browser.text("#paid"), paid_text(paid))
            words = f"(pays {paid_text(reward[draw])})"
            self.assertEqual(words in self.trail()[-1], reward[draw] != 0)
            self.read_sum(report, state, paid, reward[draw])

    def read_sum(self, report, state, paid, reward):
        """That the whole game's payoff, as far as it is known, is what was paid with what is still to come, and that
        a screen reader is told of the turn."""
        bounds = [report.sheet(side).bound(state) + 10**6 * paid for side in SIDES]
        texts = [number(bound) for bound in bounds]
        self.assertEqual(self.browser.text("#sum"), texts[0] if bounds[0] == bounds[1] else " to ".join(texts))
        live = self.browser.run("document.getElementById('live').textContent")
        self.assertEqual(f", pays One {paid_text(reward)}." in live, reward != 0, live)
        self.assertIn(f"and the turns {paid_text(paid)}." if state.is_end else " from here on. ", live)

    def test_a_scaled_table_pays_by_its_rules(self):
        table = dosolve.Table.repeated([["1/3", -1], [0, "1/2"]], 2, ["a", "b"], ["c", "d"])
        self.show(dosolve.Report.of(*(dosolve.plan(table, side, lambda state: [1, 1]) for side in SIDES)))
        self.assertEqual([text.split("\n")[-1] for text in self.browser.texts("[data-cell]")],
                         ["pays +0.333333", "pays −1", "pays 0", "pays +0.5"])
        self.browser.click("[data-cell]", 0)
        self.assertEqual(self.trail()[-1], "a – c (pays +0.333333)")

    def test_a_page_that_has_a_part_of_the_states(self):
        report = dosolve.Report.load(FIVE)
        self.wander(report, most_states=3)
        prizes = dosolve.Goofspiel(*[range(1, 6)] * 3, pay="prizes")
        for most in (4, 1000):
            self.wander(dosolve.solve(dosolve.Position(prizes, workers=1)), most_states=most)
        self.show(report, most_states=3)
        self.assertIn("This page has 3 states with moves, not all of the game: 3 of the 395 that both strategies "
                      "reach together, the likeliest. A dashed cell", self.browser.text("footer"))

    def test_clicks(self):
        browser = self.browser
        self.show(dosolve.Report.load(TOP / "examples" / "goofspiel_mixed.report"))
        browser.click('[data-side="0"][data-move="1"]')
        self.assertEqual(browser.run("document.querySelector('[aria-pressed=true]').ariaLabel"), "One plays 3: 50.0%")
        browser.click('[data-side="1"][data-move="0"]')
        self.assertEqual((self.trail(), browser.run("location.hash")), (["Start", "3 – 2"], "#1.0"))
        self.assertEqual(browser.text(".score"), "+1")
        self.assertEqual(browser.texts(".card.gone"), ["3", "2"])
        # Each side has one card left, so that it is chosen already: one click plays it.
        browser.click('[data-side="0"][data-move="0"]')
        self.assertEqual(self.trail(), ["Start", "3 – 2", "1 – 3"])
        self.assertIn("The game is over", browser.text("main"))
        browser.click("#trail button", 1)
        self.assertEqual(self.trail(), ["Start", "3 – 2"])
        browser.run("history.back()")
        browser.run("new Promise(done => setTimeout(done, 200))")
        self.assertIn("The game is over", browser.text("main"))
        browser.click("#back")
        browser.click("#home")
        self.assertEqual(self.trail(), ["Start"])
        browser.click(".card.held", 0)
        browser.click(".card.held", 3)
        self.assertEqual(self.trail(), ["Start", "1 – 3"])
        browser.click("#home")
        browser.click("[data-cell]", 3)
        self.assertEqual(self.trail(), ["Start", "3 – 3"])

    def test_keys(self):
        browser, focus = self.browser, "document.activeElement.ariaLabel"
        self.show(dosolve.Report.load(FIVE))
        for key, wanted in (("ArrowDown", "One plays 1: 4.1%"), ("ArrowDown", "One plays 2: 91.8%"),
                            ("ArrowRight", "Two plays 2: 91.8%"), ("ArrowUp", "Two plays 1: 4.1%"),
                            ("ArrowLeft", "One plays 1: 4.1%"), ("ArrowLeft", "One plays 1: 4.1%")):
            browser.key(key)
            self.assertEqual(browser.run(focus), wanted)
        browser.key("Enter")
        browser.key("ArrowRight")
        browser.key("Enter")
        self.assertEqual(self.trail(), ["Start", "1 – 1"])
        # The focus stays at the moves, so that the next turn can be chosen.
        self.assertTrue(browser.run(focus).startswith("Two plays 2"))
        browser.key("r")
        self.assertEqual(len(self.trail()), 3)
        browser.key("g")
        self.assertEqual(len(self.trail()), 6)
        self.assertIn("The game is over", browser.text("main"))
        browser.key("b")
        self.assertEqual(len(self.trail()), 5)
        browser.key("Home")
        self.assertEqual(self.trail(), ["Start"])
        browser.run("document.querySelector('[data-cell]').focus()")
        for key in ("ArrowDown", "ArrowRight", "ArrowRight", "ArrowUp"):
            browser.key(key)
        self.assertTrue(browser.run(focus).startswith("One 1, Two 3: from 1.56"))
        browser.key("Enter")
        self.assertEqual(self.trail(), ["Start", "1 – 3"])

    def test_the_keyboard_alone_leads_through_a_game_with_draws(self):
        browser, focus = self.browser, "document.activeElement"
        report = dosolve.Report.load(TOP / "examples" / "goofspiel_drawn_mixed.report")
        self.show(report)
        seen = []
        while "0" not in seen[-1:]:
            browser.key("Tab")
            seen.append(browser.run(f"{focus}.dataset.side ?? {focus}.id"))
            self.assertLess(len(seen), 9, seen)
        # Back and Start lead nowhere yet.
        self.assertEqual(seen[:2], ["random", "game"])
        for key in ("ArrowDown", "Enter", "ArrowRight", "Enter"):
            browser.key(key)
        self.assertEqual(browser.run(f"{focus}.dataset.draw"), "0")
        browser.key("ArrowRight")
        self.assertEqual(browser.run(f"{focus}.dataset.draw"), "1")
        browser.key("ArrowDown")
        self.assertEqual(browser.run(f"{focus}.dataset.draw"), "1")
        browser.key("Enter")
        self.assertEqual(len(self.trail()), 2)
        self.assertTrue(self.trail()[1].endswith(", prize 3"))
        # The focus is at a move again, so that the game goes on without the mouse.
        self.assertEqual(browser.run(f"{focus}.dataset.side"), "0")
        for key in ("Enter", "ArrowRight", "Enter", "Enter", "Enter"):
            browser.key(key)
        self.assertGreater(len(self.trail()), 2)
        browser.key("g")
        self.assertEqual(browser.run(f"{focus}.id"), "where")
        self.assertIn("The game is over", browser.text("main"))
        browser.key("b")
        self.assertNotIn("The game is over", browser.text("main"))

    def test_a_matrix_that_is_cut_off_fades_out(self):
        browser = self.browser
        report = dosolve.Report.load(TOP / "examples" / "table_soccer.report")
        more = "document.querySelector('.scroll').classList.contains('more')"
        for width, wanted in ((WIDE, False), (PHONE, True)):
            browser.wide(width)
            self.show(report)
            self.assertEqual(browser.run(more), wanted)
        browser.run("document.querySelector('.scroll').scrollLeft = 9999")
        browser.run("new Promise(done => setTimeout(done, 100))")
        self.assertFalse(browser.run(more))

    def test_games_at_random_are_those_of_both_strategies(self):
        report = dosolve.Report.load(FIVE)
        self.show(report)
        begun = set()
        for _ in range(12):
            self.browser.key("g")
            turns = [tuple(map(int, text.split(" – "))) for text in self.trail()[1:]]
            self.assertEqual(len(turns), 5)
            begun.add(turns[0])
            state = report.game.root()
            for one, two in turns:
                for side, card in zip(SIDES, (one, two)):
                    self.assertGreater(report.sheet(side).probabilities(state)[card], 0)
                state = state.play(one=one, two=two)
            self.assertEqual(self.state(report).key, state.key)
            self.browser.key("Home")
        # Both play 2 at first in 84 of 100 games.
        self.assertIn((2, 2), begun)

    def test_addresses(self):
        browser, report = self.browser, dosolve.Report.load(FIVE)
        self.show(report, "#0.0,0.0,0.1")
        self.assertEqual(self.trail(), ["Start", "1 – 1", "2 – 2", "3 – 4"])
        key = report.game.state_after([(1, 2), (2, 1)]).key
        file = self.folder / "page.html"
        browser.open(file, f"#key={key}")
        self.assertEqual(self.state(report).key, key)
        self.assertEqual(len(self.trail()), 3)
        for fragment, told in (("#1.7", "goes further"), ("#key=99", "no state with the key 99"),
                               ("#nonsense", "names no turns"), ("#..,", "names no turns")):
            browser.open(file, fragment)
            self.assertIn(told, browser.text("#message"))
            self.assertEqual(self.trail(), ["Start"])

    def test_draws(self):
        browser = self.browser
        self.show(dosolve.Report.load(TOP / "examples" / "goofspiel_drawn_mixed.report"))
        browser.click("[data-cell]", 1)
        self.assertEqual(browser.texts("[data-draw]"), ["prize 1 50.0%", "prize 3 50.0%"])
        self.assertEqual(browser.run("document.activeElement.dataset.draw"), "0")
        # On a phone too, where the draws are above the matrix, the bar does not cover them.
        browser.wide(PHONE)
        browser.open(self.folder / "page.html")
        browser.run("document.querySelector('.matrix').scrollIntoView()")
        browser.click("[data-cell]", 1)
        covered = "document.activeElement.getBoundingClientRect().top < " \
                  "document.querySelector('nav').getBoundingClientRect().bottom"
        self.assertFalse(browser.run(covered))
        self.assertEqual(browser.run("document.activeElement.dataset.draw"), "0")
        browser.click("[data-draw]", 1)
        self.assertEqual(self.trail(), ["Start", "1 – 4, prize 3"])
        self.assertEqual(browser.text(".card.prize"), "3")

    def test_a_turn_without_a_choice_has_its_draws_at_once(self):
        names = ("toss", "play", "won", "lost")
        table = dosolve.Table([[[[[1, 180180], [2, 180180]]]], [[2, 3], [3, 2]], 1, -1], names)
        self.show(dosolve.Report.of(*(dosolve.Sheet(table, side, 8192) for side in SIDES)))
        self.assertEqual(self.browser.texts("[data-draw]"), ["play 50.0%", "won 50.0%"])
        self.browser.click("[data-draw]", 0)
        self.assertEqual(self.trail(), ["Start", "0 – 0, play"])

    def test_a_game_that_is_over_from_the_start(self):
        game = dosolve.Pursuit(3, [(0, 1), (1, 2)], 1, 1, 2)
        self.show(dosolve.Report.of(*(dosolve.Sheet(game, side, 8192) for side in SIDES)))
        self.assertIn("The game is over\nOne gets 1, Two the negative. One wins.",
                      self.browser.text("main").replace("\n\n", "\n"))
        self.assertIn("The game is over from the start.", self.browser.text("footer"))
        self.browser.key("g")
        self.assertIn("The game is over: Back or Start", self.browser.text("#message"))

    def test_where_the_player_loses(self):
        browser, solved = self.browser, dosolve.Report.load(FIVE)
        against = dosolve.Report.load(MATCH_THE_PRIZE)
        self.show(solved, against=against)
        self.assertIn("One: the player’s plan guarantees −5, the solver’s −0.000003. It gives away 4.999997.",
                      browser.text("#given"))
        adds = ("[...document.querySelectorAll('.losses td:nth-child({})')].map(each => "
                "Number(each.title.replace('−', '-')))")
        found = browser.run(adds.format(7))
        self.assertEqual(found, sorted(found, reverse=True))
        self.assertAlmostEqual(sum(found), 4.999997 + 4.999996, places=5)
        self.assertEqual(set(browser.texts(".losses td:nth-child(5)")), {"100%"})
        for sort, column in ((1, 6), (2, 8)):
            browser.click(f'[data-sort="{sort}"]')
            found = browser.run(adds.format(column))
            self.assertEqual((found, len(found)), (sorted(found, reverse=True), 20))
            self.assertEqual(browser.run("document.activeElement.dataset.sort"), str(sort))
        browser.click("#all")
        self.assertGreater(len(browser.texts(".losses tbody tr")), 90)
        link = browser.texts(".losses a")[9]
        browser.click(".losses a", 9)
        self.assertEqual(browser.run("document.querySelector('figure').ariaLabel"), link)
        self.assertIn("Striped: the player’s plan, which guarantees", browser.text("main"))

    def test_the_line_in_which_the_player_loses(self):
        solved = dosolve.Report.load(FIVE)
        against = player_report(solved, "one", lambda state: [1] + [0] * (len(state.moves("one")) - 1))
        self.show(solved, against=against)
        self.assertIn("hurts the player most", self.browser.text('[data-side="1"][data-move="1"]'))
        self.browser.key("p")
        self.assertTrue(self.browser.run("document.getElementById('player').checked"))
        for _ in range(3):
            self.browser.key("g")
            self.assertEqual(self.state(solved).payoff, dosolve.respond(against.one).value)
            self.browser.key("Home")

    def test_without_a_player_there_is_nothing_of_it(self):
        self.show(dosolve.Report.load(FIVE))
        self.assertFalse(self.browser.run("document.getElementById('line').offsetParent !== null"))
        self.assertNotIn("player", self.browser.text("body"))
        self.show(dosolve.Report.load(FIVE), against=dosolve.Report.load(FIVE))
        self.assertIn("Both reports have the same plans.", self.browser.text("main"))

    def test_what_turns_pay(self):
        paid = "dosolve.explore.{}.turn_payoff"
        with mock.patch(paid.format("states"), lambda state, one, two, draw: 5 * one - two):
            self.show(drawn_table())
        browser = self.browser
        labels = browser.run("[...document.querySelectorAll('[data-cell]')].map(each => each.ariaLabel)")
        self.assertEqual(labels[1], "One 0, Two 1: from 0 to 0, of which this turn pays −1, the game ends")
        self.assertEqual(labels[3], "One 1, Two 1: no row for what follows, of which this turn pays +4")
        self.assertEqual(labels[0], "One 0, Two 0: no row for what follows, of which this turn pays 0, 2 draws")
        browser.click("[data-cell]", 3)
        self.assertEqual(self.trail(), ["Start", "1 – 1 (pays +4)"])
        self.assertEqual(browser.text("#paid"), "+4")
        browser.click("[data-cell]", 1)
        self.assertEqual(browser.text("#paid"), "+3")

    def test_a_report_that_check_refuses(self):
        five = dosolve.Report.load(FIVE)
        row = five.one.row(five.game.root())
        rows = [dosolve.Row(each.key, each.bound + 10**6 * (each is row), each.weights) for each in five.one.rows]
        one = dosolve.Sheet(five.game, "one", five.weight, rows)
        self.show(dosolve.Report.of(one, five.two))
        self.assertIn("But the weights of this row prove no more than", self.browser.text("main"))
        self.show(five)
        self.assertNotIn("But the weights", self.browser.text("main"))
        self.assertEqual(self.browser.text("#notes"), "")
        short = dosolve.Report.of(dosolve.Sheet(five.game, "one", five.weight), five.two)
        wrong = dosolve.Report.read(short.text().replace(f"lower {short.lower}", "lower 0"))
        self.show(wrong)
        self.assertIn("check refuses the report", self.browser.text("#notes"))

    def test_boards_in_the_names_of_a_table(self):
        self.show(dosolve.Report.load(TOP / "examples" / "table_soccer.report"))
        self.assertEqual(self.browser.run("document.querySelectorAll('figure rect').length"), 20)
        marks = "[...document.querySelectorAll('figure text')].map(each => each.textContent)"
        self.assertEqual(self.browser.run(marks), ["(1)", "2"])
        for name in ("payoff 1/2", "0.5/1.5", "a/b", "ab./cd"):
            self.assertIsNone(self.browser.run(f"boardOf({name!r})"), name)
        self.assertEqual(self.browser.run("boardOf('x to move: x.o/.../..o')"),
                         [["x", ".", "o"], [".", ".", "."], [".", ".", "o"]])

    def test_what_a_screen_reader_finds(self):
        self.show(dosolve.Report.load(FIVE), against=player_report(dosolve.Report.load(FIVE)))
        spoken = self.browser.spoken()
        for role, name in spoken:
            if role in ("button", "link", "checkbox", "heading", "columnheader", "rowheader", "figure"):
                self.assertTrue(name.strip(), (role, name))
        for wanted in (("heading", "Goofspiel: both strategies"), ("navigation", "Turns"),
                       ("heading", "Where each pair of moves leads"), ("list", "Turns so far"),
                       ("button", "Random game"), ("rowheader", "One’s strategy gets One at least")):
            self.assertIn(wanted, [(role, name.strip()) for role, name in spoken])
        self.assertGreater(sum(role == "cell" for role, _ in spoken), 24)
        self.browser.click("[data-cell]", 2)
        self.assertIn("Turn 2: One 2 3 4 5; Two 1 2 4 5; prize 2, then 3 4 5; score −1. One at least 1.56",
                      self.browser.run("document.getElementById('live').textContent"))
        # The heading of the state and its picture are one after the other.
        self.assertEqual(self.browser.run("document.querySelector('figure').ariaLabel"),
                         "One 2 3 4 5; Two 1 2 4 5; prize 2, then 3 4 5; score −1")

    def test_a_list_of_many_moves_scrolls_to_what_is_played(self):
        game = dosolve.OshiZumo(1, 40, 30)
        row = dosolve.Row(game.root().key, -10**6, [0] * 24 + [4096] + [0] * 13 + [4096, 0])
        report = dosolve.Report.of(dosolve.Sheet(game, "one", 8192, [row]), dosolve.Sheet(game, "two", 8192))
        self.show(report, most_states=1)
        browser, list_of = self.browser, "document.querySelector('.many')"
        seen = "(([list, move]) => [move.top - list.top, list.bottom - move.bottom])([{list}, {move}]" \
               ".map(each => each.getBoundingClientRect()))"
        self.assertEqual(browser.run("document.querySelectorAll('.moves').length"), 2)
        self.assertEqual(browser.run("document.querySelectorAll('.many').length"), 1)
        self.assertEqual(browser.texts(".count"), ["Plays 2 of 40 moves."])
        self.assertLess(browser.run(f"{list_of}.clientHeight"), 500)
        above, below = browser.run(seen.format(list=list_of, move="document.querySelector('[data-move=\"24\"]')"))
        self.assertTrue(-1 <= above <= 5 and below > 0, (above, below))
        browser.run(f"{list_of}.scrollTop = 100")
        browser.click('[data-side="0"][data-move="3"]')
        self.assertEqual(browser.run(f"{list_of}.scrollTop"), 100)
        self.assertEqual(browser.run("document.activeElement.dataset.move"), "3")

    def test_a_large_page_opens(self):
        game = dosolve.Goofspiel(*[range(1, 7)] * 3)
        sheets = [dosolve.plan(game, side, lambda state, side=side: [1, 1, 1, 0, 0, 0][:len(state.moves(side))],
                               ask_again=0) for side in SIDES]
        self.show(dosolve.Report.of(*sheets))
        self.assertGreater(self.browser.run("D.inner"), 5000)
        # Some half a second on a machine with nothing else to do; more only for what grows with the square of the states.
        took = self.browser.run("performance.timing.domContentLoadedEventEnd - performance.timing.responseEnd")
        self.assertLess(took, 15000)
        self.browser.key("g")
        self.assertIn("The game is over", self.browser.text("main"))


if __name__ == "__main__":
    unittest.main()
