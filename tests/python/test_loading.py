"""Players loaded from files, with their neighbours."""
import sys
import tempfile
import unittest
from pathlib import Path

import dosolve
from players_support import GAME, POSITION


class Files(unittest.TestCase):
    def write(self, **files):
        folder = tempfile.TemporaryDirectory()
        self.addCleanup(folder.cleanup)
        for name, text in files.items():
            Path(folder.name, f"{name}.py").write_text(text)
        return Path(folder.name)

    def test_a_player_can_import_its_neighbour_and_have_dataclasses(self):
        folder = self.write(
            neighbour_of_player="def weigh(card):\n    return card\n",
            typed_player="from __future__ import annotations\nfrom dataclasses import dataclass\n"
                         "from neighbour_of_player import weigh\n\n\n@dataclass\nclass Kept:\n"
                         "    card: int\n\n\ndef play(side, state):\n"
                         "    return [weigh(Kept(card).card) for card in state.moves(side)]\n")
        player = dosolve.load_player(folder / "typed_player.py")
        self.assertEqual(player("one", GAME.root()), [1, 2, 3])
        sys.path.remove(str(folder))

    def test_players_of_one_name_are_apart_and_import_their_own_neighbours(self):
        players, paths = [], list(sys.path)
        for number in (1, 2):
            folder = self.write(
                player="from neighbour import CARD\nfrom nearby.inner import CARD as SAME\n\n\n"
                       "def play(side, state):\n    assert CARD == SAME\n    return {CARD: 1}\n",
                neighbour=f"CARD = {number}\n")
            (folder / "nearby").mkdir()
            (folder / "nearby" / "__init__.py").write_text("")
            (folder / "nearby" / "inner.py").write_text(f"CARD = {number}\n")
            players.append((folder, dosolve.load_player(folder / "player.py")))
        self.assertEqual([player("one", None) for _, player in players], [{1: 1}, {2: 1}])
        again = dosolve.load_player(players[0][0] / "player.py")
        self.assertEqual(again("one", None), {1: 1})
        self.assertEqual(len({player.__module__ for _, player in players}), 2)
        sys.path[:] = paths

    def test_faults_of_files_are_said(self):
        folder = self.write(broken="def play(:\n", failing="1 / 0\n", empty="",
                            narrow="def play(state): return [1]\n", ending="raise SystemExit(3)",
                            past="def play(side, state, history): return [1]\n")
        for name, words in (("broken", "SyntaxError"), ("failing", "ZeroDivisionError"),
                            ("empty", "defines no function"), ("no_such", "is no file"),
                            ("ending", "ending.py raised SystemExit: 3"),
                            ("narrow", "is a function play")):
            with self.assertRaisesRegex(dosolve.InvalidError, words):
                dosolve.load_player(folder / f"{name}.py")
        (folder / "upper.PY").write_text("def play(side, state): return [1]\n")
        self.assertEqual(dosolve.load_player(folder / "upper.PY")("one", None), [1])
        player = dosolve.load_player(folder / "past.py")
        self.assertIsInstance(player, dosolve.HistoryPlayer)
        with self.assertRaisesRegex(dosolve.InvalidError, "player of histories has no plan"):
            dosolve.measure(POSITION, player, "one")


if __name__ == "__main__":
    unittest.main()
