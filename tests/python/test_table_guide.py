"""docs/OWN_GAME.md: its commands and snippets are run as they stand. The program has to know
tables."""
import unittest

import guide
from support import TOP


class Guide(guide.Checks, unittest.TestCase):
    page, least = guide.OWN_GAME, 10

    def test_the_files_of_the_page(self):
        blocks = guide.parts(self.page)[1::2]
        player = next(block for block in blocks if block.startswith("def play"))
        self.assertIn(player, (TOP / "python" / "examples" / "one_round.py").read_text())


if __name__ == "__main__":
    unittest.main()
