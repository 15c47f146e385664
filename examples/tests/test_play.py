"""One game by play.sh: its record is sound, and a page is made of it."""
from __future__ import annotations

import os
import pathlib
import subprocess
import sys
import unittest

sys.path.insert(0, str(pathlib.Path(__file__).resolve().parent))
import helpers

PLAY = helpers.EXAMPLES / "play.sh"


class Play(unittest.TestCase):
    def setUp(self) -> None:
        self.folder = helpers.folder_of(self)

    def play(self, *words: str) -> subprocess.CompletedProcess[str]:
        """Plays a game where there is no screen."""
        env = {name: value for name, value in os.environ.items() if name not in ("DISPLAY", "WAYLAND_DISPLAY")}
        return subprocess.run(["bash", PLAY, *words], cwd=self.folder, env=env, capture_output=True, text=True, timeout=200)

    @helpers.wants_program
    def test_a_game_is_played_checked_and_shown(self) -> None:
        ended = self.play(helpers.PROGRAM)
        self.assertEqual((ended.returncode, ended.stderr), (0, ""), ended)
        record = (self.folder / "record.txt").read_text(encoding="utf-8")
        page = (self.folder / "record.html").read_text(encoding="utf-8")
        deeds = sum(line.startswith("{") for line in record.splitlines())
        self.assertIn(f"deeds {deeds}\n", ended.stdout)
        self.assertIn("dora: left\n", ended.stdout)
        for name in ("anna", "bert", "carl", "dora"):
            self.assertIn(f"{name}: ", ended.stdout)
        self.assertIn(record.splitlines()[-1], page)
        self.assertIn(f"open {self.folder.resolve()}/record.html in a browser.\n", ended.stdout)

    def test_a_program_that_is_not_there_is_named(self) -> None:
        ended = self.play("./none")
        self.assertEqual((ended.returncode, ended.stderr), (1, "play.sh: ./none is no program that can be run\n"))
        self.assertEqual(os.listdir(self.folder), [])

    def test_a_word_that_it_does_not_know(self) -> None:
        ended = self.play("--help")
        self.assertEqual((ended.returncode, ended.stderr), (2, "usage: play.sh [PROGRAM [SEED [PORT]]]\n"))


if __name__ == "__main__":
    unittest.main()
