"""A hosted game under kills, a full and a read-only file system, as test-host.py plays it with few stops.

It wants the environment's RIICHI_TABLE, the path of the program.
"""
from __future__ import annotations

import os
import pathlib
import subprocess
import sys
import unittest

TOOL = pathlib.Path(__file__).parent.parent / "test-host.py"
PROGRAM = os.environ.get("RIICHI_TABLE", "")


@unittest.skipUnless(PROGRAM, "no program: set RIICHI_TABLE to its path")
class Hosted(unittest.TestCase):
    def test_every_players_lines_go_on_after_a_stop(self) -> None:
        told = subprocess.run([sys.executable, TOOL, PROGRAM, "20", "2"], capture_output=True, text=True)
        self.assertEqual(told.returncode, 0, told.stderr)


if __name__ == "__main__":
    unittest.main()
