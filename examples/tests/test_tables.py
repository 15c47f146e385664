"""Many tables over one host: players that name their rooms, games side by side, and the records of them all.

It wants the environment's RIICHI_TABLE, the path of the program.
"""
from __future__ import annotations

import pathlib
import subprocess
import sys
import unittest

sys.path.insert(0, str(pathlib.Path(__file__).resolve().parent))
import helpers

BRIDGE = helpers.EXAMPLES / "bridge.py"
SEED = "07" * 32


def records(text: bytes) -> list[bytes]:
    """The records by table, each behind its line."""
    tables: list[bytes] = []
    for line in text.splitlines(keepends=True):
        if line.startswith(b"table "):
            assert line == b"table %d\n" % len(tables)
            tables.append(b"")
        else:
            tables[-1] += line
    return tables


@helpers.wants_program
class Tables(unittest.TestCase):
    def serve(self, rooms: int) -> None:
        self.port = helpers.free_port()
        self.server = subprocess.Popen(
            [helpers.PROGRAM, "tables", "--seed", SEED, "--rooms", str(rooms), "--limit", "5000", "--port", str(self.port)],
            stdout=subprocess.PIPE)
        self.addCleanup(self.server.kill)
        helpers.connect(self.port).close()

    def players(self, rooms: int) -> list[subprocess.Popen[str]]:
        """Four players in each room, under the same names, one of each sort."""
        port = str(self.port)
        words: list[list[object]] = [
            [sys.executable, helpers.EXAMPLES / "player.py", "a", "k", port],
            [sys.executable, helpers.EXAMPLES / "caller.py", "b", "k", port],
            ["bash", helpers.EXAMPLES / "player.sh", "c", "k", port],
            [sys.executable, BRIDGE, "--name", "d", "--port", port, "--log", "/dev/null"],
        ]
        program = ["--", sys.executable, str(helpers.EXAMPLES / "caller.py"), "--stdio"]
        players = []
        for room in [f"room{number}" for number in range(1, rooms + 1)]:
            for script, path, *more in words:
                command = [script, path, "--room", room, "--host", "localhost", *more, *(program if path == BRIDGE else [])]
                players.append(subprocess.Popen([str(it) for it in command], stdout=subprocess.PIPE, text=True))
        return players

    def check_games(self, rooms: int, players: list[subprocess.Popen[str]]) -> None:
        """Each player was there to the end, and each table's record is sound and of walls of its own."""
        for player in players:
            self.assertIn("scores", player.communicate(timeout=150)[0])
            self.assertEqual(player.returncode, 0)
        written = records(self.server.communicate(timeout=60)[0])
        self.assertEqual(self.server.returncode, 0)
        self.assertEqual(len(written), rooms)
        self.assertEqual(len(set(written)), rooms)
        for record in written:
            self.assertTrue(helpers.is_sound(record))

    def test_two_rooms_and_none_of_another_name(self) -> None:
        self.serve(2)
        with helpers.connect(self.port) as link, link.makefile("rb") as lines:
            link.sendall(b'{"type":"join","name":"e","room":"x"}\n')
            self.assertEqual(lines.readline(), b'{"type":"error","sit":8,"message":"NoRoom"}\n')
            self.assertEqual(lines.readline(), b"")
        for script, name in ((sys.executable, "player.py"), ("bash", "player.sh")):
            command = [script, str(helpers.EXAMPLES / name)]
            told = subprocess.run([*command, "--room", "x", "e", "", str(self.port)], capture_output=True, text=True, timeout=60)
            self.assertEqual((told.returncode, told.stdout, told.stderr), (1, "", "e: no seat: NoRoom\n"))
        self.check_games(2, self.players(2))

    def test_no_ninth_room(self) -> None:
        told = subprocess.run([helpers.PROGRAM, "tables", "--seed", SEED, "--rooms", "9"], stderr=subprocess.PIPE)
        self.assertEqual(told.returncode, 2)
        self.assertTrue(told.stderr.startswith(b"usage: riichi_table "))


if __name__ == "__main__":
    unittest.main()
