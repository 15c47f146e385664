"""The server by itself: connections that say nothing, a stop of the process, and what waiting costs.

It wants the environment's RIICHI_TABLE, the path of the program.
"""
from __future__ import annotations

import os
import pathlib
import signal
import socket
import subprocess
import sys
import threading
import time
import unittest

sys.path.insert(0, str(pathlib.Path(__file__).resolve().parent))
import helpers

PLAYER = helpers.EXAMPLES / "player.py"
SEED = "07" * 32


def drip(link: socket.socket) -> None:
    """Sends a byte each second while the connection stands."""
    try:
        while True:
            link.sendall(b" ")
            time.sleep(1)
    except OSError:
        pass


def processor_seconds(process: subprocess.Popen[bytes]) -> float:
    fields = pathlib.Path(f"/proc/{process.pid}/stat").read_text().rsplit(")", 1)[1].split()
    return (int(fields[11]) + int(fields[12])) / os.sysconf("SC_CLK_TCK")


@helpers.wants_program
class Serve(unittest.TestCase):
    def setUp(self) -> None:
        self.port = helpers.free_port()
        self.server = subprocess.Popen(
            [helpers.PROGRAM, "serve", "--seed", SEED, "--limit", "2000", "--port", str(self.port)], stdout=subprocess.PIPE)
        self.links: list[socket.socket] = []

    def tearDown(self) -> None:
        self.server.kill()
        self.server.communicate()
        for link in self.links:
            link.close()

    def connect(self) -> socket.socket:
        self.links.append(helpers.connect(self.port))
        return self.links[-1]

    def players(self) -> list[subprocess.Popen[str]]:
        return [
            subprocess.Popen([sys.executable, PLAYER, name, "k", str(self.port)], stdout=subprocess.PIPE, text=True)
            for name in "abcd"
        ]

    def check_game(self, players: list[subprocess.Popen[str]]) -> None:
        """Each player was there to the end, and the record is sound."""
        for player in players:
            self.assertIn(": scores ", player.communicate(timeout=120)[0])
        record = self.server.communicate(timeout=120)[0]
        self.assertEqual(self.server.returncode, 0)
        self.assertTrue(helpers.is_sound(record))

    def test_connections_that_never_join_are_ended(self) -> None:
        for k in range(8):
            link = self.connect()
            if k % 2:
                threading.Thread(target=drip, args=(link,), daemon=True).start()
        self.check_game(self.players())

    def test_a_server_that_is_stopped_and_goes_on_loses_nobody(self) -> None:
        self.connect()
        players = self.players()
        for _ in range(3):
            time.sleep(0.2)
            self.server.send_signal(signal.SIGSTOP)
            time.sleep(0.2)
            self.server.send_signal(signal.SIGCONT)
        self.check_game(players)

    def test_waiting_costs_nothing(self) -> None:
        for name in "abc":
            self.connect().sendall(b'{"type":"join","name":"%s"}\n' % name.encode())
        time.sleep(1)
        before = processor_seconds(self.server)
        time.sleep(10)
        self.assertLess(processor_seconds(self.server) - before, 0.5)


if __name__ == "__main__":
    unittest.main()
