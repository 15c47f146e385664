"""The example players: the calling one on lines of games as a seat is told them, with the answers that the table would take,
and what each says where no game can be played."""
from __future__ import annotations

import collections
import json
import pathlib
import subprocess
import sys
import unittest

HERE = pathlib.Path(__file__).resolve().parent
sys.path[:0] = [str(HERE), str(HERE.parent)]
import helpers
from caller import Caller
from player import Event
from table import END_GAME, START_GAME, Table

CALLER = helpers.EXAMPLES / "caller.py"
PYTHON = [[sys.executable, str(helpers.EXAMPLES / name)] for name in ("player.py", "caller.py")]
PLAYERS = [*PYTHON, ["bash", str(helpers.EXAMPLES / "player.sh")]]


def told(path: pathlib.Path) -> list[Event]:
    """The events of a seat's stream that want an answer."""
    events = [json.loads(line) for line in path.read_text(encoding="utf-8").splitlines()]
    return [event for event in events if event["type"] not in ("hello", "replay", "error")]


class CallerTest(unittest.TestCase):
    def test_it_answers_what_is_listed_and_calls_reaches_and_wins(self) -> None:
        given: collections.Counter[str] = collections.Counter()
        for path in sorted((HERE / "told").glob("*.txt")):
            caller = Caller()
            for event in told(path):
                answer = caller.answer(event)
                with self.subTest(path.name, event=event):
                    self.assertIn(answer, event["possible_actions"])
                    possible = {it["type"] for it in event["possible_actions"]}
                    if "hora" in possible:
                        self.assertEqual(answer["type"], "hora")
                    elif "reach" in possible:
                        self.assertEqual(answer["type"], "reach")
                given[answer["type"]] += 1
        self.assertGreater(min(given[it] for it in ("dahai", "pon", "reach", "hora", "none")), 0, given)

    def test_without_the_list_it_discards_the_drawn_tile_and_passes(self) -> None:
        caller = Caller()
        self.assertEqual(caller.answer({"type": "start_game", "id": 2, "names": ["a", "b", "c", "d"]}), {"type": "none"})
        drawn = {"type": "dahai", "actor": 2, "pai": "5p", "tsumogiri": True}
        self.assertEqual(caller.answer({"type": "tsumo", "actor": 2, "pai": "5p"}), drawn)
        self.assertEqual(caller.answer({"type": "tsumo", "actor": 3, "pai": "?"}), {"type": "none"})

    def test_over_standard_input(self) -> None:
        events = told(HERE / "told" / "reach_and_win.txt")
        lines = "".join(json.dumps(event) + "\n" for event in events)
        ended = subprocess.run([sys.executable, CALLER, "--stdio"], input=lines, capture_output=True, text=True, timeout=60)
        caller = Caller()
        self.assertEqual([json.loads(line) for line in ended.stdout.splitlines()], [caller.answer(event) for event in events])
        self.assertEqual((ended.returncode, ended.stderr), (0, ""))


def run(*command: str) -> tuple[int, str, str]:
    ended = subprocess.run(command, capture_output=True, text=True, timeout=60)
    return ended.returncode, ended.stdout, ended.stderr


class Sentences(unittest.TestCase):
    def test_a_port_where_nobody_listens(self) -> None:
        port = str(helpers.free_port())
        for player in PLAYERS:
            with self.subTest(player):
                code, out, said = run(*player, "--host", "localhost", "anna", "", port)
                self.assertEqual((code, out, said.count("\n")), (1, "", 1))
                self.assertTrue(said.startswith(f"anna: nobody listens on localhost port {port}"), said)

    def test_no_seat(self) -> None:
        for player in PLAYERS:
            with self.subTest(player):
                table = Table(lambda it: it.send({"type": "error", "sit": 3, "message": "WrongKey"}))
                told = run(*player, "--room", "room2", "anna", "k", str(table.port))
                self.assertEqual(told, (1, "", "anna: no seat: WrongKey\n"))
                self.assertEqual(table.joins, [{"type": "join", "name": "anna", "key": "k", "room": "room2"}])

    def test_a_connection_that_ends(self) -> None:
        for player in PLAYERS:
            with self.subTest(player):
                table = Table(lambda it: it.ask(START_GAME))
                self.assertEqual(run(*player, "anna", "", str(table.port)), (1, "", "anna: the connection ended\n"))

    def test_a_server_that_speaks_otherwise(self) -> None:
        for player in PYTHON:
            with self.subTest(player):
                table = Table(lambda it: it.link.sendall(b"HTTP/1.1 400 Bad Request\r\n"))
                code, _, said = run(*player, "anna", "", str(table.port))
                self.assertEqual((code, said.count("\n")), (1, 1), said)
                self.assertTrue(said.startswith("anna: this is no table of mjai: "), said)

    def test_a_game_to_its_end(self) -> None:
        for player in PYTHON:
            table = Table(lambda it: it.ask(START_GAME, END_GAME))
            self.assertEqual(run(*player, "anna", "", str(table.port)), (0, "anna: scores 30000 30000 30000 30000\n", ""))

    def test_words_that_are_wrong(self) -> None:
        for player in PLAYERS:
            for words in ("", "--host", "--none x anna"):
                with self.subTest(player, words=words):
                    code, out, said = run(*player, *words.split())
                    self.assertEqual((code, out, said.splitlines()[0][:7]), (2, "", "usage: "))

    def test_a_line_of_standard_input_that_is_no_event(self) -> None:
        ended = subprocess.run([*PYTHON[1], "--stdio"], input='{"type":"end_kyoku"}\n{\n', capture_output=True, text=True, timeout=60)
        self.assertEqual((ended.returncode, ended.stdout), (1, '{"type":"none"}\n'))
        self.assertTrue(ended.stderr.startswith("caller.py: line 2 is no event: "), ended.stderr)


if __name__ == "__main__":
    unittest.main()
