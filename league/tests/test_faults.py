"""A league with a program that can't start, one that is killed, and one that is late; and with a server that dies.

It wants the environment's RIICHI_TABLE, the path of the program.
"""
from __future__ import annotations

import datetime
import json
import os
import pathlib
import signal
import subprocess
import sys
import time
import unittest
from typing import Any

HERE = pathlib.Path(__file__).parent
sys.path[:0] = [str(HERE)]
from leagues import PROGRAM, Folder, Said, faulty


@unittest.skipUnless(PROGRAM, "no program: set RIICHI_TABLE to its path")
class Faults(unittest.TestCase):
    league: Folder
    told: Said
    rows: dict[str, dict[str, Any]]
    text: str
    page: str

    @classmethod
    def setUpClass(cls) -> None:
        cls.league = Folder(cls, [
            {"name": "anna", "command": [sys.executable, "-c", "this is no python"]},
            {"name": "bert", "command": faulty("bert", "kill", "60", "2"), "think": 60000},
            {"name": "carl", "command": faulty("carl", "late", "40", "3"), "think": 2000},
            {"name": "dora", "command": faulty("dora"), "think": 60000},
        ])
        cls.told = cls.league.play(4, "--jobs", "1", "--limit", "60000")
        cls.rows = {row["name"]: row for row in cls.league.table()["rows"]}
        cls.text, cls.page = ((cls.league.out / name).read_text() for name in ("table.txt", "index.html"))

    def test_the_exit_code_and_the_console_tell_of_each(self) -> None:
        self.assertEqual(self.told.returncode, 1)
        said = self.told.stderr
        for number in range(1, 5):
            self.assertRegex(said, rf"(?m)^game {number}: anna: stood in \d+; restarts 3; ended with 1 at event 1 the first of 4 times, .*SyntaxError.*; never answered$")
            self.assertRegex(said, rf"(?m)^game {number}: carl: stood in [1-9]\d*; .*late [1-9]\d*$")
        self.assertRegex(said, r"(?m)^game 2: bert: restarts 1; ended by signal 9 at event 60$")
        self.assertNotIn("dora: ", said)
        self.assertRegex(said, r"(?m)^league.py: anna was stood in for in 4 of 4 games, \d+ times, and it never answered$")
        self.assertRegex(said, r"(?m)^league.py: carl was stood in for in 4 of 4 games, \d+ times$")
        self.assertIn("at event 60 ", said)
        self.assertIn(" was silent at event ", said)
        for line in said.splitlines():
            self.assertIn(f"Z {line}\n", self.league.log())

    def test_the_three_tables_tell_of_each(self) -> None:
        rows = self.rows
        self.assertGreater(rows["anna"]["stood_in"], 100)
        self.assertEqual([rows[name]["restarts"] for name in ("anna", "bert", "carl", "dora")], [3, 0.25, 0, 0])
        # (carl is late once a game, and more often only where the machine has other work)
        self.assertGreaterEqual(min(rows["carl"]["stood_in"], rows["carl"]["late"]), 1)
        self.assertEqual([rows[name][field] for name in ("bert", "dora") for field in ("stood_in", "late")], [0] * 4)
        self.assertEqual(rows["anna"]["late"], 0)
        lines = self.text.split("stood in", 1)[1].splitlines()
        text = {line.split()[0]: line.split()[1:] for line in lines[1:5]}
        self.assertEqual([text[name][-1] for name in ("anna", "bert", "carl", "dora")], ["0.00", "0.00", f"{rows['carl']['late']:.2f}", "0.00"])
        self.assertEqual([text[name][1] for name in ("anna", "bert", "carl", "dora")], ["3.00", "0.25", "0.00", "0.00"])
        for title in ("stood in", "restarts", "refusals", "run-out", "late"):
            self.assertIn(f'<th scope="col">{title}</th>', self.page)
        cells = "".join(f"<td>{cell}</td>" for cell in text["carl"])
        self.assertIn(f'<th scope="row">carl</th>{cells}</tr>', self.page)

    def test_it_then_stops_before_the_second_block_unless_it_is_to_go_on(self) -> None:
        told = self.league.play(8, "--jobs", "4", "--limit", "60000")
        self.assertEqual(told.returncode, 1)
        self.assertRegex(told.stderr, r"league.py: stopped, since anna never answered in 4 games \(see .*0001\.1\.log\): mend it")
        self.assertEqual(len(self.league.games()), 4)
        told = self.league.play(8, "--jobs", "4", "--limit", "60000", "--go-on")
        self.assertEqual((told.returncode, len(self.league.games())), (1, 8), told.stderr)
        self.assertIn("anna was stood in for in 8 of 8 games", told.stderr)


@unittest.skipUnless(PROGRAM, "no program: set RIICHI_TABLE to its path")
class RunOut(unittest.TestCase):
    def test_a_program_that_is_slower_than_the_limit_was_stood_in_for(self) -> None:
        names = ("anna", "bert", "carl", "dora")
        slow = {"anna": ["late", "40", "2.5"]}
        league = Folder(type(self), [{"name": name, "command": faulty(name, *slow.get(name, [])), "think": 60000} for name in names])
        told = league.play(4, "--jobs", "4", "--limit", "1000")
        self.assertEqual(told.returncode, 1)
        self.assertRegex(told.stderr, (
            r"(?m)^game 1: anna: the program's answer to event \d+ \(\w+\) came after [\d.]+ s, and the table waits for 1 s$"))
        self.assertRegex(told.stderr, r"(?m)^league.py: anna was stood in for in 4 of 4 games, \d+ times$")
        rows = {row["name"]: row for row in league.table()["rows"]}
        # (two windows at least are over in that time, that of the answer and the next one)
        self.assertGreaterEqual(min(rows["anna"][field] for field in ("stood_in", "run_out", "late")), 2)


@unittest.skipUnless(PROGRAM, "no program: set RIICHI_TABLE to its path")
class BeforeTheFirstGame(unittest.TestCase):
    def test_commands_that_are_not_there_are_named(self) -> None:
        names = ("anna", "bert", "carl", "dora")
        league = Folder(type(self), [{"name": name, "command": faulty(name)} for name in names[:2]] + [
            {"name": "carl", "command": ["no-such-command", "x"]}, {"name": "dora", "command": ["./bots.json"]},
        ])
        told = league.play(4)
        self.assertEqual(told.returncode, 1)
        self.assertIn("the command of carl, no-such-command, isn't there on this machine or can't be run\n", told.stderr)
        self.assertIn("the command of dora, ./bots.json, isn't there on this machine or can't be run\n", told.stderr)
        self.assertEqual(list(league.out.glob("games/*")), [])
        with self.subTest("mended, with names that look like words, it is played"):
            names = ("-x", "b c", "<d&", "\u4e1c")
            bots = [{"name": name, "command": faulty(f"it{place}"), "think": 60000} for place, name in enumerate(names)]
            (league.path / "bots.json").write_text(json.dumps(bots))
            told = league.play(4, "--jobs", "4", "--limit", "60000", "--red")
            self.assertEqual((told.returncode, told.stderr), (0, ""))
            self.assertEqual(sorted(row["name"] for row in league.table()["rows"]), sorted(names))

    def test_a_folder_that_cannot_be_made_is_named(self) -> None:
        league = Folder(type(self), [{"name": name, "command": faulty(name)} for name in "abcd"])
        league.out.touch()
        told = league.play(4)
        self.assertEqual((told.returncode, told.stderr), (1, f"league.py: {league.out}/games: Not a directory\n"))

    def test_a_program_that_cannot_be_run_is_told_at_last(self) -> None:
        league = Folder(type(self), [{"name": name, "command": faulty(name)} for name in "abc"] + [{"name": "d", "command": ["./d"]}])
        (league.path / "d").write_text("no head line\n")
        (league.path / "d").chmod(0o755)
        told = league.play(4, "--jobs", "1", "--tries", "1")
        self.assertEqual(told.returncode, 1)
        self.assertTrue(told.stderr.endswith("league.py: game 1 broke 1 times, the last time since d: ./d: Exec format error\n"), told.stderr)

    def test_faulty_lists_are_named(self) -> None:
        league = Folder(type(self), [])
        whole = {"name": "a", "command": ["true"]}
        for listed, problem in [
            ("[]", "no list of four programs"), ("{", "bots.json: "), ("[1,1,1,1]", "program 1 has no printable name"),
            (json.dumps([whole] * 4), "two programs have one name"),
            (json.dumps([{**whole, "style": "x"}] * 4), "program 1 has another style than line, batch or mortal"),
            (json.dumps([{**whole, "think": "x"}] * 4), "program 1 has a think that is no number"),
            (json.dumps([{**whole, "wat": 1}] * 4), "program 1 has the unknown field wat"),
        ]:
            (league.path / "bots.json").write_text(listed)
            told = league.play(4)
            self.assertEqual(told.returncode, 1)
            self.assertIn(problem, told.stderr)


@unittest.skipUnless(PROGRAM, "no program: set RIICHI_TABLE to its path")
class DyingServer(unittest.TestCase):
    def setUp(self) -> None:
        names = ("anna", "bert", "carl", "dora")
        self.league = Folder(type(self), [{"name": name, "command": faulty(name, "late", "30", "60"), "think": 60000} for name in names])

    def test_a_server_that_fails_is_said_and_tried_again(self) -> None:
        told = self.league.play(4, "--tries", "2", program="/bin/false")
        self.assertEqual(told.returncode, 1)
        self.assertIn("game 1: broke, try 2 of 2: the server ended with 1\n", told.stderr)
        self.assertIn(" broke 2 times, the last time since the server ended with 1", told.stderr)

    def test_a_server_that_dies_is_seen_within_a_second(self) -> None:
        server = self.league.path / "server.sh"
        server.write_text(f'#!/bin/sh\necho $$ > "{self.league.path}/pid"\nexec "{PROGRAM}" "$@"\n')
        server.chmod(0o755)
        with subprocess.Popen(
            self.league.words(4, "--jobs", "1", "--tries", "2", program=str(server)), stdout=subprocess.PIPE, stderr=subprocess.STDOUT, text=True
        ) as playing:
            assert playing.stdout
            killed = []
            for line in playing.stdout:
                if " joined on port " in line:
                    time.sleep(0.5)  # in the middle of the game
                    killed.append(time.time())
                    os.kill(int((self.league.path / "pid").read_text()), signal.SIGKILL)
        self.assertEqual(playing.returncode, 1)
        seen = [line.split()[0] for line in self.league.log().splitlines() if " broke, try " in line and "the server was ended by SIGKILL" in line]
        self.assertGreaterEqual(len(killed), 2)
        self.assertEqual(len(seen), len(killed))
        times = [datetime.datetime.fromisoformat(at.replace("Z", "+00:00")).timestamp() for at in seen]
        # (the fastest, since the machine may have other work)
        self.assertLess(min(at - kill for at, kill in zip(times, killed)), 1)


if __name__ == "__main__":
    unittest.main()
