"""A league of four programs, of which one crashes and one falls silent, is killed in the middle and goes on; and one of twelve.

It wants the environment's RIICHI_TABLE, the path of the program.
"""
from __future__ import annotations

import collections
import contextlib
import fcntl
import json
import pathlib
import re
import shutil
import signal
import subprocess
import sys
import tempfile
import time
import unittest
from typing import Callable

HERE = pathlib.Path(__file__).parent
sys.path[:0] = [str(HERE), str(HERE.parent)]
import walls
from check import check
from leagues import CALLER, EXAMPLES, PROGRAM, SEED, Folder, Said, faulty, processes_with
from programs import Wrong
from schedule import Schedule

BOT = EXAMPLES / "tests" / "bot.py"
GAMES = 8
NAMES = ["anna", "bert", "carl", "dora"]


def record_of(journal: pathlib.Path) -> str:
    """The record so far of a journal."""
    with open(journal, encoding="latin-1") as file:
        return subprocess.run([PROGRAM, "record"], stdin=file, capture_output=True, text=True).stdout


@unittest.skipUnless(PROGRAM, "no program: set RIICHI_TABLE to its path")
class Killed(unittest.TestCase):
    """A league that is killed in the middle, begun again, and checked."""
    league: Folder
    out: pathlib.Path
    first: str
    second: Said
    left_behind: dict[int, str]
    before: dict[str, bytes]
    begun: dict[str, str]

    @classmethod
    def setUpClass(cls) -> None:
        # carl's ninth start is always in the run after the kill: at most eight come before it, and a game at least is begun twice
        cls.league = Folder(cls, [
            {"name": "anna", "command": CALLER},
            {"name": "bert", "command": [sys.executable, str(BOT), "batch", "bert.read"], "style": "batch"},
            {"name": "carl", "command": faulty("carl", "crash", "60", "9")},
            {"name": "dora", "command": faulty("dora", "hang", "300"), "think": 200, "start": 1000},
        ])
        cls.out = cls.league.out
        cls.first, cls.second = cls.played()

    @classmethod
    def is_in_the_middle(cls) -> bool:
        """Whether a game was kept, and another has come some way and has long to go."""
        kept = {path.stem for path in cls.out.glob("games/*.json")}
        events = []
        for path in cls.out.glob("games/*/riichi.journal"):
            # (it goes as soon as its game is kept)
            with contextlib.suppress(FileNotFoundError):
                events.append(0 if path.parent.name in kept else record_of(path).count("\n{"))
        return bool(kept) and any(100 < count < 500 for count in events)

    @classmethod
    def played(cls) -> tuple[str, Said]:
        """Plays the league, killed in the middle and begun again; what both runs wrote."""
        with open(cls.league.path / "first", "w+", encoding="utf-8") as output:
            first = subprocess.Popen(cls.league.words(GAMES, "--jobs", "4"), stdout=output, stderr=subprocess.STDOUT)
            deadline = time.monotonic() + 600
            while not cls.is_in_the_middle() and time.monotonic() < deadline and first.poll() is None:
                time.sleep(0.05)
            first.send_signal(signal.SIGKILL)
            first.wait()
            output.seek(0)
            told = output.read()
        words = [str(cls.league.path), *(walls.seed_of(SEED, block) for block in range(GAMES // 4))]
        deadline = time.monotonic() + 100
        while processes_with(*words) and time.monotonic() < deadline:
            time.sleep(0.05)
        cls.left_behind = processes_with(*words)
        cls.before = {path.name: path.read_bytes() for path in cls.out.glob("games/*.json")}
        cls.begun = {path.parent.name: record_of(path) for path in cls.out.glob("games/*/riichi.journal")}
        return told, cls.league.play(GAMES, "--jobs", "4", "--publish", "--pages")

    def test_killed_and_begun_again_no_game_is_played_twice(self) -> None:
        self.assertEqual(self.second.returncode, 1, self.second.stderr)
        self.assertEqual(self.left_behind, {})
        self.assertGreaterEqual(len(self.before), 1)
        self.assertLess(len(self.before), GAMES)
        for name, data in self.before.items():
            self.assertEqual((self.out / "games" / name).read_bytes(), data)
        told = re.findall(r"^(game \d+): anna ", "".join(re.sub(r"\b(bert|carl|dora)\b", "anna", self.first + self.second.stdout)), re.M)
        self.assertEqual(sorted(told), sorted(set(told)))
        self.assertEqual(len(self.league.records()), GAMES)

    def test_games_that_were_begun_go_on_where_they_were(self) -> None:
        middle = {name: record.count("\n{") for name, record in self.begun.items() if f"{name}.json" not in self.before}
        self.assertGreater(max(middle.values()), 100)
        log, games = self.league.log(), self.out / "games"
        for name, events in middle.items():
            if events:
                self.assertIn(f"Z game {int(name)}: goes on after {events} events\n", log)
            self.assertTrue((games / f"{name}.record").read_text().startswith(self.begun[name]))
        self.assertEqual([path for path in games.iterdir() if path.is_dir()], [])
        # none of the programs that answer at once was stood in for, though each bridge came back after others
        self.assertEqual([game["anna"]["stood_in"] for game in (it["programs"] for it in self.league.games())], [0] * GAMES)

    def test_it_says_what_it_does(self) -> None:
        said = self.second.stdout
        self.assertTrue(said.startswith("8 games of 4 programs, in which all pairs meet equally often\n"))
        self.assertRegex(said, r"(?m)^game 8: (\w+, ){3}\w+ joined on port \d+ of ")
        self.assertRegex(said, r"(?m)^[4-7] of 8 games are played, about \d+ (s|min) left$")
        self.assertRegex(said, r"(?m)^8 of 8 games are played$")
        log = self.league.log()
        for number in range(1, GAMES + 1):
            for text in ("port", "anna joins", "bert has seat"):
                self.assertRegex(log, rf"(?m)^\d{{4}}-\d\d-\d\dT[\d:.]+Z game {number}: {text}")

    def test_it_ends_with_a_table(self) -> None:
        table = self.league.table()
        self.assertEqual((table["games"], table["blocks"]), (GAMES, 2))
        self.assertEqual(sorted(row["name"] for row in table["rows"]), NAMES)
        self.assertAlmostEqual(sum(row["place"] for row in table["rows"]), 10)
        for place in range(4):
            self.assertEqual(sum(row["places"][place] for row in table["rows"]), GAMES)
        self.assertIn((self.out / "table.txt").read_text(), self.second.stdout)
        page = (self.out / "index.html").read_text()
        for number in range(1, GAMES + 1):
            self.assertIn(f'href="games/{number:04}.', page)
        self.assertIn('id="record"', (self.out / "games" / "0008.html").read_text())

    def test_programs_that_crash_and_fall_silent_are_told_of(self) -> None:
        games = [game["programs"] for game in self.league.games()]
        self.assertEqual([game["anna"]["restarts"] for game in games], [0] * GAMES)
        self.assertEqual(sum(game["carl"]["restarts"] for game in games), 1)
        self.assertGreater(min(game["dora"]["silences"] for game in games), 0)
        self.assertEqual({game[name]["problem"] for game in games for name in game}, {None})

    def test_each_program_has_each_seat_on_each_wall(self) -> None:
        orders_of: dict[tuple[str, ...], list[list[str]]] = {}
        for record in self.league.records():
            lines = record.split("\n")
            names = json.loads(next(line for line in lines if line.startswith("{")))["names"]
            orders_of.setdefault(tuple(lines[1:201]), []).append(names)
        self.assertEqual(len(orders_of), 2)
        for orders in orders_of.values():
            for seats in zip(*orders):
                self.assertEqual(sorted(seats), NAMES)

    def test_anyone_can_check_it(self) -> None:
        told = self.league.check("--program", PROGRAM)
        self.assertEqual((told.returncode, told.stderr), (0, ""))
        self.assertEqual(told.stdout, "8 games are sound: seeds, walls, seats, results and table; their records are replayed\n")

    def test_what_was_changed_is_found(self) -> None:
        def change(old: str, new: str) -> Callable[[str], str]:
            return lambda text: text.replace(old, new, 1)

        def other_points(text: str) -> str:
            return re.sub('"points": -?', '"points": 1', text, count=1)

        faults = [
            ("games/0003.record", change('"type":"dahai"', '"type":"dahai" '), "game 3: the record isn't the one that was kept"),
            ("games/0002.json", other_points, "game 2: the result of "),
            ("table.json", other_points, "the table isn't what the games come to"),
            ("seeds.json", change("5e", "5f"), "the league's seed isn't the one that was promised"),
            ("league.json", change('"limit": 10000', '"limit": 9999'), "game 1: the record is of a game with other rules"),
            ("league.json", change('"anna"', '"otto"'), "game 1: the programs have other seats than they should"),
            ("league.json", change('"games": 8', '"games": 1000000000'), "999999992 of 1000000000 games have no result"),
            ("league.json", change('"games": 8', '"games": "8"'), "out has files that are out of form: "),
            ("games/0005.json", change('"place"', '"palace"'), "out has files that are out of form: "),
        ]
        for name, fault, problem in faults:
            with self.subTest(name), tempfile.TemporaryDirectory() as folder:
                copy = pathlib.Path(folder, "out")
                shutil.copytree(self.out, copy)
                text = (copy / name).read_text()
                self.assertNotEqual(fault(text), text)
                (copy / name).write_text(fault(text))
                with self.assertRaises(Wrong) as wrong:
                    check(copy, None)
                self.assertIn(problem, str(wrong.exception))

    def test_other_words_are_refused(self) -> None:
        for words, code, problem in [
            (["--limit", "9000"], 1, "holds a league with other limit"),
            (["--red"], 1, "holds a league with other red"),
            (["--games", "4"], 1, "holds a league that has played 8 games: it can get more games, and none fewer"),
            (["--games", "6"], 2, "a multiple of 4"),
            (["--limit", "0"], 2, "--limit wants 1 to 3600000 milliseconds"),
            (["--minutes", "nan"], 2, "--minutes wants a number above 0"),
            (["--uma=nan,0,0,0"], 2, "nan,0,0,0 isn't four numbers with commas between them"),
        ]:
            told = self.league.play(GAMES, *words)
            self.assertEqual(told.returncode, code)
            self.assertIn(problem, told.stderr)

    def test_a_folder_that_another_league_plays_in_is_left_alone(self) -> None:
        settings = (self.out / "league.json").read_bytes()
        with open(self.out / "lock", "w") as lock:
            fcntl.flock(lock, fcntl.LOCK_EX)
            told = self.league.play(2 * GAMES)
        self.assertEqual((told.returncode, told.stderr), (1, f"league.py: a league is being played in {self.out} already\n"))
        self.assertEqual((self.out / "league.json").read_bytes(), settings)


@unittest.skipUnless(PROGRAM, "no program: set RIICHI_TABLE to its path")
class Twelve(unittest.TestCase):
    """A league of twelve programs with red fives, abortive draws and an uma, which gets more games."""

    def test_it_grows_and_is_sound(self) -> None:
        names = [f"p{number:02}" for number in range(12)]
        league = Folder(type(self), [{"name": name, "command": faulty(name), "think": 60000} for name in names])
        words = ["--jobs", "4", "--limit", "60000", "--red", "--draws", "--uma=15,5,-5,-15"]
        told = league.play(8, *words)
        self.assertEqual((told.returncode, told.stderr), (0, ""))
        self.assertIn("8 games of 12 programs, as even as may be; all pairs meet equally often in each multiple of 132 games\n", told.stdout)
        first = league.records()
        told = league.play(12, *words, "--publish")
        self.assertEqual((told.returncode, told.stderr), (0, ""))
        self.assertEqual(league.records()[:8], first)
        table = league.table()
        played = collections.Counter(names[place] for game in range(12) for place in Schedule(12).seats(game))
        self.assertEqual((table["games"], {row["name"]: row["games"] for row in table["rows"]}), (12, played))
        self.assertLessEqual(abs(sum(row["score"] for row in table["rows"])), 12)
        told = league.check("--program", PROGRAM)
        self.assertEqual((told.returncode, told.stderr), (0, ""))
        self.assertIn("12 games are sound", told.stdout)


if __name__ == "__main__":
    unittest.main()
