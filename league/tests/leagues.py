"""Leagues for the tests: the words that play and check one, and what came of it."""
from __future__ import annotations

import json
import os
import pathlib
import subprocess
import sys
import tempfile
import unittest
from typing import Any

HERE = pathlib.Path(__file__).parent
LEAGUE = HERE.parent / "league.py"
EXAMPLES = HERE.parent.parent / "examples"
CALLER = [sys.executable, str(EXAMPLES / "caller.py"), "--stdio"]
PROGRAM = os.environ.get("RIICHI_TABLE", "")
SEED = "5e" * 32

Said = subprocess.CompletedProcess[str]


def faulty(name: str, *words: str) -> list[str]:
    """The command of a program that fails as the words say."""
    return [sys.executable, str(HERE / "faulty.py"), f"{name}.starts", *words]


class Folder:
    """A folder with a list of programs and the league that they play."""

    def __init__(self, case: type[unittest.TestCase], programs: list[dict[str, Any]]) -> None:
        folder = tempfile.TemporaryDirectory(prefix="league-")
        case.addClassCleanup(folder.cleanup)
        self.path = pathlib.Path(folder.name)
        self.out = self.path / "out"
        (self.path / "bots.json").write_text(json.dumps(programs))

    def words(self, games: int, *words: str, python: str = sys.executable, program: str = PROGRAM) -> list[str]:
        command = [python, str(LEAGUE), "--program", program, "--games", str(games), "--seed", SEED]
        return [*command, "--bots", str(self.path / "bots.json"), "--out", str(self.out), *words]

    def play(self, games: int, *words: str, python: str = sys.executable, program: str = PROGRAM) -> Said:
        command = self.words(games, *words, python=python, program=program)
        return subprocess.run(command, capture_output=True, text=True, timeout=900)

    def check(self, *words: str) -> Said:
        command = [sys.executable, str(LEAGUE), "--check", str(self.out), *words]
        return subprocess.run(command, capture_output=True, text=True, timeout=600)

    def games(self) -> list[dict[str, Any]]:
        """The results of the games, by their numbers."""
        return [json.loads(path.read_text()) for path in sorted(self.out.glob("games/*.json"))]

    def records(self) -> list[str]:
        return [path.read_text() for path in sorted(self.out.glob("games/*.record"))]

    def table(self) -> dict[str, Any]:
        table: dict[str, Any] = json.loads((self.out / "table.json").read_text())
        return table

    def log(self) -> str:
        return (self.out / "league.log").read_text()


def processes_with(*words: str) -> dict[int, str]:
    """The command lines of running processes that have one of these words in them, by their ids."""
    found = {}
    for path in pathlib.Path("/proc").glob("[0-9]*/cmdline"):
        try:
            line = path.read_bytes().replace(b"\0", b" ").decode("utf-8", "replace")
        except OSError:
            continue
        if any(word in line for word in words):
            found[int(path.parent.name)] = line
    return found
