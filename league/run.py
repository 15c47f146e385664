"""The run of a league: its games are played here or on a cluster, checked and kept, and the table is made after each block."""
from __future__ import annotations

import argparse
import asyncio

import pathlib
import signal
import subprocess
import sys
from typing import Protocol

import check
import programs
import results
import tables
import walls
from console import Console, Level, Say
from folder import League, games_of
from play import Broken, Game, Outcome, Task, forget
from programs import Program, Wrong

PAGE = pathlib.Path(__file__).resolve().parent.parent / "viewer" / "page.py"


class Engine(Protocol):
    """Where games are played."""

    async def open(self) -> None:
        """Makes it ready."""

    async def close(self) -> None:
        """Lets it go."""

    async def look_up(self, listed: list[Program], folder: pathlib.Path, server: str) -> None:
        """Finds what the games need, wherever they may be played."""

    async def play(self, task: Task, say: Say) -> Outcome:
        """Plays a game. Raises Broken where it is to be played again."""


class Here:
    """This machine, for so many games at a time, whose files are in a folder."""

    def __init__(self, jobs: int, games: pathlib.Path) -> None:
        self.turns = asyncio.Semaphore(jobs)
        self.games = games

    async def open(self) -> None:
        pass

    async def close(self) -> None:
        pass

    async def look_up(self, listed: list[Program], folder: pathlib.Path, server: str) -> None:
        programs.look_up(listed, folder)

    async def play(self, task: Task, say: Say) -> Outcome:
        async with self.turns:
            return await Game(task, self.games, say).play()


class Run:
    """One run of a league by the words of its command."""

    def __init__(self, league: League, seed: str, words: argparse.Namespace, engine: Engine, console: Console) -> None:
        self.league = league
        self.seed = seed
        self.words = words
        self.engine = engine
        self.console = console
        self.folder = words.bots.resolve().parent

    async def play(self) -> None:
        """Plays the games that aren't played yet."""
        task = asyncio.current_task()
        assert task
        for number in (signal.SIGTERM, signal.SIGINT):
            asyncio.get_running_loop().add_signal_handler(number, task.cancel)
        try:
            await self.engine.open()
            await self.engine.look_up(self.league.settings["programs"], self.folder, self.words.program)
            await self.play_blocks()
        finally:
            await self.engine.close()

    async def play_blocks(self) -> None:
        for number in self.league.games:
            forget(self.league.file(number, ""))
        blocks = self.words.games // 4
        first = self.first_blocks(blocks)
        for part in (*(range(block, block + 1) for block in range(first)), range(first, blocks)):
            numbers = [number for block in part for number in games_of(block) if number not in self.league.games]
            if numbers:
                self.stop_for_the_silent()
                await self.play_together(numbers)

    def first_blocks(self, blocks: int) -> int:
        """How many blocks it takes until each program has played in one, or all."""
        seen: set[int] = set()
        for block in range(blocks):
            if len(seen) == len(self.league.names):
                return block
            seen.update(self.league.schedule.block(block))
        return blocks

    def stop_for_the_silent(self) -> None:
        """Stops a league in which a program never answered in all the games of its blocks."""
        if self.words.go_on:
            return
        told = []
        for place, name in enumerate(self.league.names, 1):
            rows = {number: row for number, row in self.league.rows_of(name).items() if self.league.is_whole(number // 4)}
            if rows and all(row["never_answered"] for row in rows.values()):
                told.append(f"{name} never answered in {len(rows)} games (see {self.league.file(min(rows), f'.{place}.log')})")
        if told:
            raise Wrong(f"stopped, since {', and '.join(told)}: mend it and take another folder, or play on with --go-on")

    async def play_together(self, numbers: list[int]) -> None:
        """Plays games, as many at a time as there is room for."""
        tasks = [asyncio.create_task(self.play_one(number)) for number in numbers]
        try:
            await asyncio.gather(*tasks)
        finally:
            for task in tasks:
                task.cancel()
            await asyncio.gather(*tasks, return_exceptions=True)

    async def play_one(self, number: int) -> None:
        """Plays one game, again where it breaks, and keeps it."""
        def say(text: str, level: Level = "told", at: str | None = None) -> None:
            self.console.say(f"game {number + 1}: {text}", level, at)

        breaks: list[str] = []
        while len(breaks) < self.words.tries:
            try:
                outcome = await self.engine.play(self.task_of(number, len(breaks)), say)
                await self.keep(number, outcome, breaks)
                break
            except Broken as why:
                breaks.append(str(why))
                say(f"broke, try {len(breaks)} of {self.words.tries}: {why}", "fault")
        else:
            raise Wrong(f"game {number + 1} broke {len(breaks)} times, the last time since {breaks[-1]}")
        rows = self.league.programs_in(number)
        say(", ".join(f"{name} {row['points']:,}" for name, row in rows.items()))
        for name, row in rows.items():
            if told := tables.in_words(name, row):
                say(told, "fault")
        self.console.one_more()
        if self.league.is_whole(number // 4):
            self.league.write_table()

    def task_of(self, number: int, breaks: int) -> Task:
        settings = self.league.settings
        seats = self.league.schedule.seats(number)
        return {
            "number": number, "seed": walls.seed_of(self.seed, number // 4), "server": self.words.program,
            "limit": settings["limit"], "draws": settings["draws"], "red": settings["red"], "folder": str(self.folder),
            "programs": [settings["programs"][place] for place in seats], "places": [place + 1 for place in seats],
            "pause": 0.1 * 4**breaks, "minutes": self.words.minutes,
        }

    async def keep(self, number: int, outcome: Outcome, breaks: list[str]) -> None:
        """Checks a game and keeps it. Raises Broken where its record isn't sound."""
        league, record = self.league, outcome["record"]
        seed = walls.seed_of(self.seed, number // 4)
        if problem := await asyncio.to_thread(check.problem_of_record, league, number, seed, record, self.words.program):
            forget(league.file(number, ""))
            raise Broken(problem)
        for name, text in outcome["logs"].items():
            (league.folder / "games" / pathlib.PurePath(name).name).write_text(text, encoding="utf-8")
        rows = {name: {**row, **results.reported(outcome["reports"][name])} for name, row in results.counted(record).items()}
        league.keep(number, record, {"record": check.hash_of(record), "broken": breaks, "programs": rows})
        forget(league.file(number, ""))
        if self.words.pages:
            make_page(league, number)


def make_page(league: League, number: int) -> None:
    """Makes the page of a game that was kept, with the viewer in it."""
    command = [sys.executable, str(PAGE), str(league.file(number, ".record")), str(league.file(number, ".html"))]
    told = subprocess.run(command, capture_output=True, text=True)
    if told.returncode:
        raise Wrong(f"{PAGE} made no page of game {number + 1}: {told.stderr.strip()}")


def stood_in_for(league: League) -> list[str]:
    """Of each program that was stood in for: in how many games, and how often."""
    told = []
    for name in league.names:
        rows = league.rows_of(name).values()
        own = [row for row in rows if results.was_stood_in_for(row)]
        if own:
            never = ", and it never answered" if all(row["never_answered"] for row in rows) else ""
            told.append(f"{name} was stood in for in {len(own)} of {len(rows)} games, {sum(row['stood_in'] for row in own)} times{never}")
    return told
