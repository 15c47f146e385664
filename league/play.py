#!/usr/bin/env python3
"""Plays one game of a league: a function of its seed and its programs.

usage: play.py < TASK > OUTCOME

The server is `host`. Its journal, the keys of the seats and the reports of the bridges stand in a folder of the game: where the server
or the league was ended in the middle of a game, the next try goes on there, with new bridges that come back to their seats.

As a command it reads a task as JSON, as a league gives it to the workers of a cluster, and writes what came of it as JSON: the
record, the reports and the logs of the programs, and all that was said, or else why the game is broken. It ends with the
process that started it.
"""
from __future__ import annotations

import asyncio
import contextlib
import functools
import json
import os
import pathlib
import secrets
import shutil
import signal
import socket
import subprocess
import sys
import tempfile
import time
from typing import Any, TypedDict

from console import Level, Say, now
from programs import Program

EXAMPLES = pathlib.Path(__file__).resolve().parent.parent / "examples"
sys.path.insert(0, str(EXAMPLES))
from processes import end_with_parent, free_port

BRIDGE = EXAMPLES / "bridge.py"
JOURNAL = "riichi.journal"
LOST = (2, 12, 13)  # what a server ends with that can't go on with a journal
LONGEST = 1 << 24  # bytes of a line that a bridge says
SAYS = ("listening on port ", "seat ")  # how its lines begin that tell of no fault
PATIENCE = 60  # seconds for the server to open its port, and for the bridges to end once it has ended

Report = dict[str, Any]


class Broken(Exception):
    """A game was not played to its end, and is to be tried again: why, in words, and whether it goes on where it ended."""

    def __init__(self, why: str, goes_on: bool = False) -> None:
        super().__init__(why)
        self.goes_on = goes_on


class Task(TypedDict):
    """A game that is to be played."""
    number: int  # of the game, from 0
    seed: str
    server: str  # the path of riichi_table
    limit: int
    draws: bool
    red: bool
    folder: str  # where the commands of the programs are run
    programs: list[Program]  # by their seats
    places: list[int]  # of these in the league's list, from 1
    pause: float  # seconds between two joins
    minutes: float  # until the game is broken


class Outcome(TypedDict):
    """What came of a game."""
    record: str
    reports: dict[str, Report]  # of the bridges, by the names of the programs
    logs: dict[str, str]  # of the programs, by their files' names, where these are not in the league's folder


def how_it_ended(code: int) -> str:
    return f"was ended by {signal.Signals(-code).name}" if code < 0 else f"ended with {code}"


def forget(folder: pathlib.Path) -> None:
    """Takes away what a game would go on by."""
    shutil.rmtree(folder, ignore_errors=True)


class Game:
    """One game: the server and the bridges of its four programs. Its files are in a folder; what it goes on by is in one there."""

    def __init__(self, task: Task, folder: pathlib.Path, say: Say) -> None:
        self.task = task
        self.folder = folder
        self.own = self.file("").resolve()
        self.names = [program["name"] for program in task["programs"]]
        self.keys: dict[str, str] = {}
        self.events: list[str] = []  # that were told before this try
        self.bridges: dict[int, asyncio.subprocess.Process] = {}  # by their seats
        self.say = say
        self.port = free_port()
        self.running: list[asyncio.subprocess.Process] = []
        self.listeners: dict[int, asyncio.Task[None]] = {}  # by the seats of the bridges
        self.last_said: dict[str, str] = {}  # by each bridge on standard error
        self.all_joined = False

    def file(self, ending: str) -> pathlib.Path:
        return self.folder / f"{self.task['number'] + 1:04}{ending}"

    async def run(self, *command: str | os.PathLike[str], **how: Any) -> asyncio.subprocess.Process:
        end = functools.partial(end_with_parent, os.getpid())
        process = await asyncio.create_subprocess_exec(*command, preexec_fn=end, stderr=subprocess.PIPE, limit=LONGEST, **how)
        self.running.append(process)
        return process

    async def play(self) -> Outcome:
        """Plays the game to its end; its record and the bridges' reports. Raises Broken where it can't be."""
        minutes = self.task["minutes"]
        try:
            return await asyncio.wait_for(self.play_to_the_end(), minutes * 60)
        except asyncio.TimeoutError:
            why = Broken(f"it took more than {minutes:g} minutes")
        except OSError as error:
            why = Broken(str(error))
        except Broken as broken:
            why = broken
        if not why.goes_on:
            forget(self.own)
        raise why

    async def begin(self) -> str:
        """Makes the folder of a new game, or finds out how far the one is that goes on; the record so far."""
        secret = self.own / "keys.secret"
        record = await self.record() if (self.own / JOURNAL).exists() else ""
        if not record:
            forget(self.own)
            self.own.mkdir(mode=0o700)
            secret.write_text(json.dumps({name: secrets.token_hex(16) for name in self.names}))
        self.keys = json.loads(secret.read_text(encoding="utf-8"))
        self.events = [line for line in record.split("\n") if line.startswith("{")]
        if record:
            self.say(f"goes on after {len(self.events)} events")
        return record

    async def record(self) -> str:
        """The record so far; none where the journal was only just made."""
        with open(self.own / JOURNAL, "rb") as journal:
            process = await self.run(self.task["server"], "record", stdin=journal, stdout=subprocess.PIPE)
        told, _ = await process.communicate()
        return told.decode("utf-8", "replace") if process.returncode == 0 else ""

    def is_over(self) -> bool:
        return bool(self.events) and json.loads(self.events[-1])["type"] == "end_game"

    async def play_to_the_end(self) -> Outcome:
        part = self.file(".part")
        tasks: list[asyncio.Task[Any]] = []
        try:
            known = await self.begin()
            if self.is_over():
                return {"record": known, "reports": self.reports(), "logs": {}}
            # a game that goes on waits for nobody longer than its limit, so all bridges are there before the server is
            await asyncio.gather(*map(self.start_bridge, range(4)))
            with open(part, "wb") as file:
                server = await self.run(*self.server_command(), stdin=subprocess.DEVNULL, stdout=file, cwd=self.own)
            end, seats = asyncio.create_task(self.end_of(server)), asyncio.create_task(self.seat_all())
            tasks += end, seats
            await asyncio.wait(tasks, return_when=asyncio.FIRST_COMPLETED)
            if end.done():
                end.result()
                if not self.all_joined:
                    raise Broken("the server ended before all programs had joined")
            await asyncio.wait_for(seats, PATIENCE if end.done() else None)
            await end
        finally:
            for task in (*tasks, *self.listeners.values()):
                task.cancel()
            await asyncio.gather(*tasks, *self.listeners.values(), return_exceptions=True)
            await self.kill_all()
            record = part.read_bytes() if part.exists() else b""
            part.unlink(missing_ok=True)
        return {"record": record.decode("utf-8", "replace"), "reports": self.reports(), "logs": {}}

    async def kill_all(self) -> None:
        for process in self.running:
            if process.returncode is None:
                # (its own kill() may take the exit code that asyncio waits for)
                with contextlib.suppress(ProcessLookupError):
                    os.kill(process.pid, signal.SIGKILL)
                await process.wait()
            if process.stdin:
                process.stdin.close()

    def server_command(self) -> list[str]:
        task = self.task
        command = [task["server"], "host", "--seed", task["seed"], "--port", str(self.port), "--limit", str(task["limit"])]
        return command + ["--draws"] * task["draws"] + ["--red"] * task["red"]

    async def end_of(self, server: asyncio.subprocess.Process) -> None:
        """Waits until the server ends, and raises Broken where it doesn't end well."""
        _, said = await server.communicate()
        if server.returncode:
            lines = [line for line in said.decode("utf-8", "replace").splitlines() if not line.startswith(SAYS)]
            words = [f"the server {how_it_ended(server.returncode)}", "; ".join(lines)]
            raise Broken(": ".join(filter(None, words)), server.returncode not in LOST)

    async def seat_all(self) -> None:
        """Seats the programs one after the other, lets them go on together, and waits until their bridges have ended."""
        await self.wait_for_port()
        self.say(f"port {self.port} on {socket.gethostname()} is open for {', '.join(self.names)}", "logged")
        for seat in self.order():
            await self.join(seat)
        self.all_joined = True
        self.say(f"{', '.join(self.names)} joined on port {self.port} of {socket.gethostname()}")
        if not self.events:
            await asyncio.gather(*(self.hear(seat, until="is ready") for seat in range(4)))
        for seat in range(4):
            self.let(seat)
        await asyncio.gather(*map(self.hear, range(4)))

    def let(self, seat: int) -> None:
        """Lets a bridge go on."""
        stdin = self.bridges[seat].stdin
        assert stdin
        stdin.write(b"\n")

    def order(self) -> list[int]:
        """The seats in the order in which they join: those last that have answered the newest event, since such a one that is back
        alone would close the window."""
        answered = [self.report(place).get("events", 0) for place in self.task["places"]]
        return sorted(range(4), key=lambda seat: bool(answered[seat] >= len(self.events)))

    async def wait_for_port(self) -> None:
        deadline = time.monotonic() + PATIENCE
        while True:
            try:
                _, link = await asyncio.open_connection("127.0.0.1", self.port)
                link.close()
                return
            except OSError:
                if time.monotonic() > deadline:
                    raise Broken(f"the server has not opened port {self.port} within {PATIENCE} s") from None
                await asyncio.sleep(0.05)

    async def start_bridge(self, seat: int) -> None:
        """Starts a program's bridge, and waits until it is there."""
        program, place = self.task["programs"][seat], self.task["places"][seat]
        name = program["name"]
        log = self.file(f".{place}.log").resolve()
        words = {"--name": name, "--port": self.port, "--limit": self.task["limit"], "--log": log, "--report": self.report_file(place)}
        words |= {"--style": program["style"], "--think": program["think"], "--start": program["start"]}
        words |= {"--spelling": program["spelling"], "--key": self.keys[name]}
        if not self.events:
            log.unlink(missing_ok=True)
        command = [sys.executable, str(BRIDGE), "--led", *(f"{word}={value}" for word, value in words.items()), "--", *program["command"]]
        bridge = await self.run(*command, stdin=subprocess.PIPE, stdout=subprocess.PIPE, cwd=self.task["folder"])
        self.bridges[seat] = bridge
        self.listeners[seat] = asyncio.create_task(self.pass_on(bridge, name))
        await self.hear(seat, until="is there")

    async def join(self, seat: int) -> None:
        """Has a program ask for its seat, and waits until it has it, where it had it before."""
        self.let(seat)
        await self.hear(seat, until="joins")
        if self.events:
            await self.hear(seat, until="is ready")
        else:
            # the server tells nobody that a seat is taken before all four are
            await asyncio.sleep(self.task["pause"])

    async def pass_on(self, bridge: asyncio.subprocess.Process, name: str) -> None:
        """Says what a bridge says on standard error: what went wrong with its program, and at which event."""
        assert bridge.stderr
        async for line in bridge.stderr:
            text = line.decode("utf-8", "replace").strip()
            self.last_said[name] = text
            self.say(text, "fault")

    async def hear(self, seat: int, until: str | None = None) -> None:
        """Hears what a bridge says, until it says that, or to its end."""
        name, bridge = self.names[seat], self.bridges[seat]
        assert bridge.stdout
        async for rest in bridge.stdout:
            line = rest.decode("utf-8", "replace").strip()
            if line.startswith(f"{name} has seat ") and line != f"{name} has seat {seat}":
                raise Broken(f"{name} was to have seat {seat}, and was told: {line}")
            self.say(line, "logged")
            if line == f"{name} {until}":
                return
        await bridge.wait()
        if until:
            await self.listeners[seat]
            raise Broken(self.last_said.get(name) or f"{name} has ended")

    def report_file(self, place: int) -> pathlib.Path:
        return self.own / f"{place}.report"

    def report(self, place: int) -> Report:
        """What the bridges of a seat counted so far."""
        try:
            found: Report = json.loads(self.report_file(place).read_text(encoding="utf-8"))
            return found
        except (OSError, ValueError):
            return {}

    def reports(self) -> dict[str, Report]:
        """What the bridges of each program counted; those that were ended before they answered have nothing to tell."""
        nothing = {"problem": "its bridge ended without a report"}
        return {name: self.report(place) or nothing for name, place in zip(self.names, self.task["places"])}


def main() -> None:
    end_with_parent(os.getppid())
    task: Task = json.load(sys.stdin)
    said: list[tuple[str, Level, str]] = []

    def say(text: str, level: Level = "told", at: str | None = None) -> None:
        said.append((text, level, at or now()))

    with tempfile.TemporaryDirectory(prefix="riichi-") as folder:
        game = Game(task, pathlib.Path(folder), say)
        told: dict[str, Any]
        try:
            told = {**asyncio.run(game.play())}
        except Broken as why:
            told = {"broken": str(why)}
        logs = pathlib.Path(folder).glob("*.log")
        told["logs"] = {path.name: path.read_text(encoding="utf-8", errors="replace") for path in logs}
    json.dump({**told, "said": said}, sys.stdout)


if __name__ == "__main__":
    main()
