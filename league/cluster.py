"""Games of a league on many machines: each is a task of a Dask cluster, whose workers run play.py.

A worker that ends in the middle of a game has it played again by the scheduler, on another worker. Workers need nothing but the
files: this folder, examples/ beside it, the server and the programs, under the same paths as here.
"""
from __future__ import annotations

import asyncio
import concurrent.futures
import contextlib
import importlib
import json
import os
import pathlib
import secrets
import shutil
import subprocess
import sys
from typing import Any

from console import Say
from play import Broken, Outcome, Task
from programs import Program, Wrong, first_word, no_command

PLAY = pathlib.Path(__file__).resolve().parent / "play.py"
PATIENCE = 60  # seconds for the scheduler, and for the first worker


class Cluster:
    """A connection to the scheduler of a cluster."""

    def __init__(self, address: str, say: Say) -> None:
        self.address = address
        self.say = say
        try:
            self.dask: Any = importlib.import_module("distributed")
        except ImportError:
            raise Wrong(f"--cluster wants Dask, Debian's python3-distributed, which {sys.executable} hasn't") from None
        self.client: Any = None
        self.watching: asyncio.Task[None] | None = None

    async def open(self) -> None:
        try:
            self.client = await self.dask.Client(self.address, asynchronous=True, timeout=PATIENCE)
        except (OSError, ValueError, asyncio.TimeoutError) as error:
            raise Wrong(f"there is no scheduler at {self.address}: {error}") from None
        try:
            await self.client.wait_for_workers(1, timeout=PATIENCE)
        except (asyncio.TimeoutError, self.dask.TimeoutError):
            raise Wrong(f"the scheduler at {self.address} has no workers") from None

    async def close(self) -> None:
        if self.watching:
            self.watching.cancel()
            await asyncio.gather(self.watching, return_exceptions=True)
        if self.client:
            await self.client.close()

    def workers(self) -> set[str]:
        """The addresses of the workers, as the scheduler told them last."""
        return set(self.client.scheduler_info()["workers"])

    async def look_up(self, programs: list[Program], folder: pathlib.Path, server: str) -> None:
        """Finds what the games need on each worker, and says from then on which workers come and go."""
        workers = self.workers()
        if missing := await self.missing_on(workers, programs, folder, server):
            raise Wrong("\n".join(missing))
        self.say(f"the cluster at {self.address} has {len(workers)} worker{'s' * (len(workers) != 1)}")
        self.watching = asyncio.create_task(self.watch(workers, programs, folder, server))

    async def missing_on(self, workers: set[str], programs: list[Program], folder: pathlib.Path, server: str) -> list[str]:
        """What some workers lack that the games need."""
        found, some = [], sorted(workers)
        for path in (str(PLAY), server):
            for worker, is_there in (await self.client.run(os.path.isfile, path, workers=some)).items():
                found += [] if is_there else [f"{path} isn't there on the worker {worker}"]
        for program in programs:
            for worker, command in (await self.client.run(shutil.which, first_word(program, folder), workers=some)).items():
                found += [] if command else [no_command(program, f"the worker {worker}")]
        return found

    async def watch(self, known: set[str], programs: list[Program], folder: pathlib.Path, server: str) -> None:
        """Says which workers come and go after these, what those that come lack, and that none is left."""
        while True:
            await asyncio.sleep(1)
            new, known_before = self.workers(), known
            known = new
            for worker in sorted(known_before - new):
                self.say(f"the worker {worker} is gone, and what it had begun is played again", "fault")
            if known_before and not new:
                self.say("no workers are left, and the games wait for one", "fault")
            for worker in sorted(new - known_before):
                self.say(f"the worker {worker} has come")
            with contextlib.suppress(OSError, ValueError):  # of one that is gone by now
                for missing in await self.missing_on(new - known_before, programs, folder, server):
                    self.say(missing, "fault")

    async def play(self, task: Task, say: Say) -> Outcome:
        """Has a game played by a worker."""
        key = f"game-{task['number'] + 1}-{secrets.token_hex(4)}"
        words = {"input": json.dumps(task), "capture_output": True, "text": True}
        future = self.client.submit(subprocess.run, ["python3", str(PLAY)], key=key, pure=False, **words)
        try:
            ended = await self.result_of(future)
        finally:
            if not future.done():
                await future.cancel()
        if ended.returncode:
            raise Broken(f"play.py ended with {ended.returncode} on a worker: {ended.stderr.strip()}")
        try:
            told = json.loads(ended.stdout)
        except ValueError:
            raise Broken(f"play.py told no outcome on a worker: {ended.stderr.strip()}") from None
        for text, level, at in told["said"]:
            say(text, level, at)
        if "broken" in told:
            raise Broken(told["broken"])
        return {"record": told["record"], "reports": told["reports"], "logs": told["logs"]}

    async def result_of(self, future: Any) -> Any:
        """What a task came to. Raises Broken where the workers that had it ended again and again, Wrong where the cluster did."""
        try:
            await self.dask.wait(future)
        except concurrent.futures.CancelledError:
            raise Wrong(f"the scheduler at {self.address} is lost") from None
        if future.status == "error":
            raise Broken(str(await future.exception()))
        return await future
