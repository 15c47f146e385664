"""A league on a Dask cluster of two workers on this machine, of which one is killed in the middle of a game.

It wants the environment's RIICHI_TABLE, the path of the program, and Debian's python3-distributed.
"""
from __future__ import annotations

import contextlib
import os
import pathlib
import signal
import subprocess
import sys
import tempfile
import time
import unittest
from typing import Iterator

HERE = pathlib.Path(__file__).parent
sys.path[:0] = [str(HERE), str(HERE.parent.parent / "examples")]
from leagues import CALLER, PROGRAM, Folder
from processes import free_port

PYTHON = "/usr/bin/python3"
HAS_DASK = subprocess.run([PYTHON, "-c", "import distributed"], capture_output=True).returncode == 0 if os.path.exists(PYTHON) else False
# A worker without a nanny is gone for good where it is killed.
SCHEDULER = [PYTHON, "-m", "distributed.cli.dask_scheduler", "--host", "127.0.0.1", "--no-dashboard"]
WORKER = [PYTHON, "-m", "distributed.cli.dask_worker", "--no-nanny", "--nthreads", "1", "--no-dashboard"]


def parent_of(process: int) -> int:
    """The id of a process's parent, 0 where it has ended."""
    try:
        fields = pathlib.Path(f"/proc/{process}/stat").read_text().rsplit(")", 1)[1].split()
        return 0 if fields[0] == "Z" else int(fields[1])
    except OSError:
        return 0


def processes_under(process: int) -> dict[int, str]:
    """The command lines of the processes that a process started, and these, by their ids."""
    children: dict[int, list[int]] = {}
    for path in pathlib.Path("/proc").glob("[0-9]*"):
        children.setdefault(parent_of(int(path.name)), []).append(int(path.name))
    found, left = {}, children.get(process, [])
    while left:
        left += children.get(left[0], [])
        with contextlib.suppress(OSError):
            found[left[0]] = pathlib.Path(f"/proc/{left[0]}/cmdline").read_bytes().replace(b"\0", b" ").decode()
        del left[0]
    return found


@unittest.skipUnless(PROGRAM, "no program: set RIICHI_TABLE to its path")
@unittest.skipUnless(HAS_DASK, f"no Dask: {PYTHON} has no distributed (Debian's python3-distributed)")
class Cluster(unittest.TestCase):
    def setUp(self) -> None:
        folder = tempfile.TemporaryDirectory(prefix="cluster-")
        self.addCleanup(folder.cleanup)
        self.folder = pathlib.Path(folder.name)
        names = ("anna", "bert", "carl", "dora")
        self.programs = [{"name": name, "command": CALLER, "think": 60000} for name in names]

    def start(self, name: str, *command: str) -> subprocess.Popen[bytes]:
        with open(self.folder / f"{name}.log", "wb") as log:
            process = subprocess.Popen(command, stdout=log, stderr=log, cwd=self.folder)
        self.addCleanup(self.end, process)
        return process

    def end(self, process: subprocess.Popen[bytes]) -> None:
        process.kill()
        process.wait()

    def scheduler(self) -> str:
        """Starts a scheduler; its address."""
        port = free_port()
        self.start("scheduler", *SCHEDULER, "--port", str(port))
        return f"127.0.0.1:{port}"

    def worker(self, address: str, name: str) -> subprocess.Popen[bytes]:
        return self.start(name, *WORKER, "--name", name, "--local-directory", str(self.folder / name), address)

    def kill_in_a_game(self, worker: subprocess.Popen[bytes], playing: subprocess.Popen[str]) -> None:
        """Waits until a worker has a game, with all four programs in it, and kills it; what it had started ends with it."""
        deadline = time.monotonic() + 600
        under: dict[int, str] = {}
        while sum("caller.py" in line and "bridge.py" not in line for line in under.values()) < 4:
            self.assertLess(time.monotonic(), deadline, (self.folder / "first.log").read_text())
            self.assertIsNone(playing.poll())
            under = processes_under(worker.pid)
        worker.send_signal(signal.SIGKILL)
        while left := [line for process, line in under.items() if parent_of(process)]:
            self.assertLess(time.monotonic(), deadline, left)
            time.sleep(0.05)

    def test_a_worker_is_killed_and_the_table_is_that_of_one_machine(self) -> None:
        here = Folder(type(self), self.programs)
        told = here.play(4, "--jobs", "2", "--limit", "60000", "--publish")
        self.assertEqual((told.returncode, told.stderr), (0, ""))

        address, there = self.scheduler(), Folder(type(self), self.programs)
        first, _ = self.worker(address, "first"), self.worker(address, "second")
        words = there.words(4, "--cluster", address, "--limit", "60000", "--publish", python=PYTHON)
        with subprocess.Popen(words, stdout=subprocess.PIPE, stderr=subprocess.PIPE, text=True) as playing:
            self.kill_in_a_game(first, playing)
            said, faults = playing.communicate(timeout=900)
        self.assertEqual(playing.returncode, 0, faults)
        self.assertRegex(faults, r"^the worker tcp://[\d.:]+ is gone, and what it had begun is played again\n$")
        self.assertIn(f"the cluster at {address} has 2 workers\n", said)
        self.assertIn("4 of 4 games are played\n", said)
        self.assertEqual(there.records(), here.records())
        self.assertEqual(there.table(), here.table())
        self.assertEqual(len(list(there.out.glob("games/*.log"))), 16)
        told = there.check("--program", PROGRAM)
        self.assertEqual((told.returncode, told.stderr), (0, ""))
        with self.subTest("a command that isn't there"):
            missing = Folder(type(self), [*self.programs[:3], {"name": "emil", "command": ["no-such-command"]}])
            told = missing.play(4, "--cluster", address, python=PYTHON)
            self.assertEqual(told.returncode, 1)
            self.assertIn("the command of emil, no-such-command, isn't there on the worker tcp://", told.stderr)

    def test_without_a_scheduler_nothing_is_played(self) -> None:
        league = Folder(type(self), self.programs)
        told = league.play(4, "--cluster", "nonsense://", python=PYTHON)
        self.assertEqual(told.returncode, 1)
        self.assertIn("league.py: there is no scheduler at nonsense://", told.stderr)


if __name__ == "__main__":
    unittest.main()
