#!/usr/bin/env python3
"""Stops `keep` at random moments, and holds what it kept against what `referee` tells.

usage: test-journal.py PROGRAM [STOPS [SEED]]

PROGRAM is the built riichi_table. A game of a few hundred arrivals is kept in pieces in a folder of its own, and each run
is killed (SIGKILL) after a random time, up to one and a half times that of a run of forty arrivals, at least STOPS (200) of
them. Then the same in a small file system that gets full and one that is made read-only, where this user may mount one.
After each stop the game goes on with the first arrival that the journal doesn't have; no arrival of a run that ended well
may be missing, and at the end the journal tells each seat what an unbroken `referee` tells it. The exit code is 0 where all
this holds.
"""
from __future__ import annotations

import os
import random
import subprocess
import sys
import tempfile
import time

CASES = os.path.join(os.path.dirname(os.path.abspath(__file__)), "../crates/riichi_cases/data")
DISK_FAULT = 11


def game(name: str) -> tuple[list[str], list[str]]:
    """The setting of a stored game, its header and walls, and its arrivals."""
    text = open(os.path.join(CASES, name), encoding="utf-8").read()
    lines = text.split("-- input\n", 1)[1].split("\n-- ", 1)[0].splitlines(keepends=True)
    lines = [line if line.endswith("\n") else line + "\n" for line in lines]
    count = next(n for n, line in enumerate(lines) if not line.startswith(("game ", "wall ")))
    return lines[:count], lines[count:]


def records(folder: str) -> int:
    """How many whole records the journal has, up to its first gate that isn't open."""
    try:
        data = open(os.path.join(folder, "riichi.journal"), "rb").read()
    except FileNotFoundError:
        return 0
    count, place = 0, 0
    while place + 5 < len(data) and data[place] == 1:
        place += 5 + int.from_bytes(data[place + 1:place + 5], "big")
        count += 1
    return count


class Keeper:
    def __init__(self, program: str, folder: str, setting: list[str], arrivals: list[str]) -> None:
        self.program, self.folder, self.setting, self.arrivals = program, folder, setting, arrivals
        self.stops = 0

    def kept(self) -> int:
        return max(0, records(self.folder) - 1)

    def command(self, name: str, seat: int, lines: list[str]) -> subprocess.CompletedProcess[bytes]:
        text = "".join(lines).encode()
        return subprocess.run([self.program, name, str(seat)], cwd=self.folder, input=text, capture_output=True)

    def run_and_kill(self, seconds: float, size: int) -> int:
        """Keeps a piece, and kills the run after so long. All must be there where it ended before."""
        before = self.kept()
        piece = self.setting + self.arrivals[before:before + size]
        run = subprocess.Popen(
            [self.program, "keep", "0"], cwd=self.folder, stdin=subprocess.PIPE, stdout=subprocess.PIPE, stderr=subprocess.PIPE
        )
        try:
            run.communicate("".join(piece).encode(), timeout=seconds)
        except subprocess.TimeoutExpired:
            run.kill()
            run.communicate()
            self.stops += 1
        after = self.kept()
        assert before <= after <= before + size, f"{before} arrivals were kept, then {after}"
        if run.returncode == 0:
            assert after == min(before + size, len(self.arrivals)), f"{after} arrivals are kept of a run that ended well"
        return run.returncode

    def check(self) -> None:
        for seat in range(4):
            kept = self.command("keep", seat, self.setting)
            told = self.command("referee", seat, self.setting + self.arrivals)
            assert kept.returncode == told.returncode == 0, (kept, told.returncode)
            assert kept.stdout == told.stdout, f"seat {seat} is told other bytes"


def pace(program: str, setting: list[str], arrivals: list[str]) -> float:
    """How many seconds a run takes here that keeps forty arrivals."""
    with tempfile.TemporaryDirectory() as folder:
        began = time.monotonic()
        Keeper(program, folder, setting, arrivals).command("keep", 0, setting + arrivals[:40])
        return time.monotonic() - began


def killed(program: str, stops: int, chance: random.Random) -> None:
    setting, arrivals = game("game_of_two_rounds")
    seconds = pace(program, setting, arrivals)
    total = 0
    games = 0
    while total < stops:
        with tempfile.TemporaryDirectory() as folder:
            keeper = Keeper(program, folder, setting, arrivals)
            while keeper.kept() < len(arrivals):
                keeper.run_and_kill(1.5 * seconds * chance.random(), chance.randint(1, 80))
            keeper.check()
            total += keeper.stops
            games += 1
    print(f"{games} games of {len(arrivals)} arrivals: {total} runs were killed, and nothing that was acknowledged is lost")


def mounted(folder: str, options: str) -> bool:
    return subprocess.run(["mount", "-t", "tmpfs", "-o", options, "tmpfs", folder], capture_output=True).returncode == 0


def remount(folder: str, options: str) -> None:
    subprocess.run(["mount", "-o", "remount," + options, folder], check=True, capture_output=True)


def full(program: str, chance: random.Random) -> None:
    """The file system gets full again and again, and more room each time; then it is read-only for a run."""
    setting, arrivals = game("game_of_two_rounds")
    with tempfile.TemporaryDirectory() as folder:
        room = 8
        if not mounted(folder, f"size={room}k"):
            print("the full and the read-only file system are skipped: this user may mount none")
            return
        try:
            keeper = Keeper(program, folder, setting, arrivals)
            faults = 0
            while keeper.kept() < len(arrivals):
                if keeper.run_and_kill(60, chance.randint(1, 80)) == DISK_FAULT:
                    faults += 1
                    room += 4
                    remount(folder, f"size={room}k")
                    continue
                before = keeper.kept()
                remount(folder, "ro")
                assert keeper.run_and_kill(60, 20) == DISK_FAULT, "a read-only file is no fault"
                assert keeper.kept() == before, "a read-only file was written"
                remount(folder, "rw")
            keeper.check()
            print(f"a full file system failed {faults} runs, and nothing that was acknowledged is lost")
        finally:
            subprocess.run(["umount", folder], check=True)


def main() -> None:
    program = os.path.abspath(sys.argv[1])
    stops = int(sys.argv[2]) if len(sys.argv) > 2 else 200
    chance = random.Random(int(sys.argv[3]) if len(sys.argv) > 3 else 1)
    killed(program, stops, chance)
    full(program, chance)


if __name__ == "__main__":
    main()
