#!/usr/bin/env python3
"""Leaves a table before the fourth has sat down and in mid game, and says how soon the server sees it.

usage: test-ends.py PROGRAM [PORT]

PROGRAM is the built riichi_table, which listens at PORT and the one after it. Two players with keys sit down at `serve`, and one
leaves and comes back again and again: its seat has to be free for it within 2.5 seconds, also where its link was reset, while the
one that stays keeps its seat. Then eight links that say nothing may hold up a ninth for at most seven seconds. Last two more sit
down. In a second game one player thinks, and two that have answered leave, one by a reset: their seats have to be free as soon.
Both games are played to their ends. It writes the longest waits, and ends with 1 where one was too long.
"""
from __future__ import annotations

import json
import socket
import struct
import subprocess
import sys
import threading
import time
from typing import Any

Line = dict[str, Any]


class Player:
    def __init__(self, port: int, name: str) -> None:
        self.name, self.seat = name, -1
        self.unread: list[Line] = []
        self.link = socket.create_connection(("127.0.0.1", port), timeout=60)
        self.file = self.link.makefile("rb")

    def line(self) -> Line:
        if self.unread:
            return self.unread.pop()
        told: Line = json.loads(self.file.readline() or b"{}")
        if told.get("type") == "start_game":
            self.seat = told["id"]
        return told

    def say(self, **fields: Any) -> None:
        self.link.sendall(json.dumps(fields).encode() + b"\n")

    def join(self) -> bool:
        """Whether the seat is given: the player is told nothing more for now, the first event, or the events so far."""
        self.line()
        self.say(type="join", name=self.name, room="r", key=self.name * 8)
        self.link.settimeout(0.3)
        try:
            told = self.line()
        except TimeoutError:
            self.file = self.link.makefile("rb")
            return True
        finally:
            self.link.settimeout(60)
        if told.get("type") == "start_game":
            self.unread.append(told)
        for _ in range(told.get("count", 0)):
            self.line()
        return told.get("type") in ("start_game", "replay")

    def leave(self, reset: bool) -> None:
        if reset:
            self.link.setsockopt(socket.SOL_SOCKET, socket.SO_LINGER, struct.pack("ii", 1, 0))
        self.file.close()
        self.link.close()

    def draws(self, line: Line) -> bool:
        return bool(line["type"] == "tsumo" and line["actor"] == self.seat)

    def answer(self, line: Line) -> None:
        if self.draws(line):
            self.say(type="dahai", actor=self.seat, pai=line["pai"], tsumogiri=True)
        else:
            self.say(type="none")

    def play(self) -> None:
        while line := self.line():
            self.answer(line)


def serve(program: str, port: int, limit: int) -> subprocess.Popen[bytes]:
    words = ["serve", "--seed", "5" * 64, "--limit", str(limit), "--port", str(port)]
    server = subprocess.Popen([program, *words], stdout=subprocess.PIPE)
    time.sleep(0.5)
    return server


def seated(port: int, name: str) -> Player:
    player = Player(port, name)
    assert player.join()
    return player


def back(left: Player, port: int, reset: bool) -> tuple[Player, float]:
    """The player that has left and got its seat again, and how many seconds that took."""
    left.leave(reset)
    start = time.monotonic()
    while True:
        player = Player(port, left.name)
        if player.join():
            return player, time.monotonic() - start
        player.leave(False)
        if time.monotonic() - start > 60:
            return player, 60.0


def goes_on(program: str, server: subprocess.Popen[bytes], players: list[Player]) -> bool:
    """Whether the players play their game to its end, and its record is taken."""
    threads = [threading.Thread(target=player.play) for player in players]
    for thread in threads:
        thread.start()
    record = server.communicate(timeout=120)[0]
    for thread in threads:
        thread.join()
    replay = subprocess.run([program, "replay"], input=record, stdout=subprocess.DEVNULL)
    return server.returncode == 0 and replay.returncode == 0


def before_game(program: str, port: int) -> tuple[float, float, bool]:
    server = serve(program, port, 1000)
    stays, leaves = seated(port, "a"), seated(port, "b")
    seconds = []
    for reset in (False, True, False, True):
        leaves, took = back(leaves, port, reset)
        seconds.append(took)
    silent = [Player(port, "") for _ in range(8)]
    start = time.monotonic()
    third = seated(port, "c")
    held_up = time.monotonic() - start
    for player in silent:
        player.leave(False)
    players = [stays, leaves, third, seated(port, "d")]
    return max(seconds), held_up, goes_on(program, server, players)


def in_mid_game(program: str, port: int) -> tuple[float, bool]:
    server = serve(program, port, 60_000)
    players = [seated(port, name) for name in "abcd"]
    lines = [player.line() for player in players]
    while not any(player.draws(line) for player, line in zip(players, lines)):
        for player, line in zip(players, lines):
            player.answer(line)
        lines = [player.line() for player in players]
    thinks = next(at for at in range(4) if players[at].draws(lines[at]))
    first, second, third = (at for at in range(4) if at != thinks)
    for at in (first, second, third):
        players[at].answer(lines[at])
    time.sleep(0.5)
    seats = [player.seat for player in players]
    players[first], one = back(players[first], port, False)
    players[second], other = back(players[second], port, True)
    same = seats == [player.seat for player in players]
    players[thinks].answer(lines[thinks])
    return max(one, other), goes_on(program, server, players) and same


def main() -> int:
    program, port = sys.argv[1], int(sys.argv[2]) if len(sys.argv) > 2 else 7441
    before, held_up, began = before_game(program, port)
    amid, went_on = in_mid_game(program, port + 1)
    print(f"a seat was free again within {before:.1f} s before the game, within {amid:.1f} s in it")
    print(f"silent links held up another for {held_up:.1f} s")
    return int(max(before, amid) > 2.5 or held_up > 7 or not began or not went_on)


if __name__ == "__main__":
    sys.exit(main())
