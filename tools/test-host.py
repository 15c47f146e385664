#!/usr/bin/env python3
"""Stops `host` at random moments of games over TCP, and holds what its players are told against what they were told before.

usage: test-host.py PROGRAM [STOPS [GAMES [SEED]]]

PROGRAM is the built riichi_table. Four players with keys, who answer at once, play GAMES (10) games, or more, on ports of this
machine. The server is killed (SIGKILL) at random moments, STOPS (200) times in all, and started again with the same words; each
player comes back by its name and key, unless the others have played to the end before. What it is told must go on where it ended, byte by byte, and the lines that are told again must
be those of before. Before and after each stop `record` writes the record so far, which `replay` must take; in the end the server writes the
record, each of those must be its beginning, and the journal must give it once more. Then a game on a small file system that
gets full again and again, where this user may mount one; a second server and a `keep` on a journal that is taken; a journal of
other walls, and one that was cut; what the server says of seats. The exit code is 0 where all this holds.
"""
from __future__ import annotations

import contextlib
import os
import random
import selectors
import socket
import subprocess
import sys
import tempfile
import threading
import time
from collections.abc import Callable, Iterator
from typing import IO

JOURNAL = "riichi.journal"
HOST_FAULT, DISK_FAULT, OTHER_GAME, BAD_JOURNAL = 8, 11, 12, 13
NAMES = (b"a", b"b", b"c", b"d")


def answer(line: bytes, seat: int) -> bytes:
    """The answer to a line: each drawn tile is discarded, and all else passed."""
    if line.startswith(b'{"type":"tsumo","actor":%d,' % seat):
        pai = line.split(b'"pai":"', 1)[1].split(b'"', 1)[0]
        return b'{"type":"dahai","actor":%d,"pai":"%s","tsumogiri":true}\n' % (seat, pai)
    return b'{"type":"none"}\n'


class Player:
    """A player with a key, and all events that it was told over all its links."""

    def __init__(self, name: bytes) -> None:
        self.name = name
        self.seat = -1
        self.events: list[bytes] = []
        self.link: socket.socket | None = None
        self.held = b""
        # the number of the next event of this link, and how many of them are told again
        self.number = self.again = 0
        self.back = self.ended = False

    def connect(self, port: int) -> socket.socket:
        self.link = socket.create_connection(("127.0.0.1", port))
        self.link.setsockopt(socket.IPPROTO_TCP, socket.TCP_NODELAY, 1)
        self.held, self.number, self.again, self.back = b"", 0, 0, False
        return self.link

    def event(self, line: bytes) -> bytes:
        self.back = True
        if self.number < len(self.events):
            was = self.events[self.number]
            assert line == was, f"{self.name!r} was told {was!r} as event {self.number}, and now {line!r}"
        else:
            self.events.append(line)
        self.number += 1
        if line.startswith(b'{"type":"start_game"'):
            self.seat = int(line.split(b'"id":', 1)[1][:1])
        if line.startswith(b'{"type":"end_game"'):
            self.ended = True
        if self.again:
            self.again -= 1
            return b""
        return answer(line, self.seat)

    def hear(self) -> bool:
        """Hears what has come, and answers; False once the link has ended."""
        assert self.link is not None
        try:
            data = self.link.recv(65536)
            if not data:
                return False
            *lines, self.held = (self.held + data).split(b"\n")
            out = b""
            for line in lines:
                if line.startswith(b'{"type":"hello"'):
                    out += b'{"type":"join","name":"%s","key":"key of %s","room":"default"}\n' % (self.name, self.name)
                elif line.startswith(b'{"type":"replay"'):
                    self.back = True
                    self.again = int(line.split(b'"count":', 1)[1].split(b"}")[0])
                elif line.startswith(b'{"type":"error","sit":6,') and self.events:
                    pass  # the others have played on to the end before it was back
                elif line.startswith(b'{"type":"error"'):
                    raise AssertionError("a line was refused: " + line.decode())
                else:
                    out += self.event(line)
            if out:
                self.link.sendall(out)
            return True
        except ConnectionError:
            return False


class Hosted:
    """A game in a folder, its server, and its four players."""

    def __init__(self, program: str, folder: str, seed: str, port: int) -> None:
        self.program, self.folder, self.port = program, folder, port
        self.words = ["host", "--seed", seed, "--port", str(port), "--limit", "20000"]
        self.players = [Player(name) for name in NAMES]
        self.records: list[bytes] = []
        self.out = self.err = b""
        self.stdout: IO[bytes] | None = None

    def run(self, *words: str, text: bytes = b"") -> subprocess.CompletedProcess[bytes]:
        return subprocess.run([self.program, *words], cwd=self.folder, input=text, capture_output=True)

    def start(self) -> subprocess.Popen[bytes]:
        """The server, once the system has let its port go."""
        for _ in range(500):
            try:
                socket.create_server(("127.0.0.1", self.port)).close()
                break
            except OSError:
                time.sleep(0.02)
        # a record is longer than what a pipe holds, and nobody reads one before the players' links have ended
        self.stdout = tempfile.TemporaryFile()
        return subprocess.Popen(
            [self.program, *self.words], cwd=self.folder, stdin=subprocess.DEVNULL, stdout=self.stdout, stderr=subprocess.PIPE
        )

    def end_of(self, server: subprocess.Popen[bytes]) -> None:
        """Waits for the end of a server, and keeps what it wrote."""
        _, self.err = server.communicate(timeout=60)
        assert self.stdout is not None
        self.stdout.seek(0)
        self.out = self.stdout.read()
        self.stdout.close()

    def come_back(self, server: subprocess.Popen[bytes], chosen: selectors.BaseSelector, until: float) -> bool:
        """Connects each player; False where the server has ended, or the time has come, before it listens."""
        for player in self.players:
            while True:
                try:
                    chosen.register(player.connect(self.port), selectors.EVENT_READ, player)
                    break
                except OSError:
                    if server.poll() is not None or time.monotonic() > until:
                        return False
                    time.sleep(0.005)
        return True

    def play(self, seconds: float) -> int | None:
        """Plays for so long and kills the server; where it ends before, its exit code."""
        until = time.monotonic() + seconds
        server = self.start()
        with selectors.DefaultSelector() as chosen:
            if self.come_back(server, chosen, until):
                left = len(self.players)
                while left and (wait := until - time.monotonic()) > 0:
                    for key, _ in chosen.select(min(wait, 1)):
                        if not key.data.hear():
                            chosen.unregister(key.data.link)
                            left -= 1
            for player in self.players:
                if player.link is not None:
                    player.link.close()
        if time.monotonic() < until:
            try:
                self.end_of(server)
                return server.returncode
            except subprocess.TimeoutExpired:
                server.kill()
                raise AssertionError("the server told its players nothing more, and did not end") from None
        self.record()
        server.kill()
        self.end_of(server)
        self.record()
        return None

    def journal(self) -> bytes:
        try:
            with open(os.path.join(self.folder, JOURNAL), "rb") as file:
                return file.read()
        except FileNotFoundError:
            return b""

    def record(self) -> None:
        """Takes the record so far, also of a server that runs, which `replay` takes as soon as it has a deed."""
        try:
            with open(os.path.join(self.folder, JOURNAL), "rb") as file:
                made = subprocess.run([self.program, "record"], stdin=file, capture_output=True)
        except FileNotFoundError:
            return
        if made.returncode == BAD_JOURNAL and not self.records:
            return
        assert made.returncode == 0, f"no record so far: {made.stderr!r}"
        if any(player.events for player in self.players):
            checked = self.run("replay", text=made.stdout)
            assert checked.returncode == 0, f"replay refuses the record so far: {checked.stderr!r}"
        self.records.append(made.stdout)

    def check(self) -> None:
        """The game is over: its record is whole, all records so far are its beginnings, and the journal gives it again."""
        assert self.run("replay", text=self.out).returncode == 0, "replay refuses the record"
        for record in self.records:
            assert self.out.startswith(record), "a record so far isn't a beginning of the last one"
        assert any(player.ended for player in self.players), "nobody was told the end"
        assert all(player.ended or not player.back for player in self.players), "a player was not told the end"
        kept = self.journal()
        assert self.run("record", text=kept).stdout == self.out, "the journal has another record"
        again = self.run(*self.words)
        assert again.returncode == 0 and again.stdout == self.out, f"a game that is over gives no record: {again.stderr!r}"
        assert self.journal() == kept, "a game that is over was written to"


def seeds(chance: random.Random) -> str:
    return chance.randbytes(32).hex()


def unbroken(program: str, chance: random.Random, port: int) -> float:
    """How many seconds a game takes here that nothing stops."""
    with tempfile.TemporaryDirectory() as folder:
        hosted = Hosted(program, folder, seeds(chance), port)
        began = time.monotonic()
        assert hosted.play(3600) == 0, hosted.err
        hosted.check()
        assert os.stat(os.path.join(folder, JOURNAL)).st_mode & 0o777 == 0o600, "others may read the journal"
        return time.monotonic() - began


def killed(program: str, stops: int, games: int, chance: random.Random, port: int) -> None:
    seconds = unbroken(program, chance, port)
    total = events = game = 0
    while game < games or total < stops:
        wanted = -((total - stops) // max(1, games - game))
        game += 1
        with tempfile.TemporaryDirectory() as folder:
            hosted = Hosted(program, folder, seeds(chance), port + game % 20)
            made = 0
            while (ended := hosted.play(2 * seconds / (wanted + 1) * chance.random() if made < wanted else 3600)) is None:
                made += 1
            assert ended == 0, hosted.err
            hosted.check()
            total += made
            events += sum(len(player.events) for player in hosted.players)
    print(f"{game} games of {events} lines told: {total} servers were killed, and every player's lines went on")


def mounted(folder: str, options: str) -> bool:
    return subprocess.run(["mount", "-t", "tmpfs", "-o", options, "tmpfs", folder], capture_output=True).returncode == 0


def remount(folder: str, options: str) -> None:
    subprocess.run(["mount", "-o", "remount," + options, folder], check=True, capture_output=True)


def full(program: str, chance: random.Random, port: int) -> None:
    """The file system gets full again and again, and more room each time; between two of these it is read-only for a run."""
    with tempfile.TemporaryDirectory() as folder:
        room = 64
        if not mounted(folder, f"size={room}k"):
            print("the full and the read-only file system are skipped: this user may mount none")
            return
        try:
            hosted = Hosted(program, folder, seeds(chance), port)
            faults = 0
            while (ended := hosted.play(600)) != 0:
                assert ended == DISK_FAULT, (ended, hosted.err)
                assert hosted.out == b"", "a record is written after a fault"
                faults += 1
                hosted.record()
                remount(folder, "ro")
                assert hosted.run(*hosted.words).returncode == DISK_FAULT, "a read-only file is no fault"
                room += 16
                remount(folder, f"rw,size={room}k")
            hosted.check()
            assert faults, "the file system was never full"
            print(f"a full file system stopped {faults} servers, and every player's lines went on")
        finally:
            subprocess.run(["umount", folder], check=True)


def refused(program: str, chance: random.Random, port: int) -> None:
    """What is not this server's is refused, and stays as it is."""
    with tempfile.TemporaryDirectory() as folder:
        hosted = Hosted(program, folder, seeds(chance), port)
        server = hosted.start()
        try:
            with selectors.DefaultSelector() as chosen:
                assert hosted.come_back(server, chosen, time.monotonic() + 60), "the server does not listen"
            second = Hosted(program, folder, hosted.words[2], port + 1)
            assert second.run(*second.words).returncode == DISK_FAULT, "a second server takes the journal"
            with open(os.path.join(os.path.dirname(os.path.abspath(__file__)), "../crates/riichi_table/stdin"), "rb") as file:
                assert second.run("keep", "0", text=file.read()).returncode == DISK_FAULT, "a keep takes the journal of a server"
        finally:
            server.kill()
            hosted.end_of(server)
        kept = hosted.journal()
        other = Hosted(program, folder, seeds(chance), port)
        assert other.run(*other.words).returncode == OTHER_GAME, "a journal of other walls is taken"
        with socket.create_server(("127.0.0.1", port + 1)):
            taken = second.run(*second.words)
            assert taken.returncode == HOST_FAULT and b"port" in taken.stderr, taken
        assert hosted.journal() == kept, "a refused journal was written to"
        place = 5 + int.from_bytes(kept[1:5], "big")
        with open(os.path.join(folder, JOURNAL), "wb") as file:
            file.write(kept[:place] + b"\1\0\0\0\4")
        assert hosted.run(*hosted.words).returncode == BAD_JOURNAL, "a journal that was cut is taken"
    print("a second server, a keep, other walls, a port in use and a cut journal are refused")


@contextlib.contextmanager
def said_by(hosted: Hosted) -> Iterator[Callable[[str], None]]:
    """A server, which is killed in the end, and a check that it says a line next."""
    server = hosted.start()
    late = threading.Timer(60, server.kill)
    late.start()
    try:
        assert server.stderr is not None
        lines = server.stderr

        def says(line: str) -> None:
            said = lines.readline().decode()
            assert said == line + "\n", f"the server says {said!r} in place of {line!r}"

        says(f"listening on port {hosted.port}")
        yield says
    finally:
        late.cancel()
        server.kill()
        hosted.end_of(server)


def seats(program: str, chance: random.Random, port: int) -> None:
    """The server says which seats are taken, left and taken back, and a name can't break its lines."""
    with tempfile.TemporaryDirectory() as folder:
        hosted = Hosted(program, folder, seeds(chance), port)
        third = hosted.players[2]
        with said_by(hosted) as says:
            for seat, player in enumerate(hosted.players):
                player.connect(port)
                player.hear()
                says(f'seat {seat} is taken by "{player.name.decode()}"')
            assert third.link is not None
            third.link.close()
            says("seat 2 is left")
            assert b" gone 2" in hosted.journal(), "a seat is said to be left before that stands in the journal"
            third.connect(port)
            third.hear()
            says("seat 2 is taken back")
        with said_by(hosted) as says:
            third.connect(port)
            third.hear()
            says("seat 2 is taken back")
        for player in hosted.players:
            if player.link is not None:
                player.link.close()
    with tempfile.TemporaryDirectory() as folder:
        hosted = Hosted(program, folder, seeds(chance), port + 1)
        hosted.words += ["--rooms", "2"]
        with said_by(hosted) as says:
            with socket.create_connection(("127.0.0.1", hosted.port)) as link:
                link.sendall(b'{"type":"join","name":"\xc3\xa9\\u009b","room":"room2"}\n')
                says('room2: seat 0 is taken by "\u00e9\\u{9b}"')
            says("room2: seat 0 is left")
    print("each seat that is taken, left and taken back is said")


def main() -> None:
    if len(sys.argv) < 2:
        sys.exit(__doc__)
    program = os.path.abspath(sys.argv[1])
    stops, games, seed = (int(word) for word in (sys.argv[2:] + ["200", "10", "1"][len(sys.argv) - 2:]))
    chance = random.Random(seed)
    port = 11800
    refused(program, chance, port)
    seats(program, chance, port + 50)
    killed(program, stops, games, chance, port + 10)
    full(program, chance, port + 40)


if __name__ == "__main__":
    main()
