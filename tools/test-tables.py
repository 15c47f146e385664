#!/usr/bin/env python3
"""Plays games at so many tables at once over TCP, four players a table that answer at once, and says what they took.

usage: test-tables.py PROGRAM TABLES [PORT]

PROGRAM is the built riichi_table; TABLES 0 plays one game by its command `serve`. Each record is checked by its command
`replay`. It writes the seconds on the clock, from the first link to the last line told and to the server's end, the processor
seconds of the server and of the players, the most descriptors that the server had in use, and for each table the deeds of its
record, or BAD where `replay` refuses it. It ends with 1 where not all is as it should be.
"""
from __future__ import annotations

import os
import resource
import selectors
import socket
import subprocess
import sys
import time


def answer(line: bytes, seat: int) -> bytes:
    """The answer to a line: each drawn tile is discarded, and all else passed."""
    if line.startswith(b'{"type":"tsumo","actor":%d,' % seat):
        pai = line.split(b'"pai":"', 1)[1].split(b'"', 1)[0]
        return b'{"type":"dahai","actor":%d,"pai":"%s","tsumogiri":true}\n' % (seat, pai)
    return b'{"type":"none"}\n'


class Player:
    def __init__(self, port: int, name: bytes, room: bytes) -> None:
        self.link = socket.create_connection(("127.0.0.1", port))
        self.link.setsockopt(socket.IPPROTO_TCP, socket.TCP_NODELAY, 1)
        self.name, self.room, self.seat, self.held, self.told, self.ended = name, room, -1, b"", 0, False

    def hear(self) -> bool:
        data = self.link.recv(65536)
        if not data:
            return False
        *lines, self.held = (self.held + data).split(b"\n")
        out = b""
        for line in lines:
            if line.startswith(b'{"type":"hello"'):
                out += b'{"type":"join","name":"%s","room":"%s"}\n' % (self.name, self.room)
            elif line.startswith(b'{"type":"error"'):
                raise SystemExit("a line was refused: " + line.decode())
            else:
                self.told += 1
                if line.startswith(b'{"type":"start_game"'):
                    self.seat = int(line.split(b'"id":', 1)[1][:1])
                self.ended = self.ended or line.startswith(b'{"type":"end_game"')
                out += answer(line, self.seat)
        if out:
            self.link.sendall(out)
        return True


def wait_for(port: int) -> None:
    for _ in range(500):
        try:
            socket.create_connection(("127.0.0.1", port)).close()
            return
        except OSError:
            time.sleep(0.02)
    raise SystemExit("the server does not listen")


def descriptors(pid: int) -> int:
    try:
        return len(os.listdir(f"/proc/{pid}/fd"))
    except OSError:
        return 0


def deeds_of(program: str, record: bytes) -> str:
    checked = subprocess.run([*program.split(), "replay"], input=record, stdout=subprocess.PIPE)
    first = checked.stdout.split(b"\n")[0].decode()
    return first.removeprefix("deeds ") if checked.returncode == 0 and first.startswith("deeds ") else "BAD"


def main(program: str, tables: int, port: int) -> int:
    seed = "07" * 32
    words = ["tables", "--rooms", str(tables)] if tables else ["serve"]
    words += ["--seed", seed, "--port", str(port)]
    server = subprocess.Popen([*program.split(), *words], stdout=subprocess.PIPE, stderr=subprocess.PIPE)
    wait_for(port)
    start = time.monotonic()
    chosen = selectors.DefaultSelector()
    players = []
    for table in range(max(tables, 1)):
        for name in (b"a", b"b", b"c", b"d"):
            player = Player(port, name, b"room%d" % (table + 1))
            players.append(player)
            chosen.register(player.link, selectors.EVENT_READ, player)
    left, most = len(players), 0
    while left:
        most = max(most, descriptors(server.pid))
        heard = chosen.select(30)
        if not heard:
            server.kill()
            raise SystemExit(f"{left} links were told nothing for 30 seconds")
        for key, _ in heard:
            if not key.data.hear():
                chosen.unregister(key.data.link)
                left -= 1
    told = time.monotonic() - start
    out, err = server.communicate(timeout=120)
    whole = time.monotonic() - start
    used, own = resource.getrusage(resource.RUSAGE_CHILDREN), resource.getrusage(resource.RUSAGE_SELF)
    records = [record.split(b"\n", 1)[1] for record in out.split(b"table ")[1:]] if tables else [out]
    deeds = [deeds_of(program, record) for record in records]
    good = (server.returncode == 0 and all(player.ended for player in players) and "BAD" not in deeds
            and len(set(records)) == max(tables, 1))
    print(f"tables {tables}: {'good' if good else 'NOT GOOD'}, status {server.returncode} {err.decode().strip()}")
    print(f"  clock {told:.2f} s to the last line, {whole:.2f} s to the end")
    print(f"  processor {used.ru_utime + used.ru_stime:.2f} s (user {used.ru_utime:.2f}); players {own.ru_utime + own.ru_stime:.2f} s")
    print(f"  descriptors {most}")
    print(f"  deeds {' '.join(deeds)}")
    return 0 if good else 1


if __name__ == "__main__":
    if not 3 <= len(sys.argv) <= 4:
        sys.exit(__doc__)
    sys.exit(main(sys.argv[1], int(sys.argv[2]), int(sys.argv[3]) if len(sys.argv) > 3 else 11700))
