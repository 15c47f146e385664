"""A table for the tests of the bridge: it plays one seat by a script."""
from __future__ import annotations

import json
import socket
import threading
from typing import Any, Callable

Event = dict[str, Any]

HELLO: Event = {"type": "hello", "protocol": "mjsonp", "protocol_version": 3}
NONE: Event = {"type": "none"}
HAND = ["1m", "1m", "2m", "3m", "4p", "5p", "6p", "7s", "8s", "9s", "E", "S", "W"]
START_GAME: Event = {"type": "start_game", "id": 1, "names": ["a", "anna", "c", "d"]}
START_HAND: Event = {
    "type": "start_kyoku", "bakaze": "E", "kyoku": 1, "honba": 0, "kyotaku": 0, "oya": 0, "dora_marker": "F",
    "tehais": [["?"] * 13, HAND, ["?"] * 13, ["?"] * 13],
}
END_HAND: Event = {"type": "end_kyoku"}
END_GAME: Event = {"type": "end_game", "scores": [30000, 30000, 30000, 30000], "kyotaku": 0}


def draw(seat: int, tile: str) -> Event:
    return {"type": "tsumo", "actor": seat, "pai": tile}


def discard(seat: int, tile: str, drawn: bool = True) -> Event:
    return {"type": "dahai", "actor": seat, "pai": tile, "tsumogiri": drawn}


class Table(threading.Thread):
    """Listens on a free port, and runs a script over each connection that comes, in order."""

    def __init__(self, *scripts: Callable[[Table], object]) -> None:
        super().__init__(daemon=True)
        self.listener = socket.create_server(("127.0.0.1", 0))
        self.listener.settimeout(30)
        self.port: int = self.listener.getsockname()[1]
        self.scripts = scripts
        self.joins: list[Event] = []
        self.answers: list[Event] = []
        self.problem: Exception | None = None
        self.start()

    def run(self) -> None:
        try:
            for script in self.scripts:
                self.link = self.listener.accept()[0]
                self.link.settimeout(30)
                self.lines = self.link.makefile("r", encoding="utf-8", newline="\n")
                self.send(HELLO)
                self.joins.append(json.loads(self.lines.readline()))
                script(self)
                self.link.shutdown(socket.SHUT_RDWR)
                self.link.close()
        except (OSError, ValueError) as problem:
            self.problem = problem
        finally:
            self.listener.close()

    def send(self, event: Event) -> None:
        self.link.sendall(json.dumps(event, separators=(",", ":")).encode() + b"\n")

    def ask(self, *events: Event) -> Event:
        """Tells events, one after the other, each of which is answered; the last answer."""
        for event in events:
            self.send(event)
            self.answers.append(json.loads(self.lines.readline()))
        return self.answers[-1]
