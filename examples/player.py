#!/usr/bin/env python3
"""A player for riichi_table in Python, without any library.

It discards each tile that it draws and passes otherwise. With a key it comes back to its seat: start it again with the
same name and key. With a number of events it leaves after so many. The exit code is 0 where the game was played to its
end or left so, 1 where it was not, and 2 where the words are wrong.
"""
from __future__ import annotations

import argparse
import json
import socket
import sys
from typing import Any, Callable, Iterable

Event = dict[str, Any]


class Lost(Exception):
    """The game is not played to its end: why, in words."""


def answer(event: Event, seat: int | None) -> Event:
    """The answer to an event, as the player at this seat gives it."""
    if event["type"] == "tsumo" and event["actor"] == seat:
        return {"type": "dahai", "actor": seat, "pai": event["pai"], "tsumogiri": True}
    return {"type": "none"}


def connect(host: str, port: int) -> socket.socket:
    try:
        return socket.create_connection((host, port))
    except (OSError, OverflowError) as error:
        raise Lost(f"nobody listens on {host} port {port}: {getattr(error, 'strerror', None) or error}") from None


def read(lines: Iterable[str]) -> Iterable[Event]:
    """The events that come over a connection."""
    try:
        for line in lines:
            yield json.loads(line)
    except ValueError as error:
        raise Lost(f"this is no table of mjai: {error}") from None
    except OSError as error:
        raise Lost(f"the connection broke: {error.strerror or error}") from None


def play(join: Event, link: socket.socket, events: int = -1, answer: Callable[[Event, int | None], Event] = answer) -> str:
    """Plays one game, from the join to its end or for so many events, by a function that answers; says how it ended."""
    def send(value: Event) -> None:
        try:
            link.sendall(json.dumps(value, separators=(",", ":")).encode() + b"\n")
        except OSError as error:
            raise Lost(f"the connection broke: {error.strerror or error}") from None

    seat = None
    told_before = 0
    for event in read(link.makefile("r", encoding="utf-8", newline="\n")):
        if event["type"] == "hello":
            send(join)
            continue
        if event["type"] == "replay":
            # so many lines were told before; they want no answer
            told_before = event["count"]
            continue
        if event["type"] == "error":
            if "sit" in event:
                raise Lost(f"no seat: {event['message']}")
            # the last answer was refused, and the same event is to be answered again
            send({"type": "none"})
            continue
        if event["type"] == "start_game":
            seat = event["id"]
        if told_before > 0:
            told_before -= 1
            continue
        if events == 0:
            return "left"
        events -= 1
        send(answer(event, seat))
        if event["type"] == "end_game":
            return "scores " + " ".join(str(score) for score in event["scores"])
    raise Lost("the connection ended")


def parser_of(description: str | None) -> argparse.ArgumentParser:
    """The words that each of the players in Python takes."""
    parser = argparse.ArgumentParser(description=description, formatter_class=argparse.RawDescriptionHelpFormatter)
    parser.add_argument("--host", default="127.0.0.1", help="the server's machine (default: %(default)s)")
    parser.add_argument("--room", default="default", help="the table of the command tables, as room2 (default: the first)")
    parser.add_argument("name", metavar="NAME", help="1 to 64 bytes")
    parser.add_argument("key", metavar="KEY", nargs="?", default="", help="by which it comes back (default: none)")
    parser.add_argument("port", metavar="PORT", nargs="?", type=int, default=11600, help="default: %(default)s")
    return parser


def play_as(words: argparse.Namespace, events: int, answer: Callable[[Event, int | None], Event]) -> None:
    """Plays one game by the words of a command, and says how it ended."""
    join = {"type": "join", "name": words.name, "room": words.room}
    if words.key:
        join["key"] = words.key
    try:
        with connect(words.host, words.port) as link:
            print(f"{words.name}: {play(join, link, events, answer)}")
    except Lost as lost:
        sys.exit(f"{words.name}: {lost}")
    except KeyboardInterrupt:
        sys.exit(f"{words.name}: stopped")


def main() -> None:
    parser = parser_of(__doc__)
    parser.add_argument("events", metavar="EVENTS", nargs="?", type=int, default=-1, help="after which it leaves (default: it stays)")
    words = parser.parse_args()
    play_as(words, words.events, answer)


if __name__ == "__main__":
    main()
