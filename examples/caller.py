#!/usr/bin/env python3
"""A player for riichi_table that calls, reaches and wins, in Python without any library.

It chooses among the answers that an event lists as possible_actions. Where an event has no such list it discards the tile
that it draws and passes otherwise. With --stdio instead of a name it reads events from standard input and writes answers, for
bridge.py.
"""
from __future__ import annotations

import json
import sys

import player
from player import Event

DRAGONS = "PFC"
NONE: Event = {"type": "none"}


def nearness(tile: str, others: list[str]) -> float:
    """How well a tile fits the others of a hand: the lower, the sooner it goes."""
    if len(tile) == 1:
        return 3 * (others.count(tile) - 1) + (tile in DRAGONS) / 2
    number, suit = int(tile[0]), tile[1]
    near = [abs(number - int(other[0])) for other in others if len(other) > 1 and other[1] == suit]
    return sum({0: 3, 1: 2, 2: 1}.get(distance, 0) for distance in near) - 3 + (2 < number < 8) / 2


class Caller:
    """Plays for one seat."""

    def __init__(self) -> None:
        self.seat: int | None = None
        self.hand: list[str] = []
        self.valued = DRAGONS
        self.is_open = False

    def hear(self, event: Event) -> None:
        """Keeps the own tiles, the kinds of which a triplet is worth something, and whether such a triplet is called."""
        kind = event["type"]
        if kind == "start_game":
            self.seat = event["id"]
        elif kind == "start_kyoku" and self.seat is not None:
            self.hand = list(event["tehais"][self.seat])
            self.valued = DRAGONS + event["bakaze"] + "ESWN"[(self.seat - event["oya"]) % 4]
            self.is_open = False
        if event.get("actor") != self.seat:
            return
        if kind == "tsumo":
            self.hand.append(event["pai"])
        elif kind in ("dahai", "kakan"):
            self.hand.remove(event["pai"])
        elif kind in ("chi", "pon", "daiminkan", "ankan"):
            for tile in event["consumed"]:
                self.hand.remove(tile)
        if kind == "pon" and event["pai"] in self.valued:
            self.is_open = True

    def answer(self, event: Event, _seat: int | None = None) -> Event:
        """The answer to an event."""
        self.hear(event)
        listed: dict[str, list[Event]] = {}
        for action in event.get("possible_actions", []):
            listed.setdefault(action["type"], []).append(action)
        if not listed:
            return player.answer(event, self.seat)
        for kind in ("hora", "reach"):
            if kind in listed:
                return listed[kind][0]
        if "dahai" in listed:
            return min(listed["dahai"], key=lambda it: nearness(it["pai"], self.hand))
        calls = listed.get("pon", []) + (listed.get("chi", []) if self.is_open else [])
        return next((it for it in calls if self.is_open or it["pai"] in self.valued), NONE)


def answer_lines() -> None:
    """Answers each line of standard input by one line."""
    caller = Caller()
    for number, line in enumerate(sys.stdin, 1):
        try:
            event = json.loads(line)
        except ValueError as error:
            sys.exit(f"caller.py: line {number} is no event: {error}")
        print(json.dumps(caller.answer(event), separators=(",", ":")), flush=True)


if __name__ == "__main__":
    if sys.argv[1:] == ["--stdio"]:
        answer_lines()
    else:
        player.play_as(player.parser_of(__doc__).parse_args(), -1, Caller().answer)
