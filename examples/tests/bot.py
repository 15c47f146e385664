#!/usr/bin/env python3
"""A program for the tests: it discards the tile that it draws, and fails as its words say.

usage: bot.py STYLE FILE [crash N START | hang N | slow N SECONDS | wrong N | chatty N | mute N]

It speaks style line, batch or mortal, appends each line that it reads to FILE, and fails at the N-th of them: it ends, where
it is the START-th that was started with the file, stays silent for good, answers late once, answers with a tile that it
doesn't hold, writes a line that nobody asked for, or doesn't answer once.
"""
from __future__ import annotations

import itertools
import json
import sys
import time
from typing import Any

Event = dict[str, Any]


def answer(event: Event, seat: int | None) -> Event:
    if event["type"] == "tsumo" and event["actor"] == seat:
        return {"type": "dahai", "actor": seat, "pai": event["pai"], "tsumogiri": True}
    return {"type": "none"}


def start_of(path: str) -> int:
    """Which of the programs that are started with a file this is, from 1; no two are the same."""
    for number in itertools.count(1):
        try:
            open(f"{path}.{number}", "x").close()
            return number
        except FileExistsError:
            continue
    raise AssertionError


def wants_answer(style: str, event: Event) -> bool:
    return style != "mortal" or any(action["type"] != "none" for action in event["possible_actions"])


def main() -> None:
    style, path, *words = sys.argv[1:]
    fault, at, more = [*words, "", ""][:3] if words else ("", "0", "")
    seat = None
    start = start_of(path)
    copy = open(path, "a", buffering=1, encoding="utf-8")
    for number, line in enumerate(sys.stdin, 1):
        is_at = number == int(at)
        if is_at and fault == "chatty":
            print('{"type":"none","chatty":true}', flush=True)
        copy.write(line)
        events = json.loads(line) if style == "batch" else [json.loads(line)]
        for event in events:
            if event["type"] == "start_game":
                seat = event["id"]
        told = answer(events[-1], seat)
        if is_at and fault == "crash" and start == int(more):
            sys.exit("I fall")
        if fault == "hang" and number >= int(at):
            continue
        if is_at and fault == "slow":
            time.sleep(float(more))
            told = {"type": "none", "late": True}
        if is_at and fault == "wrong":
            told = {"type": "dahai", "actor": seat, "pai": "C", "tsumogiri": False}
        if wants_answer(style, events[-1]) and not (is_at and fault == "mute"):
            print(json.dumps(told), flush=True)


if __name__ == "__main__":
    main()
