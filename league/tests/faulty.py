#!/usr/bin/env python3
"""A program for the tests of the league: it discards the tile that it draws, and fails as its words say.

usage: faulty.py FILE [crash LINE START | kill LINE START | late LINE SECONDS | hang LINE]

FILE counts its starts. At the LINE-th line it ends with an error or kills itself, where it is the START-th that was started
with the file, answers so many seconds late, or is silent for good.
"""
from __future__ import annotations

import itertools
import json
import os
import signal
import sys
import time
from typing import Any


def answer(event: dict[str, Any], seat: int | None) -> dict[str, Any]:
    if event["type"] == "tsumo" and event["actor"] == seat:
        return {"type": "dahai", "actor": seat, "pai": event["pai"], "tsumogiri": True}
    return {"type": "none"}


def start_of(path: str) -> int:
    """Which of the programs that are started with a file this is, from 1; no two are the same."""
    for number in itertools.count(1):
        try:
            open(f"{path}.{number}", "x").close()
            return number
        except FileExistsError:
            continue
    raise AssertionError


def main() -> None:
    path, fault, at, more = [*sys.argv[1:], None, None, None][:4]
    assert path
    start, seat = start_of(path), None
    for number, line in enumerate(sys.stdin, 1):
        event = json.loads(line)
        if event["type"] == "start_game":
            seat = event["id"]
        is_now, is_own_start = number == int(at or 0), str(start) == more
        if is_now and fault == "crash" and is_own_start:
            sys.exit("I fall")
        if is_now and fault == "kill" and is_own_start:
            os.kill(os.getpid(), signal.SIGKILL)
        if is_now and fault == "late":
            time.sleep(float(more or 0))
        if fault == "hang" and number >= int(at or 0):
            continue
        print(json.dumps(answer(event, seat)), flush=True)


if __name__ == "__main__":
    main()
