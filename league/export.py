#!/usr/bin/env python3
"""Writes a record of riichi_table as ordinary mjai, and such a game as a record again.

usage: export.py [--plain] RECORD > GAME.mjson
       export.py --back GAME.mjson > RECORD

An event a line: with the points at the start of a hand, the hidden indicators of a win by both of their names, and yaku and
draw reasons as ordinary mjai spells them. What only a record has stands in fields that other readers ignore: its header and
walls in start_game, the seats still to be paid in hora, the call that waits in reach_accepted. So the way back gives the
same record, byte for byte. With --plain these are left out, and there is no way back. A name - is the standard input.
"""
from __future__ import annotations

import argparse
import collections
import json
import pathlib
import re
import sys
from typing import Iterator

HERE = pathlib.Path(__file__).resolve().parent
sys.path.insert(0, str(HERE.parent / "examples"))
from customs import REASONS, YAKU, Customs, Event, compact

# The field of start_game with the header and the walls of the record.
KEPT = "riichi_table"
# The fields of each event in a record, in their order.
FIELDS: dict[str, list[str]] = {
    "start_game": ["id", "names"],
    "start_kyoku": ["bakaze", "kyoku", "honba", "kyotaku", "oya", "dora_marker", "tehais"],
    "tsumo": ["actor", "pai"],
    "dahai": ["actor", "pai", "tsumogiri"],
    "chi": ["actor", "target", "pai", "consumed"],
    "pon": ["actor", "target", "pai", "consumed"],
    "daiminkan": ["actor", "target", "pai", "consumed"],
    "ankan": ["actor", "consumed"],
    "kakan": ["actor", "pai", "consumed"],
    "dora": ["dora_marker"],
    "reach": ["actor"],
    "reach_accepted": ["actor", "deltas", "scores", "then"],
    "hora": [
        "actor", "target", "pai", "uradora_markers", "hora_tehais", "yakus", "fu", "fan", "hora_points", "deltas", "scores", "rest",
    ],
    "ryukyoku": ["reason", "tehais", "tenpais", "deltas", "scores"],
    "end_kyoku": [],
    "end_game": ["scores", "kyotaku"],
}
DRAGONS = {"P": "white", "F": "green", "C": "red"}
OWN_YAKU = {ordinary: own for own, ordinary in YAKU.items() if own not in DRAGONS.values()}
OWN_REASONS = {ordinary: own for own, ordinary in REASONS.items()}


class Wrong(Exception):
    """The input can't be written otherwise: why, in words."""


def events_of(lines: list[str], first: int) -> Iterator[tuple[int, Event]]:
    """The events of some lines, with the number of each line."""
    for number, line in enumerate(lines, first):
        try:
            event = json.loads(line)
        except ValueError as error:
            raise Wrong(f"line {number} is no JSON: {error}") from None
        if not isinstance(event, dict) or event.get("type") not in FIELDS:
            raise Wrong(f"line {number} is no event of a game")
        yield number, event


def lines_of(text: str) -> list[str]:
    lines = text.split("\n")
    if lines.pop():
        raise Wrong(f"line {len(lines) + 1} lacks its newline")
    return lines


def written(record: str, is_plain: bool) -> str:
    """A record as ordinary mjai."""
    lines = lines_of(record)
    start = next((place for place, line in enumerate(lines) if line.startswith("{")), len(lines))
    header, walls = lines[:1], lines[1:start]
    if start < 2 or not re.fullmatch(r"game limit=\d+ draws=[01] red=[01]", header[0]) or not all(it.startswith("wall ") for it in walls):
        raise Wrong("this is no record: it begins with no header and walls")
    customs = Customs("mjai")
    game = []
    for _, event in events_of(lines[start:], start + 1):
        event = {**event, **customs.added(event)}
        if event["type"] == "start_game":
            del event["id"]
            event["aka_flag"] = header[0].endswith("red=1")
            event[KEPT] = {"game": header[0], "walls": [wall.removeprefix("wall ") for wall in walls]}
        if is_plain:
            event = {name: value for name, value in event.items() if name not in (KEPT, "rest", "then")}
        game.append(compact(event))
    return "".join(f"{line}\n" for line in game)


class Hands:
    """The melds of dragons of a hand, by which a win's triplets of dragons are told apart."""

    def __init__(self) -> None:
        self.melds: list[set[str]] = [set(), set(), set(), set()]

    def hear(self, event: Event) -> None:
        if event["type"] == "start_kyoku":
            self.melds = [set(), set(), set(), set()]
        elif event["type"] in ("pon", "daiminkan", "ankan"):
            self.melds[event["actor"]].add(event["consumed"][0])

    def dragons(self, win: Event) -> list[str]:
        """The yaku of the winner's triplets of dragons, in the order of the rules."""
        held = collections.Counter([*win["hora_tehais"], win["pai"]])
        return [name for tile, name in DRAGONS.items() if held[tile] >= 3 or tile in self.melds[win["actor"]]]

    def own_yaku(self, win: Event) -> list[list[object]]:
        """The yaku of a win as the table spells them."""
        count = sum(number for name, number in win["yakus"] if name == YAKU["white"])
        dragons = self.dragons(win)
        if count not in (0, len(dragons)):
            raise Wrong(f"{count} triplets of dragons are named, and the hand has {len(dragons)}")
        found: list[list[object]] = []
        for name, number in win["yakus"]:
            if name != YAKU["white"]:
                found.append([OWN_YAKU[name], number])
            elif dragons:
                found += [[dragon, 1] for dragon in dragons]
                dragons = []
        return found


def taken_back(game: str) -> str:
    """A game in ordinary mjai, as this program wrote it, as the record that it was."""
    hands = Hands()
    record: list[str] = []
    for number, event in events_of(lines_of(game), 1):
        try:
            if event["type"] == "start_game":
                record += [event[KEPT]["game"], *(f"wall {wall}" for wall in event[KEPT]["walls"])]
                event["id"] = 0
            hands.hear(event)
            if event["type"] == "hora":
                event["yakus"] = hands.own_yaku(event)
            if event["type"] == "ryukyoku":
                event["reason"] = OWN_REASONS[event["reason"]]
            record.append(compact({name: event[name] for name in ("type", *FIELDS[event["type"]])}))
        except KeyError as error:
            why = f"{event['type']} has no field {error}" if error.args[0] in (*FIELDS[event["type"]], KEPT) else f"{error} is unknown"
            raise Wrong(f"line {number}: {why}; only a game that was written here, and not with --plain, has all of a record") from None
        except (TypeError, ValueError, IndexError):
            raise Wrong(f"line {number}: this {event['type']} is out of form") from None
        except Wrong as wrong:
            raise Wrong(f"line {number}: {wrong}") from None
    return "".join(f"{line}\n" for line in record)


def read_words() -> argparse.Namespace:
    parser = argparse.ArgumentParser(
        description=__doc__, formatter_class=argparse.RawDescriptionHelpFormatter, usage="%(prog)s [--plain | --back] FILE")
    parser.add_argument("file", metavar="FILE", help="the record, or the game; - is the standard input")
    either = parser.add_mutually_exclusive_group()
    either.add_argument("--plain", action="store_true", help="leave out the fields that ordinary mjai doesn't have")
    either.add_argument("--back", action="store_true", help="write the record of a game that was written here")
    return parser.parse_args()


def main() -> None:
    words = read_words()
    try:
        data = sys.stdin.buffer.read() if words.file == "-" else pathlib.Path(words.file).read_bytes()
        text = data.decode("utf-8")
        text = taken_back(text) if words.back else written(text, words.plain)
        sys.stdout.buffer.write(text.encode("utf-8"))
        sys.stdout.buffer.flush()
    except OSError as error:
        sys.exit(f"export.py: {words.file}: {error.strerror or error}")
    except UnicodeDecodeError:
        sys.exit(f"export.py: {words.file}: this is no text in UTF-8")
    except Wrong as wrong:
        sys.exit(f"export.py: {words.file}: {wrong}")


if __name__ == "__main__":
    main()
