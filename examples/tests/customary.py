#!/usr/bin/env python3
"""A program for the tests with the customs of programs that stand: it wants what they want, and answers as they answer.

usage: customary.py mortal SEAT    an event a line; it writes only where it can act
       customary.py batch SEAT     a list of events a line, and a line for each

It knows its seat by its word alone, and ends with a sentence where an event lacks a field that such programs read, where
its seat is another, or where it finds that it can act otherwise than the table says. Calls and discards it finds by its own
tiles; whether it may win, reach or end a hand by nine kinds it takes from the event.
"""
from __future__ import annotations

import collections
import json
import sys
from typing import Any

Event = dict[str, Any]

# The fields that these programs want in each event.
WANTED: dict[str, list[str]] = {
    "start_game": ["names"], "start_kyoku": ["bakaze", "dora_marker", "kyoku", "honba", "kyotaku", "oya", "scores", "tehais"],
    "tsumo": ["actor", "pai"], "dahai": ["actor", "pai", "tsumogiri"], "chi": ["actor", "target", "pai", "consumed"],
    "pon": ["actor", "target", "pai", "consumed"], "daiminkan": ["actor", "target", "pai", "consumed"],
    "kakan": ["actor", "pai", "consumed"], "ankan": ["actor", "consumed"], "dora": ["dora_marker"], "reach": ["actor"],
    "reach_accepted": ["actor"], "hora": ["actor", "target", "deltas", "ura_markers"], "ryukyoku": ["deltas"],
    "end_kyoku": [], "end_game": [],
}
META = {"q_values": [0.25] * 46, "mask_bits": 70368744177663, "is_greedy": True, "eval_time_ns": 1234567}


def kind_of(tile: str) -> str:
    """The tile without its colour."""
    return tile[:2]


def neighbours(kind: str) -> list[tuple[str, str]]:
    """The pairs that make a run with a kind."""
    if len(kind) == 1:
        return []
    number, suit = int(kind[0]), kind[1]
    pairs = [(number - 2, number - 1), (number - 1, number + 1), (number + 1, number + 2)]
    return [(f"{a}{suit}", f"{b}{suit}") for a, b in pairs if a >= 1 and b <= 9]


class Customary:
    """Plays for one seat, and finds by its own tiles where it can act."""

    def __init__(self, seat: int) -> None:
        self.seat = seat
        self.hand: collections.Counter[str] = collections.Counter()
        self.scores = [0] * 4
        self.left = self.kans = 0
        self.is_ready = self.is_begun = False
        self.drawn: str | None = None

    def hear(self, event: Event) -> None:
        kind = event["type"]
        for field in WANTED[kind]:
            if field not in event:
                sys.exit(f"{kind} has no {field}")
        if not self.is_begun and kind != "start_game":
            sys.exit(f"{kind} comes before start_game")
        if kind == "start_game":
            if event.get("id", self.seat) != self.seat or self.is_begun:
                sys.exit(f"start_game for seat {event.get('id')}, and this is seat {self.seat}")
            self.is_begun = True
        elif kind == "start_kyoku":
            if "?" in event["tehais"][self.seat] or sum(event["scores"]) + 1000 * event["kyotaku"] != 120000:
                sys.exit(f"the hand or the scores of {event} aren't those of seat {self.seat}")
            self.hand = collections.Counter(event["tehais"][self.seat])
            self.left, self.kans, self.is_ready = 70, 0, False
        elif kind == "tsumo":
            self.left -= 1
        elif kind in ("daiminkan", "ankan", "kakan"):
            self.kans += 1
        if event.get("actor") == self.seat:
            self.hear_own(event)

    def hear_own(self, event: Event) -> None:
        kind = event["type"]
        if kind == "tsumo":
            self.drawn = event["pai"]
            self.hand[event["pai"]] += 1
        elif kind in ("dahai", "kakan"):
            self.hand[event["pai"]] -= 1
        elif kind in ("chi", "pon", "daiminkan", "ankan"):
            self.hand.subtract(event["consumed"])
            self.drawn = None
        elif kind == "reach_accepted":
            self.is_ready = True

    def count(self, kind: str) -> int:
        return sum(number for tile, number in self.hand.items() if kind_of(tile) == kind)

    def leaves_a_discard(self, kind: str, pair: tuple[str, str]) -> bool:
        """Whether a chi leaves a tile that may be discarded: neither the called kind nor the one at the other end of the run."""
        low, _, high = sorted([kind, *pair])
        suit = kind[1]
        other = {low: f"{int(high[0]) + 1}{suit}", high: f"{int(low[0]) - 1}{suit}"}.get(kind)
        forbidden = self.count(kind) + (self.count(other) - (other in pair) if other else 0)
        return sum(self.hand.values()) - 2 > forbidden

    def calls(self, event: Event) -> set[str]:
        """The calls of another's discard that it can make."""
        kind = kind_of(event["pai"])
        if self.is_ready or self.left == 0:
            return set()
        found = set()
        if self.count(kind) >= 2:
            found.add("pon")
        if self.count(kind) >= 3 and self.kans < 4:
            found.add("daiminkan")
        if (event["actor"] + 1) % 4 == self.seat:
            pairs = [it for it in neighbours(kind) if self.count(it[0]) and self.count(it[1])]
            if any(self.leaves_a_discard(kind, it) for it in pairs):
                found.add("chi")
        return found

    def can_act(self, event: Event) -> bool:
        """Whether it can act, which has to be what the table says of it."""
        listed = {action["type"] for action in event["possible_actions"]} - {"none"}
        can = listed & {"hora", "ryukyoku"}
        if event.get("actor") == self.seat and event["type"] in ("tsumo", "chi", "pon", "reach"):
            can |= {"dahai"} | listed & {"ankan", "kakan", "reach"}
        elif event["type"] == "dahai" and event["actor"] != self.seat:
            can |= self.calls(event)
        if can != listed:
            sys.exit(f"it can {sorted(can)}, and the table says {sorted(listed)}, at {event} with {+self.hand}")
        return bool(can)

    def action(self, event: Event) -> Event:
        """What it does where it can act, with the fields that such programs write."""
        listed: dict[str, list[Event]] = {}
        for action in event["possible_actions"]:
            listed.setdefault(action["type"], []).append(action)
        if "hora" in listed:
            return {"type": "hora", "actor": self.seat}
        if "ryukyoku" in listed:
            return {"type": "ryukyoku"}
        for kind in ("reach", "ankan", "kakan"):
            if kind in listed:
                return listed[kind][0]
        if "dahai" in listed:
            tile = self.worst([action["pai"] for action in listed["dahai"]])
            return {"type": "dahai", "actor": self.seat, "pai": tile}
        for kind in ("daiminkan", "pon", "chi"):
            if kind in listed and sum(self.hand.values()) > 7:
                return {name: listed[kind][0][name] for name in ("type", "actor", "target", "pai", "consumed")}
        return {"type": "none"}

    def worst(self, tiles: list[str]) -> str:
        """Of some tiles the one with the fewest like it or near it."""
        def near(tile: str) -> int:
            around = [kind_of(tile)] * 2 + [kind for pair in neighbours(kind_of(tile)) for kind in pair]
            return sum(self.count(kind) for kind in around)
        return min(tiles, key=near)


def write(action: Event) -> None:
    print(json.dumps({**action, "meta": META}), flush=True)


def mortal(player: Customary) -> None:
    """Writes a line only where it can act, with the seats and tiles that programs of this custom write."""
    for line in sys.stdin:
        event = json.loads(line)
        player.hear(event)
        if player.can_act(event):
            action = player.action(event)
            if action["type"] == "hora":
                action["target"] = event["actor"]
            if action["type"] == "dahai":
                action["tsumogiri"] = action["pai"] == player.drawn
            write(action)


def batch(player: Customary) -> None:
    """Answers each list; a discard has no tsumogiri, and a win no target."""
    for line in sys.stdin:
        events = json.loads(line)
        for event in events:
            player.hear(event)
            if player.can_act(event) and event is not events[-1]:
                sys.exit(f"it could act before the end of a list, at {event}")
        last = events[-1]
        if (last["type"] == "start_game") != (events[0]["type"] == "start_game"):
            sys.exit("start_game isn't a list of its own")
        write(player.action(last) if player.can_act(last) else {"type": "none"})


if __name__ == "__main__":
    if len(sys.argv) != 3 or sys.argv[1] not in ("mortal", "batch") or sys.argv[2] not in "0123":
        sys.exit(__doc__)
    {"mortal": mortal, "batch": batch}[sys.argv[1]](Customary(int(sys.argv[2])))
