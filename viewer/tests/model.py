"""What a record says of the table after each of its deeds, by a model of its own."""
from __future__ import annotations

import json
from collections import Counter
from typing import Any, Iterator

Event = dict[str, Any]


def events_of(text: str) -> list[Event]:
    """The events of a record, without its header and walls."""
    return [json.loads(line) for line in text.split("\n") if line.startswith("{")]


def hands_of(text: str) -> list[list[Event]]:
    """The events of each hand, hand after hand."""
    hands: list[list[Event]] = []
    for event in events_of(text):
        if event["type"] == "start_kyoku":
            hands.append([])
        if hands and event["type"] != "end_game":
            hands[-1].append(event)
    return hands


def dora_of(indicator: str) -> str:
    """The kind that an indicator makes a dora: the next one of its suit, of the winds or of the dragons, round and round."""
    row = next(row for row in ["ESWN", "PFC"] if indicator in row) if len(indicator) == 1 else "123456789"
    return row[(row.index(indicator[0]) + 1) % len(row)] + indicator[1:2]


class Table:
    """One hand after some of its events."""

    def __init__(self, start: Event, points: list[int]) -> None:
        self.held: list[Counter[str]] = [Counter(hand) for hand in start["tehais"]]
        self.melds: list[list[list[Any]]] = [[], [], [], []]
        self.rivers: list[list[list[Any]]] = [[], [], [], []]
        self.points = list(points)
        self.honba = start["honba"]
        self.deposits = start["kyotaku"]
        self.indicators: list[str] = [start["dora_marker"]]
        self.hidden: list[str] = []
        self.left = 70
        self.says_riichi: int | None = None
        self.newest: list[int] | None = None
        # the seats whose hands everybody sees, the tile that each won on, and those that lie before another seat
        self.shown: set[int] = set()
        self.won: list[Counter[str]] = [Counter(), Counter(), Counter(), Counter()]
        self.rons: list[Counter[str]] = [Counter(), Counter(), Counter(), Counter()]

    def lay(self, seat: int, tiles: list[str]) -> None:
        for tile in tiles:
            self.held[seat][tile if self.held[seat][tile] else "?"] -= 1

    def apply(self, event: Event) -> None:
        kind, seat = event["type"], event.get("actor", -1)
        if kind == "tsumo":
            self.held[seat][event["pai"]] += 1
            self.left -= 1
        elif kind == "reach":
            self.says_riichi = seat
        elif kind == "dahai":
            self.lay(seat, [event["pai"]])
            self.rivers[seat].append([event["pai"], self.says_riichi == seat, False, event["tsumogiri"]])
            self.newest = [seat, len(self.rivers[seat]) - 1]
            self.says_riichi = None
        elif kind in ("chi", "pon", "daiminkan"):
            self.lay(seat, event["consumed"])
            self.rivers[event["target"]][-1][2] = True
            # the called tile lies where the seat that discarded it sits: to the left, across or to the right
            place = {3: 0, 2: 1, 1: len(event["consumed"])}[(event["target"] - seat) % 4]
            self.melds[seat].append([kind, sorted([*event["consumed"], event["pai"]]), place])
        elif kind == "ankan":
            self.lay(seat, event["consumed"])
            self.melds[seat].append([kind, sorted(event["consumed"]), -1])
        elif kind == "kakan":
            self.lay(seat, [event["pai"]])
            pon = next(meld for meld in self.melds[seat] if meld[0] == "pon" and meld[1][0][:2] == event["pai"][:2])
            pon[:2] = [kind, sorted([*pon[1], event["pai"]])]
        elif kind == "dora":
            self.indicators.append(event["dora_marker"])
        elif kind == "hora":
            self.held[seat] = Counter([*event["hora_tehais"], event["pai"]])
            self.hidden = event["uradora_markers"] or self.hidden
            self.deposits = 0
            self.shown.add(seat)
            self.won[seat][event["pai"]] = 1
            self.rons[seat][event["pai"]] = int(seat != event["target"])
        elif kind == "ryukyoku":
            self.shown |= {seat for seat in range(4) if event["tehais"][seat] and "?" not in event["tehais"][seat]}
        self.deposits += kind == "reach_accepted"
        self.points = event.get("scores", self.points)

    def seen(self) -> dict[str, Any]:
        """The table as plain lists, which the page's are compared with."""
        return {
            "hands": [sorted((+hand).elements()) for hand in self.held],
            "melds": [[list(meld) for meld in melds] for melds in self.melds],
            "rivers": [[list(tile) for tile in river] for river in self.rivers],
            "points": list(self.points),
            "state": f"honba {self.honba} · deposits {self.deposits}",
            "indicators": list(self.indicators),
            "left": f"{self.left} tiles left",
            "newest": self.newest,
            "dora": sum(self.is_bright(tile) for tile in self.on_the_table()),
        }

    def on_the_table(self) -> Iterator[str]:
        """Every tile that lies face up outside the middle; of a concealed kan the two inner ones do, and a called one lies twice."""
        yield from (tile for hand in self.held for tile in (+hand).elements() if tile != "?")
        yield from (tile[0] for river in self.rivers for tile in river)
        for melds in self.melds:
            for kind, tiles, _ in melds:
                yield from sorted(tiles, key=len)[2:] if kind == "ankan" else tiles

    def is_bright(self, tile: str) -> bool:
        """Whether a tile is red or dora."""
        return len(tile) == 3 or any(tile[:2] == dora_of(indicator) for indicator in [*self.indicators, *self.hidden])

    def concealed(self) -> list[list[str]]:
        """Each seat's concealed tiles, without the one that it won on."""
        return [sorted((hand - won).elements()) for hand, won in zip(self.held, self.won)]

    def left_for(self, seat: int, kind: str) -> int:
        """How many tiles of a kind the seat doesn't see; one that was won on lies in its river or meld."""
        seen = [tile for it in {seat} | self.shown for tile in (self.held[it] - self.rons[it]).elements()]
        seen += [tile for melds in self.melds for meld in melds for tile in meld[1]]
        seen += [tile for river in self.rivers for tile, _, is_called, _ in river if not is_called]
        return 4 - sum(tile[:2] == kind for tile in seen + self.indicators + self.hidden)


def tables_of(text: str) -> Iterator[dict[str, Any]]:
    """The table after each deed of each hand, in order."""
    points = [30000] * 4
    for hand in hands_of(text):
        table = Table(hand[0], points)
        yield table.seen()
        for event in hand[1:]:
            table.apply(event)
            yield table.seen()
        points = table.points
