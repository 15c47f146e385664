"""The customs of programs for ordinary mjai, beside the profile of mjai that the table speaks: the one home of what differs."""
from __future__ import annotations

import json
from typing import Any

LONGEST = 4095  # bytes of a line that the server reads
START_POINTS = 30000

Event = dict[str, Any]

# How the table spells yaku, and how ordinary mjai does.
YAKU = {
    "reach": "reach", "double_reach": "double_reach", "ippatsu": "ippatsu", "menzen_tsumo": "menzenchin_tsumoho",
    "pinfu": "pinfu", "iipeikou": "ipeko", "tanyao": "tanyaochu", "seat_wind": "jikaze", "round_wind": "bakaze",
    "white": "sangenpai", "green": "sangenpai", "red": "sangenpai", "haitei": "haiteiraoyue", "houtei": "hoteiraoyui",
    "rinshan": "rinshankaiho", "chankan": "chankan", "chiitoitsu": "chitoitsu", "toitoi": "toitoiho",
    "sanankou": "sananko", "sankantsu": "sankantsu", "sanshoku_doukou": "sanshokudoko", "honroutou": "honroto",
    "shousangen": "shosangen", "sanshoku_doujun": "sanshokudojun", "ittsu": "ikkitsukan", "chanta": "honchantaiyao",
    "honitsu": "honiso", "junchan": "junchantaiyao", "ryanpeikou": "ryanpeko", "chinitsu": "chiniso",
    "kokushi": "kokushimuso", "suuankou": "suanko", "daisangen": "daisangen", "shousuushi": "shosushi",
    "daisuushi": "daisushi", "tsuuiisou": "tsuiso", "chinroutou": "chinroto", "ryuuiisou": "ryuiso",
    "chuuren": "churenpoton", "suukantsu": "sukantsu", "tenhou": "tenho", "chiihou": "chiho",
    "dora": "dora", "uradora": "uradora", "akadora": "akadora",
}
# The same of the reasons of a drawn hand.
REASONS = {
    "fanpai": "fanpai", "kyushukyuhai": "kyushukyuhai", "suufonrenta": "sufonrenta", "suuchareach": "suchareach",
    "suukaikan": "sukaikan",
}
# The answers that name their seat.
ACTS = ("dahai", "chi", "pon", "daiminkan", "ankan", "kakan", "reach", "hora", "ryukyoku")
# The fields of answers that the table reads.
READ = ("type", "actor", "target", "pai", "consumed", "tsumogiri", "reason")


def compact(value: object) -> str:
    return json.dumps(value, separators=(",", ":"), ensure_ascii=False)


class Customs:
    """The way from the table's events to ordinary mjai, with what programs of today read, and from their answers back."""

    def __init__(self, spelling: str = "table") -> None:
        self.spelling = spelling
        self.scores = [START_POINTS] * 4

    def added(self, event: Event) -> Event:
        """The fields of an event that ordinary mjai has beside the table's, or has otherwise."""
        new: Event = {}
        kind = event["type"]
        if kind == "start_kyoku":
            new["scores"] = list(self.scores)
        elif kind == "hora":
            new["ura_markers"] = event["uradora_markers"]
            if self.spelling == "mjai":
                new["yakus"] = [[YAKU.get(name, name), number] for name, number in event["yakus"]]
        elif kind == "ryukyoku" and self.spelling == "mjai":
            new["reason"] = REASONS.get(event["reason"], event["reason"])
        self.scores = event.get("scores", self.scores)
        return {name: value for name, value in new.items() if event.get(name) != value}

    @staticmethod
    def mended(answer: str, event: Event, seat: int | None, drawn: str | None) -> str:
        """A seat's answer to an event, with the fields that it lacks and that can be known, and no longer than the table reads."""
        try:
            value = json.loads(answer)
        except ValueError:
            return answer
        if not isinstance(value, dict):
            return answer
        kind = value.get("type")
        whole = dict(value)
        if kind in ACTS:
            whole.setdefault("actor", seat)
        if kind in ("chi", "pon", "daiminkan", "hora") and "actor" in event:
            whole.setdefault("target", event["actor"])
        if kind in ("chi", "pon", "daiminkan") and "pai" in event:
            whole.setdefault("pai", event["pai"])
        if kind == "dahai":
            whole.setdefault("tsumogiri", whole.get("pai") == drawn)
        if len(compact(whole).encode()) > LONGEST:
            whole = {name: whole[name] for name in READ if name in whole}
        return answer if whole == value else compact(whole)


def is_listed(answer: str, event: Event) -> bool:
    """Whether an answer is one of those that the table lists at an event, as far as its fields say."""
    try:
        value = json.loads(answer)
    except ValueError:
        return False
    if not isinstance(value, dict):
        return False
    listed = [action for action in event.get("possible_actions", []) if action["type"] == value.get("type")]
    return any(all(alike(value.get(name, given), given) for name, given in action.items()) for action in listed)


def alike(one: object, other: object) -> bool:
    """Whether two values of fields say the same; the tiles of a list come in any order."""
    if isinstance(one, list) and isinstance(other, list):
        return sorted(map(str, one)) == sorted(map(str, other))
    return one == other
