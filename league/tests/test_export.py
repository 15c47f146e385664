"""Records as ordinary mjai, and back."""
from __future__ import annotations

import json
import pathlib
import subprocess
import sys
import unittest
from typing import Any

HERE = pathlib.Path(__file__).resolve().parent
ROOT = HERE.parent.parent
sys.path[:0] = [str(HERE.parent), str(ROOT / "examples")]
import export
from customs import REASONS, YAKU

EXPORT = HERE.parent / "export.py"
RECORDS = {path.stem: path.read_text(encoding="utf-8") for path in sorted((ROOT / "viewer" / "tests" / "records").glob("*.txt"))}
del RECORDS["observed"]  # which is what a watcher is told, and no record

# Three triplets of dragons in four forms: as melds, in the hand, and completed by the winning tile.
WINS: list[tuple[list[str], list[str], str, list[str]]] = [
    (["pon P"], ["F", "F", "F", "C", "C", "1m", "1m", "1m", "2m", "2m"], "C", ["white", "green", "red"]),
    (["ankan F", "pon C"], ["1m", "1m", "1m", "2m"], "2m", ["green", "red"]),
    (["daiminkan C"], ["P", "P", "F", "F", "F", "1m", "1m", "1m", "2m", "2m"], "2m", ["green", "red"]),
    ([], ["P", "P", "1m", "1m"], "P", ["white"]),
]


def events(text: str) -> list[dict[str, Any]]:
    return [json.loads(line) for line in text.split("\n")[:-1]]


class Export(unittest.TestCase):
    def test_there_and_back_is_the_same_record(self) -> None:
        for name, record in RECORDS.items():
            with self.subTest(name):
                self.assertEqual(export.taken_back(export.written(record, False)), record)

    def test_an_event_of_ordinary_mjai_has_its_fields_and_spellings(self) -> None:
        yaku, reasons = set(YAKU.values()), set(REASONS.values())
        seen = set()
        for name, record in RECORDS.items():
            points = [30000] * 4
            for event in events(export.written(record, True)):
                with self.subTest(name, event=event):
                    seen.add(event["type"])
                    self.assertFalse({"possible_actions", "rest", "then", export.KEPT} & event.keys())
                    if event["type"] == "start_kyoku":
                        self.assertEqual(event["scores"], points)
                    if event["type"] == "hora":
                        self.assertEqual(event["ura_markers"], event["uradora_markers"])
                        self.assertLessEqual({name for name, _ in event["yakus"]}, yaku)
                    if event["type"] == "ryukyoku":
                        self.assertIn(event["reason"], reasons)
                    if event["type"] == "start_game":
                        self.assertEqual(event["aka_flag"], record.split("\n")[0].endswith("red=1"))
                    points = event.get("scores", points)
        self.assertEqual(seen, set(export.FIELDS))

    def test_dragons_are_told_apart_by_the_hand(self) -> None:
        for melds, held, tile, names in WINS:
            with self.subTest(melds, held=held):
                hands = export.Hands()
                for meld in melds:
                    kind, dragon = meld.split()
                    hands.hear({"type": kind, "actor": 1, "consumed": [dragon] * 2})
                for number in ([["sangenpai", 1]] * len(names), [["sangenpai", len(names)]]):
                    win = {"actor": 1, "pai": tile, "hora_tehais": held, "yakus": [["reach", 1], *number, ["dora", 2]]}
                    self.assertEqual(hands.own_yaku(win), [["reach", 1], *([name, 1] for name in names), ["dora", 2]])
        with self.assertRaisesRegex(export.Wrong, "1 triplets of dragons are named, and the hand has 0"):
            export.Hands().own_yaku({"actor": 0, "pai": "1m", "hora_tehais": ["1m"], "yakus": [["sangenpai", 1]]})

    def test_what_is_wrong_is_said_with_its_line(self) -> None:
        record = RECORDS["double_ron"]
        game = export.written(record, False)
        cases: list[tuple[list[str], str, str]] = [
            (["--back"], export.written(record, True), "line 1: start_game has no field 'riichi_table'; only a game that was"),
            (["--back"], game.replace("tsumogiri", "giri", 1), "has no field 'tsumogiri'"),
            (["--back"], "{\n", "line 1 is no JSON: "),
            (["--back"], game[:-1], f"line {game.count(chr(10))} lacks its newline"),
            ([], game, "this is no record: it begins with no header and walls"),
            ([], record + "x\n", f"line {record.count(chr(10)) + 1} is no JSON: "),
            ([], record + '{"type":"hello"}\n', f"line {record.count(chr(10)) + 1} is no event of a game"),
        ]
        for words, text, said in cases:
            with self.subTest(said):
                ended = subprocess.run([sys.executable, EXPORT, *words, "-"], input=text, capture_output=True, text=True, timeout=60)
                self.assertEqual((ended.returncode, ended.stdout), (1, ""))
                self.assertIn(said, ended.stderr)
                self.assertEqual(ended.stderr.count("\n"), 1)
        ended = subprocess.run([sys.executable, EXPORT, "/no/record"], capture_output=True, text=True, timeout=60)
        self.assertEqual((ended.returncode, ended.stderr), (1, "export.py: /no/record: No such file or directory\n"))


if __name__ == "__main__":
    unittest.main()
