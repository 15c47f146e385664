"""What the page reads beside records: ordinary mjai, other programs' logs, gzipped files, and the records of several tables."""
from __future__ import annotations

import gzip
import json
import pathlib
import re
import sys
import tempfile
import unittest

HERE = pathlib.Path(__file__).resolve().parent
sys.path[:0] = [str(HERE), *(str(HERE.parent.parent / folder) for folder in ("league", "examples"))]
import browser
import export
import model
from customs import REASONS, YAKU
from driver import ADDRESS, Page

RECORD = (HERE / "records" / "four_riichis.txt").read_text()
KAN = (HERE / "records" / "robbed_kan.txt").read_text()
READ = (HERE.parent / "src" / "read.js").read_text(encoding="utf-8")
POINTS = "[...document.querySelectorAll('#table .points')].map(it => +it.textContent.replace(',', '').replace('−', '-'))"


def line_of(event: model.Event) -> str:
    return json.dumps(event) + "\n"


def as_mortal(text: str, start: int) -> str:
    """A record as Mortal's logs have it: points at the start of hands, and few fields in what moves points."""
    points, lines = [start] * 4, []
    for event in model.events_of(text):
        kind = event["type"]
        if kind == "start_kyoku":
            event = {**event, "scores": list(points)}
        elif kind == "reach_accepted":
            points = [score + delta for score, delta in zip(points, event["deltas"])]
            event = {"type": kind, "actor": event["actor"]}
        elif kind in ("hora", "ryukyoku"):
            points = [score + delta for score, delta in zip(points, event["deltas"])]
            event = {key: event[key] for key in ("type", "actor", "target", "deltas") if key in event}
            event |= {"ura_markers": []} if kind == "hora" else {}
        elif kind == "start_game":
            event = {"type": kind, "names": event["names"], "kyoku_first": 0, "aka_flag": False}
        elif kind == "end_game":
            event = {"type": kind}
        lines.append(line_of(event))
    return "".join(lines)


def as_mjai(text: str, start: int) -> str:
    """A record as mjai's own server writes it: no deposits at the start of hands, and other points."""
    lines = []
    for event in model.events_of(text):
        event = {key: value for key, value in event.items() if key not in ("kyotaku", "then", "rest")}
        if "scores" in event:
            event["scores"] = [score - 30000 + start for score in event["scores"]]
        lines.append(line_of(event))
        lines.append(line_of({"type": "none"}))
    return "".join(lines)


@unittest.skipUnless(browser.chromium(), "no Chromium")
class Reading(Page):
    """Files that others wrote."""

    def points(self, hand: int, deed: int) -> list[int]:
        self.browser.run(f"location.hash = '#hand={hand}&deed={deed}&seat=0&lang=en'")
        self.wait(f"document.getElementById('where').textContent.startsWith('Hand {hand} ')")
        return list(self.browser.run(POINTS))

    def test_logs_of_other_programs(self) -> None:
        for text in [RECORD, KAN]:
            hands = model.hands_of(text)
            for write, start in [(as_mortal, 25000), (as_mortal, 30000), (as_mjai, 25000), (as_mjai, 35000)]:
                with self.subTest(write.__name__, start=start):
                    self.drop(write(text, start), "#hand=1&deed=1&lang=en")
                    self.assertEqual((self.text("problem"), self.text("notes")), ("", ""))
                    self.assertEqual(self.browser.run(POINTS), [start] * 4)
                    last = [event["scores"] for event in hands[0] if "scores" in event][-1]
                    self.assertEqual(self.points(1, 999), [score - 30000 + start for score in last])

    def test_a_game_in_ordinary_mjai_is_shown_as_its_record_is(self) -> None:
        for name in ["double_ron", "four_riichis", "red_fives"]:
            record = (HERE / "records" / f"{name}.txt").read_text()
            for is_plain in [False, True]:
                with self.subTest(name, plain=is_plain):
                    self.drop(export.written(record, is_plain))
                    self.assertEqual(self.text("problem"), "")
                    self.assertEqual(self.tables(), list(model.tables_of(record)))

    def test_yaku_and_reasons_in_other_spellings_are_those_of_a_record(self) -> None:
        self.assertEqual({YAKU[name] for name in YAKU if YAKU[name] != name} - {"sangenpai"} | {it for name, it in REASONS.items() if it != name},
                         set(re.findall(r"([a-z_]+): \"", re.findall(r"const SPELLINGS = \{(.*?)\};", READ, re.DOTALL)[0])))
        for name in ["double_ron", "four_riichis", "red_fives", "whole_game", "four_winds"]:
            record = (HERE / "records" / f"{name}.txt").read_text()
            said = []
            for text in [record, export.written(record, True)]:
                self.drop(text, "#hand=1&deed=999&lang=ja")
                said.append(self.text("results"))
            self.assertEqual(*said)

    def test_points_that_do_not_add_up_are_said_and_it_goes_on(self) -> None:
        lines = RECORD.split("\n")
        place = next(place for place, line in enumerate(lines) if '"reach_accepted"' in line)
        lines[place] = lines[place].replace("29000", "28000", 1)
        self.drop("\n".join(lines), "#hand=1&deed=999&lang=en")
        self.assertEqual(self.text("problem"), "")
        self.assertTrue(self.text("notes").startswith(f"Line {place + 1}: the scores aren't"), self.text("notes"))
        hands = model.hands_of(RECORD)
        self.assertTrue(self.text("where").startswith(f"Hand 1 of {len(hands)}, deed {len(hands[0])} of {len(hands[0])},"), self.text("where"))

    def test_a_gzipped_file(self) -> None:
        with tempfile.TemporaryDirectory() as folder:
            for name, data in [("a.json.gz", gzip.compress(RECORD.encode())), ("b.json", RECORD.encode())]:
                path = pathlib.Path(folder, name)
                path.write_bytes(data)
                self.browser.open("about:blank")
                self.browser.open(ADDRESS + "#lang=en")
                self.browser.choose("#file", path)
                self.wait("!document.getElementById('game').hidden")
                self.assertEqual(len(model.hands_of(RECORD)[0]), int(self.browser.run("document.getElementById('place').max")))
            broken = pathlib.Path(folder, "broken.gz")
            broken.write_bytes(gzip.compress(RECORD.encode())[:200])
            self.browser.choose("#file", broken)
            self.wait("document.getElementById('problem').textContent === \"broken.gz can't be read.\"")

    def test_the_records_of_several_tables(self) -> None:
        whole = "table 0\n" + RECORD + "table 1\n" + KAN + "table 2\n" + RECORD.replace('"reach"', '"rich"', 1) + "table 3\n" + KAN
        self.drop(whole, "#table=2&hand=1&deed=3&lang=en")
        options = self.browser.run("[...document.getElementById('tables').options].map(it => it.textContent)")
        self.assertEqual(options, ["Table 0", "Table 1", "Table 2", "Table 3"])
        self.assertEqual(self.browser.run("document.getElementById('tables').value"), "1")
        counts = []
        for table in range(4):
            self.browser.run(f"(() => {{ const it = document.getElementById('tables'); it.value = {table}; it.dispatchEvent(new Event('change')); }})()")
            counts.append(int(self.browser.run("document.getElementById('place').max")))
            bad = whole[:whole.index('"rich"')].count("\n") + 1
            self.assertEqual(self.text("problem").split(":")[0], f"Line {bad}" if table == 2 else "")
        self.assertEqual([counts[0], counts[1], counts[3]], [len(model.hands_of(text)[0]) for text in (RECORD, KAN, KAN)])
        self.assertLess(counts[2], counts[0])
        self.wait("location.hash.startsWith('#table=4&hand=1&deed=1&')", 10)

    def test_games_one_after_the_other(self) -> None:
        game = as_mortal((HERE / "records" / "whole_game.txt").read_text(), 25000)
        self.drop(game * 2, "#lang=en")
        self.assertEqual(self.text("problem"), "")
        self.assertEqual(self.browser.run("document.getElementById('tables').options.length"), 2)


if __name__ == "__main__":
    unittest.main()
