"""Programs with the customs of today at a table: whole games in which each answer is the program's own.

It plays CUSTOMS_GAMES games of each style, eight where the environment names no number.
"""
from __future__ import annotations

import json
import os
import pathlib
import secrets
import subprocess
import sys
import time
import unittest

sys.path.insert(0, str(pathlib.Path(__file__).resolve().parent))
import helpers

sys.path.insert(0, str(helpers.EXAMPLES))
from customs import REASONS, YAKU, Customs, is_listed

GAMES = int(os.environ.get("CUSTOMS_GAMES", "8"))
NAMES = ["anna", "bert", "carl", "dora"]


class Mending(unittest.TestCase):
    """Single events and answers."""

    def test_a_hand_begins_with_the_points(self) -> None:
        customs = Customs()
        start = {"type": "start_kyoku", "kyoku": 1}
        self.assertEqual(customs.added(start), {"scores": [30000] * 4})
        self.assertEqual(customs.added({"type": "reach_accepted", "actor": 1, "scores": [30000, 29000, 30000, 30000]}), {})
        self.assertEqual(customs.added(start), {"scores": [30000, 29000, 30000, 30000]})
        self.assertEqual(customs.added({**start, "scores": [30000, 29000, 30000, 30000]}), {})

    def test_yaku_and_reasons_are_spelled_as_the_program_wants(self) -> None:
        win = {"type": "hora", "uradora_markers": ["1m"], "yakus": [["white", 1], ["iipeikou", 1], ["dora", 2]]}
        draw = {"type": "ryukyoku", "reason": "suufonrenta"}
        self.assertEqual(Customs().added(win), {"ura_markers": ["1m"]})
        self.assertEqual(Customs().added(draw), {})
        self.assertEqual(
            Customs("mjai").added(win), {"ura_markers": ["1m"], "yakus": [["sangenpai", 1], ["ipeko", 1], ["dora", 2]]})
        self.assertEqual(Customs("mjai").added(draw), {"reason": "sufonrenta"})

    def test_the_spellings_are_those_of_the_rules(self) -> None:
        rules = (helpers.ROOT / "docs" / "RULES.md").read_text(encoding="utf-8")
        rows = [line for line in rules.splitlines() if line.lstrip("| ")[:1].isdigit() and line.count("|") == 6]
        named = {word for row in rows for word in row.split("|")[2].split("`")[1::2]}
        self.assertLessEqual(set(YAKU), named)
        self.assertEqual(len(YAKU), 45)
        self.assertTrue(all(f"`{reason}`" in rules for reason in REASONS))

    def test_what_an_answer_lacks_and_can_be_known_is_added(self) -> None:
        event = {"type": "dahai", "actor": 2, "pai": "5mr", "tsumogiri": True}
        draw = {"type": "tsumo", "actor": 1, "pai": "E"}
        cases = [
            (draw, '{"type":"ryukyoku"}', '{"type":"ryukyoku","actor":1}'),
            (draw, '{"type":"hora","actor":1}', '{"type":"hora","actor":1,"target":1}'),
            (event, '{"type":"hora","actor":1}', '{"type":"hora","actor":1,"target":2}'),
            (event, '{"type":"hora","target":2}', '{"type":"hora","target":2,"actor":1}'),
            (event, '{"type":"pon","actor":1,"consumed":["5m","5m"]}',
             '{"type":"pon","actor":1,"consumed":["5m","5m"],"target":2,"pai":"5mr"}'),
            (draw, '{"type":"dahai","actor":1,"pai":"E"}', '{"type":"dahai","actor":1,"pai":"E","tsumogiri":true}'),
            (draw, '{"type":"dahai","actor":1,"pai":"S"}', '{"type":"dahai","actor":1,"pai":"S","tsumogiri":false}'),
            # what is whole or says nothing to mend goes as it came
            (draw, '{"type": "dahai", "actor": 1, "pai": "S", "tsumogiri": true}', None),
            (draw, '{"type":"none", "meta":[]}', None),
            (draw, "no JSON", None),
            (draw, "[1]", None),
        ]
        for at, answer, mended in cases:
            with self.subTest(answer):
                self.assertEqual(Customs.mended(answer, at, 1, "E"), mended or answer)

    def test_a_long_answer_goes_without_what_the_table_ignores(self) -> None:
        answer = json.dumps({"type": "reach", "actor": 1, "meta": "x" * 4100})
        self.assertEqual(Customs.mended(answer, {"type": "tsumo", "actor": 1, "pai": "E"}, 1, "E"), '{"type":"reach","actor":1}')

    def test_an_answer_is_listed_by_the_fields_of_the_list(self) -> None:
        chi = {"type": "chi", "actor": 1, "target": 0, "pai": "7m", "consumed": ["5m", "6m"]}
        event = {"type": "dahai", "possible_actions": [{"type": "none"}, chi, {"type": "hora", "actor": 1, "target": 0}]}
        self.assertTrue(is_listed('{"type":"none","meta":1}', event))
        self.assertTrue(is_listed(json.dumps({**chi, "consumed": ["6m", "5m"]}), event))
        self.assertTrue(is_listed('{"type":"hora","actor":1,"target":0,"pai":"7m"}', event))
        self.assertFalse(is_listed(json.dumps({**chi, "consumed": ["6m", "8m"]}), event))
        self.assertFalse(is_listed('{"type":"dahai"}', event))
        self.assertFalse(is_listed("?", event))


@helpers.wants_program
class Games(unittest.TestCase):
    def play(self, folder: pathlib.Path, style: str, seed: str) -> list[dict[str, object]]:
        """Plays a game of four programs of a style; the reports of their bridges."""
        port = helpers.free_port()
        words = [helpers.PROGRAM, "serve", "--seed", seed, "--port", str(port), "--limit", "60000", "--draws", "--red"]
        server = subprocess.Popen(words, stdout=subprocess.PIPE)
        self.addCleanup(server.kill)
        bridges = []
        for name in NAMES:
            command = [sys.executable, str(helpers.EXAMPLES / "bridge.py"), "--name", name, "--port", str(port), "--style", style]
            command += ["--spelling", "mjai", "--think", "60000", "--limit", "60000"]
            command += ["--log", str(folder / f"{name}.log"), "--report", str(folder / f"{name}.json"), "--"]
            command += [sys.executable, str(helpers.EXAMPLES / "tests" / "customary.py"), style, "{seat}"]
            bridges.append(subprocess.Popen(command, stdout=subprocess.PIPE, stderr=subprocess.PIPE, text=True))
            self.addCleanup(bridges[-1].kill)
        ended = [(*bridge.communicate(timeout=300), bridge.returncode) for bridge in bridges]
        record = server.communicate(timeout=60)[0]
        self.assertTrue(helpers.is_sound(record), record[:100])
        for name, (_, said, code) in zip(NAMES, ended):
            self.assertEqual((name, said, code), (name, "", 0))
        return [json.loads((folder / f"{name}.json").read_text()) for name in NAMES]

    def check_style(self, style: str) -> None:
        asked = 0
        begin = time.monotonic()
        for number in range(GAMES):
            seed = secrets.token_hex(32)
            with self.subTest(style=style, seed=seed):
                folder = helpers.folder_of(self)
                for report in self.play(folder, style, seed):
                    for name in ("stood_in", "refusals", "silences", "restarts", "late", "run_out"):
                        self.assertEqual(report[name], 0, report)
                    self.assertEqual(report["answers"], report["asked"])
                    asked += int(str(report["asked"]))
                log = (folder / "anna.log").read_text(encoding="utf-8")
                self.assertIn('told at event 2 (start_kyoku): {"scores":[30000,30000,30000,30000]}', log)
        print(f"\n{GAMES} games of style {style}: {asked} answers, {time.monotonic() - begin:.1f} s", file=sys.stderr)

    def test_programs_that_write_only_where_they_can_act(self) -> None:
        self.check_style("mortal")

    def test_programs_that_read_lists(self) -> None:
        self.check_style("batch")


if __name__ == "__main__":
    unittest.main()
