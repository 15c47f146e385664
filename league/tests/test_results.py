"""Seeds, walls, counts, intervals and tables against values that were found otherwise."""
from __future__ import annotations

import json
import math
import pathlib
import random
import sys
import unittest

HERE = pathlib.Path(__file__).parent
sys.path.insert(0, str(HERE.parent))
import results
import tables
import walls
from results import Row

RECORD = (HERE.parent.parent / "viewer" / "tests" / "records" / "whole_game.txt").read_text()


class Seeds(unittest.TestCase):
    def test_the_cipher_is_chacha20(self) -> None:
        # the first block of the all-zero key, as published for ChaCha20
        block = b"".join(word.to_bytes(4, "little") for word in walls.chacha_block([0] * 8, 0, 0))
        self.assertEqual(block[:16].hex(), "76b8e0ada0f13d90405d6ae55386bd28")

    def test_walls_are_those_of_the_program(self) -> None:
        # the walls of `selfplay 7`, whose seed begins with the number 7
        told = [line.split(" ")[1:] for line in RECORD.split("\n") if line.startswith("wall ")]
        seed = "07" + "00" * 31
        self.assertEqual([walls.wall_of(seed, number) for number in range(len(told))], told)

    def test_seeds_follow_from_the_leagues_and_differ(self) -> None:
        league = "ab" * 32
        seeds = [walls.seed_of(league, block) for block in range(100)]
        self.assertEqual(len(set(seeds)), 100)
        # as sha256sum says of the words "riichi_table league", 32 bytes ab and the bytes 00 00 00 00 00 00 00 01
        self.assertEqual(seeds[1], "58e3260560eab3b212cd3c7dcc2af2dd0b3a354d7f87d8533a6ea6c3f75974b5")


    def test_red_fives_stand_once(self) -> None:
        wall = walls.wall_of("07" * 32, 0, red=True)
        self.assertEqual([wall.count(tile) for tile in ("5m", "5mr", "5s", "5sr", "4m", "E")], [3, 1, 3, 1, 4, 4])
        self.assertEqual([tile.rstrip("r") for tile in wall], walls.wall_of("07" * 32, 0))


class Counts(unittest.TestCase):
    def test_a_record_is_counted(self) -> None:
        counted = results.counted(RECORD)

        def column(name: str) -> list[int]:
            return [counted[player][name] for player in "abcd"]

        self.assertEqual(column("points"), [25600, 47500, 25900, 21000])
        self.assertEqual(column("place"), [3, 1, 2, 4])
        self.assertEqual(column("wins"), [3, 2, 2, 2])
        self.assertEqual(column("deal_ins"), [0, 1, 2, 1])
        self.assertEqual(column("riichis"), [3, 2, 5, 1])

    def test_of_equal_points_the_first_seat_stands_before(self) -> None:
        record = '{"type":"start_game","names":["a","b","c","d"]}\n{"type":"end_game","scores":[20000,40000,20000,40000]}\n'
        self.assertEqual([row["place"] for row in results.counted(record).values()], [3, 1, 4, 2])

    def test_a_report_without_numbers_has_none(self) -> None:
        row = results.reported({"answers": 9, "starts": 3, "expired": 2})
        self.assertEqual([row[field] for field, _, _ in results.FAULTS], [0, 2, 0, 2, 0])
        self.assertFalse(results.was_stood_in_for(row))
        reports: list[Row] = [{"answers": 9, "stood_in": 1}, {"answers": 0}, {"answers": 9, "problem": "it is lost"}]
        for report in reports:
            self.assertTrue(results.was_stood_in_for(results.reported(report)))


class Intervals(unittest.TestCase):
    def test_points_of_students_distribution(self) -> None:
        # from the density itself, by Simpson's rule
        for freedom in [1, 2, 5, 10, 30, 31, 40, 100, 1000]:
            edge = results.t95(freedom)
            scale = math.exp(math.lgamma((freedom + 1) / 2) - math.lgamma(freedom / 2)) / math.sqrt(freedom * math.pi)
            steps = 20000
            width = edge / steps
            area = sum(
                (1 if i in (0, steps) else 4 if i % 2 else 2) * scale * (1 + (i * width) ** 2 / freedom) ** (-(freedom + 1) / 2)
                for i in range(steps + 1)
            ) * width / 3
            self.assertAlmostEqual(2 * area, 0.95, places=4, msg=f"{freedom} degrees")

    def test_intervals_are_over_blocks(self) -> None:
        # two blocks with the means 10 and 20, and a game of a third
        games = {number: game_of("abcd", points) for number, points in enumerate([8, 9, 11, 12, 18, 19, 21, 22, 1000])}
        table = results.table_of(list("abcd"), games)
        self.assertEqual((table["games"], table["blocks"]), (8, 2))
        row = table["rows"][0]
        self.assertEqual((row["points"], row["games"]), (15, 8))
        self.assertAlmostEqual(row["points_interval"], 12.706 * 5, places=6)
        self.assertIsNone(results.table_of(["a"], {number: games[number] for number in range(4)})["rows"][0]["points_interval"])

    def test_a_program_has_the_blocks_that_it_played_in(self) -> None:
        games = {number: game_of("abcd" if number < 4 else "bcde", 100 * (number // 4)) for number in range(12)}
        rows = {row["name"]: row for row in results.table_of(list("abcdef"), games)["rows"]}
        self.assertEqual({name: row["games"] for name, row in rows.items()}, {"a": 4, "b": 12, "c": 12, "d": 12, "e": 8})
        self.assertEqual([rows[name]["points"] for name in "abe"], [0, 100, 150])

    def test_about_95_of_100_intervals_hold_the_true_mean(self) -> None:
        chance = random.Random(1)
        held = 0
        for _ in range(2000):
            mean, half = results.interval([chance.gauss(3, 2) for _ in range(6)])
            held += abs(mean - 3) <= (half or 0)
        self.assertAlmostEqual(held / 2000, 0.95, delta=0.02)


class Tables(unittest.TestCase):
    def test_places_are_counted_and_scored(self) -> None:
        games = {number: game_of("abcd", 33000) for number in range(4)}
        for number, place in enumerate((1, 1, 4, 2)):
            games[number]["a"]["place"] = place
        row = results.table_of(list("abcd"), games, [15, 5, -5, -15])["rows"][0]
        self.assertEqual(row["places"], [2, 1, 0, 1])
        # three thousand points above the start, and 15, 15, -15 and 5 for the places
        self.assertEqual(row["score"], 8)
        self.assertNotIn("score", results.table_of(list("abcd"), games)["rows"][0])

    def test_text_and_page(self) -> None:
        names = ["<a>", "b", "c", "d"]
        games = {number: game_of(names, 30000) for number in range(8)}
        games[5]["b"].update(results.reported({"stood_in": 7, "restarts": 3, "refusals": 2, "run_out": 1, "late": 5, "answers": 1}))
        table = results.table_of(names, games)
        text = tables.text_of(table, 12)
        self.assertTrue(text.startswith("8 of 12 games\n"))
        self.assertIn("30,000 ± 0", text)
        for title in ("stood in", "restarts", "refusals", "run-out", "late"):
            self.assertIn(title, text)
        faults = next(line for line in reversed(text.splitlines()) if line.startswith("b "))
        self.assertEqual([cell.split()[0] for cell in faults[3:].split("  ") if cell.strip()], ["0.88", "0.38", "0.25", "0.12", "0.62"])
        page = tables.page_of(table, 12, games, {number: f"games/{number}.record" for number in games})
        self.assertIn("&lt;a&gt;", page)
        self.assertNotIn("<a>", page)
        self.assertIn('href="games/7.record"', page)
        self.assertIn('b 30,000 <span class="fault">stood in 7</span>', page)
        self.assertIn("0.88 ± ", page)
        self.assertIn('http-equiv="refresh"', page)
        self.assertNotIn('http-equiv="refresh"', tables.page_of(table, 8, games, {number: "" for number in games}))
        self.assertEqual(json.loads(json.dumps(table)), table)

    def test_failures_in_words(self) -> None:
        ended = [{"event": 5, "code": 1, "stderr": "Traceback\nSyntaxError"}, {"event": 9, "code": -9, "stderr": ""}]
        report: Row = {"answers": 4, "stood_in": 2, "restarts": 1, "late": 1, "ended": ended, "problem": "no seat"}
        self.assertEqual(
            tables.in_words("b", results.reported(report)),
            "b: stood in 2; restarts 1; late 1; ended with 1 at event 5 the first of 2 times, saying last 'SyntaxError'; no seat")
        report["ended"] = ended[1:]
        self.assertIn("; ended by signal 9 at event 9; ", tables.in_words("b", results.reported(report)) or "")
        self.assertIsNone(tables.in_words("b", results.reported({"answers": 4})))


def game_of(names: str | list[str], points: int) -> dict[str, Row]:
    """A game in which all have the same, and nothing went wrong."""
    fine = results.reported({"answers": 1})
    row = {"points": points, "place": 2, "wins": 1, "deal_ins": 1, "riichis": 1, **fine}
    return {name: {"seat": seat, **row} for seat, name in enumerate(names)}


if __name__ == "__main__":
    unittest.main()
