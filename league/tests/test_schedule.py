"""Schedules of 4 to 12 programs and more: who meets whom, who has which seat, and how even each beginning is."""
from __future__ import annotations

import collections
import itertools
import pathlib
import sys
import unittest

HERE = pathlib.Path(__file__).parent
sys.path.insert(0, str(HERE.parent))
from schedule import Schedule

# After so many blocks all pairs have met equally often.
PERIODS = {4: 1, 5: 5, 6: 15, 7: 7, 8: 14, 9: 18, 10: 30, 11: 55, 12: 33}


def spread(numbers: collections.Counter[tuple[int, int]], keys: list[tuple[int, int]]) -> int:
    """How far the numbers of these keys are apart."""
    return max(numbers[key] for key in keys) - min(numbers[key] for key in keys)


class Balance(unittest.TestCase):
    def test_each_program_has_each_seat_once_in_a_block(self) -> None:
        for programs in range(4, 13):
            schedule = Schedule(programs)
            for block in range(2 * PERIODS[programs]):
                games = [schedule.seats(4 * block + turn) for turn in range(4)]
                for seats in (*games, *zip(*games)):
                    self.assertEqual(sorted(seats), sorted(games[0]))
                    self.assertEqual(len(set(seats)), 4)

    def test_each_pair_meets_equally_often_after_each_period(self) -> None:
        for programs, period in PERIODS.items():
            with self.subTest(programs=programs):
                schedule = Schedule(programs)
                self.assertEqual(schedule.period, period)
                met: collections.Counter[tuple[int, int]] = collections.Counter()
                for game in range(3 * 4 * period):
                    met.update(itertools.combinations(sorted(schedule.seats(game)), 2))
                    if (game + 1) % (4 * period) == 0:
                        self.assertEqual(spread(met, list(itertools.combinations(range(programs), 2))), 0)

    def test_each_beginning_is_nearly_even(self) -> None:
        for programs in (*range(4, 13), 14, 17, 24):
            with self.subTest(programs=programs):
                schedule = Schedule(programs)
                pairs = list(itertools.combinations(range(programs), 2))
                both_ways = [*pairs, *((other, one) for one, other in pairs)]
                met: collections.Counter[tuple[int, int]] = collections.Counter()
                after: collections.Counter[tuple[int, int]] = collections.Counter()
                played: collections.Counter[tuple[int, int]] = collections.Counter()
                for block in range(60):
                    order = schedule.block(block)
                    met.update(itertools.combinations(sorted(order), 2))
                    after.update((order[seat - 1], order[seat]) for seat in range(4))
                    played.update((program, 0) for program in order)
                    self.assertLessEqual(spread(played, [(program, 0) for program in range(programs)]), 3)
                    self.assertLessEqual(spread(met, pairs), 3)
                    self.assertLessEqual(spread(after, both_ways), 4)

    def test_more_blocks_change_none(self) -> None:
        for programs in (5, 12, 30):
            short, long = Schedule(programs), Schedule(programs)
            first = [short.block(number) for number in range(10)]
            long.block(200)
            self.assertEqual([long.block(number) for number in range(10)], first)

    def test_four_programs_sit_in_each_order(self) -> None:
        schedule = Schedule(4)
        self.assertEqual([schedule.seats(game) for game in range(3)], [(0, 1, 2, 3), (3, 0, 1, 2), (2, 3, 0, 1)])
        self.assertEqual(len({schedule.block(number) for number in range(6)}), 6)


if __name__ == "__main__":
    unittest.main()
