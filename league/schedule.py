"""Which programs of a league meet in which block of four games, and at which seats.

A block is four programs, which play four games on the same walls and move one seat on from game to game. For up to 17
programs the blocks are those of a balanced design where a short search finds one: a list of blocks in which each pair of
programs meets equally often. The design is played over and over, each time in an order in which every beginning is as even as
may be. For more programs each block takes those that have played, and met, the fewest times so far.
"""
from __future__ import annotations

import collections
import itertools
from collections.abc import Iterator

Block = tuple[int, ...]  # four programs, by their places in the list

SEATS = 4
MOST_SEARCHED = 17  # programs; with more the search takes seconds
MOST_MEETINGS = 6  # of a pair in a design that is searched for
MOST_STEPS = 3000  # of a search


def pairs_of(block: Block) -> Iterator[tuple[int, int]]:
    return itertools.combinations(sorted(block), 2)


def orbits(programs: int, turning: int) -> list[list[Block]]:
    """All blocks, those together that come from one another by turning the first `turning` programs round."""
    seen: set[Block] = set()
    found = []
    for block in itertools.combinations(range(programs), SEATS):
        if block not in seen:
            turned = (tuple(sorted((p + turn) % turning if p < turning else p for p in block)) for turn in range(turning))
            found.append(list(dict.fromkeys(turned)))
            seen.update(found[-1])
    return found


def design(programs: int) -> list[Block]:
    """The fewest blocks that the search finds in which each pair meets equally often; none where it finds none.

    It looks for whole orbits of a turning circle of all programs, or of all but one: then pairs at one distance meet equally
    often anyhow, and only the distances have to be made equal.
    """
    found = [design_by_turning(programs, turning) for turning in (programs, programs - 1)]
    return min((blocks for blocks in found if blocks), key=len, default=[])


def design_by_turning(programs: int, turning: int) -> list[Block]:
    def distance(pair: tuple[int, int]) -> int:
        one, other = pair
        return 0 if other == turning else min(other - one, turning - other + one)

    size = collections.Counter(map(distance, itertools.combinations(range(programs), 2)))
    choices = orbits(programs, turning)
    meetings = []  # of a pair at each distance in each orbit
    for orbit in choices:
        count = collections.Counter(distance(pair) for block in orbit for pair in pairs_of(block))
        meetings.append({far: number // size[far] for far, number in count.items()})
    for each in range(1, MOST_MEETINGS + 1):
        if each * (programs - 1) % 3 == 0 and each * programs * (programs - 1) % 12 == 0:  # each is in whole blocks
            chosen = exact_choice(meetings, dict.fromkeys(size, each))
            if chosen is not None:
                return [block for place in chosen for block in choices[place]]
    return []


def exact_choice(rows: list[dict[int, int]], need: dict[int, int]) -> list[int] | None:
    """Places of rows that add up to the need; None where there are none or the search takes too many steps."""
    steps = 0

    def search(need: dict[int, int], left: list[int]) -> list[int] | None:
        nonlocal steps
        steps += 1
        wanting = [what for what in need if need[what]]
        if not wanting:
            return []
        first = min(wanting, key=lambda what: need[what])
        for place in [it for it in left if first in rows[it]]:
            left = [it for it in left if it != place]
            row = rows[place]
            if all(need[what] >= number for what, number in row.items()) and steps <= MOST_STEPS:
                rest = search({what: number - row.get(what, 0) for what, number in need.items()}, left)
                if rest is not None:
                    return [place, *rest]
        return None

    return search(need, list(range(len(rows))))


class Schedule:
    """The blocks of a league of so many programs, as many as are asked for; the first ones never change."""

    def __init__(self, programs: int) -> None:
        self.programs = programs
        self.design = design(programs) if programs <= MOST_SEARCHED else []
        self.unplayed: list[Block] = []  # of the design
        self.blocks: list[Block] = []
        self.played = [0] * programs
        self.met: collections.Counter[tuple[int, int]] = collections.Counter()
        self.after: collections.Counter[tuple[int, int]] = collections.Counter()  # who sits next after whom

    @property
    def period(self) -> int | None:
        """After each multiple of so many blocks all pairs have met equally often; None where this is not known."""
        return len(self.design) or None

    def block(self, number: int) -> Block:
        """The programs of a block, counted from 0, by their seats in its first game."""
        while len(self.blocks) <= number:
            self.add(self.next_block())
        return self.blocks[number]

    def seats(self, game: int) -> Block:
        """The programs of a game, counted from 0, by their seats."""
        block, turn = self.block(game // SEATS), game % SEATS
        return tuple(block[(seat - turn) % SEATS] for seat in range(SEATS))

    def next_block(self) -> Block:
        if self.design:
            self.unplayed = self.unplayed or list(self.design)
            chosen = min(self.unplayed, key=self.cost)
            self.unplayed.remove(chosen)
            return chosen
        block: Block = ()
        while len(block) < SEATS:
            block = min(((*block, other) for other in range(self.programs) if other not in block), key=self.cost)
        return block

    def cost(self, block: Block) -> tuple[int, int, int, Block]:
        """How uneven a block would make the numbers of games and of meetings; the least is the best."""
        fewest = min(self.played)
        ahead = sum(self.played[it] > fewest + 1 for it in block)
        return ahead, sum(self.met[pair] ** 2 for pair in pairs_of(block)), sum(self.played[it] for it in block), block

    def add(self, programs: Block) -> None:
        """Adds a block, in the order in which each program sits after each other one as equally often as may be."""
        first, *others = sorted(programs)
        orders = [(first, *rest) for rest in itertools.permutations(others)]
        block = min(orders, key=lambda order: (sum(self.after[pair] for pair in neighbours(order)), order))
        self.blocks.append(block)
        self.met.update(pairs_of(block))
        self.after.update(neighbours(block))
        for program in block:
            self.played[program] += 1


def neighbours(block: Block) -> list[tuple[int, int]]:
    """Each program of a block with the one after it."""
    return [(block[seat - 1], block[seat]) for seat in range(SEATS)]
