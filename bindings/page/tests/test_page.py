#!/usr/bin/env python3
"""The page's numbers of a hand, in node, beside those of the command `hand`.

usage: RIICHI_TABLE=riichi_table test_page.py     Without the program or without node all tests are skipped. With RIICHI_PAGE, a library that build.sh has
just made, that one is tried, and it must be the one that stands here.
"""
from __future__ import annotations

import json
import os
import random
import shutil
import subprocess
import unittest
from pathlib import Path
from typing import Any

HERE = Path(__file__).resolve().parent
STORED = HERE.parent / "riichi_page.wasm"
PAGE, PROGRAM, NODE = os.environ.get("RIICHI_PAGE", str(STORED)), os.environ.get("RIICHI_TABLE", ""), shutil.which("node")
NAMES = [f"{number}{suit}" for suit in "mps" for number in range(1, 10)] + list("ESWNPFC")
# (a module is named by its text, since node takes a file of this name for none)
ASK = r"""
const fs = require("fs");
const text = fs.readFileSync(process.argv[1]).toString("base64");
import(`data:text/javascript;base64,${text}`).then(({load}) => {
    const hands = load(fs.readFileSync(process.argv[2]));
    const asked = JSON.parse(fs.readFileSync(0, "utf8"));
    process.stdout.write(JSON.stringify(asked.map(([call, ...given]) => hands[call](...given))));
});
"""


def ask(asked: list[list[Any]]) -> list[Any]:
    """What the library answers to these calls, in node."""
    assert NODE
    words = [NODE, "--experimental-wasm-memory64", "-e", ASK, str(HERE.parent / "riichi_page.js"), PAGE]
    ran = subprocess.run(words, input=json.dumps(asked), capture_output=True, text=True, check=True)
    told: list[Any] = json.loads(ran.stdout)
    return told


def drawn(choose: random.Random, melds: int, tiles: int) -> tuple[list[int], list[dict[str, Any]]]:
    """A hand at random: how many concealed tiles of each kind, and so many melds."""
    left = [4] * 34
    made: list[dict[str, Any]] = []
    while len(made) < melds:
        form = choose.choice(("run", "triplet", "kan"))
        low = choose.randrange(34)
        kinds = [low, low + 1, low + 2] if form == "run" else [low] * (3 if form == "triplet" else 4)
        if (form != "run" or (low < 27 and low % 9 < 7)) and all(left[kind] >= kinds.count(kind) for kind in kinds):
            for kind in kinds:
                left[kind] -= 1
            made.append({"form": form, "low": low})
    held = [0] * 34
    near = choose.choice((34, 12, 9))
    start = choose.randrange(34)
    while sum(held) < tiles - 3 * melds:
        kind = (start + choose.randrange(near)) % 34
        if held[kind] < left[kind]:
            held[kind] += 1
        elif near < 34:
            near += 1
    return held, made


def words_of(held: list[int], melds: list[dict[str, Any]]) -> list[str]:
    """The words of a hand."""
    words = [NAMES[kind] for kind in range(34) for _ in range(held[kind])]
    for meld in melds:
        low = meld["low"]
        kinds = [low, low + 1, low + 2] if meld["form"] == "run" else [low] * (3 if meld["form"] == "triplet" else 4)
        words.append("+".join(NAMES[kind] for kind in kinds))
    return words


def told_by_program(held: list[int], melds: list[dict[str, Any]]) -> tuple[int, list[str], list[str]]:
    """The shanten, the target and the waits that the command `hand` writes."""
    ran = subprocess.run([PROGRAM, "hand", *words_of(held, melds)], capture_output=True, text=True, check=True)
    lines = [line.split() for line in ran.stdout.splitlines()]
    return int(lines[0][1]), lines[1][1:], [kind for kind in lines[2][1:] if kind != "-"]


@unittest.skipUnless(PROGRAM and NODE, "no RIICHI_TABLE or node")
class Page(unittest.TestCase):
    """The calls of the page."""

    def test_the_library_is_the_one_that_stands_here(self) -> None:
        """What was built now has the bytes of the stored one."""
        self.assertEqual(Path(PAGE).read_bytes(), STORED.read_bytes(), "run bindings/page/build.sh")

    def test_shanten_target_and_waits(self) -> None:
        """Of hands at random they are those of the command `hand`."""
        choose = random.Random(1)
        hands = [drawn(choose, choose.choice((0, 0, 0, 1, 2, 3, 4)), 13) for _ in range(300)]
        told = ask([[call, held, melds] for held, melds in hands for call in ("shanten", "waits")])
        for k, (held, melds) in enumerate(hands):
            nearest, kinds = told[2 * k], told[2 * k + 1]
            target = [NAMES[kind] for kind in range(34) for _ in range(nearest["target"][kind])]
            with self.subTest(held=held, melds=melds):
                self.assertEqual((nearest["number"], target, [NAMES[kind] for kind in kinds]), told_by_program(held, melds))

    def test_best_discard(self) -> None:
        """No other discard leaves less shanten, nor as much and stands later in tile order."""
        choose = random.Random(2)
        hands = [drawn(choose, choose.choice((0, 0, 1, 2)), 14) for _ in range(100)]
        best = ask([["bestDiscard", held, melds] for held, melds in hands])
        asked, whose = [], []
        for k, (held, melds) in enumerate(hands):
            for kind in range(34):
                if held[kind]:
                    asked.append(["shanten", [n - (i == kind) for i, n in enumerate(held)], melds])
                    whose.append((k, kind))
        left: dict[int, list[tuple[int, int]]] = {}
        for (k, kind), nearest in zip(whose, ask(asked)):
            left.setdefault(k, []).append((nearest["number"], -kind))
        self.assertEqual(best, [-min(left[k])[1] for k in range(len(hands))])

    def test_furiten(self) -> None:
        """A wait that was discarded or let pass."""
        asked = [["furiten", [1, 4], [4], [], []], ["furiten", [1, 4], [], [33], [1]], ["furiten", [1, 4], [2], [3], [5]], ["furiten", [], [1], [1], [1]],
                 ["furiten", [33], [], [33], []]]
        self.assertEqual(ask(asked), [True, True, False, False, True])

    def test_what_is_no_hand(self) -> None:
        """Numbers that are no hand are answered by null."""
        ready = [3] * 4 + [1] + [0] * 29
        for asked in (
            ["waits", [5] + [0] * 33], ["waits", [1] * 33], ["waits", [0] * 35], ["waits", [0] * 34, [{"form": "run", "low": 7}]],
            ["waits", [0] * 34, [{"form": "run", "low": 27}]], ["waits", [0] * 34, [{"form": "kan", "low": 34}]],
            ["waits", [1] + [0] * 33, [{"form": "kan", "low": 0}]], ["waits", [0] * 34, [{"form": "triplet", "low": k} for k in range(5)]],
            ["shanten", [1] * 14 + [0] * 20], ["shanten", ready, [{"form": "triplet", "low": 9}]], ["bestDiscard", ready], ["shanten", [0] * 34],
        ):
            with self.subTest(asked=asked):
                self.assertEqual(ask([asked]), [None])
        self.assertEqual(ask([["waits", ready]])[0], ask([["waits", ready, []]])[0])


if __name__ == "__main__":
    unittest.main()
