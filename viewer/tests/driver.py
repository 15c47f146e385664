"""What the tests of the page share: a browser, what a user does in it, and the table that is seen then."""
from __future__ import annotations

import json
import pathlib
import sys
import time
import unittest
from typing import Any

sys.path.insert(0, str(pathlib.Path(__file__).parent))
import browser

HERE = pathlib.Path(__file__).parent
ADDRESS = (HERE.parent / "index.html").as_uri()

# Reads the table from the page's own elements, seat after seat.
SEEN = """
const tiles = (node, kind) => [...node.querySelectorAll(kind + ' [data-tile]')];
// a mark on a tile that is drawn and not only kept
const has = (tile, mark) => tile.querySelector(mark) !== null;
const seen = () => {
  const seats = [0, 1, 2, 3].map(seat => document.querySelector(`#table [data-seat="${seat}"]`));
  const centre = document.getElementById('centre');
  const [, state, left] = [...centre.querySelectorAll('text')].map(it => it.textContent);
  return {
    hands: seats.map(seat => tiles(seat, '.hand').map(tile => tile.dataset.tile).sort()),
    melds: seats.map(seat => [...seat.querySelectorAll('.meld')].map(meld => {
      const all = tiles(meld, '');
      return [meld.dataset.type, all.map(tile => tile.dataset.tile).sort(), all.findIndex(tile => 'called' in tile.dataset)];
    })),
    rivers: seats.map(seat => tiles(seat, '.river').map(tile =>
      [tile.dataset.tile, 'side' in tile.dataset && has(tile, '.bid'), has(tile, '.frame.taken'), has(tile, '.shade')])),
    points: seats.map(seat => +seat.querySelector('.plate .points').textContent.replace(',', '').replace('−', '-')),
    state,
    indicators: tiles(centre, '.indicators').map(tile => tile.dataset.tile).filter(tile => tile !== '?'),
    left,
    newest: seats.flatMap((seat, index) => tiles(seat, '.river').flatMap((tile, place) => 'newest' in tile.dataset && has(tile, '.frame') ? [index, place] : []))
      .reduce((found, it) => [...(found || []), it], null),
    dora: [...document.querySelectorAll('#table .seat [data-dora]')].filter(tile => has(tile, '.dora') || tile.dataset.tile.length === 3).length,
  };
};
const press = key => document.body.dispatchEvent(new KeyboardEvent('keydown', {key, bubbles: true, cancelable: true}));
"""


def page_script(body: str) -> str:
    """A script that may ask for the table, and press keys."""
    return "(() => {" + SEEN + body + "})()"


def drop_script(text: str) -> str:
    """A script that drops a file with this text on the page, as a user's browser does."""
    return (
        "(() => { const data = new DataTransfer(); data.items.add(new File([" + json.dumps(text) + "], 'record.txt'));"
        "document.body.dispatchEvent(new DragEvent('drop', {dataTransfer: data, bubbles: true, cancelable: true})); })()"
    )


class Page(unittest.TestCase):
    """The page, driven as a user does it."""

    browser: browser.Browser

    @classmethod
    def setUpClass(cls) -> None:
        cls.browser = browser.Browser(seconds=120)
        cls.addClassCleanup(cls.browser.__exit__)

    def setUp(self) -> None:
        self.browser.size(1100, 800)

    def wait(self, script: str, seconds: float = 60) -> None:
        """Waits until a script is true in the page."""
        deadline = time.monotonic() + seconds
        while not self.browser.run(script):
            self.assertLess(time.monotonic(), deadline, f"never true: {script}")
            time.sleep(0.02)

    def drop(self, text: str, moment: str = "") -> None:
        self.browser.open("about:blank")
        self.browser.open(ADDRESS + moment)
        self.browser.run(drop_script(text))
        self.wait("!document.getElementById('game').hidden || !document.getElementById('problem').hidden")

    def text(self, name: str) -> str:
        return str(self.browser.run(f"document.getElementById('{name}').innerText"))

    def tables(self) -> list[dict[str, Any]]:
        """The tables that the page shows from the first deed to the last, a step at a time."""
        self.browser.run(page_script("press('Home');"))
        all_seen = [self.browser.run(page_script("return seen();"))]
        while not self.browser.run("document.getElementById('forward').disabled"):
            all_seen += self.browser.run(page_script(
                "const some = []; const forward = document.getElementById('forward');"
                "while (some.length < 100 && !forward.disabled) { press('ArrowRight'); some.push(seen()); } return some;"
            ))
        return all_seen
