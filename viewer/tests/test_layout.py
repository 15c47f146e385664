"""Nothing lies on anything else: the boxes of tiles, plates, texts and controls, measured in a headless Chromium.

The records are games over `serve` of players that call, reach and make kans wherever they may: rivers of more than twenty
discards, three kans of a seat, names of 64 bytes, points below none. Beside them stands a hand made up to be worse than any that
can be played. Usually some moments of each are measured; with the word `--every-deed` of this file, the whole page at every deed of
them, in each size, light and dark, which takes an hour. Names of records after that word, as `wild_46`, are those that are measured.
"""
from __future__ import annotations

import gzip
import json
import pathlib
import sys
import unittest
from typing import Iterator, Sequence

sys.path.insert(0, str(pathlib.Path(__file__).parent))
import browser
import model
from driver import Page

HERE = pathlib.Path(__file__).parent
WILD = sorted((HERE / "records").glob("wild_*.txt.gz"))
SIZES = [(1280, 800), (375, 812), (812, 375)]

# What lies on something else, or leaves the box that it stands in, as words; nothing where all is well.
MEASURE = """
const near = .75;
const boxOf = node => { const {left, top, right, bottom} = node.getBoundingClientRect(); return {left, top, right, bottom}; };
const isSeen = box => box.right - box.left > near && box.bottom - box.top > near;
const meets = (a, b) => Math.min(a.right, b.right) - Math.max(a.left, b.left) > near && Math.min(a.bottom, b.bottom) - Math.max(a.top, b.top) > near;
const holds = (a, b) => b.left > a.left - near && b.right < a.right + near && b.top > a.top - near && b.bottom < a.bottom + near;
const common = (a, b) => ({
  left: Math.max(a.left, b.left), right: Math.min(a.right, b.right), top: Math.max(a.top, b.top), bottom: Math.min(a.bottom, b.bottom),
});
const everywhere = {left: -Infinity, right: Infinity, top: -Infinity, bottom: Infinity};
// what is seen through a node and the scrolled and cut boxes that it stands in
const clipOf = (node, known) => {
  if (!node || node === document.documentElement) return everywhere;
  if (!known.has(node)) {
    const outer = clipOf(node.parentElement, known), {overflowX, overflowY} = getComputedStyle(node);
    known.set(node, overflowX === 'visible' && overflowY === 'visible' ? outer : common(outer, boxOf(node)));
  }
  return known.get(node);
};
const overlaps = items => {
  const faults = [];
  items.sort((a, b) => a.box.left - b.box.left);
  items.forEach((one, place) => {
    for (let next = place + 1; next < items.length && items[next].box.left < one.box.right; next += 1) {
      const other = items[next];
      if (one.inside === other || other.inside === one || !meets(one.box, other.box)) continue;
      if (one.node.contains?.(other.node) || other.node.contains?.(one.node)) continue;
      faults.push(one.name + ' on ' + other.name);
    }
  });
  return faults;
};
const ofTable = () => {
  const table = document.getElementById('table');
  const grounds = [...table.querySelectorAll('.ground')].map(node => ({node, box: boxOf(node), name: node.parentNode.id || 'a plate'}));
  const inside = node => grounds.find(ground => ground.node.parentNode.contains(node));
  const marks = [...table.querySelectorAll('[data-tile]')].map(node => ({node, box: boxOf(node), name: 'tile ' + node.dataset.tile, inside: inside(node)}));
  const texts = [...table.querySelectorAll('text, .wind')].filter(node => !node.classList.contains('letter'))
    .map(node => ({node, box: boxOf(node), name: 'text ' + node.textContent, inside: inside(node)}));
  const sticks = [...table.querySelectorAll('.stick')].map(node => ({node, box: boxOf(node), name: 'a stick', inside: grounds[0]}));
  const all = [...grounds, ...marks, ...texts, ...sticks];
  const out = all.filter(it => !holds((it.inside || {box: boxOf(table)}).box, it.box)).map(it => it.name + ' is outside');
  return [...overlaps(all), ...out];
};
const ofPage = () => {
  const items = [], known = new Map();
  const seenOf = (box, node) => common(box, clipOf(node, known));
  const nodes = document.querySelectorAll('header button, header select, header label, #table, #controls > *, #strip button, #graph .column');
  for (const node of nodes) items.push({node, box: seenOf(boxOf(node), node.parentElement), name: node.id || node.className || node.tagName});
  const walker = document.createTreeWalker(document.body, NodeFilter.SHOW_TEXT);
  while (walker.nextNode()) {
    const node = walker.currentNode, parent = node.parentElement;
    if (!node.textContent.trim() || parent.closest('select, script, style, #table, title, #faces')) continue;
    // (rows of the list that are scrolled away)
    if (parent.dataset.deed && !isSeen(seenOf(boxOf(parent), parent.parentElement))) continue;
    const range = document.createRange();
    range.selectNodeContents(node);
    for (const it of range.getClientRects()) items.push({node: parent, box: seenOf(it, parent), name: 'text ' + node.textContent.slice(0, 20)});
  }
  const seen = items.filter(it => isSeen(it.box));
  const wide = document.documentElement.scrollWidth > innerWidth ? ['the page is too wide'] : [];
  const table = boxOf(document.getElementById('table'));
  const low = table.bottom > innerHeight || table.top < 0 ? ['the table is not seen whole'] : [];
  return [...overlaps(seen), ...wide, ...low];
};
const faults = () => [...ofTable(), ...ofPage()];
const goTo = (hand, deed) => {
  const there = document.querySelector(`#strip [data-hand="${hand}"]`);
  if (!there.hasAttribute('aria-current')) there.click();
  document.querySelector(`#deeds [data-deed="${deed}"]`).click();
};
"""


def worst_hand() -> str:
    """An mjai log of one hand that no game has: four kans of each seat, twenty-seven discards of each, all in riichi."""
    names = ["W" * 64, "雀" * 21, "a name of sixty-four bytes, with some spaces in it, and an end..", "ﷺ" * 21]
    kinds = [f"{number}{suit}" for suit in "mps" for number in range(1, 10)] + list("ESWNPFC")
    events: list[model.Event] = [{"type": "start_game", "names": names}]
    hands = [[kind for kind in kinds[4 * seat:4 * seat + 4] for _ in range(3)] + [kinds[16 + seat]] for seat in range(4)]
    events.append({"type": "start_kyoku", "bakaze": "S", "dora_marker": "5mr", "kyoku": 4, "honba": 12, "kyotaku": 11, "oya": 3,
                   "scores": [-110800, -10800, 233000, -20900], "tehais": hands})
    for kan in range(4):
        for seat in range(4):
            kind, form = kinds[4 * seat + kan], (kan + seat) % 3
            giver = (seat + 1 + kan % 3) % 4
            if form == 0:
                events.append({"type": "tsumo", "actor": seat, "pai": kind})
                events.append({"type": "ankan", "actor": seat, "consumed": [kind] * 4})
            else:
                events.append({"type": "tsumo", "actor": giver, "pai": kind})
                events.append({"type": "dahai", "actor": giver, "pai": kind, "tsumogiri": True})
                call = "pon" if form == 1 else "daiminkan"
                events.append({"type": call, "actor": seat, "target": giver, "pai": kind, "consumed": [kind] * (2 + form - 1)})
            if form == 1:
                events.append({"type": "kakan", "actor": seat, "pai": kind, "consumed": [kind] * 3})
        events.append({"type": "dora", "dora_marker": kinds[30 + kan]})
    rounds = 0
    while rounds < 27:
        for seat in range(4):
            if rounds == 3 * seat:
                events.append({"type": "reach", "actor": seat})
            tile = ["5mr", "5pr", "5sr", "9m", "1p"][(rounds + seat) % 5]
            events.append({"type": "tsumo", "actor": seat, "pai": tile})
            events.append({"type": "dahai", "actor": seat, "pai": tile, "tsumogiri": True})
            if rounds == 3 * seat:
                events.append({"type": "reach_accepted", "actor": seat})
        rounds += 1
    events.append({"type": "tsumo", "actor": 0, "pai": kinds[16]})
    events.append({"type": "hora", "actor": 0, "target": 0, "pai": kinds[16], "ura_markers": ["5mr", "5pr", "5sr", "E", "1s"],
                   "deltas": [196000, -64000, -66000, -66000]})
    events.append({"type": "end_kyoku"})
    return "".join(json.dumps(event, ensure_ascii=False) + "\n" for event in events)


def moments_of(text: str) -> Iterator[list[int]]:
    """The moments of a record to look at: of each hand the end, and where a seat has most discards or melds."""
    for place, hand in enumerate(model.hands_of(text)):
        deeds = {len(hand)} if place % 4 == 0 else set()
        rivers, melds = [0] * 4, [0] * 4
        for deed, event in enumerate(hand):
            if event["type"] == "dahai":
                rivers[event["actor"]] += 1
                if rivers[event["actor"]] in (19, 22):
                    deeds.add(deed + 1)
            elif event["type"] in ("chi", "pon", "daiminkan", "ankan"):
                melds[event["actor"]] += 1
                if melds[event["actor"]] == 4:
                    deeds.add(deed + 1)
        for deed in sorted(deeds):
            yield [place, deed]


@unittest.skipUnless(browser.chromium(), "no Chromium")
class Layout(Page):
    """Boxes, in three sizes and two modes."""

    every_deed = False
    wild = WILD

    def script(self, body: str) -> str:
        return "(() => {" + MEASURE + body + "})()"

    def moments(self, text: str) -> list[list[int]]:
        if self.every_deed:
            return [[place, deed + 1] for place, hand in enumerate(model.hands_of(text)) for deed in range(len(hand))]
        return list(moments_of(text))

    def check(self, text: str, moments: list[list[int]], sizes: Sequence[tuple[int, int]] = tuple(SIZES), language: str = "en") -> None:
        """Goes to each moment and measures it, in each size, light and dark."""
        for width, height in sizes:
            for dark in [False, True]:
                self.browser.size(width, height, dark=dark)
                self.drop(text, "#hand=1&lang=" + language)
                for place in range(0, len(moments), 50):
                    found = self.browser.run(self.script(
                        f"const found = []; {json.dumps(moments[place:place + 50])}.forEach(([hand, deed]) => {{ goTo(hand, deed); const all = faults();"
                        " if (all.length) found.push(`${hand} ${deed} ${innerWidth}x${innerHeight} ` + all.slice(0, 5).join('; ')); }); return found;"
                    ))
                    self.assertEqual(found, [])
                if self.every_deed:
                    print(f"[{width}x{height} {'dark' if dark else 'light'}: {len(moments)} deeds]", file=sys.stderr, flush=True)

    def test_wild_games(self) -> None:
        self.assertEqual(len(WILD), 12)
        for place, path in enumerate(self.wild):
            with self.subTest(path.name):
                print(f"[{path.name}]", file=sys.stderr, flush=True) if self.every_deed else None
                text = gzip.decompress(path.read_bytes()).decode()
                # (each record in one size, turn by turn, where not every deed is asked for)
                self.check(text, self.moments(text), SIZES if self.every_deed else [SIZES[place % 3]])

    def test_the_worst_hand_in_each_language(self) -> None:
        text = worst_hand()
        count = len(model.hands_of(text)[0])
        for language in ["en", "de", "ja"]:
            with self.subTest(language):
                moments = [[0, deed] for deed in range(1, count + 1, 1 if self.every_deed else 31)] + [[0, count]]
                self.check(text, moments, SIZES if self.every_deed or language == "en" else SIZES[1:2], language=language)

    def test_what_stands_above_the_table(self) -> None:
        """Several tables, a bad line, points that don't add up, and a live page that lost its server, with the longest words."""
        record, kan = [(HERE / "records" / f"{name}.txt").read_text() for name in ["four_riichis", "robbed_kan"]]
        whole = "table 0\n" + kan + "table 1\n" + record.replace("29000", "28000") + "x" * 300 + "\n"
        lost = ("const live = document.getElementById('live'); live.hidden = false;"
                "live.classList.add('lost'); const lang = document.getElementById('lang'); lang.dispatchEvent(new Event('change'));")
        for language in ["en", "de", "ja"]:
            for width, height in SIZES:
                with self.subTest(language, width=width):
                    self.browser.size(width, height)
                    self.drop(whole, "#table=2&hand=1&deed=19&lang=" + language)
                    self.assertEqual(self.browser.run(self.script("return faults();")), [])
                    self.browser.run(self.script(lost))
                    for part in ["live", "problem", "notes", "tables"]:
                        self.assertTrue(self.browser.run(f"document.getElementById('{part}').getClientRects().length"), part)
                    found = self.browser.run(self.script("return faults();"))
                    # (on a wide window the table then begins lower)
                    self.assertEqual([it for it in found if width < 1000 or it != "the table is not seen whole"], [])
                    least = self.browser.run(self.script("return Math.min(...[...document.querySelectorAll('header select')].map(it => it.offsetWidth));"))
                    self.assertGreater(least, 80 if width < 1000 else 40)

    def test_the_table_stays_in_sight_where_the_results_are_long(self) -> None:
        self.browser.size(1280, 800)
        self.drop((HERE / "records" / "triple_ron.txt").read_text(), "#hand=1&deed=999&lang=en")
        last = self.browser.run("(() => { const it = document.getElementById('deeds').lastElementChild; it.scrollIntoView(); return it.textContent; })()")
        self.assertEqual(last, self.text("deed"))
        self.assertEqual(self.browser.run(self.script("return faults();")), [])
        self.assertEqual(self.browser.run("[scrollY, document.documentElement.scrollHeight <= innerHeight]"), [0, True])

    def test_kans_lie_apart(self) -> None:
        for name in ["four_kans", "each_call", "robbed_kan"]:
            text = (HERE / "records" / f"{name}.txt").read_text()
            self.check(text, self.moments(text), SIZES[:1])


if __name__ == "__main__":
    if "--every-deed" in sys.argv:
        first = sys.argv.index("--every-deed")
        Layout.every_deed = True
        if names := sys.argv[first + 1:]:
            Layout.wild = [path for path in WILD if path.name.split(".")[0] in names]
        sys.argv[first:] = ["Layout.test_wild_games"] if names else []
    unittest.main()
