"""The viewer in a headless Chromium, over records of each kind of hand: what the page shows is compared with what they say.

With the environment's RIICHI_TABLE, the path of the program, each record is checked by it too.
"""
from __future__ import annotations

import gzip
import json
import os
import pathlib
import re
import signal
import subprocess
import sys
import tempfile
import unittest

HERE = pathlib.Path(__file__).resolve().parent
sys.path[:0] = [str(HERE), str(HERE.parent), str(HERE.parent.parent / "examples" / "tests")]
import browser
import helpers
import model
from driver import ADDRESS, Page, drop_script, page_script
from page import page_of

RECORDS = {path.stem: path.read_text() for path in sorted((HERE / "records").glob("*.txt"))}
WILD = {path.name.split(".")[0]: gzip.decompress(path.read_bytes()).decode() for path in sorted((HERE / "records").glob("*.txt.gz"))}
KINDS = [f"{number}{suit}" for suit in "mps" for number in range(1, 10)] + list("ESWNPFC")

@helpers.wants_program
class Records(unittest.TestCase):
    """The records that the page is tried on are records of the program."""

    def replay(self, text: str) -> subprocess.CompletedProcess[bytes]:
        return subprocess.run([helpers.PROGRAM, "replay"], input=text.encode(), capture_output=True, timeout=60)

    def test_each_record_is_sound(self) -> None:
        takes_red = self.replay(RECORDS["red_fives"]).stderr != b"bad record at line 1: 1\n"
        for name, text in {**RECORDS, **WILD}.items():
            if name == "observed" or ("red=1" in text.split("\n")[0] and not takes_red):
                continue
            with self.subTest(name):
                told = self.replay(text)
                self.assertEqual((told.returncode, told.stderr), (0, b""))
                self.assertIn(f"deeds {len(model.events_of(text))}\n", told.stdout.decode())


@unittest.skipUnless(browser.chromium(), "no Chromium")
class Viewer(Page):
    """The page, driven as a user does it."""

    def test_the_table_is_the_record_at_each_deed(self) -> None:
        for name, text in RECORDS.items():
            if name == "observed":
                continue
            with self.subTest(name):
                self.drop(text)
                self.assertEqual(self.text("problem"), "")
                shown, told = self.tables(), list(model.tables_of(text))
                self.assertEqual(len(shown), len(told))
                for place, (left, right) in enumerate(zip(shown, told)):
                    self.assertEqual(left, right, f"deed {place + 1}")

    def test_an_observed_game_is_shown_as_far_as_it_is_told(self) -> None:
        text = RECORDS["observed"]
        self.drop(text)
        *ended, begun = self.tables()
        *record, last = model.tables_of(RECORDS["observed.record"])
        self.assertEqual(ended, record)
        self.assertEqual(begun, {**last, "hands": [["?"] * 13] * 4, "dora": 0})
        hidden = text.split('{"type":"hand_shown"')[0]
        for fault in ['{"type":"hand_shown","count":3}', '{"type":"hand_shown"}']:
            self.drop(hidden + fault)
            self.assertTrue(self.text("problem").startswith(f"Line {len(hidden.splitlines()) + 1}: "))
        self.drop(hidden)
        tables = self.tables()
        self.assertEqual(tables[0]["hands"], [["?"] * 13] * 4)
        self.assertEqual(tables, list(model.tables_of(hidden)))

    def test_the_lines_of_a_seat_that_came_back(self) -> None:
        text = RECORDS["each_call"]
        deeds = [line for line in text.split("\n") if line.startswith("{")]
        hello, error = '{"type":"hello","protocol":"mjsonp","protocol_version":3}', '{"type":"error","rule":1,"message":"Unreadable"}'
        lines = [hello, *deeds[:6], error, deeds[6], hello, '{"type":"replay","count":9}', *deeds]
        self.drop("\n".join(lines) + "\n")
        self.assertEqual(self.text("problem"), "")
        self.assertEqual(self.tables(), list(model.tables_of(text)))

    def test_results_are_those_of_the_record(self) -> None:
        for name in ["whole_game", "double_ron", "robbed_kan", "red_fives", "four_winds"]:
            text = RECORDS[name]
            for place, hand in enumerate(model.hands_of(text)):
                with self.subTest(name, hand=place + 1):
                    self.drop(text, f"#hand={place + 1}&deed=999")
                    shown = self.text("results").replace("−", "-")
                    for event in hand:
                        for yaku, han in event.get("yakus", []):
                            self.assertIn(f"{yaku.replace('_', ' ')}\t{han} han", shown)
                        if event["type"] == "hora":
                            self.assertIn(f"{event['fan']} han, {event['fu']} fu\t{event['hora_points']:,}", shown)
                        if event["type"] in ("hora", "ryukyoku"):
                            for change in [it for it in event["deltas"] if it]:
                                self.assertIn(f"\t{change:+,}", shown)

    def test_a_bad_line_is_named_and_nothing_is_drawn_past_it(self) -> None:
        lines = RECORDS["four_riichis"].split("\n")
        first = next(place for place, line in enumerate(lines) if '"tsumo"' in line)
        reach = next(place for place, line in enumerate(lines) if '"reach_accepted"' in line)
        faults = [
            (0, "game limit=x", "no header"),
            (1, lines[1][:-3], "no wall"),
            (first, "{", "no JSON"),
            (first, '{"type":"draw"}', "no type of a deed"),
            (first, '{"type":"tsumo","actor":4,"pai":"1m"}', '"actor"'),
            (first, '{"type":"tsumo","actor":0,"pai":"0m"}', '"pai"'),
            (first + 1, '{"type":"dahai","actor":0,"pai":"5mr","tsumogiri":false}', "holds no 5mr"),
            (first + 2, '{"type":"chi","actor":1,"target":0,"pai":"5mr","consumed":["6m","7m"]}', "discarded last"),
            (reach, lines[reach].replace("29000", "null", 1), '"scores"'),
            (first, lines[first] + lines[first], "no JSON"),
        ]
        for place, line, why in faults:
            with self.subTest(why, line=place + 1):
                self.drop("\n".join([*lines[:place], line, *lines[place + 1:]]))
                problem = self.text("problem")
                self.assertTrue(problem.startswith(f"Line {place + 1}: "), problem)
                self.assertIn(why, problem)
                deeds = sum(line.startswith("{") for line in lines[:place]) - 1
                if deeds <= 0:
                    self.assertTrue(self.browser.run("document.getElementById('game').hidden"))
                else:
                    self.assertEqual(self.tables(), list(model.tables_of(RECORDS["four_riichis"]))[:deeds])

    def test_keys_wheel_buttons_strip_and_links(self) -> None:
        self.drop(RECORDS["whole_game"], "#hand=3&deed=41")
        def where() -> str:
            return self.text("where").split(", line")[0]

        self.assertEqual(where(), "Hand 3 of 9, deed 41 of 144")
        self.browser.press("ArrowRight")
        self.assertEqual(where(), "Hand 3 of 9, deed 42 of 144")
        self.browser.press("ArrowLeft")
        self.browser.press("PageUp")
        self.assertEqual(where(), "Hand 3 of 9, deed 1 of 144")
        self.browser.press("ArrowLeft")
        self.assertTrue(where().startswith("Hand 2 of 9, deed "))
        self.browser.press("PageDown")
        self.browser.press("PageDown")
        self.assertTrue(where().startswith("Hand 4 of 9, deed 1 of "))
        self.browser.wheel(300, 400, 100)
        self.wait("document.getElementById('where').textContent.startsWith('Hand 4 of 9, deed 2 ')")
        self.browser.wheel(300, 400, -100)
        self.wait("document.getElementById('where').textContent.startsWith('Hand 4 of 9, deed 1 ')")
        self.browser.run("document.getElementById('forward').click()")
        self.assertTrue(where().startswith("Hand 4 of 9, deed 2 of "))
        self.wait("location.hash === '#hand=4&deed=2&seat=0'")
        self.browser.run("document.querySelectorAll('#strip button')[8].click()")
        self.assertTrue(where().startswith("Hand 9 of 9, deed 1 of "))
        self.browser.run("location.hash = '#hand=2&deed=7'")
        self.wait("document.getElementById('where').textContent.startsWith('Hand 2 of 9, deed 7 ')")
        self.browser.press("End")
        self.assertIn("The game is over", self.text("results"))
        self.assertTrue(self.browser.run("document.getElementById('forward').disabled"))
        strip = self.browser.run("[...document.querySelectorAll('#strip button')].map(it => it.innerText)")
        self.assertEqual(len(strip), 9)
        self.assertEqual(strip[0].split("\n"), ["East 1", "b tsumo 16,000"])

    def test_a_file_can_be_chosen_and_the_table_turned(self) -> None:
        self.browser.open("about:blank")
        self.browser.open(ADDRESS)
        self.browser.choose("#file", HERE / "records" / "each_call.txt")
        self.wait("!document.getElementById('game').hidden")
        foot = "document.querySelector('[data-seat=\"2\"] .hand').getBoundingClientRect().top"
        before = self.browser.run(foot)
        self.browser.run("(() => { const it = document.getElementById('bottom'); it.value = 2; it.dispatchEvent(new Event('change')); })()")
        self.assertGreater(self.browser.run(foot), before + 300)
        self.browser.choose("#file", HERE / "records" / "none.txt")
        self.wait("document.getElementById('problem').textContent === \"none.txt can't be read.\"")

    def test_a_page_that_holds_its_record(self) -> None:
        text = RECORDS["each_call"].replace('"names":["a"', '"names":["</script>a"')
        with tempfile.TemporaryDirectory() as folder:
            record, page = pathlib.Path(folder, "record.txt"), pathlib.Path(folder, "page.html")
            for data in [text.encode(), gzip.compress(text.encode())]:
                record.write_bytes(data)
                subprocess.run([HERE.parent / "page.py", record, page], check=True, timeout=60)
                self.assertEqual(page.read_text(encoding="utf-8").count("tsumogiri"), page_of(text).count("tsumogiri"))
            self.browser.open(page.as_uri() + "#hand=1&deed=5")
        self.assertTrue(self.text("where").startswith("Hand 1 of 1, deed 5 of "))
        self.assertEqual(self.tables(), list(model.tables_of(text)))
        self.assertIn("</script>a", self.browser.run("document.getElementById('bottom').innerText"))

    def test_each_control_has_a_name(self) -> None:
        self.drop(RECORDS["whole_game"])
        nodes = self.browser.call("Accessibility.getFullAXTree")["nodes"]
        self.browser.call("Accessibility.disable")
        roles = {"button", "slider", "combobox", "textbox", "link", "image", "img", "group", "navigation"}
        found = [node for node in nodes if not node["ignored"] and node["role"]["value"] in roles]
        without = [node["role"]["value"] for node in found if not node.get("name", {}).get("value")]
        self.assertGreater(len(found), 30)
        self.assertEqual(without, [])

    def test_a_narrow_window_and_dark_mode(self) -> None:
        for dark in [False, True]:
            with self.subTest(dark=dark):
                self.browser.size(375, 812, dark=dark)
                self.drop(RECORDS["whole_game"], "#hand=8&deed=999")
                self.assertLessEqual(self.browser.run("document.documentElement.scrollWidth"), 375)
                widths = self.browser.run(page_script(
                    "return tiles(document.querySelector('[data-seat=\"0\"]'), '.hand').map(tile => tile.getBoundingClientRect().width);"
                ))
                self.assertGreater(min(widths), 17)
                page, ink = self.browser.run(
                    "[getComputedStyle(document.body).backgroundColor, getComputedStyle(document.body).color]"
                    ".map(it => it.match(/[0-9]+/g).map(Number).reduce((a, b) => a + b))"
                )
                self.assertGreater(ink - page if dark else page - ink, 400)

    def test_a_record_of_two_thousand_deeds_opens_in_a_second_and_steps_in_a_frame(self) -> None:
        text = WILD["wild_1101"]
        self.assertGreaterEqual(len(model.events_of(text)), 2000)
        self.browser.call("Performance.enable", timeDomain="threadTicks")
        self.addCleanup(self.browser.call, "Performance.disable")
        opened, busy = zip(*(self.opening(text) for _ in range(3)))
        # each step with the layout that follows from it
        step = "press('ArrowRight'); document.getElementById('side').getBoundingClientRect();"
        steps = sorted(self.browser.run(page_script(
            f"const all = []; for (let place = 0; place < 400; place += 1) {{ const before = performance.now(); {step} all.push(performance.now() - before); }} return all;"
        )))
        # and with all that is painted
        times = [self.processor_time()]
        for _ in range(100):
            self.browser.press("ArrowRight")
            times.append(self.processor_time())
        costs = sorted(after - before for before, after in zip(times, times[1:]))
        print(f"[opened in {min(opened):.0f} ms, of the processor {min(busy):.0f}; steps of {steps[0]:.1f}, {steps[200]:.1f}, {steps[360]:.1f} ms,"
              f" of the processor {costs[0]:.1f}, {costs[50]:.1f}, {costs[90]:.1f}: least, half, nine tenths]", file=sys.stderr)
        self.assertLess(min(busy), 1000)
        # (where other programs have the processors, most steps wait for one, and find its memory full of other things)
        is_busy = os.getloadavg()[0] > (os.cpu_count() or 1) / 2
        # (nor has a browser without a screen anything else to paint with than the processor)
        self.assertLess(costs[5], 16)
        self.assertLess(steps[20 if is_busy else 200], 16)
        if not is_busy:
            self.assertLess(min(opened), 1000)

    def processor_time(self) -> float:
        """The milliseconds that the page has had a processor for."""
        metrics = self.browser.call("Performance.getMetrics")["metrics"]
        return 1000 * float(next(it["value"] for it in metrics if it["name"] == "TaskDuration"))

    def opening(self, text: str) -> tuple[float, float]:
        """The milliseconds from the drop of a file to its first table, and of them those that the page had a processor for."""
        self.browser.open("about:blank")
        self.browser.open(ADDRESS)
        since = self.processor_time()
        taken = float(self.browser.run(
            "(async () => { const shown = new Promise(done => new MutationObserver(done).observe(document.getElementById('where'), {childList: true}));"
            f"const drop = () => {drop_script(text)}; const before = performance.now(); drop(); await shown;"
            "document.body.getBoundingClientRect(); return performance.now() - before; })()"
        ))
        return taken, self.processor_time() - since

    def test_the_steps_are_those_of_the_arrow_keys_after_a_seat_was_chosen(self) -> None:
        self.drop(RECORDS["whole_game"], "#hand=3&deed=41")
        for control in ["bottom", "view", "speed", "place"]:
            with self.subTest(control):
                self.browser.run(f"document.getElementById('{control}').focus()")
                value = f"document.getElementById('{control}').value"
                before = self.browser.run(value)
                self.browser.press("ArrowRight")
                self.assertIn("deed 42 of", self.text("where"))
                self.browser.press("ArrowLeft")
                self.assertIn("deed 41 of", self.text("where"))
                self.assertEqual(self.browser.run(value), before)

    def test_a_finger(self) -> None:
        self.browser.size(375, 812)
        self.drop(RECORDS["whole_game"], "#hand=3&deed=41")
        left, top, wide = self.browser.run("(() => { const it = document.getElementById('table').getBoundingClientRect(); return [it.left, it.top, it.width]; })()")
        def at(part: float) -> tuple[float, float]:
            return left + part * wide, top + wide / 2

        for places, deed in [
            ([at(.8), at(.5), at(.3)], 42), ([at(.2), at(.5), at(.7)], 41), ([at(.9)], 42), ([at(.1)], 41),
        ]:
            self.browser.touch(*places)
            self.wait(f"document.getElementById('where').textContent.includes('deed {deed} ')", 10)
        self.browser.click(*at(.9))
        self.wait("document.getElementById('where').textContent.includes('deed 42 ')", 10)
        # up and down the page is scrolled
        self.browser.touch(at(.5), (at(.5)[0], top + 60), (at(.5)[0], top + 5))
        self.assertIn("deed 42 ", self.text("where"))

    def test_the_list_of_deeds_and_the_graph(self) -> None:
        text = RECORDS["whole_game"]
        self.drop(text, "#hand=3&deed=41&lang=en")
        hands = model.hands_of(text)
        said = self.browser.run("[...document.querySelectorAll('#deeds button')].map(it => it.textContent)")
        self.assertEqual(len(said), len(hands[2]))
        self.assertIn("discards", said[40])
        current = "[...document.querySelectorAll('#deeds [aria-current]')].map(it => +it.dataset.deed)"
        self.assertEqual(self.browser.run(current), [41])
        self.browser.run("document.querySelector('#deeds [data-deed=\"90\"]').click()")
        self.assertTrue(self.text("where").startswith("Hand 3 of 9, deed 90 of 144"))
        self.assertEqual(self.text("deed"), said[89])
        box = "(() => { const list = document.getElementById('deeds').getBoundingClientRect(), it = document.querySelector('#deeds [aria-current]').getBoundingClientRect();"
        self.assertTrue(self.browser.run(box + " return it.top >= list.top && it.bottom <= list.bottom + 1; })()"))
        self.browser.press("ArrowRight")
        self.assertEqual(self.browser.run(current), [91])
        points = self.browser.run("[...document.querySelectorAll('#graph .column')].map(it => it.getAttribute('aria-label'))")
        self.assertEqual(len(points), len(hands))
        for hand, words in zip(hands, points):
            scores = [event["scores"] for event in hand if "scores" in event][-1]
            for score in scores:
                self.assertIn(f"{score:,}", words)
        self.browser.run("document.querySelectorAll('#graph .column')[6].dispatchEvent(new MouseEvent('click', {bubbles: true}))")
        self.assertTrue(self.text("where").startswith("Hand 7 of 9, deed 1 of "))
        self.browser.run("document.querySelectorAll('#graph .column')[4].focus()")
        self.browser.press("Enter")
        self.assertTrue(self.text("where").startswith("Hand 5 of 9, deed 1 of "))

    def test_the_page_plays_by_itself_at_three_speeds(self) -> None:
        self.drop(RECORDS["whole_game"], "#hand=1&deed=1&lang=en")
        names = self.browser.run("[...document.getElementById('speed').options].map(it => it.value)")
        self.assertEqual(names, ["slow", "medium", "fast"])
        # the times that the page asks to be woken after
        self.browser.run("window.asked = []; window.later = window.setTimeout; window.setTimeout = (act, wait) => { window.asked.push(wait); return later(act, Math.min(wait, 30)); };")
        asked = {}
        for speed in names:
            self.browser.run(f"(() => {{ const it = document.getElementById('speed'); it.value = '{speed}'; it.dispatchEvent(new Event('change')); }})()")
            self.browser.run("window.asked.length = 0; document.getElementById('play').click()")
            before = self.text("where")
            self.wait(f"document.getElementById('where').textContent !== {json.dumps(before)}", 20)
            self.assertEqual(self.browser.run("document.getElementById('play').getAttribute('aria-label')"), "Pause (space)")
            self.browser.run("document.getElementById('play').click()")
            asked[speed] = self.browser.run("Math.max(...window.asked)")
        self.assertTrue(asked["slow"] > asked["medium"] > asked["fast"] >= 200, asked)
        self.browser.run("location.hash = '#hand=9&deed=60'")
        self.wait("document.getElementById('where').textContent.startsWith('Hand 9 of 9, deed 60 ')")
        self.browser.run("document.activeElement.blur()")
        self.browser.press(" ")
        self.wait("document.getElementById('forward').disabled", 60)
        self.wait("document.getElementById('play').getAttribute('aria-label') === 'Play (space)'", 10)

    def test_the_address_names_hand_deed_seat_and_view(self) -> None:
        self.drop(RECORDS["whole_game"], "#hand=3&deed=41&seat=2&view=seat&lang=de")
        where = self.text("where")
        self.assertTrue(where.startswith("Spiel 3 von 9, Zug 41 von 144"), where)
        self.assertEqual(self.browser.run("[document.getElementById('bottom').value, document.getElementById('view').value]"), ["2", "seat"])
        self.browser.press("ArrowRight")
        self.wait("location.hash === '#hand=3&deed=42&seat=2&view=seat&lang=de'", 10)

    def test_one_seats_view_shows_no_other_hand(self) -> None:
        for name in ["each_call", "robbed_kan", "four_riichis"]:
            self.drop(RECORDS[name], "#hand=1&deed=1&seat=1&view=seat&lang=en")
            seen, told = self.tables(), list(model.tables_of(RECORDS[name]))
            flat = [event for hand in model.hands_of(RECORDS[name]) for event in hand]
            shown: set[int] = set()
            for event, left, right in zip(flat, seen, told):
                if event["type"] == "start_kyoku":
                    shown = set()
                elif event["type"] == "hora":
                    shown.add(event["actor"])
                elif event["type"] == "ryukyoku":
                    shown |= {seat for seat in range(4) if "?" not in event["tehais"][seat] and event["tehais"][seat]}
                for seat in range(4):
                    wanted = right["hands"][seat]
                    self.assertEqual(left["hands"][seat], wanted if seat == 1 or seat in shown else ["?"] * len(wanted))
        self.drop(RECORDS["whole_game"], "#hand=2&deed=1&seat=1&view=seat&lang=en")
        names = model.events_of(RECORDS["whole_game"])[0]["names"]
        said = self.browser.run("[...document.querySelectorAll('#deeds button')].map(it => it.textContent)")
        for event, words in zip(model.hands_of(RECORDS["whole_game"])[1], said):
            if event["type"] == "tsumo":
                self.assertEqual(words == f"{names[event['actor']]} draws", event["actor"] != 1)
        rows = self.browser.run("[...document.querySelectorAll('#seat-rows tr')].map(it => it.children[1].textContent)")
        self.assertEqual([row == "hidden" for row in rows], [True, False, True, True])

    @helpers.wants_program
    def test_shanten_waits_and_what_is_left_at_each_draw_and_end(self) -> None:
        answers: dict[tuple[str, ...], tuple[str, ...]] = {}
        script = """
        const rows = [...document.querySelectorAll('#seat-rows tr')];
        return rows.map(row => [+row.querySelector('[data-shanten]').dataset.shanten,
          [...row.querySelectorAll('[data-wait]')].map(it => [it.dataset.wait, +it.dataset.left])]);
        """
        for name, every in [("whole_game", 1), ("robbed_kan", 1), ("double_ron", 1), ("wild_1127", 5), ("wild_31", 9)]:
            text = {**RECORDS, **WILD}[name]
            self.drop(text, "#hand=1&deed=1&lang=en")
            for place, hand in enumerate(model.hands_of(text)):
                table, moments, wanted = model.Table(hand[0], [0] * 4), [], []
                for deed, event in enumerate(hand[1:]):
                    before = table.concealed()
                    table.apply(event)
                    if (event["type"] == "tsumo" and deed % every == 0) or event["type"] in ("hora", "ryukyoku"):
                        moments.append(deed + 2)
                        # of who has drawn the tiles before the draw
                        tiles_of = before if event["type"] == "tsumo" else table.concealed()
                        wanted.append([(tiles_of[seat], [tuple(meld[1]) for meld in table.melds[seat]],
                                        {kind: table.left_for(seat, kind) for kind in KINDS}) for seat in range(4)])
                shown = self.browser.run(page_script(
                    f"document.querySelector('#strip [data-hand=\"{place}\"]').click();"
                    f"return {json.dumps(moments)}.map(deed => {{ document.querySelector(`#deeds [data-deed=\"${{deed}}\"]`).click(); {script} }});"
                ))
                for deed, seats, told in zip(moments, wanted, shown):
                    for seat, ((tiles, melds, left), (shanten, waits)) in enumerate(zip(seats, told)):
                        words = (*tiles, *("+".join(meld) for meld in melds))
                        if words not in answers:
                            said = subprocess.run([helpers.PROGRAM, "hand", *words], capture_output=True, text=True, check=True, timeout=60).stdout
                            found = re.fullmatch(r"shanten (\d+)\ntarget .*\nwaits (.*)\n", said)
                            assert found
                            answers[words] = found.groups()
                        right = answers[words]
                        self.assertEqual((str(shanten), " ".join(kind for kind, _ in waits) or "-"), right, f"{name} hand {place + 1} deed {deed} seat {seat}")
                        for kind, count in waits:
                            self.assertEqual(count, left[kind], f"{name} hand {place + 1} deed {deed} seat {seat} {kind}")
        self.assertGreater(len(answers), 500)

    def test_without_64_bit_memories_no_numbers_are_shown(self) -> None:
        """All else is shown as ever."""
        old = self.browser.call("Page.addScriptToEvaluateOnNewDocument", source="WebAssembly.validate = () => false;")["identifier"]
        self.addCleanup(self.browser.call, "Page.removeScriptToEvaluateOnNewDocument", identifier=old)
        text = RECORDS["each_call"]
        self.drop(text, "#hand=1&deed=1&lang=en")
        self.assertEqual(self.text("problem"), "")
        self.assertEqual(self.tables(), list(model.tables_of(text)))
        shown = "[document.getElementById('seats').checkVisibility(), document.querySelectorAll('[data-wait]').length, document.body.innerText]"
        is_there, waits, words = self.browser.run(shown)
        self.assertEqual((is_there, waits), (False, 0))
        self.assertNotIn("-shanten", words)

    def test_words_in_each_language(self) -> None:
        self.drop(RECORDS["whole_game"], "#hand=8&deed=75&lang=en")
        said = {}
        for language in ["en", "de", "ja"]:
            self.browser.run(f"(() => {{ const it = document.getElementById('lang'); it.value = '{language}'; it.dispatchEvent(new Event('change')); }})()")
            said[language] = self.text("deed")
            self.assertEqual(self.browser.run("document.documentElement.lang"), language)
            words = self.browser.run("document.body.innerText")
            self.assertNotIn("undefined", words)
            if language != "en":
                for english in ["Open a record", "tiles left", "Waits", "Deeds of", "line "]:
                    self.assertNotIn(english, words)
        self.assertEqual(said, {"en": "b discards North, the drawn tile", "de": "b wirft Nord ab, den gezogenen Stein", "ja": "b 打 北（ツモ切り）"})

    def test_a_bad_line_and_points_that_do_not_add_up_are_said_in_each_language(self) -> None:
        lines = RECORDS["four_riichis"].split("\n")
        place = next(place for place, line in enumerate(lines) if '"reach_accepted"' in line)
        lines[place] = lines[place].replace("29000", "28000", 1)
        last = max(place for place, line in enumerate(lines) if '"dahai"' in line)
        lines[last] = '{"type":"dahai","actor":0,"pai":"0m","tsumogiri":true}'
        self.drop("\n".join(lines), "#lang=en")
        bad, off = last + 1, place + 1
        wanted = {
            "de": (f'Zeile {bad}: das Feld "pai" dieses dahai fehlt oder hat eine andere Form. Ab dieser Zeile wird nichts gezeigt.',
                   f"Zeile {off}: die Punkte sind nicht die vorigen und die Änderungen. Gezeigt wird, was die Zeile sagt."),
            "ja": (f"{bad}行目：dahai の「pai」が無いか、形が違います。この行以降は表示しません。",
                   f"{off}行目：点数が直前の点数と増減の和ではありません。行の値を表示します。"),
            "en": (f'Line {bad}: the field "pai" of this dahai is missing or out of form. Nothing from this line on is shown.',
                   f"Line {off}: the scores aren't the points before and the deltas. The line's own are shown."),
        }
        for language, (problem, note) in wanted.items():
            self.browser.run(f"(() => {{ const it = document.getElementById('lang'); it.value = '{language}'; it.dispatchEvent(new Event('change')); }})()")
            self.assertEqual(self.text("problem"), problem)
            self.assertTrue(self.text("notes").startswith(note), self.text("notes"))

    def test_marks_are_seen(self) -> None:
        """A shaded, a golden and a red tile each look unlike a plain one, light and dark."""
        for dark in [False, True]:
            self.browser.size(1100, 800, dark=dark, still=True)
            self.drop(RECORDS["red_fives"], "#hand=1&deed=999&lang=en")
            shade, faces, fills = self.browser.run("""(() => {
              const face = node => getComputedStyle(document.querySelector(node)).getPropertyValue('--tile');
              const fill = tile => getComputedStyle(document.querySelector(`#t-${tile} rect:nth-of-type(2)`)).fill;
              return [+getComputedStyle(document.querySelector('#table .shade')).opacity, ['#table', '#table .of-dora'].map(face), ['5m', '5mr'].map(fill)];
            })()""")
            self.assertGreater(shade, .2)
            self.assertNotEqual(*faces)
            self.assertNotEqual(*fills)

    def test_furiten_is_said(self) -> None:
        hands = [["1m", "2m", "3m", "6p", "7p", "8p", "7s", "8s", "9s", "2p", "3p", "E", "E"]] + [["1m", "4m", "7m", "2p", "5p", "8p", "3s", "6s", "9s", "E", "S", "W", "N"]] * 3
        log: list[model.Event] = [
            {"type": "start_game", "names": ["a", "b", "c", "d"]},
            {"type": "start_kyoku", "bakaze": "E", "kyoku": 1, "honba": 0, "kyotaku": 0, "oya": 0, "dora_marker": "9s", "tehais": hands},
            {"type": "tsumo", "actor": 0, "pai": "1p"}, {"type": "dahai", "actor": 0, "pai": "1p", "tsumogiri": True},
        ]
        said = "[document.querySelector('#seat-rows tr').innerText.replace(/\\s+/g, ' '), document.querySelector('[data-seat=\"0\"] .plate').textContent]"
        for count, is_furiten in [(3, False), (4, True)]:
            self.drop("".join(json.dumps(event) + "\n" for event in log[:count]), "#hand=1&deed=9&lang=en")
            row, plate = self.browser.run(said)
            self.assertEqual(("furiten" in row, "furiten" in plate), (is_furiten, is_furiten))
            self.assertIn("×3 ×4", row)

    def test_the_tile_of_a_robbed_kan_is_marked(self) -> None:
        events = model.hands_of(RECORDS["robbed_kan"])[0]
        kakan = next(place for place, event in enumerate(events) if event["type"] == "kakan")
        marked = "[...document.querySelectorAll('#table .won')].map(it => [it.parentNode.dataset.tile, +it.closest('[data-seat]').dataset.seat, 'added' in it.parentNode.dataset])"
        for deed, wanted in [(kakan + 1, []), (kakan + 2, [[events[kakan]["pai"], events[kakan]["actor"], True]])]:
            self.drop(RECORDS["robbed_kan"], f"#hand=1&deed={deed}&lang=en")
            self.assertEqual(self.browser.run(marked), wanted)

    def test_the_graph_has_the_points_alone_and_fits_its_room(self) -> None:
        text = RECORDS["whole_game"]
        hands = model.hands_of(text)
        for width in [1280, 375]:
            self.browser.size(width, 800)
            self.drop(text, "#hand=1&deed=1&lang=en")
            paths = self.browser.run("[...document.querySelectorAll('#graph .line')].map(it => it.getAttribute('d'))")
            lines = [path for path in paths if "L" in path]
            self.assertEqual([path.count("L") for path in lines], [len(hands)] * 4)
            # beside them a piece of each line stands at its name
            self.assertEqual([path.split("h")[1] for path in paths if path not in lines], ["17"] * 4)
            size = self.browser.run("(() => { const it = document.querySelector('#graph text'); return it.getBoundingClientRect().height; })()")
            self.assertGreater(size, 11)

    def test_each_deed_is_said_in_words(self) -> None:
        self.drop(RECORDS["each_call"], "#hand=1&deed=1&lang=en")
        live = self.browser.run("(() => { const it = document.getElementById('deed'); return [it.getAttribute('aria-live'), it.getAttribute('aria-atomic')]; })()")
        self.assertEqual(live, ["polite", "true"])
        names = model.events_of(RECORDS["each_call"])[0]["names"]
        for event in model.hands_of(RECORDS["each_call"])[0][1:]:
            self.browser.press("ArrowRight")
            words = self.text("deed")
            if "actor" in event:
                self.assertIn(names[event["actor"]], words)
            for word, kind in [("chi of", "chi"), ("pon of", "pon"), ("open kan of", "daiminkan"), ("concealed kan of", "ankan"),
                               ("to the pon", "kakan"), ("indicator", "dora"), ("riichi", "reach"), ("discards", "dahai"), ("draws", "tsumo")]:
                if event["type"] == kind:
                    self.assertIn(word, words)

    def test_contrast(self) -> None:
        script = """
        const rgb = text => (text.match(/[0-9.]+/g) || []).map(Number);
        const light = ([r, g, b]) => [r, g, b].map(it => it / 255).map(it => it <= .04045 ? it / 12.92 : ((it + .055) / 1.055) ** 2.4)
          .reduce((sum, it, place) => sum + it * [.2126, .7152, .0722][place], 0);
        const ratio = (a, b) => { const [x, y] = [light(a), light(b)].sort((p, q) => q - p); return (x + .05) / (y + .05); };
        const groundOf = node => {
          for (let at = node; at; at = at.parentElement) {
            const colour = rgb(getComputedStyle(at).backgroundColor);
            if (colour.length && colour[3] !== 0) return colour;
          }
        };
        const low = [], kinds = new Set();
        const check = (name, ink, ground) => { const it = ratio(rgb(ink), ground); if (it < 4.5) low.push(`${name}: ${it.toFixed(2)}`); };
        const walker = document.createTreeWalker(document.body, NodeFilter.SHOW_TEXT);
        let count = 0;
        while (walker.nextNode()) {
          const node = walker.currentNode.parentElement;
          if (!walker.currentNode.textContent.trim() || node.closest('script, style, title, #table, :disabled') || !node.getClientRects().length) continue;
          count += 1;
          for (let at = node; at; at = at.parentElement) kinds.add(at.id).add(String(at.className));
          check(walker.currentNode.textContent, getComputedStyle(node)[node.closest('#graph') ? 'fill' : 'color'], groundOf(node));
        }
        for (const node of document.querySelectorAll('select, .open')) check(node.id, getComputedStyle(node).color, groundOf(node));
        // where the pointer is
        const hover = rgb(getComputedStyle(document.querySelector('#graph .column.current rect')).fill);
        for (const node of document.querySelectorAll('select, .open, #strip *, #deeds button:not([aria-current])')) check('under the pointer', getComputedStyle(node).color, hover);
        for (const node of document.querySelectorAll('#table text')) {
          const group = node.parentNode;
          const ground = node.classList.contains('letter') ? group.querySelector('.wind') : group.querySelector('.ground');
          count += 1;
          kinds.add(node.getAttribute('class'));
          check(node.textContent, getComputedStyle(node).fill, rgb(getComputedStyle(ground).fill));
        }
        return [count, low, [...kinds]];
        """
        faulty = RECORDS["four_riichis"].replace("29000", "28000") + "{\n"
        live = "(() => { document.getElementById('live').hidden = false; document.querySelector('.furiten') || [...document.querySelectorAll('[data-shanten]')][0].insertAdjacentHTML('beforeend', '<strong class=\"furiten\">furiten</strong>'); })()"
        for dark in [False, True]:
            kinds = set()
            for text, moment in [(RECORDS["whole_game"], "#hand=6&deed=79"), (RECORDS["whole_game"], "#hand=9&deed=999"), (RECORDS["double_ron"], "#hand=1&deed=999"),
                                 (faulty, "#hand=1&deed=18")]:
                with self.subTest(moment, dark=dark):
                    self.browser.size(1280, 1600, dark=dark)
                    self.drop(text, moment + "&lang=en")
                    self.browser.run(live)
                    count, low, some = self.browser.run(page_script(script))
                    self.assertGreater(count, 40)
                    self.assertEqual(low, [])
                    kinds |= set(some)
            for kind in ["gain", "loss", "quiet", "points", "name", "letter", "problem", "notes", "live", "furiten", "result", "deeds", "strip", "graph", "keys"]:
                self.assertIn(kind, kinds)

    def test_nothing_moves_for_who_wants_no_motion(self) -> None:
        for still in [True, False]:
            self.browser.size(1100, 800, still=still)
            self.drop(RECORDS["whole_game"], "#hand=3&deed=41")
            moves = self.browser.run(page_script("press('ArrowRight'); press('ArrowRight'); return document.getAnimations().length;"))
            self.assertEqual(moves > 0, not still)

    def test_each_control_is_reached_by_the_keyboard(self) -> None:
        self.drop("table 0\n" + RECORDS["whole_game"] + "table 1\n" + RECORDS["each_call"], "#hand=3&deed=41&lang=en")
        reached = set()
        for _ in range(60):
            self.browser.press("Tab")
            reached.add(self.browser.run("(at => at.id || at.closest('#strip, #deeds, #graph')?.id)(document.activeElement)"))
        wanted = self.browser.run("[...document.querySelectorAll('button, select, input, [role=button]')].map(it => it.closest('#strip, #deeds, #graph')?.id || it.id)")
        self.assertGreater(len(set(wanted)), 12)
        self.assertEqual(set(wanted) - reached, set())


# The other tests of the viewer, so that this file runs them all.
from test_layout import Layout
from test_live import Live
from test_parts import Parts
from test_pictures import Pictures
from test_reading import Reading

if __name__ == "__main__":
    # so that the browser and its folder go too where the tests are told to stop
    signal.signal(signal.SIGTERM, signal.default_int_handler)
    unittest.main()
