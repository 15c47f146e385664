"""The page follows a record that grows, whole or as its public stream.

It wants the environment's RIICHI_TABLE, the path of the program, for the public stream.
"""
from __future__ import annotations

import http.client
import pathlib
import re
import subprocess
import sys
import unittest

HERE = pathlib.Path(__file__).resolve().parent
sys.path[:0] = [str(HERE), str(HERE.parent.parent / "examples" / "tests")]
import browser
import helpers
import model
from driver import Page

RECORD = (HERE / "records" / "observed.record.txt").read_text()
FORWARD = "document.getElementById('forward').disabled"
HANDS = "[...document.querySelectorAll('#table .hand [data-tile]')].map(it => it.dataset.tile)"


@unittest.skipUnless(browser.chromium(), "no Chromium")
class Live(Page):
    """A game that is looked at while it is played."""

    def serve(self, *words: str) -> None:
        self.record = helpers.folder_of(self) / "record.txt"
        server = subprocess.Popen(
            [sys.executable, HERE.parent / "live.py", "0", "--record", self.record, *words], stdout=subprocess.PIPE, text=True)
        assert server.stdout
        self.addCleanup(server.stdout.close)
        self.addCleanup(server.wait)
        self.addCleanup(server.kill)
        self.server = server
        self.address = server.stdout.readline().strip()
        found = re.fullmatch(r"http://127.0.0.1:(\d+)/", self.address)
        assert found
        self.port = int(found[1])

    def grow(self, text: str) -> None:
        with self.record.open("a") as file:
            file.write(text)

    def at(self, hand: int, deed: int) -> None:
        self.wait(f"document.getElementById('where').textContent.startsWith('Hand {hand} of {hand}, deed {deed} of {deed},')", 20)

    def test_a_record_that_grows(self) -> None:
        self.serve()
        self.browser.open(self.address + "#lang=en")
        self.assertTrue(self.browser.run("!document.getElementById('empty').hidden"))
        lines = RECORD.splitlines(keepends=True)
        first = next(place for place, line in enumerate(lines) if '"start_kyoku"' in line)
        self.grow("".join(lines[:first + 1]))
        self.at(1, 1)
        self.grow(lines[first + 1] + lines[first + 2][:20])
        self.at(1, 2)
        self.grow(lines[first + 2][20:])
        self.at(1, 3)
        # who looks back stays there
        self.browser.press("Home")
        self.grow("".join(lines[first + 3:]))
        last = len(model.hands_of(RECORD))
        self.wait(f"document.getElementById('where').textContent.startsWith('Hand 1 of {last}, deed 1 of ')", 20)
        self.browser.press("End")
        self.assertTrue(self.browser.run(FORWARD))
        self.assertEqual(self.text("problem"), "")
        # another game in its place
        self.record.write_text("".join(lines[:first + 2]))
        self.wait("document.getElementById('where').textContent.startsWith('Hand 1 of 1, deed 2 of 2,')", 20)

    def test_a_server_that_ends_is_said(self) -> None:
        self.serve()
        self.grow(RECORD)
        self.browser.open(self.address + "#lang=en")
        self.wait("document.getElementById('live').textContent === 'Live'", 20)
        self.wait("!document.getElementById('game').hidden", 20)
        where = self.text("where")
        self.server.kill()
        self.wait("document.getElementById('live').textContent === 'The connection is lost; trying again.'", 20)
        self.browser.run("(() => { const it = document.getElementById('lang'); it.value = 'de'; it.dispatchEvent(new Event('change')); })()")
        self.assertTrue(self.text("live").startswith("Die Verbindung ist unterbrochen"))
        # what was told stays
        self.browser.run("(() => { const it = document.getElementById('lang'); it.value = 'en'; it.dispatchEvent(new Event('change')); })()")
        self.assertEqual(self.text("where"), where)

    @helpers.wants_program
    def test_the_public_stream_of_a_record_shows_no_hand_before_its_end(self) -> None:
        self.serve("--observe", helpers.PROGRAM)
        self.browser.open(self.address + "#lang=en")
        hands = model.hands_of(RECORD)
        head = RECORD[:RECORD.index('{"type":"start_kyoku"')]
        self.grow(head)
        lines = [line for line in RECORD[len(head):].splitlines(keepends=True)]
        for place, line in enumerate(lines[:3]):
            self.grow(line)
            self.at(1, place + 1)
            tiles = self.browser.run(HANDS)
            shown = {"start_kyoku": 0, "tsumo": 0, "hora": 14}[hands[0][place]["type"]]
            self.assertEqual(sum(tile != "?" for tile in tiles), shown)
        self.grow(lines[3])
        self.wait(HANDS + ".every(tile => tile !== '?')", 20)
        self.browser.press("Home")
        self.assertNotIn("?", self.browser.run(HANDS))
        self.grow("{}\n")
        self.wait("document.getElementById('problem').textContent.startsWith('bad record at line ')", 20)

    def test_only_this_machine_and_this_name_are_answered(self) -> None:
        self.serve()
        for host, path, status in [("127.0.0.1", "/", 200), ("localhost:80", "/", 200), ("example.org", "/", 403), ("127.0.0.1", "/record", 404)]:
            link = http.client.HTTPConnection("127.0.0.1", self.port, timeout=30)
            link.request("GET", path, headers={"Host": host})
            self.assertEqual(link.getresponse().status, status)
            link.close()


if __name__ == "__main__":
    unittest.main()
