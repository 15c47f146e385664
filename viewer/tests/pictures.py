#!/usr/bin/env python3
"""Makes the pictures of docs/pictures from the viewer and its tests' records.

usage: pictures.py
"""
from __future__ import annotations

import pathlib
import sys
import time

import browser

HERE = pathlib.Path(__file__).parent
PAGE = (HERE.parent / "index.html").as_uri()
PICTURES = HERE.parent.parent / "docs" / "pictures"

# Name, record, moment, width and height in pixels, and whether it is dark.
SHOTS = [
    ("table.png", "whole_game.txt", "#hand=6&deed=999&seat=0&lang=en", 1280, 800, False),
    ("robbed-kan.png", "robbed_kan.txt", "#hand=1&deed=20&seat=0&lang=en", 1280, 800, True),
    ("narrow.png", "whole_game.txt", "#hand=8&deed=75&seat=0&lang=en", 375, 812, False),
    ("side.png", "whole_game.txt", "#hand=3&deed=100&seat=0&lang=en", 812, 375, True),
]


def shoot(page: browser.Browser, folder: pathlib.Path) -> None:
    """Makes all pictures in a folder."""
    for name, record, moment, width, height, dark in SHOTS:
        page.size(width, height, dark=dark, still=True)
        page.open("about:blank")
        page.open(PAGE + moment)
        page.choose("#file", HERE / "records" / record)
        while page.run("document.getElementById('game').hidden"):
            time.sleep(0.05)
        page.picture(folder / name)
        print(name, (folder / name).stat().st_size, "bytes", file=sys.stderr)


def main() -> None:
    PICTURES.mkdir(exist_ok=True)
    with browser.Browser() as page:
        shoot(page, PICTURES)


if __name__ == "__main__":
    main()
