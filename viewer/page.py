#!/usr/bin/env python3
"""Makes one HTML page of a record: the viewer with the record in it, which opens without dropping a file.

usage: page.py RECORD PAGE

RECORD may be gzipped.
"""
from __future__ import annotations

import gzip
import pathlib
import sys

VIEWER = pathlib.Path(__file__).resolve().parent / "index.html"


def page_of(record: str) -> str:
    """The viewer's page with the text of a record in it."""
    before, script, after = VIEWER.read_text(encoding="utf-8").partition('<script type="module">')
    # Only texts within JSON may have this sign; written so, it can't end the element that holds the record.
    safe = record.replace("<", "\\u003c")
    return f'{before}<script type="text/plain" id="record">{safe}</script>\n{script}{after}'


def main() -> None:
    if len(sys.argv) != 3:
        sys.exit(__doc__)
    data = pathlib.Path(sys.argv[1]).read_bytes()
    record = (gzip.decompress(data) if data.startswith(b"\x1f\x8b") else data).decode(errors="replace")
    pathlib.Path(sys.argv[2]).write_text(page_of(record), encoding="utf-8")


if __name__ == "__main__":
    main()
