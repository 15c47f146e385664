#!/usr/bin/env python3
"""Makes single records of the records that riichi_table's command `tables` writes.

usage: split.py RECORDS [FOLDER]

The record of each table goes to a file of its own in FOLDER (default: this one): room1.record, room2.record and so on, by the
names of the rooms. The exit code is 1 where the file isn't one of `tables`, and then nothing is written.
"""
from __future__ import annotations

import pathlib
import re
import sys


class Malformed(Exception):
    """The text isn't what `tables` writes: why, in words."""


def split(text: str) -> list[str]:
    """The records of the tables, in their order."""
    records: list[list[str]] = []
    for number, line in enumerate(re.findall(r"[^\n]*\n|[^\n]+", text), 1):
        if line == f"table {len(records)}\n":
            records.append([])
        elif line.startswith("table "):
            raise Malformed(f"line {number} is {line.strip()!r}, and not table {len(records)}")
        elif not records:
            raise Malformed(f"line {number} stands before the line of the first table; a single record needs no splitting")
        else:
            records[-1].append(line)
    for table, lines in enumerate(records):
        if not lines or not lines[0].startswith("game ") or not lines[-1].endswith("\n"):
            raise Malformed(f"table {table} has no whole record")
    if not records:
        raise Malformed("it is empty")
    return ["".join(lines) for lines in records]


def main() -> None:
    if not 2 <= len(sys.argv) <= 3 or sys.argv[1].startswith("-"):
        sys.exit(__doc__)
    path, folder = pathlib.Path(sys.argv[1]), pathlib.Path(sys.argv[2] if len(sys.argv) > 2 else ".")
    try:
        records = split(path.read_text(encoding="utf-8"))
        folder.mkdir(parents=True, exist_ok=True)
        for room, record in enumerate(records, 1):
            (folder / f"room{room}.record").write_text(record, encoding="utf-8")
    except (OSError, ValueError, Malformed) as error:
        sys.exit(f"split.py: {path}: {error}")
    print(f"{len(records)} records are in {folder}")


if __name__ == "__main__":
    main()
