#!/usr/bin/env python3
"""Builds the wheel of riichi_table, with the shared library in it, by the standard library alone.

usage: wheel_builder.py [--library libriichi_table.so] [FOLDER]

Without --library the shared library is built first, by ../c/build.sh. It is a build backend too (pyproject.toml), so that `pip wheel .` gives the
same file; the environment's RIICHI_TABLE_LIBRARY then names a library that is built already.
"""
from __future__ import annotations

import argparse
import base64
import hashlib
import os
import subprocess
import tempfile
import zipfile
from pathlib import Path

HERE = Path(__file__).resolve().parent
NAME, VERSION = "riichi_table", "1.0.0"
TAG = "py3-none-linux_x86_64"
INFO = f"{NAME}-{VERSION}.dist-info"
METADATA = f"Metadata-Version: 2.1\nName: {NAME}\nVersion: {VERSION}\nSummary: The referee of riichi mahjong as a library\nRequires-Python: >=3.9\n"
# (the earliest time that an archive can hold, so that one source gives one file)
TIME = (1980, 1, 1, 0, 0, 0)


def built_library() -> Path:
    """The shared library that the environment names, or one that is built."""
    named = os.environ.get("RIICHI_TABLE_LIBRARY")
    if named:
        return Path(named)
    folder = tempfile.mkdtemp()
    subprocess.run([str(HERE.parent / "c" / "build.sh"), folder], check=True)
    return Path(folder) / "lib" / "libriichi_table.so"


def write_wheel(folder: Path, library: Path) -> str:
    """Writes the wheel into a folder and returns its name."""
    files = {f"{NAME}/{it.name}": it.read_bytes() for it in sorted((HERE / NAME).iterdir()) if it.suffix in (".py", ".typed")}
    files[f"{NAME}/libriichi_table.so"] = library.read_bytes()
    files[f"{INFO}/METADATA"] = METADATA.encode()
    files[f"{INFO}/WHEEL"] = f"Wheel-Version: 1.0\nGenerator: {NAME}\nRoot-Is-Purelib: false\nTag: {TAG}\n".encode()
    rows = [f"{path},sha256={_digest(data)},{len(data)}\n" for path, data in files.items()]
    files[f"{INFO}/RECORD"] = "".join([*rows, f"{INFO}/RECORD,,\n"]).encode()
    name = f"{NAME}-{VERSION}-{TAG}.whl"
    folder.mkdir(parents=True, exist_ok=True)
    with zipfile.ZipFile(folder / name, "w", zipfile.ZIP_DEFLATED) as wheel:
        for path, data in files.items():
            wheel.writestr(zipfile.ZipInfo(path, TIME), data, zipfile.ZIP_DEFLATED)
    return name


def _digest(data: bytes) -> str:
    return base64.urlsafe_b64encode(hashlib.sha256(data).digest()).rstrip(b"=").decode()


def build_wheel(wheel_directory: str, config_settings: object = None, metadata_directory: str | None = None) -> str:
    """The hook by which pip asks for the wheel."""
    return write_wheel(Path(wheel_directory), built_library())


def main() -> None:
    parser = argparse.ArgumentParser(description="Builds the wheel of riichi_table.")
    parser.add_argument("--library", type=Path)
    parser.add_argument("folder", nargs="?", type=Path, default=Path("."))
    given = parser.parse_args()
    print(given.folder / write_wheel(given.folder, given.library or built_library()))


if __name__ == "__main__":
    main()
