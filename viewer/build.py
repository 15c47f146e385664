#!/usr/bin/env python3
"""Puts the parts of src together into index.html, the one file that is opened, and the library of bindings/page.

usage: build.py
"""
from __future__ import annotations

import base64
import pathlib
import re
import textwrap

HERE = pathlib.Path(__file__).resolve().parent
SOURCES = HERE / "src"
LIBRARY = HERE.parent / "bindings" / "page" / "riichi_page"
# In the order in which they need each other.
PARTS = ["tiles", "state", "read", "texts", "tell", "dom", "faces", "table", "panels", "page", "main"]


def part(path: pathlib.Path) -> str:
    """The text of a part, without the words that tie it to the others."""
    text = path.read_text(encoding="utf-8")
    text = re.sub(r'^import \{.*?\} from ".*?";\n', "", text, flags=re.MULTILINE | re.DOTALL)
    return re.sub(r"^export ", "", text, flags=re.MULTILINE).strip()


def page() -> str:
    """The text of index.html."""
    shell, style = ((SOURCES / name).read_text(encoding="utf-8") for name in ["page.html", "style.css"])
    library = "\n".join(textwrap.wrap(base64.b64encode(LIBRARY.with_suffix(".wasm").read_bytes()).decode(), 120))
    script = "\n\n".join(map(part, [LIBRARY.with_suffix(".js"), *(SOURCES / f"{name}.js" for name in PARTS)]))
    return shell.replace("/*STYLE*/", style.strip()).replace("/*LIBRARY*/", library).replace("/*SCRIPT*/", script)


if __name__ == "__main__":
    (HERE / "index.html").write_text(page(), encoding="utf-8")
