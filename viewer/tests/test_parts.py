"""The page's parts: they are put together as they stand, their types hold, and the model does as the rules say."""
from __future__ import annotations

import pathlib
import re
import shutil
import subprocess
import sys
import unittest

sys.path.insert(0, str(pathlib.Path(__file__).parent.parent))
import build

HERE = pathlib.Path(__file__).parent
SOURCES = sorted((HERE.parent / "src").glob("*.js"))
LIBRARY = build.LIBRARY.with_suffix(".js")
TYPES = ["--allowJs", "--checkJs", "--noEmit", "--strict", "--target", "es2022", "--module", "es2022", "--lib", "es2022,dom,dom.iterable"]


class Parts(unittest.TestCase):
    """What stands in src."""

    def test_the_page_is_the_one_that_its_parts_make(self) -> None:
        self.assertEqual((HERE.parent / "index.html").read_text(encoding="utf-8"), build.page(), "run viewer/build.py")
        self.assertEqual(sorted(build.PARTS), [path.stem for path in SOURCES])

    def test_nothing_is_fetched(self) -> None:
        page = build.page()
        for word in ["http://", "https://", "fetch(", "@import", "url(http", "XMLHttpRequest", "WebSocket"]:
            self.assertNotIn(word, page.replace("http://www.w3.org/2000/svg", ""))

    def test_dark_mode_changes_colours_and_nothing_else(self) -> None:
        """So what is measured of boxes in the light holds in the dark."""
        style = (HERE.parent / "src" / "style.css").read_text(encoding="utf-8")
        all_text = style + "".join(path.read_text(encoding="utf-8") for path in SOURCES)
        self.assertEqual(all_text.count("prefers-color-scheme"), 1)
        self.assertNotIn("light-dark(", all_text)
        found = re.search(r"@media \(prefers-color-scheme: dark\) \{\s*:root \{([^}]*)\}\s*\}", style)
        assert found
        colours = re.findall(r"\s*--([a-z0-9-]+): #[0-9a-f]{6};", found[1])
        self.assertEqual(re.sub(r"\s*--[a-z0-9-]+: #[0-9a-f]{6};", "", found[1]).strip(), "")
        self.assertGreater(len(colours), 20)
        # and such a colour stands only where a colour does
        for name, value in re.findall(r"([a-z-]+): ([^;{}]*)", style):
            if any(f"var(--{colour})" in value for colour in colours):
                self.assertRegex(name, r"^(--(red-)?tile(-edge)?|(accent-|stop-)?color|background|border(-top|-color)?|box-shadow|outline|fill|stroke)$")

    @unittest.skipUnless(shutil.which("tsc"), "no tsc: install node-typescript")
    def test_the_types_hold(self) -> None:
        told = subprocess.run(["tsc", *TYPES, LIBRARY, *SOURCES], capture_output=True, text=True, timeout=200)
        self.assertEqual((told.stdout, told.returncode), ("", 0))

    @unittest.skipUnless(shutil.which("node"), "no node: install nodejs")
    def test_the_model(self) -> None:
        words = ["node", "--no-warnings", "--experimental-wasm-memory64", "--test", str(HERE / "model.test.mjs")]
        told = subprocess.run(words, capture_output=True, text=True, timeout=100)
        self.assertEqual(told.returncode, 0, told.stdout + told.stderr)
        self.assertIn("# skipped 0", told.stdout)


if __name__ == "__main__":
    unittest.main()
