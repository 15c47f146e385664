"""The records of `tables` as single ones."""
from __future__ import annotations

import pathlib
import subprocess
import sys
import tempfile
import unittest

HERE = pathlib.Path(__file__).parent
SPLIT = HERE.parent / "split.py"
RECORD = (HERE.parent.parent / "viewer" / "tests" / "records" / "whole_game.txt").read_text()
OTHER = RECORD.replace("limit=10000", "limit=9000", 1)


class Split(unittest.TestCase):
    def split(self, text: str) -> tuple[int, str, dict[str, str]]:
        """The exit code, what is said, and the files that are made of a text."""
        with tempfile.TemporaryDirectory() as folder:
            path = pathlib.Path(folder, "records")
            path.write_text(text)
            told = subprocess.run([sys.executable, SPLIT, path, path.parent / "single"], capture_output=True, text=True, timeout=60)
            made = {file.name: file.read_text() for file in path.parent.glob("single/*")}
            return told.returncode, told.stdout + told.stderr, made

    def test_each_table_has_a_file(self) -> None:
        code, said, made = self.split(f"table 0\n{RECORD}table 1\n{OTHER}")
        self.assertEqual((code, made), (0, {"room1.record": RECORD, "room2.record": OTHER}), said)
        self.assertTrue(said.startswith("2 records are in "))

    def test_what_is_no_text_of_tables_is_named(self) -> None:
        lines = len(RECORD.splitlines())
        for text, problem in [
            (RECORD, "line 1 stands before the line of the first table"),
            (f"table 1\n{RECORD}", "line 1 is 'table 1', and not table 0"),
            (f"table 0\n{RECORD}table 2\n{OTHER}", f"line {lines + 2} is 'table 2', and not table 1"),
            (f"table 0\n{RECORD}table 1\n", "table 1 has no whole record"),
            (f"table 0\n{RECORD}table 1\n{OTHER.rstrip()}", "table 1 has no whole record"),
            ("", "it is empty"),
        ]:
            with self.subTest(problem):
                code, said, made = self.split(text)
                self.assertEqual((code, made), (1, {}))
                self.assertIn(problem, said)

    def test_a_file_that_is_not_there_is_named(self) -> None:
        told = subprocess.run([sys.executable, SPLIT, "none"], capture_output=True, text=True, timeout=60)
        self.assertEqual(told.returncode, 1)
        self.assertIn("split.py: none: ", told.stderr)


if __name__ == "__main__":
    unittest.main()
