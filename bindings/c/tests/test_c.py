#!/usr/bin/env python3
"""The example in C and thousands of calls with wrong arguments over the shared library: by itself, under valgrind, and with the address sanitizer.

usage: RIICHI_TABLE_LIBRARY=libriichi_table.so test_c.py [-v]     Without the library, or without a C compiler, all tests are skipped; RIICHI_WRONG_CALLS is
how many wrong calls there are, else 10,000.
"""
from __future__ import annotations

import os
import shutil
import subprocess
import tempfile
import unittest
from pathlib import Path

HERE = Path(__file__).resolve().parent
LIBRARY, COMPILER = os.environ.get("RIICHI_TABLE_LIBRARY", ""), shutil.which("cc") or shutil.which("gcc")
CALLS = os.environ.get("RIICHI_WRONG_CALLS", "10000")
WHY = "no RIICHI_TABLE_LIBRARY" if not LIBRARY else "no C compiler" if not COMPILER else ""


@unittest.skipIf(WHY, WHY)
class InC(unittest.TestCase):
    """Programs in C."""

    room: tempfile.TemporaryDirectory[str]

    @classmethod
    def setUpClass(cls) -> None:
        cls.room = tempfile.TemporaryDirectory()

    @classmethod
    def tearDownClass(cls) -> None:
        cls.room.cleanup()

    def built(self, source: Path, *flags: str) -> str:
        """The program of a source."""
        out = str(Path(self.room.name) / (source.stem + "".join(flags).replace("=", "").replace(",", "")))
        library = Path(LIBRARY).resolve()
        words = [str(COMPILER), "-std=c11", "-Wall", "-Wextra", "-Werror", "-g", *flags, "-o", out, str(source), f"-I{HERE.parent}", str(library)]
        subprocess.run([*words, f"-Wl,-rpath,{library.parent}"], check=True)
        return out

    def ran(self, *words: str) -> str:
        """What a program writes that ends well."""
        ran = subprocess.run(words, capture_output=True, text=True)
        self.assertEqual(ran.returncode, 0, ran.stdout + ran.stderr)
        return ran.stdout

    def test_example(self) -> None:
        """Four random seats play games to their ends, and each record is what the table says."""
        program = self.built(HERE.parent / "random_seats.c")
        told = [self.ran(program, str(seed)) for seed in range(10)]
        self.assertGreater(len(set(told)), 1)
        for text in told:
            lines = [line.split() for line in text.splitlines()]
            self.assertEqual(lines[1], ["replay", "0"])
            self.assertEqual((lines[0][:2], lines[0][2:]), (lines[2], lines[3]))

    def test_wrong_calls(self) -> None:
        """Each call with numbers and bytes at random answers, and so does each with a NULL."""
        program = self.built(HERE / "wrong_calls.c")
        self.assertTrue(self.ran(program, CALLS).startswith("answers "))

    @unittest.skipUnless(shutil.which("c++"), "no C++ compiler")
    def test_header_in_another_language(self) -> None:
        """C++ takes the header, and its calls answer a NULL there too."""
        source, out = (str(Path(self.room.name) / name) for name in ("header.cpp", "header"))
        text = "int main() { riichi_turn turn; return riichi_table_turn(nullptr, &turn) == RIICHI_NULL ? 0 : 1; }"
        Path(source).write_text(f"#include <riichi_table.h>\n{text}\n")
        library = Path(LIBRARY).resolve()
        words = ["c++", "-Wall", "-Wextra", "-Werror", "-o", out, source, f"-I{HERE.parent}", str(library), f"-Wl,-rpath,{library.parent}"]
        subprocess.run(words, check=True)
        self.ran(out)

    @unittest.skipUnless(shutil.which("valgrind"), "no valgrind")
    def test_valgrind(self) -> None:
        """Nothing is read that nobody wrote, nothing beyond, and all memory is given back."""
        watch = ["valgrind", "-q", "--error-exitcode=9", "--leak-check=full", "--show-leak-kinds=all", "--errors-for-leak-kinds=all"]
        self.ran(*watch, self.built(HERE.parent / "random_seats.c"), "3")
        self.ran(*watch, self.built(HERE / "wrong_calls.c"), CALLS)

    def test_address_sanitizer(self) -> None:
        """The same with the sanitizer's memory, which sees what the programs touch, what C's own calls do for the library, and what is lost."""
        try:
            program = self.built(HERE / "wrong_calls.c", "-fsanitize=address,undefined")
            self.built(HERE.parent / "random_seats.c", "-fsanitize=address,undefined")
        except subprocess.CalledProcessError:
            self.skipTest("no address sanitizer")
        self.ran(program, CALLS)
        self.ran(self.built(HERE.parent / "random_seats.c", "-fsanitize=address,undefined"), "3")


if __name__ == "__main__":
    unittest.main()
