"""What the tests outside crates/ share: the program that they are run with, ports, and folders that go when a test ends.

The environment's RIICHI_TABLE is the path of the built program; tests that want it are skipped without it.
"""
from __future__ import annotations

import os
import pathlib
import socket
import subprocess
import sys
import tempfile
import time
import unittest

EXAMPLES = pathlib.Path(__file__).resolve().parent.parent
ROOT = EXAMPLES.parent
sys.path.insert(0, str(EXAMPLES))
from processes import free_port as free_port

PROGRAM = os.environ.get("RIICHI_TABLE", "")
wants_program = unittest.skipUnless(PROGRAM, "no program: set RIICHI_TABLE to its path")


def connect(port: int) -> socket.socket:
    """A connection to a table whose hello line has come, as soon as the port is open."""
    deadline = time.monotonic() + 10
    while True:
        try:
            link = socket.create_connection(("127.0.0.1", port))
            break
        except ConnectionRefusedError:
            if time.monotonic() > deadline:
                raise AssertionError("nobody listens") from None
            time.sleep(0.05)
    while not link.recv(4096).endswith(b"\n"):
        pass
    return link


def folder_of(test: unittest.TestCase) -> pathlib.Path:
    """A folder of a test's own, which goes when it ends."""
    folder = tempfile.TemporaryDirectory()
    test.addCleanup(folder.cleanup)
    return pathlib.Path(folder.name)


def is_sound(record: bytes) -> bool:
    """Whether `replay` takes a record."""
    return subprocess.run([PROGRAM, "replay"], input=record, stdout=subprocess.DEVNULL).returncode == 0
