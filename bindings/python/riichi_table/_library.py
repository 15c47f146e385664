"""The shared library behind the package: its calls, by ctypes."""
from __future__ import annotations

import ctypes
import os
from ctypes import POINTER, Structure, addressof, byref, c_bool, c_char_p, c_int32, c_size_t, c_uint32, c_uint64, c_void_p

DONE, BACK, LATE, REFUSED, CLOSING, STALE, EARLY = range(7)
NO_GAME, IN_PLAY, NO_MEMORY, BAD_SETTING, NO_SEAT, NOT_PRESENT, NOT_DUE, NO_LINE, TOO_LONG, NO_ROOM, NO_CHOICE, GO_ON = range(16, 28)
NOT_SEATED = 32


class CTable(Structure):
    """A table. One whose bytes are all zero has no game."""

    _fields_ = [("is_open", c_bool), ("at", c_void_p)]


class CState(Structure):
    """What stands on a table."""

    _fields_ = [("deeds", c_uint32), ("window", c_uint32), ("entries", c_uint64), ("is_over", c_bool)]


class CSeat(Structure):
    """What stands at a seat."""

    _fields_ = [("due", c_uint32), ("points", c_int32), ("is_present", c_bool), ("may_say", c_bool)]


class CTurn(Structure):
    """Whose turn it is."""

    _fields_ = [("seat", c_uint32), ("deeds", c_uint32), ("is_over", c_bool)]


def _load() -> ctypes.CDLL:
    place = os.environ.get("RIICHI_TABLE_LIBRARY") or os.path.join(os.path.dirname(__file__), "libriichi_table.so")
    library = ctypes.CDLL(place)
    table, text, number = c_void_p, [c_char_p, c_size_t], c_void_p
    room = [c_void_p, c_size_t, POINTER(c_uint64)]
    for name, kinds in {
        "riichi_run": [*text, *text, *room, *room],
        "riichi_table_open": [table, *text],
        "riichi_table_open_seed": [table, *text, c_uint64, c_uint32, c_uint64, c_bool, c_bool],
        "riichi_table_close": [table],
        "riichi_table_sit": [table, *text, number],
        "riichi_table_say": [table, c_uint32, *text, number],
        "riichi_table_gone": [table, c_uint32],
        "riichi_table_expire": [table, c_uint32, c_uint64, c_uint64],
        "riichi_table_state": [table, c_void_p],
        "riichi_table_seat": [table, c_uint32, c_void_p],
        "riichi_table_line": [table, c_uint32, c_uint32, *room],
        "riichi_table_pending": [table, c_uint32, *room],
        "riichi_table_record": [table, *room],
        "riichi_table_choices": [table, c_uint32, POINTER(c_uint64)],
        "riichi_table_choose": [table, c_uint32, c_uint32, number, c_void_p],
        "riichi_table_turn": [table, c_void_p],
    }.items():
        call = getattr(library, name)
        call.argtypes = kinds
        call.restype = c_uint32
    return library


LIBRARY = _load()


def run(words: list[str], given: bytes) -> tuple[int, bytes, bytes]:
    """The exit code of a command of the program on this input, what it writes, and what it says on standard error."""
    lines = b"".join(word.encode("utf-8", "surrogateescape") + b"\n" for word in words)
    length, told_length = c_uint64(), c_uint64()
    size, told = 1 << 16, ctypes.create_string_buffer(1 << 10)
    while True:
        room = ctypes.create_string_buffer(size)
        code = LIBRARY.riichi_run(lines, len(lines), given, len(given), room, size, byref(length), told, len(told), byref(told_length))
        if length.value <= size:
            return code, room.raw[: length.value], told.raw[: told_length.value]
        size = length.value
