"""The commands of the program on texts in memory."""
from __future__ import annotations

import re

from ._library import run
from .errors import CAUSES, BadRecord, OutOfMemory, RiichiError, UnheardLine, WrongWords


def _bytes(text: str | bytes) -> bytes:
    return text.encode() if isinstance(text, str) else text


def _run(words: list[str], text: str | bytes = b"") -> str:
    if any("\n" in word for word in words):
        raise WrongWords("a word has more than one line")
    code, output, told = run(words, _bytes(text))
    if code == 0:
        return output.decode()
    raise _error(code, output.decode(), [int(digits) for digits in re.findall("[0-9]+", told.decode())])


def _error(code: int, output: str, numbers: list[int]) -> RiichiError:
    if code == 2:
        return WrongWords("the words ask for nothing, or name no hand")
    if code == 5:
        return OutOfMemory("memory is wanting")
    if code == 6:
        return UnheardLine(numbers[0], output)
    if code == 7:
        return BadRecord(numbers[0], CAUSES[numbers[1] - 1])
    if code == 9:
        return RiichiError("the text has more than 67,108,864 bytes")
    return RiichiError(f"the command ends with the exit code {code}")


def replay(record: str | bytes) -> str:
    """The summary of a record; BadRecord where it is none."""
    return _run(["replay"], record)


def observe(record: str | bytes) -> str:
    """The public view of a record, line by line; BadRecord where it is none."""
    return _run(["observe"], record)


def referee(seat: int, arrivals: str | bytes) -> str:
    """What a seat is told by these arrivals; UnheardLine where one of them is none."""
    return _run(["referee", str(seat)], arrivals)


def safe(seat: int, arrivals: str | bytes) -> str:
    """Which kinds a seat can discard safely after these arrivals, and why."""
    return _run(["safe", str(seat)], arrivals)


def selfplay(number: int) -> str:
    """The summary of the game of this number between four built-in players."""
    return _run(["selfplay", str(number)])


def hand(*words: str) -> dict[str, list[str] | int]:
    """The shanten, the nearest complete hand (`target`) and the waits of thirteen tiles, given as words or as one text: each word is a
    tile, as `1m` or `E`, or a meld, as `1m+2m+3m`. WrongWords where they are no hand."""
    lines = _run(["hand", *" ".join(words).split()]).splitlines()
    parts = {line.split()[0]: line.split()[1:] for line in lines}
    return {
        "shanten": int(parts["shanten"][0]),
        "target": parts["target"],
        "waits": [kind for kind in parts["waits"] if kind != "-"],
    }


def shanten(*words: str) -> int:
    """How many tiles the hand is from being ready."""
    number = hand(*words)["shanten"]
    assert isinstance(number, int)
    return number


def waits(*words: str) -> list[str]:
    """The kinds that complete the hand; none where it isn't ready."""
    kinds = hand(*words)["waits"]
    assert isinstance(kinds, list)
    return kinds
