"""What can go wrong, by name."""
from __future__ import annotations

RULES = (
    "Unreadable", "NotYours", "NotNow", "NoSuchTile", "WrongTarget", "LastTile", "NotHeld", "NotDrawn", "Locked", "BadSet", "NotLeft",
    "SwapCall", "StuckCall", "KanFull", "KanDry", "RiichiKan", "ReachOpen", "ReachPoor", "ReachLate", "ReachUnready", "NotComplete",
    "Furiten", "NoYaku", "NotNine",
)
"""The names of the rules that an answer can break; the number of a rule is its place, from 1 on."""


class RiichiError(Exception):
    """Anything that the referee doesn't do."""


class OutOfMemory(RiichiError, MemoryError):
    """Memory is wanting. Nothing has changed."""


class WrongCall(RiichiError):
    """The call can't be made now; `cause` is its name, as NO_SEAT, NOT_PRESENT, NOT_DUE, NO_LINE, NO_CHOICE,
    NO_GAME or TOO_LONG. Nothing has changed."""

    def __init__(self, cause: str, text: str) -> None:
        super().__init__(text)
        self.cause = cause


class BadSetting(RiichiError, ValueError):
    """The header or a wall is none, or a number is outside its range."""


class NotSeated(RiichiError):
    """No seat is given; `cause` is why, as FULL, NAME_TAKEN, WRONG_KEY, NO_KEY, TOO_OFTEN, OVER or BAD_NAME."""

    def __init__(self, cause: str, text: str) -> None:
        super().__init__(text)
        self.cause = cause


class Refused(RiichiError, ValueError):
    """An answer breaks a rule; `rule` is its name, as in RULES, and `is_gone` says that it was one time too many: the seat is gone."""

    def __init__(self, rule: str, is_gone: bool) -> None:
        super().__init__(f"the answer breaks the rule {rule}" + (", and the seat is gone" if is_gone else ""))
        self.rule = rule
        self.is_gone = is_gone


class WrongWords(RiichiError, ValueError):
    """The words ask for nothing, or name no hand."""


class UnheardLine(RiichiError, ValueError):
    """A line of the arrivals, `line` counted from 1, is the first that is none, or stands out of its place; `told` is what the lines
    before it tell."""

    def __init__(self, line: int, told: str) -> None:
        super().__init__(f"line {line} is no arrival in its place")
        self.line = line
        self.told = told


CAUSES = ("HEADER", "WALL", "LINE", "NEXT", "CUT")
"""Why a text is no record: its first line is no header; a line is no wall where one must stand; it is no line of a deed; it is that of
a deed that no four lawful answers give there; it has no newline."""


class BadRecord(RiichiError, ValueError):
    """The text is no record of a game: `line`, counted from 1, is the first that breaks its form, and `cause` is why, one of CAUSES."""

    def __init__(self, line: int, cause: str) -> None:
        super().__init__(f"line {line} of the record breaks its form: {cause}")
        self.line = line
        self.cause = cause
