"""The referee of riichi mahjong in this process.

    from riichi_table import Table

    table = Table(seed=7)
    seat = table.turn()
    while seat is not None:
        seen = table.observe(seat)
        print(seat, len(seen.lines), seen.actions)
        seat = table.choose(seat, 0)
    print(table.points(), len(table.record()))

A `Table` is one game between four seats; `replay`, `observe`, `safe`, `referee`, `hand`, `shanten`, `waits` and `selfplay` are the commands of
the program riichi_table on texts in memory. What is wrong is raised as an error of `riichi_table.errors`, by its name.
"""
from .commands import hand, observe, referee, replay, safe, selfplay, shanten, waits
from .errors import (
    BadRecord, BadSetting, NotSeated, OutOfMemory, Refused, RiichiError, UnheardLine, WrongCall, WrongWords,
)
from .table import Observation, Table

__all__ = [
    "BadRecord", "BadSetting", "NotSeated", "Observation", "OutOfMemory", "Refused", "RiichiError", "Table", "UnheardLine",
    "WrongCall", "WrongWords", "hand", "observe", "referee", "replay", "safe", "selfplay", "shanten", "waits",
]
