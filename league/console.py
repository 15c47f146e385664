"""What a league says: each line at the console and in its log, and how far it is."""
from __future__ import annotations

import datetime
import pathlib
import sys
import time
from typing import Literal, Protocol, TextIO

Level = Literal["logged", "told", "fault"]

BAR = 30  # signs


class Say(Protocol):
    """Says a line: told, or logged alone, or as a fault; it may have been said at another time than now."""

    def __call__(self, text: str, level: Level = "told", at: str | None = None) -> None:
        ...


def now() -> str:
    return datetime.datetime.now(datetime.timezone.utc).isoformat(timespec="milliseconds").replace("+00:00", "Z")


def in_words(seconds: float) -> str:
    """A time that is left, as it is told."""
    if seconds < 60:
        return f"{max(1, round(seconds))} s"
    minutes = round(seconds / 60)
    return f"{minutes} min" if minutes < 120 else f"{minutes // 60} h {minutes % 60:02} min"


class Console:
    """The console and the log of a league of so many games, some of which may have been played before."""

    def __init__(self, log: pathlib.Path, games: int, played: int) -> None:
        self.log: TextIO = open(log, "a", encoding="utf-8", buffering=1)
        self.games = games
        self.played_before = self.played = played
        self.since = time.monotonic()
        self.has_bar = sys.stdout.isatty()

    def close(self) -> None:
        self.clear()
        self.log.close()

    def say(self, text: str, level: Level = "told", at: str | None = None) -> None:
        """A line: for the log alone, for the console too, or a fault, which the console has on standard error."""
        self.log.write(f"{at or now()} {text}\n")
        if level != "logged":
            self.clear()
            print(text, file=sys.stderr if level == "fault" else sys.stdout, flush=True)
            self.show_bar()

    def one_more(self) -> None:
        """A game is over."""
        self.played += 1
        self.say(self.progress(), "logged" if self.has_bar else "told")
        self.show_bar()

    def progress(self) -> str:
        text = f"{self.played} of {self.games} games are played"
        left = self.games - self.played
        each = (time.monotonic() - self.since) / max(1, self.played - self.played_before)
        return text + (f", about {in_words(each * left)} left" if left and self.played > self.played_before else "")

    def clear(self) -> None:
        if self.has_bar:
            sys.stdout.write("\r\033[K")
            sys.stdout.flush()

    def show_bar(self) -> None:
        if self.has_bar:
            full = BAR * self.played // self.games
            sys.stdout.write(f"\r\033[K[{'#' * full}{'-' * (BAR - full)}] {self.progress()}")
            sys.stdout.flush()
