"""The folder of a league: its settings, the games that were played, and the tables of them."""
from __future__ import annotations

import json
import os
import pathlib
from typing import Any, TypedDict, cast

import results
import tables
from programs import Program, Wrong
from schedule import Schedule


class Settings(TypedDict):
    """What a league is played by, as it stands in league.json."""
    games: int
    limit: int
    draws: bool
    red: bool
    uma: list[float] | None
    commitment: str
    programs: list[Program]


def write_whole(path: pathlib.Path, text: str) -> None:
    """Writes a file so that it is there whole or not at all."""
    part = path.with_suffix(path.suffix + ".part")
    with open(part, "w", encoding="utf-8") as file:
        file.write(text)
        file.flush()
        os.fsync(file.fileno())
    os.replace(part, path)


def as_json(value: Any) -> str:
    return json.dumps(value, indent=1, ensure_ascii=False) + "\n"


class League:
    """A league in its folder."""

    def __init__(self, folder: pathlib.Path, settings: Settings) -> None:
        self.folder = folder
        self.settings = settings
        self.names = [program["name"] for program in settings["programs"]]
        self.schedule = Schedule(len(self.names))
        self.games: dict[int, dict[str, Any]] = {}  # the results of those that were played, by number
        for path in sorted(folder.glob("games/*.json")):
            number = int(path.stem) - 1
            if number < settings["games"]:
                self.games[number] = self.result_in(path)

    @classmethod
    def open(cls, folder: pathlib.Path) -> League:
        """The league that stands in a folder."""
        return cls(folder, settings_in(folder))

    def file(self, number: int, ending: str) -> pathlib.Path:
        """A file of a game, by its number from 0."""
        return self.folder / "games" / f"{number + 1:04}{ending}"

    def names_of(self, number: int) -> list[str]:
        """The names by seat in a game."""
        return [self.names[place] for place in self.schedule.seats(number)]

    def result_in(self, path: pathlib.Path) -> dict[str, Any]:
        try:
            result: dict[str, Any] = json.loads(path.read_text(encoding="utf-8"))
            return result
        except (OSError, ValueError) as error:
            raise Wrong(f"{path}: {error}") from None

    def is_whole(self, block: int) -> bool:
        """Whether all games of a block were played."""
        return all(number in self.games for number in games_of(block))

    def keep(self, number: int, record: str, result: dict[str, Any]) -> None:
        """Keeps a game that was played."""
        write_whole(self.file(number, ".record"), record)
        write_whole(self.file(number, ".json"), as_json(result))
        self.games[number] = result

    def programs_in(self, number: int) -> dict[str, results.Row]:
        """What each program did in a game that was played."""
        rows: dict[str, results.Row] = self.games[number]["programs"]
        return rows

    def rows_of(self, name: str) -> dict[int, results.Row]:
        """What a program did, by the games in which it played."""
        return {number: game["programs"][name] for number, game in sorted(self.games.items()) if name in game["programs"]}

    def table(self) -> results.Row:
        games = {number: self.programs_in(number) for number in self.games}
        return results.table_of(self.names, games, self.settings["uma"])

    def write_table(self) -> str:
        """Makes the table anew from all games that were played; returns it as text."""
        table, of = self.table(), self.settings["games"]
        pages = {number: self.file(number, ".html") for number in self.games}
        files = {number: page if page.exists() else self.file(number, ".record") for number, page in pages.items()}
        links = {number: f"games/{file.name}" for number, file in files.items()}
        games = {number: self.programs_in(number) for number in self.games}
        text = tables.text_of(table, of)
        write_whole(self.folder / "table.json", as_json(table))
        write_whole(self.folder / "table.txt", text)
        write_whole(self.folder / "index.html", tables.page_of(table, of, games, links))
        return text


def games_of(block: int) -> range:
    """The games of a block, by their numbers from 0."""
    return range(4 * block, 4 * block + 4)


def settings_in(folder: pathlib.Path) -> Settings:
    """The settings of the league that stands in a folder."""
    try:
        settings = json.loads((folder / "league.json").read_text(encoding="utf-8"))
    except (OSError, ValueError) as error:
        raise Wrong(f"{folder} holds no league: {error}") from None
    if not isinstance(settings, dict) or settings.keys() != Settings.__annotations__.keys():
        raise Wrong(f"{folder} holds a league of another version of league.py")
    return cast(Settings, settings)
