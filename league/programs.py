"""The programs of a league: the file that lists them, and whether their commands are there."""
from __future__ import annotations

import json
import os
import pathlib
import shutil
from typing import Any, TypedDict

STYLES = ("line", "batch", "mortal")
SPELLINGS = ("table", "mjai")
TIMES = {"think": 5000, "start": 30000}  # milliseconds for an answer, and for the first one after a start


class Wrong(Exception):
    """The league can't be played or isn't sound: why, in words."""


class Program(TypedDict):
    """A program as the league's file has it, with all its fields."""
    name: str
    command: list[str]
    style: str
    spelling: str
    think: int
    start: int


def read_programs(path: pathlib.Path) -> list[Program]:
    """The programs of a file."""
    try:
        listed = json.loads(path.read_text(encoding="utf-8"))
    except (OSError, ValueError) as error:
        raise Wrong(f"{path}: {error}") from None
    if not isinstance(listed, list) or len(listed) < 4:
        raise Wrong(f"{path}: this is no list of four programs or more")
    programs = [program_of(it, f"{path}: program {place}") for place, it in enumerate(listed, 1)]
    if len({program["name"] for program in programs}) < len(programs):
        raise Wrong(f"{path}: two programs have one name")
    return programs


def program_of(given: Any, where: str) -> Program:
    name = given.get("name") if isinstance(given, dict) else None
    if not isinstance(name, str) or not name.isprintable() or not 1 <= len(name.encode()) <= 64:
        raise Wrong(f"{where} has no printable name of 1 to 64 bytes")
    command = given.get("command")
    if not isinstance(command, list) or not command or not all(isinstance(word, str) for word in command):
        raise Wrong(f"{where} has no command, a list of words")
    for field, values in (("style", STYLES), ("spelling", SPELLINGS)):
        if given.get(field, values[0]) not in values:
            raise Wrong(f"{where} has another {field} than {', '.join(values[:-1])} or {values[-1]}")
    for field, usual in TIMES.items():
        milliseconds = given.get(field, usual)
        if not isinstance(milliseconds, int) or isinstance(milliseconds, bool) or milliseconds < 1:
            raise Wrong(f"{where} has a {field} that is no number of milliseconds")
    if unknown := given.keys() - Program.__annotations__.keys():
        raise Wrong(f"{where} has the unknown field {min(unknown)}")
    return {
        "name": name, "command": command, "style": given.get("style", STYLES[0]), "spelling": given.get("spelling", SPELLINGS[0]),
        "think": given.get("think", TIMES["think"]), "start": given.get("start", TIMES["start"]),
    }


def first_word(program: Program, folder: pathlib.Path) -> str:
    """What is to be looked up for a program whose command is run in a folder."""
    word = program["command"][0]
    return str(folder / word) if os.sep in word else word


def look_up(programs: list[Program], folder: pathlib.Path) -> None:
    """Finds the command of each program on this machine."""
    missing = [program for program in programs if not shutil.which(first_word(program, folder))]
    if missing:
        raise Wrong("\n".join(no_command(program, "this machine") for program in missing))


def no_command(program: Program, where: str) -> str:
    return f"the command of {program['name']}, {program['command'][0]}, isn't there on {where} or can't be run"
