"""Checks of games and leagues: seeds, walls, seats, records, results and tables."""
from __future__ import annotations

import functools
import hashlib
import json
import pathlib
import re
import subprocess
import threading

import results
import walls
from folder import League, games_of
from programs import Wrong


SHUFFLING = threading.Lock()


def hash_of(record: str) -> str:
    return hashlib.sha256(record.encode()).hexdigest()


def wall_lines(seed: str, red: bool) -> list[str]:
    """The lines of the walls of a block's seed; games of a block that end together don't shuffle them side by side."""
    with SHUFFLING:
        return shuffled_lines(seed, red)


@functools.lru_cache(maxsize=64)
def shuffled_lines(seed: str, red: bool) -> list[str]:
    return ["wall " + " ".join(walls.wall_of(seed, number, red)) for number in range(walls.WALLS)]


def replayed(program: str, record: str) -> str | None:
    """What `replay` says against a record, or None."""
    told = subprocess.run([program, "replay"], input=record.encode(), capture_output=True, timeout=600)
    return None if told.returncode == 0 else told.stderr.decode("utf-8", "replace").strip() or f"exit code {told.returncode}"


def problem_of_record(league: League, number: int, seed: str, record: str, program: str | None) -> str | None:
    """What is wrong with a record as that of a game of a league, whose block has this seed, or None."""
    settings = league.settings
    lines = record.split("\n")
    if not re.fullmatch(rf"game limit={settings['limit']} draws={int(settings['draws'])} red={int(settings['red'])}", lines[0]):
        return "the record is of a game with other rules"
    if lines[1:1 + walls.WALLS] != wall_lines(seed, settings["red"]):
        return "the walls aren't those of the seed"
    if program and (problem := replayed(program, record)):
        return f"replay refuses the record: {problem}"
    try:
        if list(results.counted(record)) != league.names_of(number):
            return "the programs have other seats than they should"
    except (LookupError, TypeError, ValueError):
        return "the record isn't that of a whole game"
    return None


def problem_of_game(league: League, number: int, seed: str, program: str | None) -> str | None:
    """What is wrong with a game that was kept, or None."""
    try:
        record = league.file(number, ".record").read_text(encoding="utf-8")
    except (OSError, ValueError) as error:
        return str(error)
    if number not in league.games:
        return "it has no result"
    if hash_of(record) != league.games[number]["record"]:
        return "the record isn't the one that was kept"
    if problem := problem_of_record(league, number, seed, record, program):
        return problem
    kept = league.programs_in(number)
    for name, row in results.counted(record).items():
        if any(kept.get(name, {}).get(key) != value for key, value in row.items()):
            return f"the result of {name} isn't what the record says"
    return None


def check(folder: pathlib.Path, program: str | None) -> None:
    """Checks a published league: its seeds, walls, seats, records, results and table."""
    try:
        checked = check_all(folder, program)
    except (ArithmeticError, AttributeError, LookupError, TypeError, ValueError) as error:
        raise Wrong(f"{folder} has files that are out of form: {error}") from None
    replay = "replayed" if program else "not replayed, since no --program was named"
    print(f"{checked} games are sound: seeds, walls, seats, results and table; their records are {replay}")


def check_all(folder: pathlib.Path, program: str | None) -> int:
    """Checks a published league whose files are in form; the number of its games."""
    league = League.open(folder)
    try:
        seeds = json.loads((folder / "seeds.json").read_text(encoding="utf-8"))
        table = json.loads((folder / "table.json").read_text(encoding="utf-8"))
        own, listed = seeds["league"], seeds["blocks"]
        commitment = walls.commitment_of(own)
    except (OSError, LookupError, TypeError, ValueError) as error:
        raise Wrong(f"{folder} isn't published, or not whole: {error}") from None
    wrong = []
    if commitment != league.settings["commitment"]:
        wrong.append("the league's seed isn't the one that was promised")
    if unplayed := league.settings["games"] - len(league.games):
        wrong.append(f"{unplayed} of {league.settings['games']} games have no result")
    for block in sorted({number // 4 for number in league.games}):
        games, seed = games_of(block), walls.seed_of(own, block)
        if listed[block:block + 1] != [seed]:
            wrong.append(f"the seed of games {games[0] + 1} to {games[-1] + 1} doesn't follow from the league's")
        for number in games:
            if problem := problem_of_game(league, number, seed, program):
                wrong.append(f"game {number + 1}: {problem}")
    if json.loads(json.dumps(league.table())) != table:
        wrong.append("the table isn't what the games come to")
    if wrong:
        raise Wrong("\n".join(wrong))
    return len(league.games)
