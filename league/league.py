#!/usr/bin/env python3
"""Plays a league of programs at tables of riichi_table, and makes a table that anyone can check.

Four games are played on the walls of one seed by four of the programs, each of which has each seat once; which four they are
goes by a balanced schedule. The seeds follow from the league's own seed by SHA-256. Each program speaks mjai over standard
input and output, and is seated by examples/bridge.py. The file of the programs is a JSON list of four objects or more:

  [{"name": "anna", "command": ["python3", "anna.py"], "style": "line", "think": 5000}, ..]

with a name of 1 to 64 bytes, the command as it is run in the file's folder, the style, line, batch or mortal (default: line),
the spelling of yaku, table or mjai (default: table), the milliseconds for an answer (default: 5000), and, as start, those for
the first answer after a start (default: 30000). What was played stands in the folder of --out: started again with the same
words, a league goes on where it stopped, and with more --games it gets these too. The exit code is 0 where all was played and
no program was stood in for, and where a check finds nothing wrong, 2 where the words are wrong, and else 1.
"""
from __future__ import annotations

import argparse
import asyncio
import fcntl
import math
import os
import pathlib
import re
import secrets
import shutil
import sys

import check
import walls
from cluster import Cluster
from console import Console
from folder import League, Settings, as_json, write_whole
from programs import Program, Wrong, read_programs
from run import Engine, Here, Run, stood_in_for
from schedule import Schedule


LONGEST_LIMIT = 3600000  # milliseconds, the server's


def begin(words: argparse.Namespace, programs: list[Program]) -> tuple[League, str]:
    """The league of the words' folder, made where no game of one was played yet, and its seed."""
    folder: pathlib.Path = words.out
    kept = folder / "seed.secret"
    seed = words.seed.lower() if words.seed else kept.read_text().strip() if kept.exists() else secrets.token_hex(32)
    settings: Settings = {
        "games": words.games, "limit": words.limit, "draws": words.draws, "red": words.red, "uma": words.uma,
        "commitment": walls.commitment_of(seed), "programs": programs,
    }
    stands = League.open(folder) if (folder / "league.json").exists() else None
    if stands and stands.games:
        compare(stands, settings)
    else:
        with open(os.open(kept, os.O_WRONLY | os.O_CREAT | os.O_TRUNC, 0o600), "w", encoding="utf-8") as file:
            file.write(seed + "\n")
    write_whole(folder / "league.json", as_json(settings))
    return League(folder, settings), seed


def compare(stands: League, settings: Settings) -> None:
    """Takes the settings of a league that has played games, or these with another number of games that has all of them."""
    for name in Settings.__annotations__.keys() - {"games"}:
        if stands.settings[name] != settings[name]:  # type: ignore[literal-required]
            what = "seed" if name == "commitment" else name
            raise Wrong(f"{stands.folder} holds a league with other {what}: take another folder, or the words that it was begun with")
    if max(stands.games) >= settings["games"]:
        raise Wrong(f"{stands.folder} holds a league that has played {len(stands.games)} games: it can get more games, and none fewer")


def how_balanced(games: int, schedule: Schedule) -> str:
    """What is told of the schedule before the first game."""
    period, programs = schedule.period, schedule.programs
    if period and games % (4 * period) == 0:
        return f"{games} games of {programs} programs, in which all pairs meet equally often"
    exact = f"; all pairs meet equally often in each multiple of {4 * period} games" if period else ""
    return f"{games} games of {programs} programs, as even as may be{exact}"


def play(words: argparse.Namespace) -> int:
    """Plays a league to its end; the exit code."""
    programs, folder = read_programs(words.bots), words.out
    (folder / "games").mkdir(parents=True, exist_ok=True)
    with open(folder / "lock", "w", encoding="utf-8") as lock:
        try:
            fcntl.flock(lock, fcntl.LOCK_EX | fcntl.LOCK_NB)
        except BlockingIOError:
            raise Wrong(f"a league is being played in {folder} already") from None
        league, seed = begin(words, programs)
        console = Console(league.folder / "league.log", words.games, len(league.games))
        try:
            return play_to_the_end(words, league, seed, console)
        except Wrong as wrong:
            console.say(str(wrong), "logged")
            raise
        finally:
            console.close()


def play_to_the_end(words: argparse.Namespace, league: League, seed: str, console: Console) -> int:
    console.say(how_balanced(words.games, league.schedule))
    published = league.folder / "seeds.json"
    if published.exists() and len(league.games) < words.games:
        console.say("the seeds are published already, so the walls of these further games can be known", "fault")
    engine: Engine = Here(words.jobs, league.folder / "games")
    if words.cluster:
        engine = Cluster(words.cluster, console.say)
    try:
        asyncio.run(Run(league, seed, words, engine, console).play())
    except asyncio.CancelledError:
        raise Wrong("stopped; started again it goes on here") from None
    finally:
        text = league.write_table()
    console.clear()
    print(text, end="")
    if words.publish:
        blocks = [walls.seed_of(seed, block) for block in range(words.games // 4)]
        write_whole(published, as_json({"league": seed, "blocks": blocks}))
        console.say(f"the seeds are in {published}")
    faults = stood_in_for(league)
    for fault in faults:
        console.say(f"league.py: {fault}", "fault")
    return 1 if faults else 0


def uma_of(text: str) -> list[float]:
    """Four numbers that are joined by commas."""
    try:
        numbers = [float(part) for part in text.split(",")]
    except ValueError:
        numbers = []
    if len(numbers) != 4 or not all(map(math.isfinite, numbers)):
        raise argparse.ArgumentTypeError(f"{text} isn't four numbers with commas between them")
    return [int(number) if number.is_integer() else number for number in numbers]


def read_words() -> argparse.Namespace:
    parser = argparse.ArgumentParser(
        description=__doc__, formatter_class=argparse.RawDescriptionHelpFormatter,
        usage="%(prog)s --program PATH --games N --bots FILE --out DIR [OPTIONS]\n       %(prog)s --check DIR [--program PATH]",
    )
    add = parser.add_argument
    add("--program", metavar="PATH", help="the built program riichi_table")
    add("--games", type=int, metavar="N", help="how many games, a multiple of 4")
    add("--bots", type=pathlib.Path, metavar="FILE", help="the programs")
    add("--out", type=pathlib.Path, metavar="DIR", help="the league's folder")
    add("--seed", metavar="HEX", help="the league's seed, 64 hex digits (default: a fresh one)")
    add("--jobs", type=int, default=2, metavar="K", help="games at a time on this machine (default: %(default)s)")
    add("--cluster", metavar="ADDRESS", help="have the games played by the workers of the Dask scheduler there")
    add("--limit", type=int, default=10000, metavar="MS", help="the server's limit for an answer (default: %(default)s)")
    add("--draws", action="store_true", help="with abortive draws")
    add("--red", action="store_true", help="with one red five in each suit")
    add("--uma", type=uma_of, metavar="A,B,C,D",
        help="what the four places are worth, in thousands of points; --uma=15,5,-5,-15 (default: there are no scores)")
    add("--go-on", action="store_true", help="play on where a program never answered in its first games")
    add("--tries", type=int, default=4, metavar="N", help="how often a game is tried (default: %(default)s)")
    add("--minutes", type=float, default=120, metavar="M", help="minutes until a game is broken (default: %(default)s)")
    add("--pages", action="store_true", help="make an HTML page of each game, with the viewer in it")
    add("--publish", action="store_true", help="tell the seeds after the end, so that anyone can check the league")
    add("--check", type=pathlib.Path, metavar="DIR", help="check a published league instead of playing one")
    words = parser.parse_args()
    if not words.check:
        for name in ("program", "games", "bots", "out"):
            if getattr(words, name) is None:
                parser.error(f"--{name} is wanting")
    if words.seed and not re.fullmatch("[0-9a-fA-F]{64}", words.seed):
        parser.error("--seed wants 64 hex digits")
    if not words.check and (words.games < 4 or words.games % 4):
        parser.error(f"--games {words.games}: a league has a multiple of 4 games, since each program plays each wall from each seat")
    if not 1 <= words.limit <= LONGEST_LIMIT:
        parser.error(f"--limit wants 1 to {LONGEST_LIMIT} milliseconds")
    if words.jobs < 1 or words.tries < 1:
        parser.error("--jobs and --tries want 1 at least")
    if not 0 < words.minutes < math.inf:
        parser.error("--minutes wants a number above 0")
    if words.program:
        found = shutil.which(words.program)
        if not found:
            parser.error(f"--program {words.program}: this is no program that can be run")
        words.program = os.path.abspath(found)
    return words


def main() -> None:
    words = read_words()
    try:
        if words.check:
            check.check(words.check, words.program)
        else:
            sys.exit(play(words))
    except Wrong as wrong:
        sys.exit(f"league.py: {wrong}")
    except OSError as error:
        sys.exit(f"league.py: {error.filename or words.out or words.check}: {error.strerror or error}")
    except KeyboardInterrupt:
        sys.exit("league.py: stopped")


if __name__ == "__main__":
    main()
