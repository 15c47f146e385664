"""What the games of a league come to: what each program did in a game, and the means over all with intervals."""
from __future__ import annotations

import collections
import json
import math
import statistics
from typing import Any

Row = dict[str, Any]
Games = dict[int, dict[str, Row]]  # by number from 0: what each program did in it

# Two-sided 95% points of Student's t for 1 to 30 degrees of freedom.
STUDENT = [
    12.706, 4.303, 3.182, 2.776, 2.571, 2.447, 2.365, 2.306, 2.262, 2.228, 2.201, 2.179, 2.160, 2.145, 2.131,
    2.120, 2.110, 2.101, 2.093, 2.086, 2.080, 2.074, 2.069, 2.064, 2.060, 2.056, 2.052, 2.048, 2.045, 2.042,
]
START = 30000  # points
# The means of a game: their names and titles, and how many digits they have.
MEANS = [("points", "points", 0), ("place", "place", 2), ("wins", "wins", 2), ("deal_ins", "deal-ins", 2), ("riichis", "riichis", 2)]
SCORE = ("score", "score", 2)
FAULTS = [
    ("stood_in", "stood in", 2), ("restarts", "restarts", 2), ("refusals", "refusals", 2), ("run_out", "run-out", 2), ("late", "late", 2),
]


def t95(freedom: int) -> float:
    """The two-sided 95% point of Student's t."""
    if freedom <= len(STUDENT):
        return STUDENT[freedom - 1]
    z = statistics.NormalDist().inv_cdf(0.975)
    return z + (z**3 + z) / (4 * freedom) + (5 * z**5 + 16 * z**3 + 3 * z) / (96 * freedom**2)


def events_of(record: str) -> list[dict[str, Any]]:
    """The events of a record, without its header and walls."""
    return [json.loads(line) for line in record.split("\n") if line.startswith("{")]


def counted(record: str) -> dict[str, Row]:
    """What a record of a whole game says of each name: points, place and how often it won, dealt in and said riichi."""
    events = events_of(record)
    names, scores = events[0]["names"], events[-1]["scores"]
    # of equal points the seat that was dealer first stands before
    order = sorted(range(4), key=lambda seat: (-scores[seat], seat))
    wins = [event for event in events if event["type"] == "hora"]
    result = {}
    for seat, name in enumerate(names):
        result[name] = {
            "seat": seat,
            "points": scores[seat],
            "place": order.index(seat) + 1,
            "wins": sum(event["actor"] == seat for event in wins),
            "deal_ins": sum(event["target"] == seat != event["actor"] for event in wins),
            "riichis": sum(event["type"] == "reach" and event["actor"] == seat for event in events),
        }
    return result


def reported(report: Row) -> Row:
    """What a bridge's report says of its program's failures; a number that is missing is 0."""
    answers, starts = report.get("answers", 0), report.get("starts", 0)
    return {
        "answers": answers,
        "stood_in": report.get("stood_in", 0),
        "restarts": report.get("restarts", max(0, starts - 1)),
        "refusals": report.get("refusals", 0),
        "run_out": report.get("run_out", report.get("expired", 0)),
        "late": report.get("late", 0),
        "silences": report.get("silences", 0),
        "returns": report.get("returns", 0),
        "ended": report.get("ended", []),
        "never_answered": report.get("never_answered", not answers),
        "problem": report.get("problem"),
    }


def was_stood_in_for(row: Row) -> bool:
    """Whether somebody else answered for a program in a game."""
    return bool(row["stood_in"] or row["never_answered"] or row["problem"])


def interval(values: list[float]) -> tuple[float, float | None]:
    """The mean of a list of numbers, and the half width of its 95% interval; None where one number tells no width."""
    mean = statistics.fmean(values)
    if len(values) < 2:
        return mean, None
    return mean, t95(len(values) - 1) * statistics.stdev(values) / math.sqrt(len(values))


def columns_of(uma: list[float] | None) -> list[tuple[str, str, int]]:
    return [*MEANS, *([SCORE] if uma else []), *FAULTS]


def table_of(names: list[str], games: Games, uma: list[float] | None = None) -> Row:
    """The table of a league: of games, by number from 0, those of whole blocks; best mean points first.

    A score is the thousands of points above the start, and what the place is worth by the uma.
    """
    blocks = sorted({number // 4 for number in games})
    whole = [[games[4 * block + turn] for turn in range(4)] for block in blocks if all(4 * block + turn in games for turn in range(4))]
    rows: list[Row] = []
    for name in names:
        own = [[{**game[name], **score(game[name], uma)} for game in block] for block in whole if name in block[0]]
        if own:
            places = collections.Counter(game["place"] for block in own for game in block)
            row = {"name": name, "games": 4 * len(own), "places": [places[place] for place in (1, 2, 3, 4)]}
            for column, _, _ in columns_of(uma):
                row[column], row[column + "_interval"] = interval([statistics.fmean(game[column] for game in block) for block in own])
            rows.append(row)
    rows.sort(key=lambda row: float(row["score" if uma else "points"]), reverse=True)
    return {"games": 4 * len(whole), "blocks": len(whole), "uma": uma, "rows": rows}


def score(row: Row, uma: list[float] | None) -> Row:
    return {"score": (row["points"] - START) / 1000 + uma[row["place"] - 1]} if uma else {}
