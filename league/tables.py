"""The table of a league as text and as a page."""
from __future__ import annotations

import html
from typing import Any, Iterable

from results import FAULTS, MEANS, SCORE, Games, Row, was_stood_in_for

PLACES = ("1st", "2nd", "3rd", "4th")
NOTE = (
    "Each number is the mean of a game, with its 95% interval, but for the games and the places, which are counted. Four games on "
    "the same walls, in which each of four programs has each seat once, are one block; the intervals are Student's over the means "
    "of the blocks that a program played in, of which there are {blocks} in all."
)
FAULTS_NOTE = (
    "Of a game: how many answers somebody gave in the program's place, how often it was started again, how many of its answers were "
    "refused, how many windows ran out before it answered, and how many of its answers came too late."
)

Column = tuple[str, str, int]


def cell(row: Row, column: Column) -> str:
    """A number of the table with its interval, as text."""
    name, _, digits = column
    half = row[name + "_interval"]
    return f"{row[name]:,.{digits}f}" + (f" ± {half:,.{digits}f}" if half is not None else "")


def results_of(table: Row) -> list[list[str]]:
    """The titles and the lines of the programs' results."""
    means = [*MEANS[:2], *([SCORE] if table["uma"] else []), *MEANS[2:]]
    lines = [["", "games", means[0][1], means[1][1], *PLACES, *(title for _, title, _ in means[2:])]]
    for row in table["rows"]:
        first, second, *others = (cell(row, column) for column in means)
        lines.append([row["name"], str(row["games"]), first, second, *map(str, row["places"]), *others])
    return lines


def faults_of(table: Row) -> list[list[str]]:
    """The titles and the lines of the programs' failures."""
    lines = [["", *(title for _, title, _ in FAULTS)]]
    return lines + [[row["name"], *(cell(row, column) for column in FAULTS)] for row in table["rows"]]


def heading(table: Row, games: int) -> str:
    """How many games the table is of, and how many there are to be."""
    return f"{table['games']} games" if table["games"] == games else f"{table['games']} of {games} games"


def lined_up(lines: list[list[str]]) -> Iterable[str]:
    widths = [max(len(line[place]) for line in lines) for place in range(len(lines[0]))]
    for first, *others in lines:
        yield "  ".join([first.ljust(widths[0]), *(it.rjust(width) for it, width in zip(others, widths[1:]))]).rstrip()


def text_of(table: Row, games: int) -> str:
    """The table as lines of text, of a league of so many games."""
    parts = [heading(table, games), *lined_up(results_of(table)), NOTE.format(blocks=table["blocks"]), ""]
    return "\n".join([*parts, *lined_up(faults_of(table)), FAULTS_NOTE]) + "\n"


PAGE = """<!doctype html>
<html lang="en"><head><meta charset="utf-8"><meta name="viewport" content="width=device-width, initial-scale=1">{again}
<title>League: {heading}</title>
<style>
:root {{ color-scheme: light dark; }}
body {{ font: 16px/1.5 system-ui, sans-serif; max-width: 80rem; margin: 1rem auto; padding: 0 1rem; }}
div {{ overflow-x: auto; }}
table {{ border-collapse: collapse; font-variant-numeric: tabular-nums; }}
td, th {{ padding: .25rem .7rem; text-align: right; white-space: nowrap; border-bottom: 1px solid #8886; }}
th:first-child {{ text-align: left; }}
.fault {{ color: #c33; }}
</style></head><body>
<h1>League: {heading}</h1>
{results}
<p>{note}</p>
<h2>What went wrong</h2>
{faults}
<p>{faults_note}</p>
<h2>Games</h2>
{list}
</body></html>
"""


def table_in_html(lines: list[list[str]]) -> str:
    """Lines of text as a table; the first has the titles, and the first of each line is its title."""
    titles, *others = lines
    head = "".join(f'<th scope="col">{html.escape(title)}</th>' for title in titles)
    rows = ["<tr>" + f'<th scope="row">{html.escape(first)}</th>' + "".join(f"<td>{it}</td>" for it in cells) + "</tr>"
            for first, *cells in others]
    return f"<div><table><thead><tr>{head}</tr></thead><tbody>\n" + "\n".join(rows) + "\n</tbody></table></div>"


def games_in_html(games: Games, links: dict[int, str]) -> str:
    """The list of the games, with what each program has in each; `links` has each game's file."""
    rows = []
    for number, game in sorted(games.items()):
        by_seat = sorted(game.items(), key=lambda item: int(item[1]["seat"]))
        cells = "".join(f"<td>{html.escape(name)} {row['points']:,}{fault_in_html(row)}</td>" for name, row in by_seat)
        rows.append(f'<tr><th scope="row"><a href="{links[number]}">{number + 1}</a></th>{cells}</tr>')
    seats = "".join(f'<th scope="col">seat {seat}</th>' for seat in range(4))
    return f'<div><table><thead><tr><th scope="col">game</th>{seats}</tr></thead><tbody>\n' + "\n".join(rows) + "\n</tbody></table></div>"


def fault_in_html(row: Row) -> str:
    return f' <span class="fault">stood in {row["stood_in"]}</span>' if was_stood_in_for(row) else ""


def page_of(table: Row, of: int, games: Games, links: dict[int, str]) -> str:
    """The table and the list of games of a league of so many games as one HTML page, which is read anew until all are played."""
    return PAGE.format(
        heading=heading(table, of), again="" if len(games) == of else '\n<meta http-equiv="refresh" content="30">',
        results=table_in_html(results_of(table)), note=NOTE.format(blocks=table["blocks"]),
        faults=table_in_html(faults_of(table)), faults_note=FAULTS_NOTE, list=games_in_html(games, links),
    )


def in_words(name: str, row: Row) -> str | None:
    """What a program failed at in a game, or None."""
    told = [f"{title} {row[field]}" for field, title, _ in FAULTS if row[field]]
    told += [how_it_ended(row["ended"])] if row["ended"] else []
    told += ["never answered"] if row["never_answered"] else []
    told += [row["problem"]] if row["problem"] else []
    return f"{name}: " + "; ".join(told) if told else None


def how_it_ended(ends: list[dict[str, Any]]) -> str:
    """How often a program ended in a game, and how it did the first time."""
    code, last = ends[0].get("code"), str(ends[0].get("stderr") or "").strip().splitlines()
    how = "ended" if code is None else f"ended by signal {-code}" if code < 0 else f"ended with {code}"
    often = f" the first of {len(ends)} times" if len(ends) > 1 else ""
    return f"{how} at event {ends[0].get('event')}{often}" + (f", saying last {last[-1]!r}" if last else "")
