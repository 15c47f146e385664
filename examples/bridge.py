#!/usr/bin/env python3
"""Seats a program that speaks mjai over standard input and output at a table of riichi_table.

  style line    each event is one line, and each is answered by one line
  style batch   the events since the last answer come as one JSON list in a line, wherever the program may do something, at
                the start and the end of a game and at the end of a hand; each list is answered by one line
  style mortal  each event is one line; the program writes a line only where it may do something

Where the command has {seat}, the program is started once its seat is known, with the number of the seat in its place. In
every style the events have what ordinary mjai has beside the table's own fields, and an answer may lack what can be known.

A program that ends is started again and told the game so far; one that is silent for too long, or whose answer is refused,
is stood in for: it passes, or discards the tile that it drew. For an answer that is sent after the table's limit the table
stands in. The first time of each is said on standard error; all of it,
what the bridge changed and the program's standard error go to a log. The exit code is 0 where the game was played to its
end and each answer is the program's own, 1 where it was not, and 2 where the words are wrong.

With --led, as a league seats a program, it says that it is there, and joins when a line has come on its standard input. It says that
it is ready once it has been told all that it was told before, and gives its first answer after another line. It keeps its counts
in the report's file, and the next bridge of the seat goes on with them; what the seat might have done in windows that were over
when it came back is counted as stood in for.
"""
from __future__ import annotations

import argparse
import collections
import dataclasses
import functools
import json
import math
import os
import secrets
import select
import shutil
import signal
import socket
import subprocess
import sys
import threading
import time
from typing import BinaryIO, Callable

from customs import LONGEST, Customs, Event, compact, is_listed
from processes import end_with_parent

NONE = '{"type":"none"}'
SEAT = "{seat}"  # stands in a command for the number of the seat
STYLES = ("line", "batch", "mortal")


class Lost(Exception):
    """The seat is lost: why, in words."""


class Lines:
    """The lines that come over a file descriptor."""

    def __init__(self, descriptor: int) -> None:
        self.descriptor = descriptor
        self.unread = b""

    def read(self, deadline: float | None = None) -> str:
        """The next line; TimeoutError where none comes in time, EOFError where there is none any more."""
        while b"\n" not in self.unread:
            rest = None if deadline is None else max(0.0, deadline - time.monotonic())
            if not select.select([self.descriptor], [], [], rest)[0]:
                raise TimeoutError
            part = os.read(self.descriptor, 1 << 16)
            if not part:
                raise EOFError
            self.unread += part
        line, _, self.unread = self.unread.partition(b"\n")
        return line.decode("utf-8", "replace").strip()


class Program:
    """A running program: lines go to its standard input, and come from its standard output."""

    def __init__(self, command: list[str], log: BinaryIO) -> None:
        pipe, end = subprocess.PIPE, functools.partial(end_with_parent, os.getpid())
        self.process = subprocess.Popen(
            command, stdin=pipe, stdout=pipe, stderr=pipe, bufsize=0, start_new_session=True, preexec_fn=end)
        assert self.process.stdin and self.process.stdout and self.process.stderr
        self.input, self.output, self.errors = self.process.stdin, self.process.stdout, self.process.stderr
        os.set_blocking(self.input.fileno(), False)
        self.lines = Lines(self.output.fileno())
        self.owed = 0  # answers
        self.last_errors: collections.deque[str] = collections.deque(maxlen=3)
        self.listener = threading.Thread(target=self.keep_errors, args=(log,), daemon=True)
        self.listener.start()

    def keep_errors(self, log: BinaryIO) -> None:
        """Copies its standard error to the log, and keeps the last lines of it."""
        for line in os.fdopen(os.dup(self.errors.fileno()), "rb"):
            if text := line.decode("utf-8", "replace").strip():
                self.last_errors.append(text)
            if log.closed:
                return
            log.write(line)

    def write(self, line: str, deadline: float, wants_answer: bool) -> None:
        """Gives it one line; TimeoutError where it doesn't read, EOFError where it is gone."""
        unsent = line.encode() + b"\n"
        while unsent:
            if not select.select([], [self.input], [], max(0.0, deadline - time.monotonic()))[1]:
                raise TimeoutError
            try:
                unsent = unsent[os.write(self.input.fileno(), unsent):]
            except BrokenPipeError:
                raise EOFError from None
        self.owed += wants_answer

    def read(self, deadline: float, dropped: Callable[[str], None], fits: Callable[[str], bool] | None = None) -> str:
        """Its answer to the last line; those that it owed before that are dropped. Where it may owe fewer than was thought, the
        last one that fits is the answer when the time is over."""
        answer = None
        try:
            while self.owed > 0:
                newer = self.lines.read(deadline)
                self.owed -= 1
                if answer is not None:
                    dropped(answer)
                answer = newer
        except TimeoutError:
            if answer is None:
                raise
            if not fits or not fits(answer):
                dropped(answer)
                raise
            self.owed = 0
        assert answer is not None
        return answer

    def unasked(self) -> list[str]:
        """The lines that it wrote without being asked."""
        found = []
        try:
            while self.owed == 0:
                found.append(self.lines.read(time.monotonic()))
        except (TimeoutError, EOFError):
            pass
        return found

    def ended(self, patience: float) -> int | None:
        """Its exit code, where it ends within so many seconds."""
        try:
            return self.process.wait(patience)
        except subprocess.TimeoutExpired:
            return None

    def end(self, patience: float = 0.0) -> None:
        """Ends it, after a moment in which it may end by itself."""
        self.input.close()
        self.ended(patience)
        try:
            os.killpg(self.process.pid, signal.SIGKILL)
        except ProcessLookupError:
            pass
        self.process.wait()
        self.listener.join(1)
        self.output.close()
        self.errors.close()


class Hand:
    """The seat's own tiles, as far as a stand-in needs them."""

    def __init__(self) -> None:
        self.seat: int | None = None
        self.tiles: collections.Counter[str] = collections.Counter()
        self.drawn: str | None = None

    def hear(self, event: Event) -> None:
        kind = event["type"]
        if kind == "start_game":
            self.seat = event["id"]
        elif kind == "start_kyoku" and self.seat is not None:
            self.tiles = collections.Counter(event["tehais"][self.seat])
        if event.get("actor") != self.seat:
            return
        if kind == "tsumo":
            self.tiles[event["pai"]] += 1
            self.drawn = event["pai"]
        elif kind in ("dahai", "kakan"):
            self.tiles[event["pai"]] -= 1
        elif kind in ("chi", "pon", "daiminkan", "ankan"):
            self.tiles.subtract(event["consumed"])
            self.drawn = None

    def stand_ins(self, event: Event) -> list[Event]:
        """Answers of which one is lawful, the first wherever that can be known."""
        listed = event.get("possible_actions", [])
        own = event.get("actor") == self.seat
        if listed:
            passes = [it for it in listed if it["type"] == "none"]
            discards = [it for it in listed if it["type"] == "dahai"]
            return passes or sorted(discards, key=lambda it: not it["tsumogiri"])
        if own and event["type"] == "tsumo":
            return [self.discard(event["pai"], True)]
        if own and event["type"] in ("chi", "pon", "reach"):
            held = sorted(+self.tiles)
            return [self.discard(tile, tile == self.drawn and self.tiles[tile] == 1) for tile in held]
        return [{"type": "none"}]

    def discard(self, tile: str, drawn: bool) -> Event:
        return {"type": "dahai", "actor": self.seat, "pai": tile, "tsumogiri": drawn}


def may_act(event: Event, seat: int | None) -> bool:
    """Whether the seat may do something beside passing, as far as this can be known."""
    if "possible_actions" in event:
        return any(action["type"] != "none" for action in event["possible_actions"])
    own = event.get("actor") == seat
    return event["type"] in (("tsumo", "chi", "pon", "reach") if own else ("dahai", "kakan"))


@dataclasses.dataclass
class Report:
    """What a bridge has to tell of its program when the game is over."""

    name: str
    seat: int | None = None
    scores: list[int] | None = None
    problem: str | None = None  # why the game was not played to its end
    answers: int = 0  # that the program gave in time
    refusals: int = 0  # answers that the table refused
    silences: int = 0  # events that it did not answer in time
    expired: int = 0  # the same as run_out
    starts: int = 0
    returns: int = 0  # connections that broke and were made again
    asked: int = 0  # events that the program was to answer
    events: int = 0  # of the game, as far as they were answered
    stood_in: int = 0  # answers that the bridge or the table gave in its place
    restarts: int = 0  # starts after the first
    run_out: int = 0  # windows that were over by the limit before the answer was sent
    late: int = 0  # answers of the program that came after their time
    ended: list[Event] = dataclasses.field(default_factory=list)  # each time that it ended: event, code, stderr
    never_answered: bool = False

    @classmethod
    def of(cls, words: argparse.Namespace) -> Report:
        """A new one, or for a league that of the bridge before, where there was one."""
        if not words.led or not os.path.exists(words.report):
            return cls(words.name)
        with open(words.report, encoding="utf-8") as file:
            found = cls(**json.load(file))
        found.starts = max(0, found.starts - 1)  # the next start is no restart
        found.problem = None
        return found

    def keep(self, path: str) -> None:
        """Writes it to its file, which is never there in part."""
        with open(path + ".part", "w", encoding="utf-8") as file:
            json.dump(dataclasses.asdict(self), file)
        os.replace(path + ".part", path)

    def count_start(self) -> None:
        self.starts += 1
        self.restarts = self.starts - 1

    def count_run_out(self) -> None:
        self.expired += 1
        self.run_out += 1


@dataclasses.dataclass
class Told:
    """An event of the game as the program is told it, and whether it answers it."""

    event: Event
    line: str
    is_asked: bool


def how_it_ended(code: int | None) -> str:
    if code is None:
        return "closed its standard output"
    return f"ended with exit code {code}" if code >= 0 else f"was ended by signal {-code} ({signal.Signals(-code).name})"


class Player:
    """The program's side of the bridge: what it was told, what it answers, and how often it failed to."""

    def __init__(self, words: argparse.Namespace, log: BinaryIO) -> None:
        self.words = words
        self.log = log
        self.hand = Hand()
        self.customs = Customs(words.spelling)
        self.program: Program | None = None
        self.is_fresh = False  # whether the running program has answered nothing yet
        self.events: list[Told] = []  # the game so far
        self.told = 0  # how many of these the running program was given
        self.answers: list[str] = []  # what the newest event may be answered with, best first
        self.is_own = False  # whether the first of these is the program's
        self.has_left = False  # whether it ended by itself when the game was over
        self.silent = 0  # how often in a row
        self.report = Report.of(words)
        self.asked = 0  # events that the program was to answer
        self.is_ready = self.is_let = False  # to answer; by the league
        self.warned: set[str] = set()

    def say(self, text: str) -> None:
        self.log.write(f"bridge: {text}\n".encode())

    def warn(self, kind: str, text: str) -> None:
        """Says what went wrong in the log, and the first of its kind on standard error."""
        self.say(text)
        if kind not in self.warned:
            self.warned.add(kind)
            print(f"{self.words.name}: {text}", file=sys.stderr, flush=True)

    def newest(self) -> str:
        """The newest event by its number, from 1, and its type."""
        return f"event {len(self.events)} ({self.events[-1].event['type']})"

    def hear(self, line: str, event: Event) -> Told:
        """Takes the next event of the game."""
        if added := self.customs.added(event):
            line = compact({**event, **added})
            self.say(f"told at event {len(self.events) + 1} ({event['type']}): {compact(added)}")
        self.hand.hear(event)
        told = Told(event, line, self.is_asked(event))
        self.events.append(told)
        return told

    def hear_past(self, line: str, event: Event) -> None:
        """Takes an event that wants no answer any more."""
        told = self.hear(line, event)
        if self.words.led and told.is_asked:
            self.asked += 1
            if self.asked > self.report.asked:
                self.report.asked = self.asked
                self.report.stood_in += may_act(event, self.hand.seat)

    def is_back(self) -> None:
        """It has been told all that it was told before."""
        if self.words.led and not self.is_ready:
            self.is_ready = True
            print(f"{self.words.name} is ready", flush=True)

    def wait_for_the_others(self) -> None:
        """Before the first answer, until a league says that all are ready: who answers while others are away closes windows."""
        self.is_back()
        if self.words.led and not self.is_let:
            self.is_let = True
            sys.stdin.readline()

    def is_asked(self, event: Event) -> bool:
        """Whether the program answers an event."""
        if self.words.style == "line":
            return True
        if self.words.style == "batch" and event["type"] in ("start_game", "end_kyoku", "end_game"):
            return True
        if self.words.style == "mortal" and event["type"] == "tsumo" and "possible_actions" not in event:
            raise Lost("style mortal wants a table that lists possible_actions")
        return may_act(event, self.hand.seat)

    def answer(self, line: str, event: Event) -> str:
        """The answer to a new event, as a line."""
        told = self.hear(line, event)
        self.answers = [compact(it) for it in self.hand.stand_ins(event)]
        self.is_own = False
        if not told.is_asked:
            self.tell_only()
            return self.answers[0]
        self.asked += 1
        self.report.asked = self.asked
        answer = self.ask()
        if answer is not None:
            self.report.answers += 1
            self.is_own = True
            self.answers.insert(0, answer)
        elif not self.has_left:
            self.report.stood_in += 1
        return self.answers[0]

    def refused(self, message: str) -> str:
        """The next answer to the newest event, since the one before was refused."""
        if not self.events or not self.answers:
            return NONE
        self.report.refusals += 1
        self.report.stood_in += self.is_own
        whose = "the program's answer" if self.is_own else "the answer in its place"
        self.warn("refused", f"{whose} to {self.newest()} was refused, {message}: {self.answers[0]}")
        self.say(f"the event was {self.events[-1].line}")
        self.is_own = False
        del self.answers[0]
        self.answers = self.answers or [NONE]
        return self.answers[0]

    def ran_out(self, seconds: float) -> None:
        """The answer to the newest event is sent after the limit, when so many seconds have gone by."""
        self.report.count_run_out()
        if self.is_own:
            self.report.late += 1
            self.report.stood_in += 1
        whose = "the program's answer" if self.is_own else "the answer in its place"
        self.warn("ran out", f"{whose} to {self.newest()} came after {seconds:.1f} s, and the table waits for {self.words.limit / 1000:g} s")

    def ask(self) -> str | None:
        """The program's answer to the newest event, or None. One that has ended is started again for it once."""
        for _ in range(2):
            if not self.program and not self.start():
                return None
            try:
                answer = self.tell()
            except TimeoutError:
                self.was_silent()
                return None
            except EOFError:
                self.has_ended()
                if self.has_left:
                    return None
                continue
            self.silent = 0
            self.is_fresh = False
            return self.mended(answer)
        return None

    def mended(self, answer: str) -> str | None:
        """An answer as the table takes it, or None."""
        mended = self.customs.mended(answer, self.events[-1].event, self.hand.seat, self.hand.drawn)
        if mended != answer:
            self.say(f"the answer to {self.newest()} is sent as {mended} for {answer}")
        if len(mended.encode()) <= LONGEST:
            return mended
        self.warn("refused", f"an answer of more than {LONGEST} bytes to {self.newest()}")
        return None

    def tell(self) -> str:
        """Gives the program what it wasn't given yet, and reads its last answer."""
        assert self.program
        deadline = time.monotonic() + self.patience()
        new = self.events[self.told:]
        if self.words.style == "batch":
            self.program.write("[" + ",".join(it.line for it in new) + "]", deadline, True)
            self.told = len(self.events)
            return self.program.read(deadline, self.came_late)
        if self.words.style == "mortal":
            for line in self.program.unasked():
                self.say(f"unasked, before {self.newest()}: {line}")
        answer = NONE
        for told in new:
            self.program.write(told.line, deadline, told.is_asked)
            self.told += 1
            if told.is_asked:
                fits = (lambda it, event=told.event: is_listed(it, event)) if self.words.style == "mortal" else None
                answer = self.program.read(deadline, self.came_late, fits)
        return answer

    def tell_only(self) -> None:
        """Gives the newest event to a program that gets each event as it comes, and that has all before it."""
        if self.words.style == "mortal" and self.program and self.told == len(self.events) - 1:
            try:
                self.program.write(self.events[-1].line, time.monotonic() + self.patience(), False)
                self.told += 1
            except TimeoutError:
                self.was_silent()
            except EOFError:
                self.has_ended()

    def patience(self) -> float:
        """The seconds for an answer."""
        milliseconds: int = self.words.start if self.is_fresh else self.words.think
        return milliseconds / 1000

    def came_late(self, answer: str) -> None:
        self.report.late += 1
        self.say(f"too late, before {self.newest()}: {answer}")

    def was_silent(self) -> None:
        self.silent += 1
        self.report.silences += 1
        self.warn("silent", f"the program was silent at {self.newest()} for {self.patience():g} s")
        self.say(f"no answer in time to {self.events[-1].line}")
        if self.told < len(self.events) or self.silent == self.words.patience:
            self.stop("it is silent")

    def has_ended(self) -> None:
        """The program closed its output, or its input is closed."""
        assert self.program
        program, code = self.program, self.program.ended(1)
        self.stop("it has ended")
        if self.events[-1].event["type"] == "end_game" and not self.is_fresh:
            self.has_left = True
            return
        last = list(program.last_errors)
        self.report.ended.append({"event": len(self.events), "code": code, "stderr": "\n".join(last)})
        words = "; it said last: " + " | ".join(last) if last else ""
        self.warn("ended", f"the program {how_it_ended(code)} at {self.newest()}{words}")

    def start(self) -> bool:
        """Starts the program; False where it was started too often or can't be started again."""
        if self.report.starts > self.words.restarts:
            return False
        command = [word.replace(SEAT, str(self.hand.seat)) for word in self.words.command]
        self.report.count_start()
        try:
            self.program = Program(command, self.log)
        except OSError as error:
            if self.report.starts == 1:
                raise
            self.warn("ended", f"the program can't be started again: {error.strerror or error}")
            return False
        self.is_fresh = True
        self.told = 0
        self.silent = 0
        return True

    def stop(self, why: str) -> None:
        assert self.program
        self.program.end()
        self.program = None
        left = self.words.restarts + 1 - self.report.starts
        rest = f"it may be started {left} more times" if left else "that was the last time"
        self.say(f"the program is stopped, since {why}; {rest}")

    def close(self) -> None:
        """Lets the program end, and says in how many answers it was stood in for."""
        if self.program:
            self.program.end(patience=2)
        it = self.report
        it.seat = self.hand.seat
        it.never_answered = it.asked > 0 and it.answers == 0
        if it.stood_in:
            what = f"the program was stood in for at {it.stood_in} of {it.asked} events"
            self.warn("stood in", what + (", and never answered" if it.never_answered else ""))


class Table:
    """The server's side of the bridge: a connection to the table, which is made again by the key where it breaks."""

    def __init__(self, words: argparse.Namespace) -> None:
        self.words = words
        self.link: socket.socket | None = None

    def connect(self) -> None:
        """Connects as soon as the port is there."""
        deadline = time.monotonic() + self.words.wait
        where = f"{self.words.host} port {self.words.port}"
        while True:
            try:
                self.link = socket.create_connection((self.words.host, self.words.port), timeout=5)
                break
            except socket.gaierror as error:
                raise Lost(f"the host {self.words.host} isn't found: {error.strerror}") from None
            except (OSError, OverflowError) as error:
                if time.monotonic() > deadline or isinstance(error, OverflowError):
                    raise Lost(f"nobody listens on {where}: {getattr(error, 'strerror', None) or error}") from None
                time.sleep(0.1)
        self.link.settimeout(None)
        self.lines = Lines(self.link.fileno())

    def read(self) -> tuple[str, Event]:
        """The next line, and what it says."""
        line = self.lines.read()
        try:
            event = json.loads(line)
            event["type"]
        except (ValueError, TypeError, KeyError):
            raise Lost(f"this is no table of mjai: it says {line[:100]!r}") from None
        return line, event

    def send(self, line: str) -> None:
        assert self.link
        self.link.sendall(line.encode() + b"\n")

    def join(self) -> None:
        self.send(compact({"type": "join", "name": self.words.name, "key": self.words.key, "room": self.words.room}))
        print(f"{self.words.name} joins", flush=True)

    def close(self) -> None:
        if self.link:
            self.link.close()


class Connection:
    """One connection of a player to a table."""

    def __init__(self, table: Table, player: Player) -> None:
        self.table = table
        self.player = player
        self.past = 0  # events that are told again without wanting an answer
        self.heard = 0  # events
        self.over = math.inf  # when the newest event's window was, where its answer came after that

    def play(self) -> Event | None:
        """Plays on it to its end; the last event where that is the game's, else None."""
        while True:
            line, event = self.table.read()
            kind = event["type"]
            if kind == "hello":
                self.table.join()
            elif kind == "replay":
                self.past = event["count"]
                if self.past == 0:
                    self.player.is_back()
            elif kind == "error" and "sit" in event:
                if event["message"] == "NameTaken" and self.player.report.returns:
                    return None  # the server hasn't seen yet that the connection before is gone
                raise Lost(f"no seat: {event['message']}")
            elif kind == "error":
                self.reply(self.player.refused(event["message"]))
            else:
                self.hear(line, event)
                if kind == "end_game":
                    return event

    def hear(self, line: str, event: Event) -> None:
        """Takes an event of the game, and answers it where that is wanted."""
        # a table that has waited in vain went on at once, and tells of it only after the answer that it no longer wants
        since = min(time.monotonic(), self.over)
        self.heard += 1
        if event["type"] == "start_game" and not self.player.events:
            print(f"{self.table.words.name} has seat {event['id']}", flush=True)
        if self.past > 0:
            self.past -= 1
            if self.heard > len(self.player.events):
                self.player.hear_past(line, event)
            if self.past == 0:
                self.player.is_back()
            return
        self.player.wait_for_the_others()
        is_known = self.heard == len(self.player.events) and self.player.answers
        answer = self.player.answers[0] if is_known else self.player.answer(line, event)
        taken, limit = time.monotonic() - since, self.table.words.limit / 1000
        self.over = since + limit if taken >= limit else math.inf
        if taken >= limit:
            self.player.ran_out(taken)
        self.reply(answer)

    def reply(self, answer: str) -> None:
        """Sends an answer, of which the report tells already."""
        report = self.player.report
        report.events = len(self.player.events)
        if self.table.words.led:
            report.keep(self.table.words.report)
        self.table.send(answer)


def play(table: Table, player: Player) -> Event:
    """Plays the game to its end, over as many connections as it takes; its last event."""
    deadline = None
    while True:
        table.connect()
        before = len(player.events)
        try:
            event = Connection(table, player).play()
            if event:
                return event
            time.sleep(0.2)
        except (EOFError, ConnectionError):
            player.say("the connection is broken")
            player.report.returns += 1
        if len(player.events) > before or deadline is None:
            deadline = time.monotonic() + table.words.wait
        elif time.monotonic() > deadline:
            raise Lost("the seat can't be taken back")
        table.close()


def read_words() -> argparse.Namespace:
    parser = argparse.ArgumentParser(
        description=__doc__, formatter_class=argparse.RawDescriptionHelpFormatter,
        usage="%(prog)s --name NAME [OPTIONS] -- COMMAND ..",
    )
    texts = [
        ("--key", "KEY", secrets.token_hex(16), "the key by which it comes back (default: a fresh one)"),
        ("--host", "HOST", "127.0.0.1", "the server's machine (default: %(default)s)"),
        ("--room", "ROOM", "default", "the table of the command tables, as room2 (default: the first)"),
        ("--log", "FILE", None, "where the program's standard error goes (default: NAME.log)"),
        ("--report", "FILE", None, "where the counts go, as JSON"),
    ]
    numbers = [
        ("--port", "PORT", 11600, "the server's port"),
        ("--think", "MS", 5000, "milliseconds for each answer"),
        ("--start", "MS", 30000, "milliseconds for the first answer after a start"),
        ("--patience", "N", 3, "silences in a row until it is started again"),
        ("--restarts", "N", 3, "how often it is started again"),
        ("--wait", "S", 60, "seconds to wait for the port"),
        ("--limit", "MS", 10000, "the server's limit, after which an answer is the table's own"),
    ]
    parser.add_argument("--name", required=True, help="the player's name, 1 to 64 bytes")
    parser.add_argument("--style", choices=STYLES, default="line", help="how the program speaks (default: %(default)s)")
    parser.add_argument(
        "--spelling", choices=["table", "mjai"], default="table",
        help="of yaku and draw reasons, the table's or that of ordinary mjai (default: %(default)s)")
    for word, unit, text, purpose in texts:
        parser.add_argument(word, default=text, metavar=unit, help=purpose)
    for word, unit, number, purpose in numbers:
        parser.add_argument(word, type=int, default=number, metavar=unit, help=purpose + " (default: %(default)s)")
    parser.add_argument("--led", action="store_true", help="let a league lead it, with a --report that goes on")
    parser.add_argument("command", nargs="+", metavar="COMMAND", help="the program and its words, after --")
    words = parser.parse_args()
    if words.led and not words.report:
        parser.error("--led wants a --report")
    return words


def run(words: argparse.Namespace, player: Player, table: Table) -> None:
    """Plays the game, and leaves in the report how it went."""
    try:
        if not shutil.which(words.command[0]):
            raise FileNotFoundError(2, os.strerror(2), words.command[0])
        if not any(SEAT in word for word in words.command):
            player.start()
        if words.led:
            print(f"{words.name} is there", flush=True)
            sys.stdin.readline()
        player.report.scores = play(table, player)["scores"]
    except Lost as lost:
        player.report.problem = str(lost)
    except OSError as error:
        player.report.problem = f"{error.filename or words.command[0]}: {error.strerror or error}"
    except KeyboardInterrupt:
        player.report.problem = "stopped"
    finally:
        table.close()
        player.close()
    if player.report.problem:
        player.say(player.report.problem)


def main() -> None:
    words = read_words()
    try:
        log = open(words.log or f"{words.name}.log", "ab", buffering=0)
    except OSError as error:
        sys.exit(f"{words.name}: the log {error.filename}: {error.strerror}")
    with log:
        player = Player(words, log)
        run(words, player, Table(words))
    report = player.report
    if words.report:
        try:
            report.keep(words.report)
        except OSError as error:
            report.problem = report.problem or f"the report {words.report}: {error.strerror}"
    if report.problem or report.scores is None:
        sys.exit(f"{words.name}: {report.problem}")
    print(f"{words.name}: scores", *report.scores)
    sys.exit(1 if report.stood_in else 0)


if __name__ == "__main__":
    main()
