"""A table that goes on."""
from __future__ import annotations

import ctypes
import json
from collections.abc import Iterator, Sequence
from ctypes import addressof, byref, c_uint32, c_uint64
from types import TracebackType
from typing import Any, Callable, overload

from . import _library as lib
from .errors import RULES, BadSetting, NotSeated, OutOfMemory, Refused, RiichiError, WrongCall

Action = dict[str, Any]

_CAUSES = {
    lib.NO_GAME: ("NO_GAME", "the table is closed"),
    lib.IN_PLAY: ("IN_PLAY", "a game stands on the table already"),
    lib.NO_SEAT: ("NO_SEAT", "a seat is 0 to 3"),
    lib.NOT_PRESENT: ("NOT_PRESENT", "the seat isn't present"),
    lib.NOT_DUE: ("NOT_DUE", "the deed that the seat's next line answers doesn't exist yet"),
    lib.NO_LINE: ("NO_LINE", "there is no such line yet"),
    lib.TOO_LONG: ("TOO_LONG", "the line has more than 4,095 bytes"),
    lib.NO_CHOICE: ("NO_CHOICE", "the seat has no answer of that number"),
}
_REASONS = (
    ("FULL", "all four seats are held"), ("NAME_TAKEN", "a present seat has the name"),
    ("WRONG_KEY", "a gone seat has the name, and another key"), ("NO_KEY", "a gone seat has the name, and was taken without a key"),
    ("TOO_OFTEN", "the seat was taken back 64 times already"), ("OVER", "the game has ended"),
    ("BAD_NAME", "the line is no join with a name and a key of the right form"), ("NO_ROOM", "no table has that room"),
)


def _digest(seed: int | None) -> bytes:
    import hashlib  # (here, since it takes a while and few need it)

    return hashlib.sha256(str(seed).encode()).digest()


class Parsed(Sequence[Action]):
    """Objects of JSON that are read once somebody looks at one."""

    def __init__(self, read: Callable[[], list[Action]]) -> None:
        self._read = read
        self._items: list[Action] | None = None

    @property
    def items(self) -> list[Action]:
        """The objects."""
        if self._items is None:
            self._items = self._read()
        return self._items

    def __len__(self) -> int:
        return len(self.items)

    @overload
    def __getitem__(self, place: int) -> Action: ...

    @overload
    def __getitem__(self, place: slice) -> list[Action]: ...

    def __getitem__(self, place: int | slice) -> Action | list[Action]:
        return self.items[place]

    def __repr__(self) -> str:
        return repr(self.items)


class Observation:
    """What a seat is told next: the lines since it was asked last, and what it may answer to the newest of them, in the order of their numbers.
    `texts` are the lines as they are sent; they are parsed when `lines` or `actions` is looked at. `asked` is the line that lists the answers."""

    def __init__(self, texts: Sequence[bytes] = (), asked: bytes | None = None) -> None:
        self.texts = texts
        self.asked = asked
        self.lines = Parsed(self._lines)
        self.actions = Parsed(self._actions)

    def _lines(self) -> list[Action]:
        lines: list[Action] = json.loads(b"[" + b",".join(self.texts) + b"]")
        for line in lines:
            line.pop("possible_actions", None)
        return lines

    def _actions(self) -> list[Action]:
        actions: list[Action] = [] if self.asked is None else json.loads(self.asked)["possible_actions"]
        return actions


class Table:
    """One game between four seats, which answer one after another in any order.

    The walls are those of `seed`, a number or 32 bytes, or those of `setting`, the header and the wall lines of a record. `names` take the four
    seats at once; with `names=None` seats are taken by `sit`.

    There are two ways to play. Each seat answers each line: `awaited`, `observe`, `step`. Or only those who have a choice are asked, and give
    the number of an answer: `turn` says whose turn it is, and `choose` gives an answer and says whose turn it is then.
    """

    def __init__(
        self, seed: int | bytes | None = None, *, setting: str | bytes | None = None, walls: int = 200, limit: int = 10_000,
        draws: bool = True, red: bool = True, names: tuple[str, str, str, str] | None = ("east", "south", "west", "north"),
    ) -> None:
        self._table = lib.CTable()
        self._at = addressof(self._table)
        self._room = ctypes.create_string_buffer(1 << 14)
        self._length, self._number = c_uint64(), c_uint32()
        self._state, self._seat, self._turn = lib.CState(), lib.CSeat(), lib.CTurn()
        self._number_at, self._turn_at = addressof(self._number), addressof(self._turn)
        self._told = [0, 0, 0, 0]
        if setting is not None:
            text = setting.encode() if isinstance(setting, str) else setting
            self._check(lib.LIBRARY.riichi_table_open(self._at, text, len(text)))
        else:
            key = seed if isinstance(seed, bytes) else _digest(seed)
            if not (0 <= walls < 1 << 32 and 0 <= limit < 1 << 64):
                self._check(lib.BAD_SETTING)
            self._check(lib.LIBRARY.riichi_table_open_seed(self._at, key, len(key), 0, walls, limit, draws, red))
        for name in names or ():
            self.sit(name)

    # -- who sits

    def sit(self, name: str, key: str | None = None) -> int:
        """The seat that is taken under a name, or taken back by its key; NotSeated where there is none."""
        join = {"type": "join", "name": name}
        if key is not None:
            join["key"] = key
        return self.sit_line(json.dumps(join).encode())

    def sit_line(self, line: bytes) -> int:
        """`sit` by a line as it came."""
        self._check(lib.LIBRARY.riichi_table_sit(self._at, line, len(line), self._number_at))
        return self._number.value

    def gone(self, seat: int) -> None:
        """The seat leaves; default answers are given for it."""
        self._check(lib.LIBRARY.riichi_table_gone(self._at, _seat(seat)))

    def expire(self, window: int, begun: int, now: int) -> bool:
        """Whether the time of the open window has run out between these two readings of a clock in milliseconds, and it is closed."""
        return self._check(lib.LIBRARY.riichi_table_expire(self._at, window, begun, now)) == lib.DONE

    # -- each seat answers each line

    def awaited(self) -> Iterator[int]:
        """The seats that may answer, each asked when its turn comes."""
        for seat in range(4):
            if self.may_say(seat):
                yield seat

    def observe(self, seat: int) -> Observation:
        """What a seat is told since it was asked last, and what it may answer now. Each line is told once."""
        due = self.due(seat)
        asked = self.line(seat, due) if self._seat.may_say else None
        texts = [self.line(seat, number) for number in range(self._told[seat], due)]
        if asked is not None and self._told[seat] <= due:
            texts.append(asked)
        self._told[seat] = max(due if asked is None else due + 1, self._told[seat])
        return Observation(texts, asked)

    def step(self, seat: int, action: Action) -> bool:
        """A seat gives an answer; Refused where it breaks a rule, and then the seat is asked again. False where it came too late."""
        return self.say(seat, json.dumps(action).encode())

    def say(self, seat: int, line: bytes) -> bool:
        """`step` by a line as it came."""
        answer = lib.LIBRARY.riichi_table_say(self._at, _seat(seat), line, len(line), self._number_at)
        return self._check(answer) == lib.DONE

    # -- only those who have a choice are asked

    def turn(self) -> int | None:
        """Each seat passes that can do nothing else; then the first seat whose answer is wanted, or None where the game has ended."""
        answer = lib.LIBRARY.riichi_table_turn(self._at, self._turn_at)
        while answer:
            self._go_on(answer)
            answer = lib.LIBRARY.riichi_table_turn(self._at, self._turn_at)
        seat: int = self._turn.seat
        return seat if seat < 4 else None

    def choices(self, seat: int) -> int:
        """How many answers a seat may give to the newest deed."""
        self._check(lib.LIBRARY.riichi_table_choices(self._at, _seat(seat), byref(self._length)))
        return self._length.value

    def choose(self, seat: int, number: int) -> int | None:
        """A seat gives the answer of this number, from 0 on, of those that its line lists; then as `turn`."""
        answer = lib.LIBRARY.riichi_table_choose(self._at, seat, number, self._number_at, self._turn_at)
        if answer:
            self._go_on(answer)
            return self.turn()
        now: int = self._turn.seat
        return now if now < 4 else None

    # -- what is told

    def line(self, seat: int, number: int) -> bytes:
        """Line `number` of a seat, with its newline."""
        return self._text(lib.LIBRARY.riichi_table_line, self._at, _seat(seat), number)

    def pending(self, seat: int) -> bytes:
        """What is still to be told to a seat."""
        return self._text(lib.LIBRARY.riichi_table_pending, self._at, _seat(seat))

    def record(self) -> str:
        """The record of the game so far."""
        return self._text(lib.LIBRARY.riichi_table_record, self._at).decode()

    # -- what stands

    @property
    def deeds(self) -> int:
        """The number of deeds so far."""
        return int(self._stand().deeds)

    @property
    def over(self) -> bool:
        """Whether the game has ended."""
        return bool(self._stand().is_over)

    @property
    def window(self) -> int | None:
        """The number of the open window; None where none is open."""
        number = int(self._stand().window)
        return None if number == 0xFFFFFFFF else number

    def due(self, seat: int) -> int:
        """The number of the deed that a seat's next line answers."""
        self._check(lib.LIBRARY.riichi_table_seat(self._at, _seat(seat), byref(self._seat)))
        return int(self._seat.due)

    def may_say(self, seat: int) -> bool:
        """Whether the seat may say a line now."""
        self.due(seat)
        return bool(self._seat.may_say)

    def points(self) -> tuple[int, int, int, int]:
        """The points of the four seats."""
        found = []
        for seat in range(4):
            self.due(seat)
            found.append(int(self._seat.points))
        return (found[0], found[1], found[2], found[3])

    # -- its end

    def close(self) -> None:
        """The game is taken off the table, and its memory given back."""
        if self._table.is_open:
            lib.LIBRARY.riichi_table_close(self._at)

    def __enter__(self) -> Table:
        return self

    def __exit__(self, kind: type[BaseException] | None, error: BaseException | None, trace: TracebackType | None) -> None:
        self.close()

    def __del__(self) -> None:
        if hasattr(self, "_at"):
            self.close()

    def _stand(self) -> lib.CState:
        self._check(lib.LIBRARY.riichi_table_state(self._at, byref(self._state)))
        return self._state

    def _text(self, call: Callable[..., int], *given: int) -> bytes:
        answer = call(*given, self._room, len(self._room), byref(self._length))
        if answer == lib.NO_ROOM:
            self._room = ctypes.create_string_buffer(self._length.value)
            answer = call(*given, self._room, len(self._room), byref(self._length))
        self._check(answer)
        return ctypes.string_at(self._room, self._length.value)

    def _go_on(self, answer: int) -> None:
        if answer != lib.GO_ON:
            self._check(answer)

    def _check(self, answer: int) -> int:
        if answer in (lib.REFUSED, lib.CLOSING):
            raise Refused(RULES[self._number.value - 1], answer == lib.CLOSING)
        if answer < lib.NO_GAME:
            return answer
        if answer == lib.NO_MEMORY:
            raise OutOfMemory("memory is wanting")
        if answer == lib.BAD_SETTING:
            raise BadSetting("the header or a wall is none, or a number is outside its range")
        if answer >= lib.NOT_SEATED:
            raise NotSeated(*_REASONS[answer - lib.NOT_SEATED])
        if answer in _CAUSES:
            raise WrongCall(*_CAUSES[answer])
        raise RiichiError(f"the library answers {answer}")


def _seat(seat: int) -> int:
    """The number of a seat as C takes it; what is none of 32 bits is none of the four either."""
    return seat if 0 <= seat < 1 << 32 else 4
