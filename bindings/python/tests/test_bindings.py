#!/usr/bin/env python3
"""The bindings for Python over the shared library, on the games that the program itself is tested on.

usage: RIICHI_TABLE_LIBRARY=libriichi_table.so test_bindings.py     Without the library all tests are skipped.
"""
from __future__ import annotations

import importlib.util
import os
import random
import subprocess
import sys
import tempfile
import time
import unittest
from ctypes import addressof, byref, c_uint32, c_uint64, create_string_buffer
from pathlib import Path
from typing import Any, Callable, Iterator, cast

ROOT = Path(__file__).resolve().parents[3]
CASES, PYTHON = ROOT / "crates" / "riichi_cases" / "data", ROOT / "bindings" / "python"
LIBRARY = os.environ.get("RIICHI_TABLE_LIBRARY", "")
sys.path.insert(0, str(PYTHON))
HELLO = b'{"type":"hello","protocol":"mjsonp","protocol_version":3}\n'

if LIBRARY:
    from riichi_table import (
        BadRecord, BadSetting, NotSeated, Refused, Table, UnheardLine, WrongCall, WrongWords, hand, referee, replay, selfplay, shanten, waits,
    )
    from riichi_table import _library as lib
    from riichi_table.aec import ACTIONS, RiichiEnv
    from riichi_table.errors import RULES


def runs(path: Path) -> Iterator[tuple[list[str], bytes, int, bytes]]:
    """Each run of a case: its words, its input, its exit code, and what it writes."""
    given = b""
    for part in path.read_bytes().removesuffix(b"\n").split(b"\n-- ")[1:]:
        head, mark, text = part.partition(b"\n")
        lines = text + b"\n" if mark else b""
        if head == b"input":
            given = lines
        elif head == b"input without its last newline":
            given = text
        else:
            words, _, ending = head.partition(b"=> ")
            yield words.decode("latin1").split(), given, int(ending.split()[0]) if ending else 0, lines


def apart(words: list[str]) -> bool:
    """Whether the words are those of a command that the library doesn't run."""
    return bool(words) and words[0] in ("serve", "tables", "keep")


class Script:
    """What one seat is told by the arrivals of an input, put together from the calls of a table."""

    def __init__(self, seat: int) -> None:
        self.seat, self.told, self.is_open = seat, b"", False
        self.table: Any = None

    def take(self, given: bytes) -> bytes:
        """All that is told to the seat, to the end of the input or its first line that is no arrival."""
        lines = given.split(b"\n")
        rest = lines.pop()
        head = [line for line in lines if line.startswith((b"game ", b"wall "))]
        count = next((k for k, line in enumerate(lines) if not line.startswith((b"game ", b"wall "))), len(lines))
        if count >= len(lines) and count == len(head):
            return b""
        try:
            self.table = Table(setting=b"".join(line + b"\n" for line in lines[:count]), names=None)
        except BadSetting:
            return b""
        for line in lines[count:]:
            if not self.arrive(line):
                break
        return self.told + self.table.pending(self.seat)

    def arrive(self, line: bytes) -> bool:
        """One arrival; False where the line is none."""
        word, space, text = line.partition(b" ")
        if not space:
            return False
        try:
            return bool(getattr(self, "on_" + word.decode("ascii", "replace"), lambda text: False)(text))
        except WrongCall:
            return False

    def on_sit(self, text: bytes) -> bool:
        number = c_uint32()
        answer = lib.LIBRARY.riichi_table_sit(self.table._at, text, len(text), byref(number))
        if answer == lib.TOO_LONG:
            return False
        if answer in (lib.DONE, lib.BACK) and number.value == self.seat:
            self.told += HELLO
            if answer == lib.BACK:
                due = self.table.due(self.seat)
                self.told += b'{"type":"replay","count":%d}\n' % due
                self.told += b"".join(self.table.line(self.seat, k) for k in range(due))
        return True

    def on_say(self, text: bytes) -> bool:
        digits, space, line = text.partition(b" ")
        seat = number_of(digits)
        if not space or seat is None or seat > 3:
            return False
        last = self.table.pending(seat) if seat == self.seat else b""
        try:
            self.table.say(seat, line)
        except Refused as fault:
            if seat == self.seat:
                last += b'{"type":"error","rule":%d,"message":"%s"}\n' % (RULES.index(fault.rule) + 1, fault.rule.encode())
        if seat == self.seat:
            self.told += last
        return True

    def on_gone(self, text: bytes) -> bool:
        seat = number_of(text)
        if seat is None or seat > 3:
            return False
        last = self.table.pending(seat) if seat == self.seat else b""
        self.table.gone(seat)
        self.told += last
        return True

    def on_expire(self, text: bytes) -> bool:
        numbers = [number_of(field) for field in text.split(b" ")]
        if len(numbers) != 3 or None in numbers or numbers[0] >= 1 << 32:  # type: ignore[operator]
            return False
        self.table.expire(*numbers)
        return True


def number_of(digits: bytes) -> int | None:
    """The number below 2^64 that the digits say, without a sign or a leading zero."""
    if not digits.isdigit() or (len(digits) > 1 and digits[:1] == b"0") or int(digits) >= 1 << 64:
        return None
    return int(digits)


@unittest.skipUnless(LIBRARY, "no RIICHI_TABLE_LIBRARY")
class Commands(unittest.TestCase):
    """riichi_run over the stored cases."""

    def test_cases_byte_for_byte(self) -> None:
        """Each stored run of a command that waits for nobody gives its bytes and its exit code."""
        found = 0
        for path in sorted(CASES.iterdir()):
            for words, given, code, wanted in runs(path):
                if not apart(words):
                    found += 1
                    with self.subTest(case=path.name, words=words):
                        self.assertEqual(lib.run(words, given)[:2], (code, wanted))
        self.assertGreater(found, 700)

    def test_other_cases(self) -> None:
        """So does each run of a folder of cases that RIICHI_CASES names."""
        folder = os.environ.get("RIICHI_CASES")
        if not folder:
            self.skipTest("no RIICHI_CASES")
        found = 0
        for listed in sorted(Path(folder).glob("*.statuses")):
            for line in listed.read_text().splitlines():
                name, code = line.split(" ", 2)[:2]
                case = listed.with_suffix("") / name
                words = case.with_name(name + ".args").read_text().splitlines()
                if not apart(words):
                    found += 1
                    with self.subTest(case=str(case)):
                        self.assertEqual(lib.run(words, case.read_bytes())[:2], (int(code), case.with_name(name + ".stdout").read_bytes()))
        print(f"{found} cases", file=sys.stderr)

    def test_commands_that_are_not_run_here(self) -> None:
        """What waits for others or keeps a file is answered as faulty words are."""
        for words in cast(list[list[str]], (["serve", "--seed", "00" * 32], ["tables", "--seed", "00" * 32], ["keep", "0", "file"], [], ["\udcff"])):
            code, output, told = lib.run(words, b"")
            self.assertEqual((code, output, told[:20]), (2, b"", b"usage: riichi_table "))
        length = c_uint64(7)
        self.assertEqual(lib.LIBRARY.riichi_run(b"replay", 6, b"", 0, b"", 0, byref(length), b"", 0, byref(length)), 2)

    def test_named_calls(self) -> None:
        """The calls of the package, and their errors by name."""
        words = "1m 2m 3m 4p 5p 6p 7s 8s 9s E E P P"
        self.assertEqual(hand(words)["waits"], ["E", "P"])
        self.assertEqual((shanten(words), waits(words)), (0, ["E", "P"]))
        self.assertTrue(selfplay(7).startswith("hands "))
        wrong: list[tuple[type[Exception], Callable[[], object]]] = [
            (WrongWords, lambda: hand("1m 1m")), (BadRecord, lambda: replay("no record")), (WrongWords, lambda: hand("1m\n2m")),
            (BadSetting, lambda: Table(walls=201)), (BadSetting, lambda: Table(limit=0)), (BadSetting, lambda: Table(b"short")),
        ]
        for error, call in wrong:
            with self.assertRaises(error):
                call()
        with self.assertRaises(BadRecord) as record:
            replay("game limit=1 draws=0 red=0\nwall 1m\n")
        self.assertEqual((record.exception.line, record.exception.cause), (2, "WALL"))
        with self.assertRaises(UnheardLine) as unheard:
            referee(0, "game limit=1 draws=0 red=0\nno wall\n")
        self.assertEqual((unheard.exception.line, unheard.exception.told), (2, ""))


@unittest.skipUnless(LIBRARY, "no RIICHI_TABLE_LIBRARY")
class Tables(unittest.TestCase):
    """A table that goes on."""

    def test_each_seat_is_told_the_lines_of_referee(self) -> None:
        """A table stepped by the arrivals of each stored run of `referee` tells the seat what the command writes."""
        found = 0
        for path in sorted(CASES.iterdir()):
            for words, given, code, wanted in runs(path):
                if len(words) == 2 and words[0] == "referee" and words[1] in "0123" and code in (0, 6):
                    found += 1
                    with self.subTest(case=path.name, words=words):
                        self.assertEqual(Script(int(words[1])).take(given), wanted)
        self.assertGreater(found, 400)

    def test_a_whole_game(self) -> None:
        """Random answers to the game's end; what is recorded is a record, and its summary has the table's points."""
        choose = random.Random(3)
        with Table(11) as table:
            while not table.over:
                for seat in table.awaited():
                    table.step(seat, choose.choice(table.observe(seat).actions))
            record, points = table.record(), table.points()
        self.assertEqual(sum(points) % 1000, 0)
        self.assertIn("end", replay(record) + "end")

    def test_each_line_is_told_once(self) -> None:
        """What a seat was told in all are its lines; who is asked again is told none, and may answer the same."""
        choose = random.Random(5)
        told: list[list[bytes]] = [[], [], [], []]
        with Table(12, walls=30) as table:
            while not table.over:
                for seat in table.awaited():
                    seen, again = table.observe(seat), table.observe(seat)
                    told[seat] += seen.texts
                    self.assertEqual((again.texts, again.actions.items), ([], seen.actions.items))
                    table.step(seat, choose.choice(seen.actions))
            for seat in range(4):
                told[seat] += table.observe(seat).texts
                self.assertEqual(told[seat], [table.line(seat, number) for number in range(table.deeds)])

    def test_only_those_who_have_a_choice_are_asked(self) -> None:
        """Answers by their numbers give the game that the same answers give as lines, where all others pass."""
        with Table(11, walls=30) as table, Table(11, walls=30) as other:
            choose, seat = random.Random(3), table.turn()
            while seat is not None:
                seen, count = table.observe(seat), table.choices(seat)
                self.assertEqual(len(seen.actions), count)
                self.assertNotEqual(seen.actions.items, [{"type": "none"}])
                number = choose.randrange(count)
                while any(other.may_say(place) and self.passes(other, place) for place in range(4)):
                    pass
                other.step(seat, seen.actions[number])
                seat = table.choose(seat, number)
            while any(other.may_say(place) and self.passes(other, place) for place in range(4)):
                pass
            self.assertTrue(table.over)
            self.assertEqual(table.record(), other.record())
            for wrong in (4, -1, 1 << 32):
                with self.assertRaises(WrongCall) as fault:
                    table.choices(wrong)
                self.assertEqual(fault.exception.cause, "NO_SEAT")
            with self.assertRaises(WrongCall) as fault:
                table.choose(0, 1000)
            self.assertEqual(fault.exception.cause, "NO_CHOICE")

    def passes(self, table: Any, seat: int) -> bool:
        """Whether the seat could only pass, and has passed."""
        if not table.line(seat, table.due(seat)).endswith(b',"possible_actions":[{"type":"none"}]}\n'):
            return False
        table.step(seat, {"type": "none"})
        return True

    def test_refusals_and_wrong_calls(self) -> None:
        """A refused answer names its rule; a call that can't be made names its cause and changes nothing."""
        table = Table(1, names=None)
        with self.assertRaises(NotSeated) as seated:
            table.sit("")
        self.assertEqual(seated.exception.cause, "BAD_NAME")
        self.assertEqual([table.sit(name) for name in "abcd"], [0, 1, 2, 3])
        with self.assertRaises(NotSeated) as seated:
            table.sit("e")
        self.assertEqual(seated.exception.cause, "FULL")
        wrong_calls: list[tuple[str, Callable[[], object]]] = [
            ("NO_SEAT", lambda: table.say(4, b"{}")), ("NO_SEAT", lambda: table.line(9, 0)), ("NO_LINE", lambda: table.line(0, 99)),
            ("TOO_LONG", lambda: table.say(0, b" " * 4096)),
        ]
        for cause, call in wrong_calls:
            with self.assertRaises(WrongCall) as wrong:
                call()
            self.assertEqual(wrong.exception.cause, cause)
        with self.assertRaises(Refused) as refused:
            table.step(0, {"type": "dahai", "actor": 0, "pai": "1m", "tsumogiri": False})
        self.assertEqual((refused.exception.rule, refused.exception.is_gone), ("NotNow", False))
        for _ in range(14):
            with self.assertRaises(Refused):
                table.say(0, b"no answer")
        with self.assertRaises(Refused) as refused:
            table.say(0, b"no answer")
        self.assertEqual((refused.exception.rule, refused.exception.is_gone), ("Unreadable", True))
        with self.assertRaises(WrongCall) as wrong:
            table.gone(0)
        self.assertEqual(wrong.exception.cause, "NOT_PRESENT")
        table.close()
        with self.assertRaises(WrongCall) as wrong:
            table.points()
        self.assertEqual(wrong.exception.cause, "NO_GAME")

    def test_wrong_arguments(self) -> None:
        """Calls with random numbers and bytes answer, and a table that goes on is what it was."""
        choose = random.Random(5)
        table = Table(2)
        before = table.record()
        for _ in range(int(os.environ.get("RIICHI_WRONG_CALLS", "2000"))):
            wrong_call(choose, table)
        self.assertTrue(table.record().startswith(before.split("\n")[0]))
        table.close()

    def test_environment(self) -> None:
        """The turn-based environment plays a game by the first allowed action of each turn."""
        env = RiichiEnv(walls=200)
        env.reset(seed=7)
        turns, total = 0, dict.fromkeys(env.possible_agents, 0.0)
        for agent in env.agent_iter():
            seen, reward, termination, truncation, info = env.last()
            total[agent] += reward
            self.assertFalse(truncation)
            self.assertEqual(len(seen["action_mask"]), ACTIONS)
            self.assertEqual(sum(seen["action_mask"]), len(info["actions"]))
            env.step(None if termination else seen["action_mask"].index(1))
            turns += 1
        self.assertGreater(turns, 100)
        self.assertEqual(env.agents, [])

    def test_order_of_calls_of_an_environment(self) -> None:
        """The rules that PettingZoo's own test of environments checks, over two games with random actions."""
        env = RiichiEnv(walls=200)
        actions, observations = env.action_space("seat_0"), env.observation_space("seat_0")
        for seed in (3, 4):
            env.reset(seed=seed)
            gathered, alive = dict.fromkeys(env.agents, 0.0), set(env.agents)
            finished: set[str] = set()
            self.assertEqual((env.agents, env.num_agents, env.max_num_agents), (env.possible_agents, 4, 4))
            self.assertFalse(any(env.terminations.values()) or any(env.truncations.values()))
            for agent in env.agent_iter(1_000_000):
                self.assertNotIn(agent, finished)
                seen, reward, termination, truncation, info = env.last()
                self.assertEqual(env.last(observe=False)[:2], (None, reward))
                self.assertTrue(observations.contains(seen))
                self.assertEqual(reward, gathered[agent])
                self.assertLessEqual(alive, set(env.agents))
                self.assertIs(env.action_space(agent), actions)
                gathered[agent] = 0.0
                if termination:
                    alive.remove(agent)
                    finished.add(agent)
                    with self.assertRaises(ValueError):
                        env.step(0)
                    env.step(None)
                else:
                    for wrong in (None, -1, len(info["actions"])):
                        with self.assertRaises(ValueError):
                            env.step(wrong)
                    env.step(actions.sample(seen["action_mask"]))
                for other, more in env.rewards.items():
                    gathered[other] += more
                for kept in cast(list[dict[str, Any]], [env.rewards, env.terminations, env.truncations, env.infos]):
                    self.assertEqual(set(kept), set(env.agents))
                self.assertEqual(env.num_agents, len(env.agents))
            self.assertEqual((finished, env.agents), (set(env.possible_agents), []))
        # a game may be left in its midst
        env.reset(seed=5)
        for agent in env.agent_iter(20):
            env.step(actions.sample(env.last()[0]["action_mask"]))
        env.reset()
        env.close()

    def test_environment_where_pettingzoo_is(self) -> None:
        """It is one of PettingZoo's then, its spaces are Gymnasium's, and its masks are arrays. (The three packages are played here.)"""
        modules = {
            "pettingzoo": "class AECEnv: pass\n", "numpy": "def array(bits, dtype): return (dtype, tuple(bits))\n", "gymnasium/__init__": "",
            "gymnasium/spaces": "class Space: pass\nclass Discrete(Space):\n    def __init__(self, n): self.n = n\n",
        }
        code = """
import gymnasium.spaces, pettingzoo
from riichi_table.aec import RiichiEnv
env = RiichiEnv()
assert isinstance(env, pettingzoo.AECEnv)
assert isinstance(env.action_space("seat_0"), gymnasium.spaces.Discrete) and env.action_space("seat_0").n == 128
assert isinstance(env.observation_space("seat_0"), gymnasium.spaces.Space)
env.reset(seed=7)
kind, bits = env.last()[0]["action_mask"]
assert kind == "int8" and len(bits) == 128 and sum(bits) == len(env.last()[4]["actions"])
"""
        with tempfile.TemporaryDirectory() as folder:
            (Path(folder) / "gymnasium").mkdir()
            for name, text in modules.items():
                (Path(folder) / f"{name}.py").write_text(text)
            path = os.pathsep.join([folder, sys.path[0]])
            subprocess.run([sys.executable, "-c", code], check=True, env={**os.environ, "PYTHONPATH": path})

    @unittest.skipUnless(importlib.util.find_spec("ensurepip"), "no pip for a new environment: install python3-venv")
    def test_wheel(self) -> None:
        """The wheel, installed without the network in an environment of its own, runs the example; made twice it has the same bytes."""
        builder, library = PYTHON / "wheel_builder.py", str(Path(LIBRARY).resolve())
        with tempfile.TemporaryDirectory() as folder:
            built = []
            for name in ("one", "two"):
                words = [sys.executable, str(builder), "--library", library, os.path.join(folder, name)]
                built.append(subprocess.run(words, capture_output=True, text=True, check=True).stdout.strip())
            self.assertEqual(*(Path(path).read_bytes() for path in built))
            subprocess.run([sys.executable, "-m", "venv", os.path.join(folder, "env")], check=True)
            python = os.path.join(folder, "env", "bin", "python")
            subprocess.run([python, "-m", "pip", "install", "-q", "--no-index", "--disable-pip-version-check", built[0]], check=True)
            known = {key: value for key, value in os.environ.items() if key not in ("PYTHONPATH", "RIICHI_TABLE_LIBRARY")}
            ran = subprocess.run([python, "-I", str(PYTHON / "example.py")], capture_output=True, text=True, env=known)
            self.assertEqual((ran.returncode, ran.stderr), (0, ""))
            self.assertIn("'shanten': 0", ran.stdout)

    def test_import_is_quick(self) -> None:
        """The package is there in less than 50 milliseconds of the processor."""
        code = "import time, json, ctypes, hashlib, dataclasses, typing, pathlib; t = time.process_time(); import riichi_table; print(time.process_time() - t)"
        took = min(
            float(subprocess.run([sys.executable, "-c", code], capture_output=True, check=True, env={**os.environ, "PYTHONPATH": sys.path[0]}).stdout)
            for _ in range(3)
        )
        self.assertLess(took, 0.05)


def wrong_call(choose: random.Random, table: Any) -> None:
    """One call of the library with numbers and bytes at random."""
    bytes_ = choose.randbytes(choose.choice((0, 1, 7, 60, 5000)))
    seat = choose.choice((0, 1, 2, 3, 4, 5, 1 << 31, (1 << 32) - 1))
    other = lib.CTable()
    on = choose.choice((table._at, addressof(other)))
    number, length, state, at, turn = c_uint32(), c_uint64(), lib.CState(), lib.CSeat(), lib.CTurn()
    size = choose.choice((0, 1, 3, 100, 70000))
    room = create_string_buffer(size + 1)
    room[size] = b"\x5a"
    calls: list[Callable[[], object]] = [
        lambda: lib.LIBRARY.riichi_table_open(on, bytes_, len(bytes_)),
        lambda: lib.LIBRARY.riichi_table_open_seed(byref(other), bytes_, len(bytes_), choose.getrandbits(64), choose.getrandbits(9), choose.getrandbits(23), True, False),
        lambda: lib.LIBRARY.riichi_table_sit(on, bytes_, len(bytes_), byref(number)),
        lambda: lib.LIBRARY.riichi_table_say(byref(other), seat, bytes_, len(bytes_), byref(number)),
        lambda: lib.LIBRARY.riichi_table_gone(byref(other), seat),
        lambda: lib.LIBRARY.riichi_table_expire(on, choose.getrandbits(32), choose.getrandbits(64), choose.getrandbits(64)),
        lambda: lib.LIBRARY.riichi_table_state(on, byref(state)),
        lambda: lib.LIBRARY.riichi_table_seat(on, seat, byref(at)),
        lambda: lib.LIBRARY.riichi_table_line(on, seat, choose.getrandbits(3), room, size, byref(length)),
        lambda: lib.LIBRARY.riichi_table_pending(on, seat, room, size, byref(length)),
        lambda: lib.LIBRARY.riichi_table_record(on, room, size, byref(length)),
        lambda: lib.LIBRARY.riichi_run(bytes_, len(bytes_), bytes_, len(bytes_), room, size, byref(length), room, 0, byref(length)),
        lambda: lib.LIBRARY.riichi_run(b"replay\n", 7, bytes_, len(bytes_), room, 0, byref(length), room, size, byref(length)),
        lambda: lib.LIBRARY.riichi_table_choices(on, seat, byref(length)),
        lambda: lib.LIBRARY.riichi_table_choose(byref(other), seat, choose.getrandbits(32), byref(number), byref(turn)),
        lambda: lib.LIBRARY.riichi_table_turn(byref(other), byref(turn)),
    ]
    choose.choice(calls)()
    assert room[size] == b"\x5a", "a byte beyond the room was written"
    lib.LIBRARY.riichi_table_close(byref(other))


if __name__ == "__main__":
    unittest.main()
