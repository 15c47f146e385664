"""The bridge between a scripted table and programs that work, fall silent, die and answer wrongly."""
from __future__ import annotations

import json
import pathlib
import shutil
import subprocess
import sys
import time
import unittest
from typing import Any, Iterable, Sequence

HERE = pathlib.Path(__file__).resolve().parent
sys.path.insert(0, str(HERE))
import helpers
from table import END_GAME, END_HAND, HAND, NONE, START_GAME, START_HAND, Event, Table, discard, draw

BRIDGE = HERE.parent / "bridge.py"
BOT = HERE / "bot.py"


def as_told(*events: Event) -> list[Event]:
    """The events as a program is told them: a hand begins with the points, here always those of the start."""
    return [{**event, "scores": [30000] * 4} if event["type"] == "start_kyoku" else event for event in events]


class Seated(unittest.TestCase):
    """Runs the bridge between a scripted table and a program."""

    def setUp(self) -> None:
        self.folder = helpers.folder_of(self)

    def bridge(
        self, table: Table, *bot: str, style: str = "line", words: Iterable[str] = (), command: Sequence[object] | None = None
    ) -> subprocess.CompletedProcess[str]:
        """Runs the bridge to its end, with the tests' bot or a command; its exit code, and what it wrote."""
        program = command or [sys.executable, BOT, style, self.folder / "read", *bot]
        ended = self.run_bridge("--key", "k", "--port", table.port, "--style", style, *words, "--", *program)
        table.join(10)
        self.assertIsNone(table.problem, ended)
        return ended

    def run_bridge(self, *words: object) -> subprocess.CompletedProcess[str]:
        command = [sys.executable, BRIDGE, "--name", "anna", "--log", self.folder / "log", "--report", self.folder / "report", *words]
        return subprocess.run([str(it) for it in command], stdin=subprocess.DEVNULL, capture_output=True, text=True, timeout=60)

    def read(self) -> list[Any]:
        """The lines that the program was given."""
        return [json.loads(line) for line in (self.folder / "read").read_text().splitlines()]

    def log(self) -> str:
        return (self.folder / "log").read_text()

    def report(self) -> dict[str, Any]:
        return dict(json.loads((self.folder / "report").read_text()))


class Bridge(Seated):
    """Programs that answer each line or list."""

    def test_each_event_is_a_line_and_each_answer_a_line(self) -> None:
        game = [START_GAME, START_HAND, draw(0, "?"), discard(0, "C"), draw(1, "N"), discard(1, "N"), END_GAME]
        table = Table(lambda it: it.ask(*game))
        ended = self.bridge(table)
        self.assertEqual((ended.returncode, ended.stderr), (0, ""))
        self.assertEqual(ended.stdout, "anna joins\nanna has seat 1\nanna: scores 30000 30000 30000 30000\n")
        self.assertEqual(table.joins, [{"type": "join", "name": "anna", "key": "k", "room": "default"}])
        self.assertEqual(table.answers, [NONE, NONE, NONE, NONE, discard(1, "N"), NONE, NONE])
        self.assertEqual(self.read(), as_told(*game))
        self.assertIn('told at event 2 (start_kyoku): {"scores":[30000,30000,30000,30000]}', self.log())
        report = self.report()
        self.assertEqual((report["answers"], report["asked"], report["starts"], report["never_answered"]), (7, 7, 1, False))
        self.assertEqual({report[name] for name in ("refusals", "stood_in", "restarts", "run_out", "late")}, {0})
        self.assertEqual(report["ended"], [])

    def test_a_batch_has_all_events_since_the_last_answer(self) -> None:
        game = [START_GAME, START_HAND, draw(0, "?"), discard(0, "C"), draw(1, "N"), discard(1, "N"), draw(2, "?"), END_HAND, END_GAME]
        table = Table(lambda it: it.ask(*game))
        self.assertEqual(self.bridge(table, style="batch").returncode, 0)
        self.assertEqual(table.answers, [NONE, NONE, NONE, NONE, discard(1, "N"), NONE, NONE, NONE, NONE])
        game = as_told(*game)
        self.assertEqual(self.read(), [game[:1], game[1:4], game[4:5], game[5:8], game[8:]])

    def test_a_batch_asks_where_the_table_says_that_something_is_possible(self) -> None:
        only_none = {"possible_actions": [NONE]}
        pon = {"possible_actions": [NONE, {"type": "pon", "actor": 1, "target": 0, "pai": "1m", "consumed": ["1m", "1m"]}]}
        game = [START_GAME, {**START_HAND, **only_none}, {**discard(0, "C"), **only_none}, {**discard(0, "1m"), **pon}, END_GAME]
        table = Table(lambda it: it.ask(*game))
        self.assertEqual(self.bridge(table, style="batch").returncode, 0)
        game = as_told(*game)
        self.assertEqual(self.read(), [game[:1], game[1:4], game[4:]])

    def test_a_silent_program_is_stood_in_for_and_its_late_answer_dropped(self) -> None:
        game = [START_GAME, START_HAND, draw(1, "N"), discard(1, "N"), draw(1, "P"), END_GAME]
        table = Table(lambda it: it.ask(*game))
        ended = self.bridge(table, "slow", "3", "0.6", words=["--think", "300", "--patience", "99"])
        self.assertEqual(table.answers, [NONE, NONE, discard(1, "N"), NONE, discard(1, "P"), NONE])
        self.assertIn('no answer in time to {"type":"tsumo","actor":1,"pai":"N"}', self.log())
        self.assertRegex(self.log(), r'too late, before event [45] \(\w+\): {"type": "none", "late": true}')
        report = self.report()
        self.assertGreaterEqual(report["silences"], 1)
        self.assertEqual((report["stood_in"], report["run_out"], report["starts"]), (report["silences"], 0, 1))
        self.assertGreaterEqual(report["late"], 1)
        self.assertEqual((ended.returncode, ended.stderr), (1, (
            "anna: the program was silent at event 3 (tsumo) for 0.3 s\n"
            f"anna: the program was stood in for at {report['stood_in']} of 6 events\n")))

    def test_after_the_limit_the_table_stands_in(self) -> None:
        # in 2.5 seconds the windows of two events are over, which the table began one after the other
        game = [START_GAME, START_HAND, draw(1, "N"), discard(1, "N"), draw(2, "?"), discard(2, "C"), END_GAME]
        table = Table(lambda it: it.ask(*game))
        ended = self.bridge(table, "slow", "3", "2.5", words=["--limit", "1000"])
        report = self.report()
        self.assertGreaterEqual(report["run_out"], 2)
        self.assertEqual([report[name] for name in ("stood_in", "late", "silences", "answers")], [report["run_out"]] * 2 + [0, 7])
        self.assertIn("bridge: the program's answer to event 4 (dahai) came after 1.", self.log())
        self.assertEqual(ended.returncode, 1)
        self.assertRegex(ended.stderr, (
            r"^anna: the program's answer to event 3 \(tsumo\) came after [2-9]\.\d s, and the table waits for 1 s\n"
            r"anna: the program was stood in for at \d of 7 events\n$"))

    def test_a_program_that_hangs_is_started_again_and_then_given_up(self) -> None:
        game = [START_GAME, START_HAND, *[draw(1, "N"), discard(1, "N")] * 6, END_GAME]
        table = Table(lambda it: it.ask(*game))
        ended = self.bridge(table, "hang", "3", words=["--think", "200", "--start", "400", "--patience", "2", "--restarts", "1"])
        self.assertEqual(ended.returncode, 1)
        self.assertEqual(table.answers, [NONE, NONE, *[discard(1, "N"), NONE] * 6, NONE])
        report = self.report()
        self.assertEqual((report["starts"], report["restarts"], report["stood_in"]), (2, 1, report["asked"] - report["answers"]))
        self.assertGreaterEqual(report["stood_in"], 13)
        self.assertIn("that was the last time", self.log())

    def test_a_program_that_dies_is_started_again_and_told_the_game_so_far(self) -> None:
        game = [START_GAME, START_HAND, draw(1, "N"), discard(1, "N"), discard(2, "P"), END_GAME]
        seen = as_told(*game)
        faults = [
            ("line", "3", "3 (tsumo)", [*seen[:3], *seen]),
            ("batch", "3", "5 (dahai)", [seen[:1], seen[1:3], seen[3:5], seen[:5], seen[5:]]),
        ]
        for style, at, where, told in faults:
            with self.subTest(style):
                for path in self.folder.glob("read*"):
                    path.unlink()
                table = Table(lambda it: it.ask(*game))
                ended = self.bridge(table, "crash", at, "1", style=style)
                self.assertEqual((ended.returncode, ended.stderr), (
                    0, f"anna: the program ended with exit code 1 at event {where}; it said last: I fall\n"))
                self.assertEqual(table.answers, [NONE, NONE, discard(1, "N"), NONE, NONE, NONE])
                self.assertEqual(self.read(), told)
                report = self.report()
                self.assertEqual((report["starts"], report["restarts"], report["stood_in"]), (2, 1, 0))
                self.assertEqual(report["ended"], [{"event": int(where.split()[0]), "code": 1, "stderr": "I fall"}])
                self.assertIn("I fall", self.log())

    def test_a_refused_answer_is_stood_in_for(self) -> None:
        def script(it: Table) -> None:
            it.ask(START_GAME, START_HAND)
            it.ask(draw(1, "N"))
            it.ask({"type": "error", "rule": 7, "message": "NotHeld"})
            it.ask(discard(1, "N"), END_GAME)

        table = Table(script)
        ended = self.bridge(table, "wrong", "3")
        self.assertEqual(table.answers[2:4], [discard(1, "C", False), discard(1, "N")])
        report = self.report()
        self.assertEqual((report["refusals"], report["stood_in"], report["answers"]), (1, 1, 5))
        self.assertIn("NotHeld: ", self.log())
        line = '{"type": "dahai", "actor": 1, "pai": "C", "tsumogiri": false}'
        self.assertEqual((ended.returncode, ended.stderr), (1, (
            f"anna: the program's answer to event 3 (tsumo) was refused, NotHeld: {line}\n"
            "anna: the program was stood in for at 1 of 5 events\n")))

    def test_a_program_that_never_answers_is_told_so(self) -> None:
        game = [START_GAME, START_HAND, draw(1, "N"), END_GAME]
        table = Table(lambda it: it.ask(*game))
        ended = self.bridge(table, command=[sys.executable, "-c", "x = ("], words=["--restarts", "1"])
        self.assertEqual(table.answers, [NONE, NONE, discard(1, "N"), NONE])
        said = ended.stderr.splitlines()
        self.assertEqual((ended.returncode, len(said)), (1, 2), said)
        self.assertTrue(said[0].startswith("anna: the program ended with exit code 1 at event 1 (start_game); it said last: "), said)
        self.assertRegex(said[0], "SyntaxError: .+$")
        self.assertEqual(said[1], "anna: the program was stood in for at 4 of 4 events, and never answered")
        report = self.report()
        self.assertEqual((report["never_answered"], report["stood_in"], report["restarts"], report["answers"]), (True, 4, 1, 0))
        self.assertEqual([(it["event"], it["code"]) for it in report["ended"]], [(1, 1), (1, 1)])

    def test_how_a_program_ended_is_said(self) -> None:
        scripts = [
            ("import os; os.kill(os.getpid(), 9)", -9, "was ended by signal 9 (SIGKILL)"),
            ("import sys; sys.exit(3)", 3, "ended with exit code 3"),
            ("import os, time; os.close(1); time.sleep(60)", None, "closed its standard output"),
        ]
        for script, code, how in scripts:
            with self.subTest(how):
                table = Table(lambda it: it.ask(START_GAME, END_GAME))
                ended = self.bridge(table, command=[sys.executable, "-c", script], words=["--restarts", "0"])
                self.assertEqual(ended.stderr.splitlines()[0], f"anna: the program {how} at event 1 (start_game)")
                self.assertEqual(self.report()["ended"], [{"event": 1, "code": code, "stderr": ""}])

    def test_after_an_own_call_held_tiles_are_tried_until_one_is_lawful(self) -> None:
        pon = {"type": "pon", "actor": 1, "target": 0, "pai": "1m", "consumed": ["1m", "1m"]}
        refusal = {"type": "error", "rule": 1, "message": "Unreadable"}
        table = Table(lambda it: it.ask(START_GAME, START_HAND, discard(0, "1m"), pon, refusal, refusal, END_GAME))
        self.bridge(table, "hang", "4", words=["--think", "200"])
        held = sorted(set(HAND) - {"1m"})
        self.assertEqual(table.answers[3:6], [discard(1, tile, False) for tile in held[:3]])

    def test_listed_answers_are_stood_in_for_by_one_of_them(self) -> None:
        listed = [discard(1, "2m", False), discard(1, "3m", False)]
        pon = {"type": "pon", "actor": 1, "target": 0, "pai": "1m", "consumed": ["1m", "1m"], "possible_actions": listed}
        table = Table(lambda it: it.ask(START_GAME, START_HAND, pon, END_GAME))
        self.bridge(table, "hang", "3", words=["--think", "200"])
        self.assertEqual(table.answers[2], discard(1, "2m", False))

    def test_a_broken_connection_is_made_again_by_the_key(self) -> None:
        def until_the_break(it: Table) -> None:
            it.ask(START_GAME, START_HAND)
            it.send(draw(1, "N"))
            it.lines.readline()  # the answer is lost with the connection

        def after_it(it: Table) -> None:
            it.send({"type": "replay", "count": 2})
            it.send(START_GAME)
            it.send(START_HAND)
            it.ask(draw(1, "N"), discard(1, "N"), END_GAME)

        table = Table(until_the_break, after_it)
        self.assertEqual(self.bridge(table).returncode, 0)
        self.assertEqual(table.joins[0], table.joins[1])
        self.assertEqual(table.answers[2:], [discard(1, "N"), NONE, NONE])
        self.assertEqual(self.read(), as_told(START_GAME, START_HAND, draw(1, "N"), discard(1, "N"), END_GAME))
        self.assertEqual(self.report()["returns"], 1)

    def test_missed_events_are_told_without_wanting_an_answer(self) -> None:
        def after_it(it: Table) -> None:
            it.send({"type": "replay", "count": 4})
            for event in [START_GAME, START_HAND, draw(0, "?"), discard(0, "C")]:
                it.send(event)
            it.ask(draw(1, "N"), END_GAME)

        table = Table(lambda it: it.ask(START_GAME, START_HAND), after_it)
        self.assertEqual(self.bridge(table).returncode, 0)
        self.assertEqual(table.answers[2:], [discard(1, "N"), NONE])
        self.assertEqual(self.read(), as_told(START_GAME, START_HAND, draw(0, "?"), discard(0, "C"), draw(1, "N"), END_GAME))

    def test_a_league_leads_it_on_with_the_counts_of_the_bridge_before(self) -> None:
        def script(it: Table) -> None:
            it.send({"type": "replay", "count": 4})
            for event in [START_GAME, START_HAND, draw(0, "?"), discard(0, "C")]:
                it.send(event)
            it.ask(draw(1, "N"), END_GAME)

        # it had answered two events, so the others were over before it was back, and at one of these it might have called
        before = {"name": "anna", "asked": 2, "answers": 2, "events": 2, "starts": 1, "silences": 1, "problem": "stopped"}
        (self.folder / "report").write_text(json.dumps(before))
        ended = self.bridge(Table(script), words=["--led"])
        self.assertEqual(ended.stdout, "anna is there\nanna joins\nanna has seat 1\nanna is ready\nanna: scores 30000 30000 30000 30000\n")
        report = self.report()
        self.assertEqual([report[name] for name in ("asked", "answers", "events", "stood_in")], [6, 4, 6, 1])
        self.assertEqual([report[name] for name in ("starts", "restarts", "silences", "problem")], [1, 0, 1, None])

    def test_what_goes_wrong_is_said(self) -> None:
        table = Table(lambda it: it.send({"type": "error", "sit": 3, "message": "WrongKey"}))
        ended = self.bridge(table)
        self.assertEqual((ended.returncode, ended.stderr), (1, "anna: no seat: WrongKey\n"))
        ended = self.run_bridge("--wait", "1", "--port", "9", "--", "true")
        self.assertEqual(ended.returncode, 1)
        self.assertEqual(ended.stderr, "anna: nobody listens on 127.0.0.1 port 9: Connection refused\n")
        ended = self.run_bridge("--host", "no-such-host.invalid", "--", "true")
        self.assertEqual(ended.returncode, 1)
        self.assertTrue(ended.stderr.startswith("anna: the host no-such-host.invalid isn't found: "), ended.stderr)
        for command in ("no-such-program", "no-such-program {seat}"):
            ended = self.run_bridge("--", *command.split())
            self.assertEqual((ended.returncode, ended.stderr), (1, "anna: no-such-program: No such file or directory\n"))
        ended = self.run_bridge("--log", "/no/log", "--", "true")
        self.assertEqual((ended.returncode, ended.stderr), (1, "anna: the log /no/log: No such file or directory\n"))
        table = Table(lambda it: it.ask(START_GAME, END_GAME))
        ended = self.bridge(table, words=["--report", "/no/report"])
        self.assertEqual((ended.returncode, ended.stderr), (1, "anna: the report /no/report: No such file or directory\n"))
        self.assertEqual(self.run_bridge().returncode, 2)

    def test_two_files_beside_it_are_all_that_it_needs(self) -> None:
        for name in ("bridge.py", "customs.py", "processes.py"):
            shutil.copy(BRIDGE.parent / name, self.folder)
        table = Table(lambda it: it.ask(START_GAME, END_GAME))
        words = [self.folder / "bridge.py", "--name", "anna", "--port", table.port, "--", sys.executable, BOT, "line", "read"]
        ended = subprocess.run([sys.executable, *map(str, words)], cwd=self.folder, env={"LC_ALL": "C.UTF-8"}, capture_output=True, text=True, timeout=60)
        self.assertEqual((ended.returncode, ended.stderr), (0, ""))

    def test_a_server_that_speaks_otherwise_is_named(self) -> None:
        table = Table(lambda it: it.link.sendall(b"HTTP/1.1 400 Bad Request\r\n\r\n"))
        ended = self.bridge(table)
        self.assertEqual((ended.returncode, ended.stderr), (1, "anna: this is no table of mjai: it says 'HTTP/1.1 400 Bad Request'\n"))

    def test_it_joins_the_room_of_its_words(self) -> None:
        table = Table(lambda it: it.ask(START_GAME, END_GAME))
        self.assertEqual(self.bridge(table, words=["--room", "room2", "--host", "localhost"]).returncode, 0)
        self.assertEqual(table.joins, [{"type": "join", "name": "anna", "key": "k", "room": "room2"}])


def lists(event: Event, *actions: Event) -> Event:
    """An event with the answers that the table would take."""
    return {**event, "possible_actions": list(actions)}


PON = {"type": "pon", "actor": 1, "target": 0, "pai": "1m", "consumed": ["1m", "1m"]}


class Mortal(Seated):
    """Programs that write a line only where they can act."""

    game = [
        lists(START_GAME, NONE), lists(START_HAND, NONE), lists(draw(0, "?"), NONE), lists(discard(0, "1m"), NONE, PON),
        lists(draw(1, "N"), discard(1, "N"), discard(1, "W", False)), lists(discard(1, "N"), NONE), lists(draw(2, "?"), NONE),
        lists(discard(2, "1m"), NONE, {**PON, "target": 2}), lists(draw(1, "P"), discard(1, "P")), lists(END_HAND, NONE),
        lists(END_GAME, NONE),
    ]
    answers = [NONE] * 4 + [discard(1, "N")] + [NONE] * 3 + [discard(1, "P"), NONE, NONE]

    def play(self, *bot: str, words: Iterable[str] = ()) -> subprocess.CompletedProcess[str]:
        def script(it: Table) -> None:
            it.ask(*self.game[:3])
            read = self.folder / "read"
            deadline = time.monotonic() + 20
            while time.monotonic() < deadline and not (read.exists() and read.read_text().count("\n") == 3):
                time.sleep(0.02)
            it.ask(*self.game[3:])

        self.table = Table(script)
        return self.bridge(self.table, *bot, style="mortal", words=words)

    def test_each_event_is_told_as_it_comes_and_only_where_it_can_act_it_is_asked(self) -> None:
        ended = self.play()
        self.assertEqual((ended.returncode, ended.stderr), (0, ""))
        self.assertEqual(self.table.answers, self.answers)
        self.assertEqual(self.read(), as_told(*self.game))
        report = self.report()
        self.assertEqual((report["asked"], report["answers"], report["stood_in"]), (4, 4, 0))

    def test_one_that_ends_is_told_the_game_so_far(self) -> None:
        ended = self.play("crash", "8", "1")
        self.assertEqual((ended.returncode, ended.stderr), (
            0, "anna: the program ended with exit code 1 at event 8 (dahai); it said last: I fall\n"))
        self.assertEqual(self.table.answers, self.answers)
        self.assertEqual(self.read(), as_told(*self.game[:8], *self.game))

    def test_a_line_that_nobody_asked_for_is_no_answer(self) -> None:
        self.assertEqual(self.play("chatty", "3").returncode, 0)
        self.assertEqual(self.table.answers, self.answers)
        self.assertIn('unasked, before event 4 (dahai): {"type":"none","chatty":true}', self.log())

    def test_a_late_answer_is_dropped(self) -> None:
        ended = self.play("slow", "5", "2", words=["--think", "1500"])
        self.assertEqual(self.table.answers, self.answers)
        self.assertIn('too late, before event 8 (dahai): {"type": "none", "late": true}', self.log())
        report = self.report()
        self.assertEqual((ended.returncode, report["stood_in"], report["late"]), (1, 1, 1), ended)

    def test_an_answer_that_never_comes_harms_no_other(self) -> None:
        ended = self.play("mute", "5", words=["--think", "1500"])
        self.assertEqual(self.table.answers, self.answers)
        report = self.report()
        self.assertEqual((ended.returncode, report["stood_in"], report["late"], report["answers"]), (1, 1, 0, 3), ended)

    def test_the_seat_is_a_word_of_the_command(self) -> None:
        script = 'import sys; print("seat", sys.argv[1:], file=sys.stderr); [print("{}", flush=True) for _ in sys.stdin]'
        for style in ("line", "batch"):
            table = Table(lambda it: it.ask(START_GAME, END_GAME))
            self.bridge(table, style=style, command=[sys.executable, "-c", script, "{seat}", "--id={seat}"])
            self.assertIn("seat ['1', '--id=1']", self.log())

    def test_a_table_that_lists_nothing_is_named(self) -> None:
        table = Table(lambda it: it.ask(START_GAME, START_HAND, draw(0, "?")))
        ended = self.run_bridge("--port", table.port, "--style", "mortal", "--", "cat")
        self.assertEqual((ended.returncode, ended.stderr), (1, "anna: style mortal wants a table that lists possible_actions\n"))


if __name__ == "__main__":
    unittest.main()
