#!/usr/bin/env python3
"""Shows a game while it is played: serves the viewer on this machine, and follows a record that grows, line after line.

usage: live.py PORT --record FILE [--observe PROGRAM]

Open http://127.0.0.1:PORT/ in a browser. FILE is a record, what `riichi_table observe` writes, or the lines that a seat is told;
it may not be there yet. All that stands in it is shown. With --observe, PROGRAM (riichi_table) makes the public stream of the
record: of a hand that is being played no hidden tile leaves this program.
"""
from __future__ import annotations

import argparse
import http.server
import os
import pathlib
import socket
import subprocess
import sys
import time

VIEWER = pathlib.Path(__file__).resolve().parent / "index.html"
# How often the file is looked at, and how often a silent browser is written to, in seconds.
LOOK, BREATH = 0.2, 10


class Refused(Exception):
    """The program takes the record for none."""


class Source:
    """The lines of a file that grows, as they may be shown."""

    def __init__(self, record: str, program: str | None = None) -> None:
        self.record = pathlib.Path(record)
        self.program = program

    def state(self) -> tuple[int, ...] | None:
        """What changes whenever the file does."""
        try:
            stat = self.record.stat()
        except FileNotFoundError:
            return None
        return stat.st_ino, stat.st_size, stat.st_mtime_ns

    def lines(self) -> list[str]:
        """The whole lines of the file, or of its public stream."""
        try:
            text = self.record.read_bytes()
        except FileNotFoundError:
            return []
        text = text[:text.rfind(b"\n") + 1]
        # (before its first deed a record has nothing to show)
        if self.program and b"\n{" in text:
            told = subprocess.run([self.program, "observe"], input=text, capture_output=True, timeout=60)
            if told.returncode != 0:
                raise Refused(told.stderr.decode(errors="replace").strip())
            text = told.stdout
        elif self.program:
            return []
        return text.decode(errors="replace").split("\n")[:-1]


class Handler(http.server.BaseHTTPRequestHandler):
    """Gives the page at /, and the lines as server-sent events at /events."""

    protocol_version = "HTTP/1.1"
    server: Server

    def do_GET(self) -> None:
        # A page of another site that got this address by another name is told nothing.
        if self.headers.get("Host", "").rsplit(":", 1)[0] not in ("127.0.0.1", "localhost"):
            self.send_error(403)
        elif self.path == "/":
            self.give_page()
        elif self.path == "/events":
            self.give_events()
        else:
            self.send_error(404)

    def give_page(self) -> None:
        page = VIEWER.read_text(encoding="utf-8").replace("<head>", '<head>\n<meta name="live" content="events">', 1).encode()
        self.send_response(200)
        self.send_header("Content-Type", "text/html; charset=utf-8")
        self.send_header("Content-Length", str(len(page)))
        self.send_header("Cache-Control", "no-store")
        self.end_headers()
        self.wfile.write(page)

    def give_events(self) -> None:
        self.send_response(200)
        self.send_header("Content-Type", "text/event-stream; charset=utf-8")
        self.send_header("Cache-Control", "no-store")
        self.send_header("Connection", "close")
        self.end_headers()
        self.close_connection = True
        try:
            self.follow(self.server.source)
        except (BrokenPipeError, ConnectionResetError):
            pass

    def follow(self, source: Source) -> None:
        """Tells all lines, and then each that comes; where the told lines are there no more, all from the first one again."""
        told: list[str] | None = None
        seen: tuple[int, ...] | None = ()
        breath = 0.0
        while True:
            state = source.state()
            if state != seen:
                seen = state
                told = self.tell(source, told)
                breath = time.monotonic()
            elif time.monotonic() - breath > BREATH:
                self.wfile.write(b":\n\n")
                breath = time.monotonic()
            time.sleep(LOOK)

    def tell(self, source: Source, told: list[str] | None) -> list[str] | None:
        """Tells what came since `told`; the lines that are told now."""
        try:
            lines = source.lines()
        except Refused as error:
            self.event("refused", [str(error)])
            return told
        if told is None or lines[:len(told)] != told:
            self.event("begin", [""])
            told = []
        if len(lines) > len(told):
            self.event("message", lines[len(told):])
        return lines

    def event(self, kind: str, lines: list[str]) -> None:
        self.wfile.write((f"event: {kind}\n" + "".join(f"data: {line}\n" for line in lines) + "\n").encode())

    def log_message(self, *_: object) -> None:
        pass


class Server(http.server.ThreadingHTTPServer):
    """The server of one source, on this machine alone."""

    daemon_threads = True

    def __init__(self, port: int, source: Source) -> None:
        self.source = source
        super().__init__(("127.0.0.1", port), Handler)

    def handle_error(self, request: socket.socket | tuple[bytes, socket.socket], client_address: tuple[str, int]) -> None:
        """A browser may go at any time."""
        if not isinstance(sys.exc_info()[1], ConnectionError):
            super().handle_error(request, client_address)


def main() -> None:
    parser = argparse.ArgumentParser(usage=__doc__.split("usage: ")[1].split("\n")[0], add_help=True)
    parser.add_argument("port", type=int)
    parser.add_argument("--record", required=True)
    parser.add_argument("--observe", metavar="PROGRAM")
    words = parser.parse_args()
    if words.observe and not os.access(words.observe, os.X_OK):
        sys.exit(f"live.py: {words.observe} is no program that can be run")
    try:
        server = Server(words.port, Source(words.record, words.observe))
    except OSError as error:
        sys.exit(f"live.py: port {words.port} can't be opened: {error.strerror}")
    print(f"http://127.0.0.1:{server.server_address[1]}/", flush=True)
    try:
        server.serve_forever()
    except KeyboardInterrupt:
        pass


if __name__ == "__main__":
    main()
