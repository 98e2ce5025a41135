"""The bench's page, on 127.0.0.1 alone: the board as JSON, and what a person scans, types and presses.

`http.server` of the standard library is enough for one person's browser. Another page in that browser can't use it: its
policy lets nothing in from elsewhere, a POST has to be JSON of this page's own, and the host has to be this machine's,
whatever name a name server gives it. Who has an account on this machine can use it.
"""

from __future__ import annotations

import contextlib
import http.server
import json
import re
import socket
import threading
from pathlib import Path
from typing import TYPE_CHECKING, Any
from urllib.parse import parse_qs

from wanekupo.common.errors import BadSettings
from wanekupo.bench.words import SAID

if TYPE_CHECKING:
    from wanekupo.bench.bench import Bench

HOST = "127.0.0.1"
FILES = {
    "/": ("page.html", "text/html; charset=utf-8"),
    "/page.js": ("page.js", "text/javascript; charset=utf-8"),
    "/page.css": ("page.css", "text/css; charset=utf-8"),
}
POLICY = (
    "default-src 'none'; connect-src 'self'; script-src 'self'; style-src 'self'; "
    "base-uri 'none'; form-action 'none'; frame-ancestors 'none'"
)
HEADERS = {
    "Content-Security-Policy": POLICY,
    "Referrer-Policy": "no-referrer",
    "X-Content-Type-Options": "nosniff",
    "Cache-Control": "no-store",
}

# How long a request for the board waits for a change, in seconds, how many bytes a person's word may have, and how many
# connections are served at a time: a browser has six.
LONGEST_LOOK, LONGEST_WORD, MOST_CONNECTIONS = 10.0, 4096, 64
COUNT = re.compile(r"[0-9]{1,15}")
FULL = b"HTTP/1.1 503 Service Unavailable\r\nContent-Length: 0\r\nConnection: close\r\n\r\n"


class Handler(http.server.BaseHTTPRequestHandler):
    """A request of the page's."""

    protocol_version = "HTTP/1.1"
    server_version, sys_version = "wanekupo", ""
    timeout = 60
    server: PageServer

    def do_GET(self) -> None:
        path, _, query = self.path.partition("?")
        if not self._is_own():
            self._refuse(403)
        elif path == "/board":
            after = parse_qs(query).get("after", [""])[0]
            board = self.server.bench.board
            board.changed_since(int(after) if COUNT.fullmatch(after) else -1, LONGEST_LOOK)
            self._send(200, json.dumps(board.shown()).encode(), "application/json")
        elif path == "/words":
            display = self.server.bench.recipe.display
            told: dict[str, object] = {**SAID, "inches": display.inches, "sound": display.sound}
            self._send(200, json.dumps(told).encode(), "application/json")
        elif path in FILES:
            name, kind = FILES[path]
            self._send(200, (Path(__file__).parent / name).read_bytes(), kind)
        else:
            self._send(404, b"")

    def do_POST(self) -> None:
        """A POST says one word: what is typed, or the socket whose key is pressed."""
        word = {"/said": "text", "/begin": "socket"}.get(self.path)
        status, told = self._told()
        bench, text = self.server.bench, told.get(word)
        if status != 200:
            self._refuse(status)
        elif word is None or word == "socket" and isinstance(text, str) and text not in bench.recipe.sockets:
            self._send(404, b"")
        elif not isinstance(text, str):
            self._send(400, b"")
        else:
            (bench.said if word == "text" else bench.pressed)(text)
            self._send(200, b"{}", "application/json")

    def _is_own(self) -> bool:
        """Whether the browser took this machine for what it asks, and asks for a page from here."""
        origin = self.headers.get("Origin")
        hosts = [f"{name}:{self.server.server_address[1]}" for name in (HOST, "localhost")]
        named: list[str] = self.headers.get_all("Host", [])
        is_here = len(named) == 1 and named[0] in hosts
        return is_here and origin in (None, *(f"http://{it}" for it in hosts))

    def _told(self) -> tuple[int, dict[Any, Any]]:
        """The status of a POST and what it says: 403 where another page could send it without asking."""
        length = self.headers.get("Content-Length", "")
        if not self._is_own() or self.headers.get("Content-Type") != "application/json":
            return 403, {}
        if not length.isdecimal():
            return 400, {}
        if not COUNT.fullmatch(length) or int(length) > LONGEST_WORD:
            return 413, {}
        try:
            told = json.loads(self.rfile.read(int(length)))
        except (ValueError, RecursionError):
            return 400, {}
        return (200, told) if isinstance(told, dict) else (400, {})

    def _refuse(self, status: int) -> None:
        """Answers what isn't read to its end, or not the page's own: the connection ends with it."""
        self.close_connection = True
        self._send(status, b"")

    def _send(self, status: int, data: bytes, kind: str = "text/plain") -> None:
        self.send_response(status)
        for name, text in {**HEADERS, "Content-Type": kind, "Content-Length": str(len(data))}.items():
            self.send_header(name, text)
        self.end_headers()
        self.wfile.write(data)

    def log_message(self, *_: Any) -> None:
        """The terminal is the screen's."""


class PageServer(http.server.ThreadingHTTPServer):
    """Listens on this machine alone."""

    daemon_threads = True

    def __init__(self, bench: Bench, port: int):
        super().__init__((HOST, port), Handler)
        self.bench, self._room = bench, threading.BoundedSemaphore(MOST_CONNECTIONS)

    def process_request(self, request: Any, client_address: Any) -> None:
        """Serves a connection in a thread of its own. One for which there is no room is told so, and ended."""
        if self._room.acquire(blocking=False):
            super().process_request(request, client_address)
            return
        with contextlib.suppress(OSError):
            request.send(FULL, socket.MSG_DONTWAIT)
        self.shutdown_request(request)

    def process_request_thread(self, request: Any, client_address: Any) -> None:
        try:
            super().process_request_thread(request, client_address)
        finally:
            self._room.release()

    def handle_error(self, *_: Any) -> None:
        """A browser that went is no fault."""


class Page:
    """The page of a bench, on a port of this machine, 0 for any."""

    def __init__(self, bench: Bench, port: int):
        try:
            self._server = PageServer(bench, port)
        except OSError as error:
            told = "End the other program, or give another --port."
            raise BadSettings(f"the port {port} of the page can't be had ({error.strerror})", told) from error
        self.url = f"http://{HOST}:{self._server.server_address[1]}/"
        self._thread = threading.Thread(target=self._server.serve_forever, args=[0.05], daemon=True)

    def start(self) -> None:
        self._thread.start()

    def close(self) -> None:
        self._server.shutdown()
        self._server.server_close()
