"""What the bench's page is sent as bytes: each is answered, or refused, and its threads are bounded.

The statuses are those of RFC 9110; no browser and no server is needed.
"""

import contextlib
import io
import json
import socket
import threading
import time
import unittest
from unittest import mock

from support import HOST

from wanekupo.bench.board import Board, ShiftCounts, Socket
from wanekupo.bench.page import MOST_CONNECTIONS, Page
from wanekupo.bench.recipe import Display

TYPED = {"text": "stop"}


class Bench:
    """What a page has of its bench: it keeps what was said."""

    class recipe:
        sockets, display = {"left": ["espefuse"]}, Display()

    def __init__(self):
        self.board = Board("product", "o1", [Socket("left")], "key", ShiftCounts("2026-11-29T00:00:00Z"))
        self.done = []

    def said(self, text):
        self.done.append(text)

    def pressed(self, name):
        self.done.append(name)


class Words(unittest.TestCase):
    def setUp(self):
        self.enterContext(mock.patch("wanekupo.bench.page.LONGEST_LOOK", 1.0))
        self.bench = Bench()
        self.page = Page(self.bench, 0)
        self.addCleanup(self.page.close)
        self.page.start()
        self.host = self.page.url.split("/")[2]
        self.address = HOST, int(self.host.split(":")[1])

    def asked(self, data, seconds=5):
        """The statuses that come back for bytes, until the connection ends or rests."""
        out = b""
        with socket.create_connection(self.address, timeout=seconds) as connection:
            connection.sendall(data)
            with contextlib.suppress(OSError):
                connection.shutdown(socket.SHUT_WR)
                while some := connection.recv(65536):
                    out += some
        return [int(line[9:12]) for line in out.split(b"\r\n") if line.startswith(b"HTTP/1.1 ")]

    def post(self, body, path="/said", length=None, host=None, kind="application/json", more=""):
        body = body if isinstance(body, str) else json.dumps(body)
        fields = f"Host: {host or self.host}\r\nContent-Type: {kind}\r\n{more}"
        fields += "" if length == "" else f"Content-Length: {len(body) if length is None else length}\r\n"
        return f"POST {path} HTTP/1.1\r\n{fields}\r\n{body}".encode("latin-1")

    def get(self, target):
        return f"GET {target} HTTP/1.1\r\nHost: {self.host}\r\nConnection: close\r\n\r\n".encode("latin-1")

    def test_each(self):
        """Its status, whether it was done, and no traceback; the page answers the next one."""
        deep = "[" * 4000
        for what, data, status, done in (
            ("own", self.post(TYPED), 200, ["stop"]),
            ("the key of a socket", self.post({"socket": "left"}, "/begin"), 200, ["left"]),
            ("5,000 digits of a length", self.post(TYPED, length="9" * 5000), 413, []),
            ("a length above the most", self.post({"text": "a" * 5000}), 413, []),
            ("no length", self.post(TYPED, length=""), 400, []),
            ("a negative length", self.post(TYPED, length="-1"), 400, []),
            ("a length in words", self.post(TYPED, length="0x10"), 400, []),
            ("chunks", self.post(TYPED, length="", more="Transfer-Encoding: chunked\r\n"), 400, []),
            ("no JSON", self.post("{"), 400, []),
            ("nested JSON", self.post(deep), 400, []),
            ("no UTF-8", self.post('{"text":"\xff"}'), 400, []),
            ("a list", self.post([1]), 400, []),
            ("a socket that is a list", self.post({"socket": [1]}, "/begin"), 400, []),
            ("a socket that is an object", self.post({"socket": {"a": 1}}, "/begin"), 400, []),
            ("a socket that is null", self.post({"socket": None}, "/begin"), 400, []),
            ("a text that is a number", self.post({"text": 5}), 400, []),
            ("another socket", self.post({"socket": "right"}, "/begin"), 404, []),
            ("another path", self.post(TYPED, "/none"), 404, []),
            ("another host", self.post(TYPED, host="evil.example"), 403, []),
            ("another kind", self.post(TYPED, kind="text/plain"), 403, []),
            ("digits without end", self.get(f"/board?after={'9' * 5000}"), 200, []),
            ("digits of another script", self.get("/board?after=\xb2"), 200, []),
            ("no address", self.get("//["), 404, []),
            ("the words", self.get("/words?x=1"), 200, []),
            ("the words of another host", self.get("/words").replace(b"127.0.0.1", b"evil.example"), 403, []),
            ("no file", self.get("/../../../../etc/passwd"), 404, []),
        ):
            with self.subTest(what), contextlib.redirect_stderr(io.StringIO()) as told:
                self.bench.done.clear()
                self.assertEqual(self.asked(data)[:1], [status])
                self.assertEqual((self.bench.done, told.getvalue()), (done, ""))
        self.assertEqual(self.asked(self.get("/board?after=-1")), [200])

    def test_what_stands_behind_a_refusal(self):
        """Another page's body is no request of the page's own."""
        inner = self.post(TYPED).decode("latin-1")
        for length in (None, 0):
            data = self.post(inner, host="evil.example", kind="text/plain", length=length)
            self.assertEqual((self.asked(data), self.bench.done), ([403], []))

    def test_no_more_threads_than_room(self):
        """One above is told so at once, and is served once another one has gone."""
        before, held = threading.active_count(), []
        for _ in range(MOST_CONNECTIONS + 8):
            one = self.enterContext(contextlib.closing(socket.create_connection(self.address, timeout=5)))
            one.sendall(f"GET /board?after={10**9} HTTP/1.1\r\nHost: {self.host}\r\n\r\n".encode())
            held.append(one)
        self.assertIn(self.asked(self.post(TYPED)), ([503], []))
        self.assertLessEqual(threading.active_count() - before, MOST_CONNECTIONS)
        self.assertEqual(self.bench.done, [])
        for one in held:
            one.close()
        end = time.monotonic() + 30
        while self.asked(self.post(TYPED)) != [200]:
            self.assertLess(time.monotonic(), end)
            time.sleep(0.2)
        self.assertEqual(self.bench.done, ["stop"])
