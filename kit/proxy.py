"""What stands between the station and the server: it passes requests on, and lets a fault befall some of them."""

from __future__ import annotations

import contextlib
import json
import re
import socket
import struct
import threading
import time
from typing import Any, Callable, Optional
from urllib.parse import parse_qsl, urlsplit

from kit.faults import AWAY, Fault, Schedule
from kit.server import HOST, NoServer, Server
from kit.watch import Asked, Watch

# Seconds: how late a reply is, and how long the server is away.
LATE_REPLY, IS_AWAY = 0.7, 2.5
# The most seconds until a late copy, the server's death behind a request, the station's behind a reply.
LATE_COPY, SERVER_DIES, STATION_DIES = 1.5, 0.04, 0.03
STATUS = re.compile(rb"HTTP/1\.[01] ([0-9]{3}) ")
LENGTH = re.compile(rb"\r\ncontent-length: *([0-9]+)", re.IGNORECASE)
REQUEST = re.compile(rb"([A-Z]+) (\S+) HTTP/1\.[01]\r\n")


def read_request(client: socket.socket) -> bytes:
    """The bytes of one request, as far as its Content-Length says; nothing where it ends before that."""
    data = b""
    while True:
        head, end, body = data.partition(b"\r\n\r\n")
        length = LENGTH.search(head + b"\r\n")
        if end and len(body) >= int(length[1] if length else 0):
            return data
        some = client.recv(65536)
        if not some:
            return b""
        data += some


def parsed(reply: bytes) -> tuple[int, Any]:
    """The status of a whole reply and its members, or its text; 0 where it isn't whole."""
    head, end, body = reply.partition(b"\r\n\r\n")
    status, length = STATUS.match(head), LENGTH.search(head)
    if not end or not status or not length or len(body) != int(length[1]):
        return 0, None
    with contextlib.suppress(ValueError):
        return int(status[1]), json.loads(body)
    return int(status[1]), body.decode("utf-8", "replace")


class Proxy:
    """A port of 127.0.0.1, a thread for each connection. `kill` kills the station; `is_up` says whether it runs."""

    def __init__(self, server: Server, schedule: Schedule, watch: Watch):
        self.server, self.schedule, self.watch = server, schedule, watch
        self.kill: Callable[[], None] = lambda: None
        self.is_up: Callable[[], bool] = lambda: True
        self.begun: Callable[[], None] = lambda: None
        self.hold: Optional[str] = None  # the path of which the next request is held, and its repeats go on
        self.held: list[bytes] = []
        self.meanwhile: Callable[[], object] = lambda: None  # what is done while it is held, before its repeat
        self.away = 0.0  # until then nothing is passed on
        self.copies: list[threading.Thread] = []
        self.listener = socket.create_server((HOST, 0))
        self.port = self.listener.getsockname()[1]
        self.url = f"http://{HOST}:{self.port}"
        threading.Thread(target=self._serve, daemon=True).start()

    def close(self) -> None:
        self.listener.close()

    def _serve(self) -> None:
        while True:
            try:
                client = self.listener.accept()[0]
            except OSError:
                return
            threading.Thread(target=self._connection, args=(client,), daemon=True).start()

    def _connection(self, client: socket.socket) -> None:
        """Requests of one connection, until it ends or a fault ends it."""
        with client, contextlib.suppress(OSError):
            port = client.getpeername()[1]
            while data := read_request(client):
                self.begun()
                found = REQUEST.match(data)
                if not found or not self._passed_on(client, port, data, found[1].decode(), found[2].decode()):
                    return

    def _passed_on(self, client: socket.socket, port: int, data: bytes, method: str, target: str) -> bool:
        """Has a request done, or lets its fault befall it. Says whether the connection is kept."""
        path = urlsplit(target).path
        asked = self.watch.came(path, data.partition(b"\r\n\r\n")[2], port) if method == "POST" else None
        is_free = method == "POST" and asked is None  # it asks for the seat's number
        if asked and self.hold == path:
            self.hold = None
            self.held.append(data)
            self.meanwhile()
            self.watch.ends(asked, Fault("held", "had no reply", "nothing"), 0, None)
            return False
        fault = None if is_free else self._next_fault(method, path)
        status, reply, told = self._befallen(fault, data, path, target, asked)
        if fault and fault.kills == "station":
            self.kill()
        if fault and fault.name == "late reply":
            time.sleep(LATE_REPLY)
        is_delivered = bool(told) and self.is_up()
        if asked:
            self.watch.ends(asked, fault, status if is_delivered else 0, reply)
        elif method == "GET":
            is_whole = bool(status) and status != 503 and is_delivered and (fault is None or fault.delivers)
            self.watch.looked(target, fault, is_whole)
        self._send(client, fault, told if is_delivered else b"")
        if fault and fault.kills == "station behind":
            time.sleep(self.schedule.pause(STATION_DIES))
            self.kill()
        return fault is None and b"\r\nconnection: close" not in told.partition(b"\r\n\r\n")[0].lower()

    def _next_fault(self, method: str, path: str) -> Optional[Fault]:
        if time.monotonic() < self.away:
            return AWAY
        fault = self.schedule.next(method, path)
        if fault is AWAY:
            self.away = time.monotonic() + IS_AWAY
        return fault

    def _send(self, client: socket.socket, fault: Optional[Fault], told: bytes) -> None:
        """Sends what is told. What the station does next may be looked at at once, so this comes behind the watch."""
        if told:
            with contextlib.suppress(OSError):
                client.sendall(told)
        elif fault and fault.passed == "nothing" and not fault.kills:
            client.setsockopt(socket.SOL_SOCKET, socket.SO_LINGER, struct.pack("ii", 1, 0))  # a reset

    def _befallen(
        self, fault: Optional[Fault], data: bytes, path: str, target: str, asked: Optional[Asked]
    ) -> tuple[int, Any, bytes]:
        """The status and the members of what the station is told, and its bytes."""
        reply = b""
        passed = fault.passed if fault else "whole"
        if fault and fault.kills == "station first":
            self.kill()
        elif passed == "late":
            self.copies.append(threading.Thread(target=self._copied, args=(data, asked), daemon=True))
            self.copies[-1].start()
        elif fault and fault.kills == "server":
            self._killed(data)
        elif passed != "nothing":
            reply = self.exchanged(data if passed == "whole" else data[: len(data) // 2])
        status, members = parsed(reply)
        if asked and status:
            self.watch.is_done(asked, status, members)
        if fault:
            told = fault.answer(reply, path, asked.members if asked else dict(parse_qsl(urlsplit(target).query)))
            return (*parsed(told), told)
        return status, members, reply

    def exchanged(self, data: bytes) -> bytes:
        """What the server answers to these bytes."""
        with contextlib.suppress(OSError), socket.create_connection((HOST, self.server.port), timeout=60) as server:
            server.sendall(data)
            server.shutdown(socket.SHUT_WR)
            return b"".join(iter(lambda: server.recv(65536), b""))
        return b""

    def _copied(self, data: bytes, asked: Optional[Asked]) -> None:
        """Delivers a copy late; nobody is there for its reply."""
        time.sleep(self.schedule.pause(LATE_COPY))
        status, reply = parsed(self.exchanged(data))
        if asked and status:
            self.watch.is_done(asked, status, reply)

    def _killed(self, data: bytes) -> None:
        """The server has the request, and is killed some milliseconds later."""
        with contextlib.suppress(OSError), socket.create_connection((HOST, self.server.port)) as server:
            server.sendall(data)
            time.sleep(self.schedule.pause(SERVER_DIES))
        with contextlib.suppress(NoServer):
            self.server.kill()

    def wait_for_copies(self) -> None:
        """Until no copy is on its way."""
        for copy in self.copies:
            copy.join()
        self.copies = []

    def deliver_held(self) -> list[int]:
        """Delivers what was held, and gives the statuses of the replies, which nobody gets."""
        statuses = [parsed(self.exchanged(data))[0] for data in self.held]
        self.held = []
        return statuses
