"""The server over a scratch store on 127.0.0.1, and the kit's own callers of it."""

from __future__ import annotations

import contextlib
import hashlib
import json
import select
import socket
import subprocess
import threading
from http.client import HTTPConnection
from pathlib import Path
from typing import Any, Mapping, Optional

HOST = "127.0.0.1"

# The tokens of a site that lives as long as the run: the station's, another seat's of the same customer, and another
# customer's.
STATION, RIVAL, OTHER = "station-under-test", "rival-of-the-station", "another-customer"
SITE = f"""\
[[customer]]
name = "acme"
issuer = ["acme-ca"]
[[customer.pool]]
first = "020000000000"
count = 1048576
[[customer.seat]]
name = "a1"
token = "{hashlib.sha256(STATION.encode()).hexdigest()}"
[[customer.seat]]
name = "a2"
token = "{hashlib.sha256(RIVAL.encode()).hexdigest()}"
[[customer]]
name = "bolt"
issuer = ["bolt-ca"]
[[customer.pool]]
first = "040000000000"
count = 1048576
[[customer.seat]]
name = "b1"
token = "{hashlib.sha256(OTHER.encode()).hexdigest()}"
"""
POOL = range(0x020000000000, 0x020000000000 + 1048576)


class NoServer(Exception):
    """The program doesn't serve."""


def free_port() -> int:
    with socket.socket() as listener:
        listener.bind((HOST, 0))
        return listener.getsockname()[1]


class Server:
    """`station serve` over a store in a folder. It has one port, also when it is started again. `turn` is held while it
    is killed and started, of which several threads may come."""

    def __init__(self, program: str, folder: Path):
        self.program, self.folder, self.port, self.kills = program, folder, free_port(), 0
        self.turn = threading.RLock()
        (folder / "site.toml").write_text(SITE, encoding="ascii")
        self.start()

    def start(self) -> None:
        words = [self.program, "serve", "--site", str(self.folder / "site.toml"), "--db", str(self.folder / "books.db")]
        words += ["--port", str(self.port), "--connections", "1000000"]
        self.process = subprocess.Popen(words, stdout=subprocess.PIPE, stdin=subprocess.DEVNULL)
        out = self.process.stdout
        assert out
        ready, _, _ = select.select([out], [], [], 60)
        line = out.readline() if ready else b""
        if line != b"listening on 127.0.0.1:%d\n" % self.port:
            self.end()
            raise NoServer(f"{self.program} doesn't serve: it printed {line!r}")

    def end(self) -> None:
        with self.turn:
            self.process.kill()
            self.process.wait()
            if self.process.stdout:
                self.process.stdout.close()

    def kill(self) -> None:
        """Kills the program, and starts it again over its store."""
        with self.turn:
            self.kills += 1
            self.end()
            self.start()


class Caller:
    """A seat of the kit's own, past the proxy: it counts its numbers, and its requests have to be accepted."""

    def __init__(self, server: Server, token: str):
        self.server, self.token, self.number = server, token, 0

    def ask(self, method: str, target: str, members: Optional[Mapping[str, Any]] = None) -> tuple[int, bytes]:
        body = None if members is None else json.dumps(members).encode()
        fields = {"Authorization": f"Bearer {self.token}", "Connection": "close"}
        with self.server.turn, contextlib.closing(HTTPConnection(HOST, self.server.port, timeout=60)) as connection:
            connection.request(method, target, body, fields)
            reply = connection.getresponse()
            return reply.status, reply.read()

    def get(self, target: str) -> Any:
        """The members of a reply, or None where it is refused."""
        status, body = self.ask("GET", target)
        return json.loads(body) if status == 200 else None

    def post(self, path: str, members: Mapping[str, Any]) -> Any:
        """Has a request done, as the seat's next one."""
        status, body = self.ask("POST", path, {"nr": self.number + 1, **members})
        if status != 200:
            raise NoServer(f"the kit's own POST {path} is answered {status} {body!r}")
        self.number += 1
        return json.loads(body)
