"""Free ports of this machine, who connects to one, and a small service of HTTP at one."""

import contextlib
import http.server
import socket
import threading
from collections.abc import Iterator
from typing import Any

HOST = "127.0.0.1"


def free_port() -> int:
    """A port on which nobody listens."""
    return free_ports(1)[0]


def free_ports(count: int) -> list[int]:
    """As many other ports, on none of which anybody listens."""
    with contextlib.ExitStack() as held:
        listeners = [held.enter_context(socket.create_server((HOST, 0))) for _ in range(count)]
        return [it.getsockname()[1] for it in listeners]


def ports_in_row(count: int) -> int:
    """The first of as many free ports, each one above the other."""
    while True:
        first = free_port()
        with contextlib.suppress(OSError, OverflowError), contextlib.ExitStack() as held:
            for port in range(first, first + count):
                held.enter_context(socket.create_server((HOST, port)))
            return first


def accepted(listener: socket.socket) -> Iterator[socket.socket]:
    """Each connection to a port, until its listener is closed."""
    with contextlib.suppress(OSError):
        while True:
            yield listener.accept()[0]


def whole_request(client: socket.socket) -> bytes:
    """The request that comes; nothing where its process is gone before its end."""
    data = b""
    while True:
        head, end, body = data.partition(b"\r\n\r\n")
        if end and len(body) >= int(head.lower().partition(b"content-length: ")[2].split(b"\r\n")[0]):
            return data
        try:
            some = client.recv(65536)
        except OSError:
            return b""
        if not some:
            return b""
        data += some


class Answering(http.server.BaseHTTPRequestHandler):
    """Answers a request, and logs nothing."""

    def answer(self, status: int, kind: str, body: bytes) -> None:
        self.send_response(status)
        self.send_header("Content-Type", kind)
        self.send_header("Content-Length", str(len(body)))
        self.end_headers()
        self.wfile.write(body)

    def log_message(self, *_: Any) -> None:
        pass


@contextlib.contextmanager
def answered(handler: type[Answering], port: int = 0) -> Iterator[http.server.HTTPServer]:
    """A server whose requests this answers, at a port or at a free one."""
    server = http.server.HTTPServer((HOST, port), handler)
    threading.Thread(target=server.serve_forever, daemon=True).start()
    try:
        yield server
    finally:
        server.shutdown()
        server.server_close()
