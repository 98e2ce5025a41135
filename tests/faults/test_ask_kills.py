"""`station ask` is killed at random over four seats, behind a port that repeats, delays and drops what it passes on.

Each seat asks for the requests of a load, one process after another, of which most are killed. The port sends some
requests twice, the second time up to seconds late, and closes some connections before the reply. At the end each log
has what the books have, once and in order, and each reply that a process printed is the log's. `size` is in seconds.
"""

import json
import random
import socket
import subprocess
import threading
import time
from collections import Counter
from collections.abc import Callable
from pathlib import Path

import pytest

from common.customers import EVENTS, site_text, token_of
from common.ports import HOST, accepted, whole_request
from common.served import Caller, Server, station
from faults.test_kill import FAR, Load

SEATS = [(customer, seat) for customer in range(2) for seat in range(2)]
# How often a process is killed, a request is sent twice, and a reply is dropped; and the latest copy, in seconds.
KILLED, TWICE, DROPPED, LATEST = 0.6, 0.2, 0.2, 5.0


class Network(threading.Thread):
    """A port before the server's, for one request a connection."""

    def __init__(self, port: int, seed: int) -> None:
        super().__init__(daemon=True)
        self.port, self.random, self.copies = port, random.Random(seed), 0
        self.listener = socket.create_server((HOST, 0))
        self.own = self.listener.getsockname()[1]

    def run(self) -> None:
        for client in accepted(self.listener):
            threading.Thread(target=self.serve, args=(client,), daemon=True).start()

    def serve(self, client: socket.socket) -> None:
        with client:
            request = whole_request(client)
            if not request:
                return
            if self.random.random() < TWICE:
                self.copies += 1
                threading.Timer(self.random.random() ** 3 * LATEST, self.passed, [request]).start()
            reply = self.passed(request)
            if self.random.random() >= DROPPED:
                try:
                    client.sendall(reply)
                except OSError:
                    pass

    def passed(self, request: bytes) -> bytes:
        """The server's reply to a request."""
        try:
            with socket.create_connection((HOST, self.port), timeout=30) as server:
                server.sendall(request)
                server.shutdown(socket.SHUT_WR)
                return b"".join(iter(lambda: server.recv(65536), b""))
        except OSError:
            return b""


class Seat(threading.Thread):
    """A seat's requests, each asked for until a process ends by itself."""

    def __init__(self, words: list[str], folder: Path, customer: int, seat: int, until: float) -> None:
        super().__init__(daemon=True)
        self.token, self.until = token_of(customer, seat), until
        self.load, self.random = Load(7, customer, seat), random.Random(f"{customer} {seat}")
        state, token = folder / f"{customer}{seat}", folder / f"{customer}{seat}.token"
        token.write_text(self.token)
        self.log = Path(f"{state}.journal")
        self.words = [*words, "--token-file", str(token), "--state", str(state)]
        self.printed: list[bytes] = []
        self.kills, self.refusals, self.fault = 0, 0, ""

    def run(self) -> None:
        for path, members in self.load.requests():
            if time.monotonic() > self.until or self.fault:
                return
            self.make(f"POST {path}\n{json.dumps(members)}".encode())

    def make(self, text: bytes) -> None:
        while True:
            pipe = subprocess.PIPE
            with subprocess.Popen(self.words, stdin=pipe, stdout=pipe, stderr=pipe) as it:
                if self.random.random() < KILLED:
                    killer = threading.Timer(self.random.random() ** 2 * 0.1, it.kill)
                    killer.start()
                printed, told = it.communicate(text, 120)
            if it.returncode < 0:
                self.kills += 1
                continue
            if it.returncode == 0:
                self.printed.append(printed)
                return
            if it.returncode < 100:
                self.fault = f"status {it.returncode}: {told.decode()}"
            self.refusals += 1
            return

    def done(self) -> list[tuple[dict[str, object], dict[str, object]]]:
        """The requests that the log has as accepted, and their outcomes; a line that is there again is one."""
        asked: dict[str, object] = {}
        found: list[tuple[dict[str, object], dict[str, object]]] = []
        for line in map(json.loads, self.log.read_text("utf-8").splitlines()):
            if "asked" in line:
                asked = line
            elif line.get("status") == 200 and not (found and found[-1][1]["nr"] == line["nr"]):
                found.append((asked, line))
        return found


def differences(seat: Seat, caller: Caller) -> list[str]:
    """What a seat's log and the books don't have in common."""
    done = seat.done()
    numbers = [line["nr"] for _, line in done]
    faults = [] if numbers == list(range(1, len(done) + 1)) else [f"the numbers {numbers}"]
    expected = json.loads(caller.ask("POST", "/v1/ship", {"nr": FAR, "chip": 12 * "0"})[1])["expected"]
    faults += [] if expected == len(done) + 1 else [f"{len(done)} are in the log, and {expected} is expected"]
    steps: dict[str, Counter[str]] = {chip: Counter() for chip in seat.load.chips}
    for asked, line in done:
        path, members = asked["path"], asked["asked"]
        assert isinstance(members, dict) and members["nr"] == line["nr"]
        if path in EVENTS:
            steps[members["chip"]][EVENTS[str(path)]] += 1
    for chip, events in steps.items():
        status, text = caller.ask("GET", f"/v1/ledger?chip={chip}")
        have = Counter(entry["event"] for entry in json.loads(text)["entries"]) if status == 200 else Counter()
        faults += [] if have == events else [f"{chip}: {have} in the ledger, {events} in the log"]
    replies = [json.dumps(line["reply"], separators=(",", ":"), sort_keys=True, ensure_ascii=False) for _, line in done]
    printed = [it.decode() for it in seat.printed]
    faults += [] if Counter(printed) <= Counter(replies) else ["a reply was printed that the log doesn't have"]
    return faults


@pytest.mark.sizes(8, 3600)
def test_asks(program: Path, tmp_path: Path, port: int, size: int, found: Callable[[str], None]) -> None:
    site, db = tmp_path / "site.toml", tmp_path / "books.db"
    site.write_text(site_text(range(3)))
    server = Server([str(word) for word in station(program, site, db, port)], port).wait(Server.is_listening)
    network = Network(port, 7)
    network.start()
    try:
        words = [str(program), "ask", "--url", f"http://{HOST}:{network.own}"]
        until = time.monotonic() + size
        seats = [Seat(words, tmp_path, *each, until) for each in SEATS]
        for each in seats:
            each.start()
        for each in seats:
            each.join(size + 300)
        time.sleep(LATEST)
        assert [(each.is_alive(), each.fault) for each in seats] == len(SEATS) * [(False, "")]
        assert [differences(each, Caller(port, each.token, is_kept=False)) for each in seats] == len(SEATS) * [[]]
    finally:
        network.listener.close()
        server.kill()
    kills, refusals = sum(each.kills for each in seats), sum(each.refusals for each in seats)
    done = sum(len(each.done()) for each in seats)
    assert kills and refusals and network.copies
    found(f"{kills} kills, {done} requests done, {refusals} refused, {network.copies} sent twice; 0 differences")
