"""Holds a station to the vectors of a seat's proved machine, by what it sends and what its log has by then:

    python3 -m kit.vectors [--seed N] [--starts N] --station ./my-station with its words

A server without books answers whatever the vectors have a row for, or kills the station in place of an answer. The
station makes its order, where that isn't there, and asks for the identity of a settled chip. A fault is status 1.
"""

from __future__ import annotations

import argparse
import contextlib
import http.server
import json
import os
import random
import re
import signal
import subprocess
import sys
import tempfile
import threading
import time
from pathlib import Path
from typing import Any, Mapping, Sequence

from kit.course import CLAIMS, LATE_COPIES
from kit.faults import FAULTS, reply_of
from kit.job import Job
from kit.journal import Journal
from kit.protocol import FAR, members_of
from kit.server import STATION

HERE = Path(__file__).resolve().parent
FILE = next(it for it in (HERE / "vectors.jsonl", HERE.parent / "crates/seat_tests/stdout") if it.exists())
ROWS = {line.pop("state"): line for line in map(json.loads, FILE.read_text("ascii").splitlines())}
# The number of a station in the vectors, and how much higher it begins here. So many starts have one state file.
NUMBER, SHIFT, STARTS = 7, 93, 12
# Seconds: of a start, and of the least pause.
LONGEST, PAUSE = 60.0, 0.03
STATUSES = {1: 400, 10: 400, 13: 404, 50: 503}
MISSES = [it for it in FAULTS if not it.delivers and not it.kills and it.passed != "late" and "repeat" not in it.name]
CHIP = "240ac4000001"
ORDER = {"name": "o1", "issuer": "acme-ca", "prefix": "A", "width": 3, "first": 1, "quantity": 9, "macs": 0}
NONE: Mapping[str, Any] = {"bits": [], "keys": {}}
DEVICE = {"chip": CHIP, "order": "o1", "map": 64 * "0", "reason": None, "serial": None, **NONE}
IDENTITY = {"chip": CHIP, "issuer": "acme-ca", "serial": "A001", "key_sha256": 64 * "0", "mac": None}
REPLIES: dict[str, dict[str, Any]] = {
    "/v1/order": {**ORDER, "mac": None, "next": "A001", "not_before": None},
    "/v1/device": {**DEVICE, "pending": {"batch1": NONE, "batch2": NONE}},
    "/v1/identity": {**IDENTITY, "not_before": None, "not_after": "99991231235959Z"},
    "/v1/ship": {"chip": 12 * "0", "state": "shipped"},
}


def json_told(status: int, members: Mapping[str, Any]) -> bytes:
    return reply_of(status, "application/json", json.dumps(members).encode())


class Machine:
    """What a station is and does by the vectors, in the numbers of a run."""

    def __init__(self) -> None:
        self.words, self.shift = "unknown; nothing", SHIFT

    def take(self, event: str, keeps_aside: bool) -> list[str]:
        """What the station does at an event, whose state is another one then. One without `keeps_aside` stops at 12."""
        acts, words = ROWS[self.words].get(event, ("", self.words))
        shift, number = self.shift, re.match(r"(?:free|under way) (\d+)", words)
        if number:
            self.shift += int(number[1]) - NUMBER
            words = words.replace(f" {number[1]}", f" {NUMBER}", 1)
        self.words = words if keeps_aside or "stopped" in words else re.sub(r", aside \d+", "", words)
        shifted = lambda it: f"{it[1]} {int(it[2]) + shift}"
        return [re.sub(r"^(log|send) (\d+)", shifted, act) for act in acts.split("; ")]

    def replies(self) -> list[str]:
        """What may befall a station that has sent something, but for the end of its patience."""
        return [it for it in ROWS[self.words] if not it.startswith(("want", "look", "give"))]


class Handler(http.server.BaseHTTPRequestHandler):
    """Each connection has one request."""

    def do_POST(self) -> None:  # noqa: N802
        body = self.rfile.read(int(self.headers.get("Content-Length", 0)))
        self.wfile.write(self.server.run.answer(self.path, body))

    do_GET = do_POST  # noqa: N815

    def log_message(self, *_: Any) -> None:
        pass


class Run:
    """One state file of a station. `befell` has the faults that replies had before."""

    def __init__(self, command: Sequence[str], chance: random.Random, befell: set[str]):
        self.command, self.machine, self.chance, self.befell = command, Machine(), chance, befell
        self.owed, self.is_paused, self.answered, self.fault = "", False, 0.0, ""
        self.names, self.sent, self.log = dict[str, int](), dict[str, bytes](), list[str]()
        self.turn = threading.RLock()

    def take(self, event: str) -> None:
        """Has an event befall the machine: the lines that the log owes, and what is owed to the server."""
        claims = self.own / CLAIMS
        acts = self.machine.take(event, claims.exists() and LATE_COPIES in claims.read_text("utf-8"))
        self.log += [act for act in acts if act.startswith("log")]
        self.owed = acts[-1] if acts[-1].startswith(("send", "ask")) else ""
        self.is_paused = "pause" in acts

    def name_of(self, path: str, members: Mapping[str, Any]) -> int:
        """The name of a request in the vectors: 1 or 2."""
        own = json.dumps([path, {**members, "nr": 0}], sort_keys=True)
        return self.names.setdefault(own, len(self.names) + 1)

    def asked(self, path: str, body: bytes) -> bytes:
        """The reply to a POST request, if it is the one that the machine sends."""
        members = {"nr": 0, **(members_of(body) or {})}
        number, self.is_heard = members["nr"], True
        told = "ask" if number == FAR else f"send {number} {self.name_of(path, members)}"
        if not self.owed:
            self.take("start" if self.machine.words.startswith("unknown") else f"want {told[-1]}")
            self.sent[told] = body
        self.hold(told == self.owed, f"it sent {told} in place of {self.owed or 'nothing'}")
        self.hold(self.sent.setdefault(told, body) == body, f"{told} has other bytes than before")
        is_late = time.monotonic() - self.answered > PAUSE
        self.hold(is_late or not self.is_paused, f"{told} is sent again without a pause")
        self.test_log()
        event = self.chosen()
        if self.fault or event == "start":
            return self.kill()
        reply = self.reply(event, path, members)
        if event.startswith("accept") and path == "/v1/identity":
            self.state = "shipped"
        self.take(event)
        self.answered = time.monotonic()
        return reply

    def chosen(self) -> str:
        """What befalls the station now: mostly a refusal, and seldom one at which it stops for good."""
        words, events = self.machine.words, self.machine.replies()
        stops = ("refuse 11" if "unknown" not in words else "-", "refuse 12" if "aside" not in words else "-")
        often = {"refuse": 2, "miss": 2}
        weights = [0.3 if it.startswith(stops) else often.get(it.split()[0], 1) for it in events]
        return self.chance.choices(events, weights)[0]

    def reply(self, event: str, path: str, members: Mapping[str, Any]) -> bytes:
        """What a station gets, in bytes; none where its connection ends without."""
        word, *numbers = event.split()
        if word == "refuse":
            no, expected = map(int, numbers)
            more = {"expected": expected + self.machine.shift} if no == 11 else {}
            return json_told(STATUSES.get(no, 409), {"error": "refused", "no": no, **more})
        done = json_told(200, REPLIES[path])
        faults = [it for it in MISSES if path in it.paths or not it.paths]
        fault = self.chance.choice([it for it in faults if it.name not in self.befell] or faults)
        if word == "accept":
            return done
        self.befell.add(fault.name)
        return fault.answer(done, path, members)

    def hold(self, is_so: bool, fault: str) -> None:
        self.fault = self.fault or ("" if is_so else f"{fault}, at {self.machine.words}")

    def test_log(self) -> None:
        """The log has what it owes. A request that is sent again may have its line twice."""
        lines = [self.told(line) for line in Journal(self.own / "log").lines()]
        found, owed = ([it for before, it in zip([""] + told, told) if it != before] for told in (lines, self.log))
        self.hold(found == owed, f"its log has {found[-3:]} in place of {owed[-3:]} at the end")

    def told(self, line: Mapping[str, Any]) -> str:
        """A line of the log in the machine's words; one of another form as it is."""
        try:
            if "asked" in line:
                return f"log {line['asked']['nr']} {self.name_of(line['path'], line['asked'])}"
            return f"log {line['nr']} {'done 90' if line['status'] == 200 else 'not %d' % line['reply']['no']}"
        except (KeyError, TypeError):
            return f"the line {line}"

    # The station.

    def answer(self, target: str, body: bytes) -> bytes:
        path = target.partition("?")[0]
        with self.turn:
            if body:
                return self.asked(path, body)
            if path == "/v1/order" and not self.has_order:
                return json_told(404, {"error": "unknown_order", "no": 14})
            return json_told(200, REPLIES[path] | ({"state": self.state} if path == "/v1/device" else {}))

    def kill(self) -> bytes:
        with contextlib.suppress(ProcessLookupError):
            os.killpg(self.process.pid, signal.SIGKILL)
        return b""

    def lay_out(self, folder: Path, port: int) -> None:
        """The files that a station gets, and its environment."""
        job, self.own = Job(folder / "job", CHIP, ORDER, [], [], b"", b"key"), folder / "own"
        job.lay_out()
        self.own.mkdir(mode=0o700)
        files = {"KIT_STATE": str(self.own / "state"), "KIT_LOG": str(self.own / "log")}
        where = {"KIT_URL": f"http://127.0.0.1:{port}", "KIT_TOKEN": STATION}
        self.environment = {**os.environ, **job.environment(), **files, **where}

    def starts(self) -> int:
        """Starts it several times, once behind a stop; how often."""
        for count in range(1, STARTS + 1):
            has_stopped = "stopped" in self.machine.words
            self.start()
            if self.fault or has_stopped:
                break
        return count

    def start(self) -> None:
        """Starts the station, until it ends or is killed."""
        self.has_order, self.state = self.chance.random() < 0.5, "settled"
        self.owed, self.is_heard = "", False
        with self.turn:
            if not self.machine.words.startswith("unknown"):
                self.take("start")
            quiet = {"stdin": subprocess.DEVNULL, "stdout": subprocess.DEVNULL, "stderr": subprocess.DEVNULL}
            self.process = subprocess.Popen([*self.command], env=self.environment, start_new_session=True, **quiet)
        try:
            status = self.process.wait(LONGEST)
        except subprocess.TimeoutExpired:
            self.hold(False, "it didn't end in a minute")
        self.kill()
        if self.process.wait() != -signal.SIGKILL:
            self.hold(not self.owed, f"it ended with status {status} in place of {self.owed}")
            self.hold(self.is_heard or "stopped" in self.machine.words, "it sent nothing that changes anything")
            is_rightly = (status == 0) == (self.state == "shipped")
            self.hold(is_rightly, f"it ended with status {status}, and its chip is {self.state}")
            self.test_log()
            wrong = Journal(self.own / "log").faults()
            self.hold(not wrong, f"its log: {wrong[:1]}")


def fault_of(command: Sequence[str], seed: int, starts: int) -> str:
    """The first fault of a station, nothing where it has none."""
    server = http.server.ThreadingHTTPServer(("127.0.0.1", 0), Handler)
    threading.Thread(target=server.serve_forever, daemon=True).start()
    chance, befell, fault = random.Random(seed), set[str](), ""
    try:
        while starts > 0 and not fault:
            with tempfile.TemporaryDirectory() as folder:
                server.run = run = Run(command, chance, befell)
                run.lay_out(Path(folder), server.server_address[1])
                starts -= run.starts()
                fault = run.fault
    finally:
        server.shutdown()
        server.server_close()
    return fault


def main() -> int:
    parser = argparse.ArgumentParser(prog="kit.vectors", description=__doc__.partition("\n")[0])
    parser.add_argument("--seed", type=int, default=1, help="which reply comes when")
    parser.add_argument("--starts", type=int, default=120, help="how often the station is started")
    parser.add_argument("--station", nargs=argparse.REMAINDER, required=True, help="its command, with its words")
    args = parser.parse_args()
    fault = fault_of(args.station, args.seed, args.starts)
    print(f"FAULT: {fault}" if fault else "It does what the machine does.")
    return 1 if fault else 0


if __name__ == "__main__":
    sys.exit(main())
