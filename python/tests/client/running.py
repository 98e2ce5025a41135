"""`wanekupo run` as a process, its page's own requests, and a robot that puts simulated chips into its sockets."""

import contextlib
import fcntl
import http.client
import importlib.util
import json
import os
import pty
import re
import select
import signal
import struct
import subprocess
import sys
import termios
import threading
import time
import unittest
from pathlib import Path

from simulated_chip import SimulatedChip
from support import HOST, LIFE, ROOT, SIMULATED, StationCase, steps

from wanekupo.seat.journal import issued, requests_of

MAP_FILE = ROOT / "python/wanekupo/chips/families/esp32/map.toml"
PYTHONPATH = str(ROOT / "python")
SECONDS = 60
# The states of a socket whose chip has ended.
ENDED = ("PASS", "FAIL", "LABEL")
# How long a robot may take for a chip, on a machine that has other work.
A_CHIP = 60
PAGE = ROOT / "docs" / "line" / "bench.md"
FACTS = 'echo "$CHIP $ORDER $SERIAL $MAC $MACS $KEY_SHA256"\n'
GREEN, RED, ASK_WHERE = (f"take it out, {it}" for it in ("green box", "red box", "and ask where it comes from"))

# The key pair of each chip, and a request for its certificate.
MAKE_CSR = """umask 077
openssl genpkey -algorithm ed25519 -out "$FOLDER/key.pem"
openssl req -new -key "$FOLDER/key.pem" -subj "/CN=$CHIP" -out "$FOLDER/identity.csr"
"""

# Starts the command where nothing but the calls that the outside sees are counted, and dies before the one with this
# number: of files, of connections, of processes.
KILLED = """
import http.client, os, signal, subprocess, sys, threading
count, turn, last = [0], threading.Lock(), int(sys.argv.pop(1))
def counted(call):
    def wrapped(*words, **named):
        with turn:
            count[0] += 1
            if count[0] == last:
                os.kill(os.getpid(), signal.SIGKILL)
        return call(*words, **named)
    return wrapped
for name in ("fsync", "replace", "unlink"):
    setattr(os, name, counted(getattr(os, name)))
for name in ("connect", "send", "getresponse"):
    setattr(http.client.HTTPConnection, name, counted(getattr(http.client.HTTPConnection, name)))
subprocess.Popen.__init__ = counted(subprocess.Popen.__init__)
from wanekupo.cli.main import main
sys.exit(main(sys.argv[1:]))
"""


def script(file, text):
    """A script of the shell."""
    file.write_text(f"#!/bin/sh\nset -e\n{text}", encoding="utf-8")
    file.chmod(0o700)
    return str(file)


def tool(file, text):
    """A command of a socket, which says its version as espefuse does."""
    return script(file, f'case "$*" in *--help*) echo "espefuse.py v4.7.0"; exit;; esac\n{text}')


def toml(value):
    """A value as TOML has it: JSON has the same form for texts, numbers and lists."""
    if isinstance(value, dict):
        return "{ " + ", ".join(f"{toml(name)} = {toml(it)}" for name, it in value.items()) + " }"
    return json.dumps(value)


class Running:
    """A bench that runs. `killed` is the call before which it dies."""

    def __init__(self, recipe, killed=0, words=(), before=()):
        program = ["-c", KILLED, str(killed)] if killed else ["-m", "wanekupo"]
        command = [*before, sys.executable, "-B", *program, "run", str(recipe), "--port", "0", *words]
        environment = {**os.environ, "PYTHONPATH": PYTHONPATH, "HOME": str(Path(recipe).parent)}
        self.process = subprocess.Popen(
            command,
            env=environment,
            stdin=subprocess.PIPE,
            stdout=subprocess.PIPE,
            stderr=subprocess.STDOUT,
            start_new_session=True,
            text=True,
        )
        self.lines, self.port = [], 0
        for line in self.process.stdout:
            self.lines.append(line)
            found = re.match(r"page: http://127.0.0.1:(\d+)/$", line)
            if found:
                self.port = int(found[1])
                break
        self.reader = threading.Thread(target=lambda: self.lines.extend(self.process.stdout), daemon=True)
        self.reader.start()

    def asked(self, method, path, body=None, fields=None):
        """The status, the fields and the body of what the page's server answers."""
        connection = http.client.HTTPConnection(HOST, self.port, timeout=SECONDS)
        try:
            text = None if body is None else json.dumps(body)
            fields = fields or ({"Content-Type": "application/json"} if text else {})
            connection.request(method, path, text, fields)
            reply = connection.getresponse()
            return reply.status, dict(reply.headers), reply.read()
        finally:
            connection.close()

    def board(self):
        return json.loads(self.asked("GET", "/board?after=0")[2])

    def socket(self, name):
        return next(it for it in self.board()["sockets"] if it["name"] == name)

    def said(self, text):
        return self.asked("POST", "/said", {"text": text})[0]

    def typed(self, text):
        """What a keyboard, or a scanner, types on the terminal."""
        self.process.stdin.write(f"{text}\n")
        self.process.stdin.flush()

    def until(self, is_so, what=""):
        """Waits until something is so of the board, and gives that."""
        end = time.monotonic() + SECONDS
        while not is_so(board := self.board()):
            if time.monotonic() > end:
                raise AssertionError(f"never {what}: {board} {self.lines[-9:]}")
            time.sleep(0.02)
        return board

    def ended(self, name):
        """How the chip in a socket ended: its word and its sentence."""
        board = self.until(
            lambda it: next(one for one in it["sockets"] if one["name"] == name)["state"] in ENDED, "ended"
        )
        found = next(one for one in board["sockets"] if one["name"] == name)
        return found["state"], found["reason"], found["sentence"]

    def is_alive(self):
        return self.process.poll() is None

    def gone(self):
        """Waits until what it started is gone too."""
        self.process.wait()
        end = time.monotonic() + SECONDS
        while time.monotonic() < end:
            try:
                os.killpg(self.process.pid, 0)
            except ProcessLookupError:
                break
            time.sleep(0.01)
        self.reader.join(SECONDS)
        self.process.stdin.close()
        self.process.stdout.close()

    def kill(self):
        self.process.kill()
        self.gone()

    def end(self):
        """Ends it as Ctrl-C does; its status."""
        self.process.send_signal(signal.SIGINT)
        self.process.wait(SECONDS)
        self.gone()
        return self.process.returncode


class Terminal:
    """A bench on a terminal of its own."""

    def __init__(self, recipe, environment, rows=40, columns=100):
        self.master, slave = pty.openpty()
        fcntl.ioctl(slave, termios.TIOCSWINSZ, struct.pack("HHHH", rows, columns, 0, 0))
        command = [sys.executable, "-B", "-m", "wanekupo", "run", str(recipe), "--no-page"]
        own = {name: it for name, it in os.environ.items() if name != "NO_COLOR"}
        environment = {**own, "PYTHONPATH": PYTHONPATH, "HOME": str(recipe.parent), **environment}
        streams = {"stdin": slave, "stdout": slave, "stderr": slave, "start_new_session": True}
        self.process = subprocess.Popen(command, env=environment, **streams)
        os.close(slave)
        self.shown = ""

    def __enter__(self):
        self.until("waiting")
        return self

    def __exit__(self, *_):
        if self.process.returncode is None:
            self.end()
        os.close(self.master)

    def end(self):
        """Ends it as a service's stop does, and takes what it shows until then."""
        self.process.send_signal(signal.SIGTERM)
        with contextlib.suppress(OSError):  # the other side is closed once it ended
            while data := os.read(self.master, 65536):
                self.shown += data.decode()
        self.process.wait(SECONDS)

    def type(self, text):
        self.shown = ""
        os.write(self.master, f"{text}\n".encode())

    def until(self, text):
        """What was shown until a text was there."""
        end = time.monotonic() + SECONDS
        while text not in self.shown:
            ready, _, _ = select.select([self.master], [], [], max(0, end - time.monotonic()))
            if not ready:
                raise AssertionError(f"never {text}: {self.shown[-3000:]!r}")
            self.shown += os.read(self.master, 65536).decode()
        return self.shown


@unittest.skipUnless(importlib.util.find_spec("cryptography"), "nothing reads public keys")
class BenchCase(StationCase):
    """A folder with the program, an order, and a recipe over simulated chips."""

    SOCKETS = ("left", "right")

    def setUp(self):
        super().setUp()
        (self.folder / "abc.token").write_text("abc\n", encoding="ascii")
        (self.folder / "flash.key").chmod(0o600)
        (self.folder / "spool").mkdir()
        (self.folder / "places").mkdir()
        self.csr = script(self.folder / "make-csr", MAKE_CSR)

    def order(self, **changes):
        order = {"name": "o1", "issuer": "acme-ca", "prefix": "A", "width": 3, "first": 1, "quantity": 60, "macs": 0}
        with self.station(file="office.json", token="abc") as station:
            station.make_order(**{**order, **changes})
        (self.folder / "a1.json").write_bytes((self.folder / "office.json").read_bytes())
        (self.folder / "a1.json").chmod(0o600)

    def socket_of(self, name):
        """The command of a socket, whose chip is the file in its place."""
        return [sys.executable, "-B", str(SIMULATED), "--path-efuse-file", str(self.folder / "places" / name)]

    def other_tool(self, instead, after=0):
        """The simulated chip, which does something else in place of what it is to burn, after so many times."""
        words, count = f"{sys.executable} {self.socket_of('left')[2]}", self.folder / "burnt"
        count.unlink(missing_ok=True)
        other = f'echo >> {count}\n[ $(wc -l < {count}) -le {after} ] || exec {words} "$1" "$2" {instead}'
        return script(self.folder / "tool", f'case "$*" in *execute_scripts*) {other};; esac\nexec {words} "$@"\n')

    def recipe(self, url=None, hooks=None, wishes=None, top=None, server=None, sockets=None, stop=3):
        """The recipe's file."""
        key = {"kind": "key", "field": "BLOCK1", "file": "flash.key", "burnt_as": "flash_encryption"}
        locks = [{"kind": kind, "field": "BLOCK1"} for kind in ("wlock", "rlock")]
        wishes = [{"kind": "bit", "field": "JTAG_DISABLE", "index": 0}, key, *locks] if wishes is None else wishes
        hooks = {"before_identity": {"command": [self.csr], "timeout": 20}, **(hooks or {})}
        table = {"name": "thermostat r3", "order": "o1", "map": str(MAP_FILE), "family": "esp32", **(top or {})}
        own = {"url": url or self.program.url, "token": "abc.token", "state": "a1.json", "journal": "a1.journal"}
        lines = [f"{name} = {toml(it)}" for name, it in table.items()]
        for name, part in (
            ("server", {**own, "spool": "spool", **(server or {})}),
            ("sockets", sockets or {name: self.socket_of(name) for name in self.SOCKETS}),
            ("hooks", hooks),
            ("stop", {"lost_in_a_row": stop}),
        ):
            lines += [f"[{name}]", *(f"{toml(key)} = {toml(it)}" for key, it in part.items())]
        for wish in wishes:
            lines += ["[[wish]]", *(f"{name} = {toml(it)}" for name, it in wish.items())]
        file = self.folder / "thermostat.toml"
        file.write_text("\n".join(lines) + "\n", encoding="utf-8")
        return file

    def run_bench(self, recipe, **options):
        bench = Running(recipe, **options)
        self.addCleanup(lambda: bench.process.poll() is None and bench.kill())
        return bench

    def put(self, name, mac):
        """Puts a chip into a socket: one of this name that was there before, or a new one."""
        file, place = self.folder / f"chip-{mac}", self.folder / "places" / name
        if not file.exists():
            self.make(mac, file)
        os.replace(file, place)

    def make(self, mac, file):
        """A new chip with a factory MAC."""
        SimulatedChip(bytes.fromhex(mac), file)

    def take(self, name, mac):
        os.replace(self.folder / "places" / name, self.folder / f"chip-{mac}")

    def assert_shipped(self, macs):
        """Each of these chips went through its life once, and its record is once in the journal and in the log, with a
        request for its certificate."""
        for mac in macs:
            self.assertEqual(life_of(self.ledger(mac)), LIFE, mac)
        shown = {mac: self.asked("GET", f"/v1/device?chip={mac}")[1]["serial"] for mac in macs}
        self.assertEqual(len(set(shown.values())), len(macs))
        asked = [it for it in requests_of(self.folder / "a1.journal") if it.members.get("chip") in shown]
        self.assertEqual({it["chip"]: it["serial"] for it in issued(asked)}, shown)
        self.assertEqual(sum(it.path == "/v1/identity" and it.is_done() for it in asked), len(macs))
        passed = [it for it in self.logged() if it.get("result") == "passed" and it["chip"] in shown]
        self.assertEqual({it["chip"]: it["serial"] for it in passed}, shown)
        spooled = {it.stem for it in (self.folder / "spool").glob("[!.]*.csr")}
        self.assertLessEqual(set(shown.values()), spooled)
        return shown

    def logged(self):
        """The lines of the bench's own log."""
        files = sorted((self.folder / "a1.json.bench").glob("log-*.jsonl"))
        return [json.loads(line) for file in files for line in file.read_text("ascii").splitlines()]


class Robot:
    """Hands that never rest: they put the next chip into each socket that waits, press its key, take the chip out when
    it has its word, and start the bench again where it died. `results` has each chip's words."""

    def __init__(self, case, macs, start):
        self.case, self.waiting, self.start = case, list(macs), start
        self.placed, self.results, self.starts, self.begun = {}, {}, 0, []
        self.bench = None

    def work(self):
        count = len(self.waiting)
        end = time.monotonic() + SECONDS + A_CHIP * count
        while self.waiting or self.placed:
            if time.monotonic() > end:
                left = len(self.waiting) + len(self.placed)
                raise AssertionError(f"{count - left} of {count} chips in time: {self.bench.board()}")
            with contextlib.suppress(OSError, http.client.HTTPException, json.JSONDecodeError):
                self.look()
                time.sleep(0.02)
                continue
            self.revive()
        return self.results

    def revive(self):
        if self.bench:
            if self.bench.is_alive():
                time.sleep(0.05)
                return
            self.bench.gone()
        self.starts += 1
        self.bench = self.start(self.starts)
        self.case.addCleanup(lambda bench=self.bench: bench.process.poll() is None and bench.kill())

    def look(self):
        if self.bench is None:
            raise OSError("none runs")
        board = self.bench.board()
        if board["stopped"]:
            raise AssertionError(board["stopped"])
        for it in board["sockets"]:
            name, mac = it["name"], self.placed.get(it["name"])
            if it["state"] in ENDED and mac and it["chip"] in (mac, ""):
                self.results.setdefault(mac, []).append(it["reason"])
                if it["state"] == "PASS":
                    self.case.take(name, mac)
                    del self.placed[name]
                    mac = None
                else:
                    self.press(name)
            if mac is None and self.waiting:
                self.placed[name] = self.waiting.pop(0)
                self.case.put(name, self.placed[name])
                self.press(name)
            elif mac and it["state"] == "waiting":
                self.press(name)

    def press(self, name):
        self.bench.asked("POST", "/begin", {"socket": name})
        self.bench.until(lambda board: all(it["state"] != "waiting" for it in board["sockets"] if it["name"] == name))


def macs_of(count):
    return [f"240ac40000{place:02x}" for place in range(1, count + 1)]


def life_of(ledger):
    """The steps of a ledger, without the plans that a chip gets behind its first one, each time that it is put in."""
    found = steps(ledger)
    return [*found[:2], *(it for it in found[2:] if it != "planned")]


def table_rows(text):
    """The table of endings of the page: names, when, what is said, what is done."""
    return re.findall(r"^\| `(\w+)` \| (.*) \| (.*) \| (.*) \|$", text, re.MULTILINE)


def is_passed(board, chip):
    return (board["sockets"][0]["state"], board["sockets"][0]["chip"]) == ("PASS", chip)
