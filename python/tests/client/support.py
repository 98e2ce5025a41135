"""The program on a scratch store and a free port, a proxy that fails, and the life of a chip, for the tests."""

import contextlib
import hashlib
import http.client
import json
import os
import re
import select
import shlex
import shutil
import socket
import sqlite3
import ssl
import subprocess
import sys
import tempfile
import threading
import time
import unittest
from pathlib import Path

from simulated_chip import SimulatedChip

ROOT = Path(__file__).resolve().parents[3]
sys.path.insert(0, str(ROOT / "python"))

from wanekupo.chips.chip import bit, chip_of, key, rlock, wlock  # noqa: E402
from wanekupo.chips.espefuse import KeyFile  # noqa: E402
from wanekupo.chips.families import dump_of, family_of  # noqa: E402
from wanekupo.seat.journal import Journal  # noqa: E402
from wanekupo.seat.replies import Word, Work  # noqa: E402
from wanekupo.seat.station import Station  # noqa: E402

PROGRAM = os.environ.get("STATION_PROGRAM", str(ROOT / "crates" / "station" / "out" / "station"))
IS_BUILT = os.access(PROGRAM, os.X_OK)
SIMULATED = ROOT / "python" / "tests" / "client" / "simulated_chip.py"
SITE = ROOT / "crates" / "station" / "data" / "site.toml"
MAP = (ROOT / "python/wanekupo/chips/families/esp32/map.toml").read_text(encoding="utf-8")
DIGEST = hashlib.sha256(MAP.encode()).hexdigest()

os.umask(0o077)  # as of a station, whose token nobody else reads

HOST = "127.0.0.1"
MAC = "240ac4000001"
FLASH_KEY = bytes(range(32))
FLASH_DIGEST = hashlib.sha256(FLASH_KEY[::-1]).hexdigest()
PUBLIC_KEY = bytes.fromhex("302a300506032b6570032100d75a980182b10ab7d54bfed3c964073a0ee172f3daa62325af021a68f707511a")
ORDER = {"name": "o1", "issuer": "acme-ca", "prefix": "A", "width": 3, "first": 998, "quantity": 2, "macs": 1}
# What the site's server isn't, and a reply that comes byte by byte and never ends.
OTHERS = b'{"status":"ok"}'
CHUNKED = b"HTTP/1.1 502 Bad\r\nContent-Type: text/html\r\nTransfer-Encoding: chunked\r\n\r\n6\r\n<html>\r\n0\r\n\r\n"
DRIPPING = b"HTTP/1.1 200 OK\r\nContent-Type: text/csv\r\nContent-Length: 9999\r\n\r\n" + 9999 * b"x"
# A map of 32,768 bytes, the most that the server takes, of which most are letters of two bytes.
LETTERS = MAP + "# " + "\u0416" * ((32_768 - len(MAP.encode()) - 2) // 2)
WISHES = [bit("JTAG_DISABLE", 0), key("BLOCK1", FLASH_DIGEST), wlock("BLOCK1"), rlock("BLOCK1")]

NOTHING = Work((), {})
# What the simulated chip of the MAC 24:0a:c4:00:00:01 shows before anything is asked for.
BLANK = Work((Word(0, 1, 0xC4000001), Word(0, 2, 0x00BE240A), Word(0, 3, 0x8000), Word(0, 4, 0x0B00)), {})
FIRST = Work((Word(0, 6, 0x40),), {"BLOCK1": FLASH_DIGEST})
SECOND = Work((Word(0, 0, 0x00010080),), {})
LIFE = ["registered", "planned", "read match", "read match", "identified", "shipped"]


def steps(ledger):
    """The events of a ledger, a read-back with its outcome."""
    return [f"{event} {note}" if event == "read" else event for event, note in ledger]


def rows(text):
    """An import's rows, each with the digest of its serial number as its key's."""
    return [(serial, hashlib.sha256(serial.encode()).hexdigest()) for serial in text.split()]


def free_port():
    with socket.socket() as listener:
        listener.bind((HOST, 0))
        return listener.getsockname()[1]


# Without a program some tests run over the office of the API's page, and the others are skipped.
OFFICE = ROOT / "python" / "tests" / "client" / "office.py"


class Program:
    """`station serve` over a store in a folder. It has one port, also when it is started again."""

    def __init__(self, folder, site=SITE, over_office=False):
        if not IS_BUILT and not over_office:
            raise unittest.SkipTest(f"there is no program {PROGRAM}")
        self.db, self.port, self.process, self.site = Path(folder) / "books.db", free_port(), None, site
        self.start()

    def start(self):
        program = [PROGRAM] if IS_BUILT else [sys.executable, "-B", str(OFFICE)]
        words = [*program, "serve", "--site", str(self.site), "--db", str(self.db), "--port", str(self.port)]
        words += ["--connections", "1000000"]
        self.process = subprocess.Popen(words, stdout=subprocess.PIPE, stdin=subprocess.DEVNULL)
        ready, _, _ = select.select([self.process.stdout], [], [], 60)
        line = self.process.stdout.readline() if ready else b""
        if line != b"listening on 127.0.0.1:%d\n" % self.port:
            self.kill()
            raise RuntimeError(f"{PROGRAM} doesn't serve: {line!r}")

    def kill(self):
        self.process.kill()
        self.process.wait()
        self.process.stdout.close()

    def copied(self, folder):
        """The program is killed, its store copied into a new folder, and started again."""
        self.kill()
        folder.mkdir()
        for file in self.db.parent.glob("books.db*"):
            shutil.copy(file, folder)
        self.start()

    def restored(self, folder):
        """The program is killed, and started over a copy of the store in a folder."""
        self.kill()
        for file in self.db.parent.glob("books.db*"):
            file.unlink()
        for file in folder.glob("books.db*"):
            shutil.copy(file, self.db.parent)
        self.start()

    @property
    def url(self):
        return f"http://{HOST}:{self.port}"


class Proxy:
    """Passes requests on, one connection after another; each of `faults`, in turn, befalls one of them.

    | lost request | the request isn't passed on, and gets no reply |
    | cut request  | its first half is passed on, and it gets no reply |
    | 502, 401     | it isn't passed on, and gets a page of the proxy's |
    | lost reply   | it is done, and gets no reply |
    | cut reply    | it is done, and gets the first half of the reply |
    | cut head     | it is done, and gets the first bytes of the head |
    | 504          | it is done, and gets a page of the proxy's |
    | late         | it is done, and gets its reply after LATE seconds |
    | kill         | the program is killed some milliseconds after it has the request, and started again |
    | late copy    | it is held, and gets no reply; a copy of it comes to the program behind the next request |
    | held         | it is held, and gets no reply; a copy of it comes to the program with `deliver` |
    | copied       | it is done, and gets its reply; a copy of it comes to the program with `deliver` |
    | done, 6      | it is done, and another copy of it is refused as 6 |
    """

    FAULTS = ["lost request", "cut request", "502", "401", "lost reply", "cut reply", "cut head", "504", "late", "kill"]
    FAULTS += ["late copy"]
    LATE = 0.5
    SOONEST, LATEST = 0.0, 0.04

    def __init__(self, program, faults=()):
        self.program, self.faults, self.seen, self.held, self.late = program, list(faults), [], [], []
        self.listener = socket.create_server((HOST, 0))
        self.url = f"http://{HOST}:{self.listener.getsockname()[1]}"
        threading.Thread(target=self.serve, daemon=True).start()

    def serve(self):
        for client in accepted(self.listener):
            with client, contextlib.suppress(OSError):
                self.pass_on(client)

    def pass_on(self, client):
        request = whole(client)
        fault = self.faults.pop(0) if self.faults else None
        self.seen.append((fault, request))
        page = b"HTTP/1.1 %s Bad\r\nContent-Type: text/html\r\nContent-Length: 6\r\nConnection: close\r\n\r\n<html>"
        reply = b""
        no = (fault or "").partition(", ")[2]
        if fault in ("held", "late copy", "copied"):
            (self.late if fault == "late copy" else self.held).append(request)
        if fault not in ("held", "late copy", "lost request", "502", "401"):
            with socket.create_connection((HOST, self.program.port)) as server:
                server.sendall(request[: len(request) // 2] if fault == "cut request" else request)
                server.shutdown(socket.SHUT_WR)
                if fault == "kill":
                    self.kill()
                    return
                while some := server.recv(65536):
                    reply += some
        if fault in ("502", "401", "504"):
            reply = page % fault.encode()
        elif fault in ("lost request", "cut request", "lost reply"):
            reply = b""
        elif no:
            reply = refusal_of(int(no))
        elif fault == "cut reply":
            reply = reply[: -len(reply) // 2]
        elif fault == "cut head":
            reply = reply[:30]
        elif fault == "late":
            time.sleep(self.LATE)
        client.sendall(reply)
        if fault != "late copy":
            self.deliver(self.late)

    def deliver(self, held=None):
        """The requests that are held come to the program now. Their replies, which nobody hears, are given."""
        held = self.held if held is None else held
        replies = [exchanged(self.program.port, request) for request in held]
        held.clear()
        return replies

    def kill(self):
        """At a moment that goes on from kill to kill, before the request is done or after it."""
        kills = [fault for fault, _ in self.seen].count("kill")
        time.sleep(self.SOONEST + kills * 0.007 % (self.LATEST - self.SOONEST))
        self.program.kill()
        self.program.start()

    def close(self):
        self.listener.close()


class TlsProxy(Proxy):
    """Speaks TLS, with a certificate that is signed by a CA of its own, `ca.pem` in a folder."""

    def __init__(self, program, folder):
        key = "-newkey ec -pkeyopt ec_paramgen_curve:prime256v1 -nodes".split()
        signed = "-days 2 -extfile names -out server.pem"
        made = {"stdout": subprocess.DEVNULL, "stderr": subprocess.DEVNULL, "cwd": folder, "check": True}
        (folder / "names").write_text(f"subjectAltName=IP:{HOST}\n", encoding="ascii")
        for words in (
            ["req", "-x509", *key, *"-keyout ca.key -out ca.pem -days 2 -subj /CN=plant".split()],
            ["req", *key, *"-keyout server.key -out server.csr -subj /CN=station".split()],
            [*"x509 -req -in server.csr -CA ca.pem -CAkey ca.key -CAcreateserial".split(), *signed.split()],
        ):
            subprocess.run(["openssl", *words], **made)
        self.context = ssl.SSLContext(ssl.PROTOCOL_TLS_SERVER)
        self.context.load_cert_chain(folder / "server.pem", folder / "server.key")
        super().__init__(program)
        self.url = self.url.replace("http:", "https:")

    def pass_on(self, client):
        with self.context.wrap_socket(client, server_side=True) as client:
            super().pass_on(client)


class TokenProxy(Proxy):
    """Knows tokens of its own, each of which is one of the server's; others are answered 401 by itself. Requests may be
    lost, and replies."""

    tokens: dict[str, str] = {}

    def pass_on(self, client):
        request = whole(client)
        head, _, body = request.partition(b"\r\n\r\n")
        token = re.search(rb"Authorization: Bearer (\S+)", head)[1].decode()
        if token not in self.tokens:
            client.sendall(refusal_of(6))
            return
        fault = self.faults.pop(0) if self.faults else None
        self.seen.append((token, body))
        if fault == "lost request":
            return
        head = head.replace(token.encode(), self.tokens[token].encode())
        reply = exchanged(self.program.port, head + b"\r\n\r\n" + body)
        if fault != "lost reply":
            client.sendall(reply)


class KeptProxy(Proxy):
    """Keeps its connections, as the program does; each of `faults`, in turn, befalls a request of one.

    | closed  | it gets its reply, and then the connection is closed |
    | unread  | the connection is closed when it comes |
    | dropped | it is read, and then the connection is closed |
    | done    | it is done, and then the connection is closed |
    | slow    | it is done, and its reply comes byte by byte, each behind a pause |
    """

    PAUSE = 0.05

    FAULTS = ["closed", "unread", "dropped", "done"]

    def __init__(self, program, faults=()):
        self.connections, self.ended = 0, threading.Semaphore(0)
        super().__init__(program, faults)

    def pass_on(self, client):
        self.connections += 1
        try:
            while client.recv(1, socket.MSG_PEEK):
                fault = self.faults.pop(0) if self.faults else None
                request = b"" if fault == "unread" else whole(client)
                self.seen.append((fault, request))
                reply = b"" if fault in ("unread", "dropped") else self.answered(request)
                if fault in ("unread", "dropped", "done"):
                    break
                for part in [reply] if fault != "slow" else [reply[place : place + 1] for place in range(len(reply))]:
                    time.sleep(self.PAUSE if fault == "slow" else 0)
                    client.sendall(part)
                if fault == "closed":
                    break
        finally:
            client.close()
            self.ended.release()

    def answered(self, request):
        return exchanged(self.program.port, request)


class Canned:
    """Answers each request with the same bytes; with a pause before each of them where one is given."""

    def __init__(self, reply, pause=0, host=HOST):
        self.reply, self.pause, is_six = reply, pause, ":" in host
        self.listener = socket.create_server((host, 0), family=socket.AF_INET6 if is_six else socket.AF_INET)
        self.url = f"http://{f'[{host}]' if is_six else host}:{self.listener.getsockname()[1]}"
        threading.Thread(target=self.serve, daemon=True).start()

    @classmethod
    def page(cls, status, kind, body, **options):
        head = f"HTTP/1.1 {status} Canned\r\nContent-Type: {kind}\r\nContent-Length: {len(body)}\r\n\r\n"
        return cls(head.encode() + body, **options)

    def serve(self):
        for client in accepted(self.listener):
            with client, contextlib.suppress(OSError):
                whole(client)
                if not self.pause:
                    client.sendall(self.reply)
                    continue
                for place in range(len(self.reply)):
                    time.sleep(self.pause)
                    client.sendall(self.reply[place : place + 1])

    def close(self):
        self.listener.close()


def refusal_of(no):
    """A refusal in the server's form, by its number."""
    names = {6: "unknown_token", 11: "wrong_number", 12: "other_body", 18: "quantity_reached"}
    status, error = 401 if no == 6 else 409, names[no]
    told = json.dumps({"error": error, "no": no, **({"expected": 1} if no == 11 else {})}).encode()
    kind = b"Content-Type: application/json\r\nConnection: close\r\n"
    return b"HTTP/1.1 %d Refused\r\n%sContent-Length: %d\r\n\r\n%s" % (status, kind, len(told), told)


def exchanged(port, request):
    """What the program answers to a request's bytes."""
    with socket.create_connection((HOST, port)) as server:
        server.sendall(request)
        server.shutdown(socket.SHUT_WR)
        return b"".join(iter(lambda: server.recv(65536), b""))


def accepted(listener):
    """Each connection to a port, until its listener is closed."""
    with contextlib.suppress(OSError):
        while True:
            yield listener.accept()[0]


def whole(client):
    """A request, as far as its Content-Length says."""
    data = b""
    while True:
        head, end, body = data.partition(b"\r\n\r\n")
        length = re.search(rb"content-length: ([0-9]+)", head, re.IGNORECASE)
        if end and len(body) >= int(length[1] if length else 0):
            return data
        some = client.recv(65536)
        if not some:
            return data
        data += some


class Held:
    """A simulated chip in the place of `Espefuse`: it takes the same batches, in this process."""

    def __init__(self, chip, keys):
        self.chip, self.keys = chip, keys

    def read(self):
        return dump_of(family_of("esp32"), self.chip.dump()).told()

    def burn(self, work):
        for field, digest in work.keys.items():
            file = self.keys[field]
            assert file.digest() == digest, field
            self.chip.burn_key(file.burnt_as, file.data(), False)
        for block in sorted({it.block for it in work.bits}, reverse=True):
            self.chip.burn(block, sum(it.mask << 32 * it.word for it in work.bits if it.block == block))


def life(station, chip_io, public_key=PUBLIC_KEY, order=ORDER["name"]):
    """From a chip to a shipped device, as in deploy/station.py. It goes on wherever it was stopped."""
    station.finish()
    chip = chip_of(chip_io.read())
    device = station.find_device(chip) or station.register(chip, order, DIGEST, chip_io.read())
    if device.state == "registered":
        station.plan(chip, WISHES)
    device = station.settle(chip, chip_io)
    if device.state == "settled":
        station.identify(chip, public_key)
    if station.device(chip).state == "identified":
        station.ship(chip)
    return station.device(chip)


class FolderCase(unittest.TestCase):
    """A folder that goes with its test."""

    def setUp(self):
        self.folder = Path(self.enterContext(tempfile.TemporaryDirectory()))


class StationCase(FolderCase):
    """A folder with a program, a key's file, and a seat with an order and the map. With `over_office` the tests run
    over the office of the API's page too, where no program is built."""

    over_office = False

    def setUp(self):
        super().setUp()
        self.program = Program(self.folder, self.site(), self.over_office)
        self.addCleanup(lambda: self.program.kill())
        (self.folder / "flash.key").write_bytes(FLASH_KEY)
        self.keys = {"BLOCK1": KeyFile(str(self.folder / "flash.key"), "flash_encryption")}

    def needs_program(self):
        """For a test of what the office hasn't, as a store of SQLite, and for one that nobody tried over it."""
        if not IS_BUILT:
            self.skipTest(f"there is no program {PROGRAM}")

    def site(self):
        """The site file: acme has the seat a1 with the token abc, bolt the seat b1 with the token hello."""
        return SITE

    def journal(self, file="a1.journal"):
        return self.enterContext(contextlib.closing(Journal(self.folder / file)))

    def station(self, url=None, token="abc", file="a1.json", **options):
        station = Station(url or self.program.url, token, self.folder / file, **options)
        self.addCleanup(station.close)
        return station

    def prepared(self, **options):
        """A seat with the order and the map."""
        station = self.station(**options)
        station.make_order(**ORDER)
        station.import_map(MAP)
        return station

    def proxy(self, faults=(), kind=Proxy):
        return self.enterContext(contextlib.closing(kind(self.program, faults)))

    def canned(self, *words, **options):
        """The URL of what isn't the program, and answers each request with a page, or with bytes and a pause."""
        canned = Canned.page(*words, **options) if len(words) == 3 else Canned(*words, **options)
        self.addCleanup(canned.close)
        return canned.url

    def espefuse(self, instead=None):
        """An `espefuse.py` in the folder, which is the simulated chip in the file `chip`; where `instead` is given, it
        burns that in place of the bits that it is told. What finds it is given."""
        words = shlex.join([sys.executable, str(SIMULATED), "--path-efuse-file", "chip"])
        other = f'case "$*" in *burn_bit*|*execute_scripts*) exec {words} {instead};; esac\n' if instead else ""
        (self.folder / "espefuse.py").write_text(f'#!/bin/sh\n{other}exec {words} "$@"\n', encoding="ascii")
        (self.folder / "espefuse.py").chmod(0o700)
        return {**os.environ, "PATH": f"{self.folder}:{os.environ['PATH']}"}

    def seat(self):
        """What the store has of the seat: the number and the digest of its last request."""
        self.program.kill()
        with contextlib.closing(sqlite3.connect(self.program.db)) as store:
            found = store.execute("SELECT last, lower(hex(digest)) FROM seat WHERE name = 'a1'").fetchone()
        self.program.start()
        return found

    def chip(self, mac=MAC, file=None):
        return Held(SimulatedChip(bytes.fromhex(mac), file), self.keys)

    def asked(self, method, target, body=None, token="abc"):
        """The status and the body of a reply, past the client that is tested."""
        connection = http.client.HTTPConnection(HOST, self.program.port, timeout=60)
        text = None if body is None else json.dumps(body)
        connection.request(method, target, text, {"Authorization": f"Bearer {token}", "Connection": "close"})
        reply = connection.getresponse()
        data = reply.read().decode()
        connection.close()
        return reply.status, json.loads(data) if reply.headers.get_content_type() == "application/json" else data

    def ledger(self, chip=MAC):
        """The events of a device's ledger, with their notes."""
        return [(entry["event"], entry["note"]) for entry in self.asked("GET", f"/v1/ledger?chip={chip}")[1]["entries"]]
