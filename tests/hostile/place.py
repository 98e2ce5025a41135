"""The deployed form on ports of this machine, for attacks: a store of many devices, a program over a copy of it,
nginx by deploy/nginx.conf with other ports and paths, with its log and with nothing else, and outer tokens by
station-token."""

import hashlib
import os
import re
import secrets
import shutil
import signal
import ssl
import subprocess
import time
from pathlib import Path

from common.deployed import CONF, TOOL, certify, replaced
from common.lives import DIGEST, LARGEST_ORDER, Orders, name_of
from common.ports import HOST, free_ports
from common.program import Failed, Program, send
from common.registrations import MAP, blocks_of
from common.served import Caller, Server

# The seats of the customer that attacks, the first of which made the store, and the honest station's seat.
SEATS, HONEST = [f"a{number}" for number in range(10)], "b0"
CUSTOMERS = {"acme": SEATS, "bolt": [HONEST]}
PART = 1000

# What Debian's unit of nginx gives it: systemd's soft limit of files, which nginx may raise.
FILES_OF_UNIT = "--nofile=1024:"
FILES = ["site.toml", "books.db", "books.db-wal"]

# A chip of the customer that attacks, behind the others, and the entries that its ledger has by empty plans.
LONG, ENTRIES = 2**40, 16000

# A report that the program answered, in nginx's log: how long it took.
REPORTED = re.compile(r'"GET /v1/report[^"]*" 200 ([0-9.]+) \S+ 200 ')

# How long the program may have to come to rest behind an attack.
RESTS = 100


def digest_of(token):
    return hashlib.sha256(token.encode()).hexdigest()


def site_text(tokens):
    """The site: the customer that attacks, the honest one, and a manager."""
    text = ""
    for customer, seats in CUSTOMERS.items():
        text += f'[[customer]]\nname = "{customer}"\nissuer = ["{customer}-ca"]\n'
        for seat in seats:
            text += f'[[customer.seat]]\nname = "{seat}"\ntoken = "{digest_of(tokens[seat])}"\n'
    return text + f'[manager]\ntoken = "{digest_of(tokens["manager"])}"\n'


class Maker(Orders):
    """The requests of the seat that makes the store."""

    def __init__(self, token):
        super().__init__()
        self.token = token.encode()

    def ask(self, path, **members):
        return super().ask(path, **members).replace(b"Bearer abc", b"Bearer " + self.token, 1)

    def settled_in(self, number):
        """The requests of a device of its order, on which nothing is burnt."""
        order = f'"order":"{name_of(number)}"'.encode()
        return [asked.replace(b'"order":"life"', order) for asked in self.settled(number)]

    def long_ledger(self, entries):
        """The requests that give one chip many entries."""
        chip = f"{LONG:012x}"
        order = {"name": "long", "issuer": "acme-ca", "prefix": "G", "width": 3, "first": 1, "quantity": 9, "macs": 0}
        before = [self.ask("/v1/order", **order)]
        before.append(self.ask("/v1/device", chip=chip, order="long", map=DIGEST, blocks=blocks_of(1)))
        return before + [self.ask("/v1/plan", chip=chip, wishes=[]) for _ in range(entries)]


class Store:
    """A store of so many devices of the customer that attacks, in a folder, with its site file and its inner tokens."""

    def __init__(self, folder, devices):
        self.folder, self.devices = Path(folder), devices

    def make(self, program, entries=ENTRIES):
        """Has the program serve the requests that make it, by a stream."""
        self.folder.mkdir(parents=True, exist_ok=True)
        tokens = {seat: secrets.token_hex(32) for seat in [*SEATS, HONEST, "manager"]}
        (self.folder / "site.toml").write_text(site_text(tokens), encoding="utf-8")
        seat = Maker(tokens[SEATS[0]])
        before = [seat.ask("/v1/map", text=MAP)]
        before += [seat.order_of(number, self.devices, 0) for number in range(1, self.devices + 1, LARGEST_ORDER)]
        words = ["replay", "--site", str(self.folder / "site.toml"), "--db", str(self.folder / "books.db")]
        with Program([program, *words], 1800) as made:
            send(made, before)
            for first in range(1, self.devices + 1, PART):
                numbers = range(first, min(first + PART, self.devices + 1))
                send(made, [asked for number in numbers for asked in seat.settled_in(number)])
            send(made, seat.long_ledger(entries))
            made.end()
        self.tokens, self.number = tokens, seat.number + 1
        return self

    def hand_out(self, folder):
        """Outer tokens of the seats, by station-token."""
        self.conf, self.outer = Path(folder) / "tokens.conf", {}
        words = [str(TOOL), "--file", str(self.conf), "--no-reload"]
        for seat, customer in [(seat, customer) for customer, seats in CUSTOMERS.items() for seat in seats]:
            known, given = Path(folder) / f"{seat}.known", Path(folder) / f"{seat}.token"
            known.write_text(self.tokens[seat], encoding="ascii")
            site = ["--site", str(self.folder / "site.toml")]
            run(*words, "seat", seat, "--customer", customer, *site, "--known", str(known))
            run(*words, "add", seat, "--to", str(given))
            self.outer[seat] = given.read_text(encoding="ascii").strip()
        return self

    def copied(self, folder):
        """A copy of its files in another folder."""
        Path(folder).mkdir()
        for name in FILES:
            if (self.folder / name).exists():
                shutil.copy(self.folder / name, folder)
        return Path(folder)


def run(*words):
    """Runs a command that has to do what it says."""
    done = subprocess.run(words, capture_output=True, text=True)
    if done.returncode:
        raise Failed(f"{' '.join(words)}: {done.stderr}")


class Place:
    """A program over a copy of a store, and nginx in front of it, until it is left. nginx has `port`, the program
    `inner`."""

    def __init__(self, program, store, folder, connections=1_000_000, is_direct=False):
        (self.port, self.inner), self.store, self.folder = free_ports(2), store, Path(folder)
        self.program, self.connections, self.is_direct = str(program), connections, is_direct
        self.outer, self.server, self.nginx, self.context = {}, None, None, None
        self.asked = 0  # the connections to the program that this test made, all in all

    def __enter__(self):
        try:
            self.start()
        except BaseException:
            self.__exit__()
            raise
        return self

    def __exit__(self, *_):
        if self.nginx:
            self.nginx.send_signal(signal.SIGTERM)
            try:
                self.nginx.wait(10)
            except subprocess.TimeoutExpired:
                pass
            kill_group(self.nginx)
        if self.server:
            self.server.kill()

    def start(self):
        books = self.store.copied(self.folder / "books")
        words = ["serve", "--site", str(books / "site.toml"), "--db", "books.db", "--port", str(self.inner)]
        words += ["--connections", str(self.connections), "--existing"]
        there = ["sh", "-c", 'cd "$1"; shift; exec "$@"', "sh", str(books)]
        self.server = Server([*there, self.program, *words], self.inner)
        self.server.wait(Server.is_answering, 600)
        self.asked += 1
        if self.is_direct:
            self.outer = self.store.tokens
        else:
            self.start_nginx()

    def start_nginx(self):
        certify(self.folder, name="hostile", names="IP:127.0.0.1")
        self.context = ssl.create_default_context(cafile=self.folder / "cert.pem")
        (self.folder / "nginx.conf").write_text(self.conf(), encoding="utf-8")
        shutil.copy(self.store.conf, self.folder)
        self.outer = self.store.outer
        words = ["prlimit", FILES_OF_UNIT, "nginx", "-p", str(self.folder), "-e", "error.log"]
        words += ["-c", "nginx.conf", "-g", "daemon off;"]
        with open(self.folder / "nginx.said", "wb") as said:
            self.nginx = subprocess.Popen(words, stdin=subprocess.DEVNULL, stdout=said, stderr=said, process_group=0)
        end = time.monotonic() + 20
        while self.status_of(self.outer[HONEST]) not in (200, 404):
            if time.monotonic() > end or self.nginx.poll() is not None:
                raise Failed(f"nginx: {(self.folder / 'nginx.said').read_text()}")
            time.sleep(0.1)
        self.asked += 1

    def conf(self):
        """The deployed configuration with other ports and paths."""
        names = ("client_body", "proxy", "fastcgi", "uwsgi", "scgi")
        folders = "".join(f"    {name}_temp_path {self.folder}/{name};\n" for name in names)
        pairs = [
            ("listen 8443 ", f"listen {HOST}:{self.port} "),
            ("server 127.0.0.1:880;", f"server {HOST}:{self.inner};"),
            ("/var/log/nginx/", f"{self.folder}/"),
            ("/var/lib/nginx/", f"{self.folder}/"),
            ("/etc/station/", f"{self.folder}/"),
            ("\nhttp {\n", "\nhttp {\n" + folders),
            ("log_format passed", f"access_log {self.folder}/access.log station if=$is_logged; log_format passed"),
            ("\nevents {\n", f"\npid {self.folder}/nginx.pid;\nevents {{\n"),
        ]
        return replaced(CONF, pairs)

    def caller(self, token):
        """A seat's requests to the program itself."""
        return Caller(self.inner, token, is_kept=False)

    def status_of(self, token):
        """The status of a look at an order through nginx, or None."""
        words = ["curl", "-s", "-m", "5", "--cacert", f"{self.folder}/cert.pem", "-o", os.devnull]
        words += ["-w", "%{http_code}", "-H", f"Authorization: Bearer {token}"]
        words.append(f"https://{HOST}:{self.port}/v1/order?name=x")
        return int(subprocess.run(words, capture_output=True, text=True).stdout or 0)

    def asked_alone(self, target):
        """How long a look takes of the seat that made the store, by the program itself."""
        start = time.perf_counter()
        self.asked += 1
        status, text = self.caller(self.store.tokens[SEATS[0]]).ask("GET", target)
        if status != 200 or text.count(b"\n") + text.count(b"{") < 1:
            raise Failed(f"{target} is {status} {text[:80]!r}")
        return time.perf_counter() - start

    def report_seconds(self):
        """How long one report takes with nothing beside it: the program has come to rest first. None where it doesn't,
        as behind many reports whose senders are gone."""
        end = time.monotonic() + RESTS
        while not self.is_at_rest():
            if time.monotonic() > end:
                return 0.0
            time.sleep(0.5)
        return self.asked_alone("/v1/report")

    def is_at_rest(self):
        """Whether it answers at once."""
        try:
            return self.asked_alone("/v1/order?name=o000") < 0.2
        except OSError:
            return False

    def processor(self):
        """The seconds that the program ran so far, and those that it was ready and had no processor; none once it has
        ended."""
        if not self.is_up():
            return None
        with open(f"/proc/{self.server.process.pid}/schedstat", encoding="ascii") as file:
            return [int(word) / 1e9 for word in file.read().split()[:2]]

    def is_up(self):
        return self.server.process.poll() is None

    def longest_report(self):
        """The longest that the program took for a report beside the attack, its line included, by nginx's log."""
        file = self.folder / "access.log"
        took = REPORTED.findall(file.read_text(errors="replace")) if file.exists() else []
        return max((float(seconds) for seconds in took), default=0.0)


def established(port):
    """How many connections of a port of this machine are there, by the kernel's own table."""
    count = 0
    with open("/proc/net/tcp", encoding="ascii") as table:
        for line in list(table)[1:]:
            words = line.split()
            count += words[1].endswith(f":{port:04X}") and words[3] == "01"
    return count


def kill_group(process):
    """Ends a process with all that it started."""
    try:
        os.killpg(process.pid, signal.SIGKILL)
    except ProcessLookupError:
        pass
    process.wait()
