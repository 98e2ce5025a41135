"""A plant of eight stations of three customers over one server: its load, its backups, its loss and its restore, for
test_gameday.py and test_restores.py."""

import contextlib
import hashlib
import json
import os
import random
import shutil
import sqlite3
import subprocess
import threading
import time
from collections import Counter
from pathlib import Path

from simulated_chip import SimulatedChip
from support import DIGEST, MAP, WISHES, Held, rows

from common.chip import Failed
from common.commands import command, killed_before
from common.ports import free_port
from common.served import Server, station
from wanekupo.chips.espefuse import KeyFile
from wanekupo.common.errors import NoReply, OutOfStep, Refused
from wanekupo.seat.journal import Journal
from wanekupo.seat.station import Station

CUSTOMERS = {"acme": ("a1", "a2", "a3"), "bolt": ("b1", "b2", "b3"), "cord": ("c1", "c2")}
SECONDS = 120
FULL, SPENT, UNKNOWN_MAP = 18, 32, 13
# The calls before which a restore is killed.
CALLS = "fsync,replace,rename,mkdir"


def token_of(seat):
    return hashlib.sha256(f"gameday {seat}".encode()).hexdigest()[:32]


def site_text():
    """The customers, a seat for each station, one of each customer for restores, and a pool each."""
    lines = []
    for number, (customer, seats) in enumerate(CUSTOMERS.items()):
        lines += ["[[customer]]", f'name = "{customer}"', f'issuer = ["{customer}-ca"]']
        lines += ["[[customer.pool]]", f'first = "02{number:02x}00000000"', "count = 1048576"]
        for seat in (*seats, f"restore-{customer}"):
            digest = hashlib.sha256(token_of(seat).encode()).hexdigest()
            lines += ["[[customer.seat]]", f'name = "{seat}"', f'token = "{digest}"']
    return "\n".join(lines) + "\n"


class Line:
    """A station: its folder with the state file and the journals, the chips at its bench, and what it asks for."""

    def __init__(self, plant, customer, seat, number):
        self.plant, self.customer, self.seat, self.number = plant, customer, seat, number
        self.folder = plant.folder / "stations" / seat
        (self.folder / "journals").mkdir(parents=True)
        self.token_file = self.folder / "token"
        self.token_file.write_text(token_of(seat))
        (self.folder / "flash.key").write_bytes(bytes(range(32)))
        self.keys = {"BLOCK1": KeyFile(str(self.folder / "flash.key"), "flash_encryption")}
        self.random = random.Random(f"{plant.seed} {seat}")
        self.chips, self.begun, self.orders, self.made = {}, [], [], 0
        self.is_first = seat == CUSTOMERS[customer][0]
        self.failure, self.counts = None, Counter()

    # A day's work.

    def work(self, is_over):
        """Chip after chip, until the day is over or the server is gone."""
        journal = Journal(self.folder / "journals", self.seat)
        try:
            with Station(
                self.plant.url, token_of(self.seat), self.folder / "state.json", patience=0.5, journal=journal,
                closes_journal=True, tell=lambda _: None,
            ) as seat:  # fmt: skip
                seat.finish()
                while not is_over.is_set():
                    self.step(seat)
        except NoReply:
            pass
        except BaseException as failure:
            self.failure = failure

    def step(self, seat):
        """An order where one is needed, sometimes an import, and a chip."""
        if not self.orders or self.random.random() < 0.05:
            self.order(seat)
        if self.random.random() < 0.1:
            self.made += 1
            seat.import_serials(f"{self.customer}-ca", rows(f"I{self.number}-{self.made}"))
        chip = self.begun.pop() if self.begun else self.new_chip()
        self.begun.append(chip)
        try:
            self.life(seat, chip)
        except Refused as refused:
            if refused.no not in (FULL, SPENT) or isinstance(refused, OutOfStep):
                raise
            self.orders.pop(0)
            if seat.find_device(chip):
                seat.scrap(chip)
        self.begun.remove(chip)
        self.counts["chips"] += 1

    def order(self, seat):
        """Addresses come from the pool in the order in which orders are made, so one seat of a customer makes those."""
        self.made += 1
        name = f"{self.seat}-o{self.made}"
        macs = self.random.randint(0, 2) if self.is_first else 0
        quantity = self.random.randint(3, 12)
        seat.make_order(name, f"{self.customer}-ca", f"O{self.number}-{self.made}-", 3, 1, quantity, macs)
        self.orders.append(name)
        if self.is_first:
            self.plant.shared[self.customer].append(name)

    def new_chip(self):
        mac = bytes.fromhex(f"24{self.number:02x}{len(self.chips):08x}")
        self.chips[mac.hex()] = Held(SimulatedChip(mac, None), self.keys)
        return mac.hex()

    def life(self, seat, chip):
        chip_io = self.chips[chip]
        device = seat.find_device(chip)
        if device is None:
            shared = self.plant.shared[self.customer]
            order = self.random.choice([*self.orders, *shared[-1:]])
            try:
                device = seat.register(chip, order, DIGEST, chip_io.read())
            except Refused as refused:
                if refused.no != UNKNOWN_MAP:
                    raise
                seat.import_map(MAP)
                device = seat.register(chip, order, DIGEST, chip_io.read())
        if device.state == "registered":
            seat.plan(chip, WISHES)
        device = seat.settle(chip, chip_io)
        if device.state == "settled":
            seat.identify(chip, bytes.fromhex(f"{self.number:02x}" + chip.rjust(62, "0")))
        if self.random.random() < 0.1:
            seat.scrap(chip)
        elif seat.device(chip).state == "identified":
            seat.ship(chip)

    # Behind a restore.

    def wanekupo(self, *words):
        settings = ["--url", self.plant.url, "--token", str(self.token_file)]
        settings += ["--state-file", str(self.folder / "state.json")]
        settings += ["--journal", str(self.folder / "journals"), "--seat", self.seat]
        environment = {**os.environ, "HOME": str(self.folder)}
        return subprocess.run(
            [*command("wanekupo"), *words, *settings], env=environment, cwd=self.folder,
            capture_output=True, text=True, timeout=SECONDS, check=False,
        )  # fmt: skip

    def go_on(self):
        """The page's steps at a station: its number, and the chips that it has."""
        told = self.wanekupo("number", "--resynchronize")
        if told.returncode or json.loads(told.stdout)["expected"] != json.loads(told.stdout)["own"]:
            raise Failed(f"{self.seat} doesn't go on: {told}")
        known = states_of(self.folder / "journals")
        under_way, self.begun = self.begun, []
        journal = Journal(self.folder / "journals", self.seat)
        with Station(
            self.plant.url, token_of(self.seat), self.folder / "state.json", journal=journal, closes_journal=True
        ) as seat:
            self.orders = [it for it in self.orders if is_there(seat, it)]
            scrapped = [chip for chip, state in known.items() if state == "scrapped"]
            # They are in the red box, and stay there.
            self.counts["clean again"] = sum(seat.find_device(chip) is None for chip in scrapped)
            for chip in under_way:
                self.treat(seat, chip, known.get(chip))

    def treat(self, seat, chip, state):
        """A chip that the loss met in the middle: one that has its number stays as it is, one that was burnt since is
        scrapped, one that shows no more than the store knows goes on."""
        if state in ("identified", "shipped", "scrapped", "quarantined"):
            self.counts["left"] += 1
            return
        device = seat.find_device(chip)
        blank = Held(SimulatedChip(bytes.fromhex(chip), None), self.keys)
        if self.chips[chip].read() == blank.read():
            self.begun.append(chip)
        elif device:
            seat.scrap(chip)
            self.counts["scrapped"] += 1
        else:
            self.counts["red box"] += 1


def is_there(seat, order):
    try:
        seat.order(order)
        return True
    except Refused:
        return False


def lines_of(folder):
    for path in sorted(Path(folder).glob("*.journal")):
        for line in path.read_bytes().splitlines():
            with contextlib.suppress(ValueError):  # a last line that was cut
                yield json.loads(line)


def states_of(folder):
    """The last state of each chip by a station's journals, read by json alone."""
    found, asked = {}, {}
    for line in lines_of(folder):
        if "asked" in line:
            asked = line
        elif line.get("status") == 200 and "chip" in asked["asked"]:
            found[asked["asked"]["chip"]] = line["reply"].get("state", "identified")
    return found


class Plant:
    """The server, its store and backups, and the stations."""

    def __init__(self, program, folder, seed):
        self.program, self.folder, self.seed = program, Path(folder), seed
        self.folder.mkdir(exist_ok=True)
        self.port, self.server = free_port(), None
        self.url = f"http://127.0.0.1:{self.port}"
        self.db, self.all = self.folder / "store/books.db", self.folder / "backups"
        for path in (self.db.parent, self.all, self.folder / "tokens", self.folder / "gathered"):
            path.mkdir(mode=0o700)
        self.site = self.folder / "site.toml"
        self.site.write_text(site_text())
        for customer in CUSTOMERS:
            (self.folder / f"tokens/restore-{customer}.token").write_text(token_of(f"restore-{customer}"))
        self.folders = self.folder / "journals.toml"
        rows = [f'{seat} = ["{seat}"]\n' for seats in CUSTOMERS.values() for seat in seats]
        self.folders.write_text("[folders]\n" + "".join(rows))
        self.shared = {customer: [] for customer in CUSTOMERS}
        seats = [(customer, seat) for customer, seats in CUSTOMERS.items() for seat in seats]
        self.lines = [Line(self, customer, seat, number) for number, (customer, seat) in enumerate(seats)]
        self.random, self.kills = random.Random(f"moments {seed}"), 0

    def start(self):
        words = station(str(self.program), str(self.site), str(self.db), self.port)
        self.server = Server(words, self.port).wait(Server.is_listening)

    def ran(self, *words, status=0):
        done = subprocess.run(
            [str(it) for it in words], capture_output=True, text=True, timeout=SECONDS, check=False, cwd=self.folder
        )
        if done.returncode != status:
            raise Failed(f"{words}: status {done.returncode}: {done.stdout} {done.stderr}")
        return done.stdout

    def work(self, seconds, is_lost=False):
        """All stations work for some seconds; at their end the server is gone, or it is told that the day is over."""
        is_over = threading.Event()
        threads = [threading.Thread(target=line.work, args=(is_over,), daemon=True) for line in self.lines]
        for thread in threads:
            thread.start()
        time.sleep(seconds)
        if is_lost:
            self.server.kill()
            for path in self.db.parent.iterdir():
                shutil.rmtree(path) if path.is_dir() else path.unlink()
        is_over.set()
        for thread in threads:
            thread.join(SECONDS)
        failed = [line for line in self.lines if line.failure]
        if failed:
            raise Failed(f"{failed[0].seat}: {failed[0].failure!r}")

    def back_up(self):
        words = ["--program", self.program, "--site", self.site, "--db", self.db, "--into", self.all]
        said = self.ran(*command("station-backup"), *words)
        return Path(said.splitlines()[-1].removeprefix("backed up in "))

    def gather(self):
        """The journals come off the stations, each into the folder of its key."""
        for line in self.lines:
            own = self.folder / "gathered" / line.seat
            own.mkdir(exist_ok=True)
            told = line.wanekupo("ship-journal", str(own))
            if told.returncode:
                raise Failed(f"{line.seat}: {told}")

    def restore(self, backup, is_killed):
        words = [backup, self.site, self.folder / "gathered", "--db", self.db, "--program", self.program]
        words += ["--tokens", self.folder / "tokens", "--port", str(self.port), "--backups", self.folder / "restored"]
        words += ["--folders", self.folders]
        (self.folder / "restored").mkdir(exist_ok=True)
        for _ in range(2 if is_killed else 0):
            call = self.random.randint(1, 60)
            killed = [*killed_before(call, CALLS), *command("station-restore")[2:], *map(str, words)]
            done = subprocess.run(killed, capture_output=True, text=True, timeout=SECONDS, check=False)
            if done.returncode == 0:
                return done.stdout
            self.kills += 1
        return self.ran(*command("station-restore"), *words)

    # What has to be so.

    def check(self):
        """Each serial number and each address of all journals once, and in the store with its key."""
        serials, macs, chips, orders = {}, {}, {}, {}
        for line in self.lines:
            asked = {}
            for it in lines_of(line.folder / "journals"):
                asked = it if "asked" in it else asked
                if it.get("status") != 200:
                    continue
                reply = it["reply"]
                if asked["path"] == "/v1/order":
                    orders.setdefault((line.customer, reply["name"]), set()).add(reply["mac"])
                if asked["path"] == "/v1/identity":
                    record = reply["chip"], reply["key_sha256"]
                    serials.setdefault((reply["issuer"], reply["serial"]), set()).add(record)
                    chips.setdefault((line.customer, reply["chip"]), set()).add(reply["serial"])
                    if reply["mac"]:
                        macs.setdefault(reply["mac"], set()).add(reply["chip"])
        found = (("serial number", serials), ("address", macs), ("chip", chips), ("order", orders))
        twice = [f"{what} {it} is {those}" for what, all_ in found for it, those in all_.items() if len(those) > 1]
        with contextlib.closing(sqlite3.connect(f"file:{self.db}?mode=ro", uri=True)) as base:
            given = set(base.execute("SELECT issuer, serial, lower(hex(key)) FROM given"))
        records = {(*it, key) for it, those in serials.items() for _, key in those}
        twice += [f"{it} isn't in the store" for it in records - given]
        if twice:
            raise Failed("; ".join(twice[:5]))
        return len(serials), len(macs)
