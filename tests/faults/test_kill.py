"""Kills `station serve` at random moments under load, and compares its books with an undisturbed run's.

Six stations of three customers send numbered requests over a port: maps, orders, devices, plans,
read-backs, identities, shipments, scrapped devices and imports, some of them to be refused. Each makes
a connection for a few requests, as the server serves one connection after another. The server is killed
by SIGKILL and started again over the same file; each station then asks for its seat's number and repeats
the request that got no reply, or its last one. At the end the same requests are sent to a server over a
new file, which nobody disturbs: each reply, each order, device and ledger, and the tables of both files
have to be equal. What a station asks for depends on the seed and on its own replies alone.

The requests are those of the seed; the moments are the seed's and the machine's.
"""

import hashlib
import http.client
import json
import random
import threading
import time
from collections import Counter

import pytest

from common.customers import EVENTS, site_text, tables, token_of
from common.registrations import MAP, blocks_of, planned
from common.served import Caller, Server, station

CUSTOMERS = 3
SEATS = 2
# The longest time to a kill, in seconds.
MOST = 0.2
DIGEST = hashlib.sha256(MAP.encode()).hexdigest()

# A number that no seat has come to, so that its refusal tells the number that is expected.
FAR = 2**53 - 1
GONE = (http.client.HTTPException, OSError)


class Load:
    """What one station asks for, request after request."""

    def __init__(self, seed, customer, seat):
        self.random = random.Random(f"{seed} {customer} {seat}")
        self.customer, self.seat = customer, seat
        self.orders, self.chips = [], []

    def requests(self):
        """The path and members of each next request, for ever."""
        yield "/v1/map", {"text": MAP}
        while True:
            yield from self.order()

    def order(self):
        """An order, some of its numbers imported, and the lives of its devices."""
        place, quantity = len(self.orders), self.random.randint(1, 6)
        name, prefix = f"o{self.seat}-{place}", f"S{self.seat}-"
        self.orders.append(name)
        members = {"name": name, "issuer": f"c{self.customer}-ca", "prefix": prefix, "width": 9, "first": 10 * place}
        macs = self.random.randint(0, 2) if self.seat == 0 else 0
        yield "/v1/order", members | {"quantity": quantity, "macs": macs}
        imported = self.random.choice([0, 0, 0, 1, 2])
        if imported:
            numbers = self.random.sample(range(10 * place, 10 * place + quantity), min(imported, quantity))
            rows = [f"{prefix}{n:09},{hashlib.sha256(f'{name} {n}'.encode()).hexdigest()}\n" for n in numbers]
            yield "/v1/import", {"issuer": f"c{self.customer}-ca", "csv": "serial,key_sha256\n" + "".join(rows)}
        for _ in range(quantity + self.random.choice([0, 0, 1])):
            yield from self.life(name)

    def life(self, order):
        """The requests of one device; some are refused, as where an order's numbers are all given."""
        number = len(self.chips) + 1
        chip = f"{self.seat:02x}{number:010x}"
        self.chips.append(chip)
        wishes, burnt, locked = planned(number)
        yield "/v1/device", {"chip": chip, "order": order, "map": DIGEST, "blocks": blocks_of(number)}
        yield "/v1/plan", {"chip": chip, "wishes": wishes}
        if self.random.random() < 0.3:
            yield "/v1/readback", {"chip": chip, "blocks": blocks_of(number)}
        yield "/v1/readback", {"chip": chip, "blocks": burnt}
        yield "/v1/readback", {"chip": chip, "blocks": locked}
        yield "/v1/identity", {"chip": chip, "public_key": f"{self.customer:02x}{self.seat:02x}{number:060x}"}
        yield "/v1/scrap" if self.random.random() < 0.2 else "/v1/ship", {"chip": chip}


class Station(threading.Thread):
    """A seat's requests over connections that come and go, each asked for until it is answered."""

    def __init__(self, run, seed, customer, seat):
        super().__init__(daemon=True)
        self.run_of, self.token = run, token_of(customer, seat)
        self.name, self.customer = f"s{customer}{seat}", customer
        self.load = Load(seed, customer, seat)
        self.pauses = random.Random(f"pauses {seed} {customer} {seat}")
        self.asked, self.number, self.last = [], 0, None
        self.pending, self.is_sent, self.start_seen = None, False, 0
        self.counts, self.faults = Counter(), []
        self.failure = None

    def run(self):
        try:
            requests = self.load.requests()
            while self.pending or not self.run_of.is_over:
                self.connect(requests)
        except BaseException as failure:
            self.failure = failure
            raise

    def connect(self, requests):
        """A few requests over one connection, which may break at any of them."""
        caller = Caller(self.run_of.port, self.token)
        try:
            start = self.run_of.starts
            if start != self.start_seen:
                self.look(caller)
                self.start_seen = start
            for _ in range(self.pauses.randint(1, 8)):
                if not self.pending:
                    if self.run_of.is_over:
                        return
                    path, members = next(requests)
                    self.pending = path, {"nr": self.number + 1} | members
                self.ask(caller)
        except GONE:
            self.counts["broken"] += 1
            time.sleep(0.002)
        finally:
            caller.close()

    def ask(self, caller):
        """Asks for the pending request, and keeps the reply."""
        if self.is_sent:
            self.counts["repeated"] += 1
        self.is_sent = True
        reply = caller.ask("POST", *self.pending)
        self.asked.append((*self.pending, *reply))
        if reply[0] == 200:
            self.number += 1
            self.last = self.asked[-1]
        self.pending, self.is_sent = None, False

    def look(self, caller):
        """After a start: the seat's number, and the last reply again."""
        status, body = caller.ask("POST", "/v1/ship", {"nr": FAR, "chip": "000000000000"})
        ahead = json.loads(body).get("expected", 0) - 1 - self.number if status == 409 else None
        if ahead is None:
            self.faults.append(f"{self.name}: its number is answered {status} {body!r}")
        elif ahead < 0:
            self.counts["lost"] -= ahead
        elif ahead > (1 if self.is_sent else 0):
            self.counts["twice"] += ahead
        elif ahead:
            self.counts["done"] += 1
        elif self.last and caller.ask("POST", self.last[0], self.last[1]) != self.last[2:]:
            self.faults.append(f"{self.name}: number {self.number} has another reply after a start")


class Run:
    """The server over a file, its starts and its kills."""

    def __init__(self, command, port):
        self.command, self.port = command, port
        self.starts, self.is_over, self.server = 0, False, None

    def start(self):
        self.server = Server(self.command, self.port)
        self.starts += 1

    def kill_often(self, kills, chance, most):
        """Kills the server so often, some times while it starts, and starts it again."""
        for _ in range(kills):
            if chance.random() < 0.9:
                self.server.wait(Server.is_listening)
            time.sleep(chance.uniform(0, most))
            self.server.kill()
            self.start()


def books(port, stations):
    """Each order, device and ledger, as they are shown."""
    shown = {}
    for each in stations:
        caller = Caller(port, each.token)
        for name in each.load.orders:
            shown[each.name, name] = caller.ask("GET", f"/v1/order?name={name}")
        for chip in each.load.chips:
            for kind in ("device", "ledger"):
                shown[each.name, kind, chip] = caller.ask("GET", f"/v1/{kind}?chip={chip}")
        caller.close()
    return shown


def undisturbed(command, port, stations):
    """The books after the same requests, and the replies that differ."""
    server, faults = Server(command, port).wait(Server.is_listening), []
    try:
        for each in stations:
            caller = Caller(port, each.token)
            for path, members, *reply in each.asked:
                if caller.ask("POST", path, members) != tuple(reply):
                    faults.append(f"{each.name}: number {members['nr']} of {path} has another reply undisturbed")
            caller.close()
        return books(port, stations), faults
    finally:
        server.kill()


def count_steps(each, shown, counts):
    """Counts the accepted steps that a ledger doesn't have, and those that it has too often."""
    expected = {chip: Counter() for chip in each.load.chips}
    for path, members, status, _ in each.asked:
        if status == 200 and path in EVENTS:
            expected[members["chip"]][EVENTS[path]] += 1
    for chip, events in expected.items():
        status, body = shown[each.name, "ledger", chip]
        entries = json.loads(body)["entries"] if status == 200 else []
        have = Counter(entry["event"] for entry in entries)
        counts["lost"] += (events - have).total()
        counts["twice"] += (have - events).total()


def count_orders(each, shown, counts):
    for path, members, status, _ in each.asked:
        if path == "/v1/order" and status == 200:
            counts["lost"] += shown[each.name, members["name"]][0] != 200


def identities(stations):
    """The serial numbers and the addresses that were given, each with its issuer."""
    given = [
        (each.customer, json.loads(body))
        for each in stations
        for path, _, status, body in each.asked
        if path == "/v1/identity" and status == 200
    ]
    return [(who, record["serial"]) for who, record in given], [r["mac"] for _, r in given if r["mac"]]


def differences(stations, killed, calm):
    """What the books and the tables of both runs don't have in common."""
    (shown, stored), (others, other_tables) = killed, calm
    faults = [f"{' '.join(key)} differs" for key in shown if shown[key] != others[key]]
    faults += [f"the table {name} differs" for name in stored if stored[name] != other_tables[name]]
    faults += [] if stored["test"] == [("ok",)] else [f"SQLite finds {stored['test'][0]} in the file"]
    serials, macs = identities(stations)
    for what, all_of_them in (("serial number", serials), ("address", macs)):
        faults += [f"{what} {each} is given twice" for each, n in Counter(all_of_them).items() if n > 1]
    return faults


def run_killed(run, stations, kills, seed):
    """Has the stations work while the server is killed, and returns the books then."""
    run.start()
    try:
        for each in stations:
            each.start()
        run.kill_often(kills, random.Random(seed), MOST)
        run.is_over = True
        for each in stations:
            each.join(120)
            assert not each.is_alive() and not each.failure, f"{each.name} didn't end: {each.failure}"
        return books(run.port, stations)
    finally:
        run.is_over = True
        run.server.kill()


def counts_of(stations, shown):
    """What the stations counted, and the books of theirs."""
    counts = sum((each.counts for each in stations), Counter())
    for each in stations:
        count_steps(each, shown, counts)
        count_orders(each, shown, counts)
    counts["requests"] = sum(len(each.asked) for each in stations)
    counts["refused"] = sum(status != 200 for each in stations for *_, status, _ in each.asked)
    counts["serials"], counts["macs"] = map(len, identities(stations))
    return counts


@pytest.mark.sizes(4, 200)
def test_kills(program, tmp_path, port, size, seed, found):
    """`lost` are requests whose reply came and that the books don't have; `twice` those that they have too often."""
    site, db, calm_db = (str(tmp_path / name) for name in ("site.toml", "killed.db", "calm.db"))
    (tmp_path / "site.toml").write_text(site_text(range(CUSTOMERS)), encoding="utf-8")
    run = Run(station(program, site, db, port), port)
    stations = [Station(run, seed, customer, seat) for customer in range(CUSTOMERS) for seat in range(SEATS)]
    shown = run_killed(run, stations, size, seed)
    others, faults = undisturbed(station(program, site, calm_db, port), port, stations)
    counts = counts_of(stations, shown)
    faults += [fault for each in stations for fault in each.faults]
    faults += differences(stations, (shown, tables(db)), (others, tables(calm_db)))
    assert (faults[:20], counts["lost"], counts["twice"]) == ([], 0, 0)
    assert counts["requests"] and counts["repeated"]
    found(
        f"{size} kills, {counts['requests']} requests ({counts['refused']} refused), "
        f"{counts['repeated']} without a reply and repeated, {counts['done']} of them done before the kill; "
        f"lost {counts['lost']}, twice {counts['twice']}; {counts['serials']} serial numbers and "
        f"{counts['macs']} addresses given; {len(faults)} differences; seed {seed}"
    )
