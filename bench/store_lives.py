"""Whole lives and imports over a store, and the same lives by C's SQLite, for `store` and `sizes`."""

import hashlib
import sqlite3
import time
from itertools import zip_longest

from common.goals import tell
from common.lives import LARGEST_ORDER, ROWS, STEPS, Orders
from common.program import Failed, Program, send
from common.registrations import MAP
from common.stores import parts_of
from statements import FIRST, REQUESTS, STATEMENTS, new_peer

# The imports that are measured at a time.
IMPORTS = 5

# The requests of a life, each with the state in which it leaves the device.
LIFE = [
    ("device", "registered"),
    ("plan", "awaiting1"),
    ("readback", "awaiting1"),
    ("readback", "awaiting2"),
    ("readback", "settled"),
    ("identity", "identified"),
    ("ship", "shipped"),
]


class Books:
    """What the program's file has, for the peer to make, and the replies to the requests of a life."""

    def __init__(self, path, size, replies):
        self.size, self.replies = size, replies
        self.base = sqlite3.connect(f"file:{path}?mode=ro", uri=True)
        self.base.row_factory = sqlite3.Row
        self.run = self.base.execute

    def test(self):
        """Fails unless it has the rows of the lives."""
        counts = {"meta": 1, "seat": 1, "map": 1, "link": 1, "orders": -(-self.size // LARGEST_ORDER)}
        counts |= {"device": self.size, "given": self.size, "ledger": STEPS * self.size}
        counts |= {"order_start": counts["orders"], "given_start": self.size}
        for table, count in counts.items():
            rows = self.run(f"SELECT count(*) FROM {table}").fetchone()[0]
            if rows != count:
                raise Failed(f"{table} has {rows} rows and not {count}")

    def first_number(self):
        """The seat's number of the first registration."""
        return self.run("SELECT last FROM seat").fetchone()[0] - STEPS * self.size + 1

    def device(self, number):
        """A device's values at the end, and those of its ledger's entries."""
        key = ("acme", f"{number:012x}")
        device = self.run("SELECT * FROM device WHERE customer = ? AND chip = ?", key).fetchone()
        by_serial = "SELECT * FROM given WHERE issuer = 'acme-ca' AND serial = ?"
        given = self.run(by_serial, (device["serial"],)).fetchone()
        start = self.run(by_serial.replace("given", "given_start"), (device["serial"],)).fetchone()
        entries = self.run("SELECT * FROM ledger WHERE customer = ? AND chip = ? ORDER BY n", key).fetchall()
        others = {"link.map": 1, "orders.cursor": number + 1}
        values = columns_of("device", device) | columns_of("given", given) | columns_of("given_start", start) | others
        return values, [columns_of("ledger", entry) for entry in entries]

    def test_same(self, peer):
        """Fails unless the peer's rows are the same; but for the seat's, where digests and replies are made up."""
        for table in ("meta", "map", "link", "orders", "order_start", "device", "given", "given_start", "ledger"):
            query = f"SELECT * FROM {table} ORDER BY rowid"
            for row, other in zip_longest(self.run(query), peer.execute(query)):
                if row is None or other is None or tuple(row) != other:
                    raise Failed(f"the rows of {table} of the program and the peer differ")


def columns_of(table, row):
    """A row's values, by the names that STATEMENTS has."""
    return {f"{table}.{column}": row[column] for column in row.keys()}


def seat_of(number, reply):
    """The seat's row as the request with this number leaves it."""
    digest = hashlib.sha256(b"%d" % number).digest()
    return {"seat.name": "a1", "seat.customer": "acme", "seat.last": number, "seat.digest": digest, "seat.reply": reply}


def bound(names, values):
    """The texts of these statements, with their values."""
    return [(STATEMENTS[name][0], [values[value] for value in STATEMENTS[name][1].split()]) for name in names]


def names_of(request, is_first, has_mac):
    """The statements of a request."""
    names = [name for name in REQUESTS[request] if has_mac or name != "given by mac"]
    return FIRST + names if is_first else names


def life_of(books, number, first):
    """The statements of each request of a device's life; the seat's number of the first one is `first`."""
    (values, entries), requests = books.device(number), []
    serial, has_mac = values["device.serial"], values["given.mac"] is not None
    for place, ((request, state), entry, reply) in enumerate(zip(LIFE, entries, books.replies, strict=True)):
        given = serial if state in ("identified", "shipped") else None
        step = {"device.state": state, "device.serial": given} | entry | seat_of(first + place, reply)
        names = names_of(request, (number, place) == (1, 0), has_mac)
        requests.append(bound(names, values | step))
    return requests


def make(peer, requests):
    """Makes the requests, one transaction each, and returns the seconds that they took."""
    run = peer.execute
    start = time.perf_counter()
    for statements in requests:
        run("BEGIN IMMEDIATE")
        for text, values in statements:
            run(text, values).fetchall()
        run("COMMIT")
    return time.perf_counter() - start


def run_peer(path, books):
    """Has the peer make what the program made, and returns the seconds of each part."""
    peer, times, first = new_peer(path, books.run), [], books.first_number()
    for numbers in parts_of(books.size):
        lives = [life_of(books, number, first + STEPS * (number - 1)) for number in numbers]
        times.append(make(peer, [request for life in lives for request in life]))
        tell(f"{numbers[-1]} of {books.size} devices by sqlite3, {times[-1]:.1f} s for {len(numbers)}")
    books.test_same(peer)
    peer.close()
    return times


def rates_of(times, size):
    """The requests a second of all parts, and of the last one."""
    last = len(parts_of(size)[-1])
    return STEPS * size / sum(times), STEPS * last / times[-1]


def imports_over(command, seconds, rows):
    """The rows a second of imports into a new store's empty table, and into one of so many rows."""

    def imports(first, count):
        return [seat.import_of(number) for number in range(first, first + ROWS * count, ROWS)]

    seat, rates, start = Orders(), [], 1
    with Program(command, seconds) as process:
        # Its start is over once it has answered, and isn't in the first import's time.
        send(process, [seat.ask("/v1/map", text=MAP)])
        for there in (0, rows):
            while start <= there:
                send(process, imports(start, 1))
                start += ROWS
            took, _ = send(process, imports(start, IMPORTS))
            start += ROWS * IMPORTS
            rates.append(ROWS * IMPORTS / took)
            tell(f"imports at {there} rows, {took:.1f} s for {IMPORTS} of {ROWS} rows")
        process.end()
    return rates
