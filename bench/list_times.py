"""The books of two customers, and how long the list of one's devices takes, for `listing` and `sizes`."""

import hashlib
import json
import sqlite3
import time

from common.lives import DIGEST, SITE, Seat
from common.program import Failed
from common.registrations import MAP, blocks_of

LARGEST_ORDER = 10000
PAGE = 500
TIMES = 5
TOKENS = {"acme": b"abc", "bolt": b"hello"}
BOTH = f"""{SITE}[[customer]]
name = "bolt"
issuer = ["bolt-ca"]
[[customer.seat]]
name = "b1"
token = "{hashlib.sha256(TOKENS['bolt']).hexdigest()}"
"""
LISTED = "SELECT chip, ord, reason, serial, state FROM device WHERE customer = ? AND chip > ? ORDER BY chip LIMIT 501"


class Office(Seat):
    """The requests of a customer's seat."""

    def __init__(self, customer):
        super().__init__()
        self.customer = customer

    def ask(self, path, **members):
        return super().ask(path, **members).replace(b"Bearer abc", b"Bearer " + TOKENS[self.customer], 1)

    def order(self, number):
        """An order of ten thousand."""
        members = {"name": f"o{number}", "issuer": f"{self.customer}-ca", "prefix": "S", "width": 9}
        return self.ask("/v1/order", **members, first=number * LARGEST_ORDER, quantity=LARGEST_ORDER, macs=0)

    def device(self, number, chip):
        """A device of the order that has room."""
        order = f"o{number // LARGEST_ORDER}"
        return self.ask("/v1/device", chip=f"{chip:012x}", order=order, map=DIGEST, blocks=blocks_of(number))


def parts_of(devices):
    """The requests that make the books, in parts of a thousand devices of each customer."""
    seats = [Office(customer) for customer in TOKENS]
    yield [
        asked
        for seat in seats
        for asked in [seat.ask("/v1/map", text=MAP), *map(seat.order, range(-(-devices // LARGEST_ORDER)))]
    ]
    for first in range(0, devices, 1000):
        numbers = range(first, min(first + 1000, devices))
        yield [seat.device(number, 2 * number + place) for number in numbers for place, seat in enumerate(seats)]


def page_request(after):
    """The request of a page of acme's devices."""
    return f"GET /v1/devices?after={after} HTTP/1.1\r\nAuthorization: Bearer abc\r\n\r\n".encode()


def listed_by(program):
    """The seconds of each page, and the chips."""
    seconds, chips, after = [], [], ""
    while after is not None:
        start = time.perf_counter()
        program.write(page_request(after), 65536)
        page = program.replies.check_next()
        seconds.append(time.perf_counter() - start)
        page = json.loads(page)
        chips += [device["chip"] for device in page["devices"]]
        after = page["next"]
    return seconds, chips


def listed_by_sqlite(path):
    """The same by C's SQLite over the file, each page as JSON."""
    base = sqlite3.connect(f"file:{path}?mode=ro", uri=True)
    seconds, chips, after = [], [], ""
    names = ("chip", "order", "reason", "serial", "state")
    while after is not None:
        start = time.perf_counter()
        rows = base.execute(LISTED, ("acme", after)).fetchall()
        json.dumps({"devices": [dict(zip(names, row)) for row in rows[:PAGE]]}, separators=(",", ":"))
        seconds.append(time.perf_counter() - start)
        chips += [row[0] for row in rows[:PAGE]]
        after = rows[PAGE - 1][0] if len(rows) > PAGE else None
    base.close()
    return seconds, chips


def best_of(list_all, devices):
    """The least seconds of each page over some lists, each of which has to be whole."""
    runs = []
    for _ in range(TIMES):
        seconds, chips = list_all()
        if chips != [f"{2 * number:012x}" for number in range(devices)]:
            raise Failed(f"a list has {len(chips)} chips, {len(set(chips))} of them distinct, and not the {devices}")
        runs.append(seconds)
    return [min(seconds) for seconds in zip(*runs)]
