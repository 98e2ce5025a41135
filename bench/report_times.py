"""The books of a site's reports, and how long reports over them take, for `reports` and `sizes`."""

import hashlib
import random
import re
import shutil
import sqlite3
import time
from collections import Counter
from typing import NamedTuple

from common.goals import tell
from common.lives import DIGEST, Seat
from common.program import Failed, Program, send
from common.registrations import MAP, blocks_of

TIMES = 3
MANAGER = "manager"
TOUCHED = re.compile(r"^Referenced:\s*([0-9]+) kB$", re.MULTILINE)

# The fates of devices, how many of a hundred have each, and the requests after the registration.
FATES = {
    "registered": (3, ""),
    "awaiting1": (1, "key"),
    "awaiting2": (1, "lock"),
    "settled": (3, "bare"),
    "quarantined": (2, "lock lost"),
    "identified": (80, "bare identity"),
    "shipped": (7, "bare identity ship"),
    "scrapped": (3, "bare identity scrap"),
}
WISHES = {
    "key": [{"kind": "key", "field": "BLOCK2", "key_sha256": DIGEST}],
    "lock": [{"kind": "wlock", "field": "BLOCK1"}],
    "bare": [],
}

# The columns of a report behind the names, and the column that a device of a state is counted in.
STATES = ["registered", "planned", "settled", "identified", "shipped", "quarantined", "scrapped"]
COLUMNS = ["quantity", *STATES, "serials_left"]
COLUMN = {state: state for state in STATES} | {"awaiting1": "planned", "awaiting2": "planned"}

# The peer's two statements. A given number is the order's if it is its prefix and a number of its range, which
# has as many digits as the order's width.
COUNT_DEVICES = "SELECT customer, ord, state, count(*) FROM device{} GROUP BY customer, ord, state"
COUNT_GIVEN = """SELECT customer, name, quantity, (
  SELECT count(*) FROM given WHERE given.issuer = orders.issuer
  AND serial BETWEEN printf('%s%0*d', prefix, width, first) AND printf('%s%0*d', prefix, width, first + quantity - 1)
  AND length(serial) = length(prefix) + width AND substr(serial, length(prefix) + 1) NOT GLOB '*[^0-9]*')
FROM orders{} ORDER BY customer, name"""


class Shape(NamedTuple):
    """A site's customers, how many orders each has, and the customer whose report is asked for."""

    customers: list
    orders: int
    shown: str

    def reports(self):
        """The requests of the site's report and of one customer's."""
        return {"site": get(MANAGER, "/v1/site/report"), self.shown: get(self.shown, "/v1/report")}


class Counted(NamedTuple):
    """The peer's best seconds for a report, by the plain statement and by a scan, and its text."""

    plain: float
    scan: float
    text: str


class Found(NamedTuple):
    """What a report took: the best seconds, the KiB of its peak, of before and of what it touched, and its text."""

    seconds: float
    peak: int
    before: int
    touched: int
    text: str


def token_of(name):
    """The token of a customer's seat, or of the manager."""
    return f"token-{name}"


def shape_of(orders):
    """Ten customers with ten orders each, or one customer with so many."""
    return Shape(["c1"], orders, "c1") if orders else Shape([f"c{number}" for number in range(1, 11)], 10, "c7")


def site_text(shape):
    """The site file."""
    digests = {name: hashlib.sha256(token_of(name).encode()).hexdigest() for name in [*shape.customers, MANAGER]}
    customers = [
        f'[[customer]]\nname = "{name}"\nissuer = ["{name}-ca0", "{name}-ca1"]\n'
        f'[[customer.seat]]\nname = "seat-{name}"\ntoken = "{digests[name]}"\n'
        for name in shape.customers
    ]
    return "".join(customers) + f'[manager]\ntoken = "{digests[MANAGER]}"\n'


def get(name, target):
    """A request that shows something to a customer's seat, or to the manager."""
    return f"GET {target} HTTP/1.1\r\nAuthorization: Bearer {token_of(name)}\r\n\r\n".encode()


class Office(Seat):
    """The requests of a customer's seat."""

    def __init__(self, name):
        super().__init__()
        self.token = token_of(name).encode()

    def ask(self, path, **members):
        return super().ask(path, **members).replace(b"Bearer abc", b"Bearer " + self.token, 1)

    def step(self, number, step):
        """A request of a device's life after its registration."""
        chip = f"{number:012x}"
        if step in WISHES:
            return self.ask("/v1/plan", chip=chip, wishes=WISHES[step])
        if step == "lost":
            return self.ask("/v1/readback", chip=chip, blocks=blocks_of(number)[:3] + [["00000000"] * 8])
        if step == "identity":
            return self.ask("/v1/identity", chip=chip, public_key=f"{number:064x}")
        return self.ask(f"/v1/{step}", chip=chip)

    def life(self, number, order, fate):
        """The requests of a device with this fate."""
        register = {"chip": f"{number:012x}", "order": order, "map": DIGEST, "blocks": blocks_of(number)}
        return [self.ask("/v1/device", **register), *(self.step(number, step) for step in FATES[fate][1].split())]


class Order:
    """An order of a customer, one after the other in two issuers, with the fates of its devices."""

    def __init__(self, seat, customer, place, fates):
        self.seat, self.fates, self.quantity = seat, fates, len(fates)
        self.name, self.issuer = f"o{place + 1}", f"{customer}-ca{place % 2}"
        self.first = place // 2 * self.quantity + 1

    def asked(self):
        members = {"name": self.name, "issuer": self.issuer, "prefix": "S", "width": 9, "first": self.first}
        return self.seat.ask("/v1/order", **members, quantity=self.quantity, macs=0)

    def imported(self):
        """An import of its last numbers, and of two that look like its own."""
        identities = sum("identity" in FATES[fate][1] for fate in self.fates)
        count, end = min(self.quantity // 20, self.quantity - identities), self.first + self.quantity
        serials = [f"S{number:09}" for number in range(end - count, end)]
        serials += [f"S{self.first:09}0", f"S{self.first // 10:08}A"]
        rows = [f"{serial},{hashlib.sha256(serial.encode()).hexdigest()}\n" for serial in serials]
        return self.seat.ask("/v1/import", issuer=self.issuer, csv="serial,key_sha256\n" + "".join(rows))


def parts_of(shape, devices):
    """The requests that make the books, in parts of a thousand devices. The last turn may leave out some orders."""
    draw, seats = random.Random(1), [Office(name) for name in shape.customers]
    places = shape.orders * len(seats)
    quantity = -(-devices // places)
    names, weights = list(FATES), [weight for weight, _ in FATES.values()]
    orders = []
    for place in range(places):
        number, order = place % len(seats), place // len(seats)
        orders.append(Order(seats[number], shape.customers[number], order, draw.choices(names, weights, k=quantity)))
    yield [seat.ask("/v1/map", text=MAP) for seat in seats] + [order.asked() for order in orders]
    yield [order.imported() for order in orders]
    for first in range(0, devices, 1000):
        part = []
        for number in range(first, first + 1000):
            turn, place = divmod(number, places)
            order = orders[place]
            part += order.seat.life(number + 1, order.name, order.fates[turn])
        yield part


def build(program, shape, devices, where):
    """Has the program make the books, and tells what that took."""
    took = count = 0
    for number, asked in enumerate(parts_of(shape, devices)):
        took, count = took + send(program, asked)[0], count + len(asked)
        if number % 10 == 1:
            tell(f"{count} requests of {devices} devices {where}, {took:.0f} s")
    tell(f"made {where}: {count} requests, {took:.0f} s")


def counts_of(base, customer, how):
    """The numbers of each order of a customer, or of all, in the order of the names."""
    where, values = (" WHERE customer = ?", (customer,)) if customer else ("", ())
    counts = {}
    for owner, order, quantity, given in base.execute(COUNT_GIVEN.format(where), values):
        counts[owner, order] = Counter(quantity=quantity, serials_left=quantity - given)
    for owner, order, state, count in base.execute(COUNT_DEVICES.format(how + where), values):
        counts[owner, order][COLUMN[state]] += count
    return counts


def text_of(head, columns, lines):
    """A report with a line for each name and its numbers."""
    rows = [[head, *columns], *([name, *(str(numbers[column]) for column in columns)] for name, numbers in lines)]
    return "".join(",".join(row) + "\n" for row in rows)


def site_report(customers, counts):
    """The site's report, of the numbers of all orders."""
    totals = {name: Counter() for name in sorted(customers)}
    for (customer, _), numbers in counts.items():
        totals[customer].update(numbers, orders=1)
    return text_of("customer", ["orders", *COLUMNS], totals.items())


def peer_report(path, shape, customer, how=""):
    """The seconds that SQLite takes for a report over the file, opened anew, and the report."""
    start = time.perf_counter()
    base = sqlite3.connect(f"file:{path}?mode=ro", uri=True)
    counts = counts_of(base, customer, how)
    if customer:
        text = text_of("order", COLUMNS, [(order, numbers) for (_, order), numbers in counts.items()])
    else:
        text = site_report(shape.customers, counts)
    base.close()
    return time.perf_counter() - start, text


def run_peer(path, shape):
    """What it takes for each report, all of whose columns have to be used."""
    peers = {}
    for report in shape.reports():
        customer = None if report == "site" else report
        runs = [[peer_report(path, shape, customer, how) for _ in range(TIMES)] for how in ("", " NOT INDEXED")]
        peers[report] = Counted(min(runs[0])[0], min(runs[1])[0], runs[0][0][1])
    for column, *numbers in zip(*(line.split(",") for line in peers["site"].text.splitlines())):
        if set(numbers) == {"0"}:
            raise Failed(f"nothing is counted as {column}")
    return peers


def forget(program):
    """Has the kernel forget which pages the process touched, and the peak of its memory."""
    for what in ("1", "5"):
        with open(f"/proc/{program.process.pid}/clear_refs", "w", encoding="ascii") as file:
            file.write(what)


def touched_by(program):
    """How much of its memory the process touched since, in KiB."""
    with open(f"/proc/{program.process.pid}/smaps_rollup", encoding="ascii") as file:
        return int(TOUCHED.search(file.read())[1])


def measure_report(program, asked):
    """What a report takes of a program that is at rest."""
    forget(program)
    before, times = program.peak(), []
    for _ in range(TIMES):
        start = time.perf_counter()
        program.write(asked, 65536)
        text = program.replies.check_next()
        times.append(time.perf_counter() - start)
    return Found(min(times), program.peak() - before, before, touched_by(program), text.decode())


def over_file(command, seconds, shape):
    """The reports over the file, each of a new start."""
    found = {}
    for report, asked in shape.reports().items():
        start = time.perf_counter()
        with Program(command, seconds) as program:
            program.write(get(shape.shown, "/v1/order?name=o1"), 65536)
            program.replies.check_next()
            tell(f"started over the file, {time.perf_counter() - start:.1f} s, peak {program.peak()} KiB")
            found[report] = measure_report(program, asked)
            program.end()
    return found


def make_file(command, seconds, shape, devices, path, keep):
    """Makes the file by requests, and a copy of it to keep."""
    with Program(command, seconds) as program:
        build(program, shape, devices, "in a file")
        program.end()
    if keep:
        shutil.copyfile(path, keep)
