"""Two customers with two orders each, and the deployed form over their store."""

import contextlib
import hashlib
import os
import re
import shutil
import sqlite3
import subprocess
import tempfile
import time
from pathlib import Path

from common import lives
from common.commands import command
from common.program import Program, send
from common.registrations import MAP, blocks_of, request
from common.deployed import Place

# Customers by their seats' names and inner tokens, with a pool each.
SEATS = {"a1": ("acme", "abc"), "b1": ("bolt", "hello")}
SITE = "".join(
    f"""[[customer]]
name = "{customer}"
issuer = ["{customer}-ca"]
[[customer.pool]]
first = "02{place:02x}00000000"
count = 16777216
[[customer.seat]]
name = "{seat}"
token = "{hashlib.sha256(token.encode()).hexdigest()}"
"""
    for place, (seat, (customer, token)) in enumerate(SEATS.items())
)

# Each customer's orders: name, prefix, addresses of a serial number, and the beginning.
ORDERS = [("o1", "A", 2, "20260101000000Z"), ("o2", "-7", 4, None)]

# Of so many devices one is shipped, one is scrapped with its record, and one without.
SHIPPED, SCRAPPED, LOST = 10, 97, 101

BEGIN, PART = 998, 500


class Seat(lives.Seat):
    """A seat's requests, with its own token."""

    def __init__(self, token):
        super().__init__()
        self.token = token

    def ask(self, path, **members):
        self.number += 1
        return request(path, {"nr": self.number, **members}).replace(b"Bearer abc", f"Bearer {self.token}".encode(), 1)


def chip_of(order, place):
    return f"24{order:02x}{place:08x}"


def requests_of(seat, keys, devices):
    """The requests of a customer's two orders, in parts. A key is the chip's own where `keys` has one."""
    yield [seat.ask("/v1/map", text=MAP)]
    for order, (name, prefix, macs, begins) in enumerate(ORDERS):
        range_of = {"prefix": prefix, "width": 7, "first": BEGIN, "quantity": devices}
        members = {"name": name, "issuer": seat.issuer, **range_of, "macs": macs, "not_before": begins}
        yield [seat.ask("/v1/order", **members)]
        for first in range(0, devices, PART):
            places = range(first, min(first + PART, devices))
            yield [asked for place in places for asked in life(seat, keys, name, order, place)]


def life(seat, keys, name, order, place):
    """A device that gets its record; some are shipped, some scrapped, and beside some stands one that is lost."""
    chip = chip_of(order, place)
    key = keys.get((seat.issuer, chip)) or hashlib.sha256(f"{seat.issuer}{chip}".encode()).digest()
    shown = {"order": name, "map": lives.DIGEST, "blocks": blocks_of(place)}
    if place % LOST == 0:
        other = f"ff{chip[2:]}"
        yield seat.ask("/v1/device", chip=other, **shown)
        yield seat.ask("/v1/scrap", chip=other)
    yield seat.ask("/v1/device", chip=chip, **shown)
    yield seat.ask("/v1/plan", chip=chip, wishes=[])
    yield seat.ask("/v1/identity", chip=chip, public_key=key.hex())
    if place % SHIPPED == 0:
        yield seat.ask("/v1/ship", chip=chip)
    elif place % SCRAPPED == 0:
        yield seat.ask("/v1/scrap", chip=chip)


def made_store(folder, program, keys, devices, requests=requests_of):
    """A store with both customers' devices, and its site."""
    site, store = folder / "lots.toml", folder / "books.db"
    site.write_text(SITE, encoding="ascii")
    with Program([str(program), "replay", "--site", str(site), "--db", str(store)], 3600) as running:
        for customer, token in SEATS.values():
            seat = Seat(token)
            seat.issuer = f"{customer}-ca"
            for part in requests(seat, keys, devices):
                send(running, part)
        running.end()
    return site


def rows_of(store, customer):
    """The rows of a customer's records as the list has them, of a copy of the store: by a SELECT, with the addresses
    reckoned from their order's first one."""
    asked = """SELECT g.serial, g.issuer, g.chip, o.mac, o.macs, o.first, length(o.prefix), lower(hex(g.key)),
        s.not_before, g.not_after, d.state, lower(hex(d.map)), o.name FROM given g
        JOIN given_start s ON s.issuer = g.issuer AND s.serial = g.serial
        JOIN device d ON d.customer = g.customer AND d.chip = g.chip
        JOIN orders o ON o.customer = d.customer AND o.name = d.ord
        WHERE g.customer = ? ORDER BY o.name, g.serial"""
    with contextlib.closing(sqlite3.connect(store)) as books:
        for serial, issuer, chip, mac, macs, first, prefix, key, begins, ends, state, digest, name in books.execute(
            asked, (customer,)
        ):
            start = int(mac, 16) + (int(serial[prefix:]) - first) * macs
            addresses = [f"{start + place:012x}" for place in range(macs)]
            yield serial, issuer, chip, addresses[0], addresses, key, begins, ends, state, digest, name


def csv_of(rows):
    """The list's bytes. No field has a comma, a quotation mark or a line end."""
    head = "serial,issuer,chip,mac,addresses,key_sha256,not_before,not_after,state,map,order"
    return "".join(f"{','.join(line)}\n" for line in ([head], *map(shown, rows))).encode()


def shown(row):
    """The fields of a row as people read them: a chip and its addresses have colons."""
    serial, issuer, chip, mac, addresses, *more = row
    colons = [" ".join(":".join(re.findall("..", it)) for it in its) for its in ([chip], [mac], addresses)]
    return [serial, issuer, *colons, *(it or "" for it in more)]


class LotsPlace(Place):
    """nginx in front of the program itself, with the rate of a caller in another size."""

    def __init__(self, folder, program, site, rate):
        super().__init__(folder, program, site)
        self.recorded, self.rate = self.server.port, rate
        for seat, (_, token) in SEATS.items():
            (self.folder / "known").write_text(token, encoding="ascii")
            taken = self.token("seat", seat, "--known", "known", "--site", self.site, is_told=False)
            assert taken[0] == 0, taken
            self.made(seat, "add", seat, "--look", is_told=False)
            (self.folder / seat).write_text(self.outer[seat], encoding="ascii")
            (self.folder / seat).chmod(0o600)

    def conf(self, name, port):
        path = super().conf(name, port)
        text = path.read_text(encoding="utf-8")
        assert "rate=20r/s" in text
        path.write_text(text.replace("rate=20r/s", f"rate={self.rate}r/s", 1), encoding="utf-8")
        return path

    def words(self, *words, seat=None, **named):
        """The words of the command of a customer's engineer, who has a token that looks; without a seat those of the
        tool for tokens."""
        if seat is None:
            return super().words(*words, **named)
        url = f"https://localhost:{self.port}"
        more = ["--url", url, "--ca", self.folder / "etc/cert.pem", "--token", self.folder / seat, *words]
        return [*command("wanekupo"), *map(str, more)]

    def ran(self, seat, *words, **named):
        """The command's status, its output, what it told, and its seconds."""
        begun = time.monotonic()
        done = subprocess.run(
            self.words(*words, seat=seat),
            cwd=self.folder,
            env={**os.environ, **named},
            stdin=subprocess.DEVNULL,
            capture_output=True,
            text=True,
            check=False,
        )
        return done.returncode, done.stdout, done.stderr, time.monotonic() - begun

    def requests(self):
        """How many requests nginx has passed on so far, by its log."""
        log = self.folder / "log/nginx.conf"
        return len(log.read_text(encoding="utf-8").splitlines()) if log.exists() else 0

    def copy(self):
        """A copy of the store, while nobody writes."""
        folder = self.folder / "copy"
        folder.mkdir(exist_ok=True)
        for file in self.folder.glob("books.db*"):
            if not file.name.endswith("-shm"):
                shutil.copy(file, folder)
        return folder / "books.db"


# Requests a second that nginx gives a caller: more than anybody asks for, and its usual share.
FAST, USUAL = 100_000, 20


@contextlib.contextmanager
def opened_lots(program, rate, keys, devices, requests=requests_of):
    """The deployed form over a store of both customers, whose nginx gives a caller so many requests a second."""
    with tempfile.TemporaryDirectory() as name:
        folder = Path(name)
        folder.chmod(0o755)
        place = LotsPlace(folder, program, made_store(folder, program, keys, devices, requests), rate)
        try:
            place.nginx()
            yield place
        finally:
            place.close()
