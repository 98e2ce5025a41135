"""A small plant with two customers and three stations for seals, an audit and a shift, and a large one of whole lives.

The small one is served over a port, and its stations are the Python client's own, with journals whose clock goes on by
some seconds with each line. So all that is known of a shift is in the journals, where jq can count it.
"""

import contextlib
import hashlib
import shutil
import time
from dataclasses import dataclass, field
from pathlib import Path

from common.journals import lines_of, text_of
from common.lives import SITE, Orders
from common.needs import ROOT
from common.program import Program, send
from common.registrations import MAP as LARGE_MAP
from common.served import HOST, Server, station
from common.stores import parts_of
from wanekupo.chips.chip import bit, key, rlock, wlock
from wanekupo.seat import journal as journals
from wanekupo.seat.journal import Journal
from wanekupo.seat.import_rows import csv_of
from wanekupo.seat.station import Station

MAP = (ROOT / "python/wanekupo/chips/families/esp32/map.toml").read_text(encoding="utf-8")
NONE = (ROOT / "python/wanekupo/chips/families/none/map.toml").read_text(encoding="utf-8")
TOKENS = {"a1": "abc", "a2": "abd", "b1": "hello"}
CUSTOMERS = {"a1": "acme", "a2": "acme", "b1": "bolt"}
FLASH_KEY = hashlib.sha256(bytes(range(32))).hexdigest()

# Mornings of the small plant: the stations' clocks.
MORNING = 1_795_759_200  # 2026-11-27T06:00:00Z
START, END = "2026-11-27T06:00:00Z", "2026-11-27T14:00:00Z"


def site_text():
    """The site of the small plant."""
    lines = []
    for customer in ("acme", "bolt"):
        lines += ["[[customer]]", f'name = "{customer}"', f'issuer = ["{customer}-ca"]', "[[customer.pool]]"]
        lines += [f'first = "02000{len(customer) * len(lines):02x}00000"', "count = 65536"]
        for seat, owner in CUSTOMERS.items():
            if owner == customer:
                digest = hashlib.sha256(TOKENS[seat].encode()).hexdigest()
                lines += ["[[customer.seat]]", f'name = "{seat}"', f'token = "{digest}"']
    return "\n".join(lines) + "\n"


class Clock:
    """A clock that goes on by itself, in the place of the module `time` of the journals."""

    def __init__(self, start, step):
        self.now, self.step = start, step

    def passed(self):
        self.now += self.step
        return self.now

    def gmtime(self):
        return time.gmtime(self.passed())

    strftime = staticmethod(time.strftime)


@dataclass
class Plant:
    """A served store in a folder, with its stations."""

    folder: Path
    server: Server
    port: int
    seats: dict[str, Station] = field(default_factory=dict)
    clock: Clock = field(default_factory=lambda: Clock(MORNING, 7))

    @property
    def url(self):
        return f"http://{HOST}:{self.port}"

    def seat(self, name, operator=""):
        """A station of a seat. Its journals are in a folder of its customer's."""
        if name not in self.seats:
            folder = self.folder / CUSTOMERS[name]
            folder.mkdir(exist_ok=True)
            journal = Journal(folder / f"{name}.journal", name, operator)
            self.seats[name] = Station(self.url, TOKENS[name], self.folder / f"{name}.json", 20, journal=journal)
        return self.seats[name]

    def copied(self, name):
        """The store as a copy that the program has opened, behind which it is served again."""
        self.server.kill()
        copy = self.folder / name
        copy.mkdir()
        for file in self.folder.glob("books.db*"):
            shutil.copy(file, copy)
        words = [self.program, "replay", "--site", self.site, "--db", str(copy / "books.db"), "--existing"]
        with Program(words, 600) as it:
            it.end()
        self.server = Server(station(self.program, self.site, str(self.folder / "books.db"), self.port), self.port)
        self.server.wait(Server.is_answering)
        return copy / "books.db"

    program: str = ""
    site: str = ""


@contextlib.contextmanager
def plant(program, folder, port):
    """The small plant, whose journals have its clock."""
    (folder / "site.toml").write_text(site_text(), encoding="ascii")
    words = station(program, str(folder / "site.toml"), str(folder / "books.db"), port)
    made = Plant(folder, Server(words, port).wait(Server.is_answering), port)
    made.program, made.site = program, str(folder / "site.toml")
    before, journals.time = journals.time, made.clock
    try:
        yield made
    finally:
        journals.time = before
        for seat in made.seats.values():
            seat.close()
        made.server.kill()


# ---- chips


def shown(chip, *burnt, key_block=None):
    """The words of an ESP32 of this MAC with some bits of block 0 burnt, and a key in block 1."""
    mac = bytes.fromhex(chip)
    words = [0, int.from_bytes(mac[2:], "big"), _crc8(mac) << 16 | int.from_bytes(mac[:2], "big"), 0x8000, 0x0B00, 0, 0]
    for place in burnt:
        words[place // 32] |= 1 << place % 32
    blank = ["00000000"] * 8
    first = [f"{it:08x}" for it in words]
    return [first, key_block or blank, blank, blank]


def _crc8(data):
    crc = 0
    for byte in data:
        crc ^= byte
        for _ in range(8):
            crc = crc >> 1 ^ (0x8C if crc & 1 else 0)
    return crc


KEY_WORDS = [bytes(range(32))[place : place + 4][::-1].hex() for place in range(0, 32, 4)]
JTAG, WRITE_1, READ_1 = 198, 7, 16
WISHES = [bit("JTAG_DISABLE", 0), key("BLOCK1", FLASH_KEY), wlock("BLOCK1"), rlock("BLOCK1")]


def ship(seat, chip, order, digest, is_short=False):
    """A whole life. With `is_short` the first read-back shows nothing of the batch."""
    begin(seat, chip, order, digest)
    if is_short:
        seat.read_back(chip, shown(chip))
    seat.read_back(chip, shown(chip, JTAG, key_block=KEY_WORDS))
    seat.read_back(chip, shown(chip, JTAG, WRITE_1, READ_1))
    seat.identify(chip, hashlib.sha256(chip.encode() + order.encode()).digest())
    seat.ship(chip)


def begin(seat, chip, order, digest):
    seat.register(chip, order, digest, shown(chip))
    seat.plan(chip, WISHES)


def chip_of(place):
    return f"240ac400{place:04x}"


def work(made, halfway=lambda: None):
    """A morning: two customers, three stations, 9 chips shipped, one of them at the second try, 3 given up, 2 under
    way, and a seat that was out of step."""
    a1, a2, b1 = (made.seat(name, who) for name, who in (("a1", "mara"), ("a2", "joe <i>"), ("b1", "")))
    digest = a1.import_map(MAP)
    a1.make_order("gate-40", "acme-ca", "G", 5, 1, 8, 1, "20260101000000Z")
    a1.make_order("gate-41", "acme-ca", "H", 5, 1, 50)
    b1.import_map(MAP)
    b1.make_order("gate-40", "bolt-ca", "B", 4, 1, 5)
    for place in range(1, 4):
        ship(a1, chip_of(place), "gate-40", digest, is_short=place == 2)
        ship(a2, chip_of(16 + place), "gate-41", digest)
    for place in range(2):
        ship(b1, chip_of(place + 1), "gate-40", digest)
    halfway()
    made.clock.now += 3600
    begin(a1, chip_of(5), "gate-40", digest)
    a1.read_back(chip_of(5), shown(chip_of(5), JTAG, 197, key_block=KEY_WORDS))  # stray
    begin(a2, chip_of(6), "gate-41", digest)
    a2.scrap(chip_of(6))
    begin(b1, chip_of(7), "gate-40", digest)
    b1.read_back(chip_of(7), shown(chip_of(7), JTAG, key_block=KEY_WORDS[::-1]))  # another key
    a1.scrap(chip_of(5))
    begin(a1, chip_of(8), "gate-40", digest)
    a1.read_back(chip_of(8), shown(chip_of(8), JTAG, key_block=KEY_WORDS))  # awaits its locks
    a2.register(chip_of(9), "gate-41", digest, shown(chip_of(9)))
    rows = [("OLD-1", hashlib.sha256(b"1").hexdigest()), ("OLD-2", hashlib.sha256(b"2").hexdigest())]
    a1.post("/v1/import", {"issuer": "acme-ca", "csv": csv_of(rows)})
    ship(a1, chip_of(10), "gate-40", digest)


# ---- the large plant


def large(program, folder, devices, seconds=1200):
    """A store of whole lives in a folder, with the journal of its seat. The journal is written here, not by a station:
    a line each would be synced."""
    site = folder / "site.toml"
    site.write_text(SITE, encoding="utf-8")
    command = [program, "replay", "--site", str(site), "--db", str(folder / "books.db")]
    seat, clock = Orders(), Clock(MORNING, 0.05)
    half = devices // 2
    asked = [seat.ask("/v1/map", text=LARGE_MAP), seat.order_of(1, devices, 1)]
    with Program(command, seconds) as running, open(folder / "a1.journal", "w", encoding="ascii") as out:
        _send(running, asked, out, clock)
        for numbers in parts_of(devices):
            _send(running, [it for number in numbers for it in seat.life_in(number)], out, clock)
            clock.now += 600 if numbers[0] <= half < numbers[-1] else 0
        running.end()
    return folder / "books.db", folder / "a1.journal"


def _send(running, asked, out, clock):
    """Has requests served, and writes the lines of a journal for them."""
    for request, body in zip(asked, send(running, asked)[1]):
        out.write(text_of(lines_of("a1", clock.passed(), request, body)))
