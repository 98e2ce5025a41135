"""Three stores behind one nginx, as docs/operate/tokens-and-sites.md has them, with benches that work the whole time.
In the middle one store is closed and succeeded, and its benches go on in a fourth. Those of the other two work
meanwhile, and meet no error and no long wait: each asks once, so a request without a good reply is its end.

Over the seals of all four `wanekupo apart` finds nothing. By the benches' journals, read by json alone, each serial
number of an issuer, each address, each chip and each key was given once, and the stores have these and no others. Then
a chip of one store is made in another one, and both counts name it with its key.
"""

import contextlib
import os
import shutil
import sqlite3
import ssl
import subprocess
import tempfile
import threading
import time
from collections import Counter
from collections.abc import Callable, Iterator
from pathlib import Path
from typing import Any

import pytest
from simulated_chip import SimulatedChip
from support import MAP, Held, life

from common.commands import command
from common.deployed import TOOL, expect
from common.ports import HOST
from plant.gameday_plant import lines_of
from plant.house import House
from wanekupo.chips.espefuse import KeyFile
from wanekupo.plant.site.apply import ASKED, status_of
from wanekupo.seat.journal import Journal
from wanekupo.seat.station import Station

pytestmark = [pytest.mark.root, pytest.mark.nginx, pytest.mark.needs("sqlite3", "flock"), pytest.mark.sizes(6, 30)]

POOLS = {"north": "020000000000", "south": "020000100000", "west": "020000200000"}
SITE = '[[customer]]\nname = "{0}"\nissuer = ["{0}-ca"]\n[[customer.pool]]\nfirst = "{1}"\ncount = 65536\n'

# Chips of each bench before the first store is closed, and behind it; the most seconds of one, and of anything.
CHIPS, LONGEST, PATIENCE = 4, 10.0, 300.0

KINDS = {"serial number": ("issuer", "serial"), "address": ("mac",), "chip": ("chip",), "key": ("key_sha256",)}


def chip_of(bench: int, number: int) -> str:
    return f"24{bench:02x}{number:08x}"


class Bench:
    """A station of a part's customer, with simulated chips, in a thread of its own."""

    def __init__(self, plant: "Plant", part: str, number: int):
        self.plant, self.part, self.number, self.seat = plant, part, number, f"{part}{number}"
        self.chips: list[tuple[float, float]] = []  # when each came, and when it was shipped
        self.is_over, self.failure, self.moved = threading.Event(), "", 0

    def begin(self, token: str, suffix: str = "") -> None:
        """Works by a token from now on, in the part's store or in the one with this suffix."""
        self.is_over.clear()
        self.moved = len(self.chips)
        self.thread = threading.Thread(target=self.work, args=(token, suffix), daemon=True)
        self.thread.start()

    def work(self, token: str, suffix: str) -> None:
        seat, prefix = f"{self.seat}{suffix}", f"{'N' if suffix else 'O'}{self.number}-"
        try:
            with self.plant.station(seat, token) as station:
                station.import_map(MAP)
                station.make_order(seat, f"{self.part}-ca{suffix}", prefix, 5, 1, 1000, 1)
                while not self.is_over.is_set():
                    self.make(station, seat, chip_of(self.number, len(self.chips)))
                    self.is_over.wait(0.3 + self.number % 5 / 4)
        except BaseException as failure:
            self.failure = f"{seat}: {failure!r}"

    def make(self, station: Station, order: str, chip: str) -> None:
        """A chip from its registration to its shipment."""
        came, held = time.monotonic(), Held(SimulatedChip(bytes.fromhex(chip), None), self.plant.keys)
        expect(chip, life(station, held, bytes.fromhex(chip.rjust(64, "0")), order).state, "shipped")
        self.chips.append((came, time.monotonic()))


class Plant:
    """A house for each part; one folder of sites and tokens, nginx in front of all, and as many benches of each."""

    def __init__(self, program: Path, folder: Path, benches: int):
        self.program, self.folder, self.etc = program, folder, folder / "etc"
        for name in ("etc", "given", "stations", "seals", "copies"):
            (folder / name).mkdir()
        self.houses = {name: House(program, folder / name, self.etc) for name in POOLS}
        self.benches = [Bench(self, part, number) for number, part in enumerate(list(POOLS) * benches)]
        (folder / "flash.key").write_bytes(bytes(range(32)))
        self.keys = {"BLOCK1": KeyFile(str(folder / "flash.key"), "flash_encryption")}

    def benches_of(self, part: str) -> list[Bench]:
        return [it for it in self.benches if it.part == part]

    def token(self, *words: object) -> str:
        return ran(TOOL, "--file", self.etc / "tokens.conf", "--no-reload", *words, status=0)[1].strip()

    def add_part(self, name: str) -> None:
        """A part's site, with a seat for each bench and a manager, its store and its program."""
        house = self.houses[name]
        house.site.write_text(SITE.format(name, POOLS[name]))
        for seat in (*(it.seat for it in self.benches_of(name)), f"@{name}"):
            customer = [] if seat.startswith("@") else ["--customer", name]
            self.token("seat", seat, *customer, "--into", house.site, "--server", f"{HOST}:{house.port}")
        house.build()
        house.service("start")

    def open(self) -> None:
        """All parts, whose joined texts have to be a site, and nginx; each bench begins."""
        for name in POOLS:
            self.add_part(name)
        joined = self.folder / "joined.toml"
        joined.write_text("\n".join(it.site.read_text().partition("[manager]")[0] for it in self.houses.values()))
        ran(self.program, "check-site", joined, status=0)
        self.tokens = {it.seat: self.token("add", it.seat) for it in self.benches}
        self.nginx = self.houses["north"].proxied()
        self.url, self.certificate, _ = map(str, self.houses["north"].other_words.values())
        self.context = ssl.create_default_context(cafile=self.certificate)
        for it in self.benches:
            self.wait_for(lambda token=self.tokens[it.seat]: self.is_known(token))
            it.begin(self.tokens[it.seat])

    def follow(self) -> None:
        """The first part's benches stop behind the chip in hand; its store is closed, and the next one begun."""
        moved, given = self.benches_of("north"), self.folder / "given"
        self.end(moved)
        self.began = time.monotonic()
        ran(*self.houses["north"].common(), "close", self.folder / "closed", status=0)
        following = self.houses["next"] = House(self.program, self.folder / "next", self.etc)
        others = [word for name in ("south", "west") for word in ("--other-site", self.houses[name].site)]
        words = ["--suffix", "2", "--to", given, "--server", f"{HOST}:{following.port}", *others]
        ran(*self.houses["north"].common(), "successor", following.site, *words, status=0)
        following.build()
        following.service("start")
        for it in moved:
            token = (given / f"{it.seat}-2.token").read_text().strip()
            self.wait_for(lambda token=token: self.is_known(token))
            it.begin(token, "-2")
        self.ended = time.monotonic()

    def station(self, seat: str, token: str) -> Station:
        """A seat that asks once: what isn't answered is an error."""
        own = self.folder / "stations" / seat
        own.mkdir(exist_ok=True)
        words = {"context": self.context, "journal": Journal(own, seat), "closes_journal": True}
        return Station(self.url, token, own / "state.json", 0, **words)

    def is_known(self, token: str) -> bool:
        """Whether the part's program knows who asks with a token through nginx, which may just have begun."""
        with contextlib.suppress(OSError):
            return status_of(f"{self.url}{ASKED}", token, self.certificate) == 404
        return False

    def wait_for(self, is_so: Callable[[], bool]) -> None:
        end = time.monotonic() + PATIENCE
        while not is_so():
            assert time.monotonic() < end, "not in time"
            time.sleep(0.1)
        expect("benches that failed", [it.failure for it in self.benches if it.failure], [])

    def work(self) -> None:
        """Until each bench has made some chips more, or one has failed."""
        wanted = {it: len(it.chips) + CHIPS for it in self.benches}
        self.wait_for(lambda: all(it.failure or len(it.chips) >= count for it, count in wanted.items()))

    def end(self, benches: list[Bench]) -> None:
        for it in benches:
            it.is_over.set()
        self.wait_for(lambda: not any(it.thread.is_alive() for it in benches))

    def seal(self, name: str) -> None:
        """Stops a part's program, and seals a copy of its store."""
        self.houses[name].end()
        copy, seals = self.folder / "copies" / name, self.folder / "seals" / name
        shutil.rmtree(copy, ignore_errors=True)
        shutil.copytree(self.houses[name].db.parent, copy)
        seals.mkdir(exist_ok=True)
        ran(*command("wanekupo"), "seal", seals, "--store", copy / "books.db", status=0)

    def apart(self, *more: str) -> tuple[int, str]:
        seals = [self.folder / "closed/seals", self.folder / "seals"]
        return ran(*command("wanekupo"), "apart", *seals, "--same", "north-2=north", *more)

    def close(self) -> None:
        for it in self.benches:
            it.is_over.set()
        if hasattr(self, "nginx"):
            self.nginx.terminate()
            self.nginx.wait()
        for house in (it for it in self.houses.values() if it.folder.exists()):
            house.end()


def ran(*words: object, status: int | None = None) -> tuple[int, str]:
    """How a command ends, which may have to be so, and what it says."""
    done = subprocess.run([*map(str, words)], capture_output=True, text=True, timeout=PATIENCE, check=False)
    assert status in (None, done.returncode), done.stdout + done.stderr
    return done.returncode, done.stdout or done.stderr


@pytest.fixture(scope="module")
def plant(program: Path, size: int) -> Iterator[Plant]:
    """A plant behind its work, whose open stores are sealed; no program runs, and nginx does."""
    with tempfile.TemporaryDirectory() as folder:
        os.chmod(folder, 0o755)
        plant = Plant(program, Path(folder), size // len(POOLS))
        try:
            plant.open()
            plant.work()
            plant.follow()
            plant.work()
            plant.end(plant.benches)
            for name in ("south", "west", "next"):
                plant.seal(name)
            yield plant
        finally:
            plant.close()


def given(plant: Plant) -> list[dict[str, Any]]:
    """The replies by which benches were told a number, out of their journals: no other reply has an end of validity."""
    lines = [it for folder in (plant.folder / "stations").iterdir() for it in lines_of(folder)]
    return [it["reply"] for it in lines if "not_after" in it.get("reply", {})]


def twice(replies: list[dict[str, Any]]) -> list[tuple[str, ...]]:
    """What was given more than once."""
    counts = Counter((what, *(it[name] for name in names)) for it in replies for what, names in KINDS.items())
    return sorted(it for it, count in counts.items() if count > 1)


def test_once_over_all(plant: Plant, found: Callable[[str], None]) -> None:
    replies = given(plant)
    expect("twice", twice(replies), [])
    expect("chips", len(replies), sum(len(it.chips) for it in plant.benches))
    expect("apart", plant.apart(), (0, f"Nothing found: 4 stores, {len(replies)} records.\n"))
    shutil.copytree(plant.folder / "closed", plant.folder / "copies/closed")
    bases = [sqlite3.connect(it) for it in (plant.folder / "copies").glob("*/books.db")]
    stored = [set(it.execute("SELECT issuer, serial, lower(hex(key)) FROM given")) for it in bases]
    told = {(it["issuer"], it["serial"], it["key_sha256"]) for it in replies}
    expect("the stores", (len(stored), all(stored), set().union(*stored) == told), (4, True, True))
    found(f"{len(plant.benches)} benches, 4 stores, {len(replies)} chips: each number, address, chip and key once")


def test_the_others_went_on(plant: Plant, found: Callable[[str], None]) -> None:
    moved, others = plant.benches_of("north"), plant.benches_of("south") + plant.benches_of("west")
    meanwhile = [sum(plant.began < at < plant.ended for _, at in it.chips) for it in others]
    longest = max(shipped - came for it in others for came, shipped in it.chips)
    stood = [it.chips[it.moved][0] - it.chips[it.moved - 1][1] for it in moved]
    found(f"{len(moved)} benches stood {min(stood):.1f} to {max(stood):.1f} s; meanwhile {len(others)} others shipped "
          f"{min(meanwhile)} chips or more each, and none of theirs took more than {longest:.2f} s")  # fmt: skip
    expect("each shipped, and none waited long", (all(meanwhile), longest < LONGEST), (True, True))


def test_a_chip_of_two_stores(plant: Plant) -> None:
    """A bench of the south makes the first chip of one of the west."""
    south, chip = plant.benches_of("south")[0], chip_of(plant.benches_of("west")[0].number, 0)
    plant.houses["south"].service("start")
    with plant.station(south.seat, plant.tokens[south.seat]) as station:
        south.make(station, south.seat, chip)
    plant.seal("south")
    (key,) = {it["key_sha256"] for it in given(plant) if it["chip"] == chip}
    expect("twice", twice(given(plant)), [("chip", chip), ("key", key)])
    status, said = plant.apart("--same", "south=west")
    lines = [f"The chip {chip} stands twice", f"The key {key} stands twice", "2 found: 4 stores"]
    expect(said, (status, [it for it in lines if it not in said]), (1, []))
