"""A week of a plant in fast motion, whose books, journals, seals, lists and certificates agree in the end.

Benches of three customers work shift by shift behind nginx. In each break the server is stopped, backed up, sealed and
started, the journals come off the stations, and that copy is audited. Behind the first shift the site grows. In the
middle of the week a shift's store is lost, and restored by the night's backup and the journals. In the last shift the
first machine dies under load, and a second one takes over. The year is closed, and the next one begun. All is held to
what stations were told, by their journals, which json alone reads. Of chips that were lost with their store the numbers
are there. A chip of each shift fails its last hook, and is scrapped.

What it isn't: a day is a minute, and no journal has a second one. Backups are of a stopped server. The second machine
has the files that the first one's process left: no DRBD, no cable, no power cut, which machines/test_standby.py has. Of
a takeover it is the comparison of a half with the witness, and not the command.
"""

import hashlib
import os
import shutil
import sqlite3
import tempfile
from collections import Counter
from collections.abc import Callable, Iterable, Iterator
from contextlib import ExitStack, closing
from pathlib import Path
from typing import Any

import pytest
from cryptography import x509
from cryptography.hazmat.primitives.serialization import Encoding, PublicFormat

from books.lots_place import csv_of, rows_of
from common.deployed import expect, ran
from plant.gameday_plant import lines_of
from plant.week_plant import CUSTOMERS, MACS, Plant, Seat

pytestmark = [pytest.mark.root, pytest.mark.nginx, pytest.mark.needs("reader", "sqlite3", "rsync", "flock"),
              pytest.mark.sizes(8, 400)]  # fmt: skip

Chips = dict[tuple[str, str], dict[str, Any]]


@pytest.fixture(scope="module")
def plant(program: Path, size: int, found: Callable[[str], None]) -> Iterator[Plant]:
    """The plant at the end of its week. `year` are the chips of the closed year as its stations were told, `known`
    those that the restored store knows, `after` those of the next year."""
    benches, shifts = (4, 3) if size < 100 else (40, 14)
    with tempfile.TemporaryDirectory() as folder, ExitStack() as stack:
        os.chmod(folder, 0o755)
        plant = Plant(program, Path(folder), benches, size, stack)
        plant.shifts, plant.lost = shifts, (shifts + 1) // 2
        spend(plant)
        plant.year = told(it for it in plant.seats() if it.customer in CUSTOMERS)
        plant.known = {who: it for who, it in plant.year.items() if it["order"] != f"shift-{plant.lost}"}
        plant.after = told(it for it in plant.seats() if it.customer not in CUSTOMERS)
        yield plant
    made = len(plant.year | plant.after)
    found(f"week: {made} chips, {shifts} shifts of {benches} benches, a growth, a restore, a takeover, a closed year")


def spend(plant: Plant) -> None:
    for customer in CUSTOMERS[:2]:
        plant.grow(customer)
    for number in range(1, plant.shifts + 1):
        plant.shift(number, list(plant.benches), is_cut=number == plant.shifts)
        plant.certify()
        if is_lost := number == plant.lost:
            plant.lose()
        plant.night(f"night-{number}", 2 if is_lost else 0)
        if number == 1:
            plant.grow(CUSTOMERS[2])
    plant.close()


def told(seats: Iterable[Seat]) -> Chips:
    """What became of each chip, by the journals of its customer's stations alone."""
    found, asked = Chips(), dict[str, Any]()
    for seat, line in ((it, line) for it in seats for line in lines_of(it.journals)):
        asked = line if "asked" in line else asked
        if line.get("status") == 200 and "chip" in asked["asked"]:
            chip = found.setdefault((seat.customer, asked["asked"]["chip"]), {})
            chip |= {name: asked["asked"][name] for name in ("order", "map") if name in asked["asked"]}
            chip["state"] = line["reply"].get("state", "identified")
            if asked["path"] == "/v1/identity":
                expect("a record that came again", line["reply"], chip.setdefault("record", line["reply"]))
    return found


def list_of(chips: Chips, customer: str = "") -> list[tuple]:
    """The rows of a customer's list in its order, or of all."""
    found = []
    for it in (it for who, it in chips.items() if customer in ("", who[0])):
        own, first = it["record"], int(it["record"]["mac"], 16)
        addresses = [f"{first + more:012x}" for more in range(MACS)]
        head = own["serial"], own["issuer"], own["chip"], addresses[0], addresses, own["key_sha256"]
        found.append((*head, own["not_before"], own["not_after"], it["state"], it["map"], it["order"]))
    return sorted(found, key=lambda row: (row[-1], row[0]))


def test_hands(plant: Plant) -> None:
    """What benches said of each chip is what their journals have; and over both stores nothing is there twice."""
    said = {(it.customer, mac): words for it in plant.benches for mac, words in it.results.items()}
    states, chips = {("passed",): "shipped", ("hook_failed",): "scrapped"}, plant.year | plant.after
    found = {who: it["state"] for who, it in chips.items()}
    expect("states", found, {who: states[tuple(it)] for who, it in said.items()})
    expect("scrapped", Counter(found.values())["scrapped"], plant.shifts + 1)
    numbers = Counter(it for row in list_of(chips) for it in (row[:2], row[2], row[5], *row[4]))
    expect("twice", [it for it, count in numbers.items() if count > 1], [])


def test_journals(plant: Plant) -> None:
    """What came off the stations is theirs byte by byte, and an audit by it finds nothing, also once more."""
    for seat in (it for it in plant.seats() if it.customer in CUSTOMERS):
        own, shipped = seat.journals.glob("*.journal"), (plant.all / seat.name).rglob("*.journal")
        expect(seat.name, *({it.name: it.read_bytes() for it in files} for files in (shipped, own)))
    plant.audit()


def test_store(plant: Plant, tmp_path: Path) -> None:
    """Both stores and their lists have what the journals have, byte by byte, and no more. Of lost chips the closed one
    has the numbers with their keys."""
    expect("SHA256SUMS", ran(["sha256sum", "-c", "--quiet", "SHA256SUMS"], plant.closed).returncode, 0)
    for name, folder in (("closed", plant.closed), ("next", plant.following.backups / "year")):
        shutil.copytree(folder, tmp_path / name)
    for customer, office in plant.offices.items():
        rows, is_closed = list_of(plant.known | plant.after, customer), customer in CUSTOMERS
        expect(customer, list(rows_of(tmp_path / ("closed" if is_closed else "next") / "books.db", customer)), rows)
        office.wanekupo("manifest", "--all", "--out", tmp_path / customer, looks=is_closed)
        expect(customer, (tmp_path / customer).read_bytes(), csv_of(rows))
    with closing(sqlite3.connect(tmp_path / "closed/books.db")) as books:
        imported = books.execute("SELECT issuer, serial, lower(hex(key)) FROM given WHERE chip IS NULL")
        gone = {who: it for who, it in plant.year.items() if who not in plant.known}
        expect("imported", sorted(imported), sorted((row[1], row[0], row[5]) for row in list_of(gone)))
        expect("devices", sorted(books.execute("SELECT customer, chip FROM device")), sorted(plant.known))
        lines = ((who, it.get("reply", {})) for who, it in plant.offices.items() for it in lines_of(it.journals))
        orders = {(who, it["name"], it["mac"]) for who, it in lines if "mac" in it and who in CUSTOMERS}
        expect("orders", sorted(books.execute("SELECT customer, name, mac FROM orders")), sorted(orders))


def test_seals(plant: Plant) -> None:
    """Both chains hold, a restore lost nothing sealed, the closed rows are the last night's, both stores are apart."""
    first, last = (sorted(it.glob("*.rows")) for it in (plant.folder / "seals-1", plant.seals))
    expect("seals", (len(first), len(last)), (plant.lost, plant.shifts - plant.lost + 1))
    restored, closed = plant.backups / f"night-{plant.lost}", plant.closed / "seals"
    pairs = [first[-1], restored / "books.db"], [last[-1], plant.closed / "books.db"]
    for places in (*pairs, [plant.folder / "seals-1"], [plant.seals]):
        assert plant.said([*plant.user, "seal", "--verify", *places]).startswith("Nothing found.\n")
    rows = [line for line in (closed / "000001.rows").read_text("ascii").splitlines(True) if line[:4] != "act "]
    expect("rows", "".join(rows), last[-1].read_text("ascii"))
    said = plant.said([*plant.user, "apart", closed, plant.folder / "seals-next"])
    expect("apart", said, f"Nothing found: 2 stores, {len(plant.known | plant.after)} records.\n")


def test_certificates(plant: Plant) -> None:
    """Each device of west's that isn't scrapped has one, of its own key, also where the store has lost it."""
    lot = list_of(plant.year, "west")
    good = sorted((row[0], row[5]) for row in lot if row[8] == "shipped")
    made = [x509.load_pem_x509_certificate(it.read_bytes()) for it in plant.ca.glob("newcerts/*.pem")]
    names = [it.subject.get_attributes_for_oid(x509.NameOID.SERIAL_NUMBER) for it in made]
    keys = [it.public_key().public_bytes(Encoding.DER, PublicFormat.SubjectPublicKeyInfo) for it in made]
    found = [(its[0].value, hashlib.sha256(key).hexdigest()) for its, key in zip(names, keys) if its]
    expect("certificates", sorted(found), good)
    files = sorted(plant.spool.glob("*.pem"))
    verified = ran(["openssl", "verify", "-x509_strict", "-trusted", plant.ca / "ca.pem", *files])
    expect(verified.stderr, (len(files), verified.stdout.count(": OK")), (len(good), len(good)))
    expect("once more", plant.certify(), {"issued": 0, "present": len(good), "refused": len(lot) - len(good)})
