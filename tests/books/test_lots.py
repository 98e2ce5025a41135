"""The list of a lot, over the built program behind nginx, held to the store.

Two customers have two orders each: devices that are identified, shipped, scrapped with a record and without. A
customer's engineer, who has a token that looks, lists all of it. The list has to be the rows of a SELECT over a copy of
the store, byte by byte. Killed half way and begun again it has to be the same, with fewer requests. Digest and
signatures have to hold by the commands of the page. The goal is 10 seconds for 10,000 records, where nginx gives the
caller another rate than its usual one. With that one a hundred records are timed.
"""

import signal
import subprocess
import time

import pytest

from books.lots_place import FAST, SEATS, USUAL, csv_of, opened_lots, rows_of
from common.commands import PROJECT, PYTHON
from common.deployed import ran

pytestmark = [pytest.mark.root, pytest.mark.nginx, pytest.mark.sizes(250, 5000)]
GOAL, TIMED = 10.0, 100


@pytest.fixture(scope="module")
def place(program, size):
    """Orders of so many devices each."""
    with opened_lots(program, FAST, {}, size) as place:
        yield place


@pytest.mark.parametrize("seat", SEATS)
def test_the_list(place, seat, size, found):
    """Byte by byte as by a SELECT, in time."""
    expected, before = csv_of(rows_of(place.copy(), SEATS[seat][0])), place.requests()
    status, _, told, seconds = place.ran(seat, "manifest", "--all", "--out", f"{seat}.csv")
    asked, records = place.requests() - before, expected.count(b"\n") - 1
    found(f"lots: a list of {records} records by {asked} requests: {seconds:.1f} s")
    assert (status, told.count("warning")) == (0, records and 1), told
    assert (place.folder / f"{seat}.csv").read_bytes() == expected
    assert seconds <= GOAL * max(1, records / 10_000)


@pytest.mark.needs("jq")
def test_json(place):
    """One order, as lines of JSON, by jq."""
    status, out, _, _ = place.ran("b1", "manifest", "o2", "--json")
    (place.folder / "o2.jsonl").write_text(out, encoding="ascii")
    by_jq = '[.serial,.mac,(.addresses|join(" ")),.not_before,.order]|join(",")'
    made = ran(["jq", "-r", by_jq, "o2.jsonl"], place.folder)
    found = (row for row in rows_of(place.copy(), "bolt") if row[10] == "o2")
    rows = [(row[0], row[3], " ".join(row[4]), row[6] or "", row[10]) for row in found]
    assert (status, made.stdout.splitlines()) == (0, [",".join(row) for row in rows])


def kill_half_way(place, lines):
    """Kills the making of a list when a third of its lines are there, and adds half a line. The part that is left."""
    words = place.words("manifest", "--all", "--out", "cut.csv", seat="a1")
    quiet = {"stdout": subprocess.DEVNULL, "stderr": subprocess.DEVNULL}
    process, part = subprocess.Popen(words, cwd=place.folder, **quiet), place.folder / "cut.csv.part"
    while process.poll() is None and not (part.exists() and part.read_bytes().count(b"\n") > lines // 3):
        time.sleep(0.01)
    process.send_signal(signal.SIGKILL)
    process.wait()
    with open(part, "ab") as cut:
        cut.write(b'{"addresses":["0200000')
    return part


def test_a_list_that_is_cut(place):
    """Killed when some are there, and begun again: the same list, with fewer requests."""
    expected, before = csv_of(rows_of(place.copy(), "acme")), place.requests()
    lines = expected.count(b"\n")
    part = kill_half_way(place, lines)
    first, there = place.requests() - before, part.read_bytes().count(b"\n") - 1
    status, _, _, _ = place.ran("a1", "manifest", "--all", "--out", "cut.csv")
    second = place.requests() - before - first
    is_same = (place.folder / "cut.csv").read_bytes() == expected
    assert (status, is_same, part.exists()) == (0, True, False)
    assert there > 0 and second <= 2 * (lines - 1 - there) + 100, f"{second} requests, as {there} records were there"


SIGNING = {
    "minisign": (
        "minisign -G -W -p lots.pub -s lots.key",
        "--minisign lots.key",
        "minisign -V -q -p lots.pub -m signed.csv",
    ),
    "cms": (
        "openssl req -x509 -newkey rsa:2048 -noenc -subj /CN=lots -keyout cms.key -out cms.pem",
        "--cms cms.pem --cms-key cms.key",
        "openssl cms -verify -binary -inform DER -in signed.csv.p7s -content signed.csv -certfile cms.pem "
        "-nointern -noverify -out /dev/null",
    ),
}


@pytest.mark.needs("minisign")
@pytest.mark.parametrize("name", SIGNING)
def test_signatures(place, name):
    """A digest and a signature, by the commands of the page; of a changed byte neither holds."""
    here, (making, more, verifying) = place.folder, SIGNING[name]
    assert ran(making.split(), here).returncode == 0
    status, _, told, _ = place.ran("a1", "manifest", "o1", "--out", "signed.csv", *more.split())
    looks = ["sha256sum -c signed.csv.sha256", verifying]
    assert (status, [ran(words.split(), here).returncode for words in looks]) == (0, [0, 0]), told
    data = bytearray((here / "signed.csv").read_bytes())
    data[-2] ^= 1
    (here / "signed.csv").write_bytes(data)
    assert 0 not in [ran(words.split(), here).returncode for words in looks]


# Asks for a hundred records, and prints the seconds; its words are the URL, the token and the CA.
ASKING = f"""
import sys, time
from pathlib import Path
from wanekupo.seat import listings
from wanekupo.seat.settings import Settings, looking_station_of
station = looking_station_of(Settings(url=sys.argv[1], token=Path(sys.argv[2]), ca=Path(sys.argv[3])))
rows = [it for it in listings.devices(station) if it.serial][:{TIMED}]
begun = time.monotonic()
for it in rows:
    listings.record(station, it.chip), listings.device(station, it.chip)
print(time.monotonic() - begun)
"""


def test_usual_shares(program, found):
    """With nginx's usual rate: how long a hundred records take, of an order that is asked for by a script."""
    with opened_lots(program, USUAL, {}, TIMED) as place:
        given = [f"https://localhost:{place.port}", place.folder / "a1", place.folder / "etc/cert.pem"]
        done = ran([PYTHON, "-B", "-c", ASKING, *given], PROJECT)
    assert done.returncode == 0, done.stderr
    seconds = float(done.stdout)
    found(f"lots: {TIMED} records by nginx's usual shares: {seconds:.1f} s, so 10,000 in {seconds * 100 / 60:.0f} min")
    assert abs(seconds - (2 * TIMED - 40) / USUAL) < 4, "20 requests a second"
