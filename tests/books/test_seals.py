"""Seals: killed before each call that the outside sees, made while a station works, signed by minisign and time-stamped
by a service of `openssl ts`, by a customer's engineer through nginx, and over 10,000 devices; and chains that somebody
made who has the seals' keys."""

import os
import shutil
import signal
import subprocess
import tempfile
import threading
import time

import pytest

from books.seal_chains import CHAINS, Maker
from books.seal_places import expect_said, make_keys, measured, run, stamp_service
from books.seal_plant import START, TOKENS, chip_of, large, ship
from common.commands import PROJECT, killed_before
from common.deployed import Place
from common.needs import ROOT
from common.served import Server, station
from plant.test_tokens import seats
from wanekupo.seat.station import Station

SIGNED = pytest.mark.needs("minisign", "openssl")
MAP = (ROOT / "python/wanekupo/chips/families/esp32/map.toml").read_text(encoding="utf-8")
LATE = "2026-11-28T00:00Z"

# How many chips are sealed through nginx.
DEPLOYED = 16


# ---- the chain


def seal_killed(seals, store, call, before):
    """A seal that is killed before one call. The chain behind it, which had so many lines, has whole ones; what was set
    aside is removed. The status, the chain's lines, and how much was set aside."""
    program = [*killed_before(call, "fsync,replace,unlink,open"), str(PROJECT), "wanekupo"]
    status, _ = run("seal", seals, "--store", store, program=program)
    lines = (seals / "chain").read_text().splitlines() if (seals / "chain").exists() else []
    assert len(lines) in (before, before + 1)
    is_left = any(it.name.startswith(f"{len(lines) + 1:06}.") for it in seals.iterdir())
    aside = list(seals.glob("*-aside-*"))
    meant = 2 if not lines else 1 if is_left or aside else 0 if len(lines) > 1 else 3
    assert run("seal", "--verify", seals)[0] == meant
    for it in aside:
        names = {file.name.partition(".")[2] for file in it.iterdir()}
        assert names in ({"rows"}, {"rows", "seal"}, {"seal"}, set()), "what is aside"
        shutil.rmtree(it)
    return status, len(lines), len(aside)


def test_kills(folder, tmp_path):
    """A seal is killed before each call that the outside sees: the chain has whole lines, and the next seal goes on,
    and sets aside what the killed one left."""
    statuses, number, asides = [], 0, 0
    while len(statuses) < 200 and (not statuses or statuses[-1]):
        status, number, aside = seal_killed(tmp_path, folder / "copy/books.db", len(statuses) + 1, number)
        statuses.append(status)
        asides += aside
    assert set(statuses[:-1]) == {-signal.SIGKILL} and statuses[-1] == 0
    assert asides > 0, "some seals left what is set aside"
    chain = (tmp_path / "chain").read_text()
    assert sums_of(chain) == [line.split()[-1] for line in chain.splitlines()], "by sha256sum"


def sums_of(chain):
    """The digests of a chain's lines by sha256sum, each over the one before."""
    last, found = 64 * "0", []
    for line in chain.splitlines():
        head = line.rpartition(" ")[0]
        done = subprocess.run(["sha256sum"], input=f"{last} {head}\n", capture_output=True, text=True, check=True)
        last = done.stdout.split()[0]
        found.append(last)
    return found


@pytest.fixture
def seals(folder, tmp_path):
    """A folder with two seals of the plant."""
    for _ in range(2):
        assert run("seal", tmp_path, "--store", folder / "copy/books.db")[0] == 0
    return tmp_path


def test_a_changed_chain(folder, seals):
    chain = (seals / "chain").read_text()
    (seals / "chain").write_text(chain.replace(chain.splitlines()[0].split()[3], "104", 1))
    status, text = run("seal", seals, "--store", folder / "copy/books.db")
    assert (status, "isn't over the line in front of it" in text) == (2, True), text


@pytest.mark.parametrize("name, change", [("000001.rows", ("match", "short")), ("000001.seal", ("@all", "acme"))])
def test_a_changed_file(seals, name, change):
    text = (seals / name).read_text()
    assert change[0] in text
    (seals / name).write_text(text.replace(*change, 1))
    expect_said(run("seal", "--verify", seals), (name,))


def test_compressed_rows(folder, seals):
    subprocess.run(["gzip", "-k", seals / "000001.rows"], check=True)
    told = run("seal", "--verify", seals / "000001.rows.gz", folder / "copy/books.db")
    assert told == (0, "Nothing found.\n")


# ---- a customer's own seals


def test_live(made, folder, tmp_path, found):
    """A customer's seal is a part of the plant's; and seals are made while a station works."""
    token = tmp_path / "acme.token"
    token.write_text(TOKENS["a2"])
    token.chmod(0o600)
    own, more = tmp_path / "acme-seals", ["--url", made.url, "--token", token]
    words = ["seal", own, "--customer", "acme", *more]
    own.mkdir()
    assert run(*words)[0] == 0
    plants, kinds = (folder / "plant/000001.rows").read_text().splitlines(), ("order", "device", "record", "entry")
    of_acme = [line for line in plants if line.split(" ")[0] in kinds and line.split(" ")[1] == "acme"]
    assert (own / "000001.rows").read_text().splitlines() == of_acme, "is a part of the plant's"
    stop, seat, count = threading.Event(), made.seat("a1"), [0]

    def live():
        digest = seat.import_map(MAP)
        seat.make_order("live", "acme-ca", "L", 5, 1, 5000)
        while not stop.wait(0.1):  # the plant's own clock goes on with each line, and its shift has eight hours
            ship(seat, f"240ac401{count[0]:04x}", "live", digest)
            count[0] += 1

    working = threading.Thread(target=live)
    working.start()
    statuses = [run(*words)[0] for _ in range(4)]
    stop.set()
    working.join()
    assert statuses == [0] * 4
    expect_said(run("seal", "--verify", own), ())
    assert run("seal", own, "--customer", "bolt", *more)[0] == 2, "another name"
    found(f"live: {count[0]} chips were shipped while 4 seals were made")


# ---- signatures and time stamps


@pytest.fixture(scope="module")
def keys(tmp_path_factory):
    """A folder with two pairs of minisign's, and the keys of a time-stamp service."""
    keys = tmp_path_factory.mktemp("keys")
    for name in ("own", "other"):
        made = ["minisign", "-G", "-W", "-p", keys / f"{name}.pub", "-s", keys / f"{name}.key"]
        subprocess.run(made, check=True, capture_output=True)
    make_keys(keys)
    return keys


@pytest.fixture
def stamped(folder, keys, tmp_path):
    """A folder with two seals that are signed and stamped; no more are, where the service errs or is away."""
    with stamp_service(keys) as service:
        words = ["seal", tmp_path, "--store", folder / "copy/books.db", "--minisign", keys / "own.key"]
        words += ["--tsa", service.url, "--tsa-ca", keys / "tsa-ca.pem"]
        assert [run(*words)[0] for _ in range(2)] == [0, 0]
        service.fault = "page"
        status, text = run(*words)
        assert (status, "is no time stamp of this seal" in text) == (3, True), "a page in the place of a stamp"
        service.fault = "old"
        assert run(*words)[0] == 3, "an older stamp"
    status, text = run(*words)
    assert (status, "No time stamp came" in text) == (3, True), "no service"
    assert len((tmp_path / "chain").read_text().splitlines()) == 2
    return tmp_path


def verified(keys, seals, name="own"):
    return run("seal", "--verify", seals, "--tsa-ca", keys / "tsa-ca.pem", "--minisign", keys / f"{name}.pub")


@SIGNED
def test_signatures_and_stamps(keys, stamped):
    told = "Nothing found.\n2 seals, 1 pair compared, 2 signatures and 2 stamps held, rows of 0 missing.\n"
    assert verified(keys, stamped) == (0, told)
    expect_said(verified(keys, stamped, "other"), ("another key signed it",))
    plain = ["minisign", "-V", "-q", "-p", keys / "own.pub", "-m", stamped / "000002.seal"]
    assert subprocess.run(plain, capture_output=True).returncode == 0, "by minisign itself"
    digest = (stamped / "chain").read_text().split()[-1]
    plain = ["openssl", "ts", "-verify", "-digest", digest, "-in", stamped / "000002.tsr"]
    plain += ["-CAfile", keys / "tsa-ca.pem"]
    assert subprocess.run(plain, capture_output=True).returncode == 0, "by openssl itself"


@SIGNED
def test_other_stamps(keys, stamped):
    """Stamps that began later, and the stamp of another seal."""
    kept = (stamped / "000001.tsr").read_bytes()
    (stamped / "000001.tsr").unlink()
    status, text = verified(keys, stamped)
    assert (status, "1 seal in front of" in text, "2 signatures and 1 stamp held" in text) == (0, True, True), text
    (stamped / "000001.tsr").write_bytes(kept)
    shutil.copy(stamped / "000001.tsr", stamped / "000002.tsr")
    expect_said(verified(keys, stamped), ("000002.tsr is no time stamp",))


@SIGNED
@pytest.mark.parametrize("it", [pytest.param(it, id=it.name) for it in CHAINS])
def test_a_chain_by_hand(keys, tmp_path, it):
    """Of somebody with the keys."""
    it.make(Maker(keys, tmp_path))
    status, text = verified(keys, tmp_path)
    assert (status, [word for word in it.words if word not in text]) == (it.status, []), text


# ---- behind nginx


@pytest.mark.nginx
@pytest.mark.root
def test_deployed(program, found):
    """A customer's engineer seals through nginx, by an outer token that looks. There he has two ledgers in a second."""
    with tempfile.TemporaryDirectory() as name:
        os.chmod(name, 0o755)
        place = Place(name, program)
        try:
            seal_through_nginx(place, found)
        finally:
            place.close()


def seal_through_nginx(place, found):
    seats(place)
    with Station(f"http://127.0.0.1:{place.server.port}", "abc", place.folder / "a1.json", 20) as seat:
        digest = seat.import_map(MAP)
        seat.make_order("o1", "acme-ca", "S", 3, 1, DEPLOYED)
        for number in range(DEPLOYED):
            ship(seat, chip_of(number), "o1", digest)
    port, token = place.nginx(), place.folder / "look.token"
    status, _, told = place.token("add", "a1", "--look", "--holder", "acme's engineer", "--to", token)
    assert status == 0, told
    (place.folder / "seals").mkdir()
    words = ["--url", f"https://localhost:{port}", "--ca", place.folder / "etc/cert.pem", "--token", token]
    begun = time.monotonic()
    status, text = run("seal", place.folder / "seals", "--customer", "acme", *words)
    found(f"deployed: a seal of {DEPLOYED} chips through nginx took {time.monotonic() - begun:.1f} s")
    assert (status, text.split()[2:4]) == (0, ["acme", str(1 + 8 * DEPLOYED)]), text
    status, text = run("seal", "--verify", place.folder / "seals")
    assert (status, "No pair was compared" in text) == (3, True), text


# ---- large


@pytest.mark.sizes(200, 10_000)
def test_large(program, tmp_path, port, size, found):
    """The seconds and the memory of each over a store of many devices."""
    store, journal = large(str(program), tmp_path, size)
    for name in ("seals", "seals-http"):
        (tmp_path / name).mkdir()
    (tmp_path / "token").write_text("abc")
    (tmp_path / "token").chmod(0o600)
    rows, period = [tmp_path / f"seals/00000{number}.rows" for number in (1, 2)], ["--from", START, "--to", LATE]
    over = ["--token", tmp_path / "token", "--url", f"http://127.0.0.1:{port}"]
    jobs = {
        "seal of a copy": ["seal", tmp_path / "seals", "--store", store],
        "another": ["seal", tmp_path / "seals", "--store", store],
        "verify of both": ["seal", "--verify", *rows],
        "audit": ["audit", store, journal, *period, "--html", tmp_path / "audit.html"],
        "shift": ["shift", journal, *period, "--html", tmp_path / "shift.html"],
        "seal over HTTP": ["seal", tmp_path / "seals-http", "--customer", "acme", *over],
    }
    for file in tmp_path.glob("books.db*"):
        shutil.copy(file, tmp_path / file.name.replace("books", "served"))
    words = station(str(program), str(tmp_path / "site.toml"), str(tmp_path / "served.db"), port)
    server = Server(words, port).wait(Server.is_answering)
    try:
        for name, job in jobs.items():
            status, text, took, memory = measured(*job)
            assert status == 0, text
            found(f"{name} of {size} devices: {took:.1f} s, {memory:.0f} MB")
    finally:
        server.kill()
    found(f"rows of a seal: {rows[0].stat().st_size / 1e6:.1f} MB, journal: {journal.stat().st_size / 1e6:.1f} MB")
