"""station-restore restores one lost store again and again, is killed before each of its calls, and refuses.

The store is that of eight stations' work (gameday_plant.py), with a backup from before some of it. A restore that was
killed and begun again ends with the same tables, but for the numbers of its own seats; the lost files are in one folder
beside, and neither its own folder nor a server is left. What it refuses it refuses before it moves anything. As root it
takes the tokens from the file of station-token, and has all else done as the store's user.
"""

import contextlib
import json
import os
import shutil
import sqlite3
import subprocess
import tempfile
import time
from pathlib import Path

import pytest

from common.chip import Failed
from common.commands import PROJECT, PYTHON, command, killed_before
from common.users import AS_USER, USER, another_user, umask
from plant.gameday_plant import CALLS, CUSTOMERS, Plant
from plant.restores_forged import (
    first_of, pairs_of, signed, test_folders, test_foreign, test_left_out, test_lost, test_lost_is_distrusted, written,
)  # fmt: skip

# Those of journals that were forged or damaged are run with the bench that is here.
__all__ = ["test_folders", "test_foreign", "test_left_out", "test_lost", "test_lost_is_distrusted"]
pytestmark = pytest.mark.needs("reader", "sqlite3", "rsync")

# The tables that a restore brings back, without the numbers that the keeper draws.
TABLES = {
    "orders": "customer, name, issuer, prefix, width, first, quantity, macs, mac",
    "order_start": "*",
    "device": "*",
    "given": "issuer, serial, customer, key",
    "link": "customer, digest",
    "ledger": "customer, chip, n, event, note, bits, keys",
    "seat": "name, last",
}


def tables(path):
    """The rows of a store, without the seats that a restore asks by."""
    with contextlib.closing(sqlite3.connect(f"file:{path}?mode=ro", uri=True)) as base:
        rows = {name: sorted(map(repr, base.execute(f"SELECT {what} FROM {name}"))) for name, what in TABLES.items()}
    rows["seat"] = [row for row in rows["seat"] if "restore-" not in row]
    return rows


class Bench:
    """A lost store, the backup from before, and the journals, of which each trial has a copy."""

    def __init__(self, program, folder):
        self.folder, self.saved = Path(folder), Path(folder, "saved")
        self.saved.mkdir()
        self.plant = Plant(program, self.folder / "plant", 1)
        self.plant.start()
        self.plant.work(0.7)
        self.plant.server.kill()
        self.backup = self.plant.back_up()
        self.plant.start()
        self.plant.work(0.7)
        self.plant.server.kill()
        self.plant.gather()
        self.journals = self.plant.folder / "gathered"

    def place(self):
        """A new copy of the lost store."""
        folder = Path(tempfile.mkdtemp(dir=self.folder, prefix="place."))
        for file in self.plant.db.parent.glob("books.db*"):
            shutil.copy(file, folder)
        return folder

    def words(self, folder, *more, backup=None, journals=None, tokens=None):
        words = [backup or self.backup, self.plant.site, *(journals or [self.journals]), "--db", folder / "books.db"]
        words += ["--program", self.plant.program, "--tokens", tokens or self.plant.folder / "tokens"]
        words += ["--folders", self.plant.folders]
        return [str(it) for it in [*words, "--port", self.plant.port, "--backups", self.saved, *more]]

    def restore(self, folder, *more, call=0, **named):
        before = killed_before(call, CALLS) if call else [PYTHON, "-B"]
        words = [*before, str(PROJECT), "station-restore", *self.words(folder, *more, **named)]
        return subprocess.run(
            words, capture_output=True, text=True, timeout=120, stdin=subprocess.DEVNULL, check=False
        )

    def ends_well(self, folder, done, lost, is_second=False):
        """Fails unless a restore put the store in place, left nothing, and kept what was there. One behind another that
        was whole moves the store of that one aside too."""
        if done.returncode or "Stations may go on: " not in done.stdout:
            raise Failed(f"no restore: {done}")
        names = sorted(it.name for it in folder.iterdir())
        aside = sorted(folder.glob("lost-*"))
        kept = [it for it in aside if (it / "books.db").exists() and (it / "books.db-wal").exists()]
        is_kept = len(kept) == 1 + is_second and tables(kept[0] / "books.db") == lost
        if any(it.startswith("restoring") for it in names) or not is_kept:
            raise Failed(f"left: {names}, behind {done}")
        if servers_over(folder):
            raise Failed(f"a server is left over {folder}")

    def refuses(self, line, *more, folder=None, status=1, **named):
        """Fails unless a restore is refused with a line, and nothing of the store was moved."""
        folder = folder or self.place()
        before = {it.name: it.read_bytes() for it in folder.glob("books.db*")}
        done = self.restore(folder, *more, **named)
        if done.returncode != status or line not in done.stdout + done.stderr or "Traceback" in done.stderr:
            raise Failed(f"not refused by {line!r}: {done}")
        if status == 1 and {it.name: it.read_bytes() for it in folder.glob("books.db*")} != before:
            raise Failed(f"something was moved: {done}")
        if status == 3 and (folder / "books.db").exists():
            raise Failed("a store was put in place")
        return folder, done

    def copied(self, name):
        """A copy of all journals, to be changed."""
        shutil.copytree(self.journals, self.folder / name)
        return self.folder / name


def servers_over(folder):
    """The processes that have a file of a folder open, behind a moment in which one that was killed ends."""
    for _ in range(50):
        found = set()
        for link in Path("/proc").glob("[0-9]*/fd/*"):
            with contextlib.suppress(OSError):
                if os.readlink(link).startswith(f"{folder}/"):
                    found.add(link.parts[2])
        if not found:
            break
        time.sleep(0.1)
    return found


def made_bench(program):
    """A bench in a folder of its own; whose it is ends its server."""
    with tempfile.TemporaryDirectory() as folder:
        bench = Bench(program, Path(folder))
        yield bench
        bench.plant.server.kill()


@pytest.fixture(scope="module")
def bench(program):
    """The bench of another user than root, as a store is never root's."""
    with umask(0o077), another_user():
        made = made_bench(program)
        bench = next(made)
    yield bench
    next(made, None)


@pytest.fixture
def roots_bench(program):
    """Root's own bench, whose files a test gives away."""
    yield from made_bench(program)


@pytest.fixture(autouse=True)
def leave_root(request):
    """Root's tests go on as another user, but those that are of root. Nobody else reads a station's files."""
    with umask(0o077), contextlib.nullcontext() if request.node.get_closest_marker("root") else another_user():
        yield


@pytest.mark.sizes(60, 1)
def test_killed(bench, size):
    """Killed before each of its calls, or each `size`th, and begun again."""
    folder = bench.place()
    lost = tables(folder / "books.db")
    done = bench.restore(folder)
    bench.ends_well(folder, done, lost)
    whole = tables(folder / "books.db")
    missing = [row for what in ("given", "orders") for row in lost[what] if row not in whole[what]]
    if missing:
        raise Failed(f"not restored: {missing[:3]}")
    call = 1
    while True:
        folder = bench.place()
        if bench.restore(folder, call=call).returncode == 0:
            break
        # Killed behind its last step a restore is whole, and the next one restores anew.
        is_whole = (folder / "books.db").exists() and not (folder / "restoring.json").exists()
        is_second = is_whole and any(folder.glob("restored-*"))
        bench.ends_well(folder, bench.restore(folder), lost, is_second)
        if tables(folder / "books.db") != whole:
            raise Failed(f"killed before call {call} it restores another store")
        shutil.rmtree(folder)
        call += size
    assert call > 1, "no call was killed"


def test_refused(bench):
    plant = bench.plant
    plant.start()
    try:
        bench.refuses(f"has {plant.db}", folder=plant.db.parent)
        aside = plant.folder / "aside"
        aside.mkdir()
        for file in list(plant.db.parent.glob("books.db*")):
            shutil.copy(file, aside)
            file.unlink()
        bench.refuses(f"has {plant.db}", folder=plant.db.parent)
        bench.refuses(f"somebody listens on port {plant.port}")
    finally:
        plant.server.kill()
    for file in aside.iterdir():
        file.rename(plant.db.parent / file.name)
    empty = bench.folder / "empty"
    empty.mkdir()
    bench.refuses("no token of acme is in", tokens=empty)
    (empty / "restore-acme.token").write_text("another")
    bench.refuses("no token of acme is in", tokens=empty)
    changed = bench.folder / "changed"
    shutil.copytree(bench.backup, changed)
    data = bytearray((changed / "books.db").read_bytes())
    data[-1] ^= 1
    (changed / "books.db").write_bytes(data)
    bench.refuses("isn't as it was made", backup=changed)
    foreign = bench.folder / "foreign.journal"
    foreign.write_text('{"at":"2026-11-29T00:00:00Z","resynchronized":1}\n')
    bench.refuses("doesn't say whose it is", journals=[bench.journals, foreign])
    bench.refuses("two records that differ", journals=[bench.journals, f"acme={twice(bench)}"])


def test_damaged(bench):
    """What a backup or a run says of itself, damaged; an encrypted backup; folders that take no backup. Each is a
    sentence, before anything was moved."""
    about = json.loads((bench.backup / "about.json").read_text(encoding="utf-8"))
    cases = ["", "{}", "[]", '{"sha256": ', json.dumps(about | {"counts": 3}), json.dumps(about | {"sha256": {}})]
    for number, text in enumerate(cases):
        backup = bench.folder / f"damaged{number}"
        shutil.copytree(bench.backup, backup)
        (backup / "about.json").write_text(text, encoding="utf-8")
        bench.refuses(f"{backup}/about.json is damaged", backup=backup)
    for text in ("", "[]", '{"lost": 3}'):
        folder = bench.place()
        (folder / "restoring.json").write_text(text, encoding="utf-8")
        bench.refuses(f"{folder}/restoring.json is damaged", folder=folder)
    made = bench.folder / "2026-11-28T020005Z.tar.age"
    made.write_bytes(b"age-encryption.org/v1\n")
    bench.refuses(f"{made} is encrypted: decrypt it first, where its key is", backup=made)
    bench.refuses("is no folder", backup=bench.backup / "books.db")


# Mounts a small disk, locks it where that is said, and runs the words behind.
SMALL = 'mount -t tmpfs -o "size=$1,uid=65534" tmpfs "$2" && mount -o "remount,$3" "$2"'
SMALL += ' && shift 3 && exec "$@"'


@pytest.mark.root
@pytest.mark.needs("mounts")
def test_disks(roots_bench):
    """A folder of backups on a disk that is read-only, before anything begins; and a full disk, which is named."""
    bench = roots_bench
    at, own = bench.folder / "at", ["unshare", "-m", "sh", "-c", SMALL, "sh"]
    at.mkdir()
    given = [*AS_USER, *command("station-restore")]
    cases = (
        ("1m", "ro", f"the restored store is backed up in {at}, which isn't there, is read-only", at, bench.place()),
        ("16k", "rw", f"No space left at {at}: a restore needs", bench.saved, at),
    )
    for size, mode, line, saved, folder in cases:
        subprocess.run(["chown", "-R", f"{USER}:{USER}", bench.folder], check=True)
        words = [*given, *bench.words(folder), "--backups", saved]
        done = subprocess.run(
            [*own, size, at, mode, *words], capture_output=True, text=True, timeout=120, stdin=subprocess.DEVNULL,
            check=False,
        )  # fmt: skip
        if done.returncode != 1 or line not in done.stderr or "the backup of" in done.stdout:
            raise Failed(f"not refused by {line!r}: {done}")


def twice(bench):
    """A journal in which an identity that there is stands for another chip."""
    asked, reply = first_of(bench.journals, "/v1/identity", CUSTOMERS["acme"])
    reply["reply"]["chip"] = asked["asked"]["chip"] = "ffffffffffff"
    made = bench.folder / "twice.journal"
    made.write_text(written([signed(asked), reply]))
    return made


def with_rows(bench):
    """A customer but acme and a seat of it that made an order or got an identity behind the backup."""
    counts = json.loads((bench.backup / "about.json").read_text(encoding="utf-8"))["counts"]
    last = {line.split()[1]: int(line.split()[2]) for line in counts if line.startswith("seat ")}
    made = ("/v1/order", "/v1/identity")
    for customer, seat in ((it, seat) for it in ("bolt", "cord") for seat in CUSTOMERS[it]):
        pairs = pairs_of(bench.journals, seat)
        if any(it["path"] in made and it["asked"]["nr"] > last[seat] for it, _ in pairs):
            return customer, seat
    pytest.skip("no seat made an order or got an identity behind the backup")


def test_kept(bench):
    """What keeps stations from going on."""
    customer, seat = with_rows(bench)
    others = [bench.copied("others")]
    shutil.rmtree(others[0] / seat)
    folder, done = bench.refuses(f"the seat {seat} of {customer} has no journal here", status=3, journals=others)
    if "of the lost store are in no journal" not in done.stdout:
        raise Failed(f"the lost store's rows aren't told: {done}")
    done = bench.restore(folder, "--without", seat, journals=others)
    if done.returncode != 3 or "has no journal" in done.stdout:
        raise Failed(f"--without: {done}")
    done = bench.restore(folder, "--without", seat, "--accept-missing", "acme", journals=others)
    if done.returncode != 3 or f"- {customer}: " not in done.stdout or "- acme: " in done.stdout:
        raise Failed(f"--accept-missing of another customer: {done}")
    done = bench.restore(folder)
    if done.returncode:
        raise Failed(f"with the journal: {done}")
    cut = bench.copied("cut")
    path = next(iter(sorted(cut.rglob(f"{seat}-*.journal"))))
    lines = path.read_bytes().splitlines(keepends=True)
    path.write_bytes(b"".join(lines[:-8] + lines[-2:]))
    bench.refuses(f"of {seat} are in no journal", status=3, journals=[cut])
    counts = json.loads((bench.backup / "about.json").read_text(encoding="utf-8"))["counts"]
    last = next(int(line.split()[2]) for line in counts if line.startswith(f"seat {seat} "))
    went_on = [{"resynchronized": last + 1}, {"path": "/v1/ship", "asked": {"chip": 12 * "f", "nr": last + 3}}]
    more = [signed({"at": "2099-01-01T00:00:00Z", "seat": seat, **it}) for it in went_on]
    path.write_bytes(b"".join(lines) + written(more).encode())
    line = f"the numbers {last + 1} to {last + 2} of {seat} are in no journal"
    empty = Path(tempfile.mkdtemp(dir=bench.folder, prefix="empty."))
    bench.refuses(line, status=3, journals=[cut], folder=empty)
    path.write_bytes(b"".join(lines[:2]))
    bench.refuses(f"the journal of {seat} ends with number", status=3, journals=[cut])


@pytest.mark.root
def test_root(roots_bench):
    """As root, with the file of station-token: the restored store is its user's, and root's journals are refused."""
    bench = roots_bench
    folder, tokens = bench.place(), bench.folder / "tokens.conf"
    words = [*command("station-token"), "--file", tokens, "--no-reload", "seat", "--site", bench.plant.site]
    for customer in CUSTOMERS:
        seat = f"restore-{customer}"
        words_of = [*words, seat, "--known", bench.plant.folder / f"tokens/{seat}.token"]
        subprocess.run([str(it) for it in words_of], check=True, capture_output=True)
    for path in (bench.folder, bench.plant.folder, bench.backup.parent):
        path.chmod(0o711)
    for path in (folder, bench.backup, bench.plant.site, bench.saved):
        subprocess.run(["chown", "-R", f"{USER}:{USER}", str(path)], check=True)
    told = bench.restore(folder, tokens=tokens)
    if told.returncode != 1 or "can't read" not in told.stderr or not (folder / "books.db").exists():
        raise Failed(f"root's journals: {told}")
    subprocess.run(["chown", "-R", f"{USER}:{USER}", str(bench.journals)], check=True)
    done = bench.restore(folder, tokens=tokens)
    owners = {path.stat().st_uid for path in folder.rglob("*")}
    if done.returncode or owners != {USER} or tokens.stat().st_uid:
        raise Failed(f"as root: {done}, files of {owners}")


def test_stopped(bench):
    """--stop has systemd stop the server; a script stands for systemctl."""
    plant, tools = bench.plant, bench.folder / "bin"
    lost = tables(plant.db)
    plant.start()
    tools.mkdir()
    systemctl = tools / "systemctl"
    systemctl.write_text(f'#!/bin/sh\ntest "$*" = "stop station" && kill {plant.server.process.pid} && sleep 0.5\n')
    systemctl.chmod(0o755)
    before, os.environ["PATH"] = os.environ["PATH"], f"{tools}:{os.environ['PATH']}"
    try:
        bench.ends_well(plant.db.parent, bench.restore(plant.db.parent, "--stop", "station"), lost)
    finally:
        os.environ["PATH"] = before
        plant.server.kill()
