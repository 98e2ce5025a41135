"""station-backup makes backups of stores on a disk, and refuses what is none.

The store is that of the life of a chip (common/chip.py). A backup has the bytes of both files and of the site file,
makes and changes nothing beside the store, and prints the numbers of orders, devices and records and that of each seat.
What is refused has its line and status 1, and leaves no folder. Backups of one folder stay by days and weeks, a failure
is noted there, and what age encrypts is the store. test_backups_root.py has what root does with snapshots;
tests/machines has the same under load.
"""

import contextlib
import hashlib
import json
import os
import re
import shlex
import shutil
import signal
import sqlite3
import subprocess
import time
from pathlib import Path

import pytest

from common.chip import SITE, Failed, replay_words, requests, served, store_at
from common.commands import PROJECT, command, copy_project
from common.needs import ROOT
from common.ports import free_port
from common.served import Server, station

pytestmark = pytest.mark.needs("sqlite3")

BACKUP = PROJECT / "bin/station-backup"
MISSING = "is missing or empty"
OTHERS = "aren't one user's"
OTHER = 65534
LOCKED = "is locked"

# What is printed of a store with the chip's life, and of one without.
LIFE, NONE = ["orders 1", "devices 1", "records 1", "seat a1 8"], ["orders 0", "devices 0", "records 0"]

# Mounts the folder of a store read-only at another, and runs the words that stand behind.
READ_ONLY = 'mount --bind "$1" "$2" && mount -o remount,bind,ro "$2" && shift 2 && exec "$@"'


def page_bytes(path):
    """How many bytes a page of a store has, by its header."""
    return int.from_bytes(path.read_bytes()[16:18], "big")


def files_in(folder):
    """The files of a folder, with their bytes."""
    return {path.name: path.read_bytes() for path in sorted(folder.iterdir()) if path.is_file()}


class Bench:
    """The program, a folder, the store of a life, and a server over it."""

    def __init__(self, program, folder, port):
        self.program, self.folder, self.port = program, Path(folder), port
        self.made, self.backup = self.folder / "made.db", self.folder / "backup"
        self.version = subprocess.run([program, "--version"], capture_output=True, text=True).stdout.strip()
        served(replay_words(program, self.made), b"".join(requests()))

    def copy(self, name):
        """A copy of the store, in a folder of its own."""
        (self.folder / name).mkdir()
        path = self.folder / name / "books.db"
        for file, to in zip(store_at(self.made), store_at(path), strict=True):
            shutil.copyfile(file, to)
        return path

    def server(self, path):
        words = station(str(self.program), str(SITE), str(path), self.port)
        return Server(words, self.port).wait(Server.is_listening)

    def words(self, path, program=None, site=SITE):
        named = ["--program", str(program or self.program), "--site", str(site), "--db", str(path)]
        return [str(BACKUP), *named, str(self.backup)]

    def run(self, words):
        """The status, the lines and the error of a backup."""
        done = subprocess.run(words, capture_output=True, text=True, timeout=60, check=False)
        return done.returncode, done.stdout.splitlines(), done.stderr

    def makes(self, path, said, words=None):
        """Fails unless a backup is made, with the bytes of the store and nothing beside that."""
        before = files_in(path.parent)
        status, lines, error = self.run(words or self.words(path))
        if status or error or lines != [*said, f"backed up in {self.backup}"]:
            raise Failed(f"status {status}, {lines}, {error!r}")
        store = [it.read_bytes() for it in store_at(path.resolve())]
        files = dict(zip(("books.db", "books.db-wal"), store, strict=True))
        found = files_in(self.backup)
        about = json.loads(found.pop("about.json"))
        if found != files | {"site.toml": SITE.read_bytes()}:
            raise Failed("the backup hasn't the bytes of the store")
        digests = {name: hashlib.sha256(data).hexdigest() for name, data in found.items()}
        if about["sha256"] != digests or about["counts"] != said or about["program"] != self.version:
            raise Failed(f"the backup says of itself {about}")
        if files_in(path.parent) != before or len(list(self.backup.iterdir())) != 4:
            raise Failed("the folder of the store was changed, or the backup has more")
        shutil.rmtree(self.backup)

    def refuses(self, path, line, words=None):
        """Fails unless the backup is refused with the line, and nothing is left or made."""
        before = sorted(it.name for it in path.parent.iterdir())
        status, lines, error = self.run(words or self.words(path))
        if status != 1 or lines or line not in error:
            raise Failed(f"status {status}, {lines}, {error!r} and not {line!r}")
        if self.backup.exists() or sorted(it.name for it in path.parent.iterdir()) != before:
            raise Failed("something is left")


@pytest.fixture
def bench(program: Path, tmp_path: Path) -> Bench:
    return Bench(program, tmp_path, free_port())


def test_made(bench):
    """Stores are backed up: joined, by a link, killed before its first join, never used, with earlier pages."""
    path = bench.copy("joined")
    bench.makes(path, LIFE)
    if store_at(path)[1].stat().st_size != 41:
        raise Failed("the log of a joined store hasn't 41 bytes")
    (bench.folder / "link").mkdir()
    link = bench.folder / "link/other.db"
    link.symlink_to(path)
    bench.makes(link, LIFE)
    new = bench.folder / "new/books.db"
    new.parent.mkdir()
    bench.server(new).kill()
    bench.makes(new, NONE)
    served(replay_words(bench.program, new), b"")
    bench.makes(new, NONE)
    old = bench.folder / "old/books.db"
    old.parent.mkdir()
    with contextlib.closing(sqlite3.connect(old, isolation_level=None)) as base:
        for pragma in ("page_size = 4096", "journal_mode = WAL"):
            base.execute(f"PRAGMA {pragma}")
    served(replay_words(bench.program, old), b"".join(requests()))
    if page_bytes(old) != 4096 or page_bytes(new) == 4096:
        raise Failed(f"pages of {page_bytes(old)} and {page_bytes(new)} bytes")
    bench.makes(old, LIFE)


def test_refused(bench):
    """What is no store, or half of one, or one that changes."""
    path = bench.copy("alone")
    bench.refuses(path.with_name("none.db"), "no store")
    log = store_at(path)[1]
    log.write_bytes(b"")
    bench.refuses(path, MISSING)
    log.unlink()
    bench.refuses(path, MISSING)
    path = bench.copy("changing")
    program = bench.folder / "program"
    log = shlex.quote(str(store_at(path)[1]))
    program.write_text(f'#!/bin/sh\nprintf x >> {log}\nexec {shlex.quote(str(bench.program))} "$@"\n')
    program.chmod(0o755)
    bench.refuses(path, "isn't as it was copied", bench.words(path, program))
    other = bench.folder / "other.toml"
    other.write_text("customer = []\n")
    bench.refuses(bench.copy("other"), "the program refuses", bench.words(path, site=other))


AS_OTHER = ["setpriv", f"--reuid={OTHER}", f"--regid={OTHER}", "--clear-groups"]


@pytest.mark.root
@pytest.mark.parametrize("before", [AS_OTHER, []], ids=["by that user", "by root"])
def test_owned(bench, open_folder, before):
    """A store of another user, whom root has back it up, into a folder of that user's alone."""
    path, out = open_folder / "books.db", open_folder / "made"
    for file, to in zip(store_at(bench.made), store_at(path), strict=True):
        shutil.copyfile(file, to)
    script = command("station-backup", copy_project(open_folder))
    program, site = (shutil.copy(it, open_folder) for it in (bench.program, SITE))
    for it in (open_folder, path, store_at(path)[1]):
        os.chown(it, OTHER, OTHER)
    bench.refuses(path, OTHERS)
    words = [*before, *script, "--program", program, "--site", site, "--db", str(path), str(out)]
    done = subprocess.run(words, capture_output=True, text=True, timeout=60, check=False)
    owners = {it.stat().st_uid for it in (out, *out.iterdir())} if out.exists() else set()
    if done.returncode or done.stdout.splitlines()[:-1] != LIFE or owners != {OTHER}:
        raise Failed(f"status {done.returncode}, {done.stderr!r}, {owners}")


@pytest.mark.parametrize("is_mounted", [False, pytest.param(True, marks=pytest.mark.needs("unshare"))])
def test_served(bench, is_mounted):
    """A store that a server has is refused, also where its folder is mounted read-only, and else backed up."""
    path, at = bench.copy("served"), bench.folder / "at"
    at.mkdir()
    mounted = ["unshare", "-rm", "sh", "-c", READ_ONLY, "sh", str(path.parent), str(at)]
    words = [*mounted, *bench.words(at / path.name)] if is_mounted else bench.words(path)
    server = bench.server(path)
    try:
        bench.refuses(path, LOCKED, words)
    finally:
        server.kill()
    bench.makes(path, LIFE, words)


# Of backups of these days, with the one that is made now: what stays of two days and three weeks. 2020-12-31 and
# 2021-01-01 are of one week (ISO 8601), and of two backups of a day the later one counts.
DAYS = ["2020-12-20T020000Z", "2020-12-27T020000Z", "2020-12-31T020000Z", "2021-01-01T020000Z", "2021-01-01T030000Z"]
STAY = ["2020-12-27T020000Z", "2021-01-01T030000Z"]


class All:
    """A folder of backups, and runs of station-backup into it."""

    def __init__(self, bench, name):
        self.bench, self.folder = bench, bench.folder / name
        self.folder.mkdir()

    def run(self, path, *more):
        words = [*self.bench.words(path)[:-1], "--into", str(self.folder), *more]
        status, lines, error = self.bench.run(words)
        return status, lines, error, json.loads((self.folder / "last-backup.json").read_text(encoding="utf-8"))

    def names(self):
        return sorted(it.name for it in self.folder.iterdir() if it.name not in ("last-backup.json", "backup.lock"))

    def fails(self, path, line, *more):
        """Fails unless a run fails with the line, notes it, and leaves nothing."""
        status, _, error, last = self.run(path, *more)
        if status != 1 or line not in error or last["ok"] or line not in last["said"] or self.names():
            raise Failed(f"status {status}, {error!r}, {last}, {self.names()}")


def test_kept(bench):
    """Backups beside earlier ones: which stay, what is noted, and one that is encrypted."""
    path, kept = bench.copy("kept"), All(bench, "kept-all")
    for day in DAYS:
        (kept.folder / day).mkdir()
    (kept.folder / ".new-2020-01-01T020000Z").mkdir()
    status, lines, error, last = kept.run(path, "--keep-days", "2", "--keep-weeks", "3")
    (made,) = set(kept.names()) - set(DAYS)
    gone = [f"removed {day}" for day in DAYS if day not in STAY]
    size = sum(it.stat().st_size for it in (kept.folder / made).iterdir())
    said = f"backed up in {kept.folder / made}"
    if status or lines != [*LIFE, *gone, said] or ".new-2020-01-01T020000Z" not in error:
        raise Failed(f"status {status}, {lines}, {error!r}")
    if kept.names() != [*STAY, made] or (last["ok"], last["bytes"], last["said"]) != (True, size, said):
        raise Failed(f"{kept.names()}, {last}")
    empty = All(bench, "failed-all")
    log = store_at(path)[1]
    empty.fails(path.with_name("none.db"), "no store")
    empty.fails(path, "age doesn't encrypt", "--recipient", "age1none")
    log.unlink()
    empty.fails(path, MISSING)


@pytest.mark.needs("age")
def test_encrypted(bench):
    """What is encrypted, by age itself, and nothing in plain."""
    path, kept, key = bench.copy("encrypted"), All(bench, "encrypted-all"), bench.folder / "backup.key"
    subprocess.run(["age-keygen", "-o", key], capture_output=True, check=True)
    public = subprocess.run(["age-keygen", "-y", key], capture_output=True, text=True, check=True).stdout.strip()
    status, lines, error, last = kept.run(path, "--recipient", public)
    (name,) = kept.names()
    if status or error or not name.endswith("Z.tar.age") or lines != [*LIFE, last["said"]] or not last["ok"]:
        raise Failed(f"status {status}, {lines}, {error!r}, {name}")
    opened = bench.folder / "opened"
    opened.mkdir()
    plain = subprocess.run(["age", "-d", "-i", key, kept.folder / name], capture_output=True, check=True).stdout
    subprocess.run(["tar", "-x", "-C", opened], input=plain, check=True)
    found = files_in(opened / name.partition(".")[0])
    if found["books.db"] != path.read_bytes() or found["books.db-wal"] != store_at(path)[1].read_bytes():
        raise Failed("the encrypted backup has other bytes")
    if b"acme-ca" in (kept.folder / name).read_bytes():
        raise Failed("it is in plain")


def test_copied(bench):
    """Weeks in which nothing can be copied off: the backups that don't stay go all the same."""
    path, kept = bench.copy("copied"), All(bench, "copied-all")
    for day in DAYS:
        (kept.folder / day).mkdir()
    status, _, error, last = kept.run(path, "--keep-days", "2", "--keep-weeks", "3", "--copy-with", "false")
    if status != 1 or last["ok"] or "wasn't copied off: false ended with status 1" not in error:
        raise Failed(f"status {status}, {error!r}, {last}")
    if set(kept.names()) & set(DAYS) != set(STAY) or len(kept.names()) != len(STAY) + 1:
        raise Failed(f"not tidied where it isn't copied off: {kept.names()}")


# Mounts a small disk, makes it as the words say, runs the words behind, and says what is in it then.
SMALL = """at=$1 left=$2 size=$3 made=$4; shift 4
mount -t tmpfs -o "size=$size" tmpfs "$at" && (cd "$at" && eval "$made") || exit 99
"$@"; status=$?; ls -A "$at" > "$left"; exit $status"""
NOTED = "echo '{\"ok\": true}' > last-backup.json; touch backup.lock"


@pytest.mark.needs("unshare")
def test_full(bench):
    """A disk with too little room for each step, one that is full already, and one that is read-only."""
    path, at, left = bench.copy("full"), bench.folder / "small", bench.folder / "left"
    at.mkdir()
    words = [*bench.words(path)[:-1], "--into", str(at)]

    def run(size, made):
        small = ["unshare", "-rm", "sh", "-c", SMALL, "sh", str(at), str(left), str(size), made]
        status, lines, error = bench.run([*small, *words])
        names = left.read_text(encoding="utf-8").split() if left.exists() else []
        return status, lines, error, [it for it in names if it not in ("backup.lock", "last-backup.json", "rest")]

    both = sum(it.stat().st_size for it in store_at(path))
    for size in (both // 2, both * 3 // 2, both * 2 + 16384):
        status, _, error, names = run(size, ":")
        needs = re.search(f"No space left at {re.escape(str(at))}: .* ([0-9]+) MB", error)
        if status != 1 or names or not needs or f"{path}: No" in error:
            raise Failed(f"a disk of {size} bytes: status {status}, {names}, {error!r}")
    status, lines, error, names = run(f"{needs[1]}000000", ":")
    if status or error or len(names) != 1:
        raise Failed(f"a disk of {needs[1]} MB: status {status}, {lines}, {error!r}")
    cases = (
        (f"{NOTED}; head -c 1m /dev/zero > rest || :", "No space left"),
        (f"{NOTED}; mount -o remount,ro .", "Read-only file system"),
    )
    for made, cause in cases:
        status, _, error, names = run("256k", made)
        if status != 1 or names or cause not in error or "last-backup.json doesn't say so" not in error:
            raise Failed(f"{cause}: status {status}, {names}, {error!r}")


# Stands for an `age` that works for long.
SLOW = "#!/bin/sh\ntouch {0}/at-work\nexec sleep 60\n"


def begun_in(folder):
    """What a killed run has left there, which has to have the site in plain."""
    begun = list(folder.glob(".new-*"))
    if not any(b"acme-ca" in it.read_bytes() for path in begun if path.is_dir() for it in path.iterdir()):
        raise Failed(f"a kill left no copy in plain: {begun}")
    return begun


def killed_at_work(words, room):
    """Kills a backup, and all that it started, while age works; age has a minute."""
    backup = subprocess.Popen(words, stdout=subprocess.DEVNULL, stderr=subprocess.DEVNULL, start_new_session=True)
    end = time.monotonic() + 60
    while not (room / "at-work").exists():
        if time.monotonic() > end or backup.poll() is not None:
            raise Failed(f"age isn't at work: {backup.poll()}")
        time.sleep(0.02)
    os.killpg(backup.pid, signal.SIGKILL)
    backup.wait()
    (room / "at-work").unlink()


def is_gone(folder, status, error, begun):
    names = sorted(it.name for it in begun)
    said = [f"backup: an earlier run left {name}, which is removed now" for name in names]
    if status or error.splitlines()[-len(said) :] != said or list(folder.glob(".new-*")):
        raise Failed(f"--clean: status {status}, {error!r}, {list(folder.iterdir())}")


@pytest.mark.parametrize("is_boot", [False, pytest.param(True, marks=pytest.mark.needs("root", "systemd-tmpfiles"))])
def test_plain(bench, is_boot):
    """A backup that is killed while age works leaves the store in plain: `--clean` and a boot take it away."""
    path, kept, room = bench.copy("plain"), All(bench, "plain-all"), bench.folder / "slow"
    room.mkdir()
    (room / "age").write_text(SLOW.format(room), encoding="utf-8")
    (room / "age").chmod(0o755)
    into = ["--into", str(kept.folder)]
    words = ["env", f"PATH={room}:{os.environ['PATH']}", *bench.words(path)[:-1], *into, "--recipient", "age1q"]
    killed_at_work(words, room)
    if is_boot:
        at_boot(bench, kept.folder)
        return
    clean = [str(BACKUP), "--db", str(path), *into, "--clean"]
    begun, (status, _, error) = begun_in(kept.folder), bench.run(clean)
    is_gone(kept.folder, status, error, begun)


def at_boot(bench, folder):
    """The line for a boot, over a machine's folders that are elsewhere."""
    machine = bench.folder / "machine"
    there = machine / "var/backups/station"
    there.parent.mkdir(parents=True)
    folder.rename(there)
    begun_in(there)
    (there / "trial.abc").mkdir()
    (there / DAYS[0]).mkdir()
    (there / ".new-link").symlink_to(bench.made.parent)
    conf = machine / "usr/lib/tmpfiles.d/wanekupo.conf"
    conf.parent.mkdir(parents=True)
    shutil.copy(ROOT / "deploy/tmpfiles.conf", conf)
    before = bench.made.read_bytes()
    for more in ([], ["--boot"]):
        subprocess.run(["systemd-tmpfiles", f"--root={machine}", "--remove", *more], check=True, capture_output=True)
        left = sorted(it.name for it in there.iterdir() if it.name not in ("backup.lock", "last-backup.json"))
        if more and left != [DAYS[0]] or not more and len(left) < 4 or bench.made.read_bytes() != before:
            raise Failed(f"systemd-tmpfiles {more} leaves {left}")
