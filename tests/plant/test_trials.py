"""station-site and station-restart try a start where all backups are encrypted, and their key is elsewhere.

The store is on Btrfs and another user's, whose last backup is encrypted by age. A growth and a restart take a snapshot,
start the program over a copy of the store as it is now, and are refused where it doesn't start. Without a kind of
snapshot they say what isn't tried. The file that says the kind is the store's user's, so it is distrusted. A trial that
is killed before one of its calls has what it left removed by the next run; a signal in the middle leaves nothing, and
the server runs. Behind each no snapshot, no mount and no copy in plain is there.
"""

import json
import os
import shutil
import signal
import subprocess
import tempfile
import time
from collections.abc import Iterator
from pathlib import Path

import pytest

from common.chip import Failed
from common.commands import PYTHON, command
from common.deployed import expect
from machines.snapshots_place import KILLED
from plant.house import House

pytestmark = [
    pytest.mark.root, pytest.mark.needs("mkfs.btrfs", "age", "sqlite3", "setpriv", "runuser", "curl", "flock"),
]  # fmt: skip

USER, ROOM = "nobody", "wanekupo-room."
SYSTEMCTL = '#!/bin/sh\ntest "$1" = is-active\n'
# A program that doesn't start over some stores, or waits there until it is stopped.
REFUSES = '#!/bin/sh\ncase "$*" in *%s*) echo "station: refused here" >&2; exit 1;; esac\nexec %s "$@"\n'
WAITS = '#!/bin/sh\ncase "$*" in *%s*) : > %s; sleep 60;; esac\nexec %s "$@"\n'
NOW = "a copy of the store as it is now"


def ran(*words, **options) -> subprocess.CompletedProcess:
    return subprocess.run([str(it) for it in words], capture_output=True, text=True, check=False, **options)


class Place:
    """A house whose store is on Btrfs and another user's, with one backup, which is encrypted."""

    def __init__(self, program: Path, folder: Path):
        self.program, self.folder = program, folder
        self.house = House(program, folder / "house")
        self.house.build()
        store, image = self.house.db.parent, folder / "image"
        plain = store.rename(folder / "plain")
        store.mkdir()
        ran("truncate", "-s", "256M", image)
        volume = store / "books"
        for words in (["mkfs.btrfs", "-q", image], ["mount", "-o", "loop", image, store],
                      ["btrfs", "subvolume", "create", volume], ["umount", store],
                      ["mount", "-o", f"loop,subvol={volume.name}", image, store]):  # fmt: skip
            if (done := ran(*words)).returncode:
                raise Failed(f"{words}: {done.stderr}")
        for file in plain.iterdir():
            shutil.copy(file, store)
        shutil.rmtree(self.house.backups / "night")
        self.house.give_away()
        store.chmod(0o700)
        key = folder / "backup.key"
        ran("age-keygen", "-o", key)
        self.public = ran("age-keygen", "-y", key).stdout.strip()
        (folder / "bin").mkdir()
        (folder / "bin/systemctl").write_text(SYSTEMCTL)
        (folder / "bin/systemctl").chmod(0o755)
        self.house.service("start")
        self.expect_backup()

    def close(self) -> None:
        self.house.end()
        ran("umount", self.house.db.parent)

    def backup(self, *words, user: str = "root") -> subprocess.CompletedProcess:
        common = ["--program", self.program, "--site", self.house.site, "--db", self.house.db]
        common += ["--into", self.house.backups, *words]
        return ran("runuser", "-u", user, "--", *command("station-backup"), *common)

    def expect_backup(self) -> str:
        """An encrypted backup by a snapshot; what it told."""
        done = self.backup("--snapshot", "btrfs", "--recipient", self.public)
        is_there = any(self.house.backups.glob("*.tar.age"))
        expect(f"a backup: {done.stderr}", (done.returncode, is_there), (0, True))
        return done.stderr

    def trial(self, *words, killed=()) -> subprocess.CompletedProcess:
        before = [PYTHON, "-B", *(["-c", KILLED, *killed] if killed else [])]
        common = ["--trial", "--db", self.house.db, "--into", self.house.backups, *words]
        common.append(self.house.backups / "tried-by-site.x")
        return ran(*before, *command("station-backup")[2:], *common, start_new_session=True)

    def restart_words(self, *words) -> list:
        metrics = self.folder / "metrics.prom"
        rows = {"metrics_timestamp_seconds": time.time(), "connections_left": 100, "server_memory_bytes": 1e6,
                "start_memory_limit_bytes": 1e9, "start_memory_bytes": 1e6}  # fmt: skip
        metrics.write_text("".join(f"wanekupo_{name} {value}\n" for name, value in rows.items()))
        named = ["--db", self.house.db, "--site", self.house.site, "--backups", self.house.backups]
        named += ["--room", self.house.rooms]
        return [*command("station-restart"), "--check", *named, "--metrics", metrics, "--program", self.program, *words]

    def restart(self, *words) -> subprocess.CompletedProcess:
        return ran(*self.restart_words(*words), env=self.environment())

    def environment(self) -> dict[str, str]:
        return os.environ | {"PATH": f"{self.folder}/bin:{os.environ['PATH']}"}

    def program_that(self, text: str, *words) -> Path:
        path = self.folder / f"program{len(list(self.folder.glob('program*')))}"
        path.write_text(text % (*words, self.program))
        path.chmod(0o755)
        return path

    def note(self, text: str) -> None:
        """Writes how the last backup went, as the store's user might."""
        path = self.house.backups / "last-backup.json"
        path.unlink(missing_ok=True)
        path.write_text(text)
        shutil.chown(path, USER)

    def is_clean(self, what: str) -> None:
        lines = Path("/proc/mounts").read_text("utf-8").splitlines()
        mounts = [line for line in lines if " /run/station-backup/" in line]
        lines = ran("btrfs", "subvolume", "list", self.house.db.parent).stdout.splitlines()
        volumes = [line for line in lines if not line.endswith(" path books")]
        copies = [it.name for it in self.house.backups.iterdir() if it.name.startswith((".new", "tried-by-site"))]
        copies += [it.name for it in self.house.rooms.iterdir()]
        expect(f"{what}: what is left", (mounts, volumes, copies), ([], [], []))
        expect(f"{what}: the server's answer", self.house.asked("abc"), 404)


@pytest.fixture(scope="module")
def place(program: Path) -> Iterator[Place]:
    with tempfile.TemporaryDirectory() as folder:
        os.chmod(folder, 0o755)
        shutil.copy(program, Path(folder, "station"))
        place = Place(Path(folder, "station"), Path(folder))
        try:
            yield place
        finally:
            place.close()


def test_growths(place: Place) -> None:
    """A growth and a restart are tried over a copy of the store as it is now, and refused where it doesn't start."""
    run = place.house.run("add-seat", "acme", "a2", "--to", str(place.house.given))
    expect(run.said, (run.status, f"{NOW} took it, as the newest backup is encrypted" in run.said), (0, True))
    done = place.restart()
    expect(done.stderr, (done.returncode, f"by a start of {NOW}" in done.stdout), (0, True))
    place.is_clean("tried")
    refusing = place.program_that(REFUSES, ROOM)
    done = place.restart("--program", refusing)
    expect(done.stdout, (done.returncode, f"no restart: {NOW} doesn't start" in done.stderr), (1, True))
    place.house.other_words = {"--program": place.program_that(REFUSES, ROOM)}
    run = place.house.run("apply")
    expect(run.said, (run.status, f"{NOW} refuses it: station: refused here" in run.said), (1, True))
    place.house.other_words = {}
    place.is_clean("refused")
    run = place.house.run("apply")
    expect(run.said, (run.status, place.house.left()), (0, []))
    expect("the new seat", 'name = "a2"' in place.house.site.read_text(), True)
    (made,) = place.house.backups.glob("before-*")
    done = place.restart()
    expect("the newest is plain", f"by a start of the copy in {made}" in done.stdout, True)
    shutil.rmtree(made)


def test_unknown(place: Place) -> None:
    """Without a snapshot it is said what isn't tried, and apply tries the growth over its own backup."""
    place.note('{"at": "2026-11-29T02:00:00Z", "ok": true, "bytes": 1, "said": "of an earlier version"}')
    run = place.house.run("add-seat", "acme", "a3", "--to", str(place.house.given))
    told = "so it wasn't tried over a copy of the store: `apply` does so over the backup that it makes"
    advice = "name lvm, btrfs or zfs by --snapshot"
    expect(run.said, (run.status, told in run.said, advice in run.said), (0, True, True))
    done = place.restart()
    expect(done.stderr, (done.returncode, "reckoned by its bytes, as no start was tried" in done.stdout), (0, True))
    expect("a named kind", f"by a start of {NOW}" in place.restart("--snapshot", "btrfs").stdout, True)
    text = place.house.site.read_text()
    place.house.other_words = {"--program": place.program_that(REFUSES, ROOM)}
    run = place.house.run("apply")
    expect(run.said, (run.status, "refuses it: station: refused here" in run.said), (1, True))
    expect("the text behind a refusal", place.house.site.read_text(), text)
    place.is_clean("refused by its own backup")
    place.house.other_words = {}
    for made in place.house.backups.glob("before-*"):
        shutil.rmtree(made)
    run = place.house.run("apply")
    expect(run.said, (run.status, "a copy of that backup took the new text" in run.said), (0, True))
    place.is_clean("applied")
    (made,) = place.house.backups.glob("before-*")
    shutil.rmtree(made)
    place.expect_backup()
    done = place.backup("--recipient", place.public, user=USER)
    expect(f"a backup of a served store: {done.stderr}", (done.returncode, "is locked" in done.stderr), (1, True))
    last = json.loads((place.house.backups / "last-backup.json").read_text())
    expect("the kind behind another run", (last["ok"], last["snapshot"]), (False, "btrfs"))


def test_distrusted(place: Place) -> None:
    """Files that say no kind, and a size that is none."""
    path, secret = place.house.backups / "last-backup.json", place.folder / "secret"
    secret.write_text('{"snapshot": "btrfs", "said": "known to root alone"}')
    secret.chmod(0o600)
    kept = path.read_text()
    ways = [
        ("a link", lambda: path.symlink_to(secret)),
        ("a pipe", lambda: os.mkfifo(path)),
        ("too large", lambda: place.note('{"snapshot": "btrfs"' + " " * 70000 + "}")),
        ("another kind", lambda: place.note('{"snapshot": "../top"}')),
        ("a list", lambda: place.note('["btrfs"]')),
    ]
    for what, make in ways:
        path.unlink(missing_ok=True)
        make()
        done = place.trial()
        told = "no backup in" in done.stderr and "known" not in done.stderr + done.stdout
        expect(f"{what}: {done.stderr}", (done.returncode, told), (1, True))
        place.is_clean(what)
    path.unlink()
    place.note('{"snapshot": "btrfs", "snapshot_size": "1G; reboot"}')
    done = place.trial()
    expect(f"a size: {done.stderr}", done.returncode, 0)
    shutil.rmtree(place.house.backups / "tried-by-site.x")
    place.note(kept)


@pytest.mark.sizes(4, 1)
def test_killed(place: Place, size: int) -> None:
    """Killed before each of its calls, or each `size`th: the next run says what was left."""
    told, call = 0, 1
    while (done := place.trial(killed=(call, "all"))).returncode:
        expect(f"call {call}: {done}", done.returncode, -signal.SIGKILL)
        shutil.rmtree(place.house.backups / "tried-by-site.x", ignore_errors=True)
        done = place.trial()
        expect(f"behind call {call}: {done.stderr}", done.returncode, 0)
        told += "an earlier run left" in done.stderr
        shutil.rmtree(place.house.backups / "tried-by-site.x")
        place.is_clean(f"call {call}")
        call += size
    expect("kills that left something", told > 0, True)
    copy = place.house.backups / "tried-by-site.x"
    expect("a copy", sorted(it.name for it in copy.iterdir()), ["books.db", "books.db-wal"])
    expect("its mode and owner", (copy.stat().st_mode & 0o777, copy.owner()), (0o700, USER))
    place.expect_backup()
    expect("a young copy stays", copy.exists(), True)
    os.utime(copy, (time.time() - 3700,) * 2)
    said = place.expect_backup()
    expect(f"an old copy: {said}", ("tried-by-site.x" in said, copy.exists()), (True, False))
    place.is_clean("an old copy")


def waited(path: Path) -> None:
    end = time.monotonic() + 60
    while not path.exists():
        if time.monotonic() > end:
            raise Failed(f"{path} isn't there")
        time.sleep(0.05)


def test_stopped(place: Place) -> None:
    """A signal in a trial start and in a growth leaves nothing, and the server runs."""
    mark = place.folder / "marks/waits"
    mark.parent.mkdir()
    shutil.chown(mark.parent, USER)
    waiting = place.program_that(WAITS, ROOM, mark)
    mark.unlink(missing_ok=True)
    words = [str(it) for it in place.restart_words("--program", waiting)]
    process = subprocess.Popen(words, env=place.environment(), start_new_session=True, stderr=subprocess.DEVNULL)
    waited(mark)
    os.killpg(process.pid, signal.SIGTERM)
    expect("a restart's status", process.wait(60) != 0, True)
    place.is_clean("a stopped trial start")
    for number, name in ((signal.SIGTERM, "a5"), (signal.SIGINT, "a6")):
        run = place.house.run("add-seat", "acme", name, "--to", str(place.house.given))
        expect(run.said, run.status, 0)
        text = place.house.site.read_text()
        mark.unlink(missing_ok=True)
        place.house.other_words = {"--program": place.program_that(WAITS, "/trial/", mark)}
        words = [*place.house.common(), "apply"]
        place.house.other_words = {}
        process = subprocess.Popen(
            words, env=place.house.environment(), start_new_session=True, text=True, stderr=subprocess.PIPE,
            stdout=subprocess.DEVNULL,
        )  # fmt: skip
        waited(mark)
        os.killpg(process.pid, number)
        said = process.communicate(timeout=60)[1]
        told = f"stopped by signal {int(number)}, and the server runs as before"
        expect(said, (process.returncode, told in said, "Traceback" in said), (1, True, False))
        expect("the text of before", place.house.site.read_text(), text)
        place.is_clean(f"a growth that signal {int(number)} stopped")
        run = place.house.run("apply")
        expect(run.said, (run.status, f'name = "{name}"' in place.house.site.read_text()), (0, True))
        for made in place.house.backups.glob("before-*"):
            shutil.rmtree(made)
