"""A store on a dataset of ZFS, for `snapshots`, and what may come between there.

The dataset is mounted by its property, or as legacy by `mount`; its folder .zfs is hidden or visible; it is encrypted.
The pool fills up in the middle of a backup, and is full before one. A snapshot of that name isn't a backup's. One that
was left has a hold, or a clone, or somebody is in it. A backup has a name space of mounts of its own, as in its unit.
The machine starts anew in the middle of a backup.
"""

import os
import subprocess
import time
from pathlib import Path

from common.chip import Failed
from machines.snapshots_place import NAME, PLACE, Bench, run

POOL = "plant"
DATASET = f"{POOL}/station"
SNAPSHOT = f"{DATASET}@{NAME}"
LEFT = f"an earlier run left the snapshot {SNAPSHOT}"


def does(*words):
    return subprocess.run(words, capture_output=True, check=False).returncode == 0


def unmount(path):
    while os.path.ismount(path):
        run("umount", path)


class ZfsBench(Bench):
    """A dataset of a pool on the first part of a disk, which is mounted where its property says."""

    kind, disk, how = "zfs", "", "mounted by its property"

    def properties(self):
        return {"mountpoint": self.mounted}

    def make(self):
        if not does("zpool", "list", POOL) and not does("zpool", "import", "-f", "-N", "-d", "/dev", POOL):
            run("sfdisk", "--quiet", self.disk, input=",400M\n,\n")
            run("zpool", "create", "-f", "-O", "mountpoint=none", "-O", "compression=off", POOL, f"{self.disk}1")
        if does("zfs", "list", DATASET):
            run("zfs", "set", f"mountpoint={self.properties()['mountpoint']}", DATASET)
        else:
            words = [word for pair in self.properties().items() for word in ("-o", "=".join(map(str, pair)))]
            run("zfs", "create", "-u", *words, DATASET)
        self.mount()

    def mount(self):
        run("zfs", "mount", DATASET)

    def unmake(self):
        unmount(PLACE / "mnt")
        run("zfs", "destroy", "-r", DATASET)

    def off(self):
        for path in (PLACE / "mnt", self.mounted):
            unmount(path)
        run("zpool", "export", POOL)
        self.make()

    def snapshots(self):
        lines = run("zfs", "list", "-H", "-t", "snapshot", "-o", "name", "-r", POOL).stdout.split()
        return [line for line in lines if "@station" in line]


class LegacyBench(ZfsBench):
    how = "legacy, mounted by mount"

    def properties(self):
        return {"mountpoint": "legacy"}

    def mount(self):
        run("mount", "-t", "zfs", DATASET, self.mounted)


class VisibleBench(ZfsBench):
    """The dataset is the store's own folder."""

    how = "the store's own folder, with .zfs visible"

    def properties(self):
        return {"mountpoint": self.db.parent, "snapdir": "visible"}


class EncryptedBench(ZfsBench):
    how = "encrypted"

    def properties(self):
        key = self.folder / "key"
        key.write_bytes(bytes(range(32)))
        return super().properties() | {"encryption": "on", "keyformat": "raw", "keylocation": f"file://{key}"}


def refused(bench, cause, *words):
    """A backup that fails by a line with a cause, and keeps none."""
    there = set(bench.all.glob("2*"))
    done = bench.backup(*words)
    if done.returncode != 1 or cause not in done.stderr or len(done.stderr.splitlines()) != 1:
        raise Failed(f"not refused by {cause!r}: {done}")
    if bench.last()["ok"] or cause not in bench.last()["said"] or set(bench.all.glob("2*")) != there:
        raise Failed(f"the last backup is noted as {bench.last()}")
    print(f"zfs: refused: {done.stderr.strip()}")


def goes_on(bench):
    """A backup that finds what an earlier run left."""
    done, _ = bench.backs_up()
    if LEFT not in done.stderr:
        raise Failed(f"what was left wasn't said: {done}")


def until(is_so, seconds=120):
    end = time.monotonic() + seconds
    while not is_so():
        if time.monotonic() > end:
            return False
        time.sleep(0.1)
    return True


def test_mounted(bench):
    """What a run left is removed, however the dataset is mounted."""
    bench.leave()
    goes_on(bench)
    print(f"zfs: a dataset that is {bench.how}: backed up, and what was left is said and removed")


def filling(bench, junk):
    """A program that fills the pool when it opens a copy."""
    program = bench.folder / "program"
    fills = "".join(f"dd if=/dev/zero of={junk}{size} bs={size} 2> /dev/null; sync; " for size in ("1M", "4k", "512"))
    program.write_text(f'#!/bin/sh\ncase "$1" in replay) {fills};; esac\nexec {bench.program} "$@"\n', encoding="utf-8")
    program.chmod(0o755)
    return program


def test_full(bench):
    """The pool fills up in the middle of a backup: that backup is whole, and the server's stations wait. Of a full pool
    one is made too, as ZFS keeps room for a snapshot's own words. Once there is room, all goes on."""
    junk = bench.db.parent / "junk"
    bench.leave()
    done = bench.backup(program=filling(bench, junk))
    if done.returncode or LEFT not in done.stderr:
        raise Failed(f"a pool that fills up: {done}")
    bench.is_clean(done)
    if not until(lambda: bench.load.unkept):
        raise Failed("the pool isn't full")
    print(f"zfs: the pool fills up meanwhile: {done.stdout.splitlines()[-1]}")
    done = bench.backup()
    if done.returncode:
        raise Failed(f"of a full pool: {done}")
    bench.is_clean(done)
    print("zfs: of a full pool a backup is made")
    for path in junk.parent.glob("junk*"):
        path.unlink()
    acknowledged = bench.load.acknowledged
    if not until(lambda: bench.load.acknowledged > acknowledged):
        raise Failed("the server doesn't go on")
    bench.backs_up()


def test_foreign(bench):
    """A snapshot of that name that a person made is refused, and stays."""
    run("zfs", "snapshot", SNAPSHOT)
    refused(bench, f"{SNAPSHOT} is no snapshot of a backup's")
    if len(bench.snapshots()) != 1:
        raise Failed("another's snapshot is gone")
    run("zfs", "destroy", SNAPSHOT)
    bench.backs_up()


def test_kept(bench):
    """A snapshot that was left can't be destroyed: it is said why, and it goes once it can."""
    cases = [
        ("dataset is busy", ["zfs", "hold", "keep", SNAPSHOT], ["zfs", "release", "keep", SNAPSHOT]),
        ("has dependent clones", ["zfs", "clone", SNAPSHOT, f"{POOL}/clone"], ["zfs", "destroy", f"{POOL}/clone"]),
    ]
    for cause, keep, release in cases:
        bench.leave()
        run(*keep)
        refused(bench, cause)
        run(*release)
        goes_on(bench)


def test_entered(bench):
    """Somebody is in the snapshot that was left: where it is mounted, or below .zfs."""
    for folder, cause in ((PLACE / "mnt", "stays mounted"), (bench.mounted / ".zfs/snapshot" / NAME, "")):
        bench.leave()
        if folder == PLACE / "mnt" and not os.path.ismount(folder):
            run("mount", "-t", "zfs", SNAPSHOT, folder)
        with subprocess.Popen(["sleep", "1000"], cwd=folder) as inside:
            try:
                if cause:
                    refused(bench, cause)
                else:
                    print(f"zfs: somebody is below .zfs: {bench.backup().stderr.strip()}")
            finally:
                inside.kill()
        done, _ = bench.backs_up()
        if cause and LEFT not in done.stderr:
            raise Failed(f"what was left wasn't said: {done}")


def test_unit(bench):
    """As in its unit a backup has a name space of mounts of its own."""
    within = ["unshare", "--mount", "--propagation", "slave"]
    call = bench.leave()
    done = bench.backup(within=within)
    if done.returncode or LEFT not in done.stderr:
        raise Failed(f"with its own mounts: {done}")
    bench.is_clean(done)
    for later in (0, 2, 5):
        bench.backup(killed=(call + later, "all"), within=within)
        done = bench.backup("--clean", within=within)
        if done.returncode or LEFT not in done.stderr:
            raise Failed(f"--clean: {done}")
    bench.is_clean(done)
    print("zfs: with mounts of its own, as in its unit: backed up, killed and cleaned")


def test_reset(bench):
    """The machine starts anew in the middle of a backup; `test_reset_ended` goes on."""
    call = bench.leave()
    bench.backs_up()
    note = bench.db.parent / "acknowledged"
    note.write_text(str(bench.load.acknowledged), encoding="utf-8")
    os.sync()
    print("guest: resets", flush=True)
    done = bench.backup(killed=(call + 3, "machine"))
    raise Failed(f"the machine goes on: {done}")


def test_reset_ended(bench):
    """The machine has started anew: the server has what was acknowledged, and the next backup says what was left."""
    if not bench.snapshots() or NAME in Path("/proc/mounts").read_text(encoding="utf-8"):
        raise Failed("no snapshot was left, or it is mounted")
    noted = int((bench.db.parent / "acknowledged").read_text(encoding="utf-8"))
    if bench.load.first <= noted:
        raise Failed(f"{noted} requests were acknowledged, and the server expects {bench.load.first}")
    goes_on(bench)
    print(f"zfs: the machine started anew in a backup: {LEFT}, behind {noted} requests")


ZFS = [
    (ZfsBench, [test_mounted, test_full, test_foreign, test_kept, test_entered, test_unit]),
    (LegacyBench, [test_mounted]),
    (VisibleBench, [test_mounted]),
    (EncryptedBench, [test_mounted]),
]
