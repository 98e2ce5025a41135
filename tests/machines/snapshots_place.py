"""A volume with a store, its server and its load, for snapshots.py: on Btrfs, and on logical volumes."""

import contextlib
import hashlib
import http.client
import json
import os
import signal
import subprocess
import threading
import time
from pathlib import Path

from common.chip import CHIP, FAR, SITE, Failed
from common.commands import PYTHON, command
from common.ports import free_port
from common.served import Caller, Server, station
from common.users import USER

PORT = free_port()
PLACE = Path("/run/station-backup")
NAME = "station_backup"

# Runs station-backup, and kills it before the call with this number: of a command, of a sync, of a new name. With
# `all` root's process and what it started die, and with `machine` the machine starts anew, without a sync: a thread of
# root's does both, as the call may be one of the store's user, who can do neither. With `asked` it is asked to end, in
# the middle of a command of root's. With `count` it prints how many calls there are.
KILLED = """
import mmap, os, runpy, signal, subprocess, sys, threading, time
count, is_over = mmap.mmap(-1, 1), mmap.mmap(-1, 1)  # of all processes together
last, who = int(sys.argv[1]), sys.argv[2]
def end_all():
    while not is_over[0]:
        time.sleep(0.001)
    if who == "machine":
        with open("/proc/sysrq-trigger", "w") as trigger:
            trigger.write("b")
    os.killpg(0, signal.SIGKILL)
def end():
    if who in ("all", "machine"):
        is_over[0] = 1
        time.sleep(60)
    os.kill(os.getpid(), signal.SIGTERM if who == "asked" else signal.SIGKILL)
def counted(call, is_command=False):
    def wrapped(*words, **named):
        count[0] += 1
        is_now, is_later = count[0] == last, is_command and who == "asked" and os.geteuid() == 0
        if is_now and not is_later:
            end()
        done = call(*words, **named)
        if is_now and is_later:
            end()
        return done
    return wrapped
if who in ("all", "machine"):
    threading.Thread(target=end_all, daemon=True).start()
for name in ("fsync", "replace", "rename", "fork"):
    setattr(os, name, counted(getattr(os, name)))
subprocess.Popen.__init__ = counted(subprocess.Popen.__init__, True)
sys.argv = sys.argv[3:]
try:
    runpy.run_path(sys.argv[0], run_name="__main__")
finally:
    if who == "count":
        print(count[0], file=sys.stderr)
"""


def run(*words, **options):
    return subprocess.run([str(it) for it in words], capture_output=True, text=True, check=True, **options)


def expected(port):
    """The number of the seat's next request."""
    caller = Caller(port, "abc")
    try:
        return json.loads(caller.ask("POST", "/v1/ship", {"nr": FAR, "chip": CHIP})[1])["expected"]
    finally:
        caller.close()


class Load(threading.Thread):
    """A station that imports serial numbers until it is ended. It knows the last number that was acknowledged, and how
    often the server had no room."""

    def __init__(self, port):
        super().__init__(daemon=True)
        self.port, self.is_over, self.unkept = port, False, 0
        self.first = expected(port)
        self.asked = self.acknowledged = self.first - 1

    def run(self):
        while not self.is_over:
            self.asked += 1
            serials = [f"N{self.asked}-{it}" for it in range(5)]
            rows = [f"{serial},{hashlib.sha256(serial.encode()).hexdigest()}" for serial in serials]
            members = {"nr": self.asked, "issuer": "acme-ca", "csv": "\n".join(["serial,key_sha256", *rows, ""])}
            while not self.is_over and not self.ask(members):
                time.sleep(0.1)
            time.sleep(0.03)

    def wait_acknowledged(self, seconds):
        """Waits until its first request is answered: a seat that asked for nothing has no row in a store."""
        end = time.monotonic() + seconds
        while self.acknowledged < self.first:
            if time.monotonic() > end or not self.is_alive():
                raise Failed(f"no import was answered in {seconds} s")
            time.sleep(0.02)

    def ask(self, members):
        """Whether a request was answered; one that wasn't is sent again, and done once."""
        caller = Caller(self.port, "abc")
        try:
            status, body = caller.ask("POST", "/v1/import", members)
        except (OSError, http.client.HTTPException):
            return False
        finally:
            caller.close()
        if status == 503:
            self.unkept += 1
            return False
        if status != 200:
            raise Failed(f"the import {members['nr']} was answered {status} {body!r}")
        self.acknowledged = members["nr"]
        return True


class Bench:
    """A volume with a store, its server and its load, and the folder of the backups on another one."""

    kind, words, stride, left_at = "", (), 1, 1

    def __init__(self, program, folder):
        self.program, self.folder, self.mounted = program, Path(folder), Path(folder, "mounted")
        self.all, self.db = self.folder / "all", self.mounted / "store/books.db"
        os.chmod(folder, 0o711)

    def __enter__(self):
        self.mounted.mkdir(exist_ok=True)
        self.make()
        for path in (self.db.parent, self.all):
            path.mkdir(exist_ok=True)
            os.chown(path, USER, USER)
        self.serve()
        return self

    def serve(self):
        as_user = ["setpriv", f"--reuid={USER}", f"--regid={USER}", "--clear-groups"]
        self.server = Server([*as_user, *station(str(self.program), str(SITE), str(self.db), PORT)], PORT)
        self.server.wait(Server.is_listening, 300)
        self.load = Load(PORT)
        self.load.start()

    def stop(self):
        self.load.is_over = True
        self.load.join(30)
        self.server.kill()

    def __exit__(self, *_):
        self.stop()
        self.unmake()

    def make(self):
        """The volume."""

    def unmake(self):
        """Takes it away."""

    def snapshots(self):
        """The names of the snapshots that are there."""
        raise NotImplementedError

    def backup(self, *more, program=None, killed=(), within=()):
        """Runs station-backup; `within` are words before it."""
        words = ["--program", str(program or self.program), "--site", str(SITE), "--db", str(self.db)]
        words += ["--into", str(self.all), "--snapshot", self.kind, *self.words, *more]
        before = [PYTHON, "-B", *(["-c", KILLED, *map(str, killed)] if killed else [])]
        return subprocess.run(
            [*within, *before, *command("station-backup")[2:], *words], stdin=subprocess.DEVNULL, capture_output=True,
            text=True, timeout=600, start_new_session=True, check=False,
        )  # fmt: skip

    def leave(self):
        """Kills a backup so that its snapshot is left, before the call whose number it gives."""
        while (done := self.backup(killed=(self.left_at, "all"))).returncode == -signal.SIGKILL:
            if self.snapshots():
                return self.left_at
            type(self).left_at += 1
        raise Failed(f"no snapshot was left: {done}")

    def is_clean(self, done):
        """Fails where anything is mounted, or left."""
        lines = Path("/proc/mounts").read_text("utf-8").splitlines()
        mounts = [line for line in lines if f" {PLACE}/" in line or NAME in line]
        begun = [it.name for it in self.all.iterdir() if it.name.startswith(".new")]
        if mounts or self.snapshots() or begun:
            raise Failed(f"left: {mounts} {self.snapshots()} {begun}, behind {done}")

    def last(self):
        return json.loads((self.all / "last-backup.json").read_text("utf-8"))

    def backs_up(self, *more):
        """A backup, which has what was acknowledged before it and nothing that was asked behind it."""
        self.load.wait_acknowledged(300)
        before = self.load.acknowledged
        done = self.backup(*more)
        after = self.load.asked
        if done.returncode or not self.load.is_alive():
            raise Failed(f"no backup: {done}")
        number = int(next(line for line in done.stdout.splitlines() if line.startswith("seat a1 ")).split()[2])
        if not before <= number <= after:
            raise Failed(f"the backup has {number} requests: {before} were there before, and {after} behind it")
        self.is_clean(done)
        last = self.last()
        if not last["ok"] or not last["bytes"] or last["said"] not in done.stdout:
            raise Failed(f"the last backup is noted as {last}, behind {done}")
        return done, number


class BtrfsBench(Bench):
    kind = "btrfs"

    def make(self):
        self.image = self.folder / "image"
        if not self.image.exists():
            run("truncate", "-s", "1G", self.image)
            run("mkfs.btrfs", "-q", self.image)
        run("mount", "-o", "loop", self.image, self.mounted)
        if not self.db.parent.exists():
            run("btrfs", "subvolume", "create", self.db.parent)

    def unmake(self):
        with contextlib.suppress(subprocess.CalledProcessError):
            run("umount", self.mounted)

    def off(self):
        for path in (PLACE / "mnt", PLACE / "top", self.mounted):
            while os.path.ismount(path):
                run("umount", path)
        self.make()

    def snapshots(self):
        lines = run("btrfs", "subvolume", "list", self.mounted).stdout.splitlines()
        return [line for line in lines if line.endswith(NAME)]


class LvmBench(Bench):
    """A logical volume of a disk; a thin one is of a pool, and has each of its blocks, as behind years."""

    kind, disk, is_thin = "lvm", "", False

    def make(self):
        if not run("vgs", "--noheadings").stdout.strip():
            run("vgcreate", "plant", self.disk)
            words = ["-L", "192M"]
            if self.is_thin:
                words = ["--type", "thin", "--thinpool", "pool", "--virtualsize", "256M"]
                run("lvcreate", "--yes", "--type", "thin-pool", "-L", "400M", "--name", "pool", "plant")
            run("lvcreate", "--yes", "--name", "store", *words, "plant")
            if self.is_thin:
                run("dd", "if=/dev/zero", "of=/dev/plant/store", "bs=1M", "count=256", "conv=fsync")
            run("mkfs.ext4", "-q", "-E", "nodiscard", "/dev/plant/store")
        run("vgchange", "--activate", "y")
        run("mount", "/dev/plant/store", self.mounted)

    def unmake(self):
        for path in (PLACE / "mnt", self.mounted):
            while os.path.ismount(path):
                run("umount", path)
        run("vgremove", "--force", "--yes", "plant")

    def off(self):
        """Of this guest it is an unmount of all, and volumes that aren't active."""
        for path in (PLACE / "mnt", self.mounted):
            while os.path.ismount(path):
                run("umount", path)
        run("vgchange", "--activate", "n")
        self.make()

    def snapshots(self):
        lines = run("lvs", "--noheadings", "--options", "lv_name").stdout.split()
        return [it for it in lines if it.startswith("station")]


class ThinBench(LvmBench):
    is_thin = True
