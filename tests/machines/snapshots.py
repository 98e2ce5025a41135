"""Has station-backup back a store up while its server runs under load, from snapshots of the volume, and kills it.

This is run as a command, `python3 -m machines.snapshots` in tests, as a guest's Debian has no pytest: test_systems.py
runs it for each kind and test.

    --program P --only btrfs                   on a loop device
    --program P --only zfs,lvm --cache FOLDER  in guests that qemu boots

A station imports serial numbers all the while. Each backup has to have each request that was acknowledged before it
began, and none that was asked behind its end; the program opens a copy of it. Then the backup and its processes are
killed before each call of a command, each sync and each new name in turn, once alone and once with all that it started:
the next run has to say and to remove what was left, to make its backup, and to leave nothing mounted and no snapshot.
So has `--clean` alone behind each second kill, and no copy in plain.
One that is asked to end in the middle of a call (SIGTERM) has to do so by itself. A logical volume's snapshot that
fills up has to be refused, and no backup kept. In the place of a machine that goes off in the middle all is unmounted,
and volumes are made inactive: the next run has to find what was left then. Last, a backup's last-backup.json says how
it went, also where a command that copies it off fails.

For zfs the machine is started anew for real, in the middle of a backup and without a sync; no power was cut. The head
of snapshots_zfs.py has its other cases.

A guest's Debian is made in --cache by the first run (some 2 GB), with a module for ZFS that dkms builds, which takes 10
to 25 minutes. Its kernel is booted with that folder and this
repository, read-only, and with a disk of its own. --stride says which calls are killed: in a guest each takes seconds.
-k WORD runs the tests alone whose name has that word.

It prints a line for each; the status is 1 where anything is otherwise. As root, on Linux, with Python 3.11, sqlite3 and
setpriv. Btrfs needs btrfs-progs; a guest qemu-system-x86_64, busybox-static and cpio, and at first debootstrap.
"""

import argparse
import json
import os
import shutil
import signal
import subprocess
import sys
import tempfile
from pathlib import Path

from common.chip import SITE, Failed
from common.needs import ROOT
from common.users import USER
from machines.snapshots_guest import booted
from machines.snapshots_place import Bench, BtrfsBench, LvmBench, ThinBench, run
from machines.snapshots_zfs import ZFS, ZfsBench, test_reset, test_reset_ended


def test_opened(bench):
    """The program opens a copy of the newest backup, and sqlite3 finds in it what the backup printed."""
    number = bench.backs_up()[1]
    with tempfile.TemporaryDirectory() as folder:
        copy = Path(folder, "copy")
        shutil.copytree(max(bench.all.glob("2*")), copy)
        run(bench.program, "replay", "--site", SITE, "--db", copy / "books.db", "--existing", stdin=subprocess.DEVNULL)
        asked = "SELECT last FROM seat WHERE name = 'a1'; PRAGMA integrity_check"
        said = run("sqlite3", "-safe", "-readonly", copy / "books.db", asked).stdout.split()
    if said != [str(number), "ok"]:
        raise Failed(f"the backup of {number} requests has {said}")
    print(f"{bench.kind}: the program opens a backup of {number} requests")


def test_under_load(bench):
    numbers = [bench.backs_up()[1] for _ in range(3 if Bench.stride == 1 else 2)]
    if sorted(set(numbers)) != numbers:
        raise Failed(f"the load stands: {numbers}")
    about = json.loads(next(iter(sorted(bench.all.glob("2*")))).joinpath("about.json").read_text("utf-8"))
    if about["of"] != bench.kind:
        raise Failed(f"the backup says of itself {about}")
    print(f"{bench.kind}: backups under load, of {', '.join(map(str, numbers))} requests")


def test_killed(bench):
    """The backup is killed before each of its calls, or before each of so many."""
    for who in ("all", "itself"):
        kills, told, call = 0, 0, 1
        while (done := bench.backup(killed=(call, who))).returncode:
            kills, call = kills + 1, call + Bench.stride
            told += "an earlier run left" in bench.backs_up()[0].stderr
            if kills > 200:
                raise Failed(f"it never ends: {done}")
        if not kills or not told:
            raise Failed(f"{kills} kills left nothing that was told")
        said = f"{told} times the next run said what was left"
        print(f"{bench.kind}: killed before {kills} of {call} calls ({who}); {said}")


def test_cleaned(bench):
    """Behind a kill before each second call `--clean` alone leaves no snapshot, no mount and no copy in plain."""
    calls, plain = int(bench.backup(killed=(0, "count")).stderr), 0
    tried = range(1, calls + 1, 2 * Bench.stride)
    for call in tried:
        bench.backup(killed=(call, "all"))
        plain += any(it.name.startswith(".new") for it in bench.all.iterdir())
        done = bench.backup("--clean")
        if done.returncode:
            raise Failed(f"--clean behind a kill before call {call}: {done}")
        bench.is_clean(done)
    if not plain:
        raise Failed("no kill left a copy in plain")
    print(f"{bench.kind}: --clean behind {len(tried)} kills, of which {plain} left a copy in plain: nothing is left")


def test_asked_to_end(bench):
    """The backup is asked to end in the middle of each of its calls: it cleans up by itself, and says so."""
    calls = int(bench.backup(killed=(0, "count")).stderr)
    tried = range(1, calls + 1, max(Bench.stride // 3, 1))
    for call in tried:
        done = bench.backup(killed=(call, "asked"))
        if done.returncode != 1 or done.stderr != "backup: stopped by signal 15\n":
            raise Failed(f"asked to end in call {call} of {calls}: {done}")
        bench.is_clean(done)
    print(f"{bench.kind}: asked to end in {len(tried)} of {calls} calls: each time nothing was left")


def test_off(bench):
    """The machine goes off while a snapshot is there: the next start mounts nothing of it, and the next run says so."""
    bench.leave()
    bench.stop()
    bench.off()
    done = bench.backup()
    if done.returncode or "an earlier run left the snapshot" not in done.stderr:
        raise Failed(f"behind a new start: {done}")
    bench.is_clean(done)
    print(f"{bench.kind}: off and on with a snapshot: {done.stderr.strip()}")


def test_copied_off(bench):
    """A backup that isn't copied off has failed, and stays."""
    there = set(bench.all.glob("2*"))
    done = bench.backup("--copy-with", "sh -c 'echo no room >&2; exit 7' {}")
    new = set(bench.all.glob("2*")) - there
    if done.returncode != 1 or "wasn't copied off: sh ended with status 7: no room" not in done.stderr or len(new) != 1:
        raise Failed(f"copied off: {done}")
    if bench.last()["ok"] or len(done.stderr.splitlines()) != 1:
        raise Failed(f"the last backup is noted as {bench.last()}")
    bench.is_clean(done)
    elsewhere = bench.folder / "elsewhere"
    elsewhere.mkdir()
    os.chown(elsewhere, USER, USER)
    bench.backs_up("--copy-with", f"cp -r {{}} {elsewhere}")
    (copied,) = elsewhere.iterdir()
    if sorted(os.listdir(copied)) != ["about.json", "books.db", "books.db-wal", "site.toml"]:
        raise Failed(f"copied off: {os.listdir(copied)}")
    print(f"{bench.kind}: copied off, and one that isn't copied off has failed")


def test_full(bench):
    """More is written than the snapshot has room for."""
    program = bench.folder / "program"
    junk = bench.mounted / "junk"
    program.write_text(
        f'#!/bin/sh\ncase "$1" in replay) dd if=/dev/urandom of={junk} bs=1M count=24 conv=fsync 2>/dev/null;; esac\n'
        f'exec {bench.program} "$@"\n'
    )
    program.chmod(0o755)
    junk.touch()
    os.chown(junk, USER, USER)
    there = set(bench.all.glob("2*"))
    done = bench.backup("--snapshot-size", "8M", program=program)
    if done.returncode != 1 or "is full, and so invalid" not in done.stderr or set(bench.all.glob("2*")) != there:
        raise Failed(f"a full snapshot: {done}")
    if bench.last()["ok"] or "is full" not in bench.last()["said"]:
        raise Failed(f"the last backup is noted as {bench.last()}")
    bench.is_clean(done)
    print(f"{bench.kind}: {done.stderr.strip()}")


TESTS = {
    "btrfs": [
        (BtrfsBench, [test_under_load, test_opened, test_copied_off, test_killed, test_cleaned]),
        (BtrfsBench, [test_asked_to_end, test_off]),
    ],
    "zfs": [(made, [test_opened, *tests]) for made, tests in ZFS]
    + [(ZfsBench, [test_under_load, test_copied_off, test_killed, test_cleaned, test_asked_to_end, test_off])],
    "zfs-reset": [(ZfsBench, [test_reset])],
    "zfs-again": [(ZfsBench, [test_reset_ended])],
    "lvm": [
        (LvmBench, [test_full, test_off]),
        (ThinBench, [test_under_load]),
        (LvmBench, [test_under_load, test_opened, test_killed, test_cleaned]),
    ],
}
# In a guest these are run by one start each, over one disk.
STARTS = {"lvm": ["lvm"], "zfs": ["zfs", "zfs-reset", "zfs-again"]}
NEEDED = {"lvm": "/dev/mapper/control", "zfs": "/dev/zfs"}


def tries(kind, program, word):
    for made, all_tests in TESTS[kind]:
        tests = [test for test in all_tests if word in test.__name__]
        if not tests:
            continue
        with tempfile.TemporaryDirectory(dir=os.environ.get("TMPDIR", ".")) as folder:
            with made(program, Path(folder).resolve()) as bench:
                for test in tests:
                    test(bench)


def tries_in_guest(kind, program, args):
    if not args.cache:
        print(f"{kind}: left out: --disk and a kernel that has it, or --cache, are needed")
        return
    with tempfile.TemporaryDirectory(dir=".") as folder:
        for part in STARTS[kind]:
            if not any(args.word in test.__name__ for _, tests in TESTS[part] for test in tests):
                continue
            words = ["-m", "machines.snapshots", "--program", str(program), "--stride", str(args.stride)]
            words += ["-k", args.word]
            booted(Path(args.cache), [*words, "--only", part], program, Path(folder, "disk"), part == "zfs-reset")


def words_of():
    parser = argparse.ArgumentParser(description="Backups of a server that runs, from snapshots.")
    parser.add_argument("--program", default=ROOT / "crates/station/out/station", help="the built program")
    parser.add_argument("--only", default="btrfs,zfs,lvm", help="these kinds")
    parser.add_argument("--cache", help="the folder of the guests' Debian, which is made where there is none")
    parser.add_argument("--disk", default="", help="a disk for lvm or zfs, whose bytes are lost")
    parser.add_argument("-k", dest="word", default="", help="the tests alone whose name has this word")
    parser.add_argument("--stride", type=int, default=1, help="kill before each so manieth call alone")
    return parser


def main():
    parser = words_of()
    args = parser.parse_args()
    program = Path(args.program).resolve()
    if not os.access(program, os.X_OK) or os.geteuid():
        parser.error(f"{program} is no program, or this user isn't root")
    LvmBench.disk, ZfsBench.disk, Bench.stride = args.disk, args.disk, args.stride
    signal.signal(signal.SIGTERM, lambda *_: sys.exit(1))
    try:
        for kind in args.only.split(","):
            needed = NEEDED.get(kind)
            if needed and not (args.disk and Path(needed).exists()):
                tries_in_guest(kind, program, args)
            else:
                tries(kind, program, args.word)
    except Failed as failed:
        print(f"FAILED: {failed}", file=sys.stderr)
        return 1
    except subprocess.CalledProcessError as error:
        print(f"FAILED: {error.cmd}: {error.stderr}", file=sys.stderr)
        return 1
    return 0


if __name__ == "__main__":
    sys.exit(main())
