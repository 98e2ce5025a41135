"""station-backup as root, over another user's store, with scripts that stand for those of LVM and ZFS: a snapshot that
can't be removed costs no backup, one of another kind goes too, a signal behind a fork ends the child alone, a note that
the store's user wrote moves nothing, and the folder of a disk that isn't mounted is told.
"""

import json
import os
import shutil
from pathlib import Path

import pytest

from common.chip import SITE, Failed, store_at
from common.commands import PYTHON, command
from common.ports import free_port
from plant.test_backups import BACKUP, OTHER, SLOW, Bench, begun_in, is_gone, killed_at_work

pytestmark = [pytest.mark.root, pytest.mark.needs("sqlite3", "unshare")]

# Scripts that stand for those of LVM and ZFS: a snapshot is a file, and what it has a copy of the store.
TOOLS = {
    "findmnt": """echo '{"filesystems":
[{"source": "tank/data", "fstype": "zfs", "fsroot": "/", "target": "'$HERE'"}]}'""",
    "lvs": """case $* in
*tank/data) echo '{"report": [{"lv": [{"vg_name": "tank", "lv_name": "data", "lv_attr": "owi-aos---"}]}]}';;
*) test ! -e $HERE/lvm || own='{"lv_name": "station_backup", "origin": "data", "lv_tags": "station_backup",
"lv_attr": "swi-a-s---", "data_percent": "1.00"}'; echo '{"report": [{"lv": ['$own']}]}';;
esac""",
    "lvcreate": "touch $HERE/lvm",
    "lvremove": "test ! -e $HERE/busy || { echo in use; exit 5; }; rm $HERE/lvm",
    "zfs": ":",
    "mount": "for at; do :; done; cp -a $HERE/books.db* $at; chmod 755 $at",
}


class Tools:
    """A store of another user's, that user's folder of backups, and the scripts; root alone has one."""

    def __init__(self, bench, folder):
        self.bench, self.here, self.all, self.bin = bench, *(Path(folder, it) for it in ("here", "all", "bin"))
        for it in (self.here, self.all, self.bin):
            it.mkdir()
        os.chmod(folder, 0o711)
        for file, to in zip(store_at(bench.made), store_at(self.here / "books.db"), strict=True):
            shutil.copyfile(file, to)
            os.chown(to, OTHER, OTHER)
        for name, text in TOOLS.items():
            (self.bin / name).write_text(f"#!/bin/sh\nHERE={self.here}\n{text}\n", encoding="utf-8")
            (self.bin / name).chmod(0o755)
        self.program, self.site = (shutil.copy(it, folder) for it in (bench.program, SITE))
        for it in (self.here, self.all):
            os.chown(it, OTHER, OTHER)

    def words(self, *more, script=(str(BACKUP),)):
        """A run in name spaces of its own, where /run is empty."""
        words = ["--program", self.program, "--site", self.site, "--db", str(self.here / "books.db")]
        age = f"mount --bind {self.bin}/age {shutil.which('age')} && " if (self.bin / "age").exists() else ""
        own = ["unshare", "-m", "sh", "-c", f'mount -t tmpfs tmpfs /run && {age}exec "$@"', "sh"]
        path = f"PATH={self.bin}:{os.environ['PATH']}"
        return [*own, "env", path, *script, *words, "--into", str(self.all), *more]

    def run(self, *more, script=(str(BACKUP),), is_read=True):
        """Its status, lines and error, and what was noted."""
        done, noted = self.bench.run(self.words(*more, script=script)), self.all / "last-backup.json"
        return *done, json.loads(noted.read_text(encoding="utf-8")) if is_read and noted.exists() else {}


@pytest.fixture
def tools(program: Path, tmp_path: Path, open_folder: Path) -> Tools:
    return Tools(Bench(program, tmp_path, free_port()), open_folder)


def test_snapshot_stays(tools):
    """A snapshot that can't be removed costs no backup."""
    (tools.here / "busy").touch()
    status, lines, error, last = tools.run("--snapshot", "lvm")
    made = [it for it in tools.all.iterdir() if it.is_dir()]
    if status != 1 or last["ok"] or len(made) != 1 or not (made[0] / "about.json").exists():
        raise Failed(f"the snapshot stays: status {status}, {lines}, {error!r}, {last}, {made}")
    if f"{made[0].name} is here" not in error or "in use" not in last["said"]:
        raise Failed(f"the snapshot stays: {error!r}, {last}")


@pytest.mark.parametrize("words", [("--clean", "--snapshot", "zfs"), ("--snapshot", "zfs"), ("--clean",)], ids=" ".join)
def test_cleaned(tools, words):
    """A snapshot of the kind that the unit had before goes too."""
    (tools.here / "busy").touch()
    (tools.all / "last-backup.json").write_text('{"snapshot": "lvm"}', encoding="utf-8")
    (tools.here / "lvm").touch()
    refused = tools.run(*words)
    (tools.here / "busy").unlink()
    status, lines, error, _ = tools.run(*words)
    if refused[0] != 1 or "in use" not in refused[2] or refused[3]["snapshot"] != "lvm":
        raise Failed(f"where it can't be removed: {refused}")
    if status or "an earlier run left the snapshot tank/station_backup" not in error or (tools.here / "lvm").exists():
        raise Failed(f"status {status}, {lines}, {error!r}")


# Runs a command, whose child of this number gets a signal right behind its fork.
FORKED = """
import os, runpy, signal, sys
fork, left = os.fork, [int(sys.argv[1])]
def forked():
    child, left[0] = fork(), left[0] - 1
    if not child and not left[0]:
        os.kill(os.getpid(), signal.SIGTERM)
    return child
os.fork = forked
sys.argv = sys.argv[2:]
runpy.run_path(sys.argv[0], run_name="__main__")
"""


@pytest.mark.parametrize("number", [1, 2, 3, 4])
def test_forked(tools, number):
    """A signal that a child gets right behind its fork ends it, and it is no second run."""
    script = (PYTHON, "-B", "-c", FORKED, str(number), *command("station-backup")[2:])
    status, _, error, last = tools.run("--snapshot", "lvm", script=script)
    if status != 1 or error != "backup: stopped by signal 15\n" or last["said"] != "stopped by signal 15":
        raise Failed(f"status {status}, {error!r}, {last}")
    if (tools.here / "lvm").exists() or {it.name for it in tools.all.iterdir()} - {"backup.lock", "last-backup.json"}:
        raise Failed("it left something")


@pytest.mark.needs("age")
@pytest.mark.parametrize("is_busy", [False, True])
def test_plain_snapshot(tools, is_busy):
    """A backup with a snapshot is killed while age works: `--clean` takes the copy in plain away, also where the
    snapshot can't be removed."""
    (tools.bin / "age").write_text(SLOW.format(tools.here), encoding="utf-8")
    (tools.bin / "age").chmod(0o755)
    killed_at_work(tools.words("--snapshot", "lvm", "--recipient", "age1q"), tools.here)
    begun = begun_in(tools.all)
    if is_busy:
        (tools.here / "busy").touch()
        (tools.here / "lvm").touch()
    status, _, error, _ = tools.run("--snapshot", "lvm", "--clean")
    if is_busy and status == 1 and "in use" in error:
        status, error = 0, "\n".join(line for line in error.splitlines() if "in use" not in line)
    is_gone(tools.all, status, error, begun)


# What the store's user may write where the last run is noted, and what root takes of it: nothing.
NOTES = {
    "brackets": "[" * 65536,
    "braces": '{"a":' * 13000,
    "large": json.dumps({"snapshot": "lvm", "said": "x" * 70000}),
    "list": '["lvm"]',
    "number": "9" * 60000,
    "kind": '{"snapshot": ["lvm"], "snapshot_size": {"a": 1}}',
    "size": '{"snapshot": "zfs", "snapshot_size": "1G --addtag x"}',
}


@pytest.mark.parametrize("text", NOTES.values(), ids=NOTES)
def test_noted(tools, text):
    """What the store's user wrote in the place of the note: root's run goes on."""
    noted = tools.all / "last-backup.json"
    noted.write_text(text, encoding="utf-8")
    os.chown(noted, OTHER, OTHER)
    status, _, error = tools.run("--clean", is_read=False)[:3]
    if status or error:
        raise Failed(f"--clean: {status}, {error!r}")
    status, _, error, last = tools.run("--snapshot", "lvm")
    if status or error or not last["ok"]:
        raise Failed(f"a backup: {status}, {error!r}")


OTHER_NOTES = {"link": lambda it: it.symlink_to("/etc/hostname"), "pipe": os.mkfifo, "folder": Path.mkdir}


@pytest.mark.parametrize("make", OTHER_NOTES.values(), ids=OTHER_NOTES)
def test_note_is_no_file(tools, make):
    """What the store's user made in the place of the note: `--clean` goes on."""
    make(tools.all / "last-backup.json")
    status, _, error = tools.run("--clean", is_read=False)[:3]
    if status or error:
        raise Failed(f"--clean: {status}, {error!r}")


def test_unmounted(tools):
    """The folder of a disk that isn't mounted, which is root's."""
    os.chown(tools.all, 0, 0)
    line = f"{tools.all} is no mount point"
    status, lines, error, _ = tools.run("--snapshot", "lvm")
    if status != 1 or lines or line not in error or error.find("chown") < error.find(line):
        raise Failed(f"status {status}, {lines}, {error!r}")
