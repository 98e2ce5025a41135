"""station-restart over a served store behind nginx: where nothing asks for it, where the server was stopped, where the
copy of the backup doesn't start, where no memory is there for a start, and where connections run out. Then a station
asks all the time, waits it out, and has each request done once, by its journal.
"""

import json
import os
import re
import threading
import time
from pathlib import Path

import pytest

from common.commands import command
from common.deployed import ran
from common.program import Failed
from common.users import USER
from plant.test_alarms import SMALL, Line, ago, backup
from plant.watched import AWAY, DAYS_LEFT, plant_of

pytestmark = [
    pytest.mark.root, pytest.mark.nginx, pytest.mark.needs("sqlite3"),
    pytest.mark.filterwarnings("ignore::pytest.PytestUnhandledThreadExceptionWarning"),
]  # fmt: skip


@pytest.fixture(scope="module")
def plant(program):
    with plant_of(program, SMALL) as plant:
        backup(plant, ago(hours=1), "true")
        plant.certify(DAYS_LEFT)
        plant.look()
        yield plant


@pytest.fixture(scope="module")
def line(plant):
    return Line(plant)


class Asking(threading.Thread):
    """A station that asks one thing after another, and waits for each."""

    def __init__(self, line):
        super().__init__(daemon=True)
        self.line, self.is_ended, self.count, self.longest, self.wrong = line, False, 0, 0.0, None

    def run(self):
        try:
            while not self.is_ended:
                start = time.monotonic()
                self.line.shipped("waits")
                self.longest = max(self.longest, time.monotonic() - start)
                self.count += 1
        except Exception as error:
            self.wrong = error


def restarted(plant, *words):
    """The status of station-restart, and its lines."""
    named = ["--program", plant.program, "--db", plant.small / "books.db", "--site", plant.place.site]
    named += ["--metrics", plant.text_folder / "wanekupo.prom", "--backups", plant.backups]
    named += ["--health", f"{plant.url}/health", "--ca", plant.small / "etc/cert.pem"]
    given(plant, USER)
    try:
        done = ran([*command("station-restart"), *named, *words], env=plant.environment)
    finally:
        given(plant, 0)
    return done.returncode, done.stdout.splitlines(), done.stderr


def given(plant, user):
    """Gives the store, its backups and the metrics to a user, as a store is never root's for `station-restart`."""
    plant.folder.chmod(0o711)
    inside = (*plant.backups.rglob("*"), *plant.text_folder.iterdir(), *plant.small.glob("books.db*"))
    for path in (plant.small, plant.backups, plant.text_folder, *inside):
        os.chown(path, user, user)


def says(what, found, status, pattern):
    text = "\n".join([*found[1], found[2]])
    if found[0] != status or not re.search(pattern, text):
        raise Failed(f"{what}: status {found[0]}, {text!r}, and not {pattern!r}")


def backed_up(plant):
    """A backup of the store, as station-restart finds it."""
    saved = plant.backups / "1"
    plant.stop()
    words = ["--program", plant.program, "--site", plant.place.site, "--db", plant.small / "books.db", saved]
    done = ran([*command("station-backup"), *words])
    plant.serve()
    if done.returncode:
        raise Failed(f"no backup: {done.stderr}")
    return saved / "books.db"


def shown_anew(plant, memory_max):
    """The metrics, where the unit may have so much memory."""
    plant.memory_max = memory_max
    plant.show()
    plant.look()


def test_no_restart(plant, line):
    """Where nothing asks for a restart, and where one would be wrong."""
    plant.connections = 1_000_000
    plant.look()
    says("nothing asks for it", restarted(plant), 0, "nothing asks for it, nothing was done: 99[0-9]+ connections")
    copy = backed_up(plant)
    pid, plant.connections = plant.place.server.process.pid, 150_000
    plant.look()
    says("asked alone", restarted(plant, "--check"), 0, "it would be away for [0-9]+ s, by a start of the copy")
    whole = copy.read_bytes()
    copy.write_bytes(whole[:4096] + bytes(4096) + whole[8192:])
    says("a copy that doesn't start", restarted(plant), 1, "no restart: the copy in .* doesn't start")
    copy.write_bytes(whole)
    shown_anew(plant, "1000000")
    says("no memory for a start", restarted(plant), 1, "no restart: a start needs 6 MB, and the server may have 1")
    shown_anew(plant, "infinity")
    stopped = plant.folder / "stopped"
    stopped.touch()
    says("the server was stopped", restarted(plant), 1, "nothing was done: station doesn't run")
    stopped.unlink()
    if plant.place.server.process.pid != pid or list(Path("/var/tmp").glob("wanekupo-room.*")):
        raise Failed("the server was restarted, or a trial left its copy")


def test_waiting(plant, line):
    """A restart that is due, under a station that asks all the time."""
    pid = plant.place.server.process.pid
    line.order("waits", 9000, 0)
    first, before = line.station.own_number(), len(line.file.read_text(encoding="ascii").splitlines())
    asking = Asking(line)
    asking.start()
    time.sleep(2)
    says("connections run out", restarted(plant), 0, "done: the server was away for [0-9]+ s at the most")
    if plant.place.server.process.pid == pid or plant.place.ask(None, "/health")[0] != 200:
        raise Failed("the server wasn't restarted, or doesn't answer yet")
    time.sleep(2)
    asking.is_ended = True
    asking.join(60)
    if asking.wrong or asking.is_alive() or asking.longest < AWAY:
        raise Failed(f"the station didn't wait: {asking.count} chips, {asking.longest} s at most, {asking.wrong}")
    asked = [json.loads(it) for it in line.file.read_text(encoding="ascii").splitlines()[before:]]
    numbers = [it["nr"] for it in asked if it.get("status") == 200]
    if numbers != list(range(first, line.station.own_number())):
        raise Failed("a request was done twice, or not at all, by the journal and the seat's number")


def test_old_metrics(plant, line):
    plant.look()
    file = plant.text_folder / "wanekupo.prom"
    old = re.sub(r"(?m)^(wanekupo_metrics_timestamp_seconds) .*", r"\1 1000", file.read_text(encoding="ascii"))
    file.write_text(old, encoding="ascii")
    says("old metrics", restarted(plant), 1, "are [0-9]+ s old")
