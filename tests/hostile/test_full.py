"""A store that one seat's imports fill until its file may not grow any more.

There are four ways to bound the file: a limit of its size (`ulimit -f`) where SIGXFSZ is ignored, and with the signal
as it is; a file system of its own, ext4 in a file; and one in memory. Each is filled, asked and started again; then it
is made larger, and the request that was refused is sent again. What stands in the stopped store at the end SQLite
counts: each row of each import that was accepted is there once, and nothing else.
"""

import os
import signal
import subprocess
import tempfile
from pathlib import Path

import pytest

from common.deployed import expect
from common.ports import free_port
from common.served import Caller, Server, station
from hostile.floods import ROWS, import_of
from hostile.place import HONEST, SEATS, site_text

pytestmark = [pytest.mark.root, pytest.mark.needs("sqlite3", "mkfs.ext4", "resize2fs")]

SMALL, LARGE = 8 << 20, 16 << 20
UNKEPT = (503, b'{"error":"unkept","no":50}')

# How a shell tells that a signal ended a program: 128 and its number, which is 25 of SIGXFSZ on Linux.
KILLED = 153
ENDED = "Terminated"


class Limited:
    """A limit of the file's size, as the unit has it: SIGXFSZ is ignored, or is as it is."""

    def __init__(self, folder, is_ignored=True):
        self.folder, self.is_ignored, self.bytes = Path(folder), is_ignored, SMALL

    def command(self, words):
        trap = "trap '' XFSZ; " if self.is_ignored else ""
        return ["sh", "-c", f'{trap}ulimit -f {self.bytes // 512}; exec "$@"', "sh", *words]

    def enlarge(self):
        self.bytes = LARGE

    def close(self):
        pass


class Mounted:
    """A file system of a fixed size: ext4 in a file, or one in memory."""

    def __init__(self, folder, kind):
        self.kind, self.image, self.folder = kind, Path(folder) / "image", Path(folder) / "mounted"
        self.folder.mkdir()
        if kind == "tmpfs":
            self.run("mount", "-t", "tmpfs", "-o", f"size={SMALL},mode=700", "none", self.folder)
            return
        with open(self.image, "wb") as file:
            file.truncate(SMALL)
        self.run("mkfs.ext4", "-q", "-m", "0", self.image)
        self.run("mount", "-o", "loop", self.image, self.folder)

    @staticmethod
    def run(*words):
        subprocess.run([str(word) for word in words], check=True, capture_output=True)

    def command(self, words):
        return words

    def enlarge(self):
        """More room. Linux lets a mounted ext4 grow where it may use what it keeps for root; so it is taken off."""
        if self.kind == "tmpfs":
            self.run("mount", "-o", f"remount,size={LARGE}", self.folder)
            return
        self.run("umount", self.folder)
        with open(self.image, "r+b") as file:
            file.truncate(LARGE)
        self.run("e2fsck", "-fp", self.image)
        self.run("resize2fs", self.image)
        self.run("mount", "-o", "loop", self.image, self.folder)

    def close(self):
        subprocess.run(["umount", "-l", str(self.folder)], check=False, capture_output=True)


class Books:
    """A store of the sample's two customers, by one of the ways, and the server over it."""

    def __init__(self, program, way):
        self.way, self.port, self.program = way, free_port(), str(program)
        self.tokens = {name: f"token-{name}" for name in [*SEATS, HONEST, "manager"]}
        self.site, self.db = way.folder / "site.toml", way.folder / "books.db"
        self.site.write_text(site_text(self.tokens), encoding="utf-8")
        self.server, self.number, self.rows, self.honest = None, 1, 0, 1

    def start(self):
        words = self.way.command(station(self.program, str(self.site), str(self.db), self.port))
        self.server = Server(words, self.port).wait(Server.is_answering)

    def stop(self):
        """Stops it as systemd does, and says with which signal it ended."""
        os.killpg(self.server.process.pid, signal.SIGTERM)
        status, self.server = self.server.process.wait(20), None
        return signal.strsignal(-status) if status < 0 else status

    def close(self):
        if self.server:
            self.server.kill()

    def join(self):
        """The unit's run behind a stop, which joins the log to the file, and its status."""
        words = [self.program, "replay", "--site", str(self.site), "--db", str(self.db), "--existing"]
        done = subprocess.run(self.way.command(words), stdin=subprocess.DEVNULL, capture_output=True, text=True)
        return f"{done.returncode} {done.stderr.strip()}".strip()

    def ask(self, seat, method, target, members=None):
        caller = Caller(self.port, self.tokens[seat], is_kept=False)
        try:
            return caller.ask(method, target, members)
        finally:
            caller.close()

    def refused_import(self):
        """The next import, as it is sent again and again."""
        return self.ask(SEATS[0], "POST", "/v1/import", {"nr": self.number, **import_of(self.rows + 1)})

    def accepted(self, reply):
        """Whether an import was accepted, which is counted."""
        if reply[0] != 200:
            return False
        self.number, self.rows = self.number + 1, self.rows + ROWS
        return True

    def fill(self):
        """One seat's imports until one is refused, and what that one got."""
        while self.accepted(reply := self.refused_import()):
            pass
        return reply

    def order(self):
        """An order of the other customer's, its next request."""
        members = {"name": "h1", "issuer": "bolt-ca", "prefix": "H", "width": 3, "first": 1}
        return self.ask(HONEST, "POST", "/v1/order", {"nr": self.honest, **members, "quantity": 9, "macs": 0})

    def shown(self):
        """What only shows: an order that isn't there, each customer's report and the site's."""
        asked = [(HONEST, "/v1/order?name=none"), (SEATS[0], "/v1/report"), (HONEST, "/v1/report")]
        return tuple(self.ask(seat, "GET", target)[0] for seat, target in [*asked, ("manager", "/v1/site/report")])

    def counted(self):
        """The rows of the stopped store, by SQLite over a copy, and what it finds wrong with it."""
        with tempfile.TemporaryDirectory() as folder:
            for path in (self.db, Path(f"{self.db}-wal")):
                Path(folder, path.name).write_bytes(path.read_bytes())
            asked = "SELECT count(*), count(DISTINCT serial) FROM given; "
            asked += "PRAGMA integrity_check; PRAGMA foreign_key_check"
            words = ["sqlite3", "-safe", "-readonly", f"{folder}/books.db", asked]
            return tuple(subprocess.run(words, capture_output=True, text=True).stdout.split())


def filled(books):
    """Fills the store, and asks it."""
    books.start()
    expect("the first import that is refused", books.fill(), UNKEPT)
    expect("the same again", books.refused_import(), UNKEPT)
    expect("another customer's order", books.order(), UNKEPT)
    expect("what only shows, by three seats", books.shown(), (404, 200, 200, 200))
    expect("the server runs", books.server.process.poll(), None)


def started_again(books):
    """Another start over it, which is full still."""
    expect("stopped by SIGTERM", books.stop(), ENDED)
    books.join()
    books.start()
    expect("what only shows", books.shown(), (404, 200, 200, 200))
    expect("and then the import is refused", books.fill(), UNKEPT)
    expect("stopped by SIGTERM", books.stop(), ENDED)


def goes_on(books):
    """With more room the request that was refused is done, once."""
    books.way.enlarge()
    books.start()
    number, first = books.number, books.rows + 1
    reply = books.refused_import()
    expect("the import that was refused", reply, (200, b'{"added":%d,"present":0}' % ROWS))
    expect("it was accepted", books.accepted(reply), True)
    again = books.ask(SEATS[0], "POST", "/v1/import", {"nr": number, **import_of(first)})
    expect("sent once more it gets the same reply", again == reply, True)
    expect("another customer's order", books.order()[0], 200)
    expect("stopped by SIGTERM", books.stop(), ENDED)
    wanted = (f"{books.rows}|{books.rows}", "ok")
    expect("rows and different ones, and what SQLite finds", books.counted(), wanted)


def killed(books):
    """With the signal as it is the kernel ends the server at the write that goes over the limit."""
    books.start()
    with pytest.raises(OSError):
        books.fill()
    status, books.server = books.server.process.wait(10), None
    expect("the server's status, as a shell tells it", 128 - status if status < 0 else status, KILLED)
    books.start()
    expect("what only shows", books.shown(), (404, 200, 200, 200))
    with pytest.raises(OSError):
        books.fill()
    status, books.server = books.server.process.wait(10), None
    expect("its status", 128 - status if status < 0 else status, KILLED)


WAYS = {
    "a limit of the file's size, SIGXFSZ ignored": (Limited, (True,), (filled, started_again, goes_on)),
    "a limit of the file's size, the signal as it is": (Limited, (False,), (killed, goes_on)),
    "a file system of its own, ext4 in a file": (Mounted, ("ext4",), (filled, started_again, goes_on)),
    "a file system of its own, in memory": (Mounted, ("tmpfs",), (filled, started_again, goes_on)),
}


@pytest.mark.parametrize(("kind", "words", "parts"), WAYS.values(), ids=WAYS)
def test_full(program, open_folder, kind, words, parts):
    try:
        way = kind(open_folder, *words)
    except subprocess.CalledProcessError as error:
        pytest.skip(f"this machine doesn't let it be mounted: {error.stderr.decode().strip()}")
    books = Books(program, way)
    try:
        for part in parts:
            part(books)
    finally:
        books.close()
        way.close()
