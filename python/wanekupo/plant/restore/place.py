"""Where a store is put back: the lock of what was there, the folder in which the restored one is made, its server.

Beside the place of the store, so that a name is all that changes at the end:

    lost-2026-11-29T071500Z       what was there
    restoring.json                which of the next steps a run has begun
    restoring                     the store that is being restored; a run that begins makes it anew
    restored-2026-11-29T071502Z   that folder behind a restore: its lists and the journals of its own requests

Until the end no file has the store's name, so no server can serve what is half restored. The log takes its name first:
without the other file it is none that a start with --existing takes.
"""

import contextlib
import fcntl
import json
import os
import shutil
import socket
import stat
import subprocess
import time
from collections.abc import Iterator
from pathlib import Path
from typing import Any

from wanekupo.plant.backup.copies import ABOUT, FILES, size_of
from wanekupo.plant.restore.plan import RestoreError
from wanekupo.common.store_user import StoreFolder, UserError, read_small
from wanekupo.common.files import hold_lock, replace_file, sync
from wanekupo.common.signing import digest_of_file

HOST = "127.0.0.1"
# Where the one server of a machine has its store: a restore elsewhere may be a practice.
STORE = Path("/var/lib/station/books.db")
FORM = "%Y-%m-%dT%H%M%SZ"


def holders_of(db: Path, table: Path = Path("/proc")) -> list[int]:
    """The processes of root or of the store's user that have the store open, also where its files were removed or
    another disk was mounted over them. In a name space of his own another user gives a file of his the store's path."""
    users, found = {0, db.parent.stat().st_uid}, set()
    for process in (int(name) for name in os.listdir(table) if name.isdigit()):
        with contextlib.suppress(OSError):  # one that ends meanwhile has nothing open
            links = [table / f"{process}/fd" / number for number in os.listdir(table / f"{process}/fd")]
            has_it = any(readlink(it) in (str(db), f"{db} (deleted)") for it in links)
            if has_it and process_user(table / str(process)) in users:
                found.add(process)
    return sorted(found - {os.getpid()})


def process_user(process: Path) -> int:
    """A process's real user: who owns its folder may be root, where it lets nobody look at its memory."""
    return int((process / "status").read_text(errors="replace").partition("\nUid:")[2].split()[0])


def readlink(path: Path) -> str:
    """What a link names, or nothing where it is gone."""
    try:
        return os.readlink(path)
    except OSError:
        return ""


def is_open(port: int) -> bool:
    with contextlib.suppress(OSError):
        socket.create_connection((HOST, port), 1).close()
        return True
    return False


def free_name(folder: Path, kind: str) -> Path:
    """A folder's name of this moment that isn't there yet."""
    while (path := folder / f"{kind}-{time.strftime(FORM, time.gmtime())}").exists():
        time.sleep(0.1)
    return path


class StorePlace:
    """The place of a store, which may have no file."""

    def __init__(self, store: StoreFolder):
        self.db, self.folder = store.db, store.folder
        self.work = self.folder / "restoring"
        self.begun = self.folder / "restoring.json"
        self.made = self.work / FILES[0]

    def own_files(self) -> list[Path]:
        return [self.db, Path(f"{self.db}-wal")]

    # Whose it is now.

    def refuse_links(self) -> None:
        """Refuses what is at the store's place and is no file: what is moved and locked is what has its name."""
        for path in self.own_files():
            if path.is_symlink() or (path.exists() and not path.is_file()):
                raise RestoreError(f"{path} is a link, or no file: look who put it there, and move it away")

    def refuse_server(self, port: int) -> None:
        """A server may have the store by its lock, by files that are gone, or by another path."""
        if held := holders_of(self.db):
            told = f"the process {held[0]} has {self.db}"
        elif is_open(port):
            told = f"somebody listens on port {port}"
        else:
            return
        practice = "for a practice take another machine, and stop nothing; else " if self.db != STORE else ""
        words = "stop the server, or have it stopped by --stop station"
        raise RestoreError(f"{told}: {practice}{words}. Nothing was moved")

    @contextlib.contextmanager
    def locked(self) -> Iterator[None]:
        """Has the lock that a server takes, where the store's file is there: it and a server never both have it."""
        if not self.db.exists():
            yield
            return
        with open(self.db, "r+b") as store:
            try:
                fcntl.lockf(store, fcntl.LOCK_EX | fcntl.LOCK_NB)
            except OSError:
                raise RestoreError(f"a server has {self.db}: stop it. Nothing was moved") from None
            yield

    def sole_restore(self) -> contextlib.AbstractContextManager[None]:
        """One restore at a time."""
        return hold_lock(self.folder / "restore.lock", RestoreError(f"another restore is at work in {self.folder}"))

    # What a run leaves to the next.

    def state(self) -> dict[str, Any]:
        try:
            found = json.loads(read_small(self.begun))
        except FileNotFoundError:
            return {}
        except (ValueError, RecursionError, UserError):
            found = None
        if not isinstance(found, dict) or not isinstance(found.get("lost", ""), str):
            raise RestoreError(f"{self.begun} is damaged: {self._mended()}, and begin again")
        return found

    def _mended(self) -> str:
        """What to do with a file that doesn't say any more where the lost store's files are."""
        own = [it.name for it in self.own_files()]
        names = [it.name for it in self.folder.glob("lost-*") if all((it / name).exists() for name in own)]
        return f"write {json.dumps({'lost': max(names)})} into it" if names else "remove it"

    def keep(self, **changes: Any) -> None:
        replace_file(self.begun, json.dumps({**self.state(), **changes}) + "\n")

    # The files.

    def needs(self, backup: Path) -> int:
        """The bytes that a restore adds here: the backup's, and those of the lost store, of which it makes a copy and
        whose rows it brings back."""
        lost = self.lost()
        files = [*self.own_files(), *((lost, Path(f"{lost}-wal")) if lost else ())]
        return size_of(*(backup / name for name in FILES)) + 2 * size_of(*files)

    def begin(self, backup: Path) -> None:
        """The backup's files in the folder of this restore, under other names than the store's."""
        if self.work.exists():
            shutil.rmtree(self.work)
        self.work.mkdir(mode=0o700)
        for name in FILES:
            shutil.copyfile(backup / name, self.work / name)
        sync(self.work)

    def put_aside(self) -> None:
        """Moves what was there away, the store's file first: without it no server starts."""
        there = [it for it in self.own_files() if it.exists()]
        if not there:
            return
        before = self.state().get("lost")
        lost = self.folder / before if before else None
        if not lost or any((lost / it.name).exists() for it in there):
            lost = free_name(self.folder, "lost")
            self.keep(lost=lost.name)
        lost.mkdir(mode=0o700, exist_ok=True)
        for path in there:
            os.rename(path, lost / path.name)
            sync(self.folder)

    def lost(self) -> Path | None:
        """What was there, where both files of it are."""
        name = self.state().get("lost")
        files = [self.folder / name / it.name for it in self.own_files()] if name else []
        return files[0] if files and all(it.exists() for it in files) else None

    def put_in_place(self) -> Path:
        """The restored store gets its name: the log first. It may be stopped in between, and called again."""
        pairs = [(self.work / name, path) for name, path in zip(reversed(FILES), reversed(self.own_files()))]
        for made, path in pairs:
            if made.exists() and path.exists():
                raise RestoreError(f"{path} is there again: it isn't touched, and {made} stays where it is")
            if made.exists():
                sync(made)
        self.keep(placing=True)
        for made, path in pairs:
            if made.exists():
                os.rename(made, path)
                sync(self.folder)
        done = free_name(self.folder, "restored")
        if self.work.exists():
            os.rename(self.work, done)
        self.begun.unlink()
        sync(self.folder)
        return done


# The program over the restored store.


def check_folders(backup: Path, backups: Path) -> None:
    """Refuses what is no backup's folder, and a folder that takes no backup of the restored store at the end."""
    if backup.name.endswith(".age"):
        told = f"{backup} is encrypted: decrypt it first, where its key is"
        words = "age -d -i KEY FILE | unshare -r tar -x --no-same-owner --no-same-permissions"
        raise RestoreError(f"{told} ({words}), and give the folder that comes of it")
    if backup.is_file():
        raise RestoreError(f"{backup} is no folder: give the folder of a backup")
    if not os.access(backups, os.W_OK | os.X_OK):
        told = f"the restored store is backed up in {backups}, which isn't there, is read-only or is another user's"
        raise RestoreError(f"{told}: name another folder by --backups. Nothing was moved")


def said_in(backup: Path) -> dict[str, Any]:
    """What a backup says of itself; nothing of one by an earlier program."""
    try:
        found = json.loads(read_small(backup / ABOUT))
    except FileNotFoundError:
        return {}
    except (ValueError, RecursionError, UserError):
        found = None
    about: dict[str, Any] = found if isinstance(found, dict) else {}
    digests, counts = about.get("sha256"), about.get("counts")
    if not isinstance(digests, dict) or not set(FILES) <= set(digests) or not isinstance(counts, list):
        raise RestoreError(f"{backup / ABOUT} is damaged: take another backup")
    return about


def check_backup(backup: Path) -> dict[str, Any]:
    """What a backup says of itself, where its files are those that it names."""
    for name in (*FILES, ABOUT, "site.toml"):
        path = backup / name
        if os.path.lexists(path) and not stat.S_ISREG(os.lstat(path).st_mode):
            raise RestoreError(f"{path} is no plain file: look who made it, and take another backup")
    for name in FILES:
        if not (backup / name).is_file() or not (backup / name).stat().st_size:
            raise RestoreError(f"{backup} has no {name}, or an empty one: it is no backup")
    about = said_in(backup)
    for name in FILES if about else ():
        if digest_of_file(backup / name) != about["sha256"][name]:
            opened = "a program opened it, as a test by `station replay` does, or it is damaged"
            told = f"{backup / name} isn't as it was made: {opened}"
            raise RestoreError(f"{told}. Decrypt or copy that backup anew, or take another one")
    return about


@contextlib.contextmanager
def serve_alone(program: str, site: Path, db: Path) -> Iterator[str]:
    """The address of a server over a store, on a port of this machine that nobody knows. It dies with this process."""
    with socket.socket() as listener:
        listener.bind((HOST, 0))
        port = listener.getsockname()[1]
    words = ["setpriv", "--pdeathsig", "KILL", program, "serve", "--site", str(site), "--db", str(db), "--existing"]
    server = subprocess.Popen(
        [*words, "--port", str(port), "--connections", "1000000"],
        stdin=subprocess.DEVNULL, stdout=subprocess.PIPE, text=True,
    )  # fmt: skip
    try:
        assert server.stdout
        if server.stdout.readline() != f"listening on {HOST}:{port}\n":
            raise RestoreError(f"the program doesn't serve {db}")
        yield f"http://{HOST}:{port}"
    finally:
        server.kill()
        server.wait()
