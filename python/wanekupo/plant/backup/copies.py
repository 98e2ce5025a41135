"""A copy of a store that is one: it is made as the store's user, opened by the program, counted, and compared.

Only the program opens a copy first, with --existing: it takes no tables but its own, and runs nothing that a file says.
Then sqlite3 counts, in its safe mode, in which it runs no command and writes no file.
"""

import contextlib
import errno
import json
import os
import pwd
import shutil
import subprocess
from collections.abc import Iterator
from pathlib import Path

from wanekupo.common.errors import PlantError, cause_of
from wanekupo.common.files import replace_file, sync
from wanekupo.common.moments import now_text
from wanekupo.common.process import succeeds
from wanekupo.common.signing import digest_of_file
from wanekupo.common.store_user import SQLITE

FILES = ("books.db", "books.db-wal")
ABOUT = "about.json"

# The causes of a disk without room, and the bytes that a step may need beside copies: a disk with fewer is full.
FULL, BESIDE = (errno.ENOSPC, errno.EDQUOT), 1 << 20

# What is compared, a line each.
COUNTED = """
SELECT 'orders', count(*) FROM orders;
SELECT 'devices', count(*) FROM device;
SELECT 'records', count(*) FROM given;
SELECT 'seat', name, last FROM seat ORDER BY name;"""


class BackupError(PlantError):
    """Why there is no backup, in a line."""


def size_of(*paths: Path) -> int:
    return sum(it.stat().st_size for it in paths if it.exists())


@contextlib.contextmanager
def told_if_full(folder: Path, size: int, what: str) -> Iterator[None]:
    """Where the disk of a folder has no room for a step, the error says so, and how much the step needs. Some files
    are made by others, as sqlite3, whose words for a full disk are their own: so a disk that is full then is told."""
    try:
        yield
    except (BackupError, OSError) as error:
        is_full = isinstance(error, OSError) and error.errno in FULL
        if not is_full and shutil.disk_usage(folder).free >= BESIDE:
            raise
        needed = -(-(size + BESIDE) // 10**6)
        told = f"No space left at {folder}: {what} needs {needed} MB there"
        raise BackupError(told if is_full else f"{cause_of(error)}. {told}") from error


def name_of_user(user: int) -> str:
    try:
        return pwd.getpwuid(user).pw_name
    except KeyError:
        return str(user)


def run_unpiped(*words: str) -> subprocess.CompletedProcess[str]:
    """A command that has ended, with what it printed: into files, as another process of this user's may take its pipe,
    and whoever reads that waits for both."""
    with open(os.memfd_create("out"), "w+b") as out, open(os.memfd_create("err"), "w+b") as err:
        status = subprocess.run(words, stdin=subprocess.DEVNULL, stdout=out, stderr=err, check=False).returncode
        for file in (out, err):
            file.seek(0)
        texts = [file.read().decode(errors="replace") for file in (out, err)]
    return subprocess.CompletedProcess(words, status, *texts)


def safely(*words: str) -> subprocess.CompletedProcess[str]:
    """sqlite3 in its safe mode."""
    return run_unpiped(*SQLITE, *words)


def is_served(db: Path) -> bool:
    """Whether a server has the store. Its lock is met before the log is looked at; readonly_shm has sqlite3 make no
    file. It is asked for a number of the file's head: no table is read, and no view is looked at."""
    named = str(db).replace("%", "%25").replace("?", "%3f").replace("#", "%23")
    done = safely(f"file:{named}?mode=ro&readonly_shm=1", "PRAGMA schema_version")
    return "locked" in done.stdout + done.stderr


def copied_counts(db: Path, store: str) -> list[str]:
    """The numbers of a copy that are compared."""
    done = safely("-bail", str(db), COUNTED)
    if done.returncode:
        raise BackupError(f"sqlite3 can't read the copy of {store}: {done.stderr.strip()}")
    db.with_name(db.name + "-shm").unlink(missing_ok=True)
    return done.stdout.replace("|", " ").splitlines()


def look_at(store: str) -> Path:
    """The store's file itself, where a backup of it may be made: its log stands beside it, and not beside a link."""
    db = Path(os.path.realpath(store))
    if not db.is_file():
        raise BackupError(f"{store}: no store")
    owner, log = db.stat().st_uid, Path(f"{db}-wal")
    if owner != os.geteuid():
        name = name_of_user(owner)
        raise BackupError(f"{store} is the store of {name}: run this as that user")
    if not log.is_file() or not log.stat().st_size:
        raise BackupError(f"{store}-wal is missing or empty, and {store} alone may be older than the store was")
    if log.is_symlink() or log.stat().st_dev != db.stat().st_dev:
        raise BackupError(f"{store}-wal is on another volume than {store}: no copy of both is of one moment")
    return db


def opened_by(program: str, site: str | Path, db: Path) -> bool:
    """Whether the program opens a copy, as which it joins its two files."""
    words = [program, "replay", "--site", str(site), "--db", str(db), "--existing"]
    return succeeds(*words)


def _tried(program: str, site: str, folder: Path, store: str) -> list[str]:
    """The numbers of the copy, which have to be the same once the program has opened a copy of it. Where anything
    fails, that copy goes with the folder."""
    trial = folder / "trial"
    trial.mkdir()
    for name in FILES:
        shutil.copyfile(folder / name, trial / name)
    if not opened_by(program, site, trial / FILES[0]):
        raise BackupError("the program refuses the copy")
    before, after = copied_counts(folder / FILES[0], store), copied_counts(trial / FILES[0], store)
    shutil.rmtree(trial)
    if before != after:
        raise BackupError(f"the copy has other rows once the program has opened it: {before} before, {after} after")
    return after


def about_of(program: str, folder: Path, counts: list[str], taken: str) -> str:
    """What a backup says of itself."""
    said = run_unpiped(program, "--version")
    names = [*FILES, "site.toml"]
    told = {
        "at": now_text(),
        "program": said.stdout.strip(),
        "program_sha256": digest_of_file(Path(program)),
        "of": taken or "a stopped server",
        "sha256": {name: digest_of_file(folder / name) for name in names},
        "bytes": sum((folder / name).stat().st_size for name in names),
        "counts": counts,
    }
    return json.dumps(told, indent=1) + "\n"


@contextlib.contextmanager
def _new_folder(folder: Path, size: int) -> Iterator[None]:
    """A folder that wasn't there, for files of so many bytes. Where anything fails within it is gone again."""
    try:
        folder.mkdir(mode=0o700)
    except OSError as error:
        told = f"{folder}: make the backup in a folder that wasn't there ({error.strerror})"
        raise BackupError(told) from error
    try:
        with told_if_full(folder.parent, size, "a backup"):
            yield
    except BaseException:
        shutil.rmtree(folder, ignore_errors=True)
        raise


def copy_for_trial(store: str, folder: Path) -> None:
    """Both files of a store in a snapshot, for a start that tries them and throws them away: nothing is counted."""
    db = look_at(store)
    log = Path(f"{db}-wal")
    with _new_folder(folder, size_of(db, log)):
        for source, name in zip((db, log), FILES):
            shutil.copyfile(source, folder / name)


def copy_store(program: str, site: str, store: str, folder: Path, taken: str = "") -> list[str]:
    """Makes the backup in a folder that wasn't there, and gives its numbers."""
    db = look_at(store)
    if is_served(db):
        raise BackupError(f"{store} is locked: stop its server")
    log = Path(f"{db}-wal")
    with _new_folder(folder, 2 * size_of(db, log)):
        for source, name in ((db, FILES[0]), (log, FILES[1]), (Path(site), "site.toml")):
            shutil.copyfile(source, folder / name)
            sync(folder / name)
        counts = _tried(program, site, folder, store)
        replace_file(folder / ABOUT, about_of(program, folder, counts, taken))
        for name in FILES:
            if digest_of_file(Path(f"{db}{name[len(FILES[0]):]}")) != digest_of_file(folder / name):
                raise BackupError(f"{store}{name[len(FILES[0]):]} isn't as it was copied any more: stop its server")
        sync(folder)
        return counts
