"""The copy of a store over which a start is tried: of the newest backup, or of the store as it is now.

The backups' folder is the store user's. So that user lists it and makes the copy, in a room of root's (store_user.py),
and root takes of a backup a name and a size, which that user gets back as words.
"""

import re
import sys
from dataclasses import dataclass
from pathlib import Path

from wanekupo.common.process import own_command, run_command
from wanekupo.common.store_user import StoreUser, UserError, shown

FILES = ("books.db", "books.db-wal")
WHOLE = {*FILES, "site.toml"}  # what a backup has once its copy is whole; `trial` is there while it is tried
ENCRYPTED = ".tar.age"
# What is listed of each file and folder: its kind, bytes, time and name.
LISTED, ROW = r"%y %s %T@ %P\0", re.compile(r"([a-z]) (\d{1,18}) (\d{1,12})[.]\d+ ([^/]+)(?:/([^/]+))?")


class NoCopyError(UserError):
    """Why no copy of a store could be made."""


@dataclass(frozen=True)
class Backup:
    """A backup by its path: a folder, or a file that is encrypted. `size` is what a copy of its store takes."""

    path: Path
    size: int
    is_encrypted: bool


def newest_in(listing: str, folder: Path) -> Backup | None:
    """The newest backup of a folder by its listing, which the store's user may have written."""
    times, files = dict[str, int](), dict[str, dict[str, int]]()
    for row in listing.split("\0"):
        found = ROW.fullmatch(row)
        if not found or not found[4].isprintable() or "\ufffd" in found[4] or found[4].startswith("."):
            continue
        kind, size, moment, name, below = found.groups()
        if not below and kind in "df":
            times[name] = int(moment)
        if kind == "f" and int(size) or below == "trial":
            files.setdefault(name, {})[below or ENCRYPTED] = int(size)
    fit = [name for name, there in files.items() if name in times and is_backup(name, set(there))]
    newest = max(fit, key=lambda name: times[name], default=None)
    if newest is None:
        return None
    there = files[newest]
    return Backup(folder / newest, sum(there.get(it, 0) for it in FILES), ENCRYPTED in there)


def is_backup(name: str, there: set[str]) -> bool:
    """Whether a name is a backup's, by the files that it has: a whole folder, or a file that is encrypted."""
    return name.endswith(ENCRYPTED) if ENCRYPTED in there else WHOLE <= there and "trial" not in there


def newest_backup(user: StoreUser, folder: Path) -> Backup | None:
    """The newest backup, as the store's user sees it."""
    done = user.run("find", f"{folder}/", "-mindepth", "1", "-maxdepth", "2", "-printf", LISTED)
    return newest_in(done.stdout, folder)


def copy_files(user: StoreUser, db: Path, made: Path) -> Path:
    """A copy of a store's two files in a new folder, as the store's user makes it. Gives that of the store's file."""
    for words in (("mkdir", str(made)), ("cp", "--", str(db), f"{db}-wal", f"{made}/")):
        done = user.run(*words)
        if done.returncode:
            raise NoCopyError(f"{db.parent} can't be copied: {shown(done.stderr).strip()}")
    return made / db.name


def copy_running(db: Path, backups: Path, snapshot: str, made: Path) -> Path:
    """A copy of the store as it is now, though its server runs: by a snapshot, as `station-backup` makes it."""
    kind = ["--snapshot", snapshot] if snapshot else []
    words = [own_command("station-backup"), "--trial", "--db", str(db), "--into", str(backups), *kind, str(made)]
    done = run_command(words)
    said = [line.removeprefix("backup: ") for line in shown(done.stderr).strip().splitlines()]
    if done.returncode:
        raise NoCopyError((said or ["it said nothing"])[-1])
    for line in said:
        print(f"backup: {line}", file=sys.stderr)
    return made / FILES[0]
