"""What this machine's half has, read in a snapshot that is thrown away, so that the half stays as it is.

A half that nobody may use yet can't be mounted: DRBD has it, and mounting writes. So a device of the kernel's
(dm-snapshot) shows the half with changed blocks of its own, which are in a scratch file. The file system's log is
replayed there, the server's program opens the store there, as a start would, and sqlite3 reads it in its safe mode.
Nobody writes the half meanwhile: the other machine is off, or it doesn't have the store.
"""

import contextlib
import os
import re
import shutil
import tempfile
from collections.abc import Iterator
from dataclasses import dataclass
from pathlib import Path

from wanekupo.common.errors import PAGES
from wanekupo.standby import living
from wanekupo.standby.half import Half, StandbyError, done, run_bounded
from wanekupo.common.store_user import LONGEST, SQLITE, StoreFolder, user_named
from wanekupo.common.site_file import SiteFileError, read_site_file

# A seat and its last number, in a line of a witness, and of what sqlite3 reads of a half.
SEAT = re.compile(r"seat ([A-Za-z0-9._-]{1,32}) ([0-9]{1,16})")
# The device of a look, its folder, and the file there that has the changed blocks.
NAME, FOLDER, CHANGES = "station-look", "station-look-", "changes"
SEATS = "SELECT 'seat ' || name || ' ' || last FROM seat ORDER BY name"


@contextlib.contextmanager
def looped(*words: str) -> Iterator[str]:
    """A device over a file or over a device that is in use."""
    device = done(["losetup", "--find", "--show", *words])
    try:
        yield device
    finally:
        run_bounded(["losetup", "--detach", device])


@contextlib.contextmanager
def device_snapshot(half: Half, folder: str) -> Iterator[str]:
    """A device that shows the half, and whose changes go into a file of the folder."""
    disk, changes = half.disk(), Path(folder) / CHANGES
    with open(changes, "wb") as file:
        os.fchmod(file.fileno(), 0o600)
        file.truncate(half.settings.scratch_bytes)
    # What an earlier look has read of the disk may be older than the disk is.
    done(["blockdev", "--flushbufs", disk])
    size = done(["blockdev", "--getsz", disk])
    with looped("--read-only", disk) as origin, looped(str(changes)) as rest:
        done(["dmsetup", "create", NAME, "--table", f"0 {size} snapshot {origin} {rest} N 8"])
        try:
            done(["dmsetup", "mknodes", NAME])
            yield f"/dev/mapper/{NAME}"
        finally:
            run_bounded(["dmsetup", "remove", "--retry", NAME])
            run_bounded(["dmsetup", "mknodes"])


def clear_look(half: Half) -> None:
    """Takes away what a look has left that was killed. No other one is at work: `takeover` sees to that."""
    found = Path(half.settings.scratch).glob(f"{FOLDER}*")
    left = [it for it in found if it.is_dir() and not it.is_symlink() and it.lstat().st_uid == 0]
    for folder in left:
        run_bounded(["umount", str(folder / "shown")])
    if run_bounded(["dmsetup", "info", NAME]).returncode == 0:
        if run_bounded(["dmsetup", "remove", "--retry", NAME]).returncode:
            raise StandbyError("A look that was killed is at work still. Wait a minute, and type the same again.")
        run_bounded(["dmsetup", "mknodes"])
    for place in (half.disk(), *(str(folder / CHANGES) for folder in left)):
        for line in run_bounded(["losetup", "--associated", place]).stdout.splitlines():
            run_bounded(["losetup", "--detach", line.partition(":")[0]])
    for folder in left:
        if not os.path.ismount(folder / "shown"):
            shutil.rmtree(folder, ignore_errors=True)


@contextlib.contextmanager
def mounted(half: Half) -> Iterator[Path]:
    """The folder in which the half's files are shown."""
    clear_look(half)
    with tempfile.TemporaryDirectory(dir=half.settings.scratch, prefix=FOLDER) as folder:
        os.chmod(folder, 0o711)
        shown = Path(folder) / "shown"
        shown.mkdir()
        with device_snapshot(half, folder) as device:
            half.mount(device, str(shown))
            try:
                yield shown
            finally:
                run_bounded(["umount", str(shown)])


def as_user(half: Half, words: list[str], folder: Path) -> str:
    """A command of the store's user: what a file may bring a program to do would be done as that user."""
    ended = user_named(half.settings.user).run(*words, cwd=folder, seconds=LONGEST)
    if ended.returncode:
        said = (ended.stderr or ended.stdout).strip().replace("\n", "; ")
        name, told = Path(words[0]).name, "Look that fault up; the site file has to be the newest one."
        raise StandbyError(f"{name} ended with status {ended.returncode} over this machine's half: {said}. {told}")
    return ended.stdout


def tested_owner(half: Half, store: StoreFolder) -> None:
    """Refuses a half without a store, and one whose user has another number on this machine."""
    store.size()
    user, number = half.settings.user, store.user.number
    if user_named(user).number != number:
        told = f"Give that user one number on both machines, as step 1 of {PAGES}/operate/second-machine.md does"
        raise StandbyError(f"The half is the user's of number {number}, and {user} has another number here. {told}.")


def seats_of(site: str) -> list[str]:
    """The seats that a site file names. The manager is none: it looks, and has no number."""
    try:
        return list(read_site_file(site).seats())
    except (SiteFileError, OSError) as error:
        raise StandbyError(f"The seats of {site} can't be read: {error}.") from None


@dataclass(frozen=True)
class Contents:
    """What a half has: the last accepted number of each seat, and which tokens could ask the machine that had it."""

    numbers: dict[str, int]
    tokens: set[str] | None


def numbers_of(text: str, seats: list[str]) -> dict[str, int]:
    """The numbers of lines as `seat a1 17`. A seat of the site file that has none has asked for nothing: 0."""
    named = [SEAT.fullmatch(line) for line in text.splitlines()]
    return dict.fromkeys(seats, 0) | {seat[1]: int(seat[2]) for seat in named if seat}


def contents(half: Half) -> Contents:
    """What the half has. The program opens it only where this machine's site file has each seat of the text that the
    half holds: so the seats of that file are those of both."""
    settings = half.settings
    with mounted(half) as shown:
        store = StoreFolder(shown / "books.db")
        try:
            tested_owner(half, store)
            words = [settings.program, "replay", "--site", settings.site, "--db", "books.db", "--existing"]
            as_user(half, words, shown)
            text = as_user(half, [*SQLITE, "books.db", SEATS], shown)
            return Contents(numbers_of(text, seats_of(settings.site)), living.listed_tokens(store.handle))
        finally:
            os.close(store.handle)
