"""Backs a store up and tests the backup.

    station-backup --site SITE --db STORE FOLDER
                                                  of a server that is stopped, into a folder that wasn't there: by the
                                                  store's user, or by root, who has all of it done as that user
    station-backup --site SITE --db STORE --into ALL  the same, into a folder of its own in ALL, beside the earlier ones
    station-backup --snapshot lvm ..              of a server that runs, as root: by a snapshot of lvm, btrfs or zfs
    station-backup --into ALL --db STORE --clean  removes what a run that was killed left, and makes none
    station-backup --trial --db STORE --into ALL FOLDER
                                                  no backup: both files of a server that runs, to try a start of them
    station-backup --program P ..                 another program than `station`, or one that isn't in PATH

FOLDER has the store's two files, the site file and about.json at the end, which says when it was made, by which program
and of what SHA-256; where anything fails it is gone again. While it works FOLDER has a second copy of the two files, so
there has to be room for two. The program opens that copy first, with --existing; only then sqlite3 counts the orders,
devices and records and reads the number of each seat, in the copy that the program opened and in the other one. They
are printed, and the status is 0 where they agree. STORE is only read, and nothing is made beside it.

With --into a backup has the moment as its name. --keep-days 7 and --keep-weeks 5 say how many stay: the newest of each
day, and of each week, that has one. --recipient R, which may come again, has `age` encrypt it for a public key, or for
those of a file, and removes the copy in plain. --copy-with COMMAND has a command of the plant's take it to another
house: {} is its path, or the last word is. ALL/last-backup.json says how the last run went: at, ok, bytes, said; and of
which kind and size the last snapshot was.

With --snapshot root makes the snapshot, mounts it read-only, and removes it. All else is done as the store's user, the
command of --copy-with too. A snapshot has what a crash at its moment would have left. A logical volume's has room for a
fifth of the volume, or for --snapshot-size; where more is written meanwhile it is invalid, and there is no backup.

--clean removes a snapshot of the kind that --snapshot names, and one of the kind that ALL/last-backup.json has. It
removes what a killed run began in ALL, which is in plain, too.

--trial is for station-restart and station-site, where the backups are encrypted and their key is elsewhere. It makes
FOLDER as the store's user, by a snapshot, whose kind without --snapshot is that of the last backup. Who asked for it
removes FOLDER.

It refuses, with a line and status 1,
- another user's store, but for root, who becomes that user: what a file brings a program to do is done as that one;
  and a store of root's in another user's folder of backups;
- a store whose log STORE-wal is missing or empty: the program always leaves one, of 41 bytes at the least, and STORE
  alone may open and be older; or whose log is on another volume;
- a store that a server has locked, also where STORE's folder can't be written, as by a bind mount that is read-only;
- files that aren't those of the copies any more at the end, as where the lock is another machine's, which isn't seen.

What it can't tell from a whole store: a log that lost its end is a shorter log, and a store that the program opened
without its log has a new one. None of the printed numbers ever goes down, so compare them with the last ones. It needs
Python 3.11, sqlite3, and what its words name. The status is 2 where the words are wrong.
"""

import argparse
import contextlib
import os
import shutil
import signal
import sys
from collections.abc import Callable, Iterator
from pathlib import Path

from wanekupo.common.errors import cause_of
from wanekupo.plant.backup.copies import BackupError, copy_for_trial, copy_store, name_of_user
from wanekupo.plant.backup.folder import (
    LAST, LOCK, NEW, PUBLIC_KEYS, backup_bytes, copy_off, last_snapshot, new_name, note, placed, remove_begun,
    sole_backup, tidy,
)  # fmt: skip
from wanekupo.plant.backup.snapshot import KINDS, SnapshotStaysError, hold_snapshot, volume_of
from wanekupo.common.store_user import DAY, MINUTE, StoreFolder, StoreUser, UserError, opened, shown, user_of
from wanekupo.common.store_words import clean_words
from wanekupo.common.files import opened_shared_lock


def warn_backup(*lines: str) -> None:
    for line in lines:
        print(shown(f"backup: {line}"), file=sys.stderr)


def out(*lines: str) -> None:
    """Prints lines. Who reads them may have enough, as `head` has: that is no fault of a backup."""
    try:
        for line in lines:
            print(line, flush=True)
    except BrokenPipeError:
        os.dup2(os.open(os.devnull, os.O_WRONLY), sys.stdout.fileno())


def stop_run(number: int, _: object) -> None:
    """A signal ends a run as an error does: what it began is gone."""
    raise BackupError(f"stopped by signal {number}")


def copy(args: argparse.Namespace, db: str, folder: Path) -> None:
    """A backup, whose numbers are printed."""
    out(*copy_store(args.program, args.site, db, folder, args.snapshot))


def finish_backup(args: argparse.Namespace, name: str) -> None:
    """What comes behind a copy: its encryption, its name, those that don't stay, and its way off. That way may be shut
    for weeks, or be cut by the unit's time, so it comes last; and what can't be tidied keeps no backup from it."""
    path, untidy = placed(args.into / f"{NEW}{name}", args.into, name, args.recipient), ""
    try:
        for gone in tidy(args.into, args.keep_days, args.keep_weeks):
            out(f"removed {gone}")
    except OSError as error:
        untidy = f"{path} is here, and an older one can't be removed: {cause_of(error)}"
    if args.copy_with:
        copy_off(args.copy_with, path)
    if untidy:
        raise BackupError(untidy)
    note(args.into, True, backup_bytes(path), f"backed up in {path}", args.taken)
    out(f"backed up in {path}")


def as_owner(folder: Path) -> Callable[[Callable[[], None]], None]:
    """How what is in a folder is read and written: as its owner, in a process of its own where this run is root's."""
    if os.geteuid() and folder.stat().st_uid == os.geteuid():
        return lambda call: call()
    with held_open(folder) as handle:
        if os.fstat(handle).st_uid == os.geteuid():
            return lambda call: call()
        user = user_of(handle, folder)
    return lambda call: done_as(user, call)


def done_as(user: StoreUser, call: Callable[[], None], seconds: float = DAY) -> None:
    try:
        user.call(call, cause_of, seconds)
    except UserError as error:
        raise BackupError(str(error)) from error


def with_lock(args: argparse.Namespace) -> None:
    """Makes the lock's file where there is none: root makes no file there, and a run without root has to open it."""
    os.close(opened_shared_lock(args.into / LOCK))


@contextlib.contextmanager
def held_open(folder: Path) -> Iterator[int]:
    handle = opened(folder)
    try:
        yield handle
    finally:
        os.close(handle)


def owner_of(folder: Path) -> int:
    """Whose a folder is, in the place of which nobody else can put another one."""
    with held_open(folder) as handle:
        return os.fstat(handle).st_uid


def note_failure(args: argparse.Namespace, said: str) -> None:
    """Says in the folder of all backups that there is no new one, as the user whose folder it is. Where the disk takes
    no note, the last one stays, which may be a good one's: then this run's own lines say so."""
    try:
        as_owner(args.into)(lambda: note(args.into, False, 0, said, args.taken))
    except (BackupError, UserError, OSError) as error:
        warn_backup(f"{args.into / LAST} doesn't say so, and may still say that a backup was made: {cause_of(error)}")


def clear_begun(args: argparse.Namespace) -> None:
    remove_begun(args.into)


def begin(args: argparse.Namespace) -> None:
    for left in remove_begun(args.into):
        warn_backup(f"an earlier run left {left}, which is removed now")


def run_into(args: argparse.Namespace, by: Callable[[Callable[[], None]], None]) -> None:
    """A backup beside the earlier ones. `by` has done what may read or write a store's user's files."""
    name, stays = new_name(args.into), ""
    begun = args.into / f"{NEW}{name}"
    try:
        by(lambda: begin(args))
        try:
            if args.snapshot:
                with hold_snapshot(args.volume) as db:
                    by(lambda: copy(args, str(db), begun))
            else:
                by(lambda: copy(args, args.db, begun))
        except SnapshotStaysError as error:
            stays = str(error)
            warn_backup(f"the snapshot can't be removed: {stays}")  # at once, as what comes now may fail too
        by(lambda: finish_backup(args, name))
        if stays:
            raise BackupError(f"the backup {name} is here, and its snapshot stays: {stays}")
    except BaseException:
        with contextlib.suppress(BackupError, OSError):
            by(lambda: clear_begun(args))
        raise


def disk_of(folder: Path) -> str:
    """What to look at before a folder gets another owner: one of a disk that isn't mounted is mostly root's, and its
    backups would go to another disk from then on."""
    if os.path.ismount(folder):
        return ""
    above = next(it for it in folder.resolve().parents if os.path.ismount(it))
    told = f"{folder} is no mount point, and is on the disk of {above}"
    return f"{told}: where a disk of its own has to be there, mount that first. Else "


def chosen_kind(args: argparse.Namespace) -> bool:
    """Takes the kind of the last backup's snapshot where none is named; whether there is one."""
    if not args.snapshot:
        args.snapshot, size = last_snapshot(args.into)
        args.snapshot_size = args.snapshot_size or size
    return args.snapshot in KINDS


def remove_left(args: argparse.Namespace, db: Path) -> None:
    """Removes the snapshot that an earlier run left: one of this kind, and one of the kind that was noted last, as the
    words may name another kind since a kill. Until then that one stays noted."""
    volumes, noted = [args.volume], last_snapshot(args.into)[0] if args.into else ""
    if noted in KINDS and noted != args.snapshot:
        try:
            volumes.append(volume_of(noted, db, ""))
        except BackupError as error:
            warn_backup(f"the last snapshot was of {noted}, and whether one is left can't be seen: {error}")
    for volume in volumes:
        if left := volume.removed():
            warn_backup(f"an earlier run left {left}, which is removed now")
    args.taken = args.snapshot, args.snapshot_size


def tested_user(store: StoreFolder, place: Path) -> StoreUser:
    """The store's user, whose the folder of what is made has to be, too."""
    with held_open(place) as handle:
        if os.fstat(handle).st_uid == store.user.number:
            return store.user
    told = f"{store.db} and {place} aren't one user's, other than root"
    raise BackupError(f"{told}. {disk_of(place)}chown both to the user of the server")


def run_snapshot(args: argparse.Namespace) -> None:
    """Root's part of what is made of a server that runs."""
    if os.geteuid():
        raise BackupError("a snapshot is root's: only it makes and mounts one")
    store = StoreFolder(args.db)
    if not args.clean:
        store.size()
    args.volume = volume_of(args.snapshot, store.db, args.snapshot_size)
    with sole_backup(Path("/run/station-backup")):
        remove_left(args, store.db)
        if args.clean:
            return
        user = tested_user(store, args.folder.parent if args.trial else args.into)
        if args.trial:
            with hold_snapshot(args.volume) as found:
                done_as(user, lambda: copy_for_trial(str(found), args.folder))
            return
        done_as(user, lambda: with_lock(args), MINUTE)
        with sole_backup(args.into):
            run_into(args, lambda call: done_as(user, call))


def begin_alone(args: argparse.Namespace) -> None:
    with sole_backup(args.into):
        begin(args)


def run_clean(args: argparse.Namespace) -> None:
    """Removes what runs left that were killed: their snapshot, and what they had begun, which is in plain."""
    try:
        if chosen_kind(args):
            run_snapshot(args)
    finally:
        if args.into and args.into.exists():
            as_owner(args.into)(lambda: begin_alone(args))


def stopped_by(args: argparse.Namespace) -> Callable[[Callable[[], None]], None]:
    """How a store without a server is read and its backup written: root does both as the store's user."""
    place = args.into or args.folder.parent
    if os.geteuid() == 0:
        if {owner_of(Path(args.db).parent), owner_of(place)} == {0}:
            return lambda call: call()
        store = StoreFolder(args.db)
        store.size()
        user = tested_user(store, place)
        return lambda call: done_as(user, call)
    if args.into and args.into.stat().st_uid != os.geteuid():
        told = f"{args.into} is the folder of {name_of_user(args.into.stat().st_uid)}"
        raise BackupError(f"{told}. {disk_of(args.into)}run this as that user")
    return lambda call: call()


def run_stopped(args: argparse.Namespace) -> None:
    by = stopped_by(args)
    if args.folder:
        by(lambda: copy(args, args.db, args.folder))
        out(f"backed up in {args.folder}")
        return
    by(lambda: with_lock(args))
    with sole_backup(args.into):
        run_into(args, by)


def make_backup(args: argparse.Namespace) -> None:
    if args.clean:
        run_clean(args)
    elif args.trial:
        if not chosen_kind(args):
            raise BackupError(f"no backup in {args.into} was made by a snapshot: name lvm, btrfs or zfs by --snapshot")
        run_snapshot(args)
    elif args.snapshot:
        run_snapshot(args)
    else:
        run_stopped(args)


def backup_parser() -> argparse.ArgumentParser:
    parser = argparse.ArgumentParser(description=__doc__, formatter_class=argparse.RawDescriptionHelpFormatter)
    parser.add_argument("--program", default="station", help="the program")
    parser.add_argument("--site", help="the site file")
    parser.add_argument("--db", required=True, metavar="STORE", help="the store's file, beside which is its log")
    parser.add_argument("--into", type=Path, metavar="ALL", help="the folder of all backups")
    parser.add_argument("--snapshot", default="", choices=["", *KINDS], metavar="KIND", help="lvm, btrfs or zfs")
    parser.add_argument("--snapshot-size", default="", metavar="SIZE", help="a logical volume's room for changes: 2G")
    parser.add_argument("--clean", action="store_true", help="remove what a run left, and make no backup")
    parser.add_argument("--trial", action="store_true", help="both files alone, for a start that tries them")
    parser.add_argument("--keep-days", type=int, default=7, metavar="N", help="how many days' backups stay")
    parser.add_argument("--keep-weeks", type=int, default=5, metavar="N", help="how many weeks' backups stay")
    parser.add_argument("--recipient", action="append", default=[], metavar="R", help="encrypt for this public key")
    parser.add_argument("--copy-with", default="", metavar="COMMAND", help="the command that takes the backup away")
    parser.add_argument("folder", nargs="?", type=Path, metavar="FOLDER", help="the new folder of one backup")
    return parser


def checked_words(parser: argparse.ArgumentParser) -> argparse.Namespace:
    args = parser.parse_args()
    if args.clean or args.trial:
        if not args.snapshot and not args.into:
            parser.error("say which kind of snapshot by --snapshot, or by --into ALL, where the last backup's is noted")
        if args.trial and (args.clean or not args.folder):
            parser.error("--trial makes FOLDER, and goes without --clean")
        return args
    if not args.site or bool(args.into) == bool(args.folder):
        parser.error("--site SITE is needed, and one of FOLDER and --into ALL")
    if args.folder and (args.snapshot or args.recipient or args.copy_with):
        parser.error("--snapshot, --recipient and --copy-with go with --into ALL")
    return args


def make_whole(args: argparse.Namespace, program: str) -> None:
    """Makes paths whole: what root has done as the store's user begins in /. Another user reads folders as typed."""
    args.program, args.db = os.path.abspath(program), os.path.abspath(args.db)
    args.site = os.path.abspath(args.site) if args.site else None
    if os.geteuid() == 0:
        args.into, args.folder = (it and it.absolute() for it in (args.into, args.folder))
    args.recipient = [it if it.startswith(PUBLIC_KEYS) else os.path.abspath(it) for it in args.recipient]


def main() -> int:
    args = checked_words(backup_parser())
    clean_words()
    args.taken = "", ""  # the kind and the size of a snapshot, once those of earlier runs are gone
    os.umask(0o077)
    for number in (signal.SIGTERM, signal.SIGINT, signal.SIGHUP):
        signal.signal(number, stop_run)
    try:
        program = shutil.which(args.program)
        is_backup = not args.clean and not args.trial
        if is_backup and not program:
            raise BackupError(f"no program {args.program}: --program P")
        if is_backup and not shutil.which("sqlite3"):
            raise BackupError("no sqlite3")
        make_whole(args, program or args.program)
        make_backup(args)
        return 0
    except (BackupError, UserError, OSError) as error:
        warn_backup(cause_of(error))
        if args.into and not args.clean and not args.trial:
            note_failure(args, cause_of(error))
        return 1
