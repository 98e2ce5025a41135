"""Files: those of this user alone, of which none is opened through a link, and none in a folder that another user can
write; how one is put whole in another one's place; and the locks that one run at a time has.

On Windows, which has neither modes nor `flock`, nothing of it is watched over.
"""

import contextlib
import errno
import gzip
import io
import os
import shutil
import stat
import time
import zlib
from pathlib import Path
from typing import IO, Iterator

from wanekupo.common.errors import UnsafeFile

try:
    import fcntl
    import grp
    import pwd
except ImportError:  # Windows, where nothing keeps two processes from one state file
    fcntl = None  # type: ignore[assignment]

IS_POSIX = os.name == "posix"
NOFOLLOW = getattr(os, "O_NOFOLLOW", 0)
NONBLOCK = getattr(os, "O_NONBLOCK", 0)  # a pipe in a file's place is opened at once, and refused
PRIVATE = 0o600

# How a compressed file begins.
GZIP = b"\x1f\x8b"

# How much of a file is overwritten at once.
BLOCK = 1 << 20

# What a person does where another thing than a file is named.
NAME = "Look at its name, and name a file."

# Who may write a file or a folder beside its owner.
OTHERS_WRITE = stat.S_IWGRP | stat.S_IWOTH


def sync(path: Path) -> None:
    """Has the disk take what a file has, or a folder, so that a name that was made or replaced in it stays."""
    if IS_POSIX:
        opened = os.open(path, os.O_RDONLY)
        try:
            os.fsync(opened)
        finally:
            os.close(opened)


def tested_folder(folder: Path) -> None:
    """Whether nobody else can put a file into a folder, take one out of it, or put another folder in its place. One as
    /tmp is refused too: its sticky bit keeps others from taking a file, and lets them put one there first."""
    if not IS_POSIX:
        return
    found = os.stat(folder)
    if found.st_uid not in (os.geteuid(), 0):
        raise UnsafeFile(f"{folder} is another user's folder: have these files in one of your own")
    if found.st_mode & OTHERS_WRITE:
        raise UnsafeFile(f"others can write the folder {folder}: chmod go-w it, or have these files in another one")
    _test_parents(Path(os.path.realpath(folder)))


def _test_parents(path: Path) -> None:
    """Whether nobody else can put another folder in the place of one on the way to a path."""
    own = os.geteuid(), 0
    for it, above in zip((path, *path.parents), path.parents):
        found = os.stat(above)
        is_kept = found.st_mode & stat.S_ISVTX and os.lstat(it).st_uid in own
        if found.st_uid not in own or _others_write(found) and not is_kept:
            told = "Have these files below a folder of your own, or of root's."
            raise UnsafeFile(f"others can write {above}, and put another folder in the place of {it}", told)


def _others_write(found: os.stat_result) -> bool:
    """Whether another user may write a folder. A user's own group, which has his name and nobody else, is himself."""
    if not found.st_mode & stat.S_IWGRP:
        return bool(found.st_mode & stat.S_IWOTH)
    with contextlib.suppress(KeyError):
        group, user = grp.getgrgid(found.st_gid), pwd.getpwuid(found.st_uid)
        is_own = (group.gr_gid, group.gr_name) == (user.pw_gid, user.pw_name) and not {*group.gr_mem} - {user.pw_name}
        return bool(found.st_mode & stat.S_IWOTH) or not is_own
    return True


def tested_reading(folder: Path) -> None:
    """Whether root may read what has a name in a folder: not where another user writes it, or may put another one in
    its place, as the name may lead anywhere then."""
    if not IS_POSIX or os.geteuid():
        return
    for path in {Path(os.path.abspath(folder)), Path(os.path.realpath(folder))}:
        for it in (path, *path.parents):
            found = os.lstat(it)
            is_sticky = found.st_mode & stat.S_ISVTX and it != path
            is_shared = found.st_mode & OTHERS_WRITE and not is_sticky and not stat.S_ISLNK(found.st_mode)
            if found.st_uid or is_shared:
                told = "Read it as its user, or a copy of root's own; all stations' folders by --folders FILE."
                raise UnsafeFile(f"others than root write {it}, and root follows no name of theirs", told)


def own_path(file: str | os.PathLike[str]) -> Path:
    """Where a file is, so that its two names have one lock. A link on the way is this user's or root's, in a folder
    that nobody else writes: another one's may lead to any file that this user can write."""
    path = Path(os.path.abspath(file))
    for it in (path, *path.parents):
        if it.is_symlink():
            tested_folder(it.parent)
            if IS_POSIX and it.lstat().st_uid not in (os.geteuid(), 0):
                raise UnsafeFile(f"{it} is another user's link, and isn't followed")
    return Path(os.path.realpath(path))


def opened_plain(file: str | os.PathLike[str], flags: int, follows_links: bool = False) -> int:
    """Opens a plain file, and makes it with mode 0600 where the flags say so; through no link, but where it is said."""
    try:
        opened = os.open(file, flags | (0 if follows_links else NOFOLLOW) | NONBLOCK, PRIVATE)
    except OSError as error:
        if NOFOLLOW and not follows_links and error.errno == errno.ELOOP:
            raise UnsafeFile(f"{file} is a link, and isn't followed") from error
        raise
    mode = os.fstat(opened).st_mode
    if not stat.S_ISREG(mode):
        os.close(opened)
        raise UnsafeFile(f"{file} is no plain file{', but a folder' if stat.S_ISDIR(mode) else ''}", NAME)
    return opened


def unpacked(file: str | os.PathLike[str], most: int, follows_links: bool = True) -> bytes:
    """The bytes of a plain file, of more than so many one more. What is compressed and damaged stays as it is: a few
    bytes of it may be any number."""
    with open(opened_plain(file, os.O_RDONLY, follows_links), "rb") as source:
        data = source.read(most + 1)
    if not data.startswith(GZIP):
        return data
    try:
        return gzip.GzipFile(fileobj=io.BytesIO(data)).read(most + 1)
    except (OSError, EOFError, zlib.error):
        return data


def small_bytes(file: str | os.PathLike[str], most: int) -> bytes:
    """The bytes of a plain file that a person names, through links. Where it is none, or has more, an OSError says so:
    whoever handed a pipe, or a link to what never ends, would keep its reader for ever."""
    try:
        with open(opened_plain(file, os.O_RDONLY, follows_links=True), "rb") as source:
            data = source.read(most + 1)
    except UnsafeFile as error:
        raise OSError(errno.EINVAL, "it is no plain file", str(file)) from error
    if len(data) > most:
        raise OSError(errno.EFBIG, f"it has more than {most} bytes", str(file))
    return data


def opened_own(file: str | os.PathLike[str], flags: int) -> int:
    """The same of a file that has to be this user's, and that nobody else can write."""
    opened = opened_plain(file, flags)
    try:
        found = os.fstat(opened)
        if IS_POSIX and found.st_uid != os.geteuid():
            raise UnsafeFile(f"{file} is another user's")
        if IS_POSIX and found.st_mode & OTHERS_WRITE:
            raise UnsafeFile(f"others can write {file}: look whether it is as it was, then chmod 600 it")
        return opened
    except BaseException:
        os.close(opened)
        raise


def opened_lock(file: str | os.PathLike[str]) -> int:
    """A lock's file, which has nothing in it. It is made private, as another's lock on it would shut us out."""
    opened = opened_plain(file, os.O_RDWR | os.O_CREAT)
    try:
        if IS_POSIX and os.fstat(opened).st_uid != os.geteuid():
            raise UnsafeFile(f"{file} is another user's")
        if IS_POSIX:
            os.fchmod(opened, PRIVATE)
        return opened
    except BaseException:
        os.close(opened)
        raise


def opened_shared_lock(file: Path, is_made: bool = True) -> int:
    """The file of a lock in a folder of root's or of the store's user, which is made where there is none. It may be
    another user's, and is a plain one: who may write its folder may have put another thing there."""
    try:
        return opened_plain(file, os.O_RDWR | (os.O_CREAT if is_made else 0))
    except UnsafeFile as error:
        told = "no plain file: look who made it, and move it away"
        raise OSError(errno.EINVAL, told, str(file)) from error


@contextlib.contextmanager
def hold_lock(file: Path, busy: Exception, patience: float = 0.0, is_made: bool = True) -> Iterator[None]:
    """Has such a lock. Where another run has it for longer than so many seconds, `busy` is raised. The lock goes with
    the last process that has it."""
    opened = opened_shared_lock(file, is_made)
    end = time.monotonic() + patience
    try:
        while not (has_it := _is_locked(opened)) and time.monotonic() < end:
            time.sleep(0.05)
        if not has_it:
            raise busy
        yield
    finally:
        os.close(opened)


def _is_locked(opened: int) -> bool:
    """Whether this process alone has the lock of an opened file."""
    with contextlib.suppress(BlockingIOError):
        locked(opened)
        return True
    return False


def locked(opened: int) -> None:
    """Locks an opened file for this process alone, or fails with OSError at once."""
    if fcntl:
        fcntl.flock(opened, fcntl.LOCK_EX | fcntl.LOCK_NB)


def tested_unlocked(opened: int) -> None:
    """Whether no program has a lock of SQLite's on an opened file; else OSError."""
    if fcntl:
        fcntl.lockf(opened, fcntl.LOCK_SH | fcntl.LOCK_NB)


def make_file(file: Path, text: str) -> None:
    """Makes a file that isn't there, for its owner alone, synced."""
    with _made(file, PRIVATE) as out:
        out.write(text.encode())


def replace_file(file: Path, text: str, mode: int = PRIVATE, like: os.stat_result | None = None) -> None:
    """Replaces a file: whole or not at all, whenever the power fails. Its mode is this, whatever the umask; or its
    owner and its mode are those of `like`. Who calls it is alone with the file."""
    with replaced(file, mode, is_exact=True, like=like) as out:
        out.write(text.encode())


def replace_bytes(file: Path, data: bytes, mode: int, is_exact: bool = False) -> None:
    """The same of bytes, with a mode from which the umask takes unless it is exact."""
    with replaced(file, mode, is_exact) as out:
        out.write(data)


@contextlib.contextmanager
def replaced(file: Path, mode: int, is_exact: bool = False, like: os.stat_result | None = None) -> Iterator[IO[bytes]]:
    """The same of what is written to the file that this gives: it takes the other one's place once all is written, and
    goes where that fails. What stands in the new one's place goes first, so that it is this call's, with its owner and
    its mode."""
    new = f"{file}.new"
    with contextlib.suppress(FileNotFoundError):
        os.unlink(new)
    try:
        with _made(new, mode) as out:
            if IS_POSIX and like:
                os.fchown(out.fileno(), like.st_uid, like.st_gid)
            if IS_POSIX and is_exact:
                os.fchmod(out.fileno(), stat.S_IMODE(like.st_mode) if like else mode)
            yield out
        os.replace(new, file)
    except BaseException:
        with contextlib.suppress(FileNotFoundError):
            os.unlink(new)
        raise
    sync(file.parent)


@contextlib.contextmanager
def _made(file: str | os.PathLike[str], mode: int) -> Iterator[IO[bytes]]:
    """A file that wasn't there, which is synced once all is written."""
    with open(os.open(file, os.O_WRONLY | os.O_CREAT | os.O_EXCL, mode), "wb") as out:
        yield out
        out.flush()
        os.fsync(out.fileno())


def place_file(new: Path, file: Path, mode: int) -> None:
    """Has a file that a command wrote take another one's place, synced and with this mode."""
    opened = opened_plain(new, os.O_RDONLY, follows_links=True)
    try:
        if IS_POSIX:
            os.fchmod(opened, mode)
            os.fsync(opened)
    finally:
        os.close(opened)
    os.replace(new, file)
    sync(file.parent)


def removed_folder(folder: Path) -> None:
    """Removes a folder with all that is in it, and overwrites its files before, as far as their file system lets one:
    what it wrote elsewhere meanwhile, as on a flash disk, stays there. No link is followed."""
    if folder.is_symlink():
        folder.unlink()
        return
    for path, _, files in os.walk(folder):
        for name in files:
            with contextlib.suppress(OSError):
                _overwrite(os.path.join(path, name))
    shutil.rmtree(folder)
    sync(folder.parent)


def _overwrite(file: str) -> None:
    """Puts zeros in the place of a plain file's bytes. One with another name elsewhere keeps them."""
    found = os.lstat(file)
    if not stat.S_ISREG(found.st_mode) or found.st_nlink != 1:
        return
    os.chmod(file, PRIVATE)
    opened = os.open(file, os.O_WRONLY | NOFOLLOW | NONBLOCK)
    try:
        left = found.st_size
        while left > 0:
            left -= os.write(opened, bytes(min(left, BLOCK)))
        os.fsync(opened)
    finally:
        os.close(opened)
