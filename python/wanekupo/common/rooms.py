"""Rooms for copies that are tried: folders of the store user's in one of root's, which root alone names or removes."""

import contextlib
import fcntl
import os
import shutil
import tempfile
from collections.abc import Iterator
from pathlib import Path

from wanekupo.common.store_user import StoreUser, UserError, opened, user_of

# Where rooms are, what their names begin with, and the bytes that a disk has to have beside a copy.
ROOMS, ROOM, BESIDE = Path("/var/tmp"), "wanekupo-room.", 1 << 20


def _left_rooms(rooms: Path) -> Iterator[Path]:
    """Rooms that this user made and no run holds. Each is held meanwhile."""
    for path in rooms.glob(f"{ROOM}*"):
        with contextlib.suppress(OSError):
            handle = os.open(path, os.O_RDONLY | os.O_DIRECTORY | os.O_NOFOLLOW)
            try:
                if os.fstat(handle).st_uid == os.geteuid():
                    fcntl.flock(handle, fcntl.LOCK_EX | fcntl.LOCK_NB)
                    yield path
            finally:
                os.close(handle)


def _removed(room: Path) -> None:
    """Removes a room: what is the user's the user removes, and root two folders that are empty then."""
    own = room / "own"
    if own.is_dir():
        handle = opened(own)
        try:
            if os.fstat(handle).st_uid:  # else the run was killed before the user had it
                user = user_of(handle, own)
                user.run("chmod", "-R", "u+rwx", str(own))  # or a folder that nobody may read would keep it
                user.run("find", str(own), "-mindepth", "1", "-delete")
        finally:
            os.close(handle)
    try:
        for folder in (own, room):
            if folder.is_dir():
                folder.rmdir()
    except OSError as error:
        raise UserError(f"{room} has a copy, and can't be removed: {error.strerror}") from None


def clear_rooms(rooms: Path = ROOMS) -> list[str]:
    """Removes what runs left that were killed, and gives their names."""
    found = []
    for path in _left_rooms(rooms):
        with contextlib.suppress(OSError, UserError):
            _removed(path)
            found.append(path.name)
    return found


@contextlib.contextmanager
def room(user: StoreUser, needed: int, rooms: Path = ROOMS) -> Iterator[Path]:
    """A folder of the user's, for so many bytes, in one of root's, which has its name until the end. `rooms` is where
    nobody else renames what is root's, as /var/tmp. A copy of a store lies there in plain."""
    os.close(opened(rooms))
    clear_rooms(rooms)
    if (free := shutil.disk_usage(rooms).free) < needed + BESIDE:
        told = f"a copy needs {-(-needed // 10**6)} MB in {rooms}, where {free // 10**6} MB are free"
        raise UserError(f"{told}: name a folder of root's on another disk by --room")
    made = Path(tempfile.mkdtemp(prefix=ROOM, dir=rooms))
    handle = os.open(made, os.O_RDONLY | os.O_DIRECTORY | os.O_NOFOLLOW)
    try:
        fcntl.flock(handle, fcntl.LOCK_EX)
        os.close(opened(made))
        os.fchmod(handle, 0o711)
        own = made / "own"
        own.mkdir(mode=0o700)
        os.chown(own, user.number, user.group)
        yield own
    except BaseException:
        with contextlib.suppress(OSError, UserError):
            _removed(made)
        raise
    else:
        _removed(made)
    finally:
        os.close(handle)
