"""One way for root to do the store user's work. python/bin/station-site, restart, restore, backup and standby go by it.

Whoever has the rights of the store's user may put anything into the store's folder and the backups', rename what is
there, and hold each process of that user's. So nothing that he writes, names, prints or holds moves root:

- The folder is the one of the settings. It is opened a component at a time and through no link, and nobody but root and
  its owner can put another one in its place. Its owner is the store's user, whatever a file in it says, and never root.
  A file in it is opened by the folder's descriptor, and is a plain one of that user's.
- Root reads, writes and removes nothing there by a name: a process of that user's does it (`StoreUser.run`, `call`).
- That process has a session of its own, none of root's keys and no terminal, no descriptor of root's but its pipes,
  none of root's words in its environment, and can't get rights again. It ends with root's. Behind its end root waits
  for nobody who has its pipe or itself. Its time is bounded, and where memory runs out Linux ends it before the server.
  What it prints is bounded, is a form or is nothing, and reaches a terminal without control characters (`shown`).
- A copy that is tried lies in a room (`rooms`), which only root can name or remove.
"""

import codecs
import contextlib
import ctypes
import errno
import fcntl
import math
import os
import pwd
import selectors
import shutil
import signal
import stat
import subprocess
import sys
import time
from collections.abc import Callable, Collection, Iterator, Sequence
from dataclasses import dataclass
from pathlib import Path
from typing import NoReturn

from wanekupo.common.errors import PlantError, cause_of

STOPS = (signal.SIGTERM, signal.SIGINT, signal.SIGHUP)
# How a component of a folder's path is opened: a link is none.
STEP = os.O_PATH | os.O_DIRECTORY | os.O_NOFOLLOW
PLAIN = os.O_RDONLY | os.O_NOFOLLOW | os.O_NONBLOCK | os.O_NOCTTY
# The most bytes that are taken of what a process prints, of what is printed as it comes, of an error's words, and of a
# small file.
PRINTED, RELAYED, SAID, SMALL = 16 << 20, 1 << 20, 4000, 1 << 20
# How many seconds a process has that was asked to end, how long root reads behind its end, as another one of that
# user's may have its pipe, and how long one may take of which nothing else is said: a copy of a large store takes that.
# What root has done whole, as a backup with its way off or a restore, may take a day; what writes a line, a minute.
PATIENCE, LINGER, LONGEST, DAY, MINUTE = 10, 3, 3600, 86400, 60
# How SQLite's command reads another user's file: it runs no command of that file's, and writes none. It would read the
# .sqliterc of its user's home before it heeds -safe, and run what stands there.
SQLITE = ("sqlite3", "-init", os.devnull, "-safe", "-readonly")
# Whoever traces a process that has ended keeps it from root for as long as he likes.
KEPT = "a process of the store's user has ended, and another one of his keeps it: it was given up"
OOM_SCORE = "/proc/self/oom_score_adj"
# Of prctl(2); of keyctl(2), whose number is the machine's.
PDEATHSIG, DUMPABLE, NO_NEW_PRIVS = 1, 4, 38
KEYCTL, JOIN_SESSION_KEYRING = {"x86_64": 250, "aarch64": 219}, 1


class UserError(PlantError):
    """Why nothing is done as the store's user: a sentence."""


def shown(text: str, most: int = SAID) -> str:
    """A text of somebody's for a terminal, line feeds apart: no control character of it gets there, and of a long one
    the beginning alone."""
    text = text if len(text) <= most else f"{text[:most]}.. ({len(text)} letters)"
    return "".join(it if it.isprintable() or it == "\n" else "?" for it in text)


@contextlib.contextmanager
def signals_waiting() -> Iterator[None]:
    """A signal that would end this run waits: of a command that is killed in the middle a volume may stand still, or
    nginx not know what its file says."""
    before = signal.pthread_sigmask(signal.SIG_BLOCK, STOPS)
    try:
        yield
    finally:
        signal.pthread_sigmask(signal.SIG_SETMASK, before)


def end_first() -> None:
    """Has Linux end this process and those that it begins first where memory runs out: they read files of the store
    user's. What root says of it that user can't take back."""
    with contextlib.suppress(OSError):
        handle = os.open(OOM_SCORE, os.O_WRONLY)
        try:
            os.write(handle, b"1000")
        finally:
            os.close(handle)


def leave_keys() -> None:
    """Gives root's process a session keyring of its own, which has nothing: in that of before are the keys of root's
    login, and whoever has the keyring reads them. A kernel or a container without keyrings has none to leave."""
    if os.geteuid():
        return
    libc = ctypes.CDLL(None, use_errno=True)
    failed = libc.syscall(KEYCTL[os.uname().machine], JOIN_SESSION_KEYRING, None) < 0
    if failed and ctypes.get_errno() not in (errno.ENOSYS, errno.EPERM):
        raise UserError(f"keyctl: {os.strerror(ctypes.get_errno())}")


def _begin() -> None:
    """What a process of the user's is first."""
    end_first()
    leave_keys()


# ---- Folders and files.


def _opened_step(path: Path, above: int | None) -> int:
    try:
        return os.open(path.name or "/", STEP, dir_fd=above)
    except NotADirectoryError:
        raise UserError(f"{path} is a link, or no folder: name the folder itself, by a path without links") from None
    except FileNotFoundError:
        raise UserError(f"there is no folder {path}: install -d -m 700 -o station -g station {path}") from None


def _held(path: Path, above: os.stat_result, below: os.stat_result, holders: set[int]) -> None:
    """Refuses a component in whose place another user than these can put another one."""
    is_shared = bool(above.st_mode & 0o022)
    is_kept = above.st_mode & stat.S_ISVTX and below.st_uid in holders
    if above.st_uid not in holders or (is_shared and not is_kept):
        told = f"chown root {path.parent}; chmod go-w {path.parent}"
        raise UserError(f"other users can put another folder in the place of {path}. Mend that first: {told}")


def opened(folder: Path) -> int:
    """A folder's descriptor. No link leads there; and for root, nobody else than its owner can put another in its
    place."""
    path = Path(os.path.abspath(folder))
    steps = [*reversed(path.parents), path]
    handles: list[int] = []
    try:
        for step in steps:
            handles.append(_opened_step(step, handles[-1] if handles else None))
        found = [os.fstat(it) for it in handles]
        for step, above, below in zip(steps[1:], found, found[1:]) if os.geteuid() == 0 else ():
            _held(step, above, below, {0, found[-1].st_uid})
        return os.dup(handles[-1])
    finally:
        for handle in handles:
            os.close(handle)


def read_small(path: Path, handle: int | None = None, most: int = SMALL) -> bytes:
    """A small file of somebody's: a plain one and no link. It is refused where it is larger; its bytes are his."""
    opened_file = os.open(path, PLAIN, dir_fd=handle)
    with open(opened_file, "rb") as file:
        if not stat.S_ISREG(os.fstat(opened_file).st_mode):
            raise UserError(f"{path} is no plain file: move it away")
        data = file.read(most + 1)
    if len(data) > most:
        raise UserError(f"{path} has more than {most} bytes: move it away")
    return data


class StoreFolder:
    """A store's folder, which is held open, and its user. The store itself may not be there."""

    def __init__(self, db: str | Path):
        self.db = Path(os.path.abspath(db))
        self.folder = self.db.parent
        self.handle = opened(self.folder)
        self.user = user_of(self.handle, self.folder)

    def file(self, ending: str = "") -> int:
        """The store's file, or its log by the ending `-wal`, opened to be read: a plain file of the user's."""
        name = self.db.name + ending
        handle = os.open(name, PLAIN, dir_fd=self.handle)
        found = os.fstat(handle)
        if stat.S_ISREG(found.st_mode) and found.st_uid == self.user.number:
            return handle
        os.close(handle)
        told = f"is no plain file of {self.user.name}: look who put it there, and move it away"
        raise UserError(f"{self.folder / name} {told}")

    def size(self, ending: str = "") -> int:
        """The bytes of the store's file, or of its log; an error where it isn't a plain file of the user's."""
        try:
            handle = self.file(ending)
        except OSError as error:
            told = "it is a link, and no plain file" if error.errno == errno.ELOOP else error.strerror
            raise UserError(f"there is no store {self.db}{ending}: {told}") from None
        try:
            return os.fstat(handle).st_size
        finally:
            os.close(handle)


# ---- The user.


def user_of(handle: int, folder: Path) -> "StoreUser":
    """The owner of a folder that is open, who is the store's user. Root is none."""
    number = os.fstat(handle).st_uid
    if number == 0:
        told = "mount its volume there, or give it to the server's user: chown -R station:station"
        raise UserError(f"{folder} is root's, and a store is never root's: {told} {folder}")
    if os.geteuid() not in (0, number):
        raise UserError(f"{folder} is another user's: run this as root")
    try:
        return _user(pwd.getpwuid(number))
    except KeyError:
        raise UserError(f"{folder} is of {number}, a user without a name: chown -R station:station {folder}") from None


def user_named(name: str) -> "StoreUser":
    """The user of this name, who isn't root."""
    try:
        found = _user(pwd.getpwnam(name))
    except KeyError:
        raise UserError(f"there is no user {name} on this machine") from None
    if found.number == 0:
        raise UserError(f"the store's user is {name}, who is root: name another one")
    return found


def reader_for(db: str | Path) -> "StoreUser":
    """As whom a program reads a text: who runs this, but for root the store's user, and where no store is nobody."""
    if os.geteuid():
        return StoreUser("", os.geteuid(), os.getegid())
    try:
        return StoreFolder(db).user
    except UserError:
        return user_named("nobody")


def _user(found: pwd.struct_passwd) -> "StoreUser":
    return StoreUser(found.pw_name, found.pw_uid, found.pw_gid, found.pw_dir)


@dataclass(frozen=True)
class StoreUser:
    """The user of a store, as whom root has things done. A run of that user itself does them as it is."""

    name: str
    number: int
    group: int
    home: str = "/"

    def is_own(self) -> bool:
        """Whether this run is the user's own."""
        return os.geteuid() == self.number

    def words(self, *words: str) -> list[str]:
        """A command that becomes the user's for good, and ends with who started it."""
        first = os.path.abspath(shutil.which(words[0]) or words[0])
        rights = [] if self.is_own() else ["--reuid", str(self.number), "--regid", str(self.group), "--init-groups"]
        fixed = ["--inh-caps=-all", "--no-new-privs", "--pdeathsig", "KILL"]
        return ["setpriv", *rights, *fixed, "--", first, *words[1:]]

    def environment(self) -> dict[str, str]:
        """None of root's words but how a text is written."""
        if self.is_own():
            return dict(os.environ)
        path = "/usr/local/sbin:/usr/local/bin:/usr/sbin:/usr/bin:/sbin:/bin"
        return {"PATH": path, "HOME": self.home, "USER": self.name, "LOGNAME": self.name, "LC_ALL": "C.UTF-8"}

    def run(self, *words: str, given: str = "", fds: Sequence[int] = (), cwd: str | Path = "/",
            seconds: float = LONGEST, most: int = PRINTED) -> "subprocess.CompletedProcess[str]":  # fmt: skip
        """A command as the user, with what it printed, of which root believes nothing but its form. `given` is what it
        reads. A name of `fds` is /proc/self/fd/N. Who takes longer, or prints more than `most`, is ended: an error."""
        with readable(given) as stdin:
            try:
                child = subprocess.Popen(
                    self.words(*words), stdin=stdin, stdout=subprocess.PIPE, stderr=subprocess.PIPE, cwd=cwd,
                    env=self.environment(), start_new_session=True, pass_fds=fds, umask=0o077,
                    preexec_fn=_begin,
                )  # fmt: skip
            except (OSError, subprocess.SubprocessError) as error:
                raise UserError(f"{words[0]}: {cause_of(error)}") from None
        try:
            printed = _gathered(child, most, time.monotonic() + seconds)
            status = child.wait(PATIENCE)
        except subprocess.TimeoutExpired:
            raise UserError(KEPT) from None
        except BaseException:
            _ended(child)
            raise
        finally:
            for pipe in (child.stdout, child.stderr):
                pipe.close()  # type: ignore[union-attr]
        return subprocess.CompletedProcess(list(words), status, *(it.decode(errors="replace") for it in printed))

    def call(self, function: Callable[[], int | None], told: Callable[[BaseException], str] = str,
             seconds: float = LONGEST) -> int:  # fmt: skip
        """Has a function done as the user, in a process of its own that begins in /, so its paths are whole ones. What
        it prints is printed here. Gives the number that it gives; its error comes back as a UserError of what `told`
        makes of it. A signal that ends this run ends it first, as it would end a run of its own. Who takes longer is
        ended: an error."""
        if self.is_own():
            return function() or 0
        pipes = [os.pipe() for _ in range(3)]
        sys.stdout.flush()
        sys.stderr.flush()
        mask = signal.pthread_sigmask(signal.SIG_BLOCK, STOPS)
        parent = os.getpid()
        try:
            child = os.fork()
        except OSError:
            signal.pthread_sigmask(signal.SIG_SETMASK, mask)
            raise
        if not child:
            self._called(function, told, [write for _, write in pipes], parent, mask)
        said, status = _waited(child, pipes, mask, time.monotonic() + seconds)
        if said or not os.WIFEXITED(status):
            raise UserError(said or "the process that works as the store's user was killed")
        return os.WEXITSTATUS(status)

    def _called(self, function: Callable[[], int | None], told: Callable[[BaseException], str], ends: list[int],
                parent: int, mask: Collection[int]) -> NoReturn:  # fmt: skip
        """The child's part. It ends here, whatever comes: a signal waits since before the fork until its error is
        met."""
        status = 1
        try:
            said = _plugged(ends)
            try:
                self._become(parent)
                signal.pthread_sigmask(signal.SIG_SETMASK, mask)
                status = function() or 0
            except BaseException as error:
                os.write(said, (told(error) or type(error).__name__).encode(errors="replace"))
            sys.stdout.flush()
            sys.stderr.flush()
        finally:
            os._exit(status)

    def _become(self, parent: int) -> None:
        """Makes this process the user's for good."""
        words = self.environment()
        _begin()
        os.setgroups(os.getgrouplist(self.name, self.group))
        os.setresgid(self.group, self.group, self.group)
        os.setresuid(self.number, self.number, self.number)
        libc = ctypes.CDLL(None, use_errno=True)
        for what, value in ((NO_NEW_PRIVS, 1), (DUMPABLE, 0), (PDEATHSIG, signal.SIGKILL)):
            if libc.prctl(what, value, 0, 0, 0):
                raise UserError(f"prctl: {os.strerror(ctypes.get_errno())}")
        os.environ.clear()
        os.environ.update(words)
        if os.getppid() != parent:
            raise UserError("root's own process ended")


# ---- What a process of the user's prints.


def _plugged(ends: list[int]) -> int:
    """Takes a process away from its terminal, from its folder and from all descriptors but its three pipes. Gives the
    one by which an error's words go back."""
    os.setsid()
    os.chdir("/")
    os.umask(0o077)
    high = [fcntl.fcntl(it, fcntl.F_DUPFD, 10) for it in (os.open(os.devnull, os.O_RDONLY), *ends)]
    for number, handle in enumerate(high):
        os.dup2(handle, number, inheritable=number < 3)
    os.closerange(len(high), os.sysconf("SC_OPEN_MAX"))
    return len(high) - 1


def _reaped(child: int) -> int:
    """The status of a process that has ended."""
    end = time.monotonic() + PATIENCE
    while time.monotonic() < end:
        found, status = os.waitpid(child, os.WNOHANG)
        if found:
            return status
        time.sleep(0.02)
    raise UserError(KEPT)


def _ended(child: "subprocess.Popen[bytes]") -> None:
    """Asks a process and those that it began to end, and ends them where they don't."""
    for number in (signal.SIGTERM, signal.SIGKILL):
        if child.poll() is None:
            os.killpg(child.pid, number)
            with contextlib.suppress(subprocess.TimeoutExpired):
                child.wait(PATIENCE)


@contextlib.contextmanager
def readable(text: str) -> Iterator[int]:
    """A descriptor from which a text is read, by whomever: as /proc/self/fd/N it is a file."""
    handle = os.memfd_create("given") if text else os.open(os.devnull, os.O_RDONLY)
    try:
        if text:
            with open(handle, "wb", closefd=False) as file:
                file.write(text.encode())
            os.lseek(handle, 0, os.SEEK_SET)
        yield handle
    finally:
        os.close(handle)


def _parts(pipes: Sequence[int], child: int, end: float = math.inf) -> Iterator[tuple[int, bytes]]:
    """What comes out of a child's pipes, a part at a time, until it has ended and each is closed, or some seconds
    behind its end."""
    over = os.pidfd_open(child)
    try:
        with selectors.DefaultSelector() as waiting:
            for pipe in (*pipes, over):
                waiting.register(pipe, selectors.EVENT_READ)
            while waiting.get_map():
                left = end - time.monotonic()
                if left <= 0 and over in waiting.get_map():
                    raise UserError("a process of the store's user took too long, and was ended")
                if left <= 0:
                    return
                for key, _ in waiting.select(min(left, LONGEST)):
                    data = os.read(key.fd, 1 << 16) if key.fd != over else b""
                    if key.fd != over:
                        yield key.fd, data
                    else:
                        end = min(end, time.monotonic() + LINGER)
                    if not data:
                        waiting.unregister(key.fd)
    finally:
        os.close(over)


def _gathered(child: "subprocess.Popen[bytes]", most: int, end: float) -> list[bytes]:
    """What a process prints on its two pipes."""
    pipes = [it.fileno() for it in (child.stdout, child.stderr) if it]
    found = {it: bytearray() for it in pipes}
    for pipe, data in _parts(pipes, child.pid, end):
        found[pipe] += data
        if len(found[pipe]) > most:
            raise UserError("a process of the store's user printed too much, and was ended")
    return [bytes(found[it]) for it in pipes]


def _relayed(reads: list[int], child: int, end: float = math.inf) -> str:
    """Prints what a child prints, made harmless; gives the words of its error."""
    outs, said, left = {reads[0]: sys.stdout, reads[1]: sys.stderr}, bytearray(), RELAYED
    texts = {it: codecs.getincrementaldecoder("utf-8")("replace") for it in outs}
    for pipe, data in _parts(reads, child, end):
        if pipe in outs:
            left -= len(data)
            if left < 0:
                raise UserError("a process of the store's user printed too much, and was ended")
            with contextlib.suppress(BrokenPipeError):  # who reads it may have enough, and the work goes on
                outs[pipe].write(shown(texts[pipe].decode(data), RELAYED))
                outs[pipe].flush()
        else:
            said += data[: SAID - len(said)]
    return said.decode(errors="replace")


def _waited(child: int, pipes: list[tuple[int, int]], mask: Collection[int], until: float) -> tuple[str, int]:
    """The words of a child's error, and its status. Where a signal ends this run the child is asked to end, too; one
    that doesn't, as the user may stop it, is killed with those that it began."""
    for _, write in pipes:
        os.close(write)
    reads = [read for read, _ in pipes]
    try:
        signal.pthread_sigmask(signal.SIG_SETMASK, mask)
        said = _relayed(reads, child, until)
    except BaseException:
        os.kill(child, signal.SIGTERM)
        with contextlib.suppress(BaseException):
            _relayed(reads, child, time.monotonic() + PATIENCE)
        for kill in (os.killpg, os.kill):  # it may have no group of its own yet
            with contextlib.suppress(ProcessLookupError):
                kill(child, signal.SIGKILL)
        with contextlib.suppress(UserError):
            _reaped(child)
        raise
    finally:
        for read in reads:
            os.close(read)
    return shown(said), _reaped(child)
