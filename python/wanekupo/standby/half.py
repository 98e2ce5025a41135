"""One of two machines that have the store: its settings, what DRBD says of its half, and whether the other is off.

A *half* is the disk of one machine. DRBD keeps both equal while they are connected. `takeover`, `stepdown`,
`other-is-off` and `fence-peer` share this; docs/operate/second-machine.md says what they are for. Python 3.11, standard
library alone.
"""

import contextlib
import os
import re
import shlex
import signal
import subprocess
import sys
import time
import tomllib
from collections.abc import Callable
from dataclasses import dataclass, fields
from datetime import datetime, timedelta, timezone
from pathlib import Path
from typing import TextIO

from wanekupo.common.acts import run_noted
from wanekupo.common.errors import PlantError
from wanekupo.common.store_user import LONGEST, UserError, shown
from wanekupo.common.store_words import clean_words
from wanekupo.common.files import hold_lock, replace_file
from wanekupo.common.process import run_command

SETTINGS = Path("/etc/station/standby.toml")
# What this machine says of itself until it is switched off. Nobody but root writes there.
RUN = Path("/run/station-standby")
# How long a command of a plant's may take, and one that starts or stops the server.
COMMAND_SECONDS, SERVER_SECONDS = 60, LONGEST
# How long a word counts that nobody has heard, and how long a witness may take to be gathered behind the word.
WORD_SECONDS = 120
GATHERED = timedelta(hours=2)

TABLE = Path("/proc/drbd")
# What DRBD calls the states of a machine that doesn't speak with the other one.
ALONE = (
    "StandAlone", "Disconnecting", "Unconnected", "Timeout", "BrokenPipe", "NetworkFailure", "ProtocolError",
    "TearDown", "WFConnection", "WFReportParams",
)  # fmt: skip


FROZEN = (
    "Mend the cable, and it goes on. Or cut the other machine's power for certain, and type `other-is-off` here. Where "
    "the other machine has taken the store over, cut the power of this one, and switch it on again: it follows."
)


class StandbyError(PlantError):
    """Why something isn't done, and what to do then: whole sentences."""


@dataclass(frozen=True)
class StandbySettings:
    """The settings of /etc/station/standby.toml."""

    resource: str = "station"
    device: str = "/dev/drbd0"
    folder: str = "/var/lib/station"
    filesystem: str = "ext4"
    site: str = "/etc/station/site.toml"
    tokens: str = "/etc/station/tokens.conf"
    program: str = "station"
    user: str = "station"
    scratch: str = "/var/tmp"
    scratch_bytes: int = 1 << 30
    start: str = "systemctl start station"
    stop: str = "systemctl stop station"
    take_address: str = "true"
    leave_address: str = "true"
    fence: str = ""
    witnesses: tuple[str, ...] = ()


def read_settings(file: Path = SETTINGS) -> StandbySettings:
    """The settings, where nobody but root can have written them: they name commands that root runs."""
    try:
        found = os.stat(file)
        text = file.read_bytes().decode()
        values = tomllib.loads(text)
    except FileNotFoundError:
        return StandbySettings()
    except (UnicodeDecodeError, tomllib.TOMLDecodeError, RecursionError) as error:
        raise StandbyError(f"{file} is no TOML: {error}.") from None
    if found.st_uid != 0 or found.st_mode & 0o022:
        raise StandbyError(f"Others than root can write {file}, whose commands root runs: chown root, and chmod go-w.")
    kinds = {field.name: type(field.default) for field in fields(StandbySettings)}
    for name, value in values.items():
        if name not in kinds:
            raise StandbyError(f"{file} has {name}, which is no setting.")
        if kinds[name] is tuple and isinstance(value, list) and all(isinstance(it, str) for it in value):
            values[name] = tuple(value)
        elif not isinstance(value, kinds[name]) or isinstance(value, bool):
            raise StandbyError(f"{name} in {file} has another form than the settings' own.")
    return StandbySettings(**values)


def run_bounded(words: list[str], seconds: float = COMMAND_SECONDS) -> subprocess.CompletedProcess[str]:
    """A command with what it prints. Where it takes too long it is a failure as any other. It has no terminal of
    root's: what is at the other end of a witness's `ssh` asks nobody for a password."""
    try:
        return run_command(words, seconds, is_apart=True)
    except (subprocess.TimeoutExpired, OSError, LookupError) as error:
        return subprocess.CompletedProcess(words, 1, "", str(error))


def done(words: list[str], seconds: float = COMMAND_SECONDS) -> str:
    """What a command prints that has to do what it says."""
    ended = run_bounded(words, seconds)
    if ended.returncode:
        said = (ended.stderr or ended.stdout).strip().replace("\n", "; ")
        raise StandbyError(f"`{shlex.join(words)}` ended with status {ended.returncode}: {said}")
    return ended.stdout.strip()


def print_told(line: str, out: TextIO | None = None) -> None:
    """Prints a line for the person who typed the script. Where nobody reads it any more the work goes on."""
    with contextlib.suppress(OSError):
        print(shown(line.replace("\n", "; ")), file=out or sys.stdout, flush=True)


def end_script(name: str, call: Callable[[], int], *, alone: bool = False) -> int:
    """The status of a command's call, with sentences where it is refused or stopped. With `alone` a second one that has
    it too is kept out."""
    clean_words()
    for number in (signal.SIGTERM, signal.SIGHUP):
        signal.signal(number, signal.default_int_handler)
    try:
        if os.geteuid() != 0:
            raise StandbyError("Only root can do that.")
        with alone_at_work() if alone else contextlib.nullcontext():
            return run_noted(name, call)
    except (StandbyError, UserError) as refused:
        print_told(f"{name}: refused: {refused}", sys.stderr)
    except OSError as error:
        print_told(f"{name}: It failed: {error}. Mend that, and type the same again.", sys.stderr)
    except KeyboardInterrupt:
        print_told(f"{name}: It was stopped. Type the same again, and it goes on.", sys.stderr)
    return 1


def alone_at_work() -> contextlib.AbstractContextManager[None]:
    """Keeps a second `takeover` or `stepdown` of this machine out."""
    message = "Another `takeover` or `stepdown` is at work on this machine: wait until it ends."
    return hold_lock(run_file("lock"), StandbyError(message))


@dataclass(frozen=True)
class DrbdState:
    """What DRBD says: how the two are connected, this machine's role and the other's, what their disks are, and whether
    this machine's writes are frozen."""

    connection: str
    role: str
    other_role: str
    disk: str
    other_disk: str
    is_frozen: bool

    def is_connected(self) -> bool:
        return self.connection not in ALONE

    def __str__(self) -> str:
        frozen = ", frozen" if self.is_frozen else ""
        return f"{self.connection} {self.role}/{self.other_role} {self.disk}/{self.other_disk}{frozen}"


class Half:
    """This machine's half."""

    def __init__(self, settings: StandbySettings):
        self.settings, self.resource = settings, settings.resource
        self.folder = Path(settings.folder)

    def asked(self, what: str) -> str:
        return done(["drbdadm", what, self.resource])

    def state(self) -> DrbdState:
        """What DRBD says now, by the kernel's own table, which DRBD 8.4 has."""
        minor = self.settings.device.removeprefix("/dev/drbd")
        # Where DRBD doesn't look for the other machine there is no letter of a protocol behind the disks.
        form = rf"^ *{minor}: cs:(\S+) ro:(\S+)/(\S+) ds:(\S+)/(\S+) +(?:[ABC] +)?([rs])"
        table = TABLE.read_text(encoding="ascii") if TABLE.exists() else ""
        if it := re.search(form, table, re.MULTILINE):
            return DrbdState(it[1], it[2], it[3], it[4], it[5], is_frozen=it[6] == "s")
        raise StandbyError(f"DRBD has no {self.settings.device} here: `drbdadm up {self.resource}`.")

    def received(self) -> str:
        """How much this half got from the other machine since this one is on: it grows with each write of the other's,
        and stays while the two aren't connected."""
        minor = self.settings.device.removeprefix("/dev/drbd")
        found = re.search(rf"^ *{minor}: cs:.*\n.* nr:(\d+)", TABLE.read_text(encoding="ascii"), re.MULTILINE)
        return found[1] if found else "none"

    def disk(self) -> str:
        return self.asked("sh-ll-dev")

    def other_name(self) -> str:
        """The other machine's name, by the resource's own file."""
        found = re.findall(r"^    on (\S+) \{", self.asked("dump"), re.MULTILINE)
        names: list[str] = [name for name in found if name != os.uname().nodename]
        if len(names) != 1:
            raise StandbyError(f"The resource {self.resource} has {len(names)} other machines, and not one.")
        return names[0]

    def is_mounted(self) -> bool:
        """Whether the half is mounted. Where something else is at its place, nothing goes on: as the volume below DRBD,
        of which the other machine gets nothing, or a store that was made there before the half was."""
        device, where = Path(self.settings.device), f"{self.folder} has"
        if os.path.ismount(self.folder):
            if device.exists() and self.folder.stat().st_dev == device.stat().st_rdev:
                return True
            advice = "unmount it, and take its line out of /etc/fstab."
            raise StandbyError(f"{where} another volume than {device}: {advice}")
        if left := [path.name for path in self.folder.iterdir() if path.name != "lost+found"]:
            told = "Look whose they are, and move them away, so that nothing but the half is ever there."
            raise StandbyError(f"{where} files, {' and '.join(sorted(left)[:3])}, and {device} isn't mounted. {told}")
        return False

    def mount(self, device: str = "", where: str = "") -> None:
        """Mounts the half, or what shows it, by its kind: `mount` takes the half's own disk for one of DRBD's."""
        kind, options = self.settings.filesystem, "nodev,nosuid,noexec"
        done(["mount", "-t", kind, "-o", options, device or self.settings.device, where or str(self.folder)])

    def unmount(self) -> None:
        done(["umount", str(self.folder)])

    def command(self, what: str, seconds: float = COMMAND_SECONDS) -> str:
        """One of the settings' commands."""
        return done(shlex.split(getattr(self.settings, what)), seconds)


# Whether the other machine is off.


def run_file(name: str) -> Path:
    """A file of what this machine says of itself. Who restarts has none."""
    RUN.mkdir(mode=0o700, exist_ok=True)
    found = os.stat(RUN)
    if found.st_uid != 0 or found.st_mode & 0o022:
        raise StandbyError(f"Others than root can write {RUN}.")
    return RUN / name


def word_file() -> Path:
    """The file by which a person's word, or the plant's command, reaches the handler."""
    return run_file("other-is-off")


def alone_since(received: str) -> datetime:
    """Since when the other machine is known to be off: the first `takeover` that found it so has written that down.

    `received` is how much this half got from the other one so far. Where that is another number now, or where hours
    went by, the other machine may have been on since: then it is known from now on."""
    file, now = run_file("alone-since"), datetime.now(timezone.utc).replace(microsecond=0)
    if file.exists():
        moment, _, then = file.read_text(encoding="ascii").partition(" ")
        since = datetime.fromisoformat(moment)
        if then == received and timedelta(0) <= now - since < GATHERED:
            return since
    replace_file(file, f"{now.isoformat()} {received}")
    return now


def forget_alone() -> None:
    run_file("alone-since").unlink(missing_ok=True)


def give_word() -> None:
    replace_file(word_file(), "off\n")


def take_word() -> bool:
    """Whether the word was given, and just now: one that was left is of another day. It is used up by that."""
    try:
        age = time.time() - word_file().stat().st_mtime
        word_file().unlink()
        return 0 <= age < WORD_SECONDS
    except FileNotFoundError:
        return False


def fenced_by_command(settings: StandbySettings) -> bool:
    """Whether the plant's own command has switched the other machine off."""
    return bool(settings.fence) and run_bounded(shlex.split(settings.fence)).returncode == 0


def waited_for(is_there: Callable[[], bool], seconds: float) -> bool:
    """Whether something comes true in time, looked at each second."""
    end = time.monotonic() + seconds
    while not is_there():
        if time.monotonic() > end:
            return False
        time.sleep(1)
    return True
