"""Two machines with one store: how they are set up, switched on, and taken over, by what deploy/standby installs."""

import re
import resource
import signal
import subprocess
import time
from collections.abc import Callable, Iterable
from concurrent.futures import ThreadPoolExecutor
from pathlib import Path

from common.customers import site_text
from common.goals import tell

from machines.standby.guests import Guest, SilentGuest
from machines.standby.image import DEPLOYED, Edit, Image, Packages
from machines.standby.network import Address, Cable, free_ports

PLACES = {"alpha": "192.0.2.1", "beta": "192.0.2.2"}
SCRIPTS = "/usr/share/wanekupo/standby"
# The bytes of a machine's disk. Its half has the first 48 MiB, with DRBD's own; a store without DRBD has the rest.
BYTES = 72 << 20
# How long DRBD may take to see, to join and to copy, on a busy machine without KVM.
SEEN, JOINED, SYNCED = 180, 240, 400
MAKE_STORE = (
    "su -s /bin/sh station -c 'cd /var/lib/station && "
    "/usr/local/bin/station replay --site /etc/station/site.toml --db books.db < /dev/null'"
)
# DRBD's tool gives each of its steps five seconds, which a guest may not have beside other work.
UP = "for try in 1 2 3 4 5; do drbdadm up station && break; drbdadm down station; sleep 2; done; drbdadm cstate station"
DRBD = re.compile(r"^ 0: cs:(\S+) ro:(\S+) ds:(\S+) +(?:[ABC] +)?([rs]\S*)", re.MULTILINE)


# The resource's own words that a guest needs in another form: its disk, the secret, and the times, where it is slow.
DISK = "disk /dev/vg0/station;"
SAMPLE, SECRET = 'shared-secret "write-your-own";', 'shared-secret "the secret of two guests";'
TIMES = re.compile(r"^( +(?:timeout|ping-timeout|ping-int|connect-int)) (\d+);", re.MULTILINE)


def resource_text(times: float) -> str:
    """The resource that a plant installs, over the guests' disks, where DRBD waits so many times as long."""
    text = (DEPLOYED / "station.res").read_text(encoding="utf-8")
    longer, count = TIMES.subn(lambda found: f"{found[1]} {int(times * int(found[2]))};", text)
    if count != 4 or DISK not in text or SAMPLE not in text:
        raise SystemExit(f"FAILED: station.res has {count} of four times, or not {DISK} and {SAMPLE}")
    return longer.replace(DISK, "disk /dev/mapper/half;").replace(SAMPLE, SECRET)


def image_of(
    packages: Packages, folder: Path, programs: list[Path], times: float, edits: Iterable[Edit] = (), is_made=True
) -> Image:
    """The first file system of both guests. The first of the server's programs runs, the last is the newer one."""
    named = {"station-1": programs[0], "station-2": programs[-1]}
    texts = {"etc/drbd.d/station.res": resource_text(times), "etc/station/site.toml": site_text()}
    image = Image(packages, folder, named, texts, edits)
    return image.make() if is_made else image.prepare()


class Pair:
    """Two guests, the cable between them, and the address that the stations ask."""

    def __init__(self, folder: Path, kernel: Path, first: Path):
        self.folder = folder
        self.cable, self.address = Cable(), Address()
        *ports, self.switch_port = free_ports(len(PLACES) + 1)
        self.guests = {
            name: Guest(name, place, folder / f"{name}.img", [port, self.switch_port], end, [kernel, first])
            for (name, place), port, end in zip(PLACES.items(), ports, self.cable.ends)
        }
        self.alpha, self.beta = self.guests.values()

    def __enter__(self) -> "Pair":
        return self

    def __exit__(self, *_: object) -> None:
        for guest in self.guests.values():
            guest.wake()
            guest.cut()
        self.address.close()
        self.cable.close()

    def cuts(self) -> int:
        """How often power or the cable was cut, or a machine hung."""
        return self.cable.cuts + sum(guest.cuts for guest in self.guests.values())

    def other(self, guest: Guest) -> Guest:
        return self.beta if guest is self.alpha else self.alpha

    # Switched on.

    def start(self, *guests: Guest) -> None:
        """Switches machines on, side by side, and has DRBD join them as Debian's drbd.service does."""
        self.boot(*guests)
        for guest in guests:
            guest.ask(UP, 180)

    def boot(self, *guests: Guest) -> None:
        """Switches machines on, side by side. Who stops the script meanwhile cuts them all."""
        with ThreadPoolExecutor() as pool:
            started = [pool.submit(guest.start) for guest in guests]
            try:
                for each in started:
                    each.result()
            except BaseException:
                for guest in guests:
                    guest.signal(signal.SIGKILL)
                raise

    def state(self, guest: Guest) -> str:
        """What DRBD says on a machine: the connection, the roles, the disks, and s in front where writes are frozen."""
        found = DRBD.search(guest.ask("cat /proc/drbd"))
        if not found:
            return "none"
        frozen = "frozen " if found[4].startswith("s") else ""
        return f"{frozen}{found[1]} {found[2]} {found[3]}"

    def wait_state(self, guest: Guest, form: str, seconds: float) -> str:
        """Waits until what DRBD says has a form."""
        end = time.monotonic() + seconds
        while not re.search(form, state := self.state(guest)):
            if time.monotonic() > end:
                log = guest.ask("dmesg | tail -25")
                raise SilentGuest(f"{guest.name} is {state} and not {form} after {seconds:.0f} s: {log}")
            time.sleep(0.7)
        return state

    def wait_for(self, is_so: Callable[[], bool], seconds: float, told: str) -> None:
        """Waits until something is so, looked at twice a second."""
        end = time.monotonic() + seconds
        while not is_so():
            if time.monotonic() > end:
                raise SilentGuest(f"After {seconds:.0f} s {told}")
            time.sleep(0.5)

    def wait_address_gone(self, guest: Guest, seconds: float) -> None:
        """Waits until a machine's nginx has ended."""
        has_address = "pidof nginx > /dev/null"
        self.wait_for(lambda: guest.run(has_address)[0] != 0, seconds, f"{guest.name} has the address still")

    def wait_joined(self, seconds: float = SYNCED) -> None:
        """Waits until both halves are one."""
        for guest in self.guests.values():
            self.wait_state(guest, r"^Connected \S+ UpToDate/UpToDate$", seconds)

    # Set up, as the page says.

    def set_up(self) -> None:
        """Two empty disks become the two halves of a new store. Both machines are off at the end."""
        for guest in self.guests.values():
            disk_of_zeros(guest.disk)
        self.boot(*self.guests.values())
        for guest in self.guests.values():
            guest.ask("yes yes | drbdadm create-md station", 120)
            guest.ask(UP, 180)
        self.wait_state(self.alpha, "^Connected", JOINED)
        self.alpha.ask("drbdadm primary --force station", 120)
        self.alpha.ask("/sbin/mke2fs -q -t ext4 -m 0 /dev/drbd0 && mount /dev/drbd0 /var/lib/station", 120)
        self.alpha.ask(f"chown station:station /var/lib/station && {MAKE_STORE}", 120)
        self.wait_joined()
        tell(self.ask_script(self.alpha, "stepdown"))
        tell(f"for the same work a guest takes {self.slowness():.0f} times as much of a processor as this machine")
        self.switch_off()

    def slowness(self) -> float:
        """How many times more of a processor a guest takes for the same work, by busybox of both."""
        work = "dd if=/dev/zero bs=1M count=32 2> /dev/null | sha256sum"
        start = self.alpha.used()
        self.alpha.ask(work, 200)
        used = self.alpha.used() - start
        own = work.replace("dd", "busybox dd").replace("sha256sum", "busybox sha256sum")
        before = resource.getrusage(resource.RUSAGE_CHILDREN)
        subprocess.run(["sh", "-c", own], check=True, capture_output=True)
        after = resource.getrusage(resource.RUSAGE_CHILDREN)
        return used / max(0.001, after.ru_utime + after.ru_stime - before.ru_utime - before.ru_stime)

    def switch_off(self) -> None:
        """Ends DRBD on both, in turn, and then their power: both disks have all that was written."""
        for guest in self.guests.values():
            guest.ask("drbdadm down station && sync", 120)
        for guest in self.guests.values():
            guest.cut()

    # What the scripts do.

    def script(self, guest: Guest, words: str, seconds: float = 400) -> tuple[int, str]:
        """A script of deploy/standby on a machine: its status, and what it printed."""
        status, said = guest.run(f"{SCRIPTS}/{words}", seconds)
        return status, said.strip()

    def ask_script(self, guest: Guest, words: str) -> str:
        """The same of a script that has to do what it says."""
        status, said = self.script(guest, words)
        if status:
            raise SilentGuest(f"{guest.name}: {words}: status {status}: {said}\n{guest.ask('dmesg | tail -15')}")
        return said

    def take_over(self, guest: Guest, witness: Callable[[], str], words: str = "") -> tuple[int, str]:
        """`takeover`, with a witness where it wants one. Where it is done the address comes to this machine."""
        status, said = self.script(guest, f"takeover {words}".strip())
        if status and "There is no witness" in said:
            guest.put(witness(), "/run/witness")
            status, more = self.script(guest, f"takeover --witness /run/witness {words}".strip())
            said = f"{said}\n{more}"
        if not status:
            self.address.move(guest.port)
        return status, said


def copied(source: Path, folder: Path) -> None:
    """The disks of a pair, copied into another folder with their holes."""
    for name in PLACES:
        words = ["cp", "--sparse=always", str(source / f"{name}.img"), str(folder / f"{name}.img")]
        subprocess.run(words, check=True)


def disk_of_zeros(disk: Path) -> None:
    """A new disk of a machine."""
    with open(disk, "wb") as file:
        file.truncate(BYTES)
