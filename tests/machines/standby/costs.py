"""What the second machine costs a request, and beside it what qemu without KVM does: the same load in four places."""

import contextlib
import statistics
import time
from collections.abc import Iterator

from common.served import Server, station

from machines.standby.load import Line
from machines.standby.network import Address, free_ports
from machines.standby.pair import MAKE_STORE, SEEN, UP
from machines.standby.place import ANSWERS, BEHIND, Place, back

# How long requests are counted in each place.
COST = 40
# A file system of a guest's own, behind its half on the same disk, at the store's place.
PLAIN = (
    "dmsetup create --noudevsync --noudevrules plain --table '0 49152 linear /dev/vda 98304' && dmsetup mknodes && "
    "/sbin/mke2fs -q -t ext4 -m 0 /dev/mapper/plain && mount /dev/mapper/plain /var/lib/station && "
    f"chown station:station /var/lib/station && {MAKE_STORE} && /sbin/server start && /sbin/address take"
)
PLAIN_ENDS = "/sbin/address leave && /sbin/server stop && umount /var/lib/station"


def row(line: Line, name: str) -> str:
    """The requests a second of four stations, and the milliseconds from one reply of a station's to its next one."""
    line.hasten().wait_for(2 * BEHIND, ANSWERS)
    start = time.monotonic()
    time.sleep(COST)
    end = time.monotonic()
    moments = [[it[4] for it in each.answered if start <= it[4] <= end] for each in line.stations]
    gaps = [later - moment for each in moments for moment, later in zip(each, each[1:])]
    count = sum(len(each) for each in moments)
    return f"{name}: {count / (end - start):.1f} requests a second, {1000 * statistics.median(gaps):.0f} ms each"


def cost(place: Place) -> None:
    """With the second machine, without it, in a guest without DRBD, and on this machine over a plain file."""
    place.measured.append(row(place.line, "two machines, a write is on both"))
    place.second.cut()
    place.pair.wait_state(place.first, "^frozen", SEEN)
    place.word()
    place.measured.append(row(place.line, "the first alone, over DRBD"))
    back(place, place.second)
    place.pair.address.move(None)
    place.second.ask("drbdadm down station", 120)
    place.second.ask(PLAIN, 180)
    with line_at(place, place.second.port, "guest") as line:
        place.measured.append(row(line, "a guest alone, without DRBD"))
    place.second.ask(PLAIN_ENDS, 180)
    with served_here(place) as port, line_at(place, port, "here") as line:
        place.measured.append(row(line, "this machine, without a guest"))
    place.second.ask(UP, 180)
    place.pair.wait_joined()
    place.pair.address.move(place.first.port)


@contextlib.contextmanager
def line_at(place: Place, port: int, name: str) -> Iterator[Line]:
    """A line of its own at a port, through an address as the pair's."""
    address = Address()
    address.move(port)
    try:
        line = Line(address.port, place.folder / f"line-{name}", 1).start()
        yield line
        line.end()
    finally:
        address.close()


@contextlib.contextmanager
def served_here(place: Place) -> Iterator[int]:
    """A server on this machine, over a new store in the scenario's folder: its port."""
    port = free_ports(1)[0]
    words = station(str(place.program), str(place.folder / "site.toml"), str(place.folder / "here.db"), port)
    server = Server(words, port)
    try:
        yield server.wait(Server.is_listening).port
    finally:
        server.kill()
