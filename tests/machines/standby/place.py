"""What a scenario has: the two machines, the line, what was found and measured, and what is asked of a machine."""

import http.client
import random
import time
from concurrent.futures import ThreadPoolExecutor
from dataclasses import dataclass, field
from pathlib import Path
from typing import Any

from common.goals import tell
from common.served import Caller

from machines.standby.guests import Guest
from machines.standby.load import Asking, Line
from machines.standby.pair import SEEN, UP, Pair, disk_of_zeros

# How many replies come before something happens, and behind it.
BEFORE, BEHIND = (5, 40), 12
# Longer than a machine that is alone takes to answer, were it to.
NO_REPLY = 20
# An order that no station asks for.
STRAY = {"name": "stray", "prefix": "X-", "width": 9, "first": 1, "quantity": 1, "macs": 0}
# How long the stations wait for a reply at the most, when a machine is to be taken over.
ANSWERS = 600
# What stands for a disk that fails: each read and each write of it is an error from now on.
DISK_FAILS = (
    "dmsetup suspend --nolockfs --noflush half && "
    "dmsetup load half --table '0 98304 error' && dmsetup resume --noudevsync half"
)


@dataclass
class Cut:
    """What came of one thing that befell, in seconds: until DRBD saw it, how long `takeover` took, the time of a
    processor in that, and from then on until the next reply. What the operator takes in between is none of these."""

    name: str
    seen: float = 0.0
    takeover: float = 0.0
    used: float = 0.0
    replied: float = 0.0


@dataclass
class Place:
    """The two machines, the line, and what was found. `first` has the store. `program` is the server's on this machine,
    `folder` where the scenario's files are; `was_restored` where the books at the end aren't those of an undisturbed
    run."""

    pair: Pair
    line: Line
    chance: random.Random
    first: Guest
    second: Guest
    program: Path
    folder: Path
    is_verbose: bool = False
    was_restored: bool = False
    cuts: list[Cut] = field(default_factory=list)
    faults: list[str] = field(default_factory=list)
    said: list[str] = field(default_factory=list)
    measured: list[str] = field(default_factory=list)
    refusals: int = 0
    start: float = field(default_factory=time.monotonic)

    def tell(self, line: str) -> None:
        """Keeps what a script said, with the seconds since the line began."""
        self.said.append(f"{time.monotonic() - self.start:.0f} s: {line}")
        if self.is_verbose:
            tell(f"    {self.folder.name}, {self.said[-1]}".replace("\n", "\n    "))

    def expect(self, is_so: bool, what: str) -> None:
        if not is_so:
            self.faults.append(what)

    def swap(self) -> None:
        self.first, self.second = self.second, self.first

    def work(self) -> None:
        """The line works for a random while."""
        self.line.wait_for(self.chance.randint(*BEFORE), ANSWERS)
        time.sleep(self.chance.uniform(0, 0.5))

    def off(self) -> str:
        """The words of `takeover` on the second, which say that the first is off."""
        return f"--other-is-off {self.first.name}"

    def taken_over(self, name: str, seen: float, words: str) -> None:
        """The second takes the store over, and the line goes on. What was measured is kept."""
        start, used = time.monotonic(), self.second.used()
        status, said = self.pair.take_over(self.second, self.line.witness, words)
        end, used = time.monotonic(), self.second.used() - used
        self.tell(said)
        if status:
            raise SystemExit(f"{name}: {self.second.name}: {said}")
        self.line.wait_for(BEHIND, ANSWERS)
        self.cuts.append(Cut(name, seen, end - start, used, self.line.first_after(end) - end))

    def refused(self, name: str, guest: Guest, words: str, told: str, but: str = "") -> None:
        """A takeover that has to be refused with these words, and to change nothing. The witness lacks the part of the
        station `but`."""
        # A machine without a disk has no identifiers.
        before = guest.run("drbdadm get-gi station")[1], self.pair.state(guest)
        status, said = self.pair.take_over(guest, lambda: self.line.witness(but), words)
        self.tell(said)
        self.expect(status == 1 and told in said, f"{name}: not refused as {told!r}, but {status}: {said}")
        after = guest.run("drbdadm get-gi station")[1], self.pair.state(guest)
        self.expect(before == after, f"{name}: a refused takeover made {before} {after}")
        self.refusals += status == 1

    def cable_cut(self) -> float:
        """Cuts the cable, waits until the writes of the first are frozen, and returns how long that took."""
        moment = time.monotonic()
        self.pair.cable.cut()
        self.pair.wait_state(self.first, "^frozen", SEEN)
        return time.monotonic() - moment

    def next_reply(self) -> float:
        """Waits until the line goes on, and returns how long the next reply took."""
        moment = time.monotonic()
        self.line.wait_for(BEHIND, ANSWERS)
        return self.line.first_after(moment) - moment

    def word(self) -> None:
        """A person says on the first that the second is off."""
        self.tell(self.pair.ask_script(self.first, f"other-is-off {self.second.name}"))

    def numbers(self) -> dict[str, int]:
        """The last number of each seat that has its reply."""
        return {each.name: each.number for each in self.line.stations}

    def answers(self, guest: Guest, numbers: dict[str, int]) -> list[str]:
        """What a machine answers by itself, behind its own port: an order with the next number of each seat and with
        the one behind it, of which it would accept one, and a look."""
        asked = [
            (each, "POST", "/v1/order", {"nr": numbers[each.name] + more, **STRAY, "issuer": f"c{each.customer}-ca"})
            for each in self.line.stations
            for more in (1, 2)
        ]
        asked += [(each, "GET", "/v1/report", None) for each in self.line.stations]
        with ThreadPoolExecutor(len(asked)) as pool:
            found = list(pool.map(lambda words: answer(guest.port, *words), asked))
        return [it for it in found if it]


def answer(port: int, each: Asking, method: str, target: str, members: dict[str, Any] | None) -> str:
    """What a request is answered, or nothing where no reply comes or a page of nginx's."""
    caller = Caller(port, each.token, is_kept=False)
    caller.connection.timeout = NO_REPLY
    try:
        status, body = caller.ask(method, target, members)
        return f"{method} {target} of {each.name} {status} {body[:60]!r}" if status < 500 else ""
    except (http.client.HTTPException, OSError):
        return ""
    finally:
        caller.close()


def is_alone(place: Place, guest: Guest, moment: float) -> float:
    """Waits until a machine sees that the other one is gone: how long behind the moment that was."""
    place.pair.wait_state(guest, "^(frozen )?(WFConnection|Unconnected|Timeout|NetworkFailure|StandAlone)", SEEN)
    return time.monotonic() - moment


def back(place: Place, guest: Guest) -> None:
    """A machine without power is switched on again, and its half follows the other one's."""
    place.pair.start(guest)
    place.pair.wait_joined()


def first_lost(place: Place) -> float:
    """Cuts the power of the first. Returns how long it took until the second saw that it is alone."""
    moment = time.monotonic()
    place.first.cut()
    place.pair.address.move(None)
    return is_alone(place, place.second, moment)


def joined_again(place: Place, newer: Guest, older: Guest) -> None:
    """Has the machine with the store look for the other one again where it has given up, as the page says."""
    if place.pair.state(newer).startswith("StandAlone"):
        newer.ask("drbdadm connect station", 60)
    if place.pair.state(older).startswith("StandAlone"):
        older.ask("drbdadm connect station", 60)
    place.pair.wait_joined()


def new_disk(place: Place, guest: Guest) -> None:
    """A machine without power gets a new disk, and its half is made anew from the other one's, as the page says."""
    disk_of_zeros(guest.disk)
    guest.start()
    guest.ask("yes yes | drbdadm create-md station", 120)
    guest.ask(UP, 180)
    place.pair.wait_joined()
