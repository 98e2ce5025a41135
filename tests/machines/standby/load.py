"""Four stations on this machine: each a seat of the client's own package, with its state file and its journal."""

import hashlib
import random
import threading
import time
from collections.abc import Iterable, Iterator
from pathlib import Path
from typing import Any

from common.customers import token_of
from common.registrations import MAP, blocks_of, planned

from wanekupo.common.errors import Refused
from wanekupo.seat.journal import Journal
from wanekupo.seat.station import Station
from wanekupo.cli.witness import acknowledged

CUSTOMERS, SEATS = 2, 2
DIGEST = hashlib.sha256(MAP.encode()).hexdigest()
# How long a station asks for one reply, and how long it waits for a whole one.
PATIENCE, WHOLE = 3600, 20
# How many seconds at most are between two requests of a station: guests have little of a processor for them.
WORK = 1.0


class Wanted:
    """What one station asks for, request after request. It depends on the seed alone."""

    def __init__(self, seed: int, customer: int, seat: int, begin: int = 0):
        """`begin` is how many orders and chips were there before."""
        self.random = random.Random(f"{seed} {customer} {seat}")
        self.customer, self.seat, self.begin = customer, seat, begin
        self.orders: list[str] = []
        self.chips: list[str] = []

    def requests(self) -> Iterator[tuple[str, dict[str, Any]]]:
        yield "/v1/map", {"text": MAP}
        while True:
            yield from self.order()

    def order(self) -> Iterator[tuple[str, dict[str, Any]]]:
        """An order, and the lives of its devices, at times of one more than it has room for."""
        place, quantity = self.begin + len(self.orders), self.random.randint(1, 4)
        name, issuer = f"o{self.seat}-{place}", f"c{self.customer}-ca"
        self.orders.append(name)
        members = {"name": name, "issuer": issuer, "prefix": f"S{self.seat}-", "width": 9, "first": 10 * place}
        macs = 1 if self.seat == 0 else 0
        yield "/v1/order", members | {"quantity": quantity, "macs": macs}
        for _ in range(quantity + self.random.choice([0, 0, 1])):
            yield from self.life(name)

    def life(self, order: str) -> Iterator[tuple[str, dict[str, Any]]]:
        number = self.begin + len(self.chips) + 1
        chip = f"{self.customer:x}{self.seat:x}{number:010x}"
        self.chips.append(chip)
        wishes, burnt, locked = planned(number)
        yield "/v1/device", {"chip": chip, "order": order, "map": DIGEST, "blocks": blocks_of(number)}
        yield "/v1/plan", {"chip": chip, "wishes": wishes}
        yield "/v1/readback", {"chip": chip, "blocks": burnt}
        yield "/v1/readback", {"chip": chip, "blocks": locked}
        yield "/v1/identity", {"chip": chip, "public_key": f"{self.customer:02x}{self.seat:02x}{number:060x}"}
        yield "/v1/scrap" if self.random.random() < 0.2 else "/v1/ship", {"chip": chip}


class Asking(threading.Thread):
    """A station that asks until it is told to end. What was answered is kept, a refusal as its body."""

    def __init__(self, port: int, folder: Path, seed: int, customer: int, seat: int, begin: int = 0):
        super().__init__(daemon=True)
        self.customer, self.token = customer, token_of(customer, seat)
        self.name = f"s{customer}{seat}"
        self.wanted = Wanted(seed, customer, seat, begin)
        self.journal = folder / f"{self.name}.journal"
        self.folder, self.port = folder, port
        self.answered: list[tuple[str, dict[str, Any], int, Any, float]] = []
        self.number, self.is_over = 0, threading.Event()
        self.failure: BaseException | None = None
        self.is_behind_a_restore, self.pause = False, 0.0

    def take_over_from(self, other: "Asking") -> None:
        """Goes on in another one's place behind a restore: with its state file, its journal, and its replies."""
        self.folder, self.journal, self.answered = other.folder, other.journal, list(other.answered)
        self.is_behind_a_restore = True

    def run(self) -> None:
        try:
            journal = Journal(self.journal, self.name)
            url, state = f"http://127.0.0.1:{self.port}", self.folder / f"{self.name}.json"
            with Station(url, self.token, state, PATIENCE, WHOLE, journal=journal, closes_journal=True) as station:
                if self.is_behind_a_restore:
                    station.resynchronize()
                    self.number = (station.own_number() or 1) - 1
                for path, members in self.wanted.requests():
                    if self.is_over.is_set():
                        return
                    self.ask(station, path, members)
                    self.is_over.wait(random.uniform(0, self.pause))
        except BaseException as failure:
            self.failure = failure

    def ask(self, station: Station, path: str, members: dict[str, Any]) -> None:
        asked = {"nr": self.number + 1} | members
        try:
            status, reply = 200, station.post(path, members)
            self.number += 1
        except Refused as refused:
            # 11 and 12 say that the store isn't the one that answered before.
            if refused.no <= 12:
                raise
            status, reply = refused.status, refused.body
        self.answered.append((path, asked, status, reply, time.monotonic()))


class Line:
    """The stations of some customers, four where nothing else is said."""

    def __init__(
        self,
        port: int,
        folder: Path,
        seed: int,
        customers: Iterable[int] = range(CUSTOMERS),
        seats: int = SEATS,
        begin: int = 0,
    ):
        folder.mkdir(mode=0o700, parents=True)
        self.stations = [Asking(port, folder, seed, c, s, begin) for c in customers for s in range(seats)]

    def start(self, pause: float = 0.0, late: int = 0) -> "Line":
        """Has all stations but the last so many ask, with so many seconds at most between two requests."""
        for each in self.stations[: len(self.stations) - late]:
            each.pause = pause
            each.start()
        return self

    def hasten(self) -> "Line":
        """Has the stations ask one request behind the other from now on."""
        for each in self.stations:
            each.pause = 0.0
        return self

    def count(self) -> int:
        """How many requests have their reply."""
        return sum(len(each.answered) for each in self.stations)

    def longest_stand(self, start: float) -> float:
        """The longest that no station had a reply, from a moment on until the last reply."""
        moments = sorted([start, *(it[4] for each in self.stations for it in each.answered if it[4] > start)])
        return max((later - moment for moment, later in zip(moments, moments[1:])), default=0.0)

    def first_after(self, moment: float) -> float:
        """When the first reply came behind a moment."""
        return min(it[4] for each in self.stations for it in each.answered if it[4] > moment)

    def wait_for(self, more: int, seconds: float) -> int:
        """Waits until so many more requests have their reply, and returns how many have."""
        end, start = time.monotonic() + seconds, self.count()
        while self.count() < start + more:
            failed = [f"{each.name}: {each.failure!r}" for each in self.stations if each.failure]
            if failed or time.monotonic() > end:
                raise SystemExit(f"FAILED: {self.count() - start} of {more} replies in {seconds:.0f} s: {failed}")
            time.sleep(0.05)
        return self.count()

    def witness(self, but: str = "") -> str:
        """What the journals say, as the client's command prints it; without the part of the station `but`."""
        numbers = acknowledged([each.journal for each in self.stations if each.name != but])
        lines = [f"at {time.strftime('%Y-%m-%dT%H:%M:%SZ', time.gmtime())}"]
        return "\n".join([*lines, *(f"seat {name} {number}" for name, number in sorted(numbers.items()))]) + "\n"

    def end(self, seconds: float = 300) -> None:
        """Lets each station finish what it has under way."""
        for each in self.stations:
            each.is_over.set()
        end = time.monotonic() + seconds
        for each in self.stations:
            each.join(max(0.1, end - time.monotonic()))
            if each.is_alive() or each.failure:
                raise SystemExit(f"FAILED: {each.name} didn't end: {each.failure!r}")
