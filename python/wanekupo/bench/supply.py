"""How many chips of an order may still be begun: its serial numbers left, but those that chips under way are to get.

The server refuses a registration by the places of an order alone, and a scrapped device gives its place back but not
its serial number. So a bench looks at the customer's report, which counts the chips of all its benches:

- a chip is registered where a number is free, which no registered, planned or settled device is to get;
- it is planned where fewer are planned or settled than numbers are left. Where more are registered, as two benches
  asked at one moment, it waits for a time by lot, and looks again: the server's order of plans decides;
- it is burnt where no more are planned or settled than numbers are left, itself among them.

A plan is in each later look. So of all chips that are burnt the last look saw each, and a number for each: none is
burnt in vain. Numbers that an import takes meanwhile aren't foreseen.

No report is asked for where the last one had as many free numbers as were begun here since then, and as all other
benches could begin, at OTHERS a second.
"""

import random
import threading
import time
from dataclasses import dataclass
from typing import Callable, TypeVar

from wanekupo.bench.endings import REFUSALS, Ended
from wanekupo.common.errors import NotTheServer, Refused
from wanekupo.seat.station import Station
from wanekupo.bench.turns import Leaving

Made = TypeVar("Made")

# How many chips all other benches of a customer together begin in a second at the most.
OTHERS = 20.0

# Of so many free numbers the last ones are asked for by lot: how many, and how many seconds a lot has at the most.
FEW, LONGEST = 4, 1.0


@dataclass(frozen=True)
class OrderSupply:
    """What a report has of an order: its serial numbers left, and its devices that are to get one."""

    left: int
    registered: int
    planned: int

    def free(self) -> int:
        return self.left - self.registered - self.planned


class Supply:
    """The serial numbers of a bench's order. `shown` is told how many are left."""

    def __init__(
        self,
        ask: Callable[[Callable[[Station], tuple[OrderSupply, float]]], tuple[OrderSupply, float]],
        order: str,
        shown: Callable[[int], None],
        leaving: threading.Event,
    ):
        self._ask, self._order, self._shown, self._leaving = ask, order, shown, leaving
        self._turn = threading.RLock()
        self._left = self._free = self._begun = 0
        self._at = time.monotonic()

    def look(self) -> OrderSupply:
        """Asks for the report. Nobody here registers a chip meanwhile, so that it is in the report or counts behind."""
        with self._turn:
            found, self._at = self._ask(self._looked)
            self._left, self._free, self._begun = found.left, found.free(), 0
            self._shown(found.left)
            return found

    def _looked(self, station: Station) -> tuple[OrderSupply, float]:
        at = time.monotonic()
        try:
            row = station.report()[self._order]
            return OrderSupply(row["serials_left"], row["registered"], row["planned"] + row["settled"]), at
        except (KeyError, ValueError, StopIteration) as error:
            raise NotTheServer(f"a report without the order {self._order}") from error

    def _is_sure(self, more: int = 0) -> bool:
        """Whether each chip that was begun finds a number, whatever others began since the last look."""
        return self._free - self._begun - more >= OTHERS * (time.monotonic() - self._at)

    def given(self, left: int) -> None:
        """An identity shows how many numbers are left: they are given in turn. That of a chip which comes again shows
        how many were left then."""
        with self._turn:
            if left < self._left:
                self._left = left
                self._shown(left)

    def registered(self, register: Callable[[], Made]) -> Made:
        """Has a chip registered where a number is free for it; those of this bench one after the other."""
        with self._turn:
            if not self._is_sure(1):
                found = self.look()
                if 0 < found.free() <= FEW:
                    self._wait()
                    found = self.look()
                if found.free() < 1:
                    raise _none_for(found)
            self._begun += 1
            try:
                return register()
            except Refused as refused:
                if REFUSALS.get(refused.no) != "order_full":
                    raise
                raise _none_for(self.look()) from refused

    def test_plan(self) -> None:
        """Before a registered chip is planned: it gives way where each number is a planned one's."""
        if self._is_sure():
            return
        found = self.look()
        if found.free() < 0:
            self._wait()
            found = self.look()
        if found.planned >= found.left:
            raise Ended("gave_way")

    def test_burn(self) -> None:
        """Before a planned chip is burnt, which counts among the planned ones."""
        if not self._is_sure():
            found = self.look()
            if found.planned > found.left:
                raise Ended("gave_way")

    def _wait(self) -> None:
        """Waits for a time by lot, so that two benches don't ask at one moment again."""
        if self._leaving.wait(random.uniform(0, LONGEST)):
            raise Leaving


def _none_for(found: OrderSupply) -> Ended:
    """Why a chip isn't registered: to scrap the red box helps only where a number is left."""
    return Ended("order_full" if found.left else "used_up")
