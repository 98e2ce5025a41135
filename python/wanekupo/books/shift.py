"""What was done in a shift, by the journals of its stations: over all customers, orders and lines.

A step counts when its reply was written down, by the station's clock. A chip is a name among its customer's own, so a
chip is counted by customer and name. `wanekupo.books.yields` says what the yield is.
"""

import statistics
from bisect import bisect_left
from collections import Counter, defaultdict
from dataclasses import dataclass, field
from datetime import datetime
from typing import Iterable, NamedTuple, Optional

from wanekupo.books.steps import SET_BACK, Book, Step
from wanekupo.common.moments import moment_of, text_of
from wanekupo.seat.states import FINISHED, reported

Key = tuple[str, str]


@dataclass(frozen=True)
class Period:
    """From a moment on, and before another."""

    start: str
    end: str

    def has(self, at: str) -> bool:
        return self.start <= at < self.end

    def hours(self) -> float:
        return seconds_between(self.start, self.end) / 3600


def seconds_between(start: str, end: str) -> float:
    return (moment_of(end) - moment_of(start)).total_seconds()


def period_of(start: datetime, end: datetime) -> Period:
    return Period(text_of(start), text_of(end))


@dataclass(frozen=True)
class DoneStep:
    """A step of a chip that was accepted, with the station that did it. `place` is where it stands among those of other
    stations: its time, or where its station's clock was set back a little that of a step before."""

    at: str
    station: Key
    step: Step
    place: str

    def state(self) -> str:
        """The state that it left the device in, as a report counts it."""
        if self.step.event == "identified":
            return "identified"
        return reported(str(self.step.reply.get("state", "")))


@dataclass
class ChipHistory:
    """A chip's steps by their times, and its order where a journal has its registration."""

    name: str
    customer: str
    done: list[DoneStep] = field(default_factory=list)

    def order(self) -> str:
        return next((str(it.step.asked.get("order", "")) for it in self.done if it.step.event == "registered"), "")

    def first(self, *states: str) -> Optional[DoneStep]:
        """The first step that left it in one of these states."""
        return next((it for it in self.done if it.state() in states), None)

    def until(self, moment: str) -> Optional[DoneStep]:
        """Its last step before a moment."""
        return next((it for it in reversed(self.done) if it.at < moment), None)

    def passed_first(self) -> bool:
        """Whether each of its read-backs matched at once, and its bench knew of no earlier stay that failed."""
        is_again = any(it.step.reason for it in self.done if it.step.event == "shipped")
        return not is_again and all(it.step.note == "match" for it in self.done if it.step.event == "read")

    def once(self) -> list[DoneStep]:
        """Its steps, but those that were done anew, as behind a restore: a chip is begun and shipped once."""
        firsts: dict[str, DoneStep] = {}
        is_first = lambda it: it.step.event in ("planned", "read") or firsts.setdefault(it.step.event, it) is it
        return list(filter(is_first, self.done))

    def reason(self) -> str:
        """Why it was given up: the outcome of its read-back, or that it was scrapped without one."""
        gone = self.first("quarantined", "scrapped")
        return (gone.step.note or "scrapped") if gone else ""


@dataclass
class OrderCounts:
    """What was done with the chips of an order. `identified` is how many serial numbers were given."""

    begun: int = 0
    first: int = 0
    shipped: int = 0
    identified: int = 0
    reasons: Counter[str] = field(default_factory=Counter)
    states: Counter[str] = field(default_factory=Counter)

    def given_up(self) -> int:
        return sum(self.reasons.values())

    def as_row(self) -> dict[str, int]:
        return {"shipped": self.shipped, "given_up": self.given_up()}


@dataclass
class StationShift:
    """What a station did: its counts, how long its shipped chips took, and its longest stand."""

    operators: list[str] = field(default_factory=list)
    counts: OrderCounts = field(default_factory=OrderCounts)
    seconds: list[tuple[float, str]] = field(default_factory=list)
    stand: tuple[float, str, str] = (0.0, "", "")

    def median(self) -> Optional[float]:
        return statistics.median(it for it, _ in self.seconds) if self.seconds else None

    def slowest(self) -> tuple[Optional[float], str]:
        return max(self.seconds) if self.seconds else (None, "")


class Lost(NamedTuple):
    """A chip that was given up, with who did it and why."""

    at: str
    customer: str
    station: str
    operator: str
    order: str
    chip: str
    reason: str


class UnfinishedChip(NamedTuple):
    """A chip that isn't finished: its state since its last step."""

    customer: str
    order: str
    chip: str
    state: str
    since: str
    station: str


@dataclass(frozen=True)
class Standstill:
    """A station that was out of step, or that waits for a reply, and when it went on."""

    at: str
    customer: str
    station: str
    told: str
    went_on: str


@dataclass
class ShiftReport:
    """All of it."""

    period: Period
    orders: dict[Key, OrderCounts] = field(default_factory=dict)
    stations: dict[Key, StationShift] = field(default_factory=dict)
    lost: list[Lost] = field(default_factory=list)
    under_way: list[UnfinishedChip] = field(default_factory=list)
    stopped: list[Standstill] = field(default_factory=list)

    def all(self) -> OrderCounts:
        found = OrderCounts()
        for it in self.orders.values():
            found.begun += it.begun
            found.first += it.first
            found.shipped += it.shipped
            found.identified += it.identified
            found.reasons += it.reasons
            found.states += it.states
        return found


# A journal with the customer whose it is.
Owned = tuple[str, Book]


def chips_of(books: Iterable[Owned]) -> dict[Key, ChipHistory]:
    """The chips of journals, each with its accepted steps in the order of their times. Those of a journal stay in their
    order, also where its station's clock was set back a little."""
    found: dict[Key, ChipHistory] = {}
    for customer, book in books:
        station, last = (customer, book.name()), ""
        for step in book.steps:
            if step.event and step.is_done():
                is_set_back = step.answered < last and seconds_between(step.answered, last) <= SET_BACK
                last = last if is_set_back else step.answered
                chip = found.setdefault((customer, step.chip), ChipHistory(step.chip, customer))
                chip.done.append(DoneStep(step.answered, station, step, last))
    for chip in found.values():
        chip.done.sort(key=lambda it: it.place)
    return found


def shift_of(books: Iterable[Owned], period: Period) -> ShiftReport:
    """What the journals say of a period."""
    owned = list(books)
    shift, stations = ShiftReport(period), defaultdict[Key, list[Book]](list)
    for customer, book in owned:
        stations[customer, book.name()].append(book)
    for (customer, name), own in stations.items():
        line = shift.stations.setdefault((customer, name), StationShift())
        line.stand = _longest_stand(own, period)
        shift.stopped += _stops(customer, own, period)
        steps = (it for book in own for it in book.steps)
        names = (it.operator for it in steps if it.operator and period.has(it.answered or it.at))
        line.operators = list(dict.fromkeys(names))
    for chip in chips_of(owned).values():
        _count(shift, chip)
    shift.orders = dict(sorted(shift.orders.items()))
    shift.stations = dict(sorted(shift.stations.items()))
    shift.lost.sort(key=lambda it: it.at)
    shift.under_way.sort(key=lambda it: (it.customer, it.order, it.since))
    shift.stopped.sort(key=lambda it: it.at)
    return shift


def _count(shift: ShiftReport, chip: ChipHistory) -> None:
    """Adds what was done with a chip to its order's counts, and to those of the stations that did it."""
    period, order = shift.period, shift.orders.setdefault((chip.customer, chip.order()), OrderCounts())
    for done in chip.once():
        if not period.has(done.at):
            continue
        station = shift.stations[done.station]
        for counts in (order, station.counts):
            counts.begun += done.step.event == "registered"
            counts.identified += done.step.event == "identified"
            if done.step.event == "shipped":
                counts.shipped += 1
                counts.first += chip.passed_first()
        if done.step.event == "shipped":
            _time(station, chip, done)
    gone = chip.first("quarantined", "scrapped")
    if gone and period.has(gone.at):
        for counts in (order, shift.stations[gone.station].counts):
            counts.reasons[chip.reason()] += 1
        why = gone.step.note or gone.step.reason or "scrapped"
        names = gone.station[1], gone.step.operator, chip.order(), chip.name, why
        shift.lost.append(Lost(gone.at, chip.customer, *names))
    last = chip.until(period.end)
    if last and last.state() not in FINISHED:
        where = chip.customer, chip.order(), chip.name, last.state(), last.at, last.station[1]
        shift.under_way.append(UnfinishedChip(*where))
    if last and (period.has(last.at) or last.state() not in FINISHED):
        order.states[last.state()] += 1


def _time(station: StationShift, chip: ChipHistory, shipped: DoneStep) -> None:
    """How long a chip that was shipped took, where the same station registered it."""
    begun = next((it for it in chip.done if it.step.event == "registered" and it.station == shipped.station), None)
    if begun:
        station.seconds.append((seconds_between(begun.step.at, shipped.at), chip.name))


def _longest_stand(books: Iterable[Book], period: Period) -> tuple[float, str, str]:
    """The longest time in which a station asked nothing and got no reply, by all its journals, with its beginning and
    its end. The time to the first line counts, and that behind the last one."""
    inside = sorted(at for book in books for at in book.times if period.has(at))
    times = [period.start, *inside, period.end]
    stands = ((seconds_between(start, end), start, end) for start, end in zip(times, times[1:]))
    return max(stands, key=lambda it: it[0])


def _stops(customer: str, books: Iterable[Book], period: Period) -> list[Standstill]:
    """When a station was out of step, and when it went on; and a request whose reply never came. A machine in the place
    of another one has a journal of its own, in which the station goes on."""
    own = sorted(books, key=lambda it: list(it.times[:1]))
    steps, name = [it for book in own for it in book.steps], own[0].name()
    told_on = [it.at for book in own for it in book.resynchronized]
    went_on = sorted([it.answered for it in steps if it.is_done()] + told_on)
    found = []
    for step in steps:
        if step.is_stop() and period.has(step.answered):
            no, expected = step.reply.get("no"), step.reply.get("expected")
            told = f"out of step ({no}): number {step.number}"
            told += f", and the server expects {expected}" if expected is not None else ""
            place = bisect_left(went_on, step.answered)
            behind = "".join(went_on[place : place + 1])
            found.append(Standstill(step.answered, customer, name, told, behind if behind < period.end else ""))
    last = next((it for it in reversed(steps) if it.at < period.end), None)
    is_given_up = last is not None and any(last.at <= at < period.end for at in told_on)
    if last and not is_given_up and (last.status is None or last.answered >= period.end):
        told = f"no reply to {last.path} with number {last.number}"
        found.append(Standstill(last.at, customer, name, told, ""))
    return found
