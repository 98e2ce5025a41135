"""In which order a customer's requests were done: the lines of each seat by their numbers, and the steps of devices by
the entries of the store's ledgers.

An order, a map or an import has no entry. Clocks say when it came, but it waits for what was surely before it: an order
for its addresses, a device for its order, its map and its serial number, an import for what devices were given.
"""

from array import array
from collections import defaultdict
from dataclasses import dataclass, replace
from itertools import chain, pairwise
from typing import (
    Any, Callable, Container, Generic, Iterable, Iterator, Mapping, Optional, Sequence, TypeVar, Union,
)  # fmt: skip

from wanekupo.books.clocks import begin_of, end_of, is_behind
from wanekupo.books.imports import IMPORT, ORDER, ImportTimes, imported_by
from wanekupo.books.scratch import Known
from wanekupo.books.steps import Step
from wanekupo.books.store_rows import Books, Key, LedgerRow, Row, StoredSeat, serial_of
from wanekupo.common.errors import StationError
from wanekupo.seat.import_rows import csv_of, import_parts

MAP = "/v1/map"

# The lines of each number of a seat.
Lines = Mapping[int, list[Step]]

# Numbers from the first one to the last one.
Numbers = tuple[int, int]

# The entries of a seat in the order in which they came, or without a name those of all seats.
EntriesOf = Callable[[str], Iterable[LedgerRow]]

# The seat, the file and the line of a request.
Place = tuple[str, str, int]
T = TypeVar("T")

# A chip with an event of it.
ChipEvent = tuple[str, str]

# Where a request is that no line has, and that the store shows; and the members of an order's.
OF_STORE = "the store"
OF_ORDER = ("name", "issuer", "prefix", "width", "first", "quantity", "macs", "not_before")


class NotWhole(StationError):
    """Why a customer's lines can't be answered once more."""


class NotLaid(StationError):
    """An entry that isn't its seat's next line, or such a line without an entry."""

    def __init__(self, told: str, seat: str, chip: str, at: str = ""):
        super().__init__(told)
        self.seat, self.chip, self.at = seat, chip, at


@dataclass(frozen=True, slots=True)
class Done:
    """A request that the store has, with its seat, and with its entry where it is a step of a device. `later` is one
    that has to be in front of it, and by the clocks was surely asked behind it."""

    seat: str
    step: Step
    entry: Optional[LedgerRow] = None
    later: Optional[Step] = None

    def is_of_store(self) -> bool:
        return self.step.file == OF_STORE

    def place(self) -> Place:
        """Where it stands, by which it is known."""
        return self.seat, self.step.file, self.step.line or id(self.step)


class Ahead(Generic[T]):
    """What comes one after another, of which the first one is looked at before it is taken. No more is in memory."""

    def __init__(self, its: Iterable[T]):
        self._rest = iter(its)
        self.first = next(self._rest, None)

    def popleft(self) -> None:
        self.first = next(self._rest, None)


class NextLines:
    """The lines of a seat's next number, one of which was done: its steps, and the first line that is no step."""

    def __init__(self, lines: Sequence[Step]):
        self.first = lines[0]
        self.paper = next((it for it in lines if not it.event), None)
        self.steps: dict[ChipEvent, Step] = {}
        for it in lines:
            if it.event:
                self.steps.setdefault((it.chip, it.event), it)

    def has_chip_but(self, aside: Container[str]) -> bool:
        """Whether any of them is of a chip that isn't left aside."""
        while self.steps:
            key, step = self.steps.popitem()
            if key[0] not in aside:
                self.steps[key] = step
                return True
        return False


def _of_numbers(seat: StoredSeat, lines: Lines, is_gone: Callable[[Step], bool]) -> Iterator[list[Step]]:
    """The lines of each number that the store knows of a seat, one of which was done: not a refused one, but where a
    late copy of it was, and none that is gone."""
    for number in array("q", sorted(it for it in lines if 0 < it <= seat.last)):
        own = [it for it in lines[number] if it.status in (None, 200) or it.is_stored or it.digest == seat.digest]
        if own := [it for it in own if not is_gone(it)]:
            yield _candidates(seat, own)


def _lacking(seat: StoredSeat, numbers: Iterable[int]) -> list[Numbers]:
    """The numbers that the store knows of a seat, and that no line has."""
    known = pairwise(chain([0], numbers, [seat.last + 1]))
    return [(one + 1, other - 1) for one, other in known if other > one + 1]


def _candidates(seat: StoredSeat, lines: Sequence[Step]) -> list[Step]:
    """Which lines of a number may be the done one: the accepted one, else one without a reply, else a late copy. Of
    several the later one, as its station asked for the number when the earlier one wasn't done."""
    done = [it for it in lines if it.is_done()]
    other = next((it for it in done if it.digest != done[0].digest), None)
    if other:
        told = f"{done[0].place()} and {other.place()} have the number {other.number} of {seat.name}"
        raise NotWhole(f"{told}, so the store became an older one")
    kept = [it for it in lines if (it.number, it.digest) == (seat.last, seat.digest)]
    bare = [it for it in reversed(lines) if it.status is None]
    return done[:1] or kept or bare or list(lines)


def _of_store(path: str, **asked: Any) -> Step:
    return Step(OF_STORE, 0, "", path, {"nr": 0, **asked}, "", "", "")


def _unasked(customer: str, store: Books, asked: Sequence[Step]) -> Iterator[Step]:
    """The maps, imports and orders of a store that no line asked for, as the requests that they may have been."""
    texts = {it.digest_of_text() for it in asked if it.path == MAP}
    for text in (store.map_text(*it[:2]) for it in store.maps if it[0] == customer and it[1] not in texts):
        yield _of_store(MAP, text=text)
    known, rows = {row for it in asked for row in imported_by(it)}, defaultdict[str, list[Key]](list)
    for whose, row in store.records("WHERE g.chip IS NULL AND g.mac IS NULL"):
        if whose == customer and (row["issuer"], row["serial"]) not in known:
            rows[row["issuer"]].append((row["serial"], row["key_sha256"]))
    for issuer, part in ((issuer, part) for issuer, its in rows.items() for part in import_parts(its)):
        yield _of_store(IMPORT, issuer=issuer, csv=csv_of(part))
    names = {it.asked.get("name") for it in asked if it.path == ORDER}
    for order in (it for (whose, name), it in store.orders.items() if whose == customer and name not in names):
        yield _of_store(ORDER, **{name: order[name] for name in OF_ORDER})


class Requests:
    """A customer's requests that the store has. Where journals lack a number, and where an entry isn't its seat's next
    line, the chips that this is about are left `aside`: they aren't asked, and what they were given is taken from the
    store, as orders, maps and imports are that no line asked for. `bare` has the chips of which an audit found an entry
    without its line, or a line without its entry, each with the entry's seat."""

    def __init__(self, customer: str, store: Books, lines: Mapping[str, Lines], bare: Sequence[Key] = ()):
        self._customer, self._store = customer, store
        seats = [it for it in store.seats.values() if it.customer == customer and it.last > 0]
        if others := [it.name for it in seats if store.site_seats.get(it.name) != customer]:
            raise NotWhole(f"the site's text, as it is read here, has no seat {others[0]} of it")
        self._maps = {digest for whose, digest, _ in store.maps if whose == customer}
        self._odd, self._lines, self.lacking = {seat for _, seat in bare}, lines, dict[str, list[Numbers]]()
        asked = list[tuple[str, Step]]()
        for it in seats:
            gaps, own = self._read(it)
            if gaps and it.name not in self._odd:
                self._odd.add(it.name)
                gaps, own = self._read(it)
            self.lacking |= {it.name: gaps} if gaps else {}
            asked += own
        self._queues = {it.name: Ahead(self._of_seat(it)) for it in seats}
        self._times = ImportTimes(asked)
        self._pools = [list(it) for it in store.pools.get(customer, ())]
        self._made, self._given = set[str](), Known()
        self._awaited = dict[Place, list[Key]]()
        self._own = dict[str, Ahead[LedgerRow]]()
        self._next, self._order_of = dict[str, int](), Known()
        self._waited: dict[Place, Step] = {}
        self._fronts, self._heads = dict[str, NextLines](), dict[str, Optional[Done]]()
        self.papers, self.repeated = list[Step](), list[Step]()
        self._bare, self.aside = frozenset(chip for chip, _ in bare), dict[str, None]()
        self.lent = list(_unasked(customer, store, [step for _, step in asked])) if self.lacking else []
        self._pending, self._has_moved = list(self.lent), True
        count = sum(last - first + 1 for gaps in self.lacking.values() for first, last in gaps)
        papers = sum(it.path != IMPORT for it in self.lent) + any(it.path == IMPORT for it in self.lent)
        self._spare = count - papers - sum(seat in self.lacking for _, seat in bare)
        self._is_short, self._is_loose = self._spare < 0, self._spare > 0 or any(it.path == IMPORT for it in self.lent)
        self.leave(self._bare if self.lacking else ())

    def _of_seat(self, seat: StoredSeat) -> Iterator[list[Step]]:
        is_gone = self._is_gone if seat.name in self._odd else lambda _: False
        return _of_numbers(seat, self._lines.get(seat.name, {}), is_gone)

    def _read(self, seat: StoredSeat) -> tuple[list[Numbers], list[tuple[str, Step]]]:
        """Which numbers a seat's lines lack, and those of its lines that are no step of a device."""
        papers = list[tuple[str, Step]]()

        def numbers() -> Iterator[int]:
            for its in self._of_seat(seat):
                papers.extend([] if its[0].event else [(seat.name, its[0])])
                yield its[0].number

        return _lacking(seat, numbers()), papers

    def _is_gone(self, line: Step) -> bool:
        """Whether a line without a reply asks for a paper that the store doesn't have: where lines are missing that of
        its number is one of them."""
        if line.event or line.status is not None:
            return False
        if line.path == ORDER:
            order = self._order(str(line.asked.get("name"))) or {}
            return any(line.asked.get(name) != order.get(name, "") for name in OF_ORDER)
        rows = ((self._store.record(*name), key) for name, key in imported_by(line).items())
        is_gone = any(row is None or row["key_sha256"] != key for row, key in rows)
        return is_gone or line.path == MAP and line.digest_of_text() not in self._maps

    def leave(self, chips: Iterable[str]) -> None:
        """Leaves chips aside from here on."""
        self.aside |= dict.fromkeys(sorted(chips))
        self._heads.clear()

    def unsure(self, done: Done) -> int:
        """By how many rows the counts of a reply may be others: those that another seat imported at the same time, and
        where lines of imports or chips are missing any."""
        rows = len(imported_by(done.step)) + (done.step.path == ORDER)
        is_loose = self.lacking and (self._is_loose or self.aside)
        return rows if is_loose else self._times.unsure(done.seat, done.step) if rows else 0

    def in_order(self, entries: EntriesOf) -> Iterator[Union[Done, NotLaid]]:
        """One after another, in an order in which they may have been done, and what isn't so. Entries come in
        theirs."""
        self._own = {seat: Ahead(entries(seat)) for seat in self._queues}
        waiting = Ahead(entries(""))
        while waiting.first or any(it.first for it in self._queues.values()):
            yield from self._lend_next()
            yield from self._next_done(waiting)
        for step in self._pending:
            yield from self._lend(step)

    def _lend_next(self) -> Iterator[Done]:
        """What no line asked for, as soon as an order's addresses are the next ones."""
        while self._has_moved:
            step = next((it for it in self._pending if self._is_ready(Done("", it))), None)
            self._has_moved = step is not None
            if step:
                self._pending.remove(step)
                yield from self._lend(step)

    def _lend(self, step: Step) -> Iterator[Done]:
        done = Done(next(iter(self._queues), ""), step)
        yield done
        self._take(done)

    def _next_done(self, waiting: Ahead[LedgerRow]) -> Iterator[Union[Done, NotLaid]]:
        """What was done next, where the entries wait that aren't laid yet."""
        entry = waiting.first
        if entry and entry.chip in self.aside:
            waiting.popleft()
            yield from self._given_by(entry)
            return
        heads = self._next_heads()
        free = sorted((it for it in heads if it.entry is None or it.entry == entry), key=lambda it: it.step.at)
        if not free:
            has_more = entry or any(it.first for it in self._queues.values())
            yield from self._unlaid(entry) if has_more else ()
            return
        ready = next(filter(self._is_ready, free), None)
        first = ready or free[0]
        self._pop(first.seat)
        self._pass_over(heads, first)
        yield replace(first, later=self._waited.get(first.place())) if ready else first
        if first.entry:
            self._own[first.seat].popleft()
            waiting.popleft()
        yield from self._given_by(first.entry) if first.entry and first.step.chip in self.aside else ()
        self._take(first)

    def _pop(self, seat: str) -> None:
        self._queues[seat].popleft()
        self._fronts.pop(seat, None)
        self._heads.pop(seat, None)

    def _next_heads(self) -> list[Done]:
        """Which lines of the seats' next numbers were done."""
        for seat in (it for it in self._queues if it not in self._heads):
            self._heads[seat] = self._head(seat)
        return [it for it in map(self._heads.get, self._queues) if it]

    def _front(self, seat: str) -> Optional[NextLines]:
        """The lines of a seat's next number."""
        its = self._queues[seat].first if seat in self._queues else None
        if seat not in self._fronts and its:
            self._fronts[seat] = NextLines(its)
        return self._fronts.get(seat)

    def _head(self, seat: str) -> Optional[Done]:
        """Which of the lines of a seat's next number was done: the one that its next entry is of, else one without an
        entry. What is of chips that are left aside is passed over."""
        own = self._own[seat]
        while (lines := self._front(seat)) or own.first:
            entry = own.first
            step = lines.steps.get((entry.chip, entry.row["event"])) if entry and lines else None
            paper = lines.paper if lines else None
            if entry and entry.chip in self.aside and (step or not paper):
                own.popleft()
                self._pop(seat) if step else None
            elif step or paper:
                return Done(seat, step, entry) if step else Done(seat, paper) if paper else None
            elif lines and not lines.has_chip_but(self.aside):
                self._pop(seat)
            else:
                break
        return None

    def _pass_over(self, heads: Iterable[Done], first: Done) -> None:
        """Notes which of the next requests were surely done before the one that is first. Entries have their order from
        the store."""
        for it in heads:
            is_sure = (it.entry is None or first.entry is None) and it.seat != first.seat
            if is_sure and is_behind(begin_of(first.step), end_of(it.step)):
                self._waited.setdefault(it.place(), first.step)

    def _unlaid(self, entry: Optional[LedgerRow]) -> Iterator[NotLaid]:
        """Leaves aside what an entry is of that isn't of its seat's next line, or what that is of. Where this is of a
        number that the journals lack nothing is found."""
        seat = entry.row["seat"] if entry else next(name for name, its in self._queues.items() if its.first)
        lines = self._front(seat)
        chips = {entry.chip} if entry else set[str]()
        if lines and not chips & self._bare:
            chips |= {chip for chip, _ in lines.steps} - self.aside.keys()
        self.leave(chips & self._bare or chips)
        if seat in self.lacking and self._spare > 0:
            self._spare -= 1
        elif entry:
            behind = f", which is {lines.first.place()}" if lines else ""
            told = f"the entry {entry.row['n']}, {entry.row['event']}, isn't of the next step of {seat}{behind}"
            yield NotLaid(told, seat, entry.chip)
        elif lines:
            step = lines.first
            told = f"{step.place()}, {step.event}, has no entry, and its number was given"
            yield NotLaid(told, seat, step.chip, step.at)

    def _given_by(self, entry: LedgerRow) -> Iterator[Done]:
        """What a chip was given that is left aside: its number and its key, as an import."""
        device = self._store.device(self._customer, entry.chip) if entry.row["event"] == "identified" else None
        order = self._order(device["order"]) if device else None
        record = self._store.record(order["issuer"], entry.row["note"]) if order else None
        if record and (record["issuer"], record["serial"]) not in self._given:
            rows = [(record["serial"], record["key_sha256"])]
            yield from self._lend(_of_store(IMPORT, issuer=record["issuer"], csv=csv_of(rows)))

    def _is_to_come(self, name: Key) -> bool:
        """Whether a chip has a serial number in the store."""
        rows = self._store.records("WHERE g.chip IS NOT NULL AND g.issuer = ? AND g.serial = ?", *name)
        return any((whose, row["issuer"], row["serial"]) == (self._customer, *name) for whose, row in rows)

    def _order(self, name: str) -> Optional[Row]:
        return self._store.orders.get((self._customer, name))

    def _next_of(self, order: Optional[Row]) -> Optional[str]:
        """The least serial number of an order that isn't given yet."""
        if order is None:
            return None
        number, end = self._next.get(order["name"], order["first"]), order["first"] + order["quantity"]
        while number < end and (order["issuer"], serial_of(order, number)) in self._given:
            number += 1
        self._next[order["name"]] = number
        return serial_of(order, number) if number < end else None

    def _pool_of(self, order: Row) -> Optional[list[int]]:
        """What is left of the pool of which an order gets its addresses now."""
        size = order["quantity"] * order["macs"]
        return next((it for it in self._pools if it[1] >= size), None) if size else None

    def _is_ready(self, done: Done) -> bool:
        """Whether what a request rests on was done."""
        step = done.step
        if step.event == "registered":
            return {str(step.asked.get("order")), str(step.asked.get("map")).lower()} <= self._made
        if done.entry and step.event == "identified":
            return bool(self._next_of(self._order(self._order_of.get(step.chip, ""))) == done.entry.row["note"])
        if step.path == IMPORT:
            awaited = self._awaited.setdefault(done.place(), list(filter(self._is_to_come, imported_by(step))))
            while awaited and awaited[-1] in self._given:
                awaited.pop()
            return not awaited
        order = self._order(str(step.asked.get("name"))) if step.path == ORDER else None
        if order is None:
            return True
        pool = self._pool_of(order)
        return bool(order["mac"] == (f"{pool[0]:012x}" if pool else None))

    def _changes_nothing(self, step: Step) -> bool:
        """Whether a line asks for a map or an import that is there: the line of a step may have stood there."""
        is_there = step.path == IMPORT and all(it in self._given for it in imported_by(step))
        return is_there or step.path == MAP and step.digest_of_text() in self._made

    def _take(self, done: Done) -> None:
        step = done.step
        order = self._order(str(step.asked.get("name"))) if step.path == ORDER else None
        self.papers += [] if step.event or done.is_of_store() and self._is_short else [step]
        self.repeated += [step] if self._changes_nothing(step) and not done.is_of_store() else []
        if step.event == "registered":
            self._order_of[step.chip] = str(step.asked.get("order"))
        elif done.entry and step.event == "identified":
            own = self._order(self._order_of.get(step.chip, ""))
            if own:
                self._given[own["issuer"], done.entry.row["note"]] = True
        elif step.path == IMPORT:
            for name in imported_by(step):
                self._given[name] = True
        elif step.path == MAP:
            self._made.add(step.digest_of_text())
        elif order:
            self._made.add(order["name"])
            self._has_moved = True
            if pool := self._pool_of(order):
                size = order["quantity"] * order["macs"]
                pool[:] = pool[0] + size, pool[1] - size
