"""What an audit finds: a store's ledgers against the journals of its stations, and what has to be there but once."""

import bisect
import sys
from collections import Counter, defaultdict
from dataclasses import dataclass, field
from itertools import chain
from typing import Iterable, Iterator, NamedTuple, Sequence, Union

from wanekupo.books.clocks import (
    Contradiction, Pairs, Timed, ToCome, Window, clock_contradictions, to_come, window_of,
)  # fmt: skip
from wanekupo.books.coherence import by_chip, faults_of
from wanekupo.books.given import given_twice
from wanekupo.books.matches import Matched, Seated, matched, seated, steps_by_chip
from wanekupo.books.numbers import Span, begun_customers, counts, spans_of
from wanekupo.books.once import store_faults
from wanekupo.books.shift import Period
from wanekupo.books.steps import Book, Step
from wanekupo.books.store_rows import Books, LedgerRow, StoredChip


class Found(NamedTuple):
    """What isn't as it should be: its kind, whose it is, by whose clock when, and what it is in words."""

    kind: str
    at: str
    customer: str
    seat: str
    chip: str
    told: str


class Held(NamedTuple):
    """A seat: its journal, how that is known to be its own, and how much of it was held to the store."""

    customer: str
    seat: str
    journal: str
    known: str
    lines: int
    matched: int
    unanswered: int
    numbers: str
    last: int


@dataclass
class Audit:
    """All of it. `bare` is how many entries outside of the period have no line and aren't found, and `held_lines` how
    many lines of it there are. `replayed` is how many lines of each customer the program answered once more,
    `unfinished` why it didn't answer all, and `repeated` has those that changed nothing. `bare_chips` has the customer,
    the chip and the seat of each entry without its line, and without a seat the other chips whose lines don't fit."""

    period: Period
    found: list[Found] = field(default_factory=list)
    held: list[Held] = field(default_factory=list)
    entries: int = 0
    outside: int = 0
    bare: int = 0
    unheld: int = 0
    held_lines: int = 0
    repeated: list[Step] = field(default_factory=list)
    replayed: dict[str, int] = field(default_factory=dict)
    unfinished: list[str] = field(default_factory=list)
    bare_chips: list[tuple[str, str, str]] = field(default_factory=list)

    def add(self, found: Iterable[Found]) -> None:
        """Adds what was found, in the order of its times, each once."""
        both = dict.fromkeys((*self.found, *found))
        self.found = sorted(both, key=lambda it: (it.at, it.customer, it.chip, it.kind, it.told))


def audit_of(store: Books, books: Iterable[Book], period: Period, now: str, site: str = "") -> Audit:
    """Holds a store to the journals of its seats. `now` is the moment of the audit, and `site` the SHA-256 of the
    auditor's own file of the site, where he has one."""
    journals = [seated(book, store) for book in books]
    spans = spans_of(journals, store, period)
    audit, laid = Audit(period), Laid(store, period)
    lost, counted = _without_journal(journals, store), Counter[str]()
    stored = (((life.customer, life.chip), life) for life in store.lives())
    for _, (lives, lines) in by_chip(stored, steps_by_chip(journals)):
        entries = [entry for life in lives for entry in life.entries]
        laid.take(matched(entries, lines))
        audit.found += (it for life in lives for it in _contradictions(life))
        counted.update(entry.row["seat"] for entry in entries if entry.row["seat"] in lost)
    laid.pairs.end()
    audit.bare_chips = list(laid.bare_chips())
    audit.found += _journal_faults(journals, store)
    audit.found += _clock_faults(journals, laid.pairs, period, now)
    window = window_of(laid.pairs, period)
    audit.found += laid.found()
    audit.found += _left_faults(audit, laid, window, spans, lost, begun_customers(spans, store))
    audit.found += _idle_faults(lost, counted, store)
    late = {(it.seat, step.number) for it, step, kind, _ in laid.odd if kind == "late_copy"}
    audit.found += [Found("numbers", it.at, it.customer, it.seat, "", told) for it in spans for told in it.told(late)]
    audit.found += [Found("journal", at, it.customer, it.seat, "", told) for it in spans for at, told in it.lost]
    audit.found += [Found(kind, at, customer, "", chip, told) for kind, at, customer, chip, told in store_faults(store)]
    audit.found += [Found(*it) for it in given_twice(journals)]
    if site not in ("", store.site):
        told = f"the site's text isn't the given file: its SHA-256 is {store.site} in the store, and {site} of the file"
        audit.found.append(Found("store", "", "", "", "", told))
    audit.held = list(_held(journals, laid.lines, spans, store, period))
    audit.held_lines = sum(period.has(step.at) for it in journals for step in it.book.steps)
    audit.add(())
    return audit


def _without_journal(journals: Iterable[Seated], store: Books) -> set[str]:
    return store.seats.keys() - {it.seat for it in journals}


# What was laid beside each other.


class Left(NamedTuple):
    """An entry without a line, as long as the period's own entries aren't known."""

    id: int
    customer: str
    chip: str
    n: int
    event: str
    note: str
    seat: str


class Laid:
    """What was laid beside each other, chip by chip: the pairs that agree, how many lines of the period each file has
    that have an entry, the pairs that differ, the entries that are left over, and the lines that are."""

    def __init__(self, store: Books, period: Period):
        self.store, self.period = store, period
        self.pairs = Pairs()
        self.lines: Counter[str] = Counter()
        self.odd: list[tuple[Left, Step, str, str]] = []
        self.left: list[Left] = []
        self.faults: list[Found] = []

    def take(self, made: Matched) -> None:
        for pair in made.pairs:
            self.lines[pair.step.file] += pair.step.is_done() and self.period.has(pair.step.at)
            if pair.kind:
                self.odd.append((_left_of(pair.entry), pair.step, pair.kind, pair.told))
            else:
                self.pairs.append(pair.entry.id, pair.step)
        self.left += map(_left_of, made.entries)
        for own, step in made.steps:
            if counts(own, step, self.store, self.period):
                said = f"{step.event} {step.note}".rstrip()
                taken = "was accepted" if step.is_done() else f"has the number {step.number}, which was given"
                told = f"{step.place()}, {said}, {taken}, and no ledger has it"
                self.faults.append(Found("no_entry", step.at, own.customer, own.seat, step.chip, told))
                step.is_lost = step.is_lost or not step.is_done()
                step.save()

    def bare_chips(self) -> Iterator[tuple[str, str, str]]:
        yield from ((it.customer, it.chip, it.seat) for it in self.left)
        yield from ((it.customer, it.chip, "") for it in self.faults)
        yield from ((it.customer, it.chip, "") for it, _, kind, _ in self.odd if kind in ("other_seat", "exchanged"))

    def found(self) -> Iterator[Found]:
        """The lines without an entry, and the pairs that differ."""
        yield from self.faults
        for it, step, kind, told in self.odd:
            yield Found(kind, step.at, it.customer, it.seat, it.chip, _told(it, f"{told} ({step.place()})"))


def _left_of(entry: LedgerRow) -> Left:
    row = entry.row
    words = (sys.intern(row["event"]), row["note"], sys.intern(row["seat"]))
    return Left(entry.id, sys.intern(entry.customer), entry.chip, row["n"], *words)


def _told(left: Left, told: str) -> str:
    return f"the entry {left.n}, {f'{left.event} {left.note}'.rstrip()}: {told}"


class Unheld:
    """The entries from before the first line of their seat's journals, which begin behind number 1: as many as it had
    numbers. Of a seat without a journal those from before all lines."""

    def __init__(self, pairs: Sequence[Timed], spans: Iterable[Span]):
        self._before = {it.seat: it.first - 1 for it in spans}
        self._first = {step.seat: number for number, step in reversed(pairs)}
        self._of_all = pairs[0][0] if pairs else 0

    def has(self, left: Left) -> bool:
        if left.seat not in self._before:
            return left.id < self._of_all
        self._before[left.seat] -= 1
        return self._before[left.seat] >= 0 and left.id < self._first.get(left.seat, left.id + 1)


def _left_faults(
    audit: Audit, laid: Laid, window: Window, spans: Iterable[Span], lost: set[str], begun: set[str]
) -> Iterator[Found]:
    """The entries that are left over. A seat without a journal is told once. Of customers whose journals have `begun`
    with number 1 each counts; of others none that is outside of the period, or in front of the first line."""
    steps = chain((step for _, step, *_ in laid.pairs), (step for _, step, *_ in laid.odd))
    inside = sum(audit.period.has(step.at) for step in steps)
    audit.entries, audit.outside = inside, len(laid.pairs) + len(laid.odd) - inside
    without: dict[tuple[str, str], int] = defaultdict(int)
    unheld = Unheld(laid.pairs, spans)
    for left in sorted(laid.left):
        is_outside, is_whole = window.is_outside(left.id), left.customer in begun
        if not is_whole and not is_outside and unheld.has(left):
            audit.unheld += 1
            continue
        audit.entries, audit.outside = audit.entries + (not is_outside), audit.outside + is_outside
        if is_outside and not is_whole:
            audit.bare += 1
        elif left.seat in lost:
            without[left.customer, left.seat] += 1
        else:
            told = f"no journal of its seat has a line of it; it came {_between(laid.pairs, left.id)}"
            yield Found("no_line", "", left.customer, left.seat, left.chip, _told(left, told))
    for (customer, seat), count in sorted(without.items()):
        told = f"no journal of this seat was given: {count} entries of it have no line"
        yield Found("no_journal", "", customer, seat, "", told)


def _idle_faults(lost: set[str], counted: Counter[str], store: Books) -> Iterator[Found]:
    """Seats without a journal that asked for more than they have entries: when that was nobody can tell."""
    for seat in sorted((store.seats[name] for name in lost), key=lambda it: it.name):
        if (rest := seat.last - counted[seat.name]) > 0:
            told = f"no journal of this seat was given: {rest} of its {seat.last} requests are of no device"
            yield Found("no_journal", "", seat.customer, seat.name, "", f"{told}, and held to nothing")


def _between(pairs: Sequence[Timed], number: int) -> str:
    """When an entry without a line came, by the lines of the entries that were committed before and behind it."""
    place = bisect.bisect(pairs, number, key=lambda it: it[0])
    before = f"behind {pairs[place - 1][1].at}" if place else ""
    behind = f"before {pairs[place][1].at}" if place < len(pairs) else ""
    return " and ".join(filter(None, (before, behind))) or "at a time that is not known"


# What needs no counterpart.


def _journal_faults(journals: Iterable[Seated], store: Books) -> Iterator[Found]:
    """What is wrong with a journal itself, wherever it is: a changed line says nothing sure of its time."""
    for it in journals:
        for fault in it.book.faults:
            yield Found("journal", fault.at, it.customer, it.seat, "", f"{fault.place()} {fault.told}")
        for step in (step for step in it.book.steps if step.odd):
            told = f"{step.place()} has a reply that isn't as a server writes it: {step.odd}"
            yield Found("journal", step.at, it.customer, it.seat, step.chip, told)
        # A seat that was only refused has no row, nor one that asked for nothing since a restore took all of it away.
        is_bare = not any(step.is_done() and not step.is_lost for step in it.book.steps)
        if it.seat in store.seats or not it.book.times and not any(fault.line for fault in it.book.faults):
            continue
        if not is_bare or it.seat not in store.site_seats:
            told = f"{it.book.files[0]} is of a seat that the store doesn't have"
            if not it.seat:
                told = f"{it.book.files[0]} is of no seat that could be found: give its lines a name"
            yield Found("no_seat", "", it.customer, it.seat, "", told)


def _clock_faults(journals: Iterable[Seated], pairs: Sequence[Timed], period: Period, now: str) -> Iterator[Found]:
    """Times that can't be, told once for a file: where the first one is, what it contradicts, and how many more."""
    wrong: dict[str, dict[int, Union[Contradiction, ToCome]]] = defaultdict(dict)
    for it in clock_contradictions(pairs):
        if it.is_of(period):
            wrong[it.step.file][it.step.line] = it
    for own in journals:
        for later in to_come(own.book.steps, now):
            wrong[later.step.file].setdefault(later.step.line, later)
        for lines in filter(None, (wrong.get(file) for file in own.book.files)):
            first = lines[min(lines)]
            told = f"{first.step.place()} {first.told()}"
            if len(lines) > 1:
                told += f"; {len(lines) - 1} more, up to line {max(lines)}, can't be either"
            yield Found("clock", first.step.at, own.customer, own.seat, first.step.chip, told)


def _contradictions(life: StoredChip) -> Iterator[Found]:
    """What of a chip's device, ledger and records says something else. Its entries were committed in their order."""
    for device in life.devices:
        for told in faults_of(device, [entry.row for entry in life.entries], life.records):
            yield Found("device", "", life.customer, "", life.chip, told)
    for before, entry in zip(life.entries, life.entries[1:]):
        if entry.id <= before.id:
            told = f"its entry {entry.row['n']} was written before its entry {before.row['n']}"
            yield Found("device", "", life.customer, "", life.chip, told)


def _held(
    journals: Iterable[Seated], lines: Counter[str], spans: list[Span], store: Books, period: Period
) -> Iterator[Held]:
    """What of each seat was held to what. `lines` is how many lines of the period each file has that have an entry."""
    numbers = {it.seat: f"{it.first} to {it.known}" for it in spans if it.known}
    for it in journals:
        count = sum(bool(step.event) and step.is_done() and period.has(step.at) for step in it.book.steps)
        both = sum(lines[file] for file in it.book.files)
        last = store.seats[it.seat].last if it.seat in store.seats else 0
        first, *others = it.book.files
        name = f"{first} and {len(others)} more, up to {others[-1]}" if others else first
        bare = sum(not step.answered for step in it.book.steps)
        yield Held(it.customer, it.seat, name, it.known, count, both, bare, numbers.get(it.seat, ""), last)
    for name in sorted(_without_journal(journals, store)):
        it_seat = store.seats[name]
        yield Held(it_seat.customer, name, "none", "", 0, 0, 0, "", it_seat.last)
