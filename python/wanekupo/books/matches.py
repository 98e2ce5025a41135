"""Which line of a journal is which entry of a ledger, and which seat a journal is of.

Entries have no times: each has that of its line. Of one chip and one seat both come in the same order, so they are laid
beside each other from the first to the last.
"""

import difflib
import sqlite3
from collections import Counter, defaultdict, deque
from dataclasses import dataclass, field
from itertools import takewhile
from typing import Iterable, Iterator, Mapping, Optional, Sequence

from wanekupo.books.coherence import Chip
from wanekupo.books.scratch import Sorted, base_of
from wanekupo.books.steps import Book, Step
from wanekupo.books.store_rows import Books, LedgerRow

NAMED, BY_DIGEST, BY_CHIPS, UNKNOWN = "by its name", "by its last request", "by its chips", "not known"

OF_SEAT = "FROM line WHERE seat = ?"

# How many pairs of an entry and a line of one chip and seat are compared: a station may have read a chip for ever.
MOST_COMPARED = 1 << 20


@dataclass
class Seated:
    """A journal with its seat, its customer, and how they are known."""

    book: Book
    seat: str
    customer: str
    known: str


# A line of a step with the journal that has it.
Told = tuple[Seated, Step]


def seated(book: Book, store: Books) -> Seated:
    """Which seat a journal is of: the one that its lines name, the one whose last request it has, or the one whose
    entries most of its chips have."""
    if book.seat:
        owner = store.seats.get(book.seat)
        return Seated(book, book.seat, owner.customer if owner else "", NAMED)
    digests = {step.digest for step in book.steps if step.status in (None, 200) and step.digest}
    lasts = [it for it in store.seats.values() if it.digest in digests]
    if lasts:
        it = max(lasts, key=lambda it: it.last)
        return Seated(book, it.name, it.customer, BY_DIGEST)
    steps = {(step.chip, step.event, step.note) for step in book.steps if step.is_done() and step.event}
    for name, _ in store.votes(steps).most_common(1):
        if name in store.seats:
            return Seated(book, name, store.seats[name].customer, BY_CHIPS)
    return Seated(book, "", "", UNKNOWN)


@dataclass(frozen=True, slots=True)
class Pair:
    """An entry and its line. `told` says in what they differ, where they do."""

    entry: LedgerRow
    step: Step
    kind: str = ""
    told: str = ""


@dataclass
class Matched:
    """The entries and lines of a chip's steps, laid beside each other: the pairs, and what is left over of both."""

    pairs: list[Pair] = field(default_factory=list)
    entries: list[LedgerRow] = field(default_factory=list)
    steps: list[Told] = field(default_factory=list)


def steps_by_chip(journals: Sequence[Seated]) -> Iterator[tuple[Chip, Told]]:
    """The lines of steps in the order of the chips that they are of, those of a seat in that of its numbers."""
    lines = Sorted(6, 5)
    for own, it in enumerate(journals):
        steps = (step for step in it.book.steps if step.event)
        lines.put((it.customer, step.chip, step.turn, step.number, own, step.place_of) for step in steps)
    for customer, chip, _, _, own, place in lines:
        yield (customer, chip), (journals[own], journals[own].book.steps.at(place))


class SeatLines(Mapping[int, list[Step]]):
    """The lines of a seat by their numbers, on the disk."""

    def __init__(self, base: sqlite3.Connection, journals: Sequence[Seated], seat: str):
        self._base, self._journals, self._seat = base, journals, seat

    def __getitem__(self, number: int) -> list[Step]:
        rows = self._base.execute(f"SELECT own, place {OF_SEAT} AND number = ? ORDER BY rowid", (self._seat, number))
        return [self._journals[own].book.steps.at(place) for own, place in rows]

    def __iter__(self) -> Iterator[int]:
        return (it for (it,) in self._base.execute(f"SELECT DISTINCT number {OF_SEAT}", (self._seat,)))

    def __len__(self) -> int:
        return sum(1 for _ in self)


def lines_by_seat(journals: Sequence[Seated]) -> dict[str, SeatLines]:
    """The lines of each seat that aren't lost."""
    base = base_of("CREATE TABLE line (seat TEXT, number INTEGER, own INTEGER, place INTEGER)")
    for own, it in enumerate(journals):
        rows = ((it.seat, step.number, own, step.place_of) for step in it.book.steps if not step.is_lost)
        base.executemany("INSERT INTO line VALUES (?, ?, ?, ?)", rows)
    base.execute("CREATE INDEX of_seat ON line (seat, number)")
    return {it.seat: SeatLines(base, journals, it.seat) for it in journals}


def matched(entries: Iterable[LedgerRow], steps: Iterable[Told]) -> Matched:
    """Each entry of a chip's ledger, which come in their order, beside its line. What is left over has none, nor has it
    one under another seat or with another note."""
    own: dict[str, list[LedgerRow]] = defaultdict(list)
    told: dict[str, list[Told]] = defaultdict(list)
    for entry in entries:
        own[entry.row["seat"]].append(entry)
    for it, step in steps:
        told[it.seat].append((it, step))
    found = Matched()
    for seat in sorted(own.keys() | told.keys()):
        _lay(found, own.get(seat, []), told.get(seat, []))
    _lay_others(found)
    return found


def _said(entry: LedgerRow) -> tuple[str, str]:
    return entry.row["event"], entry.row["note"]


def _fits(both: tuple[LedgerRow, Told]) -> bool:
    """Whether an entry can be that of a line; one whose reply was lost has no note."""
    entry, (_, step) = both
    return entry.row["event"] == step.event and (not step.is_done() or entry.row["note"] == step.note)


def _own_lines(entries: Iterable[LedgerRow], steps: Sequence[Told]) -> list[Told]:
    """The lines that the store has: those that it surely has, and where entries of their event lack a line those of
    which the number may be another's."""
    lacking = Counter(it.row["event"] for it in entries)
    lacking.subtract(it.event for _, it in steps if it.is_stored and it.status in (None, 200))
    own: list[Told] = []
    for it in steps:
        is_maybe = it[1].is_either and lacking[it[1].event] > 0
        lacking[it[1].event] -= is_maybe
        own += [it] if is_maybe or it[1].is_stored and it[1].status in (None, 200) else []
    return own


def _lay(found: Matched, entries: list[LedgerRow], steps: list[Told]) -> None:
    """Lays the entries and lines of one chip and seat beside each other: from the first ones on as far as they fit,
    then those that were answered, those whose reply was lost, and those that were refused."""
    own = _own_lines(entries, steps)
    first = [Pair(entry, step) for entry, (_, step) in takewhile(_fits, zip(entries, own))]
    found.pairs += first
    rest, own = entries[len(first) :], own[len(first) :]
    done = [it for it in own if it[1].is_done()]
    places = _places(list(map(_said, rest)), [(it.event, it.note) for _, it in done])
    found.pairs += [Pair(rest[one], done[other][1]) for one, other in places.items()]
    laid = {id(done[place][1]) for place in places.values()}
    maybe = [*own, *(it for it in steps if it[1].status is None and not it[1].is_stored and not it[1].is_lost)]
    rest = _lay_unanswered(found, [it for place, it in enumerate(rest) if place not in places], maybe, laid)
    refused = [it for it in steps if it[1].status not in (None, 200)]
    found.entries += _lay_unanswered(found, rest, refused, laid, "late_copy")
    lost = (it for it in steps if it[1].is_done() and it[1].is_lost)
    found.steps += [*(it for it in own if id(it[1]) not in laid and it[1].is_stored), *lost]


def _places(said: Sequence[tuple[str, str]], asked: Sequence[tuple[str, str]]) -> dict[int, int]:
    """Which entries are which lines, so that most are, and of both each is behind the one before. Of very many an entry
    is the next line that says the same."""
    if len(said) * len(asked) <= MOST_COMPARED:
        blocks = difflib.SequenceMatcher(None, said, asked, autojunk=False).get_matching_blocks()
        return {block.a + it: block.b + it for block in blocks for it in range(block.size)}
    free = defaultdict[tuple[str, str], deque[int]](deque)
    for place, words in enumerate(asked):
        free[words].append(place)
    return {place: free[words].popleft() for place, words in enumerate(said) if free[words]}


def _lay_unanswered(
    found: Matched, entries: list[LedgerRow], steps: list[Told], laid: set[int], kind: str = ""
) -> list[LedgerRow]:
    """Lays entries beside lines of the same event whose reply says nothing, and gives those that are left."""
    free, rest = defaultdict[str, deque[Step]](deque), list[LedgerRow]()
    for it in (it for _, it in steps if not it.is_done() and id(it) not in laid):
        free[it.event].append(it)
    for entry in entries:
        if not (own := free[entry.row["event"]]):
            rest.append(entry)
            continue
        step = own.popleft()
        if kind:
            step.is_stored = True
            step.save()
        laid.add(id(step))
        told = "a late copy of a request that was refused was accepted" if kind else ""
        found.pairs.append(Pair(entry, step, kind, told))
    return rest


def _lay_others(found: Matched) -> None:
    """Lays what is left beside what is of the same event, and says in what they differ."""
    rest, free = list[LedgerRow](), defaultdict[tuple[str, str, str], deque[Told]](deque)
    for it, step in found.steps:
        free[step.event, it.seat, ""].append((it, step))
        free[step.event, "", step.note].append((it, step))
    laid = set[int]()
    for entry in found.entries:
        event, note = _said(entry)
        own = _next(free[event, entry.row["seat"], ""], laid) or _next(free[event, "", note], laid)
        if own is None:
            rest.append(entry)
            continue
        laid.add(id(own[1]))
        found.pairs.append(Pair(entry, own[1], *_difference(entry, *own)))
    found.entries, found.steps = rest, [it for it in found.steps if id(it[1]) not in laid]


def _next(lines: deque[Told], laid: set[int]) -> Optional[Told]:
    """The first of some lines that isn't laid yet."""
    while lines and id(lines[0][1]) in laid:
        lines.popleft()
    return lines[0] if lines else None


def _difference(entry: LedgerRow, it: Seated, step: Step) -> tuple[str, str]:
    """In what an entry and a line differ: the kind, and the words."""
    note = entry.row["note"] or "none"
    if it.seat != entry.row["seat"]:
        whose = it.seat or "a seat that is not known"
        return "other_seat", f"the seat is {entry.row['seat']} in the store, and the line is of {whose}"
    if entry.row["note"] != step.note:
        return "other_note", f"the note is {note} in the store, and {step.note or 'none'} in the journal"
    return "exchanged", "it is at another place in its ledger than its line in the journal"
