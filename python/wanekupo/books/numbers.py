"""The numbers of a seat's requests: each that the server accepted has its line, and the store has the last one.

The lines of a seat are put in the order of these numbers, over all its journals. Where a journal goes on with a number
that it had, the store was replaced by an older one, and a turn of the seat begins.
"""

import contextlib
import heapq
import json
from bisect import bisect_left
from collections import Counter, defaultdict
from dataclasses import dataclass, field
from itertools import accumulate
from typing import Any, Container, Iterable, Iterator, NamedTuple, Optional, Sequence, Union

from wanekupo.books.clocks import NEVER, is_behind, longest_run
from wanekupo.books.matches import Seated
from wanekupo.books.shift import Period
from wanekupo.books.steps import Book, Step, is_other_reply, odd_members
from wanekupo.books.store_rows import Books, StoredSeat
from wanekupo.common.texts import compact_json
from wanekupo.seat.journal_lines import form_fault


@dataclass
class Span:
    """The numbers that a seat's journals have, from the first to the last. `gaps` are those between and behind them
    that have no line, each from one to another one in words, and `lost` lines that can't be, each with its time."""

    seat: str
    customer: str
    at: str
    first: int = 0
    known: int = 0
    faults: list[str] = field(default_factory=list)
    gaps: list[tuple[int, int, str]] = field(default_factory=list)
    lost: list[tuple[str, str]] = field(default_factory=list)

    def told(self, late: Container[tuple[str, int]]) -> Iterator[str]:
        """What is wrong with its numbers. Those of `late` copies, each behind its seat, have a line that was refused.
        """
        yield from self.faults
        for first, last, told in self.gaps:
            yield from () if all((self.seat, it) in late for it in range(first, last + 1)) else (told,)


class Turn(NamedTuple):
    """Where a seat's lines may go on with a number that they had: a person said so, or a journal begins. `digest` is
    that of the journal's next accepted request, where that has the number."""

    at: str
    number: int
    told: str
    digest: str
    is_begin: bool = False


def counts(it: Seated, step: Step, store: Books, period: Period) -> bool:
    """Whether the store has to have a line: not one that an older copy can't have. One of before the period counts
    where no older store took it away, and so does the first of a journal with the one behind it, as nothing contradicts
    its time. One of behind the period counts as long as the store has its number. A line is of a period also where only
    its reply is."""
    last = store.seats[it.seat].last if it.seat in store.seats else 0
    if step.turn > 0 or step.answered >= period.end and step.number > last:
        return False
    if step.at >= period.end:
        return step.turn == 0 and step.number <= last
    if max(step.at, step.answered) >= period.start or not step.is_lost:
        return True
    first = it.book.steps[:2]
    is_first = (step.file, step.line) == (first[0].file, first[0].line)
    return bool(is_first and first[-1].at >= period.start and first[-1].turn == step.turn)


def begun_customers(spans: Iterable[Span], store: Books) -> set[str]:
    """The customers whose journals have the first number of each seat, whichever seats have none: an entry of theirs
    without a line has none, wherever it is."""
    return store.customers() - {it.customer for it in spans if it.first != 1 and store.seats[it.seat].last}


def spans_of(journals: Iterable[Seated], store: Books, period: Period) -> list[Span]:
    """The numbers of each seat that has a journal. Each line gets its turn, and what is there twice or wasn't done is
    taken out of the journals. A seat of the site without a row has no numbers, but lines that a restore took away."""
    books: dict[str, list[Book]] = {}
    for it in journals:
        if it.seat in store.seats or it.seat in store.site_seats:
            books.setdefault(it.seat, []).append(it.book)
    for name in books.keys() - store.seats.keys():
        _lose_lines(books.pop(name), period)
    return [_span_of(store.seats[name], own, period) for name, own in sorted(books.items())]


# Turns.


# A line of a journal, or where a turn may begin, the time by which it is laid among those of other journals, and the
# place of its journal.
Laid = tuple[str, int, Union[Step, Turn]]


# A journal with its requests, which are in memory while their seat is looked at.
Read = tuple[Book, list[Step]]


def _lines_of(book: Book, steps: list[Step]) -> Iterator[Union[Step, Turn]]:
    """A journal's lines, with where turns may begin."""
    marks: dict[int, list[Turn]] = defaultdict(list)
    done = [(place, it) for place, it in enumerate(steps) if it.is_done()]
    for it in book.resynchronized:
        place = bisect_left(done, it.behind, key=lambda it: it[0])
        step = done[place][1] if place < len(done) else None
        digest = step.digest if step and step.number == it.number else ""
        marks[it.behind].append(Turn(it.at, it.number, f"line {it.line} of {it.file}", digest))
    if steps and steps[0].is_done():
        step = steps[0]
        marks[0].append(Turn(step.at, step.number, step.place(), step.digest, True))
    for place, step in enumerate(steps):
        yield from marks.pop(place, ())
        yield step
    yield from marks.pop(len(steps), ())


def _laid(own: tuple[int, Read]) -> list[Laid]:
    """The same with their times. That of a line that contradicts most others is the time of one in front, so that times
    never fall."""
    lines = list(_lines_of(*own[1]))
    run = longest_run([it.at for it in lines])
    found, at = list[Laid](), next((it.at for it, is_sure in zip(lines, run) if is_sure), "")
    for it, is_sure in zip(lines, run):
        at = it.at if is_sure else at
        found.append((at, own[0], it))
    return found


class Since:
    """What was accepted since a seat's turn began: the first request of each number, and which have another one, the
    greatest number of each journal, and the greatest up to each time; and which numbers have a line without a reply."""

    def __init__(self) -> None:
        self._digests, self._several, self._unanswered = dict[int, str](), set[int](), set[int]()
        self._of_journals: dict[int, int] = {}
        self._times: list[str] = []
        self._most: list[int] = []

    def take(self, at: str, journal: int, step: Step) -> None:
        if step.status is None:
            self._unanswered.add(step.number)
        if step.is_done():
            if self._digests.setdefault(step.number, step.digest) != step.digest:
                self._several.add(step.number)
            self._of_journals[journal] = max(self._of_journals.get(journal, step.number), step.number)
            self._times.append(at)
            self._most.append(max([step.number, *self._most[-1:]]))

    def ends_at(self, at: str, journal: int, turn: Turn) -> bool:
        """Whether the store is an older one there: a line goes on with a number that its journal has, or that was given
        to another request. A number that no other line has was given there for the first time, whatever the clocks say;
        else these count, as far as clocks may differ."""
        same = self._digests.get(turn.number)
        if turn.digest and (turn.number in self._several or same not in (None, turn.digest)):
            return True
        if turn.is_begin or self._of_journals.get(journal, turn.number - 1) >= turn.number:
            return not turn.is_begin
        if turn.digest and same is None and turn.number not in self._unanswered:
            return False
        count = bisect_left(self._times, True, key=lambda it: not is_behind(at, it))
        return count > 0 and self._most[count - 1] >= turn.number


def _in_turns(books: Sequence[Read]) -> tuple[list[Turn], list[Step]]:
    """Where the store became an older one, and the lines of all journals of a seat, each with its turn, by one pass
    over them in the order of time."""
    turns, steps, since = list[Turn](), list[Step](), Since()
    for at, journal, it in heapq.merge(*map(_laid, enumerate(books)), key=lambda it: it[0]):
        if isinstance(it, Step):
            it.turn = len(turns)
            steps.append(it)
            since.take(at, journal, it)
        elif since.ends_at(at, journal, it):
            turns.append(it)
            since = Since()
    return turns, steps


def _own_turn(seat: StoredSeat, steps: Sequence[Step], turns: Sequence[Turn], period: Period) -> int:
    """Which turn the store is of: the last one. Of those that begin behind the period it may be too early."""
    own = len(turns)
    with_last = {it.turn for it in steps if (it.number, it.digest) == (seat.last, seat.digest)}
    while own and turns[own - 1].at >= period.end and own not in with_last:
        own -= 1
    return own


def _in_order(seat: StoredSeat, books: Sequence[Read], period: Period) -> tuple[list[Step], list[Turn]]:
    """A seat's lines by their turns and numbers, and the turns up to the one that the store is of: that is 0 in the
    lines."""
    turns, steps = _in_turns(books)
    own = _own_turn(seat, steps, turns, period)
    for step in steps:
        step.turn -= own
    return sorted(steps, key=lambda it: (it.turn, it.number)), turns[:own]


def _take_kept(seat: StoredSeat, steps: Sequence[Step]) -> None:
    """A seat's last request whose line has no reply gets the one that the store keeps, as its station would."""
    lines = [it for it in steps if it.turn == 0 and (it.number, it.digest) == (seat.last, seat.digest)]
    bare = [it for it in lines if it.status is None]
    if bare and not any(map(Step.is_done, lines)):
        kept = _kept(seat) or {}
        bare[-1].status, bare[-1].reply = 200, {} if odd_members(bare[-1].path, kept) else kept


def _kept(seat: StoredSeat) -> Optional[dict[str, Any]]:
    """The reply that the store keeps, where it is written as the server writes one, and has the form of a line's."""
    with contextlib.suppress(ValueError, RecursionError):
        reply: dict[str, Any] = json.loads(seat.reply)
        line = {"at": NEVER, "nr": seat.last, "status": 200, "reply": reply}
        if compact_json(reply, sort_keys=True) == seat.reply and not form_fault(line):
            return reply
    return None


def _settle(seat: StoredSeat, steps: Sequence[Step], turns: Sequence[Turn], span: Span) -> set[int]:
    """Says which lines the store can't have, lays those with the same number together, and gives those that go: a
    request that stands there again, and one without a reply whose number was taken by another, which so was not done.
    """
    accepted: dict[tuple[int, int], Step] = {}
    gone: set[int] = set()
    for it in filter(Step.is_done, steps):
        first = accepted.setdefault((it.turn, it.number), it)
        if first.digest != it.digest:
            told = f"{it.place()} and {first.place()} have the number {it.number}, and both were accepted"
            span.lost.append((it.at, told))
        elif first is not it:
            gone.add(id(it))
            if is_other_reply(first.reply, it.reply):
                span.lost.append((it.at, f"{it.place()} has another reply than {first.place()}, the same request"))
    asked = Counter((it.turn, it.number) for it in steps if it.status is None)  # a refused one takes no number
    least = list(accumulate((turn.number for turn in reversed(turns)), min))  # of the last turns, by how many
    for it in steps:
        done = accepted.get((it.turn, it.number))
        if done and done.digest == it.digest:
            done.since = min(done.since or done.at, it.at)
        is_older = it.turn < 0
        it.is_lost = it.turn > 0 or it.number >= (least[-it.turn - 1] if is_older else seat.last + 1)
        is_sure = it.is_done() or it.status is None and asked[it.turn, it.number] == 1
        it.is_stored = is_sure and not it.is_lost
        it.is_either = it.status is None and not (done or it.is_lost) and asked[it.turn, it.number] > 1
        if it.status is None and (done or is_older and it.is_lost):
            gone.add(id(it))
    return gone


def _span_of(seat: StoredSeat, books: list[Book], period: Period) -> Span:
    span = Span(seat.name, seat.customer, "")
    read = [(book, list(book.steps)) for book in sorted(books, key=lambda it: list(it.times[:1]))]
    steps, turns = _in_order(seat, read, period)
    _take_kept(seat, steps)
    gone = _settle(seat, steps, turns, span)
    begun = {id(own[0]) for _, own in read if own}
    for book, own in read:
        book.steps = book.steps.only(it for it in own if id(it) not in gone)
    steps = [it for it in steps if id(it) not in gone and it.turn <= 0 and it.status in (None, 200)]
    span.lost += _unanswered_faults(steps, books, begun, period)
    _count(span, seat, steps, turns, period)
    return span


def _lose_lines(books: list[Book], period: Period) -> None:
    """Says which lines of a seat without a row the store lost: those in front of where the seat goes on with number 1,
    as the store expects it of such a one."""
    read = [(book, list(book.steps)) for book in books]
    steps, turns = _in_order(StoredSeat("", "", 0, "", ""), read, period)
    for it in steps:
        it.is_lost = it.turn < 0 and turns[-1].number == 1
    for book, own in read:
        book.steps = book.steps.only(own)


def _unanswered_faults(
    steps: Sequence[Step], books: Sequence[Book], begun: set[int], period: Period
) -> Iterator[tuple[str, str]]:
    """Lines without a reply behind which the station went on: it has one request under way, until a person has it go on
    or a journal is begun."""
    told_on = {it.number for book in books for it in book.resynchronized}
    for it, behind in zip(steps, steps[1:]):
        goes_on = it.status is None and it.turn == behind.turn and behind.at >= period.start and it.at < period.end
        if goes_on and id(behind) not in begun and not told_on & {it.number, it.number + 1}:
            told = f"{it.place()} was never answered, and {behind.place()} was asked behind it: a reply is missing"
            yield it.at, f"{told}, or the station's state file was lost"


# Numbers.


def _count(span: Span, seat: StoredSeat, steps: list[Step], turns: Sequence[Turn], period: Period) -> None:
    """What of a seat's numbers is there, and what is wrong with them."""
    done = [it for it in steps if it.is_done()]
    if not done:
        if seat.last:
            span.faults.append(f"the store has the number {seat.last}, and no journal has a request that was accepted")
        return
    own = [it for it in steps if it.turn == 0]
    times = {it.number: it.at for it in steps if it.turn == 0 or not it.is_lost}
    if turns:
        times.setdefault(turns[-1].number - 1, turns[-1].at)
    numbers = sorted(times)
    span.first, span.at = min(it.number for it in steps), done[-1].at
    span.known = max((it.number for it in own if it.is_done()), default=numbers[-1])
    for before, after in zip(numbers, numbers[1:]):
        if after > before + 1 and times[before] < period.end:
            where = f"between {times[before]} and {times[after]}"
            span.gaps.append((before + 1, after - 1, f"{_named(before + 1, after - 1)} no line, {where}"))
    span.faults += _older_faults(done, turns, period)
    if seat.last > numbers[-1]:
        told = f"no line, behind {span.at}: the journal lacks its end, or a foreign hand"
        span.gaps.append((numbers[-1] + 1, seat.last, f"{_named(numbers[-1] + 1, seat.last)} {told}"))
    span.faults += filter(None, [_end_fault(seat, own, period), _last_fault(seat, steps)])


def _older_faults(done: Sequence[Step], turns: Sequence[Turn], period: Period) -> Iterator[str]:
    """Accepted lines of the period whose numbers were given again: the store became an older one within it."""
    greatest = list[Step]()  # those with a number greater than all in front
    for it in done:
        is_of = it.at < period.end and it.answered >= period.start
        if is_of and (not greatest or it.number > greatest[-1].number):
            greatest.append(it)
    for place, turn in enumerate(turns, -len(turns)):
        first = bisect_left(greatest, turn.number, key=lambda it: it.number)
        gone = next((it for it in greatest[first : first + 1] if it.turn <= place), None)
        if gone:
            told = f"{turn.told} goes on with the number {turn.number}, and {gone.place()}, number {gone.number}"
            yield f"{told}, was accepted at {gone.at}: the store became an older one within the period"


def _named(first: int, last: int) -> str:
    return f"the number {first} has" if first == last else f"the numbers {first} to {last} have"


def _end_fault(seat: StoredSeat, own: list[Step], period: Period) -> Optional[str]:
    """A line of the period that the store doesn't know shows an older store, but for one that was answered behind
    it."""
    done = (it for it in own if it.is_done() and it.number > seat.last)
    unknown = next((it for it in done if period.start <= max(it.at, it.answered) < period.end), None)
    if unknown:
        told = f"the store's number is {seat.last}, and {unknown.place()}, number {unknown.number}, was accepted"
        return f"{told} at {unknown.at}: this is an older store"
    return None


def _last_fault(seat: StoredSeat, steps: list[Step]) -> Optional[str]:
    """Whether the last request that the store has is the one of the journal's line with its number."""
    lines = [it for it in steps if it.number == seat.last]
    lines = [it for it in lines if it.turn == lines[-1].turn]
    if lines and all(it.digest != seat.digest for it in lines):
        return f"the store's last request, number {seat.last}, isn't that of {lines[-1].place()}"
    done, kept = [it for it in lines if it.is_done()], _kept(seat)
    if not done:
        return None
    odd, told = odd_members(done[-1].path, kept or {}), f"the reply that the store keeps of number {seat.last} isn't"
    if kept and is_other_reply({name: kept.get(name) for name in done[-1].reply}, done[-1].reply):
        return f"{told} that of {done[-1].place()}"
    return f"{told} as a server writes it{f': {odd}' if kept else ''}" if odd or not kept else None
