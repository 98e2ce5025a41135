"""What the program makes of the stations' lines, held to what these and the store say.

The server has no clock, and is proved: the same requests in the same order give the same replies, and leave the same
books. So the lines of each customer whose journals are whole are answered once more, over an empty store. A customer
whose journals aren't leaves the audit unfinished.
"""

import hashlib
import json
import tempfile
from collections import Counter
from functools import partial
from itertools import chain
from pathlib import Path
from typing import Any, Iterable, Iterator, Mapping, Sequence
from urllib.parse import quote

from wanekupo.books.audit import Audit, Found
from wanekupo.books.bodies import Bodies, Keys
from wanekupo.books.clocks import begin_of, end_of
from wanekupo.books.imports import IMPORT, ORDER, imported_by
from wanekupo.books.matches import lines_by_seat, seated
from wanekupo.books.program import Program, Unanswered
from wanekupo.books.sequence import MAP, Done, Lines, NotLaid, NotWhole, Requests
from wanekupo.books.steps import PATHS, REPLIED, WORKS, Book, Step, loaded
from wanekupo.books.store_rows import Books
from wanekupo.common.store_user import LONGEST
from wanekupo.common.texts import brief, compact_json
from wanekupo.seat.forms import NO_END
from wanekupo.seat.import_rows import LONGEST_BODY

# How many faults of a seat are told, and how many names of what wasn't asked.
MOST_TOLD, MOST_NAMED = 5, 200

# How many seconds the program has for each line, beside an hour.
FOR_A_LINE = 0.1

# The refusal of a registration where each place of its order is taken.
QUANTITY_REACHED = 18

# A member that replies of earlier servers lack where it is null, and those that depend on imports.
LATER, COUNTED = "not_before", ("added", "present", "next")

# What the server answers to a path that it doesn't have, and to a body that it doesn't read. Behind the latter it ends
# the connection, and so its work for all customers.
UNKNOWN, TOO_LARGE = (404, '{"error":"unknown_path","no":7}'), (413, '{"error":"too_large","no":3}')


def ask_again(program: Path, books: Iterable[Book], store: Books, audit: Audit) -> None:
    """Has a program answer the lines of all journals, and holds it to the store. What was found stays where it ends."""
    journals = [seated(it, store) for it in books]
    lines, count = lines_by_seat(journals), sum(len(it.book.steps) for it in journals)
    with tempfile.TemporaryDirectory(prefix="wanekupo-replay.") as folder:
        try:
            with Program(program, _site(store), Path(folder), LONGEST + FOR_A_LINE * count) as running:
                for customer in sorted(store.customers()):
                    _ask_customer(customer, store, lines, running, audit)
        except Unanswered as error:
            audit.unfinished.append(str(error))


def _ask_customer(
    customer: str, store: Books, lines: Mapping[str, Lines], running: Program, audit: Audit
) -> None:
    bare = [(chip, seat) for whose, chip, seat in audit.bare_chips if whose == customer]
    try:
        answers = Answers(customer, store, Requests(customer, store, lines, bare), running)
    except NotWhole as error:
        audit.unfinished.append(f"{customer} isn't replayed, as {error}")
        return
    try:
        answers.hold()
    finally:
        audit.add(answers.told())
        audit.repeated += answers.repeated
        audit.unfinished += answers.unasked()
        audit.replayed |= {customer: answers.count} if answers.count else {}


def _token(seat: str) -> str:
    return f"replay-{seat}"


def _site(store: Books) -> str:
    """A site with the same customers, issuers, pools and seats, whose tokens are made up."""
    lines = list[str]()
    for customer in sorted({*store.owners.values(), *store.site_seats.values(), *store.pools}):
        issuers = [issuer for issuer, owner in store.owners.items() if owner == customer]
        lines += ["[[customer]]", f"name = {json.dumps(customer)}", f"issuer = {json.dumps(issuers)}"]
        for first, count in store.pools.get(customer, ()):
            lines += ["[[customer.pool]]", f'first = "{first:012x}"', f"count = {count}"]
        for seat in (seat for seat, owner in store.site_seats.items() if owner == customer):
            digest = hashlib.sha256(_token(seat).encode()).hexdigest()
            lines += ["[[customer.seat]]", f"name = {json.dumps(seat)}", f'token = "{digest}"']
    return "".join(f"{line}\n" for line in lines)


class Answers:
    """What the program answers a customer's lines, and shows of his books behind them."""

    def __init__(self, customer: str, store: Books, requests: Requests, program: Program):
        if any(whose == customer for whose, _ in store.unread_maps()):
            raise NotWhole("a map of its devices can't be read here")
        self._customer, self._store, self._requests, self._program = customer, store, requests, program
        self._keys, self._last, self.count = Keys(), dict[str, tuple[Done, str]](), 0
        self._numbers, self._counts = Counter[str](), Counter[str]()
        self._bodies, self._found, self.repeated = Bodies(customer, store, self._keys), list[Found](), requests.repeated

    def hold(self) -> None:
        """Has the lines answered, and holds replies and rows to what the program says."""
        self._take(self._reply_faults())
        self._take(self._kept_faults())
        self._take(self._paper_faults())
        self._take(self._row_faults())

    def _take(self, found: Iterable[Found]) -> None:
        """Keeps the first faults of each seat and of the store's rows. One seat's hide no other's."""
        for it in found:
            self._counts[it.seat] += 1
            self._found += [it] if self._counts[it.seat] <= MOST_TOLD else []

    def told(self) -> Iterator[Found]:
        """These, and how many more there are: they may follow from them."""
        yield from self._found
        for seat, count in self._counts.items():
            more = f"{count - MOST_TOLD} more replies and rows aren't what the program makes of these lines"
            yield from [self._fault(more, seat)] if count > MOST_TOLD else ()

    def unasked(self) -> Iterator[str]:
        """What wasn't asked, where journals lack numbers, and what was taken from the store."""
        lacking, chips = self._requests.lacking, list(self._requests.aside)
        if not lacking:
            return
        gaps = [f"{_numbers(*it)} of {seat}" for seat, its in lacking.items() for it in its]
        told = f"{self._customer} isn't replayed whole, as these journals lack {_some(gaps)}"
        papers = [_named(it) for it in self._requests.lent]
        told += f"; its chips {_some(chips)} weren't asked for" if chips else ""
        yield f"{told}; the store alone has {_some(papers)}" if papers else told

    def _fault(self, told: str, seat: str = "", chip: str = "", at: str = "") -> Found:
        return Found("replay", at, self._customer, seat, chip, told)

    def _ask(self, seat: str, method: str, target: str, body: bytes = b"") -> tuple[int, str]:
        status, text = self._program.ask(_token(seat), method, target, body)
        return status, self._keys.told(text)

    def _done(self, done: Done, body: bytes) -> tuple[int, str]:
        """The status and the body of the reply to a line."""
        if done.step.path not in PATHS:
            return UNKNOWN
        return TOO_LARGE if len(body) > LONGEST_BODY else self._ask(done.seat, "POST", done.step.path, body)

    def _reply_faults(self) -> Iterator[Found]:
        """In which lines a reply isn't the program's, and which it refuses. Of such a chip no more is asked."""
        for it in self._requests.in_order(partial(self._store.entries_of, self._customer)):
            if isinstance(it, NotLaid):
                yield self._fault(f"{it}; what came of the chip behind it wasn't asked", it.seat, it.chip, it.at)
                continue
            step, (body, unknown) = it.step, self._bodies.body(it, self._numbers[it.seat] + 1)
            status, text = self._done(it, body)
            for told in chain(self._differences(it, text) if status == 200 else (), map(_shown, unknown)):
                yield self._fault(f"{told} ({step.place()})", it.seat, step.chip, step.at)
            if it.later:
                yield self._clock_fault(it, it.later)
            if status != 200:
                yield from self._refused(it, json.loads(text))
                continue
            self._numbers[it.seat] += 1
            if not it.is_of_store():
                self._last[it.seat], self.count = (it, text), self.count + 1

    def _refused(self, done: Done, reply: Mapping[str, Any]) -> Iterator[Found]:
        """A line that the program refuses. What of its chip came behind it would be refused too. Where journals lack
        numbers a full order is none: the scrapping of a chip that isn't asked for may have freed a place."""
        step, is_full = done.step, reply.get("no") == QUANTITY_REACHED and bool(self._requests.aside)
        told = f"the program refuses it as {reply.get('no')} {reply.get('error')} ({step.place()})"
        if step.event:
            self._requests.leave([step.chip])
            told = f"{told}; what came of the chip behind it wasn't asked"
        if not (is_full and self._requests.lacking):
            yield self._fault(told, done.seat, step.chip, step.at)

    def _differences(self, done: Done, text: str) -> list[str]:
        """In what a line's reply isn't the program's. What of a step of a device nobody looks at isn't in memory."""
        step, reply = done.step, json.loads(text)
        but = reply.keys() - REPLIED - WORKS if step.event not in ("", "identified") else set[str]()
        where = "journal" if step.answered else "store"  # the store's own, where the line has none
        told = list(_differences(reply, step.reply, where, but)) if step.is_done() else []
        if told and _is_near(reply, step.reply, self._requests.unsure(done)):
            told = list(_differences(reply, step.reply, where, {*but, *COUNTED}))
        return told

    def _clock_fault(self, done: Done, later: Step) -> Found:
        """A line that was done behind one that was asked when this one was answered."""
        step = done.step
        told = f"{step.place()} was answered at {end_of(step)}, and rests on {later.place()}, which was asked at"
        return Found("clock", step.at, self._customer, done.seat, step.chip, f"{told} {begin_of(later)}")

    def _kept_faults(self) -> Iterator[Found]:
        """Seats whose last number or kept reply isn't the program's."""
        for it in (it for it in self._store.seats.values() if it.customer == self._customer):
            done, text = self._last.get(it.name, (None, ""))
            if done is None or done.step.number != it.last:
                if self._requests.aside or self._requests.lacking:
                    continue
                last = done.step.number if done else "none"
                yield self._fault(f"its last number is {it.last} in the store, and {last} by the program", it.name)
            elif _without_later(text) != _without_later(it.reply) and not self._requests.unsure(done):
                told = f"the reply to its last request is {brief(it.reply)} in the store"
                yield self._fault(f"{told}, and {brief(text)} by the program ({done.step.place()})", it.name)

    def _paper_faults(self) -> Iterator[Found]:
        """Orders, maps and imported numbers that the store lacks, and maps and numbers that no line asked for."""
        own = {"the order": set[str](), "the map": set[str](), "the imported serial number": set[str]()}
        for step in self._requests.papers:
            if step.path == ORDER:
                own["the order"].add(str(step.asked.get("name")))
            elif step.path == MAP:
                own["the map"].add(step.digest_of_text())
            else:
                own["the imported serial number"] |= {" ".join((*it, key)) for it, key in imported_by(step).items()}
        plain = f"WHERE g.chip IS NULL AND g.mac IS NULL AND s.not_before IS NULL AND g.not_after = '{NO_END}'"
        stored = {
            "the order": {name for customer, name in self._store.orders if customer == self._customer},
            "the map": {it for customer, it, text in self._store.maps if customer == self._customer and it == text},
            "the imported serial number": self._given(plain),
        }
        for what, names in own.items():
            missing = names - stored[what]
            for name in sorted(missing - self._given("WHERE g.chip IS NOT NULL") if missing else ()):
                yield self._fault(f"{what} {name} isn't in the store as it was asked for")
            for name in sorted(stored[what] - names) if what != "the order" or self._requests.lent else ():
                yield self._fault(f"no line asked for {what} {name}, which the store has")

    def _given(self, where: str) -> set[str]:
        """The numbers of some records of the store, each with its issuer and its key."""
        rows = (row for customer, row in self._store.records(where) if customer == self._customer)
        return {f"{row['issuer']} {row['serial']} {row['key_sha256']}" for row in rows}

    def _row_faults(self) -> Iterator[Found]:
        """In what orders, devices, their ledgers and their records aren't what the program shows."""
        seat = next((name for name, owner in self._store.site_seats.items() if owner == self._customer), "")
        for (customer, name), row in self._store.orders.items():
            if customer == self._customer:
                yield from self._held(seat, f"order?name={name}", {**row, "next": self._store.next_of(row)})
        ledgers, aside = self._store.ledgers(self._customer), self._requests.aside
        for chip, device, own in ((it["chip"], it, own) for it, own in ledgers if it["chip"] not in aside):
            yield from self._held(seat, f"device?chip={chip}", device, chip)
            ledger = {"chip": chip, "entries": [entry.row for entry in own]}
            yield from self._held(seat, f"ledger?chip={chip}", ledger, chip)
        for customer, record in self._store.records("WHERE g.chip IS NOT NULL"):
            if customer == self._customer and record["chip"] not in aside:
                yield from self._held(seat, f"identity?chip={record['chip']}", record, record["chip"])

    def _held(self, seat: str, target: str, row: Mapping[str, Any], chip: str = "") -> Iterator[Found]:
        status, text = self._ask(seat, "GET", f"/v1/{quote(target, safe='?=')}")
        what = target.replace("?", " of the ").replace("=", " ")
        if status != 200:
            yield self._fault(f"the store has the {what}, and the program has none", chip=chip)
            return
        reply = json.loads(text)
        for it, own in zip(reply.pop("entries", ()), row.get("entries", ())):
            for told in _differences(it, own, "store", ()):
                yield self._fault(f"the entry {own['n']} of the chip {chip}: {told}", chip=chip)
        for told in _differences(reply, row, "store", ()):
            yield self._fault(f"the {what}: {told}", chip=chip)


def _shown(block: int) -> str:
    return f"its block {block} shows something else than its ledger comes to"


def _numbers(first: int, last: int) -> str:
    return f"the number {first}" if first == last else f"the numbers {first} to {last}"


def _named(step: Step) -> str:
    """An order, a map or an import by its name."""
    if step.path == IMPORT:
        return f"{len(imported_by(step))} imported numbers of {step.asked['issuer']}"
    return f"the order {step.asked['name']}" if step.path == ORDER else f"the map {step.digest_of_text()}"


def _some(names: Sequence[str]) -> str:
    """So many names as a page has, and how many more."""
    more = [f"{len(names) - MOST_NAMED} more"] if len(names) > MOST_NAMED else []
    *some, last = [*names[:MOST_NAMED], *more]
    return f"{', '.join(some)} and {last}" if some else last


def _without_later(text: str) -> str:
    return text.replace(f'"{LATER}":null,', "")


def _is_near(reply: Mapping[str, Any], said: Mapping[str, Any], unsure: int) -> bool:
    """Whether a reply may count so, where some of its rows may have been there, or a number free."""
    if "present" not in reply:
        return unsure > 0
    added, present = said.get("added"), said.get("present")
    if type(added) is not int or type(present) is not int:
        return False
    return bool(added + present == reply["added"] + reply["present"] and abs(present - reply["present"]) <= unsure)


def _differences(reply: Mapping[str, Any], own: Mapping[str, Any], where: str, but: Iterable[str]) -> Iterator[str]:
    """In which members of the program's something else stands; all but some have to be there."""
    for name, it in reply.items():
        said = loaded(own.get(name)) if name in WORKS else own.get(name)
        is_later = name == LATER and it is None
        if (name in own or not is_later) and name not in but and said != it:
            stands = _brief(said) if name in own else "missing"
            yield f"{name} is {stands} in the {where}, and {_brief(it)} by the program"


def _brief(it: Any) -> str:
    return brief(it if isinstance(it, str) else compact_json(it))
