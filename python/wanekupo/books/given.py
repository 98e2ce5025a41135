"""What lines say was given: serial numbers, keys and addresses, each of them once, whatever the store has of these."""

import contextlib
from itertools import groupby, islice
from operator import itemgetter
from typing import Iterator, NamedTuple, Optional, Self, Sequence

from wanekupo.books.matches import Seated
from wanekupo.books.scratch import Known, Sorted
from wanekupo.books.steps import Step
from wanekupo.seat.import_rows import rows_of

# The kind, the time, the customer, the seat, the chip, and what it is in words.
Row = tuple[str, str, str, str, str, str]


class GivenNumbers(NamedTuple):
    """A serial number with its key, of a chip or of an import, by its line."""

    serial: str
    key: str
    chip: Optional[str]
    step: Step

    def differs_from(self, other: Self) -> bool:
        """Whether both can't be true: another chip; or, where one is of an import, another key or serial number."""
        if self.chip is not None and other.chip is not None:
            return self.chip != other.chip
        return (self.serial, self.key) != (other.serial, other.key)

    def told(self) -> str:
        return f"{f'to the chip {self.chip}' if self.chip else 'by an import'} ({self.step.place()})"


NAMES = ("serial", "key_sha256", "mac")

# The addresses that there are.
ADDRESSES = 1 << 48


def given_twice(journals: list[Seated]) -> Iterator[Row]:
    """What lines of two chips have, or of a chip and an import. Not what was given since a copy that a later restore
    made an older one; and of an import not what a restore took away. The first line of each value is the one that the
    others are held to."""
    given = Sorted(6, 3)
    for number, it in enumerate(journals):
        for step in (step for step in it.book.steps if step.turn <= 0):
            for part, (issuer, own, mac) in enumerate(_given_by(step)):
                named = enumerate(((issuer, own.serial), (issuer, own.key), ("", mac)))
                given.put((name, *its, number, step.place_of, part) for name, its in named if its[1] != "None")
    for (name, _, value), rows in groupby(given, itemgetter(0, 1, 2)):
        (*_, number, place, part), *others = rows
        first = _part_of(journals[number].book.steps.at(place), part) if others else None
        for *_, number, place, part in others:
            it, step = journals[number], journals[number].book.steps.at(place)
            if first and _part_of(step, part).differs_from(first):
                told = f"the {NAMES[name]} {value} was given twice: also {first.told()}"
                yield "twice", step.at, it.customer, it.seat, step.chip, f"{told} ({step.place()})"
    yield from _addresses_twice(journals)


def _part_of(step: Step, part: int) -> GivenNumbers:
    return next(islice(_given_by(step), part, None))[1]


def _given_by(step: Step) -> Iterator[tuple[str, GivenNumbers, str]]:
    """What a line gave: the issuer, and the record with its first address."""
    if step.path == "/v1/identity" and step.is_done():
        serial, key, mac = (str(step.reply.get(name)) for name in ("serial", "key_sha256", "mac"))
        yield str(step.reply.get("issuer")), GivenNumbers(serial, key, step.chip, step), mac
    elif step.path == "/v1/import" and step.is_stored and step.status in (None, 200):
        with contextlib.suppress(ValueError):
            for serial, key in rows_of(str(step.asked.get("csv", ""))):
                yield str(step.asked.get("issuer")), GivenNumbers(serial, key.lower(), None, step), "None"


def _addresses_twice(journals: Sequence[Seated]) -> Iterator[Row]:
    """Addresses behind the first one of a record, of which another chip's record has one: an order says how many each
    has."""
    macs, orders, spans = dict[tuple[str, str], int](), Known(), Sorted(4, 2)
    for number, it in enumerate(journals):
        for step in (step for step in it.book.steps if step.turn <= 0):
            if step.path == "/v1/order" and step.status in (None, 200):
                macs[it.customer, str(step.asked.get("name"))] = int(step.asked.get("macs") or 0)
            elif step.event == "registered" and step.status in (None, 200):
                orders[it.customer, step.chip] = str(step.asked.get("order"))
            elif step.event == "identified" and step.is_done() and step.reply.get("mac"):
                with contextlib.suppress(ValueError):
                    start = int(step.reply["mac"], 16)
                    count = macs.get((it.customer, orders.get((it.customer, step.chip), "")), 1)
                    if start < ADDRESSES:
                        spans.put([(start, start + max(1, count), number, step.place_of)])
    end, before = 0, ""
    for start, behind, number, place in spans:
        it, step = journals[number], journals[number].book.steps.at(place)
        if start < end and step.chip != before:
            told = f"the address {start:012x} was given twice: it is also one of the chip {before} ({step.place()})"
            yield "twice", step.at, it.customer, it.seat, step.chip, told
        end, before = (behind, step.chip) if behind > end else (end, before)
