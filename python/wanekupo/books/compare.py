"""What differs between two texts of books where the second is the later one: nothing but what a server does.

A record, an entry of a ledger and an import stay as they are, byte for byte. A device's burnt bits, its known keys and
its state only go on, an order changes its next serial number alone, and a seat's number never falls.
"""

import json
import re
from dataclasses import dataclass
from itertools import chain, groupby
from operator import itemgetter
from typing import Any, Iterable, Iterator, Mapping, Optional, Self

from wanekupo.books.coherence import Chip, by_chip, faults_of
from wanekupo.books.lines import NUMBERED, BadRow, line_parts
from wanekupo.books.scratch import base_of
from wanekupo.seat.states import LATER

Members = dict[str, Any]

# The digits of a serial number behind its prefix.
NUMBER = re.compile("[0-9]{1,64}")

# How a row is named in a sentence, by its kind and the parts of its key.
NAMES = {
    "act": "the line {0} of what root had done",
    "device": "the device {1} of {0}",
    "entry": "the entry {2} of {1} of {0}",
    "import": "the imported serial number {2} of {1} of {0}",
    "map": "the map {1} of {0}",
    "order": "the order {1} of {0}",
    "record": "the record of {2} of {1} of {0}",
    "seat": "the seat {1} of {0}",
    "site": "the site",
}


@dataclass(frozen=True)
class RowDifference:
    """What a row isn't, in words: its kind, its key, and what differs."""

    kind: str
    key: tuple[str, ...]
    told: str

    def sentence(self) -> str:
        named = named_row(self.kind, " ".join(self.key))
        return f"{named[:1].upper()}{named[1:]}: {self.told}."


def named_row(kind: str, key: str) -> str:
    """A row in a sentence."""
    *parts, last = key.split(" ")
    return NAMES[kind].format(*parts, last.lstrip("0") if kind in NUMBERED else last)


CREATED = """
CREATE TABLE row (kind TEXT, key TEXT, members TEXT, place INTEGER, PRIMARY KEY (kind, key)) WITHOUT ROWID
"""

# The records in the order of their chips, and what is given but once, the first row of each in front.
BY_CHIP = """
SELECT substr(key, 1, instr(key, ' ') - 1), json_extract(members, '$.chip'), members FROM row
WHERE kind = 'record' AND json_extract(members, '$.chip') IS NOT NULL ORDER BY 1, 2, key
"""
GIVEN = "SELECT '{0}', {1}, json_extract(members, '$.{0}') AS value, place, kind, key FROM row WHERE {2}"
ISSUER, OF_ISSUER = "json_extract(members, '$.issuer')", "kind IN ('import', 'record')"
GIVEN_ROWS = " UNION ALL ".join((
    GIVEN.format("serial", ISSUER, OF_ISSUER), GIVEN.format("key_sha256", ISSUER, OF_ISSUER),
    GIVEN.format("mac", "''", "kind = 'record' AND value IS NOT NULL"),
)) + " ORDER BY 1, 2, 3, 4"  # fmt: skip


class Text:
    """The rows of a text by their kinds and keys, on the disk, and which lines are no rows."""

    def __init__(self) -> None:
        self._base = base_of(CREATED)
        self.bad: list[str] = []

    @classmethod
    def of(cls, lines: Iterable[str], known: Optional[Self] = None) -> Self:
        """The text of these lines. One that another text has is a row, and isn't read again."""
        made = cls()
        for number, text in enumerate(lines, 1):
            head, _, members = text.partition(" {")
            kind, _, key = head.partition(" ")
            try:
                if known is None or known.row(kind, key) != f"{{{members}":
                    line_parts(text)
            except BadRow as error:
                made.bad.append(f"line {number} {error}")
                continue
            row = kind, key, f"{{{members}", number
            if not made._base.execute("INSERT OR IGNORE INTO row VALUES (?, ?, ?, ?)", row).rowcount:
                made.bad.append(f"line {number} is a second row of {head}")
                made._base.execute("REPLACE INTO row VALUES (?, ?, ?, ?)", row)
        return made

    def asked(self, sql: str, *words: str) -> Iterator[tuple[Any, ...]]:
        """The rows of a statement."""
        return self._base.execute(sql, words)

    def row(self, kind: str, key: str) -> Optional[str]:
        """The members of a row, as its text."""
        return next((it for (it,) in self.asked("SELECT members FROM row WHERE kind = ? AND key = ?", kind, key)), None)

    def kind(self, kind: str) -> Iterator[tuple[str, str]]:
        """The rows of a kind, each with its key, in the order of these."""
        rows = self.asked("SELECT key, members FROM row WHERE kind = ? ORDER BY key", kind)
        return ((key, members) for key, members in rows)

    def entries(self, chip: str) -> int:
        """How many entries a chip has, which is named behind its customer."""
        sql = "SELECT count(*) FROM row WHERE kind = 'entry' AND key > ? AND key < ?"
        return next(int(it) for (it,) in self.asked(sql, f"{chip} ", f"{chip}!"))

    def is_empty(self) -> bool:
        return not any(self.asked("SELECT 1 FROM row LIMIT 1"))

    def owners(self) -> set[str]:
        """The first word of each key: the customers."""
        return {it for (it,) in self.asked("SELECT DISTINCT substr(key, 1, instr(key || ' ', ' ') - 1) FROM row")}


def _difference(kind: str, key: str, told: str) -> RowDifference:
    return RowDifference(kind, tuple(key.split(" ")), told)


def differences(before: Text, after: Text) -> Iterator[RowDifference]:
    """What the later text can't be, row by row in the order of their keys, and what of it contradicts itself."""
    for kind, key, old in before.asked("SELECT kind, key, members FROM row"):
        new = after.row(kind, key)
        if new is None:
            yield _difference(kind, key, "is gone")
        elif new != old:
            told = "; ".join(_changes(kind, key, before, after))
            if told:
                yield _difference(kind, key, told)
    yield from contradictions(after)


def _changes(kind: str, key: str, before: Text, after: Text) -> Iterator[str]:
    """What of a changed row isn't what a server does."""
    old, new = (json.loads(it.row(kind, key) or "") for it in (before, after))
    if kind == "device":
        yield from _device_changes(old, new)
        if after.entries(key) <= before.entries(key):
            yield f"changed without a new entry in its ledger ({', '.join(_changed(old, new))})"
    elif kind == "order":
        yield from _order_changes(old, new)
    elif kind == "seat":
        yield from _seat_changes(old, new)
    elif kind == "site":
        if new["schema"] < old["schema"]:
            yield f"schema was {old['schema']}, and is {new['schema']}"
    else:
        yield from _told(old, new, _changed(old, new))


def _changed(old: Members, new: Members) -> list[str]:
    return [name for name in old if old[name] != new[name]]


def _told(old: Members, new: Members, names: Iterable[str]) -> Iterator[str]:
    for name in names:
        yield f"{name} was {_shown(old[name])}, and is {_shown(new[name])}"


def _shown(it: Any) -> str:
    """A member in a sentence."""
    if it is None:
        return "none"
    if isinstance(it, list):
        return " ".join(f"{word['block']}.{word['word']}:{word['mask']}" for word in it) or "no bits"
    if isinstance(it, dict):
        return " ".join(f"{name}:{value}" for name, value in it.items()) or "nothing"
    return str(it)


def _device_changes(old: Members, new: Members) -> Iterator[str]:
    yield from _told(old, new, [name for name in ("chip", "map", "order") if old[name] != new[name]])
    if new["state"] not in LATER.get(old["state"], ()):
        yield f"state was {old['state']}, and is {new['state']}, which no step leads to"
    if old["serial"] is not None and new["serial"] != old["serial"]:
        yield from _told(old, new, ["serial"])
    missing = missing_bits(old["bits"], new["bits"])
    if missing:
        yield f"burnt bits are gone: {_shown(missing)}"
    for name, digest in old["keys"].items():
        if new["keys"].get(name) != digest:
            yield f"the key of {name} was {digest}, and is {new['keys'].get(name, 'none')}"


def missing_bits(old: list[Members], new: list[Members]) -> list[Members]:
    """The bits of words that aren't in others."""
    known = {(it["block"], it["word"]): int(it["mask"], 16) for it in new}
    found = []
    for it in old:
        mask = int(it["mask"], 16) & ~known.get((it["block"], it["word"]), 0)
        if mask:
            found.append({"block": it["block"], "word": it["word"], "mask": f"{mask:08x}"})
    return found


def _order_changes(old: Members, new: Members) -> Iterator[str]:
    """An order changes its next serial number alone, which has the same prefix and width, so that texts compare."""
    yield from _told(old, new, [name for name in _changed(old, new) if name != "next"])
    if old["next"] is None and new["next"] is not None or (new["next"] or "~") < (old["next"] or "~"):
        yield f"next was {_shown(old['next'])}, and is {_shown(new['next'])}: numbers that were given are free again"


def _seat_changes(old: Members, new: Members) -> Iterator[str]:
    if new["last"] < old["last"]:
        yield f"its number was {old['last']}, and is {new['last']}: this is an older store"
    elif new["last"] == old["last"]:
        yield from _told(old, new, _changed(old, new))


def contradictions(text: Text) -> Iterator[RowDifference]:
    """What of a text contradicts itself: a device whose ledger or record says something else."""
    orders = {tuple(key.split(" ")): json.loads(members) for key, members in text.kind("order")}
    chips = (((customer, chip), json.loads(members)) for customer, chip, members in text.asked(BY_CHIP))
    for whose, (devices, entries, records) in by_chip(_by_chip(text, "device"), _by_chip(text, "entry"), chips):
        for device in devices:
            found = chain(faults_of(device, entries, records), _order_faults(orders, whose[0], device, records))
            yield from (RowDifference("device", whose, told) for told in found)
        if not devices:
            its = "its ledger is" if entries else "a record is of it"
            yield RowDifference("device", whose, f"isn't there, though {its}")
    for key, members in text.kind("record"):
        it = json.loads(members)
        if it["chip"] is None:
            yield _difference("record", key, f"has the address {it['mac']}, and is of no chip")
    yield from _twice(text, orders)


def _by_chip(text: Text, kind: str) -> Iterator[tuple[Chip, Members]]:
    """The rows of a kind whose keys begin with a customer and a chip."""
    for key, members in text.kind(kind):
        customer, chip, *_ = key.split(" ")
        yield (customer, chip), json.loads(members)


def _order_faults(
    orders: Mapping[tuple[str, ...], Members], customer: str, device: Members, records: Iterable[Members]
) -> Iterator[str]:
    """What of a device's records isn't of its order: a number of the order's issuer, and the address of that number."""
    if (order := orders.get((customer, device["order"]))) is None:
        yield f"its order {device['order']} isn't there"
        return
    for it in records:
        digits = it["serial"].removeprefix(order["prefix"])
        number = int(digits) - order["first"] if NUMBER.fullmatch(digits) else -1
        own = f"{order['prefix']}{order['first'] + number:0{order['width']}}"
        if (it["issuer"], it["serial"]) != (order["issuer"], own) or not 0 <= number < order["quantity"]:
            yield f"its serial number {it['serial']} of {it['issuer']} is none of its order {order['name']}"
        elif it["mac"] != (order["mac"] and f"{int(order['mac'], 16) + number * order['macs']:012x}"):
            yield f"its address {_shown(it['mac'])} isn't that of its serial number {it['serial']}"


def _twice(text: Text, orders: Mapping[tuple[str, ...], Members]) -> Iterator[RowDifference]:
    """Serial numbers and keys that an issuer gave twice, and addresses of two records or orders."""
    for (name, _, value), rows in groupby(text.asked(GIVEN_ROWS), itemgetter(0, 1, 2)):
        (*_, kind, key), *others = rows
        for *_, its, other in others:
            yield _difference(its, other, f"{name} {value} is also that of {named_row(kind, key)}")
    blocks = sorted((int(it["mac"], 16), it["quantity"] * it["macs"], key) for key, it in orders.items() if it["mac"])
    for (mac, count, other), (behind, _, key) in zip(blocks, blocks[1:]):
        if behind < mac + count:
            told = f"mac {behind:012x} is also an address of {named_row('order', ' '.join(other))}"
            yield RowDifference("order", key, told)
