"""Stores and journals that somebody changed by hand, each with who has to find it and by which words.

A forger of a store is a careful one: where a step is changed, the device and its record are changed with it, so that
the server opens the store and serves it. A forger of a journal makes its digests anew, and a line's time is his. There
are more of them in seal_clocks.py.
"""

import contextlib
import functools
import hashlib
import json
import shutil
import sqlite3
from dataclasses import dataclass
from pathlib import Path
from typing import Callable

from books.seal_plant import END, MAP, START, chip_of
from wanekupo.seat.journal import request_digest

ONE, TWO, WAITING = chip_of(1), chip_of(2), chip_of(8)
OF_ONE = f"customer = 'acme' AND chip = '{ONE}'"
OF_TWO = f"customer = 'acme' AND chip = '{TWO}'"
OF_WAITING = f"customer = 'acme' AND chip = '{WAITING}'"
OTHER_KEY = "X'01" + 64 * "0" + "'"
OLD_MAP = hashlib.sha256(MAP.encode()).hexdigest()[:8]


@dataclass(frozen=True)
class Forged:
    """What is changed: statements over a copy of the store, or a change of a journal. `seal` and `audit` are words
    that each has to say; without words it isn't to find it, as it can't. The program opens all but what isn't to be
    opened. The audit is of the morning, or of a part of it."""

    name: str
    sql: tuple[str, ...] = ()
    journal: Callable[[Path], None] | None = None
    seal: tuple[str, ...] = ()
    audit: tuple[str, ...] = ()
    older: bool = False
    opens: bool = True
    period: tuple[str, str] = (START, END)


def change_lines(name: str, change: Callable[[list[dict]], list[dict] | None], folder: Path) -> None:
    """Changes the lines of a journal, each of which is a request or a reply, and writes them as a station does."""
    file = folder / name
    lines = [json.loads(it) for it in file.read_text(encoding="ascii").splitlines()]
    lines = change(lines) or lines
    for line in lines:
        if "asked" in line:
            line["digest"] = request_digest(line["path"], line["asked"])
    text = "".join(json.dumps(it, sort_keys=True, separators=(",", ":")) + "\n" for it in lines)
    file.write_text(text, encoding="ascii")


def retimed(name: str, at: str, first: int = -2, last: int | None = None) -> Callable[[Path], None]:
    """Gives lines of a journal, else its last request and the reply, the beginning of another time."""

    def change(lines: list[dict]) -> None:
        for line in lines[first:last]:
            line["at"] = at + line["at"][len(at) :]

    return functools.partial(change_lines, name, change)


def _cut(folder: Path) -> None:
    """Takes the last 10 lines of a journal away."""
    file = folder / "acme/a1.journal"
    file.write_bytes(b"".join(file.read_bytes().splitlines(True)[:-10]))


def _replaced(name: str, mark: str, old: str, new: str, most: int | None = 1) -> Callable[[Path], None]:
    """Changes the first line of a journal that has a mark, or so many, and no digest."""

    def change(folder: Path) -> None:
        lines = (folder / name).read_text(encoding="ascii").splitlines(True)
        for place in [place for place, line in enumerate(lines) if mark in line][:most]:
            lines[place] = lines[place].replace(old, new)
        (folder / name).write_text("".join(lines), encoding="ascii")

    return change


def _take_away(folder: Path) -> None:
    """Takes a request with its reply out of the middle of a journal."""
    file = folder / "acme/a1.journal"
    lines = file.read_bytes().splitlines(True)
    place = next(place for place, line in enumerate(lines) if b'"path":"/v1/ship"' in line)
    file.write_bytes(b"".join(lines[:place] + lines[place + 2 :]))


def _nameless(folder: Path) -> None:
    """Takes the names out of a journal, as an older station wrote it. Nothing is to be found then."""
    file = folder / "acme/a1.journal"
    lines = []
    for line in map(json.loads, file.read_text(encoding="ascii").splitlines()):
        lines.append(json.dumps({name: it for name, it in line.items() if name not in ("seat", "operator")}) + "\n")
    file.write_text("".join(lines), encoding="ascii")


RENAMED = "REPLACE(note, 'G00001', 'G00007')"
FORGED = [
    Forged("nothing"),
    Forged("a journal without names", journal=_nameless),
    Forged(
        "a note",
        (f"UPDATE ledger SET note = 'match' WHERE {OF_TWO} AND n = 3",),
        seal=(f"The entry 3 of {TWO} of acme: note was short, and is match",),
        audit=("other_note", TWO, "the note is match in the store, and short in the journal"),
    ),
    Forged(
        "a seat",
        (f"UPDATE ledger SET seat = 'a2' WHERE {OF_ONE} AND n = 2",),
        seal=(f"The entry 2 of {ONE} of acme: seat was a1, and is a2",),
        audit=("other_seat", ONE, "the seat is a2 in the store, and the line is of a1"),
    ),
    Forged(
        "a serial number",
        (
            f"UPDATE ledger SET note = {RENAMED} WHERE {OF_ONE}",
            f"UPDATE device SET serial = 'G00007' WHERE {OF_ONE}",
            "UPDATE given_start SET serial = 'G00007' WHERE serial = 'G00001'",
            "UPDATE given SET serial = 'G00007' WHERE serial = 'G00001'",
        ),
        seal=("The record of G00001 of acme-ca of acme: is gone", "next was G00005, and is G00001"),
        audit=("serial is G00007 in the store, and G00001 by", "the note is G00007 in the store, and G00001 in"),
    ),
    Forged(
        "a byte of keys",
        (f"UPDATE device SET keys = {OTHER_KEY} WHERE {OF_ONE}",),
        seal=(f"The device {ONE} of acme: the key of BLOCK1 was 630dcd29",),
        audit=("device", ONE, "the key of BLOCK1 is 0000", "by its ledger 630dcd29"),
    ),
    Forged(
        "a byte of keys, in the ledger too",
        (
            f"UPDATE device SET keys = {OTHER_KEY} WHERE {OF_ONE}",
            f"UPDATE ledger SET keys = {OTHER_KEY} WHERE {OF_ONE} AND n = 3",
        ),
        seal=(f"The entry 3 of {ONE} of acme: keys was BLOCK1:630dcd29",),
        audit=("replay", ONE, f"the entry 3 of the chip {ONE}: keys is {{", "in the store, and {"),
    ),
    Forged(
        "an entry gone",
        (
            f"DELETE FROM ledger WHERE {OF_ONE} AND event = 'shipped'",
            f"UPDATE device SET state = 'identified' WHERE {OF_ONE}",
        ),
        seal=(f"The entry 6 of {ONE} of acme: is gone", "state was shipped, and is identified, which no step leads to"),
        audit=("no_entry", ONE, "shipped, was accepted, and no ledger has it"),
    ),
    Forged(
        "an entry added",
        (
            "INSERT INTO ledger SELECT (SELECT max(id) + 1 FROM ledger), customer, chip, 4, 'scrapped', '', seat, "
            f"zeroblob(0), zeroblob(0) FROM ledger WHERE {OF_WAITING} AND n = 3",
            f"UPDATE device SET state = 'scrapped', todo = zeroblob(0) WHERE {OF_WAITING}",
        ),
        audit=("no_line", WAITING, "the entry 4, scrapped: no journal of its seat has a line of it"),
    ),
    Forged(
        "two entries exchanged",
        (
            f"UPDATE ledger SET n = 99 WHERE {OF_TWO} AND n = 3",
            f"UPDATE ledger SET n = 3 WHERE {OF_TWO} AND n = 4",
            f"UPDATE ledger SET n = 4 WHERE {OF_TWO} AND n = 99",
        ),
        seal=(f"The entry 3 of {TWO} of acme: ", f"The entry 4 of {TWO} of acme: ", "note was short, and is match"),
        audit=("exchanged", TWO, "it is at another place in its ledger than its line"),
    ),
    Forged(
        "two records exchanged",
        (
            f"UPDATE given SET chip = CASE chip WHEN '{ONE}' THEN '{TWO}' ELSE '{ONE}' END "
            f"WHERE customer = 'acme' AND chip IN ('{ONE}', '{TWO}')",
            f"UPDATE device SET serial = CASE serial WHEN 'G00001' THEN 'G00002' ELSE 'G00001' END "
            f"WHERE customer = 'acme' AND chip IN ('{ONE}', '{TWO}')",
            f"UPDATE ledger SET note = CASE note WHEN 'G00001' THEN 'G00002' ELSE 'G00001' END "
            f"WHERE customer = 'acme' AND chip IN ('{ONE}', '{TWO}') AND event = 'identified'",
        ),
        seal=("The record of G00001 of acme-ca of acme: chip was 240ac4000001, and is 240ac4000002",),
        audit=("other_note", f"device of the chip {ONE}: serial is G00002 in the store, and G00001 by the program"),
    ),
    Forged(
        "a record's key",
        ("UPDATE given SET key = zeroblob(32) WHERE serial = 'G00002'",),
        seal=("The record of G00002 of acme-ca of acme: key_sha256 was ",),
        audit=("replay", f"the identity of the chip {TWO}: key_sha256 is 0000"),
    ),
    Forged(
        "an address twice",
        ("UPDATE given SET mac = (SELECT mac FROM given WHERE serial = 'G00001') WHERE serial = 'G00002'",),
        opens=False,
        seal=("The record of G00002 of acme-ca of acme: mac was ",),
        audit=("replay", f"the identity of the chip {TWO}: mac is 02000"),
    ),
    Forged(
        "an order's quantity",
        ("UPDATE orders SET quantity = 9 WHERE customer = 'acme' AND name = 'gate-40'",),
        seal=("The order gate-40 of acme: quantity was 8, and is 9",),
        audit=("the order of the name gate-40: quantity is 9 in the store, and 8 by the program",),
    ),
    Forged(
        "burnt bits",
        (f"UPDATE device SET bits = zeroblob(31) WHERE {OF_ONE}",),
        seal=(f"The device {ONE} of acme: burnt bits are gone: 0.0:00010080",),
        audit=("device", ONE, "word 6 of block 0 is 00000000, and by its ledger 00000040"),
    ),
    Forged(
        "an imported key",
        ("UPDATE given SET key = zeroblob(32) WHERE serial = 'OLD-1'",),
        seal=("The imported serial number OLD-1 of acme-ca of acme: key_sha256 was ",),
        audit=("the imported serial number acme-ca OLD-1 6b86b273", "isn't in the store as it was asked for"),
    ),
    Forged(
        "a map's text",
        ("UPDATE map SET body = replace(body, 'name = \"esp32\"', 'name = \"esp33\"')",),
        seal=(f"The map {OLD_MAP}", f"text_sha256 was {OLD_MAP}"),
        audit=("map", f"the map {OLD_MAP}", "isn't in the store as it was asked for"),
    ),
    Forged(
        "a seat's number",
        ("UPDATE seat SET last = last - 1 WHERE name = 'a1'",),
        seal=("The seat a1 of acme: its number was 36, and is 35: this is an older store",),
        audit=("numbers", "the store's number is 35, and line "),
    ),
    Forged(
        "an older store",
        older=True,
        seal=("is gone", "The seat b1 of bolt: its number was 17, and is 14: this is an older store"),
        audit=("no_entry", "numbers", "this is an older store"),
    ),
    Forged("a cut journal", journal=_cut, audit=("numbers", "the numbers 32 to 36 have no line", "no_line")),
    Forged(
        "a journal without a line", journal=_take_away, audit=("numbers", "the number 9 has no line", "no_line", ONE)
    ),
    Forged(
        "a changed line",
        journal=_replaced("acme/a2.journal", '"path":"/v1/device"', '"gate-41"', '"gate-40"'),
        audit=("journal", "was changed: its digest isn't that of what it asks"),
    ),
    Forged(  # to the day before: no digest is over the times
        "a changed time",
        journal=_replaced("bolt/b1.journal", '"outcome":"key"', '"at":"2026-11-27', '"at":"2026-11-26'),
        audit=("journal", "seconds before the line in front of it"),
    ),
    Forged(
        "a changed reply",
        journal=_replaced("acme/a1.journal", '"serial":"G00002"', '"serial":"G00002"', '"serial":"G00008"', None),
        audit=("other_note", "G00002", "G00008"),
    ),
]


def forge(it: Forged, made: Path, to: Path) -> Path:
    """A copy of what is known, changed: the store and the journals."""
    for name in ("acme", "bolt"):
        shutil.copytree(made / name, to / name)
    (to / "store").mkdir()
    for file in (made / ("early" if it.older else "copy")).glob("books.db*"):
        shutil.copy(file, to / "store")
    if it.journal:
        it.journal(to)
    if it.sql:
        with contextlib.closing(sqlite3.connect(to / "store/books.db")) as base:
            for statement in it.sql:
                if base.execute(statement).rowcount < 1:
                    raise SystemExit(f"FAILED: {it.name}: nothing was changed by {statement}")
            base.commit()
    return to / "store/books.db"
