"""The API's own documents out of a copy of a store or a seal's rows, as a server shows them to who may only look.

Nothing of either is held: a store is asked by its keys, and rows, which are in the order of their bytes, by halves.
"""

import os
from bisect import bisect_right
from collections import Counter
from pathlib import Path
from typing import Any, Iterator, Mapping, Optional

from wanekupo.books.lines import COMPACT, MAC, NAMES, WORDS, BadRow, line_parts
from wanekupo.books.store import StoreCopy, is_store
from wanekupo.books.store_rows import Books, Row, serial_of
from wanekupo.common.errors import Refused, StationError
from wanekupo.common.files import GZIP, opened_plain, tested_reading
from wanekupo.seat.states import REPORTED, reported

# More bytes than a row has.
LONGEST_ROW = 1 << 20
NAME = "Name NUMBER.rows of a seal, or the copy of a store."


class NotShown(StationError):
    """What these books don't have: a customer, or what only a plant's own rows say."""


class StoreBooks:
    """A copy of a store: rows in the words of the API, of one customer at a time, in the order of their keys."""

    def __init__(self, file: Path):
        self._store = StoreCopy(file)
        self._books = Books(self._store)

    def close(self) -> None:
        self._store.close()

    def has(self, customer: str) -> bool:
        return customer in self._books.pools or customer in self._books.customers()

    def device(self, customer: str, chip: str) -> Optional[Row]:
        return self._books.device(customer, chip)

    def entries(self, customer: str, chip: str) -> Iterator[Row]:
        entries = self._books.entries("WHERE l.customer = ? AND l.chip = ? ORDER BY l.n", customer, chip)
        return (it.row for it in entries)

    def orders(self, customer: str) -> list[Row]:
        return [row for (whose, _), row in self._books.orders.items() if whose == customer]

    def record(self, customer: str, issuer: str, serial: str) -> Optional[Row]:
        more = "WHERE g.customer = ? AND g.issuer = ? AND g.serial = ?"
        return next((row for _, row in self._books.records(more, customer, issuer, serial)), None)

    def states(self, customer: str) -> Counter[tuple[str, str]]:
        sql = "SELECT ord, state, count(*) FROM device WHERE customer = ? GROUP BY ord, state"
        return Counter({(order, state): count for order, state, count in self._store.rows(sql, customer)})

    def serials(self, customer: str, order: Row) -> Iterator[str]:
        return self._books.given_of(order)

    def given(self, customer: str, parts: tuple[str, ...]) -> Iterator[Row]:
        has = "AND (instr(g.serial, ?) OR instr(g.chip, ?) OR instr(g.mac, ?))" if parts else ""
        more = f"WHERE g.customer = ? {has} ORDER BY g.issuer, g.serial"
        return (row for _, row in self._books.records(more, customer, *parts, *parts[1:]))

    def unnamed(self, customer: str, part: str) -> Iterator[str]:
        sql = "SELECT chip FROM device WHERE customer = ? AND serial IS NULL AND instr(chip, ?) ORDER BY chip"
        return (chip for (chip,) in self._store.rows(sql, customer, part))


class SealBooks:
    """A file of a seal's rows, which says the same. A customer's own rows have no imports."""

    def __init__(self, file: Path):
        self.file = file
        tested_reading(file.parent)
        self._source = open(opened_plain(file, os.O_RDONLY, follows_links=True), "rb")
        self._size = os.fstat(self._source.fileno()).st_size
        begins = self._source.read(LONGEST_ROW)
        if begins.startswith(GZIP):
            self.close()
            raise NotShown(f"{file} is compressed, and is read by halves", "Unpack it beside itself: gunzip -k.")
        if begins.partition(b" ")[0].decode("ascii", "replace") not in NAMES:
            self.close()
            raise NotShown(f"{file} is no file of rows", NAME)

    def close(self) -> None:
        self._source.close()

    def _line(self) -> bytes:
        line = self._source.readline(LONGEST_ROW)
        if line and not line.endswith(b"\n"):
            raise BadRow(f"{self.file} has a line that is cut, or is none of a row", NAME)
        return line

    def _first(self, wanted: bytes) -> int:
        """Where the first line begins that isn't in front of these bytes."""
        low, high = 0, self._size
        while low < high:
            middle = (low + high) // 2
            self._source.seek(max(middle - 1, 0))
            if middle:
                self._line()
            begin = self._source.tell()
            line = self._line()
            if line and line < wanted:
                low = begin + len(line)
            else:
                high = middle
        return low

    def _lines(self, *words: str, begin: str = "") -> Iterator[bytes]:
        """The lines of a kind whose key begins with these words, from one word on where there is one."""
        head = " ".join([*words, ""]).encode("ascii", "backslashreplace")
        self._source.seek(self._first(head + begin.encode("ascii", "backslashreplace")))
        while (line := self._line()).startswith(head):
            at = self._source.tell()
            yield line
            self._source.seek(at)

    def _members(self, line: bytes) -> Row:
        try:
            return line_parts(line[:-1].decode("ascii", "backslashreplace"))[2]
        except BadRow as error:
            raise BadRow(f"{self.file} has a line that {error}", "Ask who wrote it.") from error

    def _one(self, *words: str) -> Optional[Row]:
        return next(map(self._members, self._lines(*words)), None)

    def has(self, customer: str) -> bool:
        kinds = WORDS.keys() - {"act", "site"}
        return any(next(self._lines(kind, customer), b"") for kind in kinds)

    def device(self, customer: str, chip: str) -> Optional[Row]:
        return self._one("device", customer, chip)

    def entries(self, customer: str, chip: str) -> Iterator[Row]:
        return map(self._members, self._lines("entry", customer, chip))

    def orders(self, customer: str) -> list[Row]:
        return [self._members(line) for line in self._lines("order", customer)]

    def record(self, customer: str, issuer: str, serial: str) -> Optional[Row]:
        return self._one("record", customer, issuer, serial)

    def states(self, customer: str) -> Counter[tuple[str, str]]:
        rows = map(self._members, self._lines("device", customer))
        return Counter((str(row["order"]), str(row["state"])) for row in rows)

    def serials(self, customer: str, order: Row) -> Iterator[str]:
        if not next(self._lines("site"), b""):
            told = "Look into the plant's rows, or the copy of a store."
            raise NotShown(f"{self.file} has a customer's own rows, so imported numbers aren't known", told)
        first, last = ends_of(order)
        for kind in ("import", "record"):
            for line in self._lines(kind, customer, order["issuer"], begin=first):
                serial = line.split(b" ", 4)[3].decode("ascii", "replace")
                if serial > last:
                    break
                yield serial

    def given(self, customer: str, parts: tuple[str, ...]) -> Iterator[Row]:
        data = tuple(part.encode("ascii", "backslashreplace") for part in parts)
        for kind in ("import", "record"):
            for line in self._lines(kind, customer):
                if not data or any(part in line for part in data):
                    yield {"chip": None, "mac": None, **self._members(line)}

    def unnamed(self, customer: str, part: str) -> Iterator[str]:
        for line in self._lines("device", customer):
            chip = line.split(b" ", 3)[2].decode("ascii", "replace")
            if part in chip and self._members(line)["serial"] is None:
                yield chip


ClosedBooks = StoreBooks | SealBooks


def books_in(file: Path) -> ClosedBooks:
    return StoreBooks(file) if is_store(file) else SealBooks(file)


# ---- the documents


def ends_of(order: Row) -> tuple[str, str]:
    """The first and the last serial number of an order."""
    return serial_of(order, order["first"]), serial_of(order, order["first"] + order["quantity"] - 1)


def _text(kind: str, row: Mapping[str, Any]) -> str:
    return COMPACT.encode({name: row[name] for name in NAMES[kind]})


def _device(books: ClosedBooks, customer: str, chip: str) -> Row:
    if not MAC.fullmatch(chip):
        raise Refused(400, {"error": "bad_member", "no": 10})
    found = books.device(customer, chip)
    if found is None:
        raise Refused(404, {"error": "unknown_device", "no": 15})
    return found


def device_text(books: ClosedBooks, customer: str, chip: str) -> str:
    return _text("device", _device(books, customer, chip))


def ledger_text(books: ClosedBooks, customer: str, chip: str) -> str:
    _device(books, customer, chip)
    names = NAMES["entry"]
    entries = [{name: row[name] for name in names} for row in books.entries(customer, chip)]
    return COMPACT.encode({"chip": chip, "entries": entries})


def identity_text(books: ClosedBooks, customer: str, chip: str) -> str:
    """A device's record, of the issuer of its order."""
    found = _device(books, customer, chip)
    issuer = next((it["issuer"] for it in books.orders(customer) if it["name"] == found["order"]), "")
    record = books.record(customer, issuer, found["serial"]) if found["serial"] else None
    if record is None:
        raise Refused(409, {"error": "wrong_state", "no": 17})
    return _text("record", {"not_before": None, **record})


def report_text(books: ClosedBooks, customer: str) -> str:
    """The customer's report, whose numbers that are left are those of which none is given, by whomever."""
    counts: Counter[tuple[str, str]] = Counter()
    for (name, state), count in books.states(customer).items():
        counts[name, reported(state)] += count
    lines = [",".join(("order", "quantity", *REPORTED, "serials_left"))]
    for order in sorted(books.orders(customer), key=lambda it: str(it["name"])):
        length, width = len(ends_of(order)[0]), order["width"]
        own = (it for it in books.serials(customer, order) if len(it) == length and it[-width:].isdecimal())
        by_state = (counts[order["name"], state] for state in REPORTED)
        left = order["quantity"] - sum(1 for _ in own)
        lines.append(",".join(map(str, (order["name"], order["quantity"], *by_state, left))))
    return "".join(f"{line}\n" for line in lines)


def found_rows(books: ClosedBooks, customer: str, part: str) -> Iterator[Row]:
    """The records, the imported numbers and the chips without a number of which a serial number, an address or the
    chip's name has this part, an address with or without its colons."""
    digits, blocks = part.replace(":", "").lower(), _blocks(books.orders(customer))
    is_one_each = all(count <= 1 for _, count in blocks)
    for row in books.given(customer, (part.upper(), digits) if is_one_each else ()):
        if part.upper() in row["serial"] or any(digits in it for it in (row["chip"] or "", *_addresses(row, blocks))):
            yield {name: row[name] for name in ("chip", "issuer", "mac", "serial")}
    for chip in books.unnamed(customer, digits):
        yield {"chip": chip, "issuer": None, "mac": None, "serial": None}


def _blocks(orders: list[Row]) -> list[tuple[int, int]]:
    """Where the addresses of each order begin, and how many each of its numbers has."""
    return sorted((int(it["mac"], 16), it["macs"]) for it in orders if it["mac"])


def _addresses(row: Row, blocks: list[tuple[int, int]]) -> list[str]:
    """The addresses of a record, which are those of the order in whose block the first one lies."""
    if row["mac"] is None:
        return []
    first = int(row["mac"], 16)
    at = bisect_right(blocks, (first, 1 << 48)) - 1
    return [f"{first + more:012x}" for more in range(max(blocks[at][1] if at >= 0 else 1, 1))]
