"""What is in no journal, and what journals have that the lost store hasn't.

That store is copied, and the program opens the copy first. Where the program refuses it, as it is damaged, sqlite3
reads what it can in its safe mode, and the journals aren't held against it.
"""

import json
from collections.abc import Collection, Iterable, Iterator
from pathlib import Path
from typing import Any

from wanekupo.plant.backup.copies import FILES, run_unpiped, opened_by, safely
from wanekupo.plant.restore.plan import OWN, CustomerPlan, Requests, RestoreError
from wanekupo.seat.journal import Asked, records_of
from wanekupo.common.texts import brief, shown

# The tables of a store that are compared: how the row of each is known, and what it says.
TABLES = {
    "orders": "SELECT o.customer, o.name, o.issuer, prefix, width, first, quantity, macs, mac, not_before"
    " FROM orders AS o JOIN order_start AS s ON s.customer = o.customer AND s.ord = o.name",
    "serial numbers": "SELECT issuer, serial, lower(hex(key)) AS key_sha256, customer FROM given",
    "maps": "SELECT customer, lower(hex(digest)) AS map FROM link",
    "devices": "SELECT customer, chip, state FROM device WHERE state IN ('quarantined', 'scrapped', 'shipped')",
}

# The last request of each seat that a store has.
SEATS = "SELECT name, last, lower(hex(digest)) AS digest FROM seat"

# How many gaps of a seat's numbers are told: who writes its journal could fill a screen.
MOST_GAPS = 20

# Without these the same serial numbers and addresses would come once more.
NEEDED = ("orders", "serial numbers")


def query_rows(db: Path, query: str) -> list[dict[str, Any]] | None:
    """The rows of a copy, or None where sqlite3 can't read them."""
    done = safely("-json", str(db), query)
    if done.returncode:
        return None
    rows: list[dict[str, Any]] = json.loads(done.stdout or "[]")
    return rows


def lost_copy(program: str, site: Path, lost: Path, folder: Path) -> tuple[Path, bool]:
    """A copy of the lost store, and whether the program opens it. Another process copies: a lock on a file goes where
    the process that has it closes that file."""
    folder.mkdir()
    for source, name in zip((lost, Path(f"{lost}-wal")), FILES):
        done = run_unpiped("cp", "--", str(source), str(folder / name))
        if done.returncode:
            raise RestoreError(f"{lost} can't be copied: {done.stderr.strip()}")
    return folder / FILES[0], opened_by(program, site, folder / FILES[0])


# What the lost store says otherwise.


def lost_contradictions(
    customers: Collection[CustomerPlan], requests: dict[str, Requests], lost: Path, before: dict[str, int]
) -> Iterator[tuple[str, str]]:
    """What journals have that the lost store hasn't, or has otherwise, each with the customer whose they are. `before`
    are the last numbers of the backup."""
    seats = query_rows(lost, SEATS)
    rows = {row["name"]: row for row in seats or []}
    for customer in customers if seats is not None else []:
        # A store that was restored since the backup knows what journals have, and not by the numbers of their seats.
        is_restored = any(it.startswith(OWN) and _last(rows, it) > before.get(it, 0) for it in customer.seats)
        for seat in sorted(customer.seats.keys() & requests.keys()):
            for told in _numbers_otherwise(seat, requests[seat], rows.get(seat), is_restored):
                yield customer.name, told
    yield from _rows_otherwise(customers, lost)


def _last(rows: dict[str, dict[str, Any]], seat: str) -> int:
    return int(rows[seat]["last"]) if seat in rows else 0


def _numbers_otherwise(seat: str, found: Requests, row: dict[str, Any] | None, is_restored: bool) -> Iterator[str]:
    """A station asks for a number once it has the reply to the one before, so one number behind the last may be asked
    for, and none may be done."""
    last, digest = (row["last"], row["digest"]) if row else (0, "")
    if last in found and not any(it.digest in (digest, "") for it in found[last]):
        yield f"{found[last][-1].place} has number {last} of {seat}, which is another request in the lost store"
    ahead = [nr for nr in sorted(found) if nr > last + 1 or nr > last and any(it.is_done for it in found[nr])]
    if ahead and not is_restored:
        yield f"{found[ahead[0]][0].place} has number {ahead[0]} of {seat}, and the lost store's last is {last}"


def _rows_otherwise(customers: Collection[CustomerPlan], lost: Path) -> Iterator[tuple[str, str]]:
    """Orders and serial numbers that had a reply, and aren't in the lost store."""
    orders, given = query_rows(lost, TABLES["orders"]), query_rows(lost, TABLES["serial numbers"])
    names = {(row["customer"], row["name"]) for row in orders or []}
    keys = {(row["issuer"], row["serial"]): row["key_sha256"] for row in given or []}
    asked = [(customer.name, it) for customer in customers for it in customer.asked]
    for name, it in asked if orders is not None else []:
        if it.path == "/v1/order" and it.is_done() and (name, it.members["name"]) not in names:
            yield name, _otherwise(f"the order {brief(it.members['name'])} of {name}", it, "hasn't it")
    records = [(customer.name, it) for customer in customers for it in records_of(customer.asked).values()]
    for name, record in records if given is not None else []:
        if not record.asked.is_done():
            continue
        key = keys.get((record.issuer, record.serial))
        if key != record.key_sha256.lower():
            told = "has another key with it" if key else "hasn't it"
            what = f"the serial number {brief(record.serial)} of {brief(record.issuer)}"
            yield name, _otherwise(what, record.asked, told)


def _otherwise(what: str, it: Asked, told: str) -> str:
    return f"line {it.line} of {shown(it.file)} has {shown(what)}, and the lost store {told}"


def by_customer(found: Iterable[tuple[str, str]]) -> dict[str, list[str]]:
    """Lines by the customer that they are of: what one has hides nothing of another."""
    lines: dict[str, list[str]] = {}
    for name, line in found:
        lines.setdefault(name, []).append(line)
    return lines


# What no journal has.


def missing_rows(lost: Path, restored: Path) -> dict[str, list[dict[str, Any]] | None]:
    """The rows of the lost store that the restored one hasn't, by what they are; None where they can't be read."""
    found: dict[str, list[dict[str, Any]] | None] = {}
    for what in TABLES:
        before, there = query_rows(lost, TABLES[what]), query_rows(restored, TABLES[what]) or []
        known = {json.dumps(row, sort_keys=True) for row in there}
        missing = None if before is None else [it for it in before if json.dumps(it, sort_keys=True) not in known]
        found[what] = missing
    return found


def last_numbers(counts: list[str]) -> dict[str, int]:
    """The last number of each seat, by the lines of a backup."""
    words = [line.split() for line in counts if line.startswith("seat ")]
    return {name: int(last) for _, name, last in words}


def gaps_of(numbers: Collection[int], last: int) -> str:
    """The numbers behind a last one that aren't there, up to the greatest that is, as one reads them: 4, 7 to 9."""
    there = [last, *sorted(it for it in numbers if it > last)]
    spans = [(a + 1, b - 1) for a, b in zip(there, there[1:]) if b > a + 1]
    told = [str(a) if a == b else f"{a} to {b}" for a, b in spans[:MOST_GAPS]]
    return ", ".join(told if len(spans) <= MOST_GAPS else [*told, f"and in {len(spans) - MOST_GAPS} more places"])


def number_gaps(
    customers: Collection[CustomerPlan], numbers: dict[str, Requests], before: dict[str, int], without: set[str]
) -> list[str]:
    """What isn't known of seats: those without a journal, and the numbers behind the backup's that no journal has.
    A seat of a customer without an issuer can order nothing. One that is for restores alone has no station: what it
    asked for the journals of others have."""
    told = []
    for customer in customers:
        for seat in sorted(set(customer.seats) - without) if customer.can_order else []:
            last = before.get(seat, 0)
            if seat not in numbers:
                if not seat.startswith(OWN) and (seat != customer.seat or last):
                    told.append(f"the seat {seat} of {customer.name} has no journal here")
                continue
            top = max(numbers[seat], default=0)
            gaps = gaps_of(numbers[seat], last)
            if top < last:
                told.append(f"the journal of {seat} ends with number {top}, and the backup has {last} of it")
            if gaps:
                told.append(f"the numbers {gaps} of {seat} are in no journal")
    return told


def seats_out_of_step(numbers: dict[str, Requests], after: dict[str, int]) -> tuple[list[str], list[str]]:
    """The seats whose stations stop by themselves, and those whose next number is by chance what the store expects."""
    ahead = {seat: max(found, default=0) for seat, found in numbers.items()}
    chance = sorted(seat for seat, top in ahead.items() if after.get(seat, 0) in (top - 1, top))
    return sorted(set(ahead) - set(chance)), chance
