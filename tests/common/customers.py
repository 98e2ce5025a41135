"""Customers with stations of their own, what they ask for, and the tables of their store, which two runs compare."""

import hashlib
import sqlite3
from collections.abc import Iterable
from pathlib import Path
from typing import Any

# The events of the paths of a device.
EVENTS = {
    "/v1/device": "registered",
    "/v1/plan": "planned",
    "/v1/readback": "read",
    "/v1/identity": "identified",
    "/v1/ship": "shipped",
    "/v1/scrap": "scrapped",
}

# The tables of a store, without the numbers that the keeper draws.
TABLES = {
    "seat": "*",
    "map": "body, digest",
    "link": "customer, digest",
    "orders": "*",
    "order_start": "*",
    "device": "*",
    "given": "*",
    "given_start": "*",
    "ledger": "customer, chip, n, event, note, seat, bits, keys",
    "site_text": "*",
}


def token_of(customer: int, seat: int) -> str:
    return f"token-{customer}-{seat}"


def site_text(customers: Iterable[int] = range(2), seats: int = 2) -> str:
    """Customers with so many seats each, and a pool of addresses each."""
    lines = []
    for customer in customers:
        lines += ["[[customer]]", f'name = "c{customer}"', f'issuer = ["c{customer}-ca"]']
        lines += ["[[customer.pool]]", f'first = "02{customer:02x}00000000"', "count = 16777216"]
        for seat in range(seats):
            token = hashlib.sha256(token_of(customer, seat).encode()).hexdigest()
            lines += ["[[customer.seat]]", f'name = "s{customer}{seat}"', f'token = "{token}"']
    return "\n".join(lines) + "\n"


def tables(path: str | Path) -> dict[str, list[Any]]:
    """The rows of a store's tables in an order of their own, and what SQLite finds in the file."""
    base = sqlite3.connect(path)
    found = base.execute("PRAGMA integrity_check").fetchall() + base.execute("PRAGMA foreign_key_check").fetchall()
    rows = {name: sorted(map(repr, base.execute(f"SELECT {what} FROM {name}"))) for name, what in TABLES.items()}
    base.close()
    return rows | {"test": found}
