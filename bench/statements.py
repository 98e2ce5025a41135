"""The statements of the program for each request, and a file in which a peer makes them, for store and serving."""

import glob
import os
import re
import sqlite3
from collections.abc import Callable, Iterable
from pathlib import Path

SOURCES = os.path.join(os.path.dirname(os.path.abspath(__file__)), "../crates/office_sql/src/*.rt")
# A text of a source, or a part of one that is joined with others.
PIECE = re.compile(r'"([^"\\\n]+)"')

# The statements of crates/office_sql, each with the values of its parameters, as TABLE.COLUMN.
STATEMENTS = {
    "seat": (
        "SELECT name, customer, last, digest, reply FROM seat WHERE name = ?1 ORDER BY name",
        "seat.name",
    ),
    "device": (
        "SELECT customer, chip, ord, map, state, reason, bits, keys, todo, serial FROM device"
        " WHERE customer = ?1 AND chip = ?2 ORDER BY customer, chip",
        "device.customer device.chip",
    ),
    "link": (
        "SELECT customer, digest, map FROM link WHERE customer = ?1 AND digest = ?2 ORDER BY customer, digest",
        "device.customer device.map",
    ),
    "map": ("SELECT id, body FROM map WHERE id = ?1 ORDER BY id", "link.map"),
    "order": (
        "SELECT orders.customer, name, issuer, prefix, width, first, quantity, macs, mac, cursor, not_before"
        " FROM orders JOIN order_start ON order_start.customer = orders.customer AND ord = name"
        " WHERE orders.customer = ?1 AND name = ?2 ORDER BY orders.customer, name",
        "device.customer device.ord",
    ),
    "places": (
        "SELECT ord, state, reason FROM device WHERE customer = ?1 ORDER BY customer, chip",
        "device.customer",
    ),
    "last entry": (
        "SELECT n FROM ledger WHERE customer = ?1 AND chip = ?2 ORDER BY n DESC LIMIT 1",
        "device.customer device.chip",
    ),
    "given by serial": (
        "SELECT given.issuer, given.serial, customer, key, chip, mac, not_after, not_before FROM given"
        " JOIN given_start ON given_start.issuer = given.issuer AND given_start.serial = given.serial"
        " WHERE given.issuer = ?1 AND given.serial = ?2 ORDER BY given.issuer, given.serial",
        "given.issuer given.serial",
    ),
    "given by key": (
        "SELECT given.issuer, given.serial, customer, key, chip, mac, not_after, not_before FROM given"
        " JOIN given_start ON given_start.issuer = given.issuer AND given_start.serial = given.serial"
        " WHERE given.issuer = ?1 AND key = ?2 ORDER BY given.issuer, given.serial",
        "given.issuer given.key",
    ),
    "given by mac": (
        "SELECT given.issuer, given.serial, customer, key, chip, mac, not_after, not_before FROM given"
        " JOIN given_start ON given_start.issuer = given.issuer AND given_start.serial = given.serial"
        " WHERE mac = ?1 ORDER BY given.issuer, given.serial",
        "given.mac",
    ),
    "add device": (
        "INSERT INTO device (customer, chip, ord, map, state, reason, bits, keys, todo, serial)"
        " VALUES (?1, ?2, ?3, ?4, ?5, ?6, ?7, ?8, ?9, ?10)",
        "device.customer device.chip device.ord device.map device.state device.reason device.bits device.keys"
        " device.todo device.serial",
    ),
    "put device": (
        "UPDATE device SET ord = ?3, map = ?4, state = ?5, reason = ?6, bits = ?7, keys = ?8, todo = ?9, serial = ?10"
        " WHERE customer = ?1 AND chip = ?2",
        "device.customer device.chip device.ord device.map device.state device.reason device.bits device.keys"
        " device.todo device.serial",
    ),
    "add entry": (
        "INSERT INTO ledger (customer, chip, n, event, note, seat, bits, keys) VALUES (?1, ?2, ?3, ?4, ?5, ?6, ?7, ?8)",
        "ledger.customer ledger.chip ledger.n ledger.event ledger.note ledger.seat ledger.bits ledger.keys",
    ),
    "add given": (
        "INSERT INTO given (issuer, serial, customer, key, chip, mac, not_after) VALUES (?1, ?2, ?3, ?4, ?5, ?6, ?7)",
        "given.issuer given.serial given.customer given.key given.chip given.mac given.not_after",
    ),
    "add given start": (
        "INSERT INTO given_start (issuer, serial, not_before) VALUES (?1, ?2, ?3)",
        "given.issuer given.serial given_start.not_before",
    ),
    "set cursor": (
        "UPDATE orders SET cursor = ?3 WHERE customer = ?1 AND name = ?2",
        "device.customer device.ord orders.cursor",
    ),
    "put seat": (
        "UPDATE seat SET customer = ?2, last = ?3, digest = ?4, reply = ?5 WHERE name = ?1",
        "seat.name seat.customer seat.last seat.digest seat.reply",
    ),
}

# The statements of each request, in their order. The map's row is read and the places of orders are counted
# once a start, at the first registration. An identity asks by address where its order has addresses.
FIRST = ["map", "places"]
STEP = ["seat", "device", "link", "last entry", "put device", "add entry", "put seat"]
REQUESTS = {
    "device": ["seat", "link", "order", "device", "last entry", "add device", "add entry", "put seat"],
    "plan": STEP,
    "readback": STEP,
    "identity": [
        *["seat", "device", "link", "order", "given by serial", "given by key", "last entry"],
        *["put device", "add entry", "given by mac", "add given", "add given start", "set cursor", "put seat"],
    ],
    "ship": STEP,
}

# What stands in the tables before the first device.
BEFORE = ("meta", "seat", "map", "link", "orders", "order_start")


def is_joined(text: str, pieces: set[str]) -> bool:
    """Whether a text is made of these pieces, one behind the other."""
    return not text or any(is_joined(text[len(piece) :], pieces) for piece in pieces if text.startswith(piece))


def unknown_texts(names: Iterable[str] = tuple(STATEMENTS), sources: str = SOURCES) -> list[str]:
    """The texts of these statements that the sources don't have as the pieces of one, where these are there."""
    pieces = set()
    for path in glob.glob(sources):
        with open(path, encoding="utf-8") as file:
            pieces.update(PIECE.findall(file.read()))
    texts = [STATEMENTS[name][0] for name in names]
    return [text for text in texts if pieces and not is_joined(text, pieces)]


def new_peer(path: str | Path, run: Callable, page_bytes: int | None = None) -> sqlite3.Connection:
    """A new file with the tables of the program's file, which `run` reads, and its rows before the first device."""
    peer = sqlite3.connect(path, isolation_level=None)
    lines = [f"page_size={page_bytes}"] if page_bytes else []
    for line in (*lines, "journal_mode=WAL", "synchronous=FULL", "foreign_keys=ON"):
        peer.execute(f"PRAGMA {line}").fetchall()
    for row in run("SELECT sql FROM sqlite_master WHERE sql IS NOT NULL ORDER BY rowid"):
        peer.execute(row[0])
    for table in BEFORE:
        for row in run(f"SELECT * FROM {table}"):
            peer.execute(f"INSERT INTO {table} VALUES ({','.join('?' * len(row))})", tuple(row))
    peer.execute("UPDATE orders SET cursor = first")
    return peer
