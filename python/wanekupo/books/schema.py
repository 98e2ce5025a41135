"""The tables of a store of schema 3, as the program makes them (docs/reference/files.md#the-store), and what of a store
is otherwise, so that no server opens it."""

import hashlib
import re
from typing import Any, Callable, Iterable, Iterator

# Rows of a statement of this program's own, each a tuple of its columns.
Asked = Callable[[str], Iterable[tuple[Any, ...]]]

# The statements are those of the program, in its order.
CREATED = """
CREATE TABLE meta (id INTEGER PRIMARY KEY, schema INTEGER NOT NULL, site BLOB NOT NULL) STRICT;
CREATE TABLE seat (name TEXT NOT NULL, customer TEXT NOT NULL, last INTEGER NOT NULL, digest BLOB NOT NULL,
  reply TEXT NOT NULL, PRIMARY KEY (name)) STRICT;
CREATE TABLE map (id INTEGER PRIMARY KEY, body TEXT NOT NULL, digest BLOB NOT NULL, UNIQUE (body)) STRICT;
CREATE TABLE link (customer TEXT NOT NULL, digest BLOB NOT NULL, map INTEGER NOT NULL, PRIMARY KEY (customer, digest),
  FOREIGN KEY (map) REFERENCES map (id)) STRICT;
CREATE TABLE orders (customer TEXT NOT NULL, name TEXT NOT NULL, issuer TEXT NOT NULL, prefix TEXT NOT NULL,
  width INTEGER NOT NULL, first INTEGER NOT NULL, quantity INTEGER NOT NULL, macs INTEGER NOT NULL, mac TEXT,
  cursor INTEGER NOT NULL, PRIMARY KEY (customer, name)) STRICT;
CREATE TABLE device (customer TEXT NOT NULL, chip TEXT NOT NULL, ord TEXT NOT NULL, map BLOB NOT NULL,
  state TEXT NOT NULL, reason TEXT, bits BLOB NOT NULL, keys BLOB NOT NULL, todo BLOB NOT NULL, serial TEXT,
  PRIMARY KEY (customer, chip), FOREIGN KEY (customer, ord) REFERENCES orders (customer, name),
  FOREIGN KEY (customer, map) REFERENCES link (customer, digest)) STRICT;
CREATE TABLE given (issuer TEXT NOT NULL, serial TEXT NOT NULL, customer TEXT NOT NULL, key BLOB NOT NULL, chip TEXT,
  mac TEXT, not_after TEXT NOT NULL, PRIMARY KEY (issuer, serial), UNIQUE (issuer, key), UNIQUE (mac, issuer, serial))
  STRICT;
CREATE TABLE ledger (id INTEGER PRIMARY KEY, customer TEXT NOT NULL, chip TEXT NOT NULL, n INTEGER NOT NULL,
  event TEXT NOT NULL, note TEXT NOT NULL, seat TEXT NOT NULL, bits BLOB NOT NULL, keys BLOB NOT NULL,
  UNIQUE (customer, chip, n), FOREIGN KEY (customer, chip) REFERENCES device (customer, chip)) STRICT;
CREATE TABLE order_start (customer TEXT NOT NULL, ord TEXT NOT NULL, not_before TEXT, PRIMARY KEY (customer, ord),
  FOREIGN KEY (customer, ord) REFERENCES orders (customer, name)) STRICT;
CREATE TABLE given_start (issuer TEXT NOT NULL, serial TEXT NOT NULL, not_before TEXT, PRIMARY KEY (issuer, serial),
  FOREIGN KEY (issuer, serial) REFERENCES given (issuer, serial)) STRICT;
CREATE TABLE site_text (id INTEGER PRIMARY KEY, body TEXT NOT NULL) STRICT;
"""

# What SQLite keeps for itself: an index of each UNIQUE and of most keys, whose names begin so, and no statement.
OWN_INDEX = "sqlite_autoindex_"

# How many faults of the file itself are told.
MOST_TOLD = 5


def plain(sql: str) -> str:
    """A statement without what says nothing: spaces, and the quotes that a renaming leaves."""
    return re.sub(r'\s+|"', "", sql)


def statements() -> dict[str, str]:
    """The statement of each table, by its name."""
    found = (it.strip() for it in CREATED.split(";"))
    return {it.split()[2]: it for it in found if it}


def others_of(ask: Asked) -> Iterator[str]:
    """What of a database isn't a store's: tables, their columns, keys and rules, and whatever else is in it."""
    tables = {name: plain(sql) for name, sql in statements().items()}
    for kind, name, sql in ask("SELECT type, name, sql FROM sqlite_schema ORDER BY type, name"):
        if kind == "index" and sql is None and str(name).startswith(OWN_INDEX):
            continue
        if kind != "table" or name not in tables:
            yield f"has the {kind} {name} more than a store"
        elif plain(str(sql)) != tables.pop(name):
            tables.pop(name, None)
            yield f"has another table {name} than a store: its columns, keys and rules have to be the program's"
    yield from (f"has no table {name}" for name in tables)


# Rows that the program excludes: the words, and a statement that finds whose they are.
EXCLUDED = (
    ("meta has another row than the one of id 1", "SELECT id FROM meta WHERE id != 1"),
    ("site_text has another row than the one of id 1", "SELECT id FROM site_text WHERE id != 1"),
    ("site_text has no row", "SELECT 1 WHERE NOT EXISTS (SELECT 1 FROM site_text)"),
    ("a seat's last number is below 1, and it has that row by a request", "SELECT name FROM seat WHERE last < 1"),
    ("a map has a number below zero", "SELECT id FROM map WHERE id < 0"),
    ("an entry has a number below zero", "SELECT customer, chip, n FROM ledger WHERE id < 0"),
    ("an order has no row of order_start", "SELECT customer, name FROM orders EXCEPT "
                                           "SELECT customer, ord FROM order_start"),
    ("a record has no row of given_start", "SELECT issuer, serial FROM given EXCEPT "
                                           "SELECT issuer, serial FROM given_start"),
)  # fmt: skip


def excluded(ask: Asked) -> Iterator[str]:
    """What of the rows of a store keeps a server from opening it."""
    for (fault,) in ask(f"PRAGMA integrity_check({MOST_TOLD})"):
        if fault != "ok":
            yield f"SQLite says of the file: {fault}"
    for table, row, parent, _ in ask("PRAGMA foreign_key_check"):
        yield f"row {row} of {table} refers to a row of {parent} that isn't there"
    for told, sql in EXCLUDED:
        for row in ask(sql):
            yield f"{told}: {' '.join(map(str, row))}"
    for count, last in ask("SELECT count(*), max(id) FROM ledger"):
        if count and last != count:
            told = f"the last entry has the number {last}, and there are {count}"
            yield f"{told}: none of these ever goes, and each takes the next number"
    for body, site in ask("SELECT body, lower(hex(site)) FROM site_text JOIN meta ON meta.id = site_text.id"):
        if hashlib.sha256(body.encode()).hexdigest() != site:
            yield f"the site's text isn't the one whose SHA-256 meta has, {site}"
