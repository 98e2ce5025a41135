"""The schemas of a store, and stores of earlier ones."""

import sqlite3

FIRST_TABLES = ["meta", "seat", "map", "link", "orders", "device", "given", "ledger"]
STARTS = {"order_start": "orders", "given_start": "given"}

# The tables of each schema, in the order in which they were made.
TABLES = {1: FIRST_TABLES, 2: [*FIRST_TABLES, *STARTS], 3: [*FIRST_TABLES, *STARTS, "site_text"]}
OWN = 3


def ascending(base, table):
    """The rows of a table in the order of their numbers, as they are read."""
    return base.execute(f"SELECT * FROM {table} ORDER BY rowid")


def take_back(path, to, schema):
    """Makes a store of an earlier schema of the rows of another."""
    base, old = sqlite3.connect(f"file:{path}?mode=ro", uri=True), sqlite3.connect(to)
    for table in TABLES[schema]:
        old.execute(base.execute("SELECT sql FROM sqlite_schema WHERE name = ?", (table,)).fetchone()[0])
    for table in TABLES[schema]:
        marks = ", ".join("?" * len(ascending(base, table).description))
        old.executemany(f"INSERT INTO {table} VALUES ({marks})", ascending(base, table))
    old.execute("UPDATE meta SET schema = ?", (schema,))
    old.commit()
    base.close()
    old.close()
