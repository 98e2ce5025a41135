"""How long the program takes to bring a store of schema 1 or 2 to its own schema, and what a kill leaves of it.

Whole lives of devices are made by the program in a store of its own. The rows of the tables that the earlier schema has
are put into a new file by C's SQLite, in that schema and in their order: that is the store as a program of that schema
left it. Over a copy of it the program is started: the seconds to its first answer are told (--found), and those of the
start after it, which finds the store upgraded. Then it is started over further copies and killed (SIGKILL), earlier and
later. Of each file that is left is tested, in a copy with C's SQLite, that its schema is whole: the earlier one
with its tables alone, or the program's with a beginning of validity, NULL, for each order and each record, and with the
text of the site, whose SHA-256 `meta` has; that the rows of schema 1 are as they were; `PRAGMA integrity_check` and
`PRAGMA foreign_key_check`. Then the program is started over the file that is left, and has to end with the program's
schema, whole, and with the same rows. A kill of a process isn't a cut of the power: test_powercut.py tries that.
"""

import hashlib
import os
import shutil
import sqlite3

import pytest

from common.lives import SITE
from common.program import Failed, kill_after
from common.schemas import FIRST_TABLES, OWN, STARTS, TABLES, ascending, take_back
from common.stores import command_of, run_lives, start_of

SECONDS, KILLS = 3600, 10


def rows_digest(base):
    """The SHA-256 of the rows of schema 1's tables, but for what meta tells."""
    digest = hashlib.sha256()
    for table in FIRST_TABLES[1:]:
        digest.update(table.encode())
        for row in ascending(base, table):
            digest.update(repr(row).encode())
    return digest.hexdigest()


def tables_of(base):
    """The names of the tables, in the order in which they were made."""
    return [name for (name,) in base.execute("SELECT name FROM sqlite_schema WHERE type = 'table' ORDER BY rowid")]


def look_at_starts(base):
    """Fails unless each order and each record has one beginning of validity, which is NULL."""
    for table, parent in STARTS.items():
        starts = base.execute(f"SELECT count(*), count(not_before) FROM {table}").fetchone()
        rows = base.execute(f"SELECT count(*) FROM {parent}").fetchone()[0]
        if starts != (rows, 0):
            raise Failed(f"{table} has {starts[0]} rows, {starts[1]} of them not NULL; {parent} has {rows}")


def look_at_text(base):
    """Fails unless the store holds the text of its site, and tells its SHA-256."""
    if base.execute("SELECT id, body FROM site_text").fetchall() != [(1, SITE)]:
        raise Failed("site_text hasn't the one row with the text of the site")
    if base.execute("SELECT site FROM meta").fetchall() != [(hashlib.sha256(SITE.encode()).digest(),)]:
        raise Failed("meta hasn't the SHA-256 of the text")


def put_copy(path, copy):
    """Puts a copy of a store, with its log, in the place of another."""
    for end in ["", "-wal"]:
        if os.path.exists(copy + end):
            os.remove(copy + end)
        if os.path.exists(path + end):
            shutil.copyfile(path + end, copy + end)


def schema_of(path, folder, wanted):
    """Tests a copy of the store, and returns the number of its schema."""
    copy = os.path.join(folder, "copy.db")
    put_copy(path, copy)
    base = sqlite3.connect(copy)
    try:
        schema = base.execute("SELECT schema FROM meta").fetchone()[0]
        tables = tables_of(base)
        if tables != TABLES.get(schema):
            raise Failed(f"schema {schema} with the tables {tables}")
        if schema > 1:
            look_at_starts(base)
        if schema == OWN:
            look_at_text(base)
        if rows_digest(base) != wanted:
            raise Failed(f"schema {schema}: the rows aren't those of before")
        if base.execute("PRAGMA integrity_check").fetchall() != [("ok",)]:
            raise Failed(f"schema {schema}: integrity_check")
        if base.execute("PRAGMA foreign_key_check").fetchall():
            raise Failed(f"schema {schema}: foreign_key_check")
        return schema
    finally:
        base.close()


@pytest.mark.parametrize("schema", range(1, OWN))
@pytest.mark.sizes(300, 100_000)
def test_upgrade(program, tmp_path, schema, size, found):
    """A store of so many devices."""
    folder = str(tmp_path)
    command, made = command_of(str(program), folder, "made.db")
    run_lives(command, SECONDS, size, "with")
    old = os.path.join(folder, "old.db")
    take_back(made, old, schema)
    base = sqlite3.connect(f"file:{old}?mode=ro", uri=True)
    wanted = rows_digest(base)
    base.close()
    command, path = command_of(str(program), folder, "books.db")
    put_copy(old, path)
    upgrade, peak = start_of(command, SECONDS)
    assert schema_of(path, folder, wanted) == OWN
    after, _ = start_of(command, SECONDS)
    found(
        f"{size} devices: upgraded from schema {schema} to {OWN} in {upgrade:.1f} s, peak {peak} KiB; "
        f"next start {after:.1f} s"
    )
    left = {schema: 0, OWN: 0}
    for kill in range(KILLS):
        put_copy(old, path)
        kill_after(command, upgrade * (kill + 1) / (KILLS + 1))
        left[schema_of(path, folder, wanted)] += 1
        start_of(command, SECONDS)
        assert schema_of(path, folder, wanted) == OWN, f"behind kill {kill + 1}"
    found(
        f"{KILLS} kills: {left[schema]} left schema {schema}, {left[OWN]} schema {OWN}; "
        "each whole, and upgraded by the next start"
    )
