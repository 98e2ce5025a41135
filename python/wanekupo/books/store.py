"""The tables of a stopped store, read from a copy of its two files. The served store itself is never opened.

The file may be anybody's: its tables have to be those of schema 3 and nothing else, no text of it is run, and nothing
is written beside it where its log has been joined.
"""

import contextlib
import os
import sqlite3
from pathlib import Path
from typing import Any, Iterator, Optional, Self

from wanekupo.books.schema import others_of
from wanekupo.common.errors import StationError
from wanekupo.common.files import opened_plain, tested_reading, tested_unlocked

MAGIC = b"SQLite format 3\0"
SCHEMA = 3

# A log with a page in it is longer than this: 32 bytes, then 24 and the smallest page.
EMPTY_LOG = 32 + 24 + 512 - 1

COPY = "Stop the server, copy both files, start it, and name the copy."


class BadStore(StationError):
    """What is named is no store that can be read, or is a served one."""


def is_store(file: Path) -> bool:
    """Whether a file is a database of SQLite."""
    with open(opened_plain(file, os.O_RDONLY, follows_links=True), "rb") as source:
        return source.read(len(MAGIC)) == MAGIC


class StoreCopy:
    """A copy of a store, opened to be read."""

    def __init__(self, file: Path):
        self.file = file
        tested_reading(file.parent)  # SQLite opens the log by its name, and makes a file beside it
        if not is_store(file):
            raise BadStore(f"{file} is no database", "Name the copy of books.db, with its log beside it.")
        _tested_lock(file)
        self._base = _opened(file)
        try:
            self._tested()
        except sqlite3.Error as error:
            self.close()
            raise self._damaged(error) from error
        except BaseException:
            self.close()
            raise

    def __enter__(self) -> Self:
        return self

    def __exit__(self, *_: Any) -> None:
        self.close()

    def close(self) -> None:
        self._base.close()

    def rows(self, sql: str, *words: Any) -> Iterator[tuple[Any, ...]]:
        """The rows of a statement of this program's own."""
        try:
            yield from self._base.execute(sql, words)
        except sqlite3.Error as error:
            raise self._damaged(error) from error

    def _damaged(self, error: sqlite3.Error) -> BadStore:
        if "locked" in str(error):
            return BadStore(f"a program has {self.file}", COPY)
        told = "Look at the disk and at how it was copied: both files of one moment are the store."
        return BadStore(f"{self.file} can't be read: {error}", told)

    def _tested(self) -> None:
        """Whether it has the tables of schema 3, and nothing that is no table or index of theirs."""
        kinds = {kind for (kind,) in self._base.execute("SELECT type FROM sqlite_schema")}
        others = sorted(kinds - {"table", "index"})
        if others:
            raise BadStore(f"{self.file} has a {others[0]}, which no store has", "Ask who wrote to it.")
        has_meta = any(self._base.execute("SELECT 1 FROM sqlite_schema WHERE type = 'table' AND name = 'meta'"))
        number = self._number() if has_meta else None
        if number != SCHEMA:
            told = "Open a copy with the program of today first: it brings an earlier store to schema 3."
            has = "has no table meta" if number is None else f"has schema {number}"
            raise BadStore(f"{self.file} is no store of schema {SCHEMA}: it {has}", told)
        for fault in others_of(self._base.execute):
            raise BadStore(f"{self.file} {fault}", "Ask who wrote to it.")

    def _number(self) -> Optional[int]:
        found = self._base.execute("SELECT schema FROM meta").fetchone()
        return found[0] if found and isinstance(found[0], int) else None


def _tested_lock(file: Path) -> None:
    """Whether no program has the file. A server locks it for itself as long as it runs."""
    with open(file, "rb") as source:
        try:
            tested_unlocked(source.fileno())
        except OSError as error:
            raise BadStore(f"a program has {file}", COPY) from error


def _opened(file: Path) -> sqlite3.Connection:
    """The file, read only. Where its log has no page nothing is written beside it."""
    log = file.with_name(f"{file.name}-wal")
    with contextlib.suppress(FileNotFoundError):
        if os.stat(log).st_size > EMPTY_LOG:
            return _connected(f"{file.absolute().as_uri()}?mode=ro")
    return _connected(f"{file.absolute().as_uri()}?mode=ro&immutable=1")


def _connected(name: str) -> sqlite3.Connection:
    base = sqlite3.connect(name, uri=True)
    base.execute("PRAGMA trusted_schema = OFF")
    base.execute("PRAGMA query_only = ON")
    base.text_factory = lambda data: data.decode("utf-8", "backslashreplace")
    return base
