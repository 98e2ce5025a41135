"""What is larger than the memory: a base in a file of SQLite's own, in /var/tmp, which ends with it."""

import json
import marshal
import sqlite3
from functools import lru_cache, partial
from typing import Any, Callable, Iterable, Iterator, Mapping

# A base that is there for one run needs no journal, and 8 MB of its file are in memory.
OF_BASE = "PRAGMA journal_mode = OFF; PRAGMA synchronous = OFF; PRAGMA cache_size = -8192; BEGIN;"

# How many members are in memory that were asked for last.
LAST = 256


def base_of(created: str) -> sqlite3.Connection:
    """A base with these tables."""
    base = sqlite3.connect("", isolation_level=None)
    base.text_factory = lambda data: data.decode("utf-8", "surrogatepass")
    base.executescript(f"{OF_BASE} {created}")
    return base


def in_order(lines: Iterable[str]) -> Iterator[str]:
    """Lines in the order of their bytes."""
    rows = Sorted(1, 1)
    rows.put((it,) for it in lines)
    return (text for (text,) in rows)


class Sorted:
    """Rows in the order of their first columns; those that are alike there come as they were put."""

    def __init__(self, columns: int, by: int):
        self._base = base_of(f"CREATE TABLE it ({', '.join(f'c{place}' for place in range(columns))})")
        self._put = f"INSERT INTO it VALUES ({', '.join('?' * columns)})"
        self._walk = f"SELECT * FROM it ORDER BY {', '.join(f'c{place}' for place in range(by))}, rowid"

    def put(self, rows: Iterable[tuple[Any, ...]]) -> None:
        self._base.executemany(self._put, rows)

    def __iter__(self) -> Iterator[tuple[Any, ...]]:
        return iter(self._base.execute(self._walk))


class Values:
    """Plain values, each at a place of its own, with members that are there when somebody asks for them."""

    def __init__(self) -> None:
        self._base = base_of("CREATE TABLE it (place INTEGER PRIMARY KEY, data BLOB, members BLOB)")
        self._members = lru_cache(LAST)(partial(self._loaded, "members"))

    def add(self, data: Any, members: Any) -> int:
        words = marshal.dumps(data), marshal.dumps(members)
        return self._base.execute("INSERT INTO it (data, members) VALUES (?, ?)", words).lastrowid or 0

    def put(self, place: int, name: str, it: Any) -> None:
        self._base.execute(f"UPDATE it SET {name} = ? WHERE place = ?", (marshal.dumps(it), place))
        self._members.cache_clear()

    def at(self, place: int) -> Any:
        return self._loaded("data", place)

    def members(self, place: int) -> tuple[Mapping[str, Any], Mapping[str, Any]]:
        """Both of the members at a place."""
        return Part(self._members, place, 0), Part(self._members, place, 1)

    def _loaded(self, name: str, place: int) -> Any:
        ((data,),) = self._base.execute(f"SELECT {name} FROM it WHERE place = ?", (place,))
        return marshal.loads(data)


class Known:
    """Values by their names, which may be very many."""

    def __init__(self) -> None:
        self._base = base_of("CREATE TABLE known (name TEXT PRIMARY KEY, data BLOB) WITHOUT ROWID")

    def __setitem__(self, name: Any, it: Any) -> None:
        self._base.execute("REPLACE INTO known VALUES (?, ?)", (json.dumps(name), marshal.dumps(it)))

    def get(self, name: Any, other: Any = None) -> Any:
        rows = self._base.execute("SELECT data FROM known WHERE name = ?", (json.dumps(name),))
        return next((marshal.loads(data) for (data,) in rows), other)

    def __contains__(self, name: Any) -> bool:
        return self.get(name) is not None


class Part(Mapping[str, Any]):
    """Members that are on the disk."""

    __slots__ = ("_of", "_place", "_which")

    def __init__(self, of: Callable[[int], Any], place: int, which: int):
        self._of, self._place, self._which = of, place, which

    def __getitem__(self, name: str) -> Any:
        return self._of(self._place)[self._which][name]

    def __iter__(self) -> Iterator[str]:
        return iter(self._of(self._place)[self._which])

    def __len__(self) -> int:
        return len(self._of(self._place)[self._which])
