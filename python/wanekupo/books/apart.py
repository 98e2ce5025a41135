"""What the sealed rows of several stores both have, and should be once over all of them.

No program looks at another one's store. Each file is held to its seal, and has to be in the order of its bytes; what
was given is sorted by SQLite, in a file of its own.
"""

from dataclasses import dataclass
from itertools import groupby
from operator import itemgetter
from pathlib import Path
from typing import Any, Iterator, Mapping

from wanekupo.books.chain import NONE, Chain, Seal, seal_of
from wanekupo.books.compare import named_row
from wanekupo.books.folder import MOST_ROWS, RowsFile, row_files
from wanekupo.books.lines import BadRow, line_parts
from wanekupo.books.scratch import Sorted
from wanekupo.common.errors import BadSettings
from wanekupo.common.files import small_bytes
from wanekupo.seat.forms import DIGEST

# The addresses that there are, and the most bytes of a seal's line and of what is told of a closed site.
ADDRESSES, LONGEST_LINE, MOST_CLOSED = 1 << 48, 4096, 1 << 24


@dataclass(frozen=True)
class StoreRows:
    """The rows of a store, and the line of their seal."""

    file: Path
    seal: Seal

    def is_closed(self) -> bool:
        """Whether it is the seal by which a site was closed, so that no newer one comes: beside its folder of seals
        closed.json has the seal's line."""
        told = self.file.absolute().parent.parent / "closed.json"
        return told.is_file() and f'"seal": "{self.seal.line()}"'.encode() in small_bytes(told, MOST_CLOSED)


def sealed_rows_of(place: Path) -> Iterator[StoreRows]:
    """The rows of a file; of a folder of seals those of the last one; and of a folder of these those of each."""
    if not place.is_dir():
        seal = place.with_name(f"{place.name.partition('.')[0]}.seal")
        line = small_bytes(seal, LONGEST_LINE).decode("ascii", "backslashreplace")
        yield StoreRows(place, seal_of(line.removesuffix("\n"), str(seal)))
        return
    if (place / "chain").is_file() and (seals := Chain(place).seals()):
        files = row_files(Chain(place), seals[-1])
        yield StoreRows(next((it for it in files if it.exists()), files[0]), seals[-1])
        return
    own = sorted(it for it in place.iterdir() if it.is_dir() or it.name.endswith((".rows", ".rows.gz")))
    if not own or (place / "chain").exists():
        raise BadSettings(f"{place} has no seals", "Look who took its file chain away.")
    for it in own:
        yield from sealed_rows_of(it)


def first_name(name: str, same: Mapping[str, str]) -> str:
    """The name that a customer had first, however often a next store gave it another one."""
    for _ in same:
        name = same.get(name, name)
    return name


class Given:
    """What stores gave, gathered to be sorted. `same` has customers that are another one by another name."""

    def __init__(self, same: Mapping[str, str]):
        self._given, self._spans = Sorted(8, 6), Sorted(5, 4)
        self._same = {name: first_name(name, same) for name in same}
        self.files, self._seats, self.records = list[Path](), dict[tuple[str, str], int](), 0

    def add(self, store: StoreRows) -> None:
        """Adds a store's rows. A file that isn't its seal's, or that is a second one of a store, is an error."""
        file, last, seats = RowsFile(store.file, MOST_ROWS), "", set[tuple[str, str]]()
        for number, line in enumerate(file.lines(), 1):
            try:
                kind, key, members = line_parts(line)
            except BadRow as error:
                raise BadSettings(f"line {number} of {store.file} {error}", "Look who wrote it.") from error
            if line <= last:
                told = f"line {number} of {store.file} isn't behind the one in front of it, in the order of bytes"
                raise BadSettings(told, "Look who wrote it: the rows of a seal are sorted.")
            last = line
            if kind in ("entry", "seat"):
                seats.add((key[0], str(members["name" if kind == "seat" else "seat"])))
            if not DIGEST.fullmatch(members.get("key_sha256", NONE)):
                raise BadSettings(f"line {number} of {store.file} has no SHA-256 of a key", "Look who wrote it.")
            self._take(len(self.files), kind, key, members)
        if not file.is_text(store.seal.text) or file.count != store.seal.rows:
            told = f"{store.file} isn't the one that was sealed at {store.seal.at}: it was cut, or changed"
            raise BadSettings(told, "Get it anew, with its .seal beside it.")
        for seat in sorted(seats):
            if (other := self._seats.setdefault(seat, len(self.files))) != len(self.files):
                both = f"{self.files[other]} and {store.file}"
                told = f"{both} both have the seat {seat[1]} of {seat[0]}, as two seals of one store do"
                raise BadSettings(told, "Name the last seal of each store alone.")
        self.files.append(store.file)

    def _take(self, store: int, kind: str, key: tuple[str, ...], it: dict[str, Any]) -> None:
        place = store, kind, " ".join(key)
        if kind == "device":
            self._add("chip", self._same.get(key[0], key[0]), key[1], "", *place)
        elif kind in ("record", "import"):
            self._add("serial number", it["issuer"], it["serial"], it["key_sha256"], *place)
            self._add("key", it["issuer"], it["key_sha256"], it["serial"], *place)
        if kind == "record":
            self.records += 1
            self._add("key", "", it["key_sha256"], it["issuer"], *place)
        if kind in ("record", "order") and it["mac"]:
            first, count = int(it["mac"], 16), it["quantity"] * it["macs"] if kind == "order" else 1
            self._spans.put([(first, *place, first + max(0, min(count, ADDRESSES)))])

    def _add(self, what: str, whose: str, value: str, mark: str, store: int, kind: str, key: str) -> None:
        """A record comes in front of an import, so that two records are seen."""
        self._given.put([(what, whose, value, kind == "import", store, key, kind, mark)])

    def twice(self) -> Iterator[tuple[str, str]]:
        """What stands twice: its kind, and a sentence."""
        for (what, whose, value), rows in groupby(self._given, itemgetter(0, 1, 2)):
            (*_, store, key, kind, mark), *others = rows
            for *_, place, other, other_kind, its in others:
                is_other = its != mark and (whose or place != store)
                if is_other or what != "key" and kind == other_kind != "import":
                    yield self._told(what, value, (store, kind, key), (place, other_kind, other))
        furthest = dict[tuple[int, str], tuple[int, str]]()
        for first, store, kind, key, behind in self._spans:
            for (place, its_kind), (end, its) in furthest.items():
                if end > first and (place != store or its_kind == kind):
                    yield self._told("address", f"{first:012x}", (place, its_kind, its), (store, kind, key))
                    break
            furthest[store, kind] = max(furthest.get((store, kind), (0, "")), (behind, key))

    def _told(self, what: str, value: str, *rows: tuple[int, str, str]) -> tuple[str, str]:
        both = " and ".join(f"{named_row(kind, key)} in {self.files[store]}" for store, kind, key in rows)
        return what, f"The {what} {value} stands twice: {both}."
