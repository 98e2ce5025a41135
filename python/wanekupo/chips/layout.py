"""What a recipe's wishes are in its fuse map: which bits are to read 1 and which 0, and which keys are to be there.

The server judges each plan by itself. This is for a chip that can't be planned any more: what it awaits by another's
plan, and what is burnt of one that has its identity. The map's form is on the page docs/reference/files.md.
"""

import hashlib
import tomllib
from dataclasses import dataclass
from typing import Any, Iterable, Mapping, Optional, Sequence

from wanekupo.chips.families import bytes_of
from wanekupo.chips.work import Word, Work

# A bit of the chip: its block in the map, and its place in that block.
Place = tuple[int, int]


@dataclass(frozen=True)
class Field:
    """A field of a map. `write` and `read` are the bits of the lock fields that lock it."""

    name: str
    block: int
    bit: int
    count: int
    write: Optional[int] = None
    read: Optional[int] = None
    key: bool = False

    def place(self, index: int) -> Place:
        return self.block, self.bit + index


class Layout:
    """The name and the fields of a fuse map, and those of them that have the locks and the coding scheme."""

    def __init__(self, text: str):
        table = tomllib.loads(text)
        names = Field.__dataclass_fields__
        fields = [Field(**{name: it[name] for name in names if name in it}) for it in table["field"]]
        self.name, self.fields = str(table["name"]), {it.name: it for it in fields}
        self.coding = self.fields.get(table.get("coding", ""))
        self.blocks = [int(it["words"]) for it in table["block"]]
        self._write, self._read = self.fields[table["wr"]], self.fields[table["rd"]]

    def write_lock(self, name: str) -> Optional[Place]:
        lock = self.fields[name].write
        return None if lock is None else self._write.place(lock)

    def read_lock(self, name: str) -> Optional[Place]:
        lock = self.fields[name].read
        return None if lock is None else self._read.place(lock)

    def locks(self) -> frozenset[Place]:
        """The bits of both fields of locks, which a plan has in its second batch."""
        return frozenset(it.place(index) for it in (self._write, self._read) for index in range(it.count))

    def names(self, places: Iterable[Place], keys: Iterable[str] = ()) -> list[str]:
        """What a person calls these bits and keys, each once."""
        return sorted({*map(self.name_of, places), *keys})

    def unhidden(self, places: frozenset[Place]) -> frozenset[Place]:
        """Those of the burnt bits that no burnt read lock hides."""
        hidden = [it for it in self.fields.values() if self.read_lock(it.name) in places]
        return places.difference(it.place(index) for it in hidden for index in range(it.count))

    def number_of(self, name: str, ones: frozenset[Place]) -> int:
        """The number that a field reads, of which these bits are 1."""
        field = self.fields[name]
        return sum(1 << index for index in range(field.count) if field.place(index) in ones)

    def shown(self, blocks: Sequence[Sequence[str]]) -> frozenset[Place]:
        """The bits that a chip shows as 1, outside its keys."""
        keys = {it.block for it in self.fields.values() if it.key}
        own = [(block, words) for block, words in enumerate(blocks) if block not in keys]
        found = [Word(block, place, int(word, 16)) for block, words in own for place, word in enumerate(words)]
        return places_of(Work(tuple(found), {}))

    def has_some(self, blocks: Sequence[Sequence[str]], work: Work) -> bool:
        """Whether a chip shows something of a batch: of its bits, or of a block for its keys."""
        keys = [blocks[self.fields[name].block] for name in work.keys]
        return bool(self.shown(blocks) & places_of(work)) or any(int(word, 16) for words in keys for word in words)

    def name_of(self, place: Place) -> str:
        """What a person calls a bit: its field, or the lock of one."""
        for name in self.fields:
            if place == self.write_lock(name):
                return f"the write lock of {name}"
            if place == self.read_lock(name):
                return f"the read lock of {name}"
        for it in self.fields.values():
            if it.block == place[0] and it.bit <= place[1] < it.bit + it.count:
                return it.name
        return f"bit {place[1]} of block {place[0]}"


@dataclass(frozen=True)
class Wanted:
    """What is to be there in the end; `keys` are the digests of keys by their fields."""

    layout: Layout
    ones: frozenset[Place]
    zeros: frozenset[Place]
    keys: Mapping[str, str]

    def others(self, burnt: Work, awaited: Iterable[Work]) -> list[str]:
        """The names of what is burnt, or awaited, and contradicts the wishes; what is awaited has to be wished for."""
        works = list(awaited)
        to_burn = frozenset().union(*map(places_of, works))
        places = (to_burn - self.ones) | (places_of(burnt) & self.zeros)
        keys = [name for name, digest in burnt.keys.items() if self.keys.get(name, digest) != digest]
        keys += [name for it in works for name, digest in it.keys.items() if self.keys.get(name) != digest]
        return self.layout.names(places, keys)

    def refused(self, burnt: Work) -> list[str]:
        """Why no plan of the wishes can be had of what is burnt, in words: a field reads what it can't read in the end,
        has another key, or lacks something that its lock keeps out."""
        layout, there, told = self.layout, places_of(burnt), []
        for name in layout.names(there & self.zeros):
            numbers = [f"{layout.number_of(name, it):x}" for it in (there, self.ones) if name in layout.fields]
            told.append("{} reads {}, the recipe wants {}".format(name, *numbers) if numbers else f"{name} is burnt")
        told += [f"{name} has another key" for name, it in burnt.keys.items() if self.keys.get(name, it) != it]
        lacking = set(self.missing([burnt]))
        for name in sorted(lacking & layout.fields.keys()):
            locks = {"written": layout.write_lock(name), "read": layout.read_lock(name)}
            told += [f"{name} can't be {word} any more" for word, lock in locks.items() if lock in there]
        return told

    def unseen(self, blocks: Sequence[Sequence[str]]) -> list[str]:
        """The names of what is wished for and that a chip doesn't show, though no burnt read lock hides it."""
        there = self.layout.shown(blocks)
        seen = [it for it in self.layout.fields.values() if self.layout.read_lock(it.name) not in there]
        digests = {it.name: hashlib.sha256(bytes_of(blocks[it.block])).hexdigest() for it in seen if it.key}
        hidden = {it.place(at) for it in self.layout.fields.values() if it not in seen for at in range(it.count)}
        keys = [name for name, digest in self.keys.items() if digests.get(name, digest) != digest]
        return self.layout.names(self.ones - there - hidden, keys)

    def locked(self, work: Work) -> set[str]:
        """The names of the keys over which a batch burns a lock."""
        locks = {name: {self.layout.write_lock(name), self.layout.read_lock(name)} for name in self.keys}
        return {name for name, its in locks.items() if its & places_of(work)}

    def missing(self, works: Iterable[Work]) -> list[str]:
        """The names of what is wished for and is in none of the works."""
        works = list(works)
        places = self.ones.difference(*map(places_of, works))
        return self.layout.names(places, [name for name in self.keys if all(name not in it.keys for it in works)])


def wanted_of(layout: Layout, wishes: Iterable[Mapping[str, Any]]) -> Wanted:
    """What wishes come to, in the words in which the server is asked."""
    ones: set[Place] = set()
    zeros: set[Place] = set()
    keys = {}
    for wish in wishes:
        field, kind = layout.fields[wish["field"]], wish["kind"]
        lock = {"wlock": layout.write_lock, "rlock": layout.read_lock}.get(kind)
        if kind == "key":
            keys[field.name] = wish["key_sha256"]
        elif kind == "bit":
            ones.add(field.place(wish["index"]))
        elif kind == "value":
            number = int(wish["value"], 16)
            for index in range(field.count):
                (ones if number >> index & 1 else zeros).add(field.place(index))
        elif lock and (place := lock(field.name)):
            ones.add(place)
    return Wanted(layout, frozenset(ones), frozenset(zeros), keys)


def places_of(work: Work) -> frozenset[Place]:
    """The bits of a reply's words."""
    return frozenset((it.block, 32 * it.word + bit) for it in work.bits for bit in range(32) if it.mask >> bit & 1)
