"""The faults of a fuse map's text, by docs/reference/files.md."""

from dataclasses import dataclass
from typing import Any

from wanekupo.plant.site.faults import LARGEST_WHOLE, Fault, Reader, doubles, read, shown
from wanekupo.plant.site.positions import Path

TEXT_LIMIT, BLOCKS, WORDS, FIELDS = 32_768, 4, 8, 128


@dataclass
class WrittenField:
    """A field, with the path of its table."""

    name: str
    block: int
    bit: int
    count: int
    locks: dict[str, int]
    is_key: bool
    path: Path

    def end(self) -> int:
        return self.bit + self.count


@dataclass
class FuseMap:
    words: list[int]
    fields: list[WrittenField]
    roles: dict[str, str]

    def named(self, name: str) -> WrittenField | None:
        return next((field for field in self.fields if field.name == name), None)

    def bits(self, block: int) -> int:
        return 32 * self.words[block] if block < len(self.words) else 0


def map_faults(text: str) -> list[Fault]:
    """The faults of a text, those of the lowest number first; none where it is a map."""
    if len(text.encode()) > TEXT_LIMIT:
        return [Fault(2, 1, "the text", f"it has {len(text.encode()):,} bytes, and may have {TEXT_LIMIT:,}")]
    reader = read(text)
    if isinstance(reader, Fault):
        return [reader]
    found = read_map(reader)
    if not reader.faults:
        for judge in (judge_names, judge_places, judge_overlaps, judge_lock_fields, judge_locks, judge_keys):
            judge(reader, found)
    return reader.lowest()


def read_map(reader: Reader) -> FuseMap:
    """The members, each of its type and range."""
    document = reader.document
    reader.name(document, ("name",))
    roles = {role: reader.name(document, (role,), role != "coding") for role in ("wr", "rd", "coding")}
    words = [
        reader.whole(block, ("block", place, "words"), 1, WORDS) or 0
        for place, block in enumerate(tables(reader, "block", BLOCKS))
    ]
    found = enumerate(tables(reader, "field", FIELDS))
    fields = [read_field(reader, table, ("field", place)) for place, table in found]
    return FuseMap(words, fields, {role: name for role, name in roles.items() if name is not None})


def tables(reader: Reader, kind: str, limit: int) -> list[Any]:
    """The tables of a kind, 1 to so many of them."""
    found = reader.member(reader.document, (kind,), list)
    if found is not None and not 1 <= len(found) <= limit:
        reader.tell(2, (kind,), f"there are {len(found)} of {kind}, and have to be 1 to {limit}")
    return found or []


def read_field(reader: Reader, table: Any, path: Path) -> WrittenField:
    if not isinstance(table, dict):
        reader.tell(2, path, f"{shown(table)} stands where a field has to: a table")
        return WrittenField("", 0, 0, 1, {}, False, path)
    name = reader.name(table, (*path, "name")) or ""
    block = reader.whole(table, (*path, "block"), 0, LARGEST_WHOLE) or 0
    bit = reader.whole(table, (*path, "bit"), 0, LARGEST_WHOLE) or 0
    count = reader.whole(table, (*path, "count"), 1, LARGEST_WHOLE) or 1
    locks = {kind: reader.whole(table, (*path, kind), 0, LARGEST_WHOLE, False) for kind in ("write", "read")}
    is_key = reader.member(table, (*path, "key"), bool, False)
    return WrittenField(name, block, bit, count, {k: n for k, n in locks.items() if n is not None}, bool(is_key), path)


def judge_names(reader: Reader, found: FuseMap) -> None:
    for name, path, first in doubles([(field.name, (*field.path, "name")) for field in found.fields]):
        reader.tell(3, path, f"the field {name} is in line {reader.line(first)} already")


def judge_places(reader: Reader, found: FuseMap) -> None:
    for field in found.fields:
        if field.block >= len(found.words):
            cause = f"{field.name} lies in block {field.block:,}, and there are {len(found.words)}, numbered from 0"
            reader.tell(4, (*field.path, "block"), cause)
        elif field.end() > found.bits(field.block):
            cause = f"{field.name} has the bits {field.bit:,} to {field.end() - 1:,}"
            cause += f", and block {field.block} ends at {found.bits(field.block) - 1}"
            reader.tell(4, (*field.path, "count"), cause)


def judge_overlaps(reader: Reader, found: FuseMap) -> None:
    """Two fields with a bit in common: each with the nearest before it that it meets."""
    ordered = sorted(found.fields, key=lambda field: (field.block, field.bit))
    longest: WrittenField | None = None
    for field in ordered:
        if longest and longest.block == field.block and field.bit < longest.end():
            later, earlier = (field, longest) if field.path > longest.path else (longest, field)
            last = min(field.end(), longest.end()) - 1
            cause = f"{later.name} has bits {field.bit} to {last} of block {field.block}"
            cause += f", which are {earlier.name}'s too (line {reader.line(earlier.path)})"
            reader.tell(5, (*later.path, "bit"), cause)
        if not longest or longest.block != field.block or field.end() > longest.end():
            longest = field


def judge_lock_fields(reader: Reader, found: FuseMap) -> None:
    """`wr`, `rd` and `coding` name three plain fields, the first two of them without `read`."""
    for role, name in found.roles.items():
        field = found.named(name)
        if not field:
            reader.tell(6, (role,), f"there is no field {name}")
        elif field.is_key:
            reader.tell(6, (role,), f"{name} is a key field (line {reader.line(field.path)})")
        elif role != "coding" and "read" in field.locks:
            cause = f"{name} has `read` (line {reader.line((*field.path, 'read'))}), and a field of locks can't have it"
            reader.tell(6, (role,), cause)
    named: list[tuple[Any, Path]] = [(name, (role,)) for role, name in found.roles.items()]
    for name, path, first in doubles(named):
        reader.tell(6, path, f"{name} is `{first[0]}` already")


def judge_locks(reader: Reader, found: FuseMap) -> None:
    for kind, role in (("write", "wr"), ("read", "rd")):
        lock = found.named(found.roles[role])
        for field in found.fields:
            if lock and field.locks.get(kind, 0) >= lock.count:
                cause = f"bit {field.locks[kind]:,} isn't in {lock.name}, which has {lock.count}, numbered from 0"
                reader.tell(7, (*field.path, kind), cause)


def judge_keys(reader: Reader, found: FuseMap) -> None:
    for field in found.fields:
        if not field.is_key:
            continue
        if field.bit != 0 or field.count != 256 or found.bits(field.block) != 256:
            cause = f"the key field {field.name} has to be a whole block of 8 words: bit 0, count 256"
            reader.tell(8, (*field.path, "key"), cause)
        for kind in {"write", "read"} - field.locks.keys():
            reader.tell(8, (*field.path, "key"), f"the key field {field.name} lacks `{kind}`")
