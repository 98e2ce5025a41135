"""Chip families as data: which blocks a chip has, which of them the server is told, where its factory MAC lies, and how
its keys are burnt. Each is a folder of `families`, by the name that espefuse's --chip has for it: `family.toml` is the
family, and `map.toml` the fuse map that comes with it."""

import functools
import re
import tomllib
from dataclasses import dataclass, field
from pathlib import Path
from typing import Any, Mapping, Optional, Self, Sequence

from wanekupo.common.errors import StationError

# What a chip shows: its blocks, each a list of words of eight hexadecimal digits, block 0 and word 0 first.
Blocks = list[list[str]]

FOLDER = Path(__file__).resolve().parent / "families"

# A block of a dump: version 4.7 says `read_regs`; newer ones say `dump`.
DUMPED = re.compile(r"^\S+ +\(.*\) \[(\d+) *\] (?:read_regs|dump):((?: [0-9a-f]{8})+) *$", re.MULTILINE)
VERSION = re.compile(r"^espefuse(?:\.py)? v(\d+(?:\.\w+)*)", re.MULTILINE)
CHIP = re.compile(r"^(?:Detecting chip type\.\.\.|Connected to) +(ESP32(?:-[A-Z]\d+)?)\b", re.MULTILINE)
FAILED = re.compile(r"^Error\(s\) in BLOCK(\d+) \[ERRORS:\d+ FAIL:1\]", re.MULTILINE)


class UnknownFamily(StationError):
    """No folder of `families` has this name."""


class BadDump(StationError):
    """A text that isn't the dump of a chip of the family."""


class NoMac(StationError):
    """A chip that shows no factory MAC, or whose MAC can't be believed."""


@dataclass(frozen=True)
class Purpose:
    """What a key is burnt as: the number that its purpose field has, if the family has one, and whether the key stands
    in its block with the bytes of its file in reverse order. `bit` is a field that goes with it, and `block` the one
    block that can have it."""

    name: str
    number: Optional[int] = None
    reversed: bool = False
    bit: Optional[str] = None
    block: Optional[int] = None


@dataclass(frozen=True)
class Mac:
    """Where a factory MAC begins: its lower 32 bits are a whole word, and behind its 48 bits is a CRC or none."""

    block: int
    word: int
    crc: bool


@dataclass(frozen=True)
class Family:
    """`told` are the numbers of the blocks that the server is told, in its order. `words` has the number of words of
    each block of the chip, `blocks` their names. `purpose_fields` are the fields that have the purpose of a key block,
    by its name. `burns` is the command of espefuse by which keys are burnt without a lock."""

    name: str
    chip: str
    told: tuple[int, ...]
    words: Mapping[int, int]
    blocks: Mapping[int, str]
    burns: str
    mac: Optional[Mac] = None
    purposes: Mapping[str, Purpose] = field(default_factory=dict)
    purpose_fields: Mapping[str, str] = field(default_factory=dict)

    def number_of(self, name: str) -> Optional[int]:
        """The number of the block with a name."""
        return next((number for number, it in self.blocks.items() if it == name), None)


def names() -> list[str]:
    """The families that there are."""
    return sorted(path.parent.name for path in FOLDER.glob("*/family.toml"))


def map_of_family(name: str) -> Optional[Path]:
    """The fuse map that comes with the family of `NAME.toml`, or None where no family has this name."""
    found = FOLDER / name.removesuffix(".toml") / "map.toml"
    return found if name.endswith(".toml") and "/" not in name and found.is_file() else None


@functools.cache
def family_of(name: str) -> Family:
    if name not in names():
        known = ", ".join(names())
        raise UnknownFamily(f"{name} is no family of chips that is known here", f"There are {known}.")
    data = tomllib.loads((FOLDER / name / "family.toml").read_text(encoding="utf-8"))
    return _family(data)


def _family(data: Mapping[str, Any]) -> Family:
    blocks = data["block"]
    return Family(
        data["name"],
        data["chip"],
        tuple(data["told"]),
        {it["number"]: it["words"] for it in blocks},
        {it["number"]: it["name"] for it in blocks},
        data["burns"],
        Mac(**data["mac"]) if "mac" in data else None,
        {it["name"]: Purpose(**it) for it in data["purpose"]},
        {it["name"]: it["purpose"] for it in blocks if "purpose" in it},
    )


@functools.cache
def reversed_names() -> frozenset[str]:
    """The names of purposes whose keys stand in their block with the bytes of the file in reverse order. A name means
    the same in each family that has it."""
    purposes = (it for name in names() for it in family_of(name).purposes.values())
    return frozenset(it.name for it in purposes if it.reversed)


def crc8(data: bytes) -> int:
    """The CRC of a factory MAC, as in the ROM of the ESP32."""
    crc = 0
    for byte in data:
        crc ^= byte
        for _ in range(8):
            crc = crc >> 1 ^ (0x8C if crc & 1 else 0)
    return crc


def bytes_of(block: Sequence[str]) -> bytes:
    """A block's bytes, the lowest of each word first."""
    return b"".join(bytes.fromhex(word)[::-1] for word in block)


class Told(list[list[str]]):
    """The blocks that the server is told, with the name of the chip that showed them: of most families these blocks
    don't have the MAC."""

    def __init__(self, blocks: Blocks, chip: str):
        super().__init__(blocks)
        self.chip = chip


@dataclass(frozen=True)
class Dump:
    """What a chip shows: all of its blocks, by espefuse's number in brackets. `failed` are the blocks whose
    Reed-Solomon code the chip couldn't make good, `version` is espefuse's."""

    family: Family
    words: Mapping[int, tuple[str, ...]]
    failed: frozenset[int] = frozenset()
    version: str = ""

    def chip(self) -> str:
        """The name of the chip: its factory MAC, where that can be believed."""
        mac, place = bytes.fromhex(self.mac()), self.family.mac
        assert place
        low, high = self.words[place.block][place.word : place.word + 2]
        is_right = int(high[2:4], 16) == crc8(mac) if place.crc else not mac[0] & 1
        if not any(mac) or not is_right or place.block in self.failed:
            told = f"Block {place.block} shows no factory MAC, but {low} {high} where it stands"
            raise NoMac(told, "Put the chip in again; if it shows the same, put it aside.")
        return mac.hex()

    def mac(self) -> str:
        """What stands in the place of the MAC."""
        place = self.family.mac
        if place is None:
            raise NoMac(f"a part of the family {self.family.name} shows no MAC", "Scan or type its name.")
        low, high = self.words[place.block][place.word : place.word + 2]
        return high[4:] + low

    def told(self) -> Told:
        """The blocks that the server is told, in its order."""
        return Told([list(self.words[number]) for number in self.family.told], self.chip())

    def differs(self, first: Self) -> list[int]:
        """The numbers of the blocks that the server isn't told and that changed since the first dump."""
        untold = sorted(self.words.keys() - set(self.family.told))
        return [number for number in untold if self.words[number] != first.words.get(number)]


def dump_of(family: Family, text: str) -> Dump:
    """What `espefuse dump` prints. The families but the ESP32 print blocks of one shape: which one it is, espefuse says
    only where it looks for the chip's kind by itself, so give it --chip."""
    found = DUMPED.findall(text)
    words = {int(number): tuple(block.split()) for number, block in found}
    if not found or len(words) != len(found):
        raise BadDump("this isn't what espefuse dump prints", "Look at what it says of the chip and its port.")
    said = [chip.lower().replace("-", "") for chip in CHIP.findall(text)]
    others = [chip for chip in said if chip != family.name]
    shape = {number: len(block) for number, block in words.items()}
    if others or shape != family.words:
        raise BadDump(_other(family, others, shape), "Look at the chip, and at the family that is named.")
    version = VERSION.search(text)
    failed = frozenset(int(number) for number in FAILED.findall(text))
    return Dump(family, words, failed, version[1] if version else "")


def _other(family: Family, said: Sequence[str], shape: Mapping[int, int]) -> str:
    """What something else than a chip of the family shows."""
    known, begin = ", ".join(names()), "this is the dump of"
    if said:
        is_known = "" if said[0] in names() else f": it is no family that is known here ({known})"
        return f"{begin} an {said[0]}, and not of an {family.name}{is_known}"
    fitting = [name for name in names() if family_of(name).words == shape]
    if fitting:
        return f"{begin} an {' or '.join(fitting)}, and not of an {family.name}"
    if shape.keys() == family.words.keys():
        block = next(number for number in shape if shape[number] != family.words[number])
        told = f"block {block} has {shape[block]} words, and that of an {family.name} {family.words[block]}"
        return f"{told}: the chip has another coding scheme, which isn't served"
    return f"{begin} a family that isn't known here ({known}): it has {len(shape)} blocks"
