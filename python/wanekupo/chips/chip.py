"""A chip as a station names it: the wishes of a plan, what a chip shows, and what of it goes into a log."""

import hashlib
from typing import Any, Mapping

from wanekupo.chips.families import Blocks, Told, bytes_of, crc8
from wanekupo.chips.work import Work

# The wishes of a plan.


def bit(field: str, index: int) -> dict[str, Any]:
    return {"kind": "bit", "field": field, "index": index}


def value(field: str, digits: str) -> dict[str, Any]:
    """Hexadecimal digits, the highest first."""
    return {"kind": "value", "field": field, "value": digits}


def key(field: str, key_sha256: str) -> dict[str, Any]:
    """A key by the SHA-256 of its bytes as they stand in the block: `KeyFile.digest`."""
    return {"kind": "key", "field": field, "key_sha256": key_sha256}


def wlock(field: str) -> dict[str, Any]:
    return {"kind": "wlock", "field": field}


def rlock(field: str) -> dict[str, Any]:
    return {"kind": "rlock", "field": field}


# What a chip shows.


def chip_of(blocks: Blocks) -> str:
    """The name of the chip that showed these blocks, its factory MAC. In those of an ESP32 the CRC has to be right."""
    if isinstance(blocks, Told):
        return blocks.chip
    low, high = (int(word, 16) for word in blocks[0][1:3])
    mac = ((high & 0xFFFF) << 32 | low).to_bytes(6, "big")
    if not any(mac) or crc8(mac) != high >> 16 & 0xFF:
        raise ValueError(f"block 0 shows no factory MAC: words 1 and 2 are {blocks[0][1]} {blocks[0][2]}")
    return mac.hex()


def checked_blocks(chip: str, blocks: Blocks) -> Blocks:
    """The same blocks, where they are this chip's: those of another, or misread ones, would quarantine it for good."""
    if chip_of(blocks) != chip:
        raise ValueError(f"this is the chip {chip_of(blocks)}, and not {chip}")
    return blocks


def redacted(members: Mapping[str, Any]) -> dict[str, Any]:
    """A request's members, with the SHA-256 of each block in place of its words, which may be a key."""
    if "blocks" not in members:
        return dict(members)
    return {**members, "blocks": [hashlib.sha256(bytes_of(block)).hexdigest() for block in members["blocks"]]}


def shows_work(blocks: Blocks, work: Work) -> bool:
    """Whether a chip shows all bits and keys of a batch."""
    digests = {hashlib.sha256(bytes_of(block)).hexdigest() for block in blocks}
    bits = all(int(blocks[it.block][it.word], 16) & it.mask == it.mask for it in work.bits)
    return bits and digests.issuperset(work.keys.values())
