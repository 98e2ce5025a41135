"""What the columns of fuses of a store mean, by the map of a device (docs/reference/files.md#the-store)."""

import functools
import struct
import tomllib
from dataclasses import dataclass
from typing import Any, Iterator, Optional

from wanekupo.chips import layout as recipe_wishes
from wanekupo.common.errors import StationError
from wanekupo.common.site_file import MARK

# A key in a column: whether it is known, and the SHA-256 of its bytes.
KEY_BYTES = 33

# The most words of a map: four blocks of eight (docs/reference/program.md#limits). More would fill the memory.
MOST_WORDS = 32


class BadMap(StationError):
    """A map of the store that this program can't read."""


@dataclass(frozen=True)
class FuseWords:
    """The words of a map's blocks, its key fields in their order, each with its block, and all of its fields; of a map
    that can't be read nothing."""

    blocks: tuple[int, ...] = ()
    keys: tuple[tuple[str, int], ...] = ()
    fields: Optional[recipe_wishes.Layout] = None

    def bits_length(self) -> int:
        return 4 * sum(self.blocks)

    def bits(self, column: bytes) -> list[dict[str, Any]]:
        """Each word outside key fields that isn't zero, as a reply has it."""
        length = self.bits_length()
        masks = struct.unpack(f"<{length // 4}I", column[:length].ljust(length, b"\0")) if any(column) else ()
        return [
            {"block": block, "mask": f"{mask:08x}", "word": word}
            for (block, word), mask in zip(self._words, masks)
            if mask and block not in self._hidden
        ]

    @functools.cached_property
    def _words(self) -> list[tuple[int, int]]:
        """Each word, its block and its number there, in the order of the columns."""
        return [(block, word) for block, words in enumerate(self.blocks) for word in range(words)]

    @functools.cached_property
    def _hidden(self) -> frozenset[int]:
        return frozenset(block for _, block in self.keys)

    def known_keys(self, column: bytes) -> dict[str, str]:
        """The SHA-256 of each key that is known, by its field."""
        parts = [column[place : place + KEY_BYTES] for place in range(0, KEY_BYTES * len(self.keys), KEY_BYTES)]
        return {
            field: part[1:].ljust(32, b"\0").hex() for (field, _), part in zip(self.keys, parts) if part[:1] == b"\1"
        }

    def stray_bytes(self, bits: bytes, keys: bytes, todo: bytes) -> Iterator[str]:
        """Which columns have ones where no bit and no key stands."""
        length, end = self.bits_length(), KEY_BYTES * len(self.keys)
        parts = (bits, todo[:length], todo[length : 2 * length])
        if any(int.from_bytes(it[:length], "little") & self._nothing or any(it[length:]) for it in parts):
            yield "has bits where keys stand, or behind its last block"
        for column in (keys, todo[2 * length :]):
            known = [column[place : place + KEY_BYTES] for place in range(0, end, KEY_BYTES)]
            if any(column[end:]) or any(it[:1] not in (b"", b"\1") and any(it) for it in known):
                yield "has a part of a key that isn't known"

    @functools.cached_property
    def _nothing(self) -> int:
        """The places of key blocks in a column of bits."""
        words = (0xFFFFFFFF if block in self._hidden else 0 for block, _ in self._words)
        return sum(mask << 32 * place for place, mask in enumerate(words))

    def pending(self, column: bytes) -> dict[str, Any]:
        """What is still to be burnt, as a reply has it."""
        length = self.bits_length()
        first, second, keys = column[:length], column[length : 2 * length], column[2 * length :]
        return {
            "batch1": {"bits": self.bits(first), "keys": self.known_keys(keys)},
            "batch2": {"bits": self.bits(second), "keys": {}},
        }


def layout_of(text: str) -> FuseWords:
    """The layout of a map's text, which a mark of the order of bytes may begin. The server reads TOML 1.1, and this
    program 1.0."""
    text = text.removeprefix(MARK)
    try:
        table = tomllib.loads(text)
        blocks = tuple(int(block["words"]) for block in table["block"])
        if not 0 < min(blocks) <= sum(blocks) <= MOST_WORDS:
            raise ValueError("it has more words than a map")
        keys = tuple((str(it["name"]), int(it["block"])) for it in table["field"] if it.get("key"))
        fields = recipe_wishes.Layout(text)
        its = fields.fields.values()
        if not all(min(it.block, it.bit) >= 0 < it.count <= 32 * blocks[it.block] - it.bit for it in its):
            raise ValueError("a field lies in no block")
    except (ValueError, LookupError, TypeError, AttributeError, RecursionError) as error:
        raise BadMap(str(error)) from error
    return FuseWords(blocks, keys, fields)
