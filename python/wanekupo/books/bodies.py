"""The requests of journals as they may be sent once more: with words in the place of digests, of keys in no one's use.

A line has the SHA-256 of each block. A block without a key is what is known to be burnt, and is tried until its digest
is the line's. Of a key nobody knows more than the digest. So another key is put in its place wherever it stands, and
the replies get the old digests back.
"""

import hashlib
import json
from itertools import chain
from typing import Any, Iterator, Mapping, Optional, Sequence

from wanekupo.books.scratch import Known
from wanekupo.books.sequence import Done
from wanekupo.books.steps import loaded
from wanekupo.books.store_rows import Books
from wanekupo.chips.layout import Layout
from wanekupo.seat.forms import DIGEST

# What a key block without a key shows.
BLANK = hashlib.sha256(bytes(32)).hexdigest()

# Bits of a block, the lowest one first, and those of each block.
Bits = list[int]


class Keys:
    """Keys in the place of those whose digests alone are known."""

    def __init__(self) -> None:
        self._digests = Known()

    def key_of(self, digest: str) -> bytes:
        """The 32 bytes in the place of the key with a digest; zeros are no key."""
        key = bytes(32) if digest == BLANK else hashlib.sha256(b"replay" + digest.encode()).digest()
        self._digests[hashlib.sha256(key).hexdigest()] = digest
        return key

    def digest_of(self, digest: str) -> str:
        """The digest in the place of another."""
        return hashlib.sha256(self.key_of(digest)).hexdigest()

    def told(self, text: str) -> str:
        """A text of the program's, with the digests that are really meant."""
        return DIGEST.sub(lambda it: str(self._digests.get(it[0], it[0])), text)


class Bodies:
    """Makes the bodies of a customer's requests, one after another."""

    def __init__(self, customer: str, store: Books, keys: Keys):
        self._customer, self._store, self._keys = customer, store, keys
        self._known = Known()

    def body(self, done: Done, number: int) -> tuple[bytes, list[int]]:
        """The body of a request with a number, and the blocks that show what no bits of its entry come to."""
        asked: dict[str, Any] = {**done.step.asked, "nr": number}
        unknown = list[int]()
        if "blocks" in asked:
            asked["blocks"], unknown = self._blocks(done, asked["blocks"])
        if "wishes" in asked:
            asked["wishes"] = [self._wish(it) for it in loaded(asked["wishes"])]
        text = json.dumps(asked, ensure_ascii=False, separators=(",", ":"))
        return text.encode("utf-8", "surrogatepass"), unknown

    def _wish(self, wish: Mapping[str, Any]) -> Mapping[str, Any]:
        if wish.get("kind") != "key":
            return wish
        return {**wish, "key_sha256": self._keys.digest_of(str(wish.get("key_sha256")).lower())}

    def _blocks(self, done: Done, digests: Sequence[str]) -> tuple[list[list[str]], list[int]]:
        """The words of the blocks that a line has the digests of."""
        digest = str(done.step.asked.get("map")).lower()
        digest, before = self._known.get(done.step.chip) or (digest, None)
        words = self._store.layouts.get((self._customer, digest))
        if not words or not words.fields or not done.entry:
            return [["00000000"] * 8 for _ in digests], []
        before = before or [0 for _ in words.blocks]
        after = list(before)
        for it in done.entry.row["bits"]:
            after[it["block"]] |= int(it["mask"], 16) << 32 * it["word"]
        self._known[done.step.chip] = digest, after
        shown = Shown(words.fields, before, after, done.entry.row["note"])
        keys = {block for _, block in words.keys}
        found, unknown = list[list[str]](), list[int]()
        for block, (digest, count) in enumerate(zip(digests, words.blocks)):
            key = self._keys.key_of(digest) if block in keys else b""
            bits = int.from_bytes(key, "little") if key else shown.bits(block, digest)
            unknown += [block] if bits is None else []
            found.append(_words(bits or 0, count))
        return found + [["00000000"] for _ in digests[len(found) :]], unknown


def _words(bits: int, count: int) -> list[str]:
    return [f"{bits >> 32 * place & 0xFFFFFFFF:08x}" for place in range(count)]


class Shown:
    """What a chip can have shown: `before` and `after` is what was known to be burnt."""

    def __init__(self, layout: Layout, before: Bits, after: Bits, note: str):
        self._layout, self._before, self._after, self._note = layout, before, after, note

    def bits(self, block: int, digest: str) -> Optional[int]:
        """The bits of a block with this digest. Where some were lost, or hidden ones showed, others like it will do."""
        after, known = self._after[block], self._before[block]
        hidden = self._hidden(block)
        readable = after & ~hidden | after & ~known
        tried = chain((readable, after), _but_one(readable, known) if self._note == "lost" else ())
        size = 4 * self._layout.blocks[block]
        digests = ((it, hashlib.sha256(it.to_bytes(size, "little")).hexdigest()) for it in tried)
        found = next((it for it, made in digests if made == digest), None)
        if found is None and self._note == "lost":
            return next(_but_one(readable, known), readable)
        return after if found is None and self._note == "stray" and after & hidden else found

    def _hidden(self, block: int) -> int:
        """Which bits of a block burnt read locks hide."""
        own = (it for it in self._layout.fields.values() if it.block == block)
        locks = ((it, self._layout.read_lock(it.name)) for it in own)
        hidden = [it for it, lock in locks if lock and self._after[lock[0]] >> lock[1] & 1]
        return sum(((1 << it.count) - 1) << it.bit for it in hidden)


def _but_one(bits: int, known: int) -> Iterator[int]:
    return (bits & ~(1 << place) for place in range(bits.bit_length()) if bits & known & 1 << place)
