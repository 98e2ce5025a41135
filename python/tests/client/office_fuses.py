"""What the office of tests knows of fuses, by the pages docs/integrate/api.md and files.md: plans, and read-backs.

A *work* is `{"bits": [..], "keys": {..}}`, with a whole number for the bits of each block of the map.
"""

import hashlib
import tomllib

from office_refusals import Refusal

NOTHING = {"bits": [], "keys": {}}


def work_of(work):
    """A work as a reply has it."""
    words = [
        {"block": block, "mask": f"{bits >> 32 * word & 0xFFFFFFFF:08x}", "word": word}
        for block, bits in enumerate(work["bits"])
        for word in range((bits.bit_length() + 31) // 32)
        if bits >> 32 * word & 0xFFFFFFFF
    ]
    return {"bits": words, "keys": work["keys"]}


class Fuses:
    """A fuse map: its blocks, its fields by name, and those that lock."""

    def __init__(self, text):
        try:
            table = tomllib.loads(text)
            self.words, self.fields = [it["words"] for it in table["block"]], {it["name"]: it for it in table["field"]}
            self.write, self.read = self.fields[table["wr"]], self.fields[table["rd"]]
            self.coding = self.fields.get(table.get("coding"))
        except tomllib.TOMLDecodeError:
            raise Refusal(29, fault=1) from None
        except (KeyError, TypeError):
            raise Refusal(29, fault=2) from None
        places = [(it["block"], it["bit"] + bit) for it in self.fields.values() for bit in range(it["count"])]
        if len(set(places)) < len(places):
            raise Refusal(29, fault=5)
        self.keys = {it["block"]: name for name, it in self.fields.items() if it.get("key")}

    def none(self):
        return [0] * len(self.words)

    def mask(self, field):
        return (1 << field["count"]) - 1 << field["bit"]

    def lock(self, field, kind):
        """The block and the bit that locks a field for `write` or `read`; None where it has no such lock."""
        of = getattr(self, kind)
        return (of["block"], 1 << of["bit"] + field[kind]) if kind in field else None

    def is_locked(self, field, kind, bits):
        lock = self.lock(field, kind)
        return lock is not None and bool(bits[lock[0]] & lock[1])

    def taken(self, blocks):
        """What a chip shows: the bits of each block outside keys, and each block that isn't zeros of those for keys."""
        if [len(block) for block in blocks] != self.words:
            raise Refusal(41)
        bits, keys = self.none(), {}
        for place, block in enumerate(blocks):
            data = b"".join(bytes.fromhex(word)[::-1] for word in block)
            if place not in self.keys:
                bits[place] = int.from_bytes(data, "little")
            elif any(data):
                keys[self.keys[place]] = hashlib.sha256(data).hexdigest()
        return bits, keys

    def registered(self, blocks):
        bits, keys = self.taken(blocks)
        if self.coding and bits[self.coding["block"]] & self.mask(self.coding):
            raise Refusal(36)
        return {"bits": bits, "keys": keys}

    # Plans.

    def wished(self, wishes, burnt):
        """The ones, the zeros and the keys of wishes; the lowest number by which one is refused for itself."""
        ones, zeros, keys, found = self.none(), self.none(), {}, set()
        for wish in wishes:
            field, kind = self.fields.get(wish["field"]), wish["kind"]
            if field is None:
                found.add(19)
            elif kind == "key":
                digest = wish["key_sha256"].lower()
                found |= {24} if not field.get("key") else set()
                found |= {23} if keys.get(wish["field"], digest) != digest else set()
                found |= {25} if burnt["keys"].get(wish["field"], digest) != digest else set()
                keys[wish["field"]] = digest
            elif kind in ("wlock", "rlock"):
                lock = self.lock(field, "write" if kind == "wlock" else "read")
                found |= {28} if lock is None else set()
                if lock:
                    ones[lock[0]] |= lock[1]
            else:
                value = 1 << wish["index"] if kind == "bit" else int(wish["value"], 16)
                found |= {20 if kind == "bit" else 21} if value >> field["count"] else set()
                found |= {24} if field.get("key") or field is self.coding and value else set()
                ones[field["block"]] |= value << field["bit"] & self.mask(field)
                if kind == "value":
                    zeros[field["block"]] |= self.mask(field) & ~(value << field["bit"])
        return ones, zeros, keys, found

    def planned(self, wishes, burnt):
        """Both batches of what is wished and isn't burnt."""
        ones, zeros, keys, found = self.wished(wishes, burnt)
        found |= {22 for zero, there in zip(zeros, burnt["bits"]) if zero & there}
        found |= {23 for one, zero in zip(ones, zeros) if one & zero}
        bits = [one & ~there for one, there in zip(ones, burnt["bits"])]
        keys = {name: digest for name, digest in keys.items() if name not in burnt["keys"]}
        for name, field in self.fields.items():
            if name in keys or bits[field["block"]] & self.mask(field) and not field.get("key"):
                found |= {26} if self.is_locked(field, "write", burnt["bits"]) else set()
                found |= {27} if self.is_locked(field, "read", burnt["bits"]) else set()
        if found:
            raise Refusal(min(found))
        locks = self.none()
        for field in (self.write, self.read):
            locks[field["block"]] |= self.mask(field)
        first = {"bits": [it & ~lock for it, lock in zip(bits, locks)], "keys": keys}
        return first, {"bits": [it & lock for it, lock in zip(bits, locks)], "keys": {}}

    # Read-backs.

    def hidden(self, bits):
        """The bits that read locks hide, and the key fields that they do."""
        fields = [it for it in self.fields.values() if self.is_locked(it, "read", bits)]
        masks = self.none()
        for field in fields:
            masks[field["block"]] |= self.mask(field)
        return masks, {it["name"] for it in fields if it.get("key")}

    def is_other_key(self, shown, known, awaited, is_hidden):
        """Whether a block shows a key where it is hidden; else another one than is known or awaited, or none of those
        that are known."""
        if is_hidden or shown is None:
            return shown is not None if is_hidden else known is not None
        return shown != (known or awaited)

    def compared(self, blocks, burnt, batch):
        """The outcome of a read-back, what isn't there of the batch, what is burnt then, and what of that is new."""
        shown, keys = self.taken(blocks)
        awaited = batch["bits"] or self.none()
        known = burnt["bits"]
        masks, hidden = self.hidden([it | more for it, more in zip(known, awaited)])
        rest = [it & ~there & ~mask for it, there, mask in zip(awaited, shown, masks)]
        lacking = {name: it for name, it in batch["keys"].items() if name not in keys and name not in hidden}
        by_field = [[it.get(name) for it in (keys, burnt["keys"], batch["keys"])] for name in self.keys.values()]
        if any(it & ~mask & ~there for it, mask, there in zip(known, masks, shown)):
            outcome = "lost"
        elif any(there & ~(it | more) or there & mask for there, it, more, mask in zip(shown, known, awaited, masks)):
            outcome = "stray"
        elif any(self.is_other_key(*it, name in hidden) for it, name in zip(by_field, self.keys.values())):
            outcome = "key"
        else:
            outcome = "short" if any(rest) or lacking else "match"
        added = {"bits": [it & ~there for it, there in zip(shown, known)],
                 "keys": {name: it for name, it in keys.items() if name not in burnt["keys"]}}
        then = {"bits": [it | there for it, there in zip(known, shown)], "keys": burnt["keys"] | added["keys"]}
        return outcome, {"bits": rest, "keys": lacking} if outcome == "short" else NOTHING, then, added
