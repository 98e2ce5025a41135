"""The ESP32's map: the program takes it, and each wish on a blank chip is burnt in full and read back as a match.

What a wish comes to is counted here, from the map's text and docs/integrate/api.md.
"""

import hashlib
import json
import re
import subprocess
import unittest

from simulated_chip import MAP as PATH
from simulated_chip import WORDS, SimulatedChip, map_fields
from support import DIGEST, IS_BUILT, MAP, PROGRAM, SITE

FIELDS = {field["name"]: field for field in map_fields()}
LOCK_FIELDS = (FIELDS["WR_DIS"], FIELDS["RD_DIS"])
KEY = bytes(range(1, 33))
NOTHING = {"bits": [], "keys": {}}
REPLY = re.compile(rb"HTTP/1\.1 (\d{3}) [A-Za-z ]+\r\nContent-Type: application/json\r\nContent-Length: (\d+)\r\n\r\n")


def positions(field):
    """A field's bits, in its block."""
    return (1 << field["count"]) - 1 << field["bit"]


def wishes():
    """Each wish that a blank chip can be asked for alone, with its bits by their blocks, or its key's block."""
    for name, field in FIELDS.items():
        if field.get("key"):
            yield {"kind": "key", "field": name, "key_sha256": hashlib.sha256(KEY).hexdigest()}, {}, field["block"]
        elif name != "CODING_SCHEME":
            for index in sorted({0, field["count"] - 1}):
                yield {"kind": "bit", "field": name, "index": index}, {field["block"]: 1 << field["bit"] + index}, None
            digits = f"{(1 << field['count']) - 1:x}"
            yield {"kind": "value", "field": name, "value": digits}, {field["block"]: positions(field)}, None
        for kind, lock, place in zip(("wlock", "rlock"), LOCK_FIELDS, (field.get("write"), field.get("read"))):
            if place is not None:
                yield {"kind": kind, "field": name}, {0: 1 << lock["bit"] + place}, None
    yield {"kind": "value", "field": "CODING_SCHEME", "value": "0"}, {}, None


def word_list(bits):
    """Bits by their blocks, as replies have them."""
    return [
        {"block": block, "mask": f"{bits[block] >> 32 * word & 0xFFFFFFFF:08x}", "word": word}
        for block in sorted(bits)
        for word in range(WORDS[block])
        if bits[block] >> 32 * word & 0xFFFFFFFF
    ]


def words(chip):
    """What a chip shows, as a request has it."""
    shown = zip(chip.shown(), WORDS)
    return [[f"{bits >> 32 * word & 0xFFFFFFFF:08x}" for word in range(count)] for bits, count in shown]


class Table:
    """The requests of all wishes, a chip each, and what each is to be answered."""

    def __init__(self):
        self.asked, self.expected = [], []
        order = {"name": "o1", "issuer": "acme-ca", "prefix": "A", "width": 3, "first": 0, "quantity": 999, "macs": 0}
        self.ask("/v1/order", order, None)
        self.ask("/v1/map", {"text": MAP}, {"map": DIGEST})

    def ask(self, path, members, expected):
        body = json.dumps({"nr": len(self.asked) + 1, **members}).encode()
        head = f"POST {path} HTTP/1.1\r\nAuthorization: Bearer abc\r\nContent-Length: {len(body)}\r\n\r\n"
        self.asked.append(head.encode() + body)
        self.expected.append(((path, members.get("wishes")), expected))

    def burn(self, number, wish, bits, key_block):
        """A wish on a blank chip, and the read-backs until nothing is awaited."""
        mac = bytes.fromhex(f"240ac4{number:06x}")
        chip = SimulatedChip(mac)
        self.ask("/v1/device", {"chip": mac.hex(), "order": "o1", "map": DIGEST, "blocks": words(chip)}, None)
        locks = sum(positions(field) for field in LOCK_FIELDS)
        missing = {block: mask & ~chip.blocks[block] for block, mask in bits.items()}
        second = {block: mask & (locks if block == 0 else 0) for block, mask in missing.items()}
        first = {block: mask & ~second[block] for block, mask in missing.items()}
        keys = {} if key_block is None else {wish["field"]: wish["key_sha256"]}
        batches = [{"bits": word_list(first), "keys": keys}, {"bits": word_list(second), "keys": {}}]
        states = [state for state, batch in zip(("awaiting1", "awaiting2"), batches) if batch != NOTHING] + ["settled"]
        plan = {"batch1": batches[0], "batch2": batches[1], "state": states.pop(0)}
        self.ask("/v1/plan", {"chip": mac.hex(), "wishes": [wish]}, plan)
        if key_block is not None:
            chip.burn_key(f"BLOCK{key_block}", KEY, is_protected=False)
        for batch in (first, second):
            for block, mask in batch.items():
                chip.burn(block, mask)
            if any(batch.values()) or (batch is first and keys):
                match = {"outcome": "match", "rest": NOTHING, "state": states.pop(0)}
                self.ask("/v1/readback", {"chip": mac.hex(), "blocks": words(chip)}, match)


NEEDS_PROGRAM = unittest.skipUnless(IS_BUILT, f"there is no program {PROGRAM}")


class Esp32(unittest.TestCase):
    @NEEDS_PROGRAM
    def test_the_program_takes_it(self):
        done = subprocess.run([PROGRAM, "check-map", str(PATH)], capture_output=True, text=True)
        self.assertEqual((done.stdout, done.stderr), ("ok esp32 4 54\n", ""))
        self.assertEqual(len(FIELDS), 54)

    def test_fields_that_share_no_position(self):
        """Blocks 1 to 3 are in fields as a whole, since a read lock hides a whole block."""
        taken = [0] * 4
        for field in FIELDS.values():
            self.assertFalse(taken[field["block"]] & positions(field))
            taken[field["block"]] |= positions(field)
        self.assertEqual(taken[1:], [(1 << 256) - 1] * 3)

    @NEEDS_PROGRAM
    def test_each_wish_is_burnt_in_full(self):
        table = Table()
        for number, wish in enumerate(wishes(), 1):
            table.burn(number, *wish)
        done = subprocess.run(
            [PROGRAM, "replay", "--site", str(SITE)], input=b"".join(table.asked), capture_output=True, check=True
        )
        data, replies = done.stdout, []
        while head := REPLY.match(data):
            end = head.end() + int(head[2])
            replies.append((int(head[1]), json.loads(data[head.end() : end])))
            data = data[end:]
        self.assertEqual((data, len(replies)), (b"", len(table.asked)))
        for (asked, expected), (status, reply) in zip(table.expected, replies):
            self.assertEqual(status, 200, asked)
            if expected is not None:
                self.assertEqual(reply, expected, asked)
