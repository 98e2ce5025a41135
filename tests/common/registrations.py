"""Registrations of devices, with their map and what each chip shows."""

import hashlib
import json

ORDERS = 10
DEVICES = 10000

# Four blocks, the lock fields, and a key field in each of two blocks.
MAP = """name = "bench"
wr = "WR_DIS"
rd = "RD_DIS"
[[block]]
words = 7
[[block]]
words = 8
[[block]]
words = 8
[[block]]
words = 8
[[field]]
name = "WR_DIS"
block = 0
bit = 0
count = 16
[[field]]
name = "RD_DIS"
block = 0
bit = 16
count = 4
[[field]]
name = "BLOCK1"
block = 1
bit = 0
count = 256
write = 7
read = 0
key = true
[[field]]
name = "BLOCK2"
block = 2
bit = 0
count = 256
write = 8
read = 1
key = true
"""


def request(path, members):
    """A request of the seat `a1` with these members."""
    body = json.dumps(members, separators=(",", ":")).encode()
    head = f"POST {path} HTTP/1.1\r\nAuthorization: Bearer abc\r\nContent-Length: {len(body)}\r\n\r\n"
    return head.encode() + body


def order_request(number):
    """An order for as many devices as each order gets."""
    count = DEVICES // ORDERS
    members = {"nr": number, "name": f"o{number}", "issuer": "acme-ca", "prefix": "A", "width": 9}
    return request("/v1/order", {**members, "first": number * count, "quantity": count, "macs": 0})


def blocks_of(number):
    """What a chip shows: a few bits of each plain block, and a key of its own in one block."""
    words = [[0] * 7, [0] * 8, [0] * 8, [0] * 8]
    words[0][6] = number % 2**16
    words[1] = [number + 1] * 8
    words[3][7] = 0x80000000
    return [[f"{word:08x}" for word in block] for block in words]


def planned(number):
    """The wishes for a device's key and its read lock, and what the chip shows behind each of the two batches."""
    key = [number + 2**16] * 8
    digest = hashlib.sha256(b"".join(word.to_bytes(4, "little") for word in key)).hexdigest()
    burnt, locked = blocks_of(number), blocks_of(number)
    burnt[2] = [f"{word:08x}" for word in key]
    locked[0][0] = "00020000"
    wishes = [{"kind": "key", "field": "BLOCK2", "key_sha256": digest}, {"kind": "rlock", "field": "BLOCK2"}]
    return wishes, burnt, locked


def device_request(number, digest):
    """The device with this number: the orders take turns."""
    names = {"nr": ORDERS + 1 + number, "chip": f"{number:012x}", "order": f"o{(number - 1) % ORDERS + 1}"}
    return request("/v1/device", {**names, "map": digest, "blocks": blocks_of(number)})


def stream():
    """The requests before the devices, and those of the devices."""
    digest = hashlib.sha256(MAP.encode()).hexdigest()
    before = [order_request(number) for number in range(1, ORDERS + 1)]
    before.append(request("/v1/map", {"nr": ORDERS + 1, "text": MAP}))
    return before, [device_request(number, digest) for number in range(1, DEVICES + 1)]
