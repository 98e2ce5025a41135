"""The requests of whole lives of devices: a registration, a plan, three read-backs, an identity and the shipping."""

import hashlib

from common.registrations import MAP, blocks_of, planned, request

DIGEST = hashlib.sha256(MAP.encode()).hexdigest()
STEPS = 7
# The rows of one import.
ROWS = 500
LARGEST_ORDER = 10000
SITE = """[[customer]]
name = "acme"
issuer = ["acme-ca"]
[[customer.pool]]
first = "020000000000"
count = 16777216
[[customer.seat]]
name = "a1"
token = "ba7816bf8f01cfea414140de5dae2223b00361a396177a9cb410ff61f20015ad"
"""


class Seat:
    """The requests of one seat, numbered in turn."""

    def __init__(self):
        self.number = 0

    def ask(self, path, **members):
        self.number += 1
        return request(path, {"nr": self.number, **members})

    def order(self, quantity):
        members = {"name": "life", "issuer": "acme-ca", "prefix": "L", "width": 9, "first": 1}
        return self.ask("/v1/order", **members, quantity=quantity, macs=0)

    def life(self, number):
        """The requests of one device: its first read-back shows nothing of what was planned."""
        chip = f"{number:012x}"
        wishes, burnt, locked = planned(number)
        return [
            self.ask("/v1/device", chip=chip, order="life", map=DIGEST, blocks=blocks_of(number)),
            self.ask("/v1/plan", chip=chip, wishes=wishes),
            self.ask("/v1/readback", chip=chip, blocks=blocks_of(number)),
            self.ask("/v1/readback", chip=chip, blocks=burnt),
            self.ask("/v1/readback", chip=chip, blocks=locked),
            self.ask("/v1/identity", chip=chip, public_key=f"{number:064x}"),
            self.ask("/v1/ship", chip=chip),
        ]

    def settled(self, number):
        """A device on which nothing is to be burnt, and its identity."""
        chip = f"{number:012x}"
        return [
            self.ask("/v1/device", chip=chip, order="life", map=DIGEST, blocks=blocks_of(number)),
            self.ask("/v1/plan", chip=chip, wishes=[]),
            self.ask("/v1/identity", chip=chip, public_key=f"{number:064x}"),
        ]

    def import_of(self, first):
        """An import of serial numbers of the order, from this one on."""
        rows = [f"L{n:09},{hashlib.sha256(b'import %d' % n).hexdigest()}\n" for n in range(first, first + ROWS)]
        return self.ask("/v1/import", issuer="acme-ca", csv="serial,key_sha256\n" + "".join(rows))


def lives(size):
    """The requests before the devices, and those of each device."""
    seat = Seat()
    before = [seat.order(max(size, 1)), seat.ask("/v1/map", text=MAP)]
    return before, [seat.life(number) for number in range(1, size + 1)]


class Orders(Seat):
    """The requests of a seat that has an order for each 10,000 devices."""

    def order_of(self, number, size, macs):
        """The order of the devices from this one on."""
        members = {"name": name_of(number), "issuer": "acme-ca", "prefix": "L", "width": 9, "first": number}
        return self.ask("/v1/order", **members, quantity=min(LARGEST_ORDER, size - number + 1), macs=macs)

    def life_in(self, number):
        """The requests of one device of its order, whose name is as long as that of a `life`."""
        order = f'"order":"{name_of(number)}"'.encode()
        return [asked.replace(b'"order":"life"', order) for asked in self.life(number)]


def name_of(number):
    """The name of a device's order."""
    return f"o{(number - 1) // LARGEST_ORDER:03}"


def requests(kind, size, lives):
    """The requests that make a store of so many rows, of which so many are lives from the first request to the last."""
    seat = Orders()
    if kind == "imported":
        return [seat.import_of(first) for first in range(1, size, ROWS)]
    macs = 1 if kind == "devices" else 0
    asked = [seat.ask("/v1/map", text=MAP)]
    asked += [seat.order_of(number, size, macs) for number in range(1, size + 1, LARGEST_ORDER)]
    return asked + [request for number in range(1, lives + 1) for request in seat.life_in(number)]
