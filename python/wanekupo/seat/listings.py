"""A customer's books, read whole by a token that only looks: orders, devices, records and ledgers.

All of it comes over the kept connection of one `Station`, one request after another, and no file remembers how far it
came: who was stopped goes on behind the last chip that he has. The rows are the server's replies, member for member.
"""

from typing import Any, Callable, Iterable, Iterator, TypeVar

from wanekupo.seat.replies import Listed, device_of, entries_of, identity_of, order_of
from wanekupo.seat.station import Station

Row = TypeVar("Row")
Reply = dict[str, Any]

# Who is told how many rows are done, of how many; as `wanekupo.common.printing.Progress`.
Told = Callable[[int, int], None]


def orders(station: Station) -> Iterator[Reply]:
    """Each order of the customer's report, in the order of the bytes of their names."""
    return (order(station, name) for name in station.report())


def order(station: Station, name: str) -> Reply:
    return _shown(station, "/v1/order", order_of, name=name)


def devices(station: Station, after: str = "") -> Iterator[Listed]:
    """Each device behind a chip, in the order of the chips; a page of 500 is asked for when it is come to."""
    return station.devices(after)


def device(station: Station, chip: str) -> Reply:
    return _shown(station, "/v1/device", device_of, chip=chip)


def record(station: Station, chip: str) -> Reply:
    return _shown(station, "/v1/identity", identity_of, chip=chip)


def ledger(station: Station, chip: str) -> Reply:
    return _shown(station, "/v1/ledger", entries_of, chip=chip)


def watched(rows: Iterable[Row], told: Told, of: int, done: int = 0) -> Iterator[Row]:
    """The same rows, where `told` gets how many are done, those before this call included."""
    for row in rows:
        yield row
        done += 1
        told(done, of)


def _shown(station: Station, path: str, read: Callable[[Any], Any], **parameters: str) -> Reply:
    """A reply's members, where they have the form of this path's."""
    found: Reply = station.get(path, **parameters)
    read(found)
    return found
