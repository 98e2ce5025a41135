"""The rows that a customer's own token shows, gathered while the line runs."""

from typing import Any, Callable, Iterator

from wanekupo.seat import listings as gathering
from wanekupo.books.lines import device_line, entry_line, order_line, record_line
from wanekupo.common.errors import NotTheServer
from wanekupo.seat.states import FINAL
from wanekupo.seat.station import Station

# How often a device is asked for whose steps go on meanwhile.
TRIES = 10


def lines_of(station: Station, customer: str, told: Callable[[int, int], None]) -> Iterator[str]:
    """The lines of a customer's orders, devices, records and ledgers. What comes while they are gathered is there or
    not; a device and its ledger are of one moment."""
    listed = list(gathering.devices(station))
    for it in gathering.watched(listed, told, len(listed)):
        device, entries = _of_one_moment(station, it.chip)
        yield device_line(customer, device)
        yield from (entry_line(customer, it.chip, entry) for entry in entries)
        if device["serial"] is not None:
            yield record_line(customer, gathering.record(station, it.chip))
    yield from (order_line(customer, order) for order in gathering.orders(station))  # each device's is there by now


def _of_one_moment(station: Station, chip: str) -> tuple[dict[str, Any], list[dict[str, Any]]]:
    """A device and its ledger, between which nothing was done: behind the ledger the device shows the same, or it never
    leaves the state that it was in."""
    device = gathering.device(station, chip)
    for _ in range(TRIES):
        entries = gathering.ledger(station, chip)["entries"]
        if device["state"] in FINAL:
            return device, entries
        again = gathering.device(station, chip)
        if again == device:
            return device, entries
        device = again
    raise NotTheServer(f"the device {chip} changes with each look", "Begin again when the line rests.")
