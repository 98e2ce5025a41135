"""What of a store no reply of the program shows: where orders go on, dumps, columns, its file, and what a site says."""

from typing import Iterator

from wanekupo.books.store_rows import Books

# The kind, the time, the customer, the chip, and what it is in words.
Row = tuple[str, str, str, str, str]


def store_faults(store: Books) -> Iterator[Row]:
    """What is found without a line, and without the program's reply."""
    yield from _cursors(store)
    yield from _dumps(store)
    yield from _strangers(store)
    yield from _map_faults(store)
    yield from (("device", "", customer, chip, told) for customer, chip, told in store.stray_bytes())
    yield from (("store", "", "", "", told) for told in store.excluded())


def _cursors(store: Books) -> Iterator[Row]:
    """Orders that go on behind a number that was never given, or in front of their first one."""
    for (customer, name), order in store.orders.items():
        free = store.next_of(order)
        number = int(free.removeprefix(order["prefix"])) if free else order["first"] + order["quantity"]
        if not order["first"] <= order["cursor"] <= number:
            told = f"the order {name} goes on at its number {order['cursor']}, behind {free or 'its end'}"
            yield "order", "", customer, "", told


def _dumps(store: Books) -> Iterator[Row]:
    """Devices that show the factory MAC of another chip of their customer's: of one chip two were made."""
    known: dict[tuple[str, str], str] = {}
    for customer, chip, mac in store.macs_shown():
        other = known.setdefault((customer, mac), chip)
        if other == chip and mac != chip and store.device(customer, mac):
            other = mac
        if other != chip:
            yield "device", "", customer, chip, f"it shows the factory MAC {mac}, and so does the chip {other}"


def _strangers(store: Books) -> Iterator[Row]:
    """Customers that the site doesn't have, and seats that aren't their customer's by the site."""
    for customer in sorted(store.customers() - set(store.pools) if store.pools else ()):
        yield "store", "", customer, "", f"the site has no customer {customer}, and the store has rows of it"
    for customer, seat in store.acting() if store.site_seats else ():
        owner = store.site_seats.get(seat, "nobody")
        if owner != customer:
            told = f"rows of {customer} are of the seat {seat}, which is {owner}'s by the site"
            yield "store", "", customer, "", told


def _map_faults(store: Books) -> Iterator[Row]:
    """Maps whose text isn't that of their digest, or can't be read."""
    yield from (("map", "", "", "", told) for told in store.odd_maps())
    for customer, told in store.unread_maps():
        yield "map", "", customer, "", told
