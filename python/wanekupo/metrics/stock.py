"""What the server has, for metrics: devices by state, orders, and the rest of serial numbers and addresses.

It asks with tokens that look, and for the report alone; for each order once more, as an order never changes. What of
addresses can be known from outside is in the orders (`mac`, `macs`, `quantity`) and the site file's pools.
"""

from typing import Any, Mapping, Sequence

from wanekupo.seat import listings as gathering
from wanekupo.common.errors import StationError
from wanekupo.metrics.exposition import Samples
from wanekupo.books.report_counts import report_rows
from wanekupo.seat.station import Station
from wanekupo.seat.states import FINISHED, REPORTED

# In these states a device is neither at its end nor lost.
UNDER_WAY = tuple(state for state in REPORTED if state not in FINISHED)

# How many orders are asked for in one run: a store may have 4,096 of each customer, and a line waits behind each.
MOST_ASKED = 200

# A block of addresses: its first one, and how many; and a pool of them.
Block = tuple[int, int]


def table_of(report: str) -> list[dict[str, Any]]:
    """The rows of a report by the names of its columns, of which the first is a name and the others are counts."""
    names, *rows = report_rows(report)
    return [dict(zip(names, [row[0], *map(int, row[1:])])) for row in rows]


def add_customer(samples: Samples, customer: str, rows: Sequence[Mapping[str, Any]], orders: int) -> None:
    """A customer's devices and serial numbers, of rows whose counts are added up."""
    for state in REPORTED:
        samples.add("wanekupo_devices", sum(row[state] for row in rows), customer=customer, state=state)
    given_up = sum(row["quarantined"] + row["scrapped"] for row in rows)
    samples.add("wanekupo_given_up_devices_total", given_up, customer=customer)
    samples.add("wanekupo_serials_left", sum(row["serials_left"] for row in rows), customer=customer)
    samples.add("wanekupo_orders", orders, customer=customer)


def add_orders(samples: Samples, customer: str, rows: Sequence[Mapping[str, Any]], most: int) -> None:
    """The open orders of a customer: those that have a serial number left, or a device under way. Of more than `most`
    those with devices under way come first."""
    is_open = [row for row in rows if row["serials_left"] or any(row[state] for state in UNDER_WAY)]
    is_open.sort(key=lambda row: not any(row[state] for state in UNDER_WAY))
    for row in is_open[:most]:
        names = {"customer": customer, "order": row["order"]}
        for state in REPORTED:
            samples.add("wanekupo_order_devices", row[state], state=state, **names)
        samples.add("wanekupo_order_quantity", row["quantity"], **names)
        samples.add("wanekupo_order_serials_left", row["serials_left"], **names)
    samples.add("wanekupo_orders_hidden", max(0, len(is_open) - most), customer=customer)


def add_site(samples: Samples, report: str, known: Sequence[str]) -> None:
    """The customers of the site's report, but for those whose own reports are there."""
    for row in table_of(report):
        if row["customer"] not in known:
            add_customer(samples, row["customer"], [row], row["orders"])


# Addresses.


def learn_blocks(station: Station, names: Sequence[str], blocks: dict[str, Any]) -> None:
    """Asks for the orders whose blocks aren't known yet; without addresses it is an empty one."""
    unknown = [name for name in names if name not in blocks]
    for name in unknown[:MOST_ASKED]:
        order = gathering.order(station, name)
        count = int(order["macs"]) * int(order["quantity"])
        blocks[name] = [int(order["mac"], 16), count] if order["mac"] and count else []
    if len(unknown) > MOST_ASKED:
        told = f"{len(unknown) - MOST_ASKED} orders are yet to be asked for their addresses"
        raise StationError(told, f"The next runs ask for them, {MOST_ASKED} each.")


def add_addresses(samples: Samples, customer: str, pools: Sequence[Block], blocks: Sequence[Sequence[int]]) -> None:
    """What orders left of each pool, in all and in one piece."""
    for first, count in pools:
        inside = sorted((mac, size) for mac, size in blocks if first <= mac < first + count)
        names = {"customer": customer, "pool": f"{first:012x}"}
        samples.add("wanekupo_pool_addresses", count, **names)
        samples.add("wanekupo_pool_free_addresses", count - sum(size for _, size in inside), **names)
        samples.add("wanekupo_pool_longest_free_addresses", _longest_gap(first, count, inside), **names)


def _longest_gap(first: int, count: int, blocks: Sequence[Block]) -> int:
    longest, place = 0, first
    for mac, size in [*blocks, (first + count, 0)]:
        longest, place = max(longest, mac - place), mac + size
    return longest
