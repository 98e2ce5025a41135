"""The records of orders, as a list of a lot has them: counted against the report, and a row for each.

A row has what the server says of a device in three places: its place in the list of devices, its record, and its fuse
map. Two connections ask for the last two, since by a token nginx lets two requests go on at a time.
"""

from collections import Counter
from concurrent.futures import ThreadPoolExecutor
from dataclasses import dataclass
from typing import Any, Iterator, Mapping, Optional, Sequence

from wanekupo.seat import listings as gathering
from wanekupo.common.errors import NotTheServer, StationError
from wanekupo.seat.forms import CHIP, DIGEST, NAME, SERIAL, TIME
from wanekupo.seat.listings import Reply
from wanekupo.seat.replies import Listed
from wanekupo.seat.states import WITH_RECORD
from wanekupo.seat.station import Station

# The columns of a list, in their order.
COLUMNS = (
    "serial", "issuer", "chip", "mac", "addresses", "key_sha256", "not_before", "not_after", "state", "map", "order",
)  # fmt: skip

# How often the list is read where devices get on meanwhile, and how many rows are asked for at a time: two seconds' by
# nginx's usual shares, so that a list that is cut loses no more.
LOOKS, AT_A_TIME = 4, 20

# The columns of a report by which the serial numbers are counted that are given.
GIVEN = ("quantity", "serials_left")

# The columns whose hardware addresses have colons in a list for people: without them a spreadsheet takes some for
# numbers. What programs read has the twelve digits, as the server.
ADDRESSES = ("chip", "mac", "addresses")

Row = dict[str, Any]
Counts = Mapping[str, Mapping[str, int]]


class Miscounted(StationError):
    """The list of devices and the report don't agree, though nothing went on meanwhile."""

    advice = "Give no list of this lot away, and show this line to the server's people: the store may be damaged."


class Unsteady(StationError):
    """Devices got on each time while the list was read."""

    advice = "Ask again, best while no station works on these orders."


@dataclass(frozen=True)
class Lot:
    """Orders by their names, and their devices that have a serial number, in the order of the chips. `missing` is how
    many serial numbers of an order are given, and to none of these devices: by an import, as a restore makes it of the
    journals, too. Orders without such are left out."""

    orders: Mapping[str, Reply]
    listed: Sequence[Listed]
    missing: Mapping[str, int]


def lot_of(station: Station, names: Sequence[str]) -> Lot:
    """The devices of these orders, or of all of them where none is named, as they were at one moment."""
    orders = {name: gathering.order(station, name) for name in names or station.report()}
    counts = _counts(station.report(), orders, WITH_RECORD)
    for _ in range(LOOKS):
        listed = [it for it in gathering.devices(station) if it.order in orders]
        report = station.report()
        before, counts = counts, _counts(report, orders, WITH_RECORD)
        if counts == before:
            _count(listed, counts)
            with_serial = [it for it in listed if it.serial is not None]
            return Lot(orders, with_serial, _missing(with_serial, _counts(report, orders, GIVEN)))
    raise Unsteady(f"devices got on while their list was read, {LOOKS} times")


def _counts(report: Counts, orders: Mapping[str, Reply], names: Sequence[str]) -> Counts:
    """Some columns of a report, for each order: by the states with a record, how many devices are in each. None of
    these sums, nor one behind another, falls and rises again: where all are as before, no device got one or went on."""
    try:
        return {order: {name: report[order][name] for name in names} for order in orders}
    except KeyError as error:
        raise NotTheServer(f"the report lacks {error}", "Look what answers at the server's address.") from error


def _missing(listed: Sequence[Listed], counts: Counts) -> dict[str, int]:
    """How many serial numbers of each order are given, and to none of these devices."""
    own = Counter(it.order for it in listed)
    missing = {order: it["quantity"] - it["serials_left"] - own[order] for order, it in counts.items()}
    return {order: number for order, number in missing.items() if number > 0}


def _count(listed: Sequence[Listed], counts: Counts) -> None:
    """Compares the list with the report, and serial numbers with states."""
    found = Counter((it.order, it.state) for it in listed)
    for order, expected in counts.items():
        for state, number in expected.items():
            if found[order, state] != number:
                said = f"the list has {found[order, state]} devices of {order} that are {state}"
                raise Miscounted(f"{said}, and the report {number}")
    for it in listed:
        if (it.serial is not None) != (it.state in WITH_RECORD) and it.state != "scrapped":
            raise Miscounted(f"the chip {it.chip} of {it.order} is {it.state}, and its serial number is {it.serial}")


def device_rows(stations: Sequence[Station], lot: Lot, wanted: Sequence[Listed]) -> Iterator[list[Row]]:
    """The rows of these devices of a lot, some at a time, over the connections of two stations."""
    first, second = stations
    with ThreadPoolExecutor(1) as beside:
        for place in range(0, len(wanted), AT_A_TIME):
            part = wanted[place : place + AT_A_TIME]
            shown = beside.submit(lambda: [gathering.device(second, it.chip) for it in part])
            records = [gathering.record(first, it.chip) for it in part]
            yield [row_of(lot, *it) for it in zip(part, records, shown.result())]


def row_of(lot: Lot, listed: Listed, record: Reply, shown: Reply) -> Row:
    """A device's row, where what the server says of it in three places agrees."""
    order = lot.orders[listed.order]
    agrees = (record["chip"], record["serial"], record["issuer"]) == (listed.chip, listed.serial, order["issuer"])
    if not agrees or (shown["serial"], shown["order"]) != (listed.serial, listed.order):
        raise NotTheServer(f"the record of the chip {listed.chip} isn't that of the list", "Ask again.")
    row = {name: record.get(name) for name in ("serial", "issuer", "chip", "mac", "key_sha256", "not_after")}
    row["not_before"] = record.get("not_before")
    row["addresses"] = addresses_of(row["mac"], order["macs"])
    row |= {"state": listed.state, "map": shown["map"], "order": listed.order}
    return {name: row[name] for name in COLUMNS} if is_row(row) else _refuse(listed)


def addresses_of(mac: Any, macs: Any) -> Optional[list[str]]:
    """Every address of a serial number, from its first one on; None where these are none."""
    if mac is None:
        return []
    if not isinstance(mac, str) or not CHIP.fullmatch(mac) or type(macs) is not int or not 0 < macs < 256:
        return None
    return [f"{int(mac, 16) + place:012x}" for place in range(macs)] if int(mac, 16) + macs <= 1 << 48 else None


def fields_of(row: Row, names: Sequence[str]) -> list[str]:
    """A row's fields in a list for people. Addresses of a serial number stand in one, with a space between."""
    found = ((name, "" if row[name] is None else row[name]) for name in names)
    texts = {name: it if isinstance(it, list) else [it] for name, it in found}
    return [" ".join(map(with_colons, its)) if name in ADDRESSES else its[0] for name, its in texts.items()]


def with_colons(address: str) -> str:
    return bytes.fromhex(address).hex(":") if address else ""


def is_row(row: Mapping[str, Any]) -> bool:
    """Whether each column has its form: a list goes to programs that trust it."""
    forms = {"serial": SERIAL, "issuer": NAME, "order": NAME, "chip": CHIP, "key_sha256": DIGEST, "map": DIGEST}
    texts = [(form, row[name]) for name, form in (forms | {"not_after": TIME}).items()]
    texts += [(TIME, row["not_before"])] if row["not_before"] is not None else []
    is_listed = row["state"] in WITH_RECORD and row["addresses"] is not None
    return is_listed and all(isinstance(text, str) and form.fullmatch(text) for form, text in texts)


def _refuse(listed: Listed) -> Row:
    raise NotTheServer(f"the record of the chip {listed.chip} has another form", "Compare the versions of both.")
