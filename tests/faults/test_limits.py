"""The limits of a customer, reached by requests alone over a store in a file, and what its books show then.

One seat makes an order of as many devices as an order may have, with an address for each, and has the whole life of
each device, seven requests; then as many orders more as a customer may have. So its numbers go on to some 74,000, the
ledger's to 70,000, and 10,000 records have an address. The store is closed, opened again where it has to be there, and
asked for the report, for each page of devices, and for the ledger of the last one; one device more and one
order more are refused. What SQLite finds in the file are as many rows as there were requests for.

The tests of the gate put most of such rows into the tables by themselves, and open them again: this takes minutes with
all devices.
"""

import json

import pytest

from common.chip import body_of, get, rows_of, served, status_of
from common.goals import tell
from common.lives import DIGEST, LARGEST_ORDER, STEPS, Orders
from common.program import Program, send
from common.registrations import MAP, blocks_of
from common.stores import command_of, parts_of

ORDERS = 4096
ADDRESSES = 1
SECONDS = 3600
HEAD = "order,quantity,registered,planned,settled,identified,shipped,quarantined,scrapped,serials_left"

# What a ledger tells of a whole life.
EVENTS = ["registered", "planned", "read", "read", "read", "identified", "shipped"]


def small_order(seat, number):
    """An order of one device, with numbers above all others."""
    members = {"name": f"p{number:04}", "issuer": "acme-ca", "prefix": "P", "width": 9, "first": number}
    return seat.ask("/v1/order", **members, quantity=1, macs=0)


def make(command, seconds, devices):
    """Has the program serve the orders and the lives. Returns the seat, with its next number."""
    seat = Orders()
    before = [seat.ask("/v1/map", text=MAP), seat.order_of(1, devices, ADDRESSES)]
    with Program(command, seconds) as program:
        send(program, before)
        for numbers in parts_of(devices):
            send(program, [asked for number in numbers for asked in seat.life_in(number)])
            tell(f"{numbers[-1]} of {devices} devices")
        send(program, [small_order(seat, number) for number in range(1, ORDERS)])
        program.end()
    return seat


def report_of(devices):
    """The report's lines."""
    lines = [HEAD, f"o000,{devices},0,0,0,0,{devices},0,0,0"]
    return lines + [f"p{number:04},1,0,0,0,0,0,0,0,1" for number in range(1, ORDERS)]


def list_all(command):
    """The chips of all pages of the list."""
    chips, after = [], ""
    while after is not None:
        [reply] = served(command, get(f"/v1/devices?after={after}"))
        page = json.loads(body_of(reply))
        chips += [device["chip"] for device in page["devices"]]
        after = page["next"]
    return chips


def look(command, devices):
    """Compares what the books show with what was asked for."""
    last = f"{devices:012x}"
    report, ledger = served(command, get("/v1/report") + get(f"/v1/ledger?chip={last}"))
    assert body_of(report).decode().splitlines() == report_of(devices), "the report"
    entries = json.loads(body_of(ledger))["entries"]
    assert [(entry["n"], entry["event"]) for entry in entries] == list(enumerate(EVENTS, 1)), "the last ledger"
    assert list_all(command) == [f"{number:012x}" for number in range(1, devices + 1)], "the list"


def ask_for_more(command, seat, devices):
    """One device more and one order more, each of which is refused and takes no number."""
    device = {"chip": f"{devices + 1:012x}", "order": "o000", "map": DIGEST, "blocks": blocks_of(1)}
    asked = [seat.ask("/v1/device", **device)]
    seat.number -= 1
    asked.append(small_order(seat, ORDERS))
    replies = served(command, b"".join(asked))
    found = [(status_of(reply), json.loads(body_of(reply))["no"]) for reply in replies]
    assert found == [(409, 18), (409, 40)], "one more of each"


def count_rows(path, devices):
    """Compares how many rows the file has with how many were asked for."""
    rows = {name: len(rows) for name, rows in rows_of(path).items()}
    found = [rows[name] for name in ("orders", "device", "given", "given_start", "ledger")]
    assert found == [ORDERS, devices, devices, devices, STEPS * devices], "the rows"


@pytest.mark.sizes(600, LARGEST_ORDER)
def test_limits(program, tmp_path, size):
    """4,096 orders, and an order of so many devices."""
    command, path = command_of(str(program), str(tmp_path), "limits.db")
    seat = make(command, SECONDS, size)
    again = [*command, "--existing"]
    look(again, size)
    ask_for_more(again, seat, size)
    look(again, size)
    count_rows(path, size)
