"""Requests that look at many rows, and what each takes, for `orders` and `sizes`."""

import json
import time

from common.lives import LARGEST_ORDER, ROWS, Orders
from common.program import Program
from common.registrations import MAP, request

ADDRESSES = {"without": 0, "with": 1}
TIMES = 5
REPORT = b"GET /v1/report HTTP/1.1\r\nAuthorization: Bearer abc\r\n\r\n"
SHOWN = b"GET /v1/order?name=o000 HTTP/1.1\r\nAuthorization: Bearer abc\r\n\r\n"


class Beside(Orders):
    """The requests of a seat that makes many small orders."""

    def small(self, number, macs):
        """An order of two serial numbers."""
        members = {"name": f"s{number}", "issuer": "acme-ca", "prefix": "S", "width": 9, "first": 2 * number}
        return self.ask("/v1/order", **members, quantity=2, macs=macs)


def beside(count, macs):
    """The requests that make so many orders, and some more of the kind."""
    seat = Beside()
    before = [seat.small(number, macs) for number in range(1, count + 1)]
    return before, [seat.small(number, macs) for number in range(count + 1, count + 1 + TIMES)]


def imports(count):
    """The requests that make so many orders and have them counted, and some imports whose numbers look like theirs."""
    seat = Beside()
    before = [*(seat.small(number, 0) for number in range(1, count + 1)), REPORT]
    return before, [seat.import_of(first).replace(b"L0", b"S0") for first in range(100001, 100001 + ROWS * TIMES, ROWS)]


def behind():
    """The requests that give all numbers of an order but the last, and those that look for that one."""
    seat = Orders()
    before = [seat.ask("/v1/map", text=MAP), seat.order_of(1, LARGEST_ORDER, 0)]
    before += [seat.import_of(first) for first in range(1, LARGEST_ORDER - ROWS, ROWS)]
    before += [without_last_row(seat.import_of(LARGEST_ORDER - ROWS + 1))]
    device = [asked.replace(b'"order":"life"', b'"order":"o000"') for asked in seat.settled(1)]
    return before + device[:-1], device[-1]


def without_last_row(asked):
    """An import without its last row."""
    path, members = asked.split(b" ")[1].decode(), json.loads(asked.partition(b"\r\n\r\n")[2])
    rows = members["csv"].splitlines(keepends=True)[:-1]
    return request(path, members | {"csv": "".join(rows)})


def processor_seconds(program):
    """The seconds of a processor that a program has had so far, which Linux counts to the nanosecond."""
    with open(f"/proc/{program.process.pid}/schedstat", encoding="ascii") as told:
        return int(told.read().split()[0]) / 1e9


def answered(program, asked):
    """The seconds to the reply of one request, by the clock and of a processor."""
    start, used = time.perf_counter(), processor_seconds(program)
    program.write(asked, 65536)
    program.replies.check_next()
    return time.perf_counter() - start, processor_seconds(program) - used


def measured(command, seconds, before, asked):
    """The least seconds of these requests, behind those before, by the clock and of a processor."""
    with Program(command, seconds) as program:
        program.start_writing(b"".join(before), 65536)
        for _ in before:
            program.replies.check_next()
        program.writer.join()
        took = [answered(program, one) for one in asked]
        program.end()
    return [min(seconds, default=0) for seconds in zip(*took)]
