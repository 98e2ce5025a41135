"""Whole lives of devices over a store in a file, made by the program in parts, and a start over it."""

import os
import time

from common.goals import tell
from common.lives import LARGEST_ORDER, SITE, STEPS, Orders
from common.program import Program, send
from common.registrations import MAP

# The devices whose requests are made at a time.
PART = 1000
ADDRESSES = {"without": 0, "with": 1}


def command_of(program, folder, name):
    """The program over a file of this name, for a site with a pool large enough, and the file's path."""
    site, path = os.path.join(folder, "site.toml"), os.path.join(folder, name)
    with open(site, "w", encoding="utf-8") as file:
        file.write(SITE)
    return [program, "replay", "--site", site, "--db", path], path


def parts_of(size):
    """The devices' numbers, in parts."""
    return [range(first, min(first + PART, size + 1)) for first in range(1, size + 1, PART)]


def run_lives(command, seconds, size, addresses):
    """Has the program serve the lives. Returns the seconds of each part, and the replies to the first life."""
    seat, times, replies = Orders(), [], None
    before = [seat.ask("/v1/map", text=MAP)]
    before += [seat.order_of(first, size, ADDRESSES[addresses]) for first in range(1, size + 1, LARGEST_ORDER)]
    with Program(command, seconds) as program:
        send(program, before)
        for numbers in parts_of(size):
            took, bodies = send(program, [asked for number in numbers for asked in seat.life_in(number)])
            times.append(took)
            replies = replies or [body.decode() for body in bodies[:STEPS]]
            tell(f"{numbers[-1]} of {size} devices {addresses} addresses, {took:.1f} s for {len(numbers)}")
        program.end()
    return times, replies


def start_of(command, seconds):
    """The seconds from the program's start to its first answer, and its peak of memory then, in KiB."""
    asked = b"GET /v1/device?chip=000000000001 HTTP/1.1\r\nAuthorization: Bearer abc\r\n\r\n"
    start = time.perf_counter()
    with Program(command, seconds) as program:
        program.start_writing(asked, 65536)
        program.replies.check_next()
        took, peak = time.perf_counter() - start, program.peak()
        program.writer.join()
        program.end()
    return took, peak
