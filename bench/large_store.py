"""A large store of one customer with forty benches, and the journals of their stations, for `large`.

The program makes the first thousand lives and C's SQLite copies the others, as for `starts --copied`. Here each bench
has a seat, they take turns, and what a seat asked last is in its row, so that an audit finds nothing.
"""

import contextlib
import hashlib
import json
import sqlite3
from typing import NamedTuple

from common.journals import lines_of, text_of
from common.lives import LARGEST_ORDER, SITE, STEPS, Orders, name_of
from common.program import Program, send
from common.registrations import MAP
from store_starts import PATTERN, address_after, copy_lives
from wanekupo.seat.journal import request_digest

SEATS = [f"b{number:02}" for number in range(1, 41)]
# Seats that have asked for nothing: of a station that comes late, and for restores.
LATE, RESTORES, MANAGER = "late", "restore-acme", "manager"
# When the first request was asked, 2026-01-01T00:00:00Z, and how many seconds lie between two.
BEGUN, PAUSE = 1_767_225_600, 0.5


def token_of(name):
    return f"token-of-{name}"


def site_text():
    """The site file."""
    digests = {name: hashlib.sha256(token_of(name).encode()).hexdigest() for name in (*SEATS, LATE, RESTORES, MANAGER)}
    seats = [f'[[customer.seat]]\nname = "{name}"\ntoken = "{digests[name]}"\n' for name in (*SEATS, LATE, RESTORES)]
    return f'{SITE}{"".join(seats)}[manager]\ntoken = "{digests[MANAGER]}"\n'


class Bench(Orders):
    """The requests of a seat."""

    def __init__(self, name):
        super().__init__()
        self.token = token_of(name).encode()

    def ask(self, path, **members):
        return super().ask(path, **members).replace(b"Bearer abc", b"Bearer " + self.token, 1)


class Made(NamedTuple):
    """Requests with their replies: those before the devices, and the steps of each life that the program made."""

    before: list
    lives: list

    def number_of(self, device, step):
        """The number of a device's step, of those of its seat."""
        turn, seat = divmod(device - 1, len(SEATS))
        return (len(self.before) if seat == 0 else 0) + STEPS * turn + step


def make(program, folder, size, seconds):
    """Has the program make the first lives in a folder, and SQLite the others."""
    (folder / "site.toml").write_text(site_text(), encoding="utf-8")
    command = [program, "replay", "--site", str(folder / "site.toml"), "--db", str(folder / "books.db")]
    benches = [Bench(name) for name in SEATS]
    before = [benches[0].ask("/v1/map", text=MAP)]
    before += [benches[0].order_of(first, size, 1) for first in range(1, size + 1, LARGEST_ORDER)]
    lives = [benches[place % len(SEATS)].life_in(place + 1) for place in range(min(size, PATTERN))]
    with Program(command, seconds) as running:
        replies = iter(send(running, [*before, *(asked for life in lives for asked in life)])[1])
        running.end()
    made = Made([(asked, next(replies)) for asked in before], [[(it, next(replies)) for it in life] for life in lives])
    if size > PATTERN:
        copy_lives(str(folder / "books.db"), size)
        end_seats(folder, made, size)
    return made


def line_of(made, macs, device, step):
    """The two lines of a device's step: those of the device whose life was copied, with its own names."""
    seat, moment = SEATS[(device - 1) % len(SEATS)], BEGUN + PAUSE * (STEPS * (device - 1) + step)
    first, second = lines_of(seat, moment, *made.lives[(device - 1) % PATTERN][step - 1])
    if device <= PATTERN:
        return first, second
    number, key, order = made.number_of(device, step), b"copy %d" % device, name_of(device)
    mac = address_after(macs[order], (device - 1) % LARGEST_ORDER)
    own = {"chip": f"{device:012x}", "order": order, "public_key": key.hex(), "serial": f"L{device:09}", "mac": mac}
    own |= {"key_sha256": hashlib.sha256(key).hexdigest()}
    asked = {name: own.get(name, it) for name, it in first["asked"].items()} | {"nr": number}
    reply = {name: it and own.get(name, it) for name, it in second["reply"].items()}
    digest = request_digest(first["path"], asked)
    return {**first, "asked": asked, "digest": digest}, {**second, "nr": number, "reply": reply}


def end_seats(folder, made, size):
    """Gives each seat's row what its last request was: a device's shipping."""
    with contextlib.closing(sqlite3.connect(folder / "books.db")) as base:
        for device in range(max(PATTERN, size - len(SEATS)) + 1, size + 1):
            first, second = line_of(made, dict.fromkeys([name_of(device)]), device, STEPS)
            words = (bytes.fromhex(first["digest"]), json.dumps(second["reply"], separators=(",", ":")), first["seat"])
            base.execute("UPDATE seat SET digest = ?, reply = ? WHERE name = ?", words)
        base.commit()


def write_journals(folder, made, size):
    """A journal for each seat, in a folder beside the store."""
    with contextlib.closing(sqlite3.connect(folder / "books.db")) as base:
        macs = dict(base.execute("SELECT name, mac FROM orders"))
    (folder / "journals").mkdir()
    with contextlib.ExitStack() as stack:
        names = [folder / f"journals/{name}.journal" for name in SEATS]
        files = [stack.enter_context(open(name, "w", encoding="utf-8")) for name in names]
        for asked, body in made.before:
            files[0].write(text_of(lines_of(SEATS[0], BEGUN, asked, body)))
        for device in range(1, size + 1):
            file = files[(device - 1) % len(SEATS)]
            for step in range(1, STEPS + 1):
                file.write(text_of(line_of(made, macs, device, step)))
