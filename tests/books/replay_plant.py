"""A small plant with the journals of three seats, made by one run of the program, and what a forger changes of it.

Each request is sent when the one in front of it is answered. So the order of the store is known, and the clocks are the
test's: those of the seat a2 are 50 seconds behind.
"""

import contextlib
import hashlib
import json
import sqlite3
import time
from dataclasses import dataclass, field
from pathlib import Path

from books.seal_plant import CUSTOMERS, JTAG, KEY_WORDS, MAP, MORNING, READ_1, TOKENS, WISHES, WRITE_1
from books.seal_plant import chip_of, shown, site_text
from common.program import Program
from wanekupo.chips.chip import redacted
from wanekupo.seat.journal import request_digest
from wanekupo.seat.import_rows import csv_of

DIGEST = hashlib.sha256(MAP.encode()).hexdigest()
OLD = [(f"OLD-{number}", hashlib.sha256(b"%d" % number).hexdigest()) for number in (1, 2)]


@dataclass
class Line:
    """The program over a store in a folder, and the lines that its seats wrote."""

    folder: Path
    running: Program
    lines: dict[str, list[dict]] = field(default_factory=lambda: {seat: [] for seat in TOKENS})
    now: int = MORNING

    def ask(self, seat, path, is_lost=False, **members):
        """A request that is accepted; its reply, which the seat may not get: a person has it go on."""
        self.now += 7
        asked = {"nr": 1 + sum("asked" in it for it in self.lines[seat]), **members}
        body = json.dumps(asked).encode()
        head = f"POST /v1/{path} HTTP/1.1\r\nAuthorization: Bearer {TOKENS[seat]}\r\nContent-Length: {len(body)}"
        self.running.write(f"{head}\r\n\r\n".encode() + body, 65536)
        reply = json.loads(self.running.replies.check_next())
        own = {"seat": seat, "at": time.strftime("%Y-%m-%dT%H:%M:%SZ", time.gmtime(self.now - 50 * (seat == "a2")))}
        told = redacted(asked)
        line = {**own, "path": f"/v1/{path}", "asked": told, "digest": request_digest(f"/v1/{path}", told)}
        lost, got = {"resynchronized": asked["nr"] + 1}, {"nr": asked["nr"], "status": 200, "reply": reply}
        self.lines[seat] += [line, {**own, **(lost if is_lost else got)}]
        return reply

    def order(self, seat, name, prefix, quantity, macs=0, first=1):
        members = {"issuer": f"{CUSTOMERS[seat]}-ca", "prefix": prefix, "width": 5, "first": first}
        self.ask(seat, "order", name=name, **members, quantity=quantity, macs=macs)

    def begin(self, seat, chip, order):
        self.ask(seat, "device", chip=chip, order=order, map=DIGEST, blocks=shown(chip))
        self.ask(seat, "plan", chip=chip, wishes=WISHES)

    def read(self, seat, chip, *burnt, key_block=None, **more):
        return self.ask(seat, "readback", chip=chip, blocks=shown(chip, *burnt, key_block=key_block), **more)["outcome"]

    def ship(self, seat, chip, order):
        self.begin(seat, chip, order)
        self.read(seat, chip)  # short
        self.read(seat, chip, JTAG, key_block=KEY_WORDS)
        self.read(seat, chip, JTAG, WRITE_1, READ_1)
        self.ask(seat, "identity", chip=chip, public_key=hashlib.sha256(chip.encode()).hexdigest())
        self.ask(seat, "ship", chip=chip)

    def write(self):
        for seat, lines in self.lines.items():
            (self.folder / CUSTOMERS[seat]).mkdir(exist_ok=True)
            write_lines(self.folder / CUSTOMERS[seat] / f"{seat}.journal", lines)


def write_lines(file, lines):
    file.write_text("".join(json.dumps(it, sort_keys=True, separators=(",", ":")) + "\n" for it in lines))


def morning(program, folder):
    """Two customers, imports, chips that lost a bit, showed another or another key, and lost replies, the last of a
    plan."""
    (folder / "site.toml").write_text(site_text(), encoding="ascii")
    command = [str(program), "replay", "--site", str(folder / "site.toml"), "--db", str(folder / "books.db")]
    with Program(command, 600) as running:
        it = Line(folder, running)
        papers(it)
        chips(it)
        it.write()
        running.end()


def papers(it):
    """Orders of two seats, whose addresses follow each other, and serial numbers that an order passes over."""
    for seat in ("a1", "b1"):
        it.ask(seat, "map", text=MAP)
    it.ask("a1", "import", issuer="acme-ca", csv=csv_of([*OLD, ("G00002", hashlib.sha256(b"3").hexdigest())]))
    it.order("a1", "gate-40", "G", 8, macs=1)
    it.order("a2", "gate-41", "H", 50, macs=2)
    it.order("a1", "gate-42", "K", 4, macs=1)
    it.order("b1", "gate-40", "B", 5)


def chips(it):
    it.ship("a1", chip_of(1), "gate-40")
    it.ship("a2", chip_of(2), "gate-40")
    it.ship("b1", chip_of(1), "gate-40")
    it.ask("a2", "import", issuer="acme-ca", csv=csv_of(OLD[:1]))
    for place, burnt, key in ((3, (JTAG, 197), KEY_WORDS), (4, (JTAG,), KEY_WORDS[::-1])):
        it.begin("a1", chip_of(place), "gate-41")
        assert it.read("a2", chip_of(place), *burnt, key_block=key) == {3: "stray", 4: "key"}[place]
    it.ask("a1", "scrap", chip=chip_of(3))
    it.begin("b1", chip_of(5), "gate-40")
    assert it.read("b1", chip_of(5), key_block=KEY_WORDS) == "short"
    assert it.read("b1", chip_of(5), JTAG) == "key"
    it.begin("a1", chip_of(6), "gate-41")
    it.read("a1", chip_of(6), JTAG, key_block=KEY_WORDS, is_lost=True)
    assert it.read("a2", chip_of(6), WRITE_1, READ_1) == "lost"
    it.ask("a1", "device", chip=chip_of(7), order="gate-41", map=DIGEST, blocks=shown(chip_of(7)))
    it.ask("a1", "plan", is_lost=True, chip=chip_of(7), wishes=WISHES)


# What is forged.


def change_store(*statements):
    def change(folder):
        with contextlib.closing(sqlite3.connect(folder / "books.db")) as base:
            for sql in statements:
                assert base.execute(sql).rowcount > 0, sql
            base.commit()

    return change


def change_reply(name, path, **members):
    """Has the first reply to a path of a journal say something else; a member of None goes."""

    def change(folder):
        lines = [json.loads(it) for it in (folder / name).read_text().splitlines()]
        place = next(place for place, it in enumerate(lines) if it.get("path") == f"/v1/{path}")
        reply = {**lines[place + 1]["reply"], **members}
        lines[place + 1]["reply"] = {name: it for name, it in reply.items() if it is not None}
        write_lines(folder / name, lines)

    return change


def change_line(name, path, /, is_lost=False, **asked):
    """Has the first request to a path of a journal ask for something else; a member of None goes. Its reply may be
    lost, too."""

    def change(folder):
        lines = [json.loads(it) for it in (folder / name).read_text().splitlines()]
        place = next(place for place, it in enumerate(lines) if it.get("path") == f"/v1/{path}")
        asks = {**lines[place]["asked"], **asked}
        lines[place]["asked"] = {name: it for name, it in asks.items() if it is not None}
        lines[place]["digest"] = request_digest(f"/v1/{path}", lines[place]["asked"])
        if is_lost:
            own = {it: lines[place][it] for it in ("at", "seat")}
            lines[place + 1] = {**own, "resynchronized": lines[place]["asked"]["nr"] + 1}
        write_lines(folder / name, lines)

    return change


def change_order(**members):
    """Has the first order be another one, in the store, in its line and in its reply."""
    set_to = ", ".join(f"{name} = '{it}'" for name, it in members.items())
    changes = [
        change_line("acme/a1.journal", "order", **members),
        change_reply("acme/a1.journal", "order", **members),
        change_store(f"UPDATE orders SET {set_to} WHERE customer = 'acme' AND name = 'gate-40'"),
    ]
    return lambda folder: [it(folder) for it in changes]


def move_addresses(folder):
    """Lays the addresses of gate-42 in front of those of gate-40 and gate-41, in the store and in all lines: there was
    room, too."""
    moved = {}
    with contextlib.closing(sqlite3.connect(folder / "books.db")) as base:
        order = "SELECT 'orders', 'name', name, mac, name FROM orders WHERE customer = 'acme'"
        record = "SELECT 'given', 'serial', serial, mac, ord FROM given JOIN device USING (customer, chip, serial)"
        rows = base.execute(f"{order} UNION {record} WHERE customer = 'acme' ORDER BY mac DESC").fetchall()
        for table, column, name, mac, ord in rows:
            moved[mac] = f"{int(mac, 16) + (-108 if ord == 'gate-42' else 4):012x}"
            words = (moved[mac], name)
            assert base.execute(f"UPDATE {table} SET mac = ? WHERE customer = 'acme' AND {column} = ?", words).rowcount
        base.commit()
    for file in (folder / "acme").glob("*.journal"):
        lines = [json.loads(it) for it in file.read_text().splitlines()]
        for reply in (it["reply"] for it in lines if "mac" in it.get("reply", {})):
            reply["mac"] = moved.get(reply["mac"], reply["mac"])
        write_lines(file, lines)
