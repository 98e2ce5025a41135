"""What the tests of seals, of the audit and of a shift share: a store with a chip's life, and journals that are made up
line by line.
"""

import contextlib
import csv
import json
import sqlite3

from support import DIGEST, MAP, ORDER, PROGRAM, StationCase, life
from commanding import ran

from wanekupo.seat.journal import request_digest

DAY = "2026-11-27T"
PERIOD = ["--from", DAY + "06:00Z", "--to", DAY + "14:00Z"]
ALWAYS = ["--from", "2000-01-01", "--to", "2099-01-01"]


def audited(*words):
    """An audit that has the tests' program answer: its status, its output and what it told on standard error."""
    return ran("audit", "--program", PROGRAM, *words)


def lines_of(seat, *steps, operator="mara"):
    """The lines of a journal: of each step its time, its path, what is asked beside `nr`, and its reply, which is one
    of status 409 where it has `no`."""
    for number, (at, path, asked, reply) in enumerate(steps, 1):
        own, asked = {"seat": seat, "operator": operator}, {"nr": number, **asked}
        yield {**own, "at": f"{DAY}{at}Z", "path": path, "asked": asked, "digest": request_digest(path, asked)}
        if reply is not None:
            yield {**own, "at": f"{DAY}{at}Z", "nr": number, "status": 409 if "no" in reply else 200, "reply": reply}


def device(at, chip, order="o1"):
    return at, "/v1/device", {"chip": chip, "order": order, "map": DIGEST, "blocks": []}, {"state": "registered"}


def read(at, chip, outcome, state):
    return at, "/v1/readback", {"chip": chip, "blocks": []}, {"outcome": outcome, "state": state, "rest": {}}


def step(at, name, chip, **reply):
    return at, f"/v1/{name}", {"chip": chip}, reply


class BooksCase(StationCase):
    """A folder with a program."""

    def write(self, name, lines):
        file = self.folder / name
        file.write_text("".join(json.dumps(line) + "\n" for line in lines), encoding="ascii")
        return file

    def rows(self, name):
        with open(self.folder / "csv" / f"{name}.csv", encoding="utf-8", newline="") as source:
            return list(csv.DictReader(source))

    def lived(self):
        """A chip's life, with its journal; the store is copied behind it."""
        with self.station(journal=self.journal()) as station:
            station.make_order(**ORDER)
            station.import_map(MAP)
            life(station, self.chip())
        (self.folder / "token").write_text("abc", encoding="ascii")
        self.program.copied(self.folder / "copy")
        return self.folder / "copy" / "books.db"

    def sealed(self):
        """Two seals of a life, in a folder of their own; an empty one lies beside it."""
        store, seals = self.lived(), self.folder / "seals"
        for folder in (seals, self.folder / "empty"):
            folder.mkdir()
        for _ in range(2):
            self.assertEqual(ran("seal", seals, "--store", store)[0], 0)
        return seals

    def verified(self, *words):
        status, out, told = ran("seal", "--verify", *words)
        self.assertEqual(told, "")
        return status, out

    def edited(self, sql):
        """The program's own store is changed while it is away."""
        self.program.kill()
        self.forge(self.program.db, sql)
        self.program.start()

    def forge(self, store, sql):
        with contextlib.closing(sqlite3.connect(store)) as base:
            self.assertEqual(base.execute(sql).rowcount, 1)
            base.commit()
