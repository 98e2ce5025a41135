"""What a witness says: the highest number of each seat that has its reply, as the store has it or a lower one."""

import json
import re

from commanding import ran
from support import MAP, ORDER, StationCase

from wanekupo.common.errors import NoReply, Refused
from wanekupo.seat.journal import Journal

AT = re.compile(r"at \d{4}-\d\d-\d\dT\d\d:\d\d:\d\dZ\n")


def asked(number, **more):
    return {"at": "2026-11-29T06:00:00Z", "path": "/v1/ship", "asked": {"nr": number}, "digest": "", **more}


def answered(number, status=200, **more):
    return {"at": "2026-11-29T06:00:00Z", "nr": number, "status": status, "reply": {}, **more}


def resynchronized(number, **more):
    return {"at": "2026-11-29T06:00:00Z", "resynchronized": number, **more}


OF_B = {"seat": "b2"}


class Witness(StationCase):
    def witness(self, *words):
        """What the command prints behind its first line, the time."""
        status, out, err = ran("witness", *words)
        self.assertEqual((status, err), (0, ""))
        self.assertTrue(AT.match(out), out)
        return AT.sub("", out, count=1)

    def test_beside_the_store(self):
        """A refusal has no number, and a reply that never came has none yet."""
        proxy = self.proxy(["", "", "", "lost reply"])
        journal = Journal(self.folder / "a1.journal", "a1")
        with self.station(proxy.url, journal=journal, patience=1, closes_journal=True) as station:
            station.make_order(**ORDER)
            station.import_map(MAP)
            self.assertRaises(Refused, station.make_order, **ORDER)
            self.assertEqual((self.witness(journal._path), self.seat()[0]), ("seat a1 2\n", 2))
            proxy.faults = ["lost reply"] * 20
            self.assertRaises(NoReply, station.make_order, **{**ORDER, "name": "o2", "first": 0})
            self.assertEqual((self.witness(journal._path), self.seat()[0]), ("seat a1 2\n", 3))
            proxy.faults = []
            station.finish()
            self.assertEqual((self.witness(journal._path), self.seat()[0]), ("seat a1 3\n", 3))

    def test_journals(self):
        """Each with its lines, in the order in which they were written; a folder's days are one journal."""
        for name, files, words, expected in (
            ("nothing was answered", {"x.journal": [asked(1, **OF_B)]}, [], "seat b2 0\n"),
            ("a restore", {"x.journal": [asked(9, **OF_B), answered(9, **OF_B), resynchronized(4, **OF_B)]}, [],
             "seat b2 3\n"),
            ("days", {"b2-2026-11-28.journal": [asked(7), answered(7)], "b2-2026-11-29.journal": [asked(8)]}, [],
             "seat b2 7\n"),
            ("two seats", {"x.journal": [asked(2, **OF_B), answered(2, **OF_B)],
                           "y.journal": [asked(5, seat="a1"), answered(5, seat="a1"), answered(6, 409, seat="a1")]}, [],
             "seat a1 5\nseat b2 2\n"),
            ("a name of its own", {"x.journal": [asked(3), answered(3)]}, ["--seat", "c3"], "seat c3 3\n"),
            ("a cut line", {"b2-2026-11-29.journal": [asked(3), answered(3), "cut"]}, [], "seat b2 3\n"),
        ):  # fmt: skip
            with self.subTest(name):
                folder = self.folder / name.replace(" ", "-")
                folder.mkdir()
                for file, lines in files.items():
                    text = "".join("{" if line == "cut" else json.dumps(line) + "\n" for line in lines)
                    (folder / file).write_text(text, encoding="ascii")
                self.assertEqual(self.witness(*words, folder), expected)

    def test_without_a_name(self):
        """A journal that doesn't say whose it is isn't taken for anybody's."""
        (self.folder / "x.journal").write_text(json.dumps(asked(1)) + "\n", encoding="ascii")
        status, out, err = ran("witness", self.folder / "x.journal")
        self.assertEqual((status, out), (2, ""))
        self.assertIn("--seat", err)
