"""What is read of files that others wrote, by root and by an auditor: no pipe, no link, no bomb, and not for ever."""

import gzip
import hashlib
import json
import os
import tracemalloc
import unittest
from email.message import Message
from types import SimpleNamespace
from unittest import mock

from support import FolderCase
from wanekupo.common import files
from wanekupo.bench import page
from wanekupo.books import folder
from wanekupo.books import store
from wanekupo.books.chain import NONE, Chain, sealed
from wanekupo.common.errors import StationError, UnsafeFile
from wanekupo.common.moments import moment_of
from wanekupo.seat.journal import journals_of
from wanekupo.books.lost import given_up, lost_text

AT = "2026-11-27T06:00:00Z"
ROW = 'seat acme a1 {"digest":null,"last":0,"name":"a1","reply_sha256":null}\n'
NAMES = ("chain", "000001.rows", "000001.rows.gz", "000001.seal", "000001.seal.minisig", "000001.tsr")


class Seals(FolderCase):
    def seal(self, data, rows):
        """A folder of one seal over these bytes, which its line says are so many rows."""
        made = sealed(NONE, 1, AT, "acme", rows, hashlib.sha256(data).hexdigest())
        for name in ("chain", "000001.seal"):
            (self.folder / name).write_text(f"{made.line()}\n")

    def found(self):
        return folder.tested(Chain(self.folder), folder.Trusted()).found

    def test_a_pipe_in_a_files_place(self):
        for name in NAMES:
            with self.subTest(name):
                self.seal(ROW.encode(), 1)
                (self.folder / name).unlink(missing_ok=True)
                os.mkfifo(self.folder / name)
                self.assertEqual(self.found(), [f"{self.folder / name} is no plain file: look who put it there."])
                (self.folder / name).unlink()

    def test_a_pipe_that_is_named(self):
        os.mkfifo(self.folder / "a")
        for read in (folder.sealed_text, store.is_store):
            with self.assertRaisesRegex(UnsafeFile, "is no plain file"):
                read(self.folder / "a")

    @unittest.skipIf(os.geteuid(), "it is root's")
    def test_a_store_where_another_user_writes(self):
        """He may put a link in the place of its log while root reads it."""
        (self.folder / "books.db").write_bytes(store.MAGIC)
        os.chown(self.folder, 990, 990)
        with self.assertRaisesRegex(UnsafeFile, "others than root write"):
            store.StoreCopy(self.folder / "books.db")

    def test_rows_that_are_compressed(self):
        self.seal(ROW.encode(), 1)
        (self.folder / "000001.rows.gz").write_bytes(gzip.compress(ROW.encode()))
        self.assertEqual(self.found(), [])

    def test_a_few_bytes_that_are_many(self):
        """A line of one row has no 64 MB of it: no more than the row's bound comes into memory."""
        bomb = gzip.compress(bytes(64 << 20))
        self.seal(bytes(64 << 20), 1)
        (self.folder / "000001.rows.gz").write_bytes(bomb)
        tracemalloc.start()
        self.addCleanup(tracemalloc.stop)
        (told,) = [it for it in self.found() if "rows.gz" in it]
        with self.assertRaisesRegex(StationError, "is no file of rows"):
            folder.sealed_text(self.folder / "000001.rows.gz")
        self.assertLess(tracemalloc.get_traced_memory()[1], 8 << 20)
        self.assertIn(f"has more than {2 * folder.LONGEST_ROW} bytes, and its seal is of 1 row.", told)
        with mock.patch.object(folder, "MOST_ROWS", 1 << 20), self.assertRaisesRegex(StationError, "more than 1 MB"):
            folder.sealed_text(self.folder / "000001.rows.gz")


class Page(unittest.TestCase):
    def test_one_host(self):
        """No browser sends two; of a request that has two nobody knows which one is meant."""
        cases = ((["127.0.0.1:8"], True), (["127.0.0.1:8", "evil"], False), (["evil"], False), ([], False))
        for hosts, is_own in cases:
            told = Message()
            for it in hosts:
                told["Host"] = it
            asked = SimpleNamespace(headers=told, server=SimpleNamespace(server_address=("127.0.0.1", 8)))
            self.assertEqual(page.Handler._is_own(asked), is_own, hosts)


def lines(seat, chip):
    asked = {"at": AT, "path": "/v1/scrap", "asked": {"chip": chip, "nr": 1}, "digest": "", "seat": seat}
    replied = {"at": AT, "nr": 1, "status": 200, "reply": {"chip": chip, "state": "scrapped"}, "seat": seat}
    return "".join(json.dumps(it) + "\n" for it in (asked, replied))


class Journals(FolderCase):
    def setUp(self):
        super().setUp()
        for name, seat in (("pc7", "a1"), ("pc8", "b1")):
            (self.folder / "all" / name).mkdir(parents=True)
            (self.folder / "all" / name / "x.journal").write_text(lines(seat, name))
        self.seats = {"pc7": frozenset(["a1"]), "pc8": frozenset(["b1"])}

    def lost(self):
        found, told = given_up([self.folder / "all"], folders=self.seats)
        return [it[2] for it in found], told

    def test_lost_by_folders(self):
        """A line of another folder's seat says nothing, and a folder that can't be read is told."""
        self.assertEqual(self.lost(), (["pc7", "pc8"], []))
        (self.folder / "all/pc7/y.journal").write_text(lines("b1", "forged"))
        self.assertEqual(self.lost(), (["pc7", "pc8"], []))
        os.mkfifo(self.folder / "all/pc7/z.journal")
        chips, told = self.lost()
        self.assertIn("pc8", chips)
        self.assertEqual([it.startswith(f"{self.folder}/all/pc7 isn't read to its end: ") for it in told], [True])

    def test_no_customer_hides_anothers_lost_chip(self):
        """A line of an earlier time, of the same chip's name, is another customer's chip; one of the same customer's
        office is the same chip."""
        early = lines("a1", "pc8").replace(AT, "2026-01-01T00:00:00Z")
        (self.folder / "all/pc7/y.journal").write_text(early)
        for customers in ({}, {"a1": "acme", "b1": "bolt"}):
            found, _ = given_up([self.folder / "all"], moment_of(AT), None, self.seats, customers)
            self.assertEqual([it[2] for it in found], ["pc7", "pc8"])
        found, _ = given_up([self.folder / "all"], None, None, self.seats, {"a1": "acme", "b1": "acme"})
        self.assertEqual([it[2] for it in found], ["pc8", "pc7"])

    def test_what_a_station_wrote_is_printed_in_a_line(self):
        """Neither a screen of it, nor what would be a command to a terminal."""
        text = lost_text([[AT, "j", "chip", "", "\x1b]0;owned\x07" + 9000 * "x"]])
        self.assertEqual((len(text) < 300, "\x1b" in text, len(text.splitlines())), (True, False, 2))

    def test_lost_follows_no_link(self):
        (self.folder / "elsewhere").write_text(lines("a1", "linked"))
        (self.folder / "all/pc7/y.journal").symlink_to(self.folder / "elsewhere")
        chips, told = self.lost()
        self.assertEqual(("linked" in chips, len(told)), (False, 1))

    def test_root_reads_nothing_where_others_write(self):
        place = self.folder / "all/pc7"
        with mock.patch.object(files.os, "geteuid", lambda: 0):
            place.chmod(0o777)
            for name in (place, place / "x.journal"):
                with self.assertRaisesRegex(UnsafeFile, "others than root write"):
                    journals_of([name])
            self.assertEqual(len(journals_of([place / "x.journal"], is_shipped=True)), 1)
        place.chmod(0o755)
        self.assertEqual(len(journals_of([place])), 1)

    @unittest.skipIf(os.geteuid(), "it is root's")
    def test_root_looks_at_the_whole_way(self):
        """A user may put another folder in the place of root's in his own."""
        place = self.folder / "all/pc7"
        files.tested_reading(place)
        os.chown(self.folder / "all", 990, 990)
        with self.assertRaisesRegex(UnsafeFile, "others than root write .*/all,"):
            files.tested_reading(place)
        (self.folder / "link").symlink_to(self.folder / "all/pc7")
        with self.assertRaisesRegex(UnsafeFile, "others than root write .*/all,"):
            files.tested_reading(self.folder / "link")
