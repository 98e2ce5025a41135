"""The station's own log: what stands in it, what doesn't, and what a restore by it brings back."""

import errno
import hashlib
import json
import os
import re
import shutil
import subprocess
import time
import unittest
from unittest import mock

from support import DIGEST, FLASH_KEY, LETTERS, MAC, MAP, ORDER, PUBLIC_KEY, WISHES, StationCase, life, rows

from commanding import ran

from wanekupo.common.errors import BadJournal, Differs, NoReply, OutOfStep, Refused
from wanekupo.seat.journal import Journal, merged, request_digest, requests_of
from wanekupo.seat.journal_restore import restore

# SHA-256 of 32 zero bytes (sha256sum).
ZEROS = "66687aadf862bd776c8fc18b8e9f8e20089714856ee233b3902a591d0d5f2925"
# printf '/v1/ship\n{"chip":"240ac4000001","nr":8}' | sha256sum
SHIPPED = "5dd7f8178f0a3513ca9542436e8d97e14b939a6544b34e50b9b2b8e657a94893"
KEY_SHA256 = "06e3fd8fda29bb60ab59557de61edb0aecdb231134be30e75b455f8e1b792fa9"


class Lines(StationCase):
    def test_a_life(self):
        """Each request is known as the server knows it, has its reply, and shows no key."""
        journal = self.journal()
        station = self.station(journal=journal)
        steps = [lambda: station.make_order(**ORDER), lambda: station.import_map(MAP)]
        steps += [lambda: station.import_serials("acme-ca", rows("Z1")), lambda: life(station, self.chip())]
        for step in steps:
            step()
            last = json.loads((self.folder / "a1.journal").read_bytes().splitlines()[-2])
            self.assertEqual((last["asked"]["nr"], last["digest"]), self.seat())
        asked = requests_of(self.folder / "a1.journal")
        paths = "order map import device plan readback readback identity ship".split()
        expected = [(f"/v1/{path}", number) for number, path in enumerate(paths, 1)]
        self.assertEqual([(it.path, it.members["nr"]) for it in asked], expected)
        self.assertTrue(all(it.is_done() for it in asked))
        self.assertEqual((asked[0].reply["mac"], asked[7].reply["serial"]), ("020000000010", "A998"))
        self.assertEqual(asked[3].members["blocks"][1:], [ZEROS] * 3)
        burnt = hashlib.sha256(FLASH_KEY[::-1]).hexdigest()
        self.assertEqual(asked[5].members["blocks"][1:], [burnt, ZEROS, ZEROS])
        text = (self.folder / "a1.journal").read_text(encoding="ascii")
        words = [FLASH_KEY[::-1][place : place + 4][::-1].hex() for place in range(0, 32, 4)]
        self.assertFalse([word for word in words if word in text])
        if os.name == "posix":
            self.assertEqual((self.folder / "a1.journal").stat().st_mode & 0o777, 0o600)

    def test_what_is_synced_and_when(self):
        """What is asked before it is sent, and the answer before the next request is."""
        file, synced, seen = self.folder / "a1.journal", [], []
        station = self.station(journal=self.journal())
        fsync, once = os.fsync, station._server.once

        def noted(opened):
            fsync(opened)
            synced[:] = [file.read_bytes()]

        def looked(method, target, body):
            if body and b'"nr": 9007199254740991' not in body:
                seen.append([json.loads(line).get("path", "answer") for line in synced[0].splitlines()])
                last = json.loads(synced[0].splitlines()[-1])
                self.assertEqual((last["path"], last["asked"]), (target, json.loads(body)))
            return once(method, target, body)

        with mock.patch.object(os, "fsync", noted), mock.patch.object(station._server, "once", looked):
            station.import_map(MAP)
            station.import_serials("acme-ca", [])
        self.assertEqual(seen, [["/v1/map"], ["/v1/map", "answer", "/v1/import"]])
        self.assertEqual(len(synced[0].splitlines()), 4)

    def test_letters_of_several_bytes(self):
        """The longest map comes whole, also in a repeat, which the journal knows as the server does."""
        proxy = self.proxy([None, "lost reply"])
        station = self.station(proxy.url, patience=0, journal=self.journal())
        with self.assertRaises(NoReply):
            station.import_map(LETTERS)
        self.assertEqual(station.finish().reply, {"map": hashlib.sha256(LETTERS.encode()).hexdigest()})
        (asked,) = self.asked_of()
        self.assertEqual((1, request_digest(asked.path, asked.members)), self.seat())
        with self.assertRaises(ValueError):
            station.import_map("\u0416" * 32_768)
        self.assertEqual(station.own_number(), 2)

    def test_a_full_disk(self):
        """A line of which a part was written is taken back, and isn't before the next one."""
        station, write = self.station(journal=self.journal()), os.write
        station.import_map(MAP)

        def full(opened, data):
            if len(data) < 20:
                raise OSError(errno.ENOSPC, "full")
            return write(opened, data[:20])

        with mock.patch.object(os, "write", full), self.assertRaises(OSError):
            station.import_serials("acme-ca", rows("Z1"))
        station.finish()
        self.assertEqual([(it.path, it.status) for it in self.asked_of()], [("/v1/map", 200), ("/v1/import", 200)])

    def test_the_digest_of_a_request(self):
        self.assertEqual(request_digest("/v1/ship", {"nr": 8, "chip": MAC}), SHIPPED)

    @unittest.skipUnless(shutil.which("sha256sum"), "there is no sha256sum, which makes the digest")
    def test_the_digest_of_letters(self):
        """Of a text with each kind of character that a map may have: by sha256sum over JSON that is written by hand, in
        the log, and in the store."""
        text = MAP + '# "\\" \t/\u00b5\u0416\U0001f600\u2028\n'
        written = text.replace("\\", "\\\\").replace('"', '\\"').replace("\t", "\\t").replace("\n", "\\n")
        station = self.station(journal=self.journal())
        station.import_map(text)
        data = f'/v1/map\n{{"nr":1,"text":"{written}"}}'.encode()
        digest = subprocess.run("sha256sum", input=data, capture_output=True, check=True).stdout[:64].decode()
        line = json.loads((self.folder / "a1.journal").read_bytes().splitlines()[0])
        self.assertEqual((line["digest"], self.seat()), (digest, (1, digest)))

    def test_what_is_sent_again_stands_there_once(self):
        """A request without a reply is open; a refused one isn't, and one that is out of step wasn't done."""
        proxy = self.proxy(["lost reply", "lost reply"])
        station, other = self.station(proxy.url, patience=0, journal=self.journal()), self.station(file="other.json")
        with self.assertRaises(NoReply):
            station.expected_number()
        with self.assertRaises(NoReply):
            station.resynchronize() or station.import_map(MAP)
        self.assertEqual([it.status for it in self.asked_of()], [])
        proxy.faults = [None, "lost reply"]
        with self.assertRaises(NoReply):
            station.import_map(MAP)
        self.assertEqual([(it.path, it.status) for it in self.asked_of()], [("/v1/map", None)])
        station.finish()
        with self.assertRaises(Refused):
            station.ship(MAC)
        other.import_map(MAP)
        with self.assertRaises(OutOfStep):
            station.scrap(MAC)
        found = [(it.path, it.members["nr"], it.status) for it in self.asked_of()]
        self.assertEqual(found, [("/v1/map", 1, 200), ("/v1/ship", 2, 404), ("/v1/scrap", 2, 409)])

    def asked_of(self):
        return requests_of(self.folder / "a1.journal")

    def test_a_line_that_was_cut(self):
        file = self.folder / "a1.journal"
        with self.station(journal=self.journal()) as station:
            station.import_map(MAP)
        with self.assertRaises(BadJournal):
            Journal(file)
        whole = file.read_bytes()
        for cut in (whole + b'{"at":"2026-', whole[:-1]):
            (self.folder / "cut").write_bytes(cut)
            kept = whole if cut.startswith(whole) else whole[: whole.rindex(b"\n", 0, -1) + 1]
            self.assertEqual(len(requests_of(self.folder / "cut")), 1)
            Journal(self.folder / "cut").close()
            self.assertEqual((self.folder / "cut").read_bytes(), kept)
        (self.folder / "firmware").write_bytes(bytes(300_000))
        with self.assertRaises(BadJournal):
            Journal(self.folder / "firmware")
        self.assertEqual((self.folder / "firmware").stat().st_size, 300_000)
        for bad in (b"{}\n" + whole, whole.partition(b"\n")[2], b"x\n" + whole):
            (self.folder / "bad").write_bytes(bad)
            with self.assertRaises(BadJournal):
                requests_of(self.folder / "bad")


class Restore(StationCase):
    """A store is lost behind a backup, and made again by the journal."""

    over_office = True

    MACS = [f"240ac400000{place}" for place in range(1, 7)]
    OTHER = {**ORDER, "name": "o2", "prefix": "B", "first": 1}

    def setUp(self):
        """Before the backup: an order, a map, and devices that are identified, settled, awaiting and registered."""
        super().setUp()
        self.proxy_of = self.proxy()
        self.seat = self.station(self.proxy_of.url, patience=0, journal=self.journal())
        self.seat.make_order(**{**ORDER, "quantity": 6, "width": 4, "macs": 0})
        self.seat.import_map(MAP)
        for mac, wishes in zip(self.MACS, ([], [], WISHES)):
            self.registered(mac, "o1", wishes)
        self.seat.register(self.MACS[3], "o1", DIGEST, self.chip(self.MACS[3]).read())
        self.seat.identify(self.MACS[0], b"1")
        self.program.copied(self.folder / "backup")

    def registered(self, mac, order, wishes=()):
        self.seat.register(mac, order, DIGEST, self.chip(mac).read())
        self.seat.plan(mac, wishes)

    def go_on(self):
        """Behind the backup: a device that is shipped, one scrapped, one quarantined; an order with an identity;
        another map, an import, a refusal and an order whose reply is lost."""
        self.seat.ship(self.MACS[0])
        self.seat.scrap(self.MACS[1])
        chip = self.chip(self.MACS[2])
        chip.chip.burn(0, 1 << 197)
        self.assertEqual(self.seat.read_back(self.MACS[2], chip.read()).state, "quarantined")
        self.assertEqual(self.seat.make_order(**self.OTHER).mac, "020000000010")
        self.registered(self.MACS[4], "o2")
        self.assertEqual(self.seat.identify(self.MACS[4], PUBLIC_KEY).serial, "B001")
        self.seat.ship(self.MACS[4])
        self.seat.import_map(MAP + "# another\n")
        self.seat.import_serials("acme-ca", rows("Z1"))
        with self.assertRaises(Refused):
            self.seat.make_order(**self.OTHER)
        self.proxy_of.faults = ["lost reply"]
        with self.assertRaises(NoReply):
            self.seat.make_order(**{**self.OTHER, "name": "o3", "first": 11})

    def brought(self, station):
        return restore(station, [self.folder / "a1.journal"])

    def test_what_was_issued_is_known_again(self):
        self.go_on()
        self.program.restored(self.folder / "backup")
        with self.station(file="restore.json") as station:
            told = self.brought(station)
            counts = {"orders": 2, "maps": 2, "added": 2, "present": 1}
            ends = {"scrapped": self.MACS[1:3], "shipped": self.MACS[:1], "left": {self.MACS[4]: ["shipped", None]}}
            self.assertEqual(told, {**counts, **ends})
            self.assertEqual((station.order("o2").mac, station.order("o2").next), ("020000000010", "B002"))
            self.assertEqual((station.order("o3").mac, station.order("o1").next), ("020000000012", "A0999"))
            told = self.brought(station)
            ends |= {"scrapped": [], "shipped": []}
            self.assertEqual(told, {"orders": 0, "maps": 2, "added": 0, "present": 3, **ends})
        with self.assertRaises(OutOfStep):
            self.seat.finish()
        self.seat.resynchronize()
        self.registered(self.MACS[5], "o2")
        record = self.seat.identify(self.MACS[5], b"6")
        self.assertEqual((record.serial, record.mac), ("B002", "020000000011"))

    def test_a_hole(self):
        """Without an order the next one gets other addresses, and nothing goes on."""
        self.seat.make_order(**self.OTHER)
        self.seat.make_order(**{**self.OTHER, "name": "o3", "first": 11})
        lines = (self.folder / "a1.journal").read_bytes().splitlines(keepends=True)
        (self.folder / "hole").write_bytes(b"".join(lines[:-4] + lines[-2:]))
        self.program.restored(self.folder / "backup")
        with self.station(file="restore.json") as station, self.assertRaises(Differs) as found:
            restore(station, [self.folder / "hole"])
        told = "order o3: mac is 020000000010, and was 020000000012 (line "
        self.assertTrue(str(found.exception).startswith(told), found.exception)

    def test_several_journals(self):
        """They are read by their times, each in its own order."""
        times = [f"2026-11-27T06:00:0{second}Z" for second in (1, 2, 3, 4, 1, 3)]
        lines = [{"at": at, "path": "/v1/ship", "asked": {"nr": nr}} for nr, at in enumerate(times, 1)]
        for name, places in (("one", (0, 3, 4)), ("two", (1, 2, 5))):
            text = "".join(json.dumps(lines[place]) + "\n" for place in places)
            (self.folder / name).write_text(text, encoding="ascii")
        asked = merged([self.folder / "one", self.folder / "two"])
        self.assertEqual([it.members["nr"] for it in asked], [1, 2, 3, 6, 4, 5])

    def ran(self, *words):
        (self.folder / "a1.token").write_text("abc\n", encoding="ascii")
        common = ["--url", self.program.url, "--token", self.folder / "a1.token"]
        return ran(*common, "--state-file", self.folder / "restore.json", *words)

    def test_by_the_command_line(self):
        self.go_on()
        self.program.restored(self.folder / "backup")
        kept = ["--journal", str(self.folder / "restore.journal")]
        status, out, _ = self.ran(*kept, "restore", str(self.folder / "a1.journal"))
        self.assertEqual((status, json.loads(out)["added"]), (0, 2))
        paths = [it.path for it in requests_of(self.folder / "restore.journal")]
        self.assertEqual(paths, [f"/v1/{it}" for it in "order map order map order import ship scrap scrap".split()])
        issued = "chip,issuer,serial,key_sha256,mac\n"
        issued += f"{self.MACS[0]},acme-ca,A0998,{hashlib.sha256(b'1').hexdigest()},\n"
        issued += f"{self.MACS[4]},acme-ca,B001,{KEY_SHA256},020000000010\n"
        self.assertEqual(self.ran("issued", str(self.folder / "a1.journal")), (0, issued, ""))


class Days(StationCase):
    """A folder with a file a day, by a clock that the test sets, and what reads it."""

    over_office = True

    def setUp(self):
        super().setUp()
        self.days = self.folder / "journals"
        self.days.mkdir(mode=0o700)
        self.now = "2026-11-28T23:59:59Z"
        moment = lambda: time.strptime(self.now, "%Y-%m-%dT%H:%M:%SZ")
        self.enterContext(mock.patch.object(time, "gmtime", moment))
        self.wire = self.proxy()

    def opened(self):
        journal = Journal(self.days, "a1", "Zo\u00eb")
        return self.station(self.wire.url, journal=journal, closes_journal=True, patience=0)

    def lived(self):
        """A map before midnight, an order whose reply comes behind it, and an identity whose reply is lost at the next
        midnight."""
        with self.opened() as station:
            station.import_map(MAP)
            once = station._server.once

            def slow(*words):
                self.now = "2026-11-29T00:00:01Z"
                return once(*words)

            with mock.patch.object(station._server, "once", slow):
                station.make_order(**{**ORDER, "macs": 0})
            station.register(MAC, "o1", DIGEST, self.chip().read())
            station.plan(MAC, [])
            self.now = "2026-11-29T23:59:59Z"
            self.wire.faults = ["lost reply"]
            with self.assertRaises(NoReply):
                station.identify(MAC, b"1")
        self.now = "2026-11-30T00:00:01Z"
        with self.opened() as station:
            station.finish()
            station.scrap(MAC)

    def test_a_file_a_day(self):
        """A reply stands in its request's file, and what is sent again on another day is one request."""
        self.lived()
        found = {}
        for file in sorted(self.days.iterdir()):
            lines = list(map(json.loads, file.read_bytes().splitlines()))
            found[file.name] = [line.get("path", "reply").rpartition("/")[2] for line in lines]
            self.assertEqual({(line["seat"], line["operator"]) for line in lines}, {("a1", "Zo\u00eb")})
        expected = {
            "a1-2026-11-28.journal": ["map", "reply", "order", "reply"],
            "a1-2026-11-29.journal": ["device", "reply", "plan", "reply", "identity"],
            "a1-2026-11-30.journal": ["identity", "reply", "scrap", "reply"],
        }
        self.assertEqual(found, expected)
        asked = merged([self.days])
        paths = [f"/v1/{it}" for it in "map order device plan identity scrap".split()]
        self.assertEqual([it.path for it in asked], paths)
        self.assertTrue(all(it.is_done() for it in asked))
        with self.opened(), self.assertRaises(BadJournal):
            Journal(self.days, "a1")

    def test_a_folder_is_read(self):
        """As its files are, also where one of them is named, and beside another seat's."""
        self.lived()
        files = sorted(self.days.iterdir())
        (self.days / "notes").write_text("x", encoding="ascii")
        for names in ([self.days], files, [self.days, files[1]]):
            status, out, _ = ran("issued", *names)
            record = f"{MAC},acme-ca,A998,{hashlib.sha256(b'1').hexdigest()},"
            self.assertEqual((status, out.splitlines()[1:]), (0, [record]))
            status, out, err = ran("lost", *names)
            row = ["2026-11-30T00:00:01Z", str(files[2]), MAC, "o1", "scrapped"]
            self.assertEqual((status, out.split()[5:], err), (0, row, ""))
        self.program.kill()
        for file in self.folder.glob("books.db*"):
            file.unlink()
        self.program.start()
        with self.station(file="restore.json") as station:
            told = restore(station, [self.days])
            counts = {"orders": 1, "maps": 1, "added": 1, "present": 0, "scrapped": [], "shipped": []}
            self.assertEqual(told, {**counts, "left": {MAC: ["scrapped", None]}})
        self.assertEqual(ran("issued", self.folder / ".")[0], 2)


class Records(StationCase):
    """Two records of one serial number: a store that was an older one gave it once more."""

    over_office = True

    def written(self, name, *requests):
        """A journal of requests, each its path, its members, and its reply where it has one."""
        lines = []
        for number, (path, members, reply) in enumerate(requests, 1):
            at = {"at": f"2026-11-27T06:00:0{number}Z"}
            lines.append({**at, "path": path, "asked": {"nr": number, **members}, "digest": ""})
            if reply is not None:
                lines.append({**at, "nr": number, "status": 200, "reply": reply})
        (self.folder / name).write_text("".join(json.dumps(line) + "\n" for line in lines), encoding="ascii")
        return self.folder / name

    @staticmethod
    def identity(chip, key, serial="A998", issuer="acme-ca"):
        reply = {"chip": chip, "issuer": issuer, "serial": serial, "key_sha256": key, "mac": None}
        return "/v1/identity", {"chip": chip, "public_key": "00"}, reply

    @staticmethod
    def imported(key, reply):
        return "/v1/import", {"issuer": "acme-ca", "csv": f"serial,key_sha256\nA998,{key}\n"}, reply

    def test_two_records_of_one_serial_number(self):
        """They are told with both journals and lines, by `issued` and by `restore`, which sends nothing then."""
        one, done = self.identity(MAC, "a" * 64), {"added": 1, "present": 0}
        (self.folder / "a1.token").write_text("abc", encoding="ascii")
        seat = ["--url", self.program.url, "--token", self.folder / "a1.token"]
        seat += ["--state-file", self.folder / "restore.json"]
        for first, second, lines in (
            ([one], [self.identity("240ac4000002", "b" * 64)], (2, 2)),
            ([one], [self.identity("240ac4000002", "a" * 64)], (2, 2)),
            ([one], [self.identity(MAC, "b" * 64)], (2, 2)),
            ([one], [one, self.imported("b" * 64, done)], (2, 4)),
            ([self.imported("b" * 64, done)], [one], (2, 2)),
            ([one, self.identity("240ac4000002", "b" * 64)], [], (2, 4)),
        ):
            files = [self.written("one.journal", *first), self.written("two.journal", *second)]
            names = [files[0], files[1] if second else files[0]]
            for words in (["issued", *files], [*seat, "restore", *files]):
                status, out, err = ran(*words)
                places = re.findall(r"line (\d+) of (\S+)", err)
                expected = {(str(line), str(name)) for line, name in zip(lines, names)}
                self.assertEqual((status, out, set(places), "A998" in err), (2, "", expected, True), err)
        self.assertEqual(self.station(file="other.json").expected_number(), 1)

    def test_what_is_one_record(self):
        """The same one again, an import of it, another issuer's, and an import that may never have been done."""
        one, done = self.identity(MAC, "a" * 64), {"added": 0, "present": 1}
        for more in (
            one,
            self.imported("A" * 64, done),
            self.identity("240ac4000002", "b" * 64, issuer="other-ca"),
            self.imported("b" * 64, None),
        ):
            for requests in ([one, more], [more, one]):
                status, out, err = ran("issued", self.written("one.journal", *requests))
                self.assertEqual((status, err), (0, ""), more)
                self.assertIn(f"{MAC},acme-ca,A998,{'a' * 64},\n", out)
