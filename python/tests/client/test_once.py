"""A request is done once: by whichever faults it is befallen, and whoever answers it."""

import contextlib
import http.client
import json
import os
import signal
import time
import tempfile
import unittest
from concurrent.futures import ThreadPoolExecutor
from unittest import mock

from books_case import ALWAYS, audited
from simulated_chip import SimulatedChip
from support import (
    CHUNKED, DIGEST, DRIPPING, LIFE, MAC, MAP, ORDER, OTHERS, Canned, Held, Proxy, StationCase, life, rows, steps,
)  # fmt: skip

import wanekupo.seat.connection
from wanekupo.common.errors import BadStateFile, NoReply, NotTheServer, OutOfStep
from wanekupo.seat.replies import Imported, Order, Word, Work
from wanekupo.seat.station import Station
from wanekupo.seat.journal import Journal, issued, requests_of


class Once(StationCase):
    """A request is done once, whatever becomes of it, of the server and of the station."""

    def setUp(self):
        super().setUp()
        self.enterContext(mock.patch.object(wanekupo.seat.connection, "FIRST_PAUSE", 0.01))

    def test_a_lost_reply(self):
        """The same bytes are sent again, and get the kept reply."""
        proxy = self.proxy(["lost reply"])
        station = self.station(proxy.url)
        with mock.patch.object(station, "expected_number", return_value=1):
            order = station.make_order(**ORDER)
        self.assertEqual((order.mac, order.next), ("020000000010", "A998"))
        (fault, first), (none, second) = proxy.seen
        self.assertEqual((fault, none, first), ("lost reply", None, second))
        self.assertIn(b'{"nr":1,"name":"o1",', first)
        self.assertEqual(station.expected_number(), 2)

    def test_each_fault_at_each_request(self):
        """Each request meets the fault and is sent again; each chip has one identity and one entry a step."""
        first = self.station()
        first.make_order(**{**ORDER, "quantity": len(Proxy.FAULTS), "first": 1, "macs": 0})
        first.import_map(MAP)
        first.close()
        for place, fault in enumerate(Proxy.FAULTS, 1):
            proxy = self.proxy([fault, None] * 100)
            timeout = Proxy.LATE / 2 if fault == "late" else 60
            with Station(proxy.url, "abc", self.folder / "a1.json", timeout=timeout) as station:
                mac = f"240ac40000{place:02x}"
                device = life(station, self.chip(mac), bytes([place]))
            self.assertEqual((device.state, device.serial), ("shipped", f"A{place:03}"), fault)
            self.assertEqual(steps(self.ledger(mac)), LIFE, fault)
            self.assertGreaterEqual([it for it, _ in proxy.seen].count(fault), 12)
            proxy.close()

    @unittest.skipUnless(hasattr(os, "fork"), "needs fork")
    def test_the_station_is_killed_at_every_step(self):
        """Before each call that the outside sees: of the state file, of the journal, of a connection, of the chip. Then
        it goes on. The journal has each request once, with its reply."""
        asked, has_words = self.killed_at_every_step()
        self.assertEqual((all(it.is_done() for it in asked), has_words), (True, True))

    @unittest.skipUnless(hasattr(os, "fork"), "needs fork")
    def test_no_file_has_what_a_chip_shows(self):
        """The same without words in the state file: of what shows a chip the journal may lack a reply. An audit finds
        nothing."""
        asked, has_words = self.killed_at_every_step(keeps_words=False, tell=lambda _: None)
        not_done = {it.path for it in asked if not it.is_done()}
        self.assertEqual((not_done, has_words), ({"/v1/device", "/v1/readback"}, False))
        self.program.copied(self.folder / "copy")
        self.assertIn("Found: Nothing.", audited(self.folder / "copy/books.db", self.folder / "a1.journal", *ALWAYS)[1])

    def test_words_that_went_with_a_process(self):
        """By the next number, or the one behind it, a seat goes on, and says which; at any other it stops."""
        told, proxy = [], self.proxy()
        options = {"keeps_words": False, "tell": told.append, "patience": 0}
        for others, accepted in ((0, "not accepted"), (1, "has accepted"), (2, None)):
            station, other = self.station(proxy.url, **options), self.station(file="other.json")
            station.import_map(MAP)
            proxy.faults = ["lost request"]
            with self.assertRaises(NoReply):
                station.read_back(MAC, self.chip().read())
            number = station.own_number()
            station.close()
            other.resynchronize()
            for _ in range(others):
                other.import_map(MAP)
            other.close()
            station = self.station(proxy.url, **options)
            if accepted:
                self.assertIsNotNone(station.finish())
                self.assertIn(accepted, told.pop())
            else:
                self.out_of_step(station.finish, 11, number, number + others)
                self.out_of_step(station.finish, 11, number, number + others)
            station.close()
        self.assertEqual(told, [])

    def killed_at_every_step(self, **options):
        """What the journal has behind it, and whether the state file ever had words of a chip."""
        with self.station() as station:
            station.make_order(**{**ORDER, "quantity": 200, "macs": 0, "first": 1})
            station.import_map(MAP)
        step, macs, has_words = 0, [], False
        while not macs or self.lives(macs[-1], step, **options) == signal.SIGKILL:
            if macs:
                has_words |= any(b'blocks\\":[[' in it.read_bytes() for it in self.folder.glob("a1.json*"))
                self.assertEqual(self.lives(macs[-1], None, **options), 0)
            step, mac = step + 1, f"240ac40000{step + 1:02x}"
            macs.append(mac)
        self.assertGreater(step, 50)
        for mac in macs:
            self.assertEqual(steps(self.ledger(mac)), LIFE, f"killed at step {int(mac[-2:], 16)}")
        serials = [self.asked("GET", f"/v1/device?chip={mac}")[1]["serial"] for mac in macs]
        self.assertEqual(serials, [f"A{place:03}" for place in range(1, len(macs) + 1)])
        counts = self.station().report()["o1"]
        self.assertEqual((counts["shipped"], counts["serials_left"]), (len(macs), 200 - len(macs)))
        asked = requests_of(self.folder / "a1.journal")
        self.assertEqual([it.members["nr"] for it in asked], list(range(3, 3 + 6 * len(macs))))
        self.assertEqual([it["serial"] for it in issued(asked)], serials)
        return asked, has_words

    def lives(self, mac, step, **options):
        """Brings a chip to its shipment in another process, which is killed at a step; its status, or the signal."""
        child = os.fork()
        if not child:
            status = 1
            try:
                file = self.folder / mac
                if not file.exists():
                    SimulatedChip(bytes.fromhex(mac), file)
                chip_io = Held(SimulatedChip.at(file), self.keys)
                killed_at(step)
                journal = Journal(self.folder / "a1.journal")
                with Station(self.program.url, "abc", self.folder / "a1.json", journal=journal, **options) as station:
                    life(station, chip_io, bytes.fromhex(mac))
                status = 0
            finally:
                os._exit(status)
        status = os.waitpid(child, 0)[1]
        return os.WTERMSIG(status) if os.WIFSIGNALED(status) else os.WEXITSTATUS(status)

    def out_of_step(self, call, no, number, expected):
        """A call stops, and says what was asked and what is expected."""
        with self.assertRaises(OutOfStep) as found:
            call()
        stop = found.exception
        self.assertEqual((stop.no, stop.number, stop.expected), (no, number, expected))

    def test_a_seat_that_another_uses(self):
        """After one foreign request, and after two: the station stops, each time, until it is told."""
        station, other = self.station(), self.station(file="other.json")
        station.make_order(**ORDER)
        for count, no in ((1, 12), (2, 11)):
            before = 2 + 3 * (count - 1)
            other.resynchronize()
            for _ in range(count):
                other.import_map(MAP)
            for _ in range(2):
                self.out_of_step(lambda: station.import_serials("acme-ca", rows("Z1")), no, before, before + count)
            station.resynchronize()
            self.assertEqual(station.import_serials("acme-ca", rows(f"Y{count}")), Imported(1, 0))
            other.resynchronize()
            other.import_map(MAP)
            station.resynchronize()
        self.assertEqual(station.import_serials("acme-ca", rows("Y1 Y2 Z1")), Imported(1, 2))

    def test_calls_of_several_threads(self):
        """They wait for each other; a seat without a state file asks for its number once."""
        station, names = self.station(), ("o1", "o2", "o3", "o4")
        orders = [{**ORDER, "name": name, "first": 2 * place, "macs": 0} for place, name in enumerate(names)]
        with ThreadPoolExecutor(len(orders)) as pool:
            made = list(pool.map(lambda order: station.make_order(**order), orders))
        self.assertEqual([order.next for order in made], ["A000", "A002", "A004", "A006"])
        self.assertEqual(station.expected_number(), 5)

    def test_the_state_file(self):
        station = self.station()
        self.assertIsNone(station.finish())
        station.import_map(MAP)
        with self.assertRaises(BadStateFile):
            self.station()
        if os.name == "posix":
            (self.folder / "link.json").symlink_to("a1.json")
            with self.assertRaises(BadStateFile):
                self.station(file="link.json")
        station.close()
        if os.name == "posix":
            self.assertEqual((self.folder / "a1.json").stat().st_mode & 0o777, 0o600)
        with self.station() as again:
            self.assertEqual(again.finish().reply, {"map": DIGEST})
        with self.assertRaises(BadStateFile):
            self.station(token="hello")
        kept = json.loads((self.folder / "a1.json").read_bytes())
        for text in ("{", json.dumps({**kept, "stop": {"path": "/v1/map", "status": 409}})):
            (self.folder / "a1.json").write_text(text, encoding="ascii")
            with self.assertRaises(BadStateFile):
                self.station()
        self.assertEqual(self.station(file="new.json").expected_number(), 2)


def killed_at(step):
    """Kills this process before the call with this number of those that the outside sees."""
    count = [0]

    def counted(call):
        def wrapped(*words, **named):
            count[0] += 1
            if count[0] == step:
                os.kill(os.getpid(), signal.SIGKILL)
            return call(*words, **named)

        return wrapped

    for name in ("fsync", "replace", "unlink"):
        setattr(os, name, counted(getattr(os, name)))
    for name in ("connect", "send", "getresponse", "close"):
        connection = http.client.HTTPConnection
        setattr(connection, name, counted(getattr(connection, name)))


class Peers(unittest.TestCase):
    """Servers that aren't the program: what a later one may send, and what isn't one."""

    def serve(self, *words, **options):
        """A station whose server answers each request with a page, or with bytes and a pause."""
        canned = self.enterContext(contextlib.closing(Canned.page(*words) if len(words) == 3 else Canned(*words)))
        folder = self.enterContext(tempfile.TemporaryDirectory())
        station = Station(canned.url, "abc", f"{folder}/a1.json", patience=0, **options)
        self.addCleanup(station.close)
        return station

    def test_members_that_it_does_not_know(self):
        work = {"bits": [{"block": 0, "mask": "00000040", "word": 6, "new": 1}], "keys": {}, "new": 1}
        device = {"bits": [], "chip": MAC, "keys": {}, "map": DIGEST, "order": "o1", "reason": None, "serial": None}
        device |= {"pending": {"batch1": work, "batch2": work}, "state": "awaiting1", "new": {"more": []}}
        shown = self.serve(200, "application/json", json.dumps(device).encode()).device(MAC)
        self.assertEqual((shown.batch1, shown.state), (Work((Word(0, 6, 0x40),), {}), "awaiting1"))
        order = {**ORDER, "mac": None, "next": "A998", "not_before": "20260101000000Z", "new": 1}
        shown = self.serve(200, "application/json", json.dumps(order).encode()).order("o1")
        self.assertEqual(shown, Order("o1", "acme-ca", "A", 3, 998, 2, 1, None, "A998", "20260101000000Z"))

    def test_what_is_no_reply_of_the_server(self):
        for status, kind, body in (
            (403, "text/html", b"<html>"),
            (200, "text/html", b"<html>"),
            (200, "application/json", b"[]"),
            (400, "application/json", b"{}"),
            (200, "application/json", OTHERS),
            (200, "application/json", b'{"name":"o2","next":null}'),
            (200, "text/csv", b"name,next"),
        ):
            with self.assertRaises(NotTheServer):
                self.serve(status, kind, body).order("o1")
        with self.assertRaises(NotTheServer):
            self.serve(200, "application/json", OTHERS).report()
        with self.assertRaises(NotTheServer):
            self.serve(CHUNKED).report()
        with self.assertRaises(NoReply):
            self.serve(503, "application/json", b'{"error":"unkept","no":50}').order("o1")

    def test_a_reply_that_comes_byte_by_byte(self):
        """However many come, it is waited for as long as for one of which none comes."""
        start = time.monotonic()
        with self.assertRaises(NoReply) as found:
            self.serve(DRIPPING, 0.05, timeout=1).report()
        self.assertIn("no reply in time", str(found.exception))
        self.assertLess(time.monotonic() - start, 30)

    def test_what_can_never_be_sent(self):
        """A caller's mistake is told at once, and no message has the token."""
        for token in ("hello\n", "", "hell\u00f6", "a b"):
            with self.assertRaises(ValueError) as found:
                Station("http://127.0.0.1:1", token, None)
            self.assertNotIn("hell", str(found.exception))
        with self.assertRaises(ValueError):
            Station("htps://127.0.0.1", "abc", None)
