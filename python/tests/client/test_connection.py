"""The client's connection: it is kept between requests, and made anew where it was closed, at whichever moment."""

import json
import time
from unittest import mock

from support import DIGEST, LIFE, MAP, ORDER, KeptProxy, StationCase, life, rows, steps

import wanekupo.seat.connection
from wanekupo.seat.station import Station
from wanekupo.common.errors import NoReply, OutOfStep
from wanekupo.seat.replies import Imported


class Connections(StationCase):
    """The stations have no patience: where one would pause before it sends again, there is no reply."""

    def kept(self):
        """A station with an order, which has asked twice over one connection."""
        proxy = self.proxy(kind=KeptProxy)
        station = self.station(proxy.url, patience=0)
        station.make_order(**ORDER)
        self.assertEqual((len(proxy.seen), proxy.connections), (2, 1))
        return station, proxy

    def number_goes_on(self):
        """Another process of the seat has two requests done."""
        with Station(self.program.url, "abc", self.folder / "other.json") as other:
            other.import_map(MAP)
            other.import_map(MAP)

    def test_it_is_kept(self):
        station, proxy = self.kept()
        station.import_map(MAP)
        self.assertEqual(life(station, self.chip()).state, "shipped")
        self.assertEqual((proxy.connections, steps(self.ledger())), (1, LIFE))
        self.assertFalse(proxy.ended.acquire(blocking=False))
        station.close()
        self.assertTrue(proxy.ended.acquire(timeout=10))

    def test_each_end_at_each_request(self):
        """Every second request of a life meets it, with the odd ones and the even ones; nothing is done twice."""
        with self.station() as station:
            station.make_order(**{**ORDER, "quantity": 2 * len(KeptProxy.FAULTS), "first": 1, "macs": 0})
            station.import_map(MAP)
        cases = [(fault, before) for fault in KeptProxy.FAULTS for before in ([], [None])]
        for place, (fault, before) in enumerate(cases, 1):
            proxy, mac = self.proxy([None, *before, *[fault, None] * 100], KeptProxy), f"240ac40000{place:02x}"
            with Station(proxy.url, "abc", self.folder / "a1.json", patience=0) as station:
                device = life(station, self.chip(mac), bytes([place]))
            self.assertEqual((device.state, device.serial), ("shipped", f"A{place:03}"), fault)
            self.assertEqual(steps(self.ledger(mac)), LIFE, fault)
            self.assertGreaterEqual([it for it, _ in proxy.seen].count(fault), 5, fault)
            proxy.close()

    def test_one_that_was_closed_before_the_request(self):
        """It is seen before anything is sent: the request is sent once, and where it is refused it wasn't done."""
        station, proxy = self.kept()
        proxy.faults = ["closed"]
        station.order("o1")
        self.number_goes_on()
        self.assertTrue(proxy.ended.acquire(timeout=10))
        with self.assertRaises(OutOfStep):
            station.import_serials("acme-ca", rows("Z1"))
        station.resynchronize()
        self.assertEqual(station.import_serials("acme-ca", rows("Z1")), Imported(1, 0))
        sent = [request.partition(b"\r\n\r\n")[2][:8] for _, request in proxy.seen[3:]]
        self.assertEqual((sent, proxy.connections), ([b'{"nr":2,', b'{"nr": 9', b'{"nr":4,'], 2))

    def test_one_that_is_closed_while_a_request_is_on_its_way(self):
        """The same bytes are sent again at once, and done once."""
        station, proxy = self.kept()
        for number, fault in enumerate(["unread", "dropped", "done"], 2):
            proxy.faults, asked, made = [fault], len(proxy.seen), proxy.connections
            self.assertEqual(station.import_serials("acme-ca", rows(f"Z{number}")), Imported(1, 0), fault)
            (_, first), (_, second) = proxy.seen[asked:]
            self.assertIn(first, (b"", second), fault)
            self.assertIn(b'{"nr":%d,' % number, second, fault)
            self.assertEqual(proxy.connections, made + 1, fault)
        self.assertEqual(station.expected_number(), 5)

    def test_one_whose_end_comes_behind_the_look(self):
        """What is sent into a closed connection is sent again, whether or not it has a body."""
        station, proxy = self.kept()
        for call, told in ((lambda: station.order("o1").next, "A998"), (lambda: station.import_map(MAP), DIGEST)):
            proxy.faults = ["closed"]
            station.order("o1")
            self.assertTrue(proxy.ended.acquire(timeout=10))
            with mock.patch.object(wanekupo.seat.connection.POLL, "select", return_value=[]):
                self.assertEqual(call(), told)
        self.assertEqual((proxy.connections, len(proxy.seen)), (3, 6))

    def test_a_request_that_was_sent_twice_may_be_done(self):
        """Refused as 11 it is still under way, as one that was sent before."""
        station, proxy = self.kept()
        for expected, fault in ((4, "unread"), (6, "dropped")):
            self.number_goes_on()
            proxy.faults = [fault]
            with self.assertRaises(OutOfStep) as found:
                station.import_serials("acme-ca", rows("Z1"))
            self.assertEqual((found.exception.no, found.exception.expected), (11, expected), fault)
            under_way = json.loads((self.folder / "a1.json").read_bytes())["under_way"]
            self.assertEqual((under_way["path"], json.loads(under_way["body"])["nr"]), ("/v1/import", expected - 2))
            station.resynchronize()

    def test_a_new_connection_without_a_reply(self):
        """It is as no reply: at the first request, and behind a kept one."""
        for faults, sent in ((["dropped"], 1), ([None, "dropped", "dropped"], 3)):
            proxy = self.proxy(faults, KeptProxy)
            with Station(proxy.url, "abc", self.folder / "new.json", patience=0) as station:
                with self.assertRaises(NoReply):
                    for _ in range(2):
                        station.report()
            self.assertEqual(len(proxy.seen), sent)

    def test_one_that_was_not_used_for_long(self):
        station, proxy = self.kept()
        with mock.patch.object(wanekupo.seat.connection, "LONGEST_IDLE", 0):
            self.assertEqual(station.order("o1").next, "A998")
        self.assertEqual((station.order("o1").next, proxy.connections), ("A998", 2))

    def test_each_exchange_has_its_own_time(self):
        """One that begins while an earlier one's time runs has all of its own, and no more."""
        proxy = self.proxy([None, None, "slow"], KeptProxy)
        with Station(proxy.url, "abc", self.folder / "new.json", patience=0, timeout=1) as station:
            for pause in (0.6, 0.6):
                station.report()
                time.sleep(pause)
            began = time.monotonic()
            with self.assertRaises(NoReply):
                station.report()
            took = time.monotonic() - began
        self.assertTrue(0.9 < took < 1.9, took)
