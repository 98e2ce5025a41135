"""Late copies: the network holds a request, its repeat is refused, and the held one is accepted afterwards.

What is expected is of docs/integrate/api.md: its refusals, and that a request is done once.
"""

import hashlib
import json
import os
import signal
import unittest
from unittest import mock

from support import DIGEST, MAP, ORDER, SITE, StationCase, rows, steps
from test_once import killed_at

import wanekupo.seat.connection
from wanekupo.common.errors import NoReply, OutOfStep, Refused
from wanekupo.seat.journal import issued, requests_of
from wanekupo.seat.replies import Imported

A2 = f'[[customer.seat]]\nname = "a2"\ntoken = "{hashlib.sha256(b"second").hexdigest()}"\n'
BOLT = '[[customer]]\nname = "bolt"'
MACS = [f"240ac40000{place:02x}" for place in range(1, 255)]
OTHER_MAP = MAP + "# another\n"
OTHER_DIGEST = hashlib.sha256(OTHER_MAP.encode()).hexdigest()


class Late(StationCase):
    """The seat a1 behind a proxy that holds requests, and the seat a2 of the same customer. The order o1 is full."""

    def setUp(self):
        super().setUp()
        self.enterContext(mock.patch.object(wanekupo.seat.connection, "FIRST_PAUSE", 0.01))
        self.told, self.wire = [], self.proxy()
        self.seat, self.other = self.opened(), self.station(token="second", file="a2.json")
        self.seat.make_order(**{**ORDER, "macs": 0})
        self.seat.import_map(MAP)
        for mac in MACS[:2]:
            self.registered(self.other, mac)

    def site(self):
        file = self.folder / "site.toml"
        file.write_text(SITE.read_text(encoding="ascii").replace(BOLT, A2 + BOLT), encoding="ascii")
        return file

    def opened(self, url=None, **options):
        options = {"journal": self.journal(), "closes_journal": True, "tell": self.told.append, **options}
        return self.station(url or self.wire.url, **options)

    def registered(self, seat, mac, order="o1", digest=DIGEST):
        seat.register(mac, order, digest, self.chip(mac).read())

    def made(self, name, prefix):
        self.other.make_order(**{**ORDER, "name": name, "prefix": prefix, "macs": 0})

    def refused_and_held(self, call, no):
        """The first sending is held, and the repeat is refused."""
        self.refused(call, no, "held")

    def refused(self, call, no, *faults):
        """A call meets faults and is refused. Whether the seat stopped."""
        self.wire.faults = list(faults)
        with self.assertRaises(Refused) as found:
            call()
        self.assertEqual(found.exception.no, no)
        return isinstance(found.exception, OutOfStep)

    def delivered(self):
        (reply,) = self.wire.deliver()
        self.assertTrue(reply.startswith(b"HTTP/1.1 200 "), reply)

    def requests(self):
        return [(it.path, it.members["nr"], it.status) for it in requests_of(self.folder / "a1.journal")]

    def kept(self):
        return json.loads((self.folder / "a1.json").read_bytes())

    def cases(self):
        """Each request, its refusal, what lifts it at another seat, its chip, and the chip's ledger at the end."""
        seat, other, (one, two, three, four, five, six) = self.seat, self.other, MACS[:6]
        yield "device", lambda: self.registered(seat, three), 18, lambda: other.scrap(two), three, ["registered"]
        made = lambda: self.made("o2", "B")
        yield "device", lambda: self.registered(seat, four, "o2"), 14, made, four, ["registered"]
        imported = lambda: other.import_map(OTHER_MAP)
        yield "device", lambda: self.registered(seat, five, "o2", OTHER_DIGEST), 13, imported, five, ["registered"]
        self.made("o3", "C")
        registered = lambda: self.registered(other, six, "o3")
        yield "plan", lambda: seat.plan(six, []), 15, registered, six, ["registered", "planned"]
        planned = lambda: other.plan(one, [])
        yield "identity", lambda: seat.identify(one, b"1"), 17, planned, one, ["registered", "planned", "identified"]

    def test_the_station_goes_on(self):
        """The journal gets what was accepted late, the person is told once, and the next request is done once."""
        for place, (path, call, no, lift, chip, ledger) in enumerate(self.cases()):
            number, before = self.seat.own_number(), len(self.requests())
            self.refused_and_held(call, no)
            lift()
            self.delivered()
            self.assertEqual(self.seat.import_serials("acme-ca", rows(f"Z{place}")), Imported(1, 0))
            ((late, first, status), *behind), path = self.requests()[before:], f"/v1/{path}"
            self.assertEqual((late, first, status // 100), (path, number, 4))
            expected = [("/v1/import", number, 409), (path, number, 200), ("/v1/import", number + 1, 200)]
            self.assertEqual(behind, expected)
            self.assertEqual(steps(self.ledger(chip)), ledger)
            self.assertEqual((self.seat.own_number(), self.seat.expected_number()), (number + 2, number + 2))
            self.assertEqual(self.kept()["late"], [])
            told = self.told.pop()
            self.assertEqual((path in told, chip in told, self.told), (True, True, []), told)
        (record,) = issued(requests_of(self.folder / "a1.journal"))
        self.assertEqual((record["chip"], record["serial"]), (MACS[0], "A998"))

    def imported(self, serial):
        return self.seat.import_serials("acme-ca", rows(serial))

    def test_what_was_sent_once(self):
        """The network copies it, however often the station sent it: it is refused, and a copy of it is accepted."""
        number, register = self.seat.own_number(), lambda: self.registered(self.seat, MACS[2])
        self.assertFalse(self.refused(register, 18, "copied"))
        self.other.scrap(MACS[1])
        self.delivered()
        self.assertEqual(self.imported("Z1"), Imported(1, 0))
        expected = [("/v1/device", number, 409), ("/v1/import", number, 409), ("/v1/device", number, 200)]
        self.assertEqual(self.requests()[-4:], [*expected, ("/v1/import", number + 1, 200)])
        self.assertEqual((steps(self.ledger(MACS[2])), len(self.told)), (["registered"], 1))

    def test_what_was_sent_once_and_done(self):
        """One copy is done, and its reply is lost; another one is refused as 6, and that is heard."""
        number = self.seat.own_number()
        self.assertFalse(self.refused(lambda: self.imported("Z1"), 6, "done, 6"))
        self.assertEqual(self.imported("Z2"), Imported(1, 0))
        answers = [("/v1/import", number, status) for status in (401, 409, 200)]
        self.assertEqual(self.requests()[-4:], [*answers, ("/v1/import", number + 1, 200)])
        self.assertEqual((self.imported("Z1 Z2"), len(self.told)), (Imported(0, 2), 1))

    def test_one_of_several_behind_a_lost_request(self):
        """Two may come late; the second does, while the next request is lost on its first way."""
        self.seat.close()
        with self.opened() as seat:
            self.refused_and_held(lambda: seat.ship(MACS[9]), 15)
        with self.opened() as seat:
            self.refused_and_held(lambda: self.registered(seat, MACS[2]), 18)
        number = self.kept()["next"]
        self.other.scrap(MACS[1])
        with self.opened(patience=0) as seat, self.assertRaises(NoReply):
            self.wire.faults = ["lost request"]
            seat.import_serials("acme-ca", rows("Z1"))
        ships, registers = self.wire.deliver()
        self.assertIn(b'"no":15', ships)
        self.assertTrue(registers.startswith(b"HTTP/1.1 200 "))
        with self.opened() as seat:
            self.assertEqual(seat.finish().reply, {"added": 1, "present": 0})
            self.assertEqual(seat.expected_number(), number + 2)
        expected = [("/v1/import", number, 409), ("/v1/device", number, 200), ("/v1/import", number + 1, 200)]
        self.assertEqual(self.requests()[-3:], expected)

    def test_what_a_late_copy_does_not_explain(self):
        """Where another has the seat's token the station stops as ever, at 12 and at 11."""
        for count, no in ((1, 12), (2, 11)):
            number = self.seat.expected_number()
            self.refused_and_held(lambda: self.registered(self.seat, MACS[2]), 18)
            with self.station(file="thief.json") as thief:
                thief.resynchronize()
                for _ in range(count):
                    thief.import_map(MAP)
            for _ in range(2):
                with self.assertRaises(OutOfStep) as found:
                    self.seat.import_serials("acme-ca", rows("Z1"))
                stop = found.exception
                self.assertEqual((stop.no, stop.number, stop.expected), (no, number, number + count))
            self.assertEqual((self.told, len(self.kept()["late"])), ([], 2))
            self.seat.resynchronize()
            self.assertEqual(self.kept()["late"], [])
            self.wire.deliver()
        self.assertEqual(self.seat.import_serials("acme-ca", rows("Z1")), Imported(1, 0))

    def test_a_request_that_a_person_dropped(self):
        """A copy of it may come as well, where its number is still the next."""
        self.seat.close()
        with self.opened(patience=0) as seat, self.assertRaises(NoReply):
            self.wire.faults = ["held"]
            seat.import_serials("acme-ca", rows("Z1"))
        seat = self.opened()
        seat.resynchronize()
        self.delivered()
        self.assertEqual(seat.import_serials("acme-ca", rows("Z1 Z2")), Imported(1, 1))
        self.assertEqual(len(self.told), 1)

    def test_another_token(self):
        """The seat has a new token since: its last request is the late copy, and it goes on."""
        self.refused_and_held(lambda: self.registered(self.seat, MACS[2]), 18)
        self.seat.close()
        self.other.scrap(MACS[1])
        self.delivered()
        kept = {**self.kept(), "token": hashlib.sha256(b"before").hexdigest()}
        (self.folder / "a1.json").write_text(json.dumps(kept), encoding="ascii")
        with self.opened(new_token=True) as seat:
            self.assertEqual(seat.import_serials("acme-ca", rows("Z1")), Imported(1, 0))
        self.assertEqual((steps(self.ledger(MACS[2])), len(self.told)), (["registered"], 1))

    def test_a_state_file_of_the_version_before(self):
        """It has no late copies and no stop, and is read on; with what is under way, too."""
        self.seat.close()
        with self.opened(patience=0) as seat, self.assertRaises(NoReply):
            self.wire.faults = ["lost request"]
            seat.import_serials("acme-ca", rows("Z1"))
        before = self.kept()
        del before["late"], before["stop"]
        (self.folder / "a1.json").write_text(json.dumps(before), encoding="ascii")
        with self.opened() as seat:
            self.assertEqual(seat.finish().reply, {"added": 1, "present": 0})

    @unittest.skipUnless(hasattr(os, "fork"), "needs fork")
    def test_the_station_is_killed_behind_a_late_copy(self):
        """At each step that the outside sees of going on: the late request and the next one are done once."""
        self.seat.close()
        step, status = 0, signal.SIGKILL
        while status == signal.SIGKILL:
            step, mac, order = step + 1, MACS[step + 10], f"k{step}"
            with self.opened() as seat:
                self.refused_and_held(lambda: self.registered(seat, mac, order), 14)
            self.other.make_order(**{**ORDER, "name": order, "prefix": f"K{step}-", "macs": 0})
            self.delivered()
            status = self.imports(f"Z{step}", step)
            self.assertEqual(self.imports(f"Z{step}", None), 0)
            self.assertEqual(steps(self.ledger(mac)), ["registered"], f"killed at step {step}")
            asked = requests_of(self.folder / "a1.journal")
            done = [it.members["chip"] for it in asked if "chip" in it.members and it.is_done()]
            self.assertIn(mac, done)
        self.assertGreater(step, 15)
        text = " ".join(f"Z{place}" for place in range(1, step + 1))
        self.assertEqual(self.opened().import_serials("acme-ca", rows(text)), Imported(0, step))

    def imports(self, serial, step):
        """Sends a row in another process, which is killed at a step; its status, or the signal."""
        child = os.fork()
        if not child:
            status = 1
            try:
                killed_at(step)
                with self.opened(self.program.url, tell=lambda _: None) as seat:
                    seat.finish()
                    status = sum(seat.import_serials("acme-ca", rows(serial)).__dict__.values()) - 1
            finally:
                os._exit(status)
        status = os.waitpid(child, 0)[1]
        return os.WTERMSIG(status) if os.WIFSIGNALED(status) else os.WEXITSTATUS(status)
