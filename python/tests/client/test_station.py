"""The client against the program.

Expected values are those of docs/integrate/api.md and docs/first-chip.md, never the program's. The program is
`crates/station/out/station`, or what the variable STATION_PROGRAM names; `bench/client` sets it.
"""

import os
import shlex
import subprocess
import sys
import unittest
from pathlib import Path
from unittest import mock

from simulated_chip import SimulatedChip
from support import (
    BLANK, DIGEST, FIRST, FLASH_DIGEST, LIFE, MAC, MAP, NOTHING, ORDER, PUBLIC_KEY, SECOND, WISHES, StationCase, life,
    rows, steps,
)  # fmt: skip

from wanekupo.chips.chip import bit
from wanekupo.seat.import_rows import import_parts
from wanekupo.seat.station import Station
from wanekupo.common.errors import NoReply, OutOfStep, Refused
from wanekupo.chips.espefuse import Espefuse
from wanekupo.seat.replies import Device, Entry, Identity, Imported, Listed, Order, Plan, Verdict, Word, Work

HERE = Path(__file__).resolve().parent
SAMPLE = HERE.parents[2] / "deploy/station.py"


class Commands(StationCase):
    over_office = True

    def test_the_life_of_a_chip(self):
        """Each reply is as the API says, over a chip behind the words of espefuse."""
        station = self.station()
        order = station.make_order(**ORDER)
        self.assertEqual(order, Order("o1", "acme-ca", "A", 3, 998, 2, 1, "020000000010", "A998"))
        self.assertEqual(station.import_map(MAP), DIGEST)
        SimulatedChip(bytes.fromhex(MAC), self.folder / "chip")
        tool = [sys.executable, str(HERE / "simulated_chip.py"), "--path-efuse-file", str(self.folder / "chip")]
        chip_io = Espefuse(tool, self.keys)
        self.assertIsNone(station.find_device(MAC))
        device = station.register(MAC, "o1", DIGEST, chip_io.read())
        blank = Device(MAC, "o1", DIGEST, "registered", None, None, BLANK, NOTHING, NOTHING)
        self.assertEqual(device, blank)
        self.assertEqual(station.plan(MAC, WISHES), Plan("awaiting1", FIRST, SECOND))
        chip_io.burn(FIRST)
        self.assertEqual(station.read_back(MAC, chip_io.read()), Verdict("match", "awaiting2", NOTHING))
        self.assertEqual(station.settle(MAC, chip_io).state, "settled")
        self.assertTrue(station.device(MAC).burnt.keys == {"BLOCK1": FLASH_DIGEST})
        record = station.identify(MAC, PUBLIC_KEY)
        key = "06e3fd8fda29bb60ab59557de61edb0aecdb231134be30e75b455f8e1b792fa9"
        self.assertEqual(record, Identity(MAC, "acme-ca", "A998", key, "020000000010", "99991231235959Z"))
        self.assertEqual(station.identity(MAC), record)
        self.assertEqual(station.order("o1").next, "A999")
        self.assertEqual(station.ship(MAC), "shipped")
        added = [BLANK, NOTHING, FIRST, SECOND, NOTHING, NOTHING]
        events = ["registered", "planned", "read", "read", "identified", "shipped"]
        told = zip(range(1, 7), events, ["", "", "match", "match", "A998", ""], ["a1"] * 6, added)
        self.assertEqual(station.ledger(MAC), [Entry(*entry) for entry in told])
        done = station.finish()
        self.assertEqual((done.path, done.members), ("/v1/ship", {"chip": MAC}))
        self.assertEqual(done.reply, {"chip": MAC, "state": "shipped"})

    def test_devices_are_listed(self):
        """In the order of their chips, by the method and as lines, and those behind a chip."""
        station = self.station()
        self.assertEqual(list(station.devices()), [])
        station.make_order(**ORDER)
        station.import_map(MAP)
        chips = ["240ac4000002", MAC]
        for chip in chips:
            station.register(chip, "o1", DIGEST, self.chip(chip).read())
        station.scrap(MAC)
        listed = [Listed(MAC, "o1", "scrapped", None, None), Listed(chips[0], "o1", "registered", None, None)]
        self.assertEqual(list(station.devices()), listed)
        self.assertEqual(list(station.devices(MAC)), listed[1:])
        self.assertEqual(list(station.devices(chips[0])), [])
        with self.assertRaises(Refused) as raised:
            list(station.devices("240AC4000002"))
        self.assertEqual(raised.exception.no, 10)

    def test_the_sample_station(self):
        """The script as it stands, where `espefuse.py` is the simulated chip; run again it changes nothing. Of a chip
        that is lost it says so."""
        self.station(file="other.json").make_order(**ORDER)
        text = SAMPLE.read_text(encoding="utf-8")
        (self.folder / "life.py").write_text(text.replace("http://127.0.0.1:8080", self.program.url), encoding="utf-8")
        (self.folder / "esp32.toml").write_text(MAP, encoding="utf-8")
        (self.folder / "public.key").write_bytes(PUBLIC_KEY)
        SimulatedChip(bytes.fromhex(MAC), self.folder / "chip")
        paths = {**self.espefuse(), "PYTHONPATH": str(HERE.parents[1])}
        words = [sys.executable, "-B", "life.py"]
        for says in ("serial='A998'", ""):
            done = subprocess.run(words, cwd=self.folder, env=paths, capture_output=True, text=True)
            self.assertEqual((done.returncode, done.stderr), (0, ""))
            self.assertIn(says, done.stdout)
            self.assertEqual(steps(self.ledger()), LIFE)
        self.assertEqual(done.stdout, "")
        SimulatedChip(bytes.fromhex("240ac4000002"), self.folder / "chip")
        self.espefuse(instead="burn_bit BLOCK0 197")
        done = subprocess.run(words, cwd=self.folder, env=paths, capture_output=True, text=True)
        self.assertEqual((done.returncode, done.stderr), (1, "240ac4000002 isn't shipped: quarantined stray\n"))

    @unittest.skipUnless(os.environ.get("ESPEFUSE"), "the words of a real espefuse.py aren't in ESPEFUSE")
    def test_a_life_over_espefuse_itself(self):
        """espefuse's own virtual chip; without --no-protect-key the same key ends as `stray`."""
        station = self.prepared()
        for mac, protects in ((MAC, False), ("240ac4000002", True)):
            words = ["--chip", "esp32", "--virt", "--path-efuse-file", str(self.folder / mac), "--do-not-confirm"]
            chip_io = Espefuse([*shlex.split(os.environ["ESPEFUSE"]), *words], self.keys)
            burnt = SimulatedChip(bytes.fromhex(mac)).blocks[0]
            chip_io.burn(Work(tuple(Word(0, word, burnt >> 32 * word & 0xFFFFFFFF) for word in range(7)), {}))
            if protects:
                station.register(mac, "o1", DIGEST, chip_io.read())
                station.plan(mac, WISHES)
                subprocess.run(
                    [*chip_io.tool, "burn_key", "flash_encryption", self.keys["BLOCK1"].path],
                    check=True,
                    stdout=subprocess.DEVNULL,
                )
                self.assertEqual(station.read_back(mac, chip_io.read()), Verdict("stray", "quarantined", NOTHING))
            else:
                self.assertEqual(life(station, chip_io).state, "shipped")
                self.assertEqual(steps(self.ledger(mac)), LIFE)

    def test_refusals_have_their_numbers(self):
        station = self.prepared()
        station.register(MAC, "o1", DIGEST, self.chip().read())
        other, others = "240ac4000002", self.chip("240ac4000002").read()
        overlapping = MAP.replace("count = 4, write = 0", "count = 5, write = 0")
        twice = [("Z1", "00" * 32), ("Z1", "11" * 32)]
        cases = [
            (lambda: station.make_order(**ORDER), 16, "exists", 409, {}),
            (lambda: station.make_order(**{**ORDER, "name": "o2", "issuer": "bolt-ca"}), 37, "foreign_issuer", 422, {}),
            (lambda: station.register(other, "o2", DIGEST, others), 14, "unknown_order", 404, {}),
            (lambda: station.register(other, "o1", DIGEST, others[:3]), 41, "bad_readback", 422, {}),
            (lambda: station.ledger(other), 15, "unknown_device", 404, {}),
            (lambda: station.identity(other), 15, "unknown_device", 404, {}),
            (lambda: station.identity(MAC), 17, "wrong_state", 409, {}),
            (lambda: station.ship(MAC), 17, "wrong_state", 409, {}),
            (lambda: station.plan(MAC, [bit("NONE", 0)]), 19, "unknown_field", 422, {}),
            (lambda: station.import_map(overlapping), 29, "bad_map", 422, {"fault": 5}),
            (lambda: station.import_serials("acme-ca", twice), 38, "import_conflict", 409, {"serial": "Z1"}),
            (lambda: station.report("/v1/site/report"), 8, "wrong_caller", 403, {}),
        ]
        for call, *told in cases:
            with self.assertRaises(Refused) as found:
                call()
            refused = found.exception
            self.assertEqual([refused.no, refused.name, refused.status, refused.more], told)
        self.assertEqual(station.expected_number(), 4)  # a refused request takes no number
        with self.assertRaises(Refused) as found:
            self.station(token="none", file="none.json").order("o1")
        self.assertEqual((found.exception.no, found.exception.status), (6, 401))

    def test_imports(self):
        """A number that an import gave is passed over; one that is there with its key changes nothing."""
        station = self.prepared()
        self.assertEqual(station.import_serials("acme-ca", rows("A998 Z1")), Imported(2, 0))
        self.assertEqual(station.import_serials("acme-ca", rows("Z1 Z2")), Imported(1, 1))
        self.assertEqual(station.import_serials("acme-ca", []), Imported(0, 0))
        self.assertEqual(station.order("o1").next, "A999")
        life(station, self.chip())
        self.assertEqual(station.device(MAC).serial, "A999")
        self.assertIsNone(station.order("o1").next)

    def test_long_imports(self):
        """Any number of rows go in parts. One that was stopped goes on: with the part under way, or behind the last."""
        given, sent = rows(" ".join(f"L{row}" for row in range(1201))), []

        def cut(done, of):
            sent.append((done, of))
            if len(sent) == 3:
                raise KeyboardInterrupt

        station = self.station()
        with self.assertRaises(KeyboardInterrupt):
            station.import_all("acme-ca", given, cut)
        self.assertEqual(sent, [(0, 1201), (500, 1201), (1000, 1201)])
        self.assertEqual(station.import_all("acme-ca", given), (Imported(201, 0), 1000))
        self.assertEqual(station.import_all("acme-ca", given), (Imported(0, 1201), 0))
        station.close()
        more, proxy = rows(" ".join(f"M{row}" for row in range(600))), self.proxy(["lost reply"] * 9)
        station = self.station(proxy.url, patience=0)
        with self.assertRaises(NoReply):
            station.import_all("acme-ca", more)
        proxy.faults.clear()
        self.assertEqual(station.import_all("acme-ca", more), (Imported(600, 0), 0))
        self.assertEqual(station.import_all("acme-ca", []), (Imported(0, 0), 0))
        longest = [(f"{row:064}", "0" * 64) for row in range(600)]
        self.assertEqual([len(part) for part in import_parts(longest)], [485, 115])

    def test_a_late_copy_of_which_nothing_is_known(self):
        """The server says 12, and of the request that may be the late copy 6: the seat doesn't stop, and goes on."""
        proxy = self.proxy()
        station = self.station(proxy.url)
        station.make_order(**ORDER)
        self.assertRaises(Refused, station.make_order, **ORDER)
        proxy.faults = ["done, 12", "done, 6"]
        with self.assertRaises(Refused) as found:
            station.import_map(MAP)
        self.assertEqual((found.exception.no, isinstance(found.exception, OutOfStep)), (6, False))
        self.assertEqual(station.import_map(MAP), DIGEST)

    def test_a_long_import_after_a_restore(self):
        """The last part that was accepted isn't in an older store, so it goes on from the beginning."""
        given = rows(" ".join(f"L{row}" for row in range(700)))
        station = self.station()
        station.import_map(MAP)
        with mock.patch.object(Station, "expected_number", lambda it: 1):
            with self.assertRaises(KeyboardInterrupt):
                station.import_all("acme-ca", given, mock.Mock(side_effect=[None, KeyboardInterrupt]))
            station.resynchronize()
        station.resynchronize()
        self.assertEqual(station.import_all("acme-ca", given), (Imported(200, 500), 0))

    def test_a_long_ledger_is_shown_whole(self):
        station = self.prepared()
        chip = self.chip()
        station.register(MAC, "o1", DIGEST, chip.read())
        station.plan(MAC, WISHES)
        for _ in range(100):
            self.assertEqual(station.read_back(MAC, chip.read()), Verdict("short", "awaiting1", FIRST))
        ledger = station.ledger(MAC)
        self.assertEqual([entry.n for entry in ledger], list(range(1, 103)))
        self.assertEqual([entry.note for entry in ledger[2:]], ["short"] * 100)
        self.assertEqual(ledger[-1].added, NOTHING)

    def test_reports(self):
        """The counts of each order and of each customer, as the API names them."""
        station, manager = self.station(), self.station(token="test", file="manager.json")
        self.assertEqual(station.report(), {})
        station.make_order(**ORDER)
        station.import_map(MAP)
        life(station, self.chip())
        station.register("240ac4000002", "o1", DIGEST, self.chip("240ac4000002").read())
        counts = {"quantity": 2, "registered": 1, "planned": 0, "settled": 0, "identified": 0, "shipped": 1}
        counts |= {"quarantined": 0, "scrapped": 0, "serials_left": 1}
        self.assertEqual(station.report(), {"o1": counts})
        nothing = dict.fromkeys(counts, 0)
        found = manager.report("/v1/site/report")
        self.assertEqual(found, {"acme": {"orders": 1, **counts}, "bolt": {"orders": 0, **nothing}})

    def test_not_before(self):
        """A server that knows it shows it and refuses other texts as 42; one that doesn't passes it over."""
        station = self.station()
        order = station.make_order(**ORDER, not_before="20240229120000Z")
        is_known = "not_before" in self.asked("GET", "/v1/order?name=o1")[1]
        self.assertEqual(order.not_before, "20240229120000Z" if is_known else None)
        other = {**ORDER, "name": "o2", "first": 0, "not_before": "20230229120000Z"}
        if is_known:
            with self.assertRaises(Refused) as found:
                station.make_order(**other)
            self.assertEqual((found.exception.no, found.exception.name), (42, "bad_not_before"))
        else:
            self.assertIsNone(station.make_order(**other).not_before)
        station.import_map(MAP)
        station.register(MAC, "o1", DIGEST, self.chip().read())
        self.assertEqual(station.plan(MAC, []), Plan("settled", NOTHING, NOTHING))
        self.assertEqual(station.identify(MAC, PUBLIC_KEY).not_before, "20240229120000Z" if is_known else None)


class Quarantine(StationCase):
    """How a chip is lost, and how it isn't."""

    over_office = True

    def setUp(self):
        super().setUp()
        self.seat = self.prepared()
        self.held = self.chip()
        self.seat.register(MAC, "o1", DIGEST, self.held.read())
        self.seat.plan(MAC, WISHES)

    def quarantined(self, outcome):
        """The device is out for good, and its place in the order is free again."""
        self.assertEqual(self.seat.read_back(MAC, self.held.read()), Verdict(outcome, "quarantined", NOTHING))
        device = self.seat.settle(MAC, self.held)
        self.assertEqual((device.state, device.reason, device.batch1), ("quarantined", outcome, NOTHING))
        for call in (lambda: self.seat.plan(MAC, []), lambda: self.seat.identify(MAC, PUBLIC_KEY)):
            with self.assertRaises(Refused) as found:
                call()
            self.assertEqual(found.exception.no, 17)
        self.assertEqual(self.seat.report()["o1"]["quarantined"], 1)
        self.assertEqual(self.seat.scrap(MAC), "scrapped")
        for place in range(2, 4):
            mac = f"240ac400000{place}"
            self.assertEqual(self.seat.register(mac, "o1", DIGEST, self.chip(mac).read()).state, "registered")

    def test_locks_that_are_burnt_with_the_key(self):
        self.held.burn(Work(FIRST.bits, {}))
        self.held.chip.burn_key("flash_encryption", bytes(range(32)), is_protected=True)
        self.quarantined("stray")

    def test_a_key_in_the_order_of_its_file(self):
        self.held.chip.burn_key("BLOCK1", bytes(range(32)), is_protected=False)
        self.quarantined("key")

    def test_a_bit_that_went(self):
        self.seat.settle(MAC, self.held)
        self.seat.plan(MAC, [bit("ABS_DONE_0", 0)])
        self.held.chip.blocks[0] &= ~(1 << 198)
        self.quarantined("lost")

    def test_half_a_key_is_burnt_again_before_it_is_read_back(self):
        self.held.chip.blocks[1] = int.from_bytes(bytes(range(31, 15, -1)), "little")
        self.assertEqual(self.seat.settle(MAC, self.held).state, "settled")
        self.assertEqual(steps(self.ledger()), LIFE[:4])

    def test_half_a_key_that_is_read_back(self):
        self.held.chip.blocks[1] = int.from_bytes(bytes(range(31, 15, -1)), "little")
        self.quarantined("key")

    def test_another_chip_is_neither_burnt_nor_read_back(self):
        """A chip that was exchanged on the bench, or misread, would end the device that it isn't."""
        other = self.chip("240ac4000002")
        before, nothing = list(other.chip.blocks), [["00000000"] * len(block) for block in other.read()]
        cases = [
            lambda: self.seat.settle(MAC, other),
            lambda: self.seat.read_back(MAC, other.read()),
            lambda: self.seat.read_back(MAC, nothing),
            lambda: self.seat.register("240ac4000003", "o1", DIGEST, nothing),
        ]
        for call in cases:
            with self.assertRaises(ValueError):
                call()
        self.assertEqual(other.chip.blocks, before)
        self.assertEqual(steps(self.ledger()), LIFE[:2])

    def test_a_chip_that_takes_nothing_is_still_awaited(self):
        with mock.patch.object(self.held.chip, "set"):
            device = self.seat.settle(MAC, self.held)
        self.assertEqual((device.state, device.batch1, device.batch2), ("awaiting1", FIRST, SECOND))
        self.assertEqual(steps(self.ledger())[2:], ["read short"])
