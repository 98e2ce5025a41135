"""What a bench does with chips that somebody else planned, or that an earlier recipe did, and with those that keep a
place in the order.

Expected values are those of docs/integrate/api.md and docs/line/bench.md.
"""


from running import GREEN, RED, BenchCase, macs_of, script
from simulated_chip import SimulatedChip
from support import DIGEST, FLASH_KEY, MAP, WISHES

from wanekupo.chips.chip import bit, rlock, value, wlock


JTAG, OTHER, LOCK = bit("JTAG_DISABLE", 0), bit("CONSOLE_DEBUG_DISABLE", 0), wlock("BLOCK1")

# What another hand planned, the state in which the bench finds the chip, how its stay ends, and what is told of it.
CASES = [
    ([], "settled", "passed", ""),
    ([JTAG], "settled", "passed", ""),
    (WISHES, "settled", "passed", ""),
    ([JTAG, value("MAC_VERSION", "1")], "settled", "not_blank", "refusal 22: MAC_VERSION reads 1, the recipe wants 0"),
    ([JTAG], "awaiting1", "passed", ""),
    (WISHES, "awaiting1", "passed", ""),
    ([JTAG, OTHER], "awaiting1", "other_wishes", "CONSOLE_DEBUG_DISABLE"),
    ([JTAG, LOCK], "awaiting1", "other_wishes", "BLOCK1, the read lock of BLOCK1"),
    ([LOCK], "awaiting2", "other_wishes", "BLOCK1, JTAG_DISABLE, the read lock of BLOCK1"),
    (WISHES, "awaiting2", "passed", ""),
    ([JTAG], "identified", "other_wishes", "BLOCK1, the read lock of BLOCK1, the write lock of BLOCK1"),
    (WISHES, "identified", "passed", ""),
    (WISHES, "shipped", "shipped_before", ""),
]


class Planned(BenchCase):
    """Chips that come with more than a blank one has."""

    over_office = True

    def test_chips_that_another_hand_planned(self):
        """None passes without what the recipe wishes, in whichever state the bench finds it."""
        key = {"kind": "key", "field": "BLOCK1", "file": "flash.key", "burnt_as": self.keys["BLOCK1"].burnt_as}
        more = {"kind": "value", "field": "MAC_VERSION", "value": "0"}
        self.order()
        with self.station(file="a1.json") as hand:
            hand.import_map(MAP)
            for mac, (planned, state, _, _) in zip(macs_of(len(CASES)), CASES):
                self.planned(hand, mac, planned, state)
        proxy = self.proxy()
        recipe = self.recipe(proxy.url, wishes=[JTAG, key, LOCK, rlock("BLOCK1"), more], stop=99)
        bench = self.run_bench(recipe)
        for mac, case in zip(macs_of(len(CASES)), CASES):
            seen = len(proxy.seen)
            with self.subTest(case[:2]):
                self.stays(bench, mac, *case[2:])
            self.assertLessEqual(sum(mac.encode() in request for _, request in proxy.seen[seen:]), 8)
        shift = bench.board()["shift"]
        self.assertEqual((shift["passed"], shift["first"]), (7, 0), "another hand began each of them")

    def stays(self, bench, mac, reason, detail):
        """A chip's stay in the socket, which ends so. One that doesn't pass isn't burnt."""
        before = SimulatedChip.at(self.folder / f"chip-{mac}").blocks
        self.put("left", mac)
        bench.said("left")
        bench.until(lambda board: board["sockets"][0]["chip"] == mac)
        word, found, told = bench.ended("left")
        self.assertEqual((found, word == "PASS"), (reason, reason == "passed"), told)
        blocks = SimulatedChip.at(self.folder / "places" / "left").blocks
        if reason == "passed":
            self.assertEqual((blocks[0] >> 198 & 1, blocks[0] & 0x10080), (1, 0x10080))
            self.assertEqual(blocks[1].to_bytes(32, "little")[::-1], FLASH_KEY)
            self.assertEqual(self.asked("GET", f"/v1/device?chip={mac}")[1]["state"], "shipped")
        else:
            self.assertEqual(blocks, before)
        if detail:
            self.assertTrue(told.endswith(f" ({detail}): {RED}."), told)
        self.take("left", mac)

    def test_a_recipe_that_changed(self):
        """A chip that was shipped by the recipe as it was before, and is still in its socket, or awaits its label."""
        broken = script(self.folder / "broken", "exit 3\n")
        self.order()
        for mac, hooks, reason in zip(macs_of(2), ({}, {"label": {"command": [broken]}}), ("passed", "no_label")):
            bench = self.run_bench(self.recipe(wishes=[], hooks=hooks))
            self.put("left", mac)
            bench.said("left")
            self.assertEqual(bench.ended("left")[1], reason)
            bench.end()
            bench = self.run_bench(self.recipe())
            bench.said("left")
            self.assertEqual(bench.ended("left")[:2], ("FAIL", "other_wishes"))
            bench.end()
            self.take("left", mac)

    def planned(self, hand, mac, wishes, state):
        """A chip that somebody else brought to a state, with these wishes."""
        chip = self.chip(mac, self.folder / f"chip-{mac}")
        hand.register(mac, "o1", DIGEST, chip.read())
        plan = hand.plan(mac, wishes)
        found, works = plan.state, {"awaiting1": plan.batch1, "awaiting2": plan.batch2}
        while found != state and found in works:
            chip.burn(works[found])
            found = hand.read_back(mac, chip.read()).state
        if state in ("identified", "shipped"):
            hand.identify(mac, mac.encode())
        if state == "shipped":
            hand.ship(mac)

    def test_an_order_that_is_full(self):
        """A chip that failed has a place until it is scrapped; the next one is sent away, and isn't awaited."""
        self.order(quantity=2)
        told_last = "ask for the next order, or, while numbers are left, have the red box scrapped"
        other_key = "(refusal 25: BLOCK1 has another key)"
        lasts = [("passed", GREEN), ("not_blank", other_key), ("order_full", told_last)]
        bench = self.run_bench(self.recipe())
        for mac, (reason, told) in zip(macs_of(3), lasts):
            self.put("left", mac)
            if reason == "not_blank":
                SimulatedChip.at(self.folder / "places" / "left").burn_key("BLOCK1", bytes(range(1, 33)), False)
            bench.said("left")
            bench.until(lambda board, reason=reason: board["sockets"][0]["reason"] == reason, reason)
            self.assertIn(told, bench.ended("left")[2])
            self.take("left", mac)
        self.assertEqual((bench.board()["rest"], bench.board()["under_way"]), (1, []))
        self.assertIn("ask for the next order", bench.board()["stopped"])
        bench.end()
        with self.station(file="a1.json") as hand:
            hand.scrap(macs_of(2)[1])
        bench = self.run_bench(self.recipe())
        self.put("left", macs_of(3)[2])
        bench.said("left")
        self.assertEqual(bench.ended("left")[1], "passed")
