"""No chip is begun that can't be finished: two benches to their order's last serial number, with chips that are
scrapped behind their identity, which gives their places back and not their numbers.

Expected values are those of docs/integrate/api.md and docs/line/bench.md.
"""

import hashlib
import os
import random
import threading
from unittest import mock

from running import BenchCase, is_passed, macs_of, script
from simulated_chip import SimulatedChip
from support import DIGEST, MAP, SITE, StationCase, bit

from wanekupo.bench.endings import Ended
from wanekupo.bench.supply import Supply

# Two seats of one customer.
HEAD = '[[customer.seat]]\nname = "a1"\n'
A2 = f'[[customer.seat]]\nname = "a2"\ntoken = "{hashlib.sha256(b"second").hexdigest()}"\n'
TOKENS = {"a1": "abc", "a2": "second"}
JTAG = bit("JTAG_DISABLE", 0)
NEXT = "ask for the next order."
KEPT = f"The order has no serial number left, and the chip isn't begun: take it out, keep it, and {NEXT}"
FULL = "keep it, and ask for the next order, or, while numbers are left, have the red box scrapped."


def site_of(case):
    file = case.folder / "two.toml"
    file.write_text(SITE.read_text(encoding="utf-8").replace(HEAD, A2 + HEAD), encoding="utf-8")
    return file


class Benches(BenchCase):
    """Two benches of one customer, with a seat each."""

    def site(self):
        return site_of(self)

    def benches(self, **recipe):
        """Both, by the names of their seats; before_ship fails for the chips whose names are in the file `broken`."""
        (self.folder / "broken").touch()
        ship = script(self.folder / "ship", f'! grep -q "$CHIP" {self.folder}/broken\n')
        found = {}
        for seat, token in TOKENS.items():
            (self.folder / f"{seat}.token").write_text(token, encoding="ascii")
            server = {"token": f"{seat}.token", "state": f"{seat}.json", "journal": f"{seat}.journal"}
            words = [*self.socket_of(f"{seat}-left")]
            recipe = {"hooks": {"before_ship": {"command": [ship]}}, "stop": 99, **recipe}
            file = self.recipe(server=server, sockets={"left": words}, **recipe)
            os.replace(file, self.folder / f"{seat}.toml")
            found[seat] = self.run_bench(self.folder / f"{seat}.toml")
        return found

    def stays(self, benches, seat, mac):
        """Puts a chip into the socket of a bench; how its stay ends, with its sentence."""
        self.put(f"{seat}-left", mac)
        bench, since = benches[seat], benches[seat].socket("left")["since"]
        bench.said("go")
        bench.said("left")
        ended = lambda it: it["state"] in ("PASS", "FAIL") and it["since"] != since
        bench.until(lambda board: ended(board["sockets"][0]), mac)
        self.take(f"{seat}-left", mac)
        return bench.ended("left")[1:]

    def scrapped(self, bench, mac):
        bench.said(f"scrap {mac}")
        bench.until(lambda board: board["question"], "asked")
        bench.said("yes")
        bench.until(lambda board: "is scrapped" in board["notice"], "scrapped")

    def is_burnt(self, mac):
        return SimulatedChip.at(self.folder / f"chip-{mac}").blocks != SimulatedChip(bytes.fromhex(mac)).blocks

    def test_to_the_last_number(self):
        """Of six numbers two go to chips that are scrapped behind their identity. Behind the last one no chip is
        registered, whichever bench it comes to, and whatever is scrapped."""
        self.order(quantity=6)
        benches, macs, seats = self.benches(), macs_of(10), ("a1", "a2")
        (self.folder / "broken").write_text(f"{macs[1]} {macs[4]}", encoding="ascii")
        for place, mac in enumerate(macs[:6]):
            reason = self.stays(benches, seats[place % 2], mac)[0]
            self.assertEqual(reason, "hook_failed" if place in (1, 4) else "passed")
        self.assertEqual(self.stays(benches, "a1", macs[6]), ("used_up", KEPT))
        self.assertIn(KEPT, benches["a1"].board()["stopped"])
        for seat, mac in (("a2", macs[1]), ("a1", macs[4])):
            self.scrapped(benches[seat], mac)
            for other in seats:
                self.assertEqual(self.stays(benches, other, macs[7]), ("used_up", KEPT), (seat, other))
        for mac in macs[6:8]:
            self.assertEqual((self.asked("GET", f"/v1/device?chip={mac}")[0], self.is_burnt(mac)), (404, False))
        report = self.asked("GET", "/v1/report")[1].splitlines()[1]
        self.assertEqual(report, "o1,6,0,0,0,0,4,0,2,0")
        self.assertEqual(benches["a1"].board()["under_way"], [])

    def test_numbers_that_chips_under_way_are_to_get(self):
        """The last number is a chip's that failed in front of its identity: the next one isn't registered, and is once
        that one is scrapped."""
        self.order(quantity=3)
        benches, macs = self.benches(), macs_of(5)
        self.put("a1-left", macs[0])
        SimulatedChip.at(self.folder / "places" / "a1-left").burn_key("BLOCK1", bytes(range(1, 33)), False)
        self.take("a1-left", macs[0])
        (self.folder / "broken").write_text(macs[1], encoding="ascii")
        for mac, reason in zip(macs, ("not_blank", "hook_failed", "passed", "order_full")):
            found, told = self.stays(benches, "a1", mac)
            self.assertEqual((found, FULL in told), (reason, reason == "order_full"), told)
        self.scrapped(benches["a2"], macs[1])  # it has its number: a place is free, and no number
        self.assertEqual(self.stays(benches, "a2", macs[3])[0], "order_full")
        self.assertFalse(self.is_burnt(macs[3]))
        self.scrapped(benches["a2"], macs[0])
        self.assertEqual(self.stays(benches, "a2", macs[3])[0], "passed")
        self.assertEqual(self.stays(benches, "a1", macs[4])[0], "used_up")

    def test_chips_that_go_on(self):
        """More are planned than numbers are left, by another program: the half burnt one goes on, and the others aren't
        burnt. One that is only registered goes on as long as a number is left for it."""
        self.order(quantity=5)
        macs = macs_of(4)
        with self.station(file="a1.json") as hand:
            hand.import_map(MAP)
            for mac, wishes in zip(macs, ([JTAG], [JTAG], [JTAG], None)):
                chip = self.chip(mac, self.folder / f"chip-{mac}")
                hand.register(mac, "o1", DIGEST, chip.read())
                plan = wishes and hand.plan(mac, wishes)
                if mac == macs[1]:
                    chip.burn(plan.batch1)
            hand.import_serials("acme-ca", [(f"A{place:03}", f"{place:064x}") for place in (1, 2, 3)])
        benches = self.benches(wishes=[JTAG])
        burnt = self.is_burnt(macs[1])
        stays = [("a1", macs[3], "gave_way"), ("a2", macs[0], "gave_way"), ("a1", macs[1], "passed")]
        stays += [("a2", macs[0], "gave_way"), ("a1", macs[2], "gave_way")]
        for seat, mac, reason in stays:
            self.assertEqual(self.stays(benches, seat, mac)[0], reason, mac)
        self.assertEqual(self.asked("GET", f"/v1/device?chip={macs[3]}")[1]["state"], "registered")
        self.assertEqual([burnt, *map(self.is_burnt, macs)], [True, False, True, False, False])
        self.scrapped(benches["a1"], macs[2])
        self.assertEqual(self.stays(benches, "a2", macs[3])[0], "gave_way")
        self.scrapped(benches["a1"], macs[0])
        self.assertEqual(self.stays(benches, "a2", macs[3])[0], "passed")

    def test_how_often_the_report_is_asked_for(self):
        """At the start, and then only where others could have begun as many chips as numbers are free."""
        proxy = self.proxy()
        self.order(quantity=9000, width=5)
        bench = self.run_bench(self.recipe(proxy.url))
        for mac in macs_of(3):
            self.put("left", mac)
            bench.said("left")
            bench.until(lambda board, mac=mac: is_passed(board, mac))
            self.take("left", mac)
        self.assertEqual(sum(b"GET /v1/report" in request for _, request in proxy.seen), 1)
        self.assertEqual(bench.board()["rest"], 8997)


class Turn:
    """Lets two threads ask one after the other, as a list of their names says; one that has ended is passed over."""

    def __init__(self, names):
        self.names, self.done, self.changed = list(names), set(), threading.Condition()

    def ask(self, name, call):
        with self.changed:
            self.changed.wait_for(lambda: self.next() == name)
            try:
                return call()
            finally:
                del self.names[0]
                self.changed.notify_all()

    def next(self):
        while self.names[0] in self.done:
            del self.names[0]
        return self.names[0]

    def end(self, name):
        with self.changed:
            self.done.add(name)
            self.changed.notify_all()


class Moments(StationCase):
    """Two benches that ask for the last number, a request of one behind one of the other in each way by chance."""

    RUNS = 40

    def site(self):
        return site_of(self)

    def setUp(self):
        super().setUp()
        self.stations = {name: self.station(token=token, file=f"{name}.json") for name, token in TOKENS.items()}
        self.stations["a1"].import_map(MAP)

    def test_in_each_way(self):
        """No chip is burnt that gets no number. Without lots both may give way; then nothing is burnt."""
        chance, seen = random.Random(7), set()
        for run in range(self.RUNS):
            order = f"o{run}"
            self.one_left(order, f"{run:05}")
            macs = {name: f"7cdfa1{place:02x}{run:04x}" for place, name in enumerate(TOKENS)}
            names = self.turns(chance, run % 3)
            ends = self.raced(order, macs, Turn(names))
            states = {name: self.asked("GET", f"/v1/device?chip={mac}")[1].get("state") for name, mac in macs.items()}
            with self.subTest(run=run, names=names[:20]):
                self.assertLessEqual(list(ends.values()).count("shipped"), 1)
                self.assertLessEqual(set(ends.values()), {"shipped", "gave_way", "used_up", "order_full"})
                for name, end in ends.items():
                    known = {"shipped": {"shipped"}, "gave_way": {"registered", "awaiting1"}}.get(end, {None})
                    self.assertIn(states[name], known)
            seen.add(tuple(sorted(ends.values())))
        both = {("gave_way", "shipped"), ("gave_way", "gave_way"), ("order_full", "shipped")}
        self.assertLessEqual(both, seen)

    def turns(self, chance, kind):
        """Whose request is next, a few times by turns, and else by chance."""
        names, by_turns = list(TOKENS), 0.4 * kind
        return [names[place % 2 if chance.random() < by_turns else chance.randrange(2)] for place in range(99)]

    def one_left(self, order, prefix):
        """An order of two with a place for two, and one number: a chip was scrapped behind its identity."""
        hand, mac = self.stations["a1"], f"7cdfa1ff{prefix[1:]}"
        hand.make_order(order, "acme-ca", prefix, 1, 1, 2)
        hand.register(mac, order, DIGEST, self.chip(mac).read())
        hand.plan(mac, [])
        hand.identify(mac, mac.encode())
        hand.scrap(mac)

    def raced(self, order, macs, turn):
        """How both ended."""
        ends = {}

        def live(name):
            try:
                ends[name] = self.lived(name, order, macs[name], turn)
            except Ended as ended:
                ends[name] = ended.ending.name
            finally:
                turn.end(name)

        threads = [threading.Thread(target=live, args=[name]) for name in macs]
        with mock.patch("wanekupo.bench.supply.LONGEST", 0):
            for it in threads:
                it.start()
            for it in threads:
                it.join()
        return ends

    def lived(self, name, order, mac, turn):
        """A chip's life at a bench, as far as numbers go."""
        ask = lambda call: turn.ask(name, lambda: call(self.stations[name]))
        supply, chip = Supply(ask, order, lambda left: None, threading.Event()), self.chip(mac)
        supply.registered(lambda: ask(lambda station: station.register(mac, order, DIGEST, chip.read())))
        supply.test_plan()
        work = ask(lambda station: station.plan(mac, [JTAG])).batch1
        supply.test_burn()
        chip.burn(work)
        ask(lambda station: station.read_back(mac, chip.read()))
        ask(lambda station: station.identify(mac, mac.encode()))
        return ask(lambda station: station.ship(mac))
