"""`wanekupo run` over many chips: with kills and faults, of each family, by the page's own recipe.

Expected values are those of docs/integrate/api.md and docs/line/bench.md. How single chips end is in
test_endings.py.
"""

import hashlib
import json
import os
import re
import shlex
import sys
import time
import unittest

from running import FACTS, GREEN, PAGE, BenchCase, Robot, Running, macs_of, script, table_rows, tool
from simulated_chip import NEWER, chip_class, new_chip
from support import ROOT, SIMULATED, Proxy, steps

from wanekupo.seat.journal import requests_of


class Lives(BenchCase):
    """Many chips on four sockets."""

    SOCKETS = ("a", "b", "c", "d")
    CHIPS = 50

    def test_fifty_chips_with_kills_and_faults(self):
        """The bench dies before each call that the outside sees, one after another, while the network fails in each
        way. Each chip is shipped once, and its record is in the journal once."""
        self.order()
        proxy = self.proxy([None, *(it for fault in Proxy.FAULTS for it in (fault, *[None] * 9))] * 9)
        recipe = self.recipe(proxy.url, stop=99)
        macs = macs_of(self.CHIPS)
        robot = Robot(self, macs, lambda starts: Running(recipe, killed=40 + 29 * starts))
        results = robot.work()
        shift = robot.bench.board()["shift"]
        self.assertEqual(robot.bench.end(), 0)
        self.assertGreater(robot.starts, 10)
        self.assertEqual(set(results), set(macs))
        self.assertLessEqual({it[-1] for it in results.values()}, {"passed", "passed_before"})
        serials = sorted(self.assert_shipped(macs).values())
        self.assertEqual(serials, [f"A{place:03}" for place in range(1, self.CHIPS + 1)])
        self.assertEqual(sum(it.path == "/v1/map" for it in requests_of(self.folder / "a1.journal")), 1)
        self.assertEqual(shift["passed"], self.CHIPS)
        self.assertEqual(sorted(it.stem for it in (self.folder / "spool").glob("[!.]*.csr")), serials)

    def test_what_a_chip_costs(self):
        """Eight requests at the most, seven starts of espefuse (two of them look whether the chip is still there), and
        one import of the map however often it is begun."""
        self.order()
        count = self.folder / "count"
        words = f'echo >> {count}\nexec {sys.executable} {self.socket_of("a")[2]} "$@"\n'
        command = tool(self.folder / "tool", words)
        proxy = self.proxy()
        hooks = {"before_ship": {"command": ["true"]}}
        recipe = self.recipe(proxy.url, hooks=hooks, sockets={"a": [command, *self.socket_of("a")[3:]]})
        for place, mac in enumerate(macs_of(3), 1):
            bench, before = self.run_bench(recipe), len(proxy.seen)
            self.put("a", mac)
            self.assertEqual(bench.said(""), 200)
            self.assertEqual(bench.ended("a"), ("PASS", "passed", f"The chip is shipped as A{place:03}: {GREEN}."))
            self.take("a", mac)
            own = [request for _, request in proxy.seen[before:] if mac.encode() in request]
            self.assertLessEqual(len(own), 8)
            self.assertEqual(bench.end(), 0)
        self.assertEqual(len(count.read_text().splitlines()), 3 * 7)
        self.assertEqual(sum(b"/v1/map" in request for _, request in proxy.seen), 1)


TOOL = shlex.split(os.environ.get("ESPEFUSE", ""))
KEY = bytes(range(0xA0, 0xC0))


class Families(BenchCase):
    """Chips of each family on four sockets: simulated ones, and espefuse's virtual ones where ESPEFUSE has its words.
    CHIPS is how many of each of FAMILIES. What dies is tried with the first one and a newer one, or with FAMILIES."""

    SOCKETS = ("a", "b", "c", "d")
    COUNT = int(os.environ.get("CHIPS", 8 if TOOL else 4))
    FAMILIES = os.environ.get("FAMILIES", " ".join(("esp32", *NEWER))).split()
    DYING = os.environ.get("FAMILIES", "esp32 esp32s3").split()
    family = "esp32"

    def socket_of(self, name):
        if TOOL:
            return [*TOOL, "--virt", "--path-efuse-file", str(self.folder / "places" / name), "--do-not-confirm"]
        return super().socket_of(name)

    def make(self, mac, file):
        new_chip(self.family, mac, file, TOOL)

    def wishes_for(self, name):
        """A debug bit, a key as flash encryption wants it, and the locks of both."""
        is_first = name == "esp32"
        block = "BLOCK1" if is_first else "BLOCK_KEY0"
        burnt_as = "flash_encryption" if is_first else "XTS_AES_128_KEY"
        jtag = {"esp32": "JTAG_DISABLE", "esp32s2": "HARD_DIS_JTAG"}.get(name, "DIS_PAD_JTAG")
        key = {"kind": "key", "field": block, "file": "flash.key", "burnt_as": burnt_as}
        locks = [{"kind": kind, "field": block} for kind in ("wlock", "rlock")]
        locks += [] if is_first else [{"kind": "wlock", "field": "KEY_PURPOSE_0"}]
        return [{"kind": "bit", "field": jtag, "index": 0}, key, *locks]

    def test_each_family(self):
        """Each chip is shipped once, with the digest of its key as it stands in the block; none is put in twice."""
        (self.folder / "flash.key").write_bytes(KEY)
        self.order(quantity=len(self.FAMILIES) * self.COUNT, width=5)
        for place, name in enumerate(self.FAMILIES):
            with self.subTest(name):
                results, _ = self.shipped(name, self.macs(place))
                self.assertEqual(results, {mac: ["passed"] for mac in self.macs(place)})

    def test_families_with_kills_and_faults(self):
        """The bench dies before one outside call after another, while the network fails in each way."""
        (self.folder / "flash.key").write_bytes(KEY)
        self.order(quantity=len(self.DYING) * self.COUNT, width=5)
        proxy = self.proxy([None, *(it for fault in Proxy.FAULTS for it in (fault, *[None] * 9))] * 99)
        for place, name in enumerate(self.DYING):
            with self.subTest(name):
                results, starts = self.shipped(name, self.macs(place), proxy.url, lambda starts: 60 + 31 * starts)
                self.assertLessEqual({it[-1] for it in results.values()}, {"passed", "passed_before"})
                self.assertGreater(starts, 2)

    def macs(self, place):
        """The chips of the family with this place."""
        return [f"7cdfa1{place:02x}{number:04x}" for number in range(1, self.COUNT + 1)]

    def shipped(self, name, macs, url=None, killed=lambda starts: 0):
        """Has chips of a family shipped, by as many starts of the bench as it takes, and says how long that took."""
        self.family, begun = name, time.monotonic()
        file = ROOT / f"python/wanekupo/chips/families/{name}/map.toml"
        recipe = self.recipe(url, top={"map": str(file), "family": name}, wishes=self.wishes_for(name), stop=99)
        robot = Robot(self, macs, lambda starts: Running(recipe, killed=killed(starts)))
        results = robot.work()
        self.assertEqual(robot.bench.end(), 0)
        self.assert_shipped(macs)
        for mac in macs:
            known = self.asked("GET", f"/v1/device?chip={mac}")[1]["keys"]
            self.assertEqual(set(known.values()), {hashlib.sha256(KEY[::-1]).hexdigest()}, mac)
        kind = "espefuse's virtual" if TOOL else "simulated"
        told = f"{len(macs)} {kind} chips shipped on {len(self.SOCKETS)} sockets by {robot.starts} starts of the bench"
        print(f"\n  {name}: {told} in {time.monotonic() - begun:.0f} s", file=sys.stderr, flush=True)
        return results, robot.starts

    def test_a_block_that_changed_unasked(self):
        """Of an ESP32-S3, whose other blocks the server isn't told."""
        (self.folder / "flash.key").write_bytes(KEY)
        words = f"{sys.executable} -B {SIMULATED}"
        other = f'exec {words} "$1" "$2" "$3" "$4" burn_block_data BLOCK_USR_DATA flash.key'
        tool = script(self.folder / "tool", f'case "$*" in *scripts*) {other};; esac\nexec {words} "$@"\n')
        self.order()
        sockets = {"a": [tool, "--path-efuse-file", "places/a"]}
        top = {"map": str(ROOT / "python/wanekupo/chips/families/esp32s3/map.toml"), "family": "esp32s3"}
        bench = self.run_bench(self.recipe(top=top, wishes=self.wishes_for("esp32s3"), sockets=sockets))
        chip_class("esp32s3")(bytes.fromhex("7cdfa1000001"), str(self.folder / "places" / "a"))
        bench.said("a")
        word, reason, told = bench.ended("a")
        self.assertEqual((word, reason), ("FAIL", "changed"))
        self.assertRegex(told, r"^A block changed that nobody burns \(BLOCK_USR_DATA \(3\).*\): take it out, red box")

    def test_a_part_without_fuses(self):
        """Its socket's command prints its name; it is settled at once."""
        command = script(self.folder / "name", "echo 02:00:00:00:00:a1\n")
        self.order()
        top = {"map": str(ROOT / "python/wanekupo/chips/families/none/map.toml"), "family": "none"}
        bench = self.run_bench(self.recipe(top=top, wishes=[], sockets={"left": [command]}))
        bench.said("left")
        self.assertEqual(bench.ended("left"), ("PASS", "passed", f"The chip is shipped as A001: {GREEN}."))
        self.assertEqual(steps(self.ledger("0200000000a1")), ["registered", "planned", "identified", "shipped"])

    def test_the_recipe_of_the_page(self):
        """As the package has it, but for the server's address, the token and the chips; its key pair by its hook."""
        sample = ROOT / "deploy/thermostat"
        recipe = (sample / "thermostat.toml").read_text(encoding="utf-8").replace('order = "o17"', 'order = "o1"')
        recipe = recipe.replace("https://station.example:8443", self.program.url).replace('ca = "cert.pem"\n', "")
        recipe = re.sub(r"(left|right) = \[.*\]", lambda it: f"{it[1]} = {json.dumps(self.socket_of(it[1]))}", recipe)
        script(self.folder / "make-csr", (sample / "make-csr").read_text(encoding="utf-8").partition("\n")[2])
        script(self.folder / "flash", f'{FACTS}[ "$SERIAL" = A001 ]\n')
        script(self.folder / "label", f"{FACTS}exit 0\n")
        (self.folder / "line1.token").write_text("abc\n", encoding="ascii")
        (self.folder / "thermostat.toml").write_text(recipe, encoding="utf-8")
        self.order()
        (self.folder / "a1.json").rename(self.folder / "line1.json")
        (self.folder / "flash.key").write_bytes(KEY)
        self.family = "esp32s3"
        bench = self.run_bench(self.folder / "thermostat.toml")
        self.put("left", "7cdfa1000001")
        bench.said("1")
        self.assertEqual(bench.ended("left"), ("PASS", "passed", f"The chip is shipped as A001: {GREEN}."))
        self.assertTrue((self.folder / "spool" / "A001.csr").is_file())


class Table(unittest.TestCase):
    """The page's table of endings is the program's."""

    def test_the_page(self):
        from wanekupo.bench.endings import TABLE

        rows = table_rows(PAGE.read_text(encoding="utf-8"))
        shown = {name: (told, todo) for name, _, told, todo in rows}
        blank = {"detail": "..", "serial": "..", "order": "..", "hook": "..", "no": "..", "step": ".."}
        for ending in TABLE:
            self.assertEqual(shown.get(ending.name), (ending.told.format(**blank), ending.todo.format(**blank)))
        self.assertEqual(len(rows), len(TABLE))
