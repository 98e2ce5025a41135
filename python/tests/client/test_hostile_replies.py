"""Each member of a reply is held to its form (docs/integrate/api.md). A server that breaks one gets nothing done: no
hook runs, nothing is burnt, and the request goes on where the server is its own again."""

import copy
import json
import re
import unittest

from running import FACTS, BenchCase, macs_of, script
from simulated_chip import SimulatedChip
from support import DIGEST as MAP_DIGEST
from support import LIFE, MAC, MAP, ORDER, PUBLIC_KEY, StationCase, exchanged, steps, whole
from test_lots import Forging

from wanekupo.common.errors import NotTheServer
from wanekupo.seat.replies import body_of

DIGEST, JSON = "06e3fd8fda29bb60ab59557de61edb0aecdb231134be30e75b455f8e1b792fa9", "application/json"
WORK = {"bits": [{"block": 0, "mask": "00000040", "word": 6}], "keys": {"BLOCK1": DIGEST}}
LISTED = {"chip": MAC, "order": "o1", "reason": None, "serial": "A998", "state": "shipped"}
ENTRY = {**WORK, "event": "identified", "n": 5, "note": "A998", "seat": "a1"}

# Replies as the page shows them, by the path; a member that may be null is here what it is otherwise.
REPLIES = {
    "/v1/order": {
        **{"first": 998, "issuer": "acme-ca", "mac": "020000000010", "macs": 1, "name": "o1", "next": "A998"},
        **{"not_before": "20260101000000Z", "prefix": "A", "quantity": 2, "width": 3},
    },
    "/v1/map": {"map": DIGEST},
    "/v1/device": {**LISTED, **WORK, "map": DIGEST, "pending": {"batch1": WORK, "batch2": WORK}, "reason": "lost"},
    "/v1/plan": {"batch1": WORK, "batch2": WORK, "state": "awaiting1"},
    "/v1/readback": {"outcome": "match", "rest": WORK, "state": "awaiting2"},
    "/v1/identity": {
        **{"chip": MAC, "issuer": "acme-ca", "key_sha256": DIGEST, "mac": "020000000010"},
        **{"not_after": "99991231235959Z", "not_before": "20260101000000Z", "serial": "A998"},
    },
    "/v1/ship": {"chip": MAC, "state": "shipped"},
    "/v1/scrap": {"chip": MAC, "state": "scrapped"},
    "/v1/import": {"added": 2, "present": 0},
    "/v1/ledger": {"chip": MAC, "entries": [ENTRY]},
    "/v1/devices": {"devices": [{**LISTED, "reason": "key"}], "next": MAC},
}
ASKED = {"chip": MAC, "name": "o1"}
NULLABLE = ("mac", "next", "not_before", "reason", "serial")

# What no member may be: a text with a label of Zebra's in it, which begins with ^XA, lines, what ends a text in C, a
# folder, digits of another script, digits without end, and other types.
LABEL = "A1\n^XZ^XA^FDother label^FS"
TEXTS = [LABEL, "A998\n", "A998\0", "../A998", "A998\u0663", "9" * 3000, "a b", "\x1b]0;owned\x07", "=A998", "\ud800"]
OTHERS = [*TEXTS, -1, 1.5, 1e300, float("nan"), True, [], [1], {}, {"a": 1}, [[MAC]], {"A998": "A998"}]


def places_in(value, place=()):
    """Each place below a reply: of a member, of a member of one, and of an element of a list."""
    pairs = value.items() if isinstance(value, dict) else enumerate(value) if isinstance(value, list) else ()
    for name, its in pairs:
        yield (*place, name)
        yield from places_in(its, (*place, name))


def changed(reply, place, value):
    """The same reply with another value at a place."""
    reply = copy.deepcopy(reply)
    inner = reply
    for name in place[:-1]:
        inner = inner[name]
    inner[place[-1]] = value
    return reply


def is_taken(path, reply, status=200):
    data = reply if isinstance(reply, bytes) else json.dumps(reply).encode()
    try:
        body_of(status, JSON, data, path, ASKED)
        return True
    except NotTheServer:
        return False


class Forms(unittest.TestCase):
    def test_honest_ones(self):
        """As they are, with null where there is none, and with members of a later server."""
        for path, reply in REPLIES.items():
            for honest in (reply, {**reply, "later": LABEL}):
                self.assertTrue(is_taken(path, honest), path)
            for place in places_in(reply):
                is_null = place[-1] in NULLABLE and path != "/v1/identity" or place[-1] in ("mac", "not_before")
                self.assertEqual(is_taken(path, changed(reply, place, None)), is_null, (path, place))
        kept = {name: it for name, it in REPLIES["/v1/identity"].items() if name != "not_before"}
        self.assertTrue(is_taken("/v1/identity", kept), "a reply that an earlier server gave")

    def test_each_member(self):
        """No other value, at any place, and no member that lacks."""
        for path, reply in REPLIES.items():
            for place in places_in(reply):
                for value in OTHERS:
                    is_none = value in ([], {}) and place[-1] in ("bits", "keys", "entries", "devices")
                    is_none = is_none and isinstance(value, type(self.at(reply, place)))
                    self.assertEqual(is_taken(path, changed(reply, place, value)), is_none, (path, place, value))
            for name in reply.keys() - {"not_before"}:
                self.assertFalse(is_taken(path, {it: reply[it] for it in reply if it != name}), (path, name))

    def at(self, reply, place):
        for name in place:
            reply = reply[name]
        return reply

    def test_numbers_without_end(self):
        """Digits that Python reads no more, and those that it still reads."""
        for digits in (17, 4000, 5000):
            for name, old in (("import", b'"added": 2'), ("order", b'"macs": 1'), ("ledger", b'"block": 0')):
                path = f"/v1/{name}"
                text = json.dumps(REPLIES[path]).encode()
                self.assertIn(old, text)
                self.assertFalse(is_taken(path, text.replace(old, old[:-1] + digits * b"9")), (path, digits))

    def test_refusals(self):
        """A seat goes on with the number that is expected: it is one that JSON has."""
        for expected, taken in ((1, True), (2**53 - 1, True), (2**53, False), (-1, False), ("2", False), (1e9, False)):
            data = json.dumps({"error": "wrong_number", "expected": expected, "no": 11}).encode()
            self.assertEqual(is_taken("/v1/ship", data, 409), taken, expected)

    def test_of_another_chip(self):
        for kind, name in (("identity", "chip"), ("device", "chip"), ("ship", "chip"), ("order", "name")):
            self.assertFalse(is_taken(f"/v1/{kind}", {**REPLIES[f"/v1/{kind}"], name: "240ac4000002"}), kind)


class AtStation(StationCase):
    def test_a_record(self):
        """One of another form is as no reply: nothing of it is kept, and the request gets its own reply later."""
        with self.station() as station:
            station.import_map(MAP)
            station.make_order(**ORDER)
            station.register(MAC, "o1", MAP_DIGEST, self.chip().read())
            station.plan(MAC, [])
        proxy = self.proxy(kind=Forging)
        for number, bad in enumerate((rb"A1\\n^XZ^XA^FDother label^FS", b"../A998", b"a998", b"A998\\\\u0000", b"")):
            proxy.changes = [(rb'"serial":"[^"]*"', b'"serial":"%s"' % bad)]
            with self.station(proxy.url, patience=0, journal=self.journal(f"j{number}")) as station:
                with self.assertRaises(NotTheServer) as found:
                    station.identify(MAC, PUBLIC_KEY)
            self.assertIn("serial isn't as it has to be", str(found.exception))
            kept = (self.folder / f"j{number}").read_text("ascii") + (self.folder / "a1.json").read_text("ascii")
            self.assertEqual(("XZ" in kept, '"reply":{"chip"' in kept), (False, False), kept)
        proxy.changes = []
        with self.station(proxy.url) as station:
            self.assertEqual(station.finish().reply["serial"], "A998")


class Forgetting(Forging):
    """Changes what is asked on its way."""

    forgotten = (b"", b"")

    def pass_on(self, client):
        request = whole(client)
        head, _, body = request.partition(b"\r\n\r\n")
        if b" /v1/plan " in head:
            body = re.sub(*self.forgotten, body)
            head = re.sub(rb"(?i)(content-length: )\d+", b"\\g<1>%d" % len(body), head)
        client.sendall(exchanged(self.program.port, b"%s\r\n\r\n%s" % (head, body)))


class AtBench(BenchCase):
    SOCKETS = ("left",)

    def put_in(self, change):
        """A bench with a chip in it, between which and the server a reply is changed; and the chip's file."""
        self.order(quantity=2, macs=2)
        hook = script(self.folder / "hook", f"exec >> {self.folder}/hooked\n{FACTS}")
        proxy = self.proxy(kind=Forging)
        proxy.changes = [change]
        bench = self.run_bench(self.recipe(url=proxy.url, hooks={"label": {"command": [hook]}}))
        self.put("left", MAC)
        blank = (self.folder / "places" / "left").read_bytes()
        bench.said("left")
        return bench, proxy, blank

    def is_away(self, bench):
        away = bench.until(lambda board: board["away"], "away")["away"]
        self.assertEqual(away["why"], "something else answers in its place")

    def test_a_label(self):
        """No hook gets what is no serial number, no address and no digest; it gets the true record then, once."""
        changes = [
            (rb'"serial":"[^"]*"}$', rb'"serial":"A1\\n^XZ^XA^FDother label^FS"}'),
            (rb'"serial":"[^"]*"}$', b'"serial":[1]}'),
            (rb'"mac":"[^"]*"', b'"mac":"020000000010 ffffffffffff"'),
            (rb'"key_sha256":"', b'"key_sha256":"$(x)'),
        ]
        bench, proxy, _ = self.put_in(changes[0])
        for change in changes:
            proxy.changes, asked = [change], len(proxy.asked)
            self.is_away(bench)
            bench.until(lambda _: len(proxy.asked) > asked + 1, "asked again")
            self.assertFalse((self.folder / "hooked").exists(), change)
        proxy.changes = []
        self.assertEqual(bench.ended("left")[0], "PASS")
        digest = self.asked("GET", f"/v1/identity?chip={MAC}")[1]["key_sha256"]
        line = f"{MAC} o1 A001 020000000010 020000000010 020000000011 {digest}"
        self.assertEqual((self.folder / "hooked").read_text("ascii").splitlines(), [line])
        self.assertEqual(steps(self.ledger()), LIFE)
        self.assertEqual([it.name for it in (self.folder / "spool").iterdir()], ["A001.csr"])

    def test_addresses_beyond_the_last(self):
        """A first address of six octets, with others behind it that have seven."""
        bench, _, _ = self.put_in((rb'"mac":"[^"]*"(,"not_after")', rb'"mac":"ffffffffffff"\1'))
        word, reason, sentence = bench.ended("left")
        self.assertEqual((word, reason), ("LABEL", "no_label"))
        self.assertIn("the addresses of A001 aren't those of its order", sentence)
        self.assertFalse((self.folder / "hooked").exists())

    def test_wishes_that_are_lost(self):
        """A server that forgets wishes, as a hostile one does, has no chip pass without them: not one with nothing
        burnt, and none with locks over a key block that has no key."""
        forgotten = [(rb'"wishes":\[.*?\]', b'"wishes":[]'), (rb'\{[^{}]*"kind":"key"[^{}]*\},', b"")]
        self.order(quantity=2)
        proxy = self.proxy(kind=Forgetting)
        bench = self.run_bench(self.recipe(url=proxy.url))
        for mac, change, names in zip(macs_of(2), forgotten, ("BLOCK1, JTAG_DISABLE, ", "BLOCK1")):
            proxy.forgotten = change
            self.put("left", mac)
            bench.said("left")
            bench.until(lambda board, mac=mac: board["sockets"][0]["chip"] == mac)
            word, reason, told = bench.ended("left")
            self.assertEqual((word, reason), ("FAIL", "other_wishes"), told)
            self.assertIn(f"({names}", told)
            blocks = SimulatedChip.at(self.folder / "places" / "left").blocks
            self.assertEqual(blocks[0] & 0x10080, 0)
            self.assertEqual(self.asked("GET", f"/v1/device?chip={mac}")[1]["serial"], None)
            self.take("left", mac)

    def test_a_plan(self):
        """Nothing is burnt by a plan of another form, nor by one that has more than is wished for."""
        planned = rb'("batch1":\{"bits":\[\{"block":0,"mask":")00000040'
        bench, proxy, blank = self.put_in((planned, rb"\g<1>0x000040"))
        self.is_away(bench)
        proxy.changes = [(planned, rb"\g<1>00000041")]
        self.assertEqual(bench.ended("left")[:2], ("FAIL", "other_wishes"))
        self.assertEqual((self.folder / "places" / "left").read_bytes(), blank)
        self.assertFalse((self.folder / "hooked").exists())
