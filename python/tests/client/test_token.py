"""A seat that gets another token, as from a proxy that knows tokens of its own, and a token that is another seat's."""

import json

from support import LIFE, MAC, MAP, ORDER, StationCase, TokenProxy, life, steps

from commanding import ran

from wanekupo.seat.station import Station
from wanekupo.common.errors import BadStateFile, NoReply, OutOfStep, Refused

BOLT = {**ORDER, "issuer": "bolt-ca", "macs": 0}


class Tokens(StationCase):
    """`old` and `new` are tokens of the seat a1, `other` is one of b1."""

    over_office = True

    def setUp(self):
        super().setUp()
        self.proxy_of = self.proxy(kind=TokenProxy)
        self.proxy_of.tokens = {"old": "abc", "other": "hello"}

    def seat(self, token, **options):
        return Station(self.proxy_of.url, token, self.folder / "a1.json", patience=0, **options)

    def rotated(self):
        self.proxy_of.tokens = {"new": "abc", "other": "hello"}

    def kept(self):
        return (self.folder / "a1.json").read_bytes()

    def numbers_of_b1(self):
        return self.station(token="hello", file=None).expected_number()

    def station(self, url=None, token="abc", file="a1.json", **options):
        station = Station(url or self.program.url, token, file and self.folder / file, **options)
        self.addCleanup(station.close)
        return station

    def test_the_same_seat(self):
        """It goes on where it was told to, and needs no word from then on; the old token is another then."""
        with self.seat("old") as seat:
            seat.make_order(**ORDER)
            seat.import_map(MAP)
        self.rotated()
        with self.seat("old") as seat, self.assertRaises(Refused) as found:
            seat.ship(MAC)
        kept = self.kept()
        asked = [(it["path"], json.loads(it["body"])["nr"]) for it in json.loads(kept)["late"]]
        self.assertEqual((found.exception.no, asked), (6, [("/v1/ship", 3)]))
        with self.assertRaises(BadStateFile) as told:
            self.seat("new")
        self.assertIn("--new-token", told.exception.advice)
        self.assertEqual(self.kept(), kept)
        with self.seat("new", new_token=True) as seat:
            self.assertEqual(seat.order("o1").next, "A998")
            self.assertEqual(self.kept(), kept)
            self.assertEqual(life(seat, self.chip()).state, "shipped")
        with self.seat("new") as seat:
            self.assertEqual((seat.finish().path, seat.expected_number()), ("/v1/ship", seat.own_number()))
        with self.assertRaises(BadStateFile):
            self.seat("old")
        self.assertEqual(steps(self.ledger()), LIFE)

    def test_by_a_look(self):
        """`number` takes the token over where it is the seat's, and goes without the word from then on."""
        with self.seat("old") as seat:
            seat.make_order(**ORDER)
        self.rotated()
        common = ("--url", self.proxy_of.url, "--state-file", self.folder / "a1.json", "--patience", 1)
        for token, words, expected in (
            ("new", ["number"], (2, "")),
            ("other", ["--new-token", "number"], (2, "")),
            ("new", ["--new-token", "number"], (0, '{"expected":2,"own":2}\n')),
            ("new", ["number"], (0, '{"expected":2,"own":2}\n')),
        ):
            with self.subTest(f"{token} {words}"):
                file = self.folder / f"{token}.token"
                file.write_text(token, encoding="ascii")
                file.chmod(0o600)
                self.assertEqual(ran(*common, "--token", file, *words)[:2], expected)

    def test_at_each_request_of_a_life(self):
        """The token changes at each of them, whether it was done or not: each is done once."""
        with self.seat("old") as seat:
            seat.make_order(**{**ORDER, "quantity": 20, "first": 1, "macs": 0})
            seat.import_map(MAP)
        token, count = "old", 0
        for fault in ("lost request", "lost reply"):
            mac, device = f"240ac400000{1 + count}", None
            chip, count, lost = self.chip(mac), count + 1, 0
            while device is None or device.state != "shipped":
                fresh = f"token{len(self.proxy_of.seen)}"
                try:
                    with self.seat(token) as seat:
                        self.befall(seat, fault)
                        device = life(seat, chip, mac.encode())
                except NoReply:
                    lost += 1
                    self.proxy_of.tokens = {fresh: "abc"}
                    token = fresh
                    with self.seat(token, new_token=True) as seat:
                        seat.finish()
            self.assertEqual((steps(self.ledger(mac)), lost), (LIFE, len(LIFE)), fault)

    def befall(self, seat, fault):
        """The seat's next request that changes anything meets the fault."""
        asked = seat._server.asked

        def counted(method, *words):
            self.proxy_of.faults = [fault] if method == "POST" else []
            return asked(method, *words)

        seat._server.asked = counted

    def test_another_seat_by_its_number(self):
        with self.seat("old") as seat:
            seat.make_order(**ORDER)
            seat.import_map(MAP)
        kept = self.kept()
        for _ in range(2):
            with self.seat("other", new_token=True) as seat, self.assertRaises(BadStateFile) as found:
                seat.ship(MAC)
            self.assertIn("its number is 3, and the server expects 1", str(found.exception))
        self.assertEqual((self.kept(), self.numbers_of_b1()), (kept, 1))

    def test_another_seat_with_the_same_number(self):
        """Its last request is another, so it isn't taken for this one; nothing is done as it."""
        with self.seat("old") as seat:
            seat.make_order(**ORDER)
        self.station(token="hello", file="b1.json").make_order(**BOLT)
        kept = self.kept()
        with self.seat("other", new_token=True) as seat:
            for call in (seat.finish, lambda: seat.import_map(MAP)):
                with self.assertRaises(BadStateFile) as found:
                    call()
                self.assertIn("the last request of this token's was another", str(found.exception))
        self.assertEqual((self.kept(), self.numbers_of_b1()), (kept, 2))

    def test_another_seat_and_a_request_under_way(self):
        """Whether the other seat comes to the number of the request, or has passed it: it isn't done as the other."""
        other = self.station(token="hello", file="b1.json")
        other.make_order(**BOLT)
        with self.seat("old") as seat:
            seat.make_order(**ORDER)
            self.proxy_of.faults = ["lost request"]
            with self.assertRaises(NoReply):
                seat.import_map(MAP)
        for number in (2, 3):
            with self.seat("other", new_token=True) as seat, self.assertRaises(BadStateFile):
                seat.finish()
            self.assertEqual(self.numbers_of_b1(), number)
            other.make_order(**{**BOLT, "name": f"o{number}", "first": 10 * number})
        self.rotated()
        with self.seat("new", new_token=True) as seat:
            self.assertEqual(seat.finish().path, "/v1/map")

    def test_numbers_that_went_on(self):
        """As where the old token leaked: the seat stops, and a person has it go on with the new one."""
        with self.seat("old") as seat:
            seat.make_order(**ORDER)
        with self.station(file="thief.json") as thief:
            thief.import_map(MAP)
        before = self.kept()
        with self.seat("old") as seat, self.assertRaises(OutOfStep):
            seat.ship(MAC)
        self.rotated()
        stopped = self.kept()
        (self.folder / "a1.json").write_bytes(before)
        with self.seat("new", new_token=True) as seat, self.assertRaises(BadStateFile):
            seat.ship(MAC)
        (self.folder / "a1.json").write_bytes(stopped)
        with self.seat("new", new_token=True) as seat:
            with self.assertRaises(OutOfStep):
                seat.ship(MAC)
            seat.resynchronize()
            self.assertEqual(life(seat, self.chip()).state, "shipped")
        self.seat("new").close()

    def test_numbers_that_went_on_before(self):
        """A seat that was told to go on, and then gets a token: what it has as its last request isn't the server's."""
        with self.seat("old") as seat:
            seat.make_order(**ORDER)
            with self.station(file="thief.json") as thief:
                thief.import_map(MAP)
            seat.resynchronize()
        self.rotated()
        with self.seat("new", new_token=True) as seat:
            self.assertEqual(life(seat, self.chip()).state, "shipped")

    def test_by_the_command_line(self):
        (self.folder / "a1.token").write_text("old\n", encoding="ascii")
        common = ["--url", self.proxy_of.url, "--token", self.folder / "a1.token"]
        common += ["--state-file", self.folder / "a1.json"]
        (self.folder / "map").write_text(MAP, encoding="utf-8")
        self.assertEqual(ran(*common, "map", self.folder / "map")[0], 0)
        self.rotated()
        (self.folder / "a1.token").write_text("new\n", encoding="ascii")
        status, out, err = ran(*common, "finish")
        self.assertEqual((status, out, "--new-token" in err), (2, "", True))
        for words in (["--new-token", "finish"], ["finish"]):
            status, out, err = ran(*common, *words)
            self.assertEqual((status, '"path":"/v1/map"' in out, err), (0, True, ""))
