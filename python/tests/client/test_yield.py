"""What two printed reports say of a period, and which chips were lost. The counts are made up, and subtracted by hand.
"""

import json
import unittest
from datetime import datetime, timezone

from support import DIGEST, MAP, ORDER, StationCase, bit, life

from commanding import ran

from wanekupo.common.errors import NoReply, OtherReports
from wanekupo.books.lost import given_up, lost_csv
from wanekupo.common.moments import moment_of
from wanekupo.books.report_counts import ReportDifference, as_csv, as_text, difference_of

HEAD = "order,quantity,registered,planned,settled,identified,shipped,quarantined,scrapped,serials_left\n"
SITE = HEAD.replace("order,", "customer,orders,")
DAY = "2026-11-27T"


def report(*rows, head=HEAD):
    return head + "".join(row + "\n" for row in rows)


# A shift: o1 goes on, o2 is begun, o3 stands; a quarantined chip is scrapped.
BEFORE = report("o1,30,2,0,0,1,10,1,0,19", "o3,5,1,0,0,0,4,0,0,1")
BEHIND = report("o1,30,0,1,0,0,19,2,2,11", "o2,9,0,0,1,0,0,0,0,9", "o3,5,1,0,0,0,4,0,0,1")
O1 = {"registered": -2, "planned": 1, "settled": 0, "identified": -1, "shipped": 9, "quarantined": 1, "scrapped": 2}
O2 = {"registered": 0, "planned": 0, "settled": 1, "identified": 0, "shipped": 0, "quarantined": 0, "scrapped": 0}


class Subtracted(unittest.TestCase):
    def test_a_shift(self):
        """Of o1 10 were begun, 9 shipped and 3 given up."""
        difference = difference_of(BEFORE, BEHIND)
        self.assertEqual(difference, ReportDifference("order", {"o1": O1, "o2": O2}))
        told = as_csv(difference).splitlines()
        self.assertEqual(told[0].split(",")[:5], "order begun shipped given_up yield".split())
        self.assertEqual(told[1], "o1,10,9,3,75.0,-2,+1,0,-1,+9,+1,+2")
        self.assertEqual(told[2], "o2,1,0,0,,0,0,+1,0,0,0,0")
        self.assertEqual(told[3], "all,11,9,3,75.0,-2,+1,+1,-1,+9,+1,+2")
        lines = as_text(difference).splitlines()
        self.assertEqual(lines[1].split()[:5], "o1 10 9 3 75.0".split())
        self.assertEqual((len(lines), len({len(line) for line in lines})), (4, 1))

    def test_nothing_was_done(self):
        self.assertEqual(difference_of(BEHIND, BEHIND), ReportDifference("order", {}))
        self.assertEqual(len(as_csv(difference_of(BEHIND, BEHIND)).splitlines()), 1)

    def test_a_customer_without_orders(self):
        """Its first orders are counted from nothing."""
        changed = {**O2, "settled": 0, "registered": 2, "shipped": 1}
        found = difference_of(HEAD, report("o1,30,2,0,0,0,1,0,0,27"))
        self.assertEqual(found, ReportDifference("order", {"o1": changed}))

    def test_the_site(self):
        rows = [report(row, head=SITE) for row in ("acme,1,30,2,0,0,0,1,0,0,27", "acme,2,39,1,0,0,0,4,0,0,34")]
        changed = {**O2, "settled": 0, "registered": -1, "shipped": 3}
        self.assertEqual(difference_of(*rows), ReportDifference("customer", {"acme": changed}))

    def test_what_are_no_two_reports(self):
        """By an order that went, by one of which there is less, and by reports of two kinds."""
        for earlier, later in (
            (BEHIND, BEFORE),
            (BEFORE, report("b1,9,2,0,0,0,0,0,0,7")),
            (report("o1,9,0,0,0,0,2,0,0,7"), report("o1,9,2,0,0,0,1,0,0,8")),
            (BEFORE, report("acme,1,30,2,0,0,0,1,0,0,27", head=SITE)),
        ):
            with self.assertRaises(OtherReports):
                difference_of(earlier, later)

    def test_a_report_that_was_cut(self):
        """At each byte within a line it is none."""
        for end in range(len(BEHIND)):
            if BEHIND[end - 1 : end] != "\n":
                with self.assertRaises(ValueError, msg=end):
                    difference_of(BEFORE, BEHIND[:end])


class Yield(StationCase):
    """The command, over the program where a test says so."""

    over_office = True

    def written(self, name, text):
        (self.folder / name).write_text(text, encoding="utf-8")
        return self.folder / name

    def test_two_files(self):
        words = [self.written("before", BEFORE), self.written("behind", BEHIND), "--csv", self.folder / "y.csv"]
        status, out, told = ran("yield", *words)
        self.assertEqual((status, out.splitlines()[1].split()[:5], told), (0, "o1 10 9 3 75.0".split(), ""))
        self.assertEqual((self.folder / "y.csv").read_text(encoding="ascii"), as_csv(difference_of(BEFORE, BEHIND)))
        row = json.loads(ran("yield", *words[:2], "--json")[1].splitlines()[0])
        told = [row[name] for name in ("order", "begun", "shipped", "given_up", "yield")]
        self.assertEqual(told, ["o1", 10, 9, 3, "75.0"])

    def test_the_report_of_now(self):
        """A customer's and the site's, each with what a chip's life adds to what was printed before."""
        station = self.prepared()
        for name, token in (("acme", "abc"), ("site", "test")):
            self.written(f"{name}.token", token)
            (self.folder / f"{name}.token").chmod(0o600)
        for name, command in (("acme", "report"), ("site", "site-report")):
            status, out, _ = ran("--url", self.program.url, "--token", self.folder / f"{name}.token", command)
            self.assertEqual(status, 0)
            self.written(name, out)
        life(station, self.chip())
        for name, column, row in (("acme", "order", "o1"), ("site", "customer", "acme")):
            words = ("--url", self.program.url, "--token", self.folder / f"{name}.token", "yield", self.folder / name)
            status, out, _ = ran(*words)
            self.assertEqual((status, out.split()[0]), (0, column))
            self.assertEqual(out.splitlines()[1].split()[:5], [row, "1", "1", "0", "100.0"])

    def test_what_is_refused(self):
        """Each is told in a sentence that names the file, or the order."""
        before, behind = self.written("before", BEFORE), self.written("behind", BEHIND)
        cut, page = self.written("cut", BEHIND[:-3]), self.written("page", "<html>\n")
        for words, told in (
            ((behind, before), "the later report has less of o1 than the earlier one"),
            ((before, cut), f"{cut} has no report"),
            ((page, before), f"{page} has no report"),
            ((before, self.folder / "none"), "none"),
        ):
            status, out, err = ran("yield", *words)
            self.assertEqual((status, out, told.lower() in err.lower()), (2, "", True), err)

    def test_a_moment(self):
        self.assertEqual(moment_of("2026-11-27T06:00+02:00"), datetime(2026, 11, 27, 4, tzinfo=timezone.utc))
        for words in (("--from", "10:36"), ("--to", "14")):
            status, _, told = ran("lost", self.folder, *words)
            self.assertEqual(status, 2)
            self.assertIn("is no time like 2026-11-27T06:00, 2026-11-27T06:00Z or", told)


class Lost(StationCase):
    """The chips that were given up, by the journals of two seats' stations."""

    over_office = True

    STRAY, SCRAPPED, OTHER = (f"240ac400000{place}" for place in (1, 2, 3))

    def ended(self, station, chip, stray=True):
        """A registered chip that has a bit which nobody planned, or is scrapped."""
        held = self.chip(chip)
        station.register(chip, "o1", DIGEST, held.read())
        station.plan(chip, [bit("JTAG_DISABLE", 0)])
        held.chip.burn(0, 1 << 197)
        return station.read_back(chip, held.read()) if stray else station.scrap(chip)

    def setUp(self):
        """Of the first seat one is lost, whose reply was lost too, and scrapped later; and one is only scrapped."""
        super().setUp()
        self.files = [self.folder / name for name in ("a1.journal", "b1.journal")]
        proxy = self.proxy()
        seat = self.station(proxy.url, patience=0, journal=self.journal())
        seat.make_order(**{**ORDER, "first": 1, "quantity": 9, "macs": 0})
        seat.import_map(MAP)
        proxy.faults = [None, None, "lost reply"]
        with self.assertRaises(NoReply):
            self.ended(seat, self.STRAY)
        self.unanswered = given_up(self.files[:1])
        seat.finish()
        self.ended(seat, self.SCRAPPED, stray=False)
        seat.scrap(self.STRAY)
        other = self.station(token="hello", file="b1.json", journal=self.journal("b1.journal"))
        other.make_order(**{**ORDER, "issuer": "bolt-ca", "macs": 0})
        other.import_map(MAP)
        self.ended(other, self.OTHER)

    def test_each_once(self):
        lines, told = given_up(self.files)
        expected = [("a1", self.STRAY, "stray"), ("a1", self.SCRAPPED, "scrapped"), ("b1", self.OTHER, "stray")]
        files = {name: str(file) for name, file in zip(("a1", "b1"), self.files)}
        found = sorted(line[1:] for line in lines)
        self.assertEqual(found, sorted([files[name], chip, "o1", why] for name, chip, why in expected))
        self.assertEqual(told, [])
        lines, told = self.unanswered
        self.assertEqual((lines, len(told)), ([], 1))
        self.assertIn(f"no reply to /v1/readback of {self.STRAY}", told[0])

    def test_no_reply_and_gone_on(self):
        """A read-back that never got its reply is told, until a later reply tells of its chip."""
        asked = [{"path": "/v1/readback", "asked": {"chip": "c1", "nr": 1}}, {"resynchronized": 1}]
        asked += [{"path": "/v1/readback", "asked": {"chip": "c1", "nr": 2}}]
        answer = {"nr": 2, "status": 200, "reply": {"outcome": "match", "state": "settled"}}
        for lines, count in ((asked[:1], 1), (asked, 1), ([*asked, answer], 0)):
            text = "".join(json.dumps({"at": DAY + "06:00:00Z", **line}) + "\n" for line in lines)
            self.files[1].write_text(text, encoding="ascii")
            lines, told = given_up(self.files[1:])
            self.assertEqual((lines, len(told)), ([], count))

    def test_times_and_orders(self):
        """A reply's time counts; a chip that was given up before isn't scrapped anew; without a log with its
        registration its order isn't known."""
        times, path, kept = {"/v1/readback": "05:59:59", "/v1/scrap": "06:00:00"}, None, []
        for line in map(json.loads, self.files[0].read_text(encoding="ascii").splitlines()):
            path = line.get("path", path)
            line["at"] = f"{DAY}{times.get(path, '05:00:00')}Z"
            if path != "/v1/device":
                kept.append(json.dumps(line) + "\n")
        self.files[0].write_text("".join(kept), encoding="ascii")
        words = [self.files[0], "--csv", self.folder / "lost.csv"]
        moments = ("--from", DAY + "06:00Z", "--to", DAY + "14:00Z")
        row = [f"{DAY}06:00:00Z", str(self.files[0]), self.SCRAPPED, "", "scrapped"]
        status, out, _ = ran("lost", *words, *moments)
        self.assertEqual((status, [line.split() for line in out.splitlines()[1:]]), (0, [[it for it in row if it]]))
        self.assertEqual((self.folder / "lost.csv").read_text(encoding="ascii"), lost_csv([row]))
        status, out, _ = ran("lost", *words, "--to", DAY + "06:00Z")
        self.assertEqual([line.split()[2:] for line in out.splitlines()[1:]], [[self.STRAY, "stray"]])
        self.assertEqual(ran("lost", *words, *moments[2:], "--from", DAY + "14:00Z")[0], 2)
