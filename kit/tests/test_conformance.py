"""The kit finds nothing in stations that are right, and each fault of stations that are wrong in one way."""

from __future__ import annotations

import contextlib
import io
import json
import os
import re
import shutil
import subprocess
import sys
import tempfile
import unittest
from concurrent.futures import ThreadPoolExecutor
from pathlib import Path
from types import SimpleNamespace
from unittest import mock

import kit.__main__ as command
from kit import checks, job, journal, protocol, vectors
from kit.course import Course, Options
from kit.findings import Findings
from kit.syncs import can_trace

HERE = Path(__file__).resolve().parents[1]
ROOT = HERE.parent
PROGRAM = os.environ.get("STATION_PROGRAM", str(ROOT / "crates" / "station" / "out" / "station"))
API = ROOT / "docs" / "integrate" / "api.md"
OWN = HERE / "tests" / "own_station.py"

# Each wrong way of tests/own_station.py, the row in which it is found, and words of the fault's line.
FOUND = {
    "unsynced": ("synced", r"number \d+ \(POST /v1/\w+\) was sent before state was synced"),
    "next-number": ("(number|again)", r"(in place of its repeat number \d+|for it again under a new number: \d+)"),
    "identity-again": ("again", r"asks for the identity of [0-9a-f]{12} again under a new number: \d+"),
    "unlogged": ("logged", r"number 1 \(POST /v1/order\) was sent before its line was in the log"),
    "believing": ("foreign", r"isn't the server's, (was believed|and it ended with status \d+)"),
    "stops-at-502": ("repeated", r"got a page of status 502, and it ended with status 1 in place of sending it again"),
    "begins-with-1": ("unknown", r"behind the loss of the state file, and the number wasn't asked for"),
    "reads-first": ("shipped", r"is quarantined \((key|lost|stray)\), and not shipped"),
    "drops-refused": ("number", r"was refused as 6 at a repeat, and in place of its repeat number \d+"),
    "digest-of-body": ("logged", r"has the digest [0-9a-f]{64} in the log, and is [0-9a-f]{64}"),
    "keeps-cut-line": ("logged", r"behind one that a crash had cut"),
    "no-pause": ("repeated", r"is sent again without a pause"),
    "unsynced-log": ("synced", r"number 1 \(POST /v1/order\) was sent before log was synced"),
    "no-reply-line": ("replied", r"number 1 \(POST /v1/order\) had its reply, and the log hasn't when number 2"),
    "open-files": ("files", r"state has the mode 644, and not 600"),
    "bad-time": ("log", r"line 1 has the time '\d+', and none as 2026-11-27T06:00:00Z"),
    "other-record": ("record", r"240ac4000001: record.json isn't the server's record"),
    "ends-early": ("ended", r"it ended with status 0, and 240ac4000001 isn't shipped"),
    "claims-late": ("late", r"it doesn't go on behind a late copy"),
    "own-orders": ("late", r"it sent no registration, and ended with status 1"),
}
# What a seat's machine finds in those that are wrong in the protocol.
SEATS = {
    "next-number": r"ask in place of send \d+ [12]",
    "identity-again": r"it sent send 101 (\d) in place of send 100 \1|ask in place",
    "unlogged": r"its log has .* in place of .*'log \d+ [12]'\] at the end",
    "believing": r"in place of send \d+ [12]",
    "stops-at-502": r"ended with status 1 in place of (send|ask)",
    "begins-with-1": r"send 1 [12] in place of ask",
    "drops-refused": r"not (1|10)'\] in place of|ended with status 1 in place of",
    "digest-of-body": r"has another digest than its members",
    "no-pause": r"is sent again without a pause",
    "no-reply-line": r"its log has .* in place of .*(not \d+|done 90)",
    "bad-time": r"has the time '\d+'",
    "claims-late": r"ended with status 1 in place of send \d+ [12], at under way .*; kept",
}
# Words of the station in JavaScript, in place of which others make it wrong, and what the machine finds then.
PLANTS = {
    "if (asked) await this.complete(true);": ("", r"in place of (send|\['log)"),
    "(await this.expected())": ("1", r"send 1 [12] in place of ask"),
    "told : null;\n": ("null : null;\n", r"in place of nothing, at .*stopped"),
    "keep({ under_way: isKept": ("keep({ next: number + 1, under_way: isKept", r"send \d+ [12] in place of send \d+"),
}
# Where the station over the client in Python finds it, on a machine without its package.
PLACES = {**os.environ, "PYTHONPATH": str(ROOT / "python")}
RIGHT = {"python": [sys.executable, HERE / "stations" / "python.py"], "own": [sys.executable, OWN]}
NODE = shutil.which("node")
VERSION = subprocess.run([NODE, "--version"], capture_output=True, text=True).stdout if NODE else "v0"
if int(re.match(r"v(\d+)", VERSION)[1]) >= 18:
    RIGHT["javascript"] = [NODE, HERE / "stations" / "seat.mjs"]


def ran(*words, options=()):
    """The status of the kit over a station, and what it printed."""
    done = subprocess.run(
        [sys.executable, "-B", "-m", "kit", "--program", PROGRAM, *options, "--station", *map(str, words)],
        cwd=ROOT, env=PLACES, capture_output=True, text=True, timeout=600,
    )  # fmt: skip
    return done.returncode, done.stdout + done.stderr


class Stations(unittest.TestCase):
    """All run side by side: most of their time they wait."""

    @classmethod
    def setUpClass(cls):
        pool = ThreadPoolExecutor(4)
        few, first, late = ["--chips", "1"], ["--first", "--late-copies", "no"], ["--first"]
        cls.right = {name: pool.submit(ran, *words, options=few) for name, words in RIGHT.items()}
        options = {way: late if row == "late" else first for way, (row, _) in FOUND.items()}
        cls.wrong = {way: pool.submit(ran, sys.executable, OWN, way, options=options[way]) for way in FOUND}
        cls.addClassCleanup(pool.shutdown)

    def test_right(self):
        for name, done in self.right.items():
            with self.subTest(name):
                status, told = done.result()
                self.assertEqual((status, "FAULT" in told), (0, False), told)
                self.assertRegex(told, r"\n[34] chips, ")

    def test_wrong_in_one_way(self):
        for way, done in self.wrong.items():
            row, words = FOUND[way]
            with self.subTest(way):
                if row == "synced" and not can_trace():
                    self.skipTest("no strace")
                status, told = done.result()
                self.assertEqual(status, 1, told)
                self.assertRegex(told, rf"\nFAULT {row}: .*{words}")


class Seats(unittest.TestCase):
    """The vectors of a seat's machine find nothing in right stations, and the faults of those that are wrong in the
    protocol."""

    def faults_of(self, commands, starts):
        """The first fault of each station."""
        with mock.patch.dict(os.environ, PLACES), ThreadPoolExecutor(4) as pool:
            found = {name: pool.submit(vectors.fault_of, words, 1, starts) for name, words in commands.items()}
        return {name: fault.result() for name, fault in found.items()}

    def test_right(self):
        self.assertEqual(self.faults_of(RIGHT, 60), dict.fromkeys(RIGHT, ""))
        self.assertIn("it sent nothing", vectors.fault_of(["true"], 1, 1))

    def test_wrong_in_one_way(self):
        for way, fault in self.faults_of({way: [sys.executable, OWN, way] for way in SEATS}, 400).items():
            self.assertRegex(fault, SEATS[way], way)

    @unittest.skipUnless("javascript" in RIGHT, "no Node 18")
    def test_wrong_in_javascript(self):
        text = (HERE / "stations" / "seat.mjs").read_text("utf-8")
        with tempfile.TemporaryDirectory() as folder:
            for place, (old, (new, _)) in enumerate(PLANTS.items()):
                self.assertEqual(text.count(old), 1)
                (Path(folder) / f"{place}.mjs").write_text(text.replace(old, new), "utf-8")
            commands = {old: [NODE, f"{folder}/{place}.mjs"] for place, old in enumerate(PLANTS)}
            for old, fault in self.faults_of(commands, 400).items():
                self.assertRegex(fault, PLANTS[old][1], old)


class Brief(Course):
    """A run whose minutes end with its first disturbed chip."""

    def is_late(self):
        return len(self.jobs) > 2 and checks.is_shipped(self.books, self.jobs[2])


class Cut(unittest.TestCase):
    """A run that --minutes cut isn't status 0, also where each row was reached and nothing was found."""

    def test_a_chip_that_was_not_begun(self):
        printed, words = io.StringIO(), [*map(str, RIGHT["own"])]
        options = Options(words, PROGRAM, seed=1, chips=2, minutes=10, late_copies="no", is_first=False)
        with tempfile.TemporaryDirectory() as folder, contextlib.redirect_stdout(printed):
            with mock.patch.object(command, "Course", Brief):
                status = command.ran(options, Path(folder).resolve())
        told = printed.getvalue()
        self.assertEqual((status, "FAULT" in told, "not reached" in told), (1, False, False), told)
        self.assertIn("cut by --minutes: 1 of 2 disturbed chips", told)


class Few(unittest.TestCase):
    """For the short run: a chip of a right station and one of a wrong one, without a late copy."""

    def test_a_right_one_and_a_wrong_one(self):
        few = ["--late-copies", "no"]
        with ThreadPoolExecutor(2) as pool:
            right = pool.submit(ran, *RIGHT["python"], options=[*few, "--chips", "1"])
            wrong = pool.submit(ran, sys.executable, OWN, "next-number", options=[*few, "--first"])
        (status, told), (other, faults) = right.result(), wrong.result()
        self.assertEqual((status, "FAULT" in told), (0, False), told)
        self.assertRegex(told, r"\n3 chips, ")
        row, words = FOUND["next-number"]
        self.assertEqual(other, 1, faults)
        self.assertRegex(faults, rf"\nFAULT {row}: .*{words}")


class Books:
    """A caller that answers from a table: what no station can bring about with this server."""

    def __init__(self, **told):
        self.told = told

    def get(self, target):
        return self.told.get(target.split("?")[0].rpartition("/")[2])

    def ask(self, method, target):
        return 200, self.told[target.split("?")[0].rpartition("/")[2]].encode()


class Checks(unittest.TestCase):
    """What is looked at in the books finds what is wrong there."""

    ORDER = {"name": "o", "prefix": "B", "first": 1, "width": 3, "quantity": 2, "macs": 2}

    def jobs(self):
        return [SimpleNamespace(order=self.ORDER, mac=mac) for mac in ("240ac4000100", "240ac4000101")]

    def found(self, look, *words):
        findings = Findings()
        look(findings, *words)
        return re.findall(r"^FAULT \w+: (.*)$", findings.table(), re.MULTILINE)

    def test_once(self):
        for serials, macs, wanted in (
            (("B001", "B002"), ("020000000000", "020000000002"), []),
            (("B001", "B001"), ("020000000000", "020000000002"), ["serial number B001 is in 2 records"]),
            (("B001", "B3"), ("020000000000", "020000000002"), ["B3 isn't a serial number of 240ac4000101's order"]),
            (("B001", "B002"), ("020000000000", "020000000001"), ["address 020000000001 is in 2 records"]),
            (("B001", "B002"), ("020000000000", "020000100000"), ["020000100000 isn't in the customer's pool"]),
        ):
            records = [{"serial": serial, "mac": mac} for serial, mac in zip(serials, macs)]
            self.assertEqual(self.found(checks.look_at_once, list(zip(self.jobs(), records))), wanted)

    def test_report(self):
        head = "order,quantity,registered,planned,settled,identified,shipped,quarantined,scrapped,serials_left\n"
        for row, faults in (("o,2,0,0,0,0,2,0,0,0", 0), ("o,2,0,0,0,0,1,0,0,1", 1), ("p,2,0,0,0,0,2,0,0,0", 2)):
            found = self.found(checks.look_at_report, Books(report=head + row), self.jobs(), {})
            self.assertEqual(len(found), faults, found)

    def test_lines(self):
        at = {"at": "2026-11-27T06:00:00Z"}
        for line, wanted in (
            ({"nr": 1, "status": 200, "reply": {}}, []),
            ({"nr": 1, "status": "200", "reply": {}}, ["line 1 is neither a request nor a reply: its status is"]),
            ({"nr": 1, "status": 200}, ["line 1 is no request, and has no reply"]),
        ):
            with tempfile.TemporaryDirectory() as folder:
                (Path(folder) / "log").write_text(json.dumps({**at, **line}) + "\n")
                found = journal.Journal(Path(folder) / "log").faults()
            self.assertEqual([it[: len(words)] for it, words in zip(found, wanted)], wanted)
            self.assertEqual(len(found), len(wanted))

    def test_others(self):
        targets = ("report", "devices", "order", "device", "ledger", "identity")
        others = checks.Others(Books(**dict.fromkeys(targets, "before")))
        others.before = others.shown()
        self.assertEqual(self.found(others.look), [])
        for target in targets:
            others.books.told = {**dict.fromkeys(targets, "before"), target: "behind"}
            self.assertIn(f"/v1/{target}", self.found(others.look)[0])


class Vectors(unittest.TestCase):
    """The kit's digests and lines are those of the page."""

    def test_digests(self):
        page = API.read_text("utf-8")
        rows = re.findall(r"^\| `POST (/v1/\w+)` `(\{.*\})`.* \| `([0-9a-f]{64})` \|$", page, re.MULTILINE)
        self.assertEqual(len(rows), 4)
        for path, body, digest in rows:
            self.assertEqual(protocol.digest(path, json.loads(body)), digest)
            self.assertEqual(job.VECTORS[path], digest)
        self.assertIn(job.VECTORS["/v1/readback"], page)

    def test_lines(self):
        lines = re.findall(r"^    (\{\"(?:asked|at)\":.*\})$", API.read_text("utf-8"), re.MULTILINE)
        self.assertEqual(len(lines), 6)
        for line in lines:
            told = json.loads(line)
            self.assertEqual(protocol.log_line(told), line.encode() + b"\n")
            if "asked" in told:
                self.assertEqual(protocol.digest(told["path"], told["asked"]), told["digest"])


if __name__ == "__main__":
    unittest.main()
