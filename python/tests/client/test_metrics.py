"""`wanekupo metrics`: what it writes of a served store, of journals and of the machine, and what it does where a part
of that is missing. The expected values are counted by hand of what was asked; the form is looked at by promtool where
it is on the machine. The names in deploy/prometheus are held to what the command writes.
"""

import contextlib
import json
import os
import re
import shutil
import subprocess
import unittest
from datetime import datetime
from pathlib import Path
from unittest import mock

from support import DIGEST, MAC, MAP, ORDER, ROOT, SITE, Canned, StationCase, bit, life
from commanding import ran

from wanekupo.cli.main import COMMANDS
from wanekupo.metrics.exposition import METRICS, Samples
from wanekupo.metrics.hours import shift_hours
from wanekupo.plant.token import COMMANDS as TOKEN_COMMANDS

DEPLOYED = ROOT / "deploy" / "prometheus"
LOST_MAC = "240ac4000002"
# What other programs write that the rules ask for.
PROBED = ("success", "http_status_code", "duration_seconds", "ssl_earliest_cert_expiry")
OTHERS = {"ALERTS", *(f"probe_{name}" for name in PROBED)}
OTHERS.add("wanekupo_restart_end_timestamp_seconds")  # of python/bin/station-restart
STATUS = "Active connections: 2 \nserver accepts handled requests\n 9 9 %d \nReading: 0 Writing: 1 Waiting: 1 \n"
# A request and its reply, as a journal has them.
ASKED = {"asked": {"chip": MAC, "nr": 7}, "at": "2026-11-29T06:00:00Z", "digest": "0", "path": "/v1/ship"}
OLDER = {**ASKED, "asked": {"chip": "240ac4000003", "nr": 3}}
DONE = {"at": "2026-11-29T06:00:01Z", "nr": 7, "reply": {"chip": MAC, "state": "shipped"}, "status": 200}
STOPPED = {**DONE, "reply": {"error": "wrong_number", "expected": 9, "no": 11}, "status": 409}


def values_of(text):
    """The values by what stands in front of them."""
    lines = [line for line in text.splitlines() if not line.startswith("#")]
    return {name: float(value) for name, _, value in (line.rpartition(" ") for line in lines)}


def stray(station, held):
    """A chip that shows a bit which nobody planned."""
    station.register(LOST_MAC, ORDER["name"], DIGEST, held.read())
    station.plan(LOST_MAC, [bit("JTAG_DISABLE", 0)])
    held.chip.burn(0, 1 << 197)
    return station.read_back(LOST_MAC, held.read())


class Metrics(StationCase):
    over_office = True

    def setUp(self):
        super().setUp()
        self.tokens = self.folder / "tokens"
        self.tokens.mkdir()
        for customer, token in (("acme", "abc"), ("bolt", "hello"), ("@manager", "test")):
            (self.tokens / f"{customer}.token").write_text(token, encoding="ascii")

    def metrics(self, *words, **environment):
        """The values of a run, and what it told."""
        words = ["--url", self.program.url, "--patience", "0", *words]
        status, text, told = ran("metrics", *words, **{"PATH": os.environ["PATH"], **environment})
        self.assertEqual(status, 0, told)
        return values_of(text), told

    def systemctl(self, **properties):
        """A folder whose `systemctl` shows these."""
        folder = self.folder / "bin"
        folder.mkdir(exist_ok=True)
        lines = "".join(f"{name}={value}\n" for name, value in properties.items())
        (folder / "systemctl").write_text(f"#!/bin/sh\ncat <<'END'\n{lines}END\n", encoding="ascii")
        (folder / "systemctl").chmod(0o700)
        return {"PATH": f"{folder}:{os.environ['PATH']}"}

    def test_what_the_server_has(self):
        """Of two customers: one shipped, one lost of an order of two, and an order with six of eight addresses."""
        station = self.station()
        station.make_order(**{**ORDER, "macs": 0})
        station.make_order(**{**ORDER, "name": "o2", "prefix": "B", "macs": 2, "first": 1})
        station.make_order(**{**ORDER, "name": "o3", "prefix": "C", "macs": 1})
        station.import_map(MAP)
        life(station, self.chip())
        self.assertEqual(stray(station, self.chip(LOST_MAC)).outcome, "stray")
        kept = ["--kept", self.folder / "kept.json"]
        words = ["--tokens", self.tokens, "--site", SITE, "--orders", "2", *kept]
        found, told = [self.metrics(*words) for _ in range(2)][1]
        self.assertEqual(told, "")
        of_pool = 'customer="acme",pool="0200000000'
        expected = {
            'wanekupo_devices{customer="acme",state="shipped"}': 1,
            'wanekupo_devices{customer="acme",state="quarantined"}': 1,
            'wanekupo_devices{customer="acme",state="registered"}': 0,
            'wanekupo_devices{customer="bolt",state="shipped"}': 0,
            'wanekupo_given_up_devices_total{customer="acme"}': 1,
            'wanekupo_orders{customer="acme"}': 3,
            'wanekupo_orders_hidden{customer="acme"}': 1,
            'wanekupo_serials_left{customer="acme"}': 5,
            'wanekupo_order_serials_left{customer="acme",order="o1"}': 1,
            'wanekupo_order_quantity{customer="acme",order="o1"}': 2,
            'wanekupo_order_devices{customer="acme",order="o1",state="quarantined"}': 1,
            f'wanekupo_pool_addresses{{{of_pool}10"}}': 4,
            f'wanekupo_pool_free_addresses{{{of_pool}10"}}': 0,
            f'wanekupo_pool_free_addresses{{{of_pool}20"}}': 2,
            f'wanekupo_pool_longest_free_addresses{{{of_pool}20"}}': 2,
            'wanekupo_metrics_success{customer="acme",part="addresses"}': 1,
            'wanekupo_metrics_success{part="site"}': 1,
        }
        self.assertEqual({name: found.get(name) for name in expected}, expected)
        self.assertEqual(len([name for name in found if name.startswith("wanekupo_order_quantity{")]), 2)
        (self.tokens / "acme.token").unlink()
        found, _ = self.metrics(*words)
        self.assertEqual(found['wanekupo_devices{customer="acme",state="shipped"}'], 1)  # by the manager
        self.assertNotIn('wanekupo_order_quantity{customer="acme",order="o1"}', found)

    def test_a_part_that_is_missing(self):
        """It is absent, a metric says so, a sentence too, and the others are there."""
        self.needs_program()
        (self.tokens / "bolt.token").write_text("strange", encoding="ascii")
        found, told = self.metrics("--tokens", self.tokens, "--site", SITE, "--db", self.folder / "none.db")
        missing = {'{part="store"}', '{customer="bolt",part="report"}', '{customer="bolt",part="addresses"}'}
        failed = {name for name, it in found.items() if "metrics_success" in name and not it}
        self.assertEqual({name.removeprefix("wanekupo_metrics_success") for name in failed}, missing)
        self.assertEqual(len(told.splitlines()), 3)
        self.assertIn("report of bolt: The server refused it: the server doesn't know the token (refusal 6", told)
        self.assertIn("addresses of bolt: The orders aren't known, as there is no report.", told)
        self.assertEqual(found['wanekupo_pool_free_addresses{customer="acme",pool="020000000010"}'], 4)
        self.assertFalse([name for name in found if "strange" in name or "store_bytes" in name])
        (self.folder / "none").mkdir()
        found, told = self.metrics("--tokens", self.folder / "none", "--db", self.program.db)
        self.assertIn("has no file *.token", told)
        self.assertEqual(found['wanekupo_metrics_success{part="store"}'], 1)
        self.program.kill()
        found, _ = self.metrics("--tokens", self.tokens, "--db", self.program.db)
        self.assertEqual(found['wanekupo_metrics_success{customer="acme",part="report"}'], 0)
        self.assertEqual(found['wanekupo_metrics_success{part="store"}'], 1)
        self.program.start()

    def test_the_store_and_the_process(self):
        """What a start takes, by the page of the program: the files and 6 MB, or with pages of 4,096 bytes 1.1 times
        these and 11 MB. And what systemd and the kernel say of the process."""
        self.needs_program()
        pid = self.program.process.pid
        subprocess.run(["prlimit", f"--pid={pid}", "--fsize=123456789:"], check=True)
        environment = self.systemctl(MainPID=pid, NRestarts=3, MemoryMax=50_000_000)
        found, told = self.metrics("--unit", "station", "--db", self.program.db, **environment)
        self.assertEqual(told, "")
        sizes = [Path(f"{self.program.db}{end}").stat().st_size for end in ("", "-wal")]
        self.assertEqual(found["wanekupo_start_memory_bytes"], sum(sizes) + 6_000_000)
        self.assertEqual(found['wanekupo_store_bytes{file="books.db-wal"}'], sizes[1])
        self.assertEqual(found["wanekupo_start_memory_limit_bytes"], 50_000_000)
        self.assertEqual(found["wanekupo_store_limit_bytes"], 123_456_789)
        self.assertEqual(found["wanekupo_server_restarts_total"], 3)
        self.assertLess(abs(found["wanekupo_server_start_time_seconds"] - datetime.now().timestamp()), 30)
        old = self.folder / "old.db"
        old.write_bytes(b"SQLite format 3\0" + (4096).to_bytes(2, "big") + bytes(982))
        Path(f"{old}-wal").write_bytes(bytes(1000))
        found, _ = self.metrics("--db", old)
        self.assertEqual(found["wanekupo_start_memory_bytes"], 2000 * 1.1 + 11_000_000)
        found, told = self.metrics("--unit", "station", **self.systemctl(MainPID=0))
        self.assertEqual((found['wanekupo_metrics_success{part="server"}'], told[:7]), (0, "server:"))

    def test_connections_left(self):
        """By what nginx passed on, from the server's start on: another start begins anew, and so does a file that was
        emptied. What nginx refused, as a stranger's, doesn't count."""
        environment = self.systemctl(MainPID=self.program.process.pid, NRestarts=0, MemoryMax="infinity")
        words = ["--unit", "station", "--connections", "1000", "--kept", self.folder / "kept.json"]
        passed = self.folder / "passed"
        words += ["--passed", passed]
        looks = [(100, 100, 0, 900), (140, 150, 0, 860), (140, 20_150, 0, 860), (141, 40_151, 0, 859), (30, 7, 0, 829)]
        looks += [(50, 27, 1, 980), (960, 937, 0, 70), (9000, 9001, 0, 0)]
        for count, seen, is_started, left in looks:
            passed.write_bytes(b"\n" * count)
            if is_started:
                self.program.kill()
                self.program.start()
                environment = self.systemctl(MainPID=self.program.process.pid, NRestarts=0, MemoryMax="infinity")
            url = self.canned(200, "text/plain", STATUS.encode() % seen)
            found, told = self.metrics(*words, "--status", f"{url}/status", **environment)
            self.assertEqual((found["wanekupo_connections_left"], told), (left, ""), seen)
            self.assertEqual(found["wanekupo_http_requests_total"], seen)
        mail = self.enterContext(contextlib.closing(Canned(b"220 mail.example ESMTP\r\n")))
        for url, sentence in (
            (self.canned(200, "text/html", b"<html>"), "isn't nginx's page of its counts"),
            (mail.url, f"What {mail.url} answers is no HTTP. Look at --status"),
        ):
            found, told = self.metrics(*words, "--status", url, **environment)
            self.assertIn(sentence, told)
            self.assertNotIn("wanekupo_connections_left", found)
        passed.unlink()
        url = self.canned(200, "text/plain", STATUS.encode() % 9)
        found, told = self.metrics(*words, "--status", url, **environment)
        self.assertIn(f"requests: nginx doesn't count in {passed} what it passes on. Take today's nginx.conf.", told)
        self.assertNotIn("wanekupo_connections_left", found)

    def test_the_file(self):
        """It is replaced whole, who has the old one reads that, and the exporter's user may read it."""
        file = self.folder / "wanekupo.prom"
        file.write_text("before\n", encoding="ascii")
        with open(file, encoding="ascii") as before:
            umask = os.umask(0o077)
            try:
                self.metrics("--to", file, "--shift", "Mon-Sun 00:00-24:00", "--kept", self.folder / "kept.json")
            finally:
                os.umask(umask)
            self.assertEqual(before.read(), "before\n")
        self.assertEqual(file.stat().st_mode & 0o777, 0o644)
        self.assertEqual((self.folder / "kept.json").stat().st_mode & 0o777, 0o600)
        self.assertEqual(values_of(file.read_text(encoding="ascii"))["wanekupo_in_shift"], 1)
        self.assertEqual(list(self.folder.glob("*.new")), [])

    def test_what_is_kept(self):
        """A damaged file is written anew, with a line; another user's is refused as each file of a station is."""
        kept = self.folder / "kept.json"
        for damaged in ("{", "[]", '{"journals":[]}', 5000 * "["):
            kept.write_text(damaged, encoding="ascii")
            _, told = self.metrics("--kept", kept, "--shift", "Mon-Sun 00:00-24:00")
            self.assertEqual((told, kept.read_text()), (f"{kept} is damaged, and is written anew.\n", "{}"))
        kept.chmod(0o666)
        status, text, told = ran("metrics", "--kept", kept)
        self.assertEqual((status, text), (2, ""))
        self.assertRegex(told, "^Others can write .*kept.json")

    def test_a_backup(self):
        backups = self.folder / "backups"
        backups.mkdir()
        for last, expected in (
            ({"at": "2026-11-29T02:00:07Z", "ok": True, "bytes": 12_000, "said": "fine"}, [1795917607, 1, 12_000]),
            ({"at": "2026-11-29T02:00:07Z", "ok": False, "bytes": 0, "said": "a disk"}, [1795917607, 0, 0]),
            ({"at": "2098-01-25T00:00:00Z", "ok": True, "bytes": 9, "said": "fine"}, [4041446400, 0, 9]),
        ):
            (backups / "last-backup.json").write_text(json.dumps(last), encoding="utf-8")
            found, _ = self.metrics("--backups", backups)
            names = ("timestamp_seconds", "success", "bytes")
            self.assertEqual([found[f"wanekupo_backup_{name}"] for name in names], expected)
        (backups / "last-backup.json").write_text("[]", encoding="utf-8")
        self.assertIn("doesn't say how the last backup ended", self.metrics("--backups", backups)[1])

    def test_a_backup_that_took_no_note(self):
        """The unit failed, as where the disk is full: systemd knows it, whatever the store's user notes."""
        note = {"at": "2026-11-29T02:00:07Z", "ok": True, "bytes": 12_000, "said": "fine"}
        (self.folder / "last-backup.json").write_text(json.dumps(note), encoding="utf-8")
        pid = self.program.process.pid
        for result, expected in (("exit-code", 0), ("timeout", 0), ("success", 1)):
            server = {"MainPID": pid, "NRestarts": 0, "MemoryMax": "infinity"}
            environment = self.systemctl(**server, Result=result)
            found, told = self.metrics("--unit", "station", "--backups", self.folder, **environment)
            self.assertEqual((found["wanekupo_backup_success"], told), (expected, ""), result)


class Journals(StationCase):
    """What is read of journals, and only once."""

    over_office = True

    def setUp(self):
        super().setUp()
        self.journals = self.folder / "journals"
        (self.journals / "acme").mkdir(parents=True)
        self.file = self.journals / "acme" / "a1-2026-11-29.journal"
        self.enterContext(mock.patch("wanekupo.metrics.journal_counts.now_text", return_value="2026-12-01T00:00:00Z"))

    def add(self, *lines, end="\n"):
        with open(self.file, "a", encoding="ascii") as out:
            out.write("\n".join(json.dumps(line) for line in lines) + end)

    def metrics(self):
        words = ["--journals", self.journals, "--kept", self.folder / "kept.json"]
        _, text, told = ran("metrics", *words)
        found = values_of(text)
        names = ['lost_chips_total{reason="stray",seat="a1"}', 'seat_out_of_step{seat="a1"}']
        names.append('seat_unanswered_timestamp_seconds{seat="a1"}')
        return [found.get(f"wanekupo_{name}") for name in names], told

    def test_in_turn(self):
        """By lines that come one after another, as they are shipped."""
        lost = {**DONE, "reply": {"outcome": "stray", "rest": {}, "state": "quarantined"}}
        six = datetime.fromisoformat("2026-11-29T06:00:00+00:00").timestamp()
        for minute, lines, expected in (
            (1, [ASKED, lost], [1, 0, None]),
            (1, [ASKED, lost], [1, 0, None]),  # a crash had it sent and answered again
            (2, [ASKED], [1, 0, six + 120]),
            (3, [ASKED], [1, 0, six + 120]),  # it is sent again
            (4, [STOPPED], [1, 1, None]),
            (5, [ASKED, DONE], [1, 0, None]),
            (6, [ASKED, STOPPED, {"at": "", "resynchronized": 9}], [1, 0, None]),
            (7, [ASKED, STOPPED], [1, 1, None]),
            (0, [OLDER, lost], [2, 1, None]),  # an older journal comes late: it only counts
            (8, [ASKED, DONE], [2, 0, None]),
        ):
            self.add(*({**line, "at": f"2026-11-29T06:{minute:02}:00Z"} for line in lines))
            self.assertEqual(self.metrics(), (expected, ""), minute)
        self.file.rename(self.folder / "archived")
        self.assertIn("No journal in", self.metrics()[1])
        self.file.with_name("a1-2026-11-30.journal").write_text("", encoding="ascii")
        self.assertEqual(self.metrics()[0], [2, 0, None])

    def test_lines_that_are_none(self):
        """A last line that isn't whole is read later; one that is none is told, and other journals count."""
        self.add(ASKED)
        self.add(STOPPED, end="")
        self.assertEqual(self.metrics()[0][1], 0)
        self.add(end="\n")
        self.assertEqual(self.metrics()[0][1], 1)
        broken = self.file.with_name("b1.journal")
        broken.with_name("c1.journal").symlink_to(self.file)
        self.assertIn("c1.journal is a link, and isn't followed", self.metrics()[1])
        broken.write_text('{"at": "2026-11-29T06:00:00Z", "resynchronized": 4}\nnone\n', encoding="ascii")
        for _ in range(2):
            found, told = self.metrics()
            self.assertEqual(found[1], 1)
            self.assertIn(f"line behind byte 52 of {broken} is no line of a journal. Look at it in a copy", told)

    def test_folders_each_by_itself(self):
        """One that can't be read has a sample of its own, and each other one counts: folders in each other, as a
        station's key can ship them, too many files, and one that is another user's."""
        self.add(ASKED, STOPPED)
        deep = self.journals / "bolt"
        deep.mkdir()
        with contextlib.chdir(deep):
            for _ in range(1200):
                os.mkdir("d")
                os.chdir("d")
        self.addCleanup(subprocess.run, ["rm", "-r", deep], check=True)
        (self.journals / "cole").mkdir()
        (self.journals / "cole" / "c1.journal").write_text("none\n", encoding="ascii")
        (self.journals / "many").mkdir()
        for number in range(6):
            (self.journals / "many" / f"{number}.journal").touch()
        with mock.patch("wanekupo.seat.journal_lines.MOST_FILES", 5):
            _, text, told = ran("metrics", "--journals", self.journals)
        found, name = values_of(text), "wanekupo_metrics_success{folder"
        for folder, is_read in (("acme", 1), ("bolt", 0), ("cole", 0), ("many", 0)):
            self.assertEqual(found[f'{name}="{folder}",part="journals"}}'], is_read, folder)
        self.assertEqual(found['wanekupo_seat_out_of_step{seat="a1"}'], 1)
        for words in ("bolt/d/d has a folder in it", "cole/c1.journal is no line", "many has more than 5 files"):
            self.assertIn(words, told)

    def test_a_clock_that_is_ahead(self):
        """A line of a time to come doesn't keep the later ones from counting."""
        self.add({**ASKED, "at": "2036-01-01T00:00:00Z"}, {**DONE, "at": "2036-01-01T00:00:01Z"})
        self.assertEqual(self.metrics(), ([0, 0, None], ""))
        with mock.patch("wanekupo.metrics.journal_counts.now_text", return_value="2036-01-02T00:00:00Z"):
            self.add(*({**line, "at": "2036-01-01T12:00:00Z"} for line in (ASKED, STOPPED)))
            self.assertEqual(self.metrics(), ([0, 1, None], ""))

    def test_a_folder_that_is_away(self):
        """For a while, as one that another machine lends: what comes back counts once."""
        lost = {**DONE, "reply": {"outcome": "stray", "rest": {}, "state": "quarantined"}}
        self.add(ASKED, lost)
        other = self.journals / "bolt" / "b1.journal"
        other.parent.mkdir()
        other.write_text("", encoding="ascii")
        self.assertEqual(self.metrics()[0][0], 1)
        self.file.parent.rename(self.folder / "away")
        self.assertEqual(self.metrics()[0][0], 1)
        (self.folder / "away").rename(self.file.parent)
        self.assertEqual(self.metrics()[0][0], 1)

    def test_a_folder_has_its_seats(self):
        """By root's file: what another folder says of a seat counts for nobody, and takes no place of a seat."""
        folders = self.folder / "journals.toml"
        folders.write_text('[folders]\nacme = ["a1"]\nbolt = ["b1", "b2"]\n', encoding="ascii")
        folders.chmod(0o600)
        other = self.journals / "bolt" / "1" / "b1-2026-11-29.journal"
        other.parent.mkdir(parents=True)
        other.write_text("".join(json.dumps({**it, "seat": "b1"}) + "\n" for it in (ASKED, STOPPED)), encoding="ascii")
        forged = self.file.with_name("zz.journal")
        made_up = {"journals": {"seats": {"made-up": {"lost": {}, "is_out": True, "asked": None, "at": ""}}}}
        kept = self.folder / "kept.json"
        kept.touch(0o600)
        for seat, at in (("b1", "2026-11-29T23:00:00Z"), ("made-up", ASKED["at"]), ("x" * 9000, ASKED["at"])):
            lines = [{**ASKED, "seat": seat, "at": at}, {**DONE, "seat": seat, "at": at}]
            forged.write_text("".join(json.dumps(it) + "\n" for it in lines), encoding="ascii")
            kept.write_text(json.dumps(made_up), encoding="ascii")
            for _ in range(2):  # it is told until it is away
                _, text, told = ran("metrics", "--journals", self.journals, "--kept", kept, "--folders", folders)
                found = values_of(text)
                self.assertEqual(found['wanekupo_seat_out_of_step{seat="b1"}'], 1)
                self.assertEqual(found['wanekupo_metrics_success{part="journals"}'], 0)
                self.assertNotIn("made-up", text)
                self.assertIn(f"he line behind byte 0 of {forged} is of the seat {seat[:80]}", told)
                self.assertLess(len(told), 500)
        forged.unlink()
        self.file = self.file.with_name("2026-11-30.journal")  # neither it nor its line names the folder's only seat
        self.add(STOPPED)
        for places in ([self.journals], [self.journals / "acme", self.journals / "bolt"]):
            given = [word for place in places for word in ("--journals", place)]
            _, text, told = ran("metrics", *given, "--folders", folders)
            self.assertEqual((values_of(text)['wanekupo_seat_out_of_step{seat="a1"}'], told), (1, ""))
        folders.chmod(0o666)
        _, text, told = ran("metrics", "--journals", self.journals, "--folders", folders)
        self.assertIn("others may write it", told)

    def test_a_name_that_is_none(self):
        """A seat's name becomes a label: one that no server gives is that of its file."""
        self.add({**ASKED, "seat": 4000 * "x"}, {**STOPPED, "seat": "a1"})
        self.assertEqual(self.metrics()[0][1], 1)
        self.assertEqual(list(json.loads((self.folder / "kept.json").read_text())["journals"]["seats"]), ["a1"])

    def test_by_a_station(self):
        """A seat that another one used, by its own journal."""
        station = self.station(journal=self.journal(self.file))
        station.make_order(**ORDER)
        self.assertEqual(self.metrics()[0], [0, 0, None])
        with self.station(file="other.json") as other:
            other.import_map(MAP)
        with self.assertRaisesRegex(Exception, "other_body"):
            station.make_order(**{**ORDER, "name": "o2", "prefix": "B"})
        self.assertEqual(self.metrics()[0], [0, 1, None])
        station.resynchronize()
        self.assertEqual(self.metrics()[0], [0, 0, None])


class Form(unittest.TestCase):
    def test_names(self):
        """Each metric that a rule asks for is one that somebody writes; each alarm has its row."""
        rules = (DEPLOYED / "rules.yml").read_text(encoding="utf-8")
        asked = re.findall(r"expr: (?:\|\n)?((?:.|\n)+?)\n +(?:for|labels):", rules)
        named = {name for it in asked for name in re.findall(r"\b(?:wanekupo|probe)_\w+|\bALERTS\b", it)}
        self.assertEqual(named - set(METRICS) - OTHERS, set())
        self.assertGreater(len(named), 20)
        restart = (ROOT / "python/wanekupo/plant/restart.py").read_text(encoding="utf-8")
        self.assertIn("wanekupo_restart_end_timestamp_seconds", restart)
        pages = re.findall(r'page: "\{\{ \$externalLabels.docs \}\}([^#"]+)#([^"]+)"', rules)
        self.assertEqual(len(pages), rules.count("- alert:"))
        for page, section in pages:
            rows = re.findall(r'(?m)^\| <a id="([^"]+)"></a>(.+?) \| `', (ROOT / page).read_text(encoding="utf-8"))
            self.assertIn((section, section.replace("-", " ").capitalize()), rows)

    def test_cards(self):
        """A card has nine points at most and then a command, alone, that is there."""
        cards = (ROOT / "docs/operate/night.md").read_text(encoding="utf-8").split("\n## ")[1:]
        for card in cards:
            name, _, body = card.partition("\n")
            *points, command = body.strip().split("\n\n")
            numbers = re.findall(r"(?m)^(\d+)\. ", "\n".join(points))
            self.assertEqual(numbers, [str(place + 1) for place in range(len(numbers))], name)
            self.assertTrue(len(points) == 1 and 5 <= len(numbers) <= 9 and "\n" not in command, name)
            word, named = command.split()[:2]
            if word == "wanekupo":
                self.assertIn(named, [row.name for row in COMMANDS], name)
            elif word == "station-token":
                self.assertIn(named, TOKEN_COMMANDS, name)
        self.assertLessEqual({"Server away", "Chip red", "Token leaked"}, {it.partition("\n")[0] for it in cards})

    def test_labels(self):
        r"""As the format has them: \\, \" and \n, and what isn't ASCII written out."""
        samples = Samples()
        samples.add("wanekupo_seat_out_of_step", True, seat='a"b\\c\nd\u017f')
        line = samples.text().splitlines()[-1]
        self.assertEqual(line, r'wanekupo_seat_out_of_step{seat="a\"b\\c\nd\\u017f"} 1')
        samples.add("wanekupo_metrics_duration_seconds", 0.25)
        samples.add("wanekupo_store_disk_bytes", 2**52)
        self.assertIn("\nwanekupo_store_disk_bytes 4503599627370496\n", samples.text())
        with self.assertRaises(ValueError):
            samples.add("wanekupo_devises", 1)
        if shutil.which("promtool"):
            words = ["promtool", "check", "metrics"]
            done = subprocess.run(words, input=samples.text(), capture_output=True, text=True, check=False)
            self.assertEqual((done.returncode, done.stdout + done.stderr), (0, ""))

    def test_hours(self):
        """2026-11-27 is a Friday."""
        for hours, moment, is_in in (
            ("Mon-Fri 06:00-14:00", "2026-11-27T06:00", True),
            ("Mon-Fri 06:00-14:00", "2026-11-27T05:59", False),
            ("Mon-Fri 06:00-14:00", "2026-11-27T14:00", False),
            ("Mon-Fri 06:00-14:00", "2026-11-28T08:00", False),
            ("Sat 06:00-24:00", "2026-11-28T23:59", True),
            ("Fri-Mon 08:00-09:00", "2026-11-29T08:30", True),
            ("Fri-Mon 08:00-09:00", "2026-11-25T08:30", False),
            ("Fri 22:00-06:00", "2026-11-27T23:00", True),
            ("Fri 22:00-06:00", "2026-11-28T05:59", True),
            ("Fri 22:00-06:00", "2026-11-27T05:59", False),
            ("Sun 22:00-06:00", "2026-11-30T03:00", True),
        ):
            self.assertEqual(shift_hours(hours).has(datetime.fromisoformat(moment)), is_in, (hours, moment))
        for hours in ("Fri 6-14", "Foo 06:00-14:00", "Mon-Fri 06:00-24:30", "", "Mon,Tue 06:00-14:00"):
            status, _, told = ran("metrics", "--shift", hours)
            self.assertEqual(status, 2)
            self.assertRegex(told, "no hours like 'Mon-Fri 06:00-14:00'|ends behind 24:00")
