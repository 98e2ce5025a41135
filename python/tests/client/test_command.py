"""The command `wanekupo`: what it shows without a state file, what it changes, what it says where something is wrong.

The replies that it prints are compared with those that the server gives to plain requests, keys with openssl's.
"""

import contextlib
import hashlib
import json
import os
import pty
import re
import shlex
import subprocess
import sys
import tomllib

from commanding import CLIENT, NEEDS_KEYS, OTHER_MAC, CommandCase, digest_by_openssl, made_key
from simulated_chip import FAMILIES, chip_class
from support import DIGEST, HOST, MAC, MAP, ORDER, ROOT, SIMULATED, SITE, Canned, free_port

from wanekupo.cli.main import COMMANDS, client_parser
from wanekupo.common.errors import OutOfStep, Refused
from wanekupo.common.sentences import REFUSALS, sentence_of

# What no person at a bench reads: names of classes, numbers of errors, and Python's way of writing things.
NO_SENTENCE = re.compile(r"[A-Za-z]+(Error|Exception|Warning)\b|Errno|Traceback|\bNone\b|Bad[A-Z]|NoReply|UnderWay")


class Looking(CommandCase):
    def test_it_wants_no_state_file(self):
        """While a station runs with the state file and the journal that the configuration names, and beside it."""
        self.made()
        with self.station() as station:
            station.resynchronize()
            journal = self.journal()
            station.identify(MAC, b"1")
            before = sorted(self.folder.iterdir())
            for words, target in (
                (["device", MAC], f"/v1/device?chip={MAC}"),
                (["ledger", MAC], f"/v1/ledger?chip={MAC}"),
                (["order", "o1"], "/v1/order?name=o1"),
                (["identity", MAC], f"/v1/identity?chip={MAC}"),
            ):
                status, out, err = self.ran(*words)
                self.assertEqual((status, json.loads(out), err), (0, self.asked("GET", target)[1], ""), words)
            self.assertEqual(self.ran("report"), (0, self.asked("GET", "/v1/report")[1], ""))
            (self.folder / "office.token").write_text("test", encoding="ascii")
            office = self.asked("GET", "/v1/site/report", token="test")[1]
            self.assertEqual(self.ran("site-report", "--token", self.folder / "office.token"), (0, office, ""))
            (self.folder / "office.token").unlink()
            self.assertEqual(sorted(self.folder.iterdir()), before)
            journal.close()

    def test_filters(self):
        self.made()
        with self.station(file="maker.json") as station:
            station.make_order(**{**ORDER, "name": "o2", "prefix": "B", "macs": 0})
            station.register("240ac4000003", "o2", DIGEST, self.chip("240ac4000003").read())
        listed = self.asked("GET", "/v1/devices?after=")[1]["devices"]
        self.assertEqual(len(listed), 3)
        for words, wanted in (
            ([], lambda it: True),
            (["--order", "o1"], lambda it: it["order"] == "o1"),
            (["--state", "registered"], lambda it: it["state"] == "registered"),
            (["--order", "o1", "--state", "registered"], lambda it: it["chip"] == OTHER_MAC),
            (["--order", "o1", "--after", MAC], lambda it: it["chip"] == OTHER_MAC),
            (["--state", "shipped"], lambda it: False),
        ):
            expected = [it for it in listed if wanted(it)]
            status, out, err = self.ran("devices", *words)
            chips = [line.split(",")[0] for line in out.splitlines()]
            self.assertEqual((status, chips, err), (0, [it["chip"] for it in expected], ""), words)
            status, out, err = self.ran("devices", "--json", *words)
            self.assertEqual((status, list(map(json.loads, out.splitlines())), err), (0, expected, ""), words)
        head, *lines = self.asked("GET", "/v1/report")[1].splitlines()
        self.assertEqual(self.ran("report", "--order", "o2"), (0, f"{head}\n{lines[1]}\n", ""))
        status, out, _ = self.ran("report", "--json")
        first = dict(zip(head.split(","), ["o1", *map(int, lines[0].split(",")[1:])]))
        self.assertEqual((status, json.loads(out.splitlines()[0])), (0, first))

    def test_a_reader_that_has_enough(self):
        """As `wanekupo devices | head -1`: quiet, whether the reader went before the first line or between."""
        device = {"chip": MAC, "order": "o1", "state": "shipped", "reason": None, "serial": "A998"}
        page = json.dumps({"devices": 5000 * [device], "next": None}).encode()
        canned = self.enterContext(contextlib.closing(Canned.page(200, "application/json", page)))
        words = [sys.executable, "-B", "-m", "wanekupo", "devices", "--url", canned.url]
        environment = {**os.environ, "HOME": str(self.folder), "PYTHONPATH": str(CLIENT)}
        for lines in (0, 1):
            done = subprocess.Popen(words, stdout=subprocess.PIPE, stderr=subprocess.PIPE, env=environment)
            for _ in range(lines):
                self.assertEqual(done.stdout.readline(), f"{MAC},o1,shipped,,A998\n".encode())
            done.stdout.close()
            told = done.stderr.read()
            done.stderr.close()
            self.assertEqual((done.wait(), told), (0, b""))

    def test_the_version(self):
        project = tomllib.loads((CLIENT / "pyproject.toml").read_text("utf-8"))["project"]
        self.assertEqual(self.ran("--version"), (0, f"wanekupo {project['version']}\n", ""))


class Words(CommandCase):
    """Each command that changes something, in the order of a chip's life, and what is said where one isn't done."""

    def made_by(self, words, expected):
        """A command, and members of what it prints."""
        status, out, err = self.ran(*words)
        self.assertEqual((status, err), (0, ""), words)
        found = json.loads(out)
        self.assertEqual({name: found[name] for name in expected}, expected)

    @NEEDS_KEYS
    def test_a_life(self):
        (self.folder / "map").write_text(MAP, encoding="utf-8")
        (self.folder / "dump").write_text(self.chip(file=self.folder / "chip").chip.dump(), encoding="ascii")
        tool = f"{sys.executable} {SIMULATED} --path-efuse-file {self.folder / 'chip'}"
        flash_key = self.folder / "flash.key"
        key = f"BLOCK1={flash_key}:flash_encryption"
        order = "make-order o1 acme-ca A --width 3 --first 998 --quantity 2 --macs 1 --yes".split()
        self.made_by(order, {"next": "A998", "mac": "020000000010"})
        self.made_by(["map", self.folder / "map"], {"map": DIGEST})
        self.made_by(["register", "o1", DIGEST, self.folder / "dump"], {"state": "registered"})
        self.made_by(["plan", MAC, "--bit", "JTAG_DISABLE=0", "--key", key], {"state": "awaiting1"})
        burns = [f"burn_key --no-protect-key flash_encryption {flash_key}", "burn_bit BLOCK0 198"]
        shown = self.ran("burn", MAC, "--tool", tool, "--key", key)[1].splitlines()
        self.assertEqual(shown, [f"{tool} --chip esp32 {words}" for words in burns])
        self.made_by(["settle", MAC, "--tool", tool, "--key", key], {"state": "settled"})
        made_key(self.folder, "chip")
        self.made_by(["identity", MAC, "--pem", self.folder / "chip.pem"], {"serial": "A998", "mac": "020000000010"})
        self.made_by(["finish"], {"path": "/v1/identity"})
        self.made_by(["ship", MAC], {"state": "shipped"})
        self.made_by(["number"], {"expected": 8, "own": 8})
        status, out, _ = self.ran("issued", self.folder / "a1.journal")
        self.assertEqual((status, out.split(",")[-3:-1]), (0, ["A998", digest_by_openssl(self.folder, "chip")]))

    ORDER_OF_ONE = "make-order {} acme-ca {} --width 3 --first 1 --quantity 1"

    def test_a_beginning(self):
        """One that is to come, or none, is told, and a script goes on; --yes and a beginning that was say nothing."""
        for place, (more, told) in enumerate(
            (
                ("", "Without --not-before these records have no beginning, for good"),
                ("--not-before 20990101000000Z", "no certificate of theirs is valid before"),
                ("--not-before 20260101000000Z", None),
                ("--yes", None),
                ("--not-before 20990101000000Z --yes", None),
            )
        ):
            with self.subTest(more):
                words = self.ORDER_OF_ONE.format(f"o{place}", "ABCDE"[place])
                status, out, err = self.ran(*words.split(), *more.split())
                self.assertEqual((status, json.loads(out)["name"], bool(err)), (0, f"o{place}", bool(told)), err)
                self.assertEqual(told or "", told if told and told in err else "", err)
        status, _, err = self.ran(*self.ORDER_OF_ONE.format("o9", "F").split(), "--not-before", "2099")
        self.assertEqual((status, "(refusal 42" in err), (1, True), err)

    def on_terminal(self, answer, *words):
        """The status of the command on a terminal, its output, and what was shown, where a question gets an answer."""
        ours, terminal = pty.openpty()
        streams = {"stdin": terminal, "stderr": terminal, "stdout": subprocess.PIPE}
        environment = {**os.environ, "HOME": str(self.folder)}
        process = subprocess.Popen([sys.executable, "-m", "wanekupo", *words], cwd=CLIENT, env=environment, **streams)
        os.close(terminal)
        shown = b""
        try:
            with contextlib.suppress(OSError):  # the other side is closed once it ended
                while b"Type yes: " not in shown:
                    shown += os.read(ours, 4096)
                os.write(ours, f"{answer}\n".encode())
            out = process.communicate(timeout=30)[0]
            with contextlib.suppress(OSError):
                shown += os.read(ours, 4096)
        finally:
            os.close(ours)
            process.kill()
        return process.returncode, out.decode(), shown.decode()

    def test_a_question(self):
        """On a terminal a person is asked once, and only by yes an order is made."""
        for answer, status in (("no", 2), ("", 2), ("yes", 0)):
            found, out, shown = self.on_terminal(answer, *self.ORDER_OF_ONE.format("o1", "A").split())
            self.assertIn("Make o1, 1 serial numbers from A001 on?", shown)
            self.assertEqual((found, bool(out)), (status, status == 0), shown)
        self.assertEqual(self.ran("order", "o1")[0], 0)

    def test_the_question_of_scrapping(self):
        """On a terminal a chip is scrapped by yes or --yes alone: nobody can take that back."""
        self.made()
        self.taken_over()
        for answer in ("no", "", "y"):
            status, out, shown = self.on_terminal(answer, "scrap", MAC)
            self.assertEqual((status, out, f"Scrap the chip {MAC} for good" in shown), (2, "", True), shown)
            self.assertIn("No chip was scrapped.", shown)
        self.assertNotEqual(json.loads(self.ran("device", MAC)[1])["state"], "scrapped")
        status, out, shown = self.on_terminal("yes", "scrap", MAC)
        self.assertEqual((status, json.loads(out)), (0, {"chip": MAC, "state": "scrapped"}), shown)
        status, out, shown = self.on_terminal("no", "scrap", OTHER_MAC, "--yes")
        self.assertEqual((status, json.loads(out), shown), (0, {"chip": OTHER_MAC, "state": "scrapped"}, ""))

    @NEEDS_KEYS
    def test_a_chip_of_another_family(self):
        """An ESP32-S3 from its dump to its record; under another family's name it isn't registered. And a part."""
        file, flash_key = self.folder / "chip", self.folder / "flash.key"
        chip_class("esp32s3")(bytes.fromhex(MAC), file)
        tool = f"{sys.executable} {SIMULATED} --path-efuse-file {file}"
        dump = self.folder / "dump"
        words = [*tool.split(), "--chip", "esp32s3", "dump"]
        dump.write_text(subprocess.run(words, capture_output=True, check=True, text=True).stdout, encoding="ascii")
        self.made_by("make-order o1 acme-ca A --width 3 --first 998 --quantity 2 --yes".split(), {"next": "A998"})
        digests = {}
        for name in ("esp32s3", "none"):
            text = (ROOT / f"python/wanekupo/chips/families/{name}/map.toml").read_bytes()
            digests[name] = hashlib.sha256(text).hexdigest()
            self.made_by(["map", ROOT / f"python/wanekupo/chips/families/{name}/map.toml"], {"map": digests[name]})
        status, _, err = self.ran("register", "o1", digests["esp32s3"], dump, "--family", "esp32")
        self.assertEqual((status, "esp32s3" in err), (2, True), err)
        family, key = ["--family", "esp32s3"], ["--key", f"BLOCK_KEY0={flash_key}:XTS_AES_128_KEY"]
        self.made_by(["register", "o1", digests["esp32s3"], dump, *family], {"state": "registered"})
        self.made_by(["plan", MAC, *key, *family, "--rlock", "BLOCK_KEY0"], {"state": "awaiting1"})
        self.made_by(["settle", MAC, "--tool", tool, *key, *family], {"state": "settled"})
        made_key(self.folder, "chip")
        self.made_by(["identity", MAC, "--der", self.folder / "chip.der"], {"serial": "A998"})
        self.made_by(["register", "o1", digests["none"], "--part", OTHER_MAC], {"chip": OTHER_MAC})
        self.made_by(["plan", OTHER_MAC], {"state": "settled"})
        self.assertEqual(self.ran("register", "o1", digests["none"])[0], 2)

    def assert_sentences(self, *cases):
        """Each case's words end with its status, and say what happened and what to do, with no name of a class."""
        for words, status, told in cases:
            found, out, err = self.ran(*words)
            self.assertEqual((found, told.lower() in err.lower()), (status, True), (words, err))
            self.assertNotRegex(err, NO_SENTENCE)
            self.assertNotIn("\x1b", err)
            self.assertRegex(err, r"^$|^[^\n]+[.]\n$", words)

    def test_what_the_server_refuses_is_a_sentence(self):
        self.made()
        self.taken_over()
        (self.folder / "text").write_text("no map\n", encoding="ascii")
        self.assert_sentences(
            (["ship", MAC], 1, "the device's state doesn't allow it"),
            (["device", "240ac4000009"], 1, "no device of this chip"),
            (["order", "o9"], 1, "no order of this name"),
            (["map", self.folder / "text"], 1, "no fuse map"),
            (["ledger", "A001"], 1, "by its 12 digits: wanekupo devices shows which has a serial number."),
        )

    def test_no_reply_is_a_sentence(self):
        nobody = ["--url", f"http://{HOST}:{free_port()}", "--patience", "0"]
        page = ["--url", self.canned(502, "text/html", b"<html>\x1b[2J"), "--patience", "0"]
        self.assert_sentences(
            ([*nobody, "report"], 3, "no reply"),
            ([*nobody, "number"], 3, "no reply"),
            ([*page, "report"], 3, "another's reply"),
        )

    def test_settings_that_are_wrong_are_sentences(self):
        (self.folder / "text").write_text("no map\n", encoding="ascii")
        (self.folder / "open.token").write_text("abc\n", encoding="ascii")
        (self.folder / "open.token").chmod(0o644)
        self.assert_sentences(
            (["--token", self.folder / "text", "report"], 2, "visible ASCII"),
            (["--token", self.folder / "none", "report"], 2, "there is no token file"),
            (["--config", self.folder / "none", "report"], 2, "no configuration file"),
            (["--url", "http://192.0.2.1", "report"], 2, "unencrypted"),
            (["--url", "ftp://127.0.0.1", "report"], 2, "neither http nor https"),
            (["--url", "station.example", "report"], 2, "write it as https://station.example:8443"),
            (["--url", "http://127.0.0.1:x", "report"], 2, "is no number up to 65535"),
            (["--token", self.folder / "open.token", "report"], 2, f"chmod 600 {self.folder / 'open.token'}"),
        )

    def test_files_that_are_wrong_are_sentences(self):
        self.made()
        self.taken_over()
        (self.folder / "notes").write_bytes(b"\xff\xfe\0")
        (self.folder / "text").write_text("no map\n", encoding="ascii")
        self.assert_sentences(
            (["map", self.folder / "none"], 2, "no file or command"),
            (["map", self.folder / "none" / "map"], 2, f"there is no folder {self.folder / 'none'}."),
            (["seal", "--verify", self.folder / "none"], 2, f"there is no folder {self.folder / 'none'}"),
            (["seal", "--verify", "000002.rows", "000001.rows"], 2, "the earlier one first: 000001.rows 000002.rows"),
            ([], 2, "there are run, order, device"),
            (["map", self.folder / "notes"], 2, "is no text"),
            (["register", "o1", DIGEST, self.folder / "text"], 2, "dump"),
            (["import", "acme-ca", self.folder / "text"], 2, "serial,key_sha256"),
            (["identity", MAC, "--pem", self.folder / "text"], 2, "no public key"),
            (["identity", MAC, "--csr", self.folder / "text"], 2, "spool"),
            (["issued", self.folder / "text"], 2, "no line of a journal"),
            (["issued", self.folder / ".config"], 2, "has no journal"),
        )

    def test_the_help_of_each_command(self):
        """It has an example that the command takes, and not the settings, which stand in the help of all."""
        self.assertIn("--insecure", self.ran("--help")[1])
        for row in COMMANDS:
            text = " ".join(self.ran(row.name, "--help")[1].split())
            example = re.search(r"Example: wanekupo (.*?)\. The settings", text)[1]
            self.assertEqual(client_parser().parse_args(shlex.split(example)).command, row.name)
            self.assertNotIn("--insecure", text)

    def test_a_map_by_its_name(self):
        """Of the folder first, as a recipe finds it, and then of those that come with the program."""
        for name, file in (
            ("none.toml", self.folder / "none.toml"),
            ("esp32s3.toml", FAMILIES / "esp32s3/map.toml"),
            ("none.toml", FAMILIES / "none/map.toml"),
        ):
            with self.subTest(name, file=file), contextlib.chdir(self.folder):
                if file.parent == self.folder:
                    file.write_text(MAP, encoding="utf-8")
                digest = hashlib.sha256(file.read_bytes()).hexdigest()
                self.made_by(["map", name], {"map": digest})
                (self.folder / name).unlink(missing_ok=True)

    def test_each_refusal_has_its_sentence(self):
        """Those of the table in the API, but for 11 and 12, at which the seat stops, and 50, which is sent again."""
        page = (ROOT / "docs" / "integrate" / "api.md").read_text(encoding="utf-8")
        table = dict(re.findall(r"^\| (\d+) \| (\w+) \| \d+ \|", page, re.MULTILINE))
        self.assertEqual(set(map(int, table)) - {11, 12, 50}, set(REFUSALS))
        for number, name in table.items():
            if int(number) in REFUSALS:
                told = sentence_of(Refused(400, {"no": int(number), "error": name}))
                self.assertRegex(told, rf"^The server refused it: .+ \(refusal {number}, {name}\)[.] [A-Zs].+[.]$")

    def test_no_option_has_two_meanings(self):
        """An option of one command is refused by the others, and none may be cut short, or lack where it is needed."""
        self.assertIn("required: --ca-folder\n", self.ran("certify", "spool")[2])
        for words in ("--state a1.json devices", "devices --stat shipped", f"ship {MAC} --order o1"):
            status, out, err = self.ran(*words.split())
            self.assertEqual((status, out), (2, ""), words)
            self.assertIn("wanekupo: error: ", err)

    def test_an_older_store_and_a_foreign_hand(self):
        """11 and 12 stop the seat with status 5; at a lower number nobody is sent to --resynchronize."""
        self.made()
        self.program.copied(self.folder / "backup")
        self.assertEqual(self.ran("number", "--resynchronize")[0], 0)
        self.assertEqual(self.ran("scrap", MAC)[0], 0)
        self.program.restored(self.folder / "backup")
        status, out, err = self.ran("scrap", OTHER_MAC)
        self.assertEqual((status, out, "older" in err, "--resynchronize" in err), (5, "", True, False), err)
        self.assertEqual(self.ran("number", "--resynchronize")[0], 0)
        with self.station(file="thief.json") as thief:
            thief.import_map(MAP)
        status, out, err = self.ran("scrap", OTHER_MAC)
        self.assertEqual((status, out, "older" in err, "--resynchronize" in err), (5, "", False, True), err)


class SecondSeat(CommandCase):
    """A bench with its state file, and an office that scraps chips beside it."""

    def site(self):
        digest = hashlib.sha256(b"second").hexdigest()
        head = '[[customer.seat]]\nname = "a1"\n'
        more = f'[[customer.seat]]\nname = "a2"\ntoken = "{digest}"\n'
        file = self.folder / "two.toml"
        file.write_text(SITE.read_text(encoding="utf-8").replace(head, more + head), encoding="utf-8")
        return file

    def setUp(self):
        super().setUp()
        (self.folder / "office.token").write_text("second\n", encoding="ascii")
        self.made()
        self.own = ["--state-file", self.folder / "office.json", "--journal", self.folder / "office.journal"]

    def test_a_seat_of_its_own(self):
        """It scraps a chip without a warning, has that in its log, and the bench goes on."""
        token = ["--token", self.folder / "office.token"]
        status, out, err = self.ran("scrap", MAC, *self.own, *token)
        self.assertEqual((status, json.loads(out), err), (0, {"chip": MAC, "state": "scrapped"}, ""))
        self.assertIn(MAC, (self.folder / "office.journal").read_text(encoding="utf-8"))
        with self.station(file="maker.json") as bench:
            bench.plan(OTHER_MAC, [])

    def test_the_benchs_seat(self):
        """A new state file of a seat that asked before: a warning at the first request, which is done, and the bench is
        out of step. Each of the five requests that `made` sends has a number, so the next one is 6."""
        status, out, err = self.ran("scrap", MAC, *self.own)
        self.assertEqual((status, json.loads(out)), (0, {"chip": MAC, "state": "scrapped"}))
        self.assertRegex(err, r"^warning: The state file \S+/office.json is new, .+ its number is 6[.] .+[.]\n$")
        self.assertEqual(self.ran("scrap", OTHER_MAC, *self.own)[::2], (0, ""))
        with self.station(file="maker.json") as bench, self.assertRaises(OutOfStep):
            bench.plan(OTHER_MAC, [])
