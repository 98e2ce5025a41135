"""Servers that mean ill: what they say is no command to a terminal, no formula in a sheet, and doesn't fill the memory.

A text is plain here by the categories of Unicode (its section 4.5), and not by the client's own rule.
"""

import csv
import json
import os
import subprocess
import sys
import time
import unicodedata

from support import DIGEST, MAC, ORDER, StationCase

from commanding import CLIENT, ran

from wanekupo.common.errors import Refused, TooLong, UnderWay
from wanekupo.chips.espefuse import NoKey, burn_commands
from wanekupo.chips.families import dump_of, family_of
from wanekupo.seat.replies import Work
from wanekupo.seat.station import Station
from wanekupo.common.texts import shown

# A title of the window (OSC), a screen that is wiped (CSI), the same by a C1 byte, a deletion, and letters from right
# to left: RIGHT-TO-LEFT OVERRIDE and RIGHT-TO-LEFT ISOLATE.
TITLE, WIPED, C1, DELETED, TURNED = "\x1b]0;owned\x07", "\x1b[2J", "\x9b2J", "\x7f", "\u202egpj.exe\u2067"
TEXTS = [TITLE, WIPED, C1, DELETED, TURNED, "\rrefused", "\ud800"]
HEAD = "order,quantity,registered,planned,settled,identified,shipped,quarantined,scrapped,serials_left\n"
COUNTS = ",2,0,0,0,0,0,0,0,2\n"
JSON, CSV = "application/json", "text/csv"
MOST = 4 * 1024 * 1024


def is_plain(text):
    """Whether no character is a control, a format character, a surrogate, a line or a paragraph separator."""
    return all(it == "\n" or unicodedata.category(it) not in ("Cc", "Cf", "Cs", "Zl", "Zp") for it in text)


class Hostile(StationCase):
    def ran_at(self, url, *words):
        """A command whose server is another; what it prints and tells is plain."""
        (self.folder / "a1.token").write_text("abc\n", encoding="ascii")
        common = ["--url", url, "--token", self.folder / "a1.token", "--state-file", self.folder / "a1.json"]
        status, out, err = ran("--patience", 0, *common, *words)
        self.assertTrue(is_plain(out) and is_plain(err), (words, out, err))
        return status, out, err

    def page_of(self, status, body):
        return self.canned(status, JSON, json.dumps(body).encode())

    def test_the_rule_itself(self):
        """Each character that isn't plain is written out, and each that is stays; a line feed ends a line."""
        for text in TEXTS:
            self.assertTrue(is_plain(shown(text)) and not is_plain(text))
        self.assertEqual(shown(TITLE + "\u202e\n\u00fc"), r"\x1b]0;owned\x07\u202e\n" + "\u00fc")

    def test_refusals(self):
        for text in TEXTS:
            url = self.page_of(404, {"no": 15, "error": text, "more": text})
            status, _, err = self.ran_at(url, "device", MAC)
            self.assertEqual((status, f"(refusal 15, {shown(text)}, more {shown(text)})" in err), (1, True))
            with Station(url, "abc", None, patience=0) as station, self.assertRaises(Refused) as found:
                station.device(MAC)
            self.assertTrue(is_plain(str(found.exception)))

    def test_what_nobody_catches(self):
        """What Python prints of it is plain too."""
        script = "import sys; from wanekupo.seat.station import Station; Station(sys.argv[1], 'abc', None, 0).device('x')"
        for text in TEXTS:
            words = [sys.executable, "-B", "-c", script, self.page_of(404, {"no": 15, "error": text, "more": text})]
            paths = {**os.environ, "PYTHONPATH": str(CLIENT), "PYTHONIOENCODING": "utf-8"}
            done = subprocess.run(words, capture_output=True, env=paths)
            told = done.stderr.decode()
            self.assertEqual((done.returncode, f"15 {shown(text)} more" in told, is_plain(told)), (1, True, True))

    def test_replies(self):
        """What isn't as the page says is no reply of the server's, and a station stops at it."""
        blank = dump_of(family_of("esp32"), self.chip().chip.dump())
        for text in TEXTS:
            for words, body in (
                (["device", MAC], {"chip": MAC, "state": text, text: [text]}),
                (["order", "o1"], {"name": "o1", "next": text}),
                (["ledger", MAC], {"chip": MAC, "entries": [{text: text}]}),
                (["identity", MAC], {"chip": MAC, "serial": text}),
            ):
                self.assertEqual(self.ran_at(self.page_of(200, body), *words)[:2], (3, ""))
            body = {"chip": MAC, "state": text, "pending": text}
            self.assertEqual(self.ran_at(self.page_of(200, body), "burn", MAC)[0], 3)
            work = {"bits": [{"block": text, "word": 0, "mask": "1"}], "keys": {}}
            body = {"chip": MAC, "order": "o1", "map": "m", "state": "awaiting1", "reason": None, "serial": None, **work}
            body["pending"] = {"batch1": work, "batch2": work}
            self.assertEqual(self.ran_at(self.page_of(200, body), "burn", MAC)[0], 3)
            keys = {"bits": [], "keys": {text: text}}
            body |= {**keys, "pending": {"batch1": keys, "batch2": keys}}
            self.assertEqual(self.ran_at(self.page_of(200, body), "burn", MAC)[0], 3)
            with self.assertRaises(NoKey) as found:
                burn_commands(Work((), {text: text}), blank, {})
            self.assertTrue(is_plain(str(found.exception)))
            body = {"no": 11, "error": text, "expected": text}
            self.assertEqual(self.ran_at(self.page_of(409, body), "number")[0], 3)
        self.assertEqual(self.ran_at(self.canned(200, JSON, 100_000 * b"["), "device", MAC)[0], 3)

    def test_lists_of_devices(self):
        for text in TEXTS:
            device = dict.fromkeys(("chip", "order", "state", "reason", "serial"), text)
            body = {"devices": [device], "next": None}
            self.assertEqual(self.ran_at(self.page_of(200, body), "devices")[:2], (3, ""))
        for listed, following in (([], ""), ([], "0"), ([], 7), (7, None), ([7], None), ([{}], None)):
            body = {"devices": listed, "next": following}
            self.assertEqual(self.ran_at(self.page_of(200, body), "devices", "--after", "0")[0], 3)

    def written(self, name, text):
        """A file with a report, as a command printed it."""
        (self.folder / name).write_bytes(text.encode("utf-8", "surrogatepass"))
        return self.folder / name

    def test_reports(self):
        """On the terminal, and in what yield makes of two."""
        out = self.folder / "y.csv"
        for text in (TITLE, WIPED, DELETED):
            url = self.canned(200, CSV, (HEAD + text + COUNTS).encode())
            self.assertEqual(self.ran_at(url, "report")[:2], (0, HEAD + shown(text) + COUNTS))
            words = [self.written("before", HEAD), self.written("behind", HEAD + text + ",2,0,0,0,0,2,0,0,0\n")]
            status, told, _ = self.ran_at(url, "yield", *words, "--csv", out)
            self.assertEqual((status, told.splitlines()[1].split()[0]), (0, shown(text)))
            self.assertEqual(self.ran_at(url, "yield", self.written("now", HEAD))[0], 0)
            self.assertTrue(is_plain(out.read_text(encoding="utf-8")))

    def test_what_is_no_reply(self):
        """Bytes that are no UTF-8, in a body, in a type and in a status line; a page's text that a message quotes."""
        lone = b"\xff\xfe\x1b[2J\x9b"
        raw = b"HTTP/1.1 200 \x1b[2J\x9b\r\nContent-Type: text/\x1b]0;x\x07\x9b\r\nContent-Length: 3\r\n\r\nabc"
        urls = [self.canned(200, CSV, lone), self.canned(200, JSON, lone), self.canned(404, JSON, lone)]
        urls += [self.canned(200, "text/html", TITLE.encode()), self.canned(raw), self.canned(lone + b"\r\n\r\n")]
        for url in urls:
            for words in (["report"], ["device", MAC], ["devices"], ["yield", self.written("before", HEAD)]):
                status, out, err = self.ran_at(url, *words)
                self.assertEqual((status, out, err.count("\n") >= 1), (3, "", True))

    def test_counts_that_are_no_numbers(self):
        """yield takes none of them for a report's, and the terminal has them written out."""
        for count in ("=1+1", WIPED, "", "-1", "1.5"):
            text = HEAD + "o1" + COUNTS.replace("2,0,", f"2,{count},", 1)
            url = self.canned(200, CSV, text.encode())
            status, out, err = self.ran_at(url, "yield", self.written("odd", text))
            self.assertEqual((status, out, "has no report" in err), (2, "", True))
            self.assertEqual(self.ran_at(url, "yield", self.written("before", HEAD))[:2], (3, ""))
            self.assertIn(shown(count), self.ran_at(url, "report")[1])

    def test_words_of_the_command_line(self):
        """A name that is shown again is written out too."""
        self.assertEqual(self.ran_at("htps://" + TURNED + DELETED, "report")[0], 2)
        self.assertEqual(self.ran_at("http://127.0.0.1:9", "import", "x", self.folder / WIPED)[0], 2)

    def test_letters_that_a_terminal_has_not(self):
        """They are written out, and aren't a fault of the command's."""
        at, reply = "2026-11-27T06:00:00Z", {"chip": MAC, "issuer": "\u00fc", "serial": "A1", "key_sha256": "0", "mac": None}
        lines = [{"at": at, "path": "/v1/identity", "asked": {"nr": 1}}, {"at": at, "nr": 1, "status": 200, "reply": reply}]
        journal = self.folder / "letters.journal"
        journal.write_text("".join(json.dumps(line) + "\n" for line in lines), encoding="ascii")
        for encoding, letter in (("ascii", b"\\xfc"), ("utf-8", b"\xc3\xbc")):
            own = {**os.environ, "PYTHONIOENCODING": encoding}
            words = [sys.executable, "-B", "-m", "wanekupo", "issued", journal]
            done = subprocess.run(words, capture_output=True, cwd=CLIENT, env=own)
            line = b"%s,%s,A1,0," % (MAC.encode(), letter)
            self.assertEqual((done.returncode, done.stdout.splitlines()[1], done.stderr), (0, line, b""))

    # A spreadsheet.

    def test_fields_are_quoted(self):
        """Any text comes back by a reader of RFC 4180 as one field, from a report and from what yield writes."""
        name, out = 'a,b"c;d', self.folder / "y.csv"
        url = self.canned(200, CSV, (HEAD + '"a,b""c;d"' + COUNTS).encode())
        printed = self.ran_at(url, "report")[1]
        behind = printed.replace(COUNTS, ",2,0,0,0,0,2,0,0,0\n")
        words = [self.written("before", printed), self.written("behind", behind)]
        self.assertEqual(self.ran_at(url, "yield", *words, "--csv", out)[0], 0)
        for text in (printed, out.read_text(encoding="utf-8")):
            self.assertEqual(list(csv.reader(text.splitlines()))[1][0], name)

    def test_names_that_begin_as_formulas_are_told(self):
        """Each of OWASP's beginnings, once a run, by the name of its column; nothing is told of counts and of others."""
        for begin in "=+-@\t":
            name = f"{begin}HYPERLINK(1)"
            url = self.canned(200, CSV, (HEAD + f'"{name}"' + COUNTS + "o2" + COUNTS).encode())
            told = [f"warning: order {name!r} begins as a formula does"]
            status, _, err = self.ran_at(url, "report")
            self.assertEqual((status, [line.rpartition(":")[0] for line in err.splitlines()]), (0, told))
        row = {"chip": MAC, "order": "-A1", "state": "shipped", "reason": None, "serial": "A-1"}
        err = self.ran_at(self.page_of(200, {"devices": [row, row], "next": None}), "devices")[2]
        self.assertEqual((err.count("\n"), "warning: order '-A1' begins" in err, "serial" in err), (1, True, False))
        url = self.canned(200, CSV, (HEAD + "o1" + COUNTS).encode())
        self.assertEqual(self.ran_at(url, "report")[2], "")

    def test_counts_are_no_formulas(self):
        """A difference of -2 is a number, and a name of the same row is told."""
        rows = ["-o,9,2,0,0,0,2,0,0,5\n", "-o,9,0,0,0,0,3,0,1,5\n"]
        files = [self.written(name, HEAD + row) for name, row in zip(("before", "behind"), rows)]
        out = self.folder / "out.csv"
        status, _, err = ran("yield", *files, "--csv", out)
        self.assertEqual((status, err.count("warning"), "order '-o' begins" in err), (0, 1, True))
        self.assertIn("-o,0,1,1,50.0,-2,0,0,0,+1,0,+1\n", out.read_text(encoding="ascii"))

    def test_logs_that_name_formulas(self):
        """What `issued` prints, and what `lost` writes."""
        at, reply = "2026-11-27T06:00:00Z", {"chip": MAC, "issuer": "@ca", "serial": "A1", "key_sha256": "0", "mac": None}
        lines = [{"at": at, "path": "/v1/identity", "asked": {"nr": 1}}, {"at": at, "nr": 1, "status": 200, "reply": reply}]
        lines += [{"at": at, "path": "/v1/scrap", "asked": {"nr": 2, "chip": "=1"}}]
        lines += [{"at": at, "nr": 2, "status": 200, "reply": {"chip": "=1", "state": "scrapped"}}]
        journal = self.folder / "made.journal"
        journal.write_text("".join(json.dumps(line) + "\n" for line in lines), encoding="ascii")
        status, out, err = ran("issued", journal)
        self.assertEqual((status, out.splitlines()[1]), (0, f"{MAC},@ca,A1,0,"))
        self.assertIn("warning: issuer '@ca' begins", err)
        self.assertEqual(ran("lost", journal)[2], "")
        self.assertIn("warning: chip '=1' begins", ran("lost", journal, "--csv", self.folder / "lost.csv")[2])

    # Replies without end.

    def test_long_replies(self):
        """A reply of 4 MiB is taken, and one of a byte more isn't, with a length, without one and in chunks."""
        head = b"HTTP/1.1 200 OK\r\nContent-Type: text/csv\r\n"
        chunks = b"Transfer-Encoding: chunked\r\n\r\n" + (b"100000\r\n" + (1 << 20) * b"x" + b"\r\n") * 5
        with Station(self.canned(200, CSV, MOST * b"x"), "abc", None, patience=0) as station:
            self.assertEqual(len(station.get("/v1/report")), MOST)
        longer = (MOST + 1) * b"x"
        for url in (self.canned(200, CSV, longer), self.canned(head + b"\r\n" + longer), self.canned(head + chunks)):
            start = time.monotonic()
            with Station(url, "abc", None, patience=600) as station, self.assertRaises(TooLong) as found:
                station.get("/v1/report")
            self.assertIn("4194304 bytes", str(found.exception))
            self.assertLess(time.monotonic() - start, 60)
            self.assertEqual(self.ran_at(url, "report")[:2], (3, ""))

    def test_a_long_reply_to_a_request(self):
        """Nothing of it is kept, and the request is under way until its own reply is there."""
        self.station(file="other.json").make_order(**ORDER)
        body = json.dumps({"map": DIGEST, "more": MOST * "x"}).encode()
        proxy = self.proxy()
        with self.station(proxy.url, patience=0, journal=self.journal()) as station:
            self.assertEqual(station.expected_number(), 2)
            station.resynchronize()
        with self.station(self.canned(200, JSON, body), journal=self.journal("b")) as station:
            with self.assertRaises(TooLong):
                station.import_map("x")
            with self.assertRaises(UnderWay):
                station.ship(MAC)
        for name in ("a1.json", "b"):
            self.assertLess((self.folder / name).stat().st_size, 1000)
        with self.station() as station, self.assertRaises(Refused) as found:
            station.finish()
        self.assertEqual(found.exception.no, 29)

    # The token's way.

    def test_http_to_another_machine(self):
        """It is refused in a sentence, unless the caller says otherwise; names that look like this machine are others."""
        here = ["http://127.0.0.1:1", "http://localhost:1", "http://[::1]:1", "http://127.1.2.3:1", "HTTP://LOCALHOST:1"]
        others = ["http://10.0.0.5:1", "http://station.example", "http://127.0.0.1.example:1", "http://[2001:db8::1]:1"]
        others += ["http://localhost.example:1", "http://0.0.0.0:1", "http://[::ffff:10.0.0.5]:1", "http://0177.0.0.1:1"]
        for url in [*here, "https://station.example"]:
            Station(url, "abc", None).close()
        for url in others:
            with self.assertRaises(ValueError) as found:
                Station(url, "abc", None)
            self.assertIn("unencrypted", str(found.exception))
            Station(url, "abc", None, insecure=True).close()
            status, out, err = self.ran_at(url, "report")
            self.assertEqual((status, out), (2, ""))
            self.assertIn("--insecure", err)
        for url in ("http://127.0.0.1@station.example:1", "http://", "http://127.0.0.1:x"):
            with self.assertRaises(ValueError):
                Station(url, "abc", None, insecure=True)
        self.assertEqual(self.ran_at("http://127.0.0.2:9", "--insecure", "report")[0], 3)
