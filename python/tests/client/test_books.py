"""Seals, the audit and the shift's report, as a person gives the commands. Counts are made up and counted by hand, what
a store is forged to is by sqlite3, and digests are those of hashlib over the page's own words.

`tests/books` tries many more forged stores, kills, signatures, time stamps and large stores.
"""

import base64
import contextlib
import gzip
import hashlib
import json
import re
import shutil
import subprocess
import unittest
from unittest import mock

from support import MAC, PROGRAM, ROOT, SITE
from books_case import ALWAYS, DAY, PERIOD, BooksCase, audited, device, lines_of, read, step
from commanding import ran

from wanekupo.books.yields import LOOKS, SENTENCE

YIELD_PAGE = ROOT / "clients" / "web" / "yield.html"
MARKUP = "\x1b[2J<script>1</script>&"


# Two stations of acme. By hand: c1 is passed first and takes 10 minutes, c2 matches at its second try and takes 40; c3
# is stray, and scrapped later; c4 is scrapped by the other station; c5 awaits a batch; c6 was shipped before the shift.
A1 = [
    device("05:00:00", "c6"),
    step("05:59:59", "ship", "c6", state="shipped"),
    device("06:10:00", "c1"),
    step("06:11:00", "plan", "c1", state="awaiting1"),
    read("06:12:00", "c1", "match", "settled"),
    step("06:18:00", "identity", "c1", serial="A1"),
    step("06:20:00", "ship", "c1", state="shipped"),
    device("07:00:00", "c2"),
    step("07:01:00", "plan", "c2", state="awaiting1"),
    read("07:02:00", "c2", "short", "awaiting1"),
    read("07:03:00", "c2", "match", "settled"),
    step("07:30:00", "identity", "c2", serial="A2"),
    step("07:40:00", "ship", "c2", state="shipped"),
    device("08:00:00", "c3"),
    read("08:05:00", "c3", "stray", "quarantined"),
    step("08:30:00", "scrap", "c3", state="scrapped"),
    ("12:00:00", "/v1/ship", {"chip": "c5"}, {"no": 11, "error": "wrong_number", "expected": 40}),
]
A2 = [device("09:00:00", "c4"), device("09:30:00", "c5", "o2"), step("09:31:00", "plan", "c5", state="awaiting1")]
A2 += [step("10:00:00", "scrap", "c4", state="scrapped")]


class Books(BooksCase):
    def test_a_shift(self):
        self.write("a1.journal", lines_of("a1", *A1))
        lines = list(lines_of("a2", *A2, operator="joe"))
        lines[-2]["reason"] = "no label"
        self.write("a2.journal", lines)
        (self.folder / "csv").mkdir()
        journals = [f"acme={self.folder / name}" for name in ("a1.journal", "a2.journal")]
        status, out, told = ran("shift", *journals, *PERIOD, "--csv", self.folder / "csv")
        self.assertEqual((status, told), (0, ""))
        self.assertIn("5 begun, 2 shipped, 2 given up, 1 under way. Yield: 50.0 %.", out)
        self.assertIn(SENTENCE, out)
        names = ("order", "begun", "first", "shipped", "given_up", "yield", "stray", "scrapped", "identified")
        orders = {tuple(row[name] for name in names) for row in self.rows("orders") if row["customer"] == "acme"}
        begun_alone = ("o2", "1", "0", "0", "0", "", "0", "0", "0")
        self.assertEqual(orders, {tuple("o1 4 1 2 2 50.0 1 1 2".split()), begun_alone})
        stations = {row["station"]: row for row in self.rows("stations")}
        times = [stations["a1"][name] for name in ("median_s", "slowest_s", "slowest_chip", "stand_s", "stand_from")]
        self.assertEqual(times, ["1500", "2400", "c2", "12600", f"{DAY}08:30:00Z"])
        self.assertEqual(stations["a2"]["given_up"], "1")
        lost = [(row["chip"], row["station"], row["operator"], row["reason"]) for row in self.rows("lost")]
        self.assertEqual(lost, [("c3", "a1", "mara", "stray"), ("c4", "a2", "joe", "no label")])
        self.assertEqual([(row["chip"], row["state"]) for row in self.rows("under_way")], [("c5", "planned")])
        stopped = [(row["time"], row["what"], row["went_on"]) for row in self.rows("stopped")]
        told = "out of step (11): number 17, and the server expects 40"
        self.assertEqual(stopped, [(f"{DAY}12:00:00Z", told, "not yet")])
        lines = [json.loads(line) for line in ran("shift", *journals, *PERIOD, "--json")[1].splitlines()]
        lost = [(row["chip"], row["reason"]) for row in lines if row["table"] == "lost"]
        self.assertEqual(lost, [("c3", "stray"), ("c4", "no label")])

    def test_what_is_first(self):
        """A chip that failed a stay before isn't; one that is shipped anew, as behind a restore, counts once."""
        lines = list(lines_of("a1", *A1))
        ships = {it["asked"]["chip"]: it for it in lines if it.get("path") == "/v1/ship"}
        ships["c1"]["reason"] = "hook_failed"
        self.write("a1.journal", lines)
        anew = device("11:00:00", "c1"), step("11:01:00", "ship", "c1", state="shipped")
        self.write("a2.journal", lines_of("a2", *anew))
        (self.folder / "csv").mkdir()
        journals = [self.folder / name for name in ("a1.journal", "a2.journal")]
        self.assertEqual(ran("shift", *journals, *PERIOD, "--csv", self.folder / "csv")[0], 0)
        self.assertEqual([(it["begun"], it["first"], it["shipped"]) for it in self.rows("orders")], [("3", "0", "2")])

    def test_a_page_of_hostile_names(self):
        """No markup and no control character of a journal comes into a page or onto a terminal."""
        file = self.write("a1.journal", lines_of(MARKUP, *A1, operator=MARKUP))
        status, out, _ = ran("shift", file, *PERIOD, "--html", self.folder / "page.html")
        page = (self.folder / "page.html").read_text(encoding="utf-8")
        self.assertEqual((status, [it for it in out + page if it < " " and it != "\n"]), (0, []))
        self.assertNotIn("<script", page)
        self.assertIn("&lt;script&gt;1&lt;/script&gt;&amp;", page)
        style = re.search("<style>(.*?)</style>", page, re.DOTALL)[1]
        policy = re.search('http-equiv="Content-Security-Policy" content="(.*?)"', page)[1]
        digest = hashlib.sha256(style.encode()).digest()
        self.assertIn(f"&#x27;sha256-{base64.b64encode(digest).decode()}&#x27;", policy)

    def test_a_seal(self):
        """A customer's rows are a part of the plant's; a chain by hashlib; a changed note is found and named."""
        store = self.lived()
        for name in ("plant", "acme"):
            (self.folder / name).mkdir()
        words = ("--customer", "acme", "--url", self.program.url, "--token", self.folder / "token")
        self.assertEqual(ran("seal", self.folder / "acme", *words)[0], 0)
        for _ in range(2):
            self.assertEqual(ran("seal", self.folder / "plant", "--store", store)[0], 0)
        plants, own = [self.folder / name / "000001.rows" for name in ("plant", "acme")]
        shown = [it for it in plants.read_text().splitlines() if re.match("(order|device|record|entry) acme ", it)]
        self.assertEqual(own.read_text().splitlines(), shown)
        self.assertEqual(shown, sorted(shown))
        device = self.asked("GET", f"/v1/device?chip={MAC}")[1]
        compact = json.dumps(device, sort_keys=True, separators=(",", ":"))
        self.assertIn(f"device acme {MAC} {compact}", shown)
        last = 64 * "0"
        for line in (self.folder / "plant" / "chain").read_text().splitlines():
            head, _, seal = line.rpartition(" ")
            last = hashlib.sha256(f"{last} {head}\n".encode()).hexdigest()
            self.assertEqual((seal, head.split()[4]), (last, hashlib.sha256(plants.read_bytes()).hexdigest()))
        told = "Nothing found.\nNot shown: when 2 seals came to be, without a time stamp that was held.\n"
        told += "2 seals, 1 pair compared, 0 signatures and 0 stamps held, rows of 0 missing.\n"
        self.assertEqual(ran("seal", "--verify", self.folder / "plant")[:2], (0, told))
        self.forge(store, "UPDATE ledger SET note = 'short' WHERE n = 3")
        status, out, _ = ran("seal", "--verify", plants, store)
        self.assertEqual(status, 1)
        self.assertIn(f"The entry 3 of {MAC} of acme: note was match, and is short.", out)

    def test_a_changed_byte(self):
        """Wherever a byte of rows is changed its file is named, and never a fault of the program's own."""
        seals = self.sealed()
        rows = seals / "000001.rows"
        whole = rows.read_bytes()
        mask = whole.index(b'"mask"') + 2
        for place in (mask, mask - 1, *range(0, len(whole), len(whole) // 40)):
            rows.write_bytes(whole[:place] + bytes([whole[place] ^ 1]) + whole[place + 1 :])
            status, out = self.verified(seals)
            self.assertEqual((status, out.splitlines()[0]), (1, f"{rows} was changed since it was sealed."), place)
            status, out, told = ran("seal", "--verify", rows, seals / "000002.rows")
            self.assertEqual((status in (0, 1), out != "", told), (True, True, ""), place)

    def test_a_folder_with_nothing_to_test(self):
        """What was taken away is named, and the last line says how much was held to what."""
        seals = self.sealed()
        line = "2 seals, {} compared, 0 signatures and 0 stamps held, rows of {} missing."
        first, second, chain = (seals / name for name in ("000001.rows", "000002.rows", "chain"))
        kept = {file: file.read_bytes() for file in seals.iterdir()}

        def zipped(file, data):
            file.unlink()
            (seals / f"{file.name}.gz").write_bytes(gzip.compress(data))

        for change, status, words in (
            (lambda: zipped(first, kept[first]), 0, ["Nothing found.", line.format("1 pair", 0)]),
            (lambda: zipped(first, kept[first].replace(b"match", b"short", 1)), 1, ["000001.rows.gz was changed"]),
            (lambda: (first.unlink(), second.unlink()), 1, ["has the rows of no seal", line.format("0 pairs", 2)]),
            (lambda: first.unlink(), 3, ["No pair was compared", "aren't there: 000001.", line.format("0 pairs", 1)]),
            (lambda: chain.write_bytes(kept[chain].splitlines(True)[0]), 1, ["000002.seal is of a seal that"]),
            (lambda: (seals / "000002.seal.minisig").write_text("x"), 0, ["Not tested: the signatures of 1 seal."]),
            (lambda: (seals / "notes").write_text("x"), 0, ["Not tested, as no seal has such files: notes."]),
        ):
            change()
            found, out = self.verified(seals)
            self.assertEqual((found, [it for it in words if it not in out]), (status, []), out)
            for file in seals.iterdir():
                file.unlink()
            for file, data in kept.items():
                file.write_bytes(data)
        chain.unlink()
        for folder in (seals, self.folder / "empty"):
            status, out, told = ran("seal", "--verify", folder)
            self.assertEqual((status, out), (2, ""))
            self.assertIn(f"{folder} has no chain, so nothing was tested.", told)

    @unittest.skipUnless(shutil.which("minisign"), "there is no minisign, which signs")
    def test_a_signature_that_began_later(self):
        """Seals in front of the first signed one are told; one behind it without a signature is found."""
        seals, keys = self.sealed(), [self.folder / name for name in ("own.pub", "own.key")]
        subprocess.run(["minisign", "-G", "-W", "-p", keys[0], "-s", keys[1]], check=True, capture_output=True)
        check = (seals, "--minisign", keys[0])
        status, out = self.verified(*check)
        self.assertEqual((status, out.splitlines()[0]), (1, "No seal has a signature."))
        for _ in range(2):
            words = ("seal", seals, "--store", self.folder / "copy" / "books.db", "--minisign", keys[1])
            self.assertEqual(ran(*words)[0], 0)
        first, last = (seals / f"00000{number}.seal" for number in (3, 4))
        began = f"2 seals in front of {first} had no signature yet."
        unshown = "Not shown: when 4 seals came to be, without a time stamp that was held."
        done = "4 seals, 3 pairs compared, 2 signatures and 0 stamps held, rows of 0 missing."
        self.assertEqual(self.verified(*check), (0, f"Nothing found.\n{began}\n{unshown}\n{done}\n"))
        (seals / f"{last.name}.minisig").unlink()
        status, out = self.verified(*check)
        self.assertEqual((status, out.splitlines()[:3]), (1, [f"{last} has no signature.", "1 found.", began]))
        for other in (keys[1], first):  # the secret key, and what is no key: a slip, and no forgery
            status, out, told = ran("seal", "--verify", seals, "--minisign", other)
            self.assertEqual((status, out), (2, ""))
            self.assertIn(f"{other} is no public key of minisign. Name the public one", told)

    def test_stopped_or_wrong(self):
        """What is told where a seal is stopped by hand, is of another customer, or is in no folder: at once, and by the
        names as they were given."""
        seals = self.sealed()
        asked = ("--url", self.program.url, "--token", self.folder / "token")
        with mock.patch("wanekupo.books.customer_rows.lines_of", side_effect=KeyboardInterrupt) as gathered:
            own = ran("seal", self.folder / "empty", "--customer", "acme", *asked)
            other = ran("seal", seals, "--customer", "acme", *asked)
        self.assertEqual(own, (130, "", "Stopped by hand. Give the same command again.\n"))
        self.assertEqual((other[0], gathered.call_count), (2, 1))
        self.assertIn("has seals of @all, and this one is of acme. Look at the name.", other[2])
        with mock.patch("wanekupo.seat.station.Station.ship", side_effect=KeyboardInterrupt):
            words = ("--state-file", self.folder / "b1.json", "--journal", self.folder / "b1.journal")
            status, _, told = ran("ship", MAC, *asked, *words)
        self.assertEqual((status, told), (130, "Stopped by hand. What was under way goes on with: wanekupo finish.\n"))
        with contextlib.chdir(self.folder):
            (seals / "000001.rows").write_bytes(b"")
            found = self.verified("seals")[1].splitlines()
            self.assertEqual(found[0], "seals/000001.rows was changed since it was sealed.")
            for word in ("", " "):
                self.assertEqual(ran("seal", "--verify", "seals", "--last", word)[0], 2)
            told = "none is no folder. Make it first: the seals of one customer, or of a plant, stay there.\n"
            self.assertEqual(ran("seal", "none", "--store", "copy/books.db"), (2, "", told))

    def test_an_audit(self):
        """A life and its journal agree; a forged note, a cut journal and a changed line are each found and named."""
        store, journal = self.lived(), self.folder / "a1.journal"
        status, out, _ = audited(store, journal, *ALWAYS)
        self.assertEqual((status, "6 entries of the period" in out), (0, True))
        self.assertIn("by its last request", out)
        whole = journal.read_bytes()
        cut = b"".join(whole.splitlines(True)[:-2])
        changed = whole.replace(b'"serial":"A998"', b'"serial":"A999"')
        for data, words in (
            (cut, ("numbers", "the number 8 has no line")),
            (changed, ("other_note", "the note is A998 in the store, and A999 in the journal")),
            (whole.replace(b'"prefix":"A"', b'"prefix":"B"', 1), ("journal", "line 1 of", "was changed")),
        ):
            journal.write_bytes(data)
            status, out, _ = audited(store, journal, *ALWAYS)
            self.assertEqual((status, [it for it in words if it not in out]), (1, []))
        journal.write_bytes(whole)
        self.forge(store, "UPDATE ledger SET seat = 'b1' WHERE n = 6")
        status, out, _ = audited(store, journal, *ALWAYS)
        self.assertEqual((status, "the seat is b1 in the store, and the line is of a1" in out), (1, True))

    def test_what_is_no_store(self):
        """A served store is refused by its lock, also where its log is joined, and so SQLite's own isn't asked."""
        self.program.kill()
        words = [PROGRAM, "replay", "--site", SITE, "--db", self.program.db, "--existing"]
        subprocess.run(words, stdin=subprocess.DEVNULL, check=True)
        self.program.start()
        self.assertLess(self.program.db.with_name("books.db-wal").stat().st_size, 500)
        (self.folder / "text").write_text("no database", encoding="ascii")
        (self.folder / "a1.journal").write_text("", encoding="ascii")
        for store, words in (
            (self.folder / "text", "is no database"),
            (ROOT / "bench" / "schema1.db", "is no store of schema 3: it has schema 1"),
            (self.program.db, "A program has"),
        ):
            status, out, told = audited(store, self.folder / "a1.journal", *PERIOD)
            self.assertEqual((status, out, words in told, len(told.splitlines())), (2, "", True, 1), told)

    def test_one_definition(self):
        """The page of yields has the sentence and the looks of this package."""
        page = YIELD_PAGE.read_text(encoding="utf-8")
        meant = re.search(r'MEANT = "(.*?)" \+\s+"(.*?)";', page)
        self.assertEqual(meant[1] + meant[2], SENTENCE)
        states = re.search(r"const STATES = (\[.*?\n  \]);", page, re.DOTALL)[1]
        found = json.loads(re.sub(r",\s*\]$", "]", states))
        self.assertEqual(found, [[it.state, it.colour, it.ink, it.lines] for it in LOOKS])
