"""What an audit and a chain of seals have to find, keep or refuse where a file or a store is made to mislead them.

Stores are forged by sqlite3, journals are made up, and the states of a device are those of the drawing of the docs.
"""

import contextlib
import hashlib
import json
import os
import re
import shutil
import socket
import tempfile
import threading
import unittest
from pathlib import Path
from types import SimpleNamespace

from support import DIGEST, MAC, MAP, ORDER, ROOT, WISHES
from books_case import ALWAYS, DAY, PERIOD, BooksCase, audited, device, lines_of, read, step
from commanding import ran

from wanekupo.seat import states
from wanekupo.books.chain import sealed
from wanekupo.books.clocks import clock_contradictions, to_come, window_of
from wanekupo.books.numbers import counts
from wanekupo.books.shift import Period
from wanekupo.books.steps import Step
from wanekupo.seat.journal import request_digest
from wanekupo.books.yields import LOOKS

OTHER_MAC, THIRD_MAC = "240ac4000002", "240ac4000003"


class Audits(BooksCase):
    def found(self, store, *journals, status=1):
        """What an audit of all times says of a store."""
        done, out, told = audited(store, *journals, *ALWAYS)
        self.assertEqual((done, told), (status, ""), out)
        return out

    def test_forged_stores(self):
        """An entry under an id below all others, a number of an entry that has no limit, and the end of a record."""
        store, journal = self.lived(), self.folder / "a1.journal"
        self.found(store, journal, status=0)
        added = (
            "INSERT INTO ledger SELECT 0, customer, chip, 7, 'scrapped', '', seat, zeroblob(0), zeroblob(0) "
            "FROM ledger WHERE n = 6"
        )
        for name, sql, words in (
            ("below", added, ("no_line", "the entry 7, scrapped", "its entry 7 was written before its entry 6")),
            ("large", "UPDATE ledger SET n = 4611686018427387904 WHERE n = 6", ("lacks the entry 6 to 4611686018427",)),
            ("end", "UPDATE given SET not_after = '20300101000000Z'", ("not_after is 20300101000000Z in the store",)),
            ("idle", "INSERT INTO orders VALUES ('bolt', 'b', 'bolt-ca', 'B', 3, 1, 5, 0, NULL, 1)", ("name b, and",)),
        ):
            with self.subTest(name):
                shutil.copytree(store.parent, self.folder / name)
                self.forge(self.folder / name / "books.db", sql)
                out = self.found(self.folder / name / "books.db", journal)
                self.assertEqual([it for it in words if it not in out], [], out)
        shutil.copytree(store.parent, self.folder / "late")
        late, last = self.folder / "late" / "books.db", json.loads(journal.read_text("ascii").splitlines()[-1])
        self.forge(late, "INSERT INTO orders VALUES ('acme', 'x', 'acme-ca', 'X', 3, 1, 5, 0, NULL, 1)")
        asked = {"nr": last["nr"] + 1, "name": "x", "issuer": "acme-ca", "prefix": "X", "width": 3, "first": 1}
        asked |= {"quantity": 5, "macs": 0}
        line = {"at": last["at"], "path": "/v1/order", "asked": asked, "digest": request_digest("/v1/order", asked)}
        with open(journal, "a", encoding="ascii") as out:
            print(json.dumps(line), file=out)
        self.assertIn("the store has the order of the name x, and the program has none", self.found(late, journal))

    def test_lines_behind_the_copy(self):
        """An audit whose end is behind the copy says from when on the journals have what the copy can't know."""
        store, later = self.lived(), self.folder / "later.journal"
        with self.station(journal=self.journal("later.journal")) as station:
            station.register(OTHER_MAC, "o1", DIGEST, self.chip(OTHER_MAC).read())
            station.plan(OTHER_MAC, [])
        first = json.loads(later.read_text(encoding="ascii").splitlines()[0])
        both = self.folder / "both.journal"
        both.write_bytes((self.folder / "a1.journal").read_bytes() + later.read_bytes())
        out = self.found(store, both)
        told = f"2 lines of the journals, from {first['at']} on, are behind the copy's last request. "
        self.assertIn(f"{told}The copy may be older than they are: give --to {first['at']}.", out)

    def test_a_state_between_two_steps(self):
        """A chip is settled by hand behind its plan, and an honest station goes on with it. A reply that was lost, of
        a step that comes twice, accuses nobody."""
        with self.station(journal=self.journal()) as station:
            station.make_order(**{**ORDER, "quantity": 1})
            station.import_map(MAP)
            station.register(MAC, "o1", DIGEST, self.chip().read())
            station.plan(MAC, WISHES)
            self.edited("UPDATE device SET state = 'settled', todo = zeroblob(0)")
            station.identify(MAC, b"key")
            station.ship(MAC)
        self.program.copied(self.folder / "copy")
        out = self.found(self.folder / "copy" / "books.db", self.folder / "a1.journal")
        self.assertIn("the program refuses it as 17 wrong_state (line 9 of", out)
        self.assertIn("1 found.", out)

    def test_lost_replies(self):
        """A step whose reply is gone is none of its likes that were answered: it accuses no device."""
        store, file = self.lived(), self.folder / "a1.journal"
        lines = file.read_text(encoding="ascii").splitlines(True)
        for number in range(1, 9):
            with self.subTest(number):
                kept = [line for line in lines if f'"nr":{number},' not in line or '"asked"' in line]
                kept.insert(-1, json.dumps({"at": json.loads(lines[-2])["at"], "resynchronized": 8}) + "\n")
                file.write_text("".join(kept), encoding="ascii")
                self.assertEqual(len(kept), len(lines))
                out = self.found(store, file, status=0 if number == 8 else 1)
                self.assertNotRegex(out, r"(?m)^(device|replay) ")

    def test_addresses_within_a_long_span(self):
        """Of a number with four addresses each other record that has one of them is found, not the next one alone."""
        with self.station(journal=self.journal()) as station:
            station.import_map((ROOT / "python/wanekupo/chips/families/esp32/map.toml").read_text(encoding="utf-8"))
            for name, macs in (("o1", 4), ("o2", 2)):
                quantity = 4 // macs
                station.make_order(**{**ORDER, "name": name, "prefix": name[1] + "-", "first": 1, "quantity": quantity,
                                      "macs": macs})
            for number, (chip, order) in enumerate(((MAC, "o1"), (OTHER_MAC, "o2"), (THIRD_MAC, "o2"))):
                station.register(chip, order, DIGEST, self.chip(chip).read())
                station.plan(chip, [])
                station.identify(chip, bytes([number]))
        self.program.copied(self.folder / "copy")
        store = self.folder / "copy" / "books.db"
        for chip, mac in ((OTHER_MAC, "020000000011"), (THIRD_MAC, "020000000013")):
            self.forge(store, f"UPDATE given SET mac = '{mac}' WHERE chip = '{chip}'")
        out = self.found(store, self.folder / "a1.journal")
        for chip, mac, own in ((OTHER_MAC, "11", "20"), (THIRD_MAC, "13", "22")):
            told = f"the identity of the chip {chip}: mac is 0200000000{mac} in the store, and 0200000000{own} by the p"
            self.assertIn(told, out)

    def test_what_is_held_to_nothing(self):
        """A period without an entry is told, and a seat without a journal is found, also where it has no entry."""
        store, journal = self.lived(), self.folder / "a1.journal"
        page = self.folder / "page.html"
        status, _, told = audited(store, journal, "--from", "1999-01-01", "--to", "1999-02-01", "--html", page)
        self.assertEqual(status, 2)
        self.assertIn("o entry and no line is of the period from 1999-01-01T", told)
        self.assertIn("Look at --from and --to. These journals have lines of 20", told)
        with self.station(token="hello", file="b1.json") as other:
            other.make_order("b", "bolt-ca", "B", 3, 1, 5)
        self.program.copied(self.folder / "later")
        out = self.found(self.folder / "later" / "books.db", journal)
        self.assertRegex(out, "no_journal +bolt +b1 +no journal of this seat was given: 1 of its 1 requests are of no")
        line = json.loads(audited(self.folder / "later" / "books.db", journal, *ALWAYS, "--json")[1])
        self.assertEqual([line[it] for it in ("kind", "customer", "seat")], ["no_journal", "bolt", "b1"])

    def test_folders(self):
        """Root's file says whose a folder's lines are; without a folder in it nothing is read."""
        store, table = self.lived(), self.folder / "journals.toml"
        (self.folder / "all" / "pc7").mkdir(parents=True)
        shutil.copy(self.folder / "a1.journal", self.folder / "all" / "pc7")
        cases = ("a1", 0, "Nothing found."), ("b1", 1, "is of the seat a1, and"), ("", 2, "names no folder")
        for seat, status, words in cases:
            table.write_text(f'[folders]\npc7 = ["{seat}", "b2"]\n' if seat else "[folders]\n")
            done, out, told = audited(store, self.folder / "all", "--folders", table, *ALWAYS)
            self.assertEqual((done, words in out + told), (status, True), out + told)

    def test_years(self):
        """Each year compares as it should, and a moment that can't be told is an error in words."""
        store, journal = self.lived(), self.folder / "a1.journal"
        self.assertIn("6 entries of the period", self.found_in(store, journal, "0999-01-01"))
        for start in ("0001-01-01T00:00+14:00", "9999-12-31T23:59-14:00"):
            status, _, told = audited(store, journal, "--from", start, "--to", "2099-01-01")
            self.assertEqual((status, "is no time like" in told, "Traceback" in told), (2, True, False), told)
        within = ["--from", "2026-11-27T06:00:00.1Z", "--to", "2026-11-27T06:00:00.9Z"]
        self.assertIn("--to has to be later", audited(store, journal, *within)[2])

    def found_in(self, store, journal, start):
        status, out, told = audited(store, journal, "--from", start, "--to", "2099-01-01")
        self.assertEqual((status, told), (0, ""), out)
        return out

    def test_lines_that_are_none(self):
        """A moment that there isn't, a line without end, one that is nested for ever, and rows that are none: each is
        found, and the others count. What is no file at all is refused at once."""
        store, journal = self.lived(), self.folder / "a1.journal"
        whole = journal.read_text(encoding="ascii").splitlines(True)
        asked = {"nr": 9, "issuer": "acme-ca", "csv": "serial,key_sha256\n\"" + 200_000 * "x"}
        line = {"at": "2026-11-28T00:00:00Z", "path": "/v1/import", "asked": asked}
        accepted = {"at": line["at"], "nr": 9, "status": 200, "reply": {"added": 1, "present": 0}}
        line["digest"] = request_digest("/v1/import", asked)
        imported = f"{json.dumps(line)}\n{json.dumps(accepted)}\n"
        deep = '{"at":"2026-11-28T00:00:00Z","x":' + 5000 * "[" + 5000 * "]" + "}\n"
        for name, added, words in (
            ("moment", '{"at":"2026-13-45T99:00:00Z","resynchronized":9}\n', "is no line of a journal"),
            ("long", '{"at":"2026-11-28T00:00:00Z","x":"' + 300_000 * "x" + '"}\n', "is no line of a journal"),
            ("deep", deep, "is no line of a journal"),
            ("rows", imported, "this is an older store"),
        ):
            with self.subTest(name):
                journal.write_text("".join([*whole[:2], added, *whole[2:]] if name != "rows" else [*whole, added]))
                out = self.found(store, journal)
                self.assertEqual((words in out, "6 entries of the period" in out), (True, True), out)
        os.mkfifo(self.folder / "b1.journal")
        status, _, told = audited(store, self.folder / "b1.journal", *ALWAYS)
        self.assertEqual((status, "is no plain file" in told), (2, True), told)


def clock(seconds):
    """A time of the day, from 06:00 on."""
    return f"{DAY}{6 + seconds // 3600:02}:{seconds // 60 % 60:02}:{seconds % 60:02}Z"


def paired(*lines):
    """Entries in their order, each with its line: the journal's letter, when it was asked, and how many seconds later
    it was answered, or None."""
    for number, (name, at, *took) in enumerate(lines, 1):
        asked = at if isinstance(at, str) else clock(at)
        answered = "" if took == [None] else asked if isinstance(at, str) else clock(at + sum(took))
        status = 200 if answered else None
        yield number, Step(name, number, asked, "/v1/ship", {"nr": number}, "", name, "", answered, status)


class Clocks(unittest.TestCase):
    def test_contradictions(self):
        """Which lines are told, by their numbers, where entries come in the order 1, 2, 3.. and times don't."""
        turns = [("a" if place % 2 else "b", 10 * place) for place in range(12)]

        def moved(seconds, *numbers):
            return [(name, at + (seconds if place in numbers else 0)) for place, (name, at) in enumerate(turns, 1)]

        own = (1, 3, 5, 7, 9, 11)
        for name, lines, meant in (
            ("none", [], []),
            ("one", turns[:1], []),
            ("as it should be", turns, []),
            ("a minute apart", moved(50, *own), []),
            ("two minutes apart", moved(120, *own[:5]), [1, 3, 5, 7, 9]),
            ("an hour ahead for a while, as in summer", moved(3600, 5, 7), [5, 7]),
            ("an hour behind", [(it, at + 7200) for it, at in turns[:8]] + [("b", 3600 + 80)], [9]),
            ("a day ahead", [*turns[:4], ("b", clock(45).replace("27T", "28T")), *turns[5:]], [5]),
            ("2098", [turns[0], ("b", "2098-01-01T00:00:00Z"), *turns[2:]], [2]),
            ("1999", [*turns[:-1], ("b", "1999-01-01T00:00:00Z")], [12]),
            ("a reply that took two hours", [("a", 0, 7200), ("b", 3600), ("b", 7100)], []),
            ("a long wait behind others", [("b", 3600), ("b", 7100), ("a", 0, 7200)], []),
            ("a wait that ended before the others", [("b", 3600), ("b", 7100), ("a", 0, 3000)], [3]),
            ("a reply that never came", [("b", 3600), ("b", 7100), ("a", 0, None)], []),
            ("the only station, whose times all moved", [("a", at + 9000) for _, at in turns], []),
        ):
            with self.subTest(name):
                self.assertEqual([it.step.line for it in clock_contradictions(list(paired(*lines)))], meant)

    def test_what_matters_to_a_period(self):
        """Not a contradiction of two lines that are both before it, or both behind it."""
        (it,) = clock_contradictions(list(paired(("a", 0), ("b", 500), ("a", 100), ("a", 200), ("a", 300))))
        spans = ((0, 90, False), (0, 200, True), (100, 200, True), (400, 600, True), (501, 900, False))
        for start, end, meant in spans:
            with self.subTest(f"{start} to {end}"):
                self.assertEqual(it.is_of(Period(clock(start), clock(end))), meant, it)

    def test_what_is_told(self):
        """Both times, both lines, and which entry was written first."""
        late, early = ([("a", 0), ("b", 900), ("a", 20), ("a", 30)], [("a", 900), ("a", 920), ("b", 10), ("a", 930)])
        told = [next(clock_contradictions(list(paired(*lines)))).told() for lines in (late, early)]
        self.assertEqual(told, [
            f"has {clock(900)}, and its entry was written before that of line 3 of a, which was answered at "
            f"{clock(20)}",
            f"was answered at {clock(10)}, and its entry was written behind that of line 2 of a, which was asked at "
            f"{clock(920)}",
        ])

    def test_windows(self):
        """Entries 1, 2, 3.. with their times; which places between two of them are outside of 100 to 200. 0.5 is in
        front of the first one."""
        for name, times, meant in (
            ("none", [], []),
            ("all inside", [100, 150, 199], []),
            ("some before, some behind", [10, 20, 110, 120, 210, 220], [1.5, 5.5]),
            ("all before", [10, 20, 30], [1.5, 2.5]),
            ("all behind", [210, 220, 230], [1.5, 2.5]),
            ("one of later among those of the period", [110, 9000, 120, 130], []),
            ("one of earlier among those of the period", [110, 120, 1, 130], []),
            ("the last one of later, and nothing behind it", [110, 120, 9000], []),
            ("the first one of earlier, and nothing in front", [1, 110, 120], []),
            ("one inside among those of later", [110, 210, 150, 220, 230], [4.5]),
            ("one inside among those of earlier", [10, 20, 150, 30, 110], [1.5]),
        ):
            with self.subTest(name):
                pairs = list(paired(*(("a", at) for at in times)))
                window = window_of(pairs, Period(clock(100), clock(200)))
                places = [place + 0.5 for place in range(len(times) + 1)]
                self.assertEqual([place for place in places if window.is_outside(place)], meant)

    def test_lines_without_an_entry(self):
        """A line counts but one of before that an older copy has not, and one of later where the store lacks its
        number."""
        store = SimpleNamespace(seats={"a": SimpleNamespace(last=4)})
        for name, times, meant in (
            ("inside", [110, 120], [1, 2]),
            ("before", [10, 20, 110], [1, 2, 3]),
            ("the first one is before", [10, 110, 120], [1, 2, 3]),
            ("only one, before", [10], [1]),
            ("before, of an older copy", [10, -20, 110], [1, 3]),
            ("behind, with numbers up to 4", [110, 210, 220, 230, 240], [1, 2, 3, 4]),
        ):
            with self.subTest(name):
                steps = [it for _, it in paired(*(("a", abs(at)) for at in times))]
                for it, at in zip(steps, times):
                    it.is_lost = at < 0
                own = SimpleNamespace(seat="a", book=SimpleNamespace(steps=steps))
                period = Period(clock(100), clock(200))
                self.assertEqual([it.line for it in steps if counts(own, it, store, period)], meant)

    def test_times_to_come(self):
        """By more than an hour."""
        steps = [step for _, step in paired(("a", 0), ("a", 3600), ("a", 3601), ("a", "2098-01-01T00:00:00Z"))]
        self.assertEqual([it.step.line for it in to_come(steps, clock(0))], [3, 4])
        steps[0].answered = "2098-01-01T00:00:00Z"
        self.assertIn("has 2098-01-01T00:00:00Z", next(to_come(steps, clock(0))).told())


class Chains(unittest.TestCase):
    ROWS = {"acme": 'map acme 1 {"map":"1","text_sha256":"1"}\n', "bolt": 'map bolt 1 {"map":"1","text_sha256":"1"}\n'}

    def test_forged_lines(self):
        """A line whose number of rows, customer or moment isn't so; the digests are all as they should be."""
        two, acme = [("2026-01-01T02:00:00Z", "acme", 1)], self.ROWS["acme"]
        for name, seals, status, words in (
            ("honest", [*two, ("2026-01-02T02:00:00Z", "acme", 1)], 0, "Nothing found"),
            ("of one moment", two + two, 0, "Not shown: when 2 seals came to be"),
            ("one alone", two, 3, "No pair was compared"),
            ("an earlier one", [*two, ("2026-01-01T01:59:59Z", "acme", 1)], 1, "2 of {} is of 2026-01-01T01:59:59Z"),
            ("rows", [*two, ("2026-01-02T02:00:00Z", "acme", 2)], 1, "there are 1 row, and the seal says 2"),
            ("a name", [*two, ("2026-01-02T02:00:00Z", "bolt", 1)], 1, "of bolt, and the line in front of it of acme"),
            ("rows of acme", [("2026-01-02T02:00:00Z", "bolt", 1)] * 2, 1, "are rows of acme, and the seal is of bolt"),
            ("no moment", [*two, ("2026-01-32T02:00:00Z", "acme", 1)], 1, "is of 2026-01-32T02:00:00Z, which is no"),
            ("no time", [*two, ("2026-01-31_02:00:00Z", "acme", 1)], 1, "is no line of a chain"),
        ):
            with self.subTest(name), tempfile.TemporaryDirectory() as folder:
                last, lines = 64 * "0", []
                for number, (at, whose, count) in enumerate(seals, 1):
                    it = sealed(last, number, at, whose, count, hashlib.sha256(acme.encode()).hexdigest())
                    (Path(folder) / f"{number:06}.rows").write_text(acme)
                    (Path(folder) / f"{number:06}.seal").write_text(it.line() + "\n")
                    last, lines = it.seal, [*lines, it.line() + "\n"]
                (Path(folder) / "chain").write_text("".join(lines))
                found, out, told = ran("seal", "--verify", folder)
                self.assertEqual((found, told, words.format(Path(folder) / "chain") in out), (status, "", True), out)


class Seals(BooksCase):
    def test_what_a_cut_chain_leaves(self):
        """A seal over a chain that was cut replaces nothing of the ones that are gone, and `--verify` goes on to name
        them; what a kill left of a file that wasn't whole goes."""
        seals = self.sealed()
        chain, store = seals / "chain", self.folder / "copy" / "books.db"
        first, second = chain.read_bytes().splitlines(True)
        gone = {name: (seals / name).read_bytes() for name in ("000002.rows", "000002.seal")}
        for number in (1, 2):
            chain.write_bytes(first)
            (seals / "000002.rows.new").write_bytes(b"half")
            self.assertEqual(ran("seal", seals, "--store", store)[0], 0)
            self.assertEqual(len(chain.read_bytes().splitlines()), 2)
            aside = seals / f"000002-aside-{number}"
            kept = {it.name: it.read_bytes() for it in aside.iterdir()}
            self.assertEqual((kept["000002.rows"], set(kept)), (gone["000002.rows"], set(gone)))
            status, out = self.verified(seals)
            self.assertEqual(status, 1)
            self.assertIn(f"{aside} is of a seal that the chain doesn't have", out)
        self.assertEqual((seals / "000002-aside-1" / "000002.seal").read_bytes(), second)
        shutil.rmtree(seals / "000002-aside-1")
        shutil.rmtree(seals / "000002-aside-2")
        self.assertEqual(self.verified(seals)[0], 0)

    def test_nothing_to_compare(self):
        """A file without a row, and words that would hold nothing to anything, are refused."""
        seals = self.sealed()
        rows, empty = seals / "000001.rows", self.folder / "none.rows"
        empty.write_bytes(b"")
        for words, told in (
            ((empty, rows), "has no row, so nothing can be compared"),
            ((rows, rows, "--minisign", "x"), "two files of rows have no signature and no stamp"),
            ((seals, "--store", self.folder / "copy" / "books.db"), "a word is given that only a seal takes"),
        ):
            status, out, err = ran("seal", "--verify", *words)
            self.assertEqual((status, out, told in err.lower()), (2, "", True), err)
        (seals / "0000002.rows").write_bytes(b"x")
        self.assertIn("Not tested, as no seal has such files: 0000002.rows.", self.verified(seals)[1])

    def test_a_service_that_is_none(self):
        """A time stamp is asked of what doesn't speak HTTP: that is told in words, and nothing is added."""
        seals, store = self.sealed(), self.folder / "copy" / "books.db"
        server = self.enterContext(contextlib.closing(socket.create_server(("127.0.0.1", 0))))

        def answer():
            with contextlib.closing(server.accept()[0]) as client:
                client.recv(65_536)
                client.sendall(b"220 mail.example ESMTP\r\n")

        threading.Thread(target=answer, daemon=True).start()
        words = ("--tsa", f"http://127.0.0.1:{server.getsockname()[1]}/", "--tsa-ca", store)
        status, out, told = ran("seal", seals, "--store", store, *words)
        self.assertEqual((status, out, "o time stamp came from" in told, "fault" in told), (3, "", True, False), told)
        self.assertEqual(len((seals / "chain").read_bytes().splitlines()), 2)

    def test_rows_one_after_another(self):
        """The rows of a store are in the order of their bytes, and `next` of an order is the first free number, also
        where numbers of other forms lie between."""
        with self.station() as station:
            station.make_order(**{**ORDER, "prefix": "S", "first": 8, "quantity": 4, "macs": 0})
            station.make_order(**{**ORDER, "name": "o-1", "prefix": "T", "first": 1, "quantity": 1, "macs": 0})
            given = zip(("S008", "S0081", "S010", "T001"), "1234")
            station.import_serials("acme-ca", [(serial, 64 * digit) for serial, digit in given])
        self.program.copied(self.folder / "copy")
        (self.folder / "seals").mkdir()
        self.assertEqual(ran("seal", self.folder / "seals", "--store", self.folder / "copy" / "books.db")[0], 0)
        lines = (self.folder / "seals" / "000001.rows").read_bytes().splitlines()
        self.assertEqual(lines, sorted(lines))
        found = {line.split()[2]: json.loads(line.split(b" ", 3)[3])["next"] for line in lines if line[:5] == b"order"}
        self.assertEqual(found, {b"o1": "S009", b"o-1": None})
        self.assertEqual([self.asked("GET", f"/v1/order?name={it}")[1]["next"] for it in ("o1", "o-1")], ["S009", None])

    def test_a_map_of_later_words(self):
        """A map of TOML 1.1 leaves out its own devices' fuses, and nothing of another customer."""
        text = 'x = "\\e"\n' + MAP
        self.lived()
        with self.station(token="hello", file="b1.json", journal=self.journal("b1.journal")) as other:
            other.make_order("b", "bolt-ca", "B", 3, 1, 5)
            other.register(MAC, "b", other.import_map(text), self.chip().read())
        self.program.copied(self.folder / "later")
        store, seals = self.folder / "later" / "books.db", self.folder / "seals"
        seals.mkdir()
        status, out, told = ran("seal", seals, "--store", store)
        self.assertEqual((status, "the fuses of its 1 devices are left out" in told), (0, True), told)
        self.assertIn(b"entry bolt", (seals / "000001.rows").read_bytes())
        status, out, _ = audited(store, self.folder / "a1.journal", *ALWAYS)
        self.assertIn("the fuses of its 1 devices are left out", out)


class Shifts(BooksCase):
    def shift(self, *journals, status=0):
        (self.folder / "csv").mkdir(exist_ok=True)
        done, out, told = ran("shift", *journals, *PERIOD, "--csv", self.folder / "csv")
        self.assertEqual(done, status, told)
        return out if status == 0 else told

    def test_a_journal_that_is_named_twice(self):
        """It counts once, by its folder and by itself; as two customers' it is refused."""
        journals = self.folder / "journals"
        journals.mkdir()
        file = self.write("journals/a1.journal", lines_of("a1", device("06:10:00", "c1"), device("06:20:00", "c2")))
        for words in ((journals,), (journals, file), (file, os.path.relpath(file))):
            self.assertIn("2 begun", self.shift(*words))
        told = self.shift(f"acme={file}", f"bolt={file}", status=2)
        self.assertIn("is named as a journal of bolt, and of acme", told)

    def test_a_machine_in_the_place_of_another(self):
        """A station with two journals stood between their lines alone, and went on where the second one begins."""
        stop = ("10:00:00", "/v1/ship", {"chip": "c5"}, {"no": 11, "error": "wrong_number", "expected": 40})
        for name, steps in (("one", [device("06:10:00", "c1"), stop]), ("two", [device("10:30:00", "c2")])):
            (self.folder / name).mkdir()
            self.write(f"{name}/a1.journal", lines_of("a1", *steps))
        self.shift(self.folder / "one", self.folder / "two")
        (row,) = self.rows("stations")
        self.assertEqual((row["stand_s"], row["stand_from"]), (str(230 * 60), f"{DAY}06:10:00Z"))
        self.assertEqual([it["went_on"] for it in self.rows("stopped")], [f"{DAY}10:30:00Z"])

    def test_a_clock_that_is_set_back(self):
        """By some seconds, as a time service does it: a chip's steps stay in their order."""
        steps = [device("06:10:00", "c1"), step("06:10:30", "plan", "c1", state="awaiting1")]
        self.write("a1.journal", lines_of("a1", *steps, read("06:10:20", "c1", "match", "settled")))
        self.shift(self.folder / "a1.journal")
        self.assertEqual([it["state"] for it in self.rows("under_way")], ["settled"])


class States(unittest.TestCase):
    def test_the_drawing(self):
        """The machine has the arrows of the drawing of the docs, and no other; each state has its look."""
        text = (ROOT / "docs" / "proof" / "states.dot").read_text(encoding="ascii")
        drawn = set()
        words = {"register": "registered", "identity": "identified", "ship": "shipped", "scrap": "scrapped"}
        for start, end, label in re.findall(r'^    (\w+) -> (\w+) \[(.*)\];', text, re.MULTILINE):
            said = re.search('label = "([^"]*)"', label)
            names = said[1].split(", ") if said else ["scrap"]
            for name in names if names[0] == "lost" else names[:1]:
                name = "planned" if name.startswith("plan") else words.get(name, name)
                drawn.add(("" if start == "start" else start, name, end))
        ways = ((start, name, ends) for name, its in states.STEPS.items() for start, ends in its.items())
        self.assertEqual({(start, name, end) for start, name, ends in ways for end in ends}, drawn)
        self.assertEqual(tuple(it.state for it in LOOKS), states.REPORTED)
