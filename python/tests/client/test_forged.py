"""Forged plants: a store and the journals of its stations that agree, changed in one place on one side or on both.

The honest plant is the program's own, with three stations of two customers. What a change has to say follows from
docs/integrate/api.md. Beside them are honest plants of which nothing may be said.
"""

import contextlib
import gzip
import hashlib
import json
import re
import shutil
import sqlite3
import unittest

from books_case import ALWAYS, BooksCase, audited
from support import DIGEST, MAC, MAP, PUBLIC_KEY, ROOT, SITE, WISHES, bit, rows

from wanekupo.books.schema import CREATED, excluded, others_of, plain, statements
from wanekupo.seat.journal import request_digest, whole_digest

TWO, THREE, FOUR = "240ac4000002", "240ac4000003", "240ac4000004"
MORE_SEATS = """[[customer.seat]]
name = "a2"
token = "{}"
[[customer]]
name = "bolt"
"""


def of(path, chip="", **members):
    """Whether a line asks for this."""

    def is_it(line):
        asked = line.get("asked", {})
        return line.get("path") == path and {**members, **({"chip": chip} if chip else {})}.items() <= asked.items()

    return is_it


def place_of(lines, is_it, number=0):
    return [place for place, line in enumerate(lines) if is_it(line)][number]


def changed(is_it, number=0, reply=None, **asked):
    """Changes members of a request, and of the reply behind it."""

    def change(lines):
        place = place_of(lines, is_it, number)
        lines[place]["asked"].update(asked)
        lines[place + 1]["reply"].update(reply or {})

    return change


def instead(is_it, number, path, asked, reply):
    """Puts another request in the place of one, with its number."""

    def change(lines):
        place = place_of(lines, is_it, number)
        nr = lines[place]["asked"]["nr"]
        lines[place].update(path=path, asked={**asked, "nr": nr})
        lines[place + 1]["reply"] = reply

    return change


def unanswered(is_it, path, asked, status=None):
    """Takes the reply of a request away, and puts another one of its number in front of it; a person had it go on."""

    def change(lines):
        place = place_of(lines, is_it)
        own, nr = lines[place], lines[place]["asked"]["nr"]
        other = {**own, "path": path, "asked": {**asked, "nr": nr}}
        on = {name: own[name] for name in ("at",)}
        between = {**on, "nr": nr, "status": status, "reply": {"no": 17}} if status else {**on, "resynchronized": nr}
        lines[place : place + 2] = [other, between, own, {**on, "resynchronized": nr + 1}]

    return change


def both(*changes):
    def change(lines):
        for it in changes:
            it(lines)

    return change


def exchanged(first, second):
    """Two requests with their replies come in each other's place, and have each other's number."""

    def change(lines):
        one, two = place_of(lines, first), place_of(lines, second)
        numbers = lines[one]["asked"]["nr"], lines[two]["asked"]["nr"]
        pairs = lines[two : two + 2], lines[one : one + 2]
        for place, pair, number in zip((one, two), pairs, numbers):
            at = [line["at"] for line in lines[place : place + 2]]
            pair[0]["asked"]["nr"] = pair[1]["nr"] = number
            lines[place : place + 2] = [{**line, "at": time} for line, time in zip(pair, at)]

    return change


def later_import(lines):
    """The number that was passed over is in a later import."""
    line = lines[place_of(lines, of("/v1/import"), 1)]
    line["asked"]["csv"] += f"A998,{64 * '1'}\n"


# A shipment that the store doesn't have.
UNSHIPPED = (
    "DELETE FROM ledger WHERE customer = 'acme' AND event = 'shipped'",
    "UPDATE device SET state = 'identified' WHERE customer = 'acme' AND state = 'shipped'",
)
SHIPPED = of("/v1/ship", MAC)


class Forged(BooksCase):
    def site(self):
        site = self.folder / "site.toml"
        text = SITE.read_text("utf-8").replace('[[customer]]\nname = "bolt"\n',
                                               MORE_SEATS.format(hashlib.sha256(b"abd").hexdigest()))
        site.write_text(text, encoding="utf-8")
        return site

    def setUp(self):
        super().setUp()
        a1 = self.station(journal=self.journal("a1.journal"))
        a2 = self.station(token="abd", file="a2.json", journal=self.journal("a2.journal"))
        b1 = self.station(token="hello", file="b1.json", journal=self.journal("b1.journal"))
        a1.import_map(MAP)
        a1.make_order("o1", "acme-ca", "A", 3, 998, 2, 1)
        a1.make_order("o2", "acme-ca", "B", 3, 1, 5)
        a1.register(MAC, "o1", DIGEST, self.chip().read())
        chip = self.chip()
        a1.plan(MAC, WISHES)
        a1.read_back(MAC, chip.read())
        a1.settle(MAC, chip)
        a1.identify(MAC, PUBLIC_KEY)
        a1.ship(MAC)
        a1.import_map(MAP)
        a1.import_serials("acme-ca", rows("Z1 Z2"))
        a1.make_order("o3", "acme-ca", "Z", 1, 1, 5)
        a1.import_serials("acme-ca", rows("Z2 Z3"))
        a2.register(THREE, "o2", DIGEST, self.chip(THREE).read())
        a2.register(TWO, "o2", DIGEST, self.chip(TWO).read())
        a2.plan(TWO, [bit("JTAG_DISABLE", 0)])
        b1.import_map(MAP)
        b1.make_order("b", "bolt-ca", "B", 3, 1, 5)
        b1.register(MAC, "b", DIGEST, self.chip().read())
        b1.register(FOUR, "b", DIGEST, self.chip(FOUR).read())
        for it in (a1, a2, b1):
            it.close()
        self.program.kill()
        (self.folder / "honest").mkdir()
        for file in self.folder.glob("books.db*"):
            shutil.copy(file, self.folder / "honest")

    def audited(self, name, sql=(), journal="a1", change=None, keeps_digests=False, more=(), behind=lambda _: None):
        """The plant, changed so: the status of its audit, and what it says. `behind` changes the folder of journals."""
        folder = self.folder / re.sub(r"\W", "-", name)
        shutil.copytree(self.folder / "honest", folder)
        for seat in ("a1", "a2", "b1"):
            lines = [{**json.loads(it), "seat": seat} for it in
                     (self.folder / f"{seat}.journal").read_text("ascii").splitlines()]
            if change and seat == journal:
                lines = change(lines) or lines
                for line in lines if not keeps_digests else ():
                    if "asked" in line:
                        line["digest"] = request_digest(line["path"], line["asked"])
            (folder / f"{seat}.journal").write_text("".join(f"{json.dumps(it)}\n" for it in lines), "ascii")
        with contextlib.closing(sqlite3.connect(folder / "books.db")) as base:
            for statement in sql:
                self.assertNotEqual(base.execute(statement).rowcount, 0, statement)
            base.commit()
        behind(folder)
        return audited(folder / "books.db", folder, *ALWAYS, *more)

    def test_honest(self):
        """Members that the server passes over mean nothing, however they change, and whichever digest a log has."""

        def more(lines):
            for line in lines:
                if "asked" in line:
                    line["asked"]["note"] = [line["at"]]
                    for wish in line["asked"].get("wishes", ()):
                        wish["why"] = "so"

        def older(lines):
            more(lines)
            for line in lines:
                if "asked" in line:
                    line["digest"] = whole_digest(line["path"], line["asked"])

        for name, change, keeps in (("none", None, False), ("named", more, False), ("older", older, True),
                                    ("a stale digest", more, True)):
            with self.subTest(name):
                status, out, told = self.audited(name, change=change, keeps_digests=keeps)
                self.assertEqual((status, "Nothing found." in out), (0, True), out + told)
        for seat in ("a1", "a2", "b1"):
            with self.subTest(f"the last reply of {seat} was lost"):
                status, out, told = self.audited(f"lost {seat}", journal=seat, change=lambda lines: lines[:-1])
                self.assertEqual((status, "Nothing found." in out), (0, True), out + told)

    def test_kept_replies(self):
        """A seat's last request has no reply in its line: the store's is held to all that a line's is held to. The last
        ones are an import of Z2 and Z3, a plan of TWO, and a registration."""
        wide = ' { "batch1"'
        for seat, old, new, words in (
            ("a1", '"added":1,"present":1', '"added":2,"present":0', "added is 2 in the store, and 1 by the program"),
            ("a2", '"mask":"00000040"', '"mask":"00000060"', "batch1 is {"),
            ("a2", '"awaiting1"', '"settled"', "state is settled in the store, and awaiting1"),
            ("a2", '{"batch1"', wide, "number 3 isn't as a server writes it"),
            ("a2", '{"batch1"', '{"state":"settled","batch1"', "number 3 isn't as a server writes it"),
            ("a2", ',"state":"awaiting1"', "", "number 3 isn't as a server writes it: state"),
            ("b1", '"mask":"00008000"', '"mask":"00008001"', "bits is ["),
            ("b1", '"reason":null', '"reason":"stray"', "number 4 isn't as a server writes it: reason"),
        ):
            with self.subTest(words):
                sql = f"UPDATE seat SET reply = replace(reply, '{old}', '{new}') WHERE name = '{seat}' AND reply LIKE "
                status, out, told = self.audited(f"kept {seat} {new}", [f"{sql}'%{old}%'"], seat, lambda it: it[:-1])
                self.assertEqual((status, words in out), (1, True), out + told)

    def test_a_seat_without_a_journal(self):
        """All of its entries lie in front of all lines, and it has no other request."""
        front = ("UPDATE ledger SET id = -id - 3 WHERE id <= 7", "UPDATE ledger SET id = id - 7 WHERE seat = 'a2'",
                 "UPDATE ledger SET id = -id WHERE id < 0")
        status, out, told = self.audited("gone", front, behind=lambda it: (it / "a2.journal").unlink())
        words = "no journal of this seat was given: 3 entries of it have no line"
        self.assertEqual((status, words in out, "1 found." in out), (1, True, True), out + told)

    def test_the_site(self):
        """The store's text is the auditor's own file, byte for byte, or it is found."""
        other = self.folder / "other.toml"
        other.write_text((self.folder / "site.toml").read_text("utf-8") + "# more\n", encoding="utf-8")
        own = self.folder / "site.toml"
        for file, status, words in ((own, 0, "Nothing found."), (other, 1, "isn't the given file")):
            found, out, told = self.audited(f"site {file.stem}", more=["--site", file])
            self.assertEqual((found, words in out), (status, True), out + told)

    def test_compressed_journals(self):
        """They are read as they were before; a file that isn't whole is found, and its seat's lines are missing."""

        def packed(folder, end=None):
            for file in folder.glob("*.journal"):
                file.with_name(f"{file.name}.gz").write_bytes(gzip.compress(file.read_bytes())[:end])
                file.unlink()

        for name, end, status, words in (("whole", None, 0, "Nothing found."), ("cut", -9, 1, "no whole file of gzip")):
            found, out, told = self.audited(name, behind=lambda it, end=end: packed(it, end))
            self.assertEqual((found, words in out), (status, True), out + told)

    def test_forged(self):
        """Each of these is found, by these words."""
        order = {"name": "o1", "issuer": "acme-ca", "prefix": "A", "width": 3, "first": 998, "quantity": 2, "macs": 1}
        made = {**order, "mac": "020000000010", "next": "A998", "not_before": None}
        stranger = [{"kind": "value", "field": "JTAG_DISABLE", "value": "0"}]
        work = {"bits": [{"block": 0, "word": 6, "mask": "00000020"}], "keys": {}}
        elsewhere = ("UPDATE orders SET mac = '{0}' WHERE mac IS NOT NULL", "UPDATE given SET mac = '{0}' WHERE chip")
        cases = (
            ("an order twice", (), "a1", instead(of("/v1/map"), 1, "/v1/order", order, made), "refuses it as 16"),
            ("a plan that is refused", (), "a1", changed(of("/v1/plan"), wishes=WISHES + stranger), "refuses it as 23"),
            ("another batch", (), "a1", changed(of("/v1/plan"), reply={"batch1": work}), "batch1 is {"),
            ("another rest", (), "a1", changed(of("/v1/readback"), reply={"rest": work}), "rest is {"),
            ("other bits in a reply", (), "a2", changed(of("/v1/device"), reply=work), "bits is ["),
            ("another order asked", (), "a1", changed(of("/v1/order"), prefix="X"), "prefix is A in the journal,"),
            ("a beginning asked", (), "a1", changed(of("/v1/order"), not_before="20260101000000Z"), "not_before is"),
            ("a number behind a free one", ("UPDATE given SET chip = NULL, mac = NULL WHERE serial = 'A998'",
             "UPDATE ledger SET note = 'A999' WHERE note = 'A998'", "UPDATE device SET serial = 'A999' WHERE serial = "
             "'A998'", "INSERT INTO given SELECT issuer, 'A999', customer, zeroblob(32), '%s', '020000000011',"
             " not_after FROM given WHERE serial = 'A998'" % MAC,
             "INSERT INTO given_start VALUES ('acme-ca', 'A999', NULL)"),
             "a1", both(changed(of("/v1/identity"), reply={"serial": "A999", "mac": "020000000011"}), later_import),
             "serial is A999 in the journal, and A998 by the program"),
            ("a map's digest", (), "a1", changed(of("/v1/map"), reply={"map": 64 * "0"}), "map is 00000000"),
            ("a next number behind a free one", (), "a1", changed(of("/v1/order", name="o2"), reply={"next": "B002"}),
             "next is B002 in the journal, and B001 by the program"),
            ("a next number that was given", (), "a1", changed(of("/v1/order", name="o3"), reply={"next": "Z1"}),
             "next is Z1 in the journal, and Z3 by the program"),
            ("a next number that was given later", (), "a1", changed(of("/v1/order", name="o3"), reply={"next": "Z4"}),
             "next is Z4 in the journal, and Z3 by the program"),
            ("a next number of no order", (), "a1", changed(of("/v1/order", name="o2"), reply={"next": "A001"}),
             "next is A001 in the journal, and B001 by the program"),
            ("present rows", (), "a1", changed(of("/v1/import"), reply={"added": 1, "present": 1}),
             "added is 1 in the journal, and 2 by the program"),
            ("a member less", (), "a1", lambda lines: lines[place_of(lines, of("/v1/identity")) + 1]["reply"].pop("mac")
             and None, "has a reply that isn't as a server writes it: mac"),
            ("a member more", (), "a1", changed(SHIPPED, reply={"more": 1}), "isn't as a server writes it: more"),
            ("a reason at a registration", (), "a1", changed(of("/v1/device"), reply={"reason": "x"}), "it: reason"),
            ("another chip in a reply", (), "a1", changed(SHIPPED, reply={"chip": TWO}), f"chip is {TWO} in"),
            ("an unknown path", UNSHIPPED, "a1", unanswered(SHIPPED, "/v1/none", {}), "refuses it as 7"),
            ("an unknown path alone", UNSHIPPED, "a1", both(unanswered(SHIPPED, "/v1/none", {}), lambda lines: [
                lines.pop(place_of(lines, SHIPPED)), lines.pop(place_of(lines, of("/v1/none")) + 1)]), "it as 7"),
            ("two without a reply", UNSHIPPED, "a1", unanswered(SHIPPED, "/v1/scrap", {"chip": FOUR}), "has no ent"),
            ("a refused one beside it", UNSHIPPED, "a1",
             unanswered(SHIPPED, "/v1/scrap", {"chip": FOUR}, 409), "no ledger has it"),
            ("an order asked late", (), "a1", exchanged(of("/v1/order", name="o1"), of("/v1/device")), "it as 14"),
            ("a map asked late", (), "b1", exchanged(of("/v1/map"), of("/v1/device", FOUR)), "next step of b1"),
            ("addresses of no pool", [it.format("020000000030") for it in elsewhere], "a1", both(
                changed(of("/v1/order"), reply={"mac": "020000000030"}),
                changed(of("/v1/identity"), reply={"mac": "020000000030"})), "mac is 020000000030 in the journal, and"),
            ("addresses behind free ones", [it.format("020000000012") for it in elsewhere], "a1", both(
                changed(of("/v1/order"), reply={"mac": "020000000012"}),
                changed(of("/v1/identity"), reply={"mac": "020000000012"})), "mac is 020000000012 in the journal, and"),
            ("a stranger's seat", ("UPDATE seat SET name = 'zz' WHERE name = 'a2'",
                                   "UPDATE ledger SET seat = 'zz' WHERE seat = 'a2'"), "a2",
             lambda lines: [{**it, "seat": "zz"} for it in lines], "seat zz, which is nobody's by the site"),
            ("another's seat", ("UPDATE ledger SET seat = 'a2' WHERE customer = 'bolt' AND chip = '%s'" % FOUR,), "b1",
             None, "rows of bolt are of the seat a2, which is acme's by the site"),
            ("bits where keys stand", ("UPDATE device SET bits = CAST(bits || X'01' AS BLOB)",), "", None,
             "has bits where keys stand"),
            ("a map's other digest", ("UPDATE map SET digest = zeroblob(32)",), "", None, "has the digest 000000"),
            ("a map of nobody", ("INSERT INTO map VALUES (99, 'x', zeroblob(32))",), "", None, "and 0 customers have"),
            ("no beginning", ("DELETE FROM order_start WHERE ord = 'o2'",), "", None, "an order has no row of"),
            ("another site's text", ("UPDATE site_text SET body = body || '#'",), "", None, "the site's text isn't"),
            ("a row that is referred to", ("DELETE FROM orders WHERE name = 'o2'",), "", None, "refers to a row of o"),
            ("a row that should be", ("DELETE FROM site_text",), "", None, "site_text has no row"),
            ("a number below zero", ("UPDATE ledger SET id = -1 WHERE id = 1",), "", None, "a number below zero"),
        )
        for name, sql, journal, change, words in cases:
            with self.subTest(name):
                status, out, told = self.audited(name, sql, journal, change)
                self.assertEqual((status, words in out), (1, True), out + told)

    def test_forged_orders_of_entries(self):
        """Entries of two chips in each other's place, within a second; and a chip that both sides lack, behind which
        all numbers were given anew."""
        swapped = [f"UPDATE ledger SET id = -id WHERE seat = 'a2' AND chip = '{THREE}'",
                   f"UPDATE ledger SET id = id - 1 WHERE seat = 'a2' AND chip = '{TWO}' AND n = 1",
                   "UPDATE ledger SET id = 1 - id WHERE id < 0"]
        last = json.loads((self.folder / "b1.journal").read_text("ascii").splitlines()[-2])
        digest = request_digest(last["path"], {**last["asked"], "nr": 3})
        gone = [f"DELETE FROM {table} WHERE customer = 'bolt' AND chip = '{MAC}'" for table in ("ledger", "device")]
        gone.append(f"UPDATE seat SET last = 3, digest = X'{digest}' WHERE name = 'b1'")

        def without(lines):
            lines[-2]["asked"]["nr"] = lines[-1]["nr"] = 3
            return lines[:4] + lines[6:]

        for name, sql, journal, change, words in (
            ("swapped", swapped, "", None, "isn't of the next step of a2"),
            ("gone", gone, "b1", without, "none of these ever goes"),
        ):
            with self.subTest(name):
                status, out, told = self.audited(name, sql, journal, change)
                self.assertEqual((status, words in out, "1 found." in out), (1, True, True), out + told)

    def test_two_devices_of_one_dump(self):
        """A chip is registered a second time, under another name: its bits are those of the first one."""
        bits = "SELECT bits FROM device WHERE customer = 'acme' AND chip = '%s'" % THREE
        sql = [f"UPDATE {table} SET bits = ({bits}) WHERE customer = 'acme' AND chip = '{TWO}'{more}"
               for table, more in (("device", ""), ("ledger", " AND n = 1"))]

        def change(lines):
            one, two = (place_of(lines, of("/v1/device", chip)) for chip in (TWO, THREE))
            lines[one]["asked"]["blocks"] = lines[two]["asked"]["blocks"]
            lines[one + 1]["reply"]["bits"] = lines[two + 1]["reply"]["bits"]

        status, out, told = self.audited("dump", sql, "a2", change)
        self.assertEqual((status, f"it shows the factory MAC {THREE}" in out), (1, True), out + told)

    def test_tables_that_no_program_made(self):
        """Without a rule, with an index more, and of another form: such a store is none."""
        given = statements()["given"]
        for name, sql, words in (
            ("without a rule", [given.replace(" given ", " other ").replace(", UNIQUE (issuer, key)", ""),
                                "INSERT INTO other SELECT * FROM given", "DROP TABLE given",
                                "ALTER TABLE other RENAME TO given"], "has another table given than a store"),
            ("an index", ["CREATE INDEX more ON given (mac)"], "has the index more more than a store"),
            ("a table", ["CREATE TABLE more (x)"], "has the table more more than a store"),
            ("a table less", ["DROP TABLE given_start"], "has no table given_start"),
        ):
            with self.subTest(name):
                shutil.copytree(self.folder / "honest", self.folder / name)
                with contextlib.closing(sqlite3.connect(self.folder / name / "books.db")) as base:
                    for statement in sql:
                        base.execute(statement)
                    base.commit()
                status, out, told = audited(self.folder / name / "books.db", self.folder / "a1.journal", *ALWAYS)
                self.assertEqual((status, words in told), (2, True), out + told)


class Rules(unittest.TestCase):
    """The rules of the tables, without a server."""

    def test_the_tables(self):
        """They are those of the program; a renaming changes nothing of them."""
        sources = (ROOT / "crates" / "office_store" / "src").glob("*.rt")
        source = "".join(it.read_text("utf-8") for it in sources)
        own = re.findall(r'"(CREATE TABLE .*?)";', source)
        self.assertEqual(sorted(map(plain, own)), sorted(map(plain, statements().values())))
        with contextlib.closing(sqlite3.connect(":memory:")) as base:
            base.executescript(CREATED)
            self.assertEqual((list(others_of(base.execute)), len(list(excluded(base.execute)))), ([], 1))
            base.executescript("ALTER TABLE orders RENAME TO x; ALTER TABLE x RENAME TO orders")
            self.assertEqual(list(others_of(base.execute)), [])
            base.execute("INSERT INTO seat VALUES ('a9', 'acme', -1, x'', '')")
            self.assertIn("a seat's last number is below 1", " ".join(excluded(base.execute)))
