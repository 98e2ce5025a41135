"""The command `manifest`: its list against the replies and the store, what it refuses, and what stands beside it."""

import base64
import csv
import hashlib
import importlib.util
import io
import json
import os
import pty
import re
import shutil
import subprocess
import sys
import zipfile
from unittest import mock
from xml.etree import ElementTree

from support import DIGEST, MAP, Proxy, StationCase, exchanged, whole
from commanding import CLIENT, NEEDS_KEYS, made_key, ran

import wanekupo.seat.lot_records
from wanekupo.common import signing
from wanekupo.common.errors import BadSettings

HAS_SHEETS = importlib.util.find_spec("openpyxl")
COLUMNS = "serial issuer chip mac addresses key_sha256 not_before not_after state map order".split()
BEGINNING = "20260101000000Z"
LIST = b"/v1/devices?after="
FIRST = {"name": "o2", "issuer": "acme-ca", "prefix": "A", "width": 3, "first": 998, "quantity": 2, "macs": 2}
SECOND = FIRST | {"name": "-1", "prefix": "-B", "first": 1, "quantity": 9, "macs": 0}


# What a part knows the token of these tests by.
TOKEN = hashlib.sha256(b"abc").hexdigest().encode()


class Forging(Proxy):
    """Changes replies on their way: each pattern's first find in a reply becomes what is beside it."""

    changes: list[tuple[bytes, bytes]] = []
    asked: list[bytes] = []
    meanwhile = None

    def pass_on(self, client):
        request = whole(client)
        self.asked = [*self.asked, request.split(b" ")[1]]
        if self.meanwhile and b"/v1/devices" in request:
            self.meanwhile()
        reply = exchanged(self.program.port, request)
        head, _, body = reply.partition(b"\r\n\r\n")
        for old, new in self.changes:
            body = re.sub(old, new, body, count=1)
        kind = re.search(rb"(?i)content-type: [^\r]*", head)[0]
        status = head.split(b"\r\n")[0]
        client.sendall(b"%s\r\n%s\r\nContent-Length: %d\r\n\r\n%s" % (status, kind, len(body), body))


def line_of(row):
    """A row as a part has it: behind its SHA-256."""
    return hashlib.sha256(row + b"\n").hexdigest().encode() + b" " + row


def colons(address):
    """An address as a label has it."""
    return ":".join(re.findall("..", address or ""))


def shown_of(row):
    """A row of replies as a list for people has it."""
    addresses = {"addresses": " ".join(map(colons, row["addresses"])), "chip": colons(row["chip"])}
    addresses["mac"] = colons(row["mac"])
    return [{**row, **addresses}[name] or "" for name in COLUMNS]


def cells_of(file):
    """The texts of a sheet, and the kinds and formats of its cells, by the parts of the file (ECMA-376, part 1, 18.3).
    A kind of inlineStr is a text, and format 49 is Text."""
    space = {"": "http://schemas.openxmlformats.org/spreadsheetml/2006/main"}
    with zipfile.ZipFile(file) as parts:
        sheet, styles = (ElementTree.fromstring(parts.read(f"xl/{it}.xml")) for it in ("worksheets/sheet1", "styles"))
    formats = [it.get("numFmtId") for it in styles.findall("cellXfs/xf", space)]
    rows = [row.findall("c", space) for row in sheet.findall("sheetData/row", space)]
    kinds = {(it.get("t"), formats[int(it.get("s"))]) for row in rows for it in row}
    return [["".join(it.itertext()) for it in row] for row in rows], kinds


class Manifest(StationCase):
    """Devices of two orders in each state: what is listed has a serial number."""

    over_office = True

    def setUp(self):
        super().setUp()
        (self.folder / "look").write_text("abc", encoding="ascii")
        self.seat = self.station()
        self.seat.import_map(MAP)
        self.seat.make_order(**FIRST, not_before=BEGINNING)
        self.seat.make_order(**SECOND)
        states = "o2 shipped, -1 identified, -1 scrapped, o2 identified, -1 lost, -1 settled"
        for place, words in enumerate(states.split(", ")):
            self.device(place, *words.split())

    def device(self, place, order, state):
        mac = f"240ac40000{place:02x}"
        self.seat.register(mac, order, DIGEST, self.chip(mac).read())
        if state != "lost":
            self.seat.plan(mac, [])
        if state in ("identified", "shipped", "scrapped"):
            self.seat.identify(mac, bytes([place]))
        {"shipped": self.seat.ship, "scrapped": self.seat.scrap, "lost": self.seat.scrap}.get(state, str)(mac)

    def manifest(self, *words, url=None):
        common = ("--url", url or self.program.url, "--token", self.folder / "look")
        return ran(*common, *(("--patience", 0) if url else ()), "manifest", *words)

    def rows(self):
        """The rows as the server's replies have them, by order and serial number."""
        rows = []
        for listed in self.asked("GET", "/v1/devices?after=")[1]["devices"]:
            if listed["serial"]:
                chip = listed["chip"]
                record, device = (self.asked("GET", f"/v1/{it}?chip={chip}")[1] for it in ("identity", "device"))
                order = self.asked("GET", f"/v1/order?name={listed['order']}")[1]
                mac = record["mac"]
                addresses = [f"{int(mac, 16) + it:012x}" for it in range(order["macs"])] if mac else []
                more = {"addresses": addresses, "map": device["map"], "state": device["state"], "order": order["name"]}
                rows.append({**record, **more})
        return sorted(rows, key=lambda it: (it["order"], it["serial"]))

    def test_the_list(self):
        """As JSON and as comma-separated values, of all orders and of one."""
        expected = self.rows()
        states = {it["serial"]: it["state"] for it in expected}
        wanted = {"-B001": "identified", "-B002": "scrapped", "A998": "shipped", "A999": "identified"}
        self.assertEqual((list(states), states), (list(wanted), wanted))
        status, out, err = self.manifest("--all", "--json")
        self.assertEqual((status, [json.loads(it) for it in out.splitlines()], err), (0, expected, ""))
        status, out, err = self.manifest("--all")
        shown = [shown_of(it) for it in expected]
        self.assertEqual((status, list(csv.reader(io.StringIO(out)))), (0, [COLUMNS, *shown]))
        said = "begins as a formula does; so is 1 more of this column"
        lines = [f"warning: serial '-B001' {said}", f"warning: order '-1' {said}"]
        self.assertEqual(err.splitlines(), [*lines, "Import these columns as text, or give --xlsx FILE."])
        status, out, _ = self.manifest("o2")
        self.assertEqual((status, out), (0, "".join(f"{','.join(it)}\n" for it in [COLUMNS, *shown[2:]])))

    def test_what_a_spreadsheet_reads(self):
        """Serial numbers that one changes are told, and a list of text cells has each as it is."""
        forms = ("1E", 3, "is a number to a spreadsheet"), ("MAR-", 1, "may be a date, another number"), ("T", 4, "")
        for place, (prefix, width, _) in enumerate(forms):
            order = {"name": f"h{place}", "prefix": prefix, "width": width, "first": 1, "quantity": 2, "macs": 0}
            self.seat.make_order(**FIRST | order)
            self.device(32 + place, order["name"], "identified")
        file, sheet = self.folder / "lot.csv", self.folder / "lot.xlsx"
        names = [f"h{place}" for place in range(len(forms))]
        status, _, err = self.manifest(*names, "--out", file)
        told = [f"warning: serial '{prefix}{1:0{width}}' {it}" for prefix, width, it in forms if it]
        lines = err.splitlines()
        self.assertEqual((status, len(lines)), (0, len(told) + 1), err)
        self.assertTrue(all(line.startswith(it) for line, it in zip(lines, told)), err)
        status, _, err = self.manifest(*names, "--out", file, "--xlsx", sheet)
        if not HAS_SHEETS:
            self.assertEqual((status, sheet.exists()), (2, False), err)
            self.assertIn("Install Debian's python3-openpyxl", err)
            return
        expected = [shown_of(it) for it in self.rows() if it["order"] in names]
        self.assertEqual((status, cells_of(sheet)), (0, ([COLUMNS, *expected], {("inlineStr", "49")})), err)
        self.assertIn(f"or open {sheet}.", err)
        digest = hashlib.sha256(sheet.read_bytes()).hexdigest()
        self.assertEqual((self.folder / "lot.xlsx.sha256").read_text(), f"{digest}  lot.xlsx\n")

    def test_a_chip_as_a_list_has_it(self):
        for words in (["device", "24:0A:c4:00:00:01"], ["identity", "24:0a:c4:00:00:01"]):
            status, out, err = ran("--url", self.program.url, "--token", self.folder / "look", *words)
            self.assertEqual((status, out and json.loads(out)["chip"]), (0, "240ac4000001"), err)

    def test_given_elsewhere(self):
        """Serial numbers that an import gave are no device's here, as behind a restore: the list says how many."""
        rows = [("-B003", "11" * 32), ("-B009", "22" * 32), ("C1", "33" * 32)]
        self.seat.import_all("acme-ca", rows)
        for words, told in ((["--", "-1"], True), (["o2"], False), (["--all"], True)):
            with self.subTest(words):
                status, _, err = self.manifest(*words)
                said = "warning: 2 serial numbers of -1 are given and not in this list"
                self.assertEqual((status, said in err), (0, told), err)

    def test_what_is_refused(self):
        """Words, and a list that isn't the report's; nothing is left but the part."""
        proxy = self.proxy(kind=Forging)
        for words, changes, told in (
            ([], [], "isn't said of which orders"),
            (["o2", "--all"], [], "rders are named, and --all is given"),
            (["none"], [], "(refusal 14, unknown_order)"),
            (["o2", "--minisign", "x"], [], "no key's file x"),
            (["o2", "--minisign", "x", "--cms", "y", "--cms-key", "z"], [], "wo are said to sign"),
            (["o2", "--cms", "y"], [], "isn't said who signs"),
            (["o2", "--aws", "x"], [], "nly a file is signed"),
            (["o2", "--out", "x", "--aws", "./x"], [], "ne file is named twice"),
            (["o2", "--xlsx", "x"], [], "nly a file is signed"),
            (["o2", "--out", "none/x"], [], "here is no folder none. Make it"),
            (["o2", "--crl", "x"], [], "none is named. Give --spool"),
            (["o2", "--crl", "x", "--spool", self.folder], [], "Give --crl and --trusted."),
            (["o2", "--spool", self.folder / "none"], [], "here is no spool folder"),
            (["--all"], [(rb"o2,2,0,0,0,1,1,", rb"o2,2,0,0,0,2,1,")], "list has 1 devices of o2 that are identified"),
            (["--all"], [(rb'"serial":"A999"', b'"serial":null')], "is identified, and its serial number is"),
            (["--all"], [(rb'("o2","reason":null,"serial":)"A998"', rb'\1"A997"')], "isn't that of the list"),
            (["--all"], [(rb'"issuer":"acme-ca","key', rb'"issuer":"=1+1","key')], "issuer isn't as it has to be"),
            (["--all"], [(rb'"key_sha256":"..', rb'"key_sha256":"zz')], "key_sha256 isn't as it has to be"),
            (["--all"], [(rb'"map":"[0-9a-f]*"', rb'"map":"\\u001b[2J"')], "map isn't as it has to be"),
            (["--all"], [(rb"-1,9", rb"-2,9")], "(refusal 14, unknown_order)"),
        ):
            with self.subTest(words=words, changes=changes):
                proxy.changes = changes
                status, out, err = self.manifest(*words, url=proxy.url)
                self.assertEqual((status > 0, out, told in err), (True, "", True), err)
                self.assertFalse(re.search(r"[\x00-\x09\x0b-\x1f]", err))

    def test_devices_that_get_on_meanwhile(self):
        """One is in the list, or the list is read anew; where it never rests nothing is given."""
        proxy = self.proxy(kind=Forging)
        proxy.meanwhile = lambda: proxy.asked.count(LIST) < 2 and self.device(7, "-1", "identified")
        status, out, err = self.manifest("--all", "--json", url=proxy.url)
        self.assertEqual((status, [json.loads(it) for it in out.splitlines()]), (0, self.rows()), err)
        self.assertEqual(len(out.splitlines()), 5)
        proxy.meanwhile = lambda: proxy.changes.append((rb"o2,2,0,0,0,.,1,", b"o2,2,0,0,0,%d,1," % len(proxy.changes)))
        proxy.changes = []
        status, out, err = self.manifest("--all", url=proxy.url)
        self.assertEqual((status, out, "devices got on while their list was read" in err.lower()), (2, "", True), err)

    def test_it_goes_on(self):
        """With the records of the part, but for lines that are none, of another chip, or behind a cut one."""
        proxy, file = self.proxy(kind=Forging), self.folder / "lot.csv"
        self.manifest("--all", "--out", file, url=proxy.url)
        whole_list, part = file.read_bytes(), self.folder / "lot.csv.part"
        self.assertFalse(part.exists())
        digest = hashlib.sha256(whole_list).hexdigest()
        self.assertEqual((self.folder / "lot.csv.sha256").read_text(), f"{digest}  lot.csv\n")
        head, rows = self.part_of(proxy)
        other = rows[0].replace(b'"-B001"', b'"-B003"')
        key = b'"key_sha256": "'
        digit = rows[1].partition(key)[2][:1]
        changed = line_of(rows[1]).replace(key + digit, key + (b"1" if digit == b"0" else b"0"))
        good = [line_of(it) for it in rows]
        for name, lines, asked in (
            ("whole", [head, *good], 0),
            ("half a line", [head, good[0], good[1][:150]], 3),
            ("an empty one", [head, b"", *good], 4),
            ("a changed digit", [head, good[0], changed, *good[2:]], 3),
            ("without digests", [head, *rows], 4),
            ("another serial number", [head, line_of(other), *good[1:]], 1),
            ("another state", [head, *(line_of(it.replace(b"identified", b"shipped")) for it in rows)], 0),
            ("another's", [head.replace(TOKEN, 64 * b"0"), *good], 4),
            ("no form", [head, line_of(rows[0].replace(b"acme-ca", b"=1")), *good[1:]], 4),
        ):
            with self.subTest(name):
                part.write_bytes(b"\n".join(lines) + (b"" if name == "half a line" else b"\n"))
                part.chmod(0o600)
                proxy.asked = []
                status, _, err = self.manifest("--all", "--out", file, url=proxy.url)
                self.assertEqual((status, file.read_bytes() == whole_list, part.exists()), (0, True, False), err)
                self.assertEqual(sum(b"/v1/identity" in it for it in proxy.asked), asked)

    def test_it_is_cut_again(self):
        """What came stays; a link in the part's place is refused."""
        proxy, file, part = self.proxy(kind=Forging), self.folder / "lot.csv", self.folder / "lot.csv.part"
        head, rows = self.part_of(proxy)
        part.write_bytes(b"\n".join([head, line_of(rows[2]), line_of(rows[1])[:150]]))
        part.chmod(0o600)
        proxy.changes = [(rb'(240ac4000003","issuer":"acme-ca","key_sha256":)"..', rb'\1"zz')]
        with mock.patch.object(wanekupo.seat.lot_records, "AT_A_TIME", 1):
            self.assertEqual(self.manifest("--all", "--out", file, url=proxy.url)[0], 3)
        self.assertEqual(self.kept(part), ["A998", "-B001", "-B002"])
        part.unlink()
        part.symlink_to(self.folder / "look")
        status, _, err = self.manifest("--all", "--out", file)
        self.assertEqual((status, "is a link" in err), (2, True), err)

    def part_of(self, proxy):
        """The first line of a part over a proxy, and the rows of the whole list."""
        head = json.dumps({"token": TOKEN.decode(), "url": proxy.url}).encode()
        return head, [json.dumps({name: row[name] for name in COLUMNS}).encode() for row in self.rows()]

    def kept(self, part):
        """The serial numbers of a part's lines."""
        lines = part.read_text(encoding="ascii").splitlines()[1:]
        return [json.loads(it.partition(" ")[2])["serial"] for it in lines]

    def test_rows_are_kept_soon(self):
        """A list that is cut at its 25th record has 20 of them."""
        proxy, file = self.proxy(kind=Forging), self.folder / "lot.csv"
        self.seat.make_order(**FIRST | {"name": "o3", "prefix": "C", "first": 1, "quantity": 25, "macs": 0})
        for place in range(16, 41):
            self.device(place, "o3", "identified")
        proxy.changes = [(rb'(240ac4000028","issuer":"acme-ca","key_sha256":)"..', rb'\1"zz')]
        self.assertEqual(self.manifest("o3", "--out", file, url=proxy.url)[0], 3)
        self.assertEqual(self.kept(self.folder / "lot.csv.part"), [f"C{it:03}" for it in range(1, 21)])

    def test_what_is_waited_for(self):
        """A terminal shows it in front of the first count."""
        shown, terminal = pty.openpty()
        self.addCleanup(os.close, shown)
        words = ["--url", self.program.url, "--token", self.folder / "look", "manifest", "o2"]
        words = [sys.executable, "-m", "wanekupo", *map(str, words)]
        subprocess.run(words, cwd=CLIENT, stdout=subprocess.DEVNULL, stderr=terminal, timeout=60, check=True)
        os.close(terminal)
        lines = [it.strip() for it in os.read(shown, 4096).decode().split("\r")]
        expected = ["records: waiting for the report and the list of devices", "records: 0 of 2", "records: 2 of 2"]
        self.assertEqual([it for it in lines if it], expected)

    @NEEDS_KEYS
    def test_a_signature_that_fails(self):
        """Nothing new stands under the list's name then: an earlier list stays with its signature, and the part is
        there. All that is written has one mode."""
        self.addCleanup(os.umask, os.umask(0o077))
        for name in ("one", "two"):
            made_key(self.folder, name)
        words = ["openssl", *"req -x509 -key one.key -subj /CN=lots -out lots.pem".split()]
        subprocess.run(words, cwd=self.folder, check=True)
        whole = ["", ".p7s", ".sha256"]
        cases = ("two", "o2", [".part"]), ("one", "o2", whole), ("two", "--all", [*whole, ".part"])
        for key, order, expected in cases:
            before = {it: it.read_bytes() for it in self.folder.glob("lot.csv*") if it.suffix != ".part"}
            status, there, err = self.signed(key, order)
            self.assertEqual((status, there), (2 if key == "two" else 0, dict.fromkeys(sorted(expected), 0o600)), err)
            if key == "two":
                self.assertEqual({it: it.read_bytes() for it in before}, before, "what was there stays")
        (self.folder / "lot.csv.new").mkdir()
        (self.folder / "lot.csv.new" / "lot.csv.p7s.new").write_bytes(b"of a kill")
        (self.folder / "lot.csv.minisig").write_bytes(b"of another list")
        before = {it: it.read_bytes() for it in self.folder.glob("lot.csv*") if it.is_file()}
        status, _, err = self.manifest("--all", "--out", self.folder / "lot.csv")
        self.assertEqual((status, "this list has no signature to take its place" in err), (2, True), err)
        self.assertEqual({it: it.read_bytes() for it in before}, before, "a signature isn't taken away")
        status, there, err = self.signed("one", "--all")
        self.assertIn("lot.csv.minisig goes, as ", err)
        self.assertEqual((status, there), (0, dict.fromkeys(whole, 0o600)), err)
        words = "openssl cms -verify -binary -inform DER -in lot.csv.p7s -content lot.csv -certfile lots.pem -nointern"
        words = [*words.split(), *"-noverify -out /dev/null".split()]
        subprocess.run(words, cwd=self.folder, check=True, stderr=subprocess.DEVNULL)

    def signed(self, key, order):
        """A list that is signed by a key: the status, the modes of what is there by its ending, and what was told."""
        more = ("--cms", self.folder / "lots.pem", "--cms-key", self.folder / f"{key}.key")
        status, _, err = self.manifest(order, "--out", self.folder / "lot.csv", *more)
        files = sorted(self.folder.glob("lot.csv*"))
        return status, {it.name[len("lot.csv") :]: it.stat().st_mode & 0o777 for it in files}, err

    def test_the_other_key(self):
        """A secret key in a public one's place, and the other way round, is no changed file: by minisign's own keys."""
        if not shutil.which("minisign"):
            self.skipTest("there is no minisign")
        words = "minisign -G -W -f -p lots.pub -s lots.key"
        subprocess.run(words.split(), cwd=self.folder, check=True, stdout=subprocess.DEVNULL)
        file, public, secret = (self.folder / it for it in ("lot.csv", "lots.pub", "lots.key"))
        status, _, err = self.manifest("o2", "--out", file, "--minisign", public)
        self.assertEqual((status, "is a public key, which signs nothing" in err), (2, True), err)
        status, _, err = self.manifest("o2", "--out", file, "--minisign", secret)
        self.assertEqual(status, 0, err)
        signing.verify(file, public)
        self.assertRaisesRegex(BadSettings, "lots.key is no public key", signing.verify, file, secret)
        (self.folder / "lot.csv.p7s").touch()
        self.assertRaisesRegex(BadSettings, "lots.key has no certificate", signing.verify, file, None, secret)
        file.write_bytes(file.read_bytes() + b"x")
        self.assertRaises(signing.BadSignature, signing.verify, file, public)

    @NEEDS_KEYS
    def test_a_spool(self):
        """What it has of a record is in the list and in the clouds' files, where the key is the record's."""
        spool = self.folder / "spool"
        spool.mkdir()
        made_key(self.folder, "one")
        mac = "240ac4000009"
        self.seat.register(mac, "-1", DIGEST, self.chip(mac).read())
        self.seat.plan(mac, [])
        serial = self.seat.identify(mac, (self.folder / "one.der").read_bytes()).serial
        shutil.copy(self.folder / "one.csr", spool / f"{serial}.csr")
        status, out, err = self.manifest("--all", "--json", "--spool", spool)
        found = {it["serial"]: it["csr"] for it in map(json.loads, out.splitlines())}
        der = (self.folder / "one.csr.der").read_bytes()
        self.assertEqual((status, {it for it in found if found[it]}), (0, {serial}), err)
        self.assertEqual(base64.b64decode(found[serial]), der)
        more = ("--out", self.folder / "lot.csv", "--spool", spool, "--aws", self.folder / "aws.jsonl")
        status, _, err = self.manifest("--all", *more)
        self.assertEqual((status, "has no -B001.csr" in err), (2, True), err)
        shutil.copy(self.folder / "one.csr", spool / "A998.csr")
        status, _, err = self.manifest("--all", *more)
        self.assertEqual((status, "with another key than the record" in err), (2, True), err)
