"""A CA's folder, and a spool of devices' requests for certificates, for the tests."""

import json
import shutil
import subprocess

from support import DIGEST, MAP, ROOT, StationCase
from commanding import ran

BEGINNING, END = "20260101000000Z", "99991231235959Z"
ORDER = {"name": "o1", "issuer": "acme-ca", "prefix": "A", "width": 3, "first": 1, "quantity": 30, "macs": 0}


def run(folder, line):
    return subprocess.run(line, shell=True, cwd=folder, capture_output=True, text=True, check=False)


def need(folder, line):
    done = run(folder, line)
    assert done.returncode == 0, done.stderr
    return done.stdout


def made_ca(folder):
    """A CA's folder by the commands at the head of deploy/ca/devices.cnf."""
    folder.mkdir()
    shutil.copy(ROOT / "deploy/ca/devices.cnf", folder / "ca.cnf")
    lines = (folder / "ca.cnf").read_text(encoding="utf-8").splitlines()
    commands = "\n".join(it.removeprefix("#     ") for it in lines if it.startswith("#     "))
    need(folder, f"set -e\n{commands}")
    return folder


class CertificateCase(StationCase):
    """The program with two orders, the CA of acme-ca, and a spool."""

    over_office = True

    def setUp(self):
        super().setUp()
        self.spool, self.pairs = self.folder / "spool", self.folder / "pairs"
        self.spool.mkdir()
        self.pairs.mkdir()
        (self.folder / "look").write_text("abc", encoding="ascii")
        self.ca = made_ca(self.folder / "ca")
        self.seat = self.station()
        self.seat.import_map(MAP)
        self.seat.make_order(**ORDER, not_before=BEGINNING)
        self.seat.make_order(**ORDER | {"name": "o2", "prefix": "B"})
        self.made = 0

    def device(self, order="o1", state="identified", subject=None, key="ec -pkeyopt ec_paramgen_curve:prime256v1"):
        """A device with a key pair of its own, and its request in the spool; its serial number."""
        self.made += 1
        mac = f"240ac40000{self.made:02x}"
        self.seat.register(mac, order, DIGEST, self.chip(mac).read())
        self.seat.plan(mac, [])
        kind = f"-newkey {key} -noenc"
        need(self.pairs, f"openssl req -new {kind} -subj '{subject or f'/CN={mac}'}' -keyout {mac}.key -out {mac}.csr")
        need(self.pairs, f"openssl req -in {mac}.csr -noout -pubkey | openssl pkey -pubin -outform DER -out {mac}.der")
        serial = self.seat.identify(mac, (self.pairs / f"{mac}.der").read_bytes()).serial
        if state != "identified":
            {"shipped": self.seat.ship, "scrapped": self.seat.scrap}[state](mac)
        shutil.copy(self.pairs / f"{mac}.csr", self.spool / f"{serial}.csr")
        return serial

    def command(self, *words):
        return ran("--url", self.program.url, "--token", self.folder / "look", *words)

    def certify(self, *more):
        status, out, err = self.command("certify", self.spool, "--ca-folder", self.ca, *more)
        return status, json.loads(out) if out else None, err

    def counted(self, issued, present, refused, *more):
        """What a run counts; what it told is given."""
        status, counts, err = self.certify(*more)
        expected = {"issued": issued, "present": present, "refused": refused}
        self.assertEqual((status, counts), (1 if refused else 0, expected), err)
        return err

    def in_index(self):
        """The subjects of the certificates that openssl's index has, but the CA's own."""
        rows = (self.ca / "index.txt").read_text(encoding="utf-8").splitlines()
        return sorted(row.split("\t")[5] for row in rows if "CN=" not in row)
