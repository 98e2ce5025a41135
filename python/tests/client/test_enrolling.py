"""`certify` by the CAs that OEMs have: by sign-cmp and sign-est of deploy/ca as they stand, over openssl and curl.

Whatever fails, and whenever the program or its command is killed, the CA signs for no device twice. What a person does
in between is what the sentence says: look in the CA's list.
"""

import fcntl
import os
import random
import shutil
import signal
import subprocess
import sys
import time
import unittest
from pathlib import Path

from cryptography import x509
from cryptography.hazmat.primitives import hashes, serialization
from cryptography.hazmat.primitives.asymmetric import ec

from certifying import BEGINNING, ORDER, CertificateCase, need
from commanding import CLIENT, NEEDS_KEYS
from issuing import PASSWORD, SECRET, OemCa, cmp_served, est_served
from support import DIGEST, HOST, ROOT, free_port

COUNT = int(os.environ.get("CHIPS") or 12)
WAYS = ("cmp", "est", "est by a password")
PEM = serialization.Encoding.PEM
NEEDS_CURL = unittest.skipUnless(shutil.which("curl"), "there is no curl")


class Oem(CertificateCase):
    """The CA's folder of each way, and what the CA of that way issued."""

    def setUp(self):
        super().setUp()
        self.oem = OemCa(self.folder / "oem", self.ca)

    def by(self, way, port=None):
        """Has a folder of its own ask the CA by a way; certify's words behind the folder."""
        if way == "local":
            return []
        is_cmp, oem = way.startswith("cmp"), self.oem.folder
        if port is None:
            served = (cmp_served if is_cmp else est_served)(self.oem)
            port = served.__enter__()
            self.addCleanup(served.__exit__, None, None, None)
        self.ca = self.folder / way.replace(" ", "-")
        self.ca.mkdir(exist_ok=True)
        file = self.ca / ("cmp.cnf" if is_cmp else "est.conf")
        if is_cmp:
            (self.ca / "cmp.secret").write_text(SECRET, encoding="ascii")
            settings = f"[cmp]\nserver = http://{HOST}:{port}/cmp\nrecipient = /CN=oem\nref = ra1\n"
            settings += "secret = file:cmp.secret\n"
        elif way == "est":
            settings = f'cacert = "{oem}/tls.pem"\ncert = "{oem}/ra.pem"\nkey = "{oem}/ra.key"\n'
        else:
            settings = f'cacert = "{oem}/tls.pem"\nuser = "{PASSWORD}"\n'
        file.write_text(settings, encoding="ascii")
        file.chmod(0o600)
        command = str(ROOT / "deploy" / "ca" / f"sign-{way[:3]}")
        if is_cmp:
            shutil.copy(oem / "ca.pem", self.ca)
            return ["--sign-with", command + way[3:]]
        command += f" https://{HOST}:{port}/.well-known/est"
        need(self.ca, f"{command} cacerts > ca.pem")
        return ["--sign-with", command]

    def lot(self, name, count):
        """So many devices of an order, each with its request in a spool of its own; their serial numbers."""
        self.spool = self.folder / name
        self.spool.mkdir()
        order = {**ORDER, "name": name, "prefix": name, "width": 4, "quantity": count}
        self.seat.make_order(**order, not_before=BEGINNING)
        return [self.asking(name) for _ in range(count)]

    def asking(self, order):
        self.made += 1
        chip, pair = f"240ac4{self.made:06x}", ec.generate_private_key(ec.SECP256R1())
        self.seat.register(chip, order, DIGEST, self.chip(chip).read())
        self.seat.plan(chip, [])
        forms = serialization.Encoding.DER, serialization.PublicFormat.SubjectPublicKeyInfo
        serial = self.seat.identify(chip, pair.public_key().public_bytes(*forms)).serial
        subject = x509.Name([x509.NameAttribute(x509.NameOID.COMMON_NAME, chip)])
        request = x509.CertificateSigningRequestBuilder().subject_name(subject).sign(pair, hashes.SHA256())
        (self.spool / f"{serial}.csr").write_bytes(request.public_bytes(serialization.Encoding.PEM))
        self.oem.serials[chip] = serial
        return serial

    def asked(self):
        return [it.stem for it in self.ca.glob("issued/*.asked")]

    def look_in_the_ca(self):
        """What the sentence has a person do: each certificate that the CA issued goes into the spool; what it hasn't in
        its list is asked for again."""
        for serial in self.asked():
            for pem in [pem for its, pem in self.oem.issued if its == serial]:
                (self.spool / f"{serial}.pem").write_bytes(pem)
            if not (self.spool / f"{serial}.pem").exists():
                (self.ca / "issued" / f"{serial}.asked").unlink()

    def each_once(self, serials):
        """Each device has its certificate, the only one that the CA issued for it, and it is as its record."""
        self.assertEqual(sorted(serial for serial, _ in self.oem.issued), sorted(serials))
        for serial, pem in self.oem.issued:
            self.assertEqual((self.spool / f"{serial}.pem").read_bytes(), pem, serial)
        files = sorted(self.spool.glob("*.pem"))
        status, out, err = self.command("verify", *files, "--trusted", self.ca / "ca.pem")
        self.assertEqual((status, out.count(": as its record\n"), err), (0, len(serials), ""))


@NEEDS_KEYS
@NEEDS_CURL
class Enrolling(Oem):
    def test_each_way(self):
        """Each device gets its certificate, and a second run asks for none."""
        for prefix, way in zip("CDEF", (*WAYS, "cmp cr")):
            with self.subTest(way):
                self.oem.issued.clear()
                words, serials = self.by(way), self.lot(prefix, 2)
                self.counted(2, 0, 0, *words)
                self.counted(0, 2, 0, *words)
                self.each_once(serials)

    def test_what_befalls(self):
        """A refusal is asked again; of what is lost or comes later nobody asks again before a person looked."""
        unknown = "obody knows whether the certificate of"
        for prefix, way, befalls, told, issued in (
            ("C", "cmp", "refused", "PKIStatus: rejection", 0),
            ("D", "cmp", "lost", unknown, 1),
            ("E", "est", "refused", "the CA refuses it: HTTP 400", 0),
            ("F", "est", "lost", unknown, 1),
            ("G", "est", "later", unknown, 0),
        ):
            with self.subTest(way=way, befalls=befalls):
                self.oem.issued.clear()
                words, serials = self.by(way), self.lot(prefix, 2)
                self.oem.befalls.append(befalls)
                status, counts, err = self.certify(*words)
                self.assertEqual((status, counts), (2, {"issued": 0, "present": 0, "refused": 0}), err)
                self.assertIn(told, err)
                self.assertEqual(len(self.oem.issued), issued)
                self.assertEqual(self.asked(), serials[:1] if told == unknown else [])
                if self.asked():
                    self.assertIn(f"was asked for the certificate of {serials[0]}", self.counted(1, 0, 1, *words))
                    self.look_in_the_ca()
                self.assertEqual(self.certify(*words)[0], 0)
                self.each_once(serials)

    def test_nothing_is_asked(self):
        """Where nobody is there, another one is, the password is wrong, or others can read the settings."""
        words, (serial,) = self.by("est by a password"), self.lot("C", 1)
        file = self.ca / "est.conf"
        right = file.read_text(encoding="ascii")
        away = [words[0], words[1].replace(words[1].rpartition(":")[2], f"{free_port()}/.well-known/est")]
        for text, mode, its, told in (
            (right, 0o600, away, "Connection refused|Couldn't connect|Failed to connect"),
            (right.replace("tls.pem", "ra.pem"), 0o600, words, "certificate"),
            (right.replace("long", "short"), 0o600, words, "the CA refuses it: HTTP 401"),
            (right, 0o640, words, "others can read est.conf"),
            (right, 0o600, ["--sign-with", "/none/sign"], "here is no command /none/sign that starts"),
        ):
            with self.subTest(told):
                file.write_text(text, encoding="ascii")
                file.chmod(mode)
                status, _, err = self.certify(*its)
                self.assertEqual((status, self.asked(), self.oem.issued), (2, [], []), err)
                self.assertRegex(err, told)
        file.chmod(0o600)
        self.counted(1, 0, 0, *words)
        self.each_once([serial])

    def test_a_command_that_is_killed(self):
        """Its CA may have signed: a person looks. So it is with each status that doesn't say that it has not."""
        self.by("cmp", port=1)
        serial, script = self.lot("C", 1)[0], self.folder / "sign"
        for ends, is_asked in (("kill -9 $$", True), ("exit 75", True), ("exit 137", True), ("exit 63", False)):
            with self.subTest(ends):
                script.write_text(f"#!/bin/sh\n{ends}\n", encoding="ascii")
                script.chmod(0o755)
                status, _, err = self.certify("--sign-with", script)
                self.assertEqual((status, self.asked()), (2, [serial] if is_asked else []), err)
                self.look_in_the_ca()

    def test_killed_at_random(self):
        """By each way, the program alone or its command too, at any moment: no serial number has two certificates."""
        for prefix, way in zip("KLM", ("local", "cmp", "est")):
            with self.subTest(way):
                self.oem.issued.clear()
                words, serials, chance = self.by(way), self.lot(prefix, COUNT), random.Random(prefix)
                kills, amid = self.killed_until_done(words, chance)
                self.assertGreaterEqual(kills, COUNT // 12)
                if way == "local":
                    copies = map(x509.load_pem_x509_certificate, map(Path.read_bytes, self.ca.glob("newcerts/*.pem")))
                    copies = list(copies)
                    named = [it.subject.get_attributes_for_oid(x509.NameOID.SERIAL_NUMBER) for it in copies]
                    its = [(it[0].value, copy.public_bytes(PEM)) for it, copy in zip(named, copies) if it]
                    self.oem.issued.extend(its)
                self.each_once(serials)
                done = f"{len(set(serials))} serial numbers, {len(self.oem.issued)} certificates"
                print(f"{way}: {done}; {kills} kills, {amid} amid a signature", flush=True)

    def killed_until_done(self, words, chance):
        """Begins again and again what is killed, until all have their certificates; how often it was killed, and of how
        many certificates that left unknown whether they were signed."""
        kills = amid = 0
        command = ["--url", self.program.url, "--token", self.folder / "look", "certify", self.spool]
        command += ["--ca-folder", self.ca, *words]
        for _ in range(9 * COUNT):
            running = subprocess.Popen(
                [sys.executable, "-B", "-m", "wanekupo", *map(str, command)],
                cwd=CLIENT, stdout=subprocess.DEVNULL, stderr=subprocess.DEVNULL, start_new_session=True,
            )  # fmt: skip
            goal = len(list(self.spool.glob("*.pem"))) + chance.randrange(12 if kills else 4)
            while running.poll() is None and len(list(self.spool.glob("*.pem"))) < goal:
                time.sleep(0.01)
            time.sleep(chance.random() / (5 if kills else 50))
            if running.poll() is None:
                (os.killpg if chance.random() < 0.5 else os.kill)(running.pid, signal.SIGKILL)
            kills += running.wait() == -signal.SIGKILL
            self.wait_for_its_command()
            if running.returncode in (0, 1) and not self.asked():
                return kills, amid
            amid += len(self.asked())
            self.look_in_the_ca()
        self.fail(f"killed {kills} times, and not done")

    def wait_for_its_command(self):
        """A command that goes on alone keeps the CA's folder."""
        lock = self.ca / "certify.lock"
        if lock.exists():
            with open(lock, "rb") as opened:
                fcntl.flock(opened, fcntl.LOCK_EX)
