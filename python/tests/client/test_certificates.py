"""The commands `certify` and `verify`, over requests and a CA that openssl makes: what they issue, once, and refuse."""

import json
import os
import re
import shutil
import signal
import subprocess
import sys
import time
from unittest import mock

from support import HOST, free_port
from certifying import BEGINNING, END, ORDER, CertificateCase, need, run
from commanding import CLIENT, NEEDS_KEYS, ran

EXTENSIONS = [
    "X509v3 Basic Constraints: critical",
    "X509v3 Key Usage: critical",
    "X509v3 Subject Key Identifier:",
    "X509v3 Authority Key Identifier:",
]

# The configurations of another command: what each changes in the right one.
CONFIGURATIONS = {
    "right": ("x", "x"),
    "own": ("critical,CA:false", "critical,CA:true"),
    "usage": ("critical,digitalSignature", "critical,digitalSignature,keyAgreement"),
    "mild": ("critical,digitalSignature", "digitalSignature"),
    "without": ("keyid:always", "none"),
    "more": ("[root]", "1.2.3.4 = critical,ASN1:NULL\n[root]"),
}

# The command that signs as it should.
SIGN = (
    'openssl ca -config right.cnf -batch -notext -startdate "$NOT_BEFORE" -enddate "$NOT_AFTER" '
    '-subj "/serialNumber=$SERIAL" -in "$CSR"'
)


def commands_of(another):
    """Commands that sign, and what is told of each that is wrong. `another` is the certificate of another device."""
    return (
        (SIGN, None),
        ("echo hello", "has no certificate"),
        (f"cat {another}", "it has another key than the record"),
        (SIGN.replace("$NOT_AFTER", "20991231235959Z"), "it ends at 20991231235959Z, and the record at 9999"),
        (SIGN.replace("$NOT_BEFORE", "20250101000000Z"), "it begins at 20250101000000Z, and the record at 2026"),
        (SIGN.replace("$SERIAL", "A999"), "its subject is serialNumber=A999 as PrintableString, and not "),
        (SIGN.replace("right", "own"), "it is a CA's"),
        (SIGN.replace("right", "usage"), "its keyUsage is digital signature, key agreement, and not "),
        (SIGN.replace("right", "mild"), "its keyUsage is not critical"),
        (SIGN.replace("right", "without"), "it has no authorityKeyIdentifier"),
        (SIGN.replace("right", "more"), "critical"),
        (SIGN + " -cert other.pem -keyfile other.key", "no chain leads to"),
        ("exit 3", "ended with status 3"),
    )


@NEEDS_KEYS
class Certificates(CertificateCase):
    def test_what_is_issued(self):
        """Each is what the record says, by openssl. A second run issues none, and forgets what a killed one left."""
        first, second = self.device(), self.device("o2", "shipped")
        begun = time.time()
        self.assertEqual(self.counted(2, 0, 0), "")
        (self.ca / f"issued/{first}.asked").touch()
        self.assertEqual(self.counted(0, 2, 0), "")
        self.assertEqual(sorted(it.name for it in self.ca.glob("issued/*")), [f"{it}.pem" for it in (first, second)])
        self.assertEqual(self.in_index(), [f"/serialNumber={it}" for it in (first, second)])
        for serial in (first, second):
            text = need(self.spool, f"openssl x509 -in {serial}.pem -noout -text -certopt no_pubkey,no_sigdump")
            self.assertRegex(text, f"Subject: serialNumber = {serial}\n")
            self.assertIn("Not After : Dec 31 23:59:59 9999 GMT", text)
            shown = [it.strip() for it in text.partition("X509v3 extensions:")[2].splitlines() if it.strip()]
            self.assertEqual([it for it in shown if it.startswith("X509v3")], EXTENSIONS)
            self.assertEqual((shown[1], shown[3]), ("CA:FALSE", "Digital Signature"))
            done = run(self.spool, f"openssl verify -x509_strict -trusted {self.ca}/ca.pem {serial}.pem")
            self.assertEqual((done.returncode, done.stdout), (0, f"{serial}.pem: OK\n"), done.stderr)
            keys = [f"openssl {it} -noout -pubkey" for it in (f"x509 -in {serial}.pem", f"req -in {serial}.csr")]
            self.assertEqual(*(need(self.spool, it) for it in keys))
        begun_then = int(need(self.spool, "date -u -d '2026-01-01 00:00:01' +%s"))
        need(self.spool, f"openssl verify -x509_strict -attime {begun_then} -trusted {self.ca}/ca.pem {first}.pem")
        begins = [need(self.spool, f"openssl x509 -in {it}.pem -noout -startdate") for it in (first, second)]
        self.assertEqual(begins[0], "notBefore=Jan  1 00:00:00 2026 GMT\n")
        issued = time.mktime(time.strptime(begins[1].strip(), "notBefore=%b %d %H:%M:%S %Y GMT")) - time.timezone
        self.assertTrue(begun - 2 < issued < time.time() + 2, begins[1])

    def test_a_few(self):
        """Of a bench's spool, which has one request, no list is read once the CA has its issuer, unless another chip is
        said to have the number."""
        wire, lists = self.proxy(), []
        two = "/CN=240ac4000001/CN=240ac4000002"
        for subject, refused in ((None, 0), (None, 0), ("/CN=chip", 0), ("/CN=240ac4000001", 1), (two, 1)):
            serial = self.device(subject=subject)
            (alone := self.folder / serial).mkdir()
            shutil.move(self.spool / f"{serial}.csr", alone)
            words = ["--url", wire.url, "--token", self.folder / "look", "certify", alone, "--ca-folder", self.ca]
            status, out, err = ran(*words)
            self.assertEqual((status, json.loads(out)["issued"]), (refused, 1 - refused), err)
            lists.append(sum(b"GET /v1/devices?" in asked for _, asked in wire.seen))
            wire.seen.clear()
        self.assertEqual(lists, [1, 0, 1, 1, 1])

    # What is refused.

    def test_what_is_refused(self):
        """Each is told in a sentence, gets nothing, and the others go on."""
        fine = self.device()
        cases = []
        for name, told in (
            ("another's key", "has another key than the record of the chip 240ac4000002"),
            ("a broken signature", "the signature of this request for a certificate doesn't hold"),
            ("another chip", "names the chip 240ac4ffffff, and its record is of 240ac4000004"),
            ("scrapped", "is of the chip 240ac4000005, which is scrapped"),
            ("no request", "has no request for a certificate"),
            ("a link", "is a link, and isn't followed"),
            ("too long", "is longer than 65536 bytes"),
        ):
            subject = "/CN=240ac4ffffff" if name == "another chip" else None
            serial = self.device(state="scrapped" if name == "scrapped" else "identified", subject=subject)
            cases.append((name, serial, told))
            self.spoil(name, self.spool / f"{serial}.csr", fine)
        (self.spool / "Z999.csr").write_bytes((self.spool / f"{fine}.csr").read_bytes())
        cases.append(("no device", "Z999", "his customer has no device with the serial number Z999"))
        err = self.counted(1, 0, len(cases))
        self.assertNotIn("Make it anew", err)
        for name, serial, told in cases:
            with self.subTest(name):
                lines = [it for it in err.splitlines() if serial in it]
                self.assertEqual((len(lines), told in err), (1, True), err)
                self.assertFalse((self.spool / f"{serial}.pem").exists())
        self.assertEqual(self.in_index(), [f"/serialNumber={fine}"])

    def spoil(self, name, file, fine):
        if name == "another's key":
            shutil.copy(self.spool / f"{fine}.csr", file)
        elif name == "a broken signature":
            words = ["openssl", "req", "-in", file, "-outform", "DER"]
            der = bytearray(subprocess.run(words, capture_output=True, check=True).stdout)
            der[-1] ^= 1
            file.write_bytes(der)
        elif name == "no request":
            file.write_bytes(b"-----BEGIN CERTIFICATE REQUEST-----\nAAAA\n")
        elif name == "a link":
            file.rename(self.folder / "elsewhere")
            file.symlink_to(self.folder / "elsewhere")
        elif name == "too long":
            file.write_bytes(file.read_bytes() + 65536 * b"\n")

    def test_forms_of_a_request(self):
        """PEM with the line ends of Windows, and DER; what it asks for beside its key isn't copied."""
        windows, der, asking = self.device(), self.device(), self.device()
        file = self.spool / f"{windows}.csr"
        file.write_bytes(file.read_bytes().replace(b"\n", b"\r\n"))
        need(self.spool, f"openssl req -in {der}.csr -outform DER -out der; mv der {der}.csr")
        more = "-addext basicConstraints=critical,CA:true -addext keyUsage=keyCertSign"
        need(self.spool, f"openssl req -new -key ../pairs/240ac4000003.key -subj /O=x/CN=y {more} -out {asking}.csr")
        self.counted(3, 0, 0)
        for serial in (windows, der, asking):
            text = need(self.spool, f"openssl x509 -in {serial}.pem -noout -ext basicConstraints,keyUsage -subject")
            self.assertEqual((text.count("CA:FALSE"), text.count("Certificate Sign")), (1, 0), text)
            self.assertIn(f"subject=serialNumber = {serial}\n", text)

    def test_a_spool_that_is_none(self):
        """Nothing is asked for and nothing signed."""
        serial = self.device()
        for name, change, back, told in (
            ("another can write it", "chmod o+w spool", "chmod o-w spool", "thers can write the folder"),
            ("a secret key", "cp pairs/*1.key spool/x.key", "rm spool/x.key", "has a private key"),
            ("a secret key behind a request", f"cat pairs/*1.key >> spool/{serial}.csr", None, "has a private key"),
        ):
            with self.subTest(name):
                kept = (self.spool / f"{serial}.csr").read_bytes()
                need(self.folder, change)
                status, _, err = self.certify()
                self.assertEqual((status, told in err, self.in_index()), (2, True, []), err)
                need(self.folder, back or "true")
                (self.spool / f"{serial}.csr").write_bytes(kept)
        for name in ("a001.csr", "A 1.csr", "A1$(touch x).csr", "-subj.csr.csr"):
            (self.spool / name).write_bytes(kept)
        err = self.counted(1, 0, 0)
        self.assertEqual(err.count("is passed over: its name isn't a serial number"), 4, err)

    # One for each record.

    def test_one_for_each_record(self):
        """Whatever is in the spools, and whoever runs beside."""
        serial, other = self.device(), self.device()
        self.counted(2, 0, 0)
        kept = (self.spool / f"{serial}.pem").read_bytes()
        second = self.folder / "second"
        second.mkdir()
        shutil.copy(self.spool / f"{serial}.csr", second)
        first, self.spool = self.spool, second
        self.counted(0, 1, 0)
        self.assertEqual((second / f"{serial}.pem").read_bytes(), kept)
        shutil.copy(first / f"{other}.pem", second / f"{serial}.pem")
        self.assertIn("is another certificate than the one", self.counted(0, 0, 1))
        shutil.rmtree(self.ca / "issued")
        told = f"its subject is serialNumber={other} as PrintableString, and not serialNumber={serial} as"
        self.assertIn(told, self.counted(0, 0, 1))
        self.spool = first
        self.counted(0, 2, 0)
        need(self.ca, f"openssl ca -config ca.cnf -revoke ../spool/{serial}.pem")
        revoked = f"certificate of {serial} was revoked"
        self.assertIn(revoked, self.counted(0, 1, 1))
        need(self.ca, "openssl ca -config ca.cnf -gencrl -out ca.crl")
        self.assertIn("Version 2", need(self.ca, "openssl crl -in ca.crl -noout -text"))
        files, trusted = [first / f"{it}.pem" for it in (serial, other)], ("--trusted", self.ca / "ca.pem")
        self.assertEqual(self.command("verify", *files, *trusted)[0], 0)
        status, out, err = self.command("verify", *files, *trusted, "--crl", self.ca / "ca.crl")
        said = f"certificate of {serial}, the chip 240ac4000001, and its CA revoked it."
        self.assertEqual((status, out.count("as its record"), said in err), (1, 1, True), err)
        status, out, err = self.command("verify", *files, *trusted, "--crl", self.ca / "ca.pem")
        self.assertEqual((status, out, "has no list of what a CA revoked" in err), (2, "", True), err)
        shutil.rmtree(self.ca / "issued")
        (first / f"{serial}.pem").unlink()
        self.assertIn(revoked, self.counted(0, 1, 1))
        self.assertEqual(self.in_index(), [f"/serialNumber={it}" for it in (serial, other)])

    def test_a_request_of_another(self):
        """One that is put in another's place is refused, where the certificate is there already too."""
        serial, other = self.device(), self.device()
        self.counted(2, 0, 0)
        shutil.copy(self.spool / f"{other}.csr", self.spool / f"{serial}.csr")
        told = f"{serial}.csr has another key than the certificate of its serial number"
        self.assertIn(told, self.counted(0, 1, 1))
        status, counts, err = self.certify("--issuer", "foo")
        self.assertEqual((status, counts), (2, None), err)
        self.assertIn("certifies for acme-ca, and not for foo", err)

    def test_a_signer_that_fails(self):
        """It is asked no second time, and what it signed wrongly has a way out by the words of its sentence."""
        serials = [self.device(), self.device()]
        config = self.ca / "ca.cnf"
        right = config.read_text(encoding="utf-8")
        config.write_text(right.replace("$dir/ca.key", "$dir/none.key"), encoding="utf-8")
        status, counts, err = self.certify()
        self.assertEqual((status, counts), (2, {"issued": 0, "present": 0, "refused": 0}), err)
        self.assertEqual((err.count("wasn't signed"), ":error:" in err), (1, False), err)
        config.write_text(right.replace("critical,digitalSignature", "critical,keyAgreement"), encoding="utf-8")
        status, counts, err = self.certify()
        self.assertEqual((status, counts), (2, {"issued": 0, "present": 0, "refused": 0}), err)
        self.assertEqual(self.in_index(), [f"/serialNumber={serials[0]}"])
        config.write_text(right, encoding="utf-8")
        number = re.search("take newcerts/([0-9A-F]*).pem away and its line out of index.txt, both", err)[1]
        self.assertIn(f"newcerts/{number}.pem away", self.counted(1, 0, 1))
        (self.ca / f"newcerts/{number}.pem").rename(self.folder / "wrong.pem")
        self.assertIn(f"there is no {self.ca}/newcerts/{number}.pem", self.counted(0, 1, 1))
        need(self.ca, f"grep -v {number} index.txt > left; mv left index.txt")
        self.counted(1, 1, 0)
        self.assertEqual(self.in_index(), sorted(f"/serialNumber={it}" for it in serials))

    # Killed at this moment: before openssl signs, behind it, between its certificate and its index, between the two
    # names of its index; and where openssl goes on alone.
    KILLS = {
        "before": "kill -9 $PPID",
        "behind": '"$real" "$@"; kill -9 $PPID',
        "no index": 'cp index.txt kept; "$real" "$@"; mv kept index.txt; kill -9 $PPID',
        "a cut certificate": 'cp index.txt kept; ls newcerts > before; "$real" "$@"; mv kept index.txt; '
        'cd newcerts; new=$(ls | grep -vxFf ../before); truncate -s 100 "$new"; kill -9 $PPID',
        "half an index": '"$real" "$@"; mv index.txt index.txt.new; kill -9 $PPID',
        "alone": 'kill -9 $PPID; sleep 1; "$real" "$@"',
    }

    def wrapped(self, script):
        """A run in which `openssl ca` is a script around it."""
        folder = self.folder / "bin"
        folder.mkdir(exist_ok=True)
        real = shutil.which("openssl")
        wrapper = f'#!/bin/sh\nreal={real}\n[ "$1" = ca ] || exec "$real" "$@"\n{script}\n'
        (folder / "openssl").write_text(wrapper, encoding="ascii")
        (folder / "openssl").chmod(0o755)
        words = ["--url", self.program.url, "--token", self.folder / "look", "certify", self.spool]
        words = [sys.executable, "-m", "wanekupo", *map(str, words), "--ca-folder", str(self.ca)]
        path = {**os.environ, "PATH": f"{folder}:{os.environ['PATH']}"}
        return subprocess.run(words, cwd=CLIENT, env=path, capture_output=True, timeout=60, check=False)

    def subjects(self):
        """The subjects of openssl's own copies."""
        return [need(self.ca, f"openssl x509 -in {it} -noout -subject") for it in self.ca.glob("newcerts/*.pem")]

    def test_openssl_tells_of_no_full_disk(self):
        """Its own copy is written anew where it was cut."""
        serial = self.device()
        cut = 'for it in newcerts/*; do [ "$it" -nt ca.pem ] && truncate -s 0 "$it"; done; true'
        done = self.wrapped(f'"$real" "$@"; {cut}')
        self.assertEqual(json.loads(done.stdout), {"issued": 1, "present": 0, "refused": 0}, done.stderr)
        self.assertIn(f"subject=serialNumber = {serial}\n", self.subjects())
        self.counted(0, 1, 0)

    def test_killed_while_it_signs(self):
        for moment in self.KILLS:
            with self.subTest(moment):
                serial = self.device()
                self.assertEqual(self.wrapped(self.KILLS[moment]).returncode, -signal.SIGKILL)
                if moment == "alone":
                    status, _, err = self.certify()
                    self.assertEqual((status, "nother certify works with" in err), (2, True), err)
                    time.sleep(3)
                is_signed = moment not in ("before", "a cut certificate")
                self.counted(int(not is_signed), self.made - int(not is_signed), 0)
                self.counted(0, self.made, 0)
                signed = self.subjects()
                self.assertEqual(signed.count(f"subject=serialNumber = {serial}\n"), 1, signed)
                self.assertEqual(len(self.in_index()), self.made)

    # Another command.

    def test_another_command(self):
        """What it gives is held to the record before it is kept; where it gave what can't be kept a person looks."""
        config = (self.ca / "ca.cnf").read_text(encoding="utf-8")
        for name, (old, changed) in CONFIGURATIONS.items():
            self.assertIn(old, config)
            (self.ca / f"{name}.cnf").write_text(config.replace(old, changed), encoding="utf-8")
        need(self.ca, "openssl req -x509 -newkey ed25519 -noenc -subj /CN=other -keyout other.key -out other.pem")
        other = self.device("o2")
        self.counted(1, 0, 0)
        script = self.folder / "sign"
        for line, told in commands_of(self.spool / f"{other}.pem"):
            with self.subTest(line):
                serial = self.device()
                script.write_text(f"#!/bin/sh\n{line}\n", encoding="ascii")
                script.chmod(0o755)
                runs = [self.certify("--sign-with", script) for _ in range(2)]
                statuses = [status for status, _, _ in runs]
                is_there = (self.spool / f"{serial}.pem").exists()
                (self.spool / f"{serial}.csr").unlink()
                again = 2 if told and "status" in told else 1
                self.assertEqual((statuses, is_there), ([0, 0], True) if told is None else ([2, again], False), runs)
                self.assertIn(told or "", runs[0][2])
                again = f"was asked for the certificate of {serial}, and gave none" if told else ""
                self.assertIn(told if told and "status" in told else again, runs[1][2])

    def test_a_command_without_an_end(self):
        """It is ended, and the sentence is of the certificate and not of a chip."""
        self.device()
        (self.folder / "sign").write_text("#!/bin/sh\nexec sleep 20\n", encoding="ascii")
        (self.folder / "sign").chmod(0o755)
        with mock.patch("wanekupo.lots.authority.LONGEST", 1):
            status, counts, err = self.certify("--sign-with", self.folder / "sign")
        self.assertEqual((status, counts), (2, {"issued": 0, "present": 0, "refused": 0}), err)
        self.assertIn("didn't end within 1 seconds. No other one was asked for. Look in the CA", err)

    # verify

    def test_verify(self):
        """A certificate against its record, and its chain."""
        serial, other, gone = self.device(), self.device("o2", "shipped"), self.device()
        self.counted(3, 0, 0)
        self.seat.scrap(f"240ac40000{self.made:02x}")
        files = [self.spool / f"{it}.pem" for it in (serial, other)]
        trusted = ("--trusted", self.ca / "ca.pem")
        status, out, err = self.command("verify", *files, *trusted)
        expected = [f"{files[0]}: {serial}, the chip 240ac4000001 of o1, identified: as its record"]
        expected.append(f"{files[1]}: {other}, the chip 240ac4000002 of o2, shipped: as its record")
        self.assertEqual((status, err, out.splitlines()), (0, "", expected))
        need(self.folder, "openssl req -x509 -newkey ed25519 -noenc -subj /CN=other -keyout other.key -out other.pem")
        need(self.folder, f"openssl x509 -in {files[0]} -signkey pairs/240ac4000001.key -out self.pem -clrext")
        need(self.folder, f"openssl x509 -in {files[0]} -outform DER -out one.der")
        root = "-subj /CN=root -addext keyUsage=critical,keyCertSign -keyout root.key -out root.pem"
        need(self.folder, f"openssl req -x509 -newkey ed25519 -noenc {root}")
        more = "basicConstraints=critical,CA:true\nkeyUsage=critical,keyCertSign\nsubjectKeyIdentifier=hash"
        (self.folder / "more").write_text(f"{more}\nauthorityKeyIdentifier=keyid:always\n", encoding="ascii")
        signed = "-CA root.pem -CAkey root.key -extfile more -out ca2.pem"
        need(self.folder, f"openssl x509 -req -in ca/ca.csr {signed}; cat {files[0]} ca2.pem > chain.pem")
        for name, words, told in (
            ("DER", ("one.der", *trusted), None),
            ("behind an intermediate", ("chain.pem", "--trusted", "root.pem"), None),
            ("without it", (files[0], "--trusted", "root.pem"), "no chain leads to root.pem"),
            ("the intermediate trusted", (files[0], "--trusted", "ca2.pem"), None),
            ("scrapped", (self.spool / f"{gone}.pem", *trusted), "which is scrapped"),
            ("another CA", (files[0], "--trusted", "other.pem"), "no chain leads to other.pem"),
            ("signed by itself", ("self.pem", *trusted), "it has no basicConstraints"),
            ("no device's", (self.ca / "ca.pem", *trusted), "t has no serialNumber of a record"),
        ):
            with self.subTest(name):
                here = os.getcwd()
                os.chdir(self.folder)
                try:
                    status, out, err = self.command("verify", *words)
                finally:
                    os.chdir(here)
                self.assertEqual((status, told is None or told in err), (1 if told else 0, True), err)

    def test_what_no_certificate_may_be(self):
        """A weak key gets none, and what somebody signed past `certify` isn't the record's, nor holds one before its
        time, which is issued before."""
        self.seat.make_order(**ORDER | {"name": "o3", "prefix": "C"}, not_before="20990101000000Z")
        later, weak, fine = self.device("o3"), self.device(key="rsa:512"), self.device()
        err = self.counted(2, 0, 1)
        self.assertIn(f"{weak}.csr, of the chip 240ac4000002, can't be certified: its key is RSA of 512 bits", err)
        self.assertEqual(self.in_index(), [f"/serialNumber={it}" for it in (fine, later)])
        by_hand = f"openssl ca -config ca.cnf -batch -notext -startdate {BEGINNING} -enddate {END} -out ../made.pem"
        bank = "[idevid]\nextendedKeyUsage = serverAuth\nsubjectAltName = DNS:bank.example\n"
        config = (self.ca / "ca.cnf").read_text(encoding="utf-8")
        for serial, subject, more, told in (
            (weak, f"/serialNumber={weak}", "", "its key is RSA of 512 bits, and not of 2048 or more"),
            (fine, f"/O=Acme/serialNumber={fine}", "", "its subject is organizationName=Acme as"),
            (fine, f"/serialNumber={fine}", bank, "it has the extension extendedKeyUsage (2.5.29.37), which"),
        ):
            with self.subTest(told):
                loose = config.replace("[device]\n", "[device]\norganizationName = optional\n")
                loose = loose.replace("unique_subject = yes", "unique_subject = no")
                (self.ca / "ca.cnf").write_text(loose.replace("[idevid]\n", more or "[idevid]\n"), encoding="utf-8")
                (self.ca / "index.txt.attr").write_text("unique_subject = no\n", encoding="ascii")
                need(self.ca, f"{by_hand} -subj '{subject}' -in ../spool/{serial}.csr")
                status, out, err = self.command("verify", self.folder / "made.pem", "--trusted", self.ca / "ca.pem")
                self.assertEqual((status, out), (1, ""), err)
                self.assertIn(f"t isn't the certificate of {serial}, the chip 240ac4", err)
                self.assertIn(told, err)
        status, out, err = self.command("verify", self.spool / f"{later}.pem", "--trusted", self.ca / "ca.pem")
        self.assertEqual((status, out, "valid from 20990101000000Z and not before" in err), (1, "", True), err)

    def test_verify_of_what_is_none(self):
        """What can't be read as a certificate is refused as any other, and the ones behind it are looked at."""
        fine = self.spool / f"{self.device()}.pem"
        self.counted(1, 0, 0)
        (self.folder / "more").write_text("1.2.3.4=critical,ASN1:NULL\n1.2.3.5=ASN1:NULL\n", encoding="ascii")
        made = f"openssl x509 -in {fine} -signkey pairs/240ac4000001.key -extfile more -outform DER -out strange.der"
        need(self.folder, made)
        strange = (self.folder / "strange.der").read_bytes()
        (self.folder / "twice.der").write_bytes(strange.replace(b"\x06\x03\x2a\x03\x05", b"\x06\x03\x2a\x03\x04"))
        (self.folder / "hello").write_text("hello", encoding="ascii")
        names = ("hello", "strange.der", "twice.der")
        files = [self.folder / name for name in names]
        status, out, err = self.command("verify", *files, fine, "--trusted", self.ca / "ca.pem")
        self.assertEqual((status, out.count(": as its record\n"), len(err.splitlines())), (1, 1, 3), err)
        said = ("hello has no certificate that can be read", "(1.2.3.4), critical", "its extensions can't be read")
        for line, told in zip(err.splitlines(), said):
            self.assertIn(told, line)

    def test_a_client_by_its_certificate(self):
        """A device's handshake of TLS, as a client, with a server that wants a certificate of this CA."""
        serial = self.device()
        self.counted(1, 0, 0)
        port = free_port()
        need(self.folder, "openssl req -x509 -newkey ed25519 -noenc -subj /CN=us -keyout server.key -out server.pem")
        words = f"-accept {HOST}:{port} -cert server.pem -key server.key -CAfile ca/ca.pem -Verify 2"
        process = subprocess.Popen(
            ["openssl", "s_server", *words.split(), "-verify_return_error", "-naccept", "2"],
            cwd=self.folder,
            stdin=subprocess.PIPE,
            stdout=subprocess.PIPE,
            stderr=subprocess.STDOUT,
            text=True,
        )
        try:
            said = ""
            while "ACCEPT" not in said:
                said += process.stdout.readline()
            asked = f"sleep 0.5 | openssl s_client -connect {HOST}:{port} -CAfile server.pem"
            own = f"-cert spool/{serial}.pem -key pairs/240ac4000001.key"
            shown = [run(self.folder, f"{asked} {more}").stdout for more in (own, "")]
            said += process.communicate(timeout=20)[0]
        finally:
            process.kill()
            process.wait()
        self.assertIn("Verify return code: 0 (ok)", shown[0])
        self.assertIn(f"subject=serialNumber = {serial}", said)
        self.assertIn("peer did not return a certificate", said)


@NEEDS_KEYS
class TwoIssuers(CertificateCase):
    """A CA that a person gave a second issuer of its customer, as behind a store's successor."""

    def site(self):
        made = self.folder / "two.toml"
        made.write_text(super().site().read_text().replace('["acme-ca"]', '["acme-ca", "acme-ca-2"]'))
        return made

    def test_one_ca(self):
        """It serves both with the same certificate of its own, and no number twice, whatever is left of its folder."""
        self.seat.make_order(**ORDER | {"name": "o3", "issuer": "acme-ca-2", "prefix": "C"})
        self.seat.make_order(**ORDER | {"name": "o4", "issuer": "acme-ca-2"})
        anchor, first = (self.ca / "ca.pem").read_bytes(), self.device()
        self.counted(1, 0, 0)
        following = self.device("o3")
        self.assertIn(f"no device with the serial number {following} of acme-ca.", self.counted(0, 1, 1))
        with open(self.ca / "issuer", "a", encoding="ascii") as issuers:
            issuers.write("acme-ca-2\n")
        self.counted(1, 1, 0)
        self.assertEqual(self.device("o4"), first, "two numbers meet")
        self.assertIn("has another key than the certificate of its serial number", self.counted(0, 1, 1))
        (self.ca / f"issued/{first}.pem").unlink()
        (self.spool / f"{first}.pem").unlink()
        self.assertIn(f"wo issuers have the serial number {first}", self.counted(0, 1, 1))
        self.assertIn(f"Two issuers may have given {first}", self.counted(0, 1, 1, "--issuer", "acme-ca-2"))
        self.assertEqual(self.in_index(), [f"/serialNumber={it}" for it in (first, following)])
        self.assertEqual((self.ca / "ca.pem").read_bytes(), anchor)
