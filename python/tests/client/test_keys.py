"""Keys of identities, and requests for certificates, by the command `wanekupo identity`.

Keys are made by openssl, and the digests of records are compared with its own.
"""

import json
import os

from commanding import KINDS, NEEDS_KEYS, OTHER_MAC, CommandCase, digest_by_openssl, made_key
from support import DIGEST, MAC, ORDER


@NEEDS_KEYS
class Keys(CommandCase):
    def setUp(self):
        super().setUp()
        self.made()
        with self.station(file="maker.json") as station:
            station.plan(OTHER_MAC, [])
        self.spool = self.folder / "spool"
        self.spool.mkdir()
        self.addCleanup(os.umask, os.umask(0o077))  # as of a station whose files nobody else reads

    def number(self):
        return json.loads(self.ran("number")[1])["expected"]

    def test_a_key_in_each_form(self):
        """The record has the SHA-256 of what openssl writes as DER; of each kind of key, and in each form."""
        forms = [(kind, form) for kind in KINDS for form in ("pem", "der", "csr", "csr.der")]
        macs = [f"240ac40001{place:02x}" for place in range(len(forms))]
        with self.station(file="maker.json") as station:
            station.make_order(**{**ORDER, "name": "o3", "prefix": "C", "quantity": 99, "first": 1, "macs": 0})
            for mac in macs:
                station.register(mac, "o3", DIGEST, self.chip(mac).read())
                station.plan(mac, [])
        self.taken_over()
        for mac, (kind, form) in zip(macs, forms):
            name = f"key{mac}"
            made_key(self.folder, name, kind)
            words = ["identity", mac, f"--{form[:3]}", self.folder / f"{name}.{form}", "--spool", self.spool]
            status, out, err = self.ran(*words)
            self.assertEqual((status, err), (0, ""), words)
            record = json.loads(out)
            self.assertEqual(record["key_sha256"], digest_by_openssl(self.folder, name), words)
            kept = self.spool / f"{record['serial']}.csr"
            self.assertEqual(kept.exists(), form.startswith("csr"))
            if kept.exists():
                self.assertEqual(kept.read_bytes(), (self.folder / f"{name}.{form}").read_bytes())
                self.assertEqual(kept.stat().st_mode & 0o777, 0o644)

    def test_again_behind_a_stop(self):
        """A station that was stopped behind the reply asks again: the same record, and its request is kept once."""
        made_key(self.folder, "one")
        made_key(self.folder, "two")
        with self.station() as station:
            public_key = (self.folder / "one.der").read_bytes()
            station.identify(MAC, public_key)
        number = self.number()
        for _ in range(2):
            status, out, _ = self.ran("identity", MAC, "--csr", self.folder / "one.csr", "--spool", self.spool)
            self.assertEqual((status, json.loads(out)["serial"], self.number()), (0, "A998", number))
            self.assertEqual([it.name for it in self.spool.iterdir()], ["A998.csr"])
        self.assertEqual(self.ran("identity", MAC, "--csr", self.folder / "two.csr", "--spool", self.spool)[0], 1)
        self.assertEqual((self.spool / "A998.csr").read_bytes(), (self.folder / "one.csr").read_bytes())

    def test_a_weak_key(self):
        """Below 112 bits of strength no key gets a record, and a request none whose key its profile hasn't."""
        number, matter = self.number(), ("--profile", "matter-dac:FFF1:8000")
        for kind, form, more, told in (
            ("rsa:1024", "csr", (), "its key is RSA of 1024 bits, and not of 2048 or more"),
            ("rsa:1024", "pem", (), "its key of 1024 bits has less than 112 bits of strength"),
            ("rsa:512", "der", (), "its key of 512 bits has less than 112 bits of strength"),
            ("ec -pkeyopt ec_paramgen_curve:prime192v1", "csr", (), "its key is on the curve secp192r1, and not RSA"),
            ("ec -pkeyopt ec_paramgen_curve:prime192v1", "pem", (), "its key of 192 bits has less than 112 bits"),
            ("ec -pkeyopt ec_paramgen_curve:secp256k1", "csr", (), "its key is on the curve secp256k1, and not RSA"),
            ("ed25519", "csr", ("--profile", "802.1ar"), "its key is of another kind (Ed25519PublicKey), and not RSA"),
            ("ec -pkeyopt ec_paramgen_curve:secp384r1", "csr", matter, "its key is on the curve secp384r1, and not EC"),
        ):
            made_key(self.folder, "one", kind)
            words = ["identity", MAC, f"--{form}", self.folder / f"one.{form}", "--spool", self.spool, *more]
            status, out, err = self.ran(*words)
            self.assertEqual((status, out, told in err, "Nothing was sent." in err), (2, "", True, True), (words, err))
        self.assertEqual((self.number(), list(self.spool.iterdir())), (number, []))
        made_key(self.folder, "one", "ec -pkeyopt ec_paramgen_curve:secp256k1")
        self.assertEqual(self.ran("identity", MAC, "--pem", self.folder / "one.pem")[0], 0)

    def test_what_is_sent_to_nobody(self):
        """A request with a changed byte, a private key, and what is neither: the number stays, and nothing is kept."""
        made_key(self.folder, "one")
        whole, number = (self.folder / "one.csr.der").read_bytes(), self.number()
        (self.folder / "changed.csr").write_bytes(whole[:-1] + bytes([whole[-1] ^ 1]))
        (self.folder / "longer.der").write_bytes((self.folder / "one.der").read_bytes() + b"\0")
        for form, name, told in (
            ("csr", "changed.csr", "signature"),
            ("csr", "one.pem", "no request"),
            ("pem", "one.key", "private"),
            ("pem", "one.csr", "no public key"),
            ("der", "longer.der", "no public key"),
            ("der", "one.pem", "no public key"),
        ):
            words = ["identity", MAC, f"--{form}", self.folder / name, "--spool", self.spool]
            status, out, err = self.ran(*words)
            self.assertEqual((status, out, told in err, name in err), (2, "", True, True), (words, err))
        self.assertEqual((self.number(), list(self.spool.iterdir())), (number, []))
