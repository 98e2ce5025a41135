"""What a CA revoked, in `manifest` and `verify`, and what is named wrongly: folders, files, secrets that others can
read."""

import json

from certifying import ORDER, CertificateCase, made_ca, need
from commanding import NEEDS_KEYS


@NEEDS_KEYS
class Revoked(CertificateCase):
    over_office = False

    def test_what_is_revoked(self):
        """It is in no list and in no cloud's file, also where it begins later; and a list of another CA is none."""
        self.seat.make_order(**ORDER | {"name": "o3", "prefix": "C"}, not_before="20990101000000Z")
        fine, gone, early, late, scrapped = (self.device(it) for it in ("o1", "o1", "o3", "o3", "o1"))
        self.counted(5, 0, 0)
        self.seat.scrap(f"240ac40000{self.made:02x}")
        revoke = "openssl ca -config ca.cnf -revoke ../spool/{}.pem; openssl ca -config ca.cnf -revoke ../spool/{}.pem"
        need(self.ca, revoke.format(gone, early))
        old = "-crl_lastupdate 20260101000000Z -crl_nextupdate 20260102000000Z"
        for more in ("-out ca.crl", f"{old} -out old.crl"):
            need(self.ca, f"openssl ca -config ca.cnf -gencrl {more}")
        other = made_ca(self.folder / "other")
        need(other, "openssl ca -config ca.cnf -gencrl -out ca.crl")
        status, out, err = self.listed(self.ca / "ca.crl")
        self.assertEqual((status, json.loads(out)["records"], json.loads(out)["revoked"]), (0, 3, 2), err)
        chips = (gone, "240ac4000002"), (early, "240ac4000003")
        told = [f"warning: {it}, the chip {chip}, is left out" for it, chip in chips]
        said = [it.removesuffix(": its CA revoked it.") for it in err.splitlines() if "left out" in it]
        self.assertEqual(sorted(said), told)
        names = {it.name: it.read_text() for it in self.folder.glob("lot*")}
        for serial, files in ((fine, 3), (gone, 0), (early, 0), (late, 3), (scrapped, 1)):
            found = sum(f'"{serial}"' in text or f"\n{serial}," in text for text in names.values())
            self.assertEqual(found, files, (serial, names))
        for crl, told in ((other, "unable to get certificate CRL"), (self.ca, "CRL has expired")):
            status, out, err = self.listed(crl / ("old.crl" if crl == self.ca else "ca.crl"))
            self.assertEqual((status, out, told in err), (2, "", True), err)
        trusted = ("--trusted", self.ca / "ca.pem", "--crl", self.ca / "ca.crl")
        for serial, told in ((early, "its CA revoked it"), (late, "valid from 20990101000000Z and not before")):
            status, out, err = self.command("verify", self.spool / f"{serial}.pem", *trusted)
            self.assertEqual((status, out, told in err), (1, "", True), err)
        (self.spool / f"{fine}.pem").unlink()
        status, _, err = self.listed(self.ca / "ca.crl")
        self.assertEqual((status, f"has no {fine}.pem" in err), (2, True), err)

    def listed(self, crl):
        more = [it for name in ("aws", "azure") for it in (f"--{name}", self.folder / f"lot.{name}")]
        more += ["--spool", self.spool, "--crl", crl, "--trusted", self.ca / "ca.pem"]
        return self.command("manifest", "--all", "--out", self.folder / "lot.csv", *more)

    def test_what_is_named_wrongly(self):
        """Folders that are swapped or no certificates, and a PIN that others can read: nothing is done, and no sentence
        has a device scrapped."""
        serial = self.device()
        (self.folder / "pin").write_text("1234", encoding="ascii")
        (self.folder / "pin").chmod(0o644)
        trusted = ("--trusted", self.ca / "ca.pem")
        config = (self.ca / "ca.cnf").read_text(encoding="utf-8")
        key = '"pkcs11:object=ca;type=private?pin-source={}"'
        pin = config.replace("$dir/ca.key", key.format(f"{self.folder}/p%69n"))
        for words, text, told in (
            (("certify", self.ca, "--ca-folder", self.spool), config, "so it is a CA's folder, and no spool"),
            (("manifest", "--all", "--spool", self.ca), config, "so it is a CA's folder, and no spool"),
            (("verify", self.spool, *trusted), config, f"Name its certificates: {self.spool}/*.pem"),
            (("verify", "none.pem", *trusted), config, "here is no certificate none.pem"),
            (("verify", self.spool / f"{serial}.csr", "--trusted", self.ca / "ca.key"), config, "has no certificate"),
            (("certify", self.spool, "--ca-folder", self.ca), pin, f"chmod go-rwx {self.folder}/pin"),
        ):
            with self.subTest(words):
                (self.ca / "ca.cnf").write_text(text, encoding="utf-8")
                status, out, err = self.command(*words)
                self.assertEqual((status, out, told in err, "scrap" in err), (2, "", True, False), err)
        self.assertEqual(self.in_index(), [])
        (self.ca / "ca.cnf").write_text(config, encoding="utf-8")
        (self.ca / "ca.key").chmod(0o640)
        self.assertIn(f"chmod go-rwx {self.ca}/ca.key", self.certify()[2])
