"""Whether a certificate is held to each line of the page on certificates: openssl makes one that breaks the line, and
that line alone. The sentences of a chain are openssl's own (X509_verify_cert_error_string)."""

import hashlib
import os
import re
import tempfile
import unittest
from datetime import datetime, timezone
from pathlib import Path

from certifying import BEGINNING, END, need
from commanding import NEEDS_KEYS

from wanekupo.lots.idevid import chain_fault, certificate_faults, is_early, late_fault, moment_now
from wanekupo.lots.spools import certificates_of
from wanekupo.seat.profiles import profile_of

SERIAL = "A998"
P256 = "ec -pkeyopt ec_paramgen_curve:prime256v1"
RSA = "rsa -pkeyopt rsa_keygen_bits:2048"

# What devices.cnf has of a device's extensions.
OWN = {
    "basicConstraints": "critical,CA:false",
    "keyUsage": "critical,digitalSignature",
    "subjectKeyIdentifier": "hash",
    "authorityKeyIdentifier": "keyid:always",
}
LIST = "URI:http://acme.example/ca.crl"

# What is changed of an honest certificate, and what is said of it: nothing where the page allows it.
HONEST = [
    {},
    {"key": "ec -pkeyopt ec_paramgen_curve:secp384r1", "md": "sha384"},
    {"key": "ec -pkeyopt ec_paramgen_curve:secp521r1", "md": "sha512"},
    {"key": RSA},
    {"key": "rsa -pkeyopt rsa_keygen_bits:3072"},
    {"key": "ed25519"},
    {"key": "ed448"},
    {"extensions": {"crlDistributionPoints": LIST, "authorityInfoAccess": f"caIssuers;{LIST}"}},
    {"number": "7F" + 19 * "FF"},
]
# Of two profiles: what is changed of an honest certificate of each, and what is said of it.
AR = {"profile": "802.1ar"}
DAC = {"profile": "matter-dac:FFF1:8000", "ca": "pai", "subject": "/serialNumber=A998/vid=FFF1/pid=8000"}
PROFILED = [
    (AR, None),
    ({**AR, "key": "ec -pkeyopt ec_paramgen_curve:secp384r1", "md": "sha384"}, None),
    ({**AR, "key": "rsa -pkeyopt rsa_keygen_bits:4096", "ca": "rsa"}, None),
    ({**AR, "extensions": {"crlDistributionPoints": LIST}}, None),
    ({**AR, "key": "ec -pkeyopt ec_paramgen_curve:secp521r1"}, "its key is on the curve secp521r1, and not RSA "),
    ({**AR, "key": "ed25519"}, r"its key is of another kind \(Ed25519PublicKey\), and not RSA "),
    ({**AR, "key": "rsa:1024"}, "its key is RSA of 1024 bits, and not of 2048 or more"),
    ({**AR, "md": "sha512"}, "it is signed by ecdsa-with-SHA512 .*, and not by ecdsa-with-SHA256 or "),
    ({**AR, "ca": "rsa", "md": "sha384"}, "it is signed by sha384WithRSAEncryption "),
    ({**AR, "subject": "/serialNumber=A998/vid=FFF1"}, "its subject is .*, vid=FFF1 as .*alone"),
    (DAC, None),
    ({**DAC, "ca": "product"}, None),
    ({**DAC, "extensions": {"authorityInfoAccess": f"caIssuers;{LIST}"}}, None),
    ({**DAC, "subject": "/serialNumber=A998/vid=FFF1"}, "its subject is .*, and not .*, pid=8000 as .* alone"),
    ({**DAC, "subject": "/serialNumber=A998/vid=FFF1/pid=8001"}, "its subject is .*pid=8001 as .*, and not "),
    ({**DAC, "subject": "/serialNumber=A998/vid=fff1/pid=8000"}, "its subject is .*vid=fff1 as .*, and not "),
    ({**DAC, "subject": "/serialNumber=A998/pid=8000/vid=FFF1", "more": "-preserveDN"}, "its subject is .*, and not "),
    ({**DAC, "subject": "/serialNumber=A998"}, "its subject is serialNumber=A998 as PrintableString, and not "),
    ({**DAC, "subject": f"{DAC['subject']}/CN=Mvid:FFF2"}, "its subject is .*, commonName=Mvid:FFF2 as .*alone"),
    ({**DAC, "ca": "root"}, "its issuer's name has no vid, and not FFF1"),
    ({**DAC, "ca": "vendor"}, "its issuer's name has FFF2 vid, and not FFF1"),
    ({**DAC, "ca": "other"}, "its issuer's name has 8001 pid, and not 8000"),
    ({**DAC, "key": "ec -pkeyopt ec_paramgen_curve:secp384r1"}, "its key is on the curve secp384r1, and not EC "),
    ({**DAC, "md": "sha384"}, "it is signed by ecdsa-with-SHA384 .*, and not by ecdsa-with-SHA256$"),
    ({**DAC, "extensions": {"crlDistributionPoints": LIST}}, "it has the extension cRLDistributionPoints "),
    ({**DAC, "extensions": {"extendedKeyUsage": "clientAuth"}}, "it has the extension extendedKeyUsage "),
    ({**DAC, "extensions": {"authorityInfoAccess": f"caIssuers;{LIST}{250 * 'x'}"}}, "it has [67].. bytes as DER"),
]
BROKEN = [
    # The subject.
    ({"subject": "/O=Acme/serialNumber=A998"}, "its subject is organizationName=Acme .*, serialNumber=A998 .*alone"),
    ({"subject": "/serialNumber=A998/CN=240ac4000001"}, "its subject is serialNumber=A998 .*, commonName=240ac"),
    ({"subject": "/serialNumber=A998+CN=bank"}, r"its subject is .*serialNumber=A998 .*alone"),
    ({"subject": "/serialNumber=A999"}, "its subject is serialNumber=A999 .*, and not serialNumber=A998 "),
    ({"subject": "/serialNumber=A998/serialNumber=A999"}, "its subject is serialNumber=A998 .*, serialNumber=A999 "),
    ({"subject": "/serialNumber=a998"}, "its subject is serialNumber=a998 .*, and not serialNumber=A998 "),
    ({"subject": "/CN=A998"}, "its subject is commonName=A998 .*, and not serialNumber=A998 "),
    ({"strings": "serialNumber = mask:UTF8,flags:nomask"}, r"its subject is serialNumber=A998 as UTF8String, and not"),
    # Its times.
    ({"start": "20260101000001Z"}, "it begins at 20260101000001Z, and the record at 20260101000000Z"),
    ({"start": "20251231235959Z"}, "it begins at 20251231235959Z, and the record at 20260101000000Z"),
    ({"end": "99991231235958Z"}, "it ends at 99991231235958Z, and the record at 99991231235959Z"),
    ({"end": "20260201000000Z"}, "it ends at 20260201000000Z, and the record at 99991231235959Z"),
    ({"start": "20900101000000Z", "record": {"not_before": None}}, "it begins at 20900101000000Z, which is to come"),
    # Its key.
    ({"key": "rsa:512"}, "its key is RSA of 512 bits, and not of 2048 or more"),
    ({"key": "rsa:2040"}, "its key is RSA of 2040 bits, and not of 2048 or more"),
    ({"key": f"{RSA} -pkeyopt rsa_keygen_pubexp:3"}, "its key is RSA with the exponent 0x3, and not"),
    ({"key": "ec -pkeyopt ec_paramgen_curve:secp224r1"}, "its key is on the curve secp224r1, and not RSA of 2048"),
    ({"key": "ec -pkeyopt ec_paramgen_curve:secp256k1"}, "its key is on the curve secp256k1, and not "),
    ({"key": "ec -pkeyopt ec_paramgen_curve:brainpoolP256r1"}, "its key is on the curve brainpoolP256r1, and not "),
    ({"key": "dsa:dsa.pem"}, r"its key is of another kind \(DSAPublicKey\), and not RSA of 2048 bits or more, EC on "),
    ({"record": {"key_sha256": 64 * "0"}}, "it has another key than the record: the SHA-256 is .*, and not 0000"),
    # How it is signed, and its number.
    ({"md": "sha1"}, r"it is signed by ecdsa-with-SHA1 \(1.2.840.10045.4.1\), and not by ecdsa-with-SHA256 or "),
    ({"md": "sha224"}, "it is signed by ecdsa-with-SHA224 "),
    ({"ca": "rsa", "md": "md5"}, "it is signed by md5WithRSAEncryption "),
    ({"ca": "rsa", "more": "-sigopt rsa_padding_mode:pss"}, "it is signed by rsassaPss|it is signed by RSASSA-PSS"),
    ({"number": "00"}, "its number is 0x0, and not a positive one of 20 bytes at the most"),
    ({"number": "0080" + 19 * "00"}, "its number is 0x80000000.*, and not a positive one of 20 bytes at the most"),
    # Its extensions.
    ({"without": "basicConstraints"}, "it has no basicConstraints"),
    ({"without": "keyUsage"}, "it has no keyUsage"),
    ({"extensions": {"subjectKeyIdentifier": "none"}}, "it has no subjectKeyIdentifier"),
    ({"extensions": {"authorityKeyIdentifier": "none"}}, "it has no authorityKeyIdentifier"),
    ({"extensions": {"basicConstraints": "CA:false"}}, "its basicConstraints is not critical"),
    ({"extensions": {"basicConstraints": "critical,CA:true"}}, r"it is a CA's \(basicConstraints\), and not"),
    ({"extensions": {"keyUsage": "digitalSignature"}}, "its keyUsage is not critical"),
    ({"extensions": {"keyUsage": "critical,digitalSignature,cRLSign"}}, "its keyUsage is digital signature, crl sign"),
    ({"extensions": {"keyUsage": "critical,keyEncipherment"}}, "its keyUsage is key encipherment, and not digital "),
    ({"extensions": {"subjectKeyIdentifier": "0102"}}, "its subjectKeyIdentifier is 0102, and that of its key "),
    ({"extensions": {"subjectKeyIdentifier": "critical,hash"}}, "its subjectKeyIdentifier is critical"),
    ({"extensions": {"authorityKeyIdentifier": "issuer:always"}}, "its authorityKeyIdentifier names no key"),
    ({"extensions": {"extendedKeyUsage": "serverAuth"}}, r"it has the extension extendedKeyUsage \(2.5.29.37\), which"),
    ({"extensions": {"extendedKeyUsage": "clientAuth"}}, r"it has the extension extendedKeyUsage \(2.5.29.37\), which"),
    ({"extensions": {"subjectAltName": "DNS:bank.example"}}, r"it has the extension subjectAltName \(2.5.29.17\), wh"),
    ({"extensions": {"certificatePolicies": "1.2.3.4"}}, "it has the extension certificatePolicies "),
    ({"extensions": {"nameConstraints": "permitted;DNS:bank.example"}}, "it has the extension nameConstraints "),
    ({"extensions": {"1.2.3.4": "critical,ASN1:NULL"}}, r"it has the extension .*\(1.2.3.4\), critical, wh"),
    ({"extensions": {"1.2.3.4": "ASN1:NULL"}}, r"it has the extension .*\(1.2.3.4\), which no certificate of plain"),
    ({"extensions": {"crlDistributionPoints": f"critical,{LIST}"}}, r"it has the extension cRLD.*, critical, which no"),
]

# The CA of a device, by its extensions, its key and more, and what openssl says of it.
CA = {"basicConstraints": "critical,CA:true", "keyUsage": "critical,keyCertSign", "subjectKeyIdentifier": "hash"}
AUTHORITIES = [
    ({}, None),
    ({"extensions": {"basicConstraints": "critical,CA:true,pathlen:0"}}, None),
    ({"without": "basicConstraints"}, "invalid CA certificate"),
    ({"extensions": {"basicConstraints": "critical,CA:false"}}, "invalid CA certificate"),
    ({"extensions": {"basicConstraints": "CA:true"}}, "Basic Constraints of CA cert not marked critical"),
    ({"without": "keyUsage"}, "CA cert does not include key usage extension"),
    ({"extensions": {"keyUsage": "critical,cRLSign"}}, "invalid CA certificate"),
    ({"extensions": {"subjectKeyIdentifier": "none"}}, "Missing (Subject|Authority) Key Identifier"),
    ({"key": "rsa:1024", "md": "sha256"}, "CA certificate key too weak"),
    ({"end": "20260201000000Z"}, "certificate has expired"),
    ({"md": "sha1"}, "CA signature digest algorithm too weak"),
    ({"root": "critical,CA:true,pathlen:0"}, "path length constraint exceeded"),
]


def settings_of(extensions, changes):
    """The configuration of `openssl ca` for one certificate, by what is changed of it."""
    own = {**extensions, **changes.get("extensions", {})}
    own.pop(changes.get("without"), None)
    strings = changes.get("strings")
    return "\n".join([
        "oid_section = matter",
        *(["openssl_conf = setup", "[setup]", "stbl_section = strings", "[strings]", strings] if strings else []),
        "[ca]", "default_ca = one",
        "[one]", "database = index.txt", "serial = serial", "new_certs_dir = .", "policy = any",
        "unique_subject = no", "x509_extensions = its",
        "[matter]", "vid = 1.3.6.1.4.1.37244.2.1", "pid = 1.3.6.1.4.1.37244.2.2",
        "[any]", *(f"{it} = optional" for it in ("organizationName", "serialNumber", "commonName", "vid", "pid")),
        "[its]", *(f"{name} = {text}" for name, text in own.items()), "",
    ])  # fmt: skip


@NEEDS_KEYS
class Idevid(unittest.TestCase):
    @classmethod
    def setUpClass(cls):
        folder = tempfile.TemporaryDirectory()
        cls.addClassCleanup(folder.cleanup)
        cls.folder = Path(folder.name)
        (cls.folder / "index.txt").touch()
        need(cls.folder, "openssl dsaparam -out dsa.pem 1024")
        for name, key, more in (
            ("root", P256, ""),
            ("rsa", RSA, ""),
            ("pai", P256, "/vid=FFF1"),
            ("product", P256, "/vid=FFF1/pid=8000"),
            ("vendor", P256, "/vid=FFF2"),
            ("other", P256, "/vid=FFF1/pid=8001"),
        ):
            cls.made(name, name, {"key": key, "subject": f"/O=Acme/CN={name}{more}"}, CA)

    @classmethod
    def made(cls, name, ca, changes, extensions):
        """A certificate by a CA, which is its own where it has the CA's name."""
        (cls.folder / "serial").write_text(changes.get("number", f"{os.urandom(8).hex()}01") + "\n", encoding="ascii")
        (cls.folder / "one.cnf").write_text(settings_of(extensions, changes), encoding="ascii")
        key, subject = changes.get("key", P256), changes.get("subject", f"/serialNumber={SERIAL}")
        need(cls.folder, f"openssl req -new -newkey {key} -noenc -subj '/CN=x' -keyout {name}.key -out {name}.csr")
        times = f"-startdate {changes.get('start', BEGINNING)} -enddate {changes.get('end', END)}"
        by = f"-selfsign -keyfile {name}.key" if ca == name else f"-cert {ca}.pem -keyfile {ca}.key"
        more = f"{times} -md {changes.get('md', 'sha256')} -subj '{subject}' {changes.get('more', '')}"
        need(cls.folder, f"openssl ca -config one.cnf -batch -notext {by} {more} -in {name}.csr -out {name}.pem")
        return certificates_of((cls.folder / f"{name}.pem").read_bytes(), Path(name))[0]

    def faults(self, changes):
        certificate = self.made("device", changes.get("ca", "root"), changes, OWN)
        need(self.folder, "openssl req -in device.csr -noout -pubkey | openssl pkey -pubin -outform DER -out key.der")
        digest = hashlib.sha256((self.folder / "key.der").read_bytes()).hexdigest()
        record = {"serial": SERIAL, "key_sha256": digest, "not_before": BEGINNING, "not_after": END}
        profile = profile_of(changes.get("profile", "plain"))
        return list(certificate_faults(certificate, {**record, **changes.get("record", {})}, profile))

    def test_honest_ones(self):
        for changes in HONEST:
            with self.subTest(changes):
                self.assertEqual(self.faults(changes), [])
                own = certificates_of((self.folder / "device.pem").read_bytes(), Path("device"))[0]
                self.assertEqual(list(chain_fault(own, [], self.folder / "root.pem")), [])

    def test_each_line(self):
        """One that breaks a line of the page, and that alone, is told in one sentence."""
        for changes, told in BROKEN:
            with self.subTest(changes):
                faults = self.faults(changes)
                self.assertEqual(len(faults), 1, faults)
                self.assertRegex(faults[0], f"^(?:{told})")

    def test_each_profile(self):
        """What a profile has, and what breaks one of its lines, and that alone."""
        for changes, told in PROFILED:
            with self.subTest(changes):
                faults = self.faults(changes)
                self.assertEqual(len(faults), 1 if told else 0, faults)
                self.assertRegex("".join(faults), f"^(?:{told})" if told else "^$")

    def test_another_key_of_the_issuer(self):
        """What names another key than the PAI's has no chain to it."""
        for keyid, told in (("keyid:always", "^$"), (f"DER:30168014{20 * '5A'}", "no chain leads to ")):
            device = self.made("device", "pai", {**DAC, "extensions": {"authorityKeyIdentifier": keyid}}, OWN)
            self.assertRegex("".join(chain_fault(device, [], self.folder / "pai.pem")), told)

    def test_names_of_profiles(self):
        """Each is named in one way."""
        for name in ("plain", "802.1ar", "matter-dac:FFF1:8000"):
            self.assertEqual(str(profile_of(name)), name)
        wrong = "matter-dac", *(f"matter-dac:{it}" for it in ("FFF1", "fff1:8000", "FFF1:0000", "FFF1:8000:1"))
        for name in ("", "Plain", "plain:", "802.1ar:FFF1:8000", *wrong):
            with self.assertRaisesRegex(ValueError, "is plain, 802.1ar, or matter-dac:VID:PID"):
                profile_of(name)

    def test_what_breaks_more(self):
        """A version that has no extensions, a key in another form of DER, and what can't be read at all."""
        for changes, told in (
            ({"version": 1}, "it is of X.509 v1, and not of v3"),
            ({"key": f"{P256} -pkeyopt ec_param_enc:explicit"}, "its key (can't be read|isn't in the one form of DER)"),
            ({"key": "rsa-pss -pkeyopt rsa_keygen_bits:2048"}, "its key isn't in the one form of DER"),
            ({"extensions": {"subjectAltName": "ASN1:NULL"}}, "its extensions can't be read"),
            ({**DAC, "key": RSA}, r"its key is of another kind \(RSAPublicKey\), and not EC on secp256r1$"),
        ):
            with self.subTest(changes):
                if "version" in changes:
                    self.made("device", "root", {}, {})
                    need(self.folder, "openssl x509 -req -in device.csr -CA root.pem -CAkey root.key -out device.pem")
                    one = certificates_of((self.folder / "device.pem").read_bytes(), Path("device"))[0]
                    record = {"serial": SERIAL, "key_sha256": "", "not_before": None, "not_after": END}
                    faults = list(certificate_faults(one, record))
                else:
                    faults = self.faults(changes)
                self.assertTrue([it for it in faults if re.match(told, it)], faults)

    def test_exponents(self):
        """Exponents of RSA with which openssl makes no key stand in the certificate all the same."""
        self.made("device", "root", {"key": RSA}, OWN)
        need(self.folder, "openssl x509 -in device.pem -outform DER -out device.der")
        der, usual = (self.folder / "device.der").read_bytes(), bytes.fromhex("0203010001")
        self.assertEqual(der.count(usual), 1)
        for exponent in ("010000", "000001", "00ffff"):
            one = certificates_of(der.replace(usual, bytes.fromhex("0203" + exponent)), Path("device"))[0]
            record = {"serial": SERIAL, "key_sha256": "", "not_before": BEGINNING, "not_after": END}
            faults = list(certificate_faults(one, record))
            told = [it for it in faults if re.match("its key (can't be read|is RSA with the exponent)", it)]
            self.assertEqual(len(told), 1, faults)

    def test_each_authority(self):
        """What the CA has to be, of which a device's certificate is honest."""
        for changes, told in AUTHORITIES:
            with self.subTest(changes):
                root = {"basicConstraints": changes.get("root", CA["basicConstraints"])}
                self.made("top", "top", {"subject": "/O=Acme/CN=top", "extensions": root}, CA)
                more = CA | {"authorityKeyIdentifier": "keyid:always"}
                between = self.made("between", "top", {**changes, "subject": "/O=Acme/CN=between"}, more)
                is_named = changes.get("extensions", {}).get("subjectKeyIdentifier") != "none"
                own = OWN | {"authorityKeyIdentifier": "keyid:always" if is_named else "issuer:always"}
                device = self.made("device", "between", {}, own)
                faults = list(chain_fault(device, [between], self.folder / "top.pem"))
                self.assertRegex("".join(faults), told or "^$")

    def test_another_chain(self):
        """A changed signature, another CA of the same name, and the device's own certificate as one that is trusted."""
        device = self.made("device", "root", {}, OWN)
        der = (self.folder / "device.pem").read_bytes()
        self.made("again", "again", {"subject": "/O=Acme/CN=root"}, CA)
        need(self.folder, "openssl x509 -in device.pem -outform DER -out device.der")
        der = bytearray((self.folder / "device.der").read_bytes())
        der[-1] ^= 1
        changed = certificates_of(bytes(der), Path("changed"))[0]
        for one, trusted, told in (
            (device, "root", None),
            (changed, "root", "certificate signature failure|unable to get local issuer"),
            (device, "again", "unable to get local issuer certificate|signature failure"),
            (device, "device", "has it as one that is trusted, and its CA's is wanted there"),
        ):
            with self.subTest(told):
                faults = list(chain_fault(one, [], self.folder / f"{trusted}.pem"))
                self.assertRegex("".join(faults), told or "^$")

    def test_not_yet(self):
        """One that holds later alone, by its record; it may be issued before."""
        at = moment_now().strftime("%Y%m%d%H%M%SZ")
        for begins, early in ((BEGINNING, 0), (at, 0), (None, 0), ("20990101000000Z", 1), ("99991231235958Z", 1)):
            self.assertEqual(is_early({"not_before": begins}), bool(early), begins)

    def test_long_before(self):
        """Without a beginning in its record it begins when it is asked for, a day for clocks that differ."""
        asked = datetime(2026, 1, 2, tzinfo=timezone.utc)
        for start, begins, is_late in (
            ("20260101000000Z", None, False),
            ("20251231235959Z", None, True),
            ("20251231235959Z", "20251231235959Z", False),
        ):
            certificate = self.made("device", "root", {"start": start}, OWN)
            found = list(late_fault(certificate, {"not_before": begins}, asked))
            self.assertEqual(found, [f"it begins at {start}, which isn't its time of issue"] if is_late else [])
