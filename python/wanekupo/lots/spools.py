"""A spool folder: SERIAL.csr is a request for a certificate, SERIAL.pem the certificate that it got.

Both come from other machines, so a file is read through no link, up to a length, and is known by what it holds.
"""

import base64
import hashlib
import os
import re
from dataclasses import dataclass
from pathlib import Path
from typing import Any, Optional

from wanekupo.common.errors import BadKey, BadSettings
from wanekupo.common.files import opened_plain
from wanekupo.seat.keys import library, public_key_of

# A file's name by a serial number, as the server forms these.
REQUEST = re.compile(r"([A-Z0-9-]{1,64})\.csr")
CSR, CERTIFICATE = ".csr", ".pem"

# The longest request or certificate that is read, with what may stand behind it.
LONGEST = 1 << 16

SECRET = b"PRIVATE KEY-----"

# What a CA's folder has, and no spool.
OF_CA = ("ca.pem", "ca.cnf", "index.txt")


@dataclass(frozen=True)
class CertificateRequest:
    """A request for a certificate whose signature holds: in DER, with the SubjectPublicKeyInfo of its key."""

    der: bytes
    public_key: bytes

    @property
    def digest(self) -> str:
        """What the device's record has of its key."""
        return hashlib.sha256(self.public_key).hexdigest()

    @property
    def pem(self) -> str:
        return pem_of("CERTIFICATE REQUEST", self.der)


def pem_of(kind: str, der: bytes) -> str:
    """The one form of PEM (RFC 7468)."""
    text = base64.b64encode(der).decode("ascii")
    lines = [text[place : place + 64] for place in range(0, len(text), 64)]
    return "\n".join([f"-----BEGIN {kind}-----", *lines, f"-----END {kind}-----", ""])


def tested_spool(folder: Path) -> None:
    """Whether a folder is there, and isn't a CA's: who swaps the two gets no advice on devices."""
    if not folder.is_dir():
        raise BadSettings(f"there is no spool folder {folder}", "Look at its name.")
    found = next((name for name in OF_CA if (folder / name).exists()), None)
    if found:
        told = "Nothing was done. Look whether two folders are swapped: a spool has SERIAL.csr, and no CA's files."
        raise BadSettings(f"{folder} has {found}, so it is a CA's folder, and no spool", told)


def tested_crl(trusted: str, crl: Optional[str]) -> tuple[Path, Optional[Path]]:
    """The file of the certificates that a chain may end at, and that of what a CA revoked, where one is named."""
    file = Path(trusted)
    if not file.is_file():
        raise BadSettings(f"there is no file {file}", "It has the certificates that a chain may end at, as PEM.")
    certificates_of(file.read_bytes(), file)
    if crl is None:
        return file, None
    if not (Path(crl).is_file() and b"-----BEGIN X509 CRL-----" in Path(crl).read_bytes()):
        raise BadSettings(f"{crl} has no list of what a CA revoked, as PEM", "openssl ca -gencrl makes it.")
    return file, Path(crl)


def read_in(file: Path) -> Optional[bytes]:
    """What a file of a spool has; None where there is none."""
    try:
        opened = opened_plain(file, os.O_RDONLY)
    except FileNotFoundError:
        return None
    with open(opened, "rb") as source:
        data = source.read(LONGEST + 1)
    if len(data) > LONGEST:
        raise BadKey(f"{file} is longer than {LONGEST} bytes", "Requests and certificates are shorter: look at it.")
    return data


def request_in(spool: Path, serial: str) -> Optional[CertificateRequest]:
    """The request of a serial number, as PEM with any line ends or as DER; None where there is none."""
    file = spool / f"{serial}{CSR}"
    data = read_in(file)
    if data is None:
        return None
    if SECRET in data:
        told = "Look whose it is before anything else: only where it is a device's own, scrap that device."
        raise BadKey(f"{file} has a private key", told)
    try:
        public_key = public_key_of(csr=data)
        x509 = library("x509")
        load = x509.load_pem_x509_csr if b"-----BEGIN" in data else x509.load_der_x509_csr
        der = library("hazmat.primitives.serialization").Encoding.DER
        return CertificateRequest(load(data).public_bytes(der), public_key)
    except BadKey as error:
        told = "Don't go on with it: bring it from the bench's spool again. A device that is shipped makes no other."
        raise BadKey(f"{file} can't be used: {error}", told) from error


def certificates_of(data: bytes, file: Path) -> list[Any]:
    """The certificates of a file of PEM or DER, the device's own first."""
    x509 = library("x509")
    try:
        if b"-----BEGIN" not in data:
            return [x509.load_der_x509_certificate(data)]
        ends = re.findall(rb"-----BEGIN CERTIFICATE-----.*?-----END CERTIFICATE-----", data, re.DOTALL)
        found = [x509.load_pem_x509_certificate(it) for it in ends]
    except Exception as error:  # the library has errors of many kinds for what is no certificate
        raise BadKey(f"{file} has no certificate that can be read", "Look what wrote it.") from error
    if not found:
        raise BadKey(f"{file} has no certificate", "Look what wrote it.")
    return found


def der_of(thing: Any) -> bytes:
    der: bytes = thing.public_bytes(library("hazmat.primitives.serialization").Encoding.DER)
    return der


def key_of_certificate(certificate: Any) -> bytes:
    """The SubjectPublicKeyInfo in DER."""
    forms = library("hazmat.primitives.serialization")
    try:
        key: bytes = certificate.public_key().public_bytes(forms.Encoding.DER, forms.PublicFormat.SubjectPublicKeyInfo)
    except Exception as error:  # as above
        raise BadKey("the certificate has a key that can't be read", "Look what wrote it.") from error
    return key


def certificate_in(spool: Path, serial: str) -> Optional[Any]:
    """The certificate of a serial number, without those behind it; None where there is none."""
    file = spool / f"{serial}{CERTIFICATE}"
    data = read_in(file)
    return None if data is None else certificates_of(data, file)[0]
