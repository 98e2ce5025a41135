"""What a device's certificate has to be: its record's, in the form of an IDevID (IEEE 802.1AR-2018, section 8).

`python3-cryptography` reads a certificate, and `openssl verify` builds its chain.
"""

import contextlib
import hashlib
import re
import tempfile
from datetime import datetime, timezone
from pathlib import Path
from typing import Any, Callable, Iterator, Mapping, Optional, Sequence

from wanekupo.common.errors import BadKey, BadSettings
from wanekupo.common.process import run_command
from wanekupo.seat.keys import library, weakness_of
from wanekupo.seat.profiles import PID, PLAIN, VID, Profile
from wanekupo.lots.spools import certificates_of, der_of, key_of_certificate, pem_of

# The form of a time in a record, and the one of a validity without an end.
TIME = "%Y%m%d%H%M%SZ"

# The extensions that a certificate has, and whether each is marked critical. It may have its profile's `besides`, which
# aren't critical, and none else.
EXTENSIONS = {
    "basicConstraints": True,
    "keyUsage": True,
    "subjectKeyIdentifier": False,
    "authorityKeyIdentifier": False,
}
USAGES = "digital_signature content_commitment key_encipherment data_encipherment key_agreement".split()
USAGES += ["key_cert_sign", "crl_sign"]

# The attributes of names that the library has no word for.
NAMED = {oid: name for name, oid in (VID, PID)}

# A certificate's own number is positive, and has 20 bytes at the most (RFC 5280, section 4.1.2.2).
NUMBERS = range(1, 1 << 159)

# What openssl asks of the keys and signatures of CAs: 112 bits of security, as RSA of 2048 bits has.
LEVEL = "2"

# An error of `openssl verify`, and the numbers of two: a certificate that isn't valid yet, and one that was revoked.
ERROR = re.compile(r"^error ([0-9]+) at [^:]*: (.*)", re.MULTILINE)
EARLY, REVOKED_NUMBER = 9, 23
REVOKED = "its CA revoked it"

# How many seconds a certificate without a beginning may begin before it is asked for.
BACKDATED = 86_400

Record = Mapping[str, Any]


def moment_now() -> datetime:
    return datetime.now(timezone.utc).replace(microsecond=0)


def validity_of(certificate: Any) -> tuple[datetime, datetime]:
    """When a certificate begins and ends. Later versions of the library than Debian's have other names for it."""
    names = ("not_valid_before", "not_valid_after")
    found = [getattr(certificate, f"{it}_utc" if hasattr(certificate, f"{it}_utc") else it) for it in names]
    begins, ends = (it.replace(tzinfo=timezone.utc) for it in found)
    return begins, ends


def certificate_faults(certificate: Any, record: Record, profile: Profile = PLAIN) -> Iterator[str]:
    """What of a certificate isn't as its record wants it, each in words: what is there, and what is wanted."""
    library("x509")
    for part, look in PARTS.items():
        try:
            yield from look(certificate, record, profile)
        except Exception as error:  # the library has errors of many kinds for what it can't read
            yield f"its {part} can't be read: {error}"


def _head_faults(certificate: Any, _: Record, profile: Profile) -> Iterator[str]:
    if certificate.version != library("x509").Version.v3:
        yield f"it is of X.509 {certificate.version.name}, and not of v3"
    if certificate.serial_number not in NUMBERS:
        yield f"its number is {certificate.serial_number:#x}, and not a positive one of 20 bytes at the most"
    oid = certificate.signature_algorithm_oid
    if oid._name not in profile.signatures:
        yield f"it is signed by {oid._name} ({oid.dotted_string}), and not by {' or '.join(profile.signatures)}"
    if len(der_of(certificate)) > profile.longest:
        yield f"it has {len(der_of(certificate))} bytes as DER, and {profile.longest} at the most are taken"


def _subject_faults(certificate: Any, record: Record, profile: Profile) -> Iterator[str]:
    """The subject is the serial number and the profile's attributes, in the one form of DER: X.520 has a serial number
    as a PrintableString. Of the issuer's name a profile's attributes are the same, where it has them; it has the
    first."""
    x509, subject = library("x509"), certificate.subject
    more = [x509.NameAttribute(x509.ObjectIdentifier(oid), value) for _, oid, value in profile.attributes]
    wanted = x509.Name([x509.NameAttribute(x509.NameOID.SERIAL_NUMBER, record["serial"]), *more])
    if subject.public_bytes() != wanted.public_bytes():
        yield f"its subject is {_shown(subject)}, and not {_shown(wanted)} alone"
    for place, it in enumerate(more):
        found = [its.value for its in certificate.issuer.get_attributes_for_oid(it.oid)]
        if found != [it.value] and (found or place == 0):
            yield f"its issuer's name has {', '.join(found) or 'no'} {NAMED[it.oid.dotted_string]}, and not {it.value}"


def _shown(name: Any) -> str:
    rdns = ([(NAMED.get(it.oid.dotted_string, it.oid._name), it) for it in rdn] for rdn in name.rdns)
    shown = [" + ".join(f"{its}={it.value} as {it._type.name}" for its, it in rdn) for rdn in rdns]
    return ", ".join(shown)[:300] or "empty"


def _key_faults(certificate: Any, record: Record, profile: Profile) -> Iterator[str]:
    key = key_of_certificate(certificate)
    digest = hashlib.sha256(key).hexdigest()
    if digest != record["key_sha256"]:
        yield f"it has another key than the record: the SHA-256 is {digest}, and not {record['key_sha256']}"
    if key not in certificate.tbs_certificate_bytes:
        yield "its key isn't in the one form of DER"
    yield from weakness_of(certificate.public_key(), profile)


def _time_faults(certificate: Any, record: Record, _: Profile) -> Iterator[str]:
    begins, ends = (it.strftime(TIME).rjust(15, "0") for it in validity_of(certificate))
    if record["not_before"] not in (None, begins):
        yield f"it begins at {begins}, and the record at {record['not_before']}"
    if record["not_before"] is None and begins > moment_now().strftime(TIME):
        yield f"it begins at {begins}, which is to come, and its record has no beginning"
    if ends != record["not_after"]:
        yield f"it ends at {ends}, and the record at {record['not_after']}"


def _extension_faults(certificate: Any, _: Record, profile: Profile) -> Iterator[str]:
    extensions = list(certificate.extensions)
    found = {it.oid._name: it for it in extensions}
    for name, is_critical in EXTENSIONS.items():
        if name not in found:
            yield f"it has no {name}"
        elif found[name].critical != is_critical:
            yield f"its {name} is {'not ' if is_critical else ''}critical"
        else:
            yield from _value_faults(name, found[name].value, certificate)
    for it in extensions:
        if it.oid._name not in EXTENSIONS and (it.critical or it.oid._name not in profile.besides):
            told = f"{it.oid._name} ({it.oid.dotted_string}){', critical' if it.critical else ''}"
            yield f"it has the extension {told}, which no certificate of {profile.name} has"


def _value_faults(name: str, value: Any, certificate: Any) -> Iterator[str]:
    """What one of the extensions that a certificate has says wrongly."""
    if name == "basicConstraints" and value.ca:
        yield "it is a CA's (basicConstraints), and not a device's"
    if name == "keyUsage":
        usages = [it.replace("_", " ") for it in USAGES if getattr(value, it)]
        if usages != ["digital signature"]:
            yield f"its keyUsage is {', '.join(usages) or 'empty'}, and not digital signature alone"
    if name == "subjectKeyIdentifier":
        own = library("x509").SubjectKeyIdentifier.from_public_key(certificate.public_key()).digest
        if value.digest != own:
            yield f"its subjectKeyIdentifier is {value.digest.hex()}, and that of its key {own.hex()}"
    if name == "authorityKeyIdentifier" and not value.key_identifier:
        yield "its authorityKeyIdentifier names no key"


# What is looked at, by the words for it.
PARTS: Mapping[str, Callable[[Any, Record, Profile], Iterator[str]]] = {
    "head": _head_faults,
    "subject": _subject_faults,
    "key": _key_faults,
    "validity": _time_faults,
    "extensions": _extension_faults,
}


def is_early(record: Record) -> bool:
    """Whether a record's certificate holds later alone. It is issued before, and nobody else takes it until then."""
    return record["not_before"] is not None and record["not_before"] > moment_now().strftime(TIME)


def late_fault(certificate: Any, record: Record, asked: datetime) -> Iterator[str]:
    """Whether one that was just issued, and whose record has no beginning, begins before its time of issue."""
    begins, _ = validity_of(certificate)
    if record["not_before"] is None and (asked - begins).total_seconds() > BACKDATED:
        yield f"it begins at {begins.strftime(TIME)}, which isn't its time of issue"


def chain_fault(
    certificate: Any, others: Sequence[Any], trusted: Path, crl: Optional[Path] = None
) -> Iterator[str]:
    """What `openssl verify` says where no chain leads from a certificate to one of those that are trusted, or where its
    CA's list has it as revoked. The system's own are none of these. One that begins later is looked at as if it had
    begun, and held to the list as that is now. What a CA has to be is openssl's to know: its extensions, its path's
    length, the strength of its key and signature."""
    with contextlib.suppress(BadKey):
        if certificate in certificates_of(trusted.read_bytes(), trusted):
            yield f"{trusted} has it as one that is trusted, and its CA's is wanted there"
    listed = _errors_of(certificate, others, trusted, "-crl_check", "-CRLfile", str(crl)) if crl else []
    if crl and not listed:
        return
    at = max(moment_now(), validity_of(certificate)[0])
    broken = _errors_of(certificate, others, trusted, "-attime", str(int(at.timestamp())))
    unknown = [told for number, told in listed if number != EARLY]
    if broken:
        yield f"no chain leads to {trusted}: {broken[0][1]}"
    elif REVOKED_NUMBER in dict(listed):
        yield REVOKED
    elif unknown:
        yield f"{crl} doesn't say it: {unknown[0]}"


def _errors_of(certificate: Any, others: Sequence[Any], trusted: Path, *more: str) -> list[tuple[int, str]]:
    """The errors of `openssl verify`, each by its number and its words."""
    with tempfile.TemporaryDirectory() as folder:
        words = ["openssl", "verify", "-x509_strict", "-auth_level", LEVEL, "-partial_chain", *more]
        words += ["-no-CAfile", "-no-CApath", "-no-CAstore", "-trusted", str(trusted)]
        for name, its in (("others", others), ("certificate", [certificate])):
            file = Path(folder) / name
            file.write_text("".join(pem_of("CERTIFICATE", der_of(it)) for it in its), encoding="ascii")
            words += ["-untrusted", str(file)] if name == "others" and its else []
        try:
            done = run_command([*words, str(file)])
        except FileNotFoundError:
            raise BadSettings("there is no command openssl", "Install Debian's openssl.") from None
    found = [(int(it[1]), it[2]) for it in ERROR.finditer(done.stderr)]
    return found or [(0, done.stderr.strip()[:200])] if done.returncode else []
