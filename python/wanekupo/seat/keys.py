"""Public keys for identities, and the requests for certificates that come with them.

A key's form and a request's signature are `python3-cryptography`'s to know (Debian's package, over OpenSSL): ASN.1 and
the kinds of signatures are no work for a client of our own. It is imported where a key is read, and not before.
"""

import hashlib
import importlib
import warnings
from pathlib import Path
from typing import Any, Iterator, Optional

from wanekupo.common.errors import BadKey
from wanekupo.common.files import replace_bytes
from wanekupo.seat.profiles import LEAST_BITS, LEAST_EXPONENT, Profile

READABLE = 0o644

# The least bits of a curve with 112 bits of strength.
LEAST_CURVE = 224


def public_key_of(pem: Optional[bytes] = None, der: Optional[bytes] = None, csr: Optional[bytes] = None) -> bytes:
    """The SubjectPublicKeyInfo in DER of a public key as PEM or as DER, or of a request for a certificate (PKCS #10, as
    PEM or DER), whose signature has to hold: who made the request has the private half."""
    given = [it for it in (pem, der, csr) if it is not None]
    if len(given) != 1:
        raise ValueError("a public key comes as one of PEM, DER or a request for a certificate")
    if csr is not None:
        return _key_of_request(csr)
    return _key_of_pem(pem) if pem is not None else _key_of_der(given[0])


def _key_of_pem(pem: bytes) -> bytes:
    if b"PRIVATE KEY" in pem:
        told = "The private half never leaves the bench. Give the public one: openssl pkey -in FILE -pubout makes it."
        raise BadKey("this file has a private key", told)
    load = library("hazmat.primitives.serialization").load_pem_public_key
    try:
        return _info_of(load(pem))
    except Exception as error:
        raise _no_key("PEM") from error


def _key_of_der(der: bytes) -> bytes:
    load = library("hazmat.primitives.serialization").load_der_public_key
    try:
        found = _info_of(load(der))
    except Exception as error:
        raise _no_key("DER") from error
    if found != der:
        raise _no_key("DER in its one form")
    return found


def library(name: str) -> Any:
    """A part of cryptography. What it warns of isn't printed: a certificate's form is looked at here."""
    try:
        category = importlib.import_module("cryptography.utils").CryptographyDeprecationWarning
        warnings.filterwarnings("ignore", category=category)
        return importlib.import_module(f"cryptography.{name}")
    except ImportError:
        raise BadKey("no key can be read on this machine", "Install Debian's python3-cryptography.") from None


def _no_key(form: str) -> BadKey:
    told = "openssl pkey -pubout makes one: PEM, or DER with -outform DER."
    return BadKey(f"this file has no public key as {form}", told)


def _info_of(key: Any) -> bytes:
    forms = library("hazmat.primitives.serialization")
    info: bytes = key.public_bytes(forms.Encoding.DER, forms.PublicFormat.SubjectPublicKeyInfo)
    return info


def _key_of_request(csr: bytes) -> bytes:
    x509 = library("x509")
    load = x509.load_pem_x509_csr if b"-----BEGIN" in csr else x509.load_der_x509_csr
    told = "Make it anew on the bench: openssl req -new -key FILE -subj /CN=NAME."
    try:
        request = load(csr)
        found, is_signed = _info_of(request.public_key()), request.is_signature_valid
    except Exception as error:
        raise BadKey("this file has no request for a certificate", told) from error
    if not is_signed:
        raise BadKey("the signature of this request for a certificate doesn't hold", f"Don't go on with it. {told}")
    if found not in request.tbs_certrequest_bytes:
        raise BadKey("the key of this request for a certificate isn't in the one form of DER", told)
    return found


def sound_key_of(profile: Profile, **given: Optional[bytes]) -> bytes:
    """The same, for a record: a weak key is refused before the server hears of it. A request for a certificate has one
    of the profile's; of a key alone no certificate is asked for, and it has 112 bits of strength at least."""
    found = public_key_of(**given)
    key = library("hazmat.primitives.serialization").load_der_public_key(found)
    weakness = ", ".join(weakness_of(key, profile) if given.get("csr") is not None else _shortness_of(key))
    if weakness:
        told = "Nothing was sent. Mend what makes the keys: a key that has a record can't be changed any more."
        raise BadKey(weakness, told)
    return found


def _shortness_of(key: Any) -> Iterator[str]:
    size = getattr(key, "key_size", LEAST_BITS)
    is_curve = isinstance(key, library("hazmat.primitives.asymmetric.ec").EllipticCurvePublicKey)
    if size < (LEAST_CURVE if is_curve else LEAST_BITS):
        yield f"its key of {size} bits has less than 112 bits of strength"


def weakness_of(key: Any, profile: Profile) -> Iterator[str]:
    """Why a public key is none that a certificate of a profile may have, in words."""
    kinds = ("rsa", "ec", "ed25519", "ed448")
    rsa, ec, ed25519, ed448 = (library(f"hazmat.primitives.asymmetric.{it}") for it in kinds)
    if isinstance(key, rsa.RSAPublicKey) and profile.has_rsa:
        exponent = key.public_numbers().e
        if key.key_size < LEAST_BITS:
            yield f"its key is RSA of {key.key_size} bits, and not of {LEAST_BITS} or more"
        if exponent < LEAST_EXPONENT or exponent % 2 == 0:
            yield f"its key is RSA with the exponent {exponent:#x}, and not an odd one from {LEAST_EXPONENT:#x} on"
    elif isinstance(key, ec.EllipticCurvePublicKey):
        if key.curve.name not in profile.curves:
            yield f"its key is on the curve {key.curve.name}, and not {profile.keys}"
    elif not (profile.has_edwards and isinstance(key, (ed25519.Ed25519PublicKey, ed448.Ed448PublicKey))):
        yield f"its key is of another kind ({type(key).__name__.strip('_')}), and not {profile.keys}"


def key_digest(public_key: bytes) -> str:
    """What a record has of a key: `key_sha256`."""
    return hashlib.sha256(public_key).hexdigest()


def keep_csr(spool: Path, issuer: str, serial: str, csr: bytes) -> Path:
    """Keeps a request as SERIAL.csr in the spool folder, for whoever issues the certificate: whole and synced, once.
    The same one again changes nothing; another one of this serial number is refused, and the first one stays."""
    file = Path(spool) / f"{serial}.csr"
    if "/" in serial or serial.startswith("."):
        raise BadKey(f"the serial number {serial!r} is no name of a file")
    try:
        if file.read_bytes() == csr:
            return file
        told = f"Look which chip of {issuer} each is of, and give each issuer a spool folder of its own."
        raise BadKey(f"{file} has another request of the serial number {serial}", told)
    except FileNotFoundError:
        pass
    replace_bytes(file, csr, READABLE, is_exact=True)
    return file
