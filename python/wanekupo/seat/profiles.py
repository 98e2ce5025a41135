"""What a device's certificate may be, by profile: the rules that differ, as data. `lots.idevid` has those of all.

The standards weren't at hand: their sections are named from memory.

    plain       RFC 5280, with keys of 112 bits of strength or more (NIST SP 800-57 part 1, table 2)
    802.1ar     IEEE 802.1AR-2018: the fields of section 8 (8.5 validity, 8.6 subject, 8.10 extensions) and the three
                suites of section 9: RSA of 2048 bits with SHA-256, P-256 with SHA-256, P-384 with SHA-384
    matter-dac  the Device Attestation Certificate of the Matter core specification: sections 6.1.1 (names), 6.1.3
                (600 bytes) and 6.2.2.3, by a PAI of 6.2.2.4
"""

import re
from dataclasses import dataclass, replace

# The least bits of an RSA key, and its least exponent.
LEAST_BITS, LEAST_EXPONENT = 2048, 65_537


@dataclass(frozen=True)
class Profile:
    """The curves and other kinds of keys, how a certificate is signed, the extensions that it may have `besides` those
    that each has, its most bytes as DER, and the attributes behind the serial number: name, OID and value."""

    name: str
    curves: tuple[str, ...]
    has_rsa: bool
    has_edwards: bool
    signatures: tuple[str, ...]
    besides: tuple[str, ...]
    longest: int = 1 << 16
    attributes: tuple[tuple[str, str, str], ...] = ()

    def __str__(self) -> str:
        return ":".join([self.name, *(value for _, _, value in self.attributes)])

    @property
    def keys(self) -> str:
        """The keys that a device may have, in words."""
        rsa = [f"RSA of {LEAST_BITS} bits or more"] * self.has_rsa
        own = ", ".join([*rsa, f"EC on {', '.join(self.curves)}"])
        return ", or ".join([own, *["Ed25519, Ed448"] * self.has_edwards])

    def subject(self, serial: str) -> str:
        """A record's subject, as openssl's `-subj` takes it."""
        return "".join([f"/serialNumber={serial}", *(f"/{name}={value}" for name, _, value in self.attributes)])


ECDSA = ("ecdsa-with-SHA256", "ecdsa-with-SHA384", "ecdsa-with-SHA512")
RSA = ("sha256WithRSAEncryption", "sha384WithRSAEncryption", "sha512WithRSAEncryption")
LISTS = ("authorityInfoAccess", "cRLDistributionPoints")
P256, P384, P521 = "secp256r1", "secp384r1", "secp521r1"

PLAIN = Profile("plain", (P256, P384, P521), True, True, (*ECDSA, *RSA, "ed25519", "ed448"), LISTS)
IDEVID = Profile("802.1ar", (P256, P384), True, False, (*ECDSA[:2], RSA[0]), LISTS)
MATTER = Profile("matter-dac", (P256,), False, False, ECDSA[:1], LISTS[:1], 600)
PROFILES = {it.name: it for it in (PLAIN, IDEVID, MATTER)}

# How a profile is named: Matter's with the numbers of vendor and product, of four digits in capitals. Each is an
# attribute of a name, by its OID.
FORM = re.compile(r"plain|802\.1ar|matter-dac:(?!0000)([0-9A-F]{4}):(?!0000)([0-9A-F]{4})")
VID, PID = ("vid", "1.3.6.1.4.1.37244.2.1"), ("pid", "1.3.6.1.4.1.37244.2.2")


def profile_of(text: str) -> Profile:
    """The profile that a text names, or ValueError with what it may be."""
    named = FORM.fullmatch(text)
    if not named:
        raise ValueError("is plain, 802.1ar, or matter-dac:VID:PID with four digits each, as matter-dac:FFF1:8000")
    found = PROFILES[text.partition(":")[0]]
    return replace(found, attributes=((*VID, named[1]), (*PID, named[2]))) if named[1] else found
