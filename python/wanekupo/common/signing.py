"""Digests and signatures beside a file, by Debian's `minisign` and `openssl cms`, which are run as commands.

`FILE.sha256` is as `sha256sum -c` reads it, `FILE.minisig` is minisign's signature, and `FILE.p7s` a detached CMS
signature in DER (RFC 5652). Who verifies names the one key that he trusts: minisign's public key, or the signer's
certificate. No authority's word is taken for either.
"""

import argparse
import base64
import contextlib
import hashlib
import os
import re
import subprocess
import tempfile
from dataclasses import dataclass
from pathlib import Path
from typing import Optional, Sequence

from wanekupo.common.errors import BadSettings, StationError
from wanekupo.common.files import IS_POSIX, replace_bytes

DIGEST, MINISIG, CMS = ".sha256", ".minisig", ".p7s"
READABLE = 0o644
BLOCK = 1 << 20
STANDARD_ERROR = 2

# A public key of minisign, and how much of a key's file is read.
PUBLIC_BYTES, LONGEST_KEY = 42, 4096

# How a certificate in DER begins.
DER = b"\x30\x82"

# What sha256sum would write in another way, with a backslash in front of its line.
ESCAPED = re.compile(r"[\\\n\r]")

# Where a folder is made in which bytes are signed: one in which nobody replaces another's name.
SIGNED_IN = "/var/tmp" if IS_POSIX else None

# The Debian package of each command.
PACKAGES = {"minisign": "minisign", "openssl": "openssl"}


class BadSignature(StationError):
    """A file isn't what was signed, or couldn't be signed."""


@dataclass(frozen=True)
class Signer:
    """Who signs: a secret key of minisign's, or a certificate with its key. A key of `pkcs11:` stays in its token."""

    minisign: Optional[Path] = None
    cms: Optional[Path] = None
    cms_key: Optional[str] = None

    @property
    def ending(self) -> str:
        return MINISIG if self.minisign else CMS

    def sign(self, file: Path, data: bytes) -> Path:
        """Signs the bytes of a file, and gives the name of the signature, which is beside it, whole and synced. They
        are signed in a folder of this process alone: beside the file others may put theirs in its place."""
        made = beside(file, self.ending)
        with tempfile.TemporaryDirectory(prefix="wanekupo-sign.", dir=SIGNED_IN) as folder:
            own = Path(folder, file.name)
            own.write_bytes(data)
            new = beside(own, self.ending)
            if self.minisign:
                words = ["minisign", "-S", "-s", self.minisign, "-m", own, "-x", new]
            else:
                words = ["openssl", "cms", "-sign", "-binary", "-md", "sha256", "-in", own, "-signer", self.cms]
                words += [*_key_words(str(self.cms_key)), "-outform", "DER", "-out", new]
            _ran(words, f"{file} wasn't signed", "Look at the key, its password, and what the line above says.")
            replace_bytes(made, new.read_bytes(), READABLE)
        return made


def _key_words(key: str) -> list[str]:
    """Where openssl finds a key: a file, or by Debian's engine a token of PKCS #11, which asks for its PIN."""
    is_token = key.startswith("pkcs11:")
    return ["-inkey", key, *(["-engine", "pkcs11", "-keyform", "engine"] if is_token else [])]


def beside(file: Path, ending: str) -> Path:
    return file.with_name(file.name + ending)


def add_signer(parser: argparse.ArgumentParser) -> None:
    """The words of the command line that say who signs."""
    group = parser.add_argument_group("a signature beside the file")
    group.add_argument("--minisign", metavar="KEY", help="sign by minisign, with this secret key: FILE.minisig")
    group.add_argument("--cms", metavar="CERT", help="sign by openssl cms, with this certificate: FILE.p7s")
    group.add_argument("--cms-key", metavar="KEY", help="the certificate's key: a file, or pkcs11:.. of a token")


def signer_of(args: argparse.Namespace) -> Optional[Signer]:
    """Who signs by the words of the command line; None where nobody is to."""
    if args.minisign is None and args.cms is None and args.cms_key is None:
        return None
    told = "Give --minisign KEY, or --cms CERT with --cms-key KEY."
    if args.minisign is not None and (args.cms, args.cms_key) != (None, None):
        raise BadSettings("two are said to sign", told)
    if args.minisign is None and None in (args.cms, args.cms_key):
        raise BadSettings("it isn't said who signs", told)
    key = None if (args.cms_key or "").startswith("pkcs11:") else args.cms_key
    named: list[Optional[str]] = [args.minisign, args.cms, key]
    for file in filter(None, named):
        if not os.path.isfile(file):
            raise BadSettings(f"there is no key's file {file}", "Look at its name.")
    if args.minisign is not None and is_public(Path(args.minisign)):
        raise BadSettings(f"{args.minisign} is a public key, which signs nothing", "Name the secret key's file.")
    return Signer(args.minisign and Path(args.minisign), args.cms and Path(args.cms), args.cms_key)


def is_public(file: Path) -> bool:
    """Whether a file has a public key as minisign writes it: in its second line, in base64, 42 bytes from Ed on."""
    with contextlib.suppress(ValueError, IndexError), open(file, "rb") as source:
        key = base64.b64decode(source.read(LONGEST_KEY).splitlines()[1], validate=True)
        return len(key) == PUBLIC_BYTES and key.startswith(b"Ed")
    return False


def _check_trusted(minisign: Optional[Path], cms: Optional[Path]) -> None:
    """Refuses a file that is no public key, or no certificate: with a secret one nothing could be verified."""
    if minisign is not None and not is_public(minisign):
        told = "Name the public one, which minisign -G wrote beside the secret one."
        raise BadSettings(f"{minisign} is no public key of minisign", told)
    data = cms.read_bytes() if cms is not None else b""
    if cms is not None and b"-----BEGIN CERTIFICATE-----" not in data and not data.startswith(DER):
        raise BadSettings(f"{cms} has no certificate", "Name the signer's certificate, and not its key.")


def verify(file: Path, minisign: Optional[Path] = None, cms: Optional[Path] = None) -> None:
    """Whether a file is what was signed, by the public key or the certificate that is named; else `BadSignature`."""
    if minisign is None and cms is None:
        raise BadSettings("it isn't said whose signature is to be there", "Give --minisign PUBLIC, or --cms CERT.")
    if minisign is not None and cms is not None:
        raise BadSettings("two signatures are said to be there", "Give --minisign PUBLIC, or --cms CERT.")
    needed = [file, minisign or cms, beside(file, MINISIG if minisign else CMS)]
    for its in needed:
        if not os.path.isfile(str(its)):
            raise BadSettings(f"there is no {its}", "Look at its name.")
    _check_trusted(minisign, cms)
    if minisign is not None:
        words: Sequence[object] = ["minisign", "-V", "-q", "-p", minisign, "-m", file, "-x", beside(file, MINISIG)]
    else:
        words = ["openssl", "cms", "-verify", "-binary", "-inform", "DER", "-in", beside(file, CMS), "-content", file]
        words = [*words, "-certfile", cms, "-nointern", "-noverify", "-out", os.devnull]
    told = "Don't go on with this file: have it sent again, by another way, and look at the key that you trust."
    _ran(words, f"{file} isn't as it was signed, or another key signed it", told)


def digest_of_file(file: Path) -> str:
    """The SHA-256 of a file of any length, in hexadecimal digits."""
    digest = hashlib.sha256()
    with open(file, "rb") as source:
        while block := source.read(BLOCK):
            digest.update(block)
    return digest.hexdigest()


def digest_file(file: Path, data: bytes) -> Path:
    """Writes the SHA-256 of a file's bytes beside it, for `sha256sum -c` in its folder, and gives the name of that."""
    if ESCAPED.search(file.name):
        raise BadSettings(f"the name of {file} has a backslash or a line end", "Take another name.")
    made = beside(file, DIGEST)
    replace_bytes(made, os.fsencode(f"{hashlib.sha256(data).hexdigest()}  {file.name}\n"), READABLE)
    return made


def _ran(words: Sequence[object], happened: str, advice: str) -> None:
    """Runs a command to its end. It asks for a password by itself, on the terminal, and what it prints goes to standard
    error: the command's own output isn't its place."""
    given = [os.fspath(word) if isinstance(word, Path) else str(word) for word in words]
    try:
        done = subprocess.run(given, stdout=STANDARD_ERROR, check=False)
    except FileNotFoundError:
        package = PACKAGES[given[0]]
        raise BadSettings(f"there is no command {given[0]}", f"Install Debian's {package}.") from None
    if done.returncode:
        raise BadSignature(happened, advice)
