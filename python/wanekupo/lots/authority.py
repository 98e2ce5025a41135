"""A CA's folder: its certificate, which certificates it issued, and the command that signs.

    ca.pem     the CA's certificate
    ca.cnf     for `openssl ca`: deploy/ca/devices.cnf, with index.txt and newcerts beside it
    issuer     the issuer of the server whose records this CA certifies; a person adds, a line each, those of the same
               customer whose serial numbers can't be the same
    issued/    SERIAL.pem of each record that got its certificate; SERIAL.asked while the command signs

A record gets one certificate, whenever this program is killed. What `openssl ca` issued and `issued` lacks is taken out
of its own newcerts. Of another command nobody here knows what it issued: a person looks.
"""

import contextlib
import os
import re
import subprocess
import tempfile
from datetime import datetime
from pathlib import Path
from typing import Any, Iterator, Mapping, Optional, Self, Sequence
from urllib.parse import unquote

from wanekupo.common.errors import PAGES, BadKey, BadSettings, StationError
from wanekupo.common.files import IS_POSIX, OTHERS_WRITE, locked, opened_lock, replace_bytes, sync, tested_folder
from wanekupo.lots.idevid import TIME, chain_fault, certificate_faults, late_fault, moment_now
from wanekupo.lots.spools import CertificateRequest, certificates_of, der_of, pem_of
from wanekupo.seat.profiles import PLAIN, Profile

READABLE = 0o644
OTHERS_READ = 0o044

# The statuses by which another command says that it has issued nothing. Behind each other one nobody knows: a signal,
# a reply that was lost.
NOTHING = range(1, 64)

# How many seconds a signature may take, and how many bytes have to be free: `openssl ca` tells of no full disk.
LONGEST, ROOM = 120, 1 << 20

# In the index of `openssl ca`: a row's state, its time of revocation, the certificate's own number and its subject.
STATE, NUMBER, SUBJECT = 0, 3, 5
OF_DEVICE = re.compile(r"/serialNumber=([A-Z0-9-]{1,64})(?:/vid=[0-9A-F]{4}/pid=[0-9A-F]{4})?")

# A key that stays in a token, as a configuration names it, and where that one's PIN is.
TOKEN = re.compile(r"""^\s*private_key\s*=\s*["']?pkcs11:([^"'\n]*)""", re.MULTILINE)
PIN_FILE, PIN = re.compile(r"[?;&]pin-source=(?:file:)?([^;&\s]+)"), "pin-value="

# A line of openssl's errors: thread, "error", number, library, function and reason, with colons between.
ERROR, REASON = 1, 5

NO_CA = f"Make the CA first: {PAGES}/line/lots.md has the commands."


class NotCertified(StationError):
    """A request gets no certificate; the others go on."""


class BadSigner(StationError):
    """What signs failed, or signed what it shouldn't have: no other request is given to it."""


class Authority:
    """The folder of a CA, which one process has at a time. The command that signs keeps the lock too, should this
    process end before it."""

    def __init__(self, folder: Path, profile: Profile = PLAIN, command: Optional[Sequence[str]] = None):
        self.folder, self.profile, self.command = folder, profile, command
        self.trusted, self.issued, self._config = folder / "ca.pem", folder / "issued", folder / "ca.cnf"
        needed = [self.trusted] if command else [self.trusted, self._config]
        for file in needed:
            if not file.is_file():
                raise BadSettings(f"there is no {file}", NO_CA)
        self.issued.mkdir(mode=0o755, exist_ok=True)
        for its in (folder, self.issued):
            tested_folder(its)
        for file in needed:
            _tested_own(file)
        for secret in self._secrets():
            _tested_secret(secret)
        self._lock = opened_lock(folder / "certify.lock")
        try:
            locked(self._lock)
        except OSError:
            os.close(self._lock)
            raise BadSettings(f"another certify works with {folder}", "Wait until it is done.") from None
        self._numbers: dict[str, tuple[str, str]] = {}

    def __enter__(self) -> Self:
        try:
            if not self.command:
                self._read_index()
            return self
        except BaseException:
            self.close()
            raise

    def __exit__(self, *_: Any) -> None:
        self.close()

    def close(self) -> None:
        os.close(self._lock)

    def _secrets(self) -> Iterator[Path]:
        """The files that this user alone is to read: the CA's key, and where that is in a token its PIN's."""
        yield self.folder / "ca.key"
        token = None if self.command else TOKEN.search(self._config.read_text(encoding="utf-8"))
        if token:
            file = PIN_FILE.search(token[1])
            yield from [self.folder / unquote(file[1])] if file else []
            yield from [self._config] if PIN in token[1] else []

    # The issuers.

    def issuers(self) -> list[str]:
        with contextlib.suppress(FileNotFoundError):
            return (self.folder / "issuer").read_text(encoding="ascii").split()
        return []

    def take(self, issuer: str) -> None:
        """Has the CA be an issuer's, for good."""
        if not self.issuers():
            replace_bytes(self.folder / "issuer", f"{issuer}\n".encode(), READABLE)
        if issuer not in (known := self.issuers()):
            told = f"Give it a CA of its own; or, if no number of two can be the same, a line in {self.folder}/issuer."
            raise NotCertified(f"{self.folder} certifies for {', '.join(known)}, and not for {issuer}", told)

    # What was issued.

    def kept(self, serial: str) -> Optional[bytes]:
        """The certificate that a record got, as PEM. One that was revoked is given to nobody again."""
        state, number = self._numbers.get(serial, ("", ""))
        if state == "R":
            told = f"A record gets no second one. Only if nobody ever got that one {_taken_away(number)}."
            raise NotCertified(f"the certificate of {serial} was revoked", told)
        with contextlib.suppress(FileNotFoundError):
            pem = (self.issued / f"{serial}.pem").read_bytes()
            self._forget(serial)  # as of a run that was killed behind the file
            return pem
        return None

    def keep(self, certificate: Any, record: Mapping[str, Any], told: str, faults: Sequence[str] = ()) -> bytes:
        """Keeps a certificate as the record's one, where it is as it has to be; else a person is told what to do."""
        serial = record["serial"]
        wrong = [*faults, *certificate_faults(certificate, record, self.profile)]
        wrong += chain_fault(certificate, [], self.trusted)
        if wrong:
            raise NotCertified(f"the certificate of {serial} isn't as it has to be: {'; '.join(wrong)}", told)
        pem = pem_of("CERTIFICATE", der_of(certificate)).encode()
        replace_bytes(self.issued / f"{serial}.pem", pem, READABLE)
        self._forget(serial)
        return pem

    def _forget(self, serial: str) -> None:
        """Has a certificate no longer be one that was asked for."""
        with contextlib.suppress(FileNotFoundError):
            (self.issued / f"{serial}.asked").unlink()

    def certified(self, record: Mapping[str, Any], request: CertificateRequest) -> tuple[bytes, bool]:
        """The certificate of a record, as PEM, and whether it was issued now. A request of it was looked at."""
        serial = record["serial"]
        self.take(record["issuer"])
        found = self._found(serial)
        if found is not None:
            told = f"Nobody got it from here: {_taken_away(certificate_number(found))}, and begin again."
            if len(self.issuers()) > 1:
                told = f"Two issuers may have given {serial}: look whose it is, and certify no other one."
            return self.keep(found, record, told), False
        asked = self.issued / f"{serial}.asked"
        if asked.exists() and self.command:
            told = (
                f"Look in the CA. If it issued one, put it into the spool as {serial}.pem; if it issued none, remove "
                f"{asked}. Then begin again."
            )
            raise NotCertified(f"the command was asked for the certificate of {serial}, and gave none", told)
        self._need_room()
        replace_bytes(asked, f"{record['chip']} {record['key_sha256']}\n".encode(), READABLE)
        begun = moment_now()
        certificate = self._signed(record, request, begun)
        try:
            return self.keep(certificate, record, "", list(late_fault(certificate, record, begun))), True
        except NotCertified as error:
            raise BadSigner(f"{error}. No other one was signed", self._wrong(certificate, asked)) from error

    def _wrong(self, certificate: Any, asked: Path) -> str:
        """What a person does about a certificate that the CA shouldn't have signed."""
        if self.command:
            return f"Mend the command, and revoke that certificate in its CA. Then remove {asked}, and begin again."
        return f"Mend ca.cnf. Nobody got that one: {_taken_away(certificate_number(certificate))}, and begin again."

    def _need_room(self) -> None:
        """Stops where the disk is almost full. The index is written anew with each certificate."""
        found, index = os.statvfs(self.folder), self.folder / "index.txt"
        left = found.f_bavail * found.f_frsize
        if left < ROOM + 2 * (index.stat().st_size if index.exists() else 0):
            told = "Make room, and begin again: what was issued is kept."
            raise StationError(f"the disk of {self.folder} is almost full: {left} bytes are left", told)

    # The command.

    def _signed(self, record: Mapping[str, Any], request: CertificateRequest, begun: datetime) -> Any:
        begins = record["not_before"] or begun.strftime(TIME)
        with tempfile.TemporaryDirectory() as folder:
            csr, out = Path(folder) / f"{record['serial']}.csr", Path(folder) / "out.pem"
            csr.write_text(request.pem, encoding="ascii")
            facts = {name.upper(): record[name] for name in ("serial", "chip", "issuer", "key_sha256", "not_after")}
            facts |= {"CSR": str(csr), "NOT_BEFORE": begins, "SUBJECT": self.profile.subject(record["serial"])}
            if self.command:
                out.write_bytes(self._ran(self.command, record["serial"], facts))
            else:
                times = ["-startdate", begins, "-enddate", record["not_after"]]
                files = ["-in", str(csr), "-out", str(out), "-subj", self.profile.subject(record["serial"])]
                self._ran([*self._openssl(), "-batch", "-notext", *times, *files], record["serial"])
            data = out.read_bytes()
        try:
            certificate = certificates_of(data, Path(f"what was signed for {record['serial']}"))[0]
        except BadKey as error:
            raise BadSigner(str(error), "Look at the command, and in the CA.") from error
        if not self.command:
            self._complete(certificate)
        return certificate

    def _complete(self, certificate: Any) -> None:
        """Writes openssl's own copy of a certificate anew where it was cut, which openssl doesn't tell."""
        file = self.folder / "newcerts" / f"{certificate_number(certificate)}.pem"
        pem = pem_of("CERTIFICATE", der_of(certificate)).encode()
        if not file.exists() or file.read_bytes() != pem:
            replace_bytes(file, pem, READABLE)

    def _openssl(self) -> list[str]:
        """`openssl ca`, with Debian's engine for PKCS #11 where the configuration's key is in a token."""
        is_token = TOKEN.search(self._config.read_text(encoding="utf-8"))
        engine = ["-engine", "pkcs11", "-keyform", "engine"] if is_token else []
        return ["openssl", "ca", "-config", "ca.cnf", *engine]

    def _ran(self, words: Sequence[str], what: str, facts: Optional[Mapping[str, str]] = None) -> bytes:
        """What a command prints. One that didn't start, or that says so by its status, has issued nothing, and is asked
        again by the next run. Of another command's other ends a person looks what became."""
        try:
            done = subprocess.run(
                list(words),
                cwd=self.folder,
                env={**os.environ, **(facts or {})},
                stdin=subprocess.DEVNULL,
                capture_output=True,
                check=False,
                timeout=LONGEST,
                pass_fds=(self._lock,),
            )
        except OSError as error:
            self._forget(what)
            told = "Look at its name, and whether it may be run."
            raise BadSettings(f"there is no command {words[0]} that starts ({error.strerror})", told) from None
        except subprocess.TimeoutExpired:
            told = "No other one was asked for. Look in the CA whether it was signed, and begin again."
            ended = f"{words[0]} didn't end within {LONGEST} seconds"
            raise BadSigner(f"the certificate of {what} wasn't had: {ended}", told) from None
        ended = f"{words[0]} {_end_of(done)}"
        if done.returncode and self.command and done.returncode not in NOTHING:
            told = "No other one was asked for. Look in the CA whether it was signed, and begin again."
            raise BadSigner(f"nobody knows whether the certificate of {what} was signed: {ended}", told)
        if done.returncode:
            self._forget(what)
            told = "No other one was asked for. Look at the CA, its key and the PIN of that, and begin again."
            raise BadSigner(f"the certificate of {what} wasn't signed: {ended}", told)
        return done.stdout

    # The index of `openssl ca`.

    def _read_index(self) -> None:
        """Reads which serial numbers have a certificate. A run that was killed may have left one that isn't in the
        index, or an index under its other name."""
        index = self.folder / "index.txt"
        if not index.exists() and (self.folder / "index.txt.old").exists():
            replace_bytes(index, (self.folder / "index.txt.old").read_bytes(), READABLE)
        known = {row[NUMBER] for row in self._rows()}
        for file in (self.folder / "newcerts").glob("*.pem"):
            if file.stem not in known:
                self._add(file)
        for row in self._rows():
            number = OF_DEVICE.fullmatch(row[SUBJECT])
            if number and (row[STATE] != "E" or number[1] not in self._numbers):
                self._numbers[number[1]] = row[STATE], row[NUMBER]

    def _rows(self) -> Iterator[list[str]]:
        try:
            lines = (self.folder / "index.txt").read_text(encoding="utf-8").splitlines()
        except FileNotFoundError:
            raise BadSettings(f"{self.folder} has no index.txt", NO_CA) from None
        return (row for row in (line.split("\t") for line in lines) if len(row) == SUBJECT + 1)

    def _add(self, file: Path) -> None:
        """Adds a certificate to the index that was signed by this CA and isn't there. What isn't one was cut, and never
        left this folder."""
        try:
            certificate = certificates_of(file.read_bytes(), file)[0]
        except BadKey:
            file.rename(file.with_suffix(".cut"))
            sync(file.parent)
            return
        if not list(chain_fault(certificate, [], self.trusted)):
            self._ran([*self._openssl(), "-valid", str(file.absolute())], file.stem)

    def _found(self, serial: str) -> Optional[Any]:
        """The certificate that `openssl ca` issued for a serial number before."""
        _, number = self._numbers.get(serial, ("", ""))
        if not number:
            return None
        file = self.folder / "newcerts" / f"{number}.pem"
        if not file.exists():
            told = f"Put it back from a backup. Only if nobody ever got that one {_taken_away(number)}."
            raise NotCertified(f"index.txt has a certificate of {serial}, and there is no {file}", told)
        return certificates_of(file.read_bytes(), file)[0]


def _tested_own(file: Path) -> None:
    """Whether nobody else writes a file by which the CA signs: openssl loads the libraries that `ca.cnf` names."""
    found = file.stat()
    if IS_POSIX and (found.st_uid not in (os.geteuid(), 0) or found.st_mode & OTHERS_WRITE):
        told = f"Look whether it is as it was, then chmod go-w {file}."
        raise BadSettings(f"others can write {file}, by which the CA signs", told)


def _tested_secret(file: Path) -> None:
    """Whether nobody else can read a file, if it is there."""
    if IS_POSIX and file.exists() and file.stat().st_mode & OTHERS_READ:
        told = f"chmod go-rwx {file}, and change what is in it where others are on this machine."
        raise BadSettings(f"others can read {file}, which has a secret of the CA", told)


def certificate_number(certificate: Any) -> str:
    """A certificate's own number, as openssl names its file in newcerts and has it in the index."""
    number = f"{certificate.serial_number:X}"
    return number.zfill(len(number) + len(number) % 2)


def _taken_away(number: str) -> str:
    """Both steps, as newcerts would bring back a line that is taken out of the index alone."""
    return f"take newcerts/{number}.pem away and its line out of index.txt, both"


def _end_of(done: subprocess.CompletedProcess[bytes]) -> str:
    """How a command ended, with the last that it said: of openssl's errors the reasons alone."""
    lines = []
    for line in done.stderr.decode("utf-8", "replace").splitlines():
        parts = line.split(":")
        is_error = len(parts) > REASON and parts[ERROR] == "error"
        lines += [it for it in [(parts[REASON] if is_error else line).strip()] if it and it not in lines]
    code = done.returncode
    how = f"ended with status {code}" if code > 0 else f"was ended by signal {-code}"
    return f"{how}: {'; '.join(lines[-3:])[:300] or 'it said nothing'}"
