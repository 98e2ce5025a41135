"""The commands `certify` and `verify`: a certificate for each request of a spool by its record, and a look whether a
certificate is its record's.

Both run on the CA's side, or wherever somebody has certificates and a token that only looks. Neither sees a device's
secret key, and `certify` stops where a spool has one.
"""

import argparse
import functools
import shlex
from collections import defaultdict
from pathlib import Path
from typing import Any, Iterable, Iterator, Mapping, Optional, Sequence, Union

from wanekupo.seat import listings as gathering
from wanekupo.lots.authority import READABLE, Authority, NotCertified
from wanekupo.seat.command_line import Command
from wanekupo.seat.settings import Settings, looking_station_of
from wanekupo.common.errors import BadKey, BadSettings, NotTheServer, StationError, UnsafeFile
from wanekupo.common.files import replace_bytes, tested_folder
from wanekupo.seat.forms import CHIP, SERIAL
from wanekupo.lots.idevid import REVOKED, TIME, chain_fault, certificate_faults, is_early, moment_now
from wanekupo.seat.keys import library, weakness_of
from wanekupo.seat.profiles import Profile
from wanekupo.common.printing import Progress, print_shown, say_json, warn
from wanekupo.seat.replies import Device, Listed
from wanekupo.common.sentences import sentence_of
from wanekupo.lots.spools import CERTIFICATE, REQUEST, SECRET, CertificateRequest, certificates_of
from wanekupo.lots.spools import key_of_certificate, read_in, request_in, tested_crl, tested_spool
from wanekupo.seat.states import IN_USE
from wanekupo.seat.station import Station

CERTIFY = """: it holds each request of the spool, SERIAL.csr, to the device's record, has a command sign it, and writes
SERIAL.pem beside it. A record gets one certificate. Status 1 where a request was refused."""
VERIFY = """: the key, the serial number, the validity and the form, and its chain to a certificate that is trusted.
Status 1 where one isn't."""

DONE, REFUSED = 0, 1

# A device as the list shows it, or by itself; and of how few serial numbers each device is asked for by itself.
Found = Union[Device, Listed]
FEW = 8


def add_certify(parser: argparse.ArgumentParser) -> None:
    parser.add_argument("folder", metavar="SPOOL", help="the folder of requests: SERIAL.csr")
    parser.add_argument("--ca-folder", required=True, metavar="FOLDER", help="the CA's folder: ca.pem, ca.cnf, issued")
    parser.add_argument("--issuer", metavar="NAME", help="the issuer of these records, where the spool has several")
    said = "another command than openssl ca: it gets CSR, SERIAL, NOT_BEFORE, NOT_AFTER .. and prints the certificate"
    parser.add_argument("--sign-with", metavar="COMMAND", type=shlex.split, help=said)


def add_verify(parser: argparse.ArgumentParser) -> None:
    parser.add_argument("certificates", nargs="+", metavar="CERT", help="a certificate, with those behind it")
    parser.add_argument("--trusted", required=True, metavar="FILE", help="the certificates that a chain may end at")
    parser.add_argument("--issuer", metavar="NAME", help="the issuer of these records, where the customer has several")
    parser.add_argument("--crl", metavar="FILE", help="the CA's list of what it revoked (openssl ca -gencrl), as PEM")


# Devices by their serial numbers.


class DevicesBySerial:
    """The devices of some serial numbers, by one reading of the customer's list. A serial number of several issuers is
    that of one that is named, if any are."""

    def __init__(self, station: Station, serials: Iterable[str], issuers: Sequence[str]):
        self._station, self._issuers, self._wanted = station, issuers, set(serials)

    @functools.cached_property
    def _listed(self) -> Mapping[str, list[Listed]]:
        """The devices of each serial number; the list is read where one is asked for."""
        listed: dict[str, list[Listed]] = defaultdict(list)
        for it in gathering.devices(self._station):
            if it.serial in self._wanted:
                listed[it.serial].append(it)
        return listed

    def record(self, serial: str, chip: str = "") -> tuple[Found, Mapping[str, Any]]:
        """The device of a serial number, and its record. The list has all devices of the customer: it isn't read for a
        few numbers of a known issuer, where each is that of the chip which is said to have it."""
        is_alone = chip and len(self._issuers) == 1 and len(self._wanted) <= FEW
        named = self._station.find_device(chip) if is_alone else None
        found = self._recorded([named] if named and named.serial == serial else [])
        found = found or self._recorded(self._listed[serial])
        if not found:
            of = f" of {' or '.join(self._issuers)}" if self._issuers else ""
            told = "Look whose it is: a token sees the devices of its own customer."
            raise NotCertified(f"this customer has no device with the serial number {serial}{of}", told)
        if len(found) > 1:
            raise NotCertified(f"two issuers have the serial number {serial}", "Give --issuer NAME.")
        ((listed, record),) = found
        if (record["serial"], record["chip"]) != (serial, listed.chip):
            raise NotTheServer(f"the record of the chip {listed.chip} isn't that of the list", "Ask again.")
        if listed.state not in IN_USE:
            raise NotCertified(f"{serial} is of the chip {listed.chip}, which is {listed.state}")
        return listed, {"not_before": None, **record}

    def _recorded(self, devices: Iterable[Found]) -> list[tuple[Found, Mapping[str, Any]]]:
        """Those of devices whose record is of the issuers, with it."""
        found = [(it, gathering.record(self._station, it.chip)) for it in devices]
        return [it for it in found if not self._issuers or it[1]["issuer"] in self._issuers]


# certify


def certify(settings: Settings, args: argparse.Namespace) -> int:
    spool = Path(args.folder)
    serials = list(_serials_in(spool))
    counts = {"issued": 0, "present": 0, "refused": 0}
    with (
        Authority(Path(args.ca_folder), settings.profile, args.sign_with) as authority,
        looking_station_of(settings) as station,
    ):
        issuers = authority.issuers()
        if args.issuer and args.issuer not in (issuers or [args.issuer]):
            told = "Take that one's folder, or leave --issuer away."
            raise BadSettings(f"{args.ca_folder} certifies for {', '.join(issuers)}, and not for {args.issuer}", told)
        books = DevicesBySerial(station, serials, [args.issuer] if args.issuer else issuers)
        try:
            with Progress("requests") as shown:
                for serial in gathering.watched(serials, shown, len(serials)):
                    counts[_outcome(spool, serial, authority, books)] += 1
        finally:
            say_json(counts)
    return REFUSED if counts["refused"] else DONE


def _outcome(spool: Path, serial: str, authority: Authority, books: DevicesBySerial) -> str:
    """What became of a request: one that is refused is told, and the others go on."""
    try:
        return _certified(spool, serial, authority, books)
    except (NotCertified, BadKey, UnsafeFile) as error:
        warn(sentence_of(error))
        return "refused"


def _serials_in(spool: Path) -> Iterator[str]:
    """The serial numbers of a spool's requests. It is this user's alone, and has no secret key."""
    tested_spool(spool)
    tested_folder(spool)
    for file in sorted(spool.iterdir()):
        if not file.is_symlink() and file.is_file():
            with open(file, "rb") as source:
                is_secret = SECRET in source.read(1 << 16)
            if is_secret:
                told = "Look whose it is before anything else: only where it is a device's own, scrap that device. "
                told += "Then make the spool anew."
                raise StationError(f"{file} has a private key", told)
        named = REQUEST.fullmatch(file.name)
        if named:
            yield named[1]
        elif file.suffix == ".csr" and not file.name.startswith("."):
            warn(f"{file} is passed over: its name isn't a serial number with .csr behind it.")


def _certified(spool: Path, serial: str, authority: Authority, books: DevicesBySerial) -> str:
    """Has a record's certificate beside its request, and says whether it was issued now or present."""
    request, beside = request_in(spool, serial), spool / f"{serial}{CERTIFICATE}"
    if request is None:
        raise NotCertified(f"{spool}/{serial}.csr went away meanwhile")
    there, pem, is_new = read_in(beside), authority.kept(serial), False
    if pem is not None:
        _check_kept(request, pem, spool / f"{serial}.csr")
    if pem is None or there != pem:
        listed, record = books.record(serial, *_chips_in(request)[:1])
        _check(request, record, spool / f"{serial}.csr", authority.profile)
        authority.take(record["issuer"])
        if pem is None and there is not None:
            told = "Look where it is from, and take it out of the spool."
            pem = authority.keep(certificates_of(there, beside)[0], record, told)
        if pem is None:
            pem, is_new = authority.certified(record, request)
        if certificates_of(pem, beside)[0] != (certificates_of(there or pem, beside)[0]):
            told = "Look where it is from. Take it away and certify again: that writes the record's own."
            raise NotCertified(f"{beside} is another certificate than the one that {serial} got", told)
        if there is None:
            replace_bytes(beside, pem, READABLE)
    return "issued" if is_new else "present"


def _check_kept(request: CertificateRequest, pem: bytes, file: Path) -> None:
    """Holds a request to the certificate that its record has already, without a look at the record."""
    certificate = certificates_of(pem, file)[0]
    if request.public_key != key_of_certificate(certificate):
        told = "Look which chip each is of, before anything else."
        raise NotCertified(f"{file} has another key than the certificate of its serial number", told)


def _check(request: CertificateRequest, record: Mapping[str, Any], file: Path, profile: Profile) -> None:
    """Holds a request to the record of its serial number: the key, and the chip where its subject names one."""
    if request.digest != record["key_sha256"]:
        told = "Look which chip each is of, before anything else. The device keeps its record."
        raise NotCertified(f"{file} has another key than the record of the chip {record['chip']}", told)
    key = library("x509").load_der_x509_csr(request.der).public_key()
    weakness = ", ".join(weakness_of(key, profile))
    if weakness:
        told = "No CA certifies it. Scrap the device, and have the next one made with another kind of key."
        raise NotCertified(f"{file}, of the chip {record['chip']}, can't be certified: {weakness}", told)
    others = [it for it in _chips_in(request) if it != record["chip"]]
    if others:
        told = "Look which chip each is of, before anything else."
        raise NotCertified(f"{file} names the chip {others[0]}, and its record is of {record['chip']}", told)


def _chips_in(request: CertificateRequest) -> list[str]:
    """The chips that a request's subject names."""
    x509 = library("x509")
    names = x509.load_der_x509_csr(request.der).subject.get_attributes_for_oid(x509.NameOID.COMMON_NAME)
    return [str(it.value) for it in names if CHIP.fullmatch(str(it.value))]


# verify


def verify_certificates(settings: Settings, args: argparse.Namespace) -> int:
    held = (settings.profile, *tested_crl(args.trusted, args.crl))
    library("x509")
    chains = {name: _chain_of(name) for name in dict.fromkeys(args.certificates)}
    serials = {name: _serial_of(chain[0]) for name, chain in chains.items() if chain}
    with looking_station_of(settings) as station:
        books = DevicesBySerial(station, filter(None, serials.values()), [args.issuer] if args.issuer else [])
        refused = sum(chain is None for chain in chains.values())
        for name, chain in chains.items():
            try:
                if chain:
                    print_shown(f"{name}: {_verified(chain, serials[name], books, *held)}\n")
            except (NotCertified, BadKey) as error:
                warn(f"{name}: {sentence_of(error)}")
                refused += 1
    return REFUSED if refused else DONE


def _chain_of(name: str) -> Optional[list[Any]]:
    """The certificates of a file. One without any that can be read is told, and is refused as one that isn't right."""
    try:
        return certificates_of(_read(Path(name)), Path(name))
    except (BadKey, UnsafeFile) as error:
        warn(sentence_of(error))
        return None


def _read(file: Path) -> bytes:
    if file.is_dir():
        raise BadSettings(f"{file} is a folder, and no certificate", f"Name its certificates: {file}/*.pem.")
    data = read_in(file)
    if data is None:
        raise BadSettings(f"there is no certificate {file}", "Look at its name.")
    return data


def _serial_of(certificate: Any) -> str:
    """The serial number in a certificate's subject, empty where it has none, or several."""
    try:
        found = certificate.subject.get_attributes_for_oid(library("x509").NameOID.SERIAL_NUMBER)
    except ValueError:
        return ""
    numbers = [str(it.value) for it in found]
    return numbers[0] if len(numbers) == 1 and SERIAL.fullmatch(numbers[0]) else ""


def _verified(
    chain: Sequence[Any], serial: str, books: DevicesBySerial, profile: Profile, trusted: Path, crl: Optional[Path]
) -> str:
    if not serial:
        raise NotCertified("it has no serialNumber of a record in its subject")
    listed, record = books.record(serial)
    whose = f"{serial}, the chip {listed.chip}"
    wrong = [*certificate_faults(chain[0], record, profile), *chain_fault(chain[0], chain, trusted, crl)]
    if wrong == [REVOKED]:
        raise NotCertified(f"it is the certificate of {whose}, and its CA revoked it", "Trust this device no more.")
    if wrong:
        told = "Don't trust it, and look where it is from."
        raise NotCertified(f"it isn't the certificate of {whose}: {'; '.join(wrong)}", told)
    if is_early(record):
        told = f"It holds from then on: now it is {moment_now().strftime(TIME)}."
        raise NotCertified(f"it is the certificate of {whose}, valid from {record['not_before']} and not before", told)
    return f"{whose} of {listed.order}, {listed.state}: as its record"


COMMANDS = [
    Command("certify", "have the requests of a spool certified", add_certify, certify, CERTIFY),
    Command("verify", "hold certificates to their records", add_verify, verify_certificates, VERIFY),
]
