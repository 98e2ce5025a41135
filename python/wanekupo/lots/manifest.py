"""The command `manifest`: the list of a lot, a line for each record, with its digest and its signature beside it.

While records are asked for, those that came stand in FILE.part, each a whole line behind its SHA-256. A list that was
cut goes on with them. FILE is written when all are there and counted: whole and signed, or not at all.
"""

import argparse
import base64
import contextlib
import hashlib
import json
import os
from concurrent.futures import ThreadPoolExecutor
from pathlib import Path
from typing import IO, Any, Callable, Iterator, Mapping, Optional, Sequence

from wanekupo.lots import clouds
from wanekupo.seat import listings as gathering
from wanekupo.lots import sheets
from wanekupo.seat.command_line import Command
from wanekupo.seat.settings import Settings, looking_station_of, token_of
from wanekupo.common.errors import BadKey, BadSettings, StationError
from wanekupo.common.files import locked, opened_own, replace_bytes, sync
from wanekupo.lots.idevid import REVOKED, chain_fault
from wanekupo.seat.lot_records import COLUMNS, Lot, Row, fields_of, is_row, lot_of, device_rows
from wanekupo.common.printing import Progress, print_shown, say_json, table_lines, warn
from wanekupo.common.signing import CMS, DIGEST, MINISIG, Signer, add_signer, beside, digest_file, signer_of
from wanekupo.lots.spools import CERTIFICATE, certificate_in, certificates_of, der_of, key_of_certificate
from wanekupo.lots.spools import read_in, request_in, tested_crl, tested_spool
from wanekupo.seat.states import IN_USE, WITH_RECORD

SAID = "list a lot: a line for each record of orders, with its digest and its signature beside it"
MORE = """. The lines come in the order of the orders' names, then of the serial numbers, and are counted against the
report. A list that was cut goes on with what is in FILE.part. Without --out it is printed, once it is whole."""

SPOOLED = ("csr", "certificate")

# What a list's file may have as its mode, from which the user's umask takes.
WRITTEN = 0o666


def add_list_words(parser: argparse.ArgumentParser) -> None:
    parser.add_argument("orders", nargs="*", metavar="ORDER", help="the orders' names")
    parser.add_argument("--all", action="store_true", help="each order of the customer, in place of names")
    parser.add_argument("--out", metavar="FILE", help="the list's file")
    parser.add_argument("--json", action="store_true", help="a line of JSON each, in place of values and commas")
    parser.add_argument("--xlsx", metavar="FILE", help="write the list for a spreadsheet too, each cell a text")
    parser.add_argument("--aws", metavar="FILE", help="write AWS IoT's file of a bulk registration, by the spool")
    parser.add_argument("--azure", metavar="FILE", help="write Azure IoT Hub's file of a bulk import, by the spool")
    parser.add_argument("--crl", metavar="FILE", help="leave out each device whose certificate this list of a CA names")
    parser.add_argument("--trusted", metavar="FILE", help="the certificate of that CA, with --crl")
    add_signer(parser)


def _check(settings: Settings, args: argparse.Namespace) -> Optional[Signer]:
    """Refuses words that don't go together, before anything is asked for."""
    if args.orders and args.all:
        raise BadSettings("orders are named, and --all is given", "Give one of the two.")
    if not args.orders and not args.all:
        raise BadSettings("it isn't said of which orders the list is", "Name orders, or give --all.")
    signer = signer_of(args)
    if args.out is None and (signer or args.xlsx or args.aws or args.azure):
        raise BadSettings("only a file is signed, or goes with a cloud's or a spreadsheet's", "Give --out FILE.")
    _check_files([Path(it) for it in (args.out, args.xlsx, args.aws, args.azure) if it is not None], signer)
    if args.xlsx:
        sheets.openpyxl_library()
    if (args.aws or args.azure or args.crl) and settings.spool is None:
        raise BadSettings("certificates are looked for in a spool, and none is named", "Give --spool FOLDER.")
    if (args.crl is None) != (args.trusted is None):
        raise BadSettings("a CA's list of what it revoked is held to its certificate", "Give --crl and --trusted.")
    if args.crl:
        tested_crl(args.trusted, args.crl)
    elif args.aws or args.azure:
        warn("warning: without --crl a device whose certificate was revoked is in the cloud's file too.")
    if settings.spool is not None:
        tested_spool(settings.spool)
    return signer


def _check_files(files: Sequence[Path], signer: Optional[Signer]) -> None:
    """Refuses files that can't be written, or whose signature this list would take away."""
    if len({os.path.realpath(it) for it in files}) < len(files):
        raise BadSettings("one file is named twice", "Give each file a name of its own.")
    for file in files:
        if not file.parent.is_dir():
            raise BadSettings(f"there is no folder {file.parent}", "Make it, or look at its name.")
        for signature in (beside(file, MINISIG), beside(file, CMS)):
            if os.path.lexists(signature) and not signer:
                told = "Sign this list too, give it another name, or remove that file."
                raise BadSettings(f"{signature} is there, and this list has no signature to take its place", told)
            if os.path.lexists(signature) and signer and beside(file, signer.ending) != signature:
                warn(f"warning: {signature} goes, as {file} gets another kind of signature.")


def main(settings: Settings, args: argparse.Namespace) -> int:
    signer = _check(settings, args)
    file = Path(args.out) if args.out else None
    with looking_station_of(settings) as station, looking_station_of(settings) as second:
        with Progress("records") as told:
            told.waits("the report and the list of devices")
            lot = lot_of(station, args.orders)
            _warn_of_missing(lot)
            with _part_of(file, settings) as part:
                rows = lot_rows((station, second), lot, part, told)
    rows = sorted(rows, key=lambda row: (row["order"], row["serial"]))
    names: tuple[str, ...] = COLUMNS
    of_all = len(rows)
    if settings.spool is not None:
        spool, names = settings.spool, (*COLUMNS, *SPOOLED)
        rows = [row | _spooled(spool, row) for row in rows]
        rows = _not_revoked(spool, rows, args) if args.crl else rows
    lines = [fields_of(row, names) for row in rows]
    if args.json:
        text = table_lines(names, ([row[name] for name in names] for row in rows), True)
    else:
        _warn_of_misread(names, lines, args.xlsx)
        text = table_lines(names, [names, *lines], False)
    if file is None:
        print_shown(text)
        return 0
    made = {Path(args.xlsx): sheets.xlsx_of(names, lines)} if args.xlsx else {}
    write_all(_clouds_files(settings.spool, rows, args) | made | {file: text.encode()}, signer)
    with contextlib.suppress(FileNotFoundError):
        _part_name(file).unlink()
    counts = {state: sum(row["state"] == state for row in rows) for state in WITH_RECORD}
    counts |= {"revoked": of_all - len(rows)} if args.crl else {}
    say_json({"file": str(file), "orders": len(lot.orders), "records": len(rows), **counts})
    return 0


def _warn_of_missing(lot: Lot) -> None:
    """Tells of serial numbers that are given, and of whose devices the store knows nothing."""
    for order, number in sorted(lot.missing.items()):
        told = "they were imported, or a restore of the store brought them back without their devices"
        warn(f"warning: {number} serial numbers of {order} are given and not in this list: {told} (wanekupo issued)")


def _warn_of_misread(names: Sequence[str], lines: Sequence[Sequence[str]], xlsx: Optional[str]) -> None:
    """Tells of each column in which a spreadsheet may change fields, and once what to do."""
    told = sheets.misread_in(names, lines)
    warn(*(f"warning: {it}" for it in told))
    if told:
        other = f"open {xlsx}" if xlsx else "give --xlsx FILE"
        warn(f"Import these columns as text, or {other}.")


def write_all(files: Mapping[Path, bytes], signer: Optional[Signer]) -> None:
    """Writes files whole, each with its digest and its signature beside it. None takes the place of an earlier one
    before all are signed: until then each lies in a folder of its own, FILE.new, under its own name."""
    rooms = {file: beside(file, ".new") for file in files}
    try:
        for file, data in files.items():
            _clear(rooms[file], file.name)
            rooms[file].mkdir(mode=0o700)
            made = rooms[file] / file.name
            replace_bytes(made, data, WRITTEN)
            digest_file(made, data)
            if signer:
                signer.sign(made, data)
        for file, room in rooms.items():
            _put_in_place(file, room)
    finally:
        for file, room in rooms.items():
            _clear(room, file.name)


def _clear(room: Path, name: str) -> None:
    """Removes such a folder with what this command writes there, also what a kill left; or a file in its place."""
    if room.is_dir() and not room.is_symlink():
        for ending in ("", DIGEST, MINISIG, CMS):
            for made in (beside(room / name, ending), beside(room / name, f"{ending}.new")):
                made.unlink(missing_ok=True)
        room.rmdir()
    else:
        room.unlink(missing_ok=True)


def _put_in_place(file: Path, room: Path) -> None:
    """Has a file and what is beside it take the places of earlier ones. What was beside an earlier one goes first, so
    that no signature stands beside another file than its own."""
    for ending in (DIGEST, MINISIG, CMS):
        beside(file, ending).unlink(missing_ok=True)
    for made in (room / file.name, *sorted(it for it in room.iterdir() if it.name != file.name)):
        os.replace(made, file.with_name(made.name))
    sync(file.parent)


def _spooled(spool: Path, row: Row) -> dict[str, Optional[str]]:
    """What the spool has of a record, in base64 of DER, where the key is the record's."""
    request, certificate = request_in(spool, row["serial"]), certificate_in(spool, row["serial"])
    keys: dict[str, bytes] = {} if request is None else {"csr": request.public_key}
    keys |= {} if certificate is None else {"certificate": key_of_certificate(certificate)}
    for name, key in keys.items():
        if hashlib.sha256(key).hexdigest() != row["key_sha256"]:
            told = f"{spool} has a {name} of {row['serial']} with another key than the record of the chip {row['chip']}"
            raise BadKey(told, "Look whose it is, and whether this is the spool of these orders.")
    found = {"csr": request and request.der, "certificate": certificate and der_of(certificate)}
    return {name: base64.b64encode(der).decode("ascii") if der else None for name, der in found.items()}


def _not_revoked(spool: Path, rows: Sequence[Row], args: argparse.Namespace) -> list[Row]:
    """The rows whose certificates a CA's list hasn't; the others are told. openssl looks at several at a time."""
    left: list[Row] = []
    with ThreadPoolExecutor(os.cpu_count()) as beside, Progress("certificates") as told:
        found = beside.map(lambda row: _is_revoked(spool, row, args), rows)
        for row, is_revoked in zip(rows, gathering.watched(found, told, len(rows))):
            if is_revoked:
                warn(f"warning: {row['serial']}, the chip {row['chip']}, is left out: {REVOKED}.")
            else:
                left.append(row)
    return left


def _is_revoked(spool: Path, row: Row, args: argparse.Namespace) -> bool:
    """Whether a CA's list has a device's certificate. Each device in use has to have one in the spool: of a request
    alone nobody knows whether its certificate was revoked."""
    if row["state"] not in IN_USE:
        return False
    file = spool / f"{row['serial']}{CERTIFICATE}"
    data = read_in(file)
    if data is None:
        raise clouds.lacks(spool, row["serial"], CERTIFICATE)
    certificate, *others = certificates_of(data, file)
    wrong = list(chain_fault(certificate, others, Path(args.trusted), Path(args.crl)))
    if wrong and wrong != [REVOKED]:
        told = "Look at the files of --trusted and --crl: both are the CA's of this spool."
        raise StationError(f"it isn't known whether {file} was revoked: {'; '.join(wrong)}", told)
    return bool(wrong)


def _clouds_files(spool: Optional[Path], rows: Sequence[Row], args: argparse.Namespace) -> dict[Path, bytes]:
    made: dict[Path, bytes] = {}
    for file, line in ((args.aws, clouds.aws_line), (args.azure, clouds.azure_line)):
        if file is not None and spool is not None:
            made[Path(file)] = clouds.cloud_lines(line, spool, rows).encode("ascii")
    return made


# What came before the list was cut.


def lot_rows(stations: Any, lot: Lot, part: Optional[IO[bytes]], told: Callable[[int, int], None]) -> list[Row]:
    """The rows of a lot. Those of the part are taken where the list has the same chip with the same serial number, and
    with its state of now; the others are asked for, and added to the part."""
    listed = {it.chip: it for it in lot.listed}
    rows = {row["chip"]: row for row in (_rows_in(part) if part else ()) if _is_of(row, listed)}
    rows = {chip: row | {"state": listed[chip].state} for chip, row in rows.items()}
    missing = [it for it in lot.listed if it.chip not in rows]
    told(len(rows), len(listed))
    for some in device_rows(stations, lot, missing):
        rows |= {row["chip"]: row for row in some}
        if part:
            part.writelines(_line_of(row) for row in some)
            part.flush()
        told(len(rows), len(listed))
    return list(rows.values())


def _is_of(row: Row, listed: dict[str, Any]) -> bool:
    it = listed.get(row["chip"])
    return it is not None and (row["serial"], row["order"]) == (it.serial, it.order)


def _part_name(file: Path) -> Path:
    return file.with_name(f"{file.name}.part")


@contextlib.contextmanager
def _part_of(file: Optional[Path], settings: Settings) -> Iterator[Optional[IO[bytes]]]:
    """The part of a list that was cut, or a new one. It is of one server and one token, and one process has it."""
    if file is None:
        yield None
        return
    name, known = _part_name(file), hashlib.sha256(token_of(settings).encode()).hexdigest()
    head = json.dumps({"token": known, "url": settings.url}).encode() + b"\n"
    with open(opened_own(name, os.O_RDWR | os.O_CREAT), "rb+") as part:
        try:
            locked(part.fileno())
        except OSError:
            raise BadSettings(f"another list has {name}", "Wait until it is done, or take another file.") from None
        if part.readline() != head:
            part.seek(0)
            part.truncate()
            part.write(head)
        yield part


def _line_of(row: Row) -> bytes:
    """A row's line in a part, behind its digest. This is against accidents: nobody but this user can write there."""
    line = table_lines(COLUMNS, [[row[it] for it in COLUMNS]], True).encode("ascii")
    return hashlib.sha256(line).hexdigest().encode("ascii") + b" " + line


def _row_of(line: bytes) -> Optional[Row]:
    """The row of a part's line; None where the line was cut or changed."""
    digest, _, its = line.partition(b" ")
    if hashlib.sha256(its).hexdigest().encode("ascii") != digest:
        return None
    with contextlib.suppress(ValueError, TypeError):
        row = json.loads(its)
        if isinstance(row, dict) and set(row) == set(COLUMNS) and is_row(row):
            return row
    return None


def _rows_in(part: IO[bytes]) -> Iterator[Row]:
    """The rows of a part, up to the first line that was cut or changed. That one is taken out with all behind it, so
    that the next row begins a line."""
    while line := part.readline():
        row = _row_of(line)
        if row is None:
            part.seek(-len(line), os.SEEK_CUR)
            part.truncate()
            return
        yield row


COMMANDS = [Command("manifest", SAID, add_list_words, main, MORE)]
