"""The commands that change something on the server, each a request of the seat that is done once."""

import argparse
import shlex
import sys
import time
from pathlib import Path
from typing import Any, Callable, Optional

from wanekupo.chips.chip import bit, chip_of, rlock, value, wlock
from wanekupo.seat.command_line import Command, file_text, required_words
from wanekupo.seat.settings import Settings, looking_station_of, station_of
from wanekupo.common.errors import BadKey, BadSettings, Refused, StationError
from wanekupo.chips.espefuse import TOOLS, Espefuse, KeyFile, NoEspefuse, NoFuses, find_tool, typed_lines, wishes_of
from wanekupo.chips.families import Blocks, dump_of, family_of, map_of_family, names
from wanekupo.seat.forms import TIME
from wanekupo.seat.keys import key_digest, keep_csr, sound_key_of
from wanekupo.common.printing import Progress, print_shown, say_json, warn
from wanekupo.seat.replies import identity_of
from wanekupo.seat.import_rows import rows_of
from wanekupo.seat.station import WRONG_STATE, Station
from wanekupo.common.texts import shown

DONE, QUARANTINED = 0, 4

Asked = Callable[[Station, argparse.Namespace], Any]


def _last_reply(station: Station) -> dict[str, Any]:
    """What the request before was answered."""
    last = station.finish()
    assert last, "a request was made"
    return last.reply


def asks(ask: Asked) -> Callable[[Settings, argparse.Namespace], int]:
    """A command that asks as a seat. What it answers nothing to has its reply printed."""

    def run(settings: Settings, args: argparse.Namespace) -> int:
        if settings.state is None:
            told = "Give --state-file FILE, or have a line state = .. in wanekupo.toml."
            raise BadSettings("no state file is named", told)
        options = {"new_token": getattr(args, "new_token", False), "tells_of_new_file": True}
        with station_of(settings, **options) as station:
            answer = ask(station, args)
            if answer is None:
                answer = _last_reply(station)
        if isinstance(answer, str):
            print_shown(answer)
            return DONE
        say_json(answer)
        return QUARANTINED if answer.get("state") == "quarantined" else DONE

    return run


# Orders, maps and imports.


def _add_order(parser: argparse.ArgumentParser) -> None:
    required_words("name", "issuer", "prefix")(parser)
    for name in ("width", "first", "quantity"):
        parser.add_argument(f"--{name}", type=int, required=True, metavar="N")
    parser.add_argument("--macs", type=int, default=0, metavar="N", help="addresses for each serial number")
    parser.add_argument("--not-before", metavar="T", help="the beginning of validity, as 20260101000000Z")
    said = "say nothing of a beginning that is to come or isn't there, and ask nothing"
    parser.add_argument("--yes", action="store_true", help=said)


def _make_order(settings: Settings, args: argparse.Namespace) -> int:
    """Makes an order, for good. Where its beginning isn't an everyday one a person is asked once, on a terminal."""
    meant = meaning_of(args.not_before, time.strftime("%Y%m%d%H%M%SZ", time.gmtime()))
    if meant and not args.yes:
        warn(f"{meant} Nobody can cancel an order, or change it.")
        first = f"{args.prefix}{args.first:0{args.width}}"
        if not _agreed(f"Make {args.name}, {args.quantity} serial numbers from {first} on?"):
            raise StationError("no order was made", "Give the command again with --not-before T, or with --yes.")
    return asks(make_order)(settings, args)


def meaning_of(not_before: Optional[str], now: str) -> str:
    """What a beginning means that is to come at this time, or that isn't there; empty where it is another."""
    if not_before is None:
        return "Without --not-before these records have no beginning, for good: a certificate begins as it is issued."
    if TIME.fullmatch(not_before) and not_before > now:
        return f"These records begin at {not_before}, and now it is {now}: no certificate of theirs is valid before."
    return ""


def _agreed(asked: str) -> bool:
    """Whether a person on a terminal says yes; where there is none nobody is asked."""
    if not (sys.stdin.isatty() and sys.stderr.isatty()):
        return True
    print(shown(f"{asked} Type yes: "), end="", file=sys.stderr, flush=True)
    return sys.stdin.readline().strip().lower() == "yes"


def make_order(station: Station, args: argparse.Namespace) -> None:
    range_of = (args.prefix, args.width, args.first, args.quantity)
    station.make_order(args.name, args.issuer, *range_of, args.macs, args.not_before)


def map_text_of(word: str) -> str:
    """The text of a map: of a file, of standard input, or of a map that comes with the program, by its name."""
    is_named = word != "-" and not Path(word).is_file()
    return file_text(str((map_of_family(word) if is_named else None) or word))


def import_rows(station: Station, args: argparse.Namespace) -> Any:
    rows = rows_of(file_text(args.file))
    with Progress("rows") as told:
        done, before = station.import_all(args.issuer, rows, told)
    return {"added": done.added, "before": before, "present": done.present}


# A chip.


def pair(word: str) -> tuple[str, str]:
    field, found, text = word.partition("=")
    if not found:
        raise argparse.ArgumentTypeError(f"{word} has no =")
    return field, text


def key_file(word: str) -> tuple[str, KeyFile]:
    field, path = pair(word)
    path, _, name = path.partition(":")
    return field, KeyFile(path, name or field)


def _add_keys(parser: argparse.ArgumentParser) -> None:
    said = "a key's file, and what espefuse burns it as, where that isn't FIELD"
    parser.add_argument("--key", action="append", default=[], type=key_file, metavar="FIELD=FILE[:NAME]", help=said)


def _add_plan(parser: argparse.ArgumentParser) -> None:
    required_words("chip")(parser)
    for kind, form in (("bit", "FIELD=INDEX"), ("value", "FIELD=DIGITS")):
        parser.add_argument(f"--{kind}", action="append", default=[], type=pair, metavar=form)
    for kind in ("wlock", "rlock"):
        parser.add_argument(f"--{kind}", action="append", default=[], metavar="FIELD")
    _add_keys(parser)
    _add_family(parser)


def _add_family(parser: argparse.ArgumentParser) -> None:
    said = f"the chip's family: {', '.join(names())}"
    parser.add_argument("--family", default="esp32", metavar="NAME", help=said)


def _add_register(parser: argparse.ArgumentParser) -> None:
    required_words("order", "map")(parser)
    said = "the file of what espefuse dumps, or - for standard input"
    parser.add_argument("dump", nargs="?", metavar="DUMP", help=said)
    parser.add_argument("--part", metavar="CHIP", help="in place of DUMP: a part without fuses, by its name")
    _add_family(parser)


def _add_read_back(parser: argparse.ArgumentParser) -> None:
    required_words("chip", "dump")(parser)
    _add_family(parser)


def _add_burning(parser: argparse.ArgumentParser) -> None:
    required_words("chip")(parser)
    _add_keys(parser)
    parser.add_argument("--tool", metavar="T", help="espefuse's command, with its port")
    _add_family(parser)


def _shown(args: argparse.Namespace) -> Blocks:
    """The blocks that the server is told, of the dump of a chip."""
    return dump_of(family_of(args.family), file_text(args.dump)).told()


def _register(station: Station, args: argparse.Namespace) -> None:
    if (args.dump is None) == (args.part is None):
        raise StationError("a chip is registered by its dump, or a part without fuses by its name", "Give one of them.")
    blocks = NoFuses(args.part).read() if args.part is not None else _shown(args)
    station.register(chip_of(blocks), args.order, args.map, blocks)


def plan(station: Station, args: argparse.Namespace) -> None:
    """A plan, in which a key comes with the number of its purpose where the family has one."""
    family = family_of(args.family)
    try:
        wishes = [bit(field, int(index)) for field, index in args.bit]
    except ValueError:
        raise StationError("the index of a bit is a whole number", "Write it as FIELD=0.") from None
    wishes += [value(field, digits) for field, digits in args.value]
    wishes += [wish for field, file in args.key for wish in wishes_of(family, field, file)]
    station.plan(args.chip, [*wishes, *map(wlock, args.wlock), *map(rlock, args.rlock)])


def _tool(args: argparse.Namespace) -> list[str]:
    """The command of espefuse, the one that is named or the one that is here."""
    return shlex.split(args.tool) if args.tool else [find_tool()]


def _burn(settings: Settings, args: argparse.Namespace) -> int:
    """Prints the commands, also on a machine without espefuse, as for who has it on another one."""
    try:
        tool = _tool(args)
    except NoEspefuse:
        tool = [TOOLS[0]]
    with looking_station_of(settings) as station:
        device = station.device(args.chip)
    work = device.batch2 if device.state == "awaiting2" else device.batch1
    if device.state not in ("awaiting1", "awaiting2"):
        warn(f"The chip awaits no batch: it is {device.state}.")
    print_shown("".join(f"{line}\n" for line in typed_lines(tool, family_of(args.family), work, dict(args.key))))
    return DONE


def _settle(station: Station, args: argparse.Namespace) -> Any:
    device = station.settle(args.chip, Espefuse(_tool(args), dict(args.key), family_of(args.family)))
    if device.state in ("awaiting1", "awaiting2"):
        warn("The chip doesn't take what is burnt. Put it in again; if it stays so, scrap it.")
    return station.get("/v1/device", chip=args.chip)


def _add_scrap(parser: argparse.ArgumentParser) -> None:
    required_words("chip")(parser)
    parser.add_argument("--yes", action="store_true", help="ask nothing, also on a terminal")


def _scrap(settings: Settings, args: argparse.Namespace) -> int:
    """Scraps a chip, for good. A person is asked once, on a terminal."""
    asked = f"Scrap the chip {args.chip} for good, by a seat with which no bench works?"
    if not args.yes and not _agreed(asked):
        raise StationError("no chip was scrapped", "Give the command again, and type yes, or give --yes.")
    return asks(lambda it, _: it.scrap(args.chip) and None)(settings, args)


# An identity.


def _add_identity(parser: argparse.ArgumentParser) -> None:
    required_words("chip")(parser)
    group = parser.add_mutually_exclusive_group()
    group.add_argument("--pem", metavar="FILE", help="the public key as PEM")
    group.add_argument("--der", metavar="FILE", help="the public key as DER (SubjectPublicKeyInfo)")
    group.add_argument("--csr", metavar="FILE", help="a request for a certificate (PKCS #10), as PEM or DER")


def identified(station: Station, chip: str, public_key: bytes) -> dict[str, Any]:
    """The record of a device with this key: given now, or by an earlier call that was stopped behind it."""
    try:
        station.identify(chip, public_key)
        return _last_reply(station)
    except Refused as refused:
        if refused.no != WRONG_STATE:
            raise
        found: dict[str, Any] = station.get("/v1/identity", chip=chip)
        if identity_of(found).key_sha256 != key_digest(public_key):
            raise
        return found


def _identity(settings: Settings, args: argparse.Namespace) -> int:
    """Shows the record of a device, or with a key gives it one."""
    given = [(form, Path(getattr(args, form))) for form in ("pem", "der", "csr") if getattr(args, form) is not None]
    if not given:
        with looking_station_of(settings) as station:
            say_json(station.get("/v1/identity", chip=args.chip))
        return DONE
    ((form, file),) = given
    data, spool = file.read_bytes(), settings.spool
    if form == "csr" and (spool is None or not spool.is_dir()):
        told = "Make a folder, and give --spool FOLDER: the request for the certificate is kept there."
        raise BadSettings("there is no spool folder", told)
    try:
        public_key = sound_key_of(settings.profile, **{form: data})
    except BadKey as error:
        raise BadKey(f"{file} can't be used: {error}", error.advice) from error

    def give(station: Station, _: argparse.Namespace) -> Any:
        record = identified(station, args.chip, public_key)
        if form == "csr" and spool is not None:
            keep_csr(spool, record["issuer"], record["serial"], data)
        return record

    return asks(give)(settings, args)


# The seat.


def finish(station: Station, _: argparse.Namespace) -> Any:
    done = station.finish()
    return {"path": done.path, "reply": done.reply} if done else {}


def _add_number(parser: argparse.ArgumentParser) -> None:
    parser.add_argument("--resynchronize", action="store_true", help="forget what is under way, and go on")


def show_number(station: Station, args: argparse.Namespace) -> Any:
    if args.resynchronize:
        station.resynchronize()
    else:
        station.take_token()
    return {"expected": station.expected_number(), "own": station.own_number()}


COMMANDS = [
    Command("make-order", "make an order", _add_order, _make_order),
    Command(
        "map",
        "import a fuse map, a file or by its name one that comes with the program, and show its digest",
        required_words("file"),
        asks(lambda it, args: it.import_map(map_text_of(args.file)) and None),
    ),
    Command("register", "register a chip, by the file of a dump", _add_register, asks(_register)),
    Command("plan", "plan what a chip gets burnt", _add_plan, asks(plan)),
    Command("burn", "print espefuse's commands for the batch that a chip awaits", _add_burning, _burn),
    Command(
        "readback",
        "send what a chip shows, by the file of a dump, or - for standard input",
        _add_read_back,
        asks(lambda it, args: it.read_back(args.chip, _shown(args)) and None),
    ),
    Command("settle", "burn and read back what a chip awaits", _add_burning, asks(_settle)),
    Command("identity", "show a device's record, or with a public key give it one", _add_identity, _identity),
    Command("ship", "ship a device", required_words("chip"), asks(lambda it, args: it.ship(args.chip) and None)),
    Command("scrap", "scrap a device, for good", _add_scrap, _scrap),
    Command(
        "import",
        "import serial numbers, any number of rows, in parts of 500; again, it goes on",
        required_words("issuer", "file"),
        asks(import_rows),
    ),
    Command("finish", "send what is under way again, and show the last request's reply", lambda _: None, asks(finish)),
    Command("number", "show the number that the server expects, and the station's own", _add_number, asks(show_number)),
]
