"""The command `look`: what a server would show, out of a copy of its store or a seal's rows, without the server."""

import argparse
import contextlib
from pathlib import Path
from typing import Callable

from wanekupo.books import documents
from wanekupo.books.documents import ClosedBooks, NotShown
from wanekupo.books.lines import KEY
from wanekupo.common.errors import BadSettings, Refused
from wanekupo.common.printing import print_shown, say_json
from wanekupo.seat.command_line import Command, chip_word
from wanekupo.seat.settings import Settings

DONE, NOT_THERE = 0, 1

# The documents of a chip, which are lines of JSON.
OF_CHIP: dict[str, Callable[[ClosedBooks, str, str], str]] = {
    "device": documents.device_text,
    "identity": documents.identity_text,
    "ledger": documents.ledger_text,
}
REPORT, FIND = "report", "find"

MORE = """. WORD is a copy of a store or a file of a seal's rows, and then what is looked at: `device CHIP`, `identity
CHIP`, `ledger CHIP` or `report`, each as the server's reply or refusal to a token of the customer has it, with a line
feed behind JSON. `find TEXT` takes several files and customers. It prints a line of JSON for each record, imported
number and chip without a number of which a serial number, an address or the chip has that part. Status 1 where there is
none. No seal is tested (`seal --verify` does that), and a copy that a program has is refused."""


def _add_arguments(parser: argparse.ArgumentParser) -> None:
    parser.add_argument("words", nargs="+", metavar="WORD", help="files, and what is looked at in them")
    said = "whose books are shown, and nobody else's; to be given for each customer of several stores"
    parser.add_argument("--customer", action="append", required=True, metavar="NAME", help=said)


def _split(words: list[str]) -> tuple[list[Path], str, str]:
    """The files, what is looked at, and its word."""
    kinds = (*OF_CHIP, REPORT, FIND)
    at = next((place for place, word in enumerate(words) if word in kinds), len(words))
    files, kind, rest = [Path(it) for it in words[:at]], "".join(words[at : at + 1]), words[at + 1 :]
    if not files or not kind or len(rest) != (kind != REPORT) or not "".join(rest).strip(":") and rest:
        told = "Give FILE, and then one of device CHIP, identity CHIP, ledger CHIP, report, find TEXT."
        raise BadSettings("it isn't said what is looked at", told)
    return files, kind, "".join(rest)


def _look(_: Settings, args: argparse.Namespace) -> int:
    files, kind, word = _split(args.words)
    if bad := [it for it in args.customer if not KEY.fullmatch(it)]:
        raise BadSettings(f"{bad[0]!r} is no customer's name", "Write it as the plant does.")
    if kind == FIND:
        return _found(files, args.customer, word)
    if len(files) > 1 or len(args.customer) > 1:
        raise BadSettings(f"several files or customers are named, and only {FIND} takes them", "Name one of each.")
    with contextlib.closing(documents.books_in(files[0])) as books:
        if not books.has(args.customer[0]):
            raise NotShown(f"{files[0]} has nothing of a customer {args.customer[0]}", "Look at the name.")
        try:
            words = books, args.customer[0], chip_word(word)
            print_shown(documents.report_text(*words[:2]) if kind == REPORT else f"{OF_CHIP[kind](*words)}\n")
        except Refused as refused:
            say_json(refused.body)
            return NOT_THERE
    return DONE


def _found(files: list[Path], customers: list[str], text: str) -> int:
    """Prints what is found, a line each."""
    count = 0
    for file, customer in ((file, customer) for file in files for customer in customers):
        with contextlib.closing(documents.books_in(file)) as books:
            for count, row in enumerate(documents.found_rows(books, customer, text), count + 1):
                say_json({**row, "customer": customer, "store": str(file)})
    return DONE if count else NOT_THERE


COMMANDS = [Command("look", "show what a copy of a store or a seal's rows has", _add_arguments, _look, MORE)]
