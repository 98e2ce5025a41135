"""The command `seal`: a digest of all books over yesterday's, signed, and what two of them show of each other."""

import argparse
import itertools
from pathlib import Path
from typing import Iterator, Optional

from wanekupo.books import folder
from wanekupo.books import customer_rows as shown
from wanekupo.books import store_rows as stored
from wanekupo.books.chain import PLANT, Chain
from wanekupo.books.compare import Text
from wanekupo.books.lines import KEY, act_lines
from wanekupo.books.scratch import in_order
from wanekupo.books.stamp import Service
from wanekupo.books.store import StoreCopy, is_store
from wanekupo.seat.command_line import Command
from wanekupo.seat.settings import Settings, looking_station_of
from wanekupo.common.errors import BadSettings
from wanekupo.common.files import small_bytes
from wanekupo.common.moments import now_text
from wanekupo.common.printing import Progress, print_shown, warn
from wanekupo.common.signing import signer_of
from wanekupo.common.texts import shown as shown_text

DONE, FOUND, NOT_COMPARED = 0, 1, 3

# The most bytes of what root had done: ten runs of tools a day for thirty years.
MOST_ACTS = 1 << 26

MORE = """. Without --store these are one customer's orders, devices, records and ledgers, by a token that looks. Each
seal is a line of FOLDER/chain, over the line before and over the day's rows. With --verify nothing is sealed: of two
files of rows, or copies of a store, it says what the later one can't be; of a folder, whether its chain is whole, and
the same of each two of its seals."""


def _add_arguments(parser: argparse.ArgumentParser) -> None:
    parser.add_argument("places", nargs="+", metavar="FOLDER", help="where the seals are; with --verify also A B")
    parser.add_argument("--customer", default="", metavar="NAME", help="whose token it is: the name stands in each row")
    parser.add_argument("--store", metavar="FILE", help="a copy of a stopped store, in place of a token")
    parser.add_argument("--acts", type=Path, metavar="FILE", help="with --store, what root's tools noted")
    parser.add_argument("--verify", action="store_true", help="compare, and change nothing")
    parser.add_argument("--last", metavar="SEAL", help="with --verify, a seal's line that has to be there")
    group = parser.add_argument_group("a signature, and a time stamp")
    said = "sign the seal by minisign, with this secret key; with --verify the public key"
    group.add_argument("--minisign", metavar="KEY", help=said)
    group.add_argument("--cms", metavar="CERT", help="sign it by openssl cms; with --verify the signer's certificate")
    group.add_argument("--cms-key", metavar="KEY", help="the certificate's key: a file, or pkcs11:.. of a token")
    group.add_argument("--tsa", metavar="URL", help="have the seal time-stamped by this service (RFC 3161)")
    group.add_argument("--tsa-ca", metavar="FILE", help="the certificates by which its stamps are verified")
    group.add_argument("--tsa-chain", metavar="FILE", help="the certificates between, which a stamp leaves out")


def _service_of(args: argparse.Namespace) -> Optional[Service]:
    if args.tsa is None and args.tsa_ca is None:
        return None
    if args.tsa_ca is None or args.tsa is None and not args.verify:
        raise BadSettings("a time stamp lacks a word", "Give --tsa URL with --tsa-ca FILE; to verify the latter alone.")
    return Service(args.tsa or "", Path(args.tsa_ca), Path(args.tsa_chain) if args.tsa_chain else None)


def _seal(settings: Settings, args: argparse.Namespace) -> int:
    if args.verify:
        return _verify(args)
    if args.last is not None:
        raise BadSettings("--last is given without --verify", "A seal is held to the chain where that is verified.")
    if len(args.places) != 1 or bool(args.store) == bool(args.customer) or args.acts and not args.store:
        told = "Give FOLDER, and --customer NAME with a token, or --store FILE, with or without --acts FILE."
        raise BadSettings("it isn't said whose books are sealed", told)
    if args.customer and not KEY.fullmatch(args.customer):
        raise BadSettings(f"{args.customer!r} is no customer's name", "Write it as the plant does: ask there.")
    chain, signer, service = Chain(Path(args.places[0])), signer_of(args), _service_of(args)
    with chain.held():
        chain.seals_of(args.customer or PLANT)
        if args.store:
            with StoreCopy(Path(args.store)) as store:
                acts = act_lines(small_bytes(args.acts, MOST_ACTS)) if args.acts else ()
                seal = chain.add(itertools.chain(acts, _lines_of(store)), now_text(), PLANT, signer, service)
        else:
            with looking_station_of(settings) as station, Progress("devices") as told_of:
                lines = in_order(shown.lines_of(station, args.customer, told_of))
            seal = chain.add(lines, now_text(), args.customer, signer, service)
    print_shown(seal.line() + "\n")
    return DONE


def _lines_of(store: StoreCopy) -> Iterator[str]:
    """The rows of a copy, behind a word of what they lack."""
    books = stored.Books(store)
    warn(*(f"Of {customer} {told}." for customer, told in books.unread_maps()))
    return stored.lines_of(books)


# Comparing.


def sealed_rows(file: Path) -> Text:
    """The rows of a file of a seal, or of a copy of a store."""
    if not is_store(file):
        return folder.sealed_text(file)
    with StoreCopy(file) as store:
        return Text.of(_lines_of(store))


def _verify(args: argparse.Namespace) -> int:
    places = [Path(it) for it in args.places]
    if args.store or args.customer or args.tsa or args.acts:
        told = "With --verify what is named is compared alone: leave --store, --acts, --customer and --tsa away."
        raise BadSettings("a word is given that only a seal takes", told)
    if len(places) == 2:
        if args.minisign or args.cms or args.tsa_ca or args.last is not None:
            told = "Name the folder of the seals, or leave these words away."
            raise BadSettings("two files of rows have no signature and no stamp that could be held", told)
        return _told(_between(*places))
    told = "Give A B, two files of rows, the earlier one first, or one FOLDER of seals."
    if len(places) != 1:
        raise BadSettings(f"{len(places)} places are named", told)
    if not places[0].is_dir():
        happened = f"{places[0]} is one file alone" if places[0].exists() else f"there is no folder {places[0]}"
        raise BadSettings(happened, told)
    if args.minisign and args.cms:
        raise BadSettings("both --minisign and --cms are given", "Give the one by which these seals were signed.")
    minisign, cms = (Path(it) if it else None for it in (args.minisign, args.cms))
    last = (args.last or "").strip()
    if args.last is not None and not last:
        raise BadSettings("--last is empty", "Give the line that a seal printed, from where it was sent to.")
    made = folder.tested(Chain(places[0]), folder.Trusted(minisign, cms, _service_of(args), last))
    return _told(made.found, *made.notes, made.done(), pairs=made.pairs)


def _between(before: Path, after: Path) -> list[str]:
    """What is wrong with two files that somebody names, and between them."""
    numbers = [it.name.partition(".")[0] for it in (before, after)]
    if all(it.isdecimal() for it in numbers) and int(numbers[0]) > int(numbers[1]):
        raise BadSettings(f"{before} is of a later seal than {after}", f"Name the earlier one first: {after} {before}.")
    texts = {file: sealed_rows(file) for file in (before, after)}
    bad = [f"{file}: {it}." for file, text in texts.items() for it in text.bad]
    return bad + folder.sentences_of(texts[before], texts[after])


def _told(found: list[str], *more: str, pairs: int = 1) -> int:
    """Prints what was found. Where no pair was compared that isn't said to be nothing."""
    counted = "Nothing found." if pairs else "No pair was compared: two seals with their rows are wanted."
    counted = f"{len(found)} found." if found else counted
    print_shown("".join(f"{shown_text(it)}\n" for it in (*found, counted, *more)))
    return FOUND if found else DONE if pairs else NOT_COMPARED


COMMANDS = [Command("seal", "seal all books, or compare two seals", _add_arguments, _seal, MORE)]
