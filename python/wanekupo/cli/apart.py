"""The command `apart`: whether the sealed rows of several stores have anything in common."""

import argparse
from collections import Counter
from pathlib import Path

from wanekupo.books.apart import Given, StoreRows, sealed_rows_of
from wanekupo.common.errors import BadSettings
from wanekupo.common.files import replace_file
from wanekupo.common.moments import moment_of
from wanekupo.common.printing import print_shown
from wanekupo.common.texts import shown
from wanekupo.metrics.exposition import Samples
from wanekupo.metrics.prometheus_file import READABLE
from wanekupo.seat.command_line import Command
from wanekupo.seat.settings import Settings

DONE, FOUND, NOT_COMPARED = 0, 1, 3

# How many of each kind are told.
MOST_TOLD = 100

MORE = """. Each ROWS is a file of rows with its .seal beside it, a folder of seals, of which the last one counts, or a
folder of such folders. A serial number stands once within its issuer, and an address, a customer's chip and a record's
key once over all. Status 1 where one stands twice, and 3 where there is one store alone."""


def _add_arguments(parser: argparse.ArgumentParser) -> None:
    parser.add_argument("places", nargs="+", type=Path, metavar="ROWS", help="the last seal of a store")
    said = "a customer who is another one by another name, as acme-2=acme: one chip isn't both's; may come again"
    parser.add_argument("--same", action="append", default=[], metavar="NAME=NAME", help=said)
    parser.add_argument("--to", type=Path, metavar="FILE", help="write metrics for the node exporter, as apart.prom")


def _apart(_: Settings, args: argparse.Namespace) -> int:
    if not all(it.count("=") == 1 for it in args.same):
        raise BadSettings("--same has another form", "Give it as acme-2=acme.")
    samples, status = Samples(), NOT_COMPARED
    samples.add("wanekupo_apart_success", False)
    try:
        stores = [it for place in args.places for it in sealed_rows_of(place)]
        status = _compared(stores, Given(dict(it.split("=") for it in args.same)))
        samples.add("wanekupo_apart_success", status == DONE)
        serving = [it for it in stores if not it.is_closed()] or stores
        samples.add("wanekupo_apart_timestamp_seconds", min(moment_of(it.seal.at).timestamp() for it in serving))
    finally:
        if args.to:
            replace_file(args.to, samples.text(), READABLE)
    return status


def _compared(stores: list[StoreRows], given: Given) -> int:
    for it in stores:
        given.add(it)
    counts = Counter[str]()
    for what, sentence in given.twice():
        counts[what] += 1
        print_shown(f"{shown(sentence)}\n" if counts[what] <= MOST_TOLD else "")
    for what, count in counts.items():
        print_shown(f"{count - MOST_TOLD} more of the kind {what}.\n" if count > MOST_TOLD else "")
    found = f"{sum(counts.values())} found" if counts else "Nothing found"
    print_shown(f"{found}: {len(stores)} {'store' if len(stores) == 1 else 'stores'}, {given.records} records.\n")
    return FOUND if counts else DONE if len(stores) > 1 else NOT_COMPARED


COMMANDS = [Command("apart", "hold the seals of several stores against each other", _add_arguments, _apart, MORE)]
