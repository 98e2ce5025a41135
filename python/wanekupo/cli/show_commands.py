"""The commands that look at what the server has. They change nothing, and want neither a state file nor a journal."""

import argparse
from typing import Any, Callable, Iterator, Sequence

from wanekupo.seat.command_line import Command, add_json, chip_word, required_words
from wanekupo.seat.settings import Settings, looking_station_of
from wanekupo.common.printing import Formulas, print_shown, say_json, table_lines
from wanekupo.seat.replies import Listed
from wanekupo.common.texts import csv_rows

DEVICES = ("chip", "order", "state", "reason", "serial")


def show_command(path: str, parameter: str) -> Callable[[Settings, argparse.Namespace], int]:
    """Shows what the server says of the one that the command's word names."""

    def run(settings: Settings, args: argparse.Namespace) -> int:
        with looking_station_of(settings) as station:
            say_json(station.get(path, **{parameter: getattr(args, parameter)}))
        return 0

    return run


# Lists of devices.


def _add_devices(parser: argparse.ArgumentParser) -> None:
    parser.add_argument("--order", metavar="NAME", help="those of this order alone")
    parser.add_argument("--state", metavar="STATE", help="those in this state alone")
    said = "those whose chips come behind this one"
    parser.add_argument("--after", default="", metavar="CHIP", type=chip_word, help=said)
    add_json(parser)


def _wanted(devices: Iterator[Listed], args: argparse.Namespace) -> Iterator[Listed]:
    for it in devices:
        if args.order in (None, it.order) and args.state in (None, it.state):
            yield it


def _devices(settings: Settings, args: argparse.Namespace) -> int:
    """A line for each device, printed as its page comes."""
    formulas = Formulas()
    with looking_station_of(settings) as station:
        for it in _wanted(station.devices(args.after), args):
            row = [getattr(it, name) for name in DEVICES]
            if not args.json:
                row = [field or "" for field in row]
                formulas.warn_of(DEVICES, [row])
            print_shown(table_lines(DEVICES, [row], args.json))
    return 0


# Reports.


def _add_report(parser: argparse.ArgumentParser) -> None:
    parser.add_argument("--order", metavar="NAME", help="the line of this order alone")
    add_json(parser)


def counts_in_json(row: Sequence[str]) -> list[Any]:
    """A report's row for JSON: its name, and then counts."""
    return [*row[:1], *map(int, row[1:])]


def _report_of(path: str) -> Callable[[Settings, argparse.Namespace], int]:
    def run(settings: Settings, args: argparse.Namespace) -> int:
        with looking_station_of(settings) as station:
            names, *rows = csv_rows(station.get(path)) or [[]]
        wanted = getattr(args, "order", None)
        rows = [row for row in rows if wanted in (None, row[0])]
        if args.json:
            print_shown(table_lines(names, map(counts_in_json, rows), True))
        else:
            Formulas().warn_of(names, rows)
            print_shown(table_lines(names, [names, *rows], False))
        return 0

    return run


COMMANDS = [
    Command("order", "show an order", required_words("name"), show_command("/v1/order", "name")),
    Command("device", "show a device", required_words("chip"), show_command("/v1/device", "chip")),
    Command(
        "ledger",
        "show a device's ledger: what was done with it, and by whom; when is in the journal",
        required_words("chip"),
        show_command("/v1/ledger", "chip"),
    ),
    Command("devices", "list devices: chip, order, state, reason and serial number", _add_devices, _devices),
    Command("report", "show the customer's report: the counts of each order", _add_report, _report_of("/v1/report")),
    Command(
        "site-report",
        "show the site's report, by the manager's token",
        add_json,
        _report_of("/v1/site/report"),
    ),
]
