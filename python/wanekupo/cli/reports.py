"""The commands of journals and of printed reports: what was issued, what was lost, the yield, and a restore."""

import argparse
from pathlib import Path

from wanekupo.cli.change_commands import asks
from wanekupo.cli.shift import add_period
from wanekupo.seat.command_line import Command, add_journal_words, add_json, file_text
from wanekupo.seat.settings import Settings, looking_station_of
from wanekupo.common.errors import BadSettings, NotTheServer, StationError
from wanekupo.seat.journal import issued, merged
from wanekupo.seat.journal_lines import add_folders, named_folders
from wanekupo.books.pages import write
from wanekupo.books.lost import LOST, given_up, lost_csv, lost_formulas, lost_text
from wanekupo.common.site_file import SiteFileError, read_site_file
from wanekupo.common.printing import Formulas, Progress, print_shown, table_lines, warn
from wanekupo.books.report_counts import as_csv, as_json, as_text, counts_of, difference_of, formulas_of
from wanekupo.seat.journal_restore import restore
from wanekupo.seat.station import Station

ISSUED = ("chip", "issuer", "serial", "key_sha256", "mac")

YIELDED = """, from the earlier one to the later one, or to the report of now, which the server is asked for. begun: how
many were registered. given_up: how many were quarantined, or scrapped without that. yield: 100 times shipped /
(shipped + given_up), each counted when it happened, so that more may be shipped than begun."""
REPORT = "a file that report or site-report printed, or - for standard input"
GIVEN_UP = """, each chip once, by the clocks of the stations. The order is known where a journal has the chip's
registration. A read-back without a reply is told on standard error. With --folders a chip is its customer's, by the
site file, or where that isn't there its folder's: then one that two stations gave up is there twice."""


def _add_issued(parser: argparse.ArgumentParser) -> None:
    add_journal_words(parser)
    add_json(parser)


def _issued(_: Settings, args: argparse.Namespace) -> int:
    rows = [[it[name] for name in ISSUED] for it in issued(merged(args.journals))]
    if args.json:
        print_shown(table_lines(ISSUED, rows, True))
        return 0
    rows = [[field or "" for field in row] for row in rows]
    Formulas().warn_of(ISSUED, rows)
    print_shown(table_lines(ISSUED, [ISSUED, *rows], False))
    return 0


def _add_lost(parser: argparse.ArgumentParser) -> None:
    add_journal_words(parser)
    add_period(parser, is_required=False)
    add_folders(parser)
    said = "with --folders, the site file, which says whose each seat is (%(default)s)"
    parser.add_argument("--site", type=Path, default=Path("/etc/station/site.toml"), metavar="FILE", help=said)
    parser.add_argument("--csv", metavar="FILE", help="write it as comma-separated values too")
    add_json(parser, "a table")


def _customers_at(site: Path) -> dict[str, str]:
    """The customer of each seat by a site file; of none where it can't be read here."""
    try:
        return {seat: it.name for seat, it in read_site_file(site).seats().items()}
    except OSError:
        return {}
    except SiteFileError as error:
        raise BadSettings(str(error), "Name the file that the server runs with.") from error


def _lost(_: Settings, args: argparse.Namespace) -> int:
    folders = named_folders(args.folders) if args.folders else None
    customers = _customers_at(args.site) if folders else {}
    lines, unanswered = given_up(args.journals, args.from_time, args.to_time, folders, customers)
    warn(*(f"warning: {it}" for it in [*unanswered, *(lost_formulas(lines) if args.csv else [])]))
    if args.csv:
        write(Path(args.csv), lost_csv(lines))
    print_shown(table_lines(LOST, lines, True) if args.json else lost_text(lines))
    return 0


def _add_yield(parser: argparse.ArgumentParser) -> None:
    parser.add_argument("earlier", metavar="EARLIER", help=REPORT)
    parser.add_argument("later", metavar="LATER", nargs="?", help="the same, printed later")
    parser.add_argument("--csv", metavar="FILE", help="write it as comma-separated values too")
    add_json(parser, "a table")


def _report_in(file: str) -> str:
    """The text of a file that has a report."""
    text = file_text(file)
    try:
        counts_of(text)
    except ValueError as error:
        told = "Name a file that `wanekupo report` or `wanekupo site-report` printed."
        raise StationError(f"{file} has no report", told) from error
    return text


def _report_now(settings: Settings, earlier: str) -> str:
    """The server's report now, of the same kind."""
    path = "/v1/site/report" if counts_of(earlier)[0] == "customer" else "/v1/report"
    with looking_station_of(settings) as station:
        text = str(station.get(path))
    try:
        counts_of(text)
    except ValueError as error:
        raise NotTheServer(str(error)) from error
    return text


def _yield(settings: Settings, args: argparse.Namespace) -> int:
    earlier = _report_in(args.earlier)
    later = _report_now(settings, earlier) if args.later is None else _report_in(args.later)
    difference = difference_of(earlier, later)
    if args.csv:
        warn(*(f"warning: {it}" for it in formulas_of(difference)))
        write(Path(args.csv), as_csv(difference))
    print_shown(as_json(difference) if args.json else as_text(difference))
    return 0


def restore_journals(station: Station, args: argparse.Namespace) -> dict[str, object]:
    with Progress("requests, serial numbers and devices") as told_of:
        return restore(station, args.journals, told_of)


COMMANDS = [
    Command("issued", "show the records that journals have", _add_issued, _issued),
    Command("lost", "show which chips were lost or scrapped, when and why, by journals", _add_lost, _lost, GIVEN_UP),
    Command("yield", "show what was done between two reports that were printed", _add_yield, _yield, YIELDED),
    Command("restore", "bring what journals say into a restored store", add_journal_words, asks(restore_journals)),
]
