"""The command `shift`: what was done between two moments, over all customers and lines, by the stations' journals."""

import argparse
import os
from datetime import datetime, timedelta, timezone
from pathlib import Path

from wanekupo.books.pages import write
from wanekupo.books.numbers_left import asked, rests
from wanekupo.books.shift import Owned, period_of, shift_of
from wanekupo.books.shift_page import as_html, as_text, shift_tables
from wanekupo.books.steps import books_of, named, told_faults
from wanekupo.seat.command_line import Command, add_journal_words, told_as_error
from wanekupo.seat.settings import Settings
from wanekupo.common.errors import BadSettings
from wanekupo.common.moments import moment_of, tested_period
from wanekupo.common.printing import Formulas, print_shown, table_lines, warn

MORE = """. A step counts when its reply was written down, by the station's clock. A journal is a file, or a folder;
acme=FOLDER says whose it is, which is needed where two customers' orders have one name. The rest of serial numbers is
asked by --left."""
TIME = "as 2026-11-27T06:00 by this machine's clock, 2026-11-27T06:00Z or 2026-11-27T06:00+02:00"


def add_period(parser: argparse.ArgumentParser, is_required: bool = True) -> None:
    for name in ("from", "to"):
        parser.add_argument(f"--{name}", dest=f"{name}_time", required=is_required, metavar="TIME",
                            type=told_as_error(moment_of), help=TIME)  # fmt: skip


def _add_arguments(parser: argparse.ArgumentParser) -> None:
    add_journal_words(parser)
    add_period(parser)
    said = "ask what orders have left, by a customer's token that looks: FILE, or acme=FILE; may come again"
    parser.add_argument("--left", action="append", default=[], metavar="TOKEN", help=said)
    parser.add_argument("--html", metavar="FILE", help="write a page, to be read and printed")
    parser.add_argument("--csv", metavar="FOLDER", help="write a file of comma-separated values for each table")
    said = "a line of JSON for each row, with the name of its table, in place of the tables"
    parser.add_argument("--json", action="store_true", help=said)


def customers_journals(words: list[str]) -> list[Owned]:
    """The journals of these words, each with its customer, and each once: also where a folder and a file in it are
    named."""
    places: dict[str, list[Path]] = {}
    for it in map(named, words):
        places.setdefault(it.customer, []).append(it.path)
    found = [(customer, book) for customer, paths in places.items() for book in books_of(paths)]
    whose: dict[str, str] = {}
    for customer, book in found:
        for file in (os.path.realpath(it) for it in book.files):
            if whose.setdefault(file, customer) != customer:
                told = f"{file} is named as a journal of {customer or 'no customer'}, and of {whose[file] or 'none'}"
                raise BadSettings(told, "Name it once, with its customer.")
    return found


def _shift(settings: Settings, args: argparse.Namespace) -> int:
    tested_period(args.from_time, args.to_time)
    # Journals have whole seconds, and a period's end isn't in it: the lines of this second count.
    end = min(args.to_time, datetime.now(timezone.utc) + timedelta(seconds=1))
    tested_period(args.from_time, end)
    folder = Path(args.csv) if args.csv else None
    if folder and not folder.is_dir():
        raise BadSettings(f"{folder} is no folder", "Make it first: each table gets a file there.")
    journals = customers_journals(args.journals)
    warn(*(f"warning: {it}" for _, book in journals for it in told_faults(book)))
    shift = shift_of(journals, period_of(args.from_time, end))
    shown = shift_tables(shift, rests(shift, asked(settings, args.left)) if args.left else None)
    if args.html:
        write(Path(args.html), as_html(shift, shown))
    if folder:
        formulas = Formulas()
        for table in shown:
            formulas.warn_of(table.columns, table.texts())
            write(folder / f"{table.name}.csv", table.as_csv())
    lines = (table_lines(("table", *it.columns), [(it.name, *row) for row in it.rows], True) for it in shown)
    print_shown("".join(lines) if args.json else as_text(shift, shown))
    return 0


COMMANDS = [
    Command("shift", "show what was done in a shift, over all customers and lines", _add_arguments, _shift, MORE),
]
