"""The command `audit`: a stopped store's ledgers against the journals of its stations, over a period."""

import argparse
from datetime import datetime, timezone
from pathlib import Path
from typing import Iterable, Optional

from wanekupo.books.audit import audit_of
from wanekupo.books.audit_page import as_html, as_text, found_table
from wanekupo.books.matches import seated
from wanekupo.books.pages import write
from wanekupo.books.program import program_named
from wanekupo.books.replay import ask_again
from wanekupo.books.shift import Period, period_of
from wanekupo.books.steps import MEMORY, Book, books_of, shipped_books
from wanekupo.books.store import StoreCopy
from wanekupo.books.store_rows import Books
from wanekupo.seat.command_line import Command
from wanekupo.seat.settings import Settings
from wanekupo.common.errors import BadSettings, NoPeriod
from wanekupo.seat.journal_lines import add_folders, named_folders
from wanekupo.common.moments import tested_period, text_of
from wanekupo.common.printing import Formulas, print_shown, table_lines
from wanekupo.cli.shift import add_period
from wanekupo.common.signing import add_signer, digest_of_file, signer_of

DONE, FOUND, NOT_FINISHED = 0, 1, 3

MORE = """. STORE is a copy that the program has opened, taken before the journals were gathered, and --to is at or
before that moment. Each entry of a ledger is held to the line of a journal of its seat, and the other way round. The
proved program answers all accepted lines once more, and each reply and each row is held to its own. Status 1 where
something is found, and 3 where nothing was, but the program didn't answer all."""


def _add_arguments(parser: argparse.ArgumentParser) -> None:
    parser.add_argument("store", metavar="STORE", help="a copy of a stopped store, with its log beside it")
    parser.add_argument("journals", nargs="+", metavar="JOURNAL", help="a journal, or a folder with journals")
    add_period(parser)
    add_folders(parser)
    said = "the plant's site file of the copy's moment, which the store's text has to be, byte for byte"
    parser.add_argument("--site", type=Path, metavar="FILE", help=said)
    parser.add_argument("--html", metavar="FILE", help="write a page, to be read and printed")
    parser.add_argument("--csv", metavar="FILE", help="write what is found as comma-separated values")
    said = "print what is found alone, a line of JSON each; the status says more"
    parser.add_argument("--json", action="store_true", help=said)
    told = "the proved program that answers the lines once more, by its path where PATH doesn't have it (%(default)s)"
    parser.add_argument("--program", default="station", metavar="P", help=told)
    said = "how many GB the journals may be, with 0.7 KB more for each line (%(default)s); a seat's are in memory"
    parser.add_argument("--memory", type=int, default=MEMORY >> 30, metavar="GB", help=said)
    add_signer(parser)


def _journals(names: list[str], folders: Optional[Path], memory: int) -> list[Book]:
    """The journals; with a file of folders those of all stations."""
    if folders is None:
        return books_of(names, memory)
    share = memory // len(names)
    return [book for name in names for book in shipped_books(Path(name), named_folders(folders), share)]


def _read(store: Path, books: Iterable[Book], program: Path) -> list[tuple[str, int, str]]:
    """Each file that was read or run, with its length and its SHA-256."""
    files = [store, store.with_name(f"{store.name}-wal"), *(Path(it) for book in books for it in book.files), program]
    return [(str(file), file.stat().st_size, digest_of_file(file)) for file in files if file.is_file()]


def _nothing_of(period: Period, journals: Iterable[Book]) -> tuple[str, str]:
    """What is told where nothing of a period was held to anything."""
    times = sorted(at for book in journals for at in book.times)
    lines = f"These journals have lines of {times[0]} to {times[-1]}." if times else "These journals have no line."
    happened = f"no entry and no line is of the period from {period.start} to {period.end}, so nothing was compared"
    return happened, f"Look at --from and --to. {lines}"


def _behind(store: Books, journals: Iterable[Book], period: Period) -> str:
    """A sentence where lines have numbers behind the last one that the store knows of their seat, or nothing."""
    own = [it for it in (seated(book, store) for book in journals) if it.seat in store.seats]
    steps = ((it.at, it.number > store.seats[made.seat].last) for made in own for it in made.book.steps)
    late = sorted(at for at, is_late in steps if is_late and period.has(at))
    if not late:
        return ""
    told = f"{len(late)} lines of the journals, from {late[0]} on, are behind the copy's last request. "
    return f"{told}The copy may be older than they are: give --to {late[0]}. Else the store is an older one.\n"


def _audit(_: Settings, args: argparse.Namespace) -> int:
    tested_period(args.from_time, args.to_time)
    path, signer, program = Path(args.store), signer_of(args), program_named(args.program)
    if signer and not args.html:
        raise BadSettings("there is no page to be signed", "Give --html FILE.")
    journals = _journals(args.journals, args.folders, args.memory << 30)
    period = period_of(args.from_time, args.to_time)
    with StoreCopy(path) as store:
        books = Books(store)
        site = digest_of_file(args.site) if args.site else ""
        audit = audit_of(books, journals, period, text_of(datetime.now(timezone.utc)), site)
        behind = _behind(books, journals, period) if audit.found else ""
        ask_again(program, journals, books, audit)
    found = found_table(audit)
    if args.html:
        page = write(Path(args.html), as_html(audit, _read(path, journals, program)))
        if signer:
            signer.sign(Path(args.html), page)
    if args.csv:
        Formulas().warn_of(found.columns, found.texts())
        write(Path(args.csv), found.as_csv())
    print_shown(table_lines(found.columns, found.rows, True) if args.json else as_text(audit) + behind)
    if not audit.found and not audit.entries and not audit.held_lines:
        raise NoPeriod(*_nothing_of(period, journals))
    return FOUND if audit.found else NOT_FINISHED if audit.unfinished else DONE


COMMANDS = [
    Command("audit", "hold a store's ledgers to the journals of its stations", _add_arguments, _audit, MORE),
]
