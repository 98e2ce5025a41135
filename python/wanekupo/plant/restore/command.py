"""Restores a store that is lost or damaged, from a backup and the journals of all stations, for all customers.

    station-restore BACKUP SITE JOURNAL.. --db STORE                 a server that is stopped
    station-restore BACKUP SITE JOURNAL.. --db STORE --stop station  stops it first, by systemd
    station-restore .. --tokens FOLDER                               a folder with SEAT.token for one seat a customer
    station-restore .. --without a7,b3                               seats that asked for nothing that isn't known

BACKUP is a folder that station-backup made, SITE the newest site file. JOURNAL is a file or a folder of one customer's
journals, always as CUSTOMER=PATH, or alone the folder of all stations' folders, whose seats --folders has. Name those
of all stations of all customers.

It refuses while a server has the store, has its lock, and looks at all of these before it moves anything. Then it puts
the backup's files into STORE's folder under other names, and what was there aside; it brings back what the journals
have, customer after customer, over a server of its own on a port that nobody knows; it lists what is in no journal; it
backs the restored store up. Only where nothing keeps stations from going on, the store gets its name. It burns nothing,
and resynchronizes no station. It may be stopped at any moment: begun again it does all of it anew, from the backup on.

For each customer with journals it needs the token of one of its seats, as the site has but the SHA-256 of each.
--tokens is the file of station-token, /etc/station/tokens.conf, or a folder. Best is a seat that no station has, whose
name begins with `restore`. --seat NAME chooses one, and may come again.

As root it stops the server and reads the tokens. All else is done as the user whose STORE's folder is, and never as
root, in a process that has no terminal; that user has to be able to read the backup, the site file and the journals.
STORE's folder is named by a path without links. It needs Python 3.11, sqlite3, setpriv, wanekupo-client.

Statuses: 0 stations may go on; 1 refused, or it failed, and no store was put in place; 2 the words are wrong; 3 it is
restored but not put in place, as something keeps stations from going on, which is told.
"""

import argparse
import json
import os
import shutil
import signal
import sys
from collections import Counter
from pathlib import Path
from typing import Any

from wanekupo.common.acts import run_noted
from wanekupo.common.errors import PAGES, cause_of
from wanekupo.plant.backup.copies import BackupError, copy_store, copied_counts, opened_by, told_if_full
from wanekupo.plant.restore.journals import half_of_memory, sources_of, take_journals
from wanekupo.plant.restore.lost_store import (
    NEEDED, by_customer, lost_contradictions, last_numbers, lost_copy, missing_rows, number_gaps, seats_out_of_step,
)  # fmt: skip
from wanekupo.plant.restore.place import STORE, StorePlace, check_backup, check_folders, free_name, serve_alone
from wanekupo.plant.restore.plan import (
    CustomerPlan, Requests, RestoreError, absolute, asked_of, check_customers, check_left_out, choose_seats,
    customers_of, name_customer, requests_of_seats, tokens_at, station_error_sentence,
)  # fmt: skip
from wanekupo.common.store_user import DAY, StoreFolder, UserError
from wanekupo.common.store_user import shown as shown_lines
from wanekupo.common.store_words import clean_words

from wanekupo.common.errors import StationError
from wanekupo.common.files import replace_file
from wanekupo.seat.journal import Journal
from wanekupo.seat.journal_lines import Folders, folders_at
from wanekupo.common.printing import Progress
from wanekupo.common.process import run_command
from wanekupo.seat.journal_restore import restore_requests
from wanekupo.seat.station import Station
from wanekupo.common.texts import shown

ON, REFUSED, KEPT = 0, 1, 3
SHOWN = 5


def print_lines(*lines: str) -> None:
    for line in lines:
        print(line, flush=True)


def error_sentence(error: BaseException) -> str:
    """An error in a sentence."""
    return station_error_sentence(error) if isinstance(error, StationError) else cause_of(error)


def stop_restore(number: int, _: object) -> None:
    raise RestoreError(f"stopped by signal {number}: begin it again, and it does all of it anew")


# The server.


def stop(unit: str) -> None:
    done = run_command(["systemctl", "stop", unit])
    if done.returncode:
        raise RestoreError(f"systemd doesn't stop {unit}: {done.stderr.strip()}")


# The steps.


def gather(
    args: argparse.Namespace, customers: dict[str, CustomerPlan], tokens: dict[str, str], folders: Folders
) -> dict[str, Requests]:
    """Gives the customers their journals and a seat each. What comes back are the requests of each seat."""
    with half_of_memory():
        take_journals(sources_of(args.journals, customers, folders, args.folders), customers, args.leave_out)
    for line in choose_seats(customers, tokens, args.seat, args.tokens):
        print_lines(f"warning: {line}")
    requests: dict[str, Requests] = {}
    for customer in customers.values():
        with name_customer(customer.name):
            customer.asked = asked_of(customer)
            requests |= requests_of_seats([customer])
    return requests


def copy_in(args: argparse.Namespace, place: StorePlace, about: dict[str, Any]) -> list[str]:
    """The backup under other names, opened by the program under the newest site; its numbers are those of then."""
    place.begin(args.backup)
    if not opened_by(args.program, args.site, place.made):
        own = args.backup / "site.toml"
        if not own.exists() or not opened_by(args.program, own, place.made):
            raise RestoreError("the program doesn't open the backup, under no site file")
        if not opened_by(args.program, args.site, place.made):
            raise RestoreError(f"the program doesn't open the backup under {args.site}, which is no growth of its own")
    counts = copied_counts(place.made, str(args.backup))
    if about and counts != about["counts"]:
        raise RestoreError(f"the backup has {counts}, and had {about['counts']} when it was made")
    return counts


def hold_against_lost(
    args: argparse.Namespace, place: StorePlace, customers: list[CustomerPlan],
    requests: dict[str, Requests], counts: list[str],
) -> Path | None:
    """Holds the journals against the lost store, where its files are there. What comes back is a copy of it."""
    if place.state().get("lost"):
        place.put_aside()  # the rest of what an earlier run moved
    lost = place.lost() or (place.db if all(it.exists() for it in place.own_files()) else None)
    if not lost:
        return None
    copy, is_opened = lost_copy(args.program, args.site, lost, place.work / "lost")
    if not is_opened:
        print_lines("the program doesn't open the lost store: the journals aren't held against it")
        return copy
    found = by_customer(lost_contradictions(customers, requests, copy, last_numbers(counts)))
    told = {name: f"{name}: {'; '.join(its[:SHOWN])}; {len(its)} such lines" for name, its in found.items()}
    if open_ones := [name for name in told if name not in args.distrust_lost]:
        words = "Look which is right. Is that store an older one, or did it lose the end of its log? --distrust-lost"
        raise RestoreError(". ".join([*(told[name] for name in open_ones), f"{words} {open_ones[0]}"]))
    print_lines(*(f"warning: {it}" for it in told.values()))
    return copy


def replay(args: argparse.Namespace, place: StorePlace, customers: list[CustomerPlan]) -> dict[str, Any]:
    """Brings back what the journals have. Gives what became of each customer's devices that aren't as they were."""
    left = {}
    with serve_alone(args.program, args.site, place.made) as url:
        for customer in customers:
            if not customer.journals:
                continue
            journal = Journal(place.work / f"{customer.seat}.journal", customer.seat)
            state = place.work / f"{customer.seat}.json"
            with Station(url, customer.token, state, journal=journal, closes_journal=True) as station:
                with Progress(customer.name) as told, name_customer(customer.name):
                    done = restore_requests(station, customer.asked, told)
            left[customer.name] = done.pop("left")
            for name in ("scrapped", "shipped"):
                done[name] = len(done[name])
            made = ", ".join(f"{name} {number}" for name, number in done.items())
            print_lines(f"{customer.name}: by the seat {customer.seat}: {made}; left {len(left[customer.name])}")
    if not opened_by(args.program, args.site, place.made):
        raise RestoreError("the program doesn't open what it restored")
    return left


def look(args: argparse.Namespace, place: StorePlace, copy: Path | None) -> tuple[list[str], dict[str, Any]]:
    """What of the lost store is in no journal, where its files are there: what keeps stations, and all lists."""
    if not copy:
        print_lines("nothing was there to compare with: what no journal has isn't known")
        return [], {}
    rows = missing_rows(copy, place.made)
    keeps = []
    for what, found in rows.items():
        if found is None:
            print_lines(f"{what}: sqlite3 can't read those of the lost store")
            continue
        own_rows = by_customer((str(row["customer"]), shown(" ".join(map(str, row.values())))) for row in found)
        keeps += [line for name, own in own_rows.items() if (line := keeping(args, what, name, own))]
    shutil.rmtree(copy.parent)
    return keeps, rows


def keeping(args: argparse.Namespace, what: str, name: str, rows: list[str]) -> str:
    """How a customer's rows that no journal has keep stations from going on; where they don't they are told."""
    told = f"{shown(name)}: {len(rows)} {what} of the lost store"
    if what in NEEDED and name not in (*args.leave_out, *args.accept_missing):
        return f"{told} are in no journal: {'; '.join(rows[:SHOWN])}"
    print_lines(f"{told}, and it is left out" if name in args.leave_out else f"{told} aren't as they were")
    return ""


def write_lists(place: StorePlace, left: dict[str, Any], rows: dict[str, Any]) -> None:
    """Writes the lists, and tells how many devices are in which other state."""
    for name, found in (("left.json", left), ("missing.json", rows)):
        replace_file(place.work / name, json.dumps(found, indent=1) + "\n")
    kinds = Counter((was, is_now or "not there") for devices in left.values() for was, is_now in devices.values())
    for (was, is_now), number in sorted(kinds.items()):
        print_lines(f"devices that were {was} and are {is_now}: {number}")
    if kinds:
        print_lines(f"What to do with each: {PAGES}/operate/backup-and-restore.md, 'Devices after a restore'.")


def end_restore(args: argparse.Namespace, place: StorePlace, keeps: list[str], requests: dict[str, Requests]) -> int:
    """Says what keeps stations from going on; else backs the restored store up, and gives it its name."""
    if keeps:
        print_lines("", "Stations may not go on yet. No store was put in place.", *(f"- {it}." for it in keeps))
        told = f"Bring a journal more, or write one ({PAGES}/operate/backup-and-restore.md, 'Write a journal')"
        print_lines(f"{told}; or --without SEAT, --accept-missing CUSTOMER.")
        return KEPT
    saved = free_name(args.backups, "restored")
    counts = copy_store(args.program, str(args.site), str(place.made), saved, "a restore")
    print_lines(f"restored: {', '.join(counts)}")
    stops, chance = seats_out_of_step(requests, last_numbers(counts))
    done = place.put_in_place()
    print_lines("", f"The store is {place.db}, a backup of it {saved}, what this restore listed and asked {done}.")
    for name in args.leave_out:
        print_lines(
            f"{name} is left out, and none of its stations may go on: they would get numbers and addresses once more.",
            "Give them no token until its journals are brought back:",
            f"{PAGES}/operate/backup-and-restore.md, 'Leave a customer out'.",
        )
    if place.db != STORE:
        print_lines("Was this a practice? Then start nothing, and resynchronize no station. Else:")
    print_lines(f"These seats stop at 11 or 12 by themselves: {' '.join(stops) or 'none'}.")
    if chance:
        print_lines(f"These may not, as their next number may be the one expected: {' '.join(chance)}.")
        print_lines("On the machines of these seats end the programs that ask, before the server starts.")
    goes_on = "At each, before anything else: wanekupo number --resynchronize."
    print_lines(f"Stations may go on: systemctl start station. {goes_on}")
    return ON


def restore_as_root(args: argparse.Namespace) -> int:
    """Root's part: the tokens, and that no server has the store. The rest is done as the store's user."""
    store = StoreFolder(args.db)
    place = StorePlace(store)
    customers = customers_of(args.site)
    tokens, outers = tokens_at(args.tokens)
    folders = folders_at(args.folders)
    for option, names in (("--accept-missing", args.accept_missing), ("--distrust-lost", args.distrust_lost)):
        check_customers(option, names, customers)
    check_left_out(args.leave_out, customers, outers, args.tokens)
    if args.stop:
        stop(args.stop)
    place.refuse_server(args.port)
    return store.user.call(lambda: restore_store(args, place, customers, tokens, folders), error_sentence, DAY)


def restore_store(
    args: argparse.Namespace, place: StorePlace, customers: dict[str, CustomerPlan],
    tokens: dict[str, str], folders: Folders,
) -> int:
    """All of it, from what an earlier run left to the store's name."""
    place.refuse_links()
    with place.sole_restore():
        if place.state().get("placing"):
            done = place.put_in_place()
            print_lines(f"An earlier run was stopped while it put the store in place: {done} has its lists.")
            print_lines("Stations may go on: systemctl start station. At each, first: wanekupo number --resynchronize.")
            return ON
        check_folders(args.backup, args.backups)
        requests = gather(args, customers, tokens, folders)
        taken = [it for name, it in customers.items() if name not in args.leave_out]
        about = check_backup(args.backup)
        with told_if_full(place.folder, place.needs(args.backup), "a restore"):
            with place.locked():
                counts = copy_in(args, place, about)
                print_lines(f"the backup of {about.get('at', 'a moment that it does not say')}: {', '.join(counts)}")
                copy = hold_against_lost(args, place, taken, requests, counts)
                place.put_aside()
            if lost := place.lost():
                print_lines(f"what was there is in {lost.parent}")
            left = replay(args, place, taken)
            keeps = number_gaps(taken, requests, last_numbers(counts), set(args.without.split(",")))
            more, rows = look(args, place, copy)
            write_lists(place, left, rows)
        return end_restore(args, place, [*keeps, *more], requests)


def restore_parser() -> argparse.ArgumentParser:
    parser = argparse.ArgumentParser(description=__doc__, formatter_class=argparse.RawDescriptionHelpFormatter)
    parser.add_argument("backup", type=Path, metavar="BACKUP")
    parser.add_argument("site", type=Path, metavar="SITE")
    parser.add_argument("journals", nargs="*", metavar="JOURNAL")
    parser.add_argument("--db", default=str(STORE), metavar="STORE", help="where the store is to be")
    parser.add_argument("--program", default="station", help="the program")
    parser.add_argument("--tokens", type=Path, default=Path("/etc/station/tokens.conf"), help="the tokens of seats")
    parser.add_argument("--seat", action="append", default=[], metavar="NAME", help="ask by this seat of a customer's")
    parser.add_argument("--stop", default="", metavar="UNIT", help="have systemd stop this unit first")
    parser.add_argument("--port", type=int, default=880, help="where a server would be listened to")
    parser.add_argument("--backups", type=Path, help="where the restored store is backed up; beside BACKUP without it")
    parser.add_argument("--without", default="", metavar="SEATS", help="seats of which nothing more is to be known")
    of_customer: dict[str, Any] = {"action": "append", "nargs": "?", "default": [], "const": "", "metavar": "CUSTOMER"}
    said = "go on without this one's rows that no journal has; may come again"
    parser.add_argument("--accept-missing", help=said, **of_customer)
    parser.add_argument(
        "--folders", type=Path, default=Path("/etc/station/journals.toml"), metavar="FILE",
        help="which seats each folder of journals has",
    )
    parser.add_argument("--leave-out", action="append", default=[], metavar="CUSTOMER", help="restore the others alone")
    said = "go on where the lost store says otherwise than this one's journals; may come again"
    parser.add_argument("--distrust-lost", help=said, **of_customer)
    return parser


def main() -> int:
    args = restore_parser().parse_args()
    clean_words()
    os.umask(0o077)
    for number in (signal.SIGTERM, signal.SIGINT, signal.SIGHUP):
        signal.signal(number, stop_restore)
    args.journals = absolute(args.journals)
    args.backup, args.site, args.tokens = (it.absolute() for it in (args.backup, args.site, args.tokens))
    args.backups = args.backups.absolute() if args.backups else args.backup.parent
    try:
        program = shutil.which(args.program)
        if not program or not all(map(shutil.which, ("sqlite3", "setpriv"))):
            raise RestoreError(f"{args.program}, sqlite3 and setpriv are needed, and one isn't there")
        args.program = os.path.abspath(program)
        return run_noted("station-restore", lambda: restore_as_root(args))
    except (StationError, RestoreError, BackupError, UserError, OSError) as error:
        print(f"restore: {shown_lines(error_sentence(error))}", file=sys.stderr)
    if args.stop:
        print(f"restore: the unit {args.stop} stays stopped, where it was", file=sys.stderr)
    return REFUSED
