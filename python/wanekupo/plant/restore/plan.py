"""What a restore goes by: the site, which requests and numbers journals have, and by which seat a customer is asked.

The site has the SHA-256 of each seat's token, and no token. So a token comes from the file of station-token, which has
those of all seats, or from a folder with a file SEAT.token for one seat of each customer.
"""

import contextlib
import hashlib
import heapq
import os
from collections.abc import Collection, Iterable, Iterator
from dataclasses import dataclass, field
from pathlib import Path
from typing import Any

from wanekupo.plant.backup.copies import BackupError
from wanekupo.common.store_user import UserError, read_small
from wanekupo.common.token_file import PREFIX, Outer, TokenError, Tokens, check_folder, read, tokens_of
from wanekupo.common.errors import StationError
from wanekupo.common.site_file import SiteFileError, read_site_file
from wanekupo.seat.journal import Asked, requests_in, serials_of
from wanekupo.seat.journal_restore import tested_requests
from wanekupo.common.texts import brief, shown

# How the name of a seat begins that is for restores alone.
OWN = "restore"


class RestoreError(BackupError):
    """Why a restore doesn't go on; nothing was put in place."""


def error_of(names: list[str], told: str) -> RestoreError:
    """What the journals of a customer don't let go on, and how the others do."""
    return RestoreError(f"{' and '.join(names)}: {told.rstrip('.')}. The others go on by --leave-out {names[0]}")


@contextlib.contextmanager
def name_customer(customer: str) -> Iterator[None]:
    """Says whose the line is that an error of the client's names, and for whose journals no memory is left."""
    try:
        yield
    except MemoryError:
        raise error_of([customer], "no memory is left for its journals: move old days away") from None
    except StationError as error:
        raise error_of([customer], station_error_sentence(error)) from error
    except (ArithmeticError, AttributeError, LookupError, RecursionError, TypeError, ValueError) as error:
        told = f"its journals have what no station writes ({type(error).__name__}: {shown(brief(error))})"
        raise error_of([customer], told) from error


# A line of a journal, with its file and its number there.
Placed = tuple[str, int, dict[str, Any]]


@dataclass(frozen=True)
class SeatJournal:
    """The lines of a journal in their order, and the seat that they are of; one that a person wrote may have none."""

    seat: str
    lines: list[Placed]


@dataclass
class CustomerPlan:
    """A customer of the site: its seats with the digests of their tokens, its journals, and the requests in them."""

    name: str
    seats: dict[str, str]
    can_order: bool
    journals: list[SeatJournal] = field(default_factory=list)
    asked: list[Asked] = field(default_factory=list)
    seat: str = ""
    token: str = ""


def customers_of(site: Path) -> dict[str, CustomerPlan]:
    try:
        found = read_site_file(site).customers
    except (SiteFileError, OSError) as error:
        raise RestoreError(str(error)) from None
    return {name: CustomerPlan(name, it.seats, bool(it.issuers)) for name, it in found.items()}


# Journals.


@dataclass(slots=True)
class JournalRequest:
    """A request that is done or may be done, by the line that asks for it."""

    place: str
    digest: str
    is_done: bool = False


Requests = dict[int, list[JournalRequest]]


def standing(lines: Iterable[Placed]) -> Requests:
    """The requests of a seat that are or may be done, by their numbers. Where the station was told to go on with a
    lower number, those with greater ones are of a store that is no more."""
    found: Requests = {}
    known: list[int] = []  # the numbers with a minus, the greatest in front
    for file, number, line in lines:
        if "resynchronized" in line:
            while known and -known[0] >= line["resynchronized"]:
                found.pop(-heapq.heappop(known), None)
            continue
        nr = line["asked"]["nr"] if "asked" in line else line["nr"]
        if nr not in found:
            heapq.heappush(known, -nr)
        those = found.setdefault(nr, [])
        if "asked" in line:
            digest = line.get("digest", "")  # one that a person wrote may have none
            if not those or those[-1].digest != digest:
                those.append(JournalRequest(f"line {number} of {shown(file)}", digest))
        elif line["status"] != 200:
            del those[-1:]
        elif those:
            those[-1].is_done = True
    return {it: those for it, those in found.items() if those}


def requests_of_seats(customers: Iterable[CustomerPlan]) -> dict[str, Requests]:
    """The requests of each seat that has a journal, by their times; those of one journal stay in their order."""
    found: dict[str, list[list[Placed]]] = {}
    for journal in (it for customer in customers for it in customer.journals if it.seat):
        found.setdefault(journal.seat, []).append(journal.lines)
    return {seat: standing(heapq.merge(*its, key=lambda placed: str(placed[2]["at"]))) for seat, its in found.items()}


def asked_of(customer: CustomerPlan) -> list[Asked]:
    """The requests of a customer's journals by their times, in which each serial number has one record."""
    asked = list(heapq.merge(*(requests_in(it.lines) for it in customer.journals), key=lambda it: it.at))
    tested_requests(asked)
    serials_of(asked)
    return asked


# Tokens.


def tokens_at(path: Path) -> tuple[dict[str, str], list[Outer]]:
    """The token of each seat, by the file of station-token or a folder of files SEAT.token; and of that file the outer
    tokens and certificates that haven't ended."""
    try:
        if path.is_dir():
            check_folder(path)
            return {it.stem: read_small(it).decode("ascii").strip() for it in sorted(path.glob("*.token"))}, []
        text = read(path)
        tokens = tokens_of(text, path) if text else Tokens()
        return {it.seat: it.inner for it in tokens.seats.values()}, tokens.open_ones()
    except (TokenError, UserError, OSError, ValueError) as error:
        raise RestoreError(str(error)) from None


def check_customers(option: str, names: Iterable[str], customers: Collection[str]) -> None:
    """Refuses a word that is for one customer, and names none."""
    for name in names:
        if not name:
            raise RestoreError(f"{option} goes for one customer: name it, as {option} CUSTOMER, and again for another")
        if name not in customers:
            raise RestoreError(f"{option} {name}: the site file has no such customer")


def check_left_out(
    left_out: Iterable[str], customers: dict[str, CustomerPlan], outers: Iterable[Outer], at: Path
) -> None:
    """Refuses to leave a customer out whose stations could go on: a store that doesn't know what they were given would
    give it once more. They can't without an outer token, which ends by `station-token revoke`."""
    check_customers("--leave-out", left_out, customers)
    for name in left_out:
        if not at.is_file():
            told = f"--leave-out {name} needs the file of station-token, which shows that its stations can't go on"
            raise RestoreError(f"{told}, and {at} is none: --tokens")
        if seats := sorted({it.seat for it in outers if not it.looks} & customers[name].seats.keys()):
            told = f"the stations of {name} could go on, and would get numbers and addresses once more"
            raise RestoreError(f"{told}. First end the tokens of {', '.join(seats)}: station-token revoke {seats[0]}")


def choose_seats(customers: dict[str, CustomerPlan], tokens: dict[str, str], named: list[str], at: Path) -> list[str]:
    """Gives each customer that has journals a seat by which the server is asked, best one that no station has. What
    comes back are warnings."""
    warnings = []
    for customer in customers.values():
        if not customer.journals:
            continue
        digests = {seat: hashlib.sha256(tokens.get(seat, "").encode()).hexdigest() for seat in customer.seats}
        fit = [seat for seat in customer.seats if seat in tokens and digests[seat] == customer.seats[seat]]
        busy = {it.seat for it in customer.journals}
        if not fit:
            seats = ", ".join(customer.seats) or "it has none"
            told = f"no token of {customer.name} is in {at}: one of these seats' is needed: {seats}"
            if outer := next((it for it in customer.seats if tokens.get(it, "").startswith(PREFIX)), ""):
                told += f". {outer}.token there is an outer one: station-token inner {outer} --to FILE writes its own"
            raise RestoreError(f"{told}. station-token writes that file; or name a folder that has a file SEAT.token")
        fit.sort(key=lambda seat: (seat not in named, not seat.startswith(OWN), seat in busy, seat))
        customer.seat, customer.token = fit[0], tokens[fit[0]]
        if customer.seat in busy:
            warnings.append(f"{customer.name} is asked by the seat {customer.seat}, which has a station")
    return warnings


def absolute(words: Iterable[str]) -> list[str]:
    """The words for journals by whole paths, as another user may stand elsewhere."""
    found = []
    for word in words:
        name, equals, path = word.partition("=")
        is_named = equals and not os.path.exists(word)
        found.append(f"{name}={os.path.abspath(path)}" if is_named else os.path.abspath(word))
    return found


def station_error_sentence(error: StationError) -> str:
    """An error of the client's in a sentence."""
    return " ".join(it for it in (f"{error}.", error.advice) if it)
