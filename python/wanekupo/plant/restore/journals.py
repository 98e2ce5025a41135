"""Whose a journal is: who may write it says so, and not what stands in it. Each is read once.

A station's key writes into one folder, and a file of root's has the seats of each (docs/reference/files.md, Folders of
journals):

    [folders]
    pc7 = ["a1", "a2"]

A line of another seat stops a restore before it moves anything, and so does one whose digest isn't that of what it
asks. No link is followed below the folder of all, and files are plain ones, of a bounded size. All that a restore does
it does by the lines that were read here: what comes meanwhile changes nothing. Whatever is wrong with a customer's
journals is told as that customer's, so that the others go on.
"""

import contextlib
import os
import resource
import sys
from collections.abc import Iterable, Iterator
from dataclasses import dataclass
from pathlib import Path
from typing import Any, NoReturn

from wanekupo.common.errors import PAGES, StationError, cause_of
from wanekupo.plant.restore.plan import CustomerPlan, Placed, RestoreError, SeatJournal, error_of
from wanekupo.books.steps import digest_fault
from wanekupo.seat.journal import journals_of, seat_named
from wanekupo.seat.journal_lines import MOST, MOST_LINES, SUFFIX, Folders, journals_below, lines_of
from wanekupo.common.texts import brief, shown

# How many folders of the largest size all journals are at most.
MOST_FOLDERS = 4

# What is kept of a line, of what it asks and of a reply; and more members than a request or a reply has.
KEPT = ("at", "path", "asked", "digest", "nr", "status", "reply", "resynchronized")
ORDER = ("name", "issuer", "prefix", "width", "first", "quantity", "macs", "not_before")
KEPT_INNER = frozenset(("nr", "chip", "public_key", "text", "csv", *ORDER, "mac", "serial", "key_sha256", "state"))
MOST_MEMBERS = 64
NOTHING: dict[str, Any] = {}


@dataclass(frozen=True)
class Source:
    """Where journals lie, and the seats that they may be of. Where a person says whose they are it is the customer's
    name: these may have been written by hand. Else a station writes there."""

    path: Path
    seats: frozenset[str]
    customer: str = ""


def sources_of(words: Iterable[str], customers: dict[str, CustomerPlan], folders: Folders, at: Path) -> list[Source]:
    """What words stand for: the folder of all, or a customer's journals as `acme=PATH`."""
    found: list[Source] = []
    for word in words:
        name, equals, path = word.partition("=")
        if equals and name in customers:
            found.append(Source(Path(path), frozenset(customers[name].seats), name))
        else:
            found += _shipped(Path(word), folders, at)
    return found


class Unreadable(RestoreError):
    """What the store's user may not read. That is soon mended, so nobody is left out for it."""


def _unread(error: OSError) -> NoReturn:
    told = f"this user can't read {shown(str(error.filename))}: a journal may be there"
    if isinstance(error, PermissionError):
        raise Unreadable(f"{told}. Have `chgrp -R station` and `chmod -R g+rX` let it. Nothing was moved") from None
    raise RestoreError(told) from None


def _entries(path: Path) -> list[os.DirEntry[str]]:
    try:
        return sorted(os.scandir(path), key=lambda it: it.name)
    except OSError as error:
        _unread(error)


def _shipped(path: Path, folders: Folders, at: Path) -> Iterator[Source]:
    """The folders of a folder of all."""
    if not path.is_dir():
        raise RestoreError(f"{path} doesn't say whose it is: give it as CUSTOMER={path}")
    if not folders:
        told = f"{at} says which seats each folder in {path} has, and it isn't there or empty"
        page = f"{PAGES}/reference/files.md, 'Folders of journals'"
        raise RestoreError(f"{told}: write it ({page}), or give each customer's as CUSTOMER=PATH")
    for it in _entries(path):
        place = shown(it.path)
        if it.is_symlink():
            raise RestoreError(f"{place} is a link, and isn't followed: have the folder itself there")
        if it.is_dir() and it.name not in folders:
            raise RestoreError(f"{at} doesn't say which seats the folder {place} has: add it, or move it away")
        if it.is_dir():
            yield Source(Path(it.path), folders[it.name])
        elif it.name.endswith(SUFFIX):
            raise RestoreError(f"{place} is in no station's folder: give it as CUSTOMER={place}")


def _files_of(source: Source) -> list[Path]:
    """The files of a source's journals, in its folder and in those in it."""
    try:
        return journals_below(source.path) if source.path.is_dir() else [source.path]
    except OSError as error:
        _unread(error)


# What they say.


def _placed(file: Path, size: int) -> Iterator[Placed]:
    """The lines of a file, up to the size that it had before any was read."""
    name = str(file)
    for line in lines_of(file, follows_links=False):
        if line.end > size:
            return
        if line.fault:
            told = f"line {line.number} of {shown(str(file))} {line.fault}"
            raise RestoreError(f"{told}: look at it in a copy; one that was cut hides the line behind it")
        yield name, line.number, line.members


def _slim(line: dict[str, Any]) -> dict[str, Any]:
    """What a restore needs of a line. It asks by members that are texts and numbers, and of a reply that refuses it
    needs nothing."""
    kept = {name: line[name] for name in KEPT if name in line}
    for name in kept.keys() & {"at", "path"}:
        kept[name] = sys.intern(kept[name])
    for name in kept.keys() & {"asked", "reply"}:
        pairs = kept[name].items() if line.get("status", 200) == 200 else ()
        kept[name] = {sys.intern(key): it for key, it in pairs if key in KEPT_INNER} or NOTHING
    return kept


def _unnamed(source: Source, file: Path) -> str:
    """Whose the lines without a seat are: the folder's only one's, or the one's of the file's name. What a person gives
    may be of none, as it was written by hand."""
    if len(source.seats) == 1 and not source.customer:
        return next(iter(source.seats))
    return seat_named(file) if seat_named(file) in source.seats else ""


def _tested(source: Source, otherwise: str, placed: Placed) -> str:
    """The seat of a line, where it may be of this source, and asks what it asked."""
    file, number, line = placed
    seat, place = line.get("seat") or otherwise, f"line {number} of {shown(file)}"
    if seat not in source.seats and (seat or not source.customer):
        whose = f"of the seat {shown(brief(seat))}" if seat else "of no seat that it names"
        owner = f"{source.customer} has" if source.customer else f"the folder {source.path.name} is of"
        raise RestoreError(f"{place} is {whose}, and {owner} {', '.join(sorted(source.seats)) or 'none'}")
    if max(len(line.get("asked", ())), len(line.get("reply", ()))) > MOST_MEMBERS:
        raise RestoreError(f"{place} isn't as a station writes it: it has more than {MOST_MEMBERS} members")
    fault = digest_fault(file, number, line) if "asked" in line else None
    if fault and ("digest" in line or not source.customer):
        raise RestoreError(f"{place} {fault.told}")
    return seat


def _bound(source: Source, is_within: bool) -> None:
    if not is_within:
        told = f"{source.path} has more than {MOST >> 20} MB or {MOST_LINES} lines of journals"
        raise RestoreError(f"{told}: look whether they are its own, and move days from before the backup away")


def _sizes_of(source: Source) -> dict[Path, int]:
    """The sizes of a source's files, before any is read."""
    sizes = {it: os.lstat(it).st_size for it in _files_of(source)}
    _bound(source, sum(sizes.values()) <= MOST)
    return sizes


def journals_in(source: Source, sizes: dict[Path, int], wanted: frozenset[str]) -> list[SeatJournal]:
    """The journals of a source, by their seats. A line may be of a seat that nobody wants, and is passed over."""
    found: dict[tuple[int, str], list[Placed]] = {}
    groups = [(number, file) for number, group in enumerate(journals_of(sizes, is_shipped=True)) for file in group]
    placed = ((number, file, it) for number, file in groups for it in _placed(file, sizes[file]))
    for count, (number, file, it) in enumerate(placed):
        _bound(source, count < MOST_LINES)
        try:
            seat, kept = _tested(source, _unnamed(source, file), it), (*it[:2], _slim(it[2]))
        except (AttributeError, KeyError, TypeError, ValueError) as error:
            told = f"line {it[1]} of {shown(it[0])} isn't as a station writes it"
            raise RestoreError(f"{told} ({type(error).__name__})") from error
        if seat in wanted or not seat:
            found.setdefault((number, seat), []).append(kept)
    return [SeatJournal(seat, lines) for (_, seat), lines in found.items()]


@contextlib.contextmanager
def half_of_memory() -> Iterator[None]:
    """Lets this process take no more than half of the memory that is free, by Linux's own guess: Python says so then,
    where else Linux would kill."""
    lines = (line.split() for line in Path("/proc/meminfo").read_text("ascii").splitlines())
    free = next(int(line[1]) << 10 for line in lines if line[0] == "MemAvailable:")
    own = int(Path("/proc/self/statm").read_text("ascii").split()[0]) * resource.getpagesize()
    before = resource.getrlimit(resource.RLIMIT_AS)
    resource.setrlimit(resource.RLIMIT_AS, (own + free // 2, before[1]))
    try:
        yield
    finally:
        resource.setrlimit(resource.RLIMIT_AS, before)


def _error_of(source: Source, owner: dict[str, CustomerPlan], told: str) -> RestoreError:
    """What is wrong with a source's journals, with the names of the customers whose they may be."""
    names = {source.customer} if source.customer else {owner[it].name for it in source.seats if it in owner}
    return error_of(sorted(names), f"{shown(told)}. Nothing was moved")


def take_journals(sources: Iterable[Source], customers: dict[str, CustomerPlan], left_out: Iterable[str]) -> None:
    """Gives each customer its journals. Those of one that is left out aren't read, where they have a folder. Where all
    together are too many, the folder that has most is named."""
    owner = {seat: it for name, it in customers.items() if name not in left_out for seat in it.seats}
    read: dict[Source, int] = {}
    for source in sources:
        if source.customer in left_out or not source.seats & owner.keys():
            continue
        try:
            sizes = _sizes_of(source)
            read[source] = sum(sizes.values())
            if sum(read.values()) > MOST_FOLDERS * MOST:
                raise MemoryError
            found = journals_in(source, sizes, frozenset(owner))
        except Unreadable:
            raise
        except PermissionError as error:
            _unread(error)
        except (RestoreError, StationError, OSError) as error:
            raise _error_of(source, owner, cause_of(error)) from None
        except MemoryError:
            most = max(read, key=lambda it: read[it])
            told = f"no memory is left for all journals, and most are in {most.path}, {read[most] >> 20} MB"
            look = "look whether they are its station's, and move days from before the backup away"
            raise _error_of(most, owner, f"{told}: {look}") from None
        for journal in found:
            customer = owner[journal.seat] if journal.seat else customers[source.customer]
            customer.journals.append(journal)
