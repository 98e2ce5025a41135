"""What journals say, read by who judges them: each request with its place, its times and its reply, and what is wrong.

`wanekupo.seat.journal` reads the same lines for a restore, and stops at the first one that isn't right. Here such a
line is something that was found: it is named, and what stands around it counts.
"""

from __future__ import annotations

import contextlib
import hashlib
import io
import json
from array import array
from dataclasses import dataclass, field, fields
from operator import attrgetter
from pathlib import Path
from sys import intern
from typing import Any, Iterable, Iterator, Mapping, Optional, Sequence, Union

from wanekupo.books.scratch import Values
from wanekupo.common.errors import BadJournal, StationError
from wanekupo.seat.forms import REPLIES, wrong_in
from wanekupo.seat.journal import journals_of, named_members, request_digest, seat_named, whole_digest
from wanekupo.seat.journal_lines import MOST, Folders, Line, Name, journals_below, lines_in, lines_of
from wanekupo.seat.journal_lines import PACKED, SUFFIX, stations_folders
from wanekupo.common.files import GZIP, unpacked
from wanekupo.common.moments import moment_of
from wanekupo.common.texts import brief, compact_json

# By how many seconds a station's clock may be set back without a word, as a time service does it.
SET_BACK = 60

# How many bytes of memory journals take at most where nobody says so: those of a year in which a line makes 1,000 chips
# a day. A line is in memory as what it weighs, and with so many bytes beside it.
MEMORY, OF_LINE = 8 << 30, 700

# What a journal may have of faults: each takes as much as some lines.
MOST_FAULTS = 100_000

# How many faulty lines of a journal are told by who doesn't judge it.
MOST_TOLD = 5

# How the names of journals end that are read here: older ones may be compressed.
ENDINGS = (SUFFIX, SUFFIX + PACKED)

# The paths of the steps of a device, with the events that they are in its ledger.
EVENTS = {
    "/v1/device": "registered",
    "/v1/plan": "planned",
    "/v1/readback": "read",
    "/v1/identity": "identified",
    "/v1/ship": "shipped",
    "/v1/scrap": "scrapped",
}

# The paths of all requests that change something.
PATHS = frozenset((*EVENTS, "/v1/order", "/v1/map", "/v1/import"))

# What the reply to a registration has: nothing was planned yet.
NEW: dict[str, Any] = {"reason": None, "serial": None, "state": "registered"}
NEW["pending"] = {name: {"bits": [], "keys": {}} for name in ("batch1", "batch2")}

# Of what such a step asks, and of its reply, what is looked at.
ASKED = frozenset(("nr", "chip", "order", "map", "wishes", "blocks"))
REPLIED = frozenset(("chip", "state", "outcome", "serial", "order", "map", "no", "error", "expected"))

# More blocks than a map has: the program refuses a request with so many.
MOST_BLOCKS = 64

# Of its reply what is kept as its text: what is burnt, or is to be burnt.
WORKS = frozenset(("bits", "keys", "batch1", "batch2", "rest"))


def odd_members(path: str, reply: Mapping[str, Any]) -> str:
    """The names of the members that the reply to an accepted request lacks, has in another form, or has beside those of
    docs/integrate/api.md."""
    forms = REPLIES[path] if path in PATHS else {}
    new = NEW if path == "/v1/device" else {}
    odd = {*wrong_in(reply, forms), *(name for name in new if reply.get(name, new[name]) != new[name])}
    return ", ".join(sorted(odd | (reply.keys() - forms.keys() if forms else set())))


def part_text(it: Any) -> str:
    """A part of a reply as its text; of one that nests too deep that of no part."""
    try:
        return compact_json(it, sort_keys=True)
    except (ValueError, RecursionError):
        return "0"


def loaded(it: Any) -> Any:
    """A part of a request or a reply, which may be in memory as its text."""
    with contextlib.suppress(TypeError, ValueError, RecursionError):
        return json.loads(it)
    return it


def is_other_reply(one: Mapping[str, Any], other: Mapping[str, Any]) -> bool:
    """Whether a member that two replies have isn't the same. A part of one may be there as its text."""
    both = ((one[name], other[name]) for name in one.keys() & other.keys())
    return any(a != b and part_text(a) != b and a != part_text(b) for a, b in both)


@dataclass(slots=True)
class Step:
    """A request of a journal with the place of its line, when it was asked and answered, and what the reply was.
    Without a status its reply never came. `reason` is why a chip was scrapped, where the station knew it. The last ones
    are an audit's: a turn of its seat, whether the store is surely one without it, or with it, or with it or another
    line of its number, when it was first asked where it stands there more than once, and which members of its reply
    aren't the server's."""

    file: str
    line: int
    at: str
    path: str
    asked: Mapping[str, Any]
    digest: str
    seat: str
    operator: str
    answered: str = ""
    status: Optional[int] = None
    reply: Mapping[str, Any] = field(default_factory=dict)
    reason: str = ""
    turn: int = 0
    is_lost: bool = False
    is_stored: bool = True
    is_either: bool = False
    since: str = ""
    odd: str = ""
    number: int = -1
    chip: str = ""
    said: str = ""
    home: Optional[Steps] = field(init=False, default=None, compare=False, repr=False)
    place_of: int = field(init=False, default=0, compare=False)

    def __post_init__(self) -> None:
        if self.number < 0:
            self.number, self.chip = int(self.asked["nr"]), str(self.asked.get("chip", ""))

    @property
    def event(self) -> str:
        """The event of a device's ledger that this is; nothing where it is no step of a device."""
        return EVENTS.get(self.path, "")

    @property
    def note(self) -> str:
        """The note that the ledger has of it."""
        if not isinstance(self.reply, dict):
            return self.said
        member = {"read": "outcome", "identified": "serial"}.get(self.event, "")
        return str(self.reply.get(member, "")) if member else ""

    def digest_of_text(self) -> str:
        """The digest of the map that this imports."""
        return hashlib.sha256(str(self.asked.get("text", "")).encode("utf-8", "replace")).hexdigest()

    def slim(self) -> None:
        """Leaves away what nobody asks for: journals are long. What is left is a text or a number, or short: whoever
        writes a journal may nest anything, which takes many times its bytes."""
        is_whole = self.path in PATHS and self.event in ("", "identified")
        asked = {name: it for name, it in self.asked.items() if is_whole or name in ASKED}
        if "wishes" in asked:
            asked["wishes"] = part_text(asked["wishes"])
        if "blocks" in asked:
            asked["blocks"] = asked["blocks"][:MOST_BLOCKS]
        works = {name: part_text(self.reply[name]) for name in WORKS & self.reply.keys()}
        names = REPLIED | REPLIES[self.path].keys() if is_whole else REPLIED
        self.asked, self.reply = asked, {**{name: it for name, it in self.reply.items() if name in names}, **works}

    def save(self) -> None:
        """Brings what was changed to where it is kept."""
        if self.home is not None:
            self.home.save(self)

    def is_done(self) -> bool:
        return self.status == 200

    def is_stop(self) -> bool:
        """Whether the server refused it as 11 or 12: the seat was out of step."""
        return self.status == 409 and self.reply.get("no") in (11, 12)

    def place(self) -> str:
        return f"line {self.line} of {self.file}" if self.line else self.file


# What makes a request again, in the order of its words, but for its members.
WORDS = [it.name for it in fields(Step) if it.init and it.name not in ("asked", "reply")]
DATA = attrgetter(*WORDS)


class Steps(Sequence[Step]):
    """The requests of a journal, on the disk but for the last one as long as it is read. Each look makes another
    object: what is changed of one stays where it is saved."""

    def __init__(self, values: Values):
        self._values, self._places, self._last = values, array("i"), list[Step]()

    def append(self, step: Step) -> None:
        self.end()
        self._last = [step]

    def end(self) -> None:
        for it in self._last:
            it.said = it.note
            self._places.append(self._values.add(DATA(it), (it.asked, it.reply)))
        self._last = []

    def __len__(self) -> int:
        return len(self._places) + len(self._last)

    def __getitem__(self, place: Any) -> Any:
        if isinstance(place, slice):
            return [self[it] for it in range(*place.indices(len(self)))]
        if self._last and place in (-1, len(self._places)):
            return self._last[0]
        return self.at(self._places[place])

    def at(self, place: int) -> Step:
        """The request at a place of the disk."""
        (asked, reply), its = self._values.members(place), self._values.at(place)
        file, line, at, path, digest, seat, operator, answered, status, *rest = its
        head = intern(file), line, at, intern(path), asked, digest, intern(seat), intern(operator), answered, status
        step = Step(*head, reply, *rest)
        step.home, step.place_of = self, place
        return step

    def save(self, step: Step) -> None:
        step.said = step.note
        self._values.put(step.place_of, "data", DATA(step))
        if isinstance(step.reply, dict):
            self._values.put(step.place_of, "members", (dict(step.asked), step.reply))

    def only(self, steps: Iterable[Step]) -> Steps:
        """These alone, as they are now."""
        found = Steps(self._values)
        for it in steps:
            self.save(it)
            found._places.append(it.place_of)
        return found


@dataclass(frozen=True)
class Resynchronized:
    """A person had the seat go on with a number; `behind` is how many requests came before."""

    file: str
    line: int
    at: str
    number: int
    behind: int


@dataclass(frozen=True)
class JournalFault:
    """What is wrong with a journal, and in which line."""

    file: str
    line: int
    at: str
    told: str

    def place(self) -> str:
        return f"line {self.line} of {self.file}" if self.line else self.file


# What a moment of a line has beside its digits.
POINTS = str.maketrans("", "", "-:TZ")


def digits_of(at: str) -> int:
    """A moment as a number, which takes less: 20261130060000."""
    return int(at.translate(POINTS))


class Times(Sequence[str]):
    """The moments of a journal's lines."""

    def __init__(self) -> None:
        self._digits = array("q")

    def append(self, at: str) -> None:
        self._digits.append(digits_of(at))

    def __len__(self) -> int:
        return len(self._digits)

    def __getitem__(self, place: Any) -> Any:
        if isinstance(place, slice):
            return [self[it] for it in range(*place.indices(len(self)))]
        it = f"{self._digits[place]:014}"
        return f"{it[:4]}-{it[4:6]}-{it[6:8]}T{it[8:10]}:{it[10:12]}:{it[12:]}Z"


@dataclass
class Book:
    """A seat's journal: its files, its requests in their order, what is wrong with it, and who it is of. `seat` is
    empty where no line has a name."""

    files: list[str]
    steps: Steps = field(default_factory=lambda: Steps(Values()))
    resynchronized: list[Resynchronized] = field(default_factory=list)
    faults: list[JournalFault] = field(default_factory=list)
    times: Times = field(default_factory=lambda: Times())
    seat: str = ""
    is_asked: bool = False

    def name(self) -> str:
        """The seat's name, or where no line has one that of the file."""
        return self.seat or Path(self.files[0]).name


Members = dict[str, Any]


def digest_fault(file: str, number: int, line: Members) -> Optional[JournalFault]:
    """A request whose digest isn't that of what it asks was changed behind the station's back."""
    with contextlib.suppress(ValueError, RecursionError):
        if any(line.get("digest") == made(line["path"], line["asked"]) for made in (request_digest, whole_digest)):
            return None
    told = "was changed: its digest isn't that of what it asks" if "digest" in line else "has no digest"
    return JournalFault(file, number, line["at"], told)


def _tested_clock(book: Book, file: str, number: int, at: str) -> None:
    """Tells where a station's clock went back: what is counted by times isn't sure there."""
    if book.times and at < book.times[-1]:
        seconds = (moment_of(book.times[-1]) - moment_of(at)).total_seconds()
        if seconds > SET_BACK:
            told = f"is {seconds:.0f} seconds before the line in front of it, by the station's clock"
            book.faults.append(JournalFault(file, number, at, told))


def _answered(last: Optional[Step], line: Members) -> str:
    """Adds a reply to its request; what is wrong with it. A request that was answered is sent again where its station
    stopped before it knew so, and gets the reply that the server kept; a store that was restored since refuses it."""
    if last is None or last.number != line["nr"]:
        return f"answers number {line['nr']}, which isn't asked in front of it: a line is missing"
    if last.is_done():
        is_other = line["status"] == 200 and line["reply"] != last.reply
        return f"answers number {line['nr']} otherwise than before" if is_other else ""
    last.answered, last.status, last.reply = line["at"], line["status"], line["reply"]
    last.odd = odd_members(last.path, last.reply) if last.is_done() else ""
    if not last.is_done() and not 400 <= line["status"] <= 599:
        return f"answers number {line['nr']} with the status {line['status']}, which the server never does"
    return f"accepts {last.path}, which the server doesn't have" if last.is_done() and last.path not in PATHS else ""


def _take(book: Book, file: str, number: int, line: Members) -> None:
    """Adds a line to a journal's requests."""
    _tested_clock(book, file, number, line["at"])
    book.times.append(line["at"])
    seat = line.get("seat", "")
    if seat and book.seat and seat != book.seat:
        book.faults.append(JournalFault(file, number, line["at"], f"is of the seat {seat}, among lines of {book.seat}"))
    book.seat = book.seat or seat
    last = book.steps[-1] if book.steps else None
    if "asked" in line:
        fault = digest_fault(file, number, line)
        if fault:
            book.faults.append(fault)
        asked, digest = named_members(line["path"], line["asked"]), line.get("digest", "")
        if not fault and asked != line["asked"]:
            digest = request_digest(line["path"], asked)
        is_again = last and last.status in (None, 200) and (last.path, last.asked) == (line["path"], asked)
        is_again = is_again and all(it.behind < len(book.steps) for it in book.resynchronized[-1:])
        if not is_again:
            if last:
                last.slim()
            names = intern(seat or book.seat), intern(line.get("operator", ""))
            step = Step(file, number, line["at"], intern(line["path"]), asked, digest, *names)
            step.reason = line.get("reason", "")
            book.steps.append(step)
            if step.number < 1:
                told = f"asks with the number {step.number}, and a seat's first one is 1"
                book.faults.append(JournalFault(file, number, line["at"], told))
        book.is_asked = True
    elif "status" in line:
        told = _answered(last if book.is_asked else None, line)
        if told:
            book.faults.append(JournalFault(file, number, line["at"], told))
        book.is_asked = False
    else:
        it = Resynchronized(file, number, line["at"], line["resynchronized"], len(book.steps))
        book.resynchronized.append(it)


def _others(line: Members, file: Path, seats: Optional[frozenset[str]]) -> str:
    """Says where a line isn't of a seat of its folder; one without a name is of the folder's only one, or of the one
    that its file names."""
    if seats is None:
        return ""
    line["seat"] = line.get("seat") or (next(iter(seats)) if len(seats) == 1 else seat_named(file))
    told = f"is of the seat {brief(line['seat'])}, and its folder is of {', '.join(sorted(seats)) or 'none'}"
    return "" if line["seat"] in seats else told


@dataclass
class Room:
    """How much journals may still take, and where they are: all of them are there at once."""

    bytes: int = MEMORY
    values: Values = field(default_factory=Values)

    def take(self, path: Path, weight: int) -> None:
        self.bytes -= weight + OF_LINE
        if self.bytes < 0:
            told = f"with {path} these journals take more memory than they may"
            raise BadJournal(told, "Look whether they are their station's, move old days away, or give more.")


def _lines_of(path: Path, follows_links: bool, room: Room) -> Iterable[Line]:
    """The lines of a file, which may be compressed. One that can't be read to its end is a fault, and has none."""
    if path.suffix != PACKED:
        return lines_of(path, follows_links=follows_links)
    data = unpacked(path, min(MOST, room.bytes), follows_links)
    if len(data) > min(MOST, room.bytes):
        room.take(path, room.bytes)
    return [Line(0, 0, fault="is no whole file of gzip")] if data.startswith(GZIP) else lines_in(io.BytesIO(data))


def book_of(files: Iterable[Path], seats: Optional[frozenset[str]] = None, room: Optional[Room] = None) -> Book:
    """A journal of one seat, in the order of its files. Where it is known which seats it may be of a line of another
    one doesn't count, and the first one of a file is told."""
    paths, room = list(files), room or Room()
    book, told = Book([str(it) for it in paths], Steps(room.values)), set[tuple[Path, str]]()
    for path in paths:
        last = ""
        for line in _lines_of(path, seats is None, room):
            room.take(path, line.weight)
            if fault := line.fault or _others(line.members, path, seats):
                is_told = not line.fault and (path, fault) in told
                book.faults += [] if is_told else [JournalFault(str(path), line.number, last, fault)]
                told.add((path, fault))
            else:
                last = line.members["at"]
                _take(book, str(path), line.number, line.members)
            if len(book.faults) > MOST_FAULTS:
                raise BadJournal(f"{path} has more than {MOST_FAULTS} faults", "Look whether it is a journal.")
    book.steps.end()
    return book


def books_of(names: Iterable[Name], memory: int = MEMORY) -> list[Book]:
    """The journals that files and folders are, which take so many bytes of memory at most."""
    room = Room(memory)
    return [book_of(files, room=room) for files in journals_of(names, endings=ENDINGS)]


def shipped_books(path: Path, folders: Folders, memory: int = MEMORY) -> list[Book]:
    """The journals of a folder of all, in which each station has its own. What one station wrote keeps nobody from
    reading the others': a folder that can't be read is a journal with that fault, and each may take as much as any
    other; what small ones leave is the larger ones'."""
    found, room = dict[Path, list[Book]](), Room(memory)
    its = sorted(stations_folders(path, folders), key=_size_of)
    for place, it in enumerate(its):
        own, found[it] = Room(room.bytes // (len(its) - place), room.values), []
        room.bytes -= own.bytes
        try:
            groups = journals_of(journals_below(it, ENDINGS), is_shipped=True)
            found[it] = [book_of(group, folders[it.name], own) for group in groups]
        except (StationError, OSError) as error:
            found[it] = [Book([str(it)], faults=[JournalFault(str(it), 0, "", f"isn't read to its end: {error}")])]
            own = Room(0)
        room.bytes += own.bytes
    return [book for it in sorted(found) for book in found[it]]


def _size_of(folder: Path) -> int:
    """How many bytes a folder's journals have, as far as they can be told."""
    with contextlib.suppress(StationError, OSError):
        return sum(it.lstat().st_size for it in journals_below(folder, ENDINGS))
    return 0


@dataclass(frozen=True)
class NamedPath:
    """A word of the command line: a path, and in front of it the name of the customer, where there is one."""

    customer: str
    path: Path


def named(word: Union[str, Path]) -> NamedPath:
    """`acme=journals/` is the customer acme's; a path that is there as it stands has no name."""
    name, equals, path = str(word).partition("=")
    if not equals or Path(word).exists() or "/" in name:
        return NamedPath("", Path(word))
    return NamedPath(name, Path(path))


def told_faults(book: Book) -> Iterator[str]:
    """What is wrong with a journal, for who doesn't judge it: the first lines, and how many more."""
    for fault in book.faults[:MOST_TOLD]:
        yield f"{fault.place()} {fault.told}"
    if len(book.faults) > MOST_TOLD:
        yield f"{len(book.faults) - MOST_TOLD} more lines of {book.files[0]}: wanekupo audit names them"
