"""The lines of journals, read one at a time: each with its number, the byte behind it, and what is wrong with it.

All who read journals read them here: who restores a store by them (`journal`), who judges them (`books.steps`), and who
counts what is new in them (`journal_counts`). A journal may be another machine's, so each line is tested for its form:
what a reader uses has the form that it relies on. Folders are bounded, and so is what is read of them.
"""

import argparse
import json
import os
import re
import tomllib
from dataclasses import dataclass, field
from datetime import datetime
from pathlib import Path
from typing import IO, Any, Callable, Iterator, Union

from wanekupo.common.errors import BadJournal, StationError
from wanekupo.common.files import OTHERS_WRITE, opened_plain
from wanekupo.common.texts import shown

Name = Union[str, "os.PathLike[str]"]

# More than a line has: a body, of which two bytes of a letter are six there, and what stands beside it.
LONGEST_LINE = 1 << 18

# The seats of each folder, by root's file; and the most bytes of that.
Folders = dict[str, frozenset[str]]
LONGEST_FILE = 1 << 20

# The greatest number of a request (docs/integrate/api.md). A person may have written a line with any up to it.
MOST_NUMBER = 2**53 - 1

# The most bytes and lines of a folder's journals, which are in memory all at once: those of most of a year in which a
# machine makes 1,000 chips a day, of 8 lines each. And of a folder the files of ten years, in how many folders in it.
MOST, MOST_LINES = 1 << 29, 2_000_000
MOST_FILES, DEEPEST = 20_000, 2
SUFFIX, PACKED = ".journal", ".gz"

LOOK = "Look who wrote there, and move away what isn't that station's."

MOMENT = re.compile(r"\d{4}-\d\d-\d\dT\d\d:\d\d:\d\dZ")
NO_LINE = "is no line of a journal"


@dataclass(frozen=True, slots=True)
class Line:
    """A line: its number from where reading began, the byte behind it, and its members; or what is wrong with it. Its
    texts take at most as many bytes of memory as it weighs."""

    number: int
    end: int
    members: dict[str, Any] = field(default_factory=dict)
    fault: str = ""
    weight: int = 0


def lines_of(file: Name, start: int = 0, follows_links: bool = True) -> Iterator[Line]:
    """The whole lines of a file from a byte on. A last one without its line feed was cut by a crash, or is being
    written: it says nothing. A file that is shorter is another one, and is read from its beginning."""
    with open(opened_plain(file, os.O_RDONLY, follows_links), "rb") as source:
        yield from lines_in(source, start if os.fstat(source.fileno()).st_size >= start else 0)


def lines_in(source: IO[bytes], end: int = 0) -> Iterator[Line]:
    """The same of what is open. Behind a line that is too long nothing is read: its end may be terabytes away."""
    source.seek(end)
    number, data = 0, b"\n"
    while data.endswith(b"\n") and (data := source.readline(LONGEST_LINE)):
        if data.endswith(b"\n") or len(data) == LONGEST_LINE:
            number, end = number + 1, end + len(data)
            yield _line_of(data, number, end)


def _line_of(data: bytes, number: int, end: int) -> Line:
    try:
        found = json.loads(data.decode()) if data.endswith(b"\n") else None
        if b"\\ud" in data.lower():
            json.dumps(found, ensure_ascii=False).encode()  # half a pair of UTF-16 is no text
    except (ValueError, RecursionError):
        found = None
    fault = form_fault(found)
    if fault:
        return Line(number, end, fault=fault)
    is_wide = not data.isascii() or data.count(b"\\u") > data.count(b"\\u00")  # a text with such a letter is four times
    return Line(number, end, found, weight=len(data) * (4 if is_wide else 1))


# The form of a line.


def _is_text(it: Any) -> bool:
    return isinstance(it, str)


def _is_name(it: Any) -> bool:
    return it is None or isinstance(it, str)


def _is_number(it: Any) -> bool:
    return type(it) is int and abs(it) <= MOST_NUMBER


def _is_wish(it: Any) -> bool:
    return isinstance(it, dict) and all(_is_text(part) or _is_number(part) for part in it.values())


# What members have to be where they are there: those of a line, and those of what is asked and of its reply.
Forms = dict[str, Callable[[Any], bool]]
OWN: Forms = dict.fromkeys(("seat", "operator", "path", "digest", "reason"), _is_text)
INNER: Forms = {
    **dict.fromkeys(("chip", "order", "map", "name", "prefix", "issuer", "key_sha256", "public_key"), _is_text),
    **dict.fromkeys(("text", "csv", "state", "outcome", "error"), _is_text),
    **dict.fromkeys(("serial", "mac", "next", "not_before", "not_after", "reason"), _is_name),
    **dict.fromkeys(("nr", "no", "expected", "width", "first", "quantity", "macs", "added", "present"), _is_number),
    "blocks": lambda it: isinstance(it, list) and all(map(_is_text, it)),
    "wishes": lambda it: isinstance(it, list) and all(map(_is_wish, it)),
}

# The members by which the three kinds of lines are told apart: each line has those of one kind, and no other's.
ASKED, REPLY, GOES_ON = {"path", "asked"}, {"nr", "reply", "status"}, {"resynchronized"}
OF_KINDS = ASKED | REPLY | GOES_ON


def form_fault(line: Any) -> str:
    """What is wrong with the form of a line; nothing where it is one of a journal."""
    if not isinstance(line, dict) or not _is_moment(line.get("at")):
        return NO_LINE
    kind = line.keys() & OF_KINDS
    if kind == ASKED:
        asked = line["asked"]
        fault = "" if isinstance(asked, dict) and _is_number(asked.get("nr")) else "is no request of a journal"
        return fault or _members_fault(line, asked)
    if kind == REPLY:
        is_one = _is_number(line["nr"]) and _is_number(line["status"]) and isinstance(line["reply"], dict)
        return _members_fault(line, line["reply"]) if is_one else "is no reply of a journal"
    return _members_fault(line, {}) if kind == GOES_ON and _is_number(line["resynchronized"]) else NO_LINE


def _members_fault(line: dict[str, Any], inner: dict[str, Any]) -> str:
    """What is wrong with the members of a line that has its kind's."""
    for forms, members in ((OWN, line), (INNER, inner)):
        for name in forms.keys() & members.keys():
            if not forms[name](members[name]):
                return f"has a member of another form, {name}"
    return ""


def _is_moment(at: Any) -> bool:
    """Whether this is a moment as a station writes it, of a day and a time that there are."""
    if not isinstance(at, str) or not MOMENT.fullmatch(at):
        return False
    try:
        datetime.fromisoformat(at[:-1])
    except ValueError:
        return False
    return True


# The journals of a folder.


def journals_below(folder: Path, endings: tuple[str, ...] = (SUFFIX,)) -> list[Path]:
    """The files of a folder's journals, in it and in the folders in it; no folder's link is followed. Others may write
    there, so what no station makes is refused: it would cost all who read it."""
    found, folders, count = list[Path](), [(folder, 0)], 0
    for place, depth in folders:
        with os.scandir(place) as entries:
            for it in entries:
                count += 1
                if count > MOST_FILES:
                    raise BadJournal(f"{shown(str(folder))} has more than {MOST_FILES} files", LOOK)
                if it.is_dir(follow_symlinks=False):
                    if depth == DEEPEST:
                        raise BadJournal(f"{shown(str(place))} has a folder in it, and no journal lies so deep", LOOK)
                    folders.append((Path(it.path), depth + 1))
                elif it.name.endswith(endings):
                    found.append(Path(it.path))
    return sorted(found)


def stations_folders(path: Path, folders: Folders) -> list[Path]:
    """The folders in the folder of all, in which each station has its own, and which root's file names."""
    found = sorted(path.iterdir())
    for it in found:
        if it.is_symlink() or it.name not in folders and (it.is_dir() or it.suffix == SUFFIX):
            told = "Name a folder that has the stations' folders, and say in that file which seats each one has."
            raise BadJournal(f"{it} is no folder that the file of folders names", told)
    return [it for it in found if it.is_dir()]


# The file that says which seats each folder of journals has (docs/reference/files.md, Folders of journals).


def folders_at(path: Path) -> Folders:
    """The seats of each folder by a file that nobody but root or this user may write; none where it isn't there."""
    try:
        with open(opened_plain(path, os.O_RDONLY), "rb") as file:
            found = os.fstat(file.fileno())
            if found.st_uid not in (0, os.geteuid()) or found.st_mode & OTHERS_WRITE:
                raise BadJournal(f"{path} is another user's, or others may write it: it says whose journals are")
            return folders_in(file.read(LONGEST_FILE).decode(), path)
    except FileNotFoundError:
        return {}
    except (OSError, ValueError, RecursionError, StationError) as error:
        raise BadJournal(f"{path} can't be read: {error}") from None


def add_folders(parser: argparse.ArgumentParser) -> None:
    said = "the journals are folders of all stations' folders, of which this file of root's says whose each one is"
    parser.add_argument("--folders", type=Path, metavar="FILE", help=said)


def named_folders(path: Path) -> Folders:
    """The same of a file that a person names, which has to name folders."""
    if found := folders_at(path):
        return found
    raise BadJournal(f"{path} isn't there, or names no folder", "Name the file that a restore goes by.")


def folders_in(text: str, path: Path) -> Folders:
    """The same of its text. A seat has one folder: what lies in another one isn't its own."""
    table = tomllib.loads(text).get("folders")
    if not isinstance(table, dict):
        raise BadJournal(f"{path} has no table [folders]")
    owner: dict[str, str] = {}
    for name, seats in table.items():
        if not isinstance(seats, list) or not all(isinstance(it, str) and it for it in seats) or "/" in name:
            raise BadJournal(f'{path}: {name!r} has to be the name of a folder, with seats as ["a1", "a2"]')
        for seat in seats:
            if owner.setdefault(seat, name) != name:
                raise BadJournal(f"{path}: the seat {seat} has two folders, {owner[seat]} and {name}")
    return {name: frozenset(seats) for name, seats in table.items()}
