"""What journals say, for metrics: which chips were lost and why, and which seats stopped.

Journals are read on from where the last run ended, so that a run costs what is new in them. What a run knows is kept:
of each file how many bytes were read, of each seat its counts. So the counts never fall, also where a journal is moved
away.
"""

import re
from pathlib import Path
from typing import Any, Iterator, Optional

from wanekupo.common.errors import BadJournal, UnsafeFile
from wanekupo.metrics.exposition import Samples
from wanekupo.seat.journal import seat_named
from wanekupo.seat.journal_lines import SUFFIX, Folders, folders_at, journals_below, lines_of
from wanekupo.common.moments import moment_of, now_text
from wanekupo.common.printing import warn
from wanekupo.common.sentences import sentence_of
from wanekupo.seat.states import LOST
from wanekupo.common.texts import brief

# A seat's name, as the server's are: it becomes a label.
NAME = re.compile(r"[A-Za-z0-9._-]{1,32}")

OUT_OF_STEP = (11, 12)

# The most bytes of a folder that a run reads: who writes there could keep it from its end for ever. The next reads on.
MOST_NEW = 1 << 26

# How many seats have metrics of their own; a site has 64 of each of 64 customers. The others are counted as one.
MOST_SEATS = 500
OTHERS = "others"


class Counts:
    """What is known of the journals, in the part of the kept file that is theirs."""

    def __init__(self, kept: dict[str, Any]):
        self.read: dict[str, int] = kept.setdefault("read", {})
        self.seats: dict[str, dict[str, Any]] = kept.setdefault("seats", {})
        self.now = now_text()
        self.left = MOST_NEW  # of the folder that is read

    def seat(self, name: str) -> dict[str, Any]:
        known = name if name in self.seats or len(self.seats) < MOST_SEATS else OTHERS
        new = {"lost": {}, "is_out": False, "asked": None, "at": ""}
        return self.seats.setdefault(known, new)

    def take(self, line: dict[str, Any], otherwise: str) -> None:
        """A line. One that is older than what is known of its seat only counts, as where an old journal comes late. One
        of a time to come, by a clock that is ahead, is of now: else no later line of that seat would count. A chip is
        lost once, also where a crash had its read-back sent and answered again."""
        name = line.get("seat", "")
        seat = self.seat(name if NAME.fullmatch(name) else otherwise)
        at = min(line["at"], self.now)
        reply = line.get("reply")
        if "asked" in line:
            seat["chip"] = line["asked"].get("chip", "")
        if isinstance(reply, dict) and reply.get("outcome") in LOST and seat.get("lost_chip") != seat.get("chip", ""):
            seat["lost"][reply["outcome"]] = seat["lost"].get(reply["outcome"], 0) + 1
            seat["lost_chip"] = seat.get("chip", "")
        if at < seat["at"]:
            return
        seat["at"] = at
        if "asked" in line:
            seat["asked"] = seat["asked"] or at
        else:
            seat["asked"] = None
            seat["is_out"] = isinstance(reply, dict) and reply.get("no") in OUT_OF_STEP

    def keep_only(self, known: Folders) -> None:
        """Seats that no folder has go: their names were made up, and would take the places of others."""
        own = {OTHERS, *(seat for seats in known.values() for seat in seats)}
        for name in self.seats.keys() - own:
            del self.seats[name]

    def forget(self, files: list[Path]) -> None:
        """Files that are gone are forgotten, and what they said isn't. Where all of a folder are gone it may only be
        away for a while, and what came back would count twice: these stay known."""
        there, folders = set(map(str, files)), {file.parent for file in files}
        for file in [file for file in self.read if file not in there and Path(file).parent in folders]:
            del self.read[file]


def read_on(counts: Counts, file: Path, seats: Optional[frozenset[str]]) -> Optional[BadJournal]:
    """Reads what is new in a journal, and gives what is wrong with it. No link is followed: others write where journals
    come to. Where its folder's seats are known, a line of another one is its writer's word of somebody else."""
    end = counts.read.setdefault(str(file), 0)
    otherwise = next(iter(seats)) if seats and len(seats) == 1 else seat_named(file)
    try:
        for line in lines_of(file, end, follows_links=False):
            counts.left -= line.end - (end if line.end > end else 0)
            if counts.left < 0:
                told = f"{file.parent} has more than {MOST_NEW >> 20} MB that are new"
                return BadJournal(told, "Look who wrote them. The next runs read on.")
            if line.fault:
                told = f"the line behind byte {end} of {file} is no line of a journal"
                return BadJournal(told, "Look at it in a copy: the rest of that file isn't counted.")
            seat = line.members.get("seat") or otherwise
            if seats is not None and seat not in seats:
                told = f"the line behind byte {end} of {file} is of the seat {brief(seat)}, which isn't its folder's"
                return BadJournal(told, "Look who wrote it: it and the rest of that file aren't counted.")
            counts.take(line.members, otherwise)
            counts.read[str(file)] = end = line.end
    except (OSError, UnsafeFile) as error:
        return BadJournal(f"{file} can't be read: {error}", "Look whose it is.")
    return None


def _read_place(counts: Counts, files: list[Path], seats: Optional[frozenset[str]]) -> Iterator[BadJournal]:
    """Reads what is new in a folder, and gives what is wrong there."""
    counts.left = MOST_NEW
    for file in files:
        if fault := read_on(counts, file, seats):
            yield fault
        if counts.left < 0:
            return


def add_journals(samples: Samples, kept: dict[str, Any], folders: list[Path], owners: Path) -> None:
    """The counts of all journals in folders and in the folders in them. Where one can't be read it is told, and the
    others count. Where there is a file of whose the folders are, no seat has counts but by its own folder."""
    counts, known = Counts(kept), folders_at(owners)
    if known:
        counts.keep_only(known)
    files, faults = _files_of(folders, known)
    if not any(files.values()) and not faults:
        raise BadJournal(f"no journal in {', '.join(map(str, folders))}", "Look where the stations' journals come to.")
    counts.forget([file for own in files.values() for file in own])
    for place, own in files.items():
        seats = known.get(place.name, frozenset()) if known else None
        for fault in _read_place(counts, own, seats):
            faults.setdefault(place, fault)
    for name, seat in counts.seats.items():
        _add_seat(samples, name, seat)
    for place in files | faults:
        samples.add("wanekupo_metrics_success", place not in faults, part="journals", folder=place.name)
    for fault in list(faults.values())[1:]:
        warn(f"journals: {sentence_of(fault)}")
    if faults:
        raise next(iter(faults.values()))


def _places(folder: Path, known: Folders) -> list[Path]:
    """The folders that are read each by itself: a station's, or the folder of all and those in it."""
    own = [] if folder.name in known else [it for it in folder.iterdir() if it.is_dir() and not it.is_symlink()]
    return [folder, *sorted(own)]


def _files_of(folders: list[Path], known: Folders) -> tuple[dict[Path, list[Path]], dict[Path, BadJournal]]:
    """The journals of each folder, and what is wrong with one that can't be read."""
    files, faults = dict[Path, list[Path]](), dict[Path, BadJournal]()
    for place in (it for folder in folders for it in _places(folder, known)):
        is_of_all = place in folders and place.name not in known
        try:
            files[place] = sorted(place.glob(f"*{SUFFIX}")) if is_of_all else journals_below(place)
        except BadJournal as error:
            faults[place] = error
        except OSError as error:
            faults[place] = BadJournal(f"{place} can't be read: {error}", "Look whose it is.")
    return files, faults


def _add_seat(samples: Samples, name: str, seat: dict[str, Any]) -> None:
    for reason in LOST:
        samples.add("wanekupo_lost_chips_total", seat["lost"].get(reason, 0), seat=name, reason=reason)
    samples.add("wanekupo_seat_out_of_step", seat["is_out"], seat=name)
    if seat["asked"]:
        samples.add("wanekupo_seat_unanswered_timestamp_seconds", moment_of(seat["asked"]).timestamp(), seat=name)
    if seat["at"]:
        samples.add("wanekupo_seat_last_line_timestamp_seconds", moment_of(seat["at"]).timestamp(), seat=name)
