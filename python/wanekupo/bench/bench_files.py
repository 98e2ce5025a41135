"""What a bench keeps in its folder: which chips it has begun, the shift's counts, its log, and each chip's own files.

    bench.json                 what is under way, each socket's last chip, the counts, which chips failed before, and
                               who works here, replaced before each step
    log-2026-11-29.jsonl       a line of JSON for each chip that ended, and for each hook with what it printed
    chips/240ac4000001/        the keys that were made for a chip, and what before_identity left, until it is done with

The folder is one user's and one bench's. The station's own journal, which a restore goes by, isn't here.
"""

import calendar
import contextlib
import json
import os
import re
import threading
import time
from dataclasses import asdict
from pathlib import Path
from typing import Any, Iterator, Mapping, Optional

from wanekupo.bench.board import FAILED, PASSED, Before, Failure, ShiftCounts, Socket, state_of
from wanekupo.bench.endings import ENDINGS, NO_LABEL, Ended
from wanekupo.common.errors import BadStateFile
from wanekupo.common.moments import now_text
from wanekupo.common.files import locked, opened_lock, opened_own, removed_folder
from wanekupo.common.files import replace_file, sync, tested_folder
from wanekupo.common.texts import compact_json


# The name of a chip, and so of its folder.
CHIP = re.compile("[0-9a-f]{12}")

# Why a chip isn't at its first stay that another bench began; and how many that failed are known, the last ones.
ELSEWHERE, MOST_BEFORE = "elsewhere", 1000


class BenchFiles:
    """The files of one bench's folder."""

    def __init__(self, folder: Path):
        self._folder, self._turn = folder, threading.RLock()
        (folder / "chips").mkdir(mode=0o700, parents=True, exist_ok=True)
        tested_folder(folder)
        self._lock: Optional[int] = opened_lock(folder / "bench.lock")
        try:
            locked(self._lock)
        except OSError as error:
            self.close()
            raise BadStateFile(f"{folder} is another bench's", "End that one, or have another folder.") from error
        shift = asdict(ShiftCounts(now_text()))
        nothing: dict[str, Any] = {"before": {}, "last": {}, "map": "", "under_way": {}, "going": [], "operator": ""}
        self._data: dict[str, Any] = {**nothing, "shift": shift}
        try:
            self._read(folder / "bench.json")
        except BaseException:
            self.close()
            raise

    def _read(self, file: Path) -> None:
        try:
            with open(opened_own(file, os.O_RDONLY), "rb") as source:
                found = {"before": {}, "going": [], "operator": "", **json.loads(source.read())}
            self._data = {name: found[name] for name in self._data}
            self.shift()
            self.last()
            for chip in self._data["before"]:
                self.before(chip)
        except FileNotFoundError:
            return
        except (ValueError, KeyError, TypeError, AttributeError) as error:
            told = "Look at it, and move it away: the server knows each chip all the same."
            raise BadStateFile(f"{file} isn't what a bench keeps", told) from error

    def close(self) -> None:
        """Lets another bench have the folder."""
        if self._lock is not None:
            os.close(self._lock)
            self._lock = None

    def _keep(self, **changes: Any) -> None:
        data = {**self._data, **changes}
        replace_file(self._folder / "bench.json", compact_json(data))
        self._data = data

    # What is under way.

    def under_way(self) -> dict[str, dict[str, str]]:
        """The chips that were begun and haven't ended, each with its socket, its step, and since when."""
        with self._turn:
            return {chip: dict(it) for chip, it in self._data["under_way"].items()}

    def begun(self, chip: str, socket: str, step: str) -> None:
        """A chip is about to begin a step."""
        with self._turn:
            chips = self.under_way()
            since = chips.get(chip, {}).get("since") or now_text()
            begun = {**chips, chip: {"socket": socket, "step": step, "since": since}}
            self._keep(under_way=begun, going=[it for it in self._going("") if it != chip])

    def ended(self, last: Socket, ended: Ended, goes: bool = False) -> ShiftCounts:
        """A chip has ended so in a socket: the counts with it. One that may come again stays under way, and of one that
        `goes` the folder is to go."""
        with self._turn:
            is_done, ending = ended.ending.is_last(), ended.ending
            chips = {name: it for name, it in self.under_way().items() if name != last.chip or not is_done}
            lasts = {**self._data["last"], last.name: asdict(last)}
            going = self._going(last.chip if goes else "")
            known = self.before(last.chip)
            shift = self.shift().with_ending(ended, last, known)
            before = self._without(last.chip) if ending.name == "passed" else self._data["before"]
            has_passed = known is not None and known.reason == NO_LABEL
            if last.chip and not has_passed and (ending.is_failure() or ending.name == NO_LABEL):
                before = self._with(last.chip, Before(ending.name, now_text()))
            self._keep(before=before, last=lasts, shift=asdict(shift), under_way=chips, going=going)
            return shift

    # How earlier stays failed, of chips that didn't pass since.

    def before(self, chip: str) -> Optional[Before]:
        with self._turn:
            found = self._data["before"].get(chip)
            return Before(**found) if found else None

    def elsewhere(self, chip: str) -> None:
        """Another bench, or another program, began the chip: this isn't its first stay."""
        with self._turn:
            if chip not in self._data["before"]:
                self._keep(before=self._with(chip, Before(ELSEWHERE)))

    def _with(self, chip: str, before: Before) -> dict[str, Any]:
        return dict([*self._without(chip).items(), (chip, asdict(before))][-MOST_BEFORE:])

    def _without(self, chip: str) -> dict[str, Any]:
        return {name: it for name, it in self._data["before"].items() if name != chip}

    def counted(self, shift: ShiftCounts) -> None:
        """The counts are others, as of a new shift."""
        with self._turn:
            self._keep(shift=asdict(shift))

    def last(self) -> dict[str, Socket]:
        """How the last chip of each socket ended."""
        with self._turn:
            return {name: Socket(**it) for name, it in self._data["last"].items()}

    def has_passed(self, chip: str) -> bool:
        """Whether a chip passed as the last one of a socket: it may not have been taken out yet."""
        return any((it.chip, it.state) == (chip, PASSED) for it in self.last().values())

    def forget(self, chip: str, goes: bool = False) -> bool:
        """Takes a chip from those that are under way; whether it was among them. Of one that `goes` the folder is to
        go."""
        with self._turn:
            is_there = chip in self._data["under_way"]
            if is_there or goes:
                chips = {name: it for name, it in self.under_way().items() if name != chip}
                self._keep(under_way=chips, going=self._going(chip if goes else ""))
            return is_there

    def shift(self) -> ShiftCounts:
        with self._turn:
            found = self._data["shift"]
            row = tuple(Failure(**it) for it in found["row"])
            passed, first = int(found["passed"]), int(found.get("first", 0))
            return ShiftCounts(found["since"], passed, dict(found["failed"]), row, first)

    # Who works here, by the badge that was scanned last.

    def operator(self) -> str:
        return str(self._data["operator"])

    def operated_by(self, name: str) -> None:
        with self._turn:
            self._keep(operator=name)

    # The map that the server has.

    def has_map(self, digest: str, url: str) -> bool:
        return bool(self._data["map"] == f"{digest} {url}")

    def imported(self, digest: str, url: str) -> None:
        with self._turn:
            self._keep(map=f"{digest} {url}")

    # Each chip's own files.

    def folder_of(self, chip: str) -> Path:
        """A chip's own folder, which nobody else reads."""
        folder = self._folder / "chips" / chip
        if not folder.is_dir():
            folder.mkdir(mode=0o700)
            sync(folder.parent)
        return folder

    def chips(self) -> list[str]:
        """The chips that have a folder."""
        return sorted(it.name for it in (self._folder / "chips").iterdir() if CHIP.fullmatch(it.name) and it.is_dir())

    def _going(self, chip: str) -> list[str]:
        """The chips whose folders are to go and are still there, with one more."""
        known = [it for it in {*self._data["going"], chip} if CHIP.fullmatch(it)]
        return sorted(it for it in known if (self._folder / "chips" / it).is_dir())

    def clear(self, *chips: str) -> None:
        """Removes the folders that are to go, and those of these chips; none of a chip that is under way. Each is
        tried, also behind one that fails."""
        faults: list[OSError] = []
        with self._turn:
            for chip in {*self._going(""), *chips} - self._data["under_way"].keys():
                try:
                    removed_folder(self._folder / "chips" / chip)
                except OSError as error:
                    faults.append(error)
        if faults:
            raise faults[0]

    # The log.

    def last_word(self, chip: str) -> Optional[tuple[str, str]]:
        """The name and the sentence of a chip's last ending on this bench, by the newest log that has one."""
        for found in self._endings():
            own = [it for it in found if it["chip"] == chip]
            if own:
                return own[-1]["result"], own[-1]["sentence"]
        return None

    def last_chips(self, most: int) -> list[Socket]:
        """The last chips that ended, the newest first."""
        last: list[Socket] = []
        for found in self._endings():
            last += [_ended_as(it) for it in reversed(found) if it["chip"]]
            if len(last) >= most:
                break
        return last[:most]

    def _endings(self) -> Iterator[list[dict[str, Any]]]:
        """Each log's lines on chips that ended, the newest log first."""
        for file in sorted(self._folder.glob("log-*.jsonl"), reverse=True):
            with open(opened_own(file, os.O_RDONLY), "rb") as source:
                yield [it for it in map(_ending_in, source) if it]

    def log(self, line: Mapping[str, Any]) -> None:
        """Adds a line to the day's log, or nothing of it, and syncs it."""
        at = now_text()
        data = compact_json({"at": at, **line}, sort_keys=True).encode("ascii") + b"\n"
        with self._turn:
            out = opened_own(self._folder / f"log-{at[:10]}.jsonl", os.O_RDWR | os.O_CREAT | os.O_APPEND)
            try:
                _add_line(out, data)
            finally:
                os.close(out)


def _ending_in(line: bytes) -> Optional[dict[str, Any]]:
    """A line of the log that says how a chip ended; one that a crash cut says nothing."""
    if b'"result":' not in line or not line.endswith(b"\n"):
        return None
    found: dict[str, Any] = json.loads(line)
    return found


def _ended_as(line: Mapping[str, Any]) -> Socket:
    """How a socket showed the ending that a line of the log has."""
    ending, at = ENDINGS.get(line["result"]), calendar.timegm(time.strptime(line["at"], "%Y-%m-%dT%H:%M:%SZ"))
    state, chip, took = state_of(ending) if ending else FAILED, line["chip"], float(line.get("seconds", 0))
    return Socket(line["socket"], state, "", chip, line["serial"], reason=line["result"], since=at, took=took)


def _add_line(out: int, data: bytes) -> None:
    """Adds a line behind the last whole one: what a crash or a full disk left of another is cut off."""
    size = _whole_lines(out)
    os.ftruncate(out, size)
    try:
        while data:
            data = data[os.write(out, data) :]
        os.fsync(out)
    except OSError:
        with contextlib.suppress(OSError):
            os.ftruncate(out, size)
        raise


def _whole_lines(out: int) -> int:
    """How many bytes a file of lines has up to its last line feed."""
    end = os.fstat(out).st_size
    while end:
        start = max(0, end - 4096)
        place = os.pread(out, end - start, start).rfind(b"\n")
        if place >= 0:
            return start + place + 1
        end = start
    return 0


def synced_files(folder: Path) -> None:
    """Syncs what a command left in a folder, so that a power cut doesn't take it."""
    for file in folder.iterdir():
        if file.is_file():
            sync(file)
    sync(folder)
