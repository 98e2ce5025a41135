"""A chain of seals in a folder: today's digest is over yesterday's (docs/reference/files.md#seals).

Each seal has a file of rows, a line of its own that is signed, and the reply of a time-stamp service where there is
one. The file `chain` has all lines, and is replaced whole, last of all. What a crash leaves beside it is set aside by
the next seal.
"""

import contextlib
import hashlib
import itertools
import os
import re
from dataclasses import dataclass
from pathlib import Path
from typing import Iterable, Iterator, Optional

from wanekupo.books.stamp import AGAIN, Service, is_near, moment_in
from wanekupo.common.errors import StationError
from wanekupo.common.files import PRIVATE, locked, opened_lock, replace_bytes, replaced, sync, tested_folder
from wanekupo.common.moments import moment_of
from wanekupo.common.signing import Signer

# What the first seal has in the place of the one before it.
NONE = 64 * "0"
LINE = re.compile(r"(\d{6,}) (\d{4}-\d\d-\d\dT\d\d:\d\d:\d\dZ) (\S{1,64}) (\d+) ([0-9a-f]{64}) ([0-9a-f]{64})")
READABLE = 0o644

# Whose books a copy of a store has: all customers'.
PLANT = "@all"

# How a folder is named, behind a seal's number, that has the files of one that the chain doesn't have.
ASIDE = "-aside-"


class BadChain(StationError):
    """A chain of seals that isn't whole."""


@dataclass(frozen=True)
class Seal:
    """A line of a chain: its number, when it was made, whose books these are, how many rows, and the two digests."""

    number: int
    at: str
    whose: str
    rows: int
    text: str
    seal: str

    def line(self) -> str:
        return f"{self.number:06} {self.at} {self.whose} {self.rows} {self.text} {self.seal}"


def sealed(last: str, number: int, at: str, whose: str, rows: int, digest: str) -> Seal:
    """The seal over the one before and rows with this digest."""
    head = f"{number:06} {at} {whose} {rows} {digest}"
    return Seal(number, at, whose, rows, digest, hashlib.sha256(f"{last} {head}\n".encode()).hexdigest())


def seal_of(line: str, where: str) -> Seal:
    found = LINE.fullmatch(line)
    if not found:
        raise BadChain(f"{where} is no line of a chain", "Look at it in a copy: nothing was changed.")
    number, at, whose, rows, text, seal = found.groups()
    try:
        moment_of(at)
    except ValueError as error:
        told = f"{where} is of {at}, which is no moment"
        raise BadChain(told, "Look at it in a copy: nothing was changed.") from error
    return Seal(int(number), at, whose, int(rows), text, seal)


class Chain:
    """The seals of a folder."""

    def __init__(self, folder: Path):
        self.folder = folder
        if not folder.is_dir():
            told = "Make it first: the seals of one customer, or of a plant, stay there."
            raise BadChain(f"{folder} is no folder", told)

    def rows_file(self, number: int) -> Path:
        return self.folder / f"{number:06}.rows"

    def seal_file(self, number: int) -> Path:
        return self.folder / f"{number:06}.seal"

    def stamp_file(self, number: int) -> Path:
        return self.folder / f"{number:06}.tsr"

    def seals(self) -> list[Seal]:
        """The seals, where each is over the one before."""
        try:
            text = (self.folder / "chain").read_text(encoding="ascii", errors="replace")
        except FileNotFoundError:
            return []
        found, last = [], NONE
        if text and not text.endswith("\n"):
            raise BadChain(f"the last line of {self.folder / 'chain'} is cut", "Look at it in a copy.")
        for place, line in enumerate(text.splitlines(), 1):
            seal = seal_of(line, f"line {place} of {self.folder / 'chain'}")
            head = line.rpartition(" ")[0]
            if seal.number != place or seal.seal != hashlib.sha256(f"{last} {head}\n".encode()).hexdigest():
                told = "A line was changed, taken away or put in: compare with the signed file of each seal."
                raise BadChain(f"line {place} of {self.folder / 'chain'} isn't over the line in front of it", told)
            found.append(seal)
            last = seal.seal
        return found

    def seals_of(self, whose: str) -> list[Seal]:
        """The same, where they are of these books."""
        found = self.seals()
        if found and found[-1].whose != whose:
            told = "Look at the name. Give each customer, and the plant, a folder of its own."
            raise BadChain(f"{self.folder} has seals of {found[-1].whose}, and this one is of {whose}", told)
        return found

    @contextlib.contextmanager
    def held(self) -> Iterator[None]:
        """Keeps a second program away from the folder."""
        tested_folder(self.folder)
        lock = opened_lock(f"{self.folder / 'chain'}.lock")
        try:
            try:
                locked(lock)
            except OSError as error:
                raise BadChain(f"another program adds to {self.folder}", "Wait for it.") from error
            yield
        finally:
            os.close(lock)

    def add(
        self, rows: Iterable[str], at: str, whose: str, signer: Optional[Signer], service: Optional[Service]
    ) -> Seal:
        """Adds a seal over rows, which come in the order of their bytes. Until the chain has it nothing was done."""
        before = self.seals_of(whose)
        if before and at < before[-1].at:
            told = "Look at the clock. Where it was wrong when the last seal was made begin a new folder."
            raise BadChain(f"the last seal is of {before[-1].at}, and this machine's clock has {at}", told)
        last, number = before[-1].seal if before else NONE, len(before) + 1
        self._set_aside(number)
        try:
            count, digest = self._write_rows(number, rows)
            seal = sealed(last, number, at, whose, count, digest)
            line = f"{seal.line()}\n".encode()
            replace_bytes(self.seal_file(number), line, READABLE)
            if signer:
                signer.sign(self.seal_file(number), line)
            if service:
                self._stamp(seal, service)
        except BaseException:
            for file in self._files_of(number):
                file.unlink()
            raise
        lines = "".join(f"{it.line()}\n" for it in [*before, seal])
        replace_bytes(self.folder / "chain", lines.encode(), READABLE)
        return seal

    def _stamp(self, seal: Seal, service: Service) -> None:
        """Has a seal stamped, by a service whose clock goes as this machine's."""
        file = self.stamp_file(seal.number)
        replace_bytes(file, service.stamped(seal.seal), READABLE)
        moment = moment_in(file)
        if not is_near(seal.at, moment):
            told = f"Look at the clock. {AGAIN}"
            raise BadChain(f"the time stamp is of {moment}, and this machine's clock has {seal.at}", told)
        earlier = [it for number in range(1, seal.number) if (it := self.stamp_file(number)).exists()]
        if earlier and moment < (last := moment_in(earlier[-1])):
            told = f"The service's clock went back: look at it, and wait. {AGAIN}"
            raise BadChain(f"the time stamp is of {moment}, and the one in front of it of {last}", told)

    def _files_of(self, number: int) -> list[Path]:
        return list(self.folder.glob(f"{number:06}.*"))

    def _set_aside(self, number: int) -> None:
        """Keeps files of a seal that the chain doesn't have, in a folder of their own. A seal that was killed leaves
        such files; but where the chain was cut they are what shows it. A file that isn't whole yet shows nothing."""
        files = self._files_of(number)
        for file in files:
            if file.suffix == ".new":
                file.unlink()
        files = [file for file in files if file.suffix != ".new"]
        if files:
            folders = (self.folder / f"{number:06}{ASIDE}{place}" for place in itertools.count(1))
            folder = next(it for it in folders if not it.exists())
            folder.mkdir(mode=0o700)
            for file in files:
                file.rename(folder / file.name)
            sync(folder)
            sync(self.folder)

    def _write_rows(self, number: int, rows: Iterable[str]) -> tuple[int, str]:
        """Writes the rows one after another; how many there are, and their digest."""
        count, digest = 0, hashlib.sha256()
        with replaced(self.rows_file(number), PRIVATE) as out:
            for row in rows:
                data = f"{row}\n".encode("ascii")
                digest.update(data)
                out.write(data)
                count += 1
        return count, digest.hexdigest()
