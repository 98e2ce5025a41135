"""A folder of seals, tested whole: its chain, the files beside it, and each two seals that follow each other.

What was done is counted, so that nobody takes a test that had nothing to test for one that found nothing.
"""

import gzip
import hashlib
import os
import re
import zlib
from collections import deque
from dataclasses import dataclass, field
from pathlib import Path
from typing import IO, Any, Iterator, Optional

from wanekupo.books.chain import ASIDE, PLANT, BadChain, Chain, Seal
from wanekupo.books.compare import Text, contradictions, differences
from wanekupo.books.shift import seconds_between
from wanekupo.books.stamp import Service, is_near, moment_in, verified
from wanekupo.common.errors import BadSettings
from wanekupo.common.files import GZIP, opened_plain
from wanekupo.common.sentences import sentence_of
from wanekupo.common.signing import CMS, MINISIG, BadSignature, beside, verify

# By how many seconds daily seals may be apart: a day, and an hour.
A_DAY = 25 * 3600

# More bytes than a row has, and than the rows of a seal, which are on the disk twice; and where a line is no row.
LONGEST_ROW, MOST_ROWS, LONGEST_LINE = 1 << 16, 64 << 30, 1 << 20

COMPRESSED = ".gz"

# The files of a chain, and those of a seal behind its number.
OF_CHAIN = ("chain", "chain.lock")
OF_SEAL = re.compile(rf"(\d{{6,}})\.(rows|rows\{COMPRESSED}|seal|seal\{MINISIG}|seal\{CMS}|tsr)(\.new)?")
SET_ASIDE = re.compile(rf"(\d{{6,}}){ASIDE}\d+")


@dataclass(frozen=True)
class Trusted:
    """Whose signatures and time stamps are to be there, where it is said. `last` is a line that somebody kept, or the
    digest at its end."""

    minisign: Optional[Path] = None
    cms: Optional[Path] = None
    service: Optional[Service] = None
    last: str = ""


@dataclass
class Tested:
    """What was found, what is told beside it, and how much was tested."""

    found: list[str] = field(default_factory=list)
    notes: list[str] = field(default_factory=list)
    seals: int = 0
    pairs: int = 0
    signatures: int = 0
    stamps: int = 0
    missing: list[int] = field(default_factory=list)

    def done(self) -> str:
        counts = [_counted(self.seals, "seal"), f"{_counted(self.pairs, 'pair')} compared"]
        counts += [f"{_counted(self.signatures, 'signature')} and {_counted(self.stamps, 'stamp')} held"]
        return f"{', '.join(counts)}, rows of {len(self.missing)} missing."


def _counted(number: int, what: str) -> str:
    return f"{number} {what}" if number == 1 else f"{number} {what}s"


class RowsFile:
    """A plain file of rows, which may be compressed, of which no more than so many bytes are read. Behind its lines are
    how many bytes and line feeds these had, their SHA-256, and whether it is damaged."""

    def __init__(self, file: Path, most: int):
        self.file, self.most = file, most
        self.bytes, self.count, self.digest, self.is_damaged = 0, 0, hashlib.sha256(), False

    def lines(self) -> Iterator[str]:
        with open(opened_plain(self.file, os.O_RDONLY, follows_links=True), "rb") as plain:
            is_packed = plain.read(len(GZIP)) == GZIP
            plain.seek(0)
            source: Any = gzip.GzipFile(fileobj=plain) if is_packed else plain
            try:
                yield from self._lines(source)
            except (OSError, EOFError, zlib.error):
                if not is_packed:
                    raise
                self.is_damaged = True

    def _lines(self, source: IO[bytes]) -> Iterator[str]:
        """Of what has no line feed for long a line is made that is no row, and the rest is no line."""
        is_cut = False
        while data := source.readline(min(LONGEST_LINE, self.most + 1 - self.bytes)):
            self.digest.update(data)
            self.bytes, is_rest, is_cut = self.bytes + len(data), is_cut, not data.endswith(b"\n")
            self.count += not is_cut
            if not is_rest:
                line = data.decode("ascii", "backslashreplace")
                yield line + "\0" if is_cut and len(data) == LONGEST_LINE else line.removesuffix("\n")

    def is_large(self) -> bool:
        return self.bytes > self.most

    def is_text(self, digest: str) -> bool:
        """Whether it is whole, and has this SHA-256."""
        return not self.is_damaged and self.digest.hexdigest() == digest


def sealed_text(name: Path) -> Text:
    """The rows of a file of a seal, which may be compressed. A file in which no line is a row is another one."""
    file = RowsFile(name, MOST_ROWS)
    text = Text.of(file.lines())
    if file.is_large():
        raise BadSettings(f"{name} has more than {MOST_ROWS >> 20} MB of rows", "Look who wrote it.")
    if file.is_damaged or text.is_empty():
        told = "is no file of rows" if text.bad or file.is_damaged else "has no row, so nothing can be compared"
        raise BadSettings(f"{name} {told}", "Name NUMBER.rows of a seal, or the copy of a store.")
    return text


def sentences_of(before: Text, after: Text) -> list[str]:
    """What the later of two texts can't be, in sentences."""
    found = sorted(dict.fromkeys(differences(before, after)), key=lambda it: (it.kind, it.key, it.told))
    return [it.sentence() for it in found]


def tested(chain: Chain, trusted: Trusted) -> Tested:
    """Tests a folder that has a chain. One without is an error, as nothing can be tested there."""
    made, names = Tested(), sorted(it.name for it in chain.folder.iterdir())
    odd = [it for it in names if (it in OF_CHAIN or OF_SEAL.fullmatch(it)) and not (chain.folder / it).is_file()]
    if odd:
        made.found += [f"{chain.folder / it} is no plain file: look who put it there." for it in odd]
        return made
    try:
        seals = chain.seals()
    except BadChain as error:
        made.found.append(sentence_of(error))
        return made
    if not seals:
        told = "Name the folder of the seals. Where there are files of seals their chain was taken away: look who did."
        raise BadChain(f"{chain.folder} has no chain, so nothing was tested", told)
    made.seals = len(seals)
    made.found += [f"{it}." for it in _lone_faults(chain, seals)]
    if trusted.last and trusted.last not in {word for it in seals for word in (it.line(), it.seal)}:
        made.found.append("The seal that --last names isn't in the chain: seals were taken away, or made anew.")
    _test_names(chain, names, made)
    _test_signatures(chain, seals, trusted, made)
    _test_stamps(chain, seals, trusted.service, made)
    _test_rows(chain, seals, made)
    _tell_unshown(made)
    made.notes += _gaps(seals)
    return made


def _gaps(seals: list[Seal]) -> Iterator[str]:
    """The longest time between two seals, and that in front of the last one, where seals may have been taken away. A
    time that falls is found elsewhere, and is no time without a seal."""
    both = [(before, seal) for before, seal in zip(seals, seals[1:]) if before.at <= seal.at]
    pairs = [(seconds_between(before.at, seal.at), before, seal) for before, seal in both]
    if pairs and (longest := max(pairs, key=lambda it: it[0]))[0] > A_DAY:
        for said, (seconds, before, seal) in (("The longest time", longest), ("The last time", pairs[-1])):
            told = f"from {before.number:06} of {before.at} to {seal.number:06} of {seal.at}"
            yield f"{said} without a seal: {seconds / 3600:.0f} hours, {told}."


def _tell_unshown(made: Tested) -> None:
    """What isn't shown by a folder like this one."""
    if made.missing:
        made.notes.append(f"Not compared, as their rows aren't there: {_numbers(made.missing)}.")
    bare = made.seals - made.stamps
    if bare:
        made.notes.append(f"Not shown: when {_counted(bare, 'seal')} came to be, without a time stamp that was held.")


def _numbers(missing: list[int]) -> str:
    """Seals by their numbers, those in a row as from one to another."""
    found: list[list[int]] = []
    for number in missing:
        if found and number == found[-1][-1] + 1:
            found[-1][1:] = [number]
        else:
            found.append([number])
    return ", ".join(" to ".join(f"{it:06}" for it in span) for span in found)


# Files by their names.


def _lone_faults(chain: Chain, seals: list[Seal]) -> Iterator[str]:
    for seal in seals:
        file = chain.seal_file(seal.number)
        if not file.exists():
            yield f"{file} isn't there"
        elif file.read_bytes() != f"{seal.line()}\n".encode():
            yield f"{file} isn't the line of the chain"
    for before, seal in zip(seals, seals[1:]):
        place = f"line {seal.number} of {chain.folder / 'chain'}"
        if seal.at < before.at:
            yield f"{place} is of {seal.at}, and the line in front of it of {before.at}"
        if seal.whose != before.whose:
            yield f"{place} is of {seal.whose}, and the line in front of it of {before.whose}"


def _test_names(chain: Chain, names: list[str], made: Tested) -> None:
    """Files of seals that the chain doesn't have, and files that are none of a seal."""
    others = []
    for name in names:
        its = OF_SEAL.fullmatch(name)
        number = int(its[1]) if its and its[1] == f"{int(its[1]):06}" else 0
        if SET_ASIDE.fullmatch(name) or number > made.seals:
            told = "the chain was cut, or a seal was stopped: look, and take it out of this folder"
            made.found.append(f"{chain.folder / name} is of a seal that the chain doesn't have: {told}.")
        elif (not number or its and its[3]) and name not in OF_CHAIN:
            others.append(name)
    if others:
        made.notes.append(f"Not tested, as no seal has such files: {', '.join(others)}.")


# Signatures and time stamps.


def _test_signatures(chain: Chain, seals: list[Seal], trusted: Trusted, made: Tested) -> None:
    ending = CMS if trusted.cms else MINISIG
    files = [chain.seal_file(it.number) for it in seals]
    if not trusted.minisign and not trusted.cms:
        count = sum(beside(it, MINISIG).exists() or beside(it, CMS).exists() for it in files)
        if count:
            made.notes.append(f"Not tested: the signatures of {_counted(count, 'seal')}. Give --minisign or --cms.")
        return
    for file in _begun(files, [beside(it, ending).exists() for it in files], "signature", made):
        if not file.exists():
            continue
        try:
            verify(file, trusted.minisign, trusted.cms)
            made.signatures += 1
        except BadSignature as error:
            made.found.append(f"{error}.")


def _test_stamps(chain: Chain, seals: list[Seal], service: Optional[Service], made: Tested) -> None:
    stamps = {chain.seal_file(it.number): (chain.stamp_file(it.number), it) for it in seals}
    last = ""
    is_there = [stamp.exists() for stamp, _ in stamps.values()]
    if not service:
        if any(is_there):
            made.notes.append(f"Not tested: the time stamps of {_counted(sum(is_there), 'seal')}. Give --tsa-ca.")
        return
    for file in _begun(list(stamps), is_there, "time stamp", made):
        stamp, seal = stamps[file]
        if not verified(stamp, seal.seal, service):
            made.found.append(f"{stamp} is no time stamp of {file} by the service.")
            continue
        made.stamps += 1
        moment = moment_in(stamp)
        if not is_near(seal.at, moment):
            made.found.append(f"{stamp} is of {moment}, and its seal says {seal.at}: an hour may lie between them.")
        if moment < last:
            made.found.append(f"{stamp} is of {moment}, and the stamp in front of it of {last}.")
        last = max(last, moment)


def _begun(files: list[Path], is_there: list[bool], what: str, made: Tested) -> list[Path]:
    """The seals that have one. Those in front of the first are told in one line, as later seals are over them; one that
    is missing behind the first is found."""
    if True not in is_there:
        made.found.append(f"No seal has a {what}.")
        return []
    first = is_there.index(True)
    if first:
        made.notes.append(f"{_counted(first, 'seal')} in front of {files[first]} had no {what} yet.")
    for file, there in list(zip(files, is_there))[first:]:
        if not there:
            made.found.append(f"{file} has no {what}.")
    return [file for file, there in zip(files, is_there) if there]


# Rows.


def _test_rows(chain: Chain, seals: list[Seal], made: Tested) -> None:
    """Holds the rows of each seal to its digest, and those that are as they were sealed to the ones before."""
    before: Optional[Text] = None
    last = ""
    for seal in seals:
        most = min(MOST_ROWS, LONGEST_ROW * (seal.rows + 1))
        files = [RowsFile(it, most) for it in row_files(chain, seal) if it.exists()]
        if not files:
            made.missing.append(seal.number)
            continue
        text = Text.of(files[0].lines(), before)
        deque((line for it in files[1:] for line in it.lines()), maxlen=0)
        changed = [it for it in files if not it.is_text(seal.text)]
        told = f"has more than {most} bytes, and its seal is of {_counted(seal.rows, 'row')}"
        made.found += [f"{it.file} {told if it.is_large() else 'was changed since it was sealed'}." for it in changed]
        if changed:
            continue
        made.found += [f"{files[0].file}: {it}." for it in (*text.bad, *_line_faults(seal, files[0].count, text))]
        if before is None:
            made.found += sorted(it.sentence() for it in dict.fromkeys(contradictions(text)))
        else:
            made.found += [f"{last} to {seal.number:06}: {it}" for it in sentences_of(before, text)]
            made.pairs += 1
        before, last = text, f"{seal.number:06}"
    if len(made.missing) == len(seals):
        made.found.append(f"{chain.folder} has the rows of no seal, so no row was compared.")


def _line_faults(seal: Seal, count: int, text: Text) -> Iterator[str]:
    """What of a seal's line isn't so by its rows."""
    if count != seal.rows:
        yield f"there are {_counted(count, 'row')}, and the seal says {seal.rows}"
    others = text.owners() - {seal.whose}
    if others and seal.whose != PLANT:
        yield f"there are rows of {', '.join(sorted(others))}, and the seal is of {seal.whose}"


def row_files(chain: Chain, seal: Seal) -> list[Path]:
    file = chain.rows_file(seal.number)
    return [file, beside(file, COMPRESSED)]
