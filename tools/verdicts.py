"""Verdicts on wrong bodies, kept in a file of lines, so that a run goes on where another was stopped.

A line is JSON: the edit; whether it was refused; the functions that weren't proved with it, and what the prover said of
each; the seconds of the check that told it, which tells of others too; and a sum. That is of all that a verdict stands
on: the toolchain, the edit's changes, the sources of its crate and of those below. It counts while the sum is the same.
"""

import functools
import hashlib
import json
import os
from contextlib import suppress
from pathlib import Path
from typing import NamedTuple

from edits import TOP, Edit
from pages_lib.rattle import crates_below
from prover import kit

PARTS = ("src", "specs", "proofs")
FILE = Path(os.environ.get("XDG_CACHE_HOME") or Path.home() / ".cache", "wanekupo/strength.jsonl")


class Verdict(NamedTuple):
    """What became of an edit: `at` has the functions that weren't proved with it, or else those that were."""

    edit: str
    refused: bool
    at: list[str]
    seconds: float
    sum: str


@functools.cache
def with_below(crate: str) -> list[str]:
    """A crate, and those of the repository that it stands on."""
    known, found = crates_below(), [crate]
    for name in found:
        found += [it for it in known[name] if it in known and it not in found]
    return found


@functools.cache
def sum_of_crate(crate: str) -> str:
    """The sum of a crate's sources."""
    folder = TOP / "crates" / crate
    files = sorted(file for part in PARTS for file in (folder / part).rglob("*") if file.is_file())
    known = {str(it.relative_to(folder)): hashlib.sha256(it.read_bytes()).hexdigest() for it in files}
    return hashlib.sha256(json.dumps(known).encode()).hexdigest()


def sum_of(edit: Edit) -> str:
    """The sum of all that a verdict on an edit stands on."""
    crates = {name: sum_of_crate(name) for name in sorted(with_below(edit.crate))}
    toolchain = (kit() / "KIT-ID").read_text(encoding="utf-8")
    return hashlib.sha256(json.dumps([toolchain, edit.changes, crates]).encode()).hexdigest()[:32]


def read_verdicts(file: Path) -> dict[tuple[str, str], Verdict]:
    """The kept verdicts, by edit and sum. A line that a stop cut is none."""
    found: dict[tuple[str, str], Verdict] = {}
    for line in file.read_text(encoding="utf-8").splitlines() if file.exists() else ():
        with suppress(ValueError, TypeError):
            verdict = Verdict(**json.loads(line))
            found[verdict.edit, verdict.sum] = verdict
    return found


def keep(verdict: Verdict, file: Path) -> None:
    """Adds a verdict to the kept ones. Runs side by side may do so."""
    file.parent.mkdir(parents=True, exist_ok=True)
    with file.open("a", encoding="utf-8") as it:
        it.write(json.dumps(verdict._asdict()) + "\n")
