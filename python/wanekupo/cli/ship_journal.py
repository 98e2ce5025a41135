"""`wanekupo ship-journal`: the seat's journals come off this machine, so that they are left where it is lost.

rsync brings them, which sends what is new and gives a file its name once it is whole. They get a folder of their own
below the one that is named, by a number that lies beside them. So where a machine's disk was lost, a new journal of the
same seat and day stands beside the one from before, and replaces nothing of it.
"""

import argparse
import os
import re
import secrets
import subprocess
from pathlib import Path

from wanekupo.seat.command_line import Command, required_words
from wanekupo.seat.settings import Settings
from wanekupo.common.errors import BadSettings, StationError
from wanekupo.common.files import opened_own, replace_file, tested_folder
from wanekupo.seat.journal_lines import SUFFIX
from wanekupo.common.printing import say_json
from wanekupo.common.process import run_command

# What rsync waits for a reply, and the whole of a run, in seconds.
WAITS, TAKES = 60, 280
RSYNC = ["rsync", "--times", "--fsync", "--chmod=F640", f"--timeout={WAITS}", "--"]
ID = re.compile(r"[0-9a-f]{16}")

AGAIN = "Look at the network and at that place. The next run brings what is missing."


def _own_id(file: Path) -> str:
    """The number by which these journals are known, made where there is none."""
    tested_folder(file.parent)
    try:
        with open(opened_own(file, os.O_RDONLY), encoding="ascii", errors="replace") as source:
            found = source.read().strip()
    except FileNotFoundError:
        found = secrets.token_hex(8)
        replace_file(file, f"{found}\n")
    if not ID.fullmatch(found):
        raise StationError(f"{file} has no number", "Move it away: the journals get a new folder then.")
    return found


def journals_at(journal: Path) -> tuple[list[Path], str]:
    """The files of a journal, and the number by which they are known."""
    path = Path(os.path.realpath(journal))
    if path.is_dir():
        return sorted(it for it in path.glob(f"*{SUFFIX}") if not it.is_symlink()), _own_id(path / "ship-id")
    return ([path] if path.exists() else []), _own_id(Path(f"{path}.ship-id"))


def place_below(to: str, name: str) -> str:
    """A folder below one that rsync takes: `pc:journals`, or `pc:` for that user's own."""
    between = "" if to.endswith((":", "/")) else "/"
    return f"{to}{between}{name}/"


def ship(journal: Path, to: str) -> int:
    """Brings the files of a journal to a folder, here or at HOST:FOLDER, and says how many there are."""
    files, name = journals_at(journal)
    if not files:
        return 0
    try:
        done = run_command([*RSYNC, *map(str, files), place_below(to, name)], TAKES)
    except FileNotFoundError:
        told = "Install it, here and where the journals go: apt install rsync."
        raise StationError("there is no rsync", told) from None
    except subprocess.TimeoutExpired:
        raise StationError(f"rsync didn't end within {TAKES} seconds", AGAIN) from None
    if done.returncode:
        said = (done.stderr.strip().splitlines() or ["it said nothing"])[0]
        raise StationError(f"the journals weren't shipped: rsync ended with status {done.returncode}: {said}", AGAIN)
    return len(files)


def _ship(settings: Settings, args: argparse.Namespace) -> int:
    if settings.journal is None:
        told = "Give --journal F, or have a line journal = .. in wanekupo.toml."
        raise BadSettings("no journal is named", told)
    say_json({"files": ship(settings.journal, args.to), "to": args.to})
    return 0


COMMANDS = [
    Command(
        "ship-journal",
        "bring the journals to another machine, by rsync",
        required_words("to"),
        _ship,
        ". TO is a folder, or HOST:FOLDER. They get a folder of their own in it. Again, it brings what is new.",
    ),
]
