"""What a station has replies to, by its journals: the highest accepted number of each seat.

A store in which a seat's last number is lower is an older one. Who starts a store on another machine compares the two
before any station asks (docs/operate/second-machine.md).
"""

import argparse
from pathlib import Path
from typing import Any, Iterable, Mapping

from wanekupo.seat.command_line import Command, add_journal_words
from wanekupo.seat.settings import Settings
from wanekupo.common.errors import BadJournal
from wanekupo.common.moments import now_text
from wanekupo.seat.journal import OF_A_DAY, journals_of, placed_lines_of
from wanekupo.seat.journal_lines import Name
from wanekupo.common.printing import print_shown
from wanekupo.common.texts import shown

MORE = """: the time, and a line as `seat a1 17` for each seat. It reads them while the station runs. A store whose
seats have lower numbers is an older one."""


def acknowledged(journals: Iterable[Name], seat: str = "") -> dict[str, int]:
    """The highest number of each seat that has its reply. `seat` is the name for journals that don't have it."""
    found: dict[str, int] = {}
    for files in journals_of(journals):
        last: dict[str, int] = {}
        for file, _, line in placed_lines_of(files):
            name = _seat_of(line, file, seat)
            last.setdefault(name, 0)
            if line.get("status") == 200:
                last[name] = line["nr"]
            elif "resynchronized" in line:
                # A person had the station go on with this number, as behind a restore of the store.
                last[name] = line["resynchronized"] - 1
        for name, number in last.items():
            found[name] = max(found.get(name, 0), number)
    return found


def _seat_of(line: Mapping[str, Any], file: str, seat: str) -> str:
    """The seat of a journal's line: the line has it, or the name of a file of a day, or a person says it."""
    day = OF_A_DAY.fullmatch(Path(file).name)
    name = line.get("seat") or (day[1].removesuffix("-") if day else "") or seat
    if not isinstance(name, str) or not name:
        raise BadJournal(f"{file} doesn't have its seat's name", "Give the name by --seat.")
    return name


def _witness(settings: Settings, args: argparse.Namespace) -> int:
    numbers = acknowledged(args.journals, settings.seat)
    lines = [f"at {now_text()}"]
    lines += [f"seat {shown(name)} {number}" for name, number in sorted(numbers.items())]
    print_shown("".join(f"{line}\n" for line in lines))
    return 0


COMMANDS = [Command("witness", "show the highest accepted number of each seat", add_journal_words, _witness, MORE)]
