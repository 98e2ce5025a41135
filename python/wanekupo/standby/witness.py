"""What the stations have replies to: the highest accepted number of each seat, by their own journals.

`wanekupo witness JOURNAL..` prints it on each station's PC: the time, and a line for each seat. What a store lacks of
that was acknowledged, and would be issued once more.
"""

import os
import re
import shlex
import sys
import tomllib
from collections.abc import Iterable
from dataclasses import dataclass
from datetime import datetime, timedelta, timezone
from pathlib import Path

from wanekupo.common.errors import PAGES
from wanekupo.common.files import small_bytes
from wanekupo.standby.half import StandbyError, run_bounded, print_told
from wanekupo.standby.look import SEAT

# Which seats each station's PC has, by root's own file: docs/reference/files.md, Folders of journals.
TABLE = Path("/etc/station/journals.toml")
# A part that is a PC's, as `pc7=FILE`, or as `pc7=ssh ..` of standby.toml.
NAMED = re.compile(r"([^/=\s]+)=(.+)", re.DOTALL)
MADE = re.compile(r"at (\d{4}-\d\d-\d\dT\d\d:\d\d:\d\dZ)")
# How far ahead the clock of a station's PC may be.
AHEAD = timedelta(minutes=1)
# The most bytes of a witness. How its command is run, whose other end may be a station's PC: what it prints is bounded.
MOST = 1 << 20
BOUNDED = ["bash", "-o", "pipefail", "-c", f'"$@" 2> >(head -c 4096 >&2) | head -c {MOST}', "bash"]


@dataclass(frozen=True, order=True)
class Reply:
    """The highest number of a seat to which there is a reply, and the line of a witness that says so."""

    number: int
    place: str = ""

    def __str__(self) -> str:
        return f"a reply to {self.number}" + (f" ({self.place})" if self.place else "")


def moments_of(lines: list[str], name: str) -> list[datetime]:
    """When the parts of a witness were made: several PCs' may stand in one file, each with its own time."""
    found = []
    for line in lines:
        if made := MADE.fullmatch(line):
            try:
                found.append(datetime.fromisoformat(made[1]))
            except ValueError:
                raise StandbyError(f"{name} has the line `{line}`, which is no time.") from None
        elif not SEAT.fullmatch(line):
            raise StandbyError(f"{name} has the line `{line[:80]}`, which is neither `at TIME` nor `seat NAME NUMBER`.")
        elif not found:
            lack = "has no line as `at 2026-11-29T09:00:00Z` in front, so nobody knows of when it is."
            raise StandbyError(f"{name} {lack}")
    return found


def highest(replies: Iterable[tuple[str, Reply]]) -> dict[str, Reply]:
    """The highest reply of each seat."""
    found: dict[str, Reply] = {}
    for seat, reply in replies:
        found[seat] = max(found.get(seat, reply), reply)
    return found


def tested_numbers(text: str, name: str, since: datetime | None) -> dict[str, Reply]:
    """A witness's numbers, where it is one, and all of it was made when the other machine was off: one from before says
    nothing of what that machine answered then."""
    lines = [line.strip() for line in text.splitlines()]
    moments = moments_of([line for line in lines if line], name)
    named = [(SEAT.fullmatch(line), f"{name}, line {number}") for number, line in enumerate(lines, 1)]
    found = highest((seat[1], Reply(int(seat[2]), place)) for seat, place in named if seat)
    if not found:
        raise StandbyError(f"{name} has no line as `seat a1 17`.")
    oldest, newest = min(moments), max(moments)
    if since and oldest < since:
        made, told = f"{oldest:%Y-%m-%dT%H:%M:%SZ}", f"the other machine is off since {since:%Y-%m-%dT%H:%M:%SZ}"
        raise StandbyError(f"{name} was made at {made}, and {told} by this machine's clock: make it anew.")
    if newest > datetime.now(timezone.utc) + AHEAD:
        made = f"{newest:%Y-%m-%dT%H:%M:%SZ}"
        raise StandbyError(f"{name} was made at {made}, which is to come by this machine's clock: set both clocks.")
    return found


def owners_in(table: Path) -> dict[str, str]:
    """The PC of each seat, by a file that nobody but root may write; none where it isn't there."""
    try:
        found, folders = os.stat(table), tomllib.loads(table.read_bytes().decode())["folders"]
        owners = {seat: name for name, seats in folders.items() for seat in seats}
        if not all(isinstance(it, list) for it in folders.values()):
            raise TypeError
    except FileNotFoundError:
        return {}
    except (ValueError, KeyError, TypeError, AttributeError, RecursionError):
        raise StandbyError(f'{table} has no table [folders] of lines as `pc7 = ["a1", "a2"]`: mend it.') from None
    if found.st_uid != 0 or found.st_mode & 0o022:
        danger = "which says whose a part may be: chown root, chmod go-w."
        raise StandbyError(f"Others than root can write {table}, {danger}")
    return owners


def hold(replies: dict[str, Reply], owner: str, owners: dict[str, str], table: Path) -> None:
    """Refuses a line of a seat that isn't its part's: else a PC vouches for another one, whose part was forgotten."""
    if owner and owner not in owners.values():
        raise StandbyError(f"{table} has no folder {owner} with a seat: name a part by its PC's folder there.")
    for seat, reply in replies.items():
        theirs = owners.get(seat, "")
        if theirs != owner:
            told = f"{reply.place} is of the seat {seat}, which is {theirs or 'no PC'}'s by {table}"
            name = f"as {theirs}=FILE" if theirs else "without a name"
            raise StandbyError(f"{told}: leave it away where it is foreign, and give that seat's own part {name}.")


def highest_numbers(
    files: Iterable[str], commands: Iterable[str], since: datetime | None, table: Path = TABLE
) -> dict[str, Reply]:
    """The numbers of all witnesses together, the highest of each seat. One that can't be had is none, and where root's
    file says which seats are a PC's each part has these alone."""
    owners, replies = owners_in(table), list[dict[str, Reply]]()
    for word, call, form in [*((it, read_witness, "{}") for it in files), *((it, printed, "`{}`") for it in commands)]:
        owner, name = part_and_source(word)
        replies.append(tested_numbers(call(name), form.format(name), since))
        if owners:
            hold(replies[-1], owner, owners, table)
    if replies and not owners:
        print_told(f"{table} isn't there, or empty: nobody has looked whether each part has its own PC's seats alone.")
    return highest(pair for it in replies for pair in it.items())


def part_and_source(word: str) -> tuple[str, str]:
    """The PC of a part, which may be none, and its file or command."""
    found = NAMED.fullmatch(word)
    return (found[1], found[2]) if found else ("", word)


def printed(command: str) -> str:
    """What a witness's command prints."""
    ended = run_bounded([*BOUNDED, *shlex.split(command)])
    if ended.returncode:
        said = (ended.stderr or ended.stdout).strip()[:400].replace("\n", "; ")
        raise StandbyError(f"The witness `{command}` ended with status {ended.returncode}: {said}")
    return ended.stdout


def read_witness(name: str) -> str:
    try:
        text = sys.stdin.read(MOST + 1) if name == "-" else small_bytes(name, MOST).decode("ascii")
    except (OSError, UnicodeDecodeError) as error:
        raise StandbyError(f"The witness {name} can't be read: {error}.") from None
    if len(text) > MOST:
        raise StandbyError(f"The witness {name} has more than {MOST} bytes.")
    return text


def compare_numbers(store: dict[str, int], witness: dict[str, Reply]) -> None:
    """Refuses a store that is behind the witness, and a witness that lacks seats or replies which the store has. In
    `store` is each seat of the site file: one that asked for nothing here may have asked the other machine alone."""
    behind = [seat for seat in sorted(witness) if store.get(seat, 0) < witness[seat].number]
    if behind:
        told = ", ".join(f"{seat} has {store.get(seat, 0)} here, and {witness[seat]}" for seat in behind)
        raise StandbyError(
            f"This half is an older one: {told}. Served, it would issue what was issued since once more. Switch the "
            "other machine on again, which has the newer half. Where it is lost, go on by "
            f"{PAGES}/operate/second-machine.md, 'Where the newer half is lost'. "
            "A line of a seat in the part of another seat's PC is none: leave it away."
        )
    by_hand = "For a seat whose journal nobody has any more write a line by hand, with the number that is here: "
    unseen = [seat for seat in sorted(store) if seat not in witness]
    if unseen:
        told = ", ".join(f"`seat {seat} {store[seat]}`" for seat in unseen)
        raise StandbyError(
            f"No witness has the seats {', '.join(unseen)}, so nobody knows whether they are behind. Get the witness "
            f"of their stations. {by_hand}{told}."
        )
    # A station has one request under way at most: so a half that has two more than its journal isn't all there.
    short = [seat for seat in sorted(store) if store[seat] > witness[seat].number + 1]
    if short:
        told = ", ".join(f"{seat} has {store[seat]} here, and {witness[seat]}" for seat in short)
        lines = ", ".join(f"`seat {seat} {store[seat]}`" for seat in short)
        raise StandbyError(
            f"The witness lacks replies: {told}. So these journals aren't all there, or they are copies. Make it on "
            f"the stations' own PCs. {by_hand}{lines}."
        )
