"""The file of outer tokens: an include of nginx, whose comments beginning with `#:` are what it is made of.

Each such line is one JSON object, of a seat or of an outer token; all else is made of these, so a file that somebody
else changed is told. A file that is replaced is written anew beside it, synced, and takes the name.
"""

import hashlib
import json
import os
import re
import stat
import time
from collections.abc import Iterator
from contextlib import contextmanager
from dataclasses import asdict, dataclass, field, replace
from pathlib import Path
from typing import Optional

from wanekupo.common.errors import PlantError, UnsafeFile
from wanekupo.common.store_user import UserError, opened
from wanekupo.common.files import hold_lock, own_path, replace_file, small_bytes, sync

HEAD = """# The outer tokens, the inner ones behind them, and what nginx makes of both. It has the tokens: root's alone.
# station-token(8) writes this file, and takes none that was changed by hand.
"""

# What stands in front of an outer token's 64 digits, so that one that is found somewhere is known for one.
PREFIX = "wanekupo_"

# The seat that stands for a site's manager, and the one that /health asks with. The managers of other sites have other
# names with an @, which no seat can have.
MANAGER, HEALTH = "@manager", "health"

# The last minute of a day, behind the day.
LAST = "T23:59"

# A time as nginx begins it: YYYY-MM-DDTHH:MM, by the machine's clock and time zone.
MINUTE = "%Y-%m-%dT%H:%M"

# The forms of what a record has: nothing else of it may reach nginx's file.
NAME = r"[A-Za-z0-9._-]{1,32}"
SERVER = r"[a-z][a-z0-9_]{0,31}|127\.0\.0\.1:[1-9][0-9]{0,4}"
SUBJECT = r"[A-Za-z0-9 ._@:/=,+'()-]{3,400}"
MOST_INNER = 4096  # bytes of a file with one
INNER = r"[!#%-\[\]-~]{1,1024}"
HOLDER = r"[ -~]{0,80}"
TIME = r"[0-9]{4}-[0-9]{2}-[0-9]{2}T[0-9]{2}:[0-9]{2}"
FORMS = {
    "seat": f"@?{NAME}", "customer": f"@?{NAME}", "inner": INNER, "server": SERVER, "given": "[0-9]{1,9}",
    "token": f"@?{NAME}:[0-9]{{1,9}}", "number": "[1-9][0-9]{0,8}", "looks": "True|False", "mark": "[0-9a-f]{12}",
    "since": TIME, "text": f"(?:{PREFIX}[0-9a-f]{{64}})?", "subject": f"(?:{SUBJECT})?", "until": f"(?:{TIME})?",
    "holder": HOLDER, "ended": f"(?:{TIME})?",
}  # fmt: skip
KINDS = {"given": int, "number": int, "looks": bool}


class TokenError(PlantError):
    """What can't be done; the status with which `token` ends, and a sentence."""

    def __init__(self, status: int, text: str):
        self.status = status
        super().__init__(text)


@dataclass(frozen=True)
class TokenSeat:
    """A seat of a site file, with its inner token, and the address of its server, or the name of nginx's upstream."""

    seat: str
    customer: str
    inner: str
    server: str = "station"
    given: int = 0

    def title(self) -> str:
        """What it is called in a sentence."""
        return f"the manager's seat {self.seat}" if self.is_manager() else f"the seat {self.seat} of {self.customer}"

    def is_manager(self) -> bool:
        return self.seat.startswith("@")


@dataclass(frozen=True)
class Outer:
    """An outer token of a seat, or a certificate's subject. One that has ended keeps no text, and its mark."""

    token: str
    number: int
    seat: str
    looks: bool
    mark: str
    since: str
    text: str = ""
    subject: str = ""
    until: str = ""
    holder: str = ""
    ended: str = ""


@dataclass
class Tokens:
    seats: dict[str, TokenSeat] = field(default_factory=dict)
    outers: list[Outer] = field(default_factory=list)

    def open_ones(self) -> list[Outer]:
        """Those that nginx takes now or will refuse by itself once their time is past."""
        return [it for it in self.outers if not it.ended]

    def add(self, outer: Outer) -> None:
        seat = self.seats[outer.seat]
        self.seats[outer.seat] = replace(seat, given=seat.given + 1)
        self.outers.append(outer)

    def change(self, outer: Outer, **members: str) -> None:
        self.outers[self.outers.index(outer)] = replace(outer, **members)


def current_minute() -> str:
    return time.strftime(MINUTE)


def mark_of(text: str) -> str:
    """What an outer token is known by where it may not be shown: the beginning of its SHA-256."""
    return hashlib.sha256(text.encode()).hexdigest()[:12]


def is_past(until: str) -> bool:
    """Whether a token's last minute, where it has one, is past."""
    return "" < until < current_minute()


def living(tokens: Tokens) -> list[str]:
    """The outer tokens that nginx takes now, a line each: name, mark, what it may, and its last minute."""
    rows = [it for it in tokens.open_ones() if not is_past(it.until)]
    return sorted(f"{it.token} {it.mark} {'look' if it.looks else 'all'} {it.until or '-'}" for it in rows)


def later_minute(minute: str) -> str:
    """A regular expression for what begins with a later minute: at some digit a greater one, and before it the same."""
    places = [place for place, char in enumerate(minute) if char.isdigit() and char != "9"]
    return "^(?:" + "|".join(f"{minute[:place]}[{int(minute[place]) + 1}-9]" for place in places) + ")"


def _map(source: str, name: str, rows: list[str], default: str = "") -> str:
    lines = [f"map {source} {name} {{", f'    default "{default}";'] + [f"    {row};" for row in rows]
    return "\n".join([*lines, "}", ""])


def _by_number(name: str, rows: list[tuple[int, str]]) -> str:
    """A map of numbers to texts; where a text is empty there is no row."""
    return _map("$caller", name, [f'{number} "{text}"' for number, text in rows if text])


def _test_form(record: dict[str, object]) -> None:
    """Refuses a record of which a member has another form: as a file may have it that somebody handed over."""
    for name, value in record.items():
        if type(value) is not KINDS.get(name, str) or not re.fullmatch(FORMS[name], str(value)):
            raise TokenError(1, f"a record of the tokens' file has another form than station-token writes: its {name}")


def tokens_text(tokens: Tokens) -> str:
    """The file. Each member of its records is held to its form, whether they were read or are written."""
    records = [asdict(it) for it in tokens.seats.values()] + [asdict(it) for it in tokens.outers]
    for record in records:
        _test_form(record)
    lines = "".join("#: " + json.dumps(record, separators=(",", ":")) + "\n" for record in records)
    outers = tokens.open_ones()
    seat_of = {it.number: tokens.seats[it.seat] for it in outers}
    ends = sorted({it.until for it in outers if it.until})
    health = tokens.seats.get(HEALTH)
    variable = {until: "$open_until_" + re.sub(r"\D", "", until) for until in ends}
    parts = [_map("$time_iso8601", variable[it], [f'"~{later_minute(it)}" ""'], "1") for it in ends]
    parts += [
        _map("$shown", "$number_by_token", [f'"{it.text}" {it.number}' for it in outers if it.text]),
        _map('"$ssl_client_verify $ssl_client_s_dn"', "$number_by_certificate",
             [rf'"~^SUCCESS \Q{it.subject}\E\z" {it.number}' for it in outers if it.subject]),
        _by_number("$caller_open", [(it.number, variable.get(it.until, "1")) for it in outers]),
        _map("$caller", "$caller_name", [f'{it.number} "{it.token}"' for it in outers], "-"),
        _by_number("$caller_looks", [(it.number, "1" if it.looks else "") for it in outers]),
        _by_number("$caller_customer", [(number, seat.customer) for number, seat in seat_of.items()]),
        _by_number("$caller_server", [(number, seat.server) for number, seat in seat_of.items()]),
        _by_number("$caller_inner", [(number, seat.inner) for number, seat in seat_of.items()]),
        _map("$caller", "$health_authorization", [], f"Bearer {health.inner}" if health else ""),
    ]  # fmt: skip
    return HEAD + lines + "\n" + "\n".join(parts)


def tokens_of(text: str, path: Path, is_anew: bool = False) -> Tokens:
    """What a file is made of. All else that it has must be what is made of that, unless it is to be made anew."""
    tokens = Tokens()
    try:
        for line in re.findall(r"^#: (.*)$", text, re.MULTILINE):
            record = json.loads(line)
            if "number" in record:
                tokens.outers.append(Outer(**record))
            else:
                tokens.seats[record["seat"]] = TokenSeat(**record)
        same = tokens_text(tokens) == text
    except (ValueError, TypeError, KeyError, AttributeError, RecursionError) as error:
        raise TokenError(1, f"{path} isn't what token writes: {error}") from None
    if not same and not is_anew:
        raise TokenError(1, f"{path} was changed by hand, or is of another version: `write` makes it anew")
    return tokens


def _check_owner(path: Path) -> None:
    """Whoever may write a file or its folder may be every caller."""
    there = os.lstat(path)
    if stat.S_ISLNK(there.st_mode):
        raise TokenError(1, f"{path} is a link")
    if os.geteuid() != there.st_uid == 0:
        raise TokenError(1, f"{path} is root's: do this as root")
    if there.st_uid != os.geteuid() or stat.S_IMODE(there.st_mode) & 0o022:
        raise TokenError(1, f"{path} belongs to somebody else, or others may write it")


def read(path: Path) -> Optional[str]:
    """The text of the file, or None where there is none."""
    if not path.exists():
        return None
    _check_owner(path)
    if stat.S_IMODE(path.stat().st_mode) & 0o077:
        raise TokenError(1, f"{path} may be read by others: its tokens are known; chmod 600, and rotate each")
    return path.read_text(encoding="ascii")


def put(path: Path, text: Optional[str]) -> None:
    """Puts a text in the file's place, whole or not at all; None takes the file away."""
    if text is None:
        path.unlink()
        sync(path.parent)
    else:
        replace_file(path, text)


def check_folder(folder: Path) -> None:
    """Refuses a folder in whose place another user can put another one, and one of which he can take a new file. So
    /tmp is none of these, as it is root's and sticky."""
    try:
        handle = opened(folder)
    except UserError as error:
        raise TokenError(1, str(error)) from None
    try:
        there = os.fstat(handle)
    finally:
        os.close(handle)
    is_shared = there.st_mode & 0o022 and not there.st_mode & stat.S_ISVTX
    if there.st_uid not in (0, os.geteuid()) or is_shared:
        raise TokenError(1, f"{folder} is another user's, or others may write it: name a folder of your own")


def own_file(file: str) -> Path:
    """Where a file is that root reads and puts anew: his own, in a folder where nobody else puts another one."""
    try:
        path = own_path(file)
    except UnsafeFile as error:
        raise TokenError(1, str(error)) from None
    check_folder(path.parent)
    _check_owner(path)
    return path


@contextmanager
def alone(path: Path, patience: float) -> Iterator[None]:
    """One run at a time, in a folder that nobody else may write: the next one waits, for so many seconds."""
    _check_owner(path.parent)
    check_folder(path.parent)
    lock = path.with_name(path.name + ".lock")
    with hold_lock(lock, TokenError(3, f"another run has {lock}: nothing was changed"), patience):
        yield


def inner_of(file: str) -> str:
    """The token of a file, as a station keeps it."""
    text = small_bytes(file, MOST_INNER).decode("ascii").strip()
    if not re.fullmatch(INNER, text):
        raise TokenError(1, f'{file}: a token is visible ASCII, here without ", $ and \\')
    return text
