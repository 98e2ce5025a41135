"""What a station's program has to know: where the server is, and which files are whose.

The command line wins over the environment, that over `~/.config/wanekupo.toml`, and that over
`/etc/wanekupo/client.toml`; a file that `--config` names stands in the place of both. `tomllib` of Python 3.11 reads
the files, so that no parser of our own does.
"""

import os
import re
import ssl
import stat
import tomllib
from dataclasses import dataclass, fields, replace
from pathlib import Path
from typing import Any, Callable, Mapping, Optional, Sequence

from wanekupo.common.errors import BadSettings
from wanekupo.seat.journal import Journal
from wanekupo.seat.profiles import PLAIN, Profile, profile_of
from wanekupo.seat.station import Station

FILES = (Path("~/.config/wanekupo.toml"), Path("/etc/wanekupo/client.toml"))

# How a variable of the environment begins, behind which stands the name of a setting in capitals.
PREFIX = "WANEKUPO_"

# A name as the server's own are: the seat's stands in the names of files.
NAME = re.compile(r"[A-Za-z0-9._-]{0,32}")

TRUTHS = {"1": True, "true": True, "yes": True, "0": False, "false": False, "no": False}


@dataclass(frozen=True)
class Settings:
    """`journal` is a file, or a folder that has a file a day; `spool` the folder that keeps the requests for
    certificates, and `profile` what these may be; `seat` and `operator` are the names that each line of the journal
    has."""

    url: str = "http://127.0.0.1:8080"
    token: Optional[Path] = None
    state: Optional[Path] = None
    journal: Optional[Path] = None
    ca: Optional[Path] = None
    insecure: bool = False
    patience: float = 120.0
    seat: str = ""
    operator: str = ""
    spool: Optional[Path] = None
    profile: Profile = PLAIN


# What a setting's value may be, and how it is read. A path counts from the folder of the file that has it.


def _path(given: Any, folder: Path) -> Path:
    if not isinstance(given, (str, Path)) or not str(given):
        raise ValueError("is the name of a file, in quotes")
    path = folder / os.path.expanduser(given)
    if str(given).endswith("/") and not path.is_dir():
        raise ValueError("names a folder, by the / at its end, that isn't there: make it first")
    return path


def _text(given: Any, _: Path) -> str:
    if not isinstance(given, str) or not given.isprintable():
        raise ValueError("is a text in one line, in quotes")
    return given


def _name(given: Any, folder: Path) -> str:
    name = _text(given, folder)
    if not NAME.fullmatch(name):
        raise ValueError("has 32 letters, digits, dots, low lines and hyphens at most")
    return name


def _truth(given: Any, _: Path) -> bool:
    found = TRUTHS.get(str(given).lower())
    if found is None:
        raise ValueError("is true or false")
    return found


def _seconds(given: Any, _: Path) -> float:
    try:
        found = -1.0 if isinstance(given, bool) else float(given)
    except (TypeError, ValueError):
        found = -1.0
    if not 0 <= found < float("inf"):
        raise ValueError("is a number of seconds")
    return found


READERS: dict[str, Callable[[Any, Path], Any]] = {
    "url": _text, "token": _path, "state": _path, "journal": _path, "ca": _path, "insecure": _truth,
    "patience": _seconds, "seat": _name, "operator": _text, "spool": _path,
    "profile": lambda given, folder: profile_of(_text(given, folder)),
}  # fmt: skip


def changed(settings: Settings, table: Mapping[str, Any], folder: Path, where: str) -> Settings:
    """The settings with those of a table, which is told as `where`; as of a file, or of a recipe's [server]."""
    values = {}
    for name, given in table.items():
        if name not in READERS:
            names = ", ".join(it.name for it in fields(Settings))
            raise BadSettings(f"{where} has {name!r}, which is no setting", f"The settings are {names}.")
        try:
            values[name] = READERS[name](given, folder)
        except ValueError as error:
            raise BadSettings(f"{where} has a {name} that can't be used", f"The setting {name} {error}.") from error
    return replace(settings, **values)


def settings_of(arguments: Mapping[str, Any], environment: Mapping[str, str], files: Sequence[Path]) -> Settings:
    """The settings by the words of the command line, of which those that are None weren't given, by the environment,
    and by files, of which the first wins. A file that isn't there is passed over, but for the one that `config` names:
    that one alone counts."""
    named = arguments.get("config")
    settings = Settings()
    for file in [Path(named)] if named else [Path(os.path.expanduser(it)) for it in reversed(files)]:
        table = _table_of(file, is_needed=bool(named))
        settings = changed(settings, table, file.absolute().parent, str(file))
    here = Path()
    for name in READERS:
        variable = PREFIX + name.upper()
        if environment.get(variable):
            settings = changed(settings, {name: environment[variable]}, here, f"the environment, in {variable},")
    given = {name: arguments[name] for name in READERS if arguments.get(name) is not None}
    return changed(settings, given, here, "the command line")


def _table_of(file: Path, is_needed: bool) -> dict[str, Any]:
    """What a file of settings has. One that others can write could send the token anywhere."""
    try:
        with open(file, "rb") as source:
            found = os.fstat(source.fileno())
            data = source.read()
    except FileNotFoundError:
        if is_needed:
            raise BadSettings(f"there is no configuration file {file}", "Look at its name.") from None
        return {}
    if os.name == "posix" and (found.st_uid not in (os.geteuid(), 0) or found.st_mode & (stat.S_IWGRP | stat.S_IWOTH)):
        told = "Look whether it is as it was, then give it to yourself or root, and chmod go-w it."
        raise BadSettings(f"other users can write the configuration file {file}", told)
    try:
        return tomllib.loads(data.decode("utf-8"))
    except (ValueError, RecursionError) as error:
        raise BadSettings(f"{file} is no TOML: {error}", "Mend that line.") from error


# What is made of settings.


def token_of(settings: Settings) -> str:
    """The token, of its file."""
    if settings.token is None:
        raise BadSettings("no token is named", "Give --token FILE, or have a line token = .. in wanekupo.toml.")
    try:
        _tested_token(settings.token)
        return settings.token.read_text(encoding="ascii").strip()
    except FileNotFoundError:
        raise BadSettings(f"there is no token file {settings.token}", "Look at its name.") from None
    except ValueError:
        raise BadSettings(f"{settings.token} is no token file", "It has the token alone, in visible ASCII.") from None


def _tested_token(file: Path) -> None:
    """Whether strangers can't read or change it. A group may read it, as that of a service."""
    found = file.stat().st_mode
    if os.name == "posix" and stat.S_ISREG(found) and found & (stat.S_IRWXO | stat.S_IWGRP):
        told = "If others use this machine, have the token ended, and take another one of the same seat."
        raise BadSettings(f"others may read or write the token {file}", f"Type chmod 600 {file}. {told}")


def context_of(settings: Settings) -> Optional[ssl.SSLContext]:
    if settings.ca is None:
        return None
    try:
        return ssl.create_default_context(cafile=str(settings.ca))
    except ssl.SSLError:
        raise BadSettings(f"{settings.ca} has no certificates", "It has those to trust, as PEM.") from None


def station_of(settings: Settings, **options: Any) -> Station:
    """The seat of these settings, with its journal; to close it closes both. Options are those of `Station`."""
    token, context = token_of(settings), context_of(settings)
    journal = Journal(settings.journal, settings.seat, settings.operator) if settings.journal else None
    usual: dict[str, Any] = {"patience": settings.patience, "context": context, "insecure": settings.insecure}
    usual["journal"] = journal
    try:
        return Station(settings.url, token, settings.state, closes_journal=True, **{**usual, **options})
    except BaseException:
        if journal:
            journal.close()
        raise


def looking_station_of(settings: Settings, **options: Any) -> Station:
    """The same for who only looks: it has neither a state file nor a journal."""
    return station_of(replace(settings, state=None, journal=None), **options)
