"""Tests of a new text before anything is stopped: as a site, as a growth, over a backup's copy, beside other stores.

The program says what holds, and where a site is wrong.
"""

import re
from pathlib import Path

from wanekupo.plant.trial_copy import Backup
from wanekupo.common.site_file import Site, read_site
from wanekupo.common.store_user import UserError
from wanekupo.common.token_file import TokenError

from wanekupo.plant.site.difference import gains, joined, shared
from wanekupo.plant.site.faults import Fault, read
from wanekupo.plant.site.map_faults import map_faults
from wanekupo.plant.site.place import Place, text_in

CUSTOMERS = 64


def number_of(said: str) -> int:
    """The number of a fault in the program's line, or 0 where it told another thing or nothing."""
    found = re.search(r"(?:site|map|store) fault (\d+)", said)
    return int(found[1]) if found else 0


def is_map(text: str) -> bool:
    """Whether a text means to be a fuse map: it has a member that only maps have, and none that only sites have."""
    has_member = r"^[ \t]*(?:\[\[?[ \t]*)?(?:%s)\b"
    is_site = re.search(has_member % "customer|manager", text, re.MULTILINE)
    return not is_site and bool(re.search(has_member % "wr|rd|coding|field|block", text, re.MULTILINE))


def checked(place: Place, path: Path) -> list[str]:
    """Why the program takes the text of a file for no site, or for no map, a line each, its own line last."""
    text = text_in(path)
    said = place.refusal("check-map" if is_map(text) else "check-site", text)
    found = faults_behind(text, number_of(said)) if said else []
    lines = [f"{path}:{it.line}: {it.member}: {it.cause} (fault {it.number})" for it in found]
    return [*lines, f"{path}: {said}"] if said else []


def faults_behind(text: str, number: int) -> list[Fault]:
    """The places behind a number of which the program names none: the line of what is no TOML, and a map's faults. Of
    a map of TOML 1.1 it is the line alone that isn't 1.0."""
    if is_map(text):
        found = map_faults(text)
        return found if found and found[0].number in (1, number) else []
    no_toml = read(text) if number == 1 else None
    return [no_toml] if isinstance(no_toml, Fault) else []


def tested_site(place: Place, text: str, title: str) -> Site:
    """What a text gives, once the program takes it as a site."""
    if said := place.refusal("check-site", text):
        raise TokenError(1, f"{title}: {said}")
    return read_site(text, title)


def tested_growth(place: Place, old: str, new: str, title: str) -> list[str]:
    """What a text adds to another one, in words; an error where the program says that it is no growth of that."""
    before = tested_site(place, old, "the text of before")
    if said := place.refusal("check-site", new, old):
        told = "\nnothing of a site can be taken away" if "store fault 1" in said else ""
        raise TokenError(1, f"{title}: {said}{told}")
    return gains(before, read_site(new, title))


def tried_over_copy(place: Place, old: str, new: str) -> tuple[bool, str]:
    """Whether a growth was tried over a copy of the store, and what was tried, in words. The copy is that of the newest
    backup; where that one is encrypted, its key is elsewhere, and the copy is of the store as it is now."""
    backup = place.newest_backup()
    if not backup:
        return False, untried(f"no backup is in {place.backups}")
    if not backup.is_encrypted:
        tried_over_backup(place, backup, old, new)
        return True, f"a copy of the backup {backup.path.name} took it"
    try:
        with place.copied_running() as copy:
            try_over(place, copy, old, new, "a copy of the store as it is now")
    except UserError as error:
        told = f"the newest backup, {backup.path.name}, is encrypted"
        return False, untried(f"{told}, and the store can't be copied ({error})")
    return True, "a copy of the store as it is now took it, as the newest backup is encrypted"


def untried(why: str) -> str:
    """What is told where there is no copy to try a growth over."""
    return f"{why}, so it wasn't tried over a copy of the store: `apply` does so over the backup that it makes"


def tried_over_backup(place: Place, backup: Backup, old: str, new: str) -> None:
    with place.copied(backup.path / "books.db", backup.size) as copy:
        try_over(place, copy, old, new, f"a copy of the backup {backup.path}")


def try_over(place: Place, copy: Path, old: str, new: str, what: str) -> None:
    """Opens a copy with the text of now and then with the new one; an error where the program refuses one."""
    for text, title in ((old, place.site), (new, place.next)):
        if said := place.store_refusal(text, copy):
            raise TokenError(1, f"{title}: {what} refuses it: {said}")


def tested_others(place: Place, new: str, others: list[str]) -> None:
    """Whether another store of the house shares something with the new text, which no program would see."""
    given = read_site(new, str(place.next))
    for name in others:
        other = tested_site(place, text_in(Path(name)), name)
        if found := shared(given, other):
            raise TokenError(1, "\n".join(f"{name} has it too: {it}" for it in found))
        if len(given.customers) + len(other.customers) <= CUSTOMERS:
            tested_site(place, joined([given, other]), f"{name} and the new text, joined")
