"""Closes a site: nothing is under way, no token may more than look, and its books lie sealed in a folder of root's,
which the store's user reads.

The store's user has its copy opened and read; root takes the bytes of plain files out of that by descriptors, and text.
The folder gets its name, and the site its mark, SITE.closed.json, once all else is done: a run that was cut is begun
again by the same words.
"""

import argparse
import contextlib
import itertools
import json
import os
import shutil
from collections.abc import Iterator
from pathlib import Path
from typing import Any

from wanekupo.books.chain import PLANT, Chain
from wanekupo.books.lines import act_lines
from wanekupo.books.stamp import Service
from wanekupo.books.store import EMPTY_LOG, StoreCopy
from wanekupo.books.store_rows import Books, lines_of
from wanekupo.common.acts import FILE as ACTS
from wanekupo.common.errors import StationError
from wanekupo.common.files import make_file, small_bytes, sync, tested_folder
from wanekupo.common.moments import now_text
from wanekupo.common.sentences import sentence_of
from wanekupo.common.signing import digest_of_file, signer_of
from wanekupo.common.site_file import Site, digest_of, read_site
from wanekupo.common.store_user import LONGEST, StoreFolder, read_small
from wanekupo.common.token_file import (
    NAME, TokenError, Tokens, alone, current_minute, put, read, tokens_of, tokens_text,
)  # fmt: skip
from wanekupo.plant.site.apply import say, start_behind
from wanekupo.plant.site.place import Place, text_in
from wanekupo.plant.site.plan import PREPARED, read_plan
from wanekupo.plant.token import of_form
from wanekupo.seat.states import FINISHED, STATES

# How many devices that are under way are named; the most bytes of a row, and of what root had done.
NAMED, LONGEST_ROW, MOST_ACTS = 10_000, 1 << 20, 1 << 26
LIST, NUMBERS, SEALS = "SHA256SUMS", "closed.json", "seals"
FIRST_ROWS = f"{SEALS}/000001.rows"

COUNTS = {
    "orders": "SELECT customer, count(*) FROM orders GROUP BY 1",
    "serials": "SELECT customer, count(*) FROM given WHERE chip IS NOT NULL GROUP BY 1",
    "imported": "SELECT customer, count(*) FROM given WHERE chip IS NULL GROUP BY 1",
    "addresses": "SELECT d.customer, sum(o.macs) FROM device AS d JOIN orders AS o ON o.customer = d.customer "
    "AND o.name = d.ord WHERE d.serial IS NOT NULL GROUP BY 1",
}
UNDER_WAY = f"FROM device WHERE state NOT IN {FINISHED}"


# ---- what the store's user reads


def write_numbers(copy: Path, file: Path) -> None:
    """Writes the numbers of a store as JSON: those of each customer, and a line for each device that is under way."""
    with StoreCopy(copy) as store:
        books = Books(store)
        names = {*books.pools, *books.customers()}
        found: dict[str, dict[str, Any]] = {name: {**dict.fromkeys(COUNTS, 0), "devices": {}} for name in names}
        for what, sql in COUNTS.items():
            for customer, count in store.rows(sql):
                found[customer][what] = count
        for customer, state, count in store.rows("SELECT customer, state, count(*) FROM device GROUP BY 1, 2"):
            found[customer]["devices"][state] = count
        rows = store.rows(f"SELECT customer, chip, ord, state {UNDER_WAY} ORDER BY 1, 2 LIMIT {NAMED}")
        lines = ["the device {1} of {0}, order {2}, is {3}".format(*row) for row in rows]
        file.write_text(json.dumps({"customers": found, "under_way": lines}), encoding="ascii")


def write_rows(copy: Path, file: Path) -> None:
    """Writes the rows of a store, as a seal has them."""
    with StoreCopy(copy) as store, open(file, "xb") as out:
        out.writelines(f"{row}\n".encode("ascii") for row in lines_of(Books(store)))


def numbers_told(place: Place, copy: Path) -> dict[str, Any]:
    """The numbers of each customer, held to their form; an error that names each device that is under way."""
    file = copy.with_name("numbers.json")
    place.user.call(lambda: write_numbers(copy, file), seconds=LONGEST)
    told = read_small(Path(file.name), StoreFolder(file).handle)
    try:
        lines = [str(it) for it in json.loads(told)["under_way"]]
        found: dict[str, Any] = {}
        for name, it in json.loads(told)["customers"].items():
            states = {state: int(it["devices"][state]) for state in STATES if state in it["devices"]}
            found[of_form(NAME, name, "customer")] = {**{what: int(it[what]) for what in COUNTS}, "devices": states}
    except (ValueError, TypeError, LookupError, AttributeError, RecursionError):
        told_of = f"{place.user.name} gives no numbers of a copy of {place.db}: look who works as that user"
        raise TokenError(1, told_of) from None
    if lines:
        count = sum(n for it in found.values() for state, n in it["devices"].items() if state not in FINISHED)
        raise TokenError(1, "\n".join([*lines, f"{count} are under way: ship or scrap each. Nothing was closed"]))
    return found


# ---- the folder


def copy_out(source: StoreFolder, made: Path) -> None:
    """Both files of a copy of the store's user, by their descriptors, into root's folder."""
    if source.size("-wal") > EMPTY_LOG:
        raise TokenError(1, f"the log of {source.db} isn't joined with it: look at its disk")
    for ending in ("", "-wal"):
        handle = os.open(made / f"books.db{ending}", os.O_WRONLY | os.O_CREAT | os.O_EXCL, 0o600)
        with open(source.file(ending), "rb") as data, open(handle, "wb") as out:
            shutil.copyfileobj(data, out, 1 << 20)
            os.fsync(handle)


def rows_in(folder: StoreFolder) -> Iterator[str]:
    """The lines of the rows that the store's user wrote."""
    with open(folder.file(), encoding="ascii", newline="\n") as rows:
        for row in iter(lambda: rows.readline(LONGEST_ROW), ""):
            if not row.endswith("\n"):
                raise TokenError(1, f"a row of {folder.db} has no end: look who works as {folder.user.name}")
            yield row[:-1]


def fill_folder(args: argparse.Namespace, place: Place, copy: Path, numbers: dict[str, Any]) -> str:
    """The books, their seal, the numbers and the list of all in a new folder. Gives the numbers' text."""
    text, made, rows = text_in(place.site), begun_folder(args.folder), copy.with_name("closed.rows")
    made.mkdir(mode=0o700)
    copy_out(StoreFolder(copy), made)
    make_file(made / "site.toml", text)
    (made / SEALS).mkdir(mode=0o700)
    place.user.call(lambda: write_rows(copy, rows), seconds=4 * LONGEST)
    acts = act_lines(small_bytes(ACTS, MOST_ACTS)) if ACTS.exists() else iter(())
    lines = itertools.chain(acts, rows_in(StoreFolder(rows)))
    seal = Chain(made / SEALS).add(lines, now_text(), PLANT, args.signer, args.service)
    seats = sorted(own_seats(read_site(text, str(place.site)), known_seats(place)))
    told = {"at": seal.at, "customers": numbers, "folder": str(args.folder), "seal": seal.line(), "seats": seats}
    data = json.dumps({**told, "site_sha256": digest_of(text)}, indent=1, sort_keys=True) + "\n"
    make_file(made / NUMBERS, data)
    files = sorted(it for it in made.rglob("*") if it.is_file())
    listed = "".join(f"{digest_of_file(it)}  {it.relative_to(made)}\n" for it in files)
    make_file(made / LIST, listed)
    if args.signer:
        args.signer.sign(made / LIST, listed.encode())
    for it in (made, *made.rglob("*")):  # who reads what the store's user made isn't root
        os.chown(it, -1, place.user.group)
        it.chmod(0o750 if it.is_dir() else 0o640)
    sync(made)
    return data


# ---- tokens


def known_seats(place: Place) -> Tokens:
    text = read(place.tokens)
    return tokens_of(text, place.tokens) if text is not None else Tokens()


def own_seats(site: Site, tokens: Tokens) -> set[str]:
    """The seats of the tokens' file that are a site's, and its manager's name there."""
    managers = {name for name, it in tokens.seats.items() if it.is_manager() and digest_of(it.inner) == site.manager}
    return managers | {name for name in tokens.seats if name in site.seats()}


def end_tokens(args: argparse.Namespace, place: Place, seats: set[str]) -> None:
    """Ends each outer token of these seats that may more than look, and has nginx read that."""
    with alone(place.tokens, args.patience):
        tokens = known_seats(place)
        gone = [it for it in tokens.open_ones() if it.seat in seats and not it.looks]
        for it in gone:
            tokens.change(it, text="", ended=current_minute())
        if gone:
            put(place.tokens, tokens_text(tokens))
    done = place.ran(*place.token_words(), "write") if seats else None
    if done and done.returncode:
        raise TokenError(5, f"nginx doesn't know that tokens have ended, so nothing is closed: {done.stderr.strip()}")
    say(f"ended: {', '.join(it.token for it in gone) or 'no token more'}")


# ---- the command


def tell_closed(place: Place) -> None:
    """Says what a site is that is closed; a run that was cut behind its mark ends here."""
    found = json.loads(text_in(place.closed))
    folder = Path(found["folder"])
    if not folder.exists() and begun_folder(folder).exists():
        begun_folder(folder).rename(folder)
        sync(folder.parent)
    say(f"{place.site} was closed at {found['at']}; its books are in {folder}")
    for name, it in found["customers"].items():
        states = ", ".join(f"{count} {state}" for state, count in it["devices"].items()) or "no devices"
        counts = ", ".join(f"{it[what]} {what}" for what in COUNTS)
        say(f"{name}: {counts}; {states}")


def begun_folder(folder: Path) -> Path:
    """A folder's name until all of it is there."""
    return folder.with_name(f"{folder.name}.new")


def test_words(args: argparse.Namespace) -> None:
    """Makes of a command's words a folder that isn't there, in one of root's alone, and who signs and stamps."""
    args.folder = Path(args.folder).absolute()
    tested_folder(args.folder.parent)
    if os.path.lexists(args.folder):
        raise TokenError(1, f"{args.folder} is there already: name another one")
    if bool(args.tsa) != bool(args.tsa_ca):
        raise TokenError(1, "a time stamp lacks a word: --tsa URL with --tsa-ca FILE")
    args.signer, args.service = signer_of(args), Service(args.tsa, Path(args.tsa_ca)) if args.tsa else None


def close(args: argparse.Namespace, place: Place) -> None:
    with alone(place.plan, args.patience):
        if not place.closed.exists():
            if read_plan(place.plan).stage != PREPARED or place.next.exists():
                raise TokenError(1, "a growth is prepared or under way: end it by apply or drop first")
            try:
                test_words(args)
                put(place.closed, closed_up(args, place))
            except StationError as error:
                raise TokenError(1, sentence_of(error)) from error
        tell_closed(place)


def closed_up(args: argparse.Namespace, place: Place) -> str:
    """All steps that want a server that is stopped, which is started again then for those who look. Gives the mark's
    text: until the mark is there nothing is closed."""
    is_stopped, said = place.service(place.args.stop)
    try:
        if not is_stopped:
            raise TokenError(1, f"the server wasn't stopped: {said}")
        with contextlib.suppress(FileNotFoundError):
            shutil.rmtree(begun_folder(args.folder))  # of a run that was cut
        with place.copied(place.db, 2 * place.size()) as copy:  # and its rows
            if said := place.store_refusal(text_in(place.site), copy):
                raise TokenError(1, f"the program doesn't open a copy of the store: {said}")
            data = fill_folder(args, place, copy, numbers_told(place, copy))
        end_tokens(args, place, set(json.loads(data)["seats"]))
        return data
    finally:
        start_behind(place)
