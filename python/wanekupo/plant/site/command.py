"""Grows a site: makes tokens, writes the new text, says in words what it adds, tests it, and puts it in place.

    station-site add-customer bolt --issuer bolt-ca --pool 020000020000 65536 --seat b1
    station-site add-seat acme a5 a6 --holder 'line 5'
    station-site add-pool acme 020000030000 65536
    station-site add-issuer acme acme-2
    station-site apply                             what was prepared: stops, backs up, puts in place, starts, asks
    station-site drop                              gives up what was prepared
    station-site check FILE                        where a site or a map is wrong, and why, by the program
    station-site diff OLD NEW                      what NEW adds, in words; 1 where something goes
    station-site close FOLDER                      ends all work: seals the books, which lie in FOLDER then
    station-site successor NEW --suffix 2          the next site of a closed one, with the rest of its addresses

An `add` prepares: it writes the new text beside the site file, as site.next.toml, tests it, and stops nothing. It may
be given again, and others add to it. With `--apply` the steps of `apply` follow. Before `apply` all of it can be given
up by `drop`, which takes the seats that were made for it out of the tokens' file too: from then on nothing can be taken
back. A run that was cut is begun again by the same words, or by `apply`; no token is lost or made twice.

A new seat's inner token is in the tokens' file alone (station-token(8)). Its outer one is in a new file, SEAT.token of
the folder `--to`, made once the server knows the seat; a seat `health`, or any with --no-token, gets none. With
--other-site the site of each other store of the house is held against the new text. As root, with Python 3.11;
what is of the store is done as its user, and the program runs so. docs/operate/tokens-and-sites.md has the steps.

Statuses: 0 done; 1 refused, and nothing runs otherwise than before; 2 the words are wrong; 3 another run has the lock;
4 the server doesn't start, and which text the store holds is told; 5 it runs with the new text, and a token doesn't go
through yet: give the same words again.
"""

import argparse
import os
import re
import shlex
import signal
from pathlib import Path
from typing import Any

from wanekupo.common.process import end_tool
from wanekupo.plant.site.apply import Stopped, apply, is_up, say
from wanekupo.plant.site.closing import close, known_seats
from wanekupo.plant.site.growth import with_customer, with_items
from wanekupo.plant.site.place import Place, text_in
from wanekupo.plant.site.plan import PREPARED, GrowthPlan, SeatWish, drop_plan, keep_plan, read_plan
from wanekupo.plant.site.successor import successor
from wanekupo.plant.site.trials import checked, is_map, tested_growth, tested_others, tried_over_copy
from wanekupo.common.rooms import ROOMS
from wanekupo.common.signing import add_signer
from wanekupo.common.store_user import LONGEST, STOPS
from wanekupo.common.files import sync
from wanekupo.common.token_file import HEALTH, NAME, TokenError, alone, check_folder, put, tokens_text
from wanekupo.common.site_file import SiteCustomer, digest_of, read_site

NAMED = "station-site"


# ---- what is added


def named(name: str, what: str) -> str:
    if not re.fullmatch(NAME, name):
        raise TokenError(1, f"{name!r} is no name of a {what}: 1 to 32 of A-Z a-z 0-9 . _ -")
    return name


def pool_of(first: str, count: str) -> dict[str, Any]:
    """A pool as the site has it; whether its numbers are right is the test's to say."""
    if not re.fullmatch(r"[0-9a-f]{12}", first) or not re.fullmatch(r"[1-9]\d{0,7}", count):
        raise TokenError(1, f"{first} {count} is no pool: twelve lowercase hexadecimal digits, and a number from 1 on")
    return {"first": first, "count": int(count)}


def seat_of(place: Place, customer: str, name: str, is_trial: bool) -> dict[str, Any]:
    """A seat with the digest of its inner token, which station-token makes and keeps; of one that it has already, that
    of before. For a trial nothing is made: a digest stands in that no token has."""
    there = known_seats(place).seats.get(named(name, "seat"))
    if not there and is_trial:
        return {"name": name, "token": digest_of(f"no token of {name}")}
    if not there:
        done = place.ran(*place.token_words(), "--no-reload", "seat", name, "--customer", customer)
        if done.returncode:
            raise TokenError(1, done.stderr.strip())
        there = known_seats(place).seats[name]
    if there.customer != customer:
        raise TokenError(1, f"the seat {name} is {there.customer}'s in {place.tokens}")
    return {"name": name, "token": digest_of(there.inner)}


def add_wishes(args: argparse.Namespace, place: Place, plan: GrowthPlan) -> None:
    """Which of the new seats get an outer token, and where: in a file that isn't there yet."""
    there = read_site(text_in(place.site), str(place.site)).seats()
    known, made = known_seats(place).seats, {it.seat for it in plan.wishes if it.is_made}
    for seat in (it for it in args.seats if it not in there):
        file = Path(args.to).absolute() / f"{seat}.token"
        is_without = args.no_token or seat == HEALTH
        if not is_without and not file.parent.is_dir():
            raise TokenError(1, f"{file.parent} is no folder for the token of {seat}: --to FOLDER")
        if not is_without:
            check_folder(file.parent)
        if not is_without and os.path.lexists(file):
            raise TokenError(1, f"{file} is there already, and would be the file of a new token: --to FOLDER")
        is_made = seat in made or seat not in known
        plan.add(SeatWish(seat, args.customer, "" if is_without else str(file), args.holder, is_made))


def new_ones(there: SiteCustomer, kind: str, items: list[Any]) -> list[Any]:
    """Those that a customer doesn't have yet of what is to be added."""
    if kind == "issuer":
        return [it for it in items if it not in there.issuers]
    if kind == "pool":
        return [it for it in items if (int(it["first"], 16), it["count"]) not in there.pools]
    return [it for it in items if it["name"] not in there.seats]


def grown_text(args: argparse.Namespace, place: Place, text: str, is_trial: bool) -> str:
    """The text with what the words of a command ask for. What it has already stays once."""
    customer, title = named(args.customer, "customer"), str(place.next if place.next.exists() else place.site)
    issuers = [named(it, "issuer") for it in args.issuers]
    pools = [pool_of(*it) for it in args.pools]
    there = read_site(text, title).customers.get(customer)
    if not there and args.command != "add-customer":
        raise TokenError(1, f"{place.site} has no customer {customer}: add-customer makes one")
    seats = [seat_of(place, customer, it, is_trial) for it in args.seats if not there or it not in there.seats]
    if not there:
        parts = {"pool": pools, "seat": seats}
        made: dict[str, Any] = {"name": customer, "issuer": issuers}
        made |= {kind: items for kind, items in parts.items() if items}
        return with_customer(text, made, title)
    kinds: dict[str, list[Any]] = {"issuer": issuers, "pool": pools, "seat": seats}
    for kind, items in kinds.items():
        if more := new_ones(there, kind, items):
            text = with_items(text, customer, kind, more, title)
    return text


# ---- commands


def tested(place: Place, plan: GrowthPlan, text: str) -> list[str]:
    """What a new text adds, once it went through all tests but that over a backup."""
    old = text_in(place.site)
    gains = tested_growth(place, old, text, str(place.next))
    tested_others(place, text, plan.others)
    return gains


def refuse_closed(place: Place) -> None:
    """A closed site gets nothing more."""
    if place.closed.exists():
        told = f"`{NAMED} close` says what it had, `{NAMED} successor` begins the next one"
        raise TokenError(1, f"{place.site} is closed ({place.closed}): {told}")


def prepare(args: argparse.Namespace, place: Place) -> None:
    """The new text beside the old one, and what it adds."""
    plan = read_plan(place.plan)
    if plan.stage != PREPARED:
        raise TokenError(1, f"a growth is under way: finish it first, by `{NAMED} apply`")
    before = text_in(place.next if place.next.exists() else place.site)
    plan.others = sorted({*plan.others, *(str(Path(it).absolute()) for it in args.other_site)})
    trial = grown_text(args, place, before, is_trial=True)
    tested(place, plan, trial)
    plan.is_tried, over = tried_over_copy(place, text_in(place.site), trial)
    add_wishes(args, place, plan)
    text = grown_text(args, place, before, is_trial=False)
    gains = tested(place, plan, text)
    if text == text_in(place.site):
        say(f"{place.site} has all of it already; nothing is to be done")
        return
    keep_plan(place.plan, plan)
    put(place.next, text)
    tell(place, plan, gains, over)


def tell(place: Place, plan: GrowthPlan, gains: list[str], over: str) -> None:
    """What changes, and what was tried."""
    for gain in gains or ["the same site in other words"]:
        say(gain)
    say("nothing is taken away, and nothing of this can be taken back once it is applied")
    say(f"{place.next} is a site, and a growth of {place.site}; {over}")
    others = ", ".join(plan.others)
    say(f"no issuer, pool, seat, token or customer of it is in {others}" if others else
        "no other store's site was named (--other-site FILE), so none was looked at")  # fmt: skip


def look_again(args: argparse.Namespace, place: Place, plan: GrowthPlan) -> None:
    """The tests of what was prepared, as somebody may have changed it since. A seat that went is dropped."""
    text = text_in(place.next)
    plan.others = sorted({*plan.others, *(str(Path(it).absolute()) for it in args.other_site)})
    gains = tested(place, plan, text)
    plan.is_tried, over = tried_over_copy(place, text_in(place.site), text)
    tell(place, plan, gains, over)
    there = read_site(text, str(place.next)).seats()
    plan.wishes = [it for it in plan.wishes if it.seat in there]


def carry_out(place: Place) -> None:
    """The steps that stop and start the server."""
    apply(place, read_plan(place.plan))


def add(args: argparse.Namespace, place: Place) -> None:
    with alone(place.plan, args.patience):
        refuse_closed(place)
        if args.apply and read_plan(place.plan).stage != PREPARED:
            carry_out(place)
        prepare(args, place)
        if args.apply and place.next.exists():
            carry_out(place)
        elif place.next.exists():
            say(f"to put it in place: {shlex.join([NAMED, *own_words(args), 'apply'])}")


def apply_command(args: argparse.Namespace, place: Place) -> None:
    with alone(place.plan, args.patience):
        refuse_closed(place)
        plan = read_plan(place.plan)
        if plan.stage == PREPARED and not place.next.exists():
            say("nothing is prepared, and nothing is under way")
            drop_plan(place.plan)
            return
        if plan.stage == PREPARED:
            look_again(args, place, plan)
        apply(place, plan)


def drop(args: argparse.Namespace, place: Place) -> None:
    """Gives up what is prepared. The new text goes first: no `apply` puts seats in place whose tokens are gone."""
    with alone(place.plan, args.patience):
        plan = read_plan(place.plan)
        if plan.stage != PREPARED:
            raise TokenError(1, f"a growth is under way, and nothing of it can be taken back: `{NAMED} apply` ends it")
        if not is_up(place):  # as where another machine put the new text in front of the store
            raise TokenError(1, "the server doesn't run, so nobody sees that its store holds the old text: start it")
        there = read_site(text_in(place.site), str(place.site)).seats()
        place.next.unlink(missing_ok=True)
        sync(place.next.parent)
        drop_seats(args, place, {it.seat for it in plan.wishes if it.is_made and it.seat not in there})
        drop_plan(place.plan)
        say("nothing is prepared any more")


def drop_seats(args: argparse.Namespace, place: Place, made: set[str]) -> None:
    """Takes seats of no site out of the tokens' file, but those of which somebody got a token."""
    with alone(place.tokens, args.patience):
        tokens = known_seats(place)
        gone = [seat for seat in sorted(made) if seat in tokens.seats and not tokens.seats[seat].given]
        for seat in gone:
            del tokens.seats[seat]
        if gone:
            put(place.tokens, tokens_text(tokens))
            say(f"out of {place.tokens}: {', '.join(gone)}")


def check(args: argparse.Namespace, place: Place) -> None:
    """The faults of one file; what of a site is another store's too."""
    path = Path(args.file)
    if lines := checked(place, path):
        raise TokenError(1, "\n".join(lines))
    text = text_in(path)
    if args.other_site and not is_map(text):
        tested_others(place, text, args.other_site)
    say(f"{path} is a {'fuse map' if is_map(text) else 'site'}, says the program")


def diff(args: argparse.Namespace, place: Place) -> None:
    """What one text adds to another."""
    gains = tested_growth(place, text_in(Path(args.old)), text_in(Path(args.new)), args.new)
    for gain in gains or ["the same site in other words"]:
        say(gain)
    say("nothing is taken away")


COMMANDS = {"add-customer": add, "add-seat": add, "add-pool": add, "add-issuer": add, "apply": apply_command,
            "drop": drop, "check": check, "diff": diff, "close": close,
            "successor": successor}  # fmt: skip


# ---- words


def place_words(made: argparse.ArgumentParser) -> None:
    """Where a store is, and what serves it."""
    made.add_argument("--site", default="/etc/station/site.toml", help="the site file (%(default)s)")
    made.add_argument("--db", default="/var/lib/station/books.db", help="the store (%(default)s)")
    made.add_argument("--backups", default="/var/backups/station", help="the folder of its backups (%(default)s)")
    made.add_argument("--snapshot", default="", metavar="KIND",
                      help="where backups are encrypted: lvm, btrfs or zfs (as the last backup's)")  # fmt: skip
    made.add_argument("--room", default=str(ROOMS), metavar="FOLDER",
                      help="of root's, where a copy of the store is tried (%(default)s)")  # fmt: skip
    made.add_argument("--program", default="station", metavar="P", help="the program (%(default)s)")
    made.add_argument("--tokens", default="/etc/station/tokens.conf", metavar="FILE", help="(%(default)s)")
    made.add_argument("--token-words", default="", metavar="WORDS",
                      help="more words for station-token, as --token-words=--no-reload")  # fmt: skip
    made.add_argument("--stop", default="systemctl stop station", metavar="COMMAND", help="(%(default)s)")
    made.add_argument("--start", default="systemctl start station", metavar="COMMAND", help="(%(default)s)")
    made.add_argument("--restarts", default="systemctl show -p NRestarts --value station", metavar="COMMAND",
                      help="prints how often it was started again (%(default)s)")  # fmt: skip
    made.add_argument("--port", type=int, default=880, help="the server's (%(default)s)")
    made.add_argument("--nginx", default="https://127.0.0.1:8443", metavar="URL", help="(%(default)s); '' for none")
    made.add_argument("--certificate", default="/etc/station/cert.pem", metavar="FILE", help="nginx's (%(default)s)")
    made.add_argument("--wait", type=float, default=LONGEST, metavar="SECONDS", help="for a start (%(default)s)")
    made.add_argument("--patience", type=float, default=30, metavar="SECONDS", help="for another run (%(default)s)")


def own_words(args: argparse.Namespace) -> list[str]:
    """The words by which a store's place is another one than the package's."""
    made = argparse.ArgumentParser()
    place_words(made)
    usual = vars(made.parse_args([]))
    return [f"--{name.replace('_', '-')}={getattr(args, name)}" for name in usual if getattr(args, name) != usual[name]]


def parser() -> argparse.ArgumentParser:
    made = argparse.ArgumentParser(
        prog=NAMED, description=__doc__, formatter_class=argparse.RawDescriptionHelpFormatter, allow_abbrev=False
    )
    place_words(made)
    commands = made.add_subparsers(dest="command", required=True)
    under = {name: commands.add_parser(name, allow_abbrev=False) for name in COMMANDS}
    adding = [name for name in COMMANDS if name.startswith("add-")]
    for name in adding:
        under[name].add_argument("customer")
        under[name].add_argument("--apply", action="store_true", help="the steps of `apply` follow")
        under[name].set_defaults(seats=[], pools=[], issuers=[], holder="", to=".", no_token=False)
    under["add-customer"].add_argument("--issuer", dest="issuers", action="append", metavar="NAME")
    under["add-customer"].add_argument("--pool", dest="pools", nargs=2, action="append", metavar=("FIRST", "COUNT"))
    under["add-customer"].add_argument("--seat", dest="seats", action="append", metavar="NAME")
    under["add-seat"].add_argument("seats", nargs="+", metavar="seat")
    for name in ("first", "count"):
        under["add-pool"].add_argument(name)
    under["add-issuer"].add_argument("issuers", nargs="+", metavar="issuer")
    for name in ("add-customer", "add-seat"):
        under[name].add_argument("--holder", default="", metavar="TEXT", help="who gets the token, for its list")
        under[name].add_argument("--to", default=".", metavar="FOLDER", help="where SEAT.token is made (here)")
        under[name].add_argument("--no-token", action="store_true", help="no outer tokens for these seats")
    under["successor"].add_argument("new", help="the new site file")
    said = "comes with a - behind the names of customers, seats and issuers"
    under["successor"].add_argument("--suffix", required=True, type=lambda it: f"-{it}", help=said)
    under["successor"].add_argument("--keep-issuers", action="store_true", help="the issuers' names stay as they are")
    under["successor"].add_argument("--server", default="127.0.0.1:881", help="where its program will be (%(default)s)")
    under["successor"].add_argument("--to", default=".", metavar="FOLDER", help="where SEAT.token is made (here)")
    for name in (*adding, "apply", "check", "successor"):
        under[name].add_argument("--other-site", action="append", default=[], metavar="FILE", help="another store's")
    under["check"].add_argument("file")
    under["close"].add_argument("folder", help="a new folder, in one of root's, for the closed books")
    under["close"].add_argument("--tsa", metavar="URL", help="have the seal time-stamped by this service (RFC 3161)")
    under["close"].add_argument("--tsa-ca", metavar="FILE", help="the certificates by which its stamps are verified")
    add_signer(under["close"])
    under["diff"].add_argument("old")
    under["diff"].add_argument("new")
    return made


def stopped(number: int, _: object) -> None:
    """A signal ends a run as an error does, and a second one what that waits for. The server is started then."""
    raise Stopped(number)


def main() -> int:
    args = parser().parse_args()
    if args.command == "add-pool":
        args.pools = [(args.first, args.count)]
    for number in STOPS:
        signal.signal(number, stopped)
    os.umask(0o077)
    return end_tool(NAMED, lambda: COMMANDS[args.command](args, Place(args)))
