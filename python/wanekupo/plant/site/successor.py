"""The site that follows a closed one: the same customers under other names, seats with new tokens, and of each pool
what no order of the first reached, by the first program's own replies, which have to be what its seal has. Begun again
by the same words it goes on."""

import argparse
import json
import os
from dataclasses import replace
from pathlib import Path

from wanekupo.books.documents import SealBooks
from wanekupo.common.errors import StationError
from wanekupo.common.files import replace_file
from wanekupo.common.sentences import sentence_of
from wanekupo.common.site_file import Pool, Site, SiteCustomer, digest_of, read_site
from wanekupo.common.token_file import HEALTH, TokenError, Tokens, TokenSeat, alone, check_folder, own_file, put
from wanekupo.plant.site.apply import outer_token, say, token_run
from wanekupo.plant.site.closing import FIRST_ROWS, known_seats
from wanekupo.plant.site.difference import gains, joined
from wanekupo.plant.site.growth import lines_of
from wanekupo.plant.site.place import Place, text_in
from wanekupo.plant.site.plan import SeatWish
from wanekupo.plant.site.trials import tested_others, tested_site
from wanekupo.seat import listings
from wanekupo.seat.station import Station

# What a person does with the new text: the store, its program, the stations and the CA.
STEPS = """{new} is a site, and shares nothing with the others. Then, in this order:
1. its store, its program and its backups, in a bash of root's; and its /health in nginx.conf, at {server}:
{units}
2. at each station the new token, seat, state file and journal; the maps again, and new orders there alone
3. the next issuer is a line more of the file `issuer` of each CA's folder: {issuers}
4. from now on --other-site {spent}, in the place of {old}: it has but what the first gave
5. whoever holds both stores' seals apart, each night too (HOW of wanekupo-apart): wanekupo apart FOLDER.. {same}"""
KEPT = "6. before the first order `wanekupo import` of all serial numbers that the first gave"

# The next store's units are those of the closed one's, with other names; its store is made once.
UNITS = r"""    next='s,{db},&{more},g; s,{backups},&{more},g; s,{old},{new},g; s,--port {port},--port {server},
    s,^\(StateDirectory\|SyslogIdentifier\)={unit},&{more},; s, {unit}\.service, {unit}{more}.service,'
    cd /etc/systemd/system; systemctl cat {unit} | sed "$next" > {unit}{more}.service
    systemctl cat {unit}-backup | sed "$next" > {unit}{more}-backup.service
    systemctl cat {unit}-backup.timer > {unit}{more}-backup.timer
    printf 'R! {backups}{more}/%s\n' '.new-*' 'trial.*' 'tried-by-site.*' > /etc/tmpfiles.d/{unit}{more}.conf
    install -d -m 700 -o station -g station {db}{more} {backups}{more}; . /usr/share/wanekupo/by-hand.sh
    as_station station replay --site {new} --db {db}{more}/{file}
    systemctl daemon-reload; systemctl enable --now {unit}{more} {unit}{more}-backup.timer
    # and to grow it: station-site --site {new} --db {db}{more}/{file} --backups {backups}{more} --port {server} \
    #   --start 'systemctl start {unit}{more}' --stop 'systemctl stop {unit}{more}' \
    #   --restarts 'systemctl show -p NRestarts --value {unit}{more}' add-seat .."""


def reached(place: Place, customer: SiteCustomer, tokens: Tokens, sealed: SealBooks) -> list[Pool]:
    """The addresses of each order of a customer, by the replies of the closed site's program."""
    seat = next((it for name, it in tokens.seats.items() if name in customer.seats), None)
    if seat is None:
        told = f"`station-token seat NAME --known FILE` takes one over, by which {customer.name}'s orders are asked for"
        raise TokenError(1, f"no seat of {customer.name} is in {place.tokens}: {told}")
    try:
        with Station(f"http://127.0.0.1:{place.args.port}", seat.inner, None, patience=place.args.wait) as station:
            orders = list(listings.orders(station))
            if orders != sealed.orders(customer.name):
                told = f"somebody orders still. Remove {place.closed}, and close it anew"
                raise TokenError(1, f"{customer.name} has other orders than {sealed.file}: {told}")
    except StationError as error:
        told = f"the closed site has to run, as its program says what it gave: {sentence_of(error)}"
        raise TokenError(1, told) from None
    return [(int(it["mac"], 16), it["quantity"] * it["macs"]) for it in orders if it["mac"] is not None]


def cut(pool: Pool, orders: list[Pool]) -> int:
    """How many addresses of a pool lie up to the last one that an order reached: each lies in one pool."""
    first, count = pool
    return max([0, *(begin + many - first for begin, many in orders if first <= begin < first + count)])


def sites_of(args: argparse.Namespace, place: Place, first: Site) -> tuple[Site, Site]:
    """What the first gave, as a site, and what the next one has: without digests of tokens."""
    spent, following, tokens = Site(), Site(), known_seats(place)
    sealed = SealBooks(Path(json.loads(text_in(place.closed))["folder"], FIRST_ROWS))
    for it in first.customers.values():
        orders = reached(place, it, tokens, sealed) if it.pools else []
        given = [(pool, cut(pool, orders)) for pool in it.pools]
        rest = [(begin + used, count - used) for (begin, count), used in given if used < count]
        issuers = it.issuers if args.keep_issuers else [f"{name}{args.suffix}" for name in it.issuers]
        its = replace(it, pools=[(begin, used) for (begin, _), used in given if used])
        spent.customers[it.name] = replace(its, issuers=[] if args.keep_issuers else it.issuers)
        name = f"{it.name}{args.suffix}"
        following.customers[name] = SiteCustomer(name, issuers, rest, {f"{seat}{args.suffix}": "" for seat in it.seats})
    sealed.close()
    return spent, following


def made_seat(args: argparse.Namespace, place: Place, name: str, customer: str) -> TokenSeat:
    """A seat of the tokens' file, which station-token makes where it isn't there."""
    more = [] if name.startswith("@") else ["--customer", customer]
    done = place.ran(*place.token_words(), "--no-reload", "seat", name, *more, "--server", args.server)
    if done.returncode:
        raise TokenError(1, done.stderr.strip())
    return known_seats(place).seats[name]


def next_text(args: argparse.Namespace, place: Place, first: Site, following: Site, is_trial: bool) -> str:
    """The next site's text. For a trial no token is made, and digests stand in that none has."""
    for customer in following.customers.values():
        for name in customer.seats:
            inner = f"no token of {name}" if is_trial else made_seat(args, place, name, customer.name).inner
            customer.seats[name] = digest_of(inner)
    manager = f"@manager{args.suffix}"
    if not first.manager:
        return joined([following])
    seat = TokenSeat(manager, manager, "no token") if is_trial else made_seat(args, place, manager, manager)
    return joined([following]) + lines_of(seat)


def give(args: argparse.Namespace, place: Place, following: Site) -> None:
    """An outer token, or the certificate of before, for each seat whose predecessor had one, and that has none yet."""
    outers = known_seats(place).outers
    own, before = {it.seat for it in outers}, {it.seat: it for it in outers if not it.looks and it.seat != HEALTH}
    for seat, customer in following.seats().items():
        old = before.get(seat.removesuffix(args.suffix))
        if not old:
            continue
        wish = SeatWish(seat, customer.name, str(Path(args.to).absolute() / f"{seat}.token"), old.holder)
        if seat not in own and old.subject:
            token_run(place, wish, "add", seat, "--certificate", old.subject, "--holder", old.holder)
        elif seat not in own:
            outer_token(place, wish)
        where = f"its certificate {old.subject} stays" if old.subject else wish.to
        say(f"{old.seat} is followed by {seat} of {customer.name}: {where}")
    done = place.ran(*place.token_words(), "write")  # a run that was cut may not have told nginx
    if done.returncode:
        raise TokenError(5, f"nginx doesn't know the new tokens: {done.stderr.strip()}")


def marked(new: Path, spent: Path) -> str:
    """The line by which what a first gave says who follows, where it does already; an error where that is another."""
    line = f"# {new} follows\n"
    there = text_in(spent).partition("\n")[0] if spent.exists() else ""
    if there.startswith("# ") and f"{there}\n" != line:
        raise TokenError(1, f"{there[2:]} already, and has the rest: one site alone gets it")
    return line if there.startswith("# ") else ""


def spent_of(place: Place) -> Path:
    """Where what a first gave is written."""
    return place.site.with_name(f"{place.site.stem}.spent.toml")


def is_kept(place: Place, new: Path, text: str) -> bool:
    """Whether a file has a text, or what that grew to since, and so stays as it is: a program may have it open. Any
    other file, and one of another user, is an error."""
    if not os.path.lexists(new):
        return False
    there = text_in(own_file(str(new)))
    if there != text and place.refusal("check-site", there, text):
        raise TokenError(1, f"{new} is there already, with another text, and stays as it is: name another file")
    return True


def successor(args: argparse.Namespace, place: Place) -> None:
    new, spent = Path(args.new).absolute(), spent_of(place)
    with alone(place.plan, args.patience):
        if not place.closed.exists():
            raise TokenError(1, f"{place.site} isn't closed, so its orders may reach more addresses: close it first")
        for folder in (new.parent, Path(args.to).absolute()):
            check_folder(folder)
        first = read_site(text_in(place.site), str(place.site))
        gone, following = sites_of(args, place, first)
        put(spent, marked(new, spent) + joined([gone]))
        for is_trial in (True, False):
            text = next_text(args, place, first, following, is_trial)
            tested_site(place, text, str(new))
            tested_others(place, text, [str(spent), *args.other_site])
        is_there = is_kept(place, new, text)
        put(spent, f"# {new} follows\n{joined([gone])}")
        if not is_there:
            replace_file(new, text, like=os.stat(place.site))
        for line in gains(Site(), following):
            say(line)
        give(args, place, following)
        tell_steps(args, place, list(zip(first.customers.values(), following.customers.values())))


def tell_steps(args: argparse.Namespace, place: Place, pairs: list[tuple[SiteCustomer, SiteCustomer]]) -> None:
    """What a person does next: the commands, by the closed site's places and with the names of both."""
    new, spent = Path(args.new).absolute(), spent_of(place)
    issuers = ", ".join(f"{b} beside {a}" for one, two in pairs for a, b in zip(one.issuers, two.issuers) if a != b)
    unit = place.args.start.rpartition(" ")[2].removesuffix(".service")
    places = {"db": place.db.parent, "file": place.db.name, "backups": place.backups, "old": place.site, "new": new}
    ports = {"port": place.args.port, "server": args.server.rpartition(":")[2]}
    units = UNITS.format(**places, **ports, unit=unit, more=args.suffix)
    same = " ".join(f"--same {two.name}={one.name}" for one, two in pairs)
    say(STEPS.format(new=new, server=args.server, spent=spent, old=place.site, issuers=issuers or "none", units=units,
                     same=same))  # fmt: skip
    if args.keep_issuers:
        say(KEPT)
