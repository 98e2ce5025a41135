"""The outer tokens of stations and people, which nginx takes in the place of their seats' own: makes, ends, lists them.

    station-token seat SEAT --customer C           a new seat: makes its inner token, prints its lines of the site file
    station-token seat SEAT --known FILE           one that the site file has: takes its token over from FILE
    station-token add SEAT                         an outer token for all that the seat may; it is printed once
    station-token add SEAT --look                  one that may only look
    station-token add SEAT --until 2026-12-24      one that ends with that day
    station-token add SEAT --certificate 'CN=pc7'  a certificate's subject in the place of a token
    station-token revoke NAME                      ends one (`a1:2`), or all of a seat (`a1`), now
    station-token rotate NAME                      another one in its place; the old one ends now, or after `--grace 8h`
    station-token list                             who has which; `--all` with those that have ended
    station-token inner SEAT --to FILE             the seat's own token into a file, for a restore on this machine
    station-token check                            whether the site file has the seats of the tokens' file, and the
                                                   other way
    station-token write                            the file anew, of its own records, as after an upgrade

SEAT is the name of a seat of the site file, or @manager; managers of several sites have other names with an @. An inner
token never leaves this machine, and is 401 from outside. Each change writes the file anew, has nginx test it (`nginx
-t`), and has nginx read it (`nginx -s reload`). Where the test fails the file of before is back. An outer token is
printed, or written to a new file with `--to`. `seat` changes no site file but one that is named with `--into`; the
server is started again for it (docs/operate/tokens-and-sites.md). As root, with Python 3.11.

Statuses: 0 done; 1 refused, and nothing was changed; 2 the words are wrong; 3 another run has the lock; 4 nginx refuses
its configuration, and nothing was changed; 5 the file is changed, and nginx may go on as before; 6 the file is changed,
and the other one of two machines doesn't know it (docs/operate/second-machine.md); 7 the file is changed, and the site
file isn't, or nobody was told. `revoke` of what has ended has nginx read the file once more.
"""

import argparse
import datetime
import os
import re
import secrets
import shlex
import sys
import time
from dataclasses import dataclass, replace
from pathlib import Path
from typing import Optional

from wanekupo.common.printing import table_lines
from wanekupo.common.process import end_tool, run_command
from wanekupo.standby import living
from wanekupo.standby.half import SETTINGS, Half, StandbyError, read_settings
from wanekupo.common.token_file import (
    HEALTH, HOLDER, LAST, MANAGER, MINUTE, NAME, PREFIX, SERVER, SUBJECT, Outer, TokenError, Tokens, TokenSeat, alone,
    check_folder, inner_of, is_past, mark_of, current_minute, own_file, put, read, tokens_text, tokens_of,
)  # fmt: skip
from wanekupo.common.store_user import read_small, signals_waiting
from wanekupo.common.site_file import digest_of, read_site_file
from wanekupo.common.files import make_file, replace_file
from wanekupo.plant.site.growth import lines_of, with_seat
from wanekupo.plant.site.plan import closed_seats

NAMED = "station-token"

FILE, SITE, PID = "/etc/station/tokens.conf", "/etc/station/site.toml", "/run/nginx.pid"
# How long nginx may take to start its workers anew, in seconds.
TAKEN = 30.0

SPANS = {"m": "minutes", "h": "hours", "d": "days"}


@dataclass
class Outcome:
    """What a command came to: what it prints, what it tells, a secret, and another text of a site file."""

    shown: str = ""
    told: str = ""
    secret: str = ""
    site: str = ""
    is_change: bool = True


def of_form(form: str, text: str, what: str) -> str:
    if not re.fullmatch(form, text):
        raise TokenError(1, f"{text!r} is no {what}")
    return text


def minute_of(day: str) -> str:
    """The last minute of a day that isn't past."""
    until = of_form(r"\d{4}-\d\d-\d\d", day, "day, as 2026-12-24") + LAST
    try:
        datetime.date.fromisoformat(day)
    except ValueError:
        raise TokenError(1, f"there is no day {day}") from None
    if until < current_minute():
        raise TokenError(1, f"{day} is past")
    return until


def minute_after(grace: str) -> str:
    """The minute in which a span ends, or nothing where it is none."""
    found = re.fullmatch(r"(\d{1,4})([mhd])", grace)
    if not found:
        raise TokenError(1, f"{grace!r} is no span, as 30m, 8h or 2d")
    span = datetime.timedelta(**{SPANS[found[2]]: int(found[1])})
    return (datetime.datetime.now() + span).strftime(MINUTE) if span else ""


# ---- nginx


def test_nginx(command: str) -> tuple[bool, str]:
    """Whether a command did it, and what it said."""
    try:
        done = run_command(shlex.split(command))
    except FileNotFoundError as error:
        return False, f"there is no {error.filename}: install it, or say --no-reload where another proxy reads the file"
    except (OSError, ValueError) as error:
        return False, str(error)
    lines = [line for line in done.stderr.splitlines() if "[warn]" not in line]  # as of http2, which 1.26 deprecates
    return done.returncode == 0, "\n".join(lines).strip()


def workers(pid_file: str) -> set[str]:
    """The processes of the nginx of a file that take connections. Anybody names a process of his by any bytes."""
    found: set[str] = set()
    try:
        master = Path(pid_file).read_text(encoding="ascii").strip()
    except OSError:
        return found
    for path in Path("/proc").glob("[0-9]*/cmdline"):
        try:
            title, status = path.read_bytes().rstrip(b"\0 "), path.with_name("status").read_text(errors="replace")
        except OSError:
            continue
        if title == b"nginx: worker process" and f"\nPPid:\t{master}\n" in status:
            found.add(path.parent.name)
    return found


def reload_nginx(command: str, pid_file: str) -> str:
    """Has nginx read its configuration; what is wrong, or nothing. It may say yes and refuse it only then, as where a
    zone has another key than before: whether it took it is seen by a worker that wasn't there."""
    before = workers(pid_file)
    is_fine, said = test_nginx(command)
    end = time.monotonic() + TAKEN
    while is_fine and not workers(pid_file) - before:
        if time.monotonic() > end:
            return (
                f"it was told, and started no worker in {TAKEN:.0f} seconds. Its error log has why. Where it has "
                "nothing, look whether new workers are there by now (`ps -C nginx`): a slow machine has them later. "
                "Else `systemctl restart nginx` mends it"
            )
        time.sleep(0.05)
    return "" if is_fine else said or command


def commit(args: argparse.Namespace, tokens: Tokens, before: Optional[str]) -> Optional[TokenError]:
    """The file anew, tested and read by nginx; where nginx didn't read it, for whatever reason, the error is for the
    end. Where the test fails the file of before is back."""
    path = Path(args.file)
    put(path, tokens_text(tokens))
    if args.no_reload:
        return None
    try:
        is_fine, said = test_nginx(args.test)
        if not is_fine:
            put(path, before)
            raise TokenError(4, f"nginx refuses its configuration, so nothing was changed:\n{said}")
        wrong = reload_nginx(args.reload, args.pid)
    except (OSError, ValueError) as error:
        wrong = f"{error}. Mend that, and type `{NAMED} write`"
    return TokenError(5, f"{path} is changed, and nginx may go on as before:\n{wrong}") if wrong else None


def put_site(args: argparse.Namespace, done: Outcome) -> Optional[TokenError]:
    """A site file's new text, where a command has one."""
    try:
        if done.site:
            replace_file(args.into, done.site, like=args.into.stat())
        return None
    except OSError as error:
        told = f"`{NAMED} seat {args.seat}` prints the lines that it lacks"
        return TokenError(7, f"{args.file} is changed, and {args.into} isn't: {error}. {told}")


def print_outcome(args: argparse.Namespace, done: Outcome, text: str) -> list[TokenError]:
    """Prints what a command came to."""
    try:
        print(text, end="", flush=True)
        if done.told:
            print(done.told, file=sys.stderr)
        return []
    except OSError as error:
        if not done.is_change:
            raise
        return [TokenError(7, f"{args.file} is changed, and what it came to wasn't printed: {error}")]


def left_to_the_other(path: Path, tokens: Tokens) -> Optional[TokenError]:
    """On one of two machines: the list on the store's volume by which `takeover` on the other knows these tokens."""
    try:
        half = Half(read_settings())
        if not SETTINGS.exists() or Path(half.settings.tokens) != path.absolute():
            return None
        if half.is_mounted():
            living.leave(half, tokens)
        else:
            print("the store isn't mounted here: where the other machine has it, do the same there", file=sys.stderr)
        return None
    except (StandbyError, OSError) as error:
        return TokenError(6, f"{path} is changed, and the other machine doesn't know it. {error}")


# ---- commands


def digests_of(path: str) -> dict[str, tuple[str, str]]:
    """The digest of each seat of a site file with its customer, and of the manager, by name."""
    site = read_site_file(path)
    found = {seat: (it.name, it.seats[seat]) for seat, it in site.seats().items()}
    return found | ({MANAGER: (MANAGER, site.manager)} if site.manager else {})


def is_in(digests: dict[str, tuple[str, str]], seat: TokenSeat) -> bool:
    """Whether a site has a seat with its token; a manager's name isn't in the site."""
    customer, digest = digests.get(MANAGER if seat.is_manager() else seat.seat, ("", ""))
    return digest == digest_of(seat.inner) and (seat.is_manager() or customer == seat.customer)


def taken_over(args: argparse.Namespace, name: str, server: str) -> TokenSeat:
    """A seat that the site file has, with its token out of a file."""
    digests = digests_of(args.site)
    customer = name if name.startswith("@") else digests.get(name, ("", ""))[0]
    made = TokenSeat(name, customer, inner_of(args.known), server)
    if not is_in(digests, made):
        raise TokenError(1, f"{args.site} has no seat {name} with the token of {args.known}")
    return made


def seat(args: argparse.Namespace, tokens: Tokens) -> Outcome:
    name = of_form(f"@?{NAME}", args.seat, "name of a seat")
    server = of_form(SERVER, args.server or "station", "server")
    there = tokens.seats.get(name)
    if there and args.customer and args.customer != there.customer:
        raise TokenError(1, f"the seat {name} is {there.customer}'s, and not {args.customer}'s: take another name")
    if there and (args.known or args.into):
        raise TokenError(1, f"the seat {name} is there already")
    if there and args.server:
        tokens.seats[name] = replace(there, server=server)
        return Outcome(told=f"the seat {name} is asked for at {server}")
    if there:
        return Outcome(lines_of(there), f"the seat {name} is there already, with these lines", is_change=False)
    if args.known:
        tokens.seats[name] = made = taken_over(args, name, server)
        return Outcome(told=f"{made.title()}: its token is taken over; from outside it is 401")
    customer = name if name.startswith("@") else of_form(NAME, args.customer or "", "customer: --customer")
    tokens.seats[name] = made = TokenSeat(name, customer, secrets.token_hex(32), server)
    if args.into:
        if not os.access(args.into, os.W_OK):
            raise TokenError(1, f"{args.into} can't be written")
        args.into = own_file(args.into)
        text = with_seat(read_small(args.into).decode(), made, str(args.into))
        return Outcome(told=f"{made.title()} is in {args.into}", site=text)
    return Outcome(lines_of(made), f"{made.title()}: these lines are for the site file")


def new_one(tokens: Tokens, like: Outer) -> Outer:
    """An outer token as another one, with a text, a number and a name of its own."""
    text = "" if like.subject else PREFIX + secrets.token_hex(32)
    made = replace(
        like,
        token=f"{like.seat}:{tokens.seats[like.seat].given + 1}",
        number=max([it.number for it in tokens.outers], default=0) + 1,
        text=text,
        mark=mark_of(text or like.subject),
        since=current_minute(),
        ended="",
    )
    tokens.add(made)
    return made


def outer_sentence(made: Outer) -> str:
    what = "looks, and no more" if made.looks else "may all that its seat may"
    end = f", until {shown_until(made.until)}" if made.until else ""
    return f"{made.token} {what}{end}: {made.subject or made.mark}"


def add_outer(args: argparse.Namespace, tokens: Tokens) -> Outcome:
    if args.seat not in tokens.seats:
        raise TokenError(1, f"there is no seat {args.seat}: make it with `{NAMED} seat`")
    if not args.look and (at := closed_seats(Path(args.file).parent).get(args.seat)):
        raise TokenError(1, f"the site of {args.seat} was closed at {at}: its tokens only look (--look)")
    subject = of_form(SUBJECT, args.certificate, "subject of a certificate") if args.certificate else ""
    if subject and any(it.subject == subject for it in tokens.open_ones()):
        raise TokenError(1, f"the certificate {subject} has a seat already")
    until = minute_of(args.until) if args.until else ""
    holder = of_form(HOLDER, args.holder, "text of at most 80 letters")
    like = Outer("", 0, args.seat, args.look, "", "", subject=subject, until=until, holder=holder)
    made = new_one(tokens, like)
    return Outcome(told=outer_sentence(made), secret=made.text)


def of_name(outers: list[Outer], name: str) -> list[Outer]:
    return [it for it in outers if name in (it.token, it.seat)]


def outers_named(tokens: Tokens, name: str) -> list[Outer]:
    """The outer token of a name, or all of a seat."""
    found = of_name(tokens.open_ones(), name)
    if not found:
        raise TokenError(1, f"there is no outer token {name}, or it has ended")
    return found


def end_outers(tokens: Tokens, outer: Outer) -> None:
    tokens.change(outer, text="", ended=current_minute())


def revoke(args: argparse.Namespace, tokens: Tokens) -> Outcome:
    """Ends them. Of one that has ended nginx may not know it yet: then it is told once more."""
    if of_name(tokens.outers, args.name) and not of_name(tokens.open_ones(), args.name):
        return Outcome(told=f"{args.name} had ended before")
    found = outers_named(tokens, args.name)
    for outer in found:
        end_outers(tokens, outer)
    return Outcome(told="".join(f"{it.token} has ended: {it.subject or it.mark}\n" for it in found).rstrip())


def end_past(tokens: Tokens) -> None:
    """Ends those whose time is past for good: a clock that is set back gives none of them back."""
    for outer in tokens.open_ones():
        if is_past(outer.until):
            tokens.change(outer, text="", ended=outer.until)


def rotate(args: argparse.Namespace, tokens: Tokens) -> Outcome:
    found = [it for it in outers_named(tokens, args.name) if not it.until or it.until.endswith(LAST)]
    if not found:
        raise TokenError(1, f"{args.name} was rotated already, and ends by itself")
    if len(found) > 1:
        raise TokenError(1, f"{args.name} has {len(found)} outer tokens; which? {', '.join(it.token for it in found)}")
    (old,) = found
    if old.subject:
        raise TokenError(1, f"{old.token} is a certificate's: have its CA make another one")
    until = minute_after(args.grace)
    made = new_one(tokens, old)
    if until:
        tokens.change(old, until=min(until, old.until or until))
    else:
        end_outers(tokens, old)
    told = f"{outer_sentence(made)}\n{old.token} {'ends ' + until if until else 'has ended'}"
    return Outcome(told=told, secret=made.text)


def shown_until(until: str) -> str:
    return until.removesuffix(LAST) or "-"


def listed_rows(tokens: Tokens, is_all: bool) -> list[list[str]]:
    rows = [["name", "seat", "may", "until", "since", "known by", "holder"]]
    for it in tokens.outers:
        if it.ended and not is_all:
            continue
        end_of_it = f"ended {it.ended}" if it.ended else shown_until(it.until) + (" past" if is_past(it.until) else "")
        rows.append(
            [it.token, it.seat, "look" if it.looks else "all", end_of_it, it.since, it.subject or it.mark, it.holder]
        )
    return rows


def show(args: argparse.Namespace, tokens: Tokens) -> Outcome:
    rows = listed_rows(tokens, args.all)
    widths = [max(len(row[place]) for row in rows) for place in range(len(rows[0]))]
    lines = ["  ".join(cell.ljust(width) for cell, width in zip(row, widths)).rstrip() for row in rows]
    asking = {it.seat for it in tokens.open_ones()} | {HEALTH}
    without = [name for name in tokens.seats if name not in asking]
    told = f"without an outer token: {', '.join(without)}" if without else ""
    shown = table_lines(rows[0], rows[1:], True) if args.json else "\n".join([*lines, ""])
    return Outcome(shown, told, is_change=False)


def inner(args: argparse.Namespace, tokens: Tokens) -> Outcome:
    if args.seat not in tokens.seats:
        raise TokenError(1, f"there is no seat {args.seat}")
    told = f"{args.to} has the seat's own token: remove it where it was needed"
    return Outcome(told=told, secret=tokens.seats[args.seat].inner, is_change=False)


def check_file(args: argparse.Namespace, tokens: Tokens) -> Outcome:
    digests = digests_of(args.site)
    lines = [f"{it.title()}: {args.site} has it not, or with another token"
             for it in tokens.seats.values() if not is_in(digests, it)]  # fmt: skip
    held = {digest_of(it.inner) for it in tokens.seats.values()}
    lines += [
        f"the seat {name} of {args.site}: nobody can ask with it" for name in digests if digests[name][1] not in held
    ]
    if lines:
        raise TokenError(1, "\n".join(lines))
    return Outcome(told=f"{len(digests)} seats, as in {args.site}", is_change=False)


def write_file(args: argparse.Namespace, tokens: Tokens) -> Outcome:
    return Outcome(told=f"{args.file} is written anew")


COMMANDS = {
    "seat": seat, "add": add_outer, "revoke": revoke, "rotate": rotate, "list": show, "inner": inner,
    "check": check_file, "write": write_file,
}  # fmt: skip


def run_token(args: argparse.Namespace) -> None:
    path = Path(args.file)
    with alone(path, args.wait):
        before = read(path)
        tokens = tokens_of(before, path, args.command == "write") if before is not None else Tokens()
        done = COMMANDS[args.command](args, tokens)
        if done.is_change:
            end_past(tokens)
        late, to = None, Path(args.to) if getattr(args, "to", None) and done.secret else None
        if to:
            check_folder(to.parent)
            make_file(to, done.secret + "\n")
        with signals_waiting():  # where a run ended in between a token would go on, though its file says no
            try:
                late = commit(args, tokens, before) if done.is_change else None
            except BaseException:
                if to:
                    to.unlink()
                raise
            missed = left_to_the_other(path, tokens) if done.is_change else None
        wrong = [it for it in (late, put_site(args, done), missed) if it]
    wrong += print_outcome(args, done, done.shown + (f"{done.secret}\n" if done.secret and not to else ""))
    if wrong:
        raise TokenError(wrong[0].status, "\n".join(map(str, wrong)))


def token_parser() -> argparse.ArgumentParser:
    made = argparse.ArgumentParser(
        prog=NAMED, description=__doc__, formatter_class=argparse.RawDescriptionHelpFormatter
    )
    made.add_argument("--file", default=FILE, help=f"the tokens' file ({FILE})")
    made.add_argument("--test", default="nginx -t -q", metavar="COMMAND", help="what tests nginx's configuration")
    made.add_argument("--reload", default="nginx -s reload", metavar="COMMAND", help="what has nginx read it")
    made.add_argument("--pid", default=PID, metavar="FILE", help=f"nginx's file of its process ({PID})")
    made.add_argument("--no-reload", action="store_true", help="neither of them")
    made.add_argument(
        "--wait", type=float, default=30, metavar="SECONDS", help="how long another run is waited for (30)"
    )
    commands = made.add_subparsers(dest="command", required=True)
    under = {name: commands.add_parser(name) for name in COMMANDS}
    for name, what in [("seat", "seat"), ("add", "seat"), ("inner", "seat"), ("revoke", "name"), ("rotate", "name")]:
        under[name].add_argument(what)
    under["seat"].add_argument("--customer", help="whose seat it is")
    under["seat"].add_argument("--known", metavar="FILE", help="a file with the seat's token of before")
    under["seat"].add_argument("--server", help="its server, as 127.0.0.1:881; without it nginx's upstream `station`")
    under["seat"].add_argument("--into", metavar="FILE", help="a copy of the site file, which gets the seat's lines")
    for name in ("seat", "check"):
        under[name].add_argument("--site", default=SITE, help=f"the site file ({SITE})")
    under["add"].add_argument("--look", action="store_true", help="GET and HEAD alone")
    under["add"].add_argument("--until", metavar="DAY", help="the last day, by this machine's clock and time zone")
    under["add"].add_argument("--certificate", metavar="SUBJECT", help="as $ssl_client_s_dn has it (RFC 2253)")
    under["add"].add_argument("--holder", default="", metavar="TEXT", help="who gets it, for the list")
    under["rotate"].add_argument("--grace", default="0m", help="how long the old one goes on: 30m, 8h, 2d")
    for name in ("add", "rotate"):
        under[name].add_argument("--to", metavar="FILE", help="a new file for the outer token, in place of the output")
    under["inner"].add_argument("--to", metavar="FILE", required=True, help="a new file for the seat's own token")
    under["list"].add_argument("--all", action="store_true", help="those that have ended too")
    under["list"].add_argument("--json", action="store_true", help="a line of JSON each, in place of a table")
    return made


def main() -> int:
    args = token_parser().parse_args()
    return end_tool(NAMED, lambda: run_token(args))
