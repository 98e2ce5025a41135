"""Takes the store over on this machine, or says why this half isn't fit for it, and then changes nothing.

    takeover                                     behind `stepdown` on the other machine
    takeover --other-is-off NAME                 where the other machine is dead: NAME is its name
    takeover --other-is-off NAME --witness F     the same, with what the stations say now
    takeover --ended-tokens-may-ask ..           where this machine's tokens aren't the other one's, and shall be taken
    takeover --look --witness F                  only prints what this half has, and whether it is an older one

It looks at what DRBD says, has the other machine switched off by the plant's own command, or takes your word for it,
and reads this half in a snapshot that is thrown away. A witness (`wanekupo witness`, or the commands of standby.toml)
has the highest number of each seat to which a station has a reply: a half that is behind it is an older one, and is
refused. A witness is made once the other machine is off: without one the first `takeover` asks for it. Only then this
machine becomes the primary one, mounts the volume, starts the server and takes the address. There is no option that
overrules it: who has to go on with an older half restores it (docs/operate/second-machine.md). Begun again it goes on.
"""

import argparse
from collections.abc import Sequence
from datetime import datetime

from wanekupo.common.errors import PAGES
from wanekupo.standby import living, look, needs, witness
from wanekupo.standby.half import (
    FROZEN, SERVER_SECONDS, Half, StandbyError, DrbdState, alone_since, done, end_script, fenced_by_command,
    forget_alone, give_word, read_settings, take_word, print_told,
)  # fmt: skip

# Why a half with this state isn't fit.
UNFIT = {
    "Inconsistent": "it is half of an older state and half of a newer one, as the other one was being copied to it",
    "Outdated": "it knows that the other half is newer",
    "Diskless": "its disk failed, or isn't there",
    "Failed": "its disk failed",
}
ELSE = "Switch the other machine on again, and wait until both are UpToDate. Where it is lost, restore the store."
SPLIT = (
    "DRBD has stopped to look for the other machine: type `drbdadm connect station` on both. Where it stops again both "
    "halves were written. Nothing is thrown away. How to see which one is the newer one is in "
    f"{PAGES}/operate/second-machine.md, 'Where both were written'."
)


def tested_state(state: DrbdState) -> None:
    """Refuses a half of which DRBD knows that it is unfit, and one that is in use."""
    if state.other_role == "Primary":
        raise StandbyError(f"The other machine has the store ({state}): type `stepdown` there.")
    # A half that came up alone is `Consistent`: whether it is the newer one the witness says, as of one that lost the
    # other machine while it was on.
    if state.disk not in (("UpToDate",) if state.is_connected() else ("UpToDate", "Consistent")):
        told = UNFIT.get(state.disk, "DRBD doesn't say that it is whole")
        raise StandbyError(f"This half is {state.disk}: {told} ({state}). {ELSE}")
    if state.connection == "StandAlone":
        raise StandbyError(f"{SPLIT} ({state})")


def shut_out(half: Half, named: str | None) -> None:
    """Makes certain that the other machine is off, by the plant's command or by a person's word."""
    other = half.other_name()
    if named and named != other:
        raise StandbyError(f"The other machine of this one is {other}, and not {named}.")
    if fenced_by_command(half.settings):
        print_told(f"{other} was switched off by the plant's command")
    elif named:
        print_told(f"{other} is off, by your word")
    else:
        told = f"See that {other} has no power, and that it stays so. Then type `takeover --other-is-off {other}` again"
        state = half.state()
        raise StandbyError(f"The two aren't connected ({state}), and nobody knows whether {other} is off. {told}.")


def tested_contents(half: Half, args: argparse.Namespace, since: datetime | None) -> None:
    """Refuses a half that is behind its witness, and tokens that the other machine didn't let in. Where both halves are
    one, it may go without a witness."""
    if not args.witness and not half.settings.witnesses:
        if since:
            told = "Gather `wanekupo witness` of all stations now, and type the same again with --witness FILE."
            raise StandbyError(f"There is no witness. {told}")
        print_told("no witness was named: both halves are connected")
    contents = compared(half, args, since)
    living.test_tokens(half, contents.tokens, args.ended_tokens_may_ask)


def compared(half: Half, args: argparse.Namespace, since: datetime | None) -> look.Contents:
    """Prints the numbers of this half, and refuses it where it is behind its witness."""
    witnessed = witness.highest_numbers(args.witness, half.settings.witnesses, since)
    contents = look.contents(half)
    for seat, number in contents.numbers.items():
        print_told(f"seat {seat} {number}")
    if args.witness or half.settings.witnesses:
        witness.compare_numbers(contents.numbers, witnessed)
    return contents


def looked(args: argparse.Namespace) -> int:
    """Prints what this half has, and changes nothing."""
    half = Half(read_settings())
    state = half.state()
    print_told(f"DRBD says: {state}")
    if "Primary" in (state.role, state.other_role):
        raise StandbyError(f"A server may be writing this half ({state}): type `stepdown --alone` where the store is.")
    compared(half, args, None)
    is_held = args.witness or half.settings.witnesses
    print_told("This half isn't behind its witness." if is_held else "No witness was named.")
    return 0


def promote(half: Half, before: DrbdState) -> None:
    """Makes this machine the primary one. Where it is alone DRBD asks its handler then, which finds the word."""
    state, is_alone = half.state(), not before.is_connected()
    if (state.is_connected(), state.disk, state.other_role) != (not is_alone, before.disk, before.other_role):
        raise StandbyError(f"DRBD said {before}, and says {state} now. Type the same again.")
    try:
        if is_alone:
            give_word()
        done(["drbdadm", "primary", half.resource])
    finally:
        take_word()


def serve_here(half: Half) -> int:
    """Mounts, starts the server and takes the address, as far as that isn't done."""
    if not half.is_mounted():
        half.mount()
    half.command("start", SERVER_SECONDS)
    half.command("take_address")
    print_told(f"taken over: {half.state()}")
    living.leave(half, living.here(half))
    return 0


def take_over(args: argparse.Namespace) -> int:
    half = Half(read_settings())
    state = half.state()
    print_told(f"DRBD says: {state}")
    tested_state(state)
    is_alone = not state.is_connected()
    if not is_alone:
        forget_alone()
    if state.is_frozen:
        raise StandbyError(f"This machine's writes are frozen ({state}). {FROZEN}")
    if state.role == "Primary":
        return serve_here(half)
    needs.test_resource(half)
    if is_alone:
        shut_out(half, args.other_is_off)
    tested_contents(half, args, alone_since(half.received()) if is_alone else None)
    promote(half, state)
    forget_alone()
    return serve_here(half)


def main(words: Sequence[str]) -> int:
    parser = argparse.ArgumentParser(
        prog="takeover", description=__doc__, formatter_class=argparse.RawDescriptionHelpFormatter
    )
    parser.add_argument("--other-is-off", metavar="NAME", help="your word that the machine of this name has no power")
    said = "a witness, as pc7=FILE; - is standard input"
    parser.add_argument("--witness", metavar="FILE", action="append", default=[], help=said)
    parser.add_argument("--ended-tokens-may-ask", action="store_true", help="your word for this machine's tokens")
    parser.add_argument("--look", action="store_true", help="change nothing, and only print what this half has")
    args = parser.parse_args(words)
    return end_script("takeover", lambda: looked(args) if args.look else take_over(args), alone=True)


def look_alone(words: Sequence[str]) -> int:
    """The command `look`: what this half has, and nothing is changed."""
    return main(["--look", *words])
