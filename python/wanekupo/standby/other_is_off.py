"""Says that the other machine is off, so that this one goes on alone.

    other-is-off NAME      NAME is the other machine's, as `uname -n` prints it there

Type it where the cable between the two is dead, this machine has the store, and its writes are frozen. **The other
machine must have no power, and must stay so until the cable is whole.** Nothing here can look whether that is so. What
this machine writes from then on, it has alone.
"""

import argparse
import shlex
import time
from collections.abc import Sequence

from wanekupo.standby.half import (
    Half, StandbyError, done, end_script, give_word, read_settings, run_bounded, take_word, print_told, waited_for,
)  # fmt: skip


# How long DRBD's handler may take to hear it, if it waits.
HANDLER = 60


def give_operators_word(name: str) -> int:
    half = Half(read_settings())
    other, state = half.other_name(), half.state()
    if name != other:
        raise StandbyError(f"The other machine of this one is {other}, and not {name}.")
    if state.is_connected():
        raise StandbyError(f"{other} is on: the two are connected ({state}).")
    if state.role != "Primary":
        told = f"To have it here type `takeover --other-is-off {other}`."
        raise StandbyError(f"This machine hasn't the store ({state}). {told}")
    if not state.is_frozen:
        raise StandbyError(f"This machine's writes aren't frozen ({state}): there is nothing to say.")
    try:
        give_word()
        is_heard = waited_for(lambda: not half.state().is_frozen, HANDLER)
    finally:
        take_word()
    if half.state().is_connected():
        raise StandbyError(f"The two are connected again ({half.state()}), so {other} is on. Nothing was said.")
    if not is_heard:
        # DRBD has ended its handler, as nobody said anything for ten minutes.
        done(["drbdadm", "resume-io", half.resource])
        # The process that waited behind it brings the address back too: at the same moment one of the two may fail.
        if run_bounded(shlex.split(half.settings.take_address)).returncode:
            time.sleep(5)
            half.command("take_address")
    print_told(f"This machine goes on alone, and {other} has an older half from now on: {half.state()}")
    return 0


def main(words: Sequence[str]) -> int:
    parser = argparse.ArgumentParser(
        prog="other-is-off", description=__doc__, formatter_class=argparse.RawDescriptionHelpFormatter
    )
    parser.add_argument("name", metavar="NAME", help="the other machine's name")
    args = parser.parse_args(words)
    return end_script("other-is-off", lambda: give_operators_word(args.name))
