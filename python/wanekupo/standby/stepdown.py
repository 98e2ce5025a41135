"""Hands the store over: the address goes, the server stops, and the volume is unmounted.

    stepdown              where the other half is up to date: then type `takeover` on the other machine
    stepdown --alone      also where it isn't, as before this machine is switched off

It stops at what it can't do, and says which step that was; begun again it goes on.
"""

import argparse
from collections.abc import Sequence

from wanekupo.standby.half import (
    FROZEN, SERVER_SECONDS, Half, StandbyError, done, end_script, read_settings, print_told,
)  # fmt: skip


def step_down(is_alone: bool) -> int:
    half = Half(read_settings())
    state = half.state()
    if state.role != "Primary":
        raise StandbyError(f"This machine hasn't the store ({state}).")
    if state.is_frozen:
        raise StandbyError(f"This machine's writes are frozen ({state}), so nothing can be stopped here. {FROZEN}")
    if not is_alone and not (state.is_connected() and state.other_disk == "UpToDate"):
        raise StandbyError(
            f"The other half isn't up to date ({state}), and `takeover` there would be refused. Wait until it is, or "
            "type `stepdown --alone`."
        )
    half.command("leave_address")
    half.command("stop", SERVER_SECONDS)
    if half.is_mounted():
        half.unmount()
    done(["drbdadm", "secondary", half.resource])
    print_told(f"stepped down: {half.state()}")
    return 0


def main(words: Sequence[str]) -> int:
    parser = argparse.ArgumentParser(
        prog="stepdown", description=__doc__, formatter_class=argparse.RawDescriptionHelpFormatter
    )
    parser.add_argument("--alone", action="store_true", help="also where the other half isn't up to date")
    args = parser.parse_args(words)
    return end_script("stepdown", lambda: step_down(args.alone), alone=True)
