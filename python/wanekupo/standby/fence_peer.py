"""Answers DRBD's question whether the other machine is off, when the cable to it is dead.

DRBD calls it as the handler `fence-peer`, while all writes of this machine are frozen, and before this machine becomes
the primary one alone. Status 7 says that the other machine is off: DRBD then marks its half as outdated, and goes on
here. Any other status leaves writes frozen. It says 7 where the plant's own command (`fence` of standby.toml) has
switched the other machine off, or where a person said so by `other-is-off`. It waits for that, and gives up where the
two are connected again. While writes are frozen the address is away, so that nobody is shown books that are older than
the other machine's may be. It comes back once they aren't.
"""

import os
import shlex
import sys
import time
from collections.abc import Sequence

from wanekupo.common.store_words import clean_words
from wanekupo.standby.half import Half, StandbyError, fenced_by_command, read_settings, run_bounded, take_word

IS_OFF, IS_UNKNOWN = 7, 1
# DRBD's own tool ends a handler behind ten minutes. `other-is-off` goes on without it then.
LONGEST = 570
# A cable that is whole again so soon switches no machine off.
GRACE = 10


def answered() -> int:
    settings = read_settings()
    half = Half(settings)
    if take_word():
        return IS_OFF
    if half.state().role != "Primary":
        # `takeover` has had the other machine switched off, and says so by the word. By hand nobody comes past it.
        return IS_UNKNOWN
    run_bounded(shlex.split(settings.leave_address))
    end = time.monotonic() + LONGEST
    answer = heard_answer(half, time.monotonic() + GRACE) if settings.fence else None
    if answer is None:
        answer = fenced_by_command(settings) or heard_answer(half, end)
    if answer is None:
        wait_on(half)
    else:
        run_bounded(shlex.split(settings.take_address))
    return IS_OFF if answer else IS_UNKNOWN


def heard_answer(half: Half, end: float) -> bool | None:
    """Whether the other machine is off: yes by a person's word, no where the two are connected again; None in time."""
    while time.monotonic() < end:
        if take_word():
            return True
        if half.state().is_connected():
            return False
        time.sleep(1)
    return None


def wait_on(half: Half) -> None:
    """Leaves a process behind that brings the address back once writes aren't frozen, however long that takes."""
    if os.fork():
        return
    os.setsid()
    nowhere = os.open(os.devnull, os.O_RDWR)
    for number in (0, 1, 2):
        os.dup2(nowhere, number)
    while half.state().is_frozen:
        time.sleep(1)
    if half.state().role == "Primary":
        run_bounded(shlex.split(half.settings.take_address))
    os._exit(0)


def main(words: Sequence[str]) -> int:
    if list(words) in (["-h"], ["--help"]):
        print(__doc__)
        return 0
    clean_words()
    try:
        return answered()
    except StandbyError as refused:
        print(f"fence-peer: {refused}", file=sys.stderr)
        return IS_UNKNOWN
